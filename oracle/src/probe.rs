//! The C entries of the port's static library `libprobe.a`. Beside `port.rs` the only file with
//! unsafe code.

#![allow(unsafe_code)]

extern "C" {
    fn probe_arithmetic(function: u8, a: u8, t: u8, operand: u8) -> u32;
    fn probe_add(t: u8, left: u8, right: u8, carry: bool, decimal: bool) -> u32;
    fn probe_adr(t: u8, reg: u16, a: u8) -> u32;
    fn probe_report(bytes: *const u8, length: usize, out: *mut u8) -> usize;
}

/// `value * 65536 + a' * 256 + t'`; the value is the byte stored for DRL and DRR, else 0.
pub fn arithmetic(function: u8, a: u8, t: u8, operand: u8) -> u32 {
    // SAFETY: the entry takes and gives plain numbers and touches nothing else.
    unsafe { probe_arithmetic(function, a, t, operand) }
}

/// `value * 256 + t'`.
pub fn add(t: u8, left: u8, right: u8, carry: bool, decimal: bool) -> u32 {
    // SAFETY: as above.
    unsafe { probe_add(t, left, right, carry, decimal) }
}

/// `value * 256 + t'`.
pub fn adr(t: u8, reg: u16, a: u8) -> u32 {
    // SAFETY: as above.
    unsafe { probe_adr(t, reg, a) }
}

/// The bytes that the entry's buffer has, and what each is before the call.
const BUFFER: usize = 200;
const FILL: u8 = 0xA5;

/// A campaign file's line with its newline, or what is wrong with the answer: bytes of the buffer
/// after the line have to stay as they were. The buffer is a block of the heap, so that valgrind
/// tells an access past its end.
pub fn report(file: &[u8]) -> Result<Vec<u8>, String> {
    let mut out = vec![FILL; BUFFER];
    // SAFETY: the file and the buffer are lent for the whole call and do not overlap, the pointers
    // are not null, the length is the file's own, and the buffer has the 200 bytes of the entry's.
    let length = unsafe { probe_report(file.as_ptr(), file.len(), out.as_mut_ptr()) };
    let after = out.get(length..).ok_or_else(|| format!("a line of {length} bytes"))?;
    if after.iter().any(|byte| *byte != FILL) {
        return Err(format!("bytes after the line of {length} bytes were changed"));
    }
    out.truncate(length);
    Ok(out)
}

#[cfg(test)]
mod tests {
    use super::report;

    /// Document 01's worked input, and every file of no or one byte.
    #[test]
    fn lines_of_files() {
        let worked = [
            0x00, 0x00, 0x05, 0x00, 0x00, 0x00, 0x00, 0x00, 0x08, 0x00, 0x00, 0x00, 0x00, 0x0A,
            0x06, 0xB5, 0x15, 0xF9, 0x8C, 0x31, 0x27, 0x00,
        ];
        let line = b"5 3 25 42 18 0005 0000 0000 0000 0004 000 008 25 0 25\n";
        assert_eq!(report(&worked).unwrap(), line);
        assert_eq!(report(&[]).unwrap(), b"8 0\n");
        for byte in 0..=0xFF {
            let line: &[u8] = if byte < 0x80 { b"8 1\n" } else { b"8 0\n" };
            assert_eq!(report(&[byte]).unwrap(), line);
        }
    }
}
