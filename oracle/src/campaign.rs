//! The campaign file: document 01, "Campaign file". A reader of its own, not the port's.

#![forbid(unsafe_code)]

use crate::call::{Call, Inputs, Record};

/// The program reads at most so many bytes of standard input.
pub const GREATEST_INPUT: u64 = 33_000;

const GREATEST_CAMPAIGN_PAGE: u64 = 16_384;

/// A file that is turned down: 8, 9 or 10, and the offset.
#[derive(Clone, Copy, Debug, PartialEq, Eq)]
pub struct Defect {
    pub number: u8,
    pub offset: usize,
}

impl Defect {
    /// The line that is printed, without its newline.
    pub fn line(&self) -> String {
        format!("{} {}", self.number, self.offset)
    }
}

struct Reader<'a> {
    bytes: &'a [u8],
    place: usize,
}

impl Reader<'_> {
    /// A number of at most ten groups of seven bits, lowest group first.
    fn number(&mut self, greatest: u64) -> Result<u64, Defect> {
        let begin = self.place;
        let defect = |number| Err(Defect { number, offset: begin });
        let mut value: u128 = 0;
        for group in 0..10 {
            let Some(&byte) = self.bytes.get(begin + group) else {
                return defect(8);
            };
            value += u128::from(byte & 0x7F) << (7 * group);
            if byte & 0x80 == 0 {
                let longer_than_needed = group > 0 && byte == 0;
                if longer_than_needed || value > u128::from(greatest) {
                    return defect(9);
                }
                self.place = begin + group + 1;
                return Ok(value as u64);
            }
        }
        // The tenth group has its top bit set.
        defect(9)
    }

    fn byte(&mut self) -> Result<u8, Defect> {
        Ok(self.number(0xFF)? as u8)
    }

    fn word(&mut self) -> Result<u16, Defect> {
        Ok(self.number(0xFFFF)? as u16)
    }

    fn record(&mut self) -> Result<Record, Defect> {
        let mut record = Record {
            a: self.byte()?,
            t: self.byte()?,
            x: self.word()?,
            y: self.word()?,
            u: self.word()?,
            s: self.word()?,
            p: self.word()?,
            tm: self.number(4095)? as u16,
            ..Record::default()
        };
        record.set_flags(self.number(511)? as u16);
        record.timer_state = self.number(u64::MAX)?;
        record.step_previous_state = self.number(u64::MAX)?;
        record.ticks = self.number(u64::MAX)?;
        Ok(record)
    }

    /// A page's length and its bytes. A page that is cut short is refused at the place where its
    /// bytes begin.
    fn page(&mut self) -> Result<Vec<u8>, Defect> {
        let length = self.number(GREATEST_CAMPAIGN_PAGE)? as usize;
        let begin = self.place;
        let Some(bytes) = self.bytes.get(begin..begin + length) else {
            return Err(Defect { number: 8, offset: begin });
        };
        self.place += length;
        Ok(bytes.to_vec())
    }
}

/// Reads a whole campaign file. It has no idle figure, no log, no read-only part and no stop address:
/// its call is given 0 and none.
pub fn read(bytes: &[u8]) -> Result<Call, Defect> {
    let mut reader = Reader { bytes, place: 0 };
    let call = Call {
        record: reader.record()?,
        inputs: Inputs::of_keyboard(reader.byte()?),
        limit: reader.number(u64::from(u32::MAX))? as u32,
        pages: [reader.page()?, reader.page()?],
        ..Call::default()
    };
    if reader.place < bytes.len() {
        return Err(Defect { number: 10, offset: reader.place });
    }
    Ok(call)
}

/// The greatest value of each number of the file, in the file's order.
pub const GREATEST: [u64; 16] = [
    0xFF,
    0xFF,
    0xFFFF,
    0xFFFF,
    0xFFFF,
    0xFFFF,
    0xFFFF,
    4095,
    511,
    u64::MAX,
    u64::MAX,
    u64::MAX,
    0xFF,
    u32::MAX as u64,
    GREATEST_CAMPAIGN_PAGE,
    GREATEST_CAMPAIGN_PAGE,
];

/// A number in its shortest form.
pub fn number(mut value: u64) -> Vec<u8> {
    let mut groups = vec![];
    while value >= 0x80 {
        groups.push(value as u8 | 0x80);
        value >>= 7;
    }
    groups.push(value as u8);
    groups
}

/// The worked input of document 01.
pub const WORKED: [u8; 22] = [
    0x00, 0x00, 0x05, 0x00, 0x00, 0x00, 0x00, 0x00, 0x08, 0x00, 0x00, 0x00, 0x00, 0x0A, 0x06, 0xB5,
    0x15, 0xF9, 0x8C, 0x31, 0x27, 0x00,
];

/// A call's file.
pub fn write(call: &Call) -> Vec<u8> {
    let numbers = numbers(call).map(number);
    let [page0, page1] = &call.pages;
    [&numbers[..14].concat(), &numbers[14], page0, &numbers[15], page1].map(Vec::as_slice).concat()
}

/// The numbers of a call's file, in the file's order; the last two are the pages' lengths.
pub fn numbers(call: &Call) -> [u64; 16] {
    let r = &call.record;
    let [a, t, keyboard] = [r.a, r.t, call.inputs.keyboard].map(u64::from);
    let [x, y, u, s, p, tm, flags] = [r.x, r.y, r.u, r.s, r.p, r.tm, r.flags()].map(u64::from);
    let (timer, previous, ticks) = (r.timer_state, r.step_previous_state, r.ticks);
    let [length0, length1] = [0, 1].map(|page: usize| call.pages[page].len() as u64);
    let limit = u64::from(call.limit);
    [a, t, x, y, u, s, p, tm, flags, timer, previous, ticks, keyboard, limit, length0, length1]
}

#[cfg(test)]
mod tests {
    use super::{read, write, Defect, WORKED};

    fn returned(bytes: &[u8]) -> (u8, usize) {
        let Defect { number, offset } = read(bytes).expect_err("the file has a defect");
        (number, offset)
    }

    /// A file that is right up to the field with this index (one byte for each field).
    fn up_to(field: usize, rest: &[u8]) -> Vec<u8> {
        [&vec![0; field], rest].concat()
    }

    const TM: usize = 7;
    const FLAGS: usize = 8;
    const TIMER: usize = 9;
    const LIMIT: usize = 13;
    const PAGE_0: usize = 14;

    #[test]
    fn the_worked_input_is_read() {
        let call = read(&WORKED).unwrap();
        assert_eq!((call.record.x, call.record.flags(), call.limit), (5, 8, 10));
        assert_eq!(call.pages, [vec![0xB5, 0x15, 0xF9, 0x8C, 0x31, 0x27], vec![]]);
        assert_eq!(write(&call), WORKED);
    }

    #[test]
    fn an_end_comes_before_everything_that_is_tested_later() {
        assert_eq!(returned(&[]), (8, 0));
        assert_eq!(returned(&[0xFF, 0xFF]), (8, 0));
        assert_eq!(returned(&[0x80]), (8, 0));
        assert_eq!(returned(&[0x80; 9]), (8, 0));
        assert_eq!(returned(&[0x05]), (8, 1));
    }

    #[test]
    fn numbers_are_tested_after_their_last_group() {
        assert_eq!(returned(&[0x80, 0x00]), (9, 0));
        assert_eq!(returned(&[0x80, 0x02]), (9, 0));
        assert_eq!(returned(&[0x80; 10]), (9, 0));
        assert_eq!(returned(&[0x00, 0xFF, 0x02]), (9, 1));
        assert_eq!(returned(&up_to(TM, &[0x80, 0x20])), (9, TM));
        assert_eq!(returned(&up_to(FLAGS, &[0x80, 0x04])), (9, FLAGS));
        assert_eq!(returned(&up_to(LIMIT, &[0x80, 0x80, 0x80, 0x80, 0x10])), (9, LIMIT));
    }

    #[test]
    fn a_64_bit_number_has_1_in_its_tenth_group() {
        let nine = [0xFF; 9];
        assert_eq!(returned(&up_to(TIMER, &[&nine[..], &[0x02]].concat())), (9, TIMER));
        assert_eq!(returned(&up_to(TIMER, &[&nine[..], &[0x7F]].concat())), (9, TIMER));
        assert_eq!(returned(&up_to(TIMER, &[&nine[..], &[0x81]].concat())), (9, TIMER));
        let rest = [0x00, 0x00, 0x00, 0x01, 0x00, 0x00];
        let call = read(&up_to(TIMER, &[&nine[..], &[0x01], &rest].concat())).unwrap();
        assert_eq!(call.record.timer_state, u64::MAX);
    }

    #[test]
    fn pages() {
        assert_eq!(returned(&up_to(PAGE_0, &[0x81, 0x80, 0x01])), (9, PAGE_0));
        assert_eq!(returned(&up_to(PAGE_0, &[0x80, 0x80, 0x01])), (8, PAGE_0 + 3));
        assert_eq!(returned(&up_to(PAGE_0, &[0x02, 0x00])), (8, PAGE_0 + 1));
        assert_eq!(returned(&up_to(PAGE_0, &[0x00])), (8, PAGE_0 + 1));
        assert_eq!(returned(&up_to(PAGE_0, &[0x00, 0x01])), (8, PAGE_0 + 2));
        assert_eq!(returned(&up_to(PAGE_0, &[0x00, 0x00, 0x00])), (10, PAGE_0 + 2));
    }

    #[test]
    fn values_that_the_call_turns_down_are_read() {
        let call = read(&up_to(TM, &[0xFF, 0x1F, 0, 0, 0, 0, 0, 0, 0, 0])).unwrap();
        assert_eq!((call.record.tm, call.limit), (4095, 0));
        let limit = [0xFF, 0xFF, 0xFF, 0xFF, 0x0F, 0x00, 0x00];
        assert_eq!(read(&up_to(LIMIT, &limit)).unwrap().limit, u32::MAX);
    }

    #[test]
    fn the_longest_file_has_32834_bytes() {
        let mut file = [[0xFF, 0x01].repeat(2), [0xFF, 0xFF, 0x03].repeat(5)].concat();
        file.extend([0xFF, 0x1F, 0xFF, 0x03]);
        file.extend([[0xFF; 9].to_vec(), vec![0x01]].concat().repeat(3));
        file.extend([0xFF, 0x01, 0xFF, 0xFF, 0xFF, 0xFF, 0x0F]);
        for _ in 0..2 {
            file.extend([0x80, 0x80, 0x01]);
            file.extend([0x38; 16_384]);
        }
        assert_eq!(file.len(), 32_834);
        assert!(read(&file).is_ok());
    }
}
