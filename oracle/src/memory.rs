//! The flat memory of two lent pages, with a log of every access.
//!
//! Document 01: page 0 is addressed 0 to FFFF, page 1 is 10000 to 1FFFF. An address past a page's
//! end reads FF; a write there is dropped but still is a write of the sequence. So is a write into
//! the read-only part of page 0 (document 02, F-4).

#![forbid(unsafe_code)]

use std::cell::RefCell;

use crate::call::{Access, Call, Log, ReadOnly};

#[derive(Default)]
pub struct Memory {
    pages: [Vec<u8>; 2],
    read_only: ReadOnly,
    /// Reads are logged through `&self`, because the original reads through `&self`.
    accesses: RefCell<Vec<Access>>,
    starts: Vec<usize>,
    /// The places of a vector's two reads: that of the first.
    vectors: Vec<usize>,
    /// The bytes that the present step has replaced: page, offset, old byte.
    replaced: Vec<(usize, usize, u8)>,
    /// Steps are not told from one another, and are not undone; nothing is read-only.
    one_way: bool,
}

/// Page and offset of an address.
fn split(address: u32) -> (usize, usize) {
    ((address >> 16) as usize, (address & 0xFFFF) as usize)
}

/// The byte that an address of these pages reads: FF past a page's end.
#[inline]
pub fn byte_at(pages: &[Vec<u8>; 2], address: u32) -> u8 {
    let (page, offset) = split(address);
    pages[page].get(offset).copied().unwrap_or(0xFF)
}

/// The byte of the code at P, and the one behind it, which is at 0000 where P is FFFF.
pub fn code_at(pages: &[Vec<u8>; 2], p: u16) -> [u8; 2] {
    [p, p.wrapping_add(1)].map(|at| byte_at(pages, at.into()))
}

impl Memory {
    /// A memory of which nothing is read-only.
    pub fn new(pages: [Vec<u8>; 2]) -> Memory {
        Memory { pages, ..Memory::default() }
    }

    /// The memory that a call is lent.
    pub fn of(call: &Call) -> Memory {
        Memory { read_only: call.read_only, ..Memory::new(call.pages.clone()) }
    }

    /// A memory that logs accesses and does nothing else: for measured runs.
    pub fn one_way(pages: [Vec<u8>; 2]) -> Memory {
        Memory { pages, one_way: true, ..Memory::default() }
    }

    #[inline]
    pub fn read(&self, address: u32) -> u8 {
        let byte = byte_at(&self.pages, address);
        self.accesses.borrow_mut().push(Access::read(address, byte));
        byte
    }

    #[inline]
    pub fn write(&mut self, address: u32, byte: u8) {
        self.note_write(address, byte);
        if self.one_way || !self.read_only.has(address) {
            self.store(address, byte);
        }
    }

    /// A write as an access of the sequence alone: what it does to a page is left to the caller.
    #[inline]
    pub fn note_write(&mut self, address: u32, byte: u8) {
        self.accesses.get_mut().push(Access::write(address, byte));
    }

    /// Stores a byte, where the address lies inside its page. This is no access.
    #[inline]
    pub fn store(&mut self, address: u32, byte: u8) {
        let (page, offset) = split(address);
        if let Some(place) = self.pages[page].get_mut(offset) {
            if !self.one_way {
                self.replaced.push((page, offset, *place));
            }
            *place = byte;
        }
    }

    /// The next two reads are a vector's.
    pub fn mark_vector(&mut self) {
        self.vectors.push(self.accesses.get_mut().len());
    }

    pub fn pages(&mut self) -> &mut [Vec<u8>; 2] {
        &mut self.pages
    }

    /// The accesses since the last time that they were taken away.
    pub fn accesses(&mut self) -> &mut Vec<Access> {
        self.accesses.get_mut()
    }

    /// From here on, accesses belong to a new step.
    pub fn begin_step(&mut self) {
        self.replaced.clear();
        self.starts.push(self.accesses.get_mut().len());
    }

    /// The accesses of the present step so far.
    pub fn step(&mut self) -> &[Access] {
        let begin = self.starts.last().copied().unwrap_or(0);
        &self.accesses.get_mut()[begin..]
    }

    /// Puts back what the present step has replaced. Its accesses stay in the log.
    pub fn undo_step(&mut self) {
        while let Some((page, offset, byte)) = self.replaced.pop() {
            self.pages[page][offset] = byte;
        }
    }

    /// The pages and the log of a call of which so many steps were completed.
    pub fn finish(self, steps: u64) -> ([Vec<u8>; 2], Log) {
        let accesses = self.accesses.into_inner();
        let tried = usize::try_from(steps).ok().and_then(|index| self.starts.get(index));
        let completed = tried.copied().unwrap_or(accesses.len());
        (self.pages, Log { accesses, starts: self.starts, completed, vectors: self.vectors })
    }
}

#[cfg(test)]
mod tests {
    use super::{byte_at, code_at, Memory};
    use crate::call::{Access, Call, ReadOnly};

    /// Behind FFFF the code goes on at 0000, and the addresses at page 1. Past an end it is FF.
    #[test]
    fn bytes_of_pages() {
        let mut pages = [vec![0x38; 0x1_0000], vec![0x5A]];
        (pages[0][0x0000], pages[0][0xFFFF]) = (0xCC, 0xFD);
        assert_eq!(code_at(&pages, 0xFFFF), [0xFD, 0xCC]);
        assert_eq!(code_at(&pages, 0xFFFE), [0x38, 0xFD]);
        assert_eq!([0xFFFF, 0x1_0000, 0x1_0001].map(|at| byte_at(&pages, at)), [0xFD, 0x5A, 0xFF]);
        pages[0].truncate(1);
        let codes = [0, 1, 0xFFFF].map(|p| code_at(&pages, p));
        assert_eq!(codes, [[0xCC, 0xFF], [0xFF, 0xFF], [0xFF, 0xCC]]);
    }

    /// Two bytes of page 0 are protected. A write there is an access and changes nothing; a read
    /// after it finds the old byte; page 1 is stored to at the same offset.
    #[test]
    fn a_write_into_the_read_only_part_is_dropped() {
        let (pages, read_only) = ([vec![1, 2, 3, 4], vec![5; 4]], ReadOnly::new(1, 3));
        let mut memory = Memory::of(&Call { pages, read_only, ..Call::default() });
        memory.begin_step();
        for address in [0, 1, 2, 3, 4, 0x1_0001] {
            memory.write(address, 9);
        }
        assert_eq!((memory.read(1), memory.read(3)), (2, 9));
        let writes = [0, 1, 2, 3, 4, 0x1_0001].map(|address| Access::write(address, 9));
        let reads = [Access::read(1, 2), Access::read(3, 9)];
        assert_eq!(memory.step(), [&writes[..], &reads].concat());
        assert_eq!(*memory.pages(), [vec![9, 2, 3, 9], vec![5, 9, 5, 5]]);
        memory.undo_step();
        assert_eq!(*memory.pages(), [vec![1, 2, 3, 4], vec![5; 4]]);
    }
}
