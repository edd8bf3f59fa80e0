//! An item of the list that the port's program `replay` holds: read, written, and its call. The head
//! of `../crates/replay/src/main.rt` has its form.

#![forbid(unsafe_code)]

use crate::call::{Answer, BusLog, Call, Inputs, ReadOnly};
use crate::list::Sparse;

/// How many entries the list has that a call is lent.
pub const ENTRIES: usize = 64;
/// Each of them before the call; no access has this entry.
const UNUSED: u32 = 0xFFFF_FFFF;
/// The used count that says that no log is lent.
pub const NO_LOG: u16 = 65_535;
/// The number that is written where no stop address is given; any above 65,535 says so.
const NO_STOP: u32 = 65_536;

#[derive(Clone, Debug, PartialEq, Eq)]
pub struct Item {
    pub file: Vec<u8>,
    /// With its newline.
    pub line: Vec<u8>,
    pub lengths: [usize; 2],
    pub fill: (u8, u8),
    /// For each byte that is set after the fill rule: its offset in two bytes, its page, its value.
    pub set: Vec<u8>,
    /// The log's used count, or `NO_LOG`.
    pub used: u16,
    pub read_only: ReadOnly,
    pub stop_address: Option<u16>,
    /// Over what the call leaves.
    pub sums: [u64; 2],
}

/// What a call's item is made of: the call, its log's used count or `NO_LOG`, its read-only part, and
/// its stop address.
#[derive(Clone)]
pub struct Given {
    pub sparse: Sparse,
    pub used: u16,
    pub read_only: ReadOnly,
    pub stop_address: Option<u16>,
}

impl Given {
    /// A call of which nothing is read-only, without a stop address.
    pub fn new((sparse, used): (Sparse, u16)) -> Given {
        Given { sparse, used, read_only: ReadOnly::default(), stop_address: None }
    }

    pub fn call(&self) -> Result<Call, String> {
        let call = self.sparse.call()?;
        let inputs = Inputs { stop_address: self.stop_address, ..call.inputs };
        Ok(Call { inputs, bus_log: bus_log(self.used), read_only: self.read_only, ..call })
    }
}

/// The log that an item with this used count lends.
pub fn bus_log(used: u16) -> Option<BusLog> {
    let log = BusLog { entries: vec![UNUSED; ENTRIES], used: used.into() };
    (used != NO_LOG).then_some(log)
}

/// Two sums modulo 2^64: each number is added to the first, and then the first to the second. They
/// go over both pages, all entries of the list and the used count. Where no log is lent, the list is
/// as it was before and the count is 0.
pub fn sums(answer: &Answer) -> [u64; 2] {
    let log = answer.bus_log.clone().or_else(|| bus_log(0)).unwrap_or_default();
    let bytes = answer.pages.iter().flatten().map(|byte| u64::from(*byte));
    let numbers = bytes.chain(log.entries.into_iter().map(u64::from)).chain([log.used as u64]);
    numbers.fold([0u64; 2], |[first, second], number| {
        let first = first.wrapping_add(number);
        [first, second.wrapping_add(first)]
    })
}

/// The part of a list that is not read yet.
pub struct Rest<'a>(pub &'a [u8]);

impl<'a> Rest<'a> {
    fn take(&mut self, count: usize) -> Result<&'a [u8], String> {
        let (taken, rest) = self.0.split_at_checked(count).ok_or("the list is cut off")?;
        self.0 = rest;
        Ok(taken)
    }

    /// A number of so many bytes, the lowest first.
    fn number(&mut self, count: usize) -> Result<u64, String> {
        let bytes = self.take(count)?;
        Ok(bytes.iter().rev().fold(0, |value, byte| value << 8 | u64::from(*byte)))
    }

    pub fn item(&mut self) -> Result<Item, String> {
        let file = self.number(2)? as usize;
        let lengths = [self.number(4)? as usize, self.number(4)? as usize];
        let line = self.number(1)? as usize;
        let fill = (self.number(1)? as u8, self.number(1)? as u8);
        let set = 4 * self.number(1)? as usize;
        Ok(Item {
            lengths,
            fill,
            used: self.number(2)? as u16,
            read_only: ReadOnly::new(self.number(4)? as u32, self.number(4)? as u32),
            stop_address: u16::try_from(self.number(4)?).ok(),
            file: self.take(file)?.to_vec(),
            line: self.take(line)?.to_vec(),
            set: self.take(set)?.to_vec(),
            sums: [self.number(8)?, self.number(8)?],
        })
    }
}

/// Appends a number in so many bytes, the lowest first.
fn put(bytes: &mut Vec<u8>, number: usize, count: usize) -> Result<(), String> {
    let all = number.to_le_bytes();
    if all[count..].iter().any(|byte| *byte != 0) {
        return Err(format!("{number} does not fit into an item"));
    }
    bytes.extend(&all[..count]);
    Ok(())
}

impl Item {
    /// The item as it stands in the list.
    pub fn bytes(&self) -> Result<Vec<u8>, String> {
        let mut bytes = vec![];
        put(&mut bytes, self.file.len(), 2)?;
        put(&mut bytes, self.lengths[0], 4)?;
        put(&mut bytes, self.lengths[1], 4)?;
        put(&mut bytes, self.line.len(), 1)?;
        bytes.extend([self.fill.0, self.fill.1]);
        put(&mut bytes, self.set.len() / 4, 1)?;
        bytes.extend(self.used.to_le_bytes());
        bytes.extend(self.read_only.first.to_le_bytes());
        bytes.extend(self.read_only.end.to_le_bytes());
        bytes.extend(self.stop_address.map_or(NO_STOP, u32::from).to_le_bytes());
        for part in [&self.file, &self.line, &self.set] {
            bytes.extend(part);
        }
        self.sums.iter().for_each(|sum| bytes.extend(sum.to_le_bytes()));
        Ok(bytes)
    }

    /// The file's call on the item's pages, which are the fill rule, then the file's bytes at their
    /// starts, then the bytes that are set; and with its log, read-only part and stop address.
    pub fn call(&self, file: Call) -> Result<Call, String> {
        let [page0, page1] = file.pages;
        let mut set = vec![(0, page0), (0x1_0000, page1)];
        set.extend(self.set.chunks_exact(4).map(|four| {
            let [low, high, page, value] = [four[0], four[1], four[2], four[3]];
            (u32::from_le_bytes([low, high, page, 0]), vec![value])
        }));
        let Call { record, inputs, limit, .. } = file;
        let (keyboard, lengths, fill) = (inputs.keyboard, self.lengths, self.fill);
        let call = Sparse { record, keyboard, limit, lengths, fill, set }.call()?;
        let inputs = Inputs { stop_address: self.stop_address, ..call.inputs };
        Ok(Call { inputs, bus_log: bus_log(self.used), read_only: self.read_only, ..call })
    }
}

#[cfg(test)]
mod tests {
    use super::{bus_log, sums, Item, Rest, NO_LOG};
    use crate::call::{Answer, BusLog, ReadOnly};

    fn item() -> Item {
        Item {
            file: vec![1, 2, 3],
            line: b"8 3\n".to_vec(),
            lengths: [65_537, 0],
            fill: (4, 5),
            set: vec![0, 1, 0, 6, 7, 0, 1, 8],
            used: 0x1234,
            read_only: ReadOnly::new(0x0506_0708, u32::MAX - 1),
            stop_address: Some(0x0A0B),
            sums: [9, u64::MAX],
        }
    }

    #[test]
    fn an_item_reads_back() {
        let bytes = item().bytes().unwrap();
        assert_eq!(bytes.len(), 28 + 3 + 4 + 8 + 16);
        assert_eq!(bytes[14..24], [0x34, 0x12, 8, 7, 6, 5, 0xFE, 0xFF, 0xFF, 0xFF]);
        assert_eq!(bytes[24..28], [0x0B, 0x0A, 0, 0]);
        let mut rest = Rest(&bytes);
        assert_eq!(rest.item(), Ok(item()));
        assert!(rest.0.is_empty());
        assert!(Rest(&bytes[..bytes.len() - 1]).item().is_err());
    }

    /// 65,535 is a stop address; it is written as 65,536 that there is none, and any number above
    /// 65,535 is read so.
    #[test]
    fn stop_addresses_of_items() {
        for (stop_address, number) in [(Some(0), 0_u32), (Some(0xFFFF), 65_535), (None, 65_536)] {
            let given = Item { stop_address, ..item() };
            let bytes = given.bytes().unwrap();
            assert_eq!(bytes[24..28], number.to_le_bytes());
            assert_eq!(Rest(&bytes).item(), Ok(given));
        }
        for number in [65_537, 131_072, u32::MAX] {
            let mut bytes = item().bytes().unwrap();
            bytes[24..28].copy_from_slice(&u32::to_le_bytes(number));
            assert_eq!(Rest(&bytes).item().unwrap().stop_address, None);
        }
    }

    #[test]
    fn what_is_too_long_for_an_item_is_turned_down() {
        assert!(Item { line: vec![0; 256], ..item() }.bytes().is_err());
        assert!(Item { set: vec![0; 4 * 256], ..item() }.bytes().is_err());
        assert!(Item { file: vec![0; 65_536], ..item() }.bytes().is_err());
    }

    #[test]
    fn sums_of_pages_list_and_count() {
        let pages = [vec![1, 2], vec![3]];
        let bus_log = Some(BusLog { entries: vec![10, 20], used: 7 });
        let answer = Answer { pages: pages.clone(), bus_log, ..Answer::default() };
        assert_eq!(sums(&answer), [43, 1 + 3 + 6 + 16 + 36 + 43]);
        let without = sums(&Answer { pages: pages.clone(), ..Answer::default() });
        let unused = super::bus_log(0);
        assert_eq!(without, sums(&Answer { pages, bus_log: unused, ..Answer::default() }));
        assert_eq!(without[0], 6 + 64 * 0xFFFF_FFFF);
    }

    #[test]
    fn the_greatest_count_says_that_there_is_no_log() {
        assert_eq!(bus_log(NO_LOG), None);
        assert_eq!(bus_log(1000).map(|log| (log.used, log.entries.len())), Some((1000, 64)));
    }
}
