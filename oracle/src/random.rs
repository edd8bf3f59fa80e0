//! A small generator of pseudo-random numbers (splitmix64), and random calls made from it.
//!
//! Every call depends on the seed and its own index only.

#![forbid(unsafe_code)]

use crate::call::{BusLog, Call, Inputs, Record, MOST_ACCESSES};
use crate::opcodes::table;

#[derive(Clone)]
pub struct Random {
    state: u64,
}

fn mix(value: u64) -> u64 {
    let value = (value ^ value >> 30).wrapping_mul(0xBF58_476D_1CE4_E5B9);
    let value = (value ^ value >> 27).wrapping_mul(0x94D0_49BB_1331_11EB);
    value ^ value >> 31
}

impl Random {
    pub fn new(seed: u64, index: u64) -> Random {
        Random { state: mix(seed ^ mix(index.wrapping_add(0x9E37_79B9_7F4A_7C15))) }
    }

    pub fn next(&mut self) -> u64 {
        self.state = self.state.wrapping_add(0x9E37_79B9_7F4A_7C15);
        mix(self.state)
    }

    /// A number below `end`.
    pub fn below(&mut self, end: u64) -> u64 {
        self.next() % end
    }

    pub fn byte(&mut self) -> u8 {
        self.next() as u8
    }

    pub fn word(&mut self) -> u16 {
        self.next() as u16
    }

    pub fn chance(&mut self, percent: u64) -> bool {
        self.below(100) < percent
    }

    pub fn pick<T: Copy>(&mut self, values: &[T]) -> T {
        values[self.below(values.len() as u64) as usize]
    }
}

/// A page's length: often whole, empty or short.
pub fn length(random: &mut Random) -> usize {
    match random.below(100) {
        0..=24 => 65_536,
        25..=34 => 0,
        35..=54 => 1 + random.below(64) as usize,
        55..=89 => 65 + random.below(4032) as usize,
        90..=93 => 65_534 + random.below(2) as usize,
        _ => random.below(65_537) as usize,
    }
}

/// An address: at the edges, at the ends of the pages, near the program, among the vectors, inside
/// page 0, or anywhere.
fn address(random: &mut Random, lengths: [usize; 2], program: u16) -> u16 {
    let near = |random: &mut Random, middle: usize| {
        (middle as u16).wrapping_add(random.below(5) as u16).wrapping_sub(2)
    };
    match random.below(12) {
        0 => near(random, 0),
        1 => near(random, lengths[0]),
        2 => near(random, lengths[1]),
        3 | 4 => program.wrapping_add(random.below(80) as u16).wrapping_sub(8),
        5 => 0xFF00 + random.below(256) as u16,
        6..=8 => random.below(lengths[0].max(1) as u64) as u16,
        9 => random.below(lengths[1].max(1) as u64) as u16,
        _ => random.word(),
    }
}

/// Where the program begins: often at an edge, mostly inside page 0.
fn start(random: &mut Random, lengths: [usize; 2]) -> u16 {
    let place = match random.below(10) {
        0 => 0,
        1 => 0xFFFF - random.below(40) as u16,
        2 => (lengths[0] as u16).wrapping_sub(random.below(40) as u16),
        3 => 0x9800 + random.below(0x800) as u16,
        _ => random.word(),
    };
    let outside = usize::from(place) >= lengths[0];
    if outside && lengths[0] > 0 && random.chance(90) {
        random.below(lengths[0] as u64) as u16
    } else {
        place
    }
}

fn accumulator(random: &mut Random) -> u8 {
    match random.below(4) {
        0 => random.pick(&[0x00, 0x01, 0x0F, 0x10, 0x7F, 0x80, 0x99, 0x9A, 0xFE, 0xFF]),
        1 => (random.below(10) * 16 + random.below(10)) as u8,
        _ => random.byte(),
    }
}

fn flags(random: &mut Random) -> u16 {
    let chances = [8, 50, 50, 94, 50, 12, 15, 15, 15];
    (0..9).map(|i| u16::from(random.chance(chances[i])) << i).sum()
}

fn timer_value(random: &mut Random) -> u16 {
    match random.below(200) {
        0 => 512 + random.below(65_024) as u16,
        1 => 512,
        2..=39 => 511,
        40..=79 => 510,
        _ => random.below(512) as u16,
    }
}

/// Timer states and previous states: mostly a difference around 42, sometimes a previous count
/// above the current one, sometimes near the wrap.
fn timer(random: &mut Random) -> (u64, u64) {
    let current = match random.below(4) {
        0 => random.below(100),
        1 => 0_u64.wrapping_sub(random.below(100)),
        _ => random.next() >> random.below(64),
    };
    let difference = match random.below(8) {
        0 => 0_u64.wrapping_sub(1 + random.below(60)),
        1 => random.next() >> random.below(64),
        2 => 41 + random.below(2),
        3 => 20 + random.below(25),
        _ => random.below(42),
    };
    (current, current.wrapping_sub(difference))
}

pub fn record(random: &mut Random, lengths: [usize; 2]) -> Record {
    let p = start(random, lengths);
    let (timer_state, step_previous_state) = timer(random);
    let mut record = Record {
        a: accumulator(random),
        t: if random.chance(70) { random.byte() & 0x1F } else { random.byte() },
        x: address(random, lengths, p),
        y: address(random, lengths, p),
        u: address(random, lengths, p),
        s: address(random, lengths, p),
        p,
        tm: timer_value(random),
        timer_state,
        step_previous_state,
        ticks: if random.chance(50) { timer_state } else { random.next() >> random.below(64) },
        ..Record::default()
    };
    record.set_flags(flags(random));
    if record.ir0 {
        beside_ir0(random, &mut record);
    }
    record
}

/// Sets IR0, as a host may between two calls.
pub fn request_ir0(random: &mut Random, record: &mut Record) {
    record.ir0 = true;
    beside_ir0(random, record);
}

/// What comes with IR0: in half of the records halted, IR1, IR2, timer reached and IE as often set as
/// clear, and BF mostly set; in a third of them the stack over IR0's vector or beside it.
fn beside_ir0(random: &mut Random, record: &mut Record) {
    if random.chance(50) {
        let deciding = random.word() & 0x1C1;
        record.set_flags(record.flags() & !0x1C1 | deciding);
        record.bf = random.chance(85);
        record.t = random.byte();
    }
    if random.chance(33) {
        record.s = 0xFFF8_u16.wrapping_add(random.below(11) as u16);
    }
}

pub fn limit(random: &mut Random) -> u32 {
    match random.below(200) {
        0 => 0,
        1 => 1_000_001,
        2 => 1_000_001 + random.below(4_293_967_295) as u32,
        3 => 2_000 + random.below(20_000) as u32,
        4..=19 => 61 + random.below(1_000) as u32,
        20..=69 => 1 + random.below(3) as u32,
        _ => 1 + random.below(60) as u32,
    }
}

/// A listed byte of the first page (0) other than FD, or after FD (1).
fn listed(random: &mut Random, page: usize) -> u8 {
    loop {
        let byte = random.byte();
        if table()[page][usize::from(byte)].is_some() && (page == 1 || byte != 0xFD) {
            return byte;
        }
    }
}

/// Code of at least so many bytes: listed instructions with their operands, now and then any byte.
pub fn program(random: &mut Random, size: usize, lengths: [usize; 2], at: u16) -> Vec<u8> {
    let mut code = Vec::with_capacity(size + 8);
    while code.len() < size {
        let page = match random.below(100) {
            0..=55 => 0,
            56..=97 => 1,
            other => {
                if other == 98 {
                    code.push(0xFD);
                }
                code.push(random.byte());
                continue;
            }
        };
        let byte = listed(random, page);
        if page == 1 {
            code.push(0xFD);
        }
        code.push(byte);
        let operands = table()[page][usize::from(byte)].map_or(0, |entry| entry.code_bytes());
        operand(random, operands, lengths, at, &mut code);
    }
    code
}

/// Operand bytes in the code: an address first where there are two or three.
fn operand(random: &mut Random, count: usize, lengths: [usize; 2], at: u16, code: &mut Vec<u8>) {
    if count >= 2 {
        code.extend(address(random, lengths, at).to_be_bytes());
    }
    if count % 2 == 1 {
        code.push(match random.below(8) {
            0 => 0x00,
            1 => 0xFF,
            2..=4 => random.below(12) as u8,
            _ => random.byte(),
        });
    }
}

/// A page's bytes before the program is placed: any bytes, listed bytes, digits, or one byte.
fn page(random: &mut Random, length: usize) -> Vec<u8> {
    let style = random.below(10);
    if style == 9 {
        let byte = random.pick(&[0x00, 0x38, 0xFF]);
        return vec![byte; length];
    }
    let mut bytes = Vec::with_capacity(length + 8);
    while bytes.len() < length {
        bytes.extend(random.next().to_le_bytes());
    }
    bytes.truncate(length);
    match style {
        0..=3 => {}
        4 => bytes.iter_mut().for_each(|byte| *byte = *byte / 26 * 16 + *byte % 10),
        _ => bytes.iter_mut().filter(|byte| is_unlisted(**byte)).for_each(|byte| *byte = 0xFD),
    }
    bytes
}

fn is_unlisted(byte: u8) -> bool {
    table()[0][usize::from(byte)].is_none()
}

/// Puts code into page 0, wrapping at FFFF; what lies past the page's end is left out.
pub fn place(page: &mut [u8], at: u16, code: &[u8]) {
    for (i, byte) in code.iter().enumerate() {
        let offset = usize::from(at.wrapping_add(i as u16));
        if let Some(place) = page.get_mut(offset) {
            *place = *byte;
        }
    }
}

/// A routine for each of IR2, IR1 and IR0, and the vectors that name them: bytes and their addresses. A
/// routine returns, often with IE set before, so that the next request is accepted inside it.
pub fn routines(random: &mut Random) -> [(u16, Vec<u8>); 4] {
    let routines = [0, 1, 2].map(|_| {
        let codes: [&[u8]; 4] =
            [&[0x8A], &[0x38, 0x8A], &[0xFD, 0x81, 0x8A], &[0xFD, 0x81, 0x38, 0x8A]];
        (random.word(), random.pick(&codes).to_vec())
    });
    let vectors = routines.iter().flat_map(|(at, _)| at.to_be_bytes()).collect();
    let [ir2, ir1, ir0] = routines;
    [ir2, ir1, ir0, (0xFFF8, vectors)]
}

/// Makes a page 0 whole, and puts such routines into it.
fn add_routines(random: &mut Random, page: &mut Vec<u8>) {
    page.resize(65_536, 0x38);
    routines(random).iter().for_each(|(at, bytes)| place(page, *at, bytes));
}

/// Makes a call begin with BF and IR0 set, often with other requests besides, and with routines for
/// them.
pub fn enter_ir0(random: &mut Random, call: &mut Call) {
    request_ir0(random, &mut call.record);
    call.record.bf = true;
    add_routines(random, &mut call.pages[0]);
}

/// A random call with whole pages and the idle figure 0.
pub fn call(random: &mut Random) -> Call {
    let lengths = [length(random), length(random)];
    let record = record(random, lengths);
    let mut pages = [page(random, lengths[0]), page(random, lengths[1])];
    if !random.chance(5) {
        let size = random.pick(&[8, 40, 120]);
        let code = program(random, size, lengths, record.p);
        place(&mut pages[0], record.p, &code);
    }
    if record.ir0 && random.chance(40) {
        add_routines(random, &mut pages[0]);
    }
    for page in &mut pages {
        if random.below(300) == 0 {
            page.resize(65_537, 0x38);
        }
    }
    let inputs = Inputs::of_keyboard(random.byte());
    Call { record, inputs, limit: limit(random), pages, ..Call::default() }
}

/// An idle figure: 0 in half of the calls, else often an edge.
fn idle(random: &mut Random) -> u8 {
    match random.below(20) {
        0..=9 => 0,
        10..=13 => idle_edge(random),
        _ => 1 + random.below(255) as u8,
    }
}

/// An idle figure at its least and greatest, and at the timer's 42 states and twice as many.
pub fn idle_edge(random: &mut Random) -> u8 {
    random.pick(&[1, 2, 41, 42, 43, 84, 255])
}

/// A random call with an idle figure.
pub fn idle_call(random: &mut Random) -> Call {
    let call = call(random);
    with_idle(random, call)
}

/// The call with an idle figure. Where that is not 0, some calls begin parked.
pub fn with_idle(random: &mut Random, mut call: Call) -> Call {
    call.inputs.idle = idle(random);
    if call.inputs.idle != 0 && random.chance(25) {
        park(random, &mut call.record);
    }
    call
}

/// A random call with an idle figure and, in six of ten calls, a log.
pub fn logged_call(random: &mut Random) -> Call {
    let mut call = idle_call(random);
    if random.chance(60) {
        call.bus_log = Some(bus_log(random, call.limit));
    }
    call
}

/// A log for a call of this limit: empty, used beyond its end, with few free entries, or with
/// enough for many steps.
fn bus_log(random: &mut Random, limit: u32) -> BusLog {
    let used = random.below(30) as usize;
    let enough = MOST_ACCESSES * limit.min(3000) as usize;
    match random.below(12) {
        0 => garbage(random, 0, used % 3),
        1 => garbage_beyond(random, used),
        2..=5 => garbage_around(random, used, 21),
        6 => garbage_around(random, used, 300),
        _ => garbage(random, used + enough + 5, used),
    }
}

/// So many entries are free, less than this number.
fn garbage_around(random: &mut Random, used: usize, end: u64) -> BusLog {
    let free = random.below(end) as usize;
    garbage(random, used + free, used)
}

/// The used count is beyond the list, often so far that a sum with it would wrap.
fn garbage_beyond(random: &mut Random, length: usize) -> BusLog {
    let few = random.below(9) as usize;
    let used = random.pick(&[length + 1 + few, usize::MAX - few, 1 << 32, 1 << 63]);
    garbage(random, length, used)
}

/// A log of this length with so many used, full of numbers that mean nothing.
pub fn garbage(random: &mut Random, length: usize, used: usize) -> BusLog {
    let fill = random.pick(&[None, None, Some(0), Some(u32::MAX)]);
    let entries = (0..length).map(|_| fill.unwrap_or_else(|| random.next() as u32)).collect();
    BusLog { entries, used }
}

/// Parks the unit: halted, BF set, IR0 clear, half of the time another request; mostly IE set, and often
/// the timer one to four shifts before 1FF, so that it wakes the unit soon.
pub fn park(random: &mut Random, record: &mut Record) {
    let request = random.pick(&[0x000, 0x000, 0x000, 0x040, 0x080, 0x100]);
    record.set_flags(record.flags() & 0x016 | 0x009 | request);
    record.t = if random.chance(70) { record.t | 0x02 } else { record.t & !0x02 };
    if random.chance(40) {
        record.tm = random.pick(&[0x1FE, 0x1FC, 0x1F8, 0x1F0]);
    }
}

/// Two pages that execution can wander over: page 0 is mostly full of listed instructions.
pub fn world(random: &mut Random) -> [Vec<u8>; 2] {
    let lengths = [length(random), length(random)];
    let mut pages = [page(random, lengths[0]), page(random, lengths[1])];
    match random.below(10) {
        0..=4 => {
            pages[0] = program(random, lengths[0], lengths, random.clone().word());
            pages[0].truncate(lengths[0]);
        }
        5..=7 => walkable(random, &mut pages[0]),
        _ => {}
    }
    for page in &mut pages {
        if random.below(200) == 0 {
            page.resize(65_537, 0x38);
        }
    }
    pages
}

/// Every byte is listed in the first page, and every byte after FD is listed there too.
fn walkable(random: &mut Random, page: &mut [u8]) {
    let mut after_fd = false;
    for place in page {
        loop {
            *place = listed(random, 0);
            if !after_fd || table()[1][usize::from(*place)].is_some() {
                break;
            }
        }
        after_fd = !after_fd && random.chance(15);
        if after_fd {
            *place = 0xFD;
        }
    }
}

/// Changes a part of the record, as a host may between two calls.
pub fn change(random: &mut Random, record: &mut Record, lengths: [usize; 2]) {
    let program = record.p;
    match random.below(13) {
        0 => record.p = start(random, lengths),
        1 => record.p = address(random, lengths, program),
        2 => record.s = address(random, lengths, program),
        3 => record.x = address(random, lengths, program),
        4 => record.y = address(random, lengths, program),
        5 => record.u = address(random, lengths, program),
        6 => (record.a, record.t) = (accumulator(random), random.byte()),
        7 => record.tm = timer_value(random),
        8 => (record.timer_state, record.step_previous_state) = timer(random),
        9 => record.ir1 = true,
        10 => record.ir2 = true,
        11 => request_ir0(random, record),
        _ => record.set_flags(flags(random)),
    }
}

#[cfg(test)]
mod tests {
    use super::{call, idle, idle_call, logged_call, Random};

    /// 0 is half of the figures, every other one comes, and the edges come often.
    #[test]
    fn idle_figures_come_as_they_should() {
        let mut random = Random::new(1, 0);
        let mut counts = [0; 256];
        for _ in 0..20_000 {
            counts[usize::from(idle(&mut random))] += 1;
        }
        assert!((9500..10_500).contains(&counts[0]));
        assert!(counts.iter().all(|count| *count > 0));
        assert!([1, 2, 41, 42, 43, 84, 255].iter().all(|edge| counts[*edge] > 400));
    }

    /// But for the figure and the record of a parked unit, it is the plain call of a campaign.
    #[test]
    fn a_call_with_an_idle_figure_is_the_plain_one_otherwise() {
        for index in 0..300 {
            let with = idle_call(&mut Random::new(1, index));
            let mut plain = call(&mut Random::new(1, index));
            assert_eq!(plain.inputs.idle, 0);
            (plain.inputs.idle, plain.record) = (with.inputs.idle, with.record);
            assert_eq!(with, plain);
        }
    }

    /// Logs come without, with few and with many free entries, empty and used beyond their end; but
    /// for the log it is the call without one.
    #[test]
    fn logs_come_as_they_should() {
        let calls = (0..2000).map(|index| logged_call(&mut Random::new(1, index)));
        let logs: Vec<_> = calls.map(|call| call.bus_log).collect();
        let count = |wanted: &dyn Fn(usize, usize) -> bool| {
            let lent = logs.iter().flatten().map(|log| (log.entries.len(), log.used));
            lent.filter(|(length, used)| wanted(*length, *used)).count()
        };
        assert!((700..900).contains(&logs.iter().filter(|log| log.is_none()).count()));
        assert!(count(&|length, _| length == 0) > 40);
        assert!(count(&|length, used| used > length) > 40);
        assert!(count(&|_, used| used > usize::MAX - 10) > 10);
        for free in 0..=20 {
            assert!(count(&|length, used| used <= length && length - used == free) > 3);
        }
        for index in 0..300 {
            let mut with = logged_call(&mut Random::new(1, index));
            with.bus_log = None;
            assert_eq!(with, idle_call(&mut Random::new(1, index)));
        }
    }
}
