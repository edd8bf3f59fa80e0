//! The arithmetic functions over all their inputs: the original's private methods against the
//! port's static library.

#![forbid(unsafe_code)]

use std::thread;

use crate::call::{Inputs, Record};
use crate::original::Pc1500;
use crate::probe;
use crate::progress::Progress;

const THREADS: u32 = 2;

/// A case's input; the names of its numbers stand in the sweep.
type Input = [u32; 5];

/// What one function's cases have come to.
#[derive(Default)]
struct Tally {
    cases: u64,
    differences: u64,
    /// The smallest input that differs, with the original's and the port's answer.
    first: Option<(Input, u32, u32)>,
}

impl Tally {
    fn case(&mut self, input: Input, original: u32, port: u32) {
        self.cases += 1;
        if original != port {
            self.differences += 1;
            let found = (input, original, port);
            self.first = Some(self.first.map_or(found, |first| first.min(found)));
        }
    }

    fn join(mut self, other: Tally) -> Tally {
        self.cases += other.cases;
        self.differences += other.differences;
        self.first = match (self.first, other.first) {
            (Some(left), Some(right)) => Some(left.min(right)),
            (left, right) => left.or(right),
        };
        self
    }
}

/// Runs the cases whose input begins with this number.
type Run = Box<dyn Fn(u32, &mut Tally) + Sync>;

/// All cases of one function.
struct Sweep {
    name: String,
    /// Names of the numbers of an input.
    inputs: &'static str,
    /// The numbers that an input may begin with.
    outer: Vec<u32>,
    run: Run,
}

impl Sweep {
    /// Two threads share the outer numbers.
    fn tally(&self) -> Tally {
        let part = |thread: u32| {
            let mut tally = Tally::default();
            for outer in self.outer.iter().filter(|outer| **outer % THREADS == thread) {
                (self.run)(*outer, &mut tally);
            }
            tally
        };
        thread::scope(|scope| {
            let part = &part;
            let workers: Vec<_> = (0..THREADS).map(|i| scope.spawn(move || part(i))).collect();
            let tallies = workers.into_iter().map(|worker| worker.join().expect("a worker ends"));
            tallies.fold(Tally::default(), Tally::join)
        })
    }

    fn print(&self, tally: &Tally) {
        let Tally { cases, differences, first } = tally;
        println!("{:<24} {cases:>10} cases, {differences} differences", self.name);
        if let Some((input, original, port)) = first {
            let pairs = self.inputs.split(' ').zip(input);
            let input: Vec<_> = pairs.map(|(name, value)| format!("{name} {value:02X}")).collect();
            println!("  smallest input: {}", input.join(", "));
            println!("  original {original:06X}, port {port:06X}");
        }
    }
}

/// A machine for calls of the private methods; its memory is not touched.
fn machine() -> Pc1500 {
    Pc1500::new(&Record::default(), Inputs::default(), [vec![], vec![]])
}

/// The number and name of each function of `probe_arithmetic`.
const NAMES: [&str; 21] = [
    "adc", "sbc", "cpa", "dca", "dcs", "and", "ora", "eor", "bit", "lda", "inc", "dec", "rol",
    "ror", "shl", "shr", "aex", "tta", "drl", "drr", "check_z",
];

fn apply(machine: &mut Pc1500, function: u32, operand: u8) {
    match function {
        0 => machine.original_adc(operand),
        1 => machine.original_sbc(operand),
        2 => machine.original_cpa(operand),
        3 => machine.original_dca(operand),
        4 => machine.original_dcs(operand),
        5 => machine.original_and(operand),
        6 => machine.original_ora(operand),
        7 => machine.original_eor(operand),
        8 => machine.original_bit(operand),
        9 => machine.original_lda(operand),
        10 => machine.original_inc(),
        11 => machine.original_dec(),
        12 => machine.original_rol(),
        13 => machine.original_ror(),
        14 => machine.original_shl(),
        15 => machine.original_shr(),
        20 => machine.original_check_z(operand),
        _ => unreachable!("function {function} is an instruction of its own"),
    }
}

/// The original's answer from a private method.
fn by_method(machine: &mut Pc1500, function: u32, a: u8, t: u8, operand: u8) -> u32 {
    machine.lh5801.set_a_and_t(a, t);
    apply(machine, function, operand);
    u32::from(machine.lh5801.a()) * 256 + u32::from(machine.lh5801.t())
}

/// The original's answer from a whole step: AEX, TTA, DRL and DRR, with the byte at X = 2.
fn by_step(function: u32, a: u8, t: u8, operand: u8) -> u32 {
    let code = match function {
        16 => [0xF1, 0x00],
        17 => [0xFD, 0xAA],
        18 => [0xD7, 0x00],
        19 => [0xD3, 0x00],
        _ => unreachable!("function {function} is a method"),
    };
    let record = Record { a, t, x: 2, bf: true, ..Record::default() };
    let page = vec![code[0], code[1], operand];
    let mut machine = Pc1500::new(&record, Inputs::default(), [page, vec![]]);
    machine.step_cpu();
    let after = machine.lh5801.record();
    let (pages, _) = machine.memory.finish(1);
    let value = if function >= 18 { u32::from(pages[0][2]) } else { 0 };
    value * 65_536 + u32::from(after.a) * 256 + u32::from(after.t)
}

/// The operands and the T values that a function runs over.
fn ranges(function: u32) -> (Vec<u8>, Vec<u32>) {
    let all: Vec<u8> = (0..=255).collect();
    let every_t = (0..256).collect();
    match function {
        10..=17 => (vec![0x00], every_t),
        18 | 19 => (all, vec![0x00, 0x04, 0x15, 0x1F, 0xE0, 0xFF]),
        _ => (all, every_t),
    }
}

fn function_sweep(function: u32) -> Sweep {
    let (operands, outer) = ranges(function);
    let by_steps = (16..=19).contains(&function);
    let run = move |t: u32, tally: &mut Tally| {
        let mut machine = machine();
        for a in 0..=255_u8 {
            for operand in operands.iter().copied() {
                let original = if by_steps {
                    by_step(function, a, t as u8, operand)
                } else {
                    by_method(&mut machine, function, a, t as u8, operand)
                };
                let port = probe::arithmetic(function as u8, a, t as u8, operand);
                tally.case([t, u32::from(a), u32::from(operand), 0, 0], original, port);
            }
        }
    };
    let name = format!("{function} {}", NAMES[function as usize]);
    Sweep { name, inputs: "T A operand", outer, run: Box::new(run) }
}

/// Numbers that name no function answer 0.
fn other_numbers() -> Sweep {
    let run = |function: u32, tally: &mut Tally| {
        let values = [0x00, 0x5A, 0xFF];
        for i in 0..27 {
            let [a, t, operand] = [values[i % 3], values[i / 3 % 3], values[i / 9]];
            let port = probe::arithmetic(function as u8, a, t, operand);
            tally.case([function, a.into(), t.into(), operand.into(), 0], 0, port);
        }
    };
    let name = "21 to 255 answer 0".to_string();
    Sweep { name, inputs: "function A T operand", outer: (21..256).collect(), run: Box::new(run) }
}

fn add_sweep(decimal: bool) -> Sweep {
    let run = move |t: u32, tally: &mut Tally| {
        let mut machine = machine();
        for i in 0..131_072_u32 {
            let (left, right, carry) = ((i >> 9) as u8, (i >> 1) as u8, i & 1 == 1);
            machine.lh5801.set_a_and_t(0, t as u8);
            let value = if decimal {
                machine.original_decimaladd(left, right, carry)
            } else {
                machine.original_add(left, right, carry)
            };
            let original = u32::from(value) * 256 + u32::from(machine.lh5801.t());
            let port = probe::add(t as u8, left, right, carry, decimal);
            tally.case([t, left.into(), right.into(), carry.into(), 0], original, port);
        }
    };
    let name = if decimal { "decimaladd_generic" } else { "add_generic" }.to_string();
    Sweep { name, inputs: "T left right carry", outer: (0..256).collect(), run: Box::new(run) }
}

fn adr_sweep() -> Sweep {
    let run = |reg: u32, tally: &mut Tally| {
        let mut machine = machine();
        for t in [0x00, 0x15, 0xFF] {
            for a in 0..=255_u8 {
                machine.lh5801.set_a_and_t(a, t);
                let value = machine.original_adr(reg as u16);
                let original = u32::from(value) * 256 + u32::from(machine.lh5801.t());
                let port = probe::adr(t, reg as u16, a);
                tally.case([reg, t.into(), a.into(), 0, 0], original, port);
            }
        }
    };
    let outer = (0..65_536).collect();
    Sweep { name: "adr".to_string(), inputs: "register T A", outer, run: Box::new(run) }
}

/// Runs every sweep; true where no difference was found.
pub fn run() -> bool {
    let mut sweeps: Vec<Sweep> = (0..21).map(function_sweep).collect();
    sweeps.extend([other_numbers(), add_sweep(false), add_sweep(true), adr_sweep()]);
    let mut total = Tally::default();
    let mut progress = Progress::new("function", sweeps.len() as u64);
    for (index, sweep) in sweeps.iter().enumerate() {
        progress.show(index as u64);
        let tally = sweep.tally();
        progress.wipe();
        sweep.print(&tally);
        total = total.join(tally);
    }
    println!("{:<24} {:>10} cases, {} differences", "total", total.cases, total.differences);
    total.differences == 0
}
