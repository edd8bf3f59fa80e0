//! The original `lh5801.rs`, included unchanged but for one name, over a flat memory without a log.
//!
//! This is the cheap way to run it: for long differential runs and for measuring. The harness with
//! a log, in which stops 5 and 6 are the original's own panics, is `original.rs` of the program.
//! Here a run call looks at the byte that would be executed before each step and stops by the
//! table of listed bytes, so that nothing panics. In both, `halted_states` is the harness's own and
//! gives the idle figure.

#![forbid(unsafe_code)]

pub mod call;
pub mod opcodes;

use std::sync::OnceLock;

pub use self::lh5801::Lh5801;
use call::{refusal, Inputs, Record};

/// The included file. Only code of this module reaches its private fields and functions.
#[allow(dead_code, unused, clippy::all, clippy::pedantic)]
mod lh5801 {
    include!(env!("LH5801_RS_PATH"));

    include!("unit.rs");
}

/// What the included file asks of `host_io`. Traps are left out: `host_trap` answers false.
pub mod host_io {
    pub const TRAP_PAGE: u16 = 0x9800;
    pub const TRAP_PAGE_MASK: u16 = 0xF800;
    pub const TRAP_STATES: u8 = 200;
}

/// One fixed byte in place of the keyboard.
pub struct Keyboard {
    pub byte: u8,
}

impl Keyboard {
    pub fn input(&self) -> u8 {
        self.byte
    }

    pub fn on_pulse_pending(&self) -> bool {
        false
    }
}

/// The machine that the included file is written over.
pub struct Pc1500 {
    pub lh5801: Lh5801,
    pub keyboard: Keyboard,
    /// What `halted_states` gives.
    pub idle: u8,
    pub page0: Vec<u8>,
    pub page1: Vec<u8>,
}

/// Document 01's rule: past the end reads FF, and a write there is dropped.
impl Pc1500 {
    #[inline]
    pub fn read_byte(&self, address: u32) -> u8 {
        let page = if address < 0x1_0000 { &self.page0 } else { &self.page1 };
        page.get((address & 0xFFFF) as usize).copied().unwrap_or(0xFF)
    }

    #[inline]
    pub fn write_byte(&mut self, address: u32, byte: u8) {
        let page = if address < 0x1_0000 { &mut self.page0 } else { &mut self.page1 };
        if let Some(place) = page.get_mut((address & 0xFFFF) as usize) {
            *place = byte;
        }
    }

    pub fn host_trap(&mut self) -> bool {
        false
    }
}

/// What a run call tells beside the record and the pages.
#[derive(Clone, Copy, Debug, Default, PartialEq, Eq)]
pub struct Returned {
    pub number: u8,
    pub byte: u8,
    pub steps: u64,
    pub states: u64,
}

/// Watches the steps of a run call as they begin.
pub trait Watch {
    /// BF is clear.
    fn off(&mut self) {}
    /// An interrupt is accepted; by a halted unit it is a wake.
    fn interrupt(&mut self, _halted: bool) {}
    /// The step waits, with this idle figure.
    fn waiting(&mut self, _idle: u8) {}
    /// A listed byte of the first page (0) or after FD (1) is executed.
    fn executed(&mut self, _page: usize, _byte: u8) {}
    /// Before an instruction at this address the call stops with 12 (document 02, F-5). It is told
    /// here, and not by the inputs, so that a run that is measured has no such test.
    fn stop_address(&self) -> Option<u16> {
        None
    }
}

/// Watches nothing.
impl Watch for () {}

/// Which bytes are listed: first page, after FD.
type Listed = [[bool; 256]; 2];

fn listed() -> &'static Listed {
    static LISTED: OnceLock<Listed> = OnceLock::new();
    LISTED.get_or_init(|| opcodes::table().map(|page| page.map(|entry| entry.is_some())))
}

impl Pc1500 {
    pub fn new(record: &Record, inputs: Inputs, [page0, page1]: [Vec<u8>; 2]) -> Pc1500 {
        let lh5801 = Lh5801::from_record(record);
        let keyboard = Keyboard { byte: inputs.keyboard };
        Pc1500 { lh5801, keyboard, idle: inputs.idle, page0, page1 }
    }

    /// Makes ready for a call from this record, on the pages as they are.
    pub fn begin(&mut self, record: &Record, inputs: Inputs) {
        self.lh5801 = Lh5801::from_record(record);
        self.keyboard.byte = inputs.keyboard;
        self.idle = inputs.idle;
    }

    /// So many steps of the original and nothing else: no stop is looked for, an unlisted byte
    /// panics, and a halted step adds the idle figure, though it be 0.
    #[inline(never)]
    pub fn bare_steps(&mut self, steps: u32) {
        for _ in 0..steps {
            self.step_cpu();
        }
    }

    /// Document 01's run call. 1 to 7 and 12 are this harness's own. The stop address is the watch's.
    /// A call that begins with BF and IR0 set is none for this library, and panics: its first step is
    /// the model's (`first_step.rs` of the program).
    #[inline(never)]
    pub fn original_run<W: Watch>(&mut self, limit: u32, watch: &mut W) -> Returned {
        let lengths = [self.page0.len(), self.page1.len()];
        if let Some(number) = refusal(lengths, self.lh5801.record().tm, limit) {
            return Returned { number, ..Returned::default() };
        }
        let listed = listed();
        let first = self.lh5801.timer_state();
        for steps in 0..limit {
            if let Some((number, byte)) = self.stop(listed, watch) {
                let states = self.lh5801.timer_state().wrapping_sub(first) as u64;
                return Returned { number, byte, steps: u64::from(steps), states };
            }
            self.step_cpu();
        }
        let states = self.lh5801.timer_state().wrapping_sub(first) as u64;
        Returned { number: 0, byte: 0, steps: u64::from(limit), states }
    }

    /// The stop of the step that begins now, and its byte.
    ///
    /// # Panics
    /// With BF and IR0 set.
    #[inline]
    fn stop<W: Watch>(&self, listed: &Listed, watch: &mut W) -> Option<(u8, u8)> {
        let unit = &self.lh5801;
        if !unit.bf() {
            watch.off();
            return None;
        }
        assert!(!unit.ir0(), "with IR0 set the original does nothing: its entry is the model's");
        if unit.is_requested() && unit.ie() {
            watch.interrupt(unit.is_halted());
            return None;
        }
        if unit.is_halted() {
            return self.halted(watch);
        }
        if watch.stop_address() == Some(unit.p()) {
            return Some((12, 0));
        }
        self.unlisted(listed, watch)
    }

    /// 7 with the idle figure 0; with any other a halted step waits.
    #[inline]
    fn halted<W: Watch>(&self, watch: &mut W) -> Option<(u8, u8)> {
        if self.idle == 0 {
            return Some((7, 0));
        }
        watch.waiting(self.idle);
        None
    }

    /// 5 or 6, where the byte to be executed is unlisted.
    #[inline]
    fn unlisted<W: Watch>(&self, listed: &Listed, watch: &mut W) -> Option<(u8, u8)> {
        let p = self.lh5801.p();
        let first = self.read_byte(u32::from(p));
        if !listed[0][usize::from(first)] {
            return Some((5, first));
        }
        if first == 0xFD {
            let second = self.read_byte(u32::from(p.wrapping_add(1)));
            if !listed[1][usize::from(second)] {
                return Some((6, second));
            }
            watch.executed(1, second);
        }
        watch.executed(0, first);
        None
    }
}
