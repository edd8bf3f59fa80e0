// Included beside the original, in the same module, where its private fields can be reached.

use crate::call::Record;

impl Lh5801 {
    /// The unit with this record. Every other field is as `default()` leaves it: no reset
    /// pending, no fast forward, no printing.
    pub fn from_record(r: &Record) -> Lh5801 {
        Lh5801 {
            a: r.a,
            t: r.t,
            x: r.x,
            y: r.y,
            u: r.u,
            s: r.s,
            p: r.p,
            is_halted: r.is_halted,
            pu: r.pu,
            pv: r.pv,
            bf: r.bf,
            disp: r.disp,
            ir0: r.ir0,
            ir1: r.ir1,
            ir2: r.ir2,
            is_timer_reached: r.is_timer_reached,
            tm: r.tm,
            timer_state: r.timer_state as usize,
            step_previous_state: r.step_previous_state as usize,
            ticks: r.ticks as usize,
            ..Lh5801::default()
        }
    }

    pub fn record(&self) -> Record {
        Record {
            a: self.a,
            t: self.t,
            x: self.x,
            y: self.y,
            u: self.u,
            s: self.s,
            p: self.p,
            is_halted: self.is_halted,
            pu: self.pu,
            pv: self.pv,
            bf: self.bf,
            disp: self.disp,
            ir0: self.ir0,
            ir1: self.ir1,
            ir2: self.ir2,
            is_timer_reached: self.is_timer_reached,
            tm: self.tm,
            timer_state: self.timer_state as u64,
            step_previous_state: self.step_previous_state as u64,
            ticks: self.ticks as u64,
        }
    }

    pub fn ir0(&self) -> bool {
        self.ir0
    }

    /// An interrupt is requested; a reached timer counts as IR1.
    pub fn is_requested(&self) -> bool {
        self.is_timer_reached || self.ir1 || self.ir2
    }
}

impl Pc1500 {
    /// In place of the original's own definition, which the build has renamed: the idle figure of
    /// document 02, F-1.
    fn halted_states(&self) -> u8 {
        self.idle
    }
}
