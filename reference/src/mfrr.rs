//! mFRR: signal, calls, leftovers and band (004, lines 326 to 353).

use crate::power::{Limits, Ratio};
use crate::sheet::Sheet;

/// "At most 8 leftovers."
pub const PLACES: usize = 8;

#[derive(Clone, Copy, Debug, PartialEq)]
pub enum Phase {
    Resting,
    RampingUp,
    Delivering,
    RampingDown,
}

/// A call at second `at` with `target` e and delivery end `end`; `start` is b.
#[derive(Clone, Copy, Debug, PartialEq)]
pub struct Call {
    pub at: i64,
    pub start: i64,
    pub target: i64,
    pub end: i64,
}

impl Call {
    /// "Up through j + 900 ...; delivering e through D; down through D + 900 ...; then 0."
    pub fn phase(&self, now: i64) -> Phase {
        if now <= self.at + 900 {
            Phase::RampingUp
        } else if now <= self.end {
            Phase::Delivering
        } else if now <= self.end + 900 {
            Phase::RampingDown
        } else {
            Phase::Resting
        }
    }

    /// The last second of the phase that the call is in; a rest has none.
    pub fn phase_ends(&self, now: i64) -> Option<i64> {
        match self.phase(now) {
            Phase::RampingUp => Some(self.at + 900),
            Phase::Delivering => Some(self.end),
            Phase::RampingDown => Some(self.end + 900),
            Phase::Resting => None,
        }
    }

    pub fn setpoint(&self, now: i64) -> i64 {
        match self.phase(now) {
            Phase::RampingUp => self.start + (self.target - self.start) * (now - self.at) / 900,
            Phase::Delivering => self.target,
            Phase::RampingDown => self.target - self.target * (now - self.end) / 900,
            Phase::Resting => 0,
        }
    }

    /// "The largest and smallest of: ramping up b, e, 1.2 × e; delivering e, 1.2 × e; ramping down 0, e, 1.2 × e", the sheet's
    /// factor in the place of 1.2.
    pub fn limits(&self, now: i64, sheet: &Sheet) -> Option<Limits> {
        let e = Ratio::from(self.target);
        let more = sheet.with_excess(self.target);
        let third = match self.phase(now) {
            Phase::RampingUp => Ratio::from(self.start),
            Phase::Delivering => e,
            Phase::RampingDown => Ratio::from(0),
            Phase::Resting => return None,
        };
        Some(Limits {
            low: e.min(more).min(third),
            high: e.max(more).max(third),
        })
    }
}

/// The limits of a call that a new one ended, and the last second at which they count.
#[derive(Clone, Copy, Debug, PartialEq)]
pub struct Leftover {
    pub limits: Limits,
    pub last: i64,
}

/// The signal: the running call, if there was one, and the leftovers.
#[derive(Clone, Debug, Default, PartialEq)]
pub struct Signal {
    pub call: Option<Call>,
    pub leftovers: Vec<Leftover>,
}

impl Signal {
    pub fn setpoint(&self, now: i64) -> i64 {
        match self.call {
            Some(call) => call.setpoint(now),
            None => 0,
        }
    }

    /// Whether the signal gives 0 in each of `count` seconds from `now` on, if no call comes.
    pub fn stays_zero(&self, now: i64, count: i64) -> bool {
        (now..now + count).all(|second| self.setpoint(second) == 0)
    }

    pub fn resting(&self, now: i64) -> bool {
        match self.call {
            Some(call) => call.phase(now) == Phase::Resting,
            None => true,
        }
    }

    /// The leftovers that count at `now`: "one whose last second is past frees its place".
    pub fn counting(&self, now: i64) -> impl Iterator<Item = &Leftover> {
        self.leftovers.iter().filter(move |leftover| now <= leftover.last)
    }

    /// The signal with a new call at `now`, or 10 for a ninth leftover.
    pub fn called(&self, now: i64, target: i64, end: i64, sheet: &Sheet) -> Result<Signal, u8> {
        let mut leftovers: Vec<Leftover> = self.counting(now).copied().collect();
        if let Some(old) = self.call {
            if let (Some(limits), Some(last)) = (old.limits(now, sheet), old.phase_ends(now)) {
                if leftovers.len() == PLACES {
                    return Err(10);
                }
                leftovers.push(Leftover { limits, last });
            }
        }
        let call = Call {
            at: now,
            start: self.setpoint(now),
            target,
            end,
        };
        Ok(Signal {
            call: Some(call),
            leftovers,
        })
    }

    /// The same signal in the seconds of a book that begins `by` seconds later.
    pub fn moved_back(&self, by: i64) -> Signal {
        let call = |call: Call| Call {
            at: call.at - by,
            end: call.end - by,
            ..call
        };
        let leftover = |leftover: &Leftover| Leftover {
            last: leftover.last - by,
            ..*leftover
        };
        Signal {
            call: self.call.map(call),
            leftovers: self.leftovers.iter().map(leftover).collect(),
        }
    }

    /// "The band spans s, the running call and all leftovers."
    pub fn limits(&self, now: i64, sheet: &Sheet) -> Limits {
        let s = Ratio::from(self.setpoint(now));
        let mut band = Limits { low: s, high: s };
        let running = self.call.and_then(|call| call.limits(now, sheet));
        for limits in running.into_iter().chain(self.counting(now).map(|leftover| leftover.limits)) {
            band.low = band.low.min(limits.low);
            band.high = band.high.max(limits.high);
        }
        band
    }
}
