//! The plant second: its refusals in order, its row, its state.

use crate::power::{Band, Limits};
use crate::record::{self, Record};
use crate::sharing::{parts, Part};
use crate::sheet::Sheet;
use crate::{afrr, fcr, mfrr};

/// The most seconds that a plant takes.
pub const MOST_SECONDS: usize = 90_000;

/// One kind's part of a row; all 0 for a kind off.
#[derive(Clone, Copy, Debug, Default, PartialEq)]
pub struct Kind {
    pub setpoint: i64,
    pub band: Band,
    /// In the error's direction.
    pub tolerance: i64,
    /// Of the error's magnitude.
    pub part: Part,
    pub share: i64,
    pub actual: i64,
}

/// A plant's row: FCR, aFRR, mFRR, then open; and what was shared, the error and T.
#[derive(Clone, Copy, Debug, Default, PartialEq)]
pub struct Row {
    pub kinds: [Kind; 3],
    pub open: i64,
    pub error: i64,
    pub total: i64,
}

/// A status: bits 0 to 2 are the kinds, bit 3 marks a technical fault and is never a kind.
pub const KINDS: u8 = 7;
pub const FAULT: u8 = 8;

/// A plant's sheet and its past: its last status, the setpoints of all seconds, those of closed books first, aFRR's carried limits, and
/// mFRR's signal, whose times are in the seconds of the plant's own book.
#[derive(Clone, Debug, Default, PartialEq)]
pub struct Plant {
    pub sheet: Sheet,
    /// How many seconds of the past are those of closed books.
    pub closed: usize,
    pub status: u8,
    pub fcr: Vec<i64>,
    pub afrr: Vec<i64>,
    pub afrr_limits: Limits,
    pub mfrr: mfrr::Signal,
}

/// A record that no refusal number applies to.
#[derive(Clone, Debug)]
pub struct Accepted {
    pub record: Record,
    pub setpoints: [i64; 3],
    pub on: [bool; 3],
    /// The signal with this second's call, if there is one.
    pub called: Option<mfrr::Signal>,
}

fn outside(value: i64, lowest: i64, highest: i64) -> bool {
    value < lowest || highest < value
}

impl Plant {
    /// A fresh plant under a sheet.
    pub fn open(sheet: Sheet) -> Plant {
        Plant {
            sheet,
            ..Plant::default()
        }
    }

    /// Seconds accepted so far in the plant's own book; t is this number.
    pub fn seconds(&self) -> usize {
        self.fcr.len() - self.closed
    }

    /// The state that opens the next book: "setpoints, limits, status, calls and leftovers, with times moved back by the
    /// closed book's length". Its past are the closed books' seconds; its own count starts at 0. "A handed-over book keeps its
    /// sheet."
    pub fn handed_over(&self) -> Plant {
        Plant {
            sheet: self.sheet,
            closed: self.fcr.len(),
            status: self.status,
            fcr: self.fcr.clone(),
            afrr: self.afrr.clone(),
            afrr_limits: self.afrr_limits,
            mfrr: self.mfrr.moved_back(self.seconds() as i64),
        }
    }

    /// "Source document 002 lets pool status change at multiples of 900 seconds only, except after a technical fault":
    /// off those multiples no kind goes on, and one goes off only with bit 3 in the same second.
    fn may_change(&self, now: i64, status: u8) -> bool {
        let goes_on = status & !self.status & KINDS != 0;
        let goes_off = self.status & !status & KINDS != 0;
        now % 900 == 0 || (!goes_on && (!goes_off || status & FAULT != 0))
    }

    /// The refusal numbers in order, for the second that comes next.
    pub fn consider(&self, bytes: &[u8]) -> Result<Accepted, u8> {
        if bytes.len() != record::LENGTH {
            return Err(12);
        }
        let record = Record::read(bytes);
        let now = self.seconds() as i64;
        let target = record.mfrr_target as i64;
        let end = record.delivery_end as i64;
        if self.seconds() >= MOST_SECONDS {
            return Err(1);
        }
        if outside(record.fcr_held as i64, 0, 1_000_000)
            || outside(record.afrr_held_up as i64, 0, 1_000_000)
            || outside(record.afrr_held_down as i64, 0, 1_000_000)
        {
            return Err(2);
        }
        if outside(record.deviation as i64, -5_000, 5_000) {
            return Err(3);
        }
        if outside(record.measured as i64, -4_000_000, 4_000_000)
            || outside(record.working_point as i64, -4_000_000, 4_000_000)
        {
            return Err(4);
        }
        if outside(record.afrr_setpoint as i64, -1_000_000, 1_000_000) {
            return Err(5);
        }
        if record.status > KINDS + FAULT {
            return Err(6);
        }
        if !self.may_change(now, record.status) {
            return Err(26);
        }
        if record.call > 1 || (record.call == 0 && (target != 0 || end != 0)) {
            return Err(7);
        }
        let mut called = None;
        if record.call == 1 {
            if outside(target, -1_000_000, 1_000_000) {
                return Err(8);
            }
            if end % 900 != 0 || outside(end, now + 900, now + 3_600) {
                return Err(9);
            }
            called = Some(self.mfrr.called(now, target, end, &self.sheet)?);
        }
        let setpoints = [
            fcr::setpoint(record.deviation as i64, record.fcr_held as i64),
            record.afrr_setpoint as i64,
            called.as_ref().unwrap_or(&self.mfrr).setpoint(now),
        ];
        let on = [record.status & 1 != 0, record.status & 2 != 0, record.status & 4 != 0];
        for (kind, number) in [11, 24, 25].into_iter().enumerate() {
            if !on[kind] && setpoints[kind] != 0 {
                return Err(number);
            }
        }
        Ok(Accepted {
            record,
            setpoints,
            on,
            called,
        })
    }

    /// Takes an accepted second into the past and gives its limits.
    pub fn take(&mut self, accepted: Accepted) -> [Limits; 3] {
        let now = self.seconds() as i64;
        let record = accepted.record;
        if let Some(signal) = accepted.called {
            self.mfrr = signal;
        }
        self.status = record.status;
        self.fcr.push(accepted.setpoints[0]);
        self.afrr.push(accepted.setpoints[1]);
        self.afrr_limits = afrr::limits(
            &self.afrr,
            self.afrr_limits,
            record.afrr_held_up as i64,
            record.afrr_held_down as i64,
            &self.sheet,
        );
        [
            fcr::limits(&self.fcr, record.fcr_held as i64, &self.sheet),
            self.afrr_limits,
            self.mfrr.limits(now, &self.sheet),
        ]
    }

    /// The row of an accepted second, shared with the given measured value and working point.
    pub fn second(&mut self, accepted: Accepted, measured: i64, working_point: i64) -> Row {
        let on = accepted.on;
        let setpoints = accepted.setpoints;
        let limits = self.take(accepted);
        row(measured, working_point, on, setpoints, limits)
    }
}

/// The tolerances in the error's direction; 0 for a kind off. An error of 0 has no direction, and its shares are 0 whatever the
/// tolerances are; those above the setpoints are taken (docs/DECISIONS.md, 57).
pub fn tolerances(error: i64, on: [bool; 3], setpoints: [i64; 3], bands: [Band; 3]) -> [i64; 3] {
    let mut tolerances = [0; 3];
    for kind in 0..3 {
        if on[kind] && error >= 0 {
            tolerances[kind] = bands[kind].high - setpoints[kind];
        } else if on[kind] {
            tolerances[kind] = setpoints[kind] - bands[kind].low;
        }
    }
    tolerances
}

/// "Error = measured - working point - setpoints of the kinds on", shared; or open, with no kind on.
pub fn row(measured: i64, working_point: i64, on: [bool; 3], setpoints: [i64; 3], limits: [Limits; 3]) -> Row {
    let mut row = Row::default();
    if on == [false; 3] {
        row.open = measured - working_point;
        row.error = row.open;
        return row;
    }
    let mut error = measured - working_point;
    let mut bands = [Band::default(); 3];
    for kind in 0..3 {
        if on[kind] {
            error -= setpoints[kind];
            bands[kind] = limits[kind].published();
        }
    }
    let tolerances = tolerances(error, on, setpoints, bands);
    let parts = parts(error.abs(), tolerances, on);
    row.error = error;
    row.total = tolerances.iter().sum();
    for kind in 0..3 {
        if on[kind] {
            let share = error.signum() * parts[kind].whole();
            row.kinds[kind] = Kind {
                setpoint: setpoints[kind],
                band: bands[kind],
                tolerance: tolerances[kind],
                part: parts[kind],
                share,
                actual: setpoints[kind] + share,
            };
        }
    }
    row
}
