//! The sheet of figures that is handed over with a fresh book (document 02, W9).

use crate::power::Ratio;

/// "The floors, one each for FCR and aFRR, and the excess over 1 are whole percent from 0 to 50. The minimum gradient range is
/// whole kW from 1 to 100,000. The FCR reaction time is 5 to 15 seconds ... The aFRR reaction time is 1 to 60 seconds."
#[derive(Clone, Copy, Debug, PartialEq, Eq, PartialOrd, Ord)]
pub struct Sheet {
    pub fcr_floor: i64,
    pub afrr_floor: i64,
    /// Of mFRR's factor over 1.
    pub excess: i64,
    pub least_range: i64,
    pub fcr_reaction: i64,
    pub afrr_reaction: i64,
}

/// A figure's name, its lowest and its highest value, in the order of `figures`.
pub const RANGES: [(&str, i64, i64); 6] = [
    ("FCR floor", 0, 50),
    ("aFRR floor", 0, 50),
    ("excess", 0, 50),
    ("least range", 1, 100_000),
    ("FCR reaction time", 5, 15),
    ("aFRR reaction time", 1, 60),
];

/// The length of a sheet before a book, and which of its bytes are spare.
pub const LENGTH: usize = 16;
pub const SPARE: [usize; 7] = [5, 6, 7, 12, 13, 14, 15];

impl Default for Sheet {
    /// Document 01's figures, but for "the default range is now 1,000 kW, as small providers bid less".
    fn default() -> Sheet {
        Sheet::of([5, 5, 20, 1_000, 15, 30])
    }
}

impl Sheet {
    pub fn of(figures: [i64; 6]) -> Sheet {
        let [fcr_floor, afrr_floor, excess, least_range, fcr_reaction, afrr_reaction] = figures;
        Sheet {
            fcr_floor,
            afrr_floor,
            excess,
            least_range,
            fcr_reaction,
            afrr_reaction,
        }
    }

    pub fn figures(&self) -> [i64; 6] {
        [
            self.fcr_floor,
            self.afrr_floor,
            self.excess,
            self.least_range,
            self.fcr_reaction,
            self.afrr_reaction,
        ]
    }

    /// "30 when a figure is outside its range."
    pub fn checked(self) -> Result<Sheet, u8> {
        for (figure, (_, lowest, highest)) in self.figures().into_iter().zip(RANGES) {
            if figure < lowest || highest < figure {
                return Err(30);
            }
        }
        Ok(self)
    }

    /// "The whole FCR time w is twice that."
    pub fn fcr_time(&self) -> i64 {
        2 * self.fcr_reaction
    }

    /// mFRR's factor, 1 and the excess, times a power.
    pub fn with_excess(&self, power: i64) -> Ratio {
        Ratio::new(power * (100 + self.excess), 100)
    }

    /// The sheet of 16 bytes: 12 for another length, 18 for a spare byte that isn't 0. The figures are not judged.
    pub fn read(bytes: &[u8]) -> Result<Sheet, u8> {
        if bytes.len() != LENGTH {
            return Err(12);
        }
        if SPARE.iter().any(|&place| bytes[place] != 0) {
            return Err(18);
        }
        let least_range = i32::from_le_bytes([bytes[8], bytes[9], bytes[10], bytes[11]]);
        Ok(Sheet {
            fcr_floor: bytes[0] as i64,
            afrr_floor: bytes[1] as i64,
            excess: bytes[2] as i64,
            least_range: least_range as i64,
            fcr_reaction: bytes[3] as i64,
            afrr_reaction: bytes[4] as i64,
        })
    }

    /// The 16 bytes of the figures.
    pub fn write(&self) -> [u8; LENGTH] {
        let mut bytes = [0; LENGTH];
        let small = [self.fcr_floor, self.afrr_floor, self.excess, self.fcr_reaction, self.afrr_reaction];
        for (place, figure) in small.into_iter().enumerate() {
            bytes[place] = u8::try_from(figure).expect("a figure of one byte");
        }
        let least_range = i32::try_from(self.least_range).expect("a range of four bytes");
        bytes[8..12].copy_from_slice(&least_range.to_le_bytes());
        bytes
    }
}

/// A whole percentage of a held power.
pub fn percent(percentage: i64, held: i64) -> Ratio {
    Ratio::new(percentage * held, 100)
}
