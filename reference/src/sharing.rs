//! Sharing an error over the kinds that are on.

/// A kind's part of an error's magnitude: the share rounded down, its remainder over T, and whether it got an extra kW.
#[derive(Clone, Copy, Debug, Default, PartialEq)]
pub struct Part {
    pub share: i64,
    pub remainder: i64,
    pub extra: bool,
}

impl Part {
    /// The share with its extra kW.
    pub fn whole(self) -> i64 {
        self.share + self.extra as i64
    }
}

/// The parts of a magnitude by tolerance: "|error| × tolerance / T rounded down, then the missing kW one each to the
/// largest remainders, ties in the order FCR, aFRR, mFRR". A kind off has tolerance 0 here and gets nothing. "T = 0: all to
/// the first kind on in that order", without a remainder or an extra kW.
pub fn parts(magnitude: i64, tolerances: [i64; 3], on: [bool; 3]) -> [Part; 3] {
    let total: i64 = tolerances.iter().sum();
    let mut parts = [Part::default(); 3];
    if total == 0 {
        for kind in 0..3 {
            if on[kind] {
                parts[kind].share = magnitude;
                return parts;
            }
        }
        return parts;
    }
    for kind in 0..3 {
        parts[kind].share = magnitude * tolerances[kind] / total;
        parts[kind].remainder = magnitude * tolerances[kind] % total;
    }
    let mut order = [0, 1, 2];
    order.sort_by_key(|&kind| -parts[kind].remainder); // stable: ties stay in the order of the kinds
    let missing = magnitude - parts.iter().map(|part| part.share).sum::<i64>();
    for &kind in order.iter().take(missing as usize) {
        parts[kind].extra = true;
    }
    parts
}
