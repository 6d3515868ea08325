//! The book second: the unit first, then A, then B, and the sums kept.

use crate::plant::{Plant, Row};
use crate::record;
use crate::sheet::Sheet;

/// 36 bytes each of U, A and B.
pub const LENGTH: usize = 3 * record::LENGTH;

#[derive(Clone, Copy, Debug, PartialEq)]
pub enum Name {
    U,
    A,
    B,
}

/// A refused book second; 12 and 16 name no plant.
#[derive(Clone, Copy, Debug, PartialEq)]
pub struct Refusal {
    pub number: u8,
    pub plant: Option<Name>,
}

/// kW-seconds over the accepted seconds.
#[derive(Clone, Copy, Debug, Default, PartialEq)]
pub struct Sums {
    pub a: i64,
    pub b: i64,
    pub open: i64,
    pub due: i64,
}

#[derive(Clone, Debug, Default, PartialEq)]
pub struct Book {
    pub unit: Plant,
    pub a: Plant,
    pub b: Plant,
    pub sums: Sums,
}

/// The unit's values that a pool sells: the actuals of the kinds whose owner bit is the pool's.
pub fn unit_values(unit: &Row, owner: u8, pool: u8) -> i64 {
    let mut sum = 0;
    for kind in 0..3 {
        if owner >> kind & 1 == pool {
            sum += unit.kinds[kind].actual;
        }
    }
    sum
}

fn actuals(row: &Row) -> i64 {
    row.kinds.iter().map(|kind| kind.actual).sum()
}

impl Book {
    /// A fresh book with its sheet, or 30 "when a figure is outside its range, before the book opens".
    pub fn open(sheet: Sheet) -> Result<Book, u8> {
        let sheet = sheet.checked()?;
        Ok(Book {
            unit: Plant::open(sheet),
            a: Plant::open(sheet),
            b: Plant::open(sheet),
            ..Book::default()
        })
    }

    /// The book's length: the seconds accepted so far, without those of closed books.
    pub fn seconds(&self) -> usize {
        self.unit.seconds()
    }

    /// The next book, opened with the states that this one closes with and their sheet, its count and its sums 0; or 29 "when the closing book's
    /// length isn't a multiple of 900". This one stays as it was.
    pub fn hand_over(&self) -> Result<Book, u8> {
        if self.seconds() % 900 != 0 {
            return Err(29);
        }
        Ok(Book {
            unit: self.unit.handed_over(),
            a: self.a.handed_over(),
            b: self.b.handed_over(),
            sums: Sums::default(),
        })
    }

    /// The rows of U, A and B, or a refusal that changes none of them.
    pub fn second(&mut self, owner: u8, bytes: &[u8]) -> Result<[Row; 3], Refusal> {
        if bytes.len() != LENGTH {
            return Err(Refusal { number: 12, plant: None });
        }
        if owner > 7 {
            return Err(Refusal { number: 16, plant: None });
        }
        let named = |plant| move |number| Refusal { number, plant: Some(plant) };
        let unit = self.unit.consider(&bytes[0..36]).map_err(named(Name::U))?;
        let a = self.a.consider(&bytes[36..72]).map_err(named(Name::A))?;
        let b = self.b.consider(&bytes[72..108]).map_err(named(Name::B))?;

        let (unit_measured, unit_point) = (unit.record.measured as i64, unit.record.working_point as i64);
        let (a_measured, a_point) = (a.record.measured as i64, a.record.working_point as i64);
        let (b_measured, b_point) = (b.record.measured as i64, b.record.working_point as i64);

        let unit_row = self.unit.second(unit, unit_measured, unit_point);
        let a_row = self.a.second(
            a,
            a_measured + unit_point + unit_values(&unit_row, owner, 0),
            a_point + unit_point,
        );
        let b_row = self.b.second(
            b,
            b_measured + unit_point + unit_values(&unit_row, owner, 1),
            b_point + unit_point,
        );

        self.sums.a += actuals(&a_row);
        self.sums.b += actuals(&b_row);
        self.sums.open += unit_row.open + a_row.open + b_row.open;
        self.sums.due += unit_measured - unit_point + a_measured - a_point + b_measured - b_point;
        Ok([unit_row, a_row, b_row])
    }
}
