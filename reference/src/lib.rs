//! The other program: written from documents 01, 02, 002 and 004 alone, with the standard library alone.
//!
//! It looks at whole windows each second and keeps whole pasts. Powers are whole kW in `i64`; limits are exact
//! fractions of a kW, so that every division named in document 01 is exact or done where 01 does it, under every sheet.

pub mod afrr;
pub mod block;
pub mod book;
pub mod copy;
pub mod cut;
pub mod fcr;
pub mod line;
pub mod maker;
pub mod meters;
pub mod mfrr;
pub mod plant;
pub mod power;
pub mod program;
pub mod record;
pub mod sharing;
pub mod sheet;
pub mod short;
pub mod under_sheet;
