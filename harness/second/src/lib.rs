//! The second program: documents 01 and 02 once more, written from the documents alone, to be compared with
//! the library. It is built differently on purpose: a side table made by hashing, an ordered queue of
//! rim sides, coordinates taken apart bit by bit.
//!
//! `Second::right()` follows the document. `Second::wrong(..)` departs from it in one way, so that the
//! comparison can show that it notices.

mod check;
mod districts;
mod exchange;
mod host;
mod peel;
mod points;
mod sides;
mod text;
mod wrong;

pub use exchange::Coordinate;
pub use wrong::Wrong;

pub const GREATEST_COORDINATE: u16 = 16_383;
pub const MOST_POINTS: usize = 1_024;
pub const MOST_CORNERS: usize = 6_129;
pub const MOST_RINGS: usize = 32;

/// A refusal of document 01's table: its number, and the place in brackets there.
#[derive(Clone, Copy, Debug, PartialEq, Eq, PartialOrd, Ord)]
pub struct Refusal {
    pub number: u8,
    pub place: usize,
}

/// The running tally: triangles peeled, doubled area, ring length.
#[derive(Clone, Copy, Debug, PartialEq, Eq, Default)]
pub struct Tally {
    pub peeled: u32,
    pub area: u32,
    pub ring: usize,
}

/// An office as a caller holds it: the x and the y list, and the flat list of corners.
#[derive(Clone, Copy, Debug)]
pub struct Office<'a> {
    pub xs: &'a [u16],
    pub ys: &'a [u16],
    pub corners: &'a [u16],
}

/// What a draw borrows: a mark for each triangle, a mark for each point, a ring buffer.
#[derive(Debug)]
pub struct Lent<'a> {
    pub kept: &'a mut [u8],
    pub rim: &'a mut [u8],
    pub ring: &'a mut [u16],
}

/// What a list borrows besides: least limits, triangles peeled, doubled areas.
#[derive(Debug)]
pub struct Lists<'a> {
    pub least: &'a mut [u32],
    pub peeled: &'a mut [u32],
    pub area: &'a mut [u32],
}

#[derive(Clone, Copy, Debug, Default)]
pub struct Second {
    wrong: Option<Wrong>,
    neighbours_first: bool,
}

impl Second {
    /// The program that follows the document.
    pub fn right() -> Second {
        Second::default()
    }

    /// The same, quicker where it accepts: neighbours are asked first whether a circle holds a corner across, and the rim
    /// whether it only turns left. Where either says no, the table is gone through as it stands.
    pub fn neighbours_first() -> Second {
        Second { wrong: None, neighbours_first: true }
    }

    /// The program that is wrong in the one way named.
    pub fn wrong(way: Wrong) -> Second {
        Second { wrong: Some(way), neighbours_first: false }
    }

    fn is(&self, way: Wrong) -> bool {
        self.wrong == Some(way)
    }
}

fn refuse<T>(number: u8, place: usize) -> Result<T, Refusal> {
    Err(Refusal { number, place })
}

#[cfg(test)]
mod tests;
