//! Polygon bytes. Coordinates are taken apart and put together bit by bit, with no cast of a float.

use crate::{refuse, Refusal, Second, Wrong, GREATEST_COORDINATE, MOST_POINTS};

/// A coordinate as read. A value off the grid keeps its bits.
#[derive(Clone, Copy, Debug, PartialEq, Eq)]
pub enum Coordinate {
    Grid(u16),
    OffGrid(u64),
    NotFinite,
}

impl Coordinate {
    /// Sign, exponent and fraction of a 64-bit float decide.
    pub fn of_bits(bits: u64) -> Coordinate {
        let exponent = (bits >> 52 & 0x7FF) as i64 - 1023;
        let fraction = bits & ((1 << 52) - 1);
        if exponent == 1024 {
            return Coordinate::NotFinite;
        }
        if bits == 0 {
            return Coordinate::Grid(0);
        }
        // A set sign bit, anything below 1, and 2^14 = 16,384 and up are off the grid.
        if bits >> 63 == 1 || !(0..14).contains(&exponent) {
            return Coordinate::OffGrid(bits);
        }
        let whole = 1 << exponent | fraction >> (52 - exponent);
        if fraction << (12 + exponent) != 0 {
            return Coordinate::OffGrid(bits);
        }
        Coordinate::Grid(whole as u16)
    }

    /// The 64-bit float that is the grid number.
    pub fn to_bits(grid: u16) -> u64 {
        if grid == 0 {
            return 0;
        }
        let exponent = 15 - grid.leading_zeros() as u64;
        let fraction = (grid as u64) << (52 - exponent) & ((1 << 52) - 1);
        (exponent + 1023) << 52 | fraction
    }
}

/// Reads left to right; the place of a fault is the offset of its field.
pub(crate) struct Cursor<'a> {
    pub block: &'a [u8],
    pub at: usize,
    pub big: bool,
}

impl<'a> Cursor<'a> {
    pub fn start(block: &'a [u8]) -> Cursor<'a> {
        Cursor { block, at: 0, big: false }
    }

    pub fn field(&mut self, width: usize) -> Result<(u64, usize), Refusal> {
        let at = self.at;
        let Some(bytes) = self.block.get(at..at + width) else { return refuse(20, at) };
        self.at += width;
        let mut value = 0;
        for i in 0..width {
            value = value << 8 | bytes[if self.big { i } else { width - 1 - i }] as u64;
        }
        Ok((value, at))
    }

    /// The byte order and the type that a shape begins with.
    pub fn begin(&mut self, kind: u64, number: u8) -> Result<(), Refusal> {
        match self.field(1)? {
            (order @ 0..=1, _) => self.big = order == 0,
            (_, at) => return refuse(21, at),
        }
        match self.field(4)? {
            (found, _) if found == kind => Ok(()),
            (_, at) => refuse(number, at),
        }
    }

    /// No bytes are left over.
    pub fn end(&self) -> Result<(), Refusal> {
        if self.at != self.block.len() {
            return refuse(28, self.at);
        }
        Ok(())
    }
}

/// Whether a ring may have so many points.
pub(crate) fn is_ring(points: usize) -> bool {
    (3..=MOST_POINTS).contains(&points)
}

/// Whether every coordinate lies on the grid.
pub(crate) fn are_low(xs: &[u16], ys: &[u16]) -> bool {
    xs.iter().chain(ys).all(|&c| c <= GREATEST_COORDINATE)
}

/// The polygon of a ring, little-endian.
pub(crate) fn polygon_bytes(xs: &[u16], ys: &[u16]) -> Vec<u8> {
    let mut bytes = vec![1, 3, 0, 0, 0, 1, 0, 0, 0];
    bytes.extend((xs.len() as u32 + 1).to_le_bytes());
    for i in (0..xs.len()).chain([0]) {
        bytes.extend(Coordinate::to_bits(xs[i]).to_le_bytes());
        bytes.extend(Coordinate::to_bits(ys[i]).to_le_bytes());
    }
    bytes
}

/// Puts bytes at the front of an output that has room for them.
pub(crate) fn put(bytes: &[u8], out: &mut [u8]) -> Result<usize, Refusal> {
    let Some(front) = out.get_mut(..bytes.len()) else { return refuse(32, 0) };
    front.copy_from_slice(bytes);
    Ok(bytes.len())
}

/// Fills the fronts of the lists.
pub(crate) fn fill(read: &[(u16, u16)], xs: &mut [u16], ys: &mut [u16]) {
    for ((&(x, y), to_x), to_y) in read.iter().zip(xs).zip(ys) {
        (*to_x, *to_y) = (x, y);
    }
}

impl Second {
    pub fn write(&self, xs: &[u16], ys: &[u16], out: &mut [u8]) -> Result<usize, Refusal> {
        if xs.len() != ys.len() || !is_ring(xs.len()) {
            return refuse(30, 0);
        }
        if !are_low(xs, ys) {
            return refuse(31, 0);
        }
        put(&polygon_bytes(xs, ys), out)
    }

    pub fn read(&self, block: &[u8], xs: &mut [u16], ys: &mut [u16]) -> Result<usize, Refusal> {
        let mut cursor = Cursor::start(block);
        let mut ring = Vec::new();
        let answer = self.polygon_at(&mut cursor, xs.len().min(ys.len()), &mut ring);
        if self.is(Wrong::WritesBeforeFault) {
            fill(&ring, xs, ys);
        }
        answer?;
        if !self.is(Wrong::IgnoresBytesLeft) {
            cursor.end()?;
        }
        fill(&ring, xs, ys);
        Ok(ring.len())
    }

    /// Adds the ring of the polygon where the cursor stands to those read before, for lists that have so much room left.
    pub(crate) fn polygon_at(&self, cursor: &mut Cursor, room: usize, read: &mut Vec<(u16, u16)>) -> Result<(), Refusal> {
        cursor.begin(3, 22)?;
        let big = cursor.big;
        if self.is(Wrong::CountsLittleEndian) {
            cursor.big = false;
        }
        let (rings, at) = cursor.field(4)?;
        if rings != 1 {
            return refuse(23, at);
        }
        let (count, at) = cursor.field(4)?;
        if count == 0 || !is_ring(count as usize - 1) {
            return refuse(24, at);
        }
        if room < count as usize - 1 {
            return refuse(29, at);
        }
        cursor.big = big;
        let first = read.len();
        for _ in 0..count {
            let position = if self.is(Wrong::PositionFirst) {
                let (x, y) = (cursor.field(8)?, cursor.field(8)?);
                (self.grid(x)?, self.grid(y)?)
            } else {
                let x = cursor.field(8).and_then(|x| self.grid(x))?;
                (x, cursor.field(8).and_then(|y| self.grid(y))?)
            };
            read.push(position);
        }
        if read.pop() != read.get(first).copied() && !self.is(Wrong::NoClosingCompare) {
            return refuse(27, cursor.at - 16);
        }
        Ok(())
    }

    pub(crate) fn grid(&self, (bits, at): (u64, usize)) -> Result<u16, Refusal> {
        if self.is(Wrong::TakesMinusZero) && bits == 1 << 63 {
            return Ok(0);
        }
        match Coordinate::of_bits(bits) {
            Coordinate::Grid(number) => Ok(number),
            Coordinate::NotFinite => refuse(25, at),
            Coordinate::OffGrid(_) => refuse(26, at),
        }
    }

    /// Judges the eight bytes at a place.
    pub fn judge(&self, block: &[u8], order: u8, place: usize) -> Result<Coordinate, Refusal> {
        if order > 1 {
            return refuse(21, 0);
        }
        // A place past the block has no bytes; asking from there on cannot wrap.
        let Some(rest) = block.get(place..) else { return refuse(20, place) };
        let Some(bytes) = rest.first_chunk::<8>() else { return refuse(20, place) };
        let bits = if order == 0 { u64::from_be_bytes(*bytes) } else { u64::from_le_bytes(*bytes) };
        Ok(Coordinate::of_bits(bits))
    }
}
