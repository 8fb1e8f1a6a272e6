//! Surveyors' point files, from document 02, 1/13: a MultiPoint of complete Points, each in a byte order of its own.

use crate::exchange::{fill, Coordinate, Cursor};
use crate::{refuse, Refusal, Second, Wrong, MOST_POINTS};

impl Second {
    pub fn read_points(&self, block: &[u8], xs: &mut [u16], ys: &mut [u16]) -> Result<usize, Refusal> {
        let mut cursor = Cursor::start(block);
        cursor.begin(4, 22)?;
        let file_is_big = cursor.big;
        let (count, at) = cursor.field(4)?;
        if !(3..=MOST_POINTS as u64).contains(&count) {
            return refuse(24, at);
        }
        let count = count as usize;
        if xs.len().min(ys.len()) < count {
            return refuse(29, at);
        }
        let mut points = Vec::with_capacity(count);
        for _ in 0..count {
            cursor.begin(1, 33)?;
            if self.is(Wrong::FileOrderInPoints) {
                cursor.big = file_is_big;
            }
            let x = cursor.field(8).and_then(|x| self.grid(x))?;
            let y = cursor.field(8).and_then(|y| self.grid(y))?;
            points.push((x, y));
        }
        cursor.end()?;
        fill(&points, xs, ys);
        Ok(count)
    }

    /// The coordinate of a Point that starts at a place, in the Point's own byte order.
    pub fn sent(&self, block: &[u8], place: usize) -> Result<Coordinate, Refusal> {
        let nothing = refuse(20, place);
        let Some(bytes) = block.get(place..).and_then(|rest| rest.first_chunk::<8>()) else { return nothing };
        // The head has 9 bytes, a Point 21: its byte order, its type, x and y.
        for (i, point) in block.get(9..).unwrap_or(&[]).chunks(21).enumerate() {
            let start = 9 + 21 * i;
            if place == start + 5 || place == start + 13 {
                return match point[0] {
                    0 => Ok(Coordinate::of_bits(u64::from_be_bytes(*bytes))),
                    1 => Ok(Coordinate::of_bits(u64::from_le_bytes(*bytes))),
                    _ => nothing,
                };
            }
        }
        nothing
    }
}
