//! District files, from document 02, 3/13: a MultiPolygon of 1 to 32 complete Polygons, each in a byte order of its own. Rings
//! come one after another in one pair of lists, with a list of their lengths.

use crate::exchange::{are_low, fill, is_ring, polygon_bytes, put, Cursor};
use crate::{refuse, Refusal, Second, Wrong, MOST_RINGS};

impl Second {
    pub fn write_district(&self, xs: &[u16], ys: &[u16], lengths: &[u16], out: &mut [u8]) -> Result<usize, Refusal> {
        if !(1..=MOST_RINGS).contains(&lengths.len()) {
            return refuse(35, 0);
        }
        let mut sum: usize = lengths.iter().map(|&n| n as usize).sum();
        if self.is(Wrong::SumIn16Bits) {
            sum %= 1 << 16;
        }
        if sum != xs.len() {
            return refuse(36, 0);
        }
        if xs.len() != ys.len() || !lengths.iter().all(|&n| is_ring(n as usize)) {
            return refuse(30, 0);
        }
        if !are_low(xs, ys) {
            return refuse(31, 0);
        }
        let mut bytes = vec![1, 6, 0, 0, 0, lengths.len() as u8, 0, 0, 0];
        let (mut later_xs, mut later_ys) = (xs, ys);
        for &n in lengths {
            let (ring_xs, ring_ys);
            (ring_xs, later_xs) = later_xs.split_at(n as usize);
            (ring_ys, later_ys) = later_ys.split_at(n as usize);
            bytes.extend(polygon_bytes(ring_xs, ring_ys));
        }
        put(&bytes, out)
    }

    pub fn read_district(&self, block: &[u8], xs: &mut [u16], ys: &mut [u16], lengths: &mut [u16]) -> Result<usize, Refusal> {
        let mut cursor = Cursor::start(block);
        cursor.begin(6, 22)?;
        let (count, at) = cursor.field(4)?;
        if !(1..=MOST_RINGS as u64).contains(&count) {
            return refuse(35, at);
        }
        if (lengths.len() as u64) < count {
            return refuse(29, at);
        }
        let room = xs.len().min(ys.len());
        let (mut read, mut found) = (Vec::new(), Vec::new());
        for _ in 0..count {
            let (start, before) = (cursor.at, read.len());
            let left = if self.is(Wrong::WholeRoomForEachRing) { room } else { room - before };
            if let Err(fault) = self.polygon_at(&mut cursor, left, &mut read) {
                if self.is(Wrong::KeepsEarlierRings) {
                    fill(&read[..before], xs, ys);
                }
                let from = if self.is(Wrong::PlaceFromPolygon) { start } else { 0 };
                return refuse(fault.number, fault.place - from);
            }
            found.push((read.len() - before) as u16);
        }
        cursor.end()?;
        fill(&read, xs, ys);
        lengths[..found.len()].copy_from_slice(&found);
        Ok(found.len())
    }
}
