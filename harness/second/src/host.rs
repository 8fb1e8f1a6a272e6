//! The console's one C function: plain byte blocks in, polygon bytes out.

use crate::peel::Peeling;
use crate::{Lent, Office, Refusal, Second, Wrong, MOST_CORNERS, MOST_POINTS};

fn pairs(block: &[u8]) -> Vec<u16> {
    block.chunks_exact(2).map(|b| u16::from_le_bytes([b[0], b[1]])).collect()
}

impl Second {
    /// The bytes of polygon written, or minus the refusal number.
    pub fn outline_polygon(&self, points: &[u8], triangles: &[u8], limit: u32, out: &mut [u8]) -> i64 {
        if self.is(Wrong::OutputFirst) && out.len() < 13 + 16 * 4 {
            return -32;
        }
        match self.polygon(points, triangles, limit, out) {
            Ok(bytes) => bytes as i64,
            Err(refusal) => -(refusal.number as i64),
        }
    }

    fn polygon(&self, points: &[u8], triangles: &[u8], limit: u32, out: &mut [u8]) -> Result<usize, Refusal> {
        let refused = |number| Err(Refusal { number, place: 0 });
        if points.len() % 4 != 0 {
            return refused(1);
        }
        if !(3..=MOST_POINTS).contains(&(points.len() / 4)) {
            return refused(2);
        }
        if triangles.is_empty() || triangles.len() % 6 != 0 || triangles.len() > 2 * MOST_CORNERS {
            return refused(3);
        }
        let positions = pairs(points);
        let xs: Vec<u16> = positions.iter().step_by(2).copied().collect();
        let ys: Vec<u16> = positions.iter().skip(1).step_by(2).copied().collect();
        let corners = pairs(triangles);
        let office = Office { xs: &xs, ys: &ys, corners: &corners };
        let (mut kept, mut rim, mut ring) = (vec![0; corners.len() / 3], vec![0; xs.len()], vec![0; xs.len()]);
        let tally = self.draw(office, limit, &mut Lent { kept: &mut kept, rim: &mut rim, ring: &mut ring })?;
        let outline = self.outline(&ring, tally);
        let ring_xs: Vec<u16> = outline.iter().map(|&p| xs[p as usize]).collect();
        let ring_ys: Vec<u16> = outline.iter().map(|&p| ys[p as usize]).collect();
        self.write(&ring_xs, &ring_ys, out)
    }

    /// A peeling of an office that the check takes.
    pub(crate) fn peeling<'a>(&self, office: Office<'a>) -> Result<Peeling<'a>, Refusal> {
        Ok(Peeling::start(*self, office, self.sheet(office, true)?))
    }
}
