//! Offices to compare on: random points of several kinds, their exact Delaunay triangulations, and the
//! same damaged.

mod damage;
mod delaunay;
mod kinds;
mod random;

pub use damage::{damaged, garbage, Damage};
pub use delaunay::triangulate;
pub use kinds::{accepted, Kind};
pub use random::Random;

/// An office that owns its lists.
#[derive(Clone, Debug, PartialEq, Eq, Default)]
pub struct Sheet {
    pub xs: Vec<u16>,
    pub ys: Vec<u16>,
    pub corners: Vec<u16>,
}

impl Sheet {
    pub fn points(&self) -> usize {
        self.xs.len()
    }

    pub fn triangles(&self) -> usize {
        self.corners.len() / 3
    }

    /// Each squared length of a side, once, in rising order. Corners that are no point are passed over.
    pub fn squared_lengths(&self) -> Vec<u32> {
        let points = self.xs.len().min(self.ys.len());
        let mut lengths = Vec::new();
        for t in self.corners.chunks_exact(3) {
            for (a, b) in [(t[0] as usize, t[1] as usize), (t[1] as usize, t[2] as usize), (t[2] as usize, t[0] as usize)] {
                if a < points && b < points {
                    let across = self.xs[a].abs_diff(self.xs[b]) as u64;
                    let up = self.ys[a].abs_diff(self.ys[b]) as u64;
                    lengths.push((across * across + up * up).min(u32::MAX as u64) as u32);
                }
            }
        }
        lengths.sort_unstable();
        lengths.dedup();
        lengths
    }
}
