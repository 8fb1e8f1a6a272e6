//! "What makes a triangulation acceptable", and the refusals 1 to 13 in their order.

use crate::sides::{after, mates, Table, NONE};
use crate::{refuse, Office, Refusal, Second, Wrong, GREATEST_COORDINATE, MOST_CORNERS, MOST_POINTS};

/// What an accepted check has found out. A side goes by its place in the corner list.
pub struct Sheet {
    /// Each side's reverse, `NONE` for a rim side.
    pub mates: Vec<u16>,
    /// The rim sides, in rising order.
    pub rim: Vec<u16>,
    /// For each point on the rim the next one, `NONE` for the others.
    pub next: Vec<u16>,
    /// The doubled area of each triangle.
    pub areas: Vec<i32>,
}

/// One point after another, and the first that a test holds for (or the last, if that is the fault to be shown).
fn lowest(count: usize, highest: bool, test: impl Fn(usize) -> bool) -> Option<usize> {
    if highest {
        (0..count).rev().find(|&i| test(i))
    } else {
        (0..count).find(|&i| test(i))
    }
}

/// A point of the plane with x² + y².
#[derive(Clone, Copy)]
struct Raised {
    x: i64,
    y: i64,
    squares: i64,
}

impl Raised {
    fn at(x: u16, y: u16) -> Raised {
        let (x, y) = (x as i64, y as i64);
        Raised { x, y, squares: x * x + y * y }
    }
}

/// A triangle's circle: a point lies strictly inside exactly when u x + v y + d (x² + y²) + e is negative. |u| and |v| are at most
/// 2^44, d and x² + y² at most 2^29, so the first three parts are at most 2^58 each, e three times that, and the sum stays below 2^61.
struct Circle {
    u: i64,
    v: i64,
    d: i64,
    e: i64,
}

impl Circle {
    fn through(a: Raised, b: Raised, c: Raised) -> Circle {
        let (bx, by, bw) = (b.x - a.x, b.y - a.y, b.squares - a.squares);
        let (cx, cy, cw) = (c.x - a.x, c.y - a.y, c.squares - a.squares);
        let (u, v, d) = (by * cw - bw * cy, bw * cx - bx * cw, bx * cy - by * cx);
        Circle { u, v, d, e: -(u * a.x + v * a.y + d * a.squares) }
    }

    /// Negative inside, zero on the circle, positive outside.
    fn side_of(&self, p: Raised) -> i64 {
        self.u * p.x + self.v * p.y + self.d * p.squares + self.e
    }
}

impl Office<'_> {
    fn raised(&self, p: u16) -> Raised {
        Raised::at(self.xs[p as usize], self.ys[p as usize])
    }

    /// The way from one point to another.
    fn way(&self, from: u16, to: u16) -> (i64, i64) {
        let x = |p: u16| self.xs[p as usize] as i64;
        let y = |p: u16| self.ys[p as usize] as i64;
        (x(to) - x(from), y(to) - y(from))
    }

    fn circle(&self, t: usize) -> Circle {
        let corner = |i: usize| self.raised(self.corners[3 * t + i]);
        Circle::through(corner(0), corner(1), corner(2))
    }

    /// The doubled area of each triangle, with its sign.
    fn areas(&self) -> Vec<i32> {
        let area = |t: &[u16]| {
            let (b, c) = (self.way(t[0], t[1]), self.way(t[0], t[2]));
            (b.0 * c.1 - b.1 * c.0) as i32
        };
        self.corners.chunks_exact(3).map(area).collect()
    }

    /// Whether no circle holds the corner across one of its sides, each pair of sides asked once.
    fn clear_of_neighbours(&self, mates: &[u16]) -> bool {
        mates.chunks_exact(3).enumerate().all(|(t, across)| {
            let circle = self.circle(t);
            across.iter().enumerate().all(|(i, &mate)| {
                let (side, mate) = (3 * t + i, mate as usize);
                mate == NONE as usize || mate < side || circle.side_of(self.raised(self.corners[after(after(mate))])) >= 0
            })
        })
    }

    /// Whether a rim that is one ring never turns right and goes round once. It then bounds a convex piece, which the
    /// triangles, none of them negative, cover once: no point is right of it, and no two triangles overlap. Where the circles of
    /// neighbours are clear besides, all circles are.
    fn turns_left(&self, rim: &[u16], next: &[u16]) -> bool {
        let start = self.corners[rim[0] as usize];
        let upward = |d: (i64, i64)| d.1 > 0 || (d.1 == 0 && d.0 > 0);
        let mut at = next[start as usize];
        let mut here = self.way(start, at);
        let mut rounds = 0;
        for _ in rim {
            let to = next[at as usize];
            let there = self.way(at, to);
            let turn = here.0 * there.1 - here.1 * there.0;
            if turn < 0 || (turn == 0 && here.0 * there.0 + here.1 * there.1 < 0) {
                return false;
            }
            rounds += (!upward(here) && upward(there)) as u32;
            (at, here) = (to, there);
        }
        rounds == 1
    }
}

impl Second {
    /// The rim's length, or the first refusal of 1 to 13.
    pub fn check(&self, office: Office) -> Result<usize, Refusal> {
        Ok(self.sheet(office, true)?.rim.len())
    }

    /// The same with rule 4 in its place: `room` says whether the lent buffers are long enough.
    pub(crate) fn sheet(&self, office: Office, room: bool) -> Result<Sheet, Refusal> {
        let Office { xs, ys, corners } = office;
        if xs.len() != ys.len() {
            return refuse(1, 0);
        }
        let points = xs.len();
        if !(3..=MOST_POINTS).contains(&points) {
            return refuse(2, 0);
        }
        if corners.is_empty() || corners.len() % 3 != 0 || corners.len() > MOST_CORNERS {
            return refuse(3, 0);
        }
        if !room && !self.is(Wrong::BuffersLast) {
            return refuse(4, 0);
        }
        let high = self.is(Wrong::HighestPlace);
        if let Some(p) = lowest(points, high, |p| xs[p] > GREATEST_COORDINATE || ys[p] > GREATEST_COORDINATE) {
            return refuse(5, p);
        }
        let mut seen = Table::with_room(points);
        for p in 0..points {
            if let Some(earlier) = seen.put((xs[p], ys[p]), p as u32) {
                return refuse(6, if self.is(Wrong::EarlierOfEqualPoints) { earlier as usize } else { p });
            }
        }
        if let Some(at) = lowest(corners.len(), high, |at| corners[at] as usize >= points) {
            return refuse(7, at);
        }
        let areas = office.areas();
        if let Some(t) = lowest(areas.len(), high, |t| areas[t] <= 0) {
            return refuse(8, t);
        }
        let mates = match mates(corners) {
            Ok(mates) => mates,
            Err(side) => return refuse(9, side / 3),
        };
        let mut used = vec![false; points];
        for &c in corners {
            used[c as usize] = true;
        }
        if let Some(p) = lowest(points, high, |p| !used[p]) {
            return refuse(10, p);
        }

        let rim: Vec<u16> = (0..corners.len() as u16).filter(|&side| mates[side as usize] == NONE).collect();
        let quick =
            |next: &[u16]| self.neighbours_first && room && office.clear_of_neighbours(&mates) && office.turns_left(&rim, next);
        let next = match self.one_ring(office, &rim) {
            Some(next) if quick(&next) => return Ok(Sheet { mates, rim, next, areas }),
            next => next,
        };

        let all: Vec<Raised> = (0..points as u16).map(|p| office.raised(p)).collect();
        let triangle = |t: usize| &corners[3 * t..3 * t + 3];
        let crossed = |t: usize| {
            let circle = office.circle(t);
            if self.is(Wrong::CircleOfNeighboursOnly) {
                return (3 * t..3 * t + 3).any(|side| {
                    let mate = mates[side];
                    mate != NONE && triangle(mate as usize / 3).iter().any(|&p| circle.side_of(all[p as usize]) < 0)
                });
            }
            if self.is(Wrong::RefusesOnCircle) {
                return (0..points).any(|p| !triangle(t).contains(&(p as u16)) && circle.side_of(all[p]) <= 0);
            }
            // Without an early end within a triangle, so that the loop is a plain minimum.
            all.iter().map(|&p| circle.side_of(p)).min().unwrap() < 0
        };
        if let Some(t) = lowest(areas.len(), high, crossed) {
            return refuse(11, t);
        }

        let Some(next) = next else { return refuse(12, 0) };

        // Strictly right of (from, to): the doubled area with it is negative.
        let lines: Vec<(i64, i64, i64)> = rim
            .iter()
            .map(|&side| {
                let from = corners[side as usize];
                let (a, way) = (all[from as usize], office.way(from, corners[after(side as usize)]));
                (-way.1, way.0, way.1 * a.x - way.0 * a.y)
            })
            .collect();
        let right_of = |p: usize, line: &(i64, i64, i64)| line.0 * all[p].x + line.1 * all[p].y + line.2 < 0;
        if self.is(Wrong::RightOfFirstSide) {
            for line in &lines {
                if let Some(p) = (0..points).find(|&p| right_of(p, line)) {
                    return refuse(13, p);
                }
            }
        }
        if let Some(p) = lowest(points, high, |p| lines.iter().any(|line| right_of(p, line))) {
            return refuse(13, p);
        }
        if !room {
            return refuse(4, 0);
        }
        Ok(Sheet { mates, rim, next, areas })
    }

    /// Each rim point's next one, if the rim sides form one closed ring that visits each of its points once.
    fn one_ring(&self, office: Office, rim: &[u16]) -> Option<Vec<u16>> {
        let mut next = vec![NONE; office.xs.len()];
        for &side in rim {
            let from = office.corners[side as usize] as usize;
            if next[from] != NONE && !self.is(Wrong::TakesPinchedRim) {
                return None;
            }
            next[from] = office.corners[after(side as usize)];
        }
        let start = office.corners[*rim.first()? as usize];
        if self.is(Wrong::TakesPinchedRim) {
            return Some(next);
        }
        let (mut at, mut walked) = (next[start as usize], 1);
        // Each point has one way out, so a walk that comes back to its start has visited none twice.
        while at != start {
            if at == NONE || walked == rim.len() {
                return None;
            }
            (at, walked) = (next[at as usize], walked + 1);
        }
        (walked == rim.len()).then_some(next)
    }
}
