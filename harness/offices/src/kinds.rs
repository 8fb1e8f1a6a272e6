//! Kinds of offices.

use crate::{triangulate, Random, Sheet};
use std::collections::HashSet;

const TOP: i64 = 16_383;
const NOWHERE: (i64, i64) = (-1, -1);

#[derive(Clone, Copy, Debug, PartialEq, Eq, Hash, PartialOrd, Ord)]
pub enum Kind {
    /// Anywhere on the whole grid.
    Uniform,
    /// A few heaps of points.
    Clustered,
    /// A lattice with some points left out: many on one circle, many equal lengths.
    Grid,
    /// The four sides of a rectangle hold many points.
    CollinearHull,
    /// Three points hold all others between them.
    ThreePointHull,
    /// Every point is a corner of the hull.
    AllOnHull,
    /// Every point lies on one circle.
    OneCircle,
    /// Points crowded along a bent path, so that peeling runs deep.
    Bent,
    /// A handful of points on a tiny lattice: every degenerate case there is.
    Tiny,
}

impl Kind {
    pub const ALL: [Kind; 9] = [
        Kind::Uniform,
        Kind::Clustered,
        Kind::Grid,
        Kind::CollinearHull,
        Kind::ThreePointHull,
        Kind::AllOnHull,
        Kind::OneCircle,
        Kind::Bent,
        Kind::Tiny,
    ];

    /// The most points that the kind has room for.
    pub fn most(self) -> usize {
        match self {
            Kind::OneCircle => 256,
            Kind::Tiny => 16,
            _ => 1_024,
        }
    }

    pub fn name(self) -> &'static str {
        match self {
            Kind::Uniform => "uniform",
            Kind::Clustered => "clustered",
            Kind::Grid => "grid",
            Kind::CollinearHull => "collinear hull",
            Kind::ThreePointHull => "three-point hull",
            Kind::AllOnHull => "all on the hull",
            Kind::OneCircle => "one circle",
            Kind::Bent => "bent",
            Kind::Tiny => "tiny",
        }
    }
}

/// Distinct points that a source gives, until there are enough; the source may give some off the grid.
fn collect(count: usize, mut source: impl FnMut() -> (i64, i64)) -> Vec<(u16, u16)> {
    let (mut points, mut seen) = (Vec::new(), HashSet::new());
    for _ in 0..200 * count {
        let (x, y) = source();
        if (0..=TOP).contains(&x) && (0..=TOP).contains(&y) && seen.insert((x, y)) {
            points.push((x as u16, y as u16));
        }
        if points.len() == count {
            break;
        }
    }
    points
}

fn around(random: &mut Random, reach: i64) -> i64 {
    (0..3).map(|_| random.within(0, 2 * reach as usize) as i64 - reach).sum::<i64>() / 3
}

/// A convex polygon of at least `count` corners: steps in rising direction, each with its three turns by a
/// right angle, so that they close.
fn convex(count: usize, random: &mut Random) -> Vec<(i64, i64)> {
    let common = |mut a: i64, mut b: i64| {
        while b != 0 {
            (a, b) = (b, a % b);
        }
        a
    };
    let quarter = count.div_ceil(4);
    let mut steps: Vec<(i64, i64)> = Vec::new();
    let mut size = 1;
    while steps.len() < quarter {
        // All directions with x + y = size, none a multiple of an earlier one.
        let mut ring: Vec<(i64, i64)> = (1..=size).map(|x| (x, size - x)).filter(|&(x, y)| common(x, y) == 1).collect();
        random.shuffle(&mut ring);
        ring.truncate(quarter - steps.len());
        steps.extend(ring);
        size += 1;
    }
    let mut all: Vec<(i64, i64)> = steps.iter().flat_map(|&(x, y)| [(x, y), (-y, x), (-x, -y), (y, -x)]).collect();
    let half = |s: &(i64, i64)| (s.1 < 0 || (s.1 == 0 && s.0 < 0)) as u8;
    all.sort_by(|a, b| half(a).cmp(&half(b)).then((b.0 * a.1).cmp(&(a.0 * b.1))));
    let (mut x, mut y) = (0, 0);
    let mut corners = Vec::new();
    for (dx, dy) in all {
        corners.push((x, y));
        (x, y) = (x + dx, y + dy);
    }
    corners
}

/// Moves points so that their least x and y are random, as far as the grid lets them, and stretches them by a whole number.
fn placed(points: Vec<(i64, i64)>, random: &mut Random) -> Vec<(i64, i64)> {
    let low = |of: fn(&(i64, i64)) -> i64| points.iter().map(of).min().unwrap();
    let high = |of: fn(&(i64, i64)) -> i64| points.iter().map(of).max().unwrap();
    let (left, bottom) = (low(|p| p.0), low(|p| p.1));
    let (width, height) = (high(|p| p.0) - left, high(|p| p.1) - bottom);
    let most = TOP / width.max(height).max(1);
    let scale = random.within(1, most as usize) as i64;
    let right = random.within(0, (TOP - scale * width) as usize) as i64;
    let up = random.within(0, (TOP - scale * height) as usize) as i64;
    points.iter().map(|&(x, y)| (right + scale * (x - left), up + scale * (y - bottom))).collect()
}

fn points(kind: Kind, count: usize, random: &mut Random) -> Vec<(u16, u16)> {
    match kind {
        Kind::Uniform => {
            let top = *random.pick(&[TOP, TOP, TOP, 1_000]) as usize;
            collect(count, || (random.within(0, top) as i64, random.within(0, top) as i64))
        }
        Kind::Clustered => {
            let heaps: Vec<(i64, i64, i64)> = (0..random.within(2, 6))
                .map(|_| (random.below(16_384) as i64, random.below(16_384) as i64, random.within(30, 1_500) as i64))
                .collect();
            collect(count, || {
                let &(x, y, reach) = random.pick(&heaps);
                (x + around(random, reach), y + around(random, reach))
            })
        }
        Kind::Grid => {
            let wide = ((count as f64 * 1.3).sqrt().ceil() as usize).max(2);
            let step = random.within(1, TOP as usize / wide);
            let skew = if random.once_in(3) { random.below(step) } else { 0 };
            collect(count, || {
                let (i, j) = (random.below(wide), random.below(wide));
                ((i * step + (j % 2) * skew) as i64, (j * step) as i64)
            })
        }
        Kind::CollinearHull => {
            let top = *random.pick(&[TOP as usize, 12_000, (count / 3).max(6)]);
            let corners = [(0, 0), (top, 0), (top, top), (0, top)];
            let mut given = 0;
            collect(count, || {
                given += 1;
                if given <= 4 {
                    return (corners[given - 1].0 as i64, corners[given - 1].1 as i64);
                }
                let along = random.below(top + 1) as i64;
                match random.below(6) {
                    0 => (along, 0),
                    1 => (top as i64, along),
                    2 => (along, top as i64),
                    3 => (0, along),
                    _ => (along, random.below(top + 1) as i64),
                }
            })
        }
        Kind::ThreePointHull => {
            let mut given = 0;
            collect(count, || {
                given += 1;
                if given <= 3 {
                    return [(0, 0), (TOP, 0), (0, TOP)][given - 1];
                }
                // Strictly between the three.
                let (x, y) = (random.within(1, TOP as usize) as i64, random.within(1, TOP as usize) as i64);
                if x + y < TOP {
                    (x, y)
                } else {
                    NOWHERE
                }
            })
        }
        Kind::AllOnHull => {
            let mut all = placed(convex(count.max(4), random), random);
            random.shuffle(&mut all);
            all.truncate(count);
            all.into_iter().map(|(x, y)| (x as u16, y as u16)).collect()
        }
        Kind::OneCircle => {
            // 5 × 13 × 17 × 29 × 37 × 41 is a sum of two squares in 256 ways.
            let squared: i64 = 48_612_265;
            let mut all = Vec::new();
            for x in -6_972i64..=6_972 {
                let y = ((squared - x * x) as f64).sqrt().round() as i64;
                if x * x + y * y == squared {
                    all.extend([(x + 8_191, y + 8_191), (x + 8_191, 8_191 - y)]);
                }
            }
            random.shuffle(&mut all);
            all.truncate(count);
            all.into_iter().map(|(x, y)| (x as u16, y as u16)).collect()
        }
        Kind::Bent => {
            let thick = random.within(200, 1_500) as i64;
            collect(count, || {
                // Three quarters of a circle, with some width.
                let turn = random.below(4_096) as f64 / 4_096.0 * 4.7;
                let reach = 6_500.0 + around(random, thick) as f64;
                (8_191 + (reach * turn.cos()) as i64, 8_191 + (reach * turn.sin()) as i64)
            })
        }
        Kind::Tiny => {
            let wide = random.within(2, 4);
            let count = count.min(wide * wide);
            collect(count, || (random.below(wide) as i64, random.below(wide) as i64))
        }
    }
}

/// An office of the kind that the check must take, with about `count` points, numbered at random.
pub fn accepted(kind: Kind, count: usize, random: &mut Random) -> Sheet {
    let count = count.clamp(3, kind.most());
    loop {
        let mut all = points(kind, count, random);
        random.shuffle(&mut all);
        let xs: Vec<u16> = all.iter().map(|p| p.0).collect();
        let ys: Vec<u16> = all.iter().map(|p| p.1).collect();
        if xs.len() < 3 {
            continue;
        }
        let Some(corners) = triangulate(&xs, &ys, random) else { continue };
        let mut triangles: Vec<[u16; 3]> = corners.chunks_exact(3).map(|t| [t[0], t[1], t[2]]).collect();
        random.shuffle(&mut triangles);
        for t in &mut triangles {
            t.rotate_left(random.below(3));
        }
        return Sheet { xs, ys, corners: triangles.concat() };
    }
}

#[cfg(test)]
mod tests {
    use super::*;

    /// The rim sides, from the corner list alone.
    fn rim(sheet: &Sheet) -> Vec<(u16, u16)> {
        let sides: Vec<(u16, u16)> =
            sheet.corners.chunks_exact(3).flat_map(|t| [(t[0], t[1]), (t[1], t[2]), (t[2], t[0])]).collect();
        let there: HashSet<(u16, u16)> = sides.iter().copied().collect();
        sides.into_iter().filter(|&(a, b)| !there.contains(&(b, a))).collect()
    }

    #[test]
    fn every_kind_is_triangulated_whole() {
        let mut random = Random::seeded(1);
        for round in 0..60 {
            for kind in Kind::ALL {
                let count = if round < 50 { 3 + round % 30 } else { 200 };
                let sheet = accepted(kind, count, &mut random);
                let (points, rim) = (sheet.points(), rim(&sheet).len());
                // Euler: 2 × points - 2 - rim triangles, when every point is a corner.
                assert_eq!(sheet.triangles(), 2 * points - 2 - rim, "{kind:?} {sheet:?}");
                let used: HashSet<u16> = sheet.corners.iter().copied().collect();
                assert_eq!(used.len(), points);
                for t in sheet.corners.chunks_exact(3) {
                    let at = |p: u16| (sheet.xs[p as usize] as i64, sheet.ys[p as usize] as i64);
                    let (a, b, c) = (at(t[0]), at(t[1]), at(t[2]));
                    assert!((b.0 - a.0) * (c.1 - a.1) > (b.1 - a.1) * (c.0 - a.0));
                }
                if kind == Kind::ThreePointHull {
                    assert_eq!(rim, 3);
                }
                if kind == Kind::AllOnHull || kind == Kind::OneCircle {
                    assert_eq!(rim, points);
                }
            }
        }
    }

    #[test]
    fn kinds_have_room_for_their_most() {
        let mut random = Random::seeded(2);
        for kind in Kind::ALL {
            let sheet = accepted(kind, kind.most(), &mut random);
            if kind != Kind::Tiny {
                assert_eq!(sheet.points(), kind.most(), "{kind:?}");
            }
        }
    }
}
