//! Offices that the check must refuse, and some that it need not.

use crate::{triangulate, Random, Sheet};
use std::collections::{HashMap, HashSet};

#[derive(Clone, Copy, Debug, PartialEq, Eq)]
pub enum Damage {
    /// The x and y lists differ in length.
    UnequalLists,
    FewPoints,
    ManyPoints,
    NoCorners,
    /// A corner list that is no multiple of 3.
    CutCorners,
    ManyCorners,
    /// A coordinate above 16,383.
    LargeCoordinate,
    EqualPoints,
    /// A corner that is no point number.
    BadCorner,
    /// A triangle's corners run clockwise.
    Turned,
    /// A triangle has a corner twice.
    Collapsed,
    /// A triangle stands there twice.
    Doubled,
    /// A triangle takes another's place.
    Replaced,
    /// A point that no triangle has.
    UnusedPoint,
    /// All triangles of a point are left out.
    DroppedFan,
    /// A point lies elsewhere.
    MovedPoint,
    /// A point lies one step aside.
    NudgedPoint,
    /// Two points have changed numbers.
    SwappedPoints,
    /// The other diagonal of a convex pair of triangles.
    FlippedDiagonal,
    /// A triangle is left out.
    Dropped,
    /// Rim triangles are left out whose third corner is inside.
    Dented,
    /// A triangle is left out whose third corner is on the rim.
    Pinched,
    /// Two lattices apart, each triangulated.
    TwoParts,
    /// Two triangulations one over the other.
    Overlaid,
}

impl Damage {
    pub const ALL: [Damage; 24] = [
        Damage::UnequalLists,
        Damage::FewPoints,
        Damage::ManyPoints,
        Damage::NoCorners,
        Damage::CutCorners,
        Damage::ManyCorners,
        Damage::LargeCoordinate,
        Damage::EqualPoints,
        Damage::BadCorner,
        Damage::Turned,
        Damage::Collapsed,
        Damage::Doubled,
        Damage::Replaced,
        Damage::UnusedPoint,
        Damage::DroppedFan,
        Damage::MovedPoint,
        Damage::NudgedPoint,
        Damage::SwappedPoints,
        Damage::FlippedDiagonal,
        Damage::Dropped,
        Damage::Dented,
        Damage::Pinched,
        Damage::TwoParts,
        Damage::Overlaid,
    ];
}

/// Each directed side's place in the corner list.
fn sides(sheet: &Sheet) -> HashMap<(u16, u16), usize> {
    (0..sheet.corners.len() / 3 * 3).map(|h| ((sheet.corners[h], sheet.corners[after(h)]), h)).collect()
}

fn after(h: usize) -> usize {
    if h % 3 == 2 {
        h - 2
    } else {
        h + 1
    }
}

/// Puts a point in at a number, and the numbers from there on one up.
fn insert_point(sheet: &mut Sheet, number: usize, x: u16, y: u16) {
    sheet.xs.insert(number, x);
    sheet.ys.insert(number, y);
    for c in &mut sheet.corners {
        *c = c.saturating_add((*c as usize >= number) as u16);
    }
}

/// Leaves out triangles that lie on a rim side, with the third corner on the rim or not, as asked.
fn drop_at_rim(sheet: &mut Sheet, third_on_rim: bool, random: &mut Random) {
    let sides = sides(sheet);
    let mut on_rim = vec![false; sheet.points()];
    let mut rim = Vec::new();
    for (&(a, b), &h) in &sides {
        if !sides.contains_key(&(b, a)) {
            on_rim[a as usize] = true;
            rim.push(h);
        }
    }
    rim.sort_unstable();
    random.shuffle(&mut rim);
    if let Some(&h) = rim.iter().find(|&&h| on_rim[sheet.corners[after(after(h))] as usize] == third_on_rim) {
        let t = h / 3;
        sheet.corners.drain(3 * t..3 * t + 3);
    }
}

/// The damage done once, where the office has room for it.
fn strike(sheet: &mut Sheet, damage: Damage, random: &mut Random) {
    let (points, triangles) = (sheet.points().min(sheet.ys.len()), sheet.triangles());
    if points == 0 || triangles == 0 {
        return;
    }
    let (point, triangle) = (random.below(points), random.below(triangles));
    let sound = sheet.xs.len() == sheet.ys.len() && sheet.corners.iter().all(|&c| (c as usize) < points);
    match damage {
        // These look at the triangles' geometry.
        Damage::FlippedDiagonal | Damage::Dented | Damage::Pinched | Damage::Overlaid if !sound => (),
        Damage::UnequalLists => {
            let list = if random.once_in(2) { &mut sheet.xs } else { &mut sheet.ys };
            if random.once_in(2) {
                list.pop();
            } else {
                list.push(random.below(16_384) as u16);
            }
        }
        Damage::FewPoints => {
            let left = random.below(3);
            sheet.xs.truncate(left);
            sheet.ys.truncate(left);
        }
        Damage::ManyPoints => {
            let more = *random.pick(&[1_025, 1_025, 1_026, 1_100, 2_000]);
            sheet.xs.resize(more, 3);
            sheet.ys.resize(more, 5);
        }
        Damage::NoCorners => sheet.corners.clear(),
        Damage::CutCorners => {
            let left = sheet.corners.len() - random.within(1, 2);
            sheet.corners.truncate(left);
        }
        Damage::ManyCorners => {
            let more = *random.pick(&[6_130, 6_131, 6_132, 6_132, 9_000]);
            sheet.corners.resize(more, 0);
        }
        Damage::LargeCoordinate => {
            let large = *random.pick(&[16_384, 16_385, 20_000, 32_768, 65_535]);
            *if random.once_in(2) { &mut sheet.xs[point] } else { &mut sheet.ys[point] } = large;
        }
        Damage::EqualPoints => {
            let other = random.below(points);
            (sheet.xs[point], sheet.ys[point]) = (sheet.xs[other], sheet.ys[other]);
        }
        Damage::BadCorner => {
            let at = random.below(sheet.corners.len());
            sheet.corners[at] = *random.pick(&[points, points, points + 1, 1_024, 32_768, 65_535]) as u16;
        }
        Damage::Turned => sheet.corners.swap(3 * triangle, 3 * triangle + random.within(1, 2)),
        Damage::Collapsed => {
            let (from, to) = (random.below(3), random.below(3));
            sheet.corners[3 * triangle + to] = sheet.corners[3 * triangle + from];
        }
        Damage::Doubled => {
            let mut copy = sheet.corners[3 * triangle..3 * triangle + 3].to_vec();
            copy.rotate_left(random.below(3));
            let at = 3 * random.below(triangles + 1);
            sheet.corners.splice(at..at, copy);
        }
        Damage::Replaced => {
            let other = random.below(triangles);
            sheet.corners.copy_within(3 * other..3 * other + 3, 3 * triangle);
        }
        Damage::UnusedPoint => {
            let (number, x, y) = (random.within(0, points), random.below(16_384), random.below(16_384));
            insert_point(sheet, number, x as u16, y as u16);
        }
        Damage::DroppedFan => {
            let kept: Vec<u16> = sheet.corners.chunks(3).filter(|t| !t.contains(&(point as u16))).flatten().copied().collect();
            if !kept.is_empty() {
                sheet.corners = kept;
            }
        }
        Damage::MovedPoint => {
            (sheet.xs[point], sheet.ys[point]) = (random.below(16_384) as u16, random.below(16_384) as u16);
        }
        Damage::NudgedPoint => {
            let list = if random.once_in(2) { &mut sheet.xs } else { &mut sheet.ys };
            list[point] = if random.once_in(2) { list[point].saturating_add(1) } else { list[point].saturating_sub(1) };
        }
        Damage::SwappedPoints => {
            let other = random.below(points);
            sheet.xs.swap(point, other);
            sheet.ys.swap(point, other);
        }
        Damage::FlippedDiagonal => {
            let sides = sides(sheet);
            for _ in 0..20 {
                let h = random.below(3 * triangles);
                let (a, b) = (sheet.corners[h], sheet.corners[after(h)]);
                let Some(&g) = sides.get(&(b, a)) else { continue };
                let (c, d) = (sheet.corners[after(after(h))], sheet.corners[after(after(g))]);
                let at = |p: u16| (sheet.xs[p as usize] as i64, sheet.ys[p as usize] as i64);
                let turns = |p: u16, q: u16, r: u16| {
                    let (p, q, r) = (at(p), at(q), at(r));
                    (q.0 - p.0) * (r.1 - p.1) > (q.1 - p.1) * (r.0 - p.0)
                };
                if turns(a, d, c) && turns(d, b, c) {
                    sheet.corners[h / 3 * 3..h / 3 * 3 + 3].copy_from_slice(&[a, d, c]);
                    sheet.corners[g / 3 * 3..g / 3 * 3 + 3].copy_from_slice(&[d, b, c]);
                    break;
                }
            }
        }
        Damage::Dropped => {
            if triangles > 1 {
                sheet.corners.drain(3 * triangle..3 * triangle + 3);
            }
        }
        Damage::Dented => drop_at_rim(sheet, false, random),
        Damage::Pinched => drop_at_rim(sheet, true, random),
        Damage::TwoParts => *sheet = two_parts(random),
        Damage::Overlaid => {
            let distinct: HashSet<(u16, u16)> = sheet.xs.iter().zip(&sheet.ys).map(|(&x, &y)| (x, y)).collect();
            if points <= 512 && distinct.len() == points && sheet.xs.iter().all(|&x| x <= 16_383) {
                // The office in a mirror, over itself.
                let xs: Vec<u16> = sheet.xs.iter().map(|&x| 16_383 - x).collect();
                let ys = sheet.ys.clone();
                if let Some(corners) = triangulate(&xs, &ys, random) {
                    sheet.corners.extend(corners.iter().map(|c| c + points as u16));
                    sheet.xs.extend(xs);
                    sheet.ys.extend(ys);
                }
            }
        }
    }
}

/// Two full lattices, apart or touching in a corner, with their numbers mixed.
fn two_parts(random: &mut Random) -> Sheet {
    let step = random.within(1, 300);
    let touch = random.once_in(2);
    let (wide, high) = (random.within(2, 4), random.within(2, 4));
    let mut sheet = Sheet::default();
    let mut parts = Vec::new();
    let mut base = (0, 0);
    for _ in 0..2 {
        let mut part = Sheet::default();
        for i in 0..wide * high {
            part.xs.push((base.0 + i % wide * step) as u16);
            part.ys.push((base.1 + i / wide * step) as u16);
        }
        part.corners = triangulate(&part.xs, &part.ys, random).unwrap();
        parts.push(part);
        base = ((wide - 1 + !touch as usize * random.within(1, 9)) * step, (high - 1) * step);
    }
    for part in parts {
        // A point that both have gets one number.
        let numbers: Vec<u16> = (0..part.points())
            .map(|i| {
                let at = (part.xs[i], part.ys[i]);
                if let Some(p) = (0..sheet.points()).find(|&p| (sheet.xs[p], sheet.ys[p]) == at) {
                    return p as u16;
                }
                sheet.xs.push(at.0);
                sheet.ys.push(at.1);
                sheet.points() as u16 - 1
            })
            .collect();
        sheet.corners.extend(part.corners.iter().map(|&c| numbers[c as usize]));
    }
    sheet
}

/// The office with the damage done one to three times.
pub fn damaged(sheet: &Sheet, damage: Damage, random: &mut Random) -> Sheet {
    let mut sheet = sheet.clone();
    for _ in 0..*random.pick(&[1, 1, 2, 3]) {
        strike(&mut sheet, damage, random);
    }
    sheet
}

/// Lists with no sense in them, mostly small.
pub fn garbage(random: &mut Random) -> Sheet {
    let points = random.within(2, 7);
    let top = *random.pick(&[2, 3, 5, 16_383, 16_400]);
    let list = |random: &mut Random| (0..points).map(|_| random.within(0, top) as u16).collect::<Vec<u16>>();
    let (xs, mut ys) = (list(random), list(random));
    if random.once_in(10) {
        ys.pop();
    }
    let corners = match random.below(10) {
        0 => random.within(0, 20),
        _ => 3 * random.within(1, 6),
    };
    let end = if random.once_in(8) { points + 1 } else { points };
    Sheet { xs, ys, corners: (0..corners).map(|_| random.below(end) as u16).collect() }
}
