//! Offices that cost a check most before they are refused: each fault stands as far back as it can, in an office of the most triangles.

use offices::{accepted, triangulate, Kind, Random, Sheet};
use second::{Office, Refusal, Second};
use std::collections::{HashMap, HashSet};

const TOP: i64 = 16_383;

type Point = (i64, i64);

/// The bucket in which the library looks for equal points; see `bucket_of` in crates/sheet/src/points.rt.
fn bucket_of(x: u16, y: u16) -> u32 {
    (x as u32 * 40503 + y as u32 * 24593) / 4096 % 1024
}

fn doubled_area(a: Point, b: Point, c: Point) -> i64 {
    (b.0 - a.0) * (c.1 - a.1) - (b.1 - a.1) * (c.0 - a.0)
}

fn at(sheet: &Sheet, p: u16) -> Point {
    (sheet.xs[p as usize] as i64, sheet.ys[p as usize] as i64)
}

fn after(side: usize) -> usize {
    if side % 3 == 2 {
        side - 2
    } else {
        side + 1
    }
}

/// The office of distinct points, triangulated.
fn whole(points: &[Point], random: &mut Random) -> Sheet {
    let xs: Vec<u16> = points.iter().map(|p| p.0 as u16).collect();
    let ys: Vec<u16> = points.iter().map(|p| p.1 as u16).collect();
    let corners = triangulate(&xs, &ys, random).expect("points that are not on one line");
    Sheet { xs, ys, corners }
}

/// Points that a source gives, without repeats.
fn fill(points: &mut Vec<Point>, count: usize, mut source: impl FnMut() -> Point) {
    let mut seen: HashSet<Point> = points.iter().copied().collect();
    while points.len() < count {
        let p = source();
        if seen.insert(p) {
            points.push(p);
        }
    }
}

/// Each side's place in the corner list.
fn sides(sheet: &Sheet) -> HashMap<(u16, u16), usize> {
    (0..sheet.corners.len()).map(|h| ((sheet.corners[h], sheet.corners[after(h)]), h)).collect()
}

/// Whether each point is on the rim.
fn on_rim(sheet: &Sheet) -> Vec<bool> {
    let sides = sides(sheet);
    let mut on = vec![false; sheet.points()];
    for &(from, to) in sides.keys().filter(|&&(from, to)| !sides.contains_key(&(to, from))) {
        on[from as usize] = true;
        on[to as usize] = true;
    }
    on
}

/// Every point in one bucket.
fn one_bucket(count: usize, random: &mut Random) -> Sheet {
    let mut points = Vec::new();
    fill(&mut points, count, || loop {
        let (x, y) = (random.below(16_384), random.below(16_384));
        if bucket_of(x as u16, y as u16) == 0 {
            return (x as i64, y as i64);
        }
    });
    whole(&points, random)
}

/// The last two points and no others lie right of the rim: a triangle at the rim is left out, so that the rim has a dent at a point near
/// the side that was there.
fn dented(mut sheet: Sheet) -> Sheet {
    let (sides, on) = (sides(&sheet), on_rim(&sheet));
    let outside = |h: usize| -> Vec<u16> {
        let [a, b, c] = [h, after(h), after(after(h))].map(|h| at(&sheet, sheet.corners[h]));
        let right = |&p: &u16| doubled_area(a, c, at(&sheet, p)) < 0 || doubled_area(c, b, at(&sheet, p)) < 0;
        (0..sheet.points() as u16).filter(right).collect()
    };
    let dents = (0..sheet.corners.len()).filter(|&h| {
        let (from, to, third) = (sheet.corners[h], sheet.corners[after(h)], sheet.corners[after(after(h))]);
        !sides.contains_key(&(to, from)) && !on[third as usize]
    });
    let (h, outside) = dents.map(|h| (h, outside(h))).min_by_key(|(_, outside)| outside.len()).expect("a point within");
    sheet.corners.drain(h / 3 * 3..h / 3 * 3 + 3);
    // Those outside get the last numbers.
    let last = sheet.points() as u16;
    let order: Vec<u16> = (0..last).filter(|p| !outside.contains(p)).chain(outside.iter().copied()).collect();
    renumbered(&sheet, &order)
}

/// Point `order[i]` gets the number i.
fn renumbered(sheet: &Sheet, order: &[u16]) -> Sheet {
    let mut number = vec![0; order.len()];
    for (i, &p) in order.iter().enumerate() {
        number[p as usize] = i as u16;
    }
    let pick = |of: &[u16]| order.iter().map(|&p| of[p as usize]).collect();
    Sheet { xs: pick(&sheet.xs), ys: pick(&sheet.ys), corners: sheet.corners.iter().map(|&c| number[c as usize]).collect() }
}

/// A three-point hull with a point just within its longest side, so that the dent there bares two points only.
fn dented_deep(count: usize, random: &mut Random) -> Sheet {
    let mut points = vec![(0, 0), (TOP, 0), (0, TOP), (TOP / 2, 1)];
    fill(&mut points, count, || loop {
        let (x, y) = (random.within(1, TOP as usize) as i64, random.within(2, TOP as usize) as i64);
        if x + y < TOP {
            return (x, y);
        }
    });
    dented(whole(&points, random))
}

/// All points but one on a convex curve, and that one just within.
fn dented_long(count: usize, random: &mut Random) -> Sheet {
    let hull = accepted(Kind::AllOnHull, count - 1, random);
    let sides = sides(&hull);
    let rim: Vec<(Point, Point)> =
        sides.keys().filter(|&&(a, b)| !sides.contains_key(&(b, a))).map(|&(a, b)| (at(&hull, a), at(&hull, b))).collect();
    let length = |(a, b): &(Point, Point)| (b.0 - a.0).pow(2) + (b.1 - a.1).pow(2);
    let (a, b) = *rim.iter().max_by_key(|side| (length(side), **side)).unwrap();
    let (xs, ys) = (a.0.min(b.0) - 3..=a.0.max(b.0) + 3, a.1.min(b.1) - 3..=a.1.max(b.1) + 3);
    let near = xs.flat_map(|x| ys.clone().map(move |y| (x, y)));
    let within = near.filter(|&p| rim.iter().all(|&(a, b)| doubled_area(a, b, p) > 0));
    let inner = within.min_by_key(|&p| (doubled_area(a, b, p), p)).expect("a grid point just within the longest side");
    let points: Vec<Point> = (0..hull.points() as u16).map(|p| at(&hull, p)).chain([inner]).collect();
    dented(whole(&points, random))
}

/// The other diagonal of a convex pair of triangles that are not on one circle; the pair stands last.
fn flipped_last(mut sheet: Sheet) -> Sheet {
    let sides = sides(&sheet);
    let corner = |h: usize| sheet.corners[h];
    let flip = (0..sheet.corners.len()).find_map(|h| {
        let (from, to) = (corner(h), corner(after(h)));
        let g = *sides.get(&(to, from))?;
        let (third, across) = (corner(after(after(h))), corner(after(after(g))));
        let new = [[from, across, third], [to, third, across]];
        // Strictly convex, and the new circles hold the fourth point.
        let pair = [from, across, third, to];
        let verdict = Second::right().check(Office {
            xs: &pair.map(|p| sheet.xs[p as usize]),
            ys: &pair.map(|p| sheet.ys[p as usize]),
            corners: &[0, 1, 2, 3, 2, 1],
        });
        (verdict == Err(Refusal { number: 11, place: 0 })).then_some((h / 3, g / 3, new))
    });
    let (t, u, new) = flip.expect("a convex pair");
    for t in [t.max(u), t.min(u)] {
        sheet.corners.drain(3 * t..3 * t + 3);
    }
    sheet.corners.extend(new.concat());
    sheet
}

/// A triangle away from the rim is left out, so that the rim is two rings.
fn holed(mut sheet: Sheet) -> Sheet {
    let on = on_rim(&sheet);
    let inner = sheet.corners.chunks_exact(3).position(|t| t.iter().all(|&c| !on[c as usize])).expect("an inner triangle");
    sheet.corners.drain(3 * inner..3 * inner + 3);
    sheet
}

/// The last point is a corner of no triangle.
fn unused_last(count: usize, random: &mut Random) -> Sheet {
    let mut sheet = accepted(Kind::ThreePointHull, count - 1, random);
    // A corner of the grid that is no point of the hull.
    sheet.xs.push(TOP as u16);
    sheet.ys.push(TOP as u16);
    sheet
}

/// Two points in the middle of a convex curve, each a corner of half the triangles; the last triangle is the first once more.
fn two_hubs(count: usize, random: &mut Random) -> Sheet {
    let hull = accepted(Kind::AllOnHull, count - 2, random);
    let sum = |of: &[u16]| of.iter().map(|&v| v as i64).sum::<i64>() / of.len() as i64;
    let (x, y) = (sum(&hull.xs), sum(&hull.ys));
    let mut around: Vec<Point> = (0..hull.points() as u16).map(|p| at(&hull, p)).collect();
    let lower = |p: &Point| p.1 < y || (p.1 == y && p.0 < x);
    around.sort_by(|p, q| lower(p).cmp(&lower(q)).then(doubled_area((x, y), *q, *p).cmp(&0)));
    let (n, hubs) = (around.len() as u16, [around.len() as u16, around.len() as u16 + 1]);
    around.extend([(x, y), (x + 1, y)]);
    let fan = |hub: u16, stride: u16| (0..n).map(move |i| [hub, i, (i + stride) % n]);
    let mut triangles: Vec<[u16; 3]> = fan(hubs[0], 1).chain(fan(hubs[1], 2)).collect();
    triangles.truncate(2 * count - 6);
    triangles.push(triangles[0]);
    Sheet {
        xs: around.iter().map(|p| p.0 as u16).collect(),
        ys: around.iter().map(|p| p.1 as u16).collect(),
        corners: triangles.concat(),
    }
}

/// Offices of so many points with what is special about them. The first is accepted and has the most triangles, and all of whom nothing
/// else is said are made from it; the second is accepted too.
pub fn worst(count: usize, random: &mut Random) -> Vec<(&'static str, Sheet)> {
    let plain = accepted(Kind::ThreePointHull, count, random);
    let bucket = one_bucket(count, random);
    let last = count - 1;
    let with = |sheet: &Sheet, change: &dyn Fn(&mut Sheet)| {
        let mut sheet = sheet.clone();
        change(&mut sheet);
        sheet
    };
    let end = plain.corners.len();
    let repeat = |sheet: &mut Sheet| (sheet.xs[last], sheet.ys[last]) = (sheet.xs[0], sheet.ys[0]);
    vec![
        ("the office itself", plain.clone()),
        ("all points in one bucket", bucket.clone()),
        ("the last point off the grid", with(&plain, &|s| s.ys[last] = 16_384)),
        ("the last point equal to the first", with(&plain, &repeat)),
        ("the same, all points in one bucket", with(&bucket, &repeat)),
        ("the last corner no point", with(&plain, &|s| s.corners[end - 1] = count as u16)),
        ("the last triangle clockwise", with(&plain, &|s| s.corners.swap(end - 1, end - 2))),
        ("the last triangle the first once more", with(&plain, &|s| s.corners.copy_within(0..3, end - 3))),
        ("the same, each side at one of two points", two_hubs(count, random)),
        ("the last point in no triangle", unused_last(count, random)),
        ("the last two triangles flipped", flipped_last(plain.clone())),
        ("an inner triangle left out", holed(plain.clone())),
        ("a dent that bares the last points", dented_deep(count, random)),
        ("the same, on a rim of all points but one", dented_long(count, random)),
    ]
}

#[cfg(test)]
mod tests {
    use super::*;
    use crate::measure::office;

    #[test]
    fn each_fault_stands_as_far_back_as_it_can() {
        for count in [64, 1_024] {
            let offices = worst(count, &mut Random::seeded(1));
            let most = 2 * count - 5;
            assert_eq!(offices[0].1.triangles(), most);
            assert!(offices[1].1.xs.iter().zip(&offices[1].1.ys).all(|(&x, &y)| bucket_of(x, y) == 0));
            let last = count - 1;
            let wanted = [
                None,
                None,
                Some((5, last)),
                Some((6, last)),
                Some((6, last)),
                Some((7, 3 * most - 1)),
                Some((8, most - 1)),
                Some((9, most - 1)),
                Some((9, most - 1)),
                Some((10, last)),
                Some((11, most - 2)),
                Some((12, 0)),
                Some((13, last - 1)),
                Some((13, last - 1)),
            ];
            assert_eq!(offices.len(), wanted.len());
            for ((name, sheet), wanted) in offices.iter().zip(wanted) {
                assert_eq!(sheet.points(), count);
                let got = Second::right().check(office(sheet));
                assert_eq!(got.err(), wanted.map(|(number, place)| Refusal { number, place }), "{name}");
            }
        }
    }

    #[test]
    fn buckets_are_the_library_s() {
        let source = concat!(env!("CARGO_MANIFEST_DIR"), "/../../crates/sheet/src/points.rt");
        let source = std::fs::read_to_string(source).unwrap();
        assert!(
            source.contains("((x as u32 * 40503 + y as u32 * 24593) / 4096 % 1024) as usize"),
            "worst.rs has another rule for buckets"
        );
    }
}
