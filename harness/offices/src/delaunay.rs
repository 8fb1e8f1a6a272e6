//! An exact Delaunay triangulation. Points are taken in the order of x, then y; each lies outside what
//! stands already and is joined to the rim sides it sees; then sides are flipped until no circle holds
//! a point. Numbers are whole, so collinear and cocircular points are told for certain.

use crate::Random;

type Point = (i64, i64);

/// A triangulation under way. Half-side `h` runs from `corners[h]` to the next corner of triangle `h / 3`;
/// `mates[h]` is its reverse.
struct Mesh<'a> {
    points: &'a [Point],
    corners: Vec<usize>,
    mates: Vec<Option<usize>>,
}

fn next(h: usize) -> usize {
    if h % 3 == 2 {
        h - 2
    } else {
        h + 1
    }
}

fn doubled_area(a: Point, b: Point, c: Point) -> i64 {
    (b.0 - a.0) * (c.1 - a.1) - (b.1 - a.1) * (c.0 - a.0)
}

/// Positive when `d` is strictly inside the circle through the counterclockwise `a`, `b`, `c`; 0 on it.
fn in_circle(a: Point, b: Point, c: Point, d: Point) -> i128 {
    let rows = [a, b, c].map(|p| {
        let (x, y) = ((p.0 - d.0) as i128, (p.1 - d.1) as i128);
        (x, y, x * x + y * y)
    });
    let minor = |p: (i128, i128, i128), q: (i128, i128, i128)| p.0 * q.1 - p.1 * q.0;
    rows[0].2 * minor(rows[1], rows[2]) - rows[1].2 * minor(rows[0], rows[2]) + rows[2].2 * minor(rows[0], rows[1])
}

impl Mesh<'_> {
    fn add(&mut self, a: usize, b: usize, c: usize) -> usize {
        let h = self.corners.len();
        self.corners.extend([a, b, c]);
        self.mates.extend([None; 3]);
        h
    }

    fn join(&mut self, h: usize, with: Option<usize>) {
        self.mates[h] = with;
        if let Some(g) = with {
            self.mates[g] = Some(h);
        }
    }

    /// The four corners around an inner half-side: from, to, the third here, the third across.
    fn around(&self, h: usize) -> Option<(Point, Point, Point, Point)> {
        let g = self.mates[h]?;
        let at = |h: usize| self.points[self.corners[h]];
        Some((at(h), at(g), at(next(next(h))), at(next(next(g)))))
    }

    /// Positive: the side must be flipped. 0: it may be.
    fn want(&self, h: usize) -> i128 {
        self.around(h).map_or(-1, |(from, to, third, across)| in_circle(from, to, third, across))
    }

    fn flip(&mut self, h: usize) {
        let Some(g) = self.mates[h] else { return };
        let (h1, h2, g1, g2) = (next(h), next(next(h)), next(g), next(next(g)));
        let (third, across) = (self.corners[h2], self.corners[g2]);
        // Triangle of h becomes (from, across, third), that of g (to, third, across).
        self.corners[h1] = across;
        self.corners[g1] = third;
        let (outer_h, outer_g) = (self.mates[h1], self.mates[g1]);
        self.join(h, outer_g);
        self.join(g, outer_h);
        self.join(h1, Some(g1));
    }

    /// Flips until nothing must be flipped. Each flip makes the lifted surface strictly lower, so it ends.
    fn settle(&mut self) {
        let mut waiting: Vec<usize> = (0..self.corners.len()).collect();
        while let Some(h) = waiting.pop() {
            if self.want(h) > 0 {
                let g = self.mates[h].unwrap();
                self.flip(h);
                waiting.extend([h, next(next(h)), g, next(next(g))]);
            }
        }
    }
}

/// The corners of a Delaunay triangulation of distinct points, or nothing if they all lie on one line.
/// Where circles hold more than three points, the choice among their diagonals is random.
pub fn triangulate(xs: &[u16], ys: &[u16], random: &mut Random) -> Option<Vec<u16>> {
    let points: Vec<Point> = xs.iter().zip(ys).map(|(&x, &y)| (x as i64, y as i64)).collect();
    let mut order: Vec<usize> = (0..points.len()).collect();
    order.sort_unstable_by_key(|&p| points[p]);
    let at = |i: usize| points[order[i]];
    // The first points may lie on one line; the next one sees all of their sides.
    let bend = (2..order.len()).find(|&i| doubled_area(at(0), at(1), at(i)) != 0)?;
    let mut mesh = Mesh { points: &points, corners: Vec::new(), mates: Vec::new() };

    // The rim, counterclockwise: each point with the half-side that leaves it.
    let mut rim: Vec<(usize, usize)> = Vec::new();
    let tip = order[bend];
    let left = doubled_area(at(0), at(1), at(bend)) > 0;
    let mut line: Vec<usize> = order[..bend].to_vec();
    if !left {
        line.reverse();
    }
    let mut earlier = None;
    for i in 0..line.len() - 1 {
        let h = mesh.add(line[i], line[i + 1], tip);
        mesh.join(h + 2, earlier);
        earlier = Some(h + 1);
        rim.push((line[i], h));
    }
    rim.push((line[line.len() - 1], earlier.unwrap()));
    rim.push((tip, 2));

    for &p in &order[bend + 1..] {
        // What p sees is one run of rim sides; turn the rim so that the run stands at its end.
        let sees =
            |rim: &[(usize, usize)], i: usize| doubled_area(points[rim[i].0], points[rim[(i + 1) % rim.len()].0], points[p]) < 0;
        let length = rim.len();
        let first = (0..length).find(|&i| sees(&rim, i) && !sees(&rim, (i + length - 1) % length)).unwrap();
        rim.rotate_left(first);
        let run = (0..length).take_while(|&i| sees(&rim, i)).count();
        let mut before = None;
        for i in 0..run {
            let (from, outer) = rim[i];
            let to = rim[(i + 1) % length].0;
            // (to, from, p) lies on the other side of the rim side.
            let h = mesh.add(to, from, p);
            mesh.join(h, Some(outer));
            mesh.join(h + 1, before);
            before = Some(h + 2);
        }
        let entry = mesh.corners.len() - 3 * run + 1;
        let start = rim[0].0;
        rim.splice(..run, [(start, entry), (p, before.unwrap())]);
    }
    mesh.settle();
    for _ in 0..mesh.corners.len() {
        let h = random.below(mesh.corners.len());
        if mesh.want(h) == 0 {
            mesh.flip(h);
        }
    }
    Some(mesh.corners.iter().map(|&c| c as u16).collect())
}
