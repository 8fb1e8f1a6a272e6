//! District files: what is written is read back, files of mixed byte orders are read, and both are damaged.

use crate::comparison::{noise, office, Comparison, Rings, Room};
use crate::rounds::{in_order, word, LAST, STRANGE};
use offices::{accepted, Kind};
use second::{Lent, GREATEST_COORDINATE, MOST_POINTS, MOST_RINGS};

const HEAD: usize = 9;
const WRAP: usize = 1 << 16;

/// Bytes that stand at an offset in place of others.
type Damage = (usize, Vec<u8>);

impl Rings {
    fn add(&mut self, xs: &[u16], ys: &[u16]) {
        self.xs.extend(xs);
        self.ys.extend(ys);
        self.lengths.push(xs.len() as u16);
    }

    fn rings(&self) -> usize {
        self.lengths.len()
    }

    fn points(&self) -> usize {
        self.xs.len()
    }

    /// For each ring, the points before it.
    fn before(&self) -> Vec<usize> {
        let sums = self.lengths.iter().scan(0, |sum, &n| Some(std::mem::replace(sum, *sum + n as usize)));
        sums.collect()
    }

    /// Where a ring's polygon begins in the file.
    fn start(&self, ring: usize) -> usize {
        HEAD + 29 * ring + 16 * self.before()[ring]
    }

    fn bytes(&self) -> usize {
        HEAD + 29 * self.rings() + 16 * self.points()
    }

    /// The file: the first order is the head's, the others are the polygons'.
    fn file(&self, orders: &[u8]) -> Vec<u8> {
        let mut file = vec![orders[0]];
        file.extend(word(orders[0], 6));
        file.extend(word(orders[0], self.rings() as u32));
        for ((&order, &n), first) in orders[1..].iter().zip(&self.lengths).zip(self.before()) {
            file.push(order);
            for number in [3, 1, n as u32 + 1] {
                file.extend(word(order, number));
            }
            for i in (first..first + n as usize).chain([first]) {
                for number in [self.xs[i], self.ys[i]] {
                    file.extend(in_order(order, (number as f64).to_bits()));
                }
            }
        }
        file
    }

    /// Room with a place more than enough.
    fn room(&self) -> Room {
        (self.points() + 2, self.points() + 1, self.rings() + 1)
    }
}

/// Words in place of the right one: near it, with a high bit more, as it reads in the other byte order, and others.
fn words(at: usize, order: u8, right: u32, others: &[u32]) -> Vec<Damage> {
    let near = [0, 1, right - 1, right + 1, right | 1 << 8, right | 1 << 16, right << 24, right | 1 << 31, LAST];
    near.iter().chain(others).map(|&number| (at, word(order, number).to_vec())).collect()
}

fn head_damages(order: u8, rings: &Rings) -> Vec<Damage> {
    let mut damages = vec![(0, vec![2]), (0, vec![255]), (0, vec![1 - order])];
    damages.extend(words(1, order, 6, &[3, 4, 1_006]));
    damages.extend(words(5, order, rings.rings() as u32, &[31, 32, 33]));
    damages
}

impl Comparison<'_> {
    /// The outline of a small office.
    fn outline_of_an_office(&mut self) -> (Vec<u16>, Vec<u16>) {
        let kind = *self.random.pick(&Kind::ALL);
        let count = self.random.within(3, 12);
        let sheet = accepted(kind, count, &mut self.random);
        let limit = if self.random.once_in(3) { 0 } else { *self.random.pick(&sheet.squared_lengths()) };
        let (mut kept, mut rim, mut ring) = (vec![0; sheet.triangles()], vec![0; count], vec![0; count]);
        let mut lent = Lent { kept: &mut kept, rim: &mut rim, ring: &mut ring };
        let tally = self.second.draw(office(&sheet), limit, &mut lent).expect("an accepted office");
        ring[..tally.ring].iter().map(|&p| (sheet.xs[p as usize], sheet.ys[p as usize])).unzip()
    }

    fn coordinates_of(&mut self, points: usize) -> Vec<u16> {
        let any = |_| match self.random.below(3) {
            0 => *self.random.pick(&[0, 1, 5, 4_096, GREATEST_COORDINATE]),
            _ => self.random.below(GREATEST_COORDINATE as usize + 1) as u16,
        };
        (0..points).map(any).collect()
    }

    /// So many rings, each of so many points at most; where these are few, every other one is an office's outline.
    fn rings(&mut self, count: usize, least: usize, most: usize) -> Rings {
        let mut rings = Rings::default();
        for _ in 0..count {
            if most <= 12 && self.random.once_in(2) {
                let (xs, ys) = self.outline_of_an_office();
                rings.add(&xs, &ys);
            } else {
                let points = self.random.within(least, most);
                let (xs, ys) = (self.coordinates_of(points), self.coordinates_of(points));
                rings.add(&xs, &ys);
            }
        }
        rings
    }

    /// Small districts of each count in turn, now and then one of rings of every size, and the largest.
    pub fn districts(&mut self, round: u64) {
        let small = self.rings(1 + round as usize % MOST_RINGS, 3, 6);
        self.district(&small, 1);
        self.unwritten(&small);
        if round % 8 == 5 {
            let count = self.random.within(1, MOST_RINGS);
            let rings = self.rings(count, 3, MOST_POINTS);
            self.district(&rings, 12);
        }
        if round % 60 == 30 {
            let rings = self.rings(MOST_RINGS, MOST_POINTS, MOST_POINTS);
            self.district(&rings, 20);
        }
    }

    /// A district is written and read back; then files in one byte order, in the other and in mixtures are read, and read
    /// damaged, of all damages one in so many.
    fn district(&mut self, rings: &Rings, one_in: usize) {
        let count = rings.rings();
        let more = self.random.below(40);
        let written = self.write_district(rings, rings.bytes() + more);
        let little = rings.file(&vec![1; count + 1]);
        let good = written.as_ref() == Some(&little);
        self.among("a district is written little-endian", rings, &written, &little, good);
        let mut parts = little[..HEAD].to_vec();
        for (&n, first) in rings.lengths.iter().zip(rings.before()) {
            let ring = first..first + n as usize;
            let mut block = vec![0; 29 + 16 * n as usize];
            let _ = self.library.write(&rings.xs[ring.clone()], &rings.ys[ring], &mut block);
            parts.extend(block);
        }
        self.among("a district's polygons are its rings as written alone", rings, &parts, &little, parts == little);
        let mixed = (0..=count).map(|_| self.random.below(2) as u8).collect();
        let one_other = {
            let mut orders = vec![self.random.below(2) as u8; count + 1];
            orders[self.random.below(count + 1)] ^= 1;
            orders
        };
        for orders in [vec![1; count + 1], vec![0; count + 1], mixed, one_other] {
            let file = rings.file(&orders);
            let read = self.read_district(&file, rings.room());
            self.among("a district's file is read as its rings", rings, &read, rings, read.as_ref() == Ok(rings));
            let again = read.ok().and_then(|read| self.write_district(&read, file.len()));
            let good = again.as_ref() == Some(&little);
            self.among("what was read is written little-endian", rings, &again, &little, good);
            self.rooms(&file, rings, one_in);
            self.damaged_files(&file, &orders, rings, one_in);
            if self.over() {
                return;
            }
        }
    }

    /// Lists of every length that matters: as many places as the rings up to each need, one less, one more.
    fn rooms(&mut self, file: &[u8], rings: &Rings, one_in: usize) {
        let (all, count) = (rings.points(), rings.rings());
        for (x, y, places) in [
            (all, all, count),
            (all - 1, all, count),
            (all, all - 1, count),
            (all, all, count - 1),
            (all - 1, all, count - 1),
            (all, all, 0),
            (0, all, count),
            (all, 0, count),
            (all + 9, all, count + 9),
            (WRAP, WRAP, 40),
        ] {
            let _ = self.read_district(file, (x, y, places));
        }
        for before in rings.before() {
            for room in [before.saturating_sub(1), before, before + 1] {
                if self.random.once_in(2 * one_in) {
                    let (x, y) = if self.random.once_in(2) { (room, all) } else { (all, room) };
                    let _ = self.read_district(file, (x, y, count));
                }
            }
        }
    }

    /// Each field of the head and of some polygons changed, cuts at every kind of place, bytes left over.
    fn damaged_files(&mut self, file: &[u8], orders: &[u8], rings: &Rings, one_in: usize) {
        let count = rings.rings();
        let mut damages = head_damages(orders[0], rings);
        let mut cuts = vec![0, 1, 2, 4, 5, 6, 8, 9];
        let mut parts = vec![0, count - 1, self.random.below(count), self.random.below(count)];
        parts.sort();
        parts.dedup();
        for part in parts {
            let (at, order, n) = (rings.start(part), orders[part + 1], rings.lengths[part] as usize);
            damages.extend(self.part_damages(at, order, n));
            let last = at + 13 + 16 * n;
            for field in [at, at + 1, at + 5, at + 9, at + 13, at + 21, last, last + 8] {
                cuts.extend([field, field + 1]);
            }
            cuts.extend([at + 4, at + 8, at + 12, at + 20, last + 7, last + 15]);
        }
        for _ in 0..60 {
            let at = self.random.below(file.len());
            for byte in [file[at] ^ 1 << self.random.below(8), self.random.next() as u8, 0, 1] {
                damages.push((at, vec![byte]));
            }
            cuts.push(at);
        }
        for damage in damages {
            if one_in == 1 || self.random.once_in(one_in) {
                self.damaged_file(file, rings, damage);
            }
            if self.over() {
                return;
            }
        }
        for cut in cuts {
            if one_in == 1 || self.random.once_in(one_in) {
                let _ = self.read_district(&file[..cut], rings.room());
            }
        }
        for more in [1, 2, 8, 9, 13, 77] {
            let long = [file, &noise(more, &mut self.random)].concat();
            let _ = self.read_district(&long, rings.room());
        }
        // Another polygon is no ring of the district, and another district is none of its polygons.
        let first = &file[HEAD..HEAD + 29 + 16 * rings.lengths[0] as usize];
        let _ = self.read_district(&[file, first].concat(), rings.room());
        let _ = self.read_district(&[file, file].concat(), rings.room());
        let _ = self.read_district(first, rings.room());
        let _ = self.read_district(&[&file[..HEAD], file].concat(), rings.room());
    }

    /// One thing changed; now and then a second one, a cut behind it, or a list too short, of which the first fault counts.
    fn damaged_file(&mut self, file: &[u8], rings: &Rings, (at, bytes): Damage) {
        let mut bad = file.to_vec();
        bad[at..at + bytes.len()].copy_from_slice(&bytes);
        let mut room = rings.room();
        match self.random.below(12) {
            0 | 1 => bad.truncate(at + self.random.within(1, bad.len() - at)),
            2 | 3 => {
                let other = self.random.below(bad.len());
                bad[other] = *self.random.pick(&[0, 1, 2, 0x3F, 0xFF]);
            }
            4 => room.0 = self.random.below(rings.points()),
            5 => room.2 = self.random.below(rings.rings()),
            // Enough room for a count that the damage made larger.
            6 => room = (2 * MOST_POINTS + room.0, 2 * MOST_POINTS + room.1, MOST_RINGS + 1),
            7 => bad.extend(noise(3, &mut self.random)),
            _ => (),
        }
        let _ = self.read_district(&bad, room);
    }

    /// Changes of each field of a polygon of n points: strange coordinates, and first and last positions that differ.
    fn part_damages(&mut self, at: usize, order: u8, n: usize) -> Vec<Damage> {
        let mut damages = vec![(at, vec![2]), (at, vec![255]), (at, vec![1 - order])];
        damages.extend(words(at + 1, order, 3, &[2, 6, 1_003]));
        damages.extend(words(at + 5, order, 1, &[2, 3]));
        damages.extend(words(at + 9, order, n as u32 + 1, &[3, 4, 1_024, 1_025, 1_026]));
        let any = self.random.below(2 * n + 2);
        for field in [0, 1, any, 2 * n, 2 * n + 1] {
            let place = at + 13 + 8 * field;
            let strange = |value: f64| (place, in_order(order, value.to_bits()).to_vec());
            damages.extend(STRANGE.map(strange));
            damages.push(strange(self.random.below(GREATEST_COORDINATE as usize + 1) as f64));
        }
        damages
    }

    /// Districts that the writer refuses: each of its refusals alone, then several at once.
    fn unwritten(&mut self, rings: &Rings) {
        let (bytes, points, count) = (rings.bytes(), rings.points(), rings.rings());
        for room in [0, 8, HEAD, HEAD + 29, bytes - 16, bytes - 1, bytes, bytes + 1] {
            self.write_district(rings, room);
        }
        for total in [points - 1, points + 1, points + WRAP, points + 2 * WRAP] {
            let mut bad = rings.clone();
            bad.lengths = self.lengths_of(total, count);
            self.write_district(&bad, bytes);
            bad.lengths = self.lengths_of(total, MOST_RINGS);
            self.write_district(&bad, bytes);
        }
        // Lists longer by 65,536 than the lengths say, and as long as they should be for rings too long.
        let mut long = rings.clone();
        long.xs.resize(points + WRAP, 0);
        self.write_district(&long, bytes);
        long.ys.resize(points + WRAP, 0);
        self.write_district(&long, bytes);
        long.lengths = self.lengths_of(points + WRAP, MOST_RINGS);
        self.write_district(&long, bytes);
        for n in [0, 1, 2, 3, MOST_POINTS, MOST_POINTS + 1] {
            let mut bad = self.rings(count.min(MOST_RINGS - 1), 3, 6);
            bad.add(&self.coordinates_of(n), &self.coordinates_of(n));
            self.write_district(&bad, bad.bytes());
        }
        for lengths in [0, MOST_RINGS + 1, 256 + count, WRAP + count] {
            let mut bad = rings.clone();
            bad.lengths.resize(lengths, 0);
            self.write_district(&bad, bytes);
        }
        for _ in 0..80 {
            let mut bad = rings.clone();
            let mut room = bytes + self.random.below(3);
            for _ in 0..self.random.within(1, 3) {
                self.spoil(&mut bad, &mut room);
            }
            self.write_district(&bad, room);
        }
    }

    /// So many lengths that add up to this, as far as they can.
    fn lengths_of(&mut self, total: usize, count: usize) -> Vec<u16> {
        let even = self.random.once_in(2);
        let mut left = total;
        let mut lengths: Vec<u16> = (0..count)
            .map(|i| {
                let length = if even { left.div_ceil(count - i) } else { left }.min(u16::MAX as usize);
                left -= length;
                length as u16
            })
            .collect();
        self.random.shuffle(&mut lengths);
        lengths
    }

    /// One of the things that the writer refuses.
    fn spoil(&mut self, rings: &mut Rings, room: &mut usize) {
        match self.random.below(9) {
            0 => {
                let lengths = *self.random.pick(&[0, MOST_RINGS + 1, 2 * MOST_RINGS]);
                rings.lengths.resize(lengths, 3);
            }
            1 => {
                rings.lengths.pop();
            }
            2 => rings.lengths.push(*self.random.pick(&[0, 1, 3])),
            3 if !rings.lengths.is_empty() => {
                // A point goes from one ring to another.
                let (from, to) = (self.random.below(rings.rings()), self.random.below(rings.rings()));
                rings.lengths[from] = rings.lengths[from].wrapping_sub(1);
                rings.lengths[to] = rings.lengths[to].wrapping_add(1);
            }
            4 => rings.xs.push(0),
            5 => {
                rings.ys.pop();
            }
            6 => rings.ys.push(*self.random.pick(&[0, 20_000])),
            7 => *room = self.random.below(rings.bytes()),
            _ => {
                let list = if self.random.once_in(2) { &mut rings.xs } else { &mut rings.ys };
                if !list.is_empty() {
                    let at = self.random.below(list.len());
                    list[at] = *self.random.pick(&[16_384, 20_000, 65_535]);
                }
            }
        }
    }
}
