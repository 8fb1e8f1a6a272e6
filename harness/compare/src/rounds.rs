//! What is compared: rounds of offices, damaged offices, byte blocks and texts.

use crate::comparison::{noise, office, Comparison, Memory, Slack};
use offices::{accepted, damaged, garbage, Damage, Kind, Random, Sheet};
use second::{Coordinate, Tally};

pub const LAST: u32 = u32::MAX;

/// Floats that are close to grid numbers, and some that are far.
pub const STRANGE: [f64; 20] = [
    f64::INFINITY,
    f64::NEG_INFINITY,
    f64::NAN,
    -f64::NAN,
    f64::from_bits(0x7FF0_0000_0000_0001),
    f64::from_bits(u64::MAX),
    -0.0,
    -1.0,
    -5e-324,
    5e-324,
    0.5,
    1.0,
    2.0,
    4_095.999,
    16_382.5,
    16_383.0,
    16_383.000_000_000_002,
    16_384.0,
    65_536.0,
    1e300,
];

fn low_first(numbers: impl IntoIterator<Item = u16>) -> Vec<u8> {
    numbers.into_iter().flat_map(u16::to_le_bytes).collect()
}

fn points_block(sheet: &Sheet) -> Vec<u8> {
    low_first(sheet.xs.iter().zip(&sheet.ys).flat_map(|(&x, &y)| [x, y]))
}

pub fn word(order: u8, number: u32) -> [u8; 4] {
    if order == 0 {
        number.to_be_bytes()
    } else {
        number.to_le_bytes()
    }
}

pub fn in_order(order: u8, bits: u64) -> [u8; 8] {
    if order == 0 {
        bits.to_be_bytes()
    } else {
        bits.to_le_bytes()
    }
}

/// The points as a surveyor's file: the first order is the head's, the others are the Points'.
fn point_file(orders: &[u8], xs: &[u16], ys: &[u16]) -> Vec<u8> {
    let mut file = vec![orders[0]];
    file.extend(word(orders[0], 4));
    file.extend(word(orders[0], xs.len() as u32));
    for ((&order, &x), &y) in orders[1..].iter().zip(xs).zip(ys) {
        file.push(order);
        file.extend(word(order, 1));
        for number in [x, y] {
            file.extend(in_order(order, (number as f64).to_bits()));
        }
    }
    file
}

/// The office as the list printer's text, with random white space and leading zeros.
fn text(sheet: &Sheet, random: &mut Random) -> Vec<u8> {
    let points = sheet.xs.len().min(sheet.ys.len());
    let mut numbers = vec![points as u16, sheet.triangles() as u16];
    numbers.extend((0..points).flat_map(|p| [sheet.xs[p], sheet.ys[p]]));
    numbers.extend(&sheet.corners);
    let plain = numbers.len() > 5_000 || random.once_in(2);
    let mut text = Vec::new();
    if !plain {
        text.extend(*random.pick(&[&b""[..], b" ", b"\r\n", b"\n \r"]));
    }
    for number in numbers {
        let word = if !plain && random.once_in(3) { format!("{number:05}") } else { number.to_string() };
        text.extend(word.as_bytes());
        text.extend(if plain { b" " } else { *random.pick(&[&b" "[..], b"  ", b"\n", b"\r", b"\r\n", b" \n "]) });
    }
    if plain || random.once_in(2) {
        text.truncate(text.trim_ascii_end().len());
    }
    text
}

impl Comparison<'_> {
    fn longer(&mut self) -> Slack {
        let mut slack = || *self.random.pick(&[0, 0, 1, 2, 7, 40]);
        Slack { kept: slack(), rim: slack(), ring: slack(), least: slack(), peeled: slack(), area: slack() }
    }

    /// One buffer too short, the others long enough.
    fn shorter(&mut self, buffers: usize) -> Slack {
        let mut slack = self.longer();
        let less = -*self.random.pick(&[1, 1, 2, 2_000]);
        match self.random.below(buffers) {
            0 => slack.kept = less,
            1 => slack.rim = less,
            2 => slack.ring = less,
            3 => slack.least = less,
            4 => slack.peeled = less,
            _ => slack.area = less,
        }
        slack
    }

    /// The limits that matter: 0, each squared length, one less, one more, the greatest; `most` of them.
    fn limits(&mut self, sheet: &Sheet, most: usize) -> Vec<u32> {
        let mut limits: Vec<u32> =
            sheet.squared_lengths().iter().flat_map(|&l| [l.saturating_sub(1), l, l.saturating_add(1)]).collect();
        limits.dedup();
        if limits.len() > most {
            self.random.shuffle(&mut limits);
            limits.truncate(most);
        }
        limits.extend([0, LAST]);
        limits
    }

    /// The office exported anew, with other numbers of points and triangles and other first corners: the same outlines.
    fn exported_anew(&mut self, sheet: &Sheet) {
        let mut anew: Vec<u16> = (0..sheet.points() as u16).collect();
        self.random.shuffle(&mut anew);
        let mut other = sheet.clone();
        for (p, &q) in anew.iter().enumerate() {
            other.xs[q as usize] = sheet.xs[p];
            other.ys[q as usize] = sheet.ys[p];
        }
        let mut triangles: Vec<&[u16]> = sheet.corners.chunks(3).collect();
        self.random.shuffle(&mut triangles);
        other.corners.clear();
        for triangle in triangles {
            let first = self.random.below(3);
            other.corners.extend((0..3).map(|i| anew[triangle[(first + i) % 3] as usize]));
        }
        for limit in [0, *self.random.pick(&sheet.squared_lengths())] {
            let one = self.draw(sheet, limit, Slack::default());
            let two = self.draw(&other, limit, Slack::default());
            if let (Ok((tally, memory)), Ok((again, renewed))) = (one, two) {
                // A wrong program may claim more than it was lent, and may leave numbers there that are no points.
                let used = memory.ring.iter().take(tally.ring);
                let mut ring: Vec<u16> = used.map(|&p| anew.get(p as usize).copied().unwrap_or(p)).collect();
                let lowest = (0..ring.len()).min_by_key(|&i| ring[i]).unwrap_or(0);
                ring.rotate_left(lowest);
                let good = tally == again && ring.iter().eq(renewed.ring.iter().take(again.ring));
                self.among("an office exported anew has the same outline", &(sheet, &other, limit), &again, &tally, good);
            }
        }
        let one = self.list(sheet, Slack::default());
        let two = self.list(&other, Slack::default());
        if let (Ok((n, lists)), Ok((m, renewed))) = (one, two) {
            let good = n == m
                && lists.least.iter().take(n).eq(renewed.least.iter().take(n))
                && lists.peeled.iter().take(n).eq(renewed.peeled.iter().take(n))
                && lists.area.iter().take(n).eq(renewed.area.iter().take(n));
            self.among("an office exported anew has the same list", &(sheet, &other), &renewed, &lists, good);
        }
    }

    /// Everything about one office; `draws` bounds how many limits are tried.
    pub fn office(&mut self, sheet: &Sheet, draws: usize) {
        self.counts.offices += 1;
        let accepted = self.check(sheet).is_ok();
        if accepted {
            self.counts.largest = self.counts.largest.max(sheet.points());
            self.exported_anew(sheet);
        }
        let slack = self.shorter(3);
        let _ = self.draw(sheet, 0, slack);
        let slack = self.shorter(6);
        let _ = self.list(sheet, slack);
        let slack = self.longer();
        let list = self.list(sheet, slack);
        if let Ok((entries, lists)) = &list {
            self.areas(sheet, *entries, lists);
        }
        let limits = if accepted { self.limits(sheet, draws) } else { vec![*self.random.pick(&[0, LAST, 100])] };
        let mut ring = None;
        for limit in limits {
            let slack = self.longer();
            if let Ok((tally, memory)) = self.draw(sheet, limit, slack) {
                for claimed in [0, tally.ring + 1, memory.ring.len(), memory.ring.len() + 1, usize::MAX] {
                    if self.random.once_in(8) {
                        self.outline(&memory.ring, Tally { ring: claimed, ..tally });
                    }
                }
                if let Ok((entries, lists)) = &list {
                    // The entry that stands for a draw is the first whose least limit is not above its limit.
                    let entries = (*entries).min(lists.least.len());
                    let found = (0..entries).find(|&i| lists.least[i] <= limit);
                    let entry = found.map(|i| (lists.peeled[i], lists.area[i]));
                    let drawn = Some((tally.peeled, tally.area));
                    self.among("the list agrees with a draw", &(sheet, limit), &entry, &drawn, entry == drawn);
                    if limit == 0 {
                        let same = self.ends(&memory, lists, sheet, tally);
                        self.among("a list leaves what a draw at 0 leaves", sheet, &lists, &memory, same);
                    }
                }
                ring = Some(memory.ring[..tally.ring.min(memory.ring.len())].to_vec());
            }
            if self.over() {
                return;
            }
        }
        let (points, corners) = (points_block(sheet), low_first(sheet.corners.iter().copied()));
        for limit in [0, *self.random.pick(&[100, 1_000, 1 << 20, 1 << 24, LAST])] {
            let room = *self.random.pick(&[0, 13, 60, 77, 109, 205, 13 + 16 * 1_025, 20_000]);
            let answer = self.polygon(&points, &corners, limit, room);
            if answer > 77 {
                self.polygon(&points, &corners, limit, answer as usize);
                self.polygon(&points, &corners, limit, answer as usize - 1);
            }
        }
        let text = text(sheet, &mut self.random);
        self.printed(&text);
        if let Some(ring) = ring {
            let at = |list: &[u16]| ring.iter().map(|&p| list.get(p as usize).copied().unwrap_or(0)).collect::<Vec<u16>>();
            self.round_trip(&at(&sheet.xs), &at(&sheet.ys));
        }
    }

    fn ends(&self, drawn: &Memory, listed: &Memory, sheet: &Sheet, tally: Tally) -> bool {
        drawn.kept.get(..sheet.triangles()) == listed.kept.get(..sheet.triangles())
            && drawn.rim.get(..sheet.points()) == listed.rim.get(..sheet.points())
            && drawn.ring.get(..tally.ring) == listed.ring.get(..tally.ring)
    }

    /// What is written is read as the same ring.
    fn round_trip(&mut self, xs: &[u16], ys: &[u16]) {
        let bytes = 13 + 16 * (xs.len() + 1);
        let more = self.random.below(40);
        if let Some(block) = self.write(xs, ys, bytes + more) {
            let room = (xs.len() + self.random.below(3), xs.len() + self.random.below(3));
            let read = self.read(&block, room);
            let wanted = Ok((xs.to_vec(), ys.to_vec()));
            let same = read == wanted;
            self.among("a written ring is read back", &(xs, ys), &read, &wanted, same);
        }
    }

    /// Each damage on a small office of some kind, now and then with a second one on top. Those that only the later rules
    /// see come more often.
    pub fn damages(&mut self, points: usize) {
        let late = [Damage::FlippedDiagonal, Damage::Dropped, Damage::Dented, Damage::Dented, Damage::Pinched];
        for &damage in Damage::ALL.iter().chain(&late).chain(&late) {
            let kind = *self.random.pick(&Kind::ALL);
            let least = if late.contains(&damage) { 6 } else { 4 };
            let count = self.random.within(least, points);
            let mut sheet = damaged(&accepted(kind, count, &mut self.random), damage, &mut self.random);
            if self.random.once_in(4) {
                let more = *self.random.pick(&Damage::ALL);
                sheet = damaged(&sheet, more, &mut self.random);
            }
            self.office(&sheet, 12);
            if self.over() {
                return;
            }
        }
    }

    pub fn garbage(&mut self, times: usize) {
        for _ in 0..times {
            let sheet = garbage(&mut self.random);
            self.office(&sheet, 12);
        }
    }

    /// A block that is read, then the same damaged at every offset, cut at every offset, with strange coordinates, with
    /// bytes left over, and with lists of every length that matters.
    pub fn blocks(&mut self, ring: usize, every: usize) {
        let list = |random: &mut Random| (0..ring).map(|_| *random.pick(&[0, 1, 5, 4_096, 16_383])).collect::<Vec<u16>>();
        let (xs, ys) = (list(&mut self.random), list(&mut self.random));
        let Some(little) = self.write(&xs, &ys, 13 + 16 * (ring + 1)) else { return };
        let mut big = vec![0, 0, 0, 0, 3, 0, 0, 0, 1];
        big.extend((ring as u32 + 1).to_be_bytes());
        for field in little[13..].chunks_exact(8) {
            big.extend(field.iter().rev());
        }
        let room = (ring + 2, ring + 1);
        for block in [little, big] {
            let _ = self.read(&block, room);
            for (x, y) in [(0, ring), (ring, 0), (ring - 1, ring), (ring, ring - 1), (ring, ring), (ring + 9, ring)] {
                let _ = self.read(&block, (x, y));
            }
            for offset in (0..block.len()).step_by(every) {
                let mut bad = block.clone();
                for byte in [block[offset] ^ 1 << self.random.below(8), self.random.next() as u8, 0, 0xFF] {
                    bad[offset] = byte;
                    let _ = self.read(&bad, room);
                    let order = *self.random.pick(&[block[0], block[0], 1 - block[0], 2]);
                    let _ = self.judge(&bad, order, offset);
                }
                let _ = self.read(&block[..offset], room);
                bad[offset] = block[offset];
                bad.truncate(offset + self.random.below(block.len() - offset));
                let _ = self.read(&bad, room);
                if self.over() {
                    return;
                }
            }
            self.coordinates(&block, ring, room, every);
            for count in [0, 1, 3, 4, ring as u32, ring as u32 + 2, 1_025, 1_026, 65_536 + 4, LAST] {
                let mut bad = block.clone();
                bad[9..13].copy_from_slice(&word(block[0], count));
                let _ = self.read(&bad, room);
                let enough = 1_023 + self.random.below(3);
                let _ = self.read(&bad, (1_024, enough));
            }
            for more in [1, 2, 8, 16, 17] {
                let mut long = block.clone();
                long.extend(noise(more, &mut self.random));
                let _ = self.read(&long, room);
            }
            for place in [block.len() - 8, block.len() - 7, block.len(), block.len() + 1, usize::MAX - 7, usize::MAX] {
                for order in [0, 1, 2, 255] {
                    let _ = self.judge(&block, order, place);
                }
            }
        }
        for (x, y) in [(0, 0), (2, 2), (3, 4), (ring, ring - 1), (1_024, 1_024), (1_025, 1_025), (1_024, 1_025)] {
            let list = |length: usize| xs.iter().cycle().take(length).copied().collect::<Vec<u16>>();
            self.write(&list(x), &list(y), 13 + 16 * 1_025);
        }
        for room in [0, 12, 13, 29, 13 + 16 * ring, 13 + 16 * ring + 15, 13 + 16 * (ring + 1), 14 + 16 * (ring + 1)] {
            self.write(&xs, &ys, room);
            let mut large = xs.clone();
            large[self.random.below(ring)] = *self.random.pick(&[16_384, 20_000, 65_535]);
            self.write(&large, &ys, room);
            self.write(&ys, &large, room);
        }
    }

    /// Each coordinate replaced by strange floats.
    fn coordinates(&mut self, block: &[u8], ring: usize, room: (usize, usize), every: usize) {
        for field in (0..2 * (ring + 1)).step_by(every.div_ceil(4)) {
            let at = 13 + 8 * field;
            for value in STRANGE {
                let bits = value.to_bits();
                let bytes = if block[0] == 0 { bits.to_be_bytes() } else { bits.to_le_bytes() };
                let mut bad = block.to_vec();
                bad[at..at + 8].copy_from_slice(&bytes);
                let _ = self.judge(&bad, block[0], at);
                if self.random.once_in(3) {
                    // A second fault behind it must not be seen.
                    bad.truncate(at + self.random.within(1, bad.len() - at));
                }
                let _ = self.read(&bad, room);
            }
        }
    }

    /// A point file of mixed byte orders that is read, then the same damaged at every offset, cut at every offset, with strange
    /// coordinates, with bytes left over, and with lists of every length that matters. After each fault the value is asked for.
    pub fn point_files(&mut self, points: usize, every: usize) {
        let mut list = || (0..points).map(|_| *self.random.pick(&[0, 1, 5, 4_096, 16_383])).collect::<Vec<u16>>();
        let (xs, ys) = (list(), list());
        let orders: Vec<u8> = (0..=points).map(|_| self.random.below(2) as u8).collect();
        let file = point_file(&orders, &xs, &ys);
        let room = (points + 2, points + 1);
        let read = self.read_points(&file, room);
        let wanted = Ok((xs, ys));
        self.among("a point file is read as its points", &file, &read, &wanted, read == wanted);
        for (x, y) in [(0, points), (points, 0), (points - 1, points), (points, points - 1), (points, points), (points + 9, points)]
        {
            let _ = self.read_points(&file, (x, y));
        }
        for offset in (0..file.len()).step_by(every) {
            let mut bad = file.clone();
            for byte in [file[offset] ^ 1 << self.random.below(8), self.random.next() as u8, 0, 1, 0xFF] {
                bad[offset] = byte;
                self.seen(&bad, room);
                let _ = self.sent(&bad, offset);
            }
            let _ = self.read_points(&file[..offset], room);
            let place = offset.saturating_sub(self.random.below(22));
            let _ = self.sent(&file[..offset], place);
            bad.truncate(offset + self.random.below(file.len() - offset));
            self.seen(&bad, room);
            if self.over() {
                return;
            }
        }
        for i in (0..points).step_by(every.div_ceil(4)) {
            for at in [9 + 21 * i + 5, 9 + 21 * i + 13] {
                for value in STRANGE {
                    let mut bad = file.clone();
                    bad[at..at + 8].copy_from_slice(&in_order(orders[i + 1], value.to_bits()));
                    if self.random.once_in(3) {
                        // A second fault behind it must not be seen.
                        bad.truncate(at + self.random.within(1, bad.len() - at));
                    }
                    self.seen(&bad, room);
                }
            }
        }
        for count in [0, 1, 2, 3, points as u32 - 1, points as u32 + 1, 1_024, 1_025, 65_536 + 3, LAST] {
            let mut bad = file.clone();
            bad[5..9].copy_from_slice(&word(file[0], count));
            let _ = self.read_points(&bad, room);
            let enough = 1_023 + self.random.below(3);
            let _ = self.read_points(&bad, (1_024, enough));
        }
        for more in [1, 2, 8, 21, 22] {
            let mut long = file.clone();
            long.extend(noise(more, &mut self.random));
            let _ = self.read_points(&long, room);
        }
        for place in [file.len() - 8, file.len() - 7, file.len(), file.len() + 5, usize::MAX - 7, usize::MAX] {
            let _ = self.sent(&file, place);
        }
    }

    /// A file is read; where it is refused because of a coordinate, that coordinate is shown.
    fn seen(&mut self, file: &[u8], room: (usize, usize)) {
        if let Err(refusal) = self.read_points(file, room) {
            let shown = self.sent(file, refusal.place);
            let good = match refusal.number {
                25 => shown == Ok(Coordinate::NotFinite),
                26 => matches!(shown, Ok(Coordinate::OffGrid(_))),
                _ => true,
            };
            self.among("a refused coordinate is shown", &file, &shown, &refusal, good);
        }
    }

    /// Texts of an office: cut, changed and lengthened at every offset.
    pub fn texts(&mut self, sheet: &Sheet, every: usize) {
        let text = text(sheet, &mut self.random);
        for offset in (0..text.len()).step_by(every) {
            let byte = *self.random.pick(b" \n\r\t0159-+.,a\0\x0b\x0c\x7f\x80\xff");
            let mut bad = text.clone();
            bad[offset] = byte;
            self.printed(&bad);
            self.printed(&text[..offset]);
            let mut bad = text.clone();
            bad.insert(offset, byte);
            self.printed(&bad);
            let word =
                *self.random.pick(&[&b"000000"[..], b" 00000 ", b"65535", b" 65535 ", b" 65536 ", b" 99999 ", b"\t", b" 7 "]);
            let mut bad = text.clone();
            bad.splice(offset..offset, word.iter().copied());
            self.printed(&bad);
            if self.over() {
                return;
            }
        }
        for bytes in [65_535, 65_536, 65_537] {
            let white = vec![*self.random.pick(b" \n\r"); bytes - text.len()];
            self.printed(&[&text[..], &white].concat());
            self.printed(&[&white[..], &text].concat());
        }
        for whole in
            [&b""[..], b" ", b"0", b"0 0", b"3 0 0 0 4 0 0 3", b"0 1 0 0 0", b"65535 65535", b"2 1 0 0 1 1 0 1 0", b"00000 00000"]
        {
            self.printed(whole);
        }
    }

    /// The C function's blocks: cut, lengthened and changed.
    pub fn c_blocks(&mut self, sheet: &Sheet) {
        let (points, corners) = (points_block(sheet), low_first(sheet.corners.iter().copied()));
        let room = 13 + 16 * (sheet.points() + 1);
        for less in 1..9.min(points.len()) {
            let limit = *self.random.pick(&[0, LAST]);
            let room = *self.random.pick(&[0, room]);
            self.polygon(&points[..points.len() - less], &corners, limit, room);
            if corners.len() > less {
                self.polygon(&points, &corners[..corners.len() - less], limit, room);
                self.polygon(&points[..points.len() - less], &corners[..corners.len() - less], limit, room);
            }
        }
        for _ in 0..40 {
            let (mut p, mut c) = (points.clone(), corners.clone());
            let block = if self.random.once_in(2) { &mut p } else { &mut c };
            if !block.is_empty() {
                let at = self.random.below(block.len());
                block[at] = *self.random.pick(&[0, 1, 2, 0x3F, 0x40, 0xFF]);
            }
            self.polygon(&p, &c, 0, room);
        }
        for (p, c) in [
            (0, 0),
            (4, 0),
            (8, 6),
            (11, 0),
            (12, 0),
            (12, 12_258),
            (12, 12_264),
            (4_096, 6),
            (4_100, 6),
            (4_098, 6),
            (12, 5),
            (12, 7),
        ] {
            let (p, c) = (noise(p, &mut self.random), noise(c, &mut self.random));
            self.polygon(&p, &c, 0, room);
        }
    }

    /// One round: an office of each kind, each damage, garbage, blocks, texts and districts. Rounds grow now and then.
    pub fn round(&mut self, round: u64) {
        for kind in Kind::ALL {
            let most = match round {
                r if r % 40 == 39 => 200,
                r if r % 8 == 7 => 60,
                _ => 16,
            };
            let count = self.random.within(3, most);
            let sheet = accepted(kind, count, &mut self.random);
            let taken = self.library.check(office(&sheet)).is_ok();
            self.among("a Delaunay triangulation is accepted", &sheet, &taken, &true, taken);
            self.office(&sheet, if most > 60 { 60 } else { 400 });
            if self.over() {
                return;
            }
        }
        self.damages(if round % 8 == 3 { 40 } else { 12 });
        self.garbage(20);
        let ring = self.random.within(3, 8);
        self.blocks(ring, 1);
        let points = self.random.within(3, 8);
        self.point_files(points, 1);
        let sheet = accepted(*self.random.clone().pick(&Kind::ALL), 7, &mut self.random);
        self.texts(&sheet, if round % 16 == 0 { 1 } else { 23 });
        self.c_blocks(&sheet);
        self.districts(round);
    }

    /// The largest offices of each kind, damaged and not, some of middle size, and the largest rings.
    pub fn large(&mut self) {
        for _ in 0..4 {
            let (kind, count) = (*self.random.pick(&Kind::ALL), self.random.within(200, 1_000));
            let sheet = accepted(kind, count, &mut self.random);
            self.office(&sheet, 3);
        }
        for kind in Kind::ALL {
            let sheet = accepted(kind, kind.most(), &mut self.random);
            self.office(&sheet, 3);
            let damage = *self.random.pick(&Damage::ALL);
            let sheet = damaged(&sheet, damage, &mut self.random);
            self.office(&sheet, 2);
            if self.over() {
                return;
            }
        }
        for ring in [1_023, 1_024] {
            self.blocks(ring, 997);
            self.point_files(ring, 997);
        }
        let sheet = accepted(Kind::ThreePointHull, 1_024, &mut self.random);
        self.texts(&sheet, 20_011);
        let sheet = accepted(Kind::Clustered, 200, &mut self.random);
        self.c_blocks(&sheet);
    }
}
