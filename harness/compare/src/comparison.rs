//! One call at a time, on both sides, from the same lent memory. Answers and all lent memory must be equal, a refusal
//! must have written nothing, and what lies past the promised places must have stayed.

use crate::areas::{ring, shoelace};
use crate::counts::{Call, Counts};
use library::Library;
use offices::{Random, Sheet};
use second::{Coordinate, Lent, Lists, Office, Refusal, Second, Tally};
use std::fmt::Debug;
use std::ops::{Deref, DerefMut};

pub struct Comparison<'a> {
    pub library: &'a dyn Library,
    pub second: Second,
    pub counts: Counts,
    pub random: Random,
    /// End at the first difference and say nothing of it.
    pub quiet: bool,
}

/// How many places more (or fewer) than needed a lent buffer has.
#[derive(Clone, Copy, Debug, Default)]
pub struct Slack {
    pub kept: isize,
    pub rim: isize,
    pub ring: isize,
    pub least: isize,
    pub peeled: isize,
    pub area: isize,
}

/// Random numbers with a fence on either side. What is lent lies between the fences; comparing two compares the fences too.
#[derive(Clone, Debug, PartialEq, Eq)]
pub struct Fenced<T>(Vec<T>);

const FENCE: usize = 16;

impl<T> Fenced<T> {
    fn noise(length: usize, random: &mut Random, number: fn(u64) -> T) -> Fenced<T> {
        Fenced((0..length + 2 * FENCE).map(|_| number(random.next())).collect())
    }
}

impl<T> Deref for Fenced<T> {
    type Target = [T];

    fn deref(&self) -> &[T] {
        &self.0[FENCE..self.0.len() - FENCE]
    }
}

impl<T> DerefMut for Fenced<T> {
    fn deref_mut(&mut self) -> &mut [T] {
        let end = self.0.len() - FENCE;
        &mut self.0[FENCE..end]
    }
}

/// The memory that a draw or a list borrows.
#[derive(Clone, Debug, PartialEq, Eq)]
pub struct Memory {
    pub kept: Fenced<u8>,
    pub rim: Fenced<u8>,
    pub ring: Fenced<u16>,
    pub least: Fenced<u32>,
    pub peeled: Fenced<u32>,
    pub area: Fenced<u32>,
}

impl Memory {
    fn of(sheet: &Sheet, slack: Slack, random: &mut Random) -> Memory {
        let room = |needed: usize, slack: isize| needed.saturating_add_signed(slack);
        let points = sheet.points();
        let most = points.saturating_sub(2);
        Memory {
            kept: Fenced::noise(room(sheet.triangles(), slack.kept), random, |n| n as u8),
            rim: Fenced::noise(room(points, slack.rim), random, |n| n as u8),
            ring: Fenced::noise(room(points, slack.ring), random, |n| n as u16),
            least: Fenced::noise(room(most, slack.least), random, |n| n as u32),
            peeled: Fenced::noise(room(most, slack.peeled), random, |n| n as u32),
            area: Fenced::noise(room(most, slack.area), random, |n| n as u32),
        }
    }

    fn lend(&mut self) -> (Lent<'_>, Lists<'_>) {
        (
            Lent { kept: &mut self.kept, rim: &mut self.rim, ring: &mut self.ring },
            Lists { least: &mut self.least, peeled: &mut self.peeled, area: &mut self.area },
        )
    }
}

/// Rings one after another, and their lengths.
#[derive(Clone, Debug, PartialEq, Eq, Default)]
pub struct Rings {
    pub xs: Vec<u16>,
    pub ys: Vec<u16>,
    pub lengths: Vec<u16>,
}

/// Places of an x list, a y list and a list of lengths.
pub type Room = (usize, usize, usize);

pub fn noise(length: usize, random: &mut Random) -> Vec<u8> {
    (0..length).map(|_| random.next() as u8).collect()
}

pub fn office(sheet: &Sheet) -> Office<'_> {
    Office { xs: &sheet.xs, ys: &sheet.ys, corners: &sheet.corners }
}

impl Comparison<'_> {
    /// Whether there is no use in going on.
    pub fn over(&self) -> bool {
        self.counts.failed > 0 && (self.quiet || self.counts.failed >= 20)
    }

    fn differ(&mut self, call: Call, what: &str, input: &dyn Debug, library: &dyn Debug, second: &dyn Debug) {
        self.counts.failed += 1;
        if !self.quiet {
            let cut = |value: &dyn Debug| {
                let mut text = format!("{value:?}");
                if text.len() > 3_000 {
                    text.truncate((0..=3_000).rev().find(|&i| text.is_char_boundary(i)).unwrap());
                    text += " ..";
                }
                text
            };
            println!("{call:?} differs: {what}\n  input   {}", cut(input));
            println!("  library {}\n  second  {}", cut(library), cut(second));
        }
    }

    /// Answers of a call that refuses: counted, and equal on both sides.
    fn answers<T: Debug + PartialEq>(
        &mut self,
        call: Call,
        input: &dyn Debug,
        library: &Result<T, Refusal>,
        second: &Result<T, Refusal>,
    ) -> bool {
        match second {
            Ok(_) => self.counts.count(call, 0, 0),
            Err(refusal) => self.counts.count(call, refusal.number, refusal.place),
        }
        let same = library == second;
        if !same {
            self.differ(call, "the answer", input, library, second);
        }
        same
    }

    /// Memory: equal on both sides, and as lent after a refusal.
    fn memory<M: Debug + PartialEq>(
        &mut self,
        call: Call,
        input: &dyn Debug,
        refused: bool,
        lent: &M,
        library: &M,
        second: &M,
    ) -> bool {
        if refused && library != lent {
            self.differ(call, "a refusal wrote something", input, library, lent);
        } else if library != second {
            self.differ(call, "the lent memory", input, library, second);
        } else {
            return true;
        }
        false
    }

    fn pass(&mut self, good: bool) {
        self.counts.passed += good as u64;
    }

    /// A fact about one side's answers alone.
    pub fn among(&mut self, what: &str, input: &dyn Debug, library: &dyn Debug, wanted: &dyn Debug, good: bool) {
        self.counts.count(Call::Among, 0, 0);
        if !good {
            self.differ(Call::Among, what, input, library, wanted);
        }
        self.pass(good);
    }

    pub fn check(&mut self, sheet: &Sheet) -> Result<usize, Refusal> {
        let library = self.library.check(office(sheet));
        let second = self.second.check(office(sheet));
        let good = self.answers(Call::Check, sheet, &library, &second);
        self.pass(good);
        let quick = Second::neighbours_first().check(office(sheet));
        self.among("neighbours first gives the same answer", sheet, &second, &quick, second == quick);
        library
    }

    pub fn draw(&mut self, sheet: &Sheet, limit: u32, slack: Slack) -> Result<(Tally, Memory), Refusal> {
        let lent = Memory::of(sheet, slack, &mut self.random);
        let (mut here, mut there) = (lent.clone(), lent.clone());
        let library = self.library.draw(office(sheet), limit, &mut here.lend().0);
        let second = self.second.draw(office(sheet), limit, &mut there.lend().0);
        let input = (sheet, limit, slack);
        let good = self.answers(Call::Draw, &input, &library, &second)
            && self.memory(Call::Draw, &input, library.is_err(), &lent, &here, &there);
        self.pass(good);
        let tally = library?;
        self.outline(&here.ring, tally);
        let stayed = here.kept.get(sheet.triangles()..) == lent.kept.get(sheet.triangles()..)
            && here.rim.get(sheet.points()..) == lent.rim.get(sheet.points()..)
            && here.ring.get(tally.ring..) == lent.ring.get(tally.ring..);
        self.among("places past the draw's stay", &input, &here, &lent, stayed);
        let shoelace = shoelace(sheet, ring(&here, tally.ring));
        self.among("the ring's shoelace sum is the area", &input, &shoelace, &tally.area, shoelace == tally.area as i64);
        Ok((tally, here))
    }

    pub fn outline(&mut self, ring: &[u16], tally: Tally) {
        let library = self.library.outline(ring, tally);
        let second = self.second.outline(ring, tally);
        self.counts.count(Call::Outline, 0, 0);
        let good = library == second;
        if !good {
            self.differ(Call::Outline, "the answer", &(ring, tally), &library, &second);
        }
        self.pass(good);
    }

    pub fn list(&mut self, sheet: &Sheet, slack: Slack) -> Result<(usize, Memory), Refusal> {
        let lent = Memory::of(sheet, slack, &mut self.random);
        let (mut here, mut there) = (lent.clone(), lent.clone());
        let (mut marks, mut lists) = here.lend();
        let library = self.library.list(office(sheet), &mut marks, &mut lists);
        let (mut marks, mut lists) = there.lend();
        let second = self.second.list(office(sheet), &mut marks, &mut lists);
        let input = (sheet, slack);
        let good = self.answers(Call::List, &input, &library, &second)
            && self.memory(Call::List, &input, library.is_err(), &lent, &here, &there);
        self.pass(good);
        let entries = library?;
        let stayed = here.least.get(entries..) == lent.least.get(entries..)
            && here.peeled.get(entries..) == lent.peeled.get(entries..)
            && here.area.get(entries..) == lent.area.get(entries..);
        self.among("places past the entries stay", &input, &here, &lent, stayed);
        Ok((entries, here))
    }

    pub fn write(&mut self, xs: &[u16], ys: &[u16], room: usize) -> Option<Vec<u8>> {
        let lent = Fenced::noise(room, &mut self.random, |n| n as u8);
        let (mut here, mut there) = (lent.clone(), lent.clone());
        let library = self.library.write(xs, ys, &mut here);
        let second = self.second.write(xs, ys, &mut there);
        let input = (xs, ys, room);
        let good = self.answers(Call::Write, &input, &library, &second)
            && self.memory(Call::Write, &input, library.is_err(), &lent, &here, &there);
        self.pass(good);
        library.ok().and_then(|bytes| here.get(..bytes).map(<[u8]>::to_vec))
    }

    pub fn read(&mut self, block: &[u8], room: (usize, usize)) -> Result<(Vec<u16>, Vec<u16>), Refusal> {
        self.lists(Call::Read, block, room, |side, block, xs, ys| side.read(block, xs, ys))
    }

    pub fn read_points(&mut self, block: &[u8], room: (usize, usize)) -> Result<(Vec<u16>, Vec<u16>), Refusal> {
        self.lists(Call::Points, block, room, |side, block, xs, ys| side.read_points(block, xs, ys))
    }

    /// A call that reads a block into two lists.
    fn lists(
        &mut self,
        call: Call,
        block: &[u8],
        room: (usize, usize),
        reader: fn(&dyn Library, &[u8], &mut [u16], &mut [u16]) -> Result<usize, Refusal>,
    ) -> Result<(Vec<u16>, Vec<u16>), Refusal> {
        let mut list = |length: usize| Fenced::noise(length, &mut self.random, |n| n as u16);
        let lent = (list(room.0), list(room.1));
        let (mut here, mut there) = (lent.clone(), lent.clone());
        let library = reader(self.library, block, &mut here.0, &mut here.1);
        let second = reader(&self.second, block, &mut there.0, &mut there.1);
        let input = (block, room);
        let good =
            self.answers(call, &input, &library, &second) && self.memory(call, &input, library.is_err(), &lent, &here, &there);
        self.pass(good);
        let read = library?.min(room.0).min(room.1);
        Ok((here.0[..read].to_vec(), here.1[..read].to_vec()))
    }

    pub fn write_district(&mut self, rings: &Rings, room: usize) -> Option<Vec<u8>> {
        let Rings { xs, ys, lengths } = rings;
        let lent = Fenced::noise(room, &mut self.random, |n| n as u8);
        let (mut here, mut there) = (lent.clone(), lent.clone());
        let library = self.library.write_district(xs, ys, lengths, &mut here);
        let second = self.second.write_district(xs, ys, lengths, &mut there);
        let input = (rings, room);
        let good = self.answers(Call::WriteDistrict, &input, &library, &second)
            && self.memory(Call::WriteDistrict, &input, library.is_err(), &lent, &here, &there);
        self.pass(good);
        library.ok().and_then(|bytes| here.get(..bytes).map(<[u8]>::to_vec))
    }

    /// The rings read, from lists with so many places for x, y and lengths.
    pub fn read_district(&mut self, block: &[u8], room: Room) -> Result<Rings, Refusal> {
        let mut list = |length: usize| Fenced::noise(length, &mut self.random, |n| n as u16);
        let lent = (list(room.0), list(room.1), list(room.2));
        let (mut here, mut there) = (lent.clone(), lent.clone());
        let library = self.library.read_district(block, &mut here.0, &mut here.1, &mut here.2);
        let second = self.second.read_district(block, &mut there.0, &mut there.1, &mut there.2);
        let input = (block, room);
        let good = self.answers(Call::ReadDistrict, &input, &library, &second)
            && self.memory(Call::ReadDistrict, &input, library.is_err(), &lent, &here, &there);
        self.pass(good);
        let rings = library?;
        let lengths: Vec<u16> = here.2.iter().take(rings).copied().collect();
        let read = lengths.iter().map(|&n| n as usize).sum();
        let stayed = here.0.get(read..) == lent.0.get(read..)
            && here.1.get(read..) == lent.1.get(read..)
            && here.2.get(rings..) == lent.2.get(rings..);
        self.among("places past the rings stay", &input, &here, &lent, stayed);
        let front = |list: &[u16]| list.iter().take(read).copied().collect();
        Ok(Rings { xs: front(&here.0), ys: front(&here.1), lengths })
    }

    pub fn judge(&mut self, block: &[u8], order: u8, place: usize) -> Result<Coordinate, Refusal> {
        let library = self.library.judge(block, order, place);
        let second = self.second.judge(block, order, place);
        let good = self.answers(Call::Judge, &(block, order, place), &library, &second);
        self.pass(good);
        library
    }

    pub fn sent(&mut self, block: &[u8], place: usize) -> Result<Coordinate, Refusal> {
        let library = self.library.sent(block, place);
        let second = self.second.sent(block, place);
        let good = self.answers(Call::Sent, &(block, place), &library, &second);
        self.pass(good);
        library
    }

    pub fn polygon(&mut self, points: &[u8], triangles: &[u8], limit: u32, room: usize) -> i64 {
        let lent = Fenced::noise(room, &mut self.random, |n| n as u8);
        let (mut here, mut there) = (lent.clone(), lent.clone());
        let library = self.library.outline_polygon(points, triangles, limit, &mut here);
        let second = self.second.outline_polygon(points, triangles, limit, &mut there);
        self.counts.count(Call::Polygon, if second < 0 { (-second) as u8 } else { 0 }, 0);
        let input = (points, triangles, limit, room);
        let mut good = library == second;
        if !good {
            self.differ(Call::Polygon, "the answer", &input, &library, &second);
        }
        good = good && self.memory(Call::Polygon, &input, library < 0, &lent, &here, &there);
        self.pass(good);
        library
    }

    pub fn printed(&mut self, text: &[u8]) {
        let library = self.library.printed(text);
        let second = self.second.printed(text);
        let words = String::from_utf8_lossy(&second).into_owned();
        let mut words = words.split_ascii_whitespace();
        let refused = words.next() == Some("refused");
        let mut number = || if refused { words.next().unwrap().parse().unwrap() } else { 0usize };
        let (number, place) = (number(), number());
        self.counts.count(Call::Printed, number as u8, place);
        let good = library == second;
        if !good {
            let show = |bytes: &[u8]| String::from_utf8_lossy(bytes).into_owned();
            self.differ(Call::Printed, "the lines", &show(text), &show(&library), &show(&second));
        }
        self.pass(good);
    }
}
