//! Peeling: draw, outline and list.

use crate::check::Sheet;
use crate::sides::{after, NONE};
use crate::{Lent, Lists, Office, Refusal, Second, Tally, Wrong};
use std::cmp::Ordering;
use std::collections::BinaryHeap;
use std::iter::successors;

/// A removable rim side that waits in the queue. The greatest squared length stands first, of equal ones the side whose first end
/// has the smaller x, then the smaller y, and then whose second end has. Of a side's ends the one with smaller x, then smaller y, is the first.
#[derive(PartialEq, Eq)]
struct Waiting {
    squared: u32,
    side: u16,
    /// The corner that the peel lays bare.
    third: u16,
    /// x and y of the first end, then of the second.
    ties: u64,
}

impl Ord for Waiting {
    fn cmp(&self, other: &Waiting) -> Ordering {
        self.squared.cmp(&other.squared).then(other.ties.cmp(&self.ties))
    }
}

impl PartialOrd for Waiting {
    fn partial_cmp(&self, other: &Waiting) -> Option<Ordering> {
        Some(self.cmp(other))
    }
}

/// What one step peeled.
struct Peel {
    squared: u32,
}

/// A peeling under way. A side goes by its place in the corner list.
pub(crate) struct Peeling<'a> {
    rules: Second,
    office: Office<'a>,
    sheet: Sheet,
    kept: Vec<bool>,
    on_rim: Vec<bool>,
    queue: BinaryHeap<Waiting>,
    /// How many kept triangles have the point as a corner.
    fan: Vec<u16>,
    pub tally: Tally,
}

impl<'a> Peeling<'a> {
    pub fn start(rules: Second, office: Office<'a>, sheet: Sheet) -> Peeling<'a> {
        let points = office.xs.len();
        let mut fan = vec![0; points];
        for &c in office.corners {
            fan[c as usize] += 1;
        }
        let on_rim: Vec<bool> = sheet.next.iter().map(|&next| next != NONE).collect();
        let mut peeling = Peeling {
            rules,
            office,
            kept: vec![true; office.corners.len() / 3],
            on_rim,
            queue: BinaryHeap::new(),
            fan,
            tally: Tally { peeled: 0, area: sheet.areas.iter().map(|&area| area as u32).sum(), ring: sheet.rim.len() },
            sheet,
        };
        // A step takes one side out and puts two in at most, and each puts a point on the rim.
        let mut waiting = Vec::with_capacity(points);
        waiting.extend(peeling.sheet.rim.iter().filter_map(|&side| peeling.waiting(side)));
        peeling.queue = BinaryHeap::from(waiting);
        peeling
    }

    /// What stands in the queue for a rim side, if it is removable. Points never leave the rim, so one that is not never will be.
    fn waiting(&self, side: u16) -> Option<Waiting> {
        let to = after(side as usize);
        let (from, to, third) = (self.office.corners[side as usize], self.office.corners[to], self.office.corners[after(to)]);
        if self.on_rim[third as usize] && !self.rules.is(Wrong::StopsAtLongSide) {
            return None;
        }
        let at = |p: u16| (self.office.xs[p as usize], self.office.ys[p as usize]);
        let (a, b) = (at(from), at(to));
        let (across, up) = (a.0.abs_diff(b.0) as u32, a.1.abs_diff(b.1) as u32);
        let key = |p: (u16, u16)| (p.0 as u64) << 16 | p.1 as u64;
        let (a, b) = (key(a), key(b));
        let ties = if self.rules.is(Wrong::NoTieOrder) {
            key((side / 3, from))
        } else if self.rules.is(Wrong::DirectedTieOrder) {
            a << 32 | b
        } else if self.rules.is(Wrong::TiesByNumbers) {
            key((from.min(to), from.max(to)))
        } else {
            a.min(b) << 32 | a.max(b)
        };
        Some(Waiting { squared: across * across + up * up, side, third, ties })
    }

    /// Puts the reverse of a dropped triangle's side on the rim.
    fn lay(&mut self, dropped: usize) {
        let side = self.sheet.mates[dropped];
        // Where a corner was forgotten there may be none.
        if side != NONE {
            let from = self.office.corners[side as usize] as usize;
            self.on_rim[from] = true;
            self.sheet.next[from] = self.office.corners[dropped];
            if let Some(waiting) = self.waiting(side) {
                self.queue.push(waiting);
            }
        }
    }

    /// Peels the first removable side longer than the limit, if there is one.
    fn step(&mut self, limit: u32) -> Result<Option<Peel>, Refusal> {
        while let Some(&Waiting { squared, side, third, .. }) = self.queue.peek() {
            let above = squared > limit || (squared == limit && self.rules.is(Wrong::AtLeastTheLimit));
            if self.on_rim[third as usize] {
                if above && self.rules.is(Wrong::StopsAtLongSide) {
                    return Ok(None);
                }
                self.queue.pop();
                continue;
            }
            if !above || self.rules.is(Wrong::HullAtOnce) {
                return Ok(None);
            }
            self.queue.pop();
            if self.rules.is(Wrong::PeelsOnce) && self.tally.peeled > 0 {
                self.tally.peeled += 1;
                self.tally.ring += 1;
                return Ok(Some(Peel { squared }));
            }
            let (second, last) = (after(side as usize), after(after(side as usize)));
            for p in [side as usize, second, last].map(|place| self.office.corners[place]) {
                if self.fan[p as usize] == 1 && self.rules.wrong.is_none() {
                    return Err(Refusal { number: 14, place: p as usize });
                }
                self.fan[p as usize] = self.fan[p as usize].saturating_sub(1);
            }
            self.kept[side as usize / 3] = false;
            self.lay(last);
            self.lay(second);
            if self.rules.is(Wrong::ForgetsBaredCorner) {
                self.on_rim[third as usize] = false;
            }
            self.tally.peeled += 1;
            self.tally.ring += 1;
            if !self.rules.is(Wrong::AreaOfHull) {
                self.tally.area -= self.sheet.areas[side as usize / 3] as u32;
            }
            return Ok(Some(Peel { squared }));
        }
        Ok(None)
    }

    /// The outline: point numbers, counterclockwise, from the lowest.
    pub fn ring(&self) -> impl Iterator<Item = u16> + '_ {
        let lowest = if self.rules.is(Wrong::RingFromAnywhere) {
            self.office.corners[self.sheet.rim[0] as usize]
        } else {
            self.on_rim.iter().position(|&on| on).unwrap() as u16
        };
        let next = move |&at: &u16| self.sheet.next.get(at as usize).copied().filter(|&to| to != lowest);
        successors(Some(lowest), next).take(self.on_rim.len())
    }

    /// Marks and ring go into the lent buffers; what lies past them stays.
    fn lend_back(&self, lent: &mut Lent) {
        for (place, &kept) in lent.kept.iter_mut().zip(&self.kept) {
            *place = kept as u8;
        }
        for (place, &on) in lent.rim.iter_mut().zip(&self.on_rim) {
            *place = on as u8;
        }
        if self.rules.is(Wrong::ClearsRingBuffer) {
            lent.ring.fill(0);
        }
        for (place, p) in lent.ring.iter_mut().zip(self.ring()) {
            *place = p;
        }
    }
}

impl Second {
    fn room(office: Office, lent: &Lent) -> bool {
        lent.kept.len() >= office.corners.len() / 3 && lent.rim.len() >= office.xs.len() && lent.ring.len() >= office.xs.len()
    }

    pub fn draw(&self, office: Office, limit: u32, lent: &mut Lent) -> Result<Tally, Refusal> {
        let sheet = self.sheet(office, Second::room(office, lent))?;
        let mut peeling = Peeling::start(*self, office, sheet);
        while peeling.step(limit)?.is_some() {}
        peeling.lend_back(lent);
        Ok(peeling.tally)
    }

    /// The used part of a ring buffer; empty where the tally claims more than the buffer holds.
    pub fn outline<'a>(&self, ring: &'a [u16], tally: Tally) -> &'a [u16] {
        if self.is(Wrong::OutlineShortOfBuffer) && tally.ring == ring.len() {
            return &[];
        }
        ring.get(..tally.ring).unwrap_or(&[])
    }

    pub fn list(&self, office: Office, lent: &mut Lent, lists: &mut Lists) -> Result<usize, Refusal> {
        let most = office.xs.len().saturating_sub(2);
        let room =
            Second::room(office, lent) && lists.least.len() >= most && lists.peeled.len() >= most && lists.area.len() >= most;
        let mut peeling = Peeling::start(*self, office, self.sheet(office, room)?);
        let mut entries = Vec::with_capacity(most);
        self.entries(&mut peeling, |peeling| peeling.tally, |least, tally| entries.push((least, tally)))?;
        for (i, (least, tally)) in entries.iter().enumerate().take(most) {
            lists.least[i] = *least;
            lists.peeled[i] = tally.peeled;
            lists.area[i] = tally.area;
        }
        peeling.lend_back(lent);
        Ok(entries.len())
    }

    /// Peels to the end, with a look at each state. A state is an entry exactly when the next length is strictly below all earlier
    /// ones: it is then what a draw at that length leaves.
    pub(crate) fn entries<T>(
        &self,
        peeling: &mut Peeling,
        look: impl Fn(&Peeling) -> T,
        mut entry: impl FnMut(u32, T),
    ) -> Result<(), Refusal> {
        let mut shortest = None;
        loop {
            let state = look(peeling);
            let peel = peeling.step(0)?;
            let least = peel.as_ref().map_or(0, |p| p.squared);
            if shortest.is_none_or(|s| least < s) || self.is(Wrong::ListsEachPeel) {
                entry(least, state);
                shortest = Some(least);
            }
            if peel.is_none() {
                return Ok(());
            }
        }
    }
}
