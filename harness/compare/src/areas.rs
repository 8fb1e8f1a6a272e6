//! The area on the deed map: the shoelace sum along a ring, the areas in a list and those of the peeled triangles.

use crate::comparison::{Comparison, Memory, Slack};
use crate::rounds::LAST;
use offices::Sheet;

/// Larger offices have some of their entries looked at.
const LARGE: usize = 200;
const SOME: usize = 12;

/// The doubled area within a ring of point numbers, by the shoelace sum. A wrong program may leave numbers there that are no points.
pub fn shoelace(sheet: &Sheet, ring: &[u16]) -> i64 {
    let at = |p: u16| (*sheet.xs.get(p as usize).unwrap_or(&0) as i64, *sheet.ys.get(p as usize).unwrap_or(&0) as i64);
    let next = ring.iter().cycle().skip(1);
    ring.iter().zip(next).map(|(&p, &q)| at(p).0 * at(q).1 - at(p).1 * at(q).0).sum()
}

/// The ring that a draw has left.
pub fn ring(memory: &Memory, length: usize) -> &[u16] {
    memory.ring.get(..length).unwrap_or(&[])
}

impl Comparison<'_> {
    /// The area of each entry is the shoelace sum of the ring drawn at its least limit, is positive, and comes to the hull's with the
    /// areas of the triangles peeled.
    pub fn areas(&mut self, sheet: &Sheet, entries: usize, lists: &Memory) {
        let Ok((whole, hull)) = self.draw(sheet, LAST, Slack::default()) else { return };
        let hull = shoelace(sheet, ring(&hull, whole.ring));
        let mut chosen: Vec<usize> = (0..entries.min(lists.least.len())).collect();
        if sheet.points() > LARGE {
            self.random.shuffle(&mut chosen);
            chosen.truncate(SOME);
        }
        for entry in chosen {
            let (least, area) = (lists.least[entry], lists.area.get(entry).map(|&area| area as i64));
            let Ok((tally, memory)) = self.draw(sheet, least, Slack::default()) else { return };
            let along = shoelace(sheet, ring(&memory, tally.ring));
            let triangles = sheet.corners.chunks_exact(3).zip(memory.kept.iter());
            let peeled: i64 = triangles.filter(|(_, &kept)| kept == 0).map(|(t, _)| shoelace(sheet, t)).sum();
            let input = (sheet, least);
            self.among("an entry's area is the shoelace sum of its ring", &input, &area, &along, area == Some(along));
            self.among("an area is positive", &input, &along, &"more than 0", along > 0);
            self.among(
                "the hull's area is the outline's and the peeled triangles'",
                &input,
                &(along, peeled),
                &hull,
                hull == along + peeled,
            );
        }
    }
}
