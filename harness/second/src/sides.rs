//! A hash table of pairs of numbers below 2^16, with a number each, and the table of sides made with it.

const FREE: u32 = u32::MAX;

/// No side: a rim side has none beyond it.
pub const NONE: u16 = u16::MAX;

pub struct Table {
    slots: Vec<(u32, u32)>,
    shift: u32,
}

impl Table {
    /// Room for `most` pairs, at most half full.
    pub fn with_room(most: usize) -> Table {
        let bits = (2 * most.max(4)).next_power_of_two().trailing_zeros();
        Table { slots: vec![(0, FREE); 1 << bits], shift: 32 - bits }
    }

    /// The place of the pair's number. A pair that is new goes in, and its number is to be set to one below `FREE`.
    fn at(&mut self, pair: (u16, u16)) -> &mut u32 {
        let key = (pair.0 as u32) << 16 | pair.1 as u32;
        let mut at = (key.wrapping_mul(0x9E37_79B1) >> self.shift) as usize;
        while self.slots[at].1 != FREE && self.slots[at].0 != key {
            at = (at + 1) & (self.slots.len() - 1);
        }
        self.slots[at].0 = key;
        &mut self.slots[at].1
    }

    /// The number that stands for the pair already; otherwise the pair goes in.
    pub fn put(&mut self, pair: (u16, u16), number: u32) -> Option<u32> {
        let there = self.at(pair);
        if *there != FREE {
            return Some(*there);
        }
        *there = number;
        None
    }
}

/// The place in the corner list of the next corner of the same triangle.
pub fn after(side: usize) -> usize {
    if side % 3 == 2 {
        side - 2
    } else {
        side + 1
    }
}

/// A side's place is its first corner's. For each side, the place of its reverse or `NONE`; or else the first side that stands there
/// twice. The hash table has one pair for both directions, lower end first, with the place of either. It is never full, and half
/// full where each side has its reverse.
pub fn mates(corners: &[u16]) -> Result<Vec<u16>, usize> {
    let mut table = Table::with_room(corners.len() / 2 + 1);
    let mut mates = vec![NONE; corners.len()];
    for (t, triangle) in corners.chunks_exact(3).enumerate() {
        for (i, next) in [1, 2, 0].into_iter().enumerate() {
            let (side, from, to) = (3 * t + i, triangle[i], triangle[next]);
            let there = table.at((from.min(to), from.max(to)));
            let (here, beyond) = if from < to { (0, 16) } else { (16, 0) };
            if (*there >> here) as u16 != NONE {
                return Err(side);
            }
            let mate = (*there >> beyond) as u16;
            if mate != NONE {
                mates[side] = mate;
                mates[mate as usize] = side as u16;
            }
            *there = *there & (NONE as u32) << beyond | (side as u32) << here;
        }
    }
    Ok(mates)
}
