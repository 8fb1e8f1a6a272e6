//! The list printer's text: what it reads and what it prints.

use crate::peel::Peeling;
use crate::{Office, Refusal, Second, Wrong};
use std::fmt::Write;

const MOST_BYTES: usize = 65_536;
const NO_TEXT: Refusal = Refusal { number: 40, place: 0 };

impl Second {
    /// What the printer prints for a text.
    pub fn printed(&self, text: &[u8]) -> Vec<u8> {
        let mut lines = String::new();
        if let Err(refusal) = self.lines(text, &mut lines) {
            lines = format!("refused {} {}\n", refusal.number, refusal.place);
        }
        lines.into_bytes()
    }

    fn lines(&self, text: &[u8], lines: &mut String) -> Result<(), Refusal> {
        let numbers = self.numbers(text)?;
        let [points, triangles, rest @ ..] = &numbers[..] else { return Err(NO_TEXT) };
        let (points, triangles) = (*points as usize, *triangles as usize);
        if rest.len() != 2 * points + 3 * triangles {
            return Err(NO_TEXT);
        }
        let (positions, corners) = rest.split_at(2 * points);
        let xs: Vec<u16> = positions.iter().step_by(2).copied().collect();
        let ys: Vec<u16> = positions.iter().skip(1).step_by(2).copied().collect();
        let mut peeling = self.peeling(Office { xs: &xs, ys: &ys, corners })?;
        let look = |peeling: &Peeling| (peeling.tally, peeling.ring().collect::<Vec<u16>>());
        self.entries(&mut peeling, look, |least, (tally, ring)| {
            write!(lines, "{least} {} {}", tally.peeled, tally.area).unwrap();
            for p in ring {
                write!(lines, " {p}").unwrap();
            }
            lines.push('\n');
        })
    }

    fn numbers(&self, text: &[u8]) -> Result<Vec<u16>, Refusal> {
        if text.len() > MOST_BYTES {
            return Err(NO_TEXT);
        }
        let white = |b: &u8| matches!(b, b' ' | b'\n' | b'\r') || (*b == b'\t' && self.is(Wrong::TakesTabs));
        let digits = if self.is(Wrong::TakesSixDigits) { 6 } else { 5 };
        text.split(white)
            .filter(|word| !word.is_empty())
            .map(|word| {
                if word.len() > digits || !word.iter().all(u8::is_ascii_digit) {
                    return Err(NO_TEXT);
                }
                let value = word.iter().fold(0u32, |value, b| 10 * value + (b - b'0') as u32);
                u16::try_from(value).map_err(|_| NO_TEXT)
            })
            .collect()
    }
}
