//! What was compared, and how often each refusal was given.

use std::collections::BTreeMap;

#[derive(Clone, Copy, Debug, PartialEq, Eq, PartialOrd, Ord)]
pub enum Call {
    Check,
    Draw,
    Outline,
    List,
    Write,
    Read,
    Judge,
    Points,
    Sent,
    WriteDistrict,
    ReadDistrict,
    Polygon,
    Printed,
    /// What one side's answers must have among themselves.
    Among,
}

impl Call {
    fn name(self) -> &'static str {
        match self {
            Call::Check => "check",
            Call::Draw => "draw",
            Call::Outline => "outline",
            Call::List => "list",
            Call::Write => "write",
            Call::Read => "read",
            Call::Judge => "judge",
            Call::Points => "read_points",
            Call::Sent => "sent",
            Call::WriteDistrict => "write_district",
            Call::ReadDistrict => "read_district",
            Call::Polygon => "outline_polygon",
            Call::Printed => "printed list",
            Call::Among => "among themselves",
        }
    }

    /// Places up to this one lie at the front. A district's polygons lie past its head's last field.
    fn front(self) -> usize {
        match self {
            Call::ReadDistrict => 5,
            _ => 0,
        }
    }

    /// Refusals whose place can lie past the front.
    fn placed(self, number: u8) -> bool {
        match self {
            Call::Polygon => false,
            Call::ReadDistrict => number != 35,
            _ => PLACED.contains(&number),
        }
    }
}

/// 0 stands for an answer that is no refusal.
const GIVEN: u8 = 0;
const ENOUGH: u64 = 100;

/// What each call must have answered at least a hundred times.
const WANTED: [(Call, &[u8]); 13] = [
    (Call::Check, &[GIVEN, 1, 2, 3, 5, 6, 7, 8, 9, 10, 11, 12, 13]),
    (Call::Draw, &[GIVEN, 1, 2, 3, 4, 5, 6, 7, 8, 9, 10, 11, 12, 13]),
    (Call::Outline, &[GIVEN]),
    (Call::List, &[GIVEN, 1, 2, 3, 4, 5, 6, 7, 8, 9, 10, 11, 12, 13]),
    (Call::Write, &[GIVEN, 30, 31, 32]),
    (Call::Read, &[GIVEN, 20, 21, 22, 23, 24, 25, 26, 27, 28, 29]),
    (Call::Judge, &[GIVEN, 20, 21]),
    (Call::Points, &[GIVEN, 20, 21, 22, 24, 25, 26, 28, 29, 33]),
    (Call::Sent, &[GIVEN, 20]),
    (Call::WriteDistrict, &[GIVEN, 30, 31, 32, 35, 36]),
    (Call::ReadDistrict, &[GIVEN, 20, 21, 22, 23, 24, 25, 26, 27, 28, 29, 35]),
    (Call::Polygon, &[GIVEN, 1, 2, 3, 5, 6, 7, 8, 9, 10, 11, 12, 13, 32]),
    (Call::Printed, &[GIVEN, 2, 3, 5, 6, 7, 8, 9, 10, 11, 12, 13, 40]),
];

/// Refusals whose place can differ from 0.
const PLACED: [u8; 14] = [5, 6, 7, 8, 9, 10, 11, 13, 20, 25, 26, 27, 28, 33];

#[derive(Default)]
pub struct Counts {
    pub passed: u64,
    pub failed: u64,
    pub offices: u64,
    pub largest: usize,
    /// For each call and number: how often, and how often with a place past the front.
    given: BTreeMap<(Call, u8), (u64, u64)>,
}

impl Counts {
    pub fn count(&mut self, call: Call, number: u8, place: usize) {
        let (all, past) = self.given.entry((call, number)).or_default();
        *all += 1;
        *past += (place > call.front()) as u64;
    }

    /// What was counted apart.
    pub fn add(&mut self, other: Counts) {
        self.passed += other.passed;
        self.failed += other.failed;
        self.offices += other.offices;
        self.largest = self.largest.max(other.largest);
        for (key, (all, past)) in other.given {
            let counted = self.given.entry(key).or_default();
            counted.0 += all;
            counted.1 += past;
        }
    }

    /// One line a call: each number with how often it was given, and how often at a place past the front.
    pub fn print(&self) {
        for (call, _) in WANTED.iter().chain([&(Call::Among, &[][..])]) {
            let mut line = format!("{:<16}", call.name());
            for ((_, number), (all, past)) in self.given.range((*call, 0)..=(*call, u8::MAX)) {
                match (*number, *past) {
                    (GIVEN, _) => line += &format!(" given {all}"),
                    (_, 0) => line += &format!(", {number}: {all}"),
                    _ => line += &format!(", {number}: {all} ({past})"),
                }
            }
            println!("{line}");
        }
    }

    /// The calls and numbers that did not come up often enough.
    pub fn missing(&self) -> Vec<String> {
        let mut missing = Vec::new();
        for (call, numbers) in WANTED {
            for &number in numbers {
                let (all, past) = self.given.get(&(call, number)).copied().unwrap_or_default();
                if all < ENOUGH {
                    missing.push(format!("{} gave {number} only {all} times", call.name()));
                }
                if past < ENOUGH && number != GIVEN && call.placed(number) {
                    missing.push(format!("{} gave {number} only {past} times with a place past {}", call.name(), call.front()));
                }
            }
        }
        missing
    }
}
