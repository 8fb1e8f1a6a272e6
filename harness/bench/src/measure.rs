//! One call on lent memory, and how long it takes.

use library::Library;
use offices::Sheet;
use second::{Lent, Lists, Office, Refusal};
use std::hint::black_box;

pub const CALLS: [&str; 3] = ["check", "draw", "list"];

pub struct Plan {
    pub offices: usize,
    pub repetitions: usize,
}

pub fn office(sheet: &Sheet) -> Office<'_> {
    Office { xs: &sheet.xs, ys: &sheet.ys, corners: &sheet.corners }
}

/// A quarter of the way from the shortest to the longest side, squared: what GEOS makes of the ratio 0.25.
pub fn limit(sheet: &Sheet) -> u32 {
    let lengths = sheet.squared_lengths();
    let (short, long) = ((lengths[0] as f64).sqrt(), (lengths[lengths.len() - 1] as f64).sqrt());
    (short + 0.25 * (long - short)).powi(2) as u32
}

/// An office with its limit and the memory to lend, which is made once.
pub struct Desk<'a> {
    sheet: &'a Sheet,
    limit: u32,
    kept: Vec<u8>,
    rim: Vec<u8>,
    ring: Vec<u16>,
    lists: [Vec<u32>; 3],
}

impl Desk<'_> {
    pub fn of(sheet: &Sheet) -> Desk<'_> {
        let points = sheet.points();
        Desk {
            sheet,
            limit: limit(sheet),
            kept: vec![0; sheet.triangles()],
            rim: vec![0; points],
            ring: vec![0; points],
            lists: [vec![0; points], vec![0; points], vec![0; points]],
        }
    }

    /// One of `CALLS`, by its number.
    pub fn call(&mut self, side: &dyn Library, call: usize) -> Result<usize, Refusal> {
        let office = office(self.sheet);
        let mut lent = Lent { kept: &mut self.kept, rim: &mut self.rim, ring: &mut self.ring };
        match call {
            0 => side.check(office),
            1 => side.draw(office, self.limit, &mut lent).map(|tally| tally.ring),
            _ => {
                let [least, peeled, area] = &mut self.lists;
                side.list(office, &mut lent, &mut Lists { least, peeled, area })
            }
        }
    }
}

extern "C" {
    fn clock_gettime(clock: i32, time: *mut [i64; 2]) -> i32;
    fn getrusage(who: i32, usage: *mut [i64; 18]) -> i32;
}

/// Seconds of processor time of this thread, so that what else runs on the machine does not count.
fn now() -> f64 {
    const THREAD_CPUTIME: i32 = 3;
    let mut time = [0; 2];
    assert_eq!(unsafe { clock_gettime(THREAD_CPUTIME, &mut time) }, 0);
    time[0] as f64 + time[1] as f64 * 1e-9
}

/// Seconds of processor time of programs that were started and have ended.
fn of_children() -> f64 {
    let mut usage = [0; 18];
    assert_eq!(unsafe { getrusage(-1, &mut usage) }, 0);
    (usage[0] + usage[2]) as f64 + (usage[1] + usage[3]) as f64 * 1e-6
}

pub fn median(mut times: Vec<f64>) -> f64 {
    times.sort_by(f64::total_cmp);
    times[times.len() / 2]
}

/// Microseconds a call takes on each side, by the median over all repetitions on all offices. Calls alternate between the sides. The
/// offices are accepted or refused as `accepted` says, and alike by all sides.
pub fn measure<const N: usize>(sides: [&dyn Library; N], call: usize, sheets: &[Sheet], accepted: bool, plan: &Plan) -> [f64; N] {
    let mut times = [(); N].map(|_| Vec::new());
    for sheet in sheets {
        let mut desk = Desk::of(sheet);
        // Short calls are timed many at once, so that the clock does not count.
        let start = now();
        for side in sides {
            let answer = desk.call(side, call);
            assert!(answer.is_ok() == accepted && answer == desk.call(sides[0], call), "{} of {sheet:?}", CALLS[call]);
        }
        let at_once = (400e-6 / (now() - start).max(1e-6)).ceil() as usize;
        for _ in 0..plan.repetitions {
            for (side, times) in sides.iter().zip(&mut times) {
                let start = now();
                for _ in 0..at_once {
                    let _ = black_box(black_box(&mut desk).call(*side, call));
                }
                times.push((now() - start) * 1e6 / at_once as f64);
            }
        }
    }
    times.map(median)
}

/// Milliseconds that the list printer takes as a program, by the median.
pub fn printer(library: &dyn Library, sheets: &[Sheet], repetitions: usize) -> f64 {
    let mut times = Vec::new();
    for sheet in sheets {
        let points = sheet.xs.iter().zip(&sheet.ys).map(|(x, y)| format!("{x} {y}"));
        let corners = sheet.corners.iter().map(u16::to_string);
        let words: Vec<String> =
            [format!("{} {}", sheet.points(), sheet.triangles())].into_iter().chain(points).chain(corners).collect();
        let text = words.join(" ");
        for _ in 0..repetitions {
            let start = of_children();
            black_box(library.printed(text.as_bytes()));
            times.push((of_children() - start) * 1e3);
        }
    }
    median(times)
}
