//! Measures check, draw and list in processor time, the library against the second program, in one run on one core, and
//! prints Markdown tables.
//!
//!     bench [--seed S] [--quick] [--itself]
//!     bench --count SIDE CALL KIND SIZE CALLS [--seed S] [--itself]
//!
//! The second program comes twice: as documents 01 and 02 say, with a side table and an ordered queue and each point against each
//! circle; and with the library's way to accept, neighbours first. Where GEOS can be asked (bench/geos.py), its ConcaveHull on the same
//! points stands beside draw and list. `--count` makes so many calls of one side (library, second, neighbours) and prints nothing:
//! bench/count runs it where instructions are counted.

mod measure;
mod worst;

use library::{port_or_exit, Library};
use measure::{measure, office, printer, Desk, Plan, CALLS};
use offices::{accepted, Kind, Random, Sheet};
use second::Second;
use std::hint::black_box;
use std::io::Write;
use std::process::{exit, Command, Stdio};

const SIZES: [usize; 4] = [16, 64, 256, 1_024];
const DOUBLING: [usize; 7] = [16, 32, 64, 128, 256, 512, 1_024];
const GROWING: [Kind; 3] = [Kind::Uniform, Kind::Grid, Kind::AllOnHull];
const SIDES: [&str; 3] = ["library", "second", "neighbours"];

fn figure(value: f64) -> String {
    match value {
        v if v < 10.0 => format!("{v:.2}"),
        v if v < 100.0 => format!("{v:.1}"),
        v => format!("{v:.0}"),
    }
}

/// A Markdown table, all columns but the first to the right.
fn table(heads: &[String], rows: &[Vec<String>]) {
    println!("\n| {} |", heads.join(" | "));
    println!("|---|{}", "---:|".repeat(heads.len() - 1));
    for row in rows {
        println!("| {} |", row.join(" | "));
    }
}

fn heads(first: &str, sizes: &[usize]) -> Vec<String> {
    [first.to_string()].into_iter().chain(sizes.iter().map(|size| format!("{size} points"))).collect()
}

/// The kinds that have offices of the least size.
fn kinds() -> impl Iterator<Item = Kind> {
    Kind::ALL.into_iter().filter(|kind| kind.most() > SIZES[0])
}

/// A cell for each size that the kind has room for.
fn row(name: String, kind: Kind, sizes: &[usize], mut cell: impl FnMut(usize) -> String) -> Vec<String> {
    let cells = sizes.iter().map(|&size| if size > kind.most() { "-".to_string() } else { cell(size) });
    [name].into_iter().chain(cells).collect()
}

fn sheets(kind: Kind, size: usize, seed: u64, count: usize) -> Vec<Sheet> {
    let mut random = Random::seeded(seed + size as u64);
    (0..count).map(|_| accepted(kind, size, &mut random)).collect()
}

/// GEOS's median in microseconds for its ConcaveHull on the points, where Python and GEOS are there.
fn geos(sheets: &[Sheet]) -> Option<f64> {
    let script = concat!(env!("CARGO_MANIFEST_DIR"), "/geos.py");
    let mut child = Command::new("/usr/bin/python3")
        .arg(script)
        .stdin(Stdio::piped())
        .stdout(Stdio::piped())
        .stderr(Stdio::null())
        .spawn()
        .ok()?;
    let mut input = child.stdin.take()?;
    for sheet in sheets {
        let words: Vec<String> = sheet.xs.iter().zip(&sheet.ys).map(|(x, y)| format!("{x} {y}")).collect();
        writeln!(input, "{}", words.join(" ")).ok()?;
    }
    drop(input);
    let output = child.wait_with_output().ok()?;
    String::from_utf8(output.stdout).ok()?.trim().parse().ok()
}

/// What a run is about.
struct Bench {
    library: Box<dyn Library>,
    seed: u64,
    plan: Plan,
}

impl Bench {
    fn sheets(&self, kind: Kind, size: usize) -> Vec<Sheet> {
        sheets(kind, size, self.seed, self.plan.offices)
    }

    /// Each call against the second program's two forms, and draw and list against GEOS.
    fn against_others(&self) {
        let sides: [&dyn Library; 3] = [&*self.library, &Second::right(), &Second::neighbours_first()];
        // For each call, kind and size: the microseconds of each side.
        let all: Vec<Vec<(Kind, usize, [f64; 3])>> = (0..CALLS.len())
            .map(|call| {
                let cells = kinds().flat_map(|kind| SIZES.map(|size| (kind, size))).filter(|(kind, size)| *size <= kind.most());
                cells.map(|(kind, size)| (kind, size, measure(sides, call, &self.sheets(kind, size), true, &self.plan))).collect()
            })
            .collect();
        let time = |call: usize, kind: Kind, size: usize| all[call].iter().find(|c| (c.0, c.1) == (kind, size)).unwrap().2;

        println!("## Against the second program\n");
        println!("The library's time divided by the second program's, over all kinds of office: least to greatest.");
        let range = |call: usize, side: usize, size: usize| {
            let ratios = all[call].iter().filter(|c| c.1 == size).map(|c| c.2[0] / c.2[side]);
            let (least, most) = ratios.fold((f64::MAX, 0f64), |(least, most), r| (least.min(r), most.max(r)));
            format!("{} to {}", figure(least), figure(most))
        };
        let says = [(1, "each point against each circle"), (2, "neighbours first")];
        let rows: Vec<Vec<String>> = (0..CALLS.len())
            .flat_map(|call| says.map(|(side, says)| (call, side, says)))
            .map(|(call, side, says)| {
                [format!("{}, {says}", CALLS[call])].into_iter().chain(SIZES.iter().map(|&size| range(call, side, size))).collect()
            })
            .collect();
        table(&heads("call and second program", &SIZES), &rows);

        for (call, name) in CALLS.iter().enumerate() {
            println!("\n### {name}\n");
            println!(
                "Microseconds of the library, and in brackets how many times what the second program takes: each point against each \
                 circle, then neighbours first."
            );
            let cell = |kind: Kind, size: usize| {
                let [here, full, first] = time(call, kind, size);
                format!("{} ({}, {})", figure(here), figure(here / full), figure(here / first))
            };
            let rows: Vec<Vec<String>> =
                kinds().map(|kind| row(kind.name().into(), kind, &SIZES, |size| cell(kind, size))).collect();
            table(&heads("office", &SIZES), &rows);
        }

        println!("\n## Against GEOS\n");
        println!(
            "Microseconds of one ConcaveHull of GEOS at the ratio 0.25, and in brackets what a draw at that limit and a whole list of the \
             library take, as parts of it. GEOS triangulates besides, the library checks a triangulation (- where GEOS could not be asked)."
        );
        let cell = |kind: Kind, size: usize| {
            let hull = geos(&self.sheets(kind, size));
            let part = |call: usize, hull: f64| figure(time(call, kind, size)[0] / hull);
            hull.map_or("-".into(), |hull| format!("{} ({}, {})", figure(hull), part(1, hull), part(2, hull)))
        };
        let rows: Vec<Vec<String>> = kinds().map(|kind| row(kind.name().into(), kind, &SIZES, |size| cell(kind, size))).collect();
        table(&heads("office", &SIZES), &rows);
    }

    fn growth(&self) {
        println!("\n## Growth\n");
        println!("Microseconds of the library, and in brackets nanoseconds divided by n log2 n for n points.");
        let cell = |call: usize, kind: Kind, size: usize| {
            let [here] = measure([&*self.library], call, &self.sheets(kind, size), true, &self.plan);
            let n = size as f64;
            format!("{} ({})", figure(here), figure(1e3 * here / (n * n.log2())))
        };
        let rows: Vec<Vec<String>> = [0, 2]
            .into_iter()
            .flat_map(|call| GROWING.map(|kind| (call, kind)))
            .map(|(call, kind)| row(format!("{}, {}", CALLS[call], kind.name()), kind, &DOUBLING, |size| cell(call, kind, size)))
            .collect();
        table(&heads("call and office", &DOUBLING), &rows);
    }

    /// What a host that sends the worst offices can cost.
    fn refused(&self) {
        let points = SIZES[SIZES.len() - 1];
        println!("\n## The dearest refusals\n");
        println!(
            "Microseconds of a check of {points} points, how many times the accepted check of the office in the first line, and in \
             brackets the same for the second program, neighbours first. The first office is a three-point hull; those with one bucket, \
             with two points at all sides and with a dent have points of their own."
        );
        let sides: [&dyn Library; 2] = [&*self.library, &Second::neighbours_first()];
        let offices = worst::worst(points, &mut Random::seeded(self.seed));
        let times = offices.iter().map(|(_, sheet)| {
            let answer = self.library.check(office(sheet));
            let [here, there] = measure(sides, 0, std::slice::from_ref(sheet), answer.is_ok(), &self.plan);
            (answer, here, there)
        });
        let times: Vec<_> = times.collect();
        let (_, first_here, first_there) = times[0];
        let rows: Vec<Vec<String>> = offices
            .iter()
            .zip(&times)
            .map(|((name, _), (answer, here, there))| {
                let says = answer.map_or_else(|r| format!("{} [{}]", r.number, r.place), |_| "accepted".into());
                vec![
                    name.to_string(),
                    says,
                    figure(*here),
                    format!("{} ({})", figure(here / first_here), figure(there / first_there)),
                ]
            })
            .collect();
        table(&["office", "answer [place]", "microseconds", "times an accepted check"].map(String::from), &rows);
    }

    fn printed(&self) {
        let points = SIZES[SIZES.len() - 1];
        println!("\n## The list printer\n");
        println!(
            "Milliseconds of processor time of the program `outlines` on offices of {points} points, start and text included."
        );
        let rows: Vec<Vec<String>> = kinds()
            .filter(|kind| kind.most() == points)
            .map(|kind| vec![kind.name().into(), figure(printer(&*self.library, &self.sheets(kind, points), 5))])
            .collect();
        table(&["office", "milliseconds"].map(String::from), &rows);
    }
}

/// So many calls, to be counted from outside by this function's name.
#[no_mangle]
#[inline(never)]
pub fn counted_calls(desk: &mut Desk, side: &dyn Library, call: usize, calls: usize) {
    for _ in 0..calls {
        black_box(black_box(&mut *desk).call(side, call)).unwrap();
    }
}

/// What the system calls the processor.
fn processor() -> String {
    let text = std::fs::read_to_string("/proc/cpuinfo").unwrap_or_default();
    let name = text.lines().find(|line| line.starts_with("model name")).and_then(|line| line.split(": ").nth(1));
    name.unwrap_or("unknown").to_string()
}

fn usage() -> ! {
    eprintln!("bench [--seed S] [--quick] [--itself]\nbench --count SIDE CALL KIND SIZE CALLS [--seed S] [--itself]");
    eprintln!(
        "  SIDE {}; CALL {}; KIND {}",
        SIDES.join(", "),
        CALLS.join(", "),
        kinds().map(Kind::name).collect::<Vec<_>>().join(", ")
    );
    exit(2)
}

/// `--count`: one call first, so that what a first call alone does is not among the others.
fn count(words: &[String], library: &dyn Library, seed: u64) {
    let [side, call, kind, size, calls, ..] = words else { usage() };
    let place = |names: &[&str], word: &str| names.iter().position(|name| *name == word).unwrap_or_else(|| usage());
    let number = |word: &str| word.parse::<usize>().unwrap_or_else(|_| usage());
    let (second, neighbours) = (Second::right(), Second::neighbours_first());
    let side = [library, &second, &neighbours][place(&SIDES, side)];
    let call = place(&CALLS, call);
    let kind = kinds().find(|k| k.name() == kind).unwrap_or_else(|| usage());
    let sheet = &sheets(kind, number(size), seed, 1)[0];
    let mut desk = Desk::of(sheet);
    desk.call(side, call).unwrap();
    counted_calls(&mut desk, side, call, number(calls));
}

fn main() {
    let words: Vec<String> = std::env::args().skip(1).collect();
    let place = |word: &str| words.iter().position(|w| w == word);
    let seed = place("--seed").map_or(1, |i| words.get(i + 1).and_then(|w| w.parse().ok()).unwrap_or_else(|| usage()));
    let itself = place("--itself").is_some();
    let library: Box<dyn Library> = if itself { Box::new(Second::right()) } else { port_or_exit() };
    if let Some(i) = place("--count") {
        return count(&words[i + 1..], &*library, seed);
    }
    let quick = place("--quick").is_some();
    let plan = if quick { Plan { offices: 1, repetitions: 5 } } else { Plan { offices: 5, repetitions: 25 } };
    println!(
        "Processor: {}. Seed {seed}; a time is the median of {} calls, {} on each of {} offices ({} on the one office of a refusal).\n",
        processor(),
        plan.repetitions * plan.offices,
        plan.repetitions,
        plan.offices,
        plan.repetitions
    );
    let bench = Bench { library, seed, plan };
    bench.against_others();
    bench.growth();
    bench.refused();
    if !itself {
        bench.printed();
    }
}
