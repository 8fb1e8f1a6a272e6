//! The library's polygons as lines of text, for other programs.
//!
//!     interop write COUNT SEED [--itself]       outlines of random offices: hex bytes, doubled area, then x and y along the ring
//!     interop read [--itself]                   hex lines in; 'ring' with x and y along it, or 'refused', number, place out
//!     interop points [--itself]                 the same for point files: 'points', or a refusal and the bits of a value off the grid
//!     interop districts COUNT SEED [--itself]   districts of outlines: hex bytes, then of each ring its doubled area, and as below
//!     interop rings [--itself]                  hex lines in; 'rings' with the length of each and x and y along it, or a refusal out
//!
//! In the last two a comma stands before each ring.

use library::{port_or_exit, Library};
use offices::{accepted, Kind, Random};
use second::{Coordinate, Lent, Office, Second, MOST_RINGS};
use std::io::{stdin, BufRead};

fn words(xs: &[u16], ys: &[u16]) -> String {
    xs.iter().zip(ys).map(|(x, y)| format!(" {x} {y}")).collect()
}

/// A ring along which a district or a polygon is written.
struct Ring {
    xs: Vec<u16>,
    ys: Vec<u16>,
    area: u32,
}

/// The outline of the i-th random office.
fn outline(library: &dyn Library, i: usize, random: &mut Random) -> Ring {
    let kind = Kind::ALL[i % Kind::ALL.len()];
    let points = random.within(3, if i % 10 == 9 { 400 } else { 60 });
    let sheet = accepted(kind, points, random);
    let lengths = sheet.squared_lengths();
    let limit = if random.once_in(3) { 0 } else { *random.pick(&lengths) };
    let (mut kept, mut rim, mut ring) = (vec![0; sheet.triangles()], vec![0; sheet.points()], vec![0; sheet.points()]);
    let office = Office { xs: &sheet.xs, ys: &sheet.ys, corners: &sheet.corners };
    let tally =
        library.draw(office, limit, &mut Lent { kept: &mut kept, rim: &mut rim, ring: &mut ring }).expect("an accepted office");
    let outline = library.outline(&ring, tally);
    Ring {
        xs: outline.iter().map(|&p| sheet.xs[p as usize]).collect(),
        ys: outline.iter().map(|&p| sheet.ys[p as usize]).collect(),
        area: tally.area,
    }
}

fn hex(bytes: &[u8]) -> String {
    bytes.iter().map(|b| format!("{b:02x}")).collect()
}

fn write(library: &dyn Library, count: usize, seed: u64) {
    let mut random = Random::seeded(seed);
    for i in 0..count {
        let Ring { xs, ys, area } = outline(library, i, &mut random);
        let mut block = vec![0; 13 + 16 * (xs.len() + 1)];
        let bytes = library.write(&xs, &ys, &mut block).expect("a ring that can be written");
        println!("{} {area}{}", hex(&block[..bytes]), words(&xs, &ys));
    }
}

/// Districts of each number of rings in turn.
fn districts(library: &dyn Library, count: usize, seed: u64) {
    let mut random = Random::seeded(seed);
    for i in 0..count {
        let rings: Vec<Ring> = (0..=i % MOST_RINGS).map(|j| outline(library, i + j, &mut random)).collect();
        let xs: Vec<u16> = rings.iter().flat_map(|ring| &ring.xs).copied().collect();
        let ys: Vec<u16> = rings.iter().flat_map(|ring| &ring.ys).copied().collect();
        let lengths: Vec<u16> = rings.iter().map(|ring| ring.xs.len() as u16).collect();
        let mut block = vec![0; 9 + 29 * rings.len() + 16 * xs.len()];
        let bytes = library.write_district(&xs, &ys, &lengths, &mut block).expect("a district that can be written");
        let shown = rings.iter().map(|ring| format!(", {} {}{}", ring.area, ring.xs.len(), words(&ring.xs, &ring.ys)));
        println!("{}{}", hex(&block[..bytes]), shown.collect::<String>());
    }
}

fn bytes(line: &str) -> Vec<u8> {
    (0..line.len() / 2).map(|i| u8::from_str_radix(&line[2 * i..2 * i + 2], 16).expect("hex")).collect()
}

fn read(library: &dyn Library) {
    for line in stdin().lock().lines() {
        let block = bytes(&line.expect("a line"));
        let (mut xs, mut ys) = (vec![0; 1_024], vec![0; 1_024]);
        match library.read(&block, &mut xs, &mut ys) {
            Ok(ring) => println!("ring{}", words(&xs[..ring], &ys[..ring])),
            Err(refusal) => println!("refused {} {}", refusal.number, refusal.place),
        }
    }
}

fn points(library: &dyn Library) {
    for line in stdin().lock().lines() {
        let file = bytes(&line.expect("a line"));
        let (mut xs, mut ys) = (vec![0; 1_024], vec![0; 1_024]);
        match library.read_points(&file, &mut xs, &mut ys) {
            Ok(count) => println!("points{}", words(&xs[..count], &ys[..count])),
            Err(refusal) => {
                let shown = match library.sent(&file, refusal.place) {
                    Ok(Coordinate::OffGrid(bits)) => format!(" {bits:016x}"),
                    _ => String::new(),
                };
                println!("refused {} {}{shown}", refusal.number, refusal.place);
            }
        }
    }
}

fn rings(library: &dyn Library) {
    for line in stdin().lock().lines() {
        let file = bytes(&line.expect("a line"));
        let (mut xs, mut ys, mut lengths) = (vec![0; 32_768], vec![0; 32_768], vec![0; MOST_RINGS]);
        match library.read_district(&file, &mut xs, &mut ys, &mut lengths) {
            Ok(rings) => {
                let (mut shown, mut at) = (String::from("rings"), 0);
                for &n in &lengths[..rings] {
                    let to = at + n as usize;
                    shown += &format!(", {n}{}", words(&xs[at..to], &ys[at..to]));
                    at = to;
                }
                println!("{shown}");
            }
            Err(refusal) => println!("refused {} {}", refusal.number, refusal.place),
        }
    }
}

fn main() {
    let mut asked: Vec<String> = std::env::args().skip(1).collect();
    let itself = asked.iter().any(|w| w == "--itself");
    asked.retain(|w| w != "--itself");
    let library: Box<dyn Library> = if itself { Box::new(Second::right()) } else { port_or_exit() };
    match asked.iter().map(String::as_str).collect::<Vec<_>>()[..] {
        ["write", count, seed] => write(&*library, count.parse().expect("a count"), seed.parse().expect("a seed")),
        ["read"] => read(&*library),
        ["points"] => points(&*library),
        ["districts", count, seed] => districts(&*library, count.parse().expect("a count"), seed.parse().expect("a seed")),
        ["rings"] => rings(&*library),
        _ => {
            eprintln!("interop write COUNT SEED | read | points | districts COUNT SEED | rings");
            std::process::exit(2)
        }
    }
}
