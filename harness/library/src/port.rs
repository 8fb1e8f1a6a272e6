//! The library itself, through the archives of `crates/port_c` and `crates/host_c`, and the list printer. A slice passes as the address of its first element and its
//! length. Answers come back in four lent numbers: 0 and the values, or 1, the refusal's number and its place.

use crate::Library;
use second::{Coordinate, Lent, Lists, Office, Refusal, Tally};
use std::io::Write;
use std::process::{Command, Stdio};

const UNSET: u64 = u64::MAX;
type Answer = [u64; 4];

#[rustfmt::skip]
extern "C" {
    fn port_check(
        xs: *const u16, xs_len: usize, ys: *const u16, ys_len: usize, corners: *const u16, corners_len: usize, answer: &mut Answer,
    );
    fn port_draw(
        xs: *const u16, xs_len: usize, ys: *const u16, ys_len: usize, corners: *const u16, corners_len: usize, limit: u32,
        kept: *mut u8, kept_len: usize, rim: *mut u8, rim_len: usize, ring: *mut u16, ring_len: usize, answer: &mut Answer,
    );
    fn port_outline(ring: *const u16, ring_len: usize, claimed: usize, place: usize, answer: &mut Answer);
    fn port_list(
        xs: *const u16, xs_len: usize, ys: *const u16, ys_len: usize, corners: *const u16, corners_len: usize,
        kept: *mut u8, kept_len: usize, rim: *mut u8, rim_len: usize, ring: *mut u16, ring_len: usize,
        least: *mut u32, least_len: usize, peeled: *mut u32, peeled_len: usize, area: *mut u32, area_len: usize, answer: &mut Answer,
    );
    fn port_write(
        xs: *const u16, xs_len: usize, ys: *const u16, ys_len: usize, out: *mut u8, out_len: usize, answer: &mut Answer,
    );
    fn port_read(
        block: *const u8, block_len: usize, xs: *mut u16, xs_len: usize, ys: *mut u16, ys_len: usize, answer: &mut Answer,
    );
    fn port_judge(block: *const u8, block_len: usize, order: u8, place: usize, answer: &mut Answer, value: &mut f64);
    fn port_read_points(
        block: *const u8, block_len: usize, xs: *mut u16, xs_len: usize, ys: *mut u16, ys_len: usize, answer: &mut Answer,
    );
    fn port_sent(block: *const u8, block_len: usize, place: usize, answer: &mut Answer, value: &mut f64);
    fn port_write_district(
        xs: *const u16, xs_len: usize, ys: *const u16, ys_len: usize, lengths: *const u16, lengths_len: usize,
        out: *mut u8, out_len: usize, answer: &mut Answer,
    );
    fn port_read_district(
        block: *const u8, block_len: usize, xs: *mut u16, xs_len: usize, ys: *mut u16, ys_len: usize,
        lengths: *mut u16, lengths_len: usize, answer: &mut Answer,
    );
    fn outline_polygon(
        points: *const u8, points_len: usize, triangles: *const u8, triangles_len: usize, limit: u32, out: *mut u8, out_len: usize,
    ) -> i64;
}

const PRINTER: &str = concat!(env!("CARGO_MANIFEST_DIR"), "/../../target/bin/outlines");

pub fn printer_is_there() -> bool {
    std::path::Path::new(PRINTER).exists()
}

pub struct Port;

/// The answer's values, or its refusal.
fn taken(answer: Answer) -> Result<[u64; 3], Refusal> {
    match answer {
        [0, values @ ..] => Ok(values),
        [1, number, place, _] => Err(Refusal { number: number as u8, place: place as usize }),
        _ => panic!("no answer: {answer:?}"),
    }
}

/// Besides the refusal, 0 with the grid number, 2 for a value off the grid, 3 for one that is not finite.
fn judged(answer: Answer, value: f64) -> Result<Coordinate, Refusal> {
    match answer[0] {
        2 => Ok(Coordinate::OffGrid(value.to_bits())),
        3 => Ok(Coordinate::NotFinite),
        _ => taken(answer).map(|values| Coordinate::Grid(values[0] as u16)),
    }
}

impl Library for Port {
    fn check(&self, office: Office) -> Result<usize, Refusal> {
        let Office { xs, ys, corners } = office;
        let mut answer = [UNSET; 4];
        unsafe { port_check(xs.as_ptr(), xs.len(), ys.as_ptr(), ys.len(), corners.as_ptr(), corners.len(), &mut answer) };
        taken(answer).map(|values| values[0] as usize)
    }

    #[rustfmt::skip]
    fn draw(&self, office: Office, limit: u32, lent: &mut Lent) -> Result<Tally, Refusal> {
        let Office { xs, ys, corners } = office;
        let mut answer = [UNSET; 4];
        unsafe {
            port_draw(
                xs.as_ptr(), xs.len(), ys.as_ptr(), ys.len(), corners.as_ptr(), corners.len(), limit,
                lent.kept.as_mut_ptr(), lent.kept.len(), lent.rim.as_mut_ptr(), lent.rim.len(),
                lent.ring.as_mut_ptr(), lent.ring.len(), &mut answer,
            )
        };
        taken(answer).map(|[peeled, area, ring]| Tally { peeled: peeled as u32, area: area as u32, ring: ring as usize })
    }

    /// The part's length, then its elements one by one.
    fn outline(&self, ring: &[u16], tally: Tally) -> Vec<u16> {
        let ask = |place: usize| {
            let mut answer = [UNSET; 4];
            unsafe { port_outline(ring.as_ptr(), ring.len(), tally.ring, place, &mut answer) };
            answer
        };
        let length = ask(usize::MAX)[0] as usize;
        assert!(length <= ring.len(), "a part longer than its slice");
        (0..length).map(|place| ask(place)[1] as u16).collect()
    }

    #[rustfmt::skip]
    fn list(&self, office: Office, lent: &mut Lent, lists: &mut Lists) -> Result<usize, Refusal> {
        let Office { xs, ys, corners } = office;
        let mut answer = [UNSET; 4];
        unsafe {
            port_list(
                xs.as_ptr(), xs.len(), ys.as_ptr(), ys.len(), corners.as_ptr(), corners.len(),
                lent.kept.as_mut_ptr(), lent.kept.len(), lent.rim.as_mut_ptr(), lent.rim.len(),
                lent.ring.as_mut_ptr(), lent.ring.len(), lists.least.as_mut_ptr(), lists.least.len(),
                lists.peeled.as_mut_ptr(), lists.peeled.len(), lists.area.as_mut_ptr(), lists.area.len(), &mut answer,
            )
        };
        taken(answer).map(|values| values[0] as usize)
    }

    fn write(&self, xs: &[u16], ys: &[u16], out: &mut [u8]) -> Result<usize, Refusal> {
        let mut answer = [UNSET; 4];
        unsafe { port_write(xs.as_ptr(), xs.len(), ys.as_ptr(), ys.len(), out.as_mut_ptr(), out.len(), &mut answer) };
        taken(answer).map(|values| values[0] as usize)
    }

    fn read(&self, block: &[u8], xs: &mut [u16], ys: &mut [u16]) -> Result<usize, Refusal> {
        let mut answer = [UNSET; 4];
        unsafe { port_read(block.as_ptr(), block.len(), xs.as_mut_ptr(), xs.len(), ys.as_mut_ptr(), ys.len(), &mut answer) };
        taken(answer).map(|values| values[0] as usize)
    }

    fn judge(&self, block: &[u8], order: u8, place: usize) -> Result<Coordinate, Refusal> {
        let (mut answer, mut value) = ([UNSET; 4], f64::NAN);
        unsafe { port_judge(block.as_ptr(), block.len(), order, place, &mut answer, &mut value) };
        judged(answer, value)
    }

    fn read_points(&self, block: &[u8], xs: &mut [u16], ys: &mut [u16]) -> Result<usize, Refusal> {
        let mut answer = [UNSET; 4];
        unsafe { port_read_points(block.as_ptr(), block.len(), xs.as_mut_ptr(), xs.len(), ys.as_mut_ptr(), ys.len(), &mut answer) };
        taken(answer).map(|values| values[0] as usize)
    }

    fn sent(&self, block: &[u8], place: usize) -> Result<Coordinate, Refusal> {
        let (mut answer, mut value) = ([UNSET; 4], f64::NAN);
        unsafe { port_sent(block.as_ptr(), block.len(), place, &mut answer, &mut value) };
        judged(answer, value)
    }

    #[rustfmt::skip]
    fn write_district(&self, xs: &[u16], ys: &[u16], lengths: &[u16], out: &mut [u8]) -> Result<usize, Refusal> {
        let mut answer = [UNSET; 4];
        unsafe {
            port_write_district(
                xs.as_ptr(), xs.len(), ys.as_ptr(), ys.len(), lengths.as_ptr(), lengths.len(),
                out.as_mut_ptr(), out.len(), &mut answer,
            )
        };
        taken(answer).map(|values| values[0] as usize)
    }

    #[rustfmt::skip]
    fn read_district(&self, block: &[u8], xs: &mut [u16], ys: &mut [u16], lengths: &mut [u16]) -> Result<usize, Refusal> {
        let mut answer = [UNSET; 4];
        unsafe {
            port_read_district(
                block.as_ptr(), block.len(), xs.as_mut_ptr(), xs.len(), ys.as_mut_ptr(), ys.len(),
                lengths.as_mut_ptr(), lengths.len(), &mut answer,
            )
        };
        taken(answer).map(|values| values[0] as usize)
    }

    #[rustfmt::skip]
    fn outline_polygon(&self, points: &[u8], triangles: &[u8], limit: u32, out: &mut [u8]) -> i64 {
        unsafe {
            outline_polygon(
                points.as_ptr(), points.len(), triangles.as_ptr(), triangles.len(), limit, out.as_mut_ptr(), out.len(),
            )
        }
    }

    /// The list printer itself, as a program of its own.
    fn printed(&self, text: &[u8]) -> Vec<u8> {
        let program = concat!(env!("CARGO_MANIFEST_DIR"), "/../../target/bin/outlines");
        let mut printer = Command::new(program)
            .stdin(Stdio::piped())
            .stdout(Stdio::piped())
            .spawn()
            .expect("target/bin/outlines, made by tools/build");
        // It may end before it has read a text that is too long.
        let _ = printer.stdin.take().unwrap().write_all(text);
        printer.wait_with_output().expect("what the printer prints").stdout
    }
}
