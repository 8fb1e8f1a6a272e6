//! The public calls of the library as one trait, so that the library and the second program can stand on
//! either side of a comparison.

#[cfg(port)]
mod port;

use second::{Coordinate, Lent, Lists, Office, Refusal, Second, Tally};

pub trait Library: Sync {
    fn check(&self, office: Office) -> Result<usize, Refusal>;
    fn draw(&self, office: Office, limit: u32, lent: &mut Lent) -> Result<Tally, Refusal>;
    fn outline(&self, ring: &[u16], tally: Tally) -> Vec<u16>;
    fn list(&self, office: Office, lent: &mut Lent, lists: &mut Lists) -> Result<usize, Refusal>;
    fn write(&self, xs: &[u16], ys: &[u16], out: &mut [u8]) -> Result<usize, Refusal>;
    fn read(&self, block: &[u8], xs: &mut [u16], ys: &mut [u16]) -> Result<usize, Refusal>;
    fn judge(&self, block: &[u8], order: u8, place: usize) -> Result<Coordinate, Refusal>;
    fn read_points(&self, block: &[u8], xs: &mut [u16], ys: &mut [u16]) -> Result<usize, Refusal>;
    fn sent(&self, block: &[u8], place: usize) -> Result<Coordinate, Refusal>;
    fn write_district(&self, xs: &[u16], ys: &[u16], lengths: &[u16], out: &mut [u8]) -> Result<usize, Refusal>;
    fn read_district(&self, block: &[u8], xs: &mut [u16], ys: &mut [u16], lengths: &mut [u16]) -> Result<usize, Refusal>;
    fn outline_polygon(&self, points: &[u8], triangles: &[u8], limit: u32, out: &mut [u8]) -> i64;
    /// What the list printer prints for a text.
    fn printed(&self, text: &[u8]) -> Vec<u8>;
}

impl Library for Second {
    fn check(&self, office: Office) -> Result<usize, Refusal> {
        Second::check(self, office)
    }

    fn draw(&self, office: Office, limit: u32, lent: &mut Lent) -> Result<Tally, Refusal> {
        Second::draw(self, office, limit, lent)
    }

    fn outline(&self, ring: &[u16], tally: Tally) -> Vec<u16> {
        Second::outline(self, ring, tally).to_vec()
    }

    fn list(&self, office: Office, lent: &mut Lent, lists: &mut Lists) -> Result<usize, Refusal> {
        Second::list(self, office, lent, lists)
    }

    fn write(&self, xs: &[u16], ys: &[u16], out: &mut [u8]) -> Result<usize, Refusal> {
        Second::write(self, xs, ys, out)
    }

    fn read(&self, block: &[u8], xs: &mut [u16], ys: &mut [u16]) -> Result<usize, Refusal> {
        Second::read(self, block, xs, ys)
    }

    fn judge(&self, block: &[u8], order: u8, place: usize) -> Result<Coordinate, Refusal> {
        Second::judge(self, block, order, place)
    }

    fn read_points(&self, block: &[u8], xs: &mut [u16], ys: &mut [u16]) -> Result<usize, Refusal> {
        Second::read_points(self, block, xs, ys)
    }

    fn sent(&self, block: &[u8], place: usize) -> Result<Coordinate, Refusal> {
        Second::sent(self, block, place)
    }

    fn write_district(&self, xs: &[u16], ys: &[u16], lengths: &[u16], out: &mut [u8]) -> Result<usize, Refusal> {
        Second::write_district(self, xs, ys, lengths, out)
    }

    fn read_district(&self, block: &[u8], xs: &mut [u16], ys: &mut [u16], lengths: &mut [u16]) -> Result<usize, Refusal> {
        Second::read_district(self, block, xs, ys, lengths)
    }

    fn outline_polygon(&self, points: &[u8], triangles: &[u8], limit: u32, out: &mut [u8]) -> i64 {
        Second::outline_polygon(self, points, triangles, limit, out)
    }

    fn printed(&self, text: &[u8]) -> Vec<u8> {
        Second::printed(self, text)
    }
}

/// The library, where its archives are linked and the list printer is there.
pub fn port() -> Option<Box<dyn Library>> {
    #[cfg(port)]
    return Some(Box::new(port::Port)).filter(|_| port::printer_is_there()).map(|port| port as Box<dyn Library>);
    #[cfg(not(port))]
    None
}

/// The library, or an end with a word on how to make it.
pub fn port_or_exit() -> Box<dyn Library> {
    port().unwrap_or_else(|| {
        eprintln!("the library is not there: `tools/build` makes it; then build again");
        std::process::exit(2)
    })
}
