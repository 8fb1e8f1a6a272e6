//! Document 01's dozen, its printed office, and the corners of the polygon reader.

use super::*;

mod districts;

const T: (&[u16], &[u16]) = (&[0, 4, 0], &[0, 0, 3]);

fn office<'a>(points: (&'a [u16], &'a [u16]), corners: &'a [u16]) -> Office<'a> {
    Office { xs: points.0, ys: points.1, corners }
}

fn text(points: (&[u16], &[u16]), corners: &[u16]) -> String {
    let mut words = vec![points.0.len() as u16, (corners.len() / 3) as u16];
    for i in 0..points.0.len() {
        words.extend([points.0[i], points.1[i]]);
    }
    words.extend(corners);
    words.iter().map(|w| w.to_string()).collect::<Vec<_>>().join(" ")
}

fn printed(points: (&[u16], &[u16]), corners: &[u16]) -> String {
    String::from_utf8(Second::right().printed(text(points, corners).as_bytes())).unwrap()
}

fn drawn(points: (&[u16], &[u16]), corners: &[u16], limit: u32) -> Result<(Tally, Vec<u8>, Vec<u8>, Vec<u16>), Refusal> {
    let (mut kept, mut rim, mut ring) = (vec![9; corners.len() / 3 + 2], vec![9; points.0.len() + 2], vec![9; 20]);
    let mut lent = Lent { kept: &mut kept, rim: &mut rim, ring: &mut ring };
    let tally = Second::right().draw(office(points, corners), limit, &mut lent)?;
    Ok((tally, kept, rim, ring))
}

const FIVE: (&[u16], &[u16]) = (&[0, 10, 10, 0, 5], &[0, 0, 10, 10, 2]);
const FIVE_CORNERS: &[u16] = &[0, 1, 4, 1, 2, 4, 2, 3, 4, 3, 0, 4];
const TEN: (&[u16], &[u16]) = (&[10, 17, 20, 17, 10, 3, 0, 3, 9, 11], &[0, 3, 10, 17, 20, 17, 10, 3, 10, 10]);
const TEN_CORNERS: &[u16] = &[0, 1, 9, 1, 2, 9, 2, 3, 9, 3, 4, 9, 4, 8, 9, 4, 5, 8, 5, 6, 8, 6, 7, 8, 7, 0, 8, 0, 9, 8];
const SQUARE: (&[u16], &[u16]) = (&[0, 10, 10, 0], &[0, 0, 10, 10]);

#[test]
fn dozen_1_one_triangle_is_one_entry() {
    assert_eq!(printed(T, &[0, 1, 2]), "0 0 12 0 1 2\n");
}

#[test]
fn dozen_2_at_100_nothing_is_peeled() {
    let (tally, kept, rim, ring) = drawn(FIVE, FIVE_CORNERS, 100).unwrap();
    assert_eq!(tally, Tally { peeled: 0, area: 200, ring: 4 });
    assert_eq!(kept, [1, 1, 1, 1, 9, 9]);
    assert_eq!(rim, [1, 1, 1, 1, 0, 9, 9]);
    assert_eq!(ring[..6], [0, 1, 2, 3, 9, 9]);
}

#[test]
fn dozen_3_at_99_one_is_peeled() {
    let (tally, kept, rim, ring) = drawn(FIVE, FIVE_CORNERS, 99).unwrap();
    assert_eq!(tally, Tally { peeled: 1, area: 150, ring: 5 });
    assert_eq!(kept, [1, 1, 1, 0, 9, 9]);
    assert_eq!(rim, [1, 1, 1, 1, 1, 9, 9]);
    assert_eq!(ring[..7], [0, 1, 2, 3, 4, 9, 9]);
}

#[test]
fn the_printed_office() {
    let text = "5 4\n0 0 10 0 10 10 0 10 5 2\n0 1 4 1 2 4 2 3 4 3 0 4\n";
    assert_eq!(Second::right().printed(text.as_bytes()), b"100 0 200 0 1 2 3\n0 1 150 0 1 2 3 4\n");
}

#[test]
fn dozen_4_a_bared_side_may_be_longer() {
    assert_eq!(printed(TEN, TEN_CORNERS), "58 0 560 0 1 2 3 4 5 6 7\n0 2 430 0 9 1 2 3 4 5 6 8 7\n");
    assert_eq!(drawn(TEN, TEN_CORNERS, 57).unwrap().0.peeled, 2);
    assert_eq!(drawn(TEN, TEN_CORNERS, 58).unwrap().0.peeled, 0);
}

#[test]
fn dozen_5_and_6_a_square_may_have_either_diagonal() {
    assert_eq!(printed(SQUARE, &[0, 1, 2, 0, 2, 3]), "0 0 200 0 1 2 3\n");
    assert_eq!(Second::right().check(office(SQUARE, &[0, 1, 3, 1, 2, 3])), Ok(4));
}

#[test]
fn dozen_7_to_12_are_refused() {
    let refusals: [((&[u16], &[u16]), &[u16], u8, usize); 6] = [
        ((&[0, 4, 8, 4], &[2, 0, 2, 4]), &[0, 1, 2, 0, 2, 3], 11, 0),
        ((&[0, 4, 2, 2], &[0, 0, 1, 5]), &[0, 2, 3, 2, 1, 3], 13, 0),
        (T, &[0, 2, 1], 8, 0),
        (T, &[0, 1, 2, 0, 1, 2], 9, 1),
        ((&[0, 4, 0, 9], &[0, 0, 3, 9]), &[0, 1, 2], 10, 3),
        ((&[0, 4, 0, 100, 104, 100], &[0, 0, 3, 0, 0, 3]), &[0, 1, 2, 3, 4, 5], 12, 0),
    ];
    for (points, corners, number, place) in refusals {
        assert_eq!(Second::right().check(office(points, corners)), Err(Refusal { number, place }));
        assert_eq!(printed(points, corners), format!("refused {number} {place}\n"));
        assert_eq!(drawn(points, corners, 0).unwrap_err(), Refusal { number, place });
    }
}

#[test]
fn a_short_buffer_hides_every_geometric_fault() {
    for corners in [[0, 1, 2], [0, 2, 1]] {
        let (mut kept, mut rim, mut ring) = ([7; 1], [7; 3], [7; 2]);
        let mut lent = Lent { kept: &mut kept, rim: &mut rim, ring: &mut ring };
        assert_eq!(Second::right().draw(office(T, &corners), 0, &mut lent), refuse(4, 0));
        assert_eq!((kept, rim, ring), ([7; 1], [7; 3], [7; 2]));
    }
}

#[test]
fn the_outline_is_the_used_part() {
    let ring = [3, 4, 5];
    for (claimed, used) in [(0, 0), (2, 2), (3, 3), (4, 0), (usize::MAX, 0)] {
        let tally = Tally { peeled: 0, area: 0, ring: claimed };
        assert_eq!(Second::right().outline(&ring, tally), &ring[..used]);
    }
}

#[test]
fn grid_numbers_are_the_floats_they_stand_for() {
    for grid in 0..=GREATEST_COORDINATE {
        assert_eq!(Coordinate::to_bits(grid), (grid as f64).to_bits());
        assert_eq!(Coordinate::of_bits((grid as f64).to_bits()), Coordinate::Grid(grid));
        for off in [grid as f64 + 0.5, -(grid as f64), f64::from_bits((grid as f64).to_bits() + 1), grid as f64 + 16_384.0] {
            assert_eq!(Coordinate::of_bits(off.to_bits()), Coordinate::OffGrid(off.to_bits()));
        }
    }
    for bits in [0x7FF0 << 48, 0xFFF0 << 48, 0x7FF8 << 48, 0xFFF8 << 48, u64::MAX, (0x7FF0 << 48) + 1] {
        assert_eq!(Coordinate::of_bits(bits), Coordinate::NotFinite);
    }
    for off in [f64::MAX, f64::MIN_POSITIVE, 5e-324, 0.999, -1e-300] {
        assert_eq!(Coordinate::of_bits(off.to_bits()), Coordinate::OffGrid(off.to_bits()));
    }
}

fn polygon() -> Vec<u8> {
    let mut out = vec![0; 77];
    assert_eq!(Second::right().write(T.0, T.1, &mut out), Ok(77));
    out
}

fn read(block: &[u8]) -> Result<usize, Refusal> {
    let (mut xs, mut ys) = ([9; 5], [9; 5]);
    let answer = Second::right().read(block, &mut xs, &mut ys);
    if answer.is_ok() {
        assert_eq!((xs, ys), ([0, 4, 0, 9, 9], [0, 0, 3, 9, 9]));
    } else {
        assert_eq!((xs, ys), ([9; 5], [9; 5]));
    }
    answer
}

#[test]
fn what_is_written_is_read() {
    let block = polygon();
    assert_eq!(block[..13], [1, 3, 0, 0, 0, 1, 0, 0, 0, 4, 0, 0, 0]);
    assert_eq!(block[29..37], 4f64.to_le_bytes());
    assert_eq!(read(&block), Ok(3));
    let mut big = vec![0, 0, 0, 0, 3, 0, 0, 0, 1, 0, 0, 0, 4];
    for field in block[13..].chunks_exact(8) {
        big.extend(field.iter().rev());
    }
    assert_eq!(read(&big), Ok(3));
}

#[test]
fn the_reader_stops_at_the_first_fault() {
    let block = polygon();
    for end in 0..block.len() {
        let field = [0, 1, 5, 9].into_iter().chain((13..77).step_by(8)).rev().find(|&f| f <= end).unwrap();
        assert_eq!(read(&block[..end]), refuse(20, field), "{end}");
    }
    let with = |at: usize, bytes: &[u8]| {
        let mut block = block.clone();
        block[at..at + bytes.len()].copy_from_slice(bytes);
        block
    };
    assert_eq!(read(&with(0, &[2])), refuse(21, 0));
    assert_eq!(read(&with(1, &[4])), refuse(22, 1));
    assert_eq!(read(&with(5, &[2])), refuse(23, 5));
    assert_eq!(read(&with(9, &[3])), refuse(24, 9));
    assert_eq!(read(&with(9, &[7])), refuse(29, 9));
    assert_eq!(read(&with(13, &f64::INFINITY.to_le_bytes())[..22]), refuse(25, 13));
    assert_eq!(read(&with(13, &0.5f64.to_le_bytes())[..22]), refuse(26, 13));
    assert_eq!(read(&with(37, &(-0.0f64).to_le_bytes())), refuse(26, 37));
    assert_eq!(read(&with(61, &1f64.to_le_bytes())), refuse(27, 61));
    assert_eq!(read(&[block.clone(), vec![0]].concat()), refuse(28, 77));
}

#[test]
fn a_coordinate_can_be_looked_at() {
    let judge = |order, place| Second::right().judge(&polygon(), order, place);
    assert_eq!(judge(1, 29), Ok(Coordinate::Grid(4)));
    assert_eq!(judge(2, usize::MAX), refuse(21, 0));
    for place in [70, 77, 78, usize::MAX - 7, usize::MAX] {
        assert_eq!(judge(0, place), refuse(20, place));
    }
}

/// T with a big-endian head; its second Point is big-endian too, the others are little-endian.
fn point_file() -> Vec<u8> {
    let mut file = vec![0, 0, 0, 0, 4, 0, 0, 0, 3];
    for (i, (&x, &y)) in T.0.iter().zip(T.1).enumerate() {
        file.extend(if i == 1 { [0, 0, 0, 0, 1] } else { [1, 1, 0, 0, 0] });
        for value in [x as f64, y as f64] {
            file.extend(if i == 1 { value.to_be_bytes() } else { value.to_le_bytes() });
        }
    }
    file
}

fn read_points(file: &[u8]) -> Result<usize, Refusal> {
    let (mut xs, mut ys) = ([9; 5], [9; 5]);
    let answer = Second::right().read_points(file, &mut xs, &mut ys);
    let stands = if answer.is_ok() { ([0, 4, 0, 9, 9], [0, 0, 3, 9, 9]) } else { ([9; 5], [9; 5]) };
    assert_eq!((xs, ys), stands);
    answer
}

#[test]
fn a_point_file_is_read_up_to_its_first_fault() {
    let file = point_file();
    assert_eq!(read_points(&file), Ok(3));
    for end in 0..file.len() {
        let points = (9..72).step_by(21).flat_map(|b| [b, b + 1, b + 5, b + 13]);
        let field = [0, 1, 5].into_iter().chain(points).filter(|&f| f <= end).max().unwrap();
        assert_eq!(read_points(&file[..end]), refuse(20, field), "{end}");
    }
    let with = |at: usize, bytes: &[u8]| {
        let mut file = file.clone();
        file[at..at + bytes.len()].copy_from_slice(bytes);
        file
    };
    assert_eq!(read_points(&with(0, &[2])), refuse(21, 0));
    assert_eq!(read_points(&with(4, &[3])), refuse(22, 1));
    assert_eq!(read_points(&with(8, &[2])), refuse(24, 5));
    assert_eq!(read_points(&with(8, &[6])), refuse(29, 5));
    assert_eq!(read_points(&with(30, &[2])), refuse(21, 30));
    assert_eq!(read_points(&with(31, &[1])), refuse(33, 31));
    assert_eq!(read_points(&with(35, &f64::NAN.to_be_bytes())), refuse(25, 35));
    assert_eq!(read_points(&with(43, &0.5f64.to_be_bytes())), refuse(26, 43));
    assert_eq!(read_points(&[file.clone(), vec![0]].concat()), refuse(28, 72));
}

#[test]
fn the_surveyor_sees_what_was_sent() {
    let mut file = point_file();
    file[43..51].copy_from_slice(&0.5f64.to_be_bytes());
    let sent = |place| Second::right().sent(&file, place);
    assert_eq!(sent(43), Ok(Coordinate::OffGrid(0.5f64.to_bits())));
    assert_eq!(sent(35), Ok(Coordinate::Grid(4)));
    assert_eq!(sent(64), Ok(Coordinate::Grid(3)));
    for place in [0, 5, 9, 13, 15, 42, 72, 77, usize::MAX] {
        assert_eq!(sent(place), refuse(20, place));
    }
}

#[test]
fn the_writer_refuses_in_order() {
    let mut out = [9; 76];
    let mut write = |xs: &[u16], ys: &[u16]| Second::right().write(xs, ys, &mut out);
    assert_eq!(write(&[0, 1, 20_000], &[0, 1]), refuse(30, 0));
    assert_eq!(write(&[0, 1], &[0, 1]), refuse(30, 0));
    assert_eq!(write(&[0; 1_025], &[0; 1_025]), refuse(30, 0));
    assert_eq!(write(&[0, 1, 2], &[0, 1, 16_384]), refuse(31, 0));
    assert_eq!(write(&[0, 1, 2], &[0, 1, 16_383]), refuse(32, 0));
    assert_eq!(out, [9; 76]);
}

#[test]
fn the_c_function_asks_in_order() {
    let points = [0u8, 0, 0, 0, 4, 0, 0, 0, 0, 0, 3, 0];
    let triangles = [0u8, 0, 1, 0, 2, 0];
    let ask =
        |points: &[u8], triangles: &[u8], room: usize| Second::right().outline_polygon(points, triangles, 0, &mut vec![0; room]);
    assert_eq!(ask(&points, &triangles, 77), 77);
    assert_eq!(ask(&points, &triangles, 76), -32);
    assert_eq!(ask(&points[..11], &[], 0), -1);
    assert_eq!(ask(&points[..8], &[], 0), -2);
    assert_eq!(ask(&points, &[], 0), -3);
    assert_eq!(ask(&points, &triangles[..5], 0), -3);
    assert_eq!(ask(&points, &[0, 0, 2, 0, 1, 0], 0), -8);
}

#[test]
fn the_printer_takes_only_its_text() {
    let good = text(T, &[0, 1, 2]);
    let print = |text: &str| String::from_utf8(Second::right().printed(text.as_bytes())).unwrap();
    let entry = "0 0 12 0 1 2\n";
    assert_eq!(print(&format!("\r\n  {good} \r")), entry);
    assert_eq!(print(&good.replace('4', "00004")), entry);
    let padded = |bytes: usize| format!("{good}{}", " ".repeat(bytes - good.len()));
    assert_eq!(print(&padded(65_536)), entry);
    for bad in ["", " ", "3", "3 1", &format!("{good} 1"), &good[2..], &good.replace(' ', "\t"), &good.replace('4', "+4")] {
        assert_eq!(print(bad), "refused 40 0\n", "{bad}");
    }
    for bad in [good.replace('4', "000004"), good.replace('4', "65536"), padded(65_537), good.replace('4', "4,")] {
        assert_eq!(print(&bad), "refused 40 0\n");
    }
    assert_eq!(print(&good.replace('4', "65535")), "refused 5 1\n");
    assert_eq!(print("0 0"), "refused 2 0\n");
    assert_eq!(print("3 0 0 0 4 0 0 3"), "refused 3 0\n");
}
