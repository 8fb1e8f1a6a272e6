//! Document 02, 3/13, by hand: a triangle, little-endian, at 9, and a square, big-endian, from 86 to 179, below a big-endian head.

use super::*;

const RINGS: (&[u16], &[u16], &[u16]) = (&[0, 4, 0, 0, 10, 10, 0], &[0, 0, 3, 0, 0, 10, 10], &[3, 4]);
const END: usize = 179;

/// A polygon in a byte order, spelled out.
fn part(big: bool, xs: &[u16], ys: &[u16]) -> Vec<u8> {
    let mut bytes = vec![if big { 0 } else { 1 }];
    for number in [3, 1, xs.len() as u32 + 1] {
        bytes.extend(if big { number.to_be_bytes() } else { number.to_le_bytes() });
    }
    for i in (0..xs.len()).chain([0]) {
        for value in [xs[i] as f64, ys[i] as f64] {
            bytes.extend(if big { value.to_be_bytes() } else { value.to_le_bytes() });
        }
    }
    bytes
}

fn district() -> Vec<u8> {
    let head = vec![0, 0, 0, 0, 6, 0, 0, 0, 2];
    [head, part(false, T.0, T.1), part(true, SQUARE.0, SQUARE.1)].concat()
}

/// Reads into lists of nines of these lengths: the answer and the lists afterwards.
fn read_into(file: &[u8], x: usize, y: usize, places: usize) -> (Result<usize, Refusal>, [Vec<u16>; 3]) {
    let mut lists = [vec![9; x], vec![9; y], vec![9; places]];
    let [xs, ys, lengths] = &mut lists;
    (Second::right().read_district(file, xs, ys, lengths), lists)
}

/// Reads into lists with two places more than enough: all that is read is the district, and a refusal writes nothing.
fn read(file: &[u8]) -> Result<usize, Refusal> {
    let (answer, lists) = read_into(file, 9, 9, 4);
    if answer.is_ok() {
        assert_eq!(lists, [vec![0, 4, 0, 0, 10, 10, 0, 9, 9], vec![0, 0, 3, 0, 0, 10, 10, 9, 9], vec![3, 4, 9, 9]]);
    } else {
        assert_eq!(lists, [vec![9; 9], vec![9; 9], vec![9; 4]]);
    }
    answer
}

fn with(at: usize, bytes: &[u8]) -> Vec<u8> {
    let mut file = district();
    file[at..at + bytes.len()].copy_from_slice(bytes);
    file
}

/// Writes into an output of nines: the answer and the output afterwards.
fn write(xs: &[u16], ys: &[u16], lengths: &[u16], room: usize) -> (Result<usize, Refusal>, Vec<u8>) {
    let mut out = vec![9; room];
    (Second::right().write_district(xs, ys, lengths, &mut out), out)
}

fn refused(xs: &[u16], ys: &[u16], lengths: &[u16], room: usize) -> u8 {
    let (answer, out) = write(xs, ys, lengths, room);
    assert_eq!(out, vec![9; room]);
    let refusal = answer.unwrap_err();
    assert_eq!(refusal.place, 0);
    refusal.number
}

#[test]
fn a_district_is_written_little_endian() {
    let (answer, out) = write(RINGS.0, RINGS.1, RINGS.2, END + 3);
    assert_eq!(answer, Ok(END));
    let head = vec![1, 6, 0, 0, 0, 2, 0, 0, 0];
    assert_eq!(out, [head, part(false, T.0, T.1), part(false, SQUARE.0, SQUARE.1), vec![9; 3]].concat());
    assert_eq!(read(&out[..END]), Ok(2));
    assert_eq!(write(RINGS.0, RINGS.1, RINGS.2, END).0, Ok(END));
}

#[test]
fn a_polygon_is_part_of_a_district_as_it_stands() {
    let (answer, out) = write(T.0, T.1, &[3], 86);
    assert_eq!(answer, Ok(86));
    assert_eq!(out[9..], polygon());
}

#[test]
fn the_reader_takes_a_mixture_of_byte_orders() {
    assert_eq!(district().len(), END);
    assert_eq!(read(&district()), Ok(2));
    for orders in 0..8 {
        let big = |bit: u8| orders >> bit & 1 == 1;
        let head = if big(0) { vec![0, 0, 0, 0, 6, 0, 0, 0, 2] } else { vec![1, 6, 0, 0, 0, 2, 0, 0, 0] };
        assert_eq!(read(&[head, part(big(1), T.0, T.1), part(big(2), SQUARE.0, SQUARE.1)].concat()), Ok(2));
    }
}

#[test]
fn a_cut_is_at_the_field_it_falls_in() {
    let heads = [0, 1, 5, 9, 10, 14, 18, 86, 87, 91, 95];
    let fields: Vec<usize> = heads.into_iter().chain((22..86).step_by(8)).chain((99..END).step_by(8)).collect();
    for end in 0..END {
        let field = fields.iter().copied().filter(|&f| f <= end).max().unwrap();
        assert_eq!(read(&district()[..end]), refuse(20, field), "{end}");
    }
}

#[test]
fn the_outer_head_is_asked_first() {
    assert_eq!(read(&with(0, &[2])), refuse(21, 0));
    assert_eq!(read(&with(0, &[1])), refuse(22, 1));
    assert_eq!(read(&with(4, &[3])), refuse(22, 1));
    assert_eq!(read(&with(1, &[6, 0, 0, 0])), refuse(22, 1));
    for count in [0, 33, 256 + 2, 65_536 + 2, 2 << 24, u32::MAX] {
        assert_eq!(read(&with(5, &count.to_be_bytes())), refuse(35, 5), "{count}");
    }
    // A list of lengths without room is asked after the count and before the polygons.
    for (places, count) in [(1, 2), (0, 2), (4, 5), (31, 32)] {
        let file = [&with(5, &[0, 0, 0, count])[..9], &[7]].concat();
        assert_eq!(read_into(&file, 9, 9, places), (refuse(29, 5), [vec![9; 9], vec![9; 9], vec![9; places]]));
    }
    assert_eq!(read_into(&with(8, &[33]), 9, 9, 0).0, refuse(35, 5));
    assert_eq!(read_into(&with(9, &[7]), 0, 0, 2).0, refuse(21, 9));
}

#[test]
fn each_polygon_is_asked_in_its_turn() {
    for (at, bytes, number) in [
        (9, &[2][..], 21),
        (10, &[6], 22),
        (14, &[2], 23),
        (14, &[0], 23),
        (18, &[3], 24),
        (18, &[2, 4], 24),
        (18, &[11], 29),
        (22, &f64::INFINITY.to_le_bytes(), 25),
        (38, &f64::NAN.to_le_bytes(), 25),
        (46, &0.5f64.to_le_bytes(), 26),
        (78, &(-0.0f64).to_le_bytes(), 26),
        (86, &[255], 21),
        (87, &[3, 0, 0, 0], 22),
        (91, &[0, 0, 0, 0], 23),
        (91, &[1, 0, 0, 0], 23),
        (95, &[0, 0, 0, 3], 24),
        (95, &[0, 0, 4, 2], 24),
        (95, &[0, 1, 0, 5], 24),
        (95, &[0, 0, 0, 8], 29),
        (99, &f64::NEG_INFINITY.to_be_bytes(), 25),
        (107, &16_384f64.to_be_bytes(), 26),
        (171, &(-1f64).to_be_bytes(), 26),
    ] {
        assert_eq!(read(&with(at, bytes)), refuse(number, at), "{at} {bytes:?}");
    }
    // The other byte order makes another type of the four bytes behind it.
    assert_eq!(read(&with(9, &[0])), refuse(22, 10));
    assert_eq!(read(&with(86, &[1])), refuse(22, 87));
    assert_eq!(read(&with(70, &1f64.to_le_bytes())), refuse(27, 70));
    assert_eq!(read(&with(78, &1f64.to_le_bytes())), refuse(27, 70));
    assert_eq!(read(&with(163, &1f64.to_be_bytes())), refuse(27, 163));
    assert_eq!(read(&with(171, &1f64.to_be_bytes())), refuse(27, 163));
    // The first polygon's fault hides the second's, and a coordinate that is no number hides a cut behind it.
    let mut both = with(70, &1f64.to_le_bytes());
    both[86] = 7;
    assert_eq!(read(&both), refuse(27, 70));
    assert_eq!(read(&with(99, &f64::INFINITY.to_be_bytes())[..108]), refuse(25, 99));
}

#[test]
fn bytes_left_over_are_asked_at_the_end() {
    assert_eq!(read(&[district(), vec![0]].concat()), refuse(28, END));
    assert_eq!(read(&with(8, &[1])), refuse(28, 86));
    assert_eq!(read(&with(8, &[3])), refuse(20, END));
    let mut bad = [district(), part(false, T.0, T.1)].concat();
    assert_eq!(read(&bad), refuse(28, END));
    bad[86] = 7;
    assert_eq!(read(&bad), refuse(21, 86));
}

#[test]
fn a_ring_is_asked_of_the_room_that_is_left() {
    for (x, y, at) in [(6, 7, 95), (7, 6, 95), (3, 3, 95), (3, 9, 95), (2, 9, 18), (9, 2, 18), (0, 0, 18)] {
        assert_eq!(read_into(&district(), x, y, 2), (refuse(29, at), [vec![9; x], vec![9; y], vec![9; 2]]), "{x} {y}");
    }
    let (answer, lists) = read_into(&district(), 7, 7, 2);
    assert_eq!((answer, lists), (Ok(2), [RINGS.0.to_vec(), RINGS.1.to_vec(), RINGS.2.to_vec()]));
    let (answer, lists) = read_into(&district(), 7, 8, 5);
    assert_eq!(answer, Ok(2));
    assert_eq!(lists, [RINGS.0.to_vec(), [RINGS.1, &[9]].concat(), vec![3, 4, 9, 9, 9]]);
}

#[test]
fn a_district_has_1_to_32_rings() {
    for count in 1..=32 {
        let (xs, ys, lengths) = (T.0.repeat(count), T.1.repeat(count), vec![3; count]);
        let (answer, file) = write(&xs, &ys, &lengths, 9 + 77 * count);
        assert_eq!(answer, Ok(file.len()));
        assert_eq!(file[5..9], [count as u8, 0, 0, 0]);
        assert_eq!(read_into(&file, 3 * count, 3 * count, count), (Ok(count), [xs, ys, lengths]));
        let last = 9 + 77 * (count - 1);
        assert_eq!(read_into(&file, 3 * count - 1, 3 * count, 40).0, refuse(29, last + 9));
    }
    assert_eq!(refused(&[], &[], &[], 9), 35);
    assert_eq!(refused(&T.0.repeat(33), &T.1.repeat(33), &[3; 33], 9_000), 35);
}

#[test]
fn the_largest_district() {
    let (xs, ys, lengths) = (vec![16_383; 32 * 1_024], vec![1; 32 * 1_024], vec![1_024; 32]);
    let (answer, file) = write(&xs, &ys, &lengths, 525_225);
    assert_eq!(answer, Ok(525_225));
    assert_eq!(read_into(&file, 32_768, 32_768, 32), (Ok(32), [xs.clone(), ys.clone(), lengths.clone()]));
    assert_eq!(refused(&xs, &ys, &lengths, 525_224), 32);
}

#[test]
fn the_district_writer_refuses_in_order() {
    let (xs, ys, lengths) = RINGS;
    let high = &[0, 4, 0, 0, 10, 16_384, 0];
    // 35 before all others.
    assert_eq!(refused(high, &[1], &[], 0), 35);
    assert_eq!(refused(&[], &[], &[], 0), 35);
    assert_eq!(refused(high, &[1], &[0; 33], 0), 35);
    assert_eq!(refused(high, &[1], &[0; 256 + 2], 0), 35);
    // 36 before 30.
    assert_eq!(refused(high, &ys[..6], &[3, 5], 0), 36);
    assert_eq!(refused(high, &ys[..6], &[3, 3], 0), 36);
    assert_eq!(refused(&xs[..6], &ys[..6], lengths, END), 36);
    assert_eq!(refused(xs, ys, &[3], END), 36);
    assert_eq!(refused(xs, ys, &[3, 4, 1], END), 36);
    assert_eq!(refused(&[], &[], lengths, END), 36);
    // 30, of each single ring and of the two lists, before 31.
    assert_eq!(refused(high, &ys[..6], lengths, 0), 30);
    assert_eq!(refused(xs, &[ys, &[0]].concat(), lengths, END), 30);
    assert_eq!(refused(high, ys, &[2, 5], 0), 30);
    assert_eq!(refused(high, ys, &[5, 2], 0), 30);
    assert_eq!(refused(xs, ys, &[3, 4, 0], END), 30);
    assert_eq!(refused(&[], &[], &[0], 9), 30);
    assert_eq!(refused(&[0; 1_025], &[0; 1_025], &[1_025], 20_000), 30);
    assert_eq!(refused(&[0; 1_028], &[0; 1_028], &[3, 1_025], 20_000), 30);
    assert!(write(&[0; 1_027], &[0; 1_027], &[3, 1_024], 20_000).0.is_ok());
    // 31 before 32.
    assert_eq!(refused(high, ys, lengths, 0), 31);
    assert_eq!(refused(xs, high, lengths, END), 31);
    for room in [0, 8, 9, 86, END - 1] {
        assert_eq!(refused(xs, ys, lengths, room), 32);
    }
}

#[test]
fn lengths_are_added_up_whole() {
    let sum = |lengths: &[u16]| lengths.iter().map(|&n| n as usize).sum::<usize>();
    for n in [3, 7, 96, 1_024] {
        let (xs, ys) = (vec![0; n], vec![0; n]);
        // 32 lengths that add up to 65,536 + n.
        let mut lengths = vec![2_048; 31];
        lengths.push((2_048 + n) as u16);
        assert_eq!((lengths.len(), sum(&lengths)), (32, 65_536 + n));
        assert_eq!(refused(&xs, &ys, &lengths, 60_000), 36);
        let two = [65_535, 1 + n as u16];
        assert_eq!(sum(&two), 65_536 + n);
        assert_eq!(refused(&xs, &ys, &two, 60_000), 36);
        let three = [65_535, 65_535, 2 + n as u16];
        assert_eq!(sum(&three), 2 * 65_536 + n);
        assert_eq!(refused(&xs, &ys, &three, 60_000), 36);
    }
    // Lists that are as long are no district either: a single ring is too long.
    let long = vec![0; 65_536 + 7];
    assert_eq!(refused(&long, &long, &[65_535, 8], 2_000_000), 30);
}

#[test]
fn the_wrong_districts_are_wrong() {
    let read = |way: Wrong, file: &[u8], room: usize| {
        let mut lists = [vec![9; room], vec![9; room], vec![9; 2]];
        let [xs, ys, lengths] = &mut lists;
        (Second::wrong(way).read_district(file, xs, ys, lengths), lists)
    };
    assert_eq!(read(Wrong::WholeRoomForEachRing, &district(), 6).0, Ok(2));
    assert_eq!(read(Wrong::PlaceFromPolygon, &with(91, &[9]), 7).0, refuse(23, 5));
    let kept = [vec![0, 4, 0, 9, 9, 9, 9], vec![0, 0, 3, 9, 9, 9, 9], vec![9; 2]];
    assert_eq!(read(Wrong::KeepsEarlierRings, &with(91, &[9]), 7), (refuse(23, 91), kept));
    let wrong = Second::wrong(Wrong::SumIn16Bits);
    assert_eq!(wrong.write_district(&[0; 7], &[0; 7], &[65_535, 8], &mut [0; 200]), refuse(30, 0));
}
