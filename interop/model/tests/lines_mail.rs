//! T-10, "A record to mail home": the paper's own figures and both sides of each line
//! that it draws, of numbers, of adding, writing and reading.

use model::mail::number::{bytes_of, number_at};
use model::mail::{add, read, write, write_bound, Added, Fault, Readback, Written};

const OK: (u32, u32, usize) = (0, 0, 0);

/// Code, fault and place of a write with room enough.
fn wrote(run: &[u32]) -> (u32, u32, usize) {
    let mut file = vec![9; 5 * run.len()];
    let got = write(run, &mut file);
    let untouched = file[got.written..].iter().all(|byte| *byte == 9);
    assert!(untouched && (got.code == 0 || got.written == 0));
    (got.code, got.fault, got.at)
}

/// The same of a read, with the dwords that it laid.
fn laid(file: &[u8]) -> ((u32, u32, usize), Vec<u32>) {
    let mut run = vec![0xABCD; file.len() + 1];
    let got = read(file, &mut run);
    assert!(run[got.written..].iter().all(|dword| *dword == 0xABCD));
    run.truncate(got.written);
    ((got.code, got.fault, got.at), run)
}

fn bad(fault: Fault, at: usize) -> (u32, u32, usize) {
    (29, fault as u32, at)
}

#[test]
fn numbers_in_groups_of_seven() {
    let forms: [(u32, &[u8]); 14] = [
        (300, &[0xAC, 0x02]),
        (0, &[0]),
        (1, &[1]),
        (127, &[0x7F]),
        (128, &[0x80, 0x01]),
        (16_383, &[0xFF, 0x7F]),
        (16_384, &[0x80, 0x80, 0x01]),
        (2_097_151, &[0xFF, 0xFF, 0x7F]),
        (2_097_152, &[0x80, 0x80, 0x80, 0x01]),
        (268_435_455, &[0xFF, 0xFF, 0xFF, 0x7F]),
        (268_435_456, &[0x80, 0x80, 0x80, 0x80, 0x01]),
        (0x8000_0000, &[0x80, 0x80, 0x80, 0x80, 0x08]),
        (0xFFFF_FFFE, &[0xFE, 0xFF, 0xFF, 0xFF, 0x0F]),
        (0xFFFF_FFFF, &[0xFF, 0xFF, 0xFF, 0xFF, 0x0F]),
    ];
    for (number, form) in forms {
        assert_eq!((&bytes_of(number)[..], number_at(form)), (form, Ok((number, form.len()))));
        let mut more = form.to_vec();
        more.extend([0xFF, 0]);
        assert_eq!(number_at(&more), Ok((number, form.len())), "others behind it");
        for cut in 1..form.len() {
            assert_eq!(number_at(&form[..cut]), Err(Fault::Unfinished));
        }
    }
    assert_eq!(number_at(&[]), Err(Fault::Missing));
}

/// A form is too long up to five bytes; what five bytes do not end is too wide.
#[test]
fn forms_too_long_and_too_wide() {
    for number in [0, 1, 44, 127] {
        for more in 1..10 {
            let mut form = vec![number | 0x80];
            form.resize(more, 0x80);
            form.push(0);
            let fault = if form.len() <= 5 { Fault::TooLong } else { Fault::TooWide };
            assert_eq!(number_at(&form), Err(fault), "{form:02X?}");
        }
    }
    assert_eq!(number_at(&[0xAC, 0x82, 0x00]), Err(Fault::TooLong));
    for fifth in 0..=255 {
        let form = [0x80, 0x80, 0x80, 0x80, fifth];
        let expected = match fifth {
            0 => Err(Fault::TooLong),
            1..=15 => Ok(((fifth as u32) << 28, 5)),
            _ => Err(Fault::TooWide),
        };
        assert_eq!(number_at(&form), expected);
    }
    // Four bytes that others should follow are unfinished, five are too wide.
    assert_eq!(number_at(&[0x80; 4]), Err(Fault::Unfinished));
    assert_eq!(number_at(&[0x80; 5]), Err(Fault::TooWide));
    assert_eq!(number_at(&[0xFF; 10]), Err(Fault::TooWide));
}

/// A sent message of two dwords, then a received one of one.
const RUN: [u32; 7] = [0, 2, 0x012C_0001, 300, 1, 1, 0xFF00];
const FILE: [u8; 13] = [0, 2, 0x81, 0x80, 0xB0, 0x09, 0xAC, 0x02, 1, 1, 0x80, 0xFE, 0x03];

#[test]
fn a_run_and_its_file() {
    let mut bytes = vec![7; 20];
    let accepted = Written { written: 13, ..Written::default() };
    assert_eq!(write(&RUN, &mut bytes), accepted);
    assert_eq!((&bytes[..13], &bytes[13..]), (&FILE[..], &[7; 7][..]));
    let mut run = vec![5; 9];
    let accepted = Readback { written: 7, took: 13, ..Readback::default() };
    assert_eq!(read(&FILE, &mut run), accepted);
    assert_eq!((&run[..7], &run[7..]), (&RUN[..], &[5, 5][..]));
    assert_eq!((write(&[], &mut []), read(&[], &mut [])), Default::default());
}

#[test]
fn cut_anywhere() {
    for cut in 0..=13 {
        let (said, run) = laid(&FILE[..cut]);
        let whole = [0, 4, 7][(cut >= 8) as usize + (cut >= 13) as usize];
        assert_eq!(run, RUN[..whole]);
        let expected = match cut {
            0 | 8 | 13 => OK,
            3..=5 => bad(Fault::Unfinished, 2),
            7 => bad(Fault::Unfinished, 6),
            11 | 12 => bad(Fault::Unfinished, 10),
            _ => bad(Fault::Missing, cut),
        };
        assert_eq!(said, expected, "cut to {cut}");
    }
    for cut in 0..=7 {
        let expected = match cut {
            0 | 4 | 7 => OK,
            1..=3 => bad(Fault::Missing, 0),
            _ => bad(Fault::Missing, 4),
        };
        assert_eq!(wrote(&RUN[..cut]), expected);
    }
}

#[test]
fn room_to_the_last_byte() {
    for (room, code) in [(12, 30), (13, 0), (0, 30)] {
        let mut bytes = vec![7; room];
        let written = if code == 0 { 13 } else { 0 };
        assert_eq!(write(&RUN, &mut bytes), Written { code, written, ..Written::default() });
        assert_eq!(bytes, if code == 0 { FILE.to_vec() } else { vec![7; room] });
    }
    // 29 is tested first by a write, 30 by a read.
    let short = Written { code: 29, fault: Fault::Missing as u32, at: 4, written: 0 };
    assert_eq!(write(&RUN[..6], &mut []), short);
    for (file, at) in [(&FILE[..], 0), (&FILE[..10], 10), (&[&FILE[..8], &[2]].concat(), 8)] {
        let needed = if at == 0 { 7 } else { 4 };
        for room in [0, needed - 1] {
            let mut run = vec![5; room];
            let refused = Readback { code: 30, ..Readback::default() };
            assert_eq!((read(file, &mut run), run), (refused, vec![5; room]));
        }
        let mut run = vec![5; needed];
        let got = read(file, &mut run);
        assert_eq!((got.code, got.at), (if at == 0 { 0 } else { 29 }, at));
        assert_eq!((got.written, &run[..]), (needed, &RUN[..needed]));
    }
}

#[test]
fn directions_and_lengths() {
    for (direction, good) in [(0, true), (1, true), (2, false), (3, false), (u32::MAX, false)] {
        let expected = if good { OK } else { bad(Fault::Direction, 0) };
        let file: Vec<u8> = [direction, 1, 0].into_iter().flat_map(bytes_of).collect();
        assert_eq!((wrote(&[direction, 1, 0]), laid(&file).0), (expected, expected));
        // Nothing behind a bad direction is asked for.
        let alone = if good { bad(Fault::Missing, 0) } else { expected };
        assert_eq!(wrote(&[direction]), alone);
    }
    for length in [0, 1, 2, 255, 256, 257, 258, 300, 512, 65_537, u32::MAX] {
        let good = (1..=256).contains(&length);
        let mut run = vec![1, length, length.wrapping_sub(1) & 0xFF];
        run.resize(2 + length.min(600) as usize, 0);
        let file: Vec<u8> = run.iter().copied().flat_map(bytes_of).collect();
        let expected = |at| if good { OK } else { bad(Fault::Length, at) };
        assert_eq!((wrote(&run), laid(&file).0), (expected(0), expected(1)));
    }
}

/// A header whose NUM_DWORDS is another; its other bits are not asked.
#[test]
fn headers_that_disagree() {
    for (length, num_dwords) in (1..=256u32).flat_map(|l| [l - 1, l, l + 1].map(|n| (l, n))) {
        let run = |upper: u32| {
            let mut run = vec![0, length, upper << 8 | num_dwords & 0xFF];
            run.resize(2 + length as usize, 0xFFFF_FFFF);
            run
        };
        let good = num_dwords & 0xFF == length - 1;
        for upper in [0, 1, 0xFF, 0x00FF_FFFF] {
            let file: Vec<u8> = run(upper).into_iter().flat_map(bytes_of).collect();
            let at = bytes_of(length).len() + 1;
            let expected = |at| if good { OK } else { bad(Fault::Header, at) };
            assert_eq!((wrote(&run(upper)), laid(&file).0), (expected(0), expected(at)));
            let mut into = vec![0; 300];
            let added = add(&mut into, 0, 0, &run(upper)[2..]);
            assert_eq!(added.fault, if good { 0 } else { Fault::Header as u32 });
        }
    }
}

#[test]
fn adding_at_a_place() {
    let message = [0x0000_0402, 0xFFFF_FFFF, 7];
    let fits = |run_len: usize, place: usize| {
        let mut run = vec![9; run_len];
        let added = add(&mut run, place, 1, &message);
        let mut expected = vec![9; run_len];
        if added.code == 0 {
            expected[place..place + 5].copy_from_slice(&[1, 3, 0x402, 0xFFFF_FFFF, 7]);
            assert_eq!(added, Added { place: place + 5, ..Added::default() });
        } else {
            assert_eq!(added, Added { code: 30, fault: 0, place });
        }
        assert_eq!(run, expected);
        added.code == 0
    };
    assert_eq!([4, 5, 6].map(|run_len| fits(run_len, 0)), [false, true, true]);
    assert_eq!(
        [2, 3, 4, 7, 8, 9].map(|place| fits(8, place)),
        [true, true, false, false, false, false]
    );
    for back in [0, 1, 3, 4, 5, 6, 1 << 32] {
        assert!(!fits(8, usize::MAX - back));
    }
    let mut run = [9; 3];
    for (direction, message, fault) in [
        (2, &[0][..], 5),
        (2, &[], 5),
        (0, &[], 6),
        (1, &[0; 257], 6),
        (0, &[1], 7),
        (1, &[0, 0], 7),
    ] {
        for place in [0, 3, usize::MAX] {
            let refused = Added { code: 29, fault, place };
            assert_eq!(add(&mut run, place, direction, message), refused, "29 before 30");
        }
    }
    assert_eq!(run, [9; 3]);
}

#[test]
fn bytes_at_most() {
    let fifth = usize::MAX / 5;
    assert_eq!([0, 1, 258].map(write_bound), [0, 5, 1290]);
    assert_eq!(write_bound(1 << 61), 5 << 61);
    assert_eq!([fifth - 1, fifth].map(write_bound), [5 * (fifth - 1), 5 * fifth]);
    assert_eq!([fifth + 1, 1 << 62, 1 << 63, usize::MAX].map(write_bound), [usize::MAX; 4]);
}
