//! Where rows and offsets stand in a file, against a walk over the bytes that is the tests' own.

use crate::any::{damaged, Numbers};
use crate::{segments, REPORT, SCREENING, SMALL};
use sargaceu::{lines, position, row_place, rows_in};
use sargaceu::{Buffers, Form, Number, Position, RowPlace};

/// Where the rows of a message stand, up to its first fault.
fn walked(message: &[u8]) -> Vec<RowPlace> {
    let mut rows: Vec<RowPlace> = Vec::new();
    let mut begun = None;
    for (at, &byte) in message.iter().enumerate() {
        match (begun, byte) {
            (Some(start), b'\r') => {
                let goes_on =
                    at - start > 1 && message[start] == b'A' && message[start + 1] == message[1];
                match rows.last_mut() {
                    Some(row) if goes_on => row.lines += 1,
                    _ if goes_on => (),
                    _ => rows.push(RowPlace { start, lines: 1 }),
                }
                begun = None;
            }
            (Some(_), 0..=31) => return rows,
            (Some(start), _) if at - start == 219 => return rows,
            (Some(_), _) => (),
            (None, 0..=31) if at == 0 => return rows,
            (None, 0..=31) => (),
            (None, _) => begun = Some(at),
        }
    }
    rows
}

/// The position of an offset, from the lines as they were split.
fn split(message: &[u8], offset: usize) -> Position {
    let before = &message[..offset.min(message.len())];
    let lines: Vec<&[u8]> = before.split(|&byte| byte == b'\r').collect();
    Position {
        line: lines.len(),
        column: lines[lines.len() - 1].len() + 1,
    }
}

/// The rows of a message stand where the walk finds them, one by one and one after the other, and there are no others.
fn stand_as_walked(message: &[u8]) {
    let walked = walked(message);
    assert!(rows_in(message).eq(walked.iter().copied()));
    for (k, &row) in walked.iter().enumerate() {
        assert_eq!(row_place(message, k + 1), Some(row));
        let taken = lines(&message[row.start..]).take(row.lines);
        assert_eq!(taken.filter(Result::is_ok).count(), row.lines);
        assert_eq!(position(message, row.start), split(message, row.start));
    }
    let past = walked.len() + 1;
    for none in [0, past, past + 1, past + (1 << 32), usize::MAX] {
        assert_eq!(row_place(message, none), None);
    }
}

/// Messages that are not as the samples are: where they begin, how their lines end, and where they break off.
const ODD: [&[u8]; 17] = [
    b"",
    b"A",
    b"\r",
    b"H",
    b"\rH|\r",
    b"H|\r\r\n\r\nA|x\r\n\tP|\r\nA|\r\n",
    b"A|x\rA|y\r",
    b"A|x\r\nA|y\r\nP|\rA|z\r",
    b"A\rAB\rP\r",
    b"AA\rAA|\rA\rAAA\r",
    b"HAx\rAAy\rA\rAA\r",
    b"x\rA\r\rA\r",
    b"H|\rP|\tx\rL|\r",
    b"H|\rP|\rA|x\nL|\r",
    b"H|\rP|\rA|x",
    b"H|\rA|",
    b"H|\rA|x\r\0\x1f\x7f\r",
];

#[test]
fn rows_stand_where_a_walk_over_the_bytes_finds_them() {
    for message in ODD.into_iter().chain([SMALL, REPORT, SCREENING]) {
        stand_as_walked(message);
        for cut in 0..message.len() {
            assert!(rows_in(&message[..cut]).eq(walked(&message[..cut])));
        }
    }
}

#[test]
fn a_line_of_219_bytes_is_one_and_a_longer_one_is_a_fault() {
    for (bytes, rows) in [(219, 3), (220, 1)] {
        let mut message = b"H|\rA|x\r".to_vec();
        message.extend(vec![b'x'; bytes]);
        message.extend(b"\rL|\r");
        assert_eq!(rows_in(&message).count(), rows);
        stand_as_walked(&message);
    }
}

#[test]
fn an_accepted_message_has_the_rows_of_its_table() {
    let mut buffers = Buffers::new(Form::Small);
    for message in [SMALL, REPORT, SCREENING] {
        let table = buffers.read(message).unwrap();
        assert_eq!(rows_in(message).count(), table.card().segments);
        for ((row, segment), joined) in rows_in(message).zip(table.rows()).zip(segments(message)) {
            assert_eq!(row_place(message, segment.row().number()), Some(row));
            let first = lines(&message[row.start..]).next().unwrap().unwrap();
            assert!(joined.starts_with(first.bytes()));
        }
        assert_eq!(rows_in(message).next().unwrap().start, 0);
    }
}

#[test]
fn rows_in_a_file_have_no_limit() {
    let mut message = b"H|~^\\&|\r".to_vec();
    message.extend(b"x|\rA|\r\n".repeat(100_000));
    assert!(rows_in(&message).skip(1).all(|row| row.lines == 2));
    assert_eq!(rows_in(&message).count(), 100_001);
    let last = row_place(&message, 100_001).unwrap();
    assert_eq!(last.start + b"x|\rA|\r\n".len(), message.len());
    assert_eq!(position(&message, last.start).line, 200_000);
}

#[test]
fn rows_that_are_over_stay_over() {
    let mut rows = rows_in(b"H|\rA|x\rP|\t\r");
    assert_eq!(rows.next(), Some(RowPlace { start: 0, lines: 2 }));
    assert_eq!(rows.next(), None);
    assert_eq!(rows.next(), None);
}

#[test]
fn a_position_counts_the_crs_and_the_bytes_since() {
    for message in ODD.into_iter().chain([SMALL, REPORT, SCREENING]) {
        for offset in (0..message.len() + 3).chain([1 << 32, usize::MAX]) {
            assert_eq!(position(message, offset), split(message, offset));
        }
    }
    let message = b"H|\r\nP|\r";
    assert_eq!(position(message, 3), Position { line: 2, column: 1 });
    assert_eq!(position(message, 4), Position { line: 2, column: 2 });
}

/// A message of bytes that make lines, addenda and faults, each by chance.
fn random(numbers: &mut Numbers) -> Vec<u8> {
    let bytes = numbers.below(60);
    let drawn = (0..bytes).map(|_| b"AAAA||||\r\r\r\r\nHPx\t\xe9"[numbers.below(18)]);
    let mut message: Vec<u8> = drawn.collect();
    if numbers.below(4) > 0 {
        message.splice(..0, *b"H|");
    }
    message
}

#[test]
fn rows_and_offsets_stand_in_any_message() {
    let mut numbers = Numbers(3);
    let (mut rows, mut carried) = (0, 0);
    for turn in 0..20_000 {
        let message = match turn % 10 {
            0 => damaged(SMALL, &mut numbers),
            1 => damaged(REPORT, &mut numbers),
            _ => random(&mut numbers),
        };
        stand_as_walked(&message);
        let offset = numbers.below(message.len() + 3);
        assert_eq!(position(&message, offset), split(&message, offset));
        rows += rows_in(&message).count();
        carried += rows_in(&message).filter(|row| row.lines > 1).count();
    }
    assert!(rows > 20_000 && carried > 1_000);
}

#[test]
fn the_place_of_a_refusal_is_a_row_or_the_one_where_the_l_is_missing() {
    let mut numbers = Numbers(4);
    let mut buffers = Buffers::new(Form::Small);
    let (mut unknown, mut misplaced, mut missing) = (0, 0, 0);
    for turn in 0..4000 {
        let message = match turn % 4 {
            0 => SMALL[..SMALL.len() - 4].to_vec(),
            1 => damaged(SMALL, &mut numbers),
            _ => damaged(REPORT, &mut numbers),
        };
        let refusal = match buffers.read(&message) {
            Err(refusal) => refusal,
            Ok(_) => continue,
        };
        let rows = rows_in(&message).count();
        match refusal.number {
            Number::UnknownKind => unknown += 1,
            Number::Misplaced if refusal.place == rows + 1 => missing += 1,
            Number::Misplaced => misplaced += 1,
            _ => continue,
        }
        let there = row_place(&message, refusal.place).is_some();
        assert_eq!(there, refusal.place <= rows);
        assert!(there || refusal.number == Number::Misplaced);
    }
    assert!(unknown > 0 && misplaced > 0 && missing > 0);
}
