use crate::{REPORT, SMALL};
use sargaceu::{lines, Line, Number, Refusal};

#[test]
fn the_lines_are_what_stands_between_the_crs() {
    for message in [SMALL, REPORT] {
        let walked: Vec<Line<'_>> = lines(message).map(Result::unwrap).collect();
        let split = message
            .split(|&byte| byte == b'\r')
            .filter(|line| !line.is_empty());
        assert!(split.eq(walked.iter().map(|line| line.bytes())));
        for line in walked {
            assert!(message[line.place()..].starts_with(line.bytes()));
        }
    }
}

#[test]
fn a_walk_ends_with_the_message_or_with_a_fault() {
    assert_eq!(lines(b"").next(), None);
    let mut walk = lines(b"ab\r\r\ncd\re");
    let first = walk.next().unwrap().unwrap();
    assert_eq!((first.place(), first.bytes()), (0, &b"ab"[..]));
    let second = walk.next().unwrap().unwrap();
    assert_eq!((second.place(), second.bytes()), (5, &b"cd"[..]));
    let fault = Refusal {
        number: Number::OpenLine,
        place: 9,
    };
    assert_eq!(walk.next(), Some(Err(fault)));
    assert_eq!(walk.next(), None);
    assert_eq!(walk.next(), None);
}

#[test]
fn each_fault_has_its_place() {
    let fault = |message: &[u8]| {
        let fault = lines(message).last().unwrap().unwrap_err();
        (fault.number as u8, fault.place)
    };
    assert_eq!(fault(b"\rH\r"), (4, 0));
    assert_eq!(fault(b"H\rP\nL\r"), (4, 3));
    assert_eq!(fault(&[b'x'; 300]), (5, 219));
    assert_eq!(fault(&[b'x'; 219]), (6, 219));
}

#[test]
fn a_walk_has_no_limit_of_bytes() {
    let message = b"line\r".repeat(100_000);
    let walked = lines(&message).filter(|line| line.unwrap().bytes() == b"line");
    assert_eq!(walked.count() * b"line\r".len(), message.len());
}

#[test]
fn a_line_is_shown_as_a_string() {
    let line = lines(b"C|1|L|\xe0 jeun\r").next().unwrap().unwrap();
    assert_eq!(line.to_string(), "C|1|L|à jeun");
}
