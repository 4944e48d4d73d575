use crate::{segments, REPORT, SMALL};
use sargaceu::{lines, size::small, Buffers, Form, Number, Refusal, Written};

#[test]
fn a_message_is_written_back() {
    let mut buffers = Buffers::new(Form::Small);
    let table = buffers.read(SMALL).unwrap();
    let mut output = [7; small::OUTPUT + 1];
    let written = Written {
        bytes: SMALL.len(),
        lines: segments(SMALL).len(),
    };
    assert_eq!(table.write(&mut output), Ok(written));
    assert_eq!(&output[..written.bytes], SMALL);
    assert!(output[written.bytes..].iter().all(|&byte| byte == 7));
    assert_eq!(table.to_message(), SMALL);
}

#[test]
fn what_is_written_reads_to_the_same_table() {
    let (mut one, mut two) = (Buffers::new(Form::Small), Buffers::new(Form::Small));
    for message in [SMALL, REPORT] {
        let table = one.read(message).unwrap();
        let written = table.to_message();
        assert_eq!(two.read(&written), Ok(table));
        assert_eq!(segments(&written), segments(message));
    }
}

#[test]
fn lines_are_counted_and_long_segments_cut() {
    let mut buffers = Buffers::new(Form::Small);
    for bytes in [219, 220, 436, 437] {
        // a segment of so many bytes, cut by hand into lines of 100
        let segment = [&b"ERR|"[..], &vec![b'x'; bytes - 4]].concat();
        let mut message = b"H|~^\\&|||LAB||ERR\r".to_vec();
        for (count, piece) in segment.chunks(100).enumerate() {
            message.extend(if count == 0 { &b""[..] } else { b"A|" });
            message.extend(piece);
            message.push(b'\r');
        }
        message.extend(b"L|1\r\n");
        let table = buffers.read(&message).unwrap();
        let mut output = [0; small::OUTPUT];
        let written = table.write(&mut output).unwrap();
        let walked: Vec<_> = lines(&output[..written.bytes]).collect();
        assert!(walked.iter().all(Result::is_ok));
        assert_eq!(written.lines, walked.len());
        assert_eq!(segments(&output[..written.bytes])[1], segment);
        let lines_of_segment = match bytes {
            219 => 1,
            220 | 436 => 2,
            _ => 3,
        };
        assert_eq!(written.lines, 2 + lines_of_segment);
    }
}

#[test]
fn a_short_output_is_refused_and_not_touched() {
    let mut buffers = Buffers::new(Form::Small);
    let table = buffers.read(SMALL).unwrap();
    let mut output = [7; small::OUTPUT - 1];
    let refusal = Refusal {
        number: Number::ShortOutput,
        place: 0,
    };
    assert_eq!(table.write(&mut output), Err(refusal));
    assert!(output.iter().all(|&byte| byte == 7));
    assert_eq!(table.write(&mut []), Err(refusal));
}
