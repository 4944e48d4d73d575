//! The two forms: what each accepts at its limits, and what it refuses one past them.

use crate::{row, segments, REPORT, SCREENING, SMALL};
use sargaceu::size::{self, large, small};
use sargaceu::{read, Buffers, Form, Kind, Number, Refusal, Row, Table};

fn refused(number: Number) -> Refusal {
    Refusal { number, place: 0 }
}

/// What a form refuses a message with; nothing where it accepts it.
fn refusal(form: Form, message: &[u8]) -> Option<Refusal> {
    Buffers::new(form).read(message).err()
}

/// A segment, as lines that are filled.
fn in_lines(segment: &[u8]) -> Vec<u8> {
    let (first, rest) = segment.split_at(segment.len().min(219));
    let mut lines = [first, b"\r"].concat();
    for part in rest.chunks(217) {
        lines.extend([b"A|", part, b"\r"].concat());
    }
    lines
}

/// A report of exactly so many bytes: one result, whose text fills what is left.
fn report_of(bytes: usize) -> Vec<u8> {
    let (front, end) = (b"H|~^\\&|||LAB||ORU\rP|1\rOBR|1||A~17\r", b"L|1\r");
    let room = bytes - front.len() - end.len();
    // a segment of n bytes takes n, a CR, and three bytes for each further line
    let lines = (room + 219) / 220;
    let mut result = b"OBX|1|TX|DOC||".to_vec();
    result.resize(room - 1 - (lines - 1) * 3, b'x');
    let message = [&front[..], &in_lines(&result), end].concat();
    assert_eq!(message.len(), bytes);
    message
}

/// An ERR of so many segments and so many leaves.
fn errors_of(segments: usize, leaves: usize) -> Vec<u8> {
    let mut message = b"H|~^\\&|||LAB||ERR\r".to_vec();
    // the header has seven leaves, every other segment one and one more for each field separator
    let mut left = leaves - 7 - (segments - 1);
    for _ in 2..segments {
        let fields = left.min(200);
        message.extend([b"ERR", &b"|".repeat(fields)[..], b"\r"].concat());
        left -= fields;
    }
    assert_eq!(left, 0);
    message.extend(b"L\r");
    message
}

const LIMITS: [(Form, usize, usize); 2] = [(Form::Small, 256, 2048), (Form::Large, 4096, 65536)];

#[test]
fn the_sizes_are_those_that_the_limits_ask_for() {
    for (form, segments, leaves) in LIMITS {
        assert_eq!(form.segments(), segments * size::SEGMENT_ROW);
        assert_eq!(form.leaves(), leaves * size::LEAF_ROW);
        assert_eq!(form.values(), segments);
        assert_eq!(form.text(), form.message());
        assert_eq!(form.output(), form.message());
    }
    assert_eq!(Form::Small.message(), small::MESSAGE);
    assert_eq!(Form::Large.message(), large::MESSAGE);
    assert_eq!((small::MESSAGE, large::MESSAGE), (16_384, 1_048_576));
}

#[test]
fn a_message_as_long_as_its_form_allows_is_read_looked_into_and_written_back() {
    for form in Form::ALL {
        let message = report_of(form.message());
        let mut buffers = Buffers::new(form);
        let table = buffers.read(&message).unwrap();
        assert_eq!(table.form(), form);
        assert_eq!(table.card().segments, 5);
        let result = table.children(row(3), Kind::OBX).next().unwrap();
        let text = table.leaf(result.field(6)).found().unwrap();
        assert_eq!(text.bytes(), &segments(&message)[3][14..]);
        assert!(text.bytes().len() > form.message() * 98 / 100);
        assert_eq!(table.leaves().next_back().unwrap().bytes(), b"1");

        let mut output = vec![7; form.output() + 1];
        let written = table.write(&mut output).unwrap();
        assert_eq!(written.bytes, message.len());
        assert_eq!(
            written.lines,
            message.iter().filter(|&&byte| byte == b'\r').count()
        );
        assert_eq!(output[..written.bytes], message);
        assert_eq!(output[written.bytes..], [7]);
        assert_eq!(table.to_message(), message);
        assert_eq!(
            table.write(&mut output[2..]),
            Err(refused(Number::ShortOutput))
        );

        let longer = [&message[..], b"\n"].concat();
        assert_eq!(refusal(form, &longer), Some(refused(Number::LongMessage)));
    }
}

#[test]
fn as_many_segments_and_leaves_as_a_form_allows_are_accepted_and_one_more_is_refused() {
    for (form, segments, leaves) in LIMITS {
        let mut buffers = Buffers::new(form);
        let message = errors_of(segments, leaves);
        let table = buffers.read(&message).unwrap();
        assert_eq!(
            (table.card().segments, table.card().leaves),
            (segments, leaves)
        );
        assert_eq!(table.rows().count(), segments);
        assert_eq!(table.leaves().count(), leaves);
        assert_eq!(table.children(Row::FIRST, Kind::ERR).count(), segments - 2);
        let last = table.row(row(segments)).unwrap();
        assert_eq!(
            (last.kind(), last.leaf_range()),
            (Kind::L, leaves..leaves + 1)
        );
        assert_eq!(table.to_message(), message);

        let many = errors_of(segments + 1, leaves);
        assert_eq!(refusal(form, &many), Some(refused(Number::ManySegments)));
        let many = errors_of(segments, leaves + 1);
        assert_eq!(refusal(form, &many), Some(refused(Number::ManyLeaves)));
    }
}

#[test]
fn what_the_small_form_accepts_the_large_one_reads_to_the_same_table() {
    let (mut one, mut two) = (Buffers::new(Form::Small), Buffers::new(Form::Large));
    for message in [
        SMALL.to_vec(),
        REPORT.to_vec(),
        SCREENING.to_vec(),
        report_of(small::MESSAGE),
        errors_of(256, 2048),
    ] {
        let small = one.read(&message).unwrap();
        let large = two.read(&message).unwrap();
        assert_eq!(small, large);
        assert_eq!((small.form(), large.form()), (Form::Small, Form::Large));
        assert_eq!(small.screen(), large.screen());
        assert_eq!(small.to_message(), large.to_message());
    }
    for message in [&b""[..], b"H|~^\\&|||LAB||ORU\rA\rL|1\r", &SMALL[..10]] {
        assert_eq!(one.read(message).err(), two.read(message).err());
    }
}

#[test]
fn a_table_is_judged_by_the_form_that_it_is_taken_for() {
    let mut buffers = Buffers::new(Form::Large);
    let message = errors_of(300, 2000);
    let table = buffers.read(&message).unwrap();
    let (card, rows, leaves, text) = (
        table.card(),
        table.segment_rows(),
        table.leaf_rows(),
        table.text(),
    );
    assert_eq!(Table::new(Form::Large, card, rows, leaves, text), Ok(table));
    assert_eq!(
        Table::new(Form::Small, card, rows, leaves, text),
        Err(refused(Number::NoTable))
    );

    let table = buffers.read(SMALL).unwrap();
    let (card, rows, leaves, text) = (
        table.card(),
        table.segment_rows(),
        table.leaf_rows(),
        table.text(),
    );
    for form in Form::ALL {
        let taken = Table::new(form, card, rows, leaves, text).unwrap();
        assert_eq!((taken, taken.form()), (table, form));
    }
}

#[test]
fn the_sizes_of_the_small_form_are_short_for_the_large_one() {
    let (mut text, mut rows, mut leaves) = (
        vec![7; large::TEXT],
        vec![7; large::SEGMENTS],
        vec![7; large::LEAVES],
    );
    let short = Err(refused(Number::ShortBuffer));
    let form = Form::Large;
    assert_eq!(
        read(form, SMALL, &mut text[1..], &mut rows, &mut leaves),
        short
    );
    assert_eq!(
        read(
            form,
            SMALL,
            &mut text,
            &mut rows[..small::SEGMENTS],
            &mut leaves
        ),
        short
    );
    assert_eq!(
        read(form, SMALL, &mut text, &mut rows, &mut leaves[1..]),
        short
    );
    assert!(text.iter().all(|&byte| byte == 7));
    assert!(rows.iter().chain(&leaves).all(|&number| number == 7));
    assert!(read(form, SMALL, &mut text, &mut rows, &mut leaves).is_ok());
}

#[test]
fn orders_of_tables_of_two_forms_are_compared() {
    let (mut one, mut two) = (Buffers::new(Form::Small), Buffers::new(Form::Large));
    let asked = one
        .read(b"H|~^\\&|||LAB||ORM\rP|1\rOBR|1||B~17\rL|1\r")
        .unwrap();
    let done = two.read(&report_of(100_000)).unwrap();
    assert!(asked.same_order(row(3), &done, row(3)));
    assert!(!asked.same_order(row(3), &done, row(4)));
}

#[test]
fn a_message_is_listed_in_the_small_form_whatever_the_buffers() {
    let mut large = Buffers::new(Form::Large);
    assert_eq!(large.form(), Form::Large);
    assert_eq!(large.list(REPORT), Buffers::new(Form::Small).list(REPORT));
    let longer = report_of(small::MESSAGE + 1);
    assert_eq!(large.list(&longer), "form=1\nanswer=2\nplace=0\n");
}
