use crate::{leaves, segments, REPORT, SMALL};
use sargaceu::size::{self, small};
use sargaceu::{latin1, read, Buffers, Card, Context, Form, Number, Refusal, Table};
use std::error::Error;

fn refusal(message: &[u8]) -> (u8, usize) {
    let refusal = Buffers::new(Form::Small)
        .read(message)
        .map(|_| ())
        .unwrap_err();
    (refusal.number as u8, refusal.place)
}

fn refused(number: Number) -> Refusal {
    Refusal { number, place: 0 }
}

#[test]
fn a_message_is_filed() {
    let mut buffers = Buffers::new(Form::Small);
    let table = buffers.read(SMALL).unwrap();
    let card = Card {
        segments: 5,
        leaves: 24,
        text: 41,
        separator: b'|',
        context: Context::ORU,
    };
    assert_eq!(table.card(), card);
    let rows = [
        1, 0, 1, 7, 2, 1, 8, 7, 5, 2, 15, 2, 6, 3, 17, 6, 11, 0, 23, 2,
    ];
    assert_eq!(table.segment_rows(), rows);
    assert_eq!(table.leaf_rows().len(), card.leaves * size::LEAF_ROW);
    assert_eq!(table.leaf_rows()[..7], [1, 1, 1, 1, 1, 0, 1]);
    assert_eq!(table.text(), b"H~^\\&LABORUP1DUPONTJEANOBR1OBX1NMGLY1.2L1");
}

#[test]
fn the_card_counts_what_the_message_has() {
    let mut buffers = Buffers::new(Form::Small);
    for message in [SMALL, REPORT] {
        let card = buffers.read(message).unwrap().card();
        let segments = segments(message);
        assert_eq!(card.segments, segments.len());
        let counted: usize = segments.iter().map(|segment| leaves(segment)).sum();
        assert_eq!(card.leaves, counted);
        // after each leaf stands one splitting byte, or its segment ends
        let bytes: usize = segments.iter().map(|segment| segment.len() + 1).sum();
        assert_eq!(card.text, bytes - counted);
    }
}

#[test]
fn every_number_comes_with_its_place() {
    assert_eq!(refusal(&[b'H'; small::MESSAGE + 1]), (2, 0));
    assert_eq!(refusal(b""), (3, 0));
    assert_eq!(refusal(b"H||^\\&|\r"), (3, 0));
    assert_eq!(refusal(b"H|~^\\&|||\x01LAB\r"), (4, 9));
    let mut long = b"H|~^\\&|".to_vec();
    long.resize(220, b'x');
    long.push(b'\r');
    assert_eq!(refusal(&long), (5, 219));
    let open = &SMALL[..SMALL.len() - 1];
    assert_eq!(refusal(open), (6, open.len()));
    let many = [b"H|~^\\&|||LAB||ERR\r".to_vec(), b"ERR\r".repeat(256)].concat();
    assert_eq!(refusal(&many), (7, 0));
    assert_eq!(refusal(b"H|~^\\&|||LAB||ORU\rA\rL|1\r"), (8, 2));
    assert_eq!(refusal(b"H|~^\\&|||LAB||XYZ\rL|1\r"), (9, 0));
    assert_eq!(refusal(b"H|~^\\&|||LAB||ORU\rP|1\rOBX|1\rL|1\r"), (10, 3));
    assert_eq!(refusal(b"H|~^\\&|||LAB||ORU\rP|1\rOBR|1\rL|1\r"), (10, 4));
    assert_eq!(refusal(&SMALL[..SMALL.len() - 4]), (10, 5));
    let fields = [&b"ERR"[..], &b"|".repeat(210)].concat();
    let error = [fields, b"\r".to_vec()].concat();
    let many = [
        b"H|~^\\&|||LAB||ERR\r".to_vec(),
        error.repeat(10),
        b"L\r".to_vec(),
    ];
    assert_eq!(refusal(&many.concat()), (11, 0));
}

#[test]
fn a_refusal_changes_no_buffer() {
    let mut text = [7; small::TEXT];
    let mut segments = [7; small::SEGMENTS];
    let mut leaves = [7; small::LEAVES];
    let broken = read(Form::Small, b"", &mut text, &mut segments, &mut leaves);
    assert_eq!(broken, Err(refused(Number::BrokenHeader)));
    let short = Err(refused(Number::ShortBuffer));
    assert_eq!(
        read(
            Form::Small,
            SMALL,
            &mut text[1..],
            &mut segments,
            &mut leaves
        ),
        short
    );
    assert_eq!(
        read(
            Form::Small,
            SMALL,
            &mut text,
            &mut segments[1..],
            &mut leaves
        ),
        short
    );
    assert_eq!(
        read(
            Form::Small,
            SMALL,
            &mut text,
            &mut segments,
            &mut leaves[1..]
        ),
        short
    );
    assert_eq!(read(Form::Small, SMALL, &mut [], &mut [], &mut []), short);
    assert!(text.iter().all(|&byte| byte == 7));
    assert!(segments.iter().chain(&leaves).all(|&number| number == 7));
}

#[test]
fn longer_buffers_are_used_at_their_front() {
    let mut text = [7; small::TEXT + 1];
    let mut segments = [7; small::SEGMENTS + 1];
    let mut leaves = [7; small::LEAVES + 1];
    let mut buffers = Buffers::new(Form::Small);
    let table = buffers.read(SMALL).unwrap();
    let card = table.card();
    let longer = read(Form::Small, SMALL, &mut text, &mut segments, &mut leaves);
    assert_eq!(longer, Ok(table));
    assert!(text[card.text..].iter().all(|&byte| byte == 7));
    let rows = &segments[card.segments * size::SEGMENT_ROW..];
    assert!(rows.iter().all(|&number| number == 7));
    let rows = &leaves[card.leaves * size::LEAF_ROW..];
    assert!(rows.iter().all(|&number| number == 7));
}

#[test]
fn a_table_that_was_kept_is_taken_again_and_a_damaged_one_refused() {
    let mut buffers = Buffers::new(Form::Small);
    let table = buffers.read(REPORT).unwrap();
    let card = table.card();
    let (segments, leaves, text) = (table.segment_rows(), table.leaf_rows(), table.text());
    assert_eq!(
        Table::new(Form::Small, card, segments, leaves, text),
        Ok(table)
    );
    let longer = [text, b"more"].concat();
    assert_eq!(
        Table::new(Form::Small, card, segments, leaves, &longer),
        Ok(table)
    );

    let no_table = Err(refused(Number::NoTable));
    assert_eq!(
        Table::new(Form::Small, card, segments, leaves, &text[1..]),
        no_table
    );
    assert_eq!(Table::new(Form::Small, card, &[], &[], &[]), no_table);
    let past = Card {
        leaves: usize::MAX,
        ..card
    };
    assert_eq!(
        Table::new(Form::Small, past, segments, leaves, text),
        no_table
    );
    let mut owners = segments.to_vec();
    owners[5] = 2;
    assert_eq!(
        Table::new(Form::Small, card, &owners, leaves, text),
        no_table
    );
}

#[test]
fn a_refusal_says_what_it_is_for() {
    let refusal: Box<dyn Error> = Box::new(Buffers::new(Form::Small).read(b"").unwrap_err());
    assert!(refusal.to_string().ends_with("(refusal 3)"));
    let open = Buffers::new(Form::Small).read(&SMALL[..10]).unwrap_err();
    assert_eq!(
        open.to_string(),
        "the last line is not closed, at offset 10 (refusal 6)"
    );
    let long = Buffers::new(Form::Small)
        .read(&[b'H'; small::MESSAGE + 1])
        .unwrap_err();
    assert_eq!(
        long.to_string(),
        "the message has over 16,384 bytes, in the large form over 1,048,576 (refusal 2)"
    );
}

#[test]
fn buffers_and_tables_are_shown_in_short_and_may_go_to_other_threads() {
    fn goes<T: Send + Sync>(_: &T) {}
    let mut buffers = Buffers::new(Form::Small);
    goes(&buffers);
    assert_eq!(format!("{buffers:?}"), "Buffers { form: Small, .. }");
    let table = buffers.read(SMALL).unwrap();
    goes(&table);
    let shown = "Table { form: Small, card: Card { separator: 124, context: ORU,";
    assert!(format!("{table:?}").starts_with(shown));
}

#[test]
fn a_message_is_listed() {
    let mut buffers = Buffers::new(Form::Small);
    let listing = buffers.list(REPORT);
    let rows = listing.lines().filter(|line| line.starts_with("seg="));
    assert_eq!(rows.count(), segments(REPORT).len());
    let listed: Vec<String> = buffers
        .read(REPORT)
        .unwrap()
        .rows()
        .map(|segment| {
            let range = segment.leaf_range();
            let owner = segment.owner().map_or(0, |owner| owner.number());
            let (row, kind) = (segment.row(), segment.kind());
            format!("seg={row},{kind},{owner},{},{}", range.start, range.len())
        })
        .collect();
    assert!(listing.ends_with(&(listed.join("\n") + "\n")));
    assert_eq!(buffers.list(b""), "form=1\nanswer=3\nplace=0\n");
}

#[test]
fn every_byte_is_the_character_of_its_number() {
    let bytes: Vec<u8> = (0..=255).collect();
    let text = latin1(&bytes);
    assert!(text.chars().map(u32::from).eq(0..256));
}
