use crate::{row, REPORT, SMALL};
use sargaceu::{latin1, Buffers, Form, Kind, Row, Sought};

#[test]
fn leaves_are_found_by_their_place() {
    let mut buffers = Buffers::new(Form::Small);
    let table = buffers.read(SMALL).unwrap();
    let text = |place| table.leaf(place).text();
    assert_eq!(text(row(2).field(6)), Some(&b"DUPONT"[..]));
    assert_eq!(text(row(2).field(6).subfield(2)), Some(&b"JEAN"[..]));
    assert_eq!(text(Row::FIRST.field(2)), Some(&b"~^\\&"[..]));
    assert_eq!(text(row(4).field(5)), Some(&b""[..]));
    assert_eq!(text(row(4).field(7)), None);
    assert_eq!(text(row(4).field(0)), None);
    assert_eq!(text(row(4).field(6).repetition(2)), None);
    assert_eq!(text(row(4).field(6).subsubfield(u32::MAX)), None);
    assert_eq!(text(row(65535).field(1)), None);
    // a number is not cut to its lower half
    assert_eq!(text(row(4).field(65542)), None);
    assert_eq!(text(row(65540).field(6)), None);
}

#[test]
fn a_leaf_sent_empty_is_not_one_that_was_never_sent() {
    let mut buffers = Buffers::new(Form::Small);
    let message = b"H|~^\\&|||LAB||ORU\rP|1\rOBR|1\rOBX|1|NM|GLY||1.2|g/L\rOBX|2|NM|PH||7.4|\rOBX|3|NM|K||5.6\rL|1\r";
    let table = buffers.read(message).unwrap();
    let [sent, empty, missing] = [4, 5, 6].map(|number| table.leaf(row(number).field(7)));
    assert!(matches!(sent, Sought::Found(leaf) if leaf.bytes() == b"g/L"));
    assert_eq!(empty, Sought::Empty);
    assert_eq!(missing, Sought::NotThere);

    let sought = [sent, empty, missing];
    assert_eq!(
        sought.map(|unit| unit.text_or(b"-")),
        [&b"g/L"[..], b"", b"-"]
    );
    assert_eq!(
        sought.map(Sought::text),
        [Some(&b"g/L"[..]), Some(b""), None]
    );
    assert_eq!(
        sought.map(|unit| unit.found().is_some()),
        [true, false, false]
    );
}

#[test]
fn an_empty_first_leaf_does_not_make_the_field_empty() {
    let mut buffers = Buffers::new(Form::Small);
    let table = buffers.read(b"H|~^\\&|||LAB||ADM\rP|~b\rL\r").unwrap();
    let field = row(2).field(2);
    assert_eq!(table.leaf(field), Sought::Empty);
    assert_eq!(table.leaf(field.subfield(2)).text(), Some(&b"b"[..]));
    assert_eq!(table.leaf(field.subfield(3)), Sought::NotThere);
}

#[test]
fn repetitions_and_subsubfields_have_places() {
    let mut buffers = Buffers::new(Form::Small);
    let message = b"H|~^\\&|||LAB||ADM\rP|1^a&b~c\rL\r";
    let table = buffers.read(message).unwrap();
    let text = |place| table.leaf(place).text().map(latin1);
    let field = row(2).field(2);
    assert_eq!(text(field).as_deref(), Some("1"));
    assert_eq!(text(field.repetition(2)).as_deref(), Some("a"));
    assert_eq!(
        text(field.repetition(2).subsubfield(2)).as_deref(),
        Some("b")
    );
    assert_eq!(text(field.repetition(2).subfield(2)).as_deref(), Some("c"));
}

#[test]
fn every_leaf_is_found_at_its_own_place() {
    let mut buffers = Buffers::new(Form::Small);
    for message in [SMALL, REPORT] {
        let table = buffers.read(message).unwrap();
        assert_eq!(table.leaves().len(), table.card().leaves);
        for leaf in table.leaves() {
            let expected = match leaf.bytes() {
                b"" => Sought::Empty,
                _ => Sought::Found(leaf),
            };
            assert_eq!(table.leaf(leaf.place()), expected);
        }
        let text: Vec<u8> = table
            .leaves()
            .flat_map(|leaf| leaf.bytes())
            .copied()
            .collect();
        assert_eq!(text, table.text());
    }
}

#[test]
fn the_leaves_of_the_rows_are_the_leaves_of_the_table() {
    let mut buffers = Buffers::new(Form::Small);
    for message in [SMALL, REPORT] {
        let table = buffers.read(message).unwrap();
        let by_rows = table.rows().flat_map(|segment| segment.leaves());
        assert!(by_rows.eq(table.leaves()));
        for segment in table.rows() {
            let mut leaves = segment.leaves();
            assert!(leaves.all(|leaf| leaf.place().segment == segment.row()));
        }
        let mut backward: Vec<_> = table.leaves().rev().collect();
        backward.reverse();
        assert!(table.leaves().eq(backward));
    }
}

#[test]
fn a_leaf_is_shown_as_a_string() {
    let mut buffers = Buffers::new(Form::Small);
    let table = buffers.read(REPORT).unwrap();
    let result = table
        .rows()
        .find(|segment| segment.kind() == Kind::OBX)
        .unwrap();
    let place = result.row().field(4).subfield(2);
    let name = table.leaf(place).found().unwrap();
    assert_eq!(name.bytes(), b"Glyc\xe9mie");
    assert_eq!(name.to_string(), "Glycémie");
    assert_eq!(format!("{name:>10}|"), "  Glycémie|");
    assert!(format!("{name:?}").ends_with("text: \"Glycémie\" }"));
}
