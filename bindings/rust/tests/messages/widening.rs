//! Tables of the archive, whose rows hold numbers of 16 bits.

use crate::{row, REPORT, SCREENING, SMALL};
use sargaceu::size::small;
use sargaceu::{widen, Buffers, Card, Context, Form, Kind, Number, Refusal, Table};

/// A patient with two further covers and an order: the eleventh of the worked examples.
const COVERS: &[u8] = b"H|~^\\&|||LAB||ORA\rP|1\rAP|1\rAC|1\rAC|2\rOBR|1\rL|1\r";

/// The same with a second order, and a result under the first.
const ORDERS: &[u8] =
    b"H|~^\\&|||LAB||ORA\rP|1\rAP|1\rAC|1\rOBR|1\rOBX|1|NM|K||5.6\rC|1\rOBR|2\rL|1\r";

/// Two invoices; in the first the act stands behind a payment.
const INVOICES: &[u8] =
    b"H|~^\\&|||LAB||FAC\rP|1\rAP|1\rFAC|1\rREG|1\rACT|1\rACT|2\rFAC|2\rACT|1\rL|1\r";

/// A table as the archive keeps it.
#[derive(Clone)]
struct Archived {
    card: Card,
    segments: Vec<u16>,
    leaves: Vec<u16>,
    text: Vec<u8>,
}

impl Archived {
    /// What the archive has of a table with the owners in force.
    fn of(table: Table<'_>) -> Archived {
        let narrow = |rows: &[u32]| rows.iter().map(|&number| number as u16).collect();
        Archived {
            card: table.card(),
            segments: narrow(table.segment_rows()),
            leaves: narrow(table.leaf_rows()),
            text: table.text().to_vec(),
        }
    }

    /// The same with other owners in some rows.
    fn with_owners(&self, owners: &[(usize, u16)]) -> Archived {
        let mut archived = self.clone();
        for &(row, owner) in owners {
            archived.segments[(row - 1) * 4 + 1] = owner;
        }
        archived
    }

    fn widen<'a>(&self, buffers: &'a mut Buffers) -> Result<Table<'a>, Refusal> {
        buffers.widen(self.card, &self.segments, &self.leaves, &self.text)
    }
}

fn never_read() -> Refusal {
    Refusal {
        number: Number::NeverRead,
        place: 0,
    }
}

#[test]
fn a_table_with_the_owners_in_force_is_widened_to_what_its_message_reads_to() {
    let (mut one, mut two) = (Buffers::new(Form::Small), Buffers::new(Form::Small));
    for message in [SMALL, REPORT, SCREENING, COVERS, ORDERS, INVOICES] {
        let table = one.read(message).unwrap();
        let widened = Archived::of(table).widen(&mut two).unwrap();
        assert_eq!(widened, table);
        assert_eq!(widened.form(), Form::Small);
    }
}

#[test]
fn a_table_with_the_former_owners_is_widened_to_what_its_message_reads_to_now() {
    let (mut one, mut two) = (Buffers::new(Form::Small), Buffers::new(Form::Small));
    let former = [
        (COVERS, &[(6, 5)][..]),
        (ORDERS, &[(5, 4), (8, 4)]),
        (INVOICES, &[(4, 3), (6, 5), (7, 5), (8, 3)]),
    ];
    for (message, owners) in former {
        let table = one.read(message).unwrap();
        let archived = Archived::of(table).with_owners(owners);
        assert_ne!(archived.segments, Archived::of(table).segments);
        assert_eq!(archived.widen(&mut two), Ok(table));
    }
}

#[test]
fn the_order_of_a_patient_with_covers_is_found_under_the_patient() {
    let mut buffers = Buffers::new(Form::Small);
    let archived = Archived::of(buffers.read(COVERS).unwrap()).with_owners(&[(6, 5)]);
    let table = archived.widen(&mut buffers).unwrap();
    assert_eq!(table.card().context, Context::ORA);
    assert_eq!(table.row(row(6)).unwrap().owner(), Some(row(2)));
    assert_eq!(table.children(row(2), Kind::OBR).next(), Some(row(6)));
    assert_eq!(table.children(row(5), Kind::OBR).next(), None);
    assert_eq!(table.to_message(), COVERS);
}

#[test]
fn a_table_with_some_owners_of_both_is_refused() {
    let mut buffers = Buffers::new(Form::Small);
    let orders = Archived::of(buffers.read(ORDERS).unwrap());
    for owners in [&[(5, 4)][..], &[(8, 4)], &[(5, 4), (8, 4), (6, 2)]] {
        let mixed = orders.with_owners(owners);
        assert_eq!(mixed.widen(&mut buffers), Err(never_read()));
    }
    let invoices = Archived::of(buffers.read(INVOICES).unwrap());
    let mixed = invoices.with_owners(&[(4, 3), (6, 5), (7, 4), (8, 3)]);
    assert_eq!(mixed.widen(&mut buffers), Err(never_read()));
    assert_eq!(
        never_read().to_string(),
        "no reader gave the archived table, by the owners in force or by the former ones (refusal 46)"
    );
}

#[test]
fn a_damaged_table_is_refused() {
    let mut buffers = Buffers::new(Form::Small);
    let sound = Archived::of(buffers.read(REPORT).unwrap());
    let mut damaged = vec![sound.clone(); 5];
    damaged[0].text[3] = b'|';
    damaged[1].segments[0] = 2;
    damaged[2].leaves[6] += 1;
    damaged[3].card.leaves += 1;
    damaged[4].text.pop();
    for archived in damaged {
        assert_eq!(archived.widen(&mut buffers), Err(never_read()));
    }
    assert!(sound.widen(&mut buffers).is_ok());
}

#[test]
fn a_refusal_changes_no_new_buffer() {
    let archived = Archived::of(Buffers::new(Form::Small).read(COVERS).unwrap());
    let mixed = archived.with_owners(&[(6, 4)]);
    let (mut text, mut segments, mut leaves) = (
        vec![7; small::TEXT],
        vec![7; small::SEGMENTS],
        vec![7; small::LEAVES],
    );
    let into = |from: &Archived, text: &mut [u8], segments: &mut [u32], leaves: &mut [u32]| {
        let Archived { card, .. } = *from;
        widen(
            card,
            &from.segments,
            &from.leaves,
            &from.text,
            text,
            segments,
            leaves,
        )
        .map(|table| table.card())
    };
    let short = Err(Refusal {
        number: Number::ShortBuffer,
        place: 0,
    });
    for from in [&archived, &mixed] {
        assert_eq!(
            into(from, &mut text[1..], &mut segments, &mut leaves),
            short
        );
        assert_eq!(
            into(from, &mut text, &mut segments[1..], &mut leaves),
            short
        );
        assert_eq!(
            into(from, &mut text, &mut segments, &mut leaves[1..]),
            short
        );
    }
    let refusal = into(&mixed, &mut text, &mut segments, &mut leaves);
    assert_eq!(refusal, Err(never_read()));
    assert!(text.iter().all(|&byte| byte == 7));
    assert!(segments.iter().chain(&leaves).all(|&number| number == 7));

    let card = into(&archived, &mut text, &mut segments, &mut leaves).unwrap();
    assert_eq!(card, archived.card);
    assert!(text[card.text..].iter().all(|&byte| byte == 7));
    assert!(segments[card.segments * 4..]
        .iter()
        .all(|&number| number == 7));
    assert!(leaves[card.leaves * 7..].iter().all(|&number| number == 7));
}

#[test]
fn buffers_of_the_large_form_take_an_archived_table_of_the_small_form() {
    let mut small = Buffers::new(Form::Small);
    let table = small.read(REPORT).unwrap();
    let mut large = Buffers::new(Form::Large);
    let widened = Archived::of(table).widen(&mut large).unwrap();
    assert_eq!((widened, widened.form()), (table, Form::Small));
    let mut output = vec![0; Form::Small.output()];
    assert!(widened.write(&mut output).is_ok());
}
