//! Whatever is given, every call returns, and what is accepted is whole.

use crate::{REPORT, SMALL};
use sargaceu::{lines, Buffers, Card, Form, Number, Table};

/// Numbers that look random and are the same in every run.
pub struct Numbers(pub u64);

impl Numbers {
    pub fn below(&mut self, bound: usize) -> usize {
        self.0 = self
            .0
            .wrapping_mul(6364136223846793005)
            .wrapping_add(1442695040888963407);
        (self.0 >> 33) as usize % bound
    }
}

/// A message of which one to three bytes were changed, put in or left out.
pub fn damaged(message: &[u8], numbers: &mut Numbers) -> Vec<u8> {
    let mut message = message.to_vec();
    for _ in 0..=numbers.below(3) {
        let at = numbers.below(message.len());
        match numbers.below(3) {
            0 => message[at] = b"|~^&\r\nAHP1x\xe9"[numbers.below(12)],
            1 => message.insert(at, b"|~^&\r\nAHP1x\xe9"[numbers.below(12)]),
            _ => drop(message.remove(at)),
        }
    }
    message
}

/// All rows and leaves that a table counts are there, its message reads to it in both forms, and it is screened.
fn is_whole(table: &Table<'_>, others: &mut [Buffers; 2]) {
    assert_eq!(table.rows().count(), table.card().segments);
    assert_eq!(table.leaves().count(), table.card().leaves);
    let by_rows = table.rows().flat_map(|segment| segment.leaves());
    assert_eq!(by_rows.count(), table.card().leaves);
    for other in others {
        assert_eq!(other.read(&table.to_message()), Ok(*table));
    }
    let row = table.screen().map_or_else(|refusal| refusal.place, |()| 0);
    assert!(row <= table.card().segments);
}

#[test]
fn any_message_is_read_to_a_whole_table_or_refused() {
    let mut numbers = Numbers(1);
    let mut buffers = Buffers::new(Form::Small);
    let mut others = Form::ALL.map(Buffers::new);
    let (mut accepted, mut refused) = (0, 0);
    for turn in 0..4000 {
        let message = damaged(if turn % 2 == 0 { SMALL } else { REPORT }, &mut numbers);
        assert!(lines(&message).count() <= message.len());
        match buffers.read(&message) {
            Ok(table) => {
                is_whole(&table, &mut others);
                accepted += 1;
            }
            Err(refusal) => {
                assert!(refusal.place <= message.len());
                refused += 1;
            }
        }
    }
    assert!(accepted > 0 && refused > 0);
}

#[test]
fn any_numbers_are_a_whole_table_or_refused() {
    let mut numbers = Numbers(2);
    let mut buffers = Buffers::new(Form::Small);
    let mut others = Form::ALL.map(Buffers::new);
    let table = buffers.read(REPORT).unwrap();
    let (mut taken, mut refused) = (0, 0);
    for _ in 0..4000 {
        let mut segments = table.segment_rows().to_vec();
        let mut leaves = table.leaf_rows().to_vec();
        let mut text = table.text().to_vec();
        let mut card = table.card();
        let number = [0, 1, 2, 65535, 65537, numbers.below(256)][numbers.below(6)];
        let at = numbers.below(1 << 20);
        let rows = [segments.len(), leaves.len(), text.len()];
        match numbers.below(4) {
            0 => segments[at % rows[0]] = number as u32,
            1 => leaves[at % rows[1]] = number as u32,
            2 => text[at % rows[2]] = number as u8,
            _ => {
                card = Card {
                    segments: [card.segments, number][at % 2],
                    leaves: [card.leaves, usize::MAX - number][at / 2 % 2],
                    ..card
                }
            }
        }
        match Table::new(Form::Small, card, &segments, &leaves, &text) {
            Ok(table) => {
                is_whole(&table, &mut others);
                taken += 1;
            }
            Err(refusal) => {
                assert_eq!((refusal.number, refusal.place), (Number::NoTable, 0));
                refused += 1;
            }
        }
    }
    assert!(taken > 0 && refused > 0);
}
