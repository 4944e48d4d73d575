//! The index by analysis code over several messages, and what is refused for it.

use crate::{segments, REPORT, SCREENING, SCREENING_REFUSED, SMALL};
use sargaceu::size::{INDEX_CODES_MOST, INDEX_PLACE};
use sargaceu::{Buffers, Form, Index, Number, Refusal, Tally};
use std::collections::BTreeMap;

/// The codes of a message whose separators are the usual ones, found by hand: what stands before the first `~`, `^` or `&` of field 4 of each OBX.
fn codes(message: &[u8]) -> Vec<Vec<u8>> {
    let results = segments(message)
        .into_iter()
        .filter(|segment| segment.starts_with(b"OBX|"));
    let code = |segment: Vec<u8>| -> Option<Vec<u8>> {
        let field = segment.split(|&byte| byte == b'|').nth(3)?;
        let leaf = field.split(|byte| b"~^&".contains(byte)).next()?;
        (!leaf.is_empty()).then(|| leaf.to_vec())
    };
    results.filter_map(code).collect()
}

/// A report with one result for each code.
fn report(codes: &[&str]) -> Vec<u8> {
    let mut message = b"H|~^\\&|||LAB||ORU\rP|1\rOBR|1\r".to_vec();
    for code in codes {
        message.extend(format!("OBX|1|NM|{code}||1\r").bytes());
    }
    message.extend(b"L|1\r");
    message
}

#[test]
fn a_history_of_messages_is_counted() {
    let (mut buffers, mut index, mut tally) =
        (Buffers::new(Form::Small), Index::new(), Tally::default());
    let mut counted: BTreeMap<Vec<u8>, u32> = BTreeMap::new();
    let history = [REPORT, SCREENING, SMALL, SCREENING_REFUSED, REPORT];
    let mut rows = 0;
    for message in history {
        let table = buffers
            .read_indexed(message, &mut index, &mut tally)
            .unwrap();
        rows += table.card().segments;
        for code in codes(message) {
            *counted.entry(code).or_default() += 1;
        }
    }
    assert!(index
        .iter()
        .eq(counted.iter().map(|(code, &count)| (&code[..], count))));
    assert_eq!(index.codes(), counted.len());
    for (code, &count) in &counted {
        assert_eq!(index.count(code), Some(count));
    }
    let results: u32 = counted.values().sum();
    assert_eq!(
        (tally.messages, tally.segments as usize, tally.results),
        (5, rows, results)
    );
    assert_eq!(index.count(b"GL"), None);
    assert_eq!(index.count(b""), None);
    assert_eq!(index.count(&[b'A'; 23]), None);
    assert_eq!(index.code(0), None);
    assert_eq!(index.code(counted.len() + 1), None);
    assert_eq!(index.code(usize::MAX), None);
}

#[test]
fn results_without_a_code_are_not_counted() {
    let (mut buffers, mut index, mut tally) =
        (Buffers::new(Form::Large), Index::new(), Tally::default());
    let message =
        b"H|~^\\&|||LAB||ORU\rP|1\rOBR|1\rOBX|1|NM\rOBX|2|NM|~A||1\rOBX|3|NM|^B||1\rOBX|4|NM|C&D~E^F||1\rL|1\r";
    buffers
        .read_indexed(message, &mut index, &mut tally)
        .unwrap();
    assert!(index.iter().eq([(&b"C"[..], 1)]));
    assert_eq!(
        tally,
        Tally {
            messages: 1,
            segments: 8,
            results: 1
        }
    );
}

/// What is refused, and that index, tally and buffers stay as they were.
fn refused(message: &[u8], index: &Index, tally: Tally) -> Refusal {
    let mut buffers = Buffers::new(Form::Small);
    let (mut after, mut tally_after) = (index.clone(), tally);
    let refusal = buffers
        .read_indexed(message, &mut after, &mut tally_after)
        .unwrap_err();
    assert_eq!(after.places(), index.places());
    assert_eq!(after.counts(), index.counts());
    assert_eq!(tally_after, tally);
    refusal
}

#[test]
fn a_refused_message_counts_nothing() {
    let long = "A".repeat(23);
    let most = "A".repeat(22);
    let (mut buffers, mut index, mut tally) =
        (Buffers::new(Form::Small), Index::new(), Tally::default());
    let refusal = refused(&report(&["GLY", &most, &long, "K"]), &index, tally);
    assert_eq!((refusal.number, refusal.place), (Number::LongCode, 6));
    let refusal = refused(&REPORT[..REPORT.len() - 1], &index, tally);
    assert_eq!(refusal.number, Number::OpenLine);

    for hundreds in 0..3 {
        let names: Vec<String> = (0..200)
            .map(|k| format!("{:03}", 200 * hundreds + k))
            .collect();
        let names: Vec<&str> = names.iter().map(String::as_str).collect();
        let room = INDEX_CODES_MOST - index.codes();
        if names.len() > room {
            let refusal = refused(&report(&names), &index, tally);
            assert_eq!((refusal.number, refusal.place), (Number::FullIndex, 0));
        }
        buffers
            .read_indexed(
                &report(&names[..names.len().min(room)]),
                &mut index,
                &mut tally,
            )
            .unwrap();
    }
    assert_eq!(index.codes(), INDEX_CODES_MOST);
    // a code that is named needs no place
    buffers
        .read_indexed(&report(&["511", "000"]), &mut index, &mut tally)
        .unwrap();
    assert_eq!(index.count(b"511"), Some(2));
    let refusal = refused(&report(&["511", "512"]), &index, tally);
    assert_eq!(refusal.number, Number::FullIndex);
}

#[test]
fn a_count_stops_before_it_passes_32_bits() {
    let mut counts = Index::new().counts().to_vec();
    let mut places = Index::new().places().to_vec();
    places[..4].copy_from_slice(b"\x03GLY");
    counts[..2].copy_from_slice(&[1, u32::MAX - 1]);
    let (mut buffers, mut index, mut tally) = (
        Buffers::new(Form::Small),
        Index::stored(&places, &counts).unwrap(),
        Tally::default(),
    );
    buffers.read_indexed(SMALL, &mut index, &mut tally).unwrap();
    assert_eq!(index.count(b"GLY"), Some(u32::MAX));
    let refusal = refused(SMALL, &index, tally);
    assert_eq!((refusal.number, refusal.place), (Number::FullCount, 0));
    for tally in [
        Tally {
            messages: u32::MAX,
            ..tally
        },
        Tally {
            segments: u32::MAX - 4,
            ..tally
        },
        Tally {
            results: u32::MAX,
            ..tally
        },
    ] {
        assert_eq!(
            refused(SMALL, &Index::new(), tally).number,
            Number::FullCount
        );
    }
}

#[test]
fn a_stored_index_is_judged_before_it_is_taken() {
    let (mut buffers, mut index, mut tally) =
        (Buffers::new(Form::Small), Index::new(), Tally::default());
    buffers
        .read_indexed(REPORT, &mut index, &mut tally)
        .unwrap();
    let taken = Index::stored(index.places(), index.counts()).unwrap();
    assert!(taken.iter().eq(index.iter()));

    let damaged = |at: usize, byte: u8| {
        let mut places = index.places().to_vec();
        places[at] = byte;
        Index::stored(&places, index.counts()).map(|_| ())
    };
    let none = Err(Refusal {
        number: Number::NoIndex,
        place: 0,
    });
    assert_eq!(damaged(0, 0), none);
    assert_eq!(damaged(0, 23), none);
    assert_eq!(damaged(1, b'Z'), none); // CR, GLY, K: the first would be the last
    assert_eq!(damaged(index.codes() * INDEX_PLACE, 99), Ok(())); // past the named codes
    let mut counts = index.counts().to_vec();
    counts[0] = 513;
    assert!(Index::stored(index.places(), &counts).is_err());
    assert!(Index::stored(index.places(), &counts[..512]).is_err());
}
