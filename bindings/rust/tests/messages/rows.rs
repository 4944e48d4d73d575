use crate::{leaves, row, segments, REPORT, SMALL};
use sargaceu::{Buffers, Form, Kind, Row};

#[test]
fn a_row_says_its_kind_owner_and_leaves() {
    let mut buffers = Buffers::new(Form::Small);
    let table = buffers.read(SMALL).unwrap();
    let result = table.row(row(4)).unwrap();
    assert_eq!(result.row(), row(4));
    assert_eq!(result.kind(), Kind::OBX);
    assert_eq!(result.owner(), Some(row(3)));
    assert_eq!(result.leaf_range(), 17..23);
    assert_eq!(result.leaves().len(), result.leaf_range().len());
    assert_eq!(table.row(row(5)).unwrap().owner(), None);
    assert!(table.row(row(6)).is_none());
    assert!(table.row(row(65535)).is_none());
}

#[test]
fn all_rows_are_the_segments_of_the_message() {
    let mut buffers = Buffers::new(Form::Small);
    for message in [SMALL, REPORT] {
        let table = buffers.read(message).unwrap();
        let segments = segments(message);
        assert_eq!(table.rows().len(), segments.len());
        let mut next_leaf = 1;
        for (segment, text) in table.rows().zip(&segments) {
            let kind = segment.kind().to_string();
            assert!(text.starts_with(kind.as_bytes()));
            assert_eq!(segment.leaf_range(), next_leaf..next_leaf + leaves(text));
            next_leaf = segment.leaf_range().end;
            let owner = segment.owner();
            assert_eq!(
                owner.is_none(),
                [Kind::H, Kind::L].contains(&segment.kind())
            );
            assert!(owner < Some(segment.row()));
        }
        assert_eq!(next_leaf, table.card().leaves + 1);
        let forward: Vec<Row> = table.rows().map(|segment| segment.row()).collect();
        let mut backward: Vec<Row> = table.rows().rev().map(|segment| segment.row()).collect();
        backward.reverse();
        assert_eq!(forward, backward);
    }
}

#[test]
fn rows_are_found_by_kind_and_owner() {
    let mut buffers = Buffers::new(Form::Small);
    let table = buffers.read(SMALL).unwrap();
    assert_eq!(
        table.next_row(None, Kind::P, Some(Row::FIRST)),
        Some(row(2))
    );
    assert_eq!(table.next_row(None, Kind::OBX, Some(row(3))), Some(row(4)));
    assert_eq!(table.next_row(Some(row(4)), Kind::OBX, Some(row(3))), None);
    assert_eq!(table.next_row(None, Kind::OBX, Some(row(2))), None);
    assert_eq!(table.next_row(None, Kind::H, None), Some(Row::FIRST));
    assert_eq!(table.next_row(None, Kind::L, None), Some(row(5)));
    assert_eq!(
        table.next_row(Some(row(65535)), Kind::P, Some(Row::FIRST)),
        None
    );
}

#[test]
fn every_owned_row_is_one_of_the_children_of_its_owner() {
    let mut buffers = Buffers::new(Form::Small);
    for message in [SMALL, REPORT] {
        let table = buffers.read(message).unwrap();
        let mut found = 0;
        for owner in table.rows() {
            for kind in Kind::ALL {
                let children: Vec<Row> = table.children(owner.row(), kind).collect();
                let owned = table
                    .rows()
                    .filter(|segment| segment.kind() == kind)
                    .filter(|segment| segment.owner() == Some(owner.row()))
                    .map(|segment| segment.row());
                assert!(owned.eq(children.iter().copied()));
                found += children.len();
            }
        }
        let owned = table.rows().filter(|segment| segment.owner().is_some());
        assert_eq!(found, owned.count());
    }
}

#[test]
fn children_that_are_over_stay_over() {
    let mut buffers = Buffers::new(Form::Small);
    let table = buffers.read(SMALL).unwrap();
    let mut patients = table.children(Row::FIRST, Kind::P);
    assert_eq!(patients.next(), Some(row(2)));
    assert_eq!(patients.next(), None);
    assert_eq!(patients.next(), None);
    assert_eq!(table.children(row(65535), Kind::P).count(), 0);
}
