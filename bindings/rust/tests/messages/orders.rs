use crate::row;
use sargaceu::{Buffers, Form, Sought};

#[test]
fn orders_are_the_same_by_their_number() {
    let (mut one, mut two) = (Buffers::new(Form::Small), Buffers::new(Form::Small));
    let asked = one
        .read(b"H|~^\\&|||LAB||ORM\rP|1\rOBR|1||A~17\rL|1\r")
        .unwrap();
    let done = two
        .read(b"H|~^\\&|||LAB||ORU\rP|1\rOBR|1||B~18\rOBX|1\rOBR|2||B~17\rOBX|1\rL|1\r")
        .unwrap();
    assert!(asked.same_order(row(3), &done, row(5)));
    assert!(done.same_order(row(5), &asked, row(3)));
    assert!(asked.same_order(row(3), &asked, row(3)));
    assert!(!asked.same_order(row(3), &done, row(3)));
    assert!(!asked.same_order(row(2), &done, row(5)));
    assert!(!asked.same_order(row(3), &done, row(65535)));
}

#[test]
fn an_order_without_a_number_is_not_the_same_as_itself() {
    let mut buffers = Buffers::new(Form::Small);
    let table = buffers
        .read(b"H|~^\\&|||LAB||ORM\rP|1\rOBR|1||A\rL|1\r")
        .unwrap();
    assert!(!table.same_order(row(3), &table, row(3)));
}

#[test]
fn two_orders_whose_number_was_sent_empty_are_not_the_same() {
    let (mut one, mut two) = (Buffers::new(Form::Small), Buffers::new(Form::Small));
    let message = b"H|~^\\&|||LAB||ORM\rP|1\rOBR|1||A~\rOBR|2||A~\rOBR|3||A~7\rL|1\r";
    let table = one.read(message).unwrap();
    let again = two.read(message).unwrap();
    assert_eq!(table.leaf(row(3).field(4).subfield(2)), Sought::Empty);
    assert!(!table.same_order(row(3), &table, row(3)));
    assert!(!table.same_order(row(3), &table, row(4)));
    assert!(!table.same_order(row(3), &again, row(3)));
    assert!(!table.same_order(row(3), &again, row(5)));
    assert!(table.same_order(row(5), &again, row(5)));
}
