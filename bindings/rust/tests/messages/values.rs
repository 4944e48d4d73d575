use crate::{row, REPORT};
use sargaceu::{read_value, size, Buffers, Form, Kind, Number, Refusal, Row, Table, Value};

fn value(whole: i64, decimals: u8) -> Value {
    Value::new(whole, decimals).unwrap()
}

fn refused(number: Number) -> Refusal {
    Refusal { number, place: 0 }
}

#[test]
fn a_text_says_a_whole_number_and_decimals() {
    let said = [
        ("0", 0, 0),
        ("7", 7, 0),
        ("007", 7, 0),
        ("+5", 5, 0),
        ("-5", -5, 0),
        (".5", 5, 1),
        ("-.52", -52, 2),
        ("-0.52", -52, 2),
        ("+1.50", 150, 2),
        ("0.0", 0, 1),
        ("-0", 0, 0),
        ("-0.0", 0, 1),
        ("000000000000000", 0, 0),
        ("999999999999999", 999_999_999_999_999, 0),
        ("-9999999.99999999", -999_999_999_999_999, 8),
        (".000000000000001", 1, 15),
    ];
    for (text, whole, decimals) in said {
        assert_eq!(read_value(text.as_bytes()), Ok(value(whole, decimals)));
        assert_eq!(text.parse(), Ok(value(whole, decimals)));
    }
}

#[test]
fn what_is_not_of_the_form_is_no_number() {
    let none = [
        "",
        "+",
        "-",
        ".",
        "-.",
        "5.",
        "+5.",
        "1e5",
        " 1",
        "1 ",
        "1 000",
        "5,6",
        "<3",
        "> 90",
        "1..2",
        "1.2.3",
        "--1",
        "+-1",
        "1-",
        "1+",
        "0x1",
        "neg",
        "1/8",
        "\u{661}",
        "1\0",
        "12345678901234567890x",
        "12345678901234567890.",
    ];
    for text in none {
        assert_eq!(text.parse::<Value>(), Err(refused(Number::NotANumber)));
    }
    for byte in (0..=255).filter(|byte: &u8| !byte.is_ascii_digit()) {
        assert_eq!(read_value(&[byte]), Err(refused(Number::NotANumber)));
        let stands_in_a_number = byte == b'.';
        assert_eq!(read_value(&[b'1', byte, b'2']).is_ok(), stands_in_a_number);
    }
}

#[test]
fn over_15_digits_are_too_many_wherever_they_stand() {
    for text in [
        "1234567890123456",
        "0000000000000000",
        "-1234567890.123456",
        ".0000000000000001",
        "00000000000000.00",
    ] {
        assert_eq!(text.parse::<Value>(), Err(refused(Number::ManyDigits)));
    }
    let long = vec![b'1'; 100_000];
    assert_eq!(read_value(&long), Err(refused(Number::ManyDigits)));
}

#[test]
fn a_value_is_shown_as_its_shortest_text() {
    let shown = [
        (0, 0, "0"),
        (0, 1, ".0"),
        (0, 2, ".00"),
        (5, 1, ".5"),
        (-5, 1, "-.5"),
        (5, 2, ".05"),
        (50, 1, "5.0"),
        (1234, 2, "12.34"),
        (-1234, 0, "-1234"),
        (-1, 15, "-.000000000000001"),
        (-999_999_999_999_999, 7, "-99999999.9999999"),
        (999_999_999_999_999, 15, ".999999999999999"),
    ];
    for (whole, decimals, text) in shown {
        assert_eq!(value(whole, decimals).to_string(), text);
    }
    assert_eq!(
        format!("{:>7}|{:<7}|", value(-52, 2), value(52, 2)),
        "   -.52|.52    |"
    );
    assert_eq!(
        format!(
            "{:+}|{:07}|{:.1}",
            value(52, 1),
            value(-52, 1),
            value(1234, 2)
        ),
        "+5.2|-0005.2|12.34"
    );
}

#[test]
fn what_is_shown_reads_to_the_same_and_nothing_shorter_does() {
    let mut whole: i64 = 1;
    for turn in 0_u8..200 {
        for decimals in 0..=15 {
            let whole = if turn % 2 == 0 { whole } else { -whole };
            let text = value(whole, decimals).to_string();
            assert!(text.len() <= size::VALUE_TEXT);
            assert_eq!(text.parse(), Ok(value(whole, decimals)));
            for at in 0..text.len() {
                let shorter = [&text[..at], &text[at + 1..]].concat();
                assert_ne!(shorter.parse(), Ok(value(whole, decimals)));
            }
        }
        whole = whole * 31 % 999_999_999_999_989;
    }
}

#[test]
fn a_value_that_no_text_says_is_refused() {
    let most = 999_999_999_999_999;
    for whole in [most, -most, 0] {
        assert!(Value::new(whole, 15).is_ok());
        assert_eq!(Value::new(whole, 16), Err(refused(Number::OutOfRange)));
        assert_eq!(Value::new(whole, 255), Err(refused(Number::OutOfRange)));
    }
    for whole in [most + 1, -most - 1, i64::MAX, i64::MIN, i64::MIN + 1] {
        assert_eq!(Value::new(whole, 0), Err(refused(Number::OutOfRange)));
    }
}

#[test]
fn a_text_is_written_at_the_front_and_a_narrow_output_not_touched() {
    let mut output = [7; size::VALUE_TEXT + 1];
    assert_eq!(value(-52, 2).write(&mut output), Ok(4));
    assert_eq!(&output[..4], b"-.52");
    assert!(output[4..].iter().all(|&byte| byte == 7));
    let mut narrow = [7; size::VALUE_TEXT - 1];
    let refusal = Err(refused(Number::NarrowOutput));
    assert_eq!(value(1, 0).write(&mut narrow), refusal);
    assert_eq!(narrow, [7; size::VALUE_TEXT - 1]);
    assert_eq!(value(1, 0).write(&mut []), refusal);
}

/// Two patients: an order with three numeric results among others, one that has no such result, and one under the second patient.
const ORDERS: &[u8] = b"H|~^\\&|||LAB||ORU\rP|1\rOBR|1||A~17\rC|1\rOBX|1|NM|CRP||48.0|mg/L\rC|1|L|NM\rOBX|2|TX|NT||12\r\
    OBX|3|NM|TNI||<.01\rOBX|4|NM|BE||-0.52\rOBR|2||A~18\rOBX|1|TX|NT||7\rOBX|2|nm|NT||7\rOBX|3|NMX|NT||7\rOBX|4||NT||7\rOBX|5\r\
    P|2\rOBR|1||A~19\rOBX|1|NM~x|K||5.6\rL|1\r";

fn values(table: &Table<'_>, order: usize) -> Vec<Result<Value, Refusal>> {
    table.order_values(row(order)).unwrap()
}

#[test]
fn the_values_of_an_order_are_those_of_its_numeric_results_in_row_order() {
    let mut buffers = Buffers::new(Form::Small);
    let table = buffers.read(ORDERS).unwrap();
    let first = [
        Ok(value(480, 1)),
        Err(refused(Number::NotANumber)),
        Ok(value(-52, 2)),
    ];
    assert_eq!(values(&table, 3), first);
    assert_eq!(values(&table, 10), []);
    assert_eq!(values(&table, 17), [Ok(value(56, 1))]);
}

#[test]
fn a_value_that_is_not_one_leaf_is_no_number() {
    let mut buffers = Buffers::new(Form::Small);
    let results = [
        "|NM",
        "|NM|K|",
        "|NM|K||",
        "|NM|K||5~6",
        "|NM|K||5^6",
        "|NM|K||5&6",
        "|NM|K||~5",
        "|NM|K||5~",
        "|NM|K||1234567890123456",
        "|NM|K||5",
        "|NM|K~x^y||5|1~2",
    ];
    let message = format!(
        "H|~^\\&|||LAB||ORU\rP|1\rOBR|1\rOBX|{}\rL|1\r",
        results.join("\rOBX|")
    );
    let table = buffers.read(message.as_bytes()).unwrap();
    let mut expected = vec![Err(refused(Number::NotANumber)); 8];
    expected.extend([
        Err(refused(Number::ManyDigits)),
        Ok(value(5, 0)),
        Ok(value(5, 0)),
    ]);
    assert_eq!(values(&table, 3), expected);
}

#[test]
fn a_row_that_is_no_order_is_refused() {
    let mut buffers = Buffers::new(Form::Small);
    let table = buffers.read(ORDERS).unwrap();
    let orders: Vec<Row> = table
        .rows()
        .filter(|segment| segment.kind() == Kind::OBR)
        .map(|segment| segment.row())
        .collect();
    assert_eq!(orders, [row(3), row(10), row(17)]);
    for number in (1..=table.card().segments + 1).chain([65535]) {
        let order = row(number);
        let refusal = table.order_values(order).err();
        let expected = (!orders.contains(&order)).then(|| refused(Number::NotAnOrder));
        assert_eq!(refusal, expected);
    }
}

#[test]
fn all_results_that_a_table_has_room_for_are_given() {
    for form in Form::ALL {
        let mut buffers = Buffers::new(form);
        let results = form.values() as i64 - 4;
        let mut message = b"H|~^\\&|||LAB||ORU\rP|1\rOBR|1\r".to_vec();
        for number in 0..results {
            message.extend(format!("OBX|{number}|NM|K||{number}.0\r").bytes());
        }
        message.extend(b"L|1\r");
        let table = buffers.read(&message).unwrap();
        assert_eq!(table.card().segments, form.values());
        let expected: Vec<_> = (0..results)
            .map(|number| Ok(value(number * 10, 1)))
            .collect();
        assert_eq!(values(&table, 3), expected);
    }
}

#[test]
fn a_value_is_what_its_leaf_says() {
    let mut buffers = Buffers::new(Form::Small);
    let table = buffers.read(REPORT).unwrap();
    let mut told = Vec::new();
    for order in table.rows().filter(|segment| segment.kind() == Kind::OBR) {
        let results = table.children(order.row(), Kind::OBX);
        let numeric = results.filter(|result| table.leaf(result.field(3)).text_or(b"") == b"NM");
        let by_leaves: Vec<_> = numeric
            .map(|result| read_value(table.leaf(result.field(6)).text_or(b"")))
            .collect();
        assert_eq!(table.order_values(order.row()), Ok(by_leaves.clone()));
        told.extend(by_leaves);
    }
    assert_eq!(told, [Ok(value(98, 2)), Ok(value(56, 1))]);
}
