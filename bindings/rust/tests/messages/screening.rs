use crate::{row, segments, SCREENING, SCREENING_REFUSED};
use sargaceu::{lines, Buffers, Context, Form, Kind, Number, Refusal};

/// Two patients that meet all rules in few fields; the codes of the second stand under two orders.
const SOUND: &str = "H|~^\\&|||LAB||ORU\r\
    P|1||||MARTIN~ANNE|LEROY||||~~~~99120||0639980114\r\
    OBR|1||A~17||||202603060905\r\
    OBX|1|CE|94500-6~~LN||N\r\
    OBX|2|CE|PAYS||FR\r\
    OBX|3|CE|TYPOR||I\r\
    OBX|4|CE|PROSS||N\r\
    OBX|5|ST|FINGE||25\r\
    P|2||||DURAND~PAUL|BLANC||||~~~~99130||0639980115\r\
    OBR|1||A~18||||202603060955\r\
    OBX|1|CE|GCOV2~~L~94500-6~~LN||P\r\
    OBX|2|CE|TYPOR||E\r\
    OBX|3|ST|FINGE||26\r\
    OBR|2||A~19||||202603060956\r\
    OBX|1|CE|PAYS||BE\r\
    OBX|2|CE|PROSS||U\r\
    L|1\r";

/// The sound message with other texts in the place of some, each of which stands there once.
fn with(changes: &[(&str, &str)]) -> String {
    changes
        .iter()
        .fold(SOUND.into(), |message: String, (from, to)| {
            assert_eq!(message.matches(from).count(), 1, "{from}");
            message.replace(from, to)
        })
}

fn verdict(message: &str) -> Result<(), Refusal> {
    Buffers::new(Form::Small)
        .read(message.as_bytes())
        .unwrap()
        .screen()
}

fn no(number: Number, place: usize) -> Result<(), Refusal> {
    Err(Refusal { number, place })
}

#[test]
fn a_report_that_meets_all_rules_passes() {
    assert_eq!(verdict(SOUND), Ok(()));
    let mut buffers = Buffers::new(Form::Small);
    assert_eq!(buffers.read(SCREENING).unwrap().screen(), Ok(()));
}

#[test]
fn the_row_of_a_no_is_that_of_the_joined_segment() {
    let mut buffers = Buffers::new(Form::Small);
    let table = buffers.read(SCREENING_REFUSED).unwrap();
    let is_home =
        |text: &[u8]| text.starts_with(b"OBX") && text.windows(4).any(|part| part == b"||M~");
    let before = segments(SCREENING_REFUSED)
        .iter()
        .position(|segment| is_home(segment));
    let place = before.unwrap() + 1;
    assert_eq!(table.screen(), no(Number::WrongTypor, place));
    // a segment before it takes two lines
    let line = lines(SCREENING_REFUSED).position(|line| is_home(line.unwrap().bytes()));
    assert_eq!(line, Some(place));

    let result = table.row(row(place)).unwrap();
    assert_eq!(result.kind(), Kind::OBX);
    assert_eq!(table.leaf(result.row().field(6)).text(), Some(&b"M"[..]));
    assert_eq!(
        table.screen().unwrap_err().to_string(),
        "a TYPOR has none of the values I, H, E, C, A, U, at row 16 (refusal 43)"
    );
}

/// A rule fails where one of two rows has another text in the place of a field, and in the first of them where both have.
fn fails_without(number: Number, fields: [(usize, &str); 2], missing: &[&str]) {
    let [(first, one), (last, other)] = fields;
    for without in missing {
        let changes = [(one, *without), (other, *without)];
        assert_eq!(verdict(&with(&changes[..1])), no(number, first));
        assert_eq!(verdict(&with(&changes[1..])), no(number, last));
        assert_eq!(verdict(&with(&changes)), no(number, first));
    }
}

#[test]
fn a_field_must_be_there_and_not_empty_in_every_row_of_its_kind() {
    let names = [(2, "MARTIN~ANNE"), (9, "DURAND~PAUL")];
    let missing = ["", "~ANNE", "&MARTIN~ANNE", "^MARTIN~ANNE"];
    fails_without(Number::NoName, names, &missing);
    let missing = ["MARTIN", "MARTIN~", "MARTIN&ANNE", "MARTIN^X~ANNE"];
    fails_without(Number::NoFirstName, names, &missing);
    let births = [(2, "LEROY"), (9, "BLANC")];
    fails_without(Number::NoBirthName, births, &["", "~X", "^X", "&X"]);
    let telephones = [(2, "||0639980114"), (9, "||0639980115")];
    let missing = ["", "|", "||", "||^06", "||~06", "|06"];
    fails_without(Number::NoTelephone, telephones, &missing);
    let addresses = [(2, "~~~~99120"), (9, "~~~~99130")];
    let missing = ["", "~~~~", "~~~99", "~~~~~99", "~~~~&99", "^~~~~99"];
    fails_without(Number::NoPostalCode, addresses, &missing);
    let orders = [(3, "A~17"), (14, "A~19")];
    let missing = ["", "A", "A~", "17", "A&17", "A^B~17"];
    fails_without(Number::NoOrderNumber, orders, &missing);
    let times = [(3, "||||202603060905"), (14, "||||202603060956")];
    let missing = ["", "||||", "||||^2026", "||||~2026", "|||2026"];
    fails_without(Number::NoSampleTime, times, &missing);
    for without in ["|||||", "|||~LAB||", "|||&LAB||", "|||^LAB||"] {
        let message = with(&[("|||LAB||", without)]);
        assert_eq!(verdict(&message), no(Number::NoLaboratory, 1));
    }
}

#[test]
fn what_stands_behind_the_leaf_does_not_matter() {
    let more = with(&[
        ("LEROY", "LEROY~X"),
        ("0639980114", "0639980114^0536490114"),
        ("MARTIN~ANNE", "MARTIN&X~ANNE&Y~Z"),
        ("|||LAB||", "|||LAB~NAME||"),
    ]);
    assert_eq!(verdict(&more), Ok(()));
}

#[test]
fn each_patient_has_each_code_once() {
    let codes = [
        (Number::NotOnePays, "PAYS||FR", "PAYS||BE"),
        (Number::NotOneTypor, "TYPOR||I", "TYPOR||E"),
        (Number::NotOnePross, "PROSS||N", "PROSS||U"),
        (Number::NotOneFinge, "FINGE||25", "FINGE||26"),
    ];
    for (number, first, last) in codes {
        let twice = |result: &str| format!("{result}\rOBX|9|CE|{result}");
        for (text, place) in [(first, 2), (last, 9)] {
            let lower = text.to_lowercase();
            let [code, value] = [0, 1].map(|part| text.split("||").nth(part).unwrap());
            for none in [
                "XXXX||FR".into(),
                lower,
                format!("{code} ||{value}"),
                format!("{code}X||{value}"),
                format!("~{code}||{value}"),
                format!("^{code}||{value}"),
                format!("X~~L~{code}||{value}"),
            ] {
                let message = with(&[(text, &none)]);
                assert_eq!(verdict(&message), no(number, place), "{none}");
            }
            assert_eq!(verdict(&with(&[(text, &twice(text))])), no(number, place));
        }
        // that of another patient does not count
        let moved = with(&[(first, "XXXX"), (last, &twice(last))]);
        assert_eq!(verdict(&moved), no(number, 2));
        let moved = with(&[(first, &twice(first)), (last, "XXXX")]);
        assert_eq!(verdict(&moved), no(number, 2));
    }
}

#[test]
fn two_of_a_code_under_two_orders_of_one_patient_are_two() {
    let message = with(&[("OBX|2|CE|TYPOR||E", "OBX|2|CE|PAYS||BE\rOBX|2|CE|TYPOR||E")]);
    assert_eq!(verdict(&message), no(Number::NotOnePays, 9));
    // a comment is no result
    let message = with(&[("OBX|2|CE|TYPOR||E", "OBX|2|CE|TYPOR||E\rC|2|CE|PAYS||BE")]);
    assert_eq!(verdict(&message), Ok(()));
}

#[test]
fn a_value_is_one_of_those_that_its_code_allows() {
    let values = [
        (Number::WrongTypor, "TYPOR||I", 6, "IHECAU"),
        (Number::WrongPross, "PROSS||N", 7, "ONU"),
        (Number::WrongResult, "94500-6~~LN||N", 4, "PNIX"),
    ];
    for (number, text, place, allowed) in values {
        let code = text.split("||").next().unwrap();
        for letter in 'A'..='Z' {
            let message = with(&[(text, &format!("{code}||{letter}~words"))]);
            let expected = if allowed.contains(letter) {
                Ok(())
            } else {
                no(number, place)
            };
            assert_eq!(verdict(&message), expected);
        }
        let good = &allowed[..1];
        for wrong in [
            "".into(),
            "|".into(),
            "||".into(),
            format!("||{}", good.to_lowercase()),
            format!("||{allowed}"),
            format!("||{good} "),
            format!("||~{good}"),
            format!("||^{good}"),
            format!("||&{good}"),
            format!("|||{good}"),
        ] {
            let message = with(&[(text, &format!("{code}{wrong}"))]);
            assert_eq!(verdict(&message), no(number, place), "{wrong}");
        }
    }
}

#[test]
fn a_result_is_judged_where_its_type_is_ce_and_one_of_its_tables_ln() {
    let result = |result: &str| verdict(&with(&[("CE|94500-6~~LN||N", result)]));
    for judged in [
        "CE|94500-6~~LN||T",
        "CE|X~~L~94500-6~~LN||T",
        "CE|X~~LN~Y~~LN||T",
        "CE~Z|94500-6~~LN&Z||T",
        "CE|~~LN",
    ] {
        assert_eq!(result(judged), no(Number::WrongResult, 4));
    }
    for free in [
        "ST|94500-6~~LN||T",
        "ce|94500-6~~LN||T",
        "CEX|94500-6~~LN||T",
        "|94500-6~~LN||T",
        "CE|94500-6~~L||T",
        "CE|94500-6~LN||T",
        "CE|94500-6~~ln||T",
        "CE|94500-6~~LNX||T",
        "CE|X~~L~LN||T",
        "CE|X^~~LN||T",
        "CE|X",
        "CE",
    ] {
        assert_eq!(result(free), Ok(()), "{free}");
    }
    // a pseudo-analysis of the table LN meets both rules, and one of another type its own
    let lives = |result: &str| verdict(&with(&[("CE|TYPOR||I", result)]));
    assert_eq!(lives("CE|TYPOR~~LN||I"), Ok(()));
    assert_eq!(lives("CE|TYPOR~~LN||H"), no(Number::WrongResult, 6));
    assert_eq!(lives("CE|TYPOR~~LN||N"), no(Number::WrongTypor, 6));
    assert_eq!(lives("ST|TYPOR~~LN||H"), Ok(()));
    assert_eq!(lives("ST|TYPOR||X"), no(Number::WrongTypor, 6));
}

#[test]
fn the_lowest_rule_comes_before_the_first_row() {
    let mut changes = vec![("94500-6~~LN||N", "94500-6~~LN||T")];
    assert_eq!(verdict(&with(&changes)), no(Number::WrongResult, 4));
    changes.push(("PROSS||U", "PROSS||X"));
    assert_eq!(verdict(&with(&changes)), no(Number::WrongPross, 16));
    changes.push(("TYPOR||E", "TYPOR||X"));
    assert_eq!(verdict(&with(&changes)), no(Number::WrongTypor, 12));
    changes.push(("FINGE||26", "FINGER||26"));
    assert_eq!(verdict(&with(&changes)), no(Number::NotOneFinge, 9));
    changes.push(("|||LAB||", "|||||"));
    assert_eq!(verdict(&with(&changes)), no(Number::NoLaboratory, 1));
    changes.push(("A~19", "A"));
    assert_eq!(verdict(&with(&changes)), no(Number::NoOrderNumber, 14));
    changes.push(("BLANC", ""));
    assert_eq!(verdict(&with(&changes)), no(Number::NoBirthName, 9));
    changes.push(("DURAND~PAUL", "DURAND"));
    assert_eq!(verdict(&with(&changes)), no(Number::NoFirstName, 9));
    changes.push(("MARTIN~ANNE", "MARTIN"));
    assert_eq!(verdict(&with(&changes)), no(Number::NoFirstName, 2));
    changes.push(("|ORU", "|ORM"));
    assert_eq!(verdict(&with(&changes)), no(Number::NotAReport, 0));
}

#[test]
fn what_is_no_oru_is_no_report() {
    let refused = verdict(&with(&[("|ORU", "|ORM")]));
    assert_eq!(refused, no(Number::NotAReport, 0));
    assert_eq!(
        refused.unwrap_err().to_string(),
        "the message is no ORU (refusal 30)"
    );
    let bodies = [
        (Context::ADM, "P"),
        (Context::ORM, "P\rOBR"),
        (Context::ORA, "P\rAP\rOBR"),
        (Context::REG, "P\rREG"),
        (Context::ERR, "ERR"),
        (Context::ORU, "P\rOBR\rOBX"),
        (Context::FAC, "P\rFAC"),
    ];
    for (context, body) in bodies {
        let expected = match context {
            Context::ORU => no(Number::NoName, 2),
            _ => no(Number::NotAReport, 0),
        };
        let message = format!("H|~^\\&|||LAB||{context}\r{body}\rL\r");
        assert_eq!(verdict(&message), expected);
    }
}

#[test]
fn the_separators_are_those_of_the_header() {
    let other = |byte| match byte {
        '|' => '!',
        '~' => '^',
        '^' => '~',
        '&' => '|',
        other => other,
    };
    let turned = |message: &str| message.chars().map(other).collect::<String>();
    assert_eq!(verdict(&turned(SOUND)), Ok(()));
    let message = with(&[("A~17", "A^17")]);
    assert_eq!(verdict(&turned(&message)), no(Number::NoOrderNumber, 3));
}
