use sargaceu::{version, Context, Form, Kind, Number, Row, Unknown, VERSION};

#[test]
fn kinds_go_by_name_and_number() {
    for (kind, number) in Kind::ALL.into_iter().zip(1_u8..) {
        assert_eq!(u8::from(kind), number);
        assert_eq!(u16::from(kind), number.into());
        assert_eq!(Kind::try_from(number), Ok(kind));
        assert_eq!(u32::from(kind), number.into());
        assert_eq!(Kind::try_from(u16::from(number)), Ok(kind));
        assert_eq!(Kind::try_from(u32::from(number)), Ok(kind));
        assert_eq!(kind.to_string().parse(), Ok(kind));
    }
    let numbers = (0..=u16::MAX).filter_map(|number| Kind::try_from(number).ok());
    assert!(numbers.eq(Kind::ALL));
    assert!(Kind::try_from(65536_u32 + 6).is_err());
    for name in ["", "h", "A", "OBXX", " P"] {
        assert!(name.parse::<Kind>().is_err());
    }
    assert_eq!(format!("{:>4}|", Kind::AP), "  AP|");
}

#[test]
fn contexts_go_by_name_and_number() {
    for (context, number) in Context::ALL.into_iter().zip(1_u8..) {
        assert_eq!(u8::from(context), number);
        assert_eq!(Context::try_from(number), Ok(context));
        assert_eq!(Context::try_from(u16::from(number)), Ok(context));
        assert_eq!(Context::try_from(u32::from(number)), Ok(context));
        assert_eq!(context.to_string().parse(), Ok(context));
    }
    let numbers = (0..=u16::MAX).filter_map(|number| Context::try_from(number).ok());
    assert!(numbers.eq(Context::ALL));
    assert!(Context::try_from(65536_u32 + 6).is_err());
    for name in ["", "oru", "H", "ORU "] {
        assert!(name.parse::<Context>().is_err());
    }
}

#[test]
fn every_number_that_comes_back_has_a_sentence_of_its_own() {
    let numbers = (0..=u8::MAX).filter_map(|number| Number::try_from(number).ok());
    let mut sentences: Vec<String> = numbers.clone().map(|number| number.to_string()).collect();
    assert!(numbers
        .map(u8::from)
        .eq((1..14).chain(20..26).chain(30..47).chain(50..54)));
    sentences.sort();
    sentences.dedup();
    assert_eq!(sentences.len(), 40);
}

#[test]
fn forms_go_by_number() {
    assert_eq!(Form::ALL.map(u8::from), [0, 1]);
    assert!(Form::Small < Form::Large);
}

#[test]
fn the_archive_is_of_the_version_that_the_crate_is_for() {
    assert_eq!(version(), VERSION);
}

#[test]
fn rows_count_from_1() {
    assert_eq!(Row::new(0), None);
    assert_eq!(Row::new(1), Some(Row::FIRST));
    assert_eq!(Row::new(65536).map(u32::from), Some(65536));
    let most = u32::MAX as usize;
    assert_eq!(Row::new(most).map(Row::number), Some(most));
    assert_eq!(Row::new(most + 1), None);
    assert_eq!(Row::new(usize::MAX), None);
    assert!(Row::try_from(0_u32).is_err());
    assert_eq!(Row::try_from(7_u32).map(usize::from), Ok(7));
    assert!(Row::try_from(0_usize).is_err());
    assert_eq!(Row::FIRST.to_string(), "1");
    assert!(Row::FIRST < Row::new(2).unwrap());
}

#[test]
fn what_is_unknown_says_what_it_was_asked_for() {
    let unknown = |unknown: Unknown| unknown.to_string();
    assert_eq!(
        "X".parse::<Context>().map_err(unknown),
        Err("no context has this name or number".into())
    );
    assert_eq!(
        Row::try_from(0_u32).map_err(unknown),
        Err("no row has this name or number".into())
    );
    assert_eq!(
        Number::try_from(0).map_err(unknown),
        Err("no refusal has this name or number".into())
    );
}
