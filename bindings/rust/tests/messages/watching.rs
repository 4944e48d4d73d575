use crate::{REPORT, SMALL};
use sargaceu::{next_kinds, Buffers, Context, Form, Kind, Watcher};

#[test]
fn a_watcher_says_what_may_come_next() {
    let mut watcher = Watcher::begin(Context::ORU);
    assert!(!watcher.tell(Kind::P));
    assert!(watcher.tell(Kind::H));
    let before = watcher;
    assert!(!watcher.tell(Kind::OBX));
    assert_eq!(watcher, before);
    assert!(watcher.tell(Kind::P));
    assert!(watcher.tell(Kind::OBR));
    assert!(!watcher.tell(Kind::L));
    assert!(watcher.tell(Kind::OBX));
    assert!(watcher.tell(Kind::C));
    assert!(watcher.tell(Kind::L));
    assert!(!watcher.tell(Kind::C));
}

#[test]
fn the_kinds_of_a_table_are_an_order_that_its_context_allows() {
    let mut buffers = Buffers::new(Form::Small);
    for message in [SMALL, REPORT] {
        let table = buffers.read(message).unwrap();
        let mut watcher = Watcher::begin(table.card().context);
        assert!(table.rows().all(|segment| watcher.tell(segment.kind())));
    }
}

#[test]
fn a_message_of_every_context_begins_with_its_header() {
    for context in Context::ALL {
        let mut watcher = Watcher::begin(context);
        let begins: Vec<Kind> = Kind::ALL
            .into_iter()
            .filter(|&kind| watcher.tell(kind))
            .take(1)
            .collect();
        assert_eq!(begins, [Kind::H]);
    }
}

/// All watchers that a context can have, with the last kind of each, C aside: those that a begun one becomes by what it says yes to.
fn watchers(context: Context) -> Vec<(Watcher, Option<Kind>)> {
    let mut all = vec![(Watcher::begin(context), None)];
    let mut seen = 0;
    while let Some(&(watcher, last)) = all.get(seen) {
        for kind in Kind::ALL {
            let mut after = watcher;
            let last = if kind == Kind::C { last } else { Some(kind) };
            if after.tell(kind) && !all.contains(&(after, last)) {
                all.push((after, last));
            }
        }
        seen += 1;
    }
    all
}

#[test]
fn the_next_kinds_are_those_that_a_watcher_says_yes_to() {
    for context in Context::ALL {
        for (watcher, last) in watchers(context) {
            let says_yes = |&kind: &Kind| {
                let mut asked = watcher;
                asked.tell(kind)
            };
            let said: Vec<Kind> = Kind::ALL.into_iter().filter(says_yes).collect();
            assert!(watcher.next_kinds().eq(said.iter().copied()));
            assert!(next_kinds(context, last).eq(said));
        }
    }
}

#[test]
fn the_next_kinds_of_a_context_are_its_order() {
    use Kind::*;
    let order: [(Option<Kind>, &[Kind]); 7] = [
        (None, &[H]),
        (Some(H), &[P, C]),
        (Some(P), &[OBR, C]),
        (Some(OBR), &[OBX, C]),
        (Some(OBX), &[P, OBR, OBX, L, C]),
        (Some(L), &[]),
        (Some(C), &[]),
    ];
    for (last, kinds) in order {
        assert!(next_kinds(Context::ORU, last).eq(kinds.iter().copied()));
    }
    assert!(next_kinds(Context::FAC, Some(FAC)).eq([P, FAC, REG, ACT, L, C]));
    assert!(next_kinds(Context::ERR, Some(ERR)).eq([ERR, L, C]));
    // a kind that the context does not have
    assert_eq!(next_kinds(Context::ERR, Some(OBX)).count(), 0);
}
