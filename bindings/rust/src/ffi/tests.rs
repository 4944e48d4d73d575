//! What the library answers to what this crate never lends: short answers, short cards, numbers that are no table, numbers that are no form, bytes
//! and numbers that are no index.

use super::*;

/// Buffers that are lent for a table, whatever stands in them.
struct Lent<'a> {
    card: &'a [usize],
    segments: &'a [u32],
    leaves: &'a [u32],
    text: &'a [u8],
}

/// What both lookups of a leaf are to C.
type Lookup = unsafe extern "C" fn(
    *const usize,
    usize,
    *const u32,
    usize,
    *const u32,
    usize,
    *const u8,
    usize,
    u32,
    u32,
    u32,
    u32,
    u32,
    *mut usize,
    usize,
) -> u8;

const LOOKUPS: [Lookup; 2] = [sargaceu_find_leaf, sargaceu_find_leaf_in_segment];

const SMALL: u8 = 0;
const LARGE: u8 = 1;

const NOTHING: Lent<'static> = Lent {
    card: &[],
    segments: &[],
    leaves: &[],
    text: &[],
};

impl Lent<'_> {
    fn write(&self, form: u8, output: &mut [u8], answer: &mut [usize]) -> u8 {
        // SAFETY: as for all functions here, each pointer and its count are those of one slice.
        unsafe {
            sargaceu_write(
                form,
                self.card.as_ptr(),
                self.card.len(),
                self.segments.as_ptr(),
                self.segments.len(),
                self.leaves.as_ptr(),
                self.leaves.len(),
                self.text.as_ptr(),
                self.text.len(),
                output.as_mut_ptr(),
                output.len(),
                answer.as_mut_ptr(),
                answer.len(),
            )
        }
    }

    /// The leaf of row 1 at field, repetition and subfield 1, by one of the two lookups.
    fn leaf(&self, lookup: Lookup, subsubfield: u32, answer: &mut [usize]) -> u8 {
        self.leaf_at(lookup, [1, 1, 1, 1, subsubfield], answer)
    }

    fn leaf_at(&self, lookup: Lookup, place: [u32; 5], answer: &mut [usize]) -> u8 {
        let [segment, field, repetition, subfield, subsubfield] = place;
        // SAFETY: as in `write`.
        unsafe {
            lookup(
                self.card.as_ptr(),
                self.card.len(),
                self.segments.as_ptr(),
                self.segments.len(),
                self.leaves.as_ptr(),
                self.leaves.len(),
                self.text.as_ptr(),
                self.text.len(),
                segment,
                field,
                repetition,
                subfield,
                subsubfield,
                answer.as_mut_ptr(),
                answer.len(),
            )
        }
    }

    fn screen(&self, answer: &mut [usize]) -> u8 {
        // SAFETY: as in `write`.
        unsafe {
            sargaceu_screen(
                SMALL,
                self.card.as_ptr(),
                self.card.len(),
                self.segments.as_ptr(),
                self.segments.len(),
                self.leaves.as_ptr(),
                self.leaves.len(),
                self.text.as_ptr(),
                self.text.len(),
                answer.as_mut_ptr(),
                answer.len(),
            )
        }
    }

    fn next_row(&self, after: usize, kind: u32, owner: u32) -> usize {
        // SAFETY: as in `write`.
        unsafe {
            sargaceu_next_row(
                self.card.as_ptr(),
                self.card.len(),
                self.segments.as_ptr(),
                self.segments.len(),
                after,
                kind,
                owner,
            )
        }
    }
}

/// Buffers that are lent for the values of an order, each of a length of its own.
struct Places {
    numbers: Vec<u8>,
    wholes: Vec<i64>,
    decimals: Vec<u8>,
}

impl Places {
    /// So many places, with something in them that no call puts there.
    fn new(numbers: usize, wholes: usize, decimals: usize) -> Places {
        Places {
            numbers: vec![9; numbers],
            wholes: vec![-9; wholes],
            decimals: vec![99; decimals],
        }
    }

    fn fill(&mut self, lent: &Lent<'_>, order: u32, answer: &mut [usize]) -> u8 {
        // SAFETY: as in `write`.
        unsafe {
            sargaceu_order_values(
                SMALL,
                lent.card.as_ptr(),
                lent.card.len(),
                lent.segments.as_ptr(),
                lent.segments.len(),
                lent.leaves.as_ptr(),
                lent.leaves.len(),
                lent.text.as_ptr(),
                lent.text.len(),
                order,
                self.numbers.as_mut_ptr(),
                self.numbers.len(),
                self.wholes.as_mut_ptr(),
                self.wholes.len(),
                self.decimals.as_mut_ptr(),
                self.decimals.len(),
                answer.as_mut_ptr(),
                answer.len(),
            )
        }
    }

    fn are_kept(&self) -> bool {
        self.numbers.iter().all(|&number| number == 9)
            && self.wholes.iter().all(|&whole| whole == -9)
            && self.decimals.iter().all(|&decimals| decimals == 99)
    }
}

fn read_value(text: &[u8], answer: &mut [i64]) -> u8 {
    // SAFETY: as in `write`.
    unsafe { sargaceu_read_value(text.as_ptr(), text.len(), answer.as_mut_ptr(), answer.len()) }
}

fn write_value(whole: i64, decimals: usize, output: &mut [u8], answer: &mut [usize]) -> u8 {
    // SAFETY: as in `write`.
    unsafe {
        sargaceu_write_value(
            whole,
            decimals,
            output.as_mut_ptr(),
            output.len(),
            answer.as_mut_ptr(),
            answer.len(),
        )
    }
}

fn read(form: u8, message: &[u8], answer: &mut [usize]) -> u8 {
    let (mut text, mut segments, mut leaves) = ([9; 16384], [9; 1024], [9; 14336]);
    // SAFETY: as in `write`.
    unsafe {
        sargaceu_read(
            form,
            message.as_ptr(),
            message.len(),
            text.as_mut_ptr(),
            text.len(),
            segments.as_mut_ptr(),
            segments.len(),
            leaves.as_mut_ptr(),
            leaves.len(),
            answer.as_mut_ptr(),
            answer.len(),
        )
    }
}

fn list(message: &[u8], listing: &mut [u8]) -> usize {
    let (mut text, mut segments, mut leaves) = ([9; 16384], [9; 1024], [9; 14336]);
    // SAFETY: as in `write`.
    unsafe {
        sargaceu_list(
            message.as_ptr(),
            message.len(),
            text.as_mut_ptr(),
            text.len(),
            segments.as_mut_ptr(),
            segments.len(),
            leaves.as_mut_ptr(),
            leaves.len(),
            listing.as_mut_ptr(),
            listing.len(),
        )
    }
}

fn line(message: &[u8], at: usize, answer: &mut [usize]) -> u8 {
    // SAFETY: as in `write`.
    unsafe {
        sargaceu_line(
            message.as_ptr(),
            message.len(),
            at,
            answer.as_mut_ptr(),
            answer.len(),
        )
    }
}

/// What the two questions about rows, and the one about an offset, are to C.
type Standing = unsafe extern "C" fn(*const u8, usize, usize, *mut usize, usize) -> usize;

fn stands(function: Standing, message: &[u8], which: usize, answer: &mut [usize]) -> usize {
    // SAFETY: as in `write`.
    unsafe {
        function(
            message.as_ptr(),
            message.len(),
            which,
            answer.as_mut_ptr(),
            answer.len(),
        )
    }
}

fn next_kinds(context: u8, kind: u8, kinds: &mut [u8]) -> bool {
    // SAFETY: as in `write`.
    unsafe { sargaceu_next_kinds(context, kind, kinds.as_mut_ptr(), kinds.len()) }
}

fn watch(watcher: &mut [u8], kind: u8) -> bool {
    // SAFETY: as in `write`.
    unsafe { sargaceu_watch(watcher.as_mut_ptr(), watcher.len(), kind) }
}

#[test]
fn a_short_answer_is_refused_with_1_and_left_as_it_was() {
    let mut answer = [7; 5];
    assert_eq!(read(SMALL, b"H|~^\\&|||LAB||ERR\rERR\rL\r", &mut answer), 1);
    assert_eq!(answer, [7; 5]);
    let mut answer = [7; 2];
    assert_eq!(NOTHING.write(SMALL, &mut [9; 16384], &mut answer), 1);
    assert_eq!(answer, [7; 2]);
    assert_eq!(line(b"H\r", 0, &mut answer[..1]), 1);
    assert_eq!(answer, [7; 2]);
}

#[test]
fn a_number_that_is_no_form_is_taken_as_the_small_form() {
    let message = b"H|~^\\&|||LAB||ERR\rERR\rL\r";
    for form in 0..=255 {
        let mut answer = [7; 6];
        // the buffers have the sizes of the small form
        let expected = u8::from(form == LARGE);
        assert_eq!(read(form, message, &mut answer), expected);
        let number = NOTHING.write(form, &mut [9; 16384], &mut [7; 3]);
        assert_eq!(number, if form == LARGE { 12 } else { 13 });
    }
}

#[test]
fn a_refused_message_has_a_card_that_counts_nothing() {
    let mut answer = [7; 7];
    assert_eq!(read(SMALL, b"H|~^\\&|||LAB||ERR\rA\rL\r", &mut answer), 8);
    assert_eq!(answer, [2, 0, 0, 0, 0, 0, 7]);
}

#[test]
fn a_listing_of_under_8448_bytes_is_left_as_it_was() {
    let mut listing = [9; 8448];
    assert_eq!(list(b"", &mut listing[1..]), 0);
    assert_eq!(listing, [9; 8448]);
    let bytes = list(b"", &mut listing);
    assert_eq!(&listing[..bytes], b"form=1\nanswer=3\nplace=0\n");
}

#[test]
fn what_is_no_table_is_refused_with_13_and_the_output_left_as_it_was() {
    let (mut output, mut answer) = ([9; 16384], [7; 3]);
    assert_eq!(NOTHING.write(SMALL, &mut output, &mut answer), 13);
    assert_eq!(answer, [0; 3]);
    assert_eq!(NOTHING.write(SMALL, &mut output[1..], &mut answer), 12);
    assert_eq!(answer, [0; 3]);
    assert!(output.iter().all(|&byte| byte == 9));
}

#[test]
fn a_card_of_under_five_numbers_or_with_a_number_over_255_counts_nothing() {
    let with = |card: &[usize]| {
        let lent = Lent {
            card,
            segments: &[5, 2, 1, 1],
            ..NOTHING
        };
        lent.next_row(0, 5, 2)
    };
    assert_eq!(with(&[124, 6, 1, 0, 0]), 1);
    assert_eq!(with(&[124, 6, 1, 0]), 0);
    assert_eq!(with(&[256, 6, 1, 0, 0]), 0);
    assert_eq!(with(&[124, 256, 1, 0, 0]), 0);
    assert_eq!(with(&[124, 6, 2, 0, 0]), 0);
}

/// An OBX in row 1 that has so many leaves from one on.
fn segment_row(first: u32, count: u32) -> [u32; 4] {
    [6, 0, first, count]
}

#[test]
fn a_leaf_is_found_or_found_empty_or_not_there() {
    let lent = Lent {
        card: &[124, 6, 1, 2, 2],
        segments: &segment_row(1, 2),
        leaves: &[1, 1, 1, 1, 1, 0, 2, 1, 1, 1, 1, 2, 2, 0],
        text: b"OK",
    };
    for lookup in LOOKUPS {
        let mut answer = [7; 3];
        assert_eq!(lent.leaf(lookup, 3, &mut answer), 0);
        assert_eq!(answer, [7, 7, 7]);
        assert_eq!(lent.leaf(lookup, 1, &mut answer), 1);
        assert_eq!(answer, [0, 2, 7]);
        answer = [7; 3];
        assert_eq!(lent.leaf(lookup, 2, &mut answer), 2);
        assert_eq!(answer, [0, 0, 7]);
    }
}

#[test]
fn the_number_of_a_lookup_tells_although_its_answer_is_short() {
    let lent = Lent {
        card: &[124, 6, 1, 2, 2],
        segments: &segment_row(1, 2),
        leaves: &[1, 1, 1, 1, 1, 0, 2, 1, 1, 1, 1, 2, 2, 0],
        text: b"OK",
    };
    for lookup in LOOKUPS {
        let mut answer = [7; 1];
        let told = [1, 2, 3].map(|subsubfield| lent.leaf(lookup, subsubfield, &mut answer));
        assert_eq!(told, [1, 2, 0]);
        assert_eq!(answer, [7]);
        assert_eq!(lent.leaf(lookup, 1, &mut []), 1);
    }
}

#[test]
fn a_leaf_row_that_points_past_the_text_is_passed_over() {
    let lent = Lent {
        card: &[124, 6, 1, 3, 2],
        segments: &segment_row(1, 3),
        leaves: &[
            1, 1, 1, 1, 1, 1, 2, 1, 1, 1, 1, 1, 3, 0, 1, 1, 1, 1, 1, 1, 1,
        ],
        text: b"OK",
    };
    for lookup in LOOKUPS {
        let mut answer = [7; 2];
        assert_eq!(lent.leaf(lookup, 1, &mut answer), 1);
        assert_eq!(answer, [1, 1]);
    }
}

#[test]
fn a_card_that_counts_more_than_a_buffer_holds_has_no_leaf() {
    let counting = |card| Lent {
        card,
        segments: &[6, 0, 1, 1],
        leaves: &[1, 1, 1, 1, 1, 0, 2],
        text: b"OK",
    };
    for lookup in LOOKUPS {
        let told = |card| counting(card).leaf(lookup, 1, &mut [7; 2]);
        assert_eq!(told(&[124, 6, 1, 1, 2]), 1);
        assert_eq!(told(&[124, 6, 2, 1, 2]), 0);
        assert_eq!(told(&[124, 6, 1, 2, 2]), 0);
        assert_eq!(told(&[124, 6, 1, 1, 3]), 0);
        assert_eq!(told(&[124, 6, 1, 1]), 0);
    }
}

#[test]
fn a_lookup_within_the_segment_sees_the_counted_leaves_that_its_row_names() {
    let leaves = [
        1, 1, 1, 1, 1, 0, 1, 1, 1, 1, 1, 2, 1, 1, 1, 1, 1, 1, 3, 2, 1,
    ];
    let told = |segments: &[u32], counted| {
        let lent = Lent {
            card: &[124, 6, 1, counted, 3],
            segments,
            leaves: &leaves,
            text: b"ABC",
        };
        [1, 2, 3]
            .map(|subsubfield| lent.leaf(sargaceu_find_leaf_in_segment, subsubfield, &mut [7; 2]))
    };
    assert_eq!(told(&segment_row(1, 3), 3), [1, 1, 1]);
    assert_eq!(told(&segment_row(2, 1), 3), [0, 1, 0]);
    assert_eq!(told(&segment_row(1, 0), 3), [0, 0, 0]);
    assert_eq!(told(&segment_row(4, 3), 3), [0, 0, 0]);
    assert_eq!(told(&segment_row(2, u32::MAX), 3), [0, 1, 1]);
    assert_eq!(told(&segment_row(u32::MAX, u32::MAX), 3), [0, 0, 0]);
    // a number is not cut to its lower half
    assert_eq!(told(&segment_row(65537, 3), 3), [0, 0, 0]);
    assert_eq!(told(&segment_row(2, 2), 2), [0, 1, 0]);
    // leaves count from 1, so a first leaf of 0 is none
    assert_eq!(told(&segment_row(0, 3), 3), [0, 0, 0]);
}

#[test]
fn a_lookup_within_the_segment_never_answers_a_leaf_of_another() {
    let lent = Lent {
        card: &[124, 6, 1, 1, 2],
        segments: &segment_row(1, 1),
        leaves: &[2, 1, 1, 1, 1, 0, 2],
        text: b"OK",
    };
    let mut answer = [7; 2];
    assert_eq!(lent.leaf(sargaceu_find_leaf_in_segment, 1, &mut answer), 0);
    assert_eq!(answer, [7, 7]);
}

#[test]
fn leaves_of_a_segment_that_is_not_counted_are_seen_by_the_first_lookup_alone() {
    let lent = Lent {
        card: &[124, 6, 0, 1, 2],
        leaves: &[1, 1, 1, 1, 1, 0, 2],
        text: b"OK",
        ..NOTHING
    };
    let told = LOOKUPS.map(|lookup| lent.leaf(lookup, 1, &mut [7; 2]));
    assert_eq!(told, [1, 0]);
}

#[test]
fn both_lookups_answer_the_same_of_a_table_that_was_read() {
    let mut buffers = crate::Buffers::new(crate::Form::Small);
    let table = buffers.read(include_bytes!("../../../../samples/report.hpr"));
    let table = table.unwrap();
    let lent = Lent {
        card: &table.card().numbers(),
        segments: table.segment_rows(),
        leaves: table.leaf_rows(),
        text: table.text(),
    };
    let mut told = [0; 3];
    for row in lent.leaves.chunks_exact(crate::size::LEAF_ROW) {
        for changed in 0..5 {
            for number in [0, 1, 2, row[changed], row[changed] + 1, 65535, u32::MAX] {
                let mut place = [row[0], row[1], row[2], row[3], row[4]];
                place[changed] = number;
                let [all, within] = LOOKUPS.map(|lookup| {
                    let mut answer = [7; 2];
                    (lent.leaf_at(lookup, place, &mut answer), answer)
                });
                assert_eq!(all, within);
                told[usize::from(all.0)] += 1;
            }
        }
    }
    assert!(told.iter().all(|&times| times > 0));
}

#[test]
fn beside_a_text_that_says_no_number_stand_zeros() {
    let mut answer = [7; 3];
    assert_eq!(read_value(b"-.52", &mut answer), 0);
    assert_eq!(answer, [-52, 2, 7]);
    assert_eq!(read_value(b"1e5", &mut answer), 20);
    assert_eq!(answer, [0, 0, 7]);
    answer = [7; 3];
    assert_eq!(read_value(b"1234567890123456", &mut answer), 21);
    assert_eq!(answer, [0, 0, 7]);
}

#[test]
fn a_text_is_not_looked_at_where_its_answer_is_short() {
    for text in [&b"1"[..], b"x", b""] {
        let mut answer = [7; 1];
        assert_eq!(read_value(text, &mut answer), 1);
        assert_eq!(answer, [7]);
        assert_eq!(read_value(text, &mut []), 1);
    }
}

#[test]
fn a_value_is_judged_before_the_output_and_the_answer_before_both() {
    let (mut output, mut answer) = ([9; 17], [7; 2]);
    for decimals in [16, 256, 1 << 32, usize::MAX] {
        assert_eq!(write_value(0, decimals, &mut output[..16], &mut answer), 22);
        assert_eq!(answer, [0, 7]);
    }
    answer = [7; 2];
    assert_eq!(write_value(0, 0, &mut output[..16], &mut answer), 23);
    assert_eq!(answer, [0, 7]);
    assert_eq!(write_value(i64::MIN, 16, &mut output[..16], &mut []), 1);
    assert_eq!(write_value(0, 0, &mut output, &mut []), 1);
    assert_eq!(output, [9; 17]);
    assert_eq!(write_value(-1, 15, &mut output, &mut answer), 0);
    assert_eq!(answer, [17, 7]);
    assert_eq!(&output, b"-.000000000000001");
}

#[test]
fn an_order_is_refused_for_its_table_then_for_its_row_then_for_the_room() {
    let message =
        b"H|~^\\&|||LAB||ORU\rP|1\rOBR|1\rOBX|1|NM|K||5.6\rOBX|2|NM|NA||x\rOBX|3|TX|NT||5\rL|1\r";
    let mut buffers = crate::Buffers::new(crate::Form::Small);
    let table = buffers.read(message).unwrap();
    let card = table.card().numbers();
    let lent = Lent {
        card: &card,
        segments: table.segment_rows(),
        leaves: table.leaf_rows(),
        text: table.text(),
    };
    let refused = |lent: &Lent<'_>, order, places: [usize; 3]| {
        let [numbers, wholes, decimals] = places;
        let mut places = Places::new(numbers, wholes, decimals);
        let mut answer = [7; 3];
        let number = places.fill(lent, order, &mut answer);
        assert!(places.are_kept());
        assert_eq!(answer, [0, 0, 7]);
        number
    };
    let damaged = Lent {
        text: &lent.text[1..],
        ..lent
    };
    assert_eq!(refused(&damaged, 3, [2, 2, 2]), 13);
    assert_eq!(refused(&damaged, 0, [0, 0, 0]), 13);
    assert_eq!(refused(&NOTHING, 3, [2, 2, 2]), 13);
    for order in [0, 1, 2, 4, 7, 8, 65535, 65539, u32::MAX] {
        assert_eq!(refused(&lent, order, [2, 2, 2]), 24);
        assert_eq!(refused(&lent, order, [0, 0, 0]), 24);
    }
    for places in [[1, 2, 2], [2, 1, 2], [2, 2, 1], [0, 0, 0], [0, 256, 256]] {
        assert_eq!(refused(&lent, 3, places), 25);
    }

    let mut places = Places::new(2, 3, 4);
    assert_eq!(places.fill(&lent, 3, &mut [7; 1]), 1);
    assert_eq!(places.fill(&NOTHING, 3, &mut []), 1);
    assert!(places.are_kept());
    let mut answer = [7; 3];
    assert_eq!(places.fill(&lent, 3, &mut answer), 0);
    assert_eq!(answer, [0, 2, 7]);
    assert_eq!(places.numbers, [0, 20]);
    assert_eq!(places.wholes, [56, 0, -9]);
    assert_eq!(places.decimals, [1, 0, 99, 99]);
}

#[test]
fn a_screening_is_refused_for_its_answer_then_for_its_table_then_for_its_context() {
    let mut buffers = crate::Buffers::new(crate::Form::Small);
    let mut screened = |message: &[u8]| {
        let table = buffers.read(message).unwrap();
        let card = table.card().numbers();
        let lent = Lent {
            card: &card,
            segments: table.segment_rows(),
            leaves: table.leaf_rows(),
            text: table.text(),
        };
        let damaged = Lent {
            text: &lent.text[1..],
            ..lent
        };
        [lent, damaged].map(|lent| {
            assert_eq!(lent.screen(&mut []), 1);
            let mut answer = [7; 2];
            let number = lent.screen(&mut answer);
            assert_eq!(lent.screen(&mut [7; 1]), number);
            // the place alone is put
            assert_eq!(answer[1], 7);
            (number, answer[0])
        })
    };
    let sound = include_bytes!("../../../../samples/screening.hpr");
    assert_eq!(screened(sound), [(0, 0), (13, 0)]);
    let refused = include_bytes!("../../../../samples/screening-refused.hpr");
    assert_eq!(screened(refused), [(43, 16), (13, 0)]);
    let errors = b"H|~^\\&|||LAB||ERR\rERR\rL\r";
    assert_eq!(screened(errors), [(30, 0), (13, 0)]);

    let mut answer = [7; 2];
    assert_eq!(NOTHING.screen(&mut answer), 13);
    assert_eq!(answer, [0, 7]);
    assert_eq!(NOTHING.screen(&mut []), 1);
}

/// New buffers that hold the same number throughout, for what is widened.
struct New {
    text: Vec<u8>,
    segments: Vec<u32>,
    leaves: Vec<u32>,
}

impl New {
    fn of(text: usize, segments: usize, leaves: usize) -> New {
        New {
            text: vec![9; text],
            segments: vec![9; segments],
            leaves: vec![9; leaves],
        }
    }

    fn widen(
        &mut self,
        card: &[usize],
        rows: [&[u16]; 2],
        text: &[u8],
        answer: &mut [usize],
    ) -> u8 {
        let [segments, leaves] = rows;
        // SAFETY: as in `write`.
        unsafe {
            sargaceu_widen(
                card.as_ptr(),
                card.len(),
                segments.as_ptr(),
                segments.len(),
                leaves.as_ptr(),
                leaves.len(),
                text.as_ptr(),
                text.len(),
                self.text.as_mut_ptr(),
                self.text.len(),
                self.segments.as_mut_ptr(),
                self.segments.len(),
                self.leaves.as_mut_ptr(),
                self.leaves.len(),
                answer.as_mut_ptr(),
                answer.len(),
            )
        }
    }

    fn are_kept(&self) -> bool {
        self.text.iter().all(|&byte| byte == 9)
            && self
                .segments
                .iter()
                .chain(&self.leaves)
                .all(|&number| number == 9)
    }
}

#[test]
fn a_widening_is_refused_for_its_answer_then_for_its_buffers_then_for_its_table() {
    let mut buffers = crate::Buffers::new(crate::Form::Small);
    let table = buffers.read(b"H|~^\\&|||LAB||ERR\rERR\rL\r").unwrap();
    let narrow = |rows: &[u32]| rows.iter().map(|&number| number as u16).collect::<Vec<_>>();
    let (segments, leaves) = (narrow(table.segment_rows()), narrow(table.leaf_rows()));
    let rows = [&segments[..], &leaves[..]];
    let (card, text) = (table.card().numbers(), table.text());

    let mut new = New::of(16384, 1024, 14336);
    assert_eq!(new.widen(&card, rows, text, &mut [7; 5]), 1);
    assert_eq!(new.widen(&[], [&[], &[]], &[], &mut []), 1);
    for (card, text) in [(&card[..4], text), (&card[..], &text[1..]), (&[], &[])] {
        let mut answer = [7; 7];
        assert_eq!(new.widen(card, rows, text, &mut answer), 46);
        assert_eq!(answer, [0, 0, 0, 0, 0, 0, 7]);
    }
    assert!(new.are_kept());
    for [text_bytes, segments, leaves] in [[16383, 1024, 14336], [16384, 1023, 14336], [0, 0, 0]] {
        let mut short = New::of(text_bytes, segments, leaves);
        for text in [text, &[]] {
            let mut answer = [7; 7];
            assert_eq!(short.widen(&card, rows, text, &mut answer), 1);
            assert_eq!(answer, [0, 0, 0, 0, 0, 0, 7]);
        }
        assert!(short.are_kept());
    }

    let mut answer = [7; 7];
    assert_eq!(new.widen(&card, rows, text, &mut answer), 0);
    assert_eq!((answer[0], &answer[1..6], answer[6]), (0, &card[..], 7));
    assert_eq!(new.segments[..segments.len()], *table.segment_rows());
    assert_eq!(new.leaves[..leaves.len()], *table.leaf_rows());
    assert_eq!(new.text[..text.len()], *text);
    assert!(new.segments[segments.len()..]
        .iter()
        .all(|&number| number == 9));
    assert!(new.leaves[leaves.len()..].iter().all(|&number| number == 9));
    assert!(new.text[text.len()..].iter().all(|&byte| byte == 9));
}

/// Buffers that are lent as an index, whatever stands in them.
struct LentIndex {
    codes: Vec<u8>,
    counts: Vec<u32>,
}

impl LentIndex {
    fn sound(&self) -> bool {
        let (codes, counts) = (&self.codes, &self.counts);
        // SAFETY: as in `write`.
        unsafe { sargaceu_index_sound(codes.as_ptr(), codes.len(), counts.as_ptr(), counts.len()) }
    }

    /// What the three questions answer: to the count of codes, to a code's count, to the k-th code.
    fn ask(&self, code: &[u8], k: usize, answers: [&mut [usize]; 3]) -> [u8; 3] {
        let (codes, counts) = (&self.codes, &self.counts);
        let [of_codes, of_count, of_code] = answers;
        // SAFETY: as in `write`.
        unsafe {
            [
                sargaceu_index_codes(
                    codes.as_ptr(),
                    codes.len(),
                    counts.as_ptr(),
                    counts.len(),
                    of_codes.as_mut_ptr(),
                    of_codes.len(),
                ),
                sargaceu_index_count(
                    codes.as_ptr(),
                    codes.len(),
                    counts.as_ptr(),
                    counts.len(),
                    code.as_ptr(),
                    code.len(),
                    of_count.as_mut_ptr(),
                    of_count.len(),
                ),
                sargaceu_index_code(
                    codes.as_ptr(),
                    codes.len(),
                    counts.as_ptr(),
                    counts.len(),
                    k,
                    of_code.as_mut_ptr(),
                    of_code.len(),
                ),
            ]
        }
    }

    /// What reading a message with it answers, into buffers of the small form and of these sizes.
    fn read(
        &mut self,
        message: &[u8],
        new: &mut New,
        tally: &mut [u32],
        answer: &mut [usize],
    ) -> u8 {
        // SAFETY: as in `write`.
        unsafe {
            sargaceu_read_indexed(
                SMALL,
                message.as_ptr(),
                message.len(),
                new.text.as_mut_ptr(),
                new.text.len(),
                new.segments.as_mut_ptr(),
                new.segments.len(),
                new.leaves.as_mut_ptr(),
                new.leaves.len(),
                self.codes.as_mut_ptr(),
                self.codes.len(),
                self.counts.as_mut_ptr(),
                self.counts.len(),
                tally.as_mut_ptr(),
                tally.len(),
                answer.as_mut_ptr(),
                answer.len(),
            )
        }
    }
}

/// An index that names AB, counted 7 times, and B, counted 9 times.
fn two_codes() -> LentIndex {
    let (mut codes, mut counts) = (vec![0; 11776], vec![0; 513]);
    codes[..3].copy_from_slice(b"\x02AB");
    codes[23..25].copy_from_slice(b"\x01B");
    counts[..3].copy_from_slice(&[2, 7, 9]);
    LentIndex { codes, counts }
}

#[test]
fn an_index_is_asked_whatever_stands_in_it() {
    let index = two_codes();
    assert!(index.sound());
    let (mut codes, mut count, mut code) = ([7; 2], [7; 2], [7; 4]);
    let told = index.ask(b"AB", 2, [&mut codes, &mut count, &mut code]);
    assert_eq!(told, [1, 1, 1]);
    assert_eq!((codes, count, code), ([2, 7], [7, 7], [24, 1, 9, 7]));
    let (mut codes, mut count, mut code) = ([7; 2], [7; 2], [7; 4]);
    let told = index.ask(b"A", 3, [&mut codes, &mut count, &mut code]);
    assert_eq!(told, [1, 0, 0]);
    assert_eq!((count, code), ([7; 2], [7; 4]));
    // short answers stay as they were, and the number still tells
    let mut code = [7; 2];
    let told = index.ask(b"B", 1, [&mut [], &mut [], &mut code]);
    assert_eq!(told, [1, 1, 1]);
    assert_eq!(code, [7; 2]);

    for (bytes, numbers, named) in [
        (11775, 513, 2),
        (11776, 512, 2),
        (11776, 513, 513),
        (0, 0, 0),
    ] {
        let mut index = two_codes();
        index.codes.truncate(bytes);
        index.counts.truncate(numbers);
        if let Some(first) = index.counts.first_mut() {
            *first = named;
        }
        let (mut codes, mut count, mut code) = ([7; 1], [7; 1], [7; 3]);
        assert!(!index.sound());
        let told = index.ask(b"AB", 1, [&mut codes, &mut count, &mut code]);
        assert_eq!(told, [53, 53, 53]);
        assert_eq!((codes, count, code), ([7], [7], [7; 3]));
    }
    for length in [0, 23, 255] {
        let mut index = two_codes();
        index.codes[23] = length;
        assert!(!index.sound());
        let told = index.ask(b"AB", 2, [&mut [], &mut [], &mut [7; 3]]);
        assert_eq!((told[0], told[2]), (1, 53));
    }
}

#[test]
fn reading_with_an_index_is_refused_for_answer_or_tally_then_for_the_index_then_for_the_buffers() {
    let message = b"H|~^\\&|||LAB||ORU\rP|1\rOBR|1\rOBX|1|NM|AB||1\rOBX|2|NM|AC||1\rL|1\r";
    let mut index = two_codes();
    index.counts[0] = 514;
    let before = (index.codes.clone(), index.counts.clone());
    let mut new = New::of(16384, 1024, 14336);
    let (mut tally, mut answer) = ([5; 4], [7; 7]);
    assert_eq!(
        index.read(message, &mut new, &mut tally, &mut answer[..5]),
        1
    );
    assert_eq!(
        index.read(message, &mut new, &mut tally[..2], &mut answer),
        1
    );
    assert_eq!((tally, answer), ([5; 4], [7; 7]));
    let mut short = New::of(16383, 1024, 14336);
    assert_eq!(index.read(message, &mut short, &mut tally, &mut answer), 53);
    assert_eq!((tally, answer), ([5; 4], [0, 0, 0, 0, 0, 0, 7]));
    assert_eq!(before, (index.codes.clone(), index.counts.clone()));

    let mut index = two_codes();
    assert_eq!(index.read(message, &mut short, &mut tally, &mut answer), 1);
    assert!(short.are_kept() && new.are_kept());
    assert_eq!(index.read(message, &mut new, &mut tally, &mut answer), 0);
    assert_eq!(tally, [6, 11, 7, 5]);
    assert_eq!((answer[0], answer[3], answer[6]), (0, 6, 7));
    assert_eq!(index.counts[..4], [3, 8, 1, 9]);
    assert_eq!(index.codes[..3], *b"\x02AB");
    assert_eq!(
        index.codes[23..46],
        *b"\x02AC\0\0\0\0\0\0\0\0\0\0\0\0\0\0\0\0\0\0\0\0"
    );
    assert_eq!(index.codes[46..48], *b"\x01B");
}

#[test]
fn a_watcher_of_under_two_bytes_or_of_no_context_says_no() {
    let mut watcher = [6];
    assert!(!watch(&mut watcher, 1));
    assert_eq!(watcher, [6]);
    assert!(!watch(&mut [8, 0], 1));
    assert!(watch(&mut [6, 0], 1));
    assert!(!watch(&mut [6, 0], 13));
}

#[test]
fn a_walk_that_goes_on_at_the_end_or_at_a_fault_hears_the_same_again() {
    let mut answer = [7; 2];
    assert_eq!(line(b"H\r", 2, &mut answer), 0);
    assert_eq!(answer, [2, 2]);
    assert_eq!(line(b"H\r", 9, &mut answer), 0);
    assert_eq!(answer, [9, 9]);
    assert_eq!(line(b"H\x01\r", 0, &mut answer), 4);
    assert_eq!(answer, [1, 0]);
}

#[test]
fn where_a_row_stands_is_told_although_the_answer_is_short() {
    let message = b"H|\rP|\rA|x\r\nL|\r";
    for (function, which, told, put) in [
        (sargaceu_row_place as Standing, 2, 2, 3),
        (sargaceu_row_place, 4, 0, 0),
        (sargaceu_row_at, 3, 2, 11),
        (sargaceu_position, 11, 4, 2),
    ] {
        let mut answer = [7; 2];
        assert_eq!(stands(function, message, which, &mut answer[..0]), told);
        assert_eq!(answer, [7; 2]);
        assert_eq!(stands(function, message, which, &mut answer), told);
        assert_eq!(answer, [put, 7]);
    }
}

#[test]
fn a_row_that_is_asked_for_anywhere_is_the_line_there_and_its_addenda() {
    let message = b"A|x\rA|y\rP|\rA|z\rL|";
    let mut answer = [7];
    for (at, lines, next) in [
        (0, 2, 8),
        (4, 1, 8),
        (5, 1, 8),
        (7, 0, 7),
        (8, 2, 15),
        (15, 0, 15),
        (17, 0, 17),
        (99, 0, 99),
        (usize::MAX, 0, usize::MAX),
    ] {
        assert_eq!(stands(sargaceu_row_at, message, at, &mut answer), lines);
        assert_eq!(answer, [next]);
    }
    // the addenda in front are of no row
    assert_eq!(stands(sargaceu_row_place, message, 1, &mut answer), 2);
    assert_eq!(answer, [8]);
}

#[test]
fn next_kinds_of_under_13_bytes_are_left_as_they_were() {
    let mut kinds = [7; 14];
    assert!(!next_kinds(6, 2, &mut kinds[..12]));
    assert_eq!(kinds, [7; 14]);
    assert!(next_kinds(6, 2, &mut kinds));
    assert_eq!(kinds, [0, 0, 0, 0, 0, 1, 0, 0, 0, 0, 0, 0, 1, 7]);
}

#[test]
fn no_kind_may_come_in_no_context_or_behind_l_c_and_what_is_no_kind() {
    for (context, kind) in [
        (0, 0),
        (0, 2),
        (8, 1),
        (255, 0),
        (6, 11),
        (6, 12),
        (6, 13),
        (6, 255),
    ] {
        let mut kinds = [7; 13];
        assert!(next_kinds(context, kind, &mut kinds));
        assert_eq!(kinds, [0; 13]);
    }
}
