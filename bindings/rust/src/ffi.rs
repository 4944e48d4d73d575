//! The functions of `include/sargaceu.h`, as the archive has them.
//!
//! The header asks four things of a caller, and Rust's slices bring all of them. No pointer is null and each is aligned, also where the
//! slice is empty; as many elements as the count says are there. A buffer that is written overlaps no other: it is borrowed as `&mut`
//! during the call. Bytes and numbers have no forbidden values, so whatever is written there may be read.

extern "C" {
    pub fn sargaceu_read(
        form: u8,
        message: *const u8,
        message_bytes: usize,
        text: *mut u8,
        text_bytes: usize,
        segments: *mut u32,
        segments_numbers: usize,
        leaves: *mut u32,
        leaves_numbers: usize,
        answer: *mut usize,
        answer_numbers: usize,
    ) -> u8;
    pub fn sargaceu_write(
        form: u8,
        card: *const usize,
        card_numbers: usize,
        segments: *const u32,
        segments_numbers: usize,
        leaves: *const u32,
        leaves_numbers: usize,
        text: *const u8,
        text_bytes: usize,
        output: *mut u8,
        output_bytes: usize,
        answer: *mut usize,
        answer_numbers: usize,
    ) -> u8;
    pub fn sargaceu_is_table(
        form: u8,
        card: *const usize,
        card_numbers: usize,
        segments: *const u32,
        segments_numbers: usize,
        leaves: *const u32,
        leaves_numbers: usize,
        text: *const u8,
        text_bytes: usize,
    ) -> bool;
    // A table of this crate is one that some message reads to, so it is looked into within the segment; this one is tested only.
    #[cfg_attr(not(test), allow(dead_code))]
    pub fn sargaceu_find_leaf(
        card: *const usize,
        card_numbers: usize,
        segments: *const u32,
        segments_numbers: usize,
        leaves: *const u32,
        leaves_numbers: usize,
        text: *const u8,
        text_bytes: usize,
        segment: u32,
        field: u32,
        repetition: u32,
        subfield: u32,
        subsubfield: u32,
        answer: *mut usize,
        answer_numbers: usize,
    ) -> u8;
    pub fn sargaceu_find_leaf_in_segment(
        card: *const usize,
        card_numbers: usize,
        segments: *const u32,
        segments_numbers: usize,
        leaves: *const u32,
        leaves_numbers: usize,
        text: *const u8,
        text_bytes: usize,
        segment: u32,
        field: u32,
        repetition: u32,
        subfield: u32,
        subsubfield: u32,
        answer: *mut usize,
        answer_numbers: usize,
    ) -> u8;
    pub fn sargaceu_next_row(
        card: *const usize,
        card_numbers: usize,
        segments: *const u32,
        segments_numbers: usize,
        after: usize,
        kind: u32,
        owner: u32,
    ) -> usize;
    pub fn sargaceu_same_order(
        card: *const usize,
        card_numbers: usize,
        segments: *const u32,
        segments_numbers: usize,
        leaves: *const u32,
        leaves_numbers: usize,
        text: *const u8,
        text_bytes: usize,
        row: u32,
        other_card: *const usize,
        other_card_numbers: usize,
        other_segments: *const u32,
        other_segments_numbers: usize,
        other_leaves: *const u32,
        other_leaves_numbers: usize,
        other_text: *const u8,
        other_text_bytes: usize,
        other_row: u32,
    ) -> bool;
    pub fn sargaceu_line(
        message: *const u8,
        message_bytes: usize,
        at: usize,
        answer: *mut usize,
        answer_numbers: usize,
    ) -> u8;
    pub fn sargaceu_row_place(
        message: *const u8,
        message_bytes: usize,
        row: usize,
        answer: *mut usize,
        answer_numbers: usize,
    ) -> usize;
    pub fn sargaceu_row_at(
        message: *const u8,
        message_bytes: usize,
        at: usize,
        answer: *mut usize,
        answer_numbers: usize,
    ) -> usize;
    pub fn sargaceu_position(
        message: *const u8,
        message_bytes: usize,
        offset: usize,
        answer: *mut usize,
        answer_numbers: usize,
    ) -> usize;
    pub fn sargaceu_watch(watcher: *mut u8, watcher_bytes: usize, kind: u8) -> bool;
    pub fn sargaceu_next_kinds(context: u8, kind: u8, kinds: *mut u8, kinds_bytes: usize) -> bool;
    pub fn sargaceu_list(
        message: *const u8,
        message_bytes: usize,
        text: *mut u8,
        text_bytes: usize,
        segments: *mut u32,
        segments_numbers: usize,
        leaves: *mut u32,
        leaves_numbers: usize,
        listing: *mut u8,
        listing_bytes: usize,
    ) -> usize;
    pub fn sargaceu_read_value(
        text: *const u8,
        text_bytes: usize,
        answer: *mut i64,
        answer_numbers: usize,
    ) -> u8;
    pub fn sargaceu_write_value(
        whole: i64,
        decimals: usize,
        output: *mut u8,
        output_bytes: usize,
        answer: *mut usize,
        answer_numbers: usize,
    ) -> u8;
    pub fn sargaceu_order_values(
        form: u8,
        card: *const usize,
        card_numbers: usize,
        segments: *const u32,
        segments_numbers: usize,
        leaves: *const u32,
        leaves_numbers: usize,
        text: *const u8,
        text_bytes: usize,
        order: u32,
        numbers: *mut u8,
        numbers_bytes: usize,
        wholes: *mut i64,
        wholes_numbers: usize,
        decimals: *mut u8,
        decimals_bytes: usize,
        answer: *mut usize,
        answer_numbers: usize,
    ) -> u8;
    pub fn sargaceu_screen(
        form: u8,
        card: *const usize,
        card_numbers: usize,
        segments: *const u32,
        segments_numbers: usize,
        leaves: *const u32,
        leaves_numbers: usize,
        text: *const u8,
        text_bytes: usize,
        answer: *mut usize,
        answer_numbers: usize,
    ) -> u8;
    pub fn sargaceu_widen(
        card: *const usize,
        card_numbers: usize,
        segments: *const u16,
        segments_numbers: usize,
        leaves: *const u16,
        leaves_numbers: usize,
        text: *const u8,
        text_bytes: usize,
        new_text: *mut u8,
        new_text_bytes: usize,
        new_segments: *mut u32,
        new_segments_numbers: usize,
        new_leaves: *mut u32,
        new_leaves_numbers: usize,
        answer: *mut usize,
        answer_numbers: usize,
    ) -> u8;
    pub fn sargaceu_read_indexed(
        form: u8,
        message: *const u8,
        message_bytes: usize,
        text: *mut u8,
        text_bytes: usize,
        segments: *mut u32,
        segments_numbers: usize,
        leaves: *mut u32,
        leaves_numbers: usize,
        codes: *mut u8,
        codes_bytes: usize,
        counts: *mut u32,
        counts_numbers: usize,
        tally: *mut u32,
        tally_numbers: usize,
        answer: *mut usize,
        answer_numbers: usize,
    ) -> u8;
    pub fn sargaceu_index_sound(
        codes: *const u8,
        codes_bytes: usize,
        counts: *const u32,
        counts_numbers: usize,
    ) -> bool;
    pub fn sargaceu_index_codes(
        codes: *const u8,
        codes_bytes: usize,
        counts: *const u32,
        counts_numbers: usize,
        answer: *mut usize,
        answer_numbers: usize,
    ) -> u8;
    pub fn sargaceu_index_count(
        codes: *const u8,
        codes_bytes: usize,
        counts: *const u32,
        counts_numbers: usize,
        code: *const u8,
        code_bytes: usize,
        answer: *mut usize,
        answer_numbers: usize,
    ) -> u8;
    pub fn sargaceu_index_code(
        codes: *const u8,
        codes_bytes: usize,
        counts: *const u32,
        counts_numbers: usize,
        k: usize,
        answer: *mut usize,
        answer_numbers: usize,
    ) -> u8;
    pub fn sargaceu_version() -> u32;
}

#[cfg(test)]
mod tests;
