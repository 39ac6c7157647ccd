//! The library's boundary, declared once; include/liuwdom.h declares the same for C and says what each function answers.
//!
//! A slice is a pointer and how many elements it has; `answer` points to [`ANSWER`](crate::records::ANSWER) cells. What makes a call safe:
//! every pointer is good for its length and not null, and what is lent to be written overlaps nothing else. The cells and bytes themselves
//! may hold anything.

unsafe extern "C" {
    pub fn liuwdom_collect(
        spec_cells: *const u64,
        spec_cells_len: usize,
        spec: *const u8,
        spec_len: usize,
        call_cells: *const u64,
        call_cells_len: usize,
        call: *const u8,
        call_len: usize,
        board: *mut u64,
        board_len: usize,
        answer: *mut u64,
    ) -> u64;

    pub fn liuwdom_can_fill(
        spec_cells: *const u64,
        spec_cells_len: usize,
        spec: *const u8,
        spec_len: usize,
        call_cells: *const u64,
        call_cells_len: usize,
        call: *const u8,
        call_len: usize,
        answer: *mut u64,
    ) -> u64;

    pub fn liuwdom_prepare(
        spec_cells: *const u64,
        spec_cells_len: usize,
        spec: *const u8,
        spec_len: usize,
        prepared: *mut u64,
        prepared_len: usize,
        answer: *mut u64,
    ) -> u64;

    pub fn liuwdom_bind_prepared(
        prepared: *const u64,
        prepared_len: usize,
        spec: *const u8,
        spec_len: usize,
        call_cells: *const u64,
        call_cells_len: usize,
        call: *const u8,
        call_len: usize,
        board: *mut u64,
        board_len: usize,
        answer: *mut u64,
    ) -> u64;

    pub fn liuwdom_lookup(
        spec_cells: *const u64,
        spec_cells_len: usize,
        spec: *const u8,
        spec_len: usize,
        name: *const u8,
        name_len: usize,
        answer: *mut u64,
    ) -> u64;

    pub fn liuwdom_names_map(
        call_cells: *const u64,
        call_cells_len: usize,
        call: *const u8,
        call_len: usize,
        out: *mut u64,
        out_len: usize,
        answer: *mut u64,
    ) -> u64;

    pub fn liuwdom_positions(
        call_cells: *const u64,
        call_cells_len: usize,
        call: *const u8,
        call_len: usize,
        out: *mut u64,
        out_len: usize,
        answer: *mut u64,
    ) -> u64;

    pub fn liuwdom_len(
        call_cells: *const u64,
        call_cells_len: usize,
        call: *const u8,
        call_len: usize,
        answer: *mut u64,
    ) -> u64;

    pub fn liuwdom_no_named_args(
        call_cells: *const u64,
        call_cells_len: usize,
        call: *const u8,
        call_len: usize,
        answer: *mut u64,
    ) -> u64;

    pub fn liuwdom_optional(
        call_cells: *const u64,
        call_cells_len: usize,
        call: *const u8,
        call_len: usize,
        required: usize,
        optional: usize,
        out: *mut u64,
        out_len: usize,
        answer: *mut u64,
    ) -> u64;

    pub fn liuwdom_positional(
        call_cells: *const u64,
        call_cells_len: usize,
        call: *const u8,
        call_len: usize,
        required: usize,
        out: *mut u64,
        out_len: usize,
        answer: *mut u64,
    ) -> u64;

    pub fn liuwdom_parameters_str(
        spec_cells: *const u64,
        spec_cells_len: usize,
        spec: *const u8,
        spec_len: usize,
        out: *mut u8,
        out_len: usize,
        answer: *mut u64,
    ) -> u64;

    pub fn liuwdom_bind(
        input: *const u8,
        input_len: usize,
        out: *mut u8,
        out_len: usize,
        answer: *mut u64,
    ) -> u64;

    pub fn liuwdom_read_sheets(
        input: *const u8,
        input_len: usize,
        spec_cells: *mut u64,
        spec_cells_len: usize,
        spec: *mut u8,
        spec_len: usize,
        call_cells: *mut u64,
        call_cells_len: usize,
        call: *mut u8,
        call_len: usize,
        answer: *mut u64,
    ) -> u64;

    pub fn liuwdom_read_next(
        slots: *const u64,
        slots_len: usize,
        at: usize,
        answer: *mut u64,
    ) -> u64;

    pub fn liuwdom_read_next_opt(
        slots: *const u64,
        slots_len: usize,
        at: usize,
        answer: *mut u64,
    ) -> u64;

    pub fn liuwdom_read_is_eof(slots: *const u64, slots_len: usize, at: usize) -> bool;

    pub fn liuwdom_window(
        minutes: *const u32,
        minutes_len: usize,
        w: u64,
        limit: u64,
        answer: *mut u64,
    ) -> u64;
}
