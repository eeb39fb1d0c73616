//! The functions of `include/hecke.h`, which says what they do and what is the caller's part.

extern "C" {
    pub fn hecke_tower_of_images(images: *const u8, images_len: usize, tower: *mut u8, tower_len: usize) -> u64;

    pub fn hecke_images_of_tower(tower: *const u8, tower_len: usize, images: *mut u8, images_len: usize) -> u64;

    pub fn hecke_tower_inverse(tower: *const u8, tower_len: usize, result: *mut u8, result_len: usize) -> u64;

    pub fn hecke_tower_product(
        left: *const u8,
        left_len: usize,
        right: *const u8,
        right_len: usize,
        result: *mut u8,
        result_len: usize,
    ) -> u64;

    pub fn hecke_tower_length(tower: *const u8, tower_len: usize, answer: *mut u64, answer_len: usize) -> u64;

    pub fn hecke_tower_word(
        tower: *const u8,
        tower_len: usize,
        word: *mut u8,
        word_len: usize,
        answer: *mut u64,
        answer_len: usize,
    ) -> u64;

    pub fn hecke_tower_descents(tower: *const u8, tower_len: usize, answer: *mut u64, answer_len: usize) -> u64;

    pub fn hecke_size(m: usize) -> usize;

    pub fn hecke_scratch_size(m: usize) -> usize;

    pub fn hecke_sum(
        m: usize,
        left: *const u64,
        left_len: usize,
        right: *const u64,
        right_len: usize,
        result: *mut u64,
        result_len: usize,
        answer: *mut u64,
        answer_len: usize,
    ) -> u64;

    pub fn hecke_scale(
        m: usize,
        c: u64,
        element: *const u64,
        element_len: usize,
        result: *mut u64,
        result_len: usize,
        answer: *mut u64,
        answer_len: usize,
    ) -> u64;

    pub fn hecke_act_word(
        m: usize,
        q: u64,
        word: *const u8,
        word_len: usize,
        element: *mut u64,
        element_len: usize,
        answer: *mut u64,
        answer_len: usize,
    ) -> u64;

    pub fn hecke_act_signed_word(
        m: usize,
        q: u64,
        word: *const i8,
        word_len: usize,
        element: *mut u64,
        element_len: usize,
        answer: *mut u64,
        answer_len: usize,
    ) -> u64;

    pub fn hecke_product(
        m: usize,
        q: u64,
        left: *const u64,
        left_len: usize,
        right: *const u64,
        right_len: usize,
        result: *mut u64,
        result_len: usize,
        scratch: *mut u64,
        scratch_len: usize,
        answer: *mut u64,
        answer_len: usize,
    ) -> u64;

    pub fn hecke_pairing(
        m: usize,
        q: u64,
        left: *const u64,
        left_len: usize,
        right: *const u64,
        right_len: usize,
        answer: *mut u64,
        answer_len: usize,
    ) -> u64;

    pub fn hecke_trace(
        m: usize,
        q: u64,
        z: u64,
        element: *const u64,
        element_len: usize,
        scratch: *mut u64,
        scratch_len: usize,
        answer: *mut u64,
        answer_len: usize,
    ) -> u64;

    pub fn hecke_sheet_check(sheet: *const u8, sheet_len: usize) -> u64;

    pub fn hecke_run_sheet(
        sheet: *const u8,
        sheet_len: usize,
        registers: *mut u64,
        registers_len: usize,
        answer: *mut u64,
        answer_len: usize,
    ) -> u64;
}
