//! The functions of the archive, as include/sharqudel.h declares them. The compiler does not check these lines against
//! the archive; tests/declarations checks them against the library's source.

extern "C" {
    pub fn sharqudel_encode(h: u32, m: u32, message: u64, out: *mut u8, out_length: usize) -> u32;

    pub fn sharqudel_partner(h: u32, m: u32, message: u64, out: *mut u8, out_length: usize) -> u32;

    pub fn sharqudel_check(
        h: u32,
        m: u32,
        first: *const u8,
        first_length: usize,
        second: *const u8,
        second_length: usize,
        pair: *mut bool,
        place: *mut usize,
        which: *mut u32,
    ) -> u32;

    pub fn sharqudel_read(
        h: u32,
        m: u32,
        word: *const u8,
        word_length: usize,
        message: *mut u64,
        place: *mut usize,
    ) -> u32;

    pub fn sharqudel_soft(
        h: u32,
        m: u32,
        values: *const i16,
        values_length: usize,
        message: *mut u64,
        correlation: *mut i32,
        tied: *mut bool,
    ) -> u32;

    pub fn sharqudel_hard(
        h: u32,
        m: u32,
        word: *const u8,
        word_length: usize,
        message: *mut u64,
        distance: *mut u32,
        tied: *mut bool,
        place: *mut usize,
    ) -> u32;

    pub fn sharqudel_transform(
        m: u32,
        first: *mut i32,
        first_length: usize,
        second: *mut i32,
        second_length: usize,
        area: *mut u32,
        place: *mut usize,
    ) -> u32;

    pub fn sharqudel_refusal(
        m: u32,
        first: *const i32,
        first_length: usize,
        second: *const i32,
        second_length: usize,
        place: *mut usize,
    ) -> u32;
}
