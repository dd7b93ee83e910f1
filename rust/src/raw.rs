//! The library's seven functions as C sees them; see `include/lezvorgan.h`.

/// Declares the functions; where the library is not linked, stands in for them, so that all else is still type-checked.
macro_rules! library {
    ($(fn $name:ident($($argument:ident: $kind:ty),* $(,)?);)*) => {
        #[cfg(lezvorgan_linked)]
        extern "C" {
            $(pub fn $name($($argument: $kind),*) -> u32;)*
        }
        $(
            #[cfg(not(lezvorgan_linked))]
            #[allow(clippy::too_many_arguments)]
            pub unsafe fn $name($($argument: $kind),*) -> u32 {
                let _ = ($($argument,)*);
                panic!("the library is x86-64 code and was not linked on this processor")
            }
        )*
    };
}

library! {
    fn lez_check(sheet: *const u8, sheet_len: usize, place: *mut u32, value: *mut u32);
    fn lez_period(sheet: *const u8, sheet_len: usize, place: *mut u32, value: *mut u32);
    fn lez_path_table(
        sheet: *const u8, sheet_len: usize,
        registers: *mut u32, registers_len: usize,
        delays: *mut u32, delays_len: usize,
        place: *mut u32, value: *mut u32,
    );
    fn lez_move(
        sheet: *const u8, sheet_len: usize,
        lags: *const i16, lags_len: usize,
        moved: *mut u8, moved_len: usize,
        place: *mut u32, value: *mut u32,
    );
    fn lez_lags_at(
        sheet: *const u8, sheet_len: usize, c: u32,
        lags: *mut i16, lags_len: usize,
        words: *mut u16, words_len: usize,
        place: *mut u32, value: *mut u32,
    );
    fn lez_best(
        sheet: *const u8, sheet_len: usize,
        lags: *mut i16, lags_len: usize,
        words: *mut u16, words_len: usize,
        place: *mut u32, value: *mut u32,
    );
    fn lez_check_loop(
        sheet: *const u8, sheet_len: usize, c: u32,
        words: *const u16, words_len: usize,
        place: *mut u32, value: *mut u32,
    );
}
