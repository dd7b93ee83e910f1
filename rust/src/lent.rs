//! The seven questions on lists that the caller lends. References rule out what the proof leaves to the caller: a list
//! that is written overlaps nothing else, and every list is as long as it says.

use crate::answer::Answer;
use crate::raw;

/// Asks with room for place and value.
fn ask(question: impl FnOnce(*mut u32, *mut u32) -> u32) -> Answer {
    let (mut place, mut value) = (0, 0);
    let number = question(&mut place, &mut value);
    Answer::new(number, place, value)
}

/// Check a sheet.
pub fn check(sheet: &[u8]) -> Answer {
    // SAFETY: the slice lends its memory for the call; place and value are locals of `ask`.
    ask(|place, value| unsafe { raw::lez_check(sheet.as_ptr(), sheet.len(), place, value) })
}

/// The period as it stands is the value.
pub fn period(sheet: &[u8]) -> Answer {
    // SAFETY: as in `check`.
    ask(|place, value| unsafe { raw::lez_period(sheet.as_ptr(), sheet.len(), place, value) })
}

/// The path table in the first n² entries of both lists.
pub fn path_table(sheet: &[u8], registers: &mut [u32], delays: &mut [u32]) -> Answer {
    // SAFETY: as in `check`; the lists that are written are lent by `&mut`, so that they overlap nothing.
    ask(|place, value| unsafe {
        raw::lez_path_table(
            sheet.as_ptr(),
            sheet.len(),
            registers.as_mut_ptr(),
            registers.len(),
            delays.as_mut_ptr(),
            delays.len(),
            place,
            value,
        )
    })
}

/// The sheet moved by n lags, in the first bytes of `moved`.
pub fn move_by(sheet: &[u8], lags: &[i16], moved: &mut [u8]) -> Answer {
    // SAFETY: as in `path_table`.
    ask(|place, value| unsafe {
        raw::lez_move(sheet.as_ptr(), sheet.len(), lags.as_ptr(), lags.len(), moved.as_mut_ptr(), moved.len(), place, value)
    })
}

/// The largest permitted lags that meet c, or a loop of `count` words that proves that there are none.
pub fn lags_at(sheet: &[u8], c: u32, lags: &mut [i16], words: &mut [u16]) -> Answer {
    // SAFETY: as in `path_table`.
    ask(|place, value| unsafe {
        raw::lez_lags_at(
            sheet.as_ptr(),
            sheet.len(),
            c,
            lags.as_mut_ptr(),
            lags.len(),
            words.as_mut_ptr(),
            words.len(),
            place,
            value,
        )
    })
}

/// The least period met by permitted lags is the value; the lags are the largest that meet it.
pub fn best(sheet: &[u8], lags: &mut [i16], words: &mut [u16]) -> Answer {
    // SAFETY: as in `path_table`.
    ask(|place, value| unsafe {
        raw::lez_best(
            sheet.as_ptr(),
            sheet.len(),
            lags.as_mut_ptr(),
            lags.len(),
            words.as_mut_ptr(),
            words.len(),
            place,
            value,
        )
    })
}

/// Whether the words prove that no permitted lags meet c.
pub fn check_loop(sheet: &[u8], c: u32, words: &[u16]) -> Answer {
    // SAFETY: as in `check`.
    ask(|place, value| unsafe {
        raw::lez_check_loop(sheet.as_ptr(), sheet.len(), c, words.as_ptr(), words.len(), place, value)
    })
}
