//! For tests: small sheets whose lag lists can all be tried.

use crate::questions::{move_sheet, period, DONE};
use crate::random::Random;
use crate::shapes;
use crate::sheet::Sheet;

/// A small sheet with narrow ranges, some without 0.
pub fn narrow(rng: &mut Random) -> Sheet {
    let (n, m) = (1 + rng.below(4), rng.below(7));
    let mut sheet = shapes::sound(rng, n, m, 2, 9);
    for b in &mut sheet.blocks[1..] {
        b.lower = rng.between(-2, 2) as i16;
        b.upper = b.lower + rng.below(3) as i16;
    }
    if m > 0 && rng.chance(40) {
        let near = rng.between(1_997, 2_000) as u16;
        sheet.wires[rng.below(m)].registers = near;
    }
    sheet
}

/// All permitted lag lists, each with the moved period, by moving the sheet.
pub fn permitted(sheet: &Sheet) -> Vec<(Vec<i16>, u32)> {
    let bytes = sheet.bytes();
    let mut lags: Vec<i16> = sheet.blocks.iter().map(|b| b.lower).collect();
    let mut found = Vec::new();
    loop {
        let mut out = vec![0; bytes.len()];
        if move_sheet(&bytes, &lags, &mut out) == DONE {
            found.push((lags.clone(), period(&out).value));
        }
        let Some(at) = (0..lags.len()).find(|&i| lags[i] < sheet.blocks[i].upper) else {
            return found;
        };
        lags[at] += 1;
        for (lag, b) in lags.iter_mut().zip(&sheet.blocks).take(at) {
            *lag = b.lower;
        }
    }
}
