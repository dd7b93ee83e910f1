//! Questions about the sheet of a synchronous core, answered by a library that is proved right for every input.
//!
//! The functions here give owned results and make lists of the right length themselves; those of [`lent`] write into
//! lists that the caller lends.
//!
#![cfg_attr(lezvorgan_linked, doc = "```")]
#![cfg_attr(not(lezvorgan_linked), doc = "```no_run")]
//! use lezvorgan::{best, check, lags_at, moved, period, sheet, Block, Wire};
//!
//! let host = Block { delay: 0, lower: 0, upper: 0 };
//! let block = |delay| Block { delay, lower: -2, upper: 2 };
//! let wire = |from, to, registers| Wire { from, to, registers };
//! let ring = sheet(
//!     &[host, block(3), block(4), block(5)],
//!     &[wire(0, 1, 1), wire(1, 2, 0), wire(2, 3, 0), wire(3, 0, 1)],
//! );
//! check(&ring)?;
//! assert_eq!(period(&ring)?, 12);
//! let (least, lags) = best(&ring)?;
//! assert_eq!((least, &lags[..]), (7, &[0, 0, 0, 1][..]));
//! assert_eq!(period(&moved(&ring, &lags)?)?, 7);
//!
//! // A refusal comes with its proof, which anyone can check.
//! let refused = lags_at(&ring, 6).expect_err("7 is the least");
//! lezvorgan::check_loop(&ring, 6, &refused.proof)?;
//! # Ok::<(), lezvorgan::Refusal>(())
//! ```

mod answer;
pub mod lent;
mod raw;
mod sheet;

pub use answer::{number, Answer, Refusal};
pub use sheet::{sheet, Block, Wire};

/// The fewest registers and the largest delay among paths with that many, for every pair of blocks.
#[derive(Clone, Debug, PartialEq, Eq)]
pub struct PathTable {
    n: usize,
    registers: Vec<u32>,
    delays: Vec<u32>,
}

/// What stands in the table of registers where there is no path.
const NO_PATH: u32 = u32::MAX;

impl PathTable {
    /// Registers and delay from u to v, or none without a path.
    ///
    /// # Panics
    ///
    /// Where u or v is no block of the sheet.
    pub fn at(&self, u: usize, v: usize) -> Option<(u32, u32)> {
        assert!(u < self.n && v < self.n, "no such pair of blocks");
        let i = u * self.n + v;
        (self.registers[i] != NO_PATH).then(|| (self.registers[i], self.delays[i]))
    }
}

/// Check a sheet.
pub fn check(sheet: &[u8]) -> Result<(), Refusal> {
    lent::check(sheet).done(&[]).map(drop)
}

/// The period as it stands.
pub fn period(sheet: &[u8]) -> Result<u32, Refusal> {
    lent::period(sheet).done(&[])
}

/// The path table.
pub fn path_table(sheet: &[u8]) -> Result<PathTable, Refusal> {
    let n = sheet::block_count(sheet);
    let (mut registers, mut delays) = (vec![0; n * n], vec![0; n * n]);
    lent::path_table(sheet, &mut registers, &mut delays).done(&[])?;
    Ok(PathTable { n, registers, delays })
}

/// The sheet moved by these lags, one for each block.
pub fn moved(sheet: &[u8], lags: &[i16]) -> Result<Vec<u8>, Refusal> {
    let mut moved = vec![0; sheet.len()];
    lent::move_by(sheet, lags, &mut moved).done(&[])?;
    Ok(moved)
}

/// Lists as the lag questions need them.
fn lag_lists(sheet: &[u8]) -> (Vec<i16>, Vec<u16>) {
    let n = sheet::block_count(sheet);
    (vec![0; n], vec![0; n * (n + 2)])
}

/// The largest permitted lags that meet c, block by block.
pub fn lags_at(sheet: &[u8], c: u32) -> Result<Vec<i16>, Refusal> {
    let (mut lags, mut words) = lag_lists(sheet);
    lent::lags_at(sheet, c, &mut lags, &mut words).done(&words)?;
    Ok(lags)
}

/// The least period met by permitted lags, and the largest lags that meet it.
pub fn best(sheet: &[u8]) -> Result<(u32, Vec<i16>), Refusal> {
    let (mut lags, mut words) = lag_lists(sheet);
    let least = lent::best(sheet, &mut lags, &mut words).done(&words)?;
    Ok((least, lags))
}

/// Whether the words are a loop which proves that no permitted lags meet c.
pub fn check_loop(sheet: &[u8], c: u32, words: &[u16]) -> Result<(), Refusal> {
    lent::check_loop(sheet, c, words).done(&[]).map(drop)
}

#[cfg(all(test, lezvorgan_linked))]
mod linked;
