//! Sheets whose answers are written down elsewhere: those of the scope, the correlator, the filter.

use crate::sheet::{Block, Sheet, Wire};

pub fn block(delay: u32, lower: i16, upper: i16) -> Block {
    Block { delay, lower, upper }
}

pub fn wire(from: usize, to: usize, registers: u16) -> Wire {
    Wire { from: from as u16, to: to as u16, registers, spare: 0 }
}

/// The host and one block of range -2..2 for each further delay.
pub fn sheet(delays: &[u32], wires: &[(usize, usize, u16)]) -> Sheet {
    let blocks = delays
        .iter()
        .enumerate()
        .map(|(i, &d)| if i == 0 { block(d, 0, 0) } else { block(d, -2, 2) })
        .collect();
    Sheet { blocks, wires: wires.iter().map(|&(u, v, w)| wire(u, v, w)).collect() }
}

pub fn ring() -> Sheet {
    sheet(&[0, 3, 4, 5], &[(0, 1, 1), (1, 2, 0), (2, 3, 0), (3, 0, 1)])
}

pub fn correlator() -> Sheet {
    sheet(
        &[0, 3, 3, 3, 3, 7, 7, 7],
        &[
            (0, 1, 1), (1, 2, 1), (2, 3, 1), (3, 4, 1), (4, 5, 0), (5, 6, 0),
            (6, 7, 0), (7, 0, 0), (1, 7, 0), (2, 6, 0), (3, 5, 0),
        ],
    )
}

/// Document 003's filter, its nodes 1 to 4; the host has no wire.
pub fn filter() -> Sheet {
    sheet(&[0, 1, 1, 2, 2], &[(1, 3, 1), (1, 4, 2), (3, 2, 0), (4, 2, 0), (2, 1, 1)])
}

pub fn host_alone() -> Sheet {
    sheet(&[0], &[])
}

/// Two wires from 0 to 1 with different registers and one back.
pub fn parallel_pair() -> Sheet {
    sheet(&[0, 0], &[(0, 1, 1), (0, 1, 3), (1, 0, 0)])
}

/// The ring with other ranges for blocks 1 and 3.
pub fn ring_limited(one: (i16, i16), three: (i16, i16)) -> Sheet {
    let mut s = ring();
    (s.blocks[1].lower, s.blocks[1].upper) = one;
    (s.blocks[3].lower, s.blocks[3].upper) = three;
    s
}

/// Its ranges force a move that joins the two blocks: period 4 as it stands, best 7.
pub fn forced_ring() -> Sheet {
    let mut s = sheet(&[0, 3, 4], &[(0, 1, 1), (1, 2, 1), (2, 0, 1)]);
    (s.blocks[1].lower, s.blocks[1].upper) = (1, 1);
    (s.blocks[2].lower, s.blocks[2].upper) = (0, 0);
    s
}

/// The direct wire has more registers but less delay than the way around.
pub fn detour() -> Sheet {
    sheet(&[0, 2, 9, 1], &[(0, 1, 1), (1, 2, 1), (2, 3, 1), (1, 3, 0), (3, 0, 1)])
}
