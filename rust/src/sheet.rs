//! A sheet as bytes.

/// Block 0 is the host: delay 0, both lags 0.
#[derive(Clone, Copy, Debug, PartialEq, Eq)]
pub struct Block {
    pub delay: u32,
    pub lower: i16,
    pub upper: i16,
}

#[derive(Clone, Copy, Debug, PartialEq, Eq)]
pub struct Wire {
    pub from: u16,
    pub to: u16,
    pub registers: u16,
}

const HEADER: usize = 16;
const ENTRY: usize = 8;

/// The bytes of a sheet. What the entries hold is not judged here: `check` does that.
///
/// # Panics
///
/// With more than 65,535 blocks or wires.
pub fn sheet(blocks: &[Block], wires: &[Wire]) -> Vec<u8> {
    let count = |length: usize| u16::try_from(length).expect("at most 65,535 entries").to_le_bytes();
    let wire_table = HEADER + ENTRY * blocks.len();
    let total = wire_table + ENTRY * wires.len();
    let mut bytes = Vec::with_capacity(total);
    bytes.extend(count(blocks.len()));
    bytes.extend(count(wires.len()));
    for offset in [HEADER, wire_table, total] {
        bytes.extend((offset as u32).to_le_bytes());
    }
    for b in blocks {
        bytes.extend(b.delay.to_le_bytes());
        bytes.extend(b.lower.to_le_bytes());
        bytes.extend(b.upper.to_le_bytes());
    }
    for w in wires {
        for word in [w.from, w.to, w.registers, 0] {
            bytes.extend(word.to_le_bytes());
        }
    }
    bytes
}

/// The blocks that a header names, as far as lists are needed for them: the library judges the header itself.
pub(crate) fn block_count(sheet: &[u8]) -> usize {
    match *sheet {
        [low, high, ..] => (u16::from_le_bytes([low, high]) as usize).min(64),
        _ => 0,
    }
}

#[cfg(test)]
mod tests {
    use super::*;

    #[test]
    fn the_host_and_a_wire_as_bytes() {
        let bytes = sheet(&[Block { delay: 0, lower: 0, upper: 0 }], &[Wire { from: 0, to: 0, registers: 1 }]);
        assert_eq!(bytes[..16], [1, 0, 1, 0, 16, 0, 0, 0, 24, 0, 0, 0, 32, 0, 0, 0]);
        assert_eq!(bytes[16..], [0, 0, 0, 0, 0, 0, 0, 0, 0, 0, 0, 0, 1, 0, 0, 0]);
    }

    #[test]
    fn lists_for_a_damaged_header_stay_small() {
        assert_eq!(block_count(&[]), 0);
        assert_eq!(block_count(&[4, 0]), 4);
        assert_eq!(block_count(&[255, 255, 0]), 64);
    }
}
