//! The sheet as bytes: reading it with refusals 1, 2, 3, 5 and 6, and writing it.

pub const HEADER: usize = 16;
pub const ENTRY: usize = 8;
pub const MOST_BLOCKS: usize = 64;
pub const MOST_WIRES: usize = 256;
pub const MOST_DELAY: u32 = 10_000;
pub const MOST_LAG: i16 = 1_000;
pub const MOST_SPREAD: i32 = 1_000;
pub const MOST_REGISTERS: u16 = 2_000;

#[derive(Clone, Copy, Debug, PartialEq, Eq)]
pub struct Block {
    pub delay: u32,
    pub lower: i16,
    pub upper: i16,
}

// The spare word is kept so that unsound wires can be written too.
#[derive(Clone, Copy, Debug, PartialEq, Eq)]
pub struct Wire {
    pub from: u16,
    pub to: u16,
    pub registers: u16,
    pub spare: u16,
}

#[derive(Clone, Debug, PartialEq, Eq)]
pub struct Sheet {
    pub blocks: Vec<Block>,
    pub wires: Vec<Wire>,
}

#[derive(Clone, Copy, Debug, PartialEq, Eq)]
pub struct Refusal {
    pub number: u32,
    pub place: u32,
}

pub fn refusal(number: u32, place: usize) -> Refusal {
    Refusal { number, place: place as u32 }
}

/// The counts that a well-formed header names.
#[derive(Clone, Copy, Debug, PartialEq, Eq)]
pub struct Frame {
    pub n: usize,
    pub m: usize,
}

fn word(bytes: &[u8], at: usize) -> u16 {
    u16::from_le_bytes([bytes[at], bytes[at + 1]])
}

fn long(bytes: &[u8], at: usize) -> u32 {
    u32::from_le_bytes([bytes[at], bytes[at + 1], bytes[at + 2], bytes[at + 3]])
}

pub fn wire_table(n: usize) -> usize {
    HEADER + ENTRY * n
}

pub fn total(n: usize, m: usize) -> usize {
    HEADER + ENTRY * n + ENTRY * m
}

/// Refusals 1, 2 and 3, in this order, from the header and the slice's length alone.
pub fn frame(bytes: &[u8]) -> Result<Frame, Refusal> {
    if bytes.len() < HEADER {
        return Err(refusal(1, 0));
    }
    let n = word(bytes, 0) as usize;
    let m = word(bytes, 2) as usize;
    if n < 1 || n > MOST_BLOCKS || m > MOST_WIRES {
        return Err(refusal(2, 0));
    }
    let named = [long(bytes, 4), long(bytes, 8), long(bytes, 12)];
    let right = [HEADER as u32, wire_table(n) as u32, total(n, m) as u32];
    if named != right || bytes.len() != total(n, m) {
        return Err(refusal(3, 0));
    }
    Ok(Frame { n, m })
}

pub fn block_is_sound(number: usize, block: &Block) -> bool {
    // The spread of two i16 can exceed i16.
    let spread = block.upper as i32 - block.lower as i32;
    let lags = -MOST_LAG..=MOST_LAG;
    let general = block.delay <= MOST_DELAY
        && lags.contains(&block.lower)
        && lags.contains(&block.upper)
        && (0..=MOST_SPREAD).contains(&spread);
    let host = block.delay == 0 && block.lower == 0 && block.upper == 0;
    general && (number != 0 || host)
}

pub fn wire_is_sound(n: usize, wire: &Wire) -> bool {
    (wire.from as usize) < n
        && (wire.to as usize) < n
        && wire.registers <= MOST_REGISTERS
        && wire.spare == 0
}

/// Refusals 5 and 6, for bytes whose frame has been accepted.
pub fn entries(bytes: &[u8], frame: Frame) -> Result<Sheet, Refusal> {
    let blocks: Vec<Block> = (0..frame.n)
        .map(|i| {
            let at = HEADER + ENTRY * i;
            Block {
                delay: long(bytes, at),
                lower: word(bytes, at + 4) as i16,
                upper: word(bytes, at + 6) as i16,
            }
        })
        .collect();
    let wires: Vec<Wire> = (0..frame.m)
        .map(|i| {
            let at = wire_table(frame.n) + ENTRY * i;
            Wire {
                from: word(bytes, at),
                to: word(bytes, at + 2),
                registers: word(bytes, at + 4),
                spare: word(bytes, at + 6),
            }
        })
        .collect();
    // Every block is judged before any wire.
    if let Some(bad) = (0..frame.n).find(|&i| !block_is_sound(i, &blocks[i])) {
        return Err(refusal(5, bad));
    }
    if let Some(bad) = (0..frame.m).find(|&i| !wire_is_sound(frame.n, &wires[i])) {
        return Err(refusal(6, bad));
    }
    Ok(Sheet { blocks, wires })
}

impl Sheet {
    pub fn n(&self) -> usize {
        self.blocks.len()
    }

    /// The bytes of this sheet, whatever its entries hold.
    pub fn bytes(&self) -> Vec<u8> {
        let (n, m) = (self.blocks.len(), self.wires.len());
        let mut out = Vec::with_capacity(total(n, m));
        out.extend((n as u16).to_le_bytes());
        out.extend((m as u16).to_le_bytes());
        out.extend((HEADER as u32).to_le_bytes());
        out.extend((wire_table(n) as u32).to_le_bytes());
        out.extend((total(n, m) as u32).to_le_bytes());
        for b in &self.blocks {
            out.extend(b.delay.to_le_bytes());
            out.extend(b.lower.to_le_bytes());
            out.extend(b.upper.to_le_bytes());
        }
        for w in &self.wires {
            out.extend(w.from.to_le_bytes());
            out.extend(w.to.to_le_bytes());
            out.extend(w.registers.to_le_bytes());
            out.extend(w.spare.to_le_bytes());
        }
        out
    }
}

#[cfg(test)]
mod tests {
    use super::*;
    use crate::known;

    fn read(bytes: &[u8]) -> Result<Sheet, Refusal> {
        frame(bytes).and_then(|f| entries(bytes, f))
    }

    #[test]
    fn a_written_sheet_is_read_back() {
        for sheet in [known::ring(), known::correlator(), known::filter(), known::host_alone()] {
            assert_eq!(read(&sheet.bytes()), Ok(sheet));
        }
    }

    #[test]
    fn the_ring_has_these_bytes() {
        let bytes = known::ring().bytes();
        assert_eq!(bytes.len(), 80);
        assert_eq!(bytes[..16], [4, 0, 4, 0, 16, 0, 0, 0, 48, 0, 0, 0, 80, 0, 0, 0]);
        assert_eq!(bytes[16..32], [0, 0, 0, 0, 0, 0, 0, 0, 3, 0, 0, 0, 254, 255, 2, 0]);
        assert_eq!(bytes[72..], [3, 0, 0, 0, 1, 0, 0, 0]);
    }

    #[test]
    fn header_refusals() {
        assert_eq!(frame(&[]), Err(refusal(1, 0)));
        assert_eq!(frame(&[0; 15]), Err(refusal(1, 0)));
        assert_eq!(frame(&[0; 16]), Err(refusal(2, 0)));
        let mut longer = known::ring().bytes();
        longer.push(0);
        assert_eq!(frame(&longer), Err(refusal(3, 0)));
        let mut many = known::ring().bytes();
        many[2..4].copy_from_slice(&257u16.to_le_bytes());
        assert_eq!(frame(&many), Err(refusal(2, 0)));
    }

    #[test]
    fn block_limits() {
        let sound = |delay, lower, upper| block_is_sound(1, &Block { delay, lower, upper });
        assert!(sound(10_000, -500, 500));
        assert!(!sound(10_001, -500, 500));
        assert!(!sound(10_000, -500, 501));
        assert!(sound(0, 1_000, 1_000));
        assert!(sound(0, -1_000, 0));
        assert!(!sound(0, -1_001, 0));
        assert!(!sound(0, 1, 0));
        assert!(!sound(0, i16::MIN, i16::MAX));
        assert!(!sound(0, i16::MAX, i16::MIN));
        assert!(!block_is_sound(0, &Block { delay: 1, lower: 0, upper: 0 }));
        assert!(!block_is_sound(0, &Block { delay: 0, lower: -1, upper: 0 }));
    }

    #[test]
    fn wire_limits() {
        let wire = |from, to, registers, spare| wire_is_sound(3, &Wire { from, to, registers, spare });
        assert!(wire(2, 2, 2_000, 0));
        assert!(!wire(2, 2, 2_001, 0));
        assert!(!wire(3, 0, 0, 0));
        assert!(!wire(0, 3, 0, 0));
        assert!(!wire(0, 0, 0, 1));
    }
}
