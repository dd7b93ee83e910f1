//! Sheet to text. A sheet that the library refuses is shown too, as long as its tables can be found.

use std::fmt::Write;

const HEADER: usize = 16;

fn u16_at(sheet: &[u8], at: usize) -> u16 {
    u16::from_le_bytes([sheet[at], sheet[at + 1]])
}

fn u32_at(sheet: &[u8], at: usize) -> u32 {
    u32::from(u16_at(sheet, at)) | u32::from(u16_at(sheet, at + 2)) << 16
}

/// The numbers of blocks and wires, where the header is that of a sheet with these tables.
fn counts(sheet: &[u8]) -> Result<(usize, usize), String> {
    if sheet.len() < HEADER {
        return Err(format!(
            "a sheet has a header of {HEADER} bytes, and here are {}",
            sheet.len()
        ));
    }
    let (n, m) = (usize::from(u16_at(sheet, 0)), usize::from(u16_at(sheet, 2)));
    let (wires, total) = (HEADER + 8 * n, HEADER + 8 * n + 8 * m);
    let named = [4, 8, 12].map(|at| u32_at(sheet, at) as usize);
    if named != [HEADER, wires, total] {
        return Err(format!(
            "the header has {n} blocks and {m} wires, so its offsets and total should be {HEADER}, {wires} and {total}, not {}, {} and {}",
            named[0], named[1], named[2]
        ));
    }
    match sheet.len() == total {
        true => Ok((n, m)),
        false => Err(format!(
            "the header has a total of {total} bytes, and here are {}",
            sheet.len()
        )),
    }
}

/// What the text form cannot say stands in a comment.
fn spare(field: u16) -> String {
    match field {
        0 => String::new(),
        x => format!("  # its last field is {x}, not 0"),
    }
}

/// The text of a sheet, or a message where its header does not say where the entries are.
pub fn text(sheet: &[u8]) -> Result<String, String> {
    let (n, m) = counts(sheet)?;
    let mut text = format!("# {n} blocks: delay, lower and upper lag; the first is the host\n");
    for at in (0..n).map(|b| HEADER + 8 * b) {
        let (lower, upper) = (u16_at(sheet, at + 4) as i16, u16_at(sheet, at + 6) as i16);
        writeln!(text, "block {} {lower} {upper}", u32_at(sheet, at)).map_err(|e| e.to_string())?;
    }
    writeln!(text, "# {m} wires: from, to, registers").map_err(|e| e.to_string())?;
    for at in (0..m).map(|j| HEADER + 8 * n + 8 * j) {
        let [from, to, registers, last] = [0, 2, 4, 6].map(|i| u16_at(sheet, at + i));
        writeln!(text, "wire {from} {to} {registers}{}", spare(last)).map_err(|e| e.to_string())?;
    }
    Ok(text)
}

#[cfg(test)]
mod tests {
    use super::text;
    use crate::read;

    fn pair() -> Vec<u8> {
        read::sheet("block 0 0 0\nblock 7 -1 2\nwire 0 1 3\n").unwrap()
    }

    #[test]
    fn has_a_line_for_each_entry() {
        let expected = "# 2 blocks: delay, lower and upper lag; the first is the host\nblock 0 0 0\nblock 7 -1 2\n\
                        # 1 wires: from, to, registers\nwire 0 1 3\n";
        assert_eq!(text(&pair()), Ok(expected.to_string()));
    }

    #[test]
    fn shows_what_the_library_refuses() {
        let mut sheet = pair();
        (sheet[24], sheet[25], sheet[38]) = (0x11, 0x27, 5);
        let shown = text(&sheet).unwrap();
        assert!(shown.contains("block 10001 -1 2\n"));
        assert!(shown.contains("wire 0 1 3  # its last field is 5, not 0\n"));
    }

    #[test]
    fn says_what_is_wrong_with_a_header() {
        assert_eq!(
            text(&pair()[..15]),
            Err("a sheet has a header of 16 bytes, and here are 15".to_string())
        );
        assert_eq!(
            text(&pair()[..39]),
            Err("the header has a total of 40 bytes, and here are 39".to_string())
        );
        let mut sheet = pair();
        sheet[8] = 33;
        let message = "the header has 2 blocks and 1 wires, so its offsets and total should be 16, 32 and 40, not 16, 33 and 40";
        assert_eq!(text(&sheet), Err(message.to_string()));
    }
}
