//! Text to sheet.

const MOST_BLOCKS: usize = 64;
const MOST_WIRES: usize = 256;

/// A line's numbers, each with its name and the range that its field can hold.
struct Form {
    word: &'static str,
    numbers: [(&'static str, i64, i64); 3],
}

const BLOCK: Form = Form {
    word: "block",
    numbers: [
        ("delay", 0, u32::MAX as i64),
        ("lower lag", -32768, 32767),
        ("upper lag", -32768, 32767),
    ],
};
const WIRE: Form = Form {
    word: "wire",
    numbers: [
        ("from", 0, 65535),
        ("to", 0, 65535),
        ("registers", 0, 65535),
    ],
};

fn number(word: &str, name: &str, least: i64, most: i64) -> Result<i64, String> {
    let digits = word.strip_prefix('-').unwrap_or(word);
    if digits.is_empty() || !digits.bytes().all(|b| b.is_ascii_digit()) {
        return Err(format!(
            "{name}: '{}' is not a whole number",
            word.escape_debug()
        ));
    }
    match word.parse::<i64>() {
        Ok(x) if least <= x && x <= most => Ok(x),
        _ => Err(format!("{name}: {word} is not from {least} to {most}")),
    }
}

fn numbers(form: &Form, words: &[&str]) -> Result<[i64; 3], String> {
    let mut found = [0; 3];
    for (i, &(name, least, most)) in form.numbers.iter().enumerate() {
        let word = words
            .get(i)
            .ok_or_else(|| format!("{}: {name} is missing", form.word))?;
        found[i] = number(word, name, least, most)?;
    }
    match words.get(3) {
        Some(word) => Err(format!(
            "{}: '{}' is one word too many",
            form.word,
            word.escape_debug()
        )),
        None => Ok(found),
    }
}

#[derive(Default)]
struct Lines {
    blocks: Vec<[i64; 3]>,
    wires: Vec<[i64; 3]>,
}

impl Lines {
    fn block(&mut self, words: &[&str]) -> Result<(), String> {
        if !self.wires.is_empty() {
            return Err("a block after the first wire: all blocks come first".to_string());
        }
        if self.blocks.len() == MOST_BLOCKS {
            return Err(format!("more than {MOST_BLOCKS} blocks"));
        }
        self.blocks.push(numbers(&BLOCK, words)?);
        Ok(())
    }

    fn wire(&mut self, words: &[&str]) -> Result<(), String> {
        if self.blocks.is_empty() {
            return Err("a wire before the first block: all blocks come first".to_string());
        }
        if self.wires.len() == MOST_WIRES {
            return Err(format!("more than {MOST_WIRES} wires"));
        }
        self.wires.push(numbers(&WIRE, words)?);
        Ok(())
    }

    fn add(&mut self, line: &str) -> Result<(), String> {
        let words: Vec<&str> = line
            .split('#')
            .next()
            .unwrap_or("")
            .split_whitespace()
            .collect();
        match words.split_first() {
            None => Ok(()),
            Some((&"block", rest)) => self.block(rest),
            Some((&"wire", rest)) => self.wire(rest),
            Some((word, _)) => Err(format!(
                "unknown word '{}': a line begins with block, wire or #",
                word.escape_debug()
            )),
        }
    }

    fn bytes(&self) -> Vec<u8> {
        let (n, m) = (self.blocks.len(), self.wires.len());
        let mut sheet = Vec::new();
        sheet.extend((n as u16).to_le_bytes());
        sheet.extend((m as u16).to_le_bytes());
        for place in [16, 16 + 8 * n, 16 + 8 * n + 8 * m] {
            sheet.extend((place as u32).to_le_bytes());
        }
        for [delay, lower, upper] in &self.blocks {
            sheet.extend((*delay as u32).to_le_bytes());
            sheet.extend((*lower as i16).to_le_bytes());
            sheet.extend((*upper as i16).to_le_bytes());
        }
        for [from, to, registers] in &self.wires {
            for field in [*from, *to, *registers, 0] {
                sheet.extend((field as u16).to_le_bytes());
            }
        }
        sheet
    }
}

/// The sheet that the text describes, or a message with the number of the line at fault.
pub fn sheet(text: &str) -> Result<Vec<u8>, String> {
    let mut lines = Lines::default();
    // some editors put this mark before all text
    let text = text.strip_prefix('\u{feff}').unwrap_or(text);
    for (i, line) in text.lines().enumerate() {
        lines
            .add(line)
            .map_err(|e| format!("line {}: {e}", i + 1))?;
    }
    match lines.blocks.is_empty() {
        true => Err("no block: the first block line is the host, 'block 0 0 0'".to_string()),
        false => Ok(lines.bytes()),
    }
}

#[cfg(test)]
mod tests {
    use super::sheet;
    use crate::show;

    const RING: &str = "block 0 0 0\nblock 3 -2 2\nblock 4 -2 2\nblock 5 -2 2\nwire 0 1 1\nwire 1 2 0\nwire 2 3 0\nwire 3 0 1\n";

    fn fails(text: &str, message: &str) {
        assert_eq!(sheet(text), Err(message.to_string()));
    }

    #[test]
    fn comes_back_as_it_was() {
        let bytes = sheet(RING).unwrap();
        assert_eq!(bytes.len(), 16 + 8 * 4 + 8 * 4);
        assert_eq!(sheet(&show::text(&bytes).unwrap()), Ok(bytes));
    }

    #[test]
    fn passes_over_comments_and_blank_lines() {
        assert_eq!(sheet("\u{feff}block 0 0 0\n"), sheet("block 0 0 0"));
        assert_eq!(
            sheet("# a host\n\n  block 0 0 0 # alone\r\n"),
            sheet("block 0 0 0")
        );
    }

    #[test]
    fn takes_the_whole_range_of_each_field() {
        let text = "block 4294967295 -32768 32767\nwire 65535 65535 65535\n";
        let shown = show::text(&sheet(text).unwrap()).unwrap();
        assert!(
            shown.contains("block 4294967295 -32768 32767\n")
                && shown.contains("wire 65535 65535 65535\n")
        );
    }

    #[test]
    fn takes_64_blocks_and_256_wires_and_no_more() {
        let full = "block 0 0 0\n".repeat(64) + &"wire 0 0 1\n".repeat(256);
        assert_eq!(sheet(&full).map(|s| s.len()), Ok(2576));
        fails(&(full + "wire 0 0 1\n"), "line 321: more than 256 wires");
        fails(&"block 0 0 0\n".repeat(65), "line 65: more than 64 blocks");
    }

    #[test]
    fn names_the_line_and_the_fault() {
        fails(
            "block 0 0 0\nblok 3 0 0",
            "line 2: unknown word 'blok': a line begins with block, wire or #",
        );
        fails("block 0 0", "line 1: block: upper lag is missing");
        fails("block", "line 1: block: delay is missing");
        fails(
            "block 0 0 0\nwire 0 0",
            "line 2: wire: registers is missing",
        );
        fails("block 0 0 0 5", "line 1: block: '5' is one word too many");
        fails("block x 0 0", "line 1: delay: 'x' is not a whole number");
        fails("block +1 0 0", "line 1: delay: '+1' is not a whole number");
        fails(
            "block -1 0 0",
            "line 1: delay: -1 is not from 0 to 4294967295",
        );
        fails(
            "block 0 -32769 0",
            "line 1: lower lag: -32769 is not from -32768 to 32767",
        );
        fails(
            "block 0 0 32768",
            "line 1: upper lag: 32768 is not from -32768 to 32767",
        );
        fails(
            "block 0 0 0\n\nwire 0 65536 1",
            "line 3: to: 65536 is not from 0 to 65535",
        );
        fails(
            "block 99999999999999999999 0 0",
            "line 1: delay: 99999999999999999999 is not from 0 to 4294967295",
        );
    }

    #[test]
    fn wants_the_blocks_first() {
        fails(
            "wire 0 0 1",
            "line 1: a wire before the first block: all blocks come first",
        );
        fails(
            "block 0 0 0\nwire 0 0 1\nblock 1 0 0",
            "line 3: a block after the first wire: all blocks come first",
        );
        fails(
            "# nothing\n",
            "no block: the first block line is the host, 'block 0 0 0'",
        );
    }
}
