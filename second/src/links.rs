//! Loops that prove a refusal: words to rules, and whether these form a valid loop.

use crate::sheet::{Sheet, MOST_REGISTERS};

pub const MOST_WORDS: usize = 4_224;

/// lag(a) - lag(b) <= k.
#[derive(Clone, Copy, Debug, PartialEq, Eq)]
pub struct Rule {
    pub a: usize,
    pub b: usize,
    pub k: i64,
}

/// The rule of a path, if its wires join and its delay exceeds c.
fn path_rule(sheet: &Sheet, c: u32, start: u16, wires: &[u16]) -> Option<Rule> {
    let mut here = start;
    let mut delay = sheet.blocks.get(start as usize)?.delay as u64;
    let mut registers = 0;
    for &number in wires {
        let wire = sheet.wires.get(number as usize)?;
        if wire.from != here {
            return None;
        }
        here = wire.to;
        // A block counts as often as it is passed.
        delay += sheet.blocks[here as usize].delay as u64;
        registers += wire.registers as i64;
    }
    let rule = Rule { a: start as usize, b: here as usize, k: registers - 1 };
    (delay > c as u64).then_some(rule)
}

/// The rule of the first link and the words after it; none where the link is no good one.
fn first_link<'a>(sheet: &Sheet, c: u32, words: &'a [u16]) -> Option<(Rule, &'a [u16])> {
    match *words {
        [1, wire, ref rest @ ..] => {
            let w = sheet.wires.get(wire as usize)?;
            Some((Rule { a: w.from as usize, b: w.to as usize, k: w.registers as i64 }, rest))
        }
        [2, start, count, ref rest @ ..] => {
            let (wires, rest) = rest.split_at_checked(count as usize)?;
            Some((path_rule(sheet, c, start, wires)?, rest))
        }
        [3, block, ref rest @ ..] => {
            let limits = sheet.blocks.get(block as usize)?;
            Some((Rule { a: block as usize, b: 0, k: limits.upper as i64 }, rest))
        }
        [4, block, ref rest @ ..] => {
            let limits = sheet.blocks.get(block as usize)?;
            Some((Rule { a: 0, b: block as usize, k: -(limits.lower as i64) }, rest))
        }
        [5, wire, ref rest @ ..] => {
            let w = sheet.wires.get(wire as usize)?;
            let k = MOST_REGISTERS as i64 - w.registers as i64;
            Some((Rule { a: w.to as usize, b: w.from as usize, k }, rest))
        }
        _ => None,
    }
}

/// The rules of the whole list, in its order.
pub fn rules_of(sheet: &Sheet, c: u32, words: &[u16]) -> Option<Vec<Rule>> {
    let mut rules = Vec::new();
    let mut rest = words;
    while !rest.is_empty() {
        let (rule, after) = first_link(sheet, c, rest)?;
        rules.push(rule);
        rest = after;
    }
    Some(rules)
}

/// For a sound sheet.
pub fn is_valid(sheet: &Sheet, c: u32, words: &[u16]) -> bool {
    if words.is_empty() || words.len() > MOST_WORDS {
        return false;
    }
    let Some(rules) = rules_of(sheet, c, words) else {
        return false;
    };
    // The last b is the first a.
    let following = rules.iter().cycle().skip(1);
    let joined = rules.iter().zip(following).all(|(rule, next)| rule.b == next.a);
    joined && rules.iter().map(|rule| rule.k).sum::<i64>() < 0
}

#[cfg(test)]
mod tests {
    use super::*;
    use crate::known;

    const AT_SIX: [u16; 13] = [2, 1, 1, 1, 2, 2, 1, 2, 2, 3, 2, 3, 0];
    const LIMITED: [u16; 8] = [4, 1, 1, 1, 1, 2, 3, 3];

    fn on_ring(c: u32, words: &[u16]) -> bool {
        is_valid(&known::ring(), c, words)
    }

    fn on_limited(words: &[u16]) -> bool {
        is_valid(&known::ring_limited((1, 1), (-2, 0)), 0, words)
    }

    #[test]
    fn the_ring() {
        assert!(on_ring(6, &AT_SIX));
        assert!(!on_ring(7, &AT_SIX));
        let rules = rules_of(&known::ring(), 6, &AT_SIX).expect("three links");
        let ends: Vec<_> = rules.iter().map(|r| (r.a, r.b, r.k)).collect();
        assert_eq!(ends, [(1, 2, -1), (2, 3, -1), (3, 1, 1)]);
    }

    #[test]
    fn the_limited_ring() {
        let sheet = known::ring_limited((1, 1), (-2, 0));
        for c in [0, 7, 12, u32::MAX] {
            assert!(is_valid(&sheet, c, &LIMITED));
        }
        assert!(!is_valid(&known::ring_limited((0, 2), (-2, 0)), 0, &LIMITED));
    }

    #[test]
    fn empty_and_too_long() {
        assert!(!on_ring(6, &[]));
        assert!(on_limited(&LIMITED.repeat(528)));
        assert!(on_ring(6, &AT_SIX.repeat(324)));
        // 4,225 words, in which nothing else is wrong.
        assert!(!on_ring(6, &AT_SIX.repeat(325)));
        assert!(!on_limited(&LIMITED.repeat(529)));
    }

    #[test]
    fn unfinished_links() {
        let ends: [&[u16]; 9] = [&[1], &[2], &[2, 1], &[2, 1, 1], &[2, 1, 3, 1, 2], &[2, 1, 65_535, 1], &[3], &[4], &[5]];
        for end in ends {
            assert!(!on_limited(end));
            assert!(!on_limited(&[&LIMITED[..], end].concat()));
            assert!(!on_ring(6, &[&AT_SIX[..], end].concat()));
        }
    }

    #[test]
    fn unknown_kinds() {
        for kind in [0, 6, 7, 256, 257, 65_535] {
            let mut words = LIMITED;
            words[2] = kind;
            assert!(!on_limited(&words));
            assert!(!on_limited(&[&LIMITED[..], &[kind]].concat()));
        }
    }

    #[test]
    fn out_of_range() {
        let words: [&[u16]; 9] = [
            &[4, 1, 1, 1, 1, 4, 3, 3],
            &[4, 1, 1, 1, 5, 4, 3, 3],
            &[4, 4, 1, 1, 1, 2, 3, 3],
            &[4, 1, 1, 1, 1, 2, 3, 4],
            &[2, 4, 0],
            &[2, 65_535, 0],
            &[2, 1, 1, 4],
            &[2, 1, 1, 65_535],
            &[3, 65_535],
        ];
        for words in words {
            assert!(!on_limited(words));
            assert!(!on_limited(&[&LIMITED[..], words].concat()));
        }
    }

    #[test]
    fn paths_that_do_not_join() {
        assert!(on_ring(2, &[2, 1, 1, 1, 2, 2, 1, 2, 2, 3, 2, 3, 0]));
        assert!(!on_ring(2, &[2, 1, 1, 2, 2, 2, 1, 2, 2, 3, 2, 3, 0]));
        assert!(!on_ring(2, &[2, 1, 1, 1, 2, 2, 1, 2, 2, 3, 2, 0, 3]));
    }

    #[test]
    fn the_delay_of_a_path() {
        // A single block, which c must let pass.
        assert!(on_ring(4, &[2, 3, 0]));
        assert!(!on_ring(5, &[2, 3, 0]));
        assert!(on_ring(0, &[2, 1, 0]));
        assert!(!on_ring(0, &[2, 0, 0]));
        // Once round the ring block 1 is passed twice: 3 + 4 + 5 + 0 + 3.
        let round = [2, 1, 4, 1, 2, 3, 0];
        assert!(rules_of(&known::ring(), 14, &round).is_some());
        assert!(rules_of(&known::ring(), 15, &round).is_none());
    }

    #[test]
    fn broken_chains() {
        assert!(!on_limited(&[1, 1, 4, 1, 1, 2, 3, 3]));
        assert!(!on_limited(&[4, 1, 1, 1, 3, 3]));
        assert!(!on_limited(&[4, 1, 1, 1, 1, 2]));
        assert!(!on_limited(&[4, 1]));
        // Any link may be the first.
        assert!(on_limited(&[1, 1, 1, 2, 3, 3, 4, 1]));
        assert!(on_limited(&[3, 3, 4, 1, 1, 1, 1, 2]));
    }

    #[test]
    fn sums() {
        // The host with itself, a wire and its ceiling, a block's two limits: closed, and not below 0.
        for words in [[3, 0, 3, 0], [4, 0, 4, 0], [1, 0, 5, 0], [3, 1, 4, 1]] {
            assert!(!on_ring(0, &words));
        }
        // They may stand in a valid loop all the same.
        assert!(on_limited(&[&[3, 0, 4, 0], &LIMITED[..]].concat()));
        assert!(on_limited(&[&[4, 1, 3, 1], &LIMITED[..]].concat()));
        assert!(!on_limited(&[&[4, 0, 4, 1, 3, 1], &LIMITED[..], &[4, 2, 3, 2]].concat()));
        // A wire back to its own block.
        let own = known::sheet(&[0, 5], &[(1, 1, 1)]);
        assert!(!is_valid(&own, 4, &[1, 0]));
        assert!(!is_valid(&own, 4, &[2, 1, 0, 1, 0]));
        assert!(is_valid(&own, 4, &[2, 1, 0, 1, 0, 2, 1, 0]));
    }

    #[test]
    fn ceilings() {
        let mut sheet = known::sheet(&[0, 5], &[(0, 1, 2_000)]);
        assert!(!is_valid(&sheet, 0, &[4, 1, 5, 0]));
        (sheet.blocks[1].lower, sheet.blocks[1].upper) = (1, 2);
        assert!(is_valid(&sheet, 0, &[4, 1, 5, 0]));
        sheet.wires[0].registers = 1_999;
        assert!(!is_valid(&sheet, 0, &[4, 1, 5, 0]));
    }
}
