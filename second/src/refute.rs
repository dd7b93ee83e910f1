//! Finds loops that prove a refusal: of every sheet and period without lags, one with the fewest links.

use crate::links::Rule;
use crate::paths::{self, Table, NO_PATH};
use crate::sheet::{Sheet, MOST_REGISTERS};

#[derive(Clone, Debug, PartialEq, Eq)]
pub enum Link {
    Wire(usize),
    Path(usize, Vec<usize>),
    Upper(usize),
    Lower(usize),
    Ceiling(usize),
}

impl Link {
    pub fn words(&self) -> Vec<u16> {
        match self {
            Link::Wire(wire) => vec![1, *wire as u16],
            Link::Path(start, wires) => {
                let mut words = vec![2, *start as u16, wires.len() as u16];
                words.extend(wires.iter().map(|&j| j as u16));
                words
            }
            Link::Upper(block) => vec![3, *block as u16],
            Link::Lower(block) => vec![4, *block as u16],
            Link::Ceiling(wire) => vec![5, *wire as u16],
        }
    }
}

/// The wires of a path from u to v with the table's registers and delay, found forwards.
fn best_path(sheet: &Sheet, table: &Table, u: usize, v: usize) -> Vec<usize> {
    let mut wires = Vec::new();
    let mut here = u;
    while table.at(here, v) != (0, sheet.blocks[v].delay) || here != v {
        let (registers, delay) = table.at(here, v);
        let completes = |j: &usize| {
            let w = &sheet.wires[*j];
            let rest = table.at(w.to as usize, v);
            w.from as usize == here
                && rest != NO_PATH
                && w.registers as u32 + rest.0 == registers
                && sheet.blocks[here].delay + rest.1 == delay
        };
        let next = (0..sheet.wires.len()).find(completes).expect("a best path goes on by a wire");
        wires.push(next);
        here = sheet.wires[next].to as usize;
    }
    wires
}

/// What lags must keep on this sheet, with the links; path rules only where there is a period.
fn rules(sheet: &Sheet, c: Option<u32>) -> Vec<(Rule, Link)> {
    let mut rules = Vec::new();
    for (j, w) in sheet.wires.iter().enumerate() {
        let (a, b, registers) = (w.from as usize, w.to as usize, w.registers as i64);
        rules.push((Rule { a, b, k: registers }, Link::Wire(j)));
        rules.push((Rule { a: b, b: a, k: MOST_REGISTERS as i64 - registers }, Link::Ceiling(j)));
    }
    for (i, limits) in sheet.blocks.iter().enumerate() {
        rules.push((Rule { a: i, b: 0, k: limits.upper as i64 }, Link::Upper(i)));
        rules.push((Rule { a: 0, b: i, k: -(limits.lower as i64) }, Link::Lower(i)));
    }
    if let Some(c) = c {
        let table = paths::table(sheet);
        for u in 0..table.n {
            for v in 0..table.n {
                let (registers, delay) = table.at(u, v);
                if (registers, delay) != NO_PATH && delay > c {
                    let rule = Rule { a: u, b: v, k: registers as i64 - 1 };
                    rules.push((rule, Link::Path(u, best_path(sheet, &table, u, v))));
                }
            }
        }
    }
    rules
}

/// A closed chain with a sum below 0 and the fewest links, or none: for every start and number of links the least sum.
fn closed_chain(n: usize, rules: &[Rule]) -> Option<Vec<usize>> {
    // Of the rules with the same ends only a tightest one counts.
    let mut tightest = vec![None; n * n];
    for (i, rule) in rules.iter().enumerate() {
        let best: &mut Option<usize> = &mut tightest[rule.a * n + rule.b];
        if best.is_none_or(|old| rule.k < rules[old].k) {
            *best = Some(i);
        }
    }
    let tightest: Vec<usize> = tightest.into_iter().flatten().collect();
    let mut found: Option<Vec<usize>> = None;
    for start in 0..n {
        let mut least: Vec<Option<i64>> = vec![None; n];
        least[start] = Some(0);
        // The last link of each least chain, a layer for each number of links.
        let mut last: Vec<Vec<usize>> = Vec::new();
        let most = found.as_ref().map_or(n, |chain| chain.len() - 1);
        for _ in 0..most {
            let mut next = vec![None; n];
            let mut by = vec![0; n];
            for &i in &tightest {
                let rule = rules[i];
                let Some(sum) = least[rule.a] else { continue };
                if next[rule.b].is_none_or(|old| sum + rule.k < old) {
                    next[rule.b] = Some(sum + rule.k);
                    by[rule.b] = i;
                }
            }
            least = next;
            last.push(by);
            if least[start].is_some_and(|sum| sum < 0) {
                let mut chain = Vec::new();
                let mut here = start;
                for by in last.iter().rev() {
                    chain.push(by[here]);
                    here = rules[by[here]].a;
                }
                chain.reverse();
                found = Some(chain);
                break;
            }
        }
    }
    found
}

/// A valid loop at this period, or none where some permitted lags meet it; without a period, where some are permitted.
pub fn refute(sheet: &Sheet, c: Option<u32>) -> Option<Vec<Link>> {
    let rules = rules(sheet, c);
    let bare: Vec<Rule> = rules.iter().map(|(rule, _)| *rule).collect();
    let chain = closed_chain(sheet.n(), &bare)?;
    Some(chain.into_iter().map(|i| rules[i].1.clone()).collect())
}

pub fn words(links: &[Link]) -> Vec<u16> {
    links.iter().flat_map(Link::words).collect()
}

#[cfg(test)]
mod tests {
    use super::*;
    use crate::known;
    use crate::links;
    use crate::random::Random;
    use crate::shapes;
    use crate::trial;

    #[test]
    fn the_ring() {
        let ring = known::ring();
        for c in 7..13 {
            assert_eq!(refute(&ring, Some(c)), None);
        }
        for c in 0..7 {
            let found = refute(&ring, Some(c)).expect("no lags meet it");
            assert!(links::is_valid(&ring, c, &words(&found)));
        }
        assert_eq!(refute(&ring, None), None);
        let limited = known::ring_limited((1, 1), (-2, 0));
        let found = refute(&limited, None).expect("no lags are permitted");
        assert_eq!(found.len(), 4);
        assert!(links::is_valid(&limited, u32::MAX, &words(&found)));
    }

    #[test]
    fn the_correlator() {
        let mut sheet = known::correlator();
        for b in &mut sheet.blocks[1..] {
            (b.lower, b.upper) = (-9, 9);
        }
        assert_eq!(refute(&sheet, Some(13)), None);
        let found = refute(&sheet, Some(12)).expect("13 is the best");
        assert!(links::is_valid(&sheet, 12, &words(&found)));
    }

    fn periods_by_trying(sheet: &Sheet) -> Vec<u32> {
        trial::permitted(sheet).into_iter().map(|(_, period)| period).collect()
    }

    #[test]
    fn a_loop_is_found_exactly_if_no_lags_are() {
        let mut rng = Random::new(81);
        let (mut with, mut without) = (0, 0);
        for _ in 0..1_500 {
            let sheet = trial::narrow(&mut rng);
            let periods = periods_by_trying(&sheet);
            let c = rng.between(0, 30) as u32;
            for (c, none) in [(Some(c), periods.iter().all(|&p| p > c)), (None, periods.is_empty())] {
                let found = refute(&sheet, c);
                assert_eq!(found.is_some(), none);
                if let Some(found) = found {
                    assert!(links::is_valid(&sheet, c.unwrap_or(u32::MAX), &words(&found)));
                    with += 1;
                } else {
                    without += 1;
                }
            }
        }
        assert!(with > 300 && without > 300);
    }

    #[test]
    fn no_words_refute_what_lags_meet() {
        let mut rng = Random::new(82);
        let mut accepted = 0;
        for _ in 0..3_000 {
            let sheet = trial::narrow(&mut rng);
            let periods = periods_by_trying(&sheet);
            for _ in 0..60 {
                let c = rng.between(0, 20) as u32;
                let count = 1 + rng.below(4);
                let words = shapes::words(&mut rng, &sheet, count);
                if links::is_valid(&sheet, c, &words) {
                    accepted += 1;
                    assert!(periods.iter().all(|&p| p > c));
                }
            }
        }
        assert!(accepted > 100);
    }
}
