//! Cases on the loop check: valid loops found for many sheets, each spoilt in many ways, and words of every kind.

use super::Book;
use crate::known::{self, block, wire};
use crate::links::{self, MOST_WORDS};
use crate::random::Random;
use crate::refute::{refute, words, Link};
use crate::shapes;
use crate::sheet::Sheet;

pub fn cases(book: &mut Book, rng: &mut Random) {
    scope_lines(book);
    single_links(book);
    mutations(book, rng);
    found(book, rng);
    sums(book, rng);
    counts(book);
    long_lists(book);
    random(book, rng);
    refused_sheets(book, rng);
    full_size(book, rng);
}

const AT_SIX: [u16; 13] = [2, 1, 1, 1, 2, 2, 1, 2, 2, 3, 2, 3, 0];
const LIMITED: [u16; 8] = [4, 1, 1, 1, 1, 2, 3, 3];

fn limited() -> Sheet {
    known::ring_limited((1, 1), (-2, 0))
}

/// Block 1 must have a lag that the wire's limit forbids.
fn full_wire() -> Sheet {
    Sheet { blocks: vec![block(0, 0, 0), block(5, 1, 2)], wires: vec![wire(0, 1, 2_000), wire(1, 0, 3)] }
}

fn scope_lines(book: &mut Book) {
    for c in (0..=8).chain([12, 65_541, 1 << 31, u32::MAX - 1, u32::MAX]) {
        book.a_loop(&known::ring(), c, &AT_SIX);
        book.a_loop(&limited(), c, &LIMITED);
        // A single block.
        for b in 0..4 {
            if c <= 6 || c > 65_000 {
                book.a_loop(&known::ring(), c, &[2, b, 0]);
            }
        }
    }
    for c in [0, 6, u32::MAX] {
        book.a_loop(&known::ring(), c, &[]);
        book.a_loop(&known::ring(), c, &LIMITED);
        book.a_loop(&known::ring_limited((0, 2), (-2, 0)), c, &LIMITED);
        book.a_loop(&known::host_alone(), c, &[]);
        book.a_loop(&full_wire(), c, &[4, 1, 5, 0]);
        book.a_loop(&full_wire(), c, &[5, 0, 4, 1]);
    }
    // The ceiling's k from 0 to 3 against a lower limit of 1 or 2.
    for (registers, lower) in [(2_000, 2), (1_999, 1), (1_999, 2), (1_998, 1), (1_998, 2), (1_997, 2), (0, 2)] {
        let mut sheet = full_wire();
        sheet.wires[0].registers = registers;
        sheet.blocks[1].lower = lower;
        book.a_loop(&sheet, 7, &[4, 1, 5, 0]);
    }
    // Round the ring more than once: blocks count as often as they are passed.
    for rounds in 1..4usize {
        let mut path = vec![2, 1, 4 * rounds as u16];
        path.extend([1, 2, 3, 0].repeat(rounds));
        let delay = 12 * rounds as u32 + 3;
        let mut chain = path.clone();
        chain.extend([2, 1, 0].repeat(2 * rounds));
        for c in [delay - 1, delay, delay + 1] {
            book.a_loop(&known::ring(), c, &path);
        }
        for c in [0, 2, 3] {
            book.a_loop(&known::ring(), c, &chain);
        }
        // Back to block 1 by a lower limit that outweighs the registers.
        let mut high = known::ring();
        (high.blocks[1].lower, high.blocks[1].upper) = (900, 900);
        path.pop();
        path[2] -= 1;
        path.extend([4, 1]);
        for c in [delay - 4, delay - 3] {
            book.a_loop(&high, c, &path);
        }
    }
}

/// Every kind alone with every number that is in range, at an end or far out.
fn single_links(book: &mut Book) {
    let sheets = [limited(), known::sheet(&[0, 5], &[(0, 0, 2), (1, 1, 1)])];
    for sheet in &sheets {
        let (n, m) = (sheet.n() as u16, sheet.wires.len() as u16);
        for kind in [0, 1, 2, 3, 4, 5, 6, 257, 65_535] {
            book.a_loop(sheet, 0, &[kind]);
            for number in [0, 1, n - 1, n, m - 1, m, 256, 65_535] {
                book.a_loop(sheet, 0, &[kind, number]);
                if kind == 2 || number == 0 {
                    book.a_loop(sheet, 0, &[kind, number, 0]);
                    book.a_loop(sheet, 0, &[kind, number, 1, 0]);
                }
            }
        }
    }
}

/// Every word of some valid loops changed, left out or doubled, and every part of them.
fn mutations(book: &mut Book, rng: &mut Random) {
    let loops: [(Sheet, u32, &[u16]); 4] =
        [(known::ring(), 6, &AT_SIX), (limited(), 6, &LIMITED), (full_wire(), 9, &[4, 1, 5, 0]), (known::ring(), 4, &[2, 3, 0])];
    for (sheet, c, words) in loops {
        let (n, m) = (sheet.n() as u16, sheet.wires.len() as u16);
        for at in 0..words.len() {
            let old = words[at];
            let mut values = vec![old.wrapping_sub(1), old + 1, 0, old + 256, 65_535];
            values.extend([1, 2, 3, 4, 5, 6, n, m].iter().filter(|_| rng.chance(40)));
            for value in values {
                let mut changed = words.to_vec();
                changed[at] = value;
                book.a_loop(&sheet, c, &changed);
            }
            let mut changed = words.to_vec();
            changed.remove(at);
            book.a_loop(&sheet, c, &changed);
            let mut changed = words.to_vec();
            changed.insert(at, old);
            book.a_loop(&sheet, c, &changed);
            book.a_loop(&sheet, c, &words[..at]);
            book.a_loop(&sheet, c, &words[at..]);
        }
        for end in 0..=6 {
            book.a_loop(&sheet, c, &[words, &[end]].concat());
        }
        // Unfinished links of each kind after a loop that is complete.
        for end in [&[2, 1][..], &[2, 1, 1], &[2, 1, 2, 1], &[2, 1, 65_535, 1], &[3, 0, 3], &[4, 0, 4]] {
            book.a_loop(&sheet, c, &[words, end].concat());
        }
        for count in 2..5 {
            book.a_loop(&sheet, c, &words.repeat(count));
        }
    }
}

/// The links of a valid loop turned so that another comes first.
fn turned(links: &[Link], by: usize) -> Vec<Link> {
    let mut links = links.to_vec();
    let count = links.len();
    links.rotate_left(by % count);
    links
}

/// Ranges around 0 and beside it, so that many sheets have no lags.
fn with_ranges(rng: &mut Random, mut sheet: Sheet) -> Sheet {
    for b in &mut sheet.blocks[1..] {
        let (lower, upper) = rng.pick(&[(-2, 2), (0, 0), (1, 1), (-1, 0), (0, 1), (-1, -1), (2, 4), (-9, 9), (-500, 500)]);
        (b.lower, b.upper) = (lower, upper);
    }
    sheet
}

fn small_sheet(rng: &mut Random) -> Sheet {
    let n = 2 + rng.below(4);
    let m = n + rng.below(3);
    let closing = rng.below(n);
    let sheet = match rng.below(6) {
        0 => shapes::ring(rng, n, closing, 9),
        1 => shapes::parallel(rng, n, 2, 2, 9),
        2 => shapes::hub(rng, n, 9),
        3 => shapes::sound(rng, n, m, 2, 9),
        _ => shapes::connected(rng, n, m, 2, 9),
    };
    let mut sheet = with_ranges(rng, sheet);
    if rng.chance(25) {
        let at = rng.below(sheet.wires.len().max(1));
        if let Some(w) = sheet.wires.get_mut(at) {
            w.registers = 2_000;
        }
    }
    sheet
}

/// Loops of its own finding, as they are, turned, repeated, padded and spoilt.
fn found(book: &mut Book, rng: &mut Random) {
    let mut done = 0;
    while done < 46 {
        let sheet = small_sheet(rng);
        let c = if rng.chance(25) { None } else { Some(rng.below(20) as u32) };
        let Some(links) = refute(&sheet, c) else { continue };
        done += 1;
        let c = c.unwrap_or(rng.pick(&[0, 5, u32::MAX]));
        book.a_loop(&sheet, c, &words(&links));
        // The largest period at which all its paths are too slow, and one more.
        if let Some(most) = largest_period(&sheet, &links) {
            book.a_loop(&sheet, most, &words(&links));
            book.a_loop(&sheet, most + 1, &words(&links));
        }
        let turn = turned(&links, rng.below(links.len()));
        book.a_loop(&sheet, c, &words(&turn));
        spoil(book, rng, &sheet, c, &links);
        pad(book, rng, &sheet, c, &links);
    }
}

fn delay(sheet: &Sheet, start: usize, wires: &[usize]) -> u32 {
    let ends = wires.iter().map(|&j| sheet.wires[j].to as usize);
    std::iter::once(start).chain(ends).map(|b| sheet.blocks[b].delay).sum()
}

/// The largest period at which a valid loop is one, or none where it has no path.
fn largest_period(sheet: &Sheet, links: &[Link]) -> Option<u32> {
    let path_delay = |link: &Link| match link {
        Link::Path(start, wires) => Some(delay(sheet, *start, wires)),
        _ => None,
    };
    links.iter().filter_map(path_delay).min().map(|least| least - 1)
}

fn spoil(book: &mut Book, rng: &mut Random, sheet: &Sheet, c: u32, links: &[Link]) {
    let at = rng.below(links.len());
    let mut fewer = links.to_vec();
    fewer.remove(at);
    book.a_loop(sheet, c, &words(&fewer));
    let mut twice = links.to_vec();
    twice.insert(at, links[at].clone());
    book.a_loop(sheet, c, &words(&twice));
    if links.len() > 2 {
        let mut back = links.to_vec();
        back.reverse();
        book.a_loop(sheet, c, &words(&back));
        let mut swapped = links.to_vec();
        swapped.swap(at, (at + 1) % links.len());
        book.a_loop(sheet, c, &words(&swapped));
    }
    let mut changed = words(links);
    let at = rng.below(changed.len());
    changed[at] = rng.pick(&[0, 1, 2, 3, 4, 5, changed[at] + 1, sheet.n() as u16, sheet.wires.len() as u16]);
    book.a_loop(sheet, c, &changed);
}

/// Closed detours: repeated blocks and links, the host with itself, a block's two limits, a wire and its ceiling.
fn pad(book: &mut Book, rng: &mut Random, sheet: &Sheet, c: u32, links: &[Link]) {
    let once = words(links);
    let mut padded = once.clone();
    for _ in 0..1 + rng.below(3) {
        padded.extend(&once);
    }
    book.a_loop(sheet, c, &padded);
    let first = links::rules_of(sheet, c, &once).expect("valid loops have good links")[0].a as u16;
    let at = sheet.wires.iter().position(|w| w.from == first).unwrap_or(0) as u16;
    for detour in [[3, first, 4, first], [1, at, 5, at], [3, 0, 4, 0]] {
        let detour = &detour[..];
        book.a_loop(sheet, c, &[detour, &once].concat());
        if rng.chance(50) {
            book.a_loop(sheet, c, &[detour, &padded].concat());
        }
    }
}

/// Sums of exactly 0 and -1, by giving a wire of the loop more registers.
fn sums(book: &mut Book, rng: &mut Random) {
    let mut done = 0;
    while done < 30 {
        let sheet = small_sheet(rng);
        let c = if rng.chance(50) { None } else { Some(rng.below(12) as u32) };
        let Some(links) = refute(&sheet, c) else { continue };
        let c = c.unwrap_or(0);
        let once = words(&links);
        let Some(&Link::Wire(number)) = links.iter().find(|link| matches!(link, Link::Wire(_))) else { continue };
        let sum: i64 = links::rules_of(&sheet, c, &once).expect("valid loops have good links").iter().map(|r| r.k).sum();
        done += 1;
        for goal in [-2, -1, 0, 1] {
            let mut changed = sheet.clone();
            let registers = changed.wires[number].registers as i64 + goal - sum;
            if (1..=2_000).contains(&registers) {
                changed.wires[number].registers = registers as u16;
                book.a_loop(&changed, c, &once);
            }
        }
    }
    // Limits: -1,000 against 1,000 and 999.
    for (one, two) in [(1_000, 1_000), (1_000, 999), (999, 1_000), (-1_000, -1_000), (-999, -1_000)] {
        let blocks = vec![block(0, 0, 0), block(1, one, one), block(1, two, two)];
        let sheet = Sheet { blocks, wires: vec![wire(1, 2, 0), wire(2, 1, 1)] };
        for words in [[4, 1, 1, 0, 3, 2], [4, 2, 1, 1, 3, 1], [4, 1, 5, 1, 3, 2], [4, 2, 5, 0, 3, 1]] {
            book.a_loop(&sheet, 0, &words);
        }
    }
}

/// Counts that reach past the list, by a little and by as much as a word can say.
fn counts(book: &mut Book) {
    for count in [1, 2, 3, 4, 8, 9, 256, 32_767, 32_768, 65_530, 65_531, 65_532, 65_533, 65_534, 65_535] {
        book.a_loop(&known::ring(), 4, &[2, 3, count]);
        book.a_loop(&known::ring(), 4, &[2, 3, count, 3]);
        book.a_loop(&known::ring(), 4, &[2, 3, 0, 2, 3, count, 3, 0]);
        book.a_loop(&known::ring(), 4, &[2, 3, count, 3, 0, 1, 2, 3, 0, 1, 2]);
        book.a_loop(&known::ring(), 6, &[&AT_SIX[..11], &[count, 3, 0]].concat());
    }
}

/// Loops with the most words that are read, and one more.
fn long_lists(book: &mut Book) {
    let ring = known::ring();
    // 4,225 words in which nothing but the count is wrong.
    book.a_loop(&ring, 6, &AT_SIX.repeat(325));
    // One round less, and three times from block 1 to the host and back.
    let most = [AT_SIX.repeat(324), [3, 1, 4, 1].repeat(3)].concat();
    assert_eq!(most.len(), MOST_WORDS);
    book.a_loop(&ring, 6, &most);
    book.a_loop(&limited(), 0, &LIMITED.repeat(528));
    // A path with nearly all the words, round and round; from the host back to 1 by its lower limit.
    let mut slow = Sheet { blocks: vec![block(10_000, 1_000, 1_000); 8], wires: Vec::new() };
    slow.blocks[0] = block(0, 0, 0);
    slow.wires.extend((0..8).map(|i| wire(i, (i + 1) % 8, (i == 7) as u16)));
    let round: Vec<usize> = (1..=4_215).map(|i| i % 8).collect();
    let total = delay(&slow, 1, &round);
    let chain = words(&[Link::Path(1, round), Link::Upper(0), Link::Lower(0), Link::Lower(1)]);
    assert_eq!(chain.len(), MOST_WORDS);
    book.a_loop(&slow, total - 1, &chain);
    book.a_loop(&slow, total, &chain);
    // Registers beyond 16 bits, made up for by a lower limit again and again.
    let deep = Sheet { blocks: vec![block(0, 0, 0), block(1, 1_000, 1_000)], wires: vec![wire(0, 1, 2_000), wire(1, 0, 0)] };
    let mut chain = vec![2, 0, 70];
    chain.extend([0, 1].repeat(35));
    for times in [69, 70, 71] {
        book.a_loop(&deep, 0, &[&chain[..], &[4, 1, 1, 1].repeat(times)].concat());
    }
    // Sums beyond 16 bits, below 0 and above.
    for times in [33, 66] {
        book.a_loop(&deep, 0, &[4, 1, 1, 1].repeat(times));
        book.a_loop(&deep, 0, &[1, 0, 1, 1].repeat(times / 2 + 1));
    }
    book.a_loop(&deep, 0, &[&[1, 0, 1, 1].repeat(17)[..], &[4, 1, 1, 1].repeat(34)].concat());
    book.a_loop(&deep, 0, &[&[1, 0, 1, 1].repeat(17)[..], &[4, 1, 1, 1].repeat(35)].concat());
    book.a_loop(&deep, 0, &[&[4, 1, 1, 1].repeat(35)[..], &[1, 0, 1, 1].repeat(17)].concat());
}

/// Links in range that seldom form a chain, and bare words.
fn random(book: &mut Book, rng: &mut Random) {
    for _ in 0..80 {
        let sheet = small_sheet(rng);
        let count = 1 + rng.below(3);
        let words = shapes::words(rng, &sheet, count);
        let c = rng.pick(&[0, 1, 4, 9, u32::MAX]);
        book.a_loop(&sheet, c, &words);
    }
    for _ in 0..30 {
        let length = 1 + rng.below(12);
        let words: Vec<u16> = (0..length).map(|_| rng.below(6) as u16).collect();
        book.a_loop(&limited(), rng.below(12) as u32, &words);
    }
}

/// A valid loop and an empty list on sheets that are refused.
fn refused_sheets(book: &mut Book, rng: &mut Random) {
    let good = limited().bytes();
    let mut refused = Vec::new();
    for length in [0, 1, 15, 16, 17, 79, 81] {
        let mut bytes = good.clone();
        bytes.resize(length, 0);
        refused.push(bytes);
    }
    for (at, value) in [(0, 0), (0, 65), (0, 3), (3, 2), (2, 5), (4, 17), (8, 40), (12, 88), (16, 1), (20, 1)] {
        let mut bytes = good.clone();
        bytes[at] = value;
        refused.push(bytes);
    }
    for at in [0, 1, 3] {
        let mut sheet = limited();
        sheet.blocks[at].delay = 10_001;
        refused.push(sheet.bytes());
        sheet.wires[at].registers = 2_001;
        refused.push(sheet.bytes());
        sheet.blocks[at].delay = 0;
        refused.push(sheet.bytes());
        sheet = limited();
        sheet.wires[at].spare = 1;
        refused.push(sheet.bytes());
        sheet = limited();
        sheet.wires[at].to = 4;
        refused.push(sheet.bytes());
        sheet = limited();
        sheet.wires.push(wire(at, at, 0));
        refused.push(sheet.bytes());
    }
    let mut sheet = limited();
    sheet.wires[0].registers = 0;
    sheet.wires[3].registers = 0;
    refused.push(sheet.bytes());
    for bytes in refused {
        book.loop_bytes(&bytes, 6, &LIMITED);
        book.loop_bytes(&bytes, 6, rng.pick(&[&[][..], &[0], &[2, 1, 9], &AT_SIX, &[4, 9]]));
    }
    // Too many words for any loop, on a sheet that is no sheet.
    book.loop_bytes(&good[..15], 0, &[1; 4_225]);
}

/// The least period without a loop lies above the slowest block, so that the loop below it has more than one link.
fn full_size(book: &mut Book, rng: &mut Random) {
    for (most, delay) in [(1, 99), (2, 10_000)] {
        let mut sheet = shapes::connected(rng, 64, 200, most, delay);
        for b in &mut sheet.blocks[1..] {
            (b.lower, b.upper) = (-500, 500);
        }
        let mut c = sheet.blocks.iter().map(|b| b.delay).max().unwrap_or(0);
        let mut last = None;
        while let Some(links) = refute(&sheet, Some(c)) {
            c = largest_period(&sheet, &links).expect("these ranges permit lags") + 1;
            last = Some((c - 1, links));
        }
        let Some((c, links)) = last else { continue };
        book.a_loop(&sheet, c, &words(&links));
        book.a_loop(&sheet, c + 1, &words(&links));
    }
}
