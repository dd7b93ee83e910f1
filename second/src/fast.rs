//! Check, period and best period of one sheet, as fast as safe Rust on one thread gave them: what the library's speed is held to.
//!
//! A register-free order of the blocks serves the loop test and the period. The path table is kept by end block, so that
//! one wire is tried for all start blocks at once. Periods are tried between bounds, each test starting from the
//! largest lags of the last period that was met.

use crate::questions::{loop_room, Answer, DONE, NONE_PERMITTED};
use crate::sheet::{
    total, wire_table, ENTRY, HEADER, MOST_BLOCKS, MOST_DELAY, MOST_LAG, MOST_REGISTERS, MOST_SPREAD, MOST_WIRES,
};

const N: usize = MOST_BLOCKS;

/// One block's entries for all other blocks.
type Row<T> = [T; N];

/// A sheet's numbers in lists of fixed length, as many of each as `n` and `m` say.
struct Core {
    n: usize,
    m: usize,
    delay: Row<u32>,
    lower: Row<i16>,
    upper: Row<i16>,
    from: [u8; MOST_WIRES],
    to: [u8; MOST_WIRES],
    registers: [u16; MOST_WIRES],
}

fn refused(number: u32, place: usize) -> Answer {
    Answer { number, place: place as u32, value: 0 }
}

fn words(entry: &[u8]) -> [u16; 4] {
    let bits = u64::from_le_bytes(entry.try_into().expect("an entry has 8 bytes"));
    [bits as u16, (bits >> 16) as u16, (bits >> 32) as u16, (bits >> 48) as u16]
}

fn long(bytes: &[u8], at: usize) -> u32 {
    u32::from_le_bytes(bytes[at..at + 4].try_into().expect("four bytes"))
}

/// Refusals 1, 2 and 3, or both counts.
fn read_header(bytes: &[u8]) -> Result<(usize, usize), Answer> {
    if bytes.len() < HEADER {
        return Err(refused(1, 0));
    }
    let n = u16::from_le_bytes([bytes[0], bytes[1]]) as usize;
    let m = u16::from_le_bytes([bytes[2], bytes[3]]) as usize;
    if n == 0 || n > MOST_BLOCKS || m > MOST_WIRES {
        return Err(refused(2, 0));
    }
    let right = long(bytes, 4) == HEADER as u32
        && long(bytes, 8) == wire_table(n) as u32
        && long(bytes, 12) == total(n, m) as u32
        && bytes.len() == total(n, m);
    if right {
        Ok((n, m))
    } else {
        Err(refused(3, 0))
    }
}

/// Refusals 5 and 6, or the numbers.
fn read_entries(bytes: &[u8], n: usize, m: usize) -> Result<Core, Answer> {
    let mut core = Core {
        n,
        m,
        delay: [0; N],
        lower: [0; N],
        upper: [0; N],
        from: [0; MOST_WIRES],
        to: [0; MOST_WIRES],
        registers: [0; MOST_WIRES],
    };
    let (blocks, wires) = bytes[HEADER..].split_at(ENTRY * n);
    for (i, entry) in blocks.chunks_exact(ENTRY).enumerate() {
        let [low, high, lower, upper] = words(entry);
        let delay = low as u32 | (high as u32) << 16;
        let (lower, upper) = (lower as i16, upper as i16);
        let sound = delay <= MOST_DELAY
            && lower >= -MOST_LAG
            && upper <= MOST_LAG
            && lower <= upper
            && upper as i32 - lower as i32 <= MOST_SPREAD
            && (i > 0 || (delay == 0 && lower == 0 && upper == 0));
        if !sound {
            return Err(refused(5, i));
        }
        (core.delay[i], core.lower[i], core.upper[i]) = (delay, lower, upper);
    }
    for (j, entry) in wires.chunks_exact(ENTRY).enumerate() {
        let [from, to, registers, spare] = words(entry);
        if from as usize >= n || to as usize >= n || registers > MOST_REGISTERS || spare != 0 {
            return Err(refused(6, j));
        }
        (core.from[j], core.to[j], core.registers[j]) = (from as u8, to as u8, registers);
    }
    Ok(core)
}

/// The blocks in an order that every register-free wire follows, and the longest register-free delay up to each.
struct Order {
    blocks: Row<u8>,
    longest: Row<u32>,
}

/// The order, or refusal 7.
fn order(core: &Core) -> Result<Order, Answer> {
    let (mut after, mut before) = ([0u64; N], [0u64; N]);
    for j in 0..core.m {
        if core.registers[j] == 0 {
            after[core.from[j] as usize % N] |= 1 << core.to[j];
            before[core.to[j] as usize % N] |= 1 << core.from[j];
        }
    }
    let mut order = Order { blocks: [0; N], longest: core.delay };
    // Blocks that wait for others, then those that wait no longer.
    let mut waiting = !0 >> (N - core.n);
    let mut ready = (0..core.n).fold(0u64, |set, b| if before[b] == 0 { set | 1 << b } else { set });
    let mut count = 0;
    while ready != 0 {
        let u = ready.trailing_zeros() as usize;
        ready &= ready - 1;
        waiting &= !(1u64 << u);
        order.blocks[count % N] = u as u8;
        count += 1;
        let mut rest = after[u];
        while rest != 0 {
            let v = rest.trailing_zeros() as usize;
            rest &= rest - 1;
            order.longest[v] = order.longest[v].max(order.longest[u] + core.delay[v]);
            if before[v] & waiting == 0 {
                ready |= 1 << v;
            }
        }
    }
    if waiting == 0 {
        Ok(order)
    } else {
        Err(refused(7, smallest_on_a_loop(after, core.n)))
    }
}

/// Transitive closure by bit rows; only asked where there is a loop.
fn smallest_on_a_loop(mut reach: Row<u64>, n: usize) -> usize {
    for k in 0..n {
        let through = reach[k];
        for row in &mut reach {
            if *row >> k & 1 == 1 {
                *row |= through;
            }
        }
    }
    (0..n).find(|&b| reach[b] >> b & 1 == 1).expect("some block waits for itself")
}

fn read(bytes: &[u8]) -> Result<(Core, Order), Answer> {
    let (n, m) = read_header(bytes)?;
    let core = read_entries(bytes, n, m)?;
    let order = order(&core)?;
    Ok((core, order))
}

/// As `read`, with refusal 4 in its place.
fn read_lent(bytes: &[u8], lags: usize, room: usize) -> Result<(Core, Order), Answer> {
    let (n, m) = read_header(bytes)?;
    if lags < n {
        return Err(refused(4, 0));
    }
    if room < loop_room(n) {
        return Err(refused(4, 1));
    }
    let core = read_entries(bytes, n, m)?;
    let order = order(&core)?;
    Ok((core, order))
}

fn longest(order: &Order) -> u32 {
    order.longest.iter().copied().max().unwrap_or(0)
}

// A path as one number, to be made small: its registers, times this, less its delay without the first block.
const REGISTER: u32 = 1 << 20;
/// No path, above every path number with at most 2,000 registers; more never bind lags. Two of them can be added.
const NO_PATH: u32 = (MOST_REGISTERS as u32 + 2) * REGISTER;

/// Passes over the rows before they are closed at once, which costs about as much as that many.
const MOST_PASSES: usize = 9;

/// Entry v, u: the least path number from u to v. To keep numbers from falling below 0, the longest delay up to u
/// is taken off and that up to v added: a register-free wire never shortens what leads to its end.
struct Table {
    by_end: [Row<u32>; N],
}

fn relax(end: &mut Row<u32>, start: &Row<u32>, cost: u32) {
    for (old, before) in end.iter_mut().zip(start) {
        *old = (before + cost).min(*old);
    }
}

/// As `relax` by four wires at once, which end here; whether anything changed.
fn relax_four(end: &mut Row<u32>, starts: [&Row<u32>; 4], costs: [u32; 4]) -> bool {
    let mut changed = 0;
    for u in 0..N {
        let first = (starts[0][u] + costs[0]).min(starts[1][u] + costs[1]);
        let second = (starts[2][u] + costs[2]).min(starts[3][u] + costs[3]);
        let new = first.min(second).min(end[u]);
        changed |= new ^ end[u];
        end[u] = new;
    }
    changed != 0
}

/// The wires by their ends, as (from, path number of the wire), and all blocks that a block's wires lead to.
struct Arriving {
    first: [u16; N + 1],
    starts: [(u8, u32); MOST_WIRES],
    next: Row<u64>,
}

fn arriving(core: &Core, order: &Order) -> Arriving {
    let mut first = [0u16; N + 1];
    for &v in &core.to[..core.m] {
        first[v as usize + 1] += 1;
    }
    for v in 0..N {
        first[v + 1] += first[v];
    }
    let mut free = first;
    let mut starts = [(0, 0); MOST_WIRES];
    let mut next = [0; N];
    for j in 0..core.m {
        let (u, v) = (core.from[j] as usize % N, core.to[j] as usize % N);
        let cost = core.registers[j] as u32 * REGISTER + order.longest[v] - order.longest[u] - core.delay[v];
        starts[free[v] as usize % MOST_WIRES] = (u as u8, cost);
        free[v] += 1;
        next[u] |= 1 << v;
    }
    Arriving { first, starts, next }
}

/// Row v from the rows at the starts of its wires; whether it changed.
fn refill(by_end: &mut [Row<u32>; N], wires: &[(u8, u32)], v: usize) -> bool {
    let mut end = by_end[v];
    let mut changed = false;
    for four in wires.chunks(4) {
        // Where there are less than four, the block itself changes nothing.
        let mut starts = [&by_end[v]; 4];
        let mut costs = [0; 4];
        for (k, &(u, cost)) in four.iter().enumerate() {
            starts[k] = &by_end[u as usize % N];
            costs[k] = cost;
        }
        changed |= relax_four(&mut end, starts, costs);
    }
    if changed {
        by_end[v] = end;
    }
    changed
}

/// Floyd and Warshall, on rows that hold every wire.
fn close(by_end: &mut [Row<u32>; N], n: usize) {
    for k in 0..n {
        let start = by_end[k];
        for end in by_end.iter_mut().take(n) {
            let cost = end[k];
            if cost < NO_PATH {
                relax(end, &start, cost);
            }
        }
    }
}

/// Rows are filled in order as long as one that leads to them has changed, and closed at once if that takes too long.
fn table(core: &Core, order: &Order) -> Table {
    let mut by_end = [[NO_PATH; N]; N];
    for u in 0..core.n {
        by_end[u][u] = 0;
    }
    let arriving = arriving(core, order);
    let mut open: u64 = !0 >> (N - core.n);
    for _ in 0..MOST_PASSES {
        for &v in &order.blocks[..core.n] {
            let v = v as usize % N;
            if open >> v & 1 == 0 {
                continue;
            }
            open &= !(1 << v);
            let wires = arriving.first[v] as usize..arriving.first[v + 1] as usize;
            if refill(&mut by_end, &arriving.starts[wires], v) {
                open |= arriving.next[v];
            }
        }
        if open == 0 {
            return Table { by_end };
        }
    }
    close(&mut by_end, core.n);
    Table { by_end }
}

/// Rules lag(u) - lag(v) <= bound, by v: from wires, ceilings and paths. Where the delay exceeds the period the bound is one less.
struct Rules {
    bound: [Row<i16>; N],
    delay: [Row<u32>; N],
}

/// A bound that no two lags in their ranges break.
const LOOSE: i16 = 2 * MOST_LAG + 1;

fn rules(core: &Core, order: &Order, table: &Table) -> Rules {
    let mut rules = Rules { bound: [[LOOSE; N]; N], delay: [[0; N]; N] };
    for v in 0..core.n {
        let paths = &table.by_end[v];
        // Registers times REGISTER, less the delay without u; nothing of use where there is no path.
        let mut plain = [0; N];
        for u in 0..N {
            plain[u] = paths[u].wrapping_add(order.longest[u]).wrapping_sub(order.longest[v]);
        }
        let mut registers = [0; N];
        for u in 0..N {
            let whole = (plain[u] as i32).wrapping_add(REGISTER as i32 - 1) >> 20;
            registers[u] = if paths[u] < NO_PATH { whole.min(LOOSE as i32) } else { LOOSE as i32 };
        }
        for u in 0..N {
            rules.bound[v][u] = registers[u] as i16;
        }
        for u in 0..N {
            let delay = (registers[u] as u32).wrapping_mul(REGISTER).wrapping_sub(plain[u]).wrapping_add(core.delay[u]);
            rules.delay[v][u] = if registers[u] < LOOSE as i32 { delay } else { 0 };
        }
    }
    for j in 0..core.m {
        // A wire's end is at most its start and what is left below the ceiling.
        let (v, u) = (core.from[j] as usize % N, core.to[j] as usize % N);
        let ceiling = (MOST_REGISTERS - core.registers[j]) as i16;
        if ceiling < rules.bound[v][u] {
            rules.bound[v][u] = ceiling;
            rules.delay[v][u] = 0;
        }
    }
    rules
}

/// The rules at one period.
fn bounds_at(rules: &Rules, c: u32) -> [Row<i16>; N] {
    let mut bounds = rules.bound;
    for (row, delays) in bounds.iter_mut().zip(&rules.delay) {
        for (bound, &delay) in row.iter_mut().zip(delays) {
            *bound -= (delay > c) as i16;
        }
    }
    bounds
}

/// Lags pushed down by v's: which blocks fell.
fn push(lags: &mut Row<i16>, bounds: &Row<i16>, v: usize) -> u64 {
    let lag = lags[v];
    let mut fell = [0u8; N];
    for ((old, bound), fell) in lags.iter_mut().zip(bounds).zip(&mut fell) {
        let new = (lag + bound).min(*old);
        *fell = (new < *old) as u8;
        *old = new;
    }
    // Eight marks at a time become eight bits.
    let mut set = 0u64;
    for (i, marks) in fell.chunks_exact(8).enumerate() {
        let marks = u64::from_le_bytes(marks.try_into().expect("eight marks"));
        set |= (marks.wrapping_mul(0x0102_0408_1020_4080) >> 56) << (8 * i);
    }
    set
}

fn first_below(lags: &Row<i16>, lower: &Row<i16>) -> Option<usize> {
    let any = lags.iter().zip(lower).fold(0u16, |any, (lag, lower)| any | (lag < lower) as u16);
    if any == 0 {
        return None;
    }
    (0..N).find(|&b| lags[b] < lower[b])
}

const NOBODY: u8 = u8::MAX;

/// Whom each block was last pushed by, at one period.
struct Pushes<'a> {
    rules: &'a Rules,
    c: u32,
    by: Row<u8>,
}

impl Pushes<'_> {
    /// A block on a circle of blocks that push each other for ever, if there is one.
    fn circle(&self) -> Option<usize> {
        let mut done = 0u64;
        for start in 0..N {
            let (mut here, mut seen) = (start as u8, 0u64);
            while here != NOBODY && done >> here & 1 == 0 {
                if seen >> here & 1 == 1 {
                    return Some(here as usize);
                }
                seen |= 1 << here;
                here = self.by[here as usize % N];
            }
            done |= seen;
        }
        None
    }

    /// The least period at which the pushes that led to `last`, once round or from their start, are no contradiction:
    /// so many of their paths must be quick enough. `slack` is what the pushes have to spare beside their bounds.
    fn least_period(&self, last: usize, slack: impl Fn(usize) -> i32) -> u32 {
        let (mut here, mut seen, mut bounds) = (last, 0u64, 0);
        let mut slow = [0u32; N];
        let mut count = 0;
        while self.by[here] != NOBODY && seen >> here & 1 == 0 {
            seen |= 1 << here;
            let by = self.by[here] as usize % N;
            bounds += self.rules.bound[by][here] as i32;
            if self.rules.delay[by][here] > self.c {
                slow[count % N] = self.rules.delay[by][here];
                count += 1;
            }
            here = by;
        }
        let spare = bounds + slack(here);
        let slow = &mut slow[..count.min(N)];
        slow.sort_unstable();
        // As many slow paths as there is to spare may stay.
        if spare < 0 { u32::MAX } else { slow[count - 1 - spare as usize] }
    }
}

/// Lowers lags as far as the bounds demand: they are then the largest, if those at first were at least as large.
/// Where there are none, a period below which there are none either.
fn solve(core: &Core, rules: &Rules, c: u32, bounds: &[Row<i16>; N], lags: &mut Row<i16>) -> Result<(), u32> {
    let first = *lags;
    let mut changed: u64 = !0 >> (N - core.n);
    let mut pushes = Pushes { rules, c, by: [NOBODY; N] };
    for _ in 0..=core.n {
        let mut turn = changed;
        changed = 0;
        while turn != 0 {
            let v = turn.trailing_zeros() as usize;
            turn &= turn - 1;
            let fell = push(lags, &bounds[v], v);
            // What v handed on counts from here; those that fell and are still to come do so with their newest lag.
            changed = changed & !(1 << v) | fell;
            let mut marks = fell;
            while marks != 0 {
                pushes.by[marks.trailing_zeros() as usize] = v as u8;
                marks &= marks - 1;
            }
        }
        if changed == 0 && first_below(lags, &core.lower).is_none() {
            return Ok(());
        }
        if let Some(b) = pushes.circle() {
            return Err(pushes.least_period(b, |_| 0));
        }
        if let Some(b) = first_below(lags, &core.lower) {
            return Err(pushes.least_period(b, |start| (first[start] - core.lower[b]) as i32));
        }
    }
    unreachable!("as many turns as blocks show a circle")
}

/// The period after moving by permitted lags; no period is below a single block's delay.
fn moved_period(rules: &Rules, lags: &Row<i16>, slowest: u32) -> u32 {
    let mut longest = [slowest; N];
    for v in 0..N {
        let lag = lags[v];
        let mut free = [0u32; N];
        for u in 0..N {
            free[u] = ((rules.bound[v][u] + lag == lags[u]) as u32).wrapping_neg();
        }
        for u in 0..N {
            longest[u] = longest[u].max(rules.delay[v][u] & free[u]);
        }
    }
    longest.into_iter().max().unwrap_or(slowest)
}

/// How far below a period that is met the next one is tried: half way, and next to it after two tests that failed.
fn back(gap: u32, failed: u32) -> u32 {
    if failed < 2 { gap / 2 } else { 0 }
}

/// The least period that permitted lags meet, and the largest such lags.
fn best_of(core: &Core, order: &Order) -> Result<(u32, Row<i16>), Answer> {
    let rules = rules(core, order, &table(core, order));
    let mut lags = core.upper;
    if solve(core, &rules, u32::MAX, &rules.bound, &mut lags).is_err() {
        return Err(refused(NONE_PERMITTED, 0));
    }
    let slowest = core.delay.iter().copied().max().unwrap_or(0);
    let mut met = moved_period(&rules, &lags, slowest);
    let mut least = slowest;
    let mut failed = 0;
    while least < met {
        let c = met - 1 - back(met - 1 - least, failed);
        let mut tried = lags;
        match solve(core, &rules, c, &bounds_at(&rules, c), &mut tried) {
            Ok(()) => {
                lags = tried;
                met = moved_period(&rules, &lags, slowest);
                failed = 0;
            }
            Err(next) => {
                least = next.max(c + 1);
                failed += 1;
            }
        }
    }
    Ok((met, lags))
}

fn answer(outcome: Result<u32, Answer>) -> Answer {
    match outcome {
        Ok(value) => Answer { value, ..DONE },
        Err(refused) => refused,
    }
}

pub fn check(bytes: &[u8]) -> Answer {
    answer(read(bytes).map(|_| 0))
}

pub fn period(bytes: &[u8]) -> Answer {
    answer(read(bytes).map(|(_, order)| longest(&order)))
}

fn write_best(core: &Core, order: &Order, lags: &mut [i16]) -> Result<u32, Answer> {
    let (period, largest) = best_of(core, order)?;
    lags[..core.n].copy_from_slice(&largest[..core.n]);
    Ok(period)
}

/// As the second program's own question, the loop with 10 left out.
pub fn best(bytes: &[u8], lags: &mut [i16], room: usize) -> Answer {
    answer(read_lent(bytes, lags.len(), room).and_then(|(core, order)| write_best(&core, &order, lags)))
}

/// Check, period and best of one sheet, read once.
pub fn together(bytes: &[u8], lags: &mut [i16], room: usize) -> [Answer; 3] {
    match read(bytes) {
        Ok((core, _)) if lags.len() < core.n || room < loop_room(core.n) => {
            [check(bytes), period(bytes), best(bytes, lags, room)]
        }
        Ok((core, order)) => {
            [DONE, Answer { value: longest(&order), ..DONE }, answer(write_best(&core, &order, lags))]
        }
        // A short list comes before a bad entry.
        Err(refused) => [refused, refused, best(bytes, lags, room)],
    }
}

#[cfg(test)]
mod tests {
    use super::*;
    use crate::bench;
    use crate::cases;
    use crate::known;
    use crate::questions;
    use crate::random::Random;
    use crate::shapes;
    use crate::trial;

    fn agrees(bytes: &[u8], lags: usize, room: usize) {
        let (mut own, mut fast, mut shared) = (vec![9; lags], vec![9; lags], vec![9; lags]);
        let expected = [questions::check(bytes), questions::period(bytes), questions::best(bytes, &mut own, room)];
        assert_eq!([check(bytes), period(bytes), best(bytes, &mut fast, room)], expected);
        assert_eq!(together(bytes, &mut shared, room), expected);
        assert_eq!((&fast, &shared), (&own, &own));
    }

    fn sheet_agrees(sheet: &crate::sheet::Sheet) {
        agrees(&sheet.bytes(), sheet.n(), loop_room(sheet.n()));
    }

    #[test]
    fn known_sheets() {
        let mut generous = known::correlator();
        for b in &mut generous.blocks[1..] {
            (b.lower, b.upper) = (-500, 500);
        }
        for sheet in [known::ring(), known::correlator(), generous, known::filter(), known::host_alone(), known::forced_ring()] {
            sheet_agrees(&sheet);
        }
    }

    #[test]
    fn every_stored_case() {
        for case in cases::all() {
            // Other questions' lists are used as these questions' lists.
            agrees(&case.sheet, case.a, case.b);
            if case.sheet.len() < 400 {
                agrees(&case.sheet, 64, 4_224);
            }
        }
    }

    #[test]
    fn small_sheets() {
        let mut rng = Random::new(85);
        for _ in 0..20_000 {
            sheet_agrees(&trial::narrow(&mut rng));
        }
        for round in 0..4_000 {
            let (n, m) = (2 + rng.below(9), rng.below(24));
            let most = [1, 2, 2_000][round % 3];
            let mut sheet = shapes::sound(&mut rng, n, m, most, 99);
            if round % 2 == 0 {
                let wide = rng.between(1, 500) as i16;
                for b in &mut sheet.blocks[1..] {
                    (b.lower, b.upper) = (-wide, wide);
                }
            }
            sheet_agrees(&sheet);
        }
    }

    #[test]
    fn full_size_sheets() {
        for kind in bench::KINDS {
            let mut rng = Random::new(86);
            for _ in 0..2 {
                sheet_agrees(&(kind.sheet)(&mut rng));
            }
        }
    }
}
