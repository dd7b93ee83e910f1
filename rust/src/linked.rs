//! Tests that call the library, where it is linked.

use crate::*;

fn wire(from: u16, to: u16, registers: u16) -> Wire {
    Wire { from, to, registers }
}

fn blocks(delays: &[u32]) -> Vec<Block> {
    let reach = |i: usize| if i == 0 { 0 } else { 2 };
    delays.iter().enumerate().map(|(i, &delay)| Block { delay, lower: -reach(i), upper: reach(i) }).collect()
}

fn ring_with(one: (i16, i16), three: (i16, i16)) -> Vec<u8> {
    let mut blocks = blocks(&[0, 3, 4, 5]);
    (blocks[1].lower, blocks[1].upper) = one;
    (blocks[3].lower, blocks[3].upper) = three;
    sheet(&blocks, &[wire(0, 1, 1), wire(1, 2, 0), wire(2, 3, 0), wire(3, 0, 1)])
}

fn ring() -> Vec<u8> {
    ring_with((-2, 2), (-2, 2))
}

fn refused<T: std::fmt::Debug>(answer: Result<T, Refusal>) -> (u32, u32) {
    let refusal = answer.expect_err("refused");
    (refusal.number, refusal.place)
}

#[test]
fn the_ring() {
    assert_eq!(check(&ring()), Ok(()));
    assert_eq!(period(&ring()), Ok(12));
    let table = path_table(&ring()).expect("sound");
    assert_eq!(table.at(3, 1), Some((2, 8)));
    assert_eq!(table.at(1, 0), Some((1, 12)));
    assert_eq!(best(&ring()), Ok((7, vec![0, 0, 0, 1])));
    assert_eq!(lags_at(&ring(), 9), Ok(vec![0, 0, 1, 1]));
    assert_eq!(lags_at(&ring(), 12), Ok(vec![0, 1, 1, 1]));
}

#[test]
fn no_path() {
    let apart = sheet(&blocks(&[0, 4]), &[]);
    let table = path_table(&apart).expect("sound");
    assert_eq!((table.at(0, 1), table.at(1, 1)), (None, Some((0, 4))));
    assert_eq!(best(&apart), Ok((4, vec![0, 2])));
}

#[test]
fn the_ring_moved() {
    let (least, lags) = best(&ring()).expect("lags are permitted");
    let after = moved(&ring(), &lags).expect("permitted");
    assert_eq!(period(&after), Ok(least));
    assert_eq!(best(&after), Ok((least, vec![0; 4])));
    assert_eq!(refused(moved(&ring(), &[0, 0, 3, 0])), (number::LAG_OUTSIDE, 2));
    assert_eq!(refused(moved(&ring(), &[0, -2, 0, 0])), (number::WIRE_OUTSIDE, 0));
    assert_eq!(refused(moved(&ring(), &[0])), (number::LIST_TOO_SHORT, 0));
}

#[test]
fn refusals_come_with_their_proof() {
    let slow = lags_at(&ring(), 6).expect_err("7 is the least");
    assert_eq!((slow.number, slow.place), (number::NONE_MEETS, 0));
    assert_eq!(check_loop(&ring(), 6, &slow.proof), Ok(()));
    assert_eq!(refused(check_loop(&ring(), 7, &slow.proof)), (number::NO_VALID_LOOP, 0));
    let none = ring_with((1, 1), (-2, 0));
    let refusal = best(&none).expect_err("no lags are permitted");
    assert_eq!(refusal.number, number::NONE_PERMITTED);
    for c in [0, 12, u32::MAX] {
        assert_eq!(check_loop(&none, c, &refusal.proof), Ok(()));
    }
}

#[test]
fn damaged_sheets() {
    assert_eq!(refused(check(&[])), (number::TOO_SHORT, 0));
    assert_eq!(refused(path_table(&[255; 80])), (number::COUNTS, 0));
    assert_eq!(refused(best(&ring()[..79])), (number::LENGTHS, 0));
    let mut bytes = ring();
    bytes[16 + 2 * 8 + 2] = 1;
    assert_eq!(refused(period(&bytes)), (number::BLOCK, 2));
    let mut bytes = ring();
    bytes[79] = 1;
    assert_eq!(refused(check(&bytes)), (number::WIRE, 3));
    let loops = sheet(&blocks(&[0, 4]), &[wire(1, 1, 0)]);
    assert_eq!(refused(check(&loops)), (number::LOOP, 1));
}

#[test]
fn lent_lists_keep_what_is_not_named() {
    let (mut lags, mut words) = ([9; 6], [9; 30]);
    assert_eq!(lent::best(&ring(), &mut lags, &mut words), Answer::Done(7));
    assert_eq!((lags, words), ([0, 0, 0, 1, 9, 9], [9; 30]));
    let answer = lent::lags_at(&ring(), 6, &mut lags[..3], &mut words);
    assert_eq!(answer, Answer::Refused { number: number::LIST_TOO_SHORT, place: 0, count: 0 });
    let Answer::Refused { number: 11, place: 0, count } = lent::lags_at(&ring(), 6, &mut lags, &mut words) else {
        panic!("refusal 11");
    };
    assert_eq!(lags, [0, 0, 0, 1, 9, 9]);
    assert!(words[count as usize..].iter().all(|&word| word == 9));
}
