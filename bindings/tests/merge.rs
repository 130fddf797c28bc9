//! The merge of document 02, N12, through its safe calls.

mod common;

use common::table;
use falgrumi::{evaluate, merge, merge_into, Merge, Refusal, MAX_VALUE_BYTES};

/// ∀ x1 ∈ x0 ∪ x2 · x1 ∈ G0 ∖ x3, for groups x0, x2 and x3 of bins: x0 and x2 are the two lowest free identifiers.
const BINS: &[u8] = include_bytes!("../../tables/bins");
const INTERLEAVED: &[u8] = include_bytes!("../../tests/values/bins-interleaved");
const HEAVY: &[u8] = include_bytes!("../../tests/values/bins-heavy");
const UNLIKE: &[u8] = include_bytes!("../../tests/values/bins-unlike");

fn cell(tag: u8, payload: u32) -> Vec<u8> {
    [&payload.to_le_bytes()[..], &[tag, 0, 0, 0]].concat()
}

fn integer(n: i32) -> Vec<u8> {
    cell(1, n as u32)
}

/// The set of these members, which rise.
fn set(members: &[Vec<u8>]) -> Vec<u8> {
    [cell(5, members.len() as u32), members.concat()].concat()
}

fn single(member: &Vec<u8>) -> Vec<u8> {
    set(std::slice::from_ref(member))
}

fn integers(members: impl IntoIterator<Item = i32>) -> Vec<u8> {
    set(&members.into_iter().map(integer).collect::<Vec<_>>())
}

/// The merge of two values: those of the only identifiers of a table without nodes.
fn merge_of(first: &[u8], second: &[u8]) -> Merge {
    merge(&table(&[0, 0], &[]), &[first, second].concat())
}

fn merged(comparisons: u64, cells: Vec<u8>) -> Merge {
    Merge::Merged { comparisons, cells }
}

#[test]
fn members_are_merged_front_to_front() {
    let of = |first: &[i32], second: &[i32]| {
        merge_of(&integers(first.to_vec()), &integers(second.to_vec()))
    };
    let wanted = |comparisons, members: &[i32]| merged(comparisons, integers(members.to_vec()));
    // Equal fronts are one comparison, and are taken together.
    assert_eq!(of(&[1, 2, 3], &[1, 2, 3]), wanted(3, &[1, 2, 3]));
    // Both have a front until one has none.
    assert_eq!(of(&[1, 3, 5], &[2, 4, 6]), wanted(5, &[1, 2, 3, 4, 5, 6]));
    assert_eq!(of(&[1], &[2, 3, 4]), wanted(1, &[1, 2, 3, 4]));
    assert_eq!(of(&[2, 3, 4], &[1]), wanted(1, &[1, 2, 3, 4]));
    assert_eq!(of(&[5], &[2, 3, 4]), wanted(3, &[2, 3, 4, 5]));
    assert_eq!(of(&[-3, 0, 7], &[-4, 0, 9]), wanted(4, &[-4, -3, 0, 7, 9]));
    assert_eq!(of(&[], &[1, 2]), wanted(0, &[1, 2]));
    assert_eq!(of(&[1, 2], &[]), wanted(0, &[1, 2]));
    assert_eq!(of(&[], &[]), wanted(0, &[]));
}

/// Sets of sets and of pairs: what is compared are whole members, in the order of document 02, N6.
#[test]
fn members_of_any_type_are_merged() {
    let (low, high) = (integers([2, 3]), integers([1, 4]));
    assert_eq!(
        merge_of(&single(&high), &single(&low)),
        merged(1, set(&[low.clone(), high]))
    );
    let pair = |m, n| [cell(4, 0), integer(m), integer(n)].concat();
    assert_eq!(
        merge_of(
            &set(&[pair(1, 1), pair(2, 0)]),
            &set(&[pair(1, 2), pair(2, 0)])
        ),
        merged(3, set(&[pair(1, 1), pair(1, 2), pair(2, 0)]))
    );
    // The empty set among the members has every type of a set.
    assert_eq!(
        merge_of(&single(&set(&[])), &single(&low)),
        merged(1, set(&[set(&[]), low]))
    );
}

#[test]
fn the_two_lowest_free_identifiers_are_merged() {
    let bins = |numbers: &[u32]| set(&numbers.iter().map(|&k| cell(3, k)).collect::<Vec<_>>());
    assert_eq!(merge(BINS, INTERLEAVED), merged(4, bins(&[0, 1, 2, 3, 4])));
    let values = [bins(&[5]), bins(&[0, 5]), integer(7)].concat();
    assert_eq!(merge(BINS, &values), merged(2, bins(&[0, 5])));
}

/// The weight of a union is 1 and that of its members.
#[test]
fn a_union_over_256_is_heavy_and_has_its_count() {
    let heavy = |comparisons| Merge::Heavy { comparisons };
    let (even, odd) = ((0..200).step_by(2), (1..200).step_by(2));
    assert_eq!(
        merge_of(&integers(even), &integers(odd)),
        merged(199, integers(0..200))
    );
    let first = integers(0..128);
    assert_eq!(
        merge_of(&first, &integers(128..255)),
        merged(128, integers(0..255))
    );
    assert_eq!(merge_of(&first, &integers(128..256)), heavy(128));
    assert_eq!(
        merge_of(&integers(0..255), &integers(0..255)),
        merged(255, integers(0..255))
    );
    assert_eq!(merge(BINS, HEAVY), heavy(399));
}

#[test]
fn what_has_no_union_is_unfit() {
    let (one, truth) = (integers([1]), set(&[cell(2, 1)]));
    for (first, second) in [
        (&one, &truth),
        (&truth, &one),
        (&integer(1), &one),
        (&one, &integer(1)),
        (&integer(1), &integer(1)),
        (&one, &single(&one)),
    ] {
        assert_eq!(merge_of(first, second), Merge::Unfit);
    }
    assert_eq!(merge(BINS, UNLIKE), Merge::Unfit);
    // Fewer than two are free.
    assert_eq!(merge(&table(&[], &[]), &[]), Merge::Unfit);
    assert_eq!(merge(&table(&[0], &[]), &one), Merge::Unfit);
    // A third value does not take the place of one that is no set.
    let three = [integer(1), one.clone(), one.clone()].concat();
    assert_eq!(merge(&table(&[0, 0, 0], &[]), &three), Merge::Unfit);
}

/// The first refusal of 1 to 9 and 14 that Evaluate has, and no other.
#[test]
fn refusals_are_those_of_evaluate() {
    let mut seen = [false; 15];
    let mut try_at = |table: &[u8], values: &[u8]| {
        let refusal = evaluate(table, values, 100).outcome.err();
        match refusal.filter(|r| r.number <= 14) {
            Some(refusal) => {
                seen[usize::from(refusal.number)] = true;
                assert_eq!(merge(table, values), Merge::Refused(refusal));
            }
            None => assert!(!matches!(merge(table, values), Merge::Refused(_))),
        }
    };
    for at in 0..BINS.len() {
        for byte in [0, 1, 2, 0x20, 0xFF] {
            let mut table = BINS.to_vec();
            table[at] = byte;
            try_at(&table, INTERLEAVED);
        }
    }
    for length in 0..=INTERLEAVED.len() {
        try_at(BINS, &INTERLEAVED[..length]);
    }
    // 26 negations over 1 = 1, 28 nodes high.
    let equal = [[23, 1, 0, 0], [23, 1, 0, 0], [6, 0, 1, 0]];
    let negations = (2..28).map(|n| [4, n, 0, 0]);
    let high: Vec<[u32; 4]> = equal.into_iter().chain(negations).collect();
    try_at(&table(&[0, 0], &high), &[]);
    let numbers: Vec<usize> = (0..seen.len()).filter(|&n| seen[n]).collect();
    assert_eq!(numbers, [1, 2, 3, 4, 5, 6, 7, 8, 9, 14]);
    let malformed = Refusal {
        number: 14,
        place: 2,
    };
    // The value of x2 is the second, from 32 to 56.
    assert_eq!(merge(BINS, &INTERLEAVED[..55]), Merge::Refused(malformed));
}

/// The cells fill the front of what is lent, or no byte is written; their length is told all the same.
#[test]
fn only_cells_that_fit_are_written() {
    const FILL: u8 = 0xA5;
    let Merge::Merged { comparisons, cells } = merge(BINS, INTERLEAVED) else {
        panic!("a union of bins");
    };
    let length = cells.len();
    for room in [0, 1, 8, length - 1, length, length + 1, MAX_VALUE_BYTES] {
        let mut lent = vec![FILL; room];
        let wanted = Merge::Merged {
            comparisons,
            cells: length,
        };
        assert_eq!(merge_into(BINS, INTERLEAVED, &mut lent), wanted);
        let written = if room < length { 0 } else { length };
        assert_eq!(lent[..written], cells[..written]);
        assert!(lent[written..].iter().all(|&byte| byte == FILL));
    }
    let cut = &INTERLEAVED[..INTERLEAVED.len() - 1];
    for (values, wanted) in [
        (HEAVY, Merge::Heavy { comparisons: 399 }),
        (UNLIKE, Merge::Unfit),
        (
            cut,
            Merge::Refused(Refusal {
                number: 14,
                place: 3,
            }),
        ),
    ] {
        let mut lent = vec![FILL; MAX_VALUE_BYTES];
        assert_eq!(merge_into(BINS, values, &mut lent), wanted);
        assert!(lent.iter().all(|&byte| byte == FILL));
    }
}
