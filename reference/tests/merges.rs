//! Document 02, N12: the merge of two sets and its comparisons, and what the
//! generated merges reach.

mod common;

use common::*;
use reference::batch::{self, Case};
use reference::build::Draft;
use reference::evaluate::{observe, read_values, Outcome};
use reference::former;
use reference::generate::Generator;
use reference::kinds::Kind;
use reference::merge::{comparisons, merge, merge_values, Merge};
use reference::table::{self, Table};
use reference::values::{set, Value};
use std::collections::BTreeMap;

fn merged(comparisons: u32, union: &Value) -> Merge {
    Merge::Merged {
        comparisons,
        cells: cells(&[union.clone()]),
    }
}

#[test]
fn equal_fronts_are_compared_once() {
    let s = ints(&[1, 2, 3]);
    assert_eq!(merge_values(&s, &s), merged(3, &s));
    let (odd, even) = (ints(&[1, 3, 5]), ints(&[2, 4, 6]));
    let all = ints(&[1, 2, 3, 4, 5, 6]);
    assert_eq!(merge_values(&odd, &even), merged(5, &all));
    assert_eq!(merge_values(&even, &odd), merged(5, &all));
    let (least, rest) = (ints(&[1]), ints(&[2, 3, 4]));
    let all = ints(&[1, 2, 3, 4]);
    assert_eq!(merge_values(&least, &rest), merged(1, &all));
    assert_eq!(merge_values(&rest, &least), merged(1, &all));
}

/// The table and the values of the free identifiers, where nothing is refused.
fn read(table: &[u8], values: &[u8]) -> Option<(Table, Vec<Value>)> {
    let table = table::read(table).ok()?;
    let values = read_values(&table, values).ok()?;
    Some((table, values.into_iter().flatten().collect()))
}

/// Generated tables with two values or more.
fn generated(seed: u64, count: usize) -> Vec<(Table, Vec<Value>)> {
    let mut generator = Generator::new(seed, false, None);
    let samples = (0..count).map(|_| generator.merge_sample());
    samples
        .filter_map(|(table, values)| read(&table, &values))
        .filter(|(_, values)| values.len() >= 2)
        .collect()
}

/// The bounds of document 02, and another count: each comparison takes one
/// member of the union, up to the last of the list that ends first.
#[test]
fn comparisons_have_their_bounds() {
    let (mut none, mut some) = (0, 0);
    for (_, values) in generated(71, 8_000) {
        let [Value::Set(s), Value::Set(r), ..] = &values[..] else {
            continue;
        };
        let count = comparisons(s, r) as usize;
        assert_eq!(count, comparisons(r, s) as usize);
        let (Some(last), Some(other)) = (s.last(), r.last()) else {
            assert_eq!(count, 0);
            none += 1;
            continue;
        };
        assert!(count >= s.len().min(r.len()) && count < s.len() + r.len());
        let all = s.iter().chain(r.iter().filter(|m| !s.contains(m)));
        let taken = all.filter(|m| *m <= last && *m <= other);
        assert_eq!(count, taken.count());
        some += 1;
    }
    assert!(none > 500 && some > 3_000, "{none} and {some}");
}

/// x∪y=x.
fn union_of(sizes: &[u32]) -> Draft {
    draft(|d| {
        d.sizes.extend(sizes);
        let (x, y) = (d.identifier(0), d.identifier(0));
        let (s, r) = (d.using(x), d.using(y));
        let both = d.two(Kind::Union, s, r);
        let s = d.using(x);
        d.two(Kind::Equal, both, s);
    })
}

/// Kind 29 gives the merge's union, 15 where it is unfit and 18 where heavy.
#[test]
fn evaluation_unites_alike() {
    let mut counts = [0; 3];
    for (table, values) in generated(72, 8_000) {
        let bytes = union_of(&table.sizes).bytes();
        let (evaluation, seen) = observe(&bytes, &cells(&values[..2]), 100);
        let refused = |number| matches!(evaluation.outcome, Outcome::Refused(r) if (r.number, r.place) == (number, 2));
        let found = match merge_values(&values[0], &values[1]) {
            Merge::Merged { cells: union, .. } => {
                let formed = seen.formed.iter().find(|(node, _)| *node == 2);
                let (_, value) = formed.expect("the union is formed");
                assert_eq!(union, cells(&[value.clone()]));
                0
            }
            Merge::Unfit => {
                assert!(refused(15));
                1
            }
            Merge::Heavy { .. } => {
                assert!(refused(18));
                2
            }
            Merge::Refused(refusal) => panic!("{refusal:?} for sound values"),
        };
        counts[found] += 1;
    }
    assert!(counts.iter().all(|&count| count > 500), "{counts:?}");
}

/// How many values there are, and which of the first two are sets.
fn lie(values: &[Value]) -> &'static str {
    match values {
        [] => "no value",
        [_] => "one value",
        [Value::Set(_), Value::Set(_), ..] => "two sets",
        [Value::Set(_), ..] => "the second no set",
        [_, Value::Set(_), ..] => "the first no set",
        _ => "no sets",
    }
}

/// The answer, and what the case that has it is like.
fn label(table: &[u8], values: &[u8]) -> String {
    let lent = read(table, values).map(|(_, values)| values);
    let lies = lie(lent.as_deref().unwrap_or(&[]));
    match merge(table, values) {
        Merge::Merged { comparisons: 0, .. } => "merged 0".to_string(),
        Merge::Merged { cells, .. } if cells.len() == 8 * 256 => "merged full".to_string(),
        Merge::Merged { .. } => "merged".to_string(),
        Merge::Heavy { .. } => {
            let lent = lent.expect("the values are sound");
            let all = lent[..2].iter().flat_map(|value| match value {
                Value::Set(members) => members.clone(),
                _ => panic!("{value:?} is no set"),
            });
            match set(all.collect()).weight() {
                257 => "heavy by one".to_string(),
                _ => "heavy".to_string(),
            }
        }
        Merge::Unfit => format!("unfit, {lies}"),
        Merge::Refused(refusal) => format!("refused {:>2}", refusal.number),
    }
}

type Counts = BTreeMap<String, usize>;

fn assert_reaches(counts: &Counts, labels: &[&str]) {
    for &label in labels {
        assert!(counts.contains_key(label), "{label} of {counts:?}");
    }
}

const UNFIT: [&str; 6] = [
    "unfit, no value",
    "unfit, one value",
    "unfit, two sets",
    "unfit, the first no set",
    "unfit, the second no set",
    "unfit, no sets",
];

fn assert_reaches_all(counts: &Counts) {
    assert_reaches(counts, &["merged 0", "merged", "merged full"]);
    assert_reaches(counts, &["heavy by one", "heavy"]);
    assert_reaches(counts, &UNFIT);
    for number in (1..=9).chain([14]) {
        assert_reaches(counts, &[&format!("refused {number:>2}")]);
    }
}

fn counted(generator: &mut Generator, count: usize) -> Counts {
    let mut counts = Counts::new();
    for _ in 0..count {
        let (table, values) = generator.merge_sample();
        *counts.entry(label(&table, &values)).or_default() += 1;
    }
    counts
}

#[test]
fn every_answer_is_reached() {
    let counts = counted(&mut Generator::new(1, false, None), 4_000);
    assert_reaches_all(&counts);
    assert!(counts.values().all(|&count| count >= 20), "{counts:?}");
}

/// Of the generated merges alone, without the fixed ones.
#[test]
fn the_stored_batch_reaches_every_answer() {
    assert_reaches_all(&counted(&mut Generator::new(107, false, None), 300));
}

/// Identifiers of a readable table with their flags, as far as the second free
/// one: 0 free, 1 bound.
fn front(table: &Table) -> String {
    let flags: String = table
        .bound
        .iter()
        .map(|&b| if b { '1' } else { '0' })
        .collect();
    let second = flags.match_indices('0').nth(1);
    second.map_or(String::new(), |(at, _)| flags[..=at].to_string())
}

#[test]
fn the_lowest_free_identifiers_stand_anywhere() {
    let mut fronts = BTreeMap::new();
    let (mut more, mut most) = (0, 0);
    for (table, values) in generated(73, 4_000) {
        *fronts.entry(front(&table)).or_insert(0) += 1;
        more += usize::from(values.len() > 2);
        most = most.max(table.identifiers());
    }
    for wanted in ["00", "100", "010", "1010", "0110", "1100"] {
        assert!(fronts.get(wanted) > Some(&30), "{wanted} of {fronts:?}");
    }
    assert!(more > 300 && most > 28, "{more} and {most}");
}

#[test]
fn small_merges_are_small_and_reach_most_answers() {
    let mut generator = Generator::new(5, true, None);
    let mut counts = Counts::new();
    let mut turned = 0;
    for _ in 0..4_000 {
        let (table, values) = generator.merge_sample();
        assert!(table.len() <= 288 && values.len() <= 96);
        *counts.entry(label(&table, &values)).or_default() += 1;
        turned += usize::from(is_turned(&merge(&table, &values)));
    }
    // 8 needs more nodes, and a heavy union more cells.
    assert_reaches(&counts, &["merged 0", "merged"]);
    assert_reaches(&counts, &UNFIT);
    for number in (1..=7).chain([9, 14]) {
        assert_reaches(&counts, &[&format!("refused {number:>2}")]);
    }
    assert!(turned > 100, "{turned}");
}

/// Whether the members of the union stood in another order before N6.
fn is_turned(merge: &Merge) -> bool {
    let Merge::Merged { cells, comparisons } = merge else {
        return false;
    };
    // The union as the value of one identifier, with given sets of any size.
    let lent = draft(|d| {
        d.sizes.extend([32, 32]);
        d.identifier(0);
    });
    let (_, union) = read(&lent.bytes(), cells).expect("the union is a value");
    *comparisons > 0 && former::arranged(&union[0]) != union[0]
}

#[test]
fn other_samples_stay() {
    let lines = |merges: usize| -> Vec<String> {
        let mut generator = Generator::new(17, false, None);
        let mut case = || {
            (0..merges).for_each(|_| drop(generator.merge_sample()));
            generator.case().line()
        };
        (0..200).map(|_| case()).collect()
    };
    assert_eq!(lines(0), lines(3));
}

#[test]
fn a_seed_fixes_the_merges() {
    let lines = |seed| -> Vec<String> {
        let mut generator = Generator::new(seed, false, None);
        (0..100).map(|_| generator.merge_case().line()).collect()
    };
    assert_eq!(lines(7), lines(7));
    assert_ne!(lines(7), lines(8));
}

#[test]
fn batches_with_merges() {
    let mut generator = Generator::new(12, false, None);
    let cases: Vec<Case> = (0..600)
        .map(|number| match number % 3 {
            0 => generator.batch_case(),
            _ => generator.merge_case(),
        })
        .collect();
    let (bytes, text) = batch::make(&cases);
    assert_eq!(text.lines().count(), cases.len());
    assert_eq!(batch::answers(&bytes), text);
    let words = |words: &[u32]| -> Vec<u8> { words.iter().flat_map(|w| w.to_le_bytes()).collect() };
    assert_eq!(batch::answers(&words(&[9, 16_385, 0])), "long\n");
    assert_eq!(batch::answers(&words(&[9, 0, 131_073])), "long\n");
    assert_eq!(batch::answers(&words(&[9, 0, 0])), "refused 1 0\n");
    assert_eq!(batch::answers(&words(&[9, 4, 8, 1, 0])), "cut\n");
    for length in 1..12 {
        assert_eq!(batch::answers(&words(&[9, 0, 0])[..length]), "cut\n");
    }
}

#[test]
fn a_heavy_answer_has_its_comparisons_in_a_line_alone() {
    let table = draft(|d| {
        d.identifier(0);
        d.identifier(0);
    });
    let run = |from: i32| set((from..from + 200).map(int).collect());
    let values = cells(&[run(0), run(150)]);
    let case = Case::Merge {
        table: table.bytes(),
        values,
    };
    assert_eq!(case.answer(), "heavy");
    assert_eq!(case.whole_answer(), "heavy 200");
    assert!(case.line().ends_with(" heavy 200"));
}
