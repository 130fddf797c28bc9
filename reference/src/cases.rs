//! Cases beyond P1 to P12, each with Evaluate's answer: damaged tables,
//! values buffers, the order of values, and what the kinds give. The batch has them after the
//! conditions of document 01. Nodes stand as in the document: kind, a, b, c.
//! `merges` has those of document 02, N12, with the answers of the merge.

mod merges;

use crate::batch::Case;
use crate::build::Draft;
pub use merges::merges;

pub struct Answered {
    pub case: Case,
    /// The whole answer.
    pub answer: String,
}

type Node = [u32; 4];

fn one(kind: u32, a: u32) -> Node {
    [kind, a, 0, 0]
}

fn two(kind: u32, a: u32, b: u32) -> Node {
    [kind, a, b, 0]
}

fn int(n: i32) -> Node {
    one(23, n as u32)
}

const TRUE: Node = [24, 1, 0, 0];
const EMPTY: Node = [26, 0, 0, 0];

/// A cell as two words, its payload and its tag.
const ELEMENT_1: [u32; 2] = [1, 3];

fn bytes(words: &[u32]) -> Vec<u8> {
    words.iter().flat_map(|word| word.to_le_bytes()).collect()
}

fn table(sizes: &[u32], flags: &[u32], nodes: &[Node]) -> Vec<u8> {
    let draft = Draft {
        sizes: sizes.to_vec(),
        flags: flags.to_vec(),
        nodes: nodes.to_vec(),
    };
    draft.bytes()
}

fn closed(nodes: &[Node]) -> Vec<u8> {
    table(&[], &[], nodes)
}

fn answered(table: Vec<u8>, values: Vec<u8>, budget: u32, answer: &'static str) -> Answered {
    let case = Case::Evaluate {
        table,
        values,
        budget,
    };
    let answer = answer.to_string();
    Answered { case, answer }
}

/// Without values, budget 100.
fn plain(table: Vec<u8>, answer: &'static str) -> Answered {
    answered(table, Vec::new(), 100, answer)
}

fn with_cells(table: Vec<u8>, words: &[u32], answer: &'static str) -> Answered {
    answered(table, bytes(words), 100, answer)
}

pub fn all() -> Vec<Answered> {
    let mut found = damaged();
    found.extend(without_nodes());
    found.extend(buffers());
    found.extend(predicates());
    found.extend(applications());
    found.extend(orders());
    found.extend(operations());
    found
}

const P1: [u32; 22] = [
    1, 1, 1, 3, 32, 36, 40, 88, 2, 0, 20, 0, 0, 0, 21, 0, 0, 0, 7, 0, 1, 0,
];

/// P1 with words changed, shortened or lengthened: refusals 1 to 7 and 9.
fn damaged() -> Vec<Answered> {
    let spoilt = |i: usize, word: u32, answer| {
        let mut words = P1;
        words[i] = word;
        with_cells(bytes(&words), &ELEMENT_1, answer)
    };
    let longer: Vec<u32> = P1.iter().copied().chain([0]).collect();
    vec![
        spoilt(0, 2, "refused 1 0 0"),
        with_cells(bytes(&P1[..7]), &ELEMENT_1, "refused 1 0 0"),
        spoilt(1, 17, "refused 2 0 0"),
        spoilt(2, 33, "refused 2 0 0"),
        // The offsets and the length are still those of three nodes.
        spoilt(3, 0, "refused 3 0 0"),
        spoilt(3, 513, "refused 2 0 0"),
        spoilt(4, 36, "refused 3 0 0"),
        spoilt(5, 40, "refused 3 0 0"),
        spoilt(6, 44, "refused 3 0 0"),
        spoilt(7, 92, "refused 3 0 0"),
        with_cells(bytes(&longer), &ELEMENT_1, "refused 3 0 0"),
        spoilt(8, 0, "refused 4 0 0"),
        spoilt(8, 33, "refused 4 0 0"),
        spoilt(9, 2, "refused 5 0 0"),
        // An unknown kind, no such identifier, a nonzero unused field, a
        // child that is not lower, one of the wrong category.
        spoilt(10, 12, "refused 6 0 0"),
        spoilt(11, 1, "refused 6 0 0"),
        spoilt(17, 1, "refused 6 1 0"),
        spoilt(20, 2, "refused 6 2 0"),
        spoilt(18, 1, "refused 6 2 0"),
        // An expression last, and an identifier bound without a binder.
        spoilt(18, 28, "refused 7 2 0"),
        spoilt(9, 1, "refused 9 0 0"),
    ]
}

/// Tables of given sets and identifiers alone: refusals 3, 4, 5, 9 and 14,
/// and otherwise true under every budget.
fn without_nodes() -> Vec<Answered> {
    let at_budget = |flags: &[u32], words: &[u32], budget, answer| {
        answered(table(&[2], flags, &[]), bytes(words), budget, answer)
    };
    // No given sets and no identifiers, with a word changed.
    let spoilt = |i: usize, word: u32, answer| {
        let mut words = [1, 0, 0, 0, 32, 32, 32, 32];
        words[i] = word;
        plain(bytes(&words), answer)
    };
    let longer = [1, 0, 0, 0, 32, 32, 32, 32, 0];
    vec![
        at_budget(&[], &[], 0, "true 0"),
        at_budget(&[], &[], u32::MAX, "true 0"),
        at_budget(&[0], &ELEMENT_1, 0, "true 0"),
        at_budget(&[0], &ELEMENT_1, u32::MAX, "true 0"),
        at_budget(&[0, 0], &[1, 3, 7, 1], 1, "true 0"),
        // A value too few, one that is malformed, and one too many.
        at_budget(&[0, 0], &ELEMENT_1, 0, "refused 14 1 0"),
        at_budget(&[0], &[2, 3], 0, "refused 14 0 0"),
        at_budget(&[], &ELEMENT_1, 0, "refused 14 0 0"),
        at_budget(&[1], &[], 0, "refused 9 0 0"),
        at_budget(&[0, 1], &ELEMENT_1, 0, "refused 9 1 0"),
        at_budget(&[2], &[], 0, "refused 5 0 0"),
        plain(table(&[0], &[], &[]), "refused 4 0 0"),
        spoilt(3, 1, "refused 3 0 0"),
        spoilt(4, 36, "refused 3 0 0"),
        spoilt(5, 36, "refused 3 0 0"),
        spoilt(6, 48, "refused 3 0 0"),
        spoilt(7, 48, "refused 3 0 0"),
        plain(bytes(&longer), "refused 3 0 0"),
        plain(bytes(&longer)[..31].to_vec(), "refused 1 0 0"),
    ]
}

/// P1 at other values: refusal 14, and values that pass it and then are no
/// elements, which is refusal 15.
fn buffers() -> Vec<Answered> {
    let p1 = |words: &[u32], answer| with_cells(bytes(&P1), words, answer);
    let three_pairs = |tag: u32, payload: u32, answer| {
        // {(1,{1}),(2,∅),(3,{x})} for a cell x.
        let mut words = vec![3, 5, 0, 4, 1, 1, 1, 5, 1, 1];
        words.extend([0, 4, 2, 1, 0, 5, 0, 4, 3, 1, 1, 5, payload, tag]);
        p1(&words, answer)
    };
    let mut heavy = vec![256, 5];
    heavy.extend((0..256).flat_map(|n| [n, 1]));
    let cut = bytes(&ELEMENT_1)[..7].to_vec();
    let minus_1 = u32::MAX;
    vec![
        p1(&[], "refused 14 0 0"),
        answered(bytes(&P1), cut, 100, "refused 14 0 0"),
        // An unknown tag, a nonzero byte behind the tag, a truth 2, a pair
        // with a payload.
        p1(&[1, 6], "refused 14 0 0"),
        p1(&[1, 259], "refused 14 0 0"),
        p1(&[2, 2], "refused 14 0 0"),
        p1(&[1, 4, 1, 1, 1, 1], "refused 14 0 0"),
        // {2,1}, {1,1}, {0,−1}, and {−1,0}, which rises.
        p1(&[2, 5, 2, 1, 1, 1], "refused 14 0 0"),
        p1(&[2, 5, 1, 1, 1, 1], "refused 14 0 0"),
        p1(&[2, 5, 0, 1, minus_1, 1], "refused 14 0 0"),
        p1(&[2, 5, minus_1, 1, 0, 1], "refused 15 2 3"),
        // Members without a common type, and with one.
        p1(&[2, 5, 1, 1, 1, 2], "refused 14 0 0"),
        three_pairs(2, 1, "refused 14 0 0"),
        three_pairs(1, 2, "refused 15 2 3"),
        p1(&heavy, "refused 14 0 0"),
    ]
}

fn predicates() -> Vec<Answered> {
    // (1=m) with a kind and (1=TRUE).
    let partly = |kind, m, answer| {
        let nodes = [
            int(1),
            int(m),
            two(6, 0, 1),
            int(1),
            TRUE,
            two(6, 3, 4),
            two(kind, 2, 5),
        ];
        plain(closed(&nodes), answer)
    };
    // The quantifier over x∈1..3 with a test of x and n.
    let over_range = |kind, test, n, answer| {
        let nodes = [
            int(1),
            int(3),
            two(41, 0, 1),
            one(20, 0),
            int(n),
            two(test, 3, 4),
            [kind, 0, 2, 5],
        ];
        plain(table(&[], &[1], &nodes), answer)
    };
    let at_most = |m, n, answer| plain(closed(&[int(m), int(n), two(9, 0, 1)]), answer);
    // ∀x∈1·1=TRUE.
    let no_range = [int(1), int(1), TRUE, two(6, 1, 2), [10, 0, 0, 3]];
    // ∀x∈{x}·1=1: used in its own range.
    let own_range = [
        one(20, 0),
        one(27, 0),
        int(1),
        int(1),
        two(6, 2, 3),
        [10, 0, 1, 4],
    ];
    // ∀x∈1..2·x≤y, where x has no value in the buffer.
    let bound_first = [
        int(1),
        int(2),
        two(41, 0, 1),
        one(20, 0),
        one(20, 1),
        two(9, 3, 4),
        [10, 0, 2, 5],
    ];
    let p4 = || closed(&[int(1), TRUE, two(6, 0, 1)]);
    let p6 = || {
        closed(&[
            int(1),
            int(5),
            two(41, 0, 1),
            one(33, 2),
            one(38, 3),
            int(32),
            two(6, 4, 5),
        ])
    };
    vec![
        partly(1, 1, "refused 15 5 7"),
        partly(2, 2, "refused 15 5 7"),
        partly(3, 1, "refused 15 5 7"),
        partly(5, 2, "refused 15 5 7"),
        partly(5, 1, "refused 15 5 7"),
        over_range(10, 9, 2, "false 13"),
        over_range(11, 6, 2, "true 10"),
        plain(table(&[], &[1], &no_range), "refused 15 4 2"),
        plain(table(&[], &[1], &own_range), "refused 9 0 0"),
        with_cells(table(&[], &[1, 0], &bound_first), &[2, 1], "true 10"),
        at_most(-1, 0, "true 3"),
        at_most(0, -1, "false 3"),
        // No budget, and one that ends before the last node.
        answered(p4(), Vec::new(), 0, "refused 19 2 0"),
        answered(p6(), Vec::new(), 6, "refused 19 5 6"),
        answered(p6(), Vec::new(), 7, "true 7"),
    ]
}

/// Document 02, N2: f(e)=6 for values of f and e. The pairs of f have
/// integers as their second parts.
fn applications() -> Vec<Answered> {
    let nodes = [one(20, 0), one(20, 1), two(37, 0, 1), int(6), two(6, 2, 3)];
    let at = |pairs: &[(&[u32], u32)], e: &[u32], answer| {
        let mut words = vec![pairs.len() as u32, 5];
        for (first, second) in pairs {
            words.extend([0, 4]);
            words.extend(*first);
            words.extend([*second, 1]);
        }
        words.extend(e);
        with_cells(table(&[], &[0, 0], &nodes), &words, answer)
    };
    // 1, 2, 3 and TRUE; (1,2) and (1,3); ∅, {1} and {2}.
    let [one, two, three, truth] = [&[1, 1], &[2, 1], &[3, 1], &[1, 2]].map(|cell| &cell[..]);
    let [pair, other] = [&[0, 4, 1, 1, 2, 1], &[0, 4, 1, 1, 3, 1]].map(|cells| &cells[..]);
    let (none, in_set, other_set): (&[u32], &[u32], &[u32]) =
        (&[0, 5], &[1, 5, 1, 1], &[1, 5, 2, 1]);
    const UNDEFINED: &str = "refused 16 2 4";
    vec![
        at(&[], one, UNDEFINED),
        at(&[], truth, UNDEFINED),
        at(&[(one, 6), (two, 6)], two, "true 5"),
        at(&[(one, 6), (two, 6)], three, UNDEFINED),
        at(&[(one, 5), (one, 6)], one, UNDEFINED),
        at(&[(one, 5), (one, 6)], two, UNDEFINED),
        at(&[(two, 5), (two, 6)], one, UNDEFINED),
        at(&[(one, 5), (one, 6)], truth, "refused 15 2 4"),
        at(&[(one, 6), (two, 5), (two, 7)], one, UNDEFINED),
        at(&[(one, 5), (one, 7), (two, 6)], two, UNDEFINED),
        at(
            &[(one, 5), (two, 5), (two, 6), (three, 6)],
            three,
            UNDEFINED,
        ),
        at(&[(one, 5), (one, 6), (one, 7)], one, UNDEFINED),
        at(&[(pair, 5), (other, 6)], other, "true 5"),
        at(&[(pair, 5), (other, 5), (other, 6)], pair, UNDEFINED),
        at(&[(pair, 6)], other, UNDEFINED),
        at(&[(none, 5), (in_set, 6)], in_set, "true 5"),
        at(
            &[(none, 5), (in_set, 6), (other_set, 7)],
            other_set,
            "false 5",
        ),
        at(&[(in_set, 5), (in_set, 6)], in_set, UNDEFINED),
        at(&[(none, 6), (in_set, 5), (in_set, 6)], none, UNDEFINED),
        at(&[(none, 6), (in_set, 5), (in_set, 6)], other_set, UNDEFINED),
    ]
}

/// The cells of values; a set's members stand as they are given, rising or not.
type Cells = Vec<u32>;

fn number(n: i32) -> Cells {
    vec![n as u32, 1]
}

fn pair(first: &Cells, second: &Cells) -> Cells {
    [&[0, 4], &first[..], second].concat()
}

fn set(members: &[&Cells]) -> Cells {
    let mut found = vec![members.len() as u32, 5];
    members.iter().for_each(|member| found.extend(*member));
    found
}

fn group(members: &[i32]) -> Cells {
    let members: Vec<Cells> = members.iter().map(|&n| number(n)).collect();
    set(&members.iter().collect::<Vec<_>>())
}

/// Document 02, N6: sets of the same count go by their members from the
/// greatest down, at every depth.
fn orders() -> Vec<Answered> {
    let mut found = lent_orders();
    found.extend(formed_orders());
    found.extend(sets_of_groups());
    found
}

/// choice(x)=y for lent values: the least member of x, or refusal 14.
fn lent_orders() -> Vec<Answered> {
    let nodes = [one(20, 0), one(43, 0), one(20, 1), two(6, 1, 2)];
    let at = |x: &Cells, y: &Cells, answer| {
        with_cells(table(&[4], &[0, 0], &nodes), &[&x[..], y].concat(), answer)
    };
    let mut found = Vec::new();
    // The two in this order are a set whose choice is the first; in the other
    // order they are malformed.
    let mut rising = |first: &Cells, second: &Cells| {
        found.push(at(&set(&[first, second]), first, "true 4"));
        found.push(at(&set(&[first, second]), second, "false 4"));
        found.push(at(&set(&[second, first]), first, "refused 14 0 0"));
    };
    let (zero, one) = (number(0), number(1));
    let (low, high) = (group(&[2, 3]), group(&[1, 4]));
    let [single_1, single_2, single_3, single_4] = [1, 2, 3, 4].map(|n| group(&[n]));
    // Groups; before N6 all but the second went the other way.
    rising(&low, &high);
    rising(&group(&[1, 4]), &group(&[2, 4]));
    rising(&group(&[2, 3, 4]), &group(&[0, 1, 5]));
    rising(&group(&[1, 3, 5]), &group(&[0, 4, 5]));
    rising(&group(&[0, 1]), &group(&[-1, 5]));
    let long = |m, n| group(&[m, n].into_iter().chain(20..40).collect::<Vec<_>>());
    rising(&long(5, 6), &long(1, 10));
    let elements = |k: u32, l: u32| set(&[&vec![k, 3], &vec![l, 3]]);
    rising(&elements(1, 2), &elements(0, 3));
    // The count comes first.
    rising(&group(&[9]), &high);
    rising(&group(&[8, 9]), &group(&[0, 1, 2]));
    // Sets of groups: by a group inside, by the greatest group, by both.
    rising(&set(&[&low]), &set(&[&high]));
    rising(&set(&[&single_2, &single_3]), &set(&[&single_1, &single_4]));
    rising(&set(&[&single_4, &low]), &set(&[&single_1, &high]));
    rising(&set(&[&single_1, &low]), &set(&[&single_4, &high]));
    let apart = set(&[&group(&[0, 1]), &group(&[3, 4])]);
    rising(&set(&[&low, &high]), &apart);
    // One level deeper.
    rising(&set(&[&set(&[&low])]), &set(&[&set(&[&high])]));
    let [deep_1, deep_2, deep_3, deep_4] =
        [&single_1, &single_2, &single_3, &single_4].map(|single| set(&[single]));
    rising(&set(&[&deep_2, &deep_3]), &set(&[&deep_1, &deep_4]));
    // Pairs still go from left to right.
    rising(&pair(&low, &one), &pair(&high, &zero));
    rising(&pair(&one, &low), &pair(&one, &high));
    rising(&pair(&low, &low), &pair(&low, &high));
    rising(&pair(&zero, &high), &pair(&one, &low));
    rising(&pair(&high, &zero), &pair(&high, &one));
    // Sets of pairs.
    rising(&set(&[&pair(&low, &one)]), &set(&[&pair(&high, &zero)]));
    let pairs = |m, n| set(&[&pair(&number(m), &zero), &pair(&number(n), &zero)]);
    rising(&pairs(2, 3), &pairs(1, 4));
    // Of integers: the first parts decide, whatever the second ones are.
    let of = |pairs: &[[i32; 2]]| {
        let pairs = pairs.iter().map(|&[m, n]| pair(&number(m), &number(n)));
        set(&pairs.collect::<Vec<_>>().iter().collect::<Vec<_>>())
    };
    rising(&of(&[[1, 4]]), &of(&[[2, 3]]));
    rising(&of(&[[2, 0], [3, 9]]), &of(&[[1, 5], [4, 0]]));
    rising(&of(&[[2, 0], [3, 0]]), &of(&[[1, 9], [3, 1]]));
    let with_empty = |part| set(&[&pair(&zero, part), &pair(&one, &set(&[]))]);
    rising(&with_empty(&low), &with_empty(&high));
    // Three groups; a fault at the front and at the end.
    let (least, most) = (group(&[0, 1]), group(&[0, 5]));
    found.push(at(&set(&[&least, &low, &high]), &least, "true 4"));
    found.push(at(&set(&[&low, &high, &most]), &low, "true 4"));
    found.push(at(&set(&[&least, &high, &low]), &least, "refused 14 0 0"));
    found.push(at(&set(&[&high, &low, &most]), &low, "refused 14 0 0"));
    // A member twice, and a fault in the second value.
    for member in [&low, &set(&[&low]), &pair(&low, &one)] {
        found.push(at(&set(&[member, member]), member, "refused 14 0 0"));
    }
    for (first, second) in [
        (&low, &high),
        (&set(&[&low]), &set(&[&high])),
        (&pair(&low, &one), &pair(&high, &zero)),
    ] {
        let family = set(&[first, second]);
        found.push(at(&set(&[&family]), &family, "true 4"));
        found.push(at(
            &set(&[&family]),
            &set(&[second, first]),
            "refused 14 1 0",
        ));
    }
    // The members of a group still rise.
    let falling = [group(&[3, 2]), group(&[4, 1])];
    found.push(at(
        &set(&[&falling[0], &falling[1]]),
        &low,
        "refused 14 0 0",
    ));
    // In a set of one set, and in pairs: well formed, and then no set.
    let (now, before) = (set(&[&low, &high]), set(&[&high, &low]));
    found.push(at(&set(&[&now]), &now, "true 4"));
    found.push(at(&set(&[&before]), &now, "refused 14 0 0"));
    for other in [&zero, &now] {
        found.push(at(&pair(other, &now), &zero, "refused 15 1 3"));
        found.push(at(&pair(&now, other), &zero, "refused 15 1 3"));
        found.push(at(&pair(other, &before), &zero, "refused 14 0 0"));
        found.push(at(&pair(&before, other), &zero, "refused 14 0 0"));
    }
    found
}

/// ∃z∈S·z=y for an expression S of x: true after 3 visits for each member of S
/// up to y.
fn formed_orders() -> Vec<Answered> {
    let seek = |range: &[Node], x: &Cells, y: &Cells, answer| {
        let mut nodes = range.to_vec();
        let s = nodes.len() as u32;
        nodes.extend([
            one(20, 2),
            one(20, 1),
            two(6, s, s + 1),
            [11, 2, s - 1, s + 2],
        ]);
        with_cells(
            table(&[], &[0, 0, 1], &nodes),
            &[&x[..], y].concat(),
            answer,
        )
    };
    let x = one(20, 0);
    let (zero, unit) = (number(0), number(1));
    let (least, low, high) = (group(&[0, 1]), group(&[2, 3]), group(&[1, 4]));
    let lent = |y, answer| seek(&[x], &set(&[&least, &low, &high]), y, answer);
    let four = group(&[1, 2, 3, 4]);
    let subsets = |y: &[i32], answer| seek(&[x, one(33, 0)], &four, &group(y), answer);
    let (now, lows, highs) = (set(&[&low, &high]), set(&[&low]), set(&[&high]));
    let families = |y, answer| seek(&[x, one(33, 0)], &now, y, answer);
    let half = |kind, first: &Cells, second: &Cells, y, answer| {
        seek(&[x, one(kind, 0)], &set(&[first, second]), y, answer)
    };
    let product = |m, n, answer| seek(&[x, x, two(32, 0, 1)], &now, &pair(m, n), answer);
    // {w∈x|¬({w}=x)}, which is x where x has two members, as the range.
    let chosen = |y: &Cells, answer| {
        let nodes = [
            x,
            one(20, 3),
            one(27, 1),
            x,
            two(6, 2, 3),
            one(4, 4),
            [34, 3, 0, 5],
            one(20, 2),
            one(20, 1),
            two(6, 7, 8),
            [11, 2, 6, 9],
        ];
        let bytes = table(&[], &[0, 0, 1, 1], &nodes);
        with_cells(bytes, &[&now[..], y].concat(), answer)
    };
    // ∀z∈x·¬(z=y).
    let every = |y: &Cells, answer| {
        let nodes = [
            x,
            one(20, 2),
            one(20, 1),
            two(6, 1, 2),
            one(4, 3),
            [10, 2, 0, 4],
        ];
        let bytes = table(&[], &[0, 0, 1], &nodes);
        with_cells(bytes, &[&now[..], y].concat(), answer)
    };
    vec![
        lent(&least, "true 5"),
        lent(&low, "true 8"),
        lent(&high, "true 11"),
        lent(&group(&[0, 4]), "false 11"),
        every(&low, "false 6"),
        every(&high, "false 10"),
        every(&least, "true 10"),
        subsets(&[], "true 6"),
        subsets(&[4], "true 18"),
        subsets(&[1, 2], "true 21"),
        subsets(&[1, 3], "true 24"),
        subsets(&[2, 3], "true 27"),
        subsets(&[1, 4], "true 30"),
        subsets(&[2, 4], "true 33"),
        subsets(&[3, 4], "true 36"),
        subsets(&[1, 2, 3], "true 39"),
        subsets(&[2, 3, 4], "true 48"),
        subsets(&[1, 2, 3, 4], "true 51"),
        families(&lows, "true 9"),
        families(&highs, "true 12"),
        families(&now, "true 15"),
        half(35, &pair(&low, &unit), &pair(&high, &zero), &low, "true 6"),
        half(35, &pair(&low, &unit), &pair(&high, &zero), &high, "true 9"),
        half(36, &pair(&zero, &low), &pair(&zero, &high), &low, "true 6"),
        half(36, &pair(&zero, &high), &pair(&unit, &low), &low, "true 6"),
        half(36, &pair(&zero, &high), &pair(&unit, &low), &high, "true 9"),
        product(&low, &low, "true 7"),
        product(&low, &high, "true 10"),
        product(&high, &low, "true 13"),
        product(&high, &high, "true 16"),
        chosen(&low, "true 16"),
        chosen(&high, "true 19"),
    ]
}

/// What unions, tests and applications give for sets of groups.
fn sets_of_groups() -> Vec<Answered> {
    let (low, high, most) = (group(&[2, 3]), group(&[1, 4]), group(&[0, 5]));
    // The union, intersection or difference of x and y is z.
    let made = |kind, x: &[&Cells], y: &[&Cells], z: &[&Cells]| {
        let nodes = [
            one(20, 0),
            one(20, 1),
            two(kind, 0, 1),
            one(20, 2),
            two(6, 2, 3),
        ];
        let words = [set(x), set(y), set(z)].concat();
        with_cells(table(&[], &[0, 0, 0], &nodes), &words, "true 5")
    };
    let member = |x: &Cells, y: &[&Cells], answer| {
        let nodes = [one(20, 0), one(20, 1), two(7, 0, 1)];
        let words = [&x[..], &set(y)].concat();
        with_cells(table(&[], &[0, 0], &nodes), &words, answer)
    };
    let subset = |x: &[&Cells], y: &[&Cells], answer| {
        let nodes = [one(20, 0), one(20, 1), two(8, 0, 1)];
        with_cells(
            table(&[], &[0, 0], &nodes),
            &[set(x), set(y)].concat(),
            answer,
        )
    };
    // f(e)=6, where f has pairs of {2,3} with 5 and of {1,4} with 6.
    let (five, six) = (pair(&low, &number(5)), pair(&high, &number(6)));
    let applied = |f: &[&Cells], e: &Cells, answer| {
        let nodes = [one(20, 0), one(20, 1), two(37, 0, 1), int(6), two(6, 2, 3)];
        let words = [&set(f)[..], e].concat();
        with_cells(table(&[], &[0, 0], &nodes), &words, answer)
    };
    vec![
        made(29, &[&high], &[&low], &[&low, &high]),
        made(29, &[&low, &most], &[&high], &[&low, &high, &most]),
        made(29, &[&low, &high], &[&low, &high], &[&low, &high]),
        made(30, &[&low, &high], &[&high, &most], &[&high]),
        made(30, &[&low, &most], &[&high], &[]),
        made(31, &[&low, &high], &[&high, &most], &[&low]),
        made(31, &[&low, &high, &most], &[&high], &[&low, &most]),
        member(&low, &[&low, &high], "true 3"),
        member(&high, &[&low, &high], "true 3"),
        member(&high, &[&low, &most], "false 3"),
        subset(&[&high], &[&low, &high, &most], "true 3"),
        subset(&[&low, &most], &[&low, &high, &most], "true 3"),
        subset(&[&low, &high], &[&low, &most], "false 3"),
        applied(&[&five, &six], &high, "true 5"),
        applied(&[&five, &six], &low, "false 5"),
        applied(&[&five, &six], &most, "refused 16 2 4"),
        applied(&[&six, &five], &high, "refused 14 0 0"),
        applied(
            &[&five, &six, &pair(&high, &number(7))],
            &low,
            "refused 16 2 4",
        ),
    ]
}

fn operations() -> Vec<Answered> {
    // {(1,5),(2,6)} as f: f(e)=6 for a node e, and dom(f) or ran(f) is m..n.
    let two_pairs = [2, 5, 0, 4, 1, 1, 5, 1, 0, 4, 2, 1, 6, 1];
    let applied = |e, answer| {
        let nodes = [one(20, 0), e, two(37, 0, 1), int(6), two(6, 2, 3)];
        with_cells(table(&[], &[0], &nodes), &two_pairs, answer)
    };
    let half = |kind, m, n| {
        let nodes = [
            one(20, 0),
            one(kind, 0),
            int(m),
            int(n),
            two(41, 2, 3),
            two(6, 1, 4),
        ];
        with_cells(table(&[], &[0], &nodes), &two_pairs, "true 6")
    };
    // The test of 1..m and 1..n.
    let ranges = |test, m, n, answer| {
        let nodes = [
            int(1),
            int(m),
            two(41, 0, 1),
            int(1),
            int(n),
            two(41, 3, 4),
            two(test, 2, 5),
        ];
        plain(closed(&nodes), answer)
    };
    let arithmetic = |kind, m, n, i, answer| {
        let nodes = [int(m), int(n), two(kind, 0, 1), int(i), two(6, 2, 3)];
        plain(closed(&nodes), answer)
    };
    // (m,n)∈(1..2)×(1..1).
    let in_product = |m, n, answer| {
        let nodes = [
            int(m),
            int(n),
            two(28, 0, 1),
            int(1),
            int(2),
            two(41, 3, 4),
            int(1),
            int(1),
            two(41, 6, 7),
            two(32, 5, 8),
            two(7, 2, 9),
        ];
        plain(closed(&nodes), answer)
    };
    // choice({0}∪{−1})=−1.
    let least = [
        int(0),
        one(27, 0),
        int(-1),
        one(27, 2),
        two(29, 1, 3),
        one(43, 4),
        int(-1),
        two(6, 5, 6),
    ];
    // card({x∈1..3|x=2})=1.
    let chosen = [
        int(1),
        int(3),
        two(41, 0, 1),
        one(20, 0),
        int(2),
        two(6, 3, 4),
        [34, 0, 2, 5],
        one(38, 6),
        int(1),
        two(6, 7, 8),
    ];
    // {1}∪{TRUE}={1}: unlike sets.
    let unlike = [
        int(1),
        one(27, 0),
        TRUE,
        one(27, 2),
        two(29, 1, 3),
        int(1),
        one(27, 5),
        two(6, 4, 6),
    ];
    // {TRUE}∪∅={TRUE}: ∅ is like each set.
    let like = [
        TRUE,
        one(27, 0),
        EMPTY,
        two(29, 1, 2),
        TRUE,
        one(27, 4),
        two(6, 3, 5),
    ];
    // 1..2∈POW(1..3).
    let in_power = [
        int(1),
        int(2),
        two(41, 0, 1),
        int(1),
        int(3),
        two(41, 3, 4),
        one(33, 5),
        two(7, 2, 6),
    ];
    // choice(1)=1, card(G0)=2, element 1 of G0 is in G0, elements of G0 and
    // G1 are unlike, 2147483647+TRUE=0: 15 comes before 17.
    let no_set = [int(1), one(43, 0), int(1), two(6, 1, 2)];
    let given = [one(21, 0), one(38, 0), int(2), two(6, 1, 2)];
    let element = [two(22, 0, 1), one(21, 0), two(7, 0, 1)];
    let elements = [two(22, 0, 0), two(22, 1, 0), two(6, 0, 1)];
    let no_sum = [int(i32::MAX), TRUE, two(39, 0, 1), int(0), two(6, 2, 3)];
    vec![
        applied(int(1), "false 5"),
        applied(int(3), "refused 16 2 4"),
        applied(TRUE, "refused 15 2 4"),
        half(35, 1, 2),
        half(36, 5, 6),
        ranges(6, 2, 3, "false 7"),
        ranges(6, 256, 1, "refused 18 2 4"),
        in_product(2, 1, "true 11"),
        in_product(1, 2, "false 11"),
        arithmetic(40, 2, 3, -1, "true 5"),
        arithmetic(40, i32::MIN, 1, 0, "refused 17 2 4"),
        arithmetic(39, i32::MIN, 0, i32::MIN, "true 5"),
        plain(closed(&least), "true 8"),
        plain(closed(&no_set), "refused 15 1 3"),
        plain(table(&[], &[1], &chosen), "true 16"),
        plain(closed(&unlike), "refused 15 4 6"),
        plain(closed(&like), "true 7"),
        plain(closed(&in_power), "true 8"),
        plain(table(&[2], &[], &given), "true 4"),
        plain(table(&[2], &[], &element), "true 3"),
        plain(table(&[1, 1], &[], &elements), "refused 15 2 3"),
        plain(closed(&no_sum), "refused 15 2 4"),
    ]
}
