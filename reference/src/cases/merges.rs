//! Document 02, N12: merges, with the comparisons and the union's cells as they
//! stand. A heavy answer has its comparisons too.

use super::{bytes, group, int, number, one, pair, set, table, two, Answered, Cells, Node, TRUE};
use crate::batch::{hex, Case};

/// The sizes of the given sets.
const SIZES: [u32; 2] = [4, 2];

pub fn merges() -> Vec<Answered> {
    let mut found = positions();
    found.extend(scalars());
    found.extend(pairs());
    found.extend(sets_of_sets());
    found.extend(limits());
    found.extend(far_over());
    found.extend(unlike());
    found.extend(no_sets());
    found.extend(identifiers());
    found.extend(damaged());
    found.extend(buffers());
    found
}

fn case(table: Vec<u8>, values: &[&Cells], answer: String) -> Answered {
    let values = values.iter().flat_map(|cells| bytes(cells)).collect();
    Answered {
        case: Case::Merge { table, values },
        answer,
    }
}

/// The values at so many free identifiers, with no nodes.
fn lent(values: &[&Cells], answer: String) -> Answered {
    let flags = vec![0; values.len()];
    case(table(&SIZES, &flags, &[]), values, answer)
}

fn merged(comparisons: u32, union: &Cells) -> String {
    format!("merged {comparisons} {}", hex(&bytes(union)))
}

fn united(x: &Cells, y: &Cells, comparisons: u32, union: &Cells) -> Answered {
    lent(&[x, y], merged(comparisons, union))
}

/// Both ways round: the comparisons are the same.
fn both_ways(x: &Cells, y: &Cells, comparisons: u32, union: &Cells) -> Vec<Answered> {
    let ways = [[x, y], [y, x]];
    ways.map(|[x, y]| united(x, y, comparisons, union)).into()
}

fn heavy(x: &Cells, y: &Cells, comparisons: u32) -> Vec<Answered> {
    let ways = [[x, y], [y, x]];
    ways.map(|both| lent(&both, format!("heavy {comparisons}")))
        .into()
}

fn unfit(x: &Cells, y: &Cells) -> Vec<Answered> {
    let ways = [[x, y], [y, x]];
    ways.map(|both| lent(&both, "unfit".to_string())).into()
}

/// How two rising lists lie to each other.
fn positions() -> Vec<Answered> {
    let at = |x: &[i32], y: &[i32], comparisons, union: &[i32]| {
        both_ways(&group(x), &group(y), comparisons, &group(union))
    };
    let to_8 = [1, 2, 3, 4, 5, 6, 7, 8];
    [
        at(&[1, 2, 3], &[1, 2, 3], 3, &[1, 2, 3]),
        at(&[1, 3, 5], &[2, 4, 6], 5, &[1, 2, 3, 4, 5, 6]),
        at(&[1], &[2, 3, 4], 1, &[1, 2, 3, 4]),
        // Empty sets, and sets of one member.
        at(&[], &[], 0, &[]),
        at(&[], &[7], 0, &[7]),
        at(&[], &to_8, 0, &to_8),
        at(&[5], &[5], 1, &[5]),
        at(&[5], &[6], 1, &[5, 6]),
        // One lies below the other.
        at(&[1, 2, 3], &[4, 5, 6], 3, &[1, 2, 3, 4, 5, 6]),
        at(&[1, 2], &[3, 4, 5, 6], 2, &[1, 2, 3, 4, 5, 6]),
        at(&[1, 2, 3, 4], &[5, 6], 4, &[1, 2, 3, 4, 5, 6]),
        // One member against many: at the front, within, at the end, behind.
        at(&[0], &to_8, 1, &[0, 1, 2, 3, 4, 5, 6, 7, 8]),
        at(&[1], &to_8, 1, &to_8),
        at(&[5], &to_8, 5, &to_8),
        at(&[8], &to_8, 8, &to_8),
        at(&[9], &to_8, 8, &[1, 2, 3, 4, 5, 6, 7, 8, 9]),
        // One within the other.
        at(&[1, 3], &[1, 2, 3], 3, &[1, 2, 3]),
        at(&[2, 3], &[1, 2, 3, 4], 3, &[1, 2, 3, 4]),
        at(&[1, 2], &[1, 2, 3, 4], 2, &[1, 2, 3, 4]),
        at(&[3, 4], &[1, 2, 3, 4], 4, &[1, 2, 3, 4]),
        // Runs that overlap; a run within a gap; equal fronts among others.
        at(&[1, 2, 3, 4], &[3, 4, 5, 6], 4, &[1, 2, 3, 4, 5, 6]),
        at(&[3, 4], &[1, 2, 5, 6], 4, &[1, 2, 3, 4, 5, 6]),
        at(&[1, 2, 4], &[2, 3, 4, 5], 4, &[1, 2, 3, 4, 5]),
        at(&[1, 4, 6], &[2, 4, 5], 4, &[1, 2, 4, 5, 6]),
    ]
    .into_iter()
    .flatten()
    .collect()
}

fn truth(payload: u32) -> Cells {
    vec![payload, 2]
}

fn element(g: u32, k: u32) -> Cells {
    vec![256 * g + k, 3]
}

fn scalars() -> Vec<Answered> {
    let integers = |x: &[i32], y: &[i32], comparisons, union: &[i32]| {
        both_ways(&group(x), &group(y), comparisons, &group(union))
    };
    let (least, most) = (i32::MIN, i32::MAX);
    let [no, yes] = [truth(0), truth(1)];
    let [a, b, c, d] = [0, 1, 2, 3].map(|k| element(0, k));
    let [first, second] = [0, 1].map(|k| element(1, k));
    [
        // Integers are compared signed.
        integers(&[-1, 2], &[0], 2, &[-1, 0, 2]),
        integers(&[least, most], &[-1, 0], 3, &[least, -1, 0, most]),
        integers(&[-3, -1], &[-2], 2, &[-3, -2, -1]),
        integers(&[-256, 1], &[-1, 255, 256], 3, &[-256, -1, 1, 255, 256]),
        both_ways(&set(&[&no]), &set(&[&yes]), 1, &set(&[&no, &yes])),
        both_ways(&set(&[&no, &yes]), &set(&[&yes]), 2, &set(&[&no, &yes])),
        both_ways(&set(&[&no, &yes]), &set(&[&no]), 1, &set(&[&no, &yes])),
        both_ways(&set(&[&no, &yes]), &set(&[]), 0, &set(&[&no, &yes])),
        both_ways(&set(&[&a, &d]), &set(&[&b]), 2, &set(&[&a, &b, &d])),
        both_ways(&set(&[&c, &d]), &set(&[&a, &c]), 2, &set(&[&a, &c, &d])),
        both_ways(
            &set(&[&first]),
            &set(&[&second]),
            1,
            &set(&[&first, &second]),
        ),
    ]
    .into_iter()
    .flatten()
    .collect()
}

fn pairs() -> Vec<Answered> {
    let of = |m, n| pair(&number(m), &number(n));
    let at = |x: &[&Cells], y: &[&Cells], comparisons, union: &[&Cells]| {
        both_ways(&set(x), &set(y), comparisons, &set(union))
    };
    let [p, q, r, s] = [of(1, 2), of(1, 3), of(2, 1), of(2, -1)];
    let [no, yes] = [0, 1].map(|payload| pair(&number(1), &truth(payload)));
    let [left, right] = [[0, 9], [1, 0]].map(|[m, n]| pair(&of(0, m), &number(n)));
    let none = set(&[]);
    let (low, high) = (group(&[2, 3]), group(&[1, 4]));
    let [low_1, high_0] = [pair(&low, &number(1)), pair(&high, &number(0))];
    let [zero_high, one_low] = [pair(&number(0), &high), pair(&number(1), &low)];
    let zero_low = pair(&number(0), &low);
    let [none_1, ones_1] = [&none, &group(&[1])].map(|first| pair(first, &number(1)));
    [
        // The first parts decide, then the second.
        at(&[&p, &r], &[&q], 2, &[&p, &q, &r]),
        at(&[&s, &r], &[&p, &q], 2, &[&p, &q, &s, &r]),
        at(&[&p, &q], &[&q, &r], 2, &[&p, &q, &r]),
        at(&[&p, &q, &s], &[&r], 3, &[&p, &q, &s, &r]),
        at(&[&no], &[&yes], 1, &[&no, &yes]),
        at(&[&left], &[&right], 1, &[&left, &right]),
        // Parts that are sets: of equal counts the greatest members decide.
        at(&[&low_1], &[&high_0], 1, &[&low_1, &high_0]),
        at(&[&zero_high], &[&one_low], 1, &[&zero_high, &one_low]),
        at(
            &[&zero_low, &one_low],
            &[&zero_high],
            2,
            &[&zero_low, &zero_high, &one_low],
        ),
        at(&[&none_1], &[&ones_1], 1, &[&none_1, &ones_1]),
        at(&[&none_1], &[&none_1, &ones_1], 1, &[&none_1, &ones_1]),
    ]
    .into_iter()
    .flatten()
    .collect()
}

/// Members that are sets: the count decides, then N6.
fn sets_of_sets() -> Vec<Answered> {
    let at = |x: &[&Cells], y: &[&Cells], comparisons, union: &[&Cells]| {
        both_ways(&set(x), &set(y), comparisons, &set(union))
    };
    let (low, high, most) = (group(&[2, 3]), group(&[1, 4]), group(&[0, 5]));
    let (none, nine, ones) = (set(&[]), group(&[9]), group(&[1]));
    let [of_low, of_high, of_none] = [&low, &high, &none].map(|member| set(&[member]));
    let family = set(&[&low, &high]);
    [
        at(&[&low], &[&high], 1, &[&low, &high]),
        at(&[&low, &most], &[&high], 2, &[&low, &high, &most]),
        at(&[&low, &high], &[&most], 2, &[&low, &high, &most]),
        at(&[&high, &most], &[&low], 1, &[&low, &high, &most]),
        at(&[&low, &high], &[&low, &high], 2, &[&low, &high]),
        at(&[&low, &high], &[&high, &most], 2, &[&low, &high, &most]),
        at(&[&nine, &low], &[&high], 2, &[&nine, &low, &high]),
        at(&[&nine], &[&low, &high], 1, &[&nine, &low, &high]),
        at(&[&none], &[&none], 1, &[&none]),
        at(&[&none], &[&ones], 1, &[&none, &ones]),
        at(
            &[&none, &low],
            &[&ones, &high],
            3,
            &[&none, &ones, &low, &high],
        ),
        at(&[], &[&low, &high], 0, &[&low, &high]),
        at(&[&of_low], &[&of_high], 1, &[&of_low, &of_high]),
        at(
            &[&of_none, &of_high],
            &[&of_low],
            2,
            &[&of_none, &of_low, &of_high],
        ),
        at(&[&of_high], &[&family], 1, &[&of_high, &family]),
    ]
    .into_iter()
    .flatten()
    .collect()
}

/// The integers from m on, below n, a step apart.
fn run(m: i32, n: i32, step: usize) -> Cells {
    group(&(m..n).step_by(step).collect::<Vec<_>>())
}

fn whole(members: &[Cells]) -> Cells {
    set(&members.iter().collect::<Vec<_>>())
}

/// The members at even or at odd places.
fn by_turns(members: &[Cells], odd: usize) -> Vec<Cells> {
    members.iter().skip(odd).step_by(2).cloned().collect()
}

/// Unions that weigh 256, and 257.
fn limits() -> Vec<Answered> {
    let all = run(0, 255, 1);
    // (n,0) and (n,∅) for 85 numbers, 3 cells each; (84,{0}) has 4 and stands
    // for the last.
    let plain: Vec<Cells> = (0..85).map(|n| pair(&number(n), &number(0))).collect();
    let open: Vec<Cells> = (0..85).map(|n| pair(&number(n), &set(&[]))).collect();
    let longer = pair(&number(84), &group(&[0]));
    let last_longer = [&open[80..84], &[longer]].concat();
    // {0,1}, {0,2}, {1,2}, {0,3} ..: 85 sets of 3 cells.
    let every = (0..14).flat_map(|n| (0..n).map(move |m| group(&[m, n])));
    let groups: Vec<Cells> = every.take(85).collect();
    let [even, odd] = [0, 1].map(|odd| by_turns(&groups, odd));
    let none = set(&[]);
    let with_none = [&[none], &odd[..]].concat();
    [
        both_ways(&run(0, 100, 1), &run(100, 255, 1), 100, &all),
        heavy(&run(0, 100, 1), &run(100, 256, 1), 100),
        both_ways(&run(0, 255, 2), &run(1, 255, 2), 254, &all),
        heavy(&run(0, 256, 2), &run(1, 256, 2), 255),
        vec![united(&all, &all, 255, &all)],
        both_ways(&all, &set(&[]), 0, &all),
        both_ways(&all, &group(&[0]), 1, &all),
        both_ways(&all, &group(&[254]), 255, &all),
        heavy(&all, &group(&[-1]), 1),
        heavy(&all, &group(&[255]), 255),
        both_ways(&run(0, 200, 1), &run(50, 255, 1), 200, &all),
        heavy(&run(0, 200, 1), &run(50, 256, 1), 200),
        both_ways(
            &whole(&plain[..40]),
            &whole(&plain[40..]),
            40,
            &whole(&plain),
        ),
        both_ways(&whole(&open[..60]), &whole(&open[20..]), 60, &whole(&open)),
        heavy(&whole(&open[..82]), &whole(&last_longer), 82),
        both_ways(&whole(&even), &whole(&odd), 84, &whole(&groups)),
        heavy(&whole(&even), &whole(&with_none), 85),
    ]
    .into_iter()
    .flatten()
    .collect()
}

/// The comparisons are those of the whole merge.
fn far_over() -> Vec<Answered> {
    let points = |m, n| {
        let point = |n| pair(&number(n), &number(-n));
        whole(&(m..n).map(point).collect::<Vec<_>>())
    };
    let every = (0..18).flat_map(|n| (0..n).map(move |m| group(&[m, n])));
    let groups: Vec<Cells> = every.collect();
    [
        heavy(&run(0, 200, 1), &run(200, 400, 1), 200),
        heavy(&run(0, 400, 2), &run(1, 400, 2), 399),
        heavy(&run(0, 200, 1), &run(100, 300, 1), 200),
        heavy(&run(0, 255, 1), &run(255, 510, 1), 255),
        heavy(&run(-255, 0, 1), &run(0, 255, 1), 255),
        heavy(&run(0, 510, 2), &run(1, 510, 2), 509),
        heavy(&points(0, 80), &points(80, 160), 80),
        heavy(&points(0, 80), &points(40, 120), 80),
        heavy(&whole(&groups[..80]), &whole(&groups[80..150]), 80),
        heavy(
            &whole(&by_turns(&groups[..150], 0)),
            &whole(&by_turns(&groups[..150], 1)),
            149,
        ),
    ]
    .into_iter()
    .flatten()
    .collect()
}

/// Sets that share no type, beside some that do.
fn unlike() -> Vec<Answered> {
    let (one, yes, none) = (number(1), truth(1), set(&[]));
    let (ones, truths) = (set(&[&one]), set(&[&yes]));
    let [in_0, in_1] = [0, 1].map(|g| set(&[&element(g, 0)]));
    let of = |first: &Cells, second: &Cells| set(&[&pair(first, second)]);
    let open = of(&number(0), &none);
    // (0,∅) with (1,{TRUE}): the second part of either has members of BOOL.
    let closed = set(&[&pair(&number(0), &none), &pair(&number(1), &truths)]);
    let mut found: Vec<Answered> = [
        unfit(&ones, &truths),
        unfit(&in_0, &in_1),
        unfit(&in_0, &ones),
        unfit(&of(&one, &yes), &of(&yes, &one)),
        unfit(&of(&one, &yes), &ones),
        unfit(&of(&pair(&one, &one), &one), &of(&one, &pair(&one, &one))),
        unfit(&set(&[&ones]), &ones),
        unfit(&set(&[&ones]), &set(&[&truths])),
        unfit(&set(&[&none]), &ones),
        unfit(&set(&[&set(&[&none])]), &set(&[&ones])),
        unfit(&closed, &of(&number(0), &ones)),
        // The union would weigh 257.
        unfit(&run(0, 255, 1), &truths),
    ]
    .into_iter()
    .flatten()
    .collect();
    let with_ones = pair(&number(0), &ones);
    let both = set(&[&pair(&number(0), &none), &with_ones]);
    found.extend(both_ways(&open, &set(&[&with_ones]), 1, &both));
    found.extend(both_ways(&open, &closed, 1, &closed));
    found
}

/// Values that are no sets, also equal ones and beside the empty set.
fn no_sets() -> Vec<Answered> {
    let (one, yes) = (number(1), truth(1));
    let ones = set(&[&one]);
    [
        unfit(&one, &one),
        unfit(&one, &number(2)),
        unfit(&one, &ones),
        unfit(&one, &set(&[])),
        unfit(&yes, &yes),
        unfit(&yes, &set(&[&yes])),
        unfit(&element(0, 1), &set(&[&element(0, 1)])),
        unfit(&pair(&ones, &ones), &ones),
        unfit(&pair(&ones, &ones), &pair(&ones, &ones)),
        unfit(&pair(&ones, &ones), &set(&[])),
    ]
    .into_iter()
    .flatten()
    .collect()
}

/// Which identifiers are the two lowest free ones.
fn identifiers() -> Vec<Answered> {
    let [a, b, c] = [1, 2, 3].map(|n| group(&[n]));
    let first_two = || merged(1, &group(&[1, 2]));
    let unfit = || "unfit".to_string();
    // The bound ones stand in one another around 1=1.
    let at = |flags: &[u32], values: &[&Cells], answer| {
        let mut nodes = vec![int(1), int(1), two(6, 0, 1)];
        let bound = (0..flags.len()).filter(|&x| flags[x] == 1);
        for x in bound {
            let body = nodes.len() as u32 - 1;
            nodes.extend([one(42, 0), [10, x as u32, body + 1, body]]);
        }
        case(table(&SIZES, flags, &nodes), values, answer)
    };
    let lent_to = |nodes: &[Node], answer| case(table(&SIZES, &[0, 0], nodes), &[&a, &b], answer);
    let (x, y) = (one(20, 0), one(20, 1));
    let no_values: &[&Cells] = &[];
    vec![
        at(&[0, 0], &[&a, &b], first_two()),
        at(&[1, 0, 0], &[&a, &b], first_two()),
        at(&[0, 1, 0], &[&a, &b], first_two()),
        at(&[0, 0, 1], &[&a, &b], first_two()),
        at(&[1, 1, 0, 1, 0, 1], &[&a, &b], first_two()),
        at(&[0, 0, 0], &[&a, &b, &c], first_two()),
        at(&[1, 0, 1, 0, 1, 0], &[&a, &b, &c], first_two()),
        at(&[0, 0, 0], &[&a, &b, &number(1)], first_two()),
        at(&[0, 0, 0, 0], &[&a, &number(1), &b, &c], unfit()),
        at(&[0, 0, 0], &[&number(1), &a, &b], unfit()),
        at(&[0; 32], &[&a; 32], merged(1, &a)),
        // Fewer than two.
        at(&[0], &[&a], unfit()),
        at(&[0], &[&set(&[])], unfit()),
        at(&[0, 1], &[&a], unfit()),
        at(&[1, 0], &[&a], unfit()),
        at(&[1, 1], no_values, unfit()),
        at(&[], no_values, unfit()),
        lent(&[&a], unfit()),
        lent(no_values, unfit()),
        // Whatever the condition is: x=y, 1=TRUE, x∪1=y, and x used alone.
        lent_to(&[x, y, two(6, 0, 1)], first_two()),
        lent_to(&[int(1), TRUE, two(6, 0, 1)], first_two()),
        lent_to(&[x, int(1), two(29, 0, 1), y, two(6, 2, 3)], first_two()),
        lent_to(&[x, x, two(6, 0, 1)], first_two()),
    ]
}

/// x=y for sets x and y.
const SOUND: [u32; 23] = [
    1, 1, 2, 3, 32, 36, 44, 92, 2, 0, 0, 20, 0, 0, 0, 20, 1, 0, 0, 6, 0, 1, 0,
];

/// Refused whether the values are right or missing.
fn refused(table: Vec<u8>, answer: &str) -> Vec<Answered> {
    let values: [&[&Cells]; 2] = [&[&group(&[1]), &group(&[2])], &[]];
    values
        .map(|values| case(table.clone(), values, format!("refused {answer}")))
        .into()
}

/// Refusals 1 to 9.
fn damaged() -> Vec<Answered> {
    let sound = bytes(&SOUND);
    let spoilt = |i: usize, word: u32, answer| {
        let mut words = SOUND;
        words[i] = word;
        refused(bytes(&words), answer)
    };
    let mut negations = vec![int(1), int(1), two(6, 0, 1)];
    negations.extend((2..28).map(|p| one(4, p)));
    [
        spoilt(0, 2, "1 0"),
        refused(sound[..31].to_vec(), "1 0"),
        refused(Vec::new(), "1 0"),
        spoilt(1, 17, "2 0"),
        spoilt(2, 33, "2 0"),
        spoilt(3, 513, "2 0"),
        spoilt(4, 36, "3 0"),
        spoilt(5, 40, "3 0"),
        spoilt(6, 48, "3 0"),
        spoilt(7, 96, "3 0"),
        refused(sound[..91].to_vec(), "3 0"),
        refused([&sound[..], &[0]].concat(), "3 0"),
        spoilt(8, 0, "4 0"),
        spoilt(8, 33, "4 0"),
        spoilt(9, 2, "5 0"),
        spoilt(10, 2, "5 1"),
        // An unknown kind, no such identifier, a nonzero unused field, a child
        // that is not lower.
        spoilt(11, 12, "6 0"),
        spoilt(16, 2, "6 1"),
        spoilt(17, 1, "6 1"),
        spoilt(21, 2, "6 2"),
        // A node twice a child, an expression last.
        spoilt(21, 0, "7 0"),
        spoilt(19, 28, "7 2"),
        refused(table(&SIZES, &[0, 0], &negations), "8 28"),
        // Bound without a binder.
        spoilt(9, 1, "9 0"),
        spoilt(10, 1, "9 1"),
    ]
    .into_iter()
    .flatten()
    .collect()
}

/// Values with each fault of refusal 14.
fn faults() -> [Cells; 18] {
    let (ones, low, high) = (group(&[1]), group(&[2, 3]), group(&[1, 4]));
    let minus_1 = u32::MAX;
    let mut heavy = vec![256, 5];
    heavy.extend((0..256).flat_map(|n| [n, 1]));
    [
        // Unknown tags, a nonzero byte behind the tag, a truth 2, a pair with
        // a payload.
        vec![1, 0],
        vec![1, 6],
        vec![1, 5 + 256, 1, 1],
        vec![2, 2],
        vec![1, 4, 1, 1, 1, 1],
        // Members that fall or repeat, at each depth.
        group(&[2, 1]),
        group(&[1, 1]),
        vec![2, 5, 0, 1, minus_1, 1],
        set(&[&high, &low]),
        set(&[&low, &low]),
        set(&[&group(&[3, 2])]),
        set(&[&pair(&high, &ones), &pair(&low, &ones)]),
        // Members without a common type.
        set(&[&number(1), &truth(1)]),
        set(&[&ones, &set(&[&truth(1)])]),
        // Elements that are not there.
        set(&[&element(0, 4)]),
        set(&[&element(2, 0)]),
        // 257 cells, and more members than cells.
        heavy,
        vec![1000, 5, 1, 1],
    ]
}

/// Refusal 14, at the identifier or behind the last, also where the first two
/// values are unlike or missing.
fn buffers() -> Vec<Answered> {
    let refused = |place: u32| format!("refused 14 {place}");
    let (sound, fault) = (group(&[1]), group(&[2, 1]));
    let mut found = Vec::new();
    for fault in &faults() {
        found.push(lent(&[fault, &sound], refused(0)));
        found.push(lent(&[&sound, fault], refused(1)));
    }
    let binder = [int(1), int(1), two(6, 0, 1), one(42, 0), [10, 0, 3, 2]];
    let bound_first = |values: &[&Cells], place| {
        let bytes = table(&SIZES, &[1, 0, 0], &binder);
        case(bytes, values, refused(place))
    };
    let extent = |free: usize, values: &[&Cells], place| {
        let bytes = table(&SIZES, &vec![0; free], &[]);
        case(bytes, values, refused(place))
    };
    found.extend([
        lent(&[&sound, &sound, &fault], refused(2)),
        lent(&[&number(1), &number(1), &fault], refused(2)),
        lent(&[&fault, &fault], refused(0)),
        lent(&[&fault], refused(0)),
        bound_first(&[&fault, &sound], 1),
        bound_first(&[&sound, &fault], 2),
        bound_first(&[&sound], 2),
        bound_first(&[&sound, &sound, &sound], 3),
        // Too few, cut inside a cell or between members, and too many.
        extent(2, &[], 0),
        extent(2, &[&sound], 1),
        extent(2, &[&sound, &vec![1]], 1),
        extent(2, &[&sound, &vec![1, 5]], 1),
        extent(2, &[&sound, &sound, &sound], 2),
        extent(2, &[&sound, &sound, &vec![0]], 2),
        extent(3, &[&sound, &sound], 2),
        extent(0, &[&sound], 0),
        extent(1, &[&sound, &sound], 1),
    ]);
    found
}
