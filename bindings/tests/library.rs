//! The library through its safe calls: document 01's conditions, and what the wrapper adds.

mod common;

use common::table;
use falgrumi::{
    check, check_into, checked_evaluation, conforms, evaluate, sheet_length, Evaluation,
    GuardedRun, Refusal,
};

const P1: &[u8] = include_bytes!("../../tables/p1");
const P2: &[u8] = include_bytes!("../../tables/p2");
const P3: &[u8] = include_bytes!("../../tables/p3");
const GATE: &[u8] = include_bytes!("../../tables/gate");
/// choice(x0) = {G0.1} ∪ {G0.2}, for a set x0 of groups of bins.
const GROUPS: &[u8] = include_bytes!("../../tables/groups");
/// x is element 1 of G0.
const ELEMENT: &[u8] = &[1, 0, 0, 0, 3, 0, 0, 0];

fn refused(number: u8, place: u32) -> Refusal {
    Refusal { number, place }
}

fn ends(outcome: Result<bool, Refusal>, steps: u32) -> Evaluation {
    Evaluation { outcome, steps }
}

/// card(POW(1..high)) = 32
fn power(high: u32) -> Vec<u8> {
    let (low, high) = ([23, 1, 0, 0], [23, high, 0, 0]);
    let (interval, power, card) = ([41, 0, 1, 0], [33, 2, 0, 0], [38, 3, 0, 0]);
    table(
        &[],
        &[
            low,
            high,
            interval,
            power,
            card,
            [23, 32, 0, 0],
            [6, 4, 5, 0],
        ],
    )
}

/// ∀ x ∈ 2..1 · x = x
fn empty_range() -> Vec<u8> {
    let (two, one, range) = ([23, 2, 0, 0], [23, 1, 0, 0], [41, 0, 1, 0]);
    let (x, same, all) = ([20, 0, 0, 0], [6, 3, 4, 0], [10, 0, 2, 5]);
    table(&[1], &[two, one, range, x, x, same, all])
}

#[test]
fn accepted_rows_are_types() {
    let sheet = check(P1).expect("P1 is accepted");
    assert_eq!((sheet.identifiers(), sheet.nodes()), (1, 3));
    let types: Vec<Option<String>> = (0..5)
        .map(|place| sheet.row(place).map(|t| t.to_string()))
        .collect();
    let [g, pow] = ["G0", "POW(G0)"].map(|t| Some(t.to_string()));
    assert_eq!(types, [g.clone(), g, pow, None, None]);
    assert_eq!(sheet.identifier(0), sheet.node(0));
    assert_eq!(
        (sheet.identifier(1), sheet.node(2), sheet.node(usize::MAX)),
        (None, None, None)
    );
    assert_eq!(sheet.bytes().len(), sheet_length(P1));
    let gate = check(GATE).expect("the gate is accepted");
    assert_eq!(
        gate.identifier(1).expect("a type").to_string(),
        "POW(G0 × G1)"
    );
}

#[test]
fn check_refuses_as_document_01_says() {
    let unlike = table(&[], &[[23, 1, 0, 0], [24, 1, 0, 0], [6, 0, 1, 0]]);
    assert_eq!(check(P2).err(), Some(refused(12, 0)));
    assert_eq!(check(P3).err(), Some(refused(11, 3)));
    assert_eq!(check(&unlike).err(), Some(refused(11, 2)));
}

#[test]
fn evaluate_answers_as_document_01_says() {
    let (one, truth, equal) = ([23, 1, 0, 0], [24, 1, 0, 0], [6, 0, 1, 0]);
    let p4 = table(&[], &[one, truth, equal]);
    let p5 = table(
        &[],
        &[one, one, equal, one, truth, [6, 3, 4, 0], [2, 2, 5, 0]],
    );
    let p8 = table(&[], &[[26, 0, 0, 0], [43, 0, 0, 0], one, [6, 1, 2, 0]]);
    let most = [23, i32::MAX as u32, 0, 0];
    let p9 = table(
        &[],
        &[most, one, [39, 0, 1, 0], [23, 0, 0, 0], [6, 2, 3, 0]],
    );
    assert_eq!(evaluate(P1, ELEMENT, 100), ends(Ok(true), 3));
    assert_eq!(evaluate(&p4, &[], 100), ends(Err(refused(15, 2)), 3));
    assert_eq!(evaluate(&p5, &[], 100), ends(Ok(true), 4));
    assert_eq!(evaluate(&power(5), &[], 100), ends(Ok(true), 7));
    assert_eq!(evaluate(&power(6), &[], 100), ends(Err(refused(18, 3)), 6));
    assert_eq!(evaluate(&p8, &[], 100), ends(Err(refused(16, 1)), 3));
    assert_eq!(evaluate(&p9, &[], 100), ends(Err(refused(17, 2)), 4));
    assert_eq!(evaluate(&empty_range(), &[], 100), ends(Ok(true), 4));
    assert_eq!(
        evaluate(&empty_range(), &[], 3),
        ends(Err(refused(19, 1)), 3)
    );
}

/// A gate with no clauses yet: the values are tested, and then it is true whatever the budget.
#[test]
fn no_clauses_are_true() {
    let (bare, free, bound) = (table(&[], &[]), table(&[0], &[]), table(&[0, 1], &[]));
    let sheet = check(&bare).expect("it is accepted");
    assert_eq!(
        (sheet.identifiers(), sheet.nodes(), sheet.bytes().len()),
        (0, 0, 0)
    );
    assert_eq!(check_into(&bare, &mut [0; 64]).err(), Some(refused(10, 0)));
    assert_eq!(check(&free).err(), Some(refused(12, 0)));
    assert_eq!(check(&bound).err(), Some(refused(9, 1)));
    let one: &[u8] = &[7, 0, 0, 0, 1, 0, 0, 0];
    for budget in [0, 1, u32::MAX] {
        assert_eq!(evaluate(&bare, &[], budget), ends(Ok(true), 0));
        assert_eq!(evaluate(&free, one, budget), ends(Ok(true), 0));
        let unvalued = ends(Err(refused(14, 0)), 0);
        assert_eq!(evaluate(&free, &[], budget), unvalued);
        assert_eq!(evaluate(&bare, one, budget), unvalued);
        assert_eq!(evaluate(&bound, one, budget), ends(Err(refused(9, 1)), 0));
        let guarded = |evaluation, conforms| {
            Ok(GuardedRun {
                evaluation,
                conforms,
            })
        };
        let run = |table: &[u8], values| {
            checked_evaluation(table, &mut vec![0; sheet_length(table)], values, budget)
        };
        assert_eq!(run(&bare, &[]), guarded(ends(Ok(true), 0), true));
        assert_eq!(run(&bare, one), guarded(unvalued, false));
        assert_eq!(run(&free, one), Err(refused(12, 0)));
    }
    assert!(conforms(&bare, &[], &[]) && !conforms(&bare, &[0; 64], &[]));
    let integer = [&[1][..], &[0; 63]].concat();
    assert!(conforms(&free, &integer, one) && !conforms(&free, &integer, &[]));
}

/// Document 02, N2: P12, and the gate with the positions of its valves. Valve 1
/// is not open, so that nobody asks for its position; but it has two.
#[test]
fn application_means_a_function() {
    let number = |n| [23, n, 0, 0];
    let union = |m, n| {
        let pair = |first| [28, first, first + 1, 0];
        let nodes = [
            number(1),
            number(m),
            pair(0),
            [27, 2, 0, 0],
            number(1),
            number(n),
            pair(4),
            [27, 6, 0, 0],
            [29, 3, 7, 0],
            number(1),
            [37, 8, 9, 0],
            number(2),
            [6, 10, 11, 0],
        ];
        evaluate(&table(&[], &nodes), &[], 100)
    };
    assert_eq!(union(3, 2), ends(Err(refused(16, 10)), 12));
    assert_eq!(union(2, 2), ends(Ok(true), 13));
    let element = |g: u8, k: u8| [k, g, 0, 0, 3, 0, 0, 0];
    let set = |n: u8| [n, 0, 0, 0, 5, 0, 0, 0];
    let gate = |positions: &[(u8, u8)]| {
        let mut cells = vec![
            set(2),
            element(0, 0),
            element(0, 2),
            set(positions.len() as u8),
        ];
        for (valve, position) in positions {
            cells.extend([
                [0, 0, 0, 0, 4, 0, 0, 0],
                element(0, *valve),
                element(1, *position),
            ]);
        }
        evaluate(GATE, &cells.concat(), 100)
    };
    assert_eq!(gate(&[(0, 0), (1, 2), (2, 0)]), ends(Ok(true), 30));
    assert_eq!(
        gate(&[(0, 0), (1, 1), (1, 2), (2, 0)]),
        ends(Err(refused(16, 3)), 7)
    );
    assert_eq!(
        gate(&[(0, 0), (1, 1), (1, 2)]),
        ends(Err(refused(16, 3)), 7)
    );
    assert_eq!(gate(&[(0, 0)]), ends(Err(refused(16, 3)), 12));
    assert_eq!(gate(&[]), ends(Err(refused(16, 3)), 7));
}

/// Document 02, N6: of two groups with the same count that with the greatest bin comes last. The other order of the same
/// groups, which rose before, is malformed.
#[test]
fn groups_go_by_their_greatest_bins() {
    let rising: &[u8] = include_bytes!("../../tests/values/groups-rising");
    let former: &[u8] = include_bytes!("../../tests/values/groups-former");
    let malformed = ends(Err(refused(14, 0)), 0);
    assert_eq!(evaluate(GROUPS, rising, 100), ends(Ok(true), 8));
    assert_eq!(evaluate(GROUPS, former, 100), malformed);
    let sheet = check(GROUPS).expect("the table is accepted");
    assert!(conforms(GROUPS, sheet.bytes(), rising));
    assert!(!conforms(GROUPS, sheet.bytes(), former));
    let set = |members: &[Vec<u8>]| {
        let count = members.len() as u8;
        [vec![count, 0, 0, 0, 5, 0, 0, 0], members.concat()].concat()
    };
    let group = |bins: &[u8]| {
        let bins: Vec<Vec<u8>> = bins.iter().map(|&k| vec![k, 0, 0, 0, 3, 0, 0, 0]).collect();
        set(&bins)
    };
    let at = |groups: &[&[u8]]| {
        let groups: Vec<Vec<u8>> = groups.iter().map(|bins| group(bins)).collect();
        evaluate(GROUPS, &set(&groups), 100)
    };
    assert_eq!(at(&[&[1, 2], &[0, 3]]), ends(Ok(true), 8));
    assert_eq!(at(&[&[0, 3], &[1, 2]]), malformed);
    // The count comes first, and bins still rise in their group.
    assert_eq!(at(&[&[3], &[1, 2]]), ends(Ok(false), 8));
    assert_eq!(at(&[&[1, 2], &[3]]), malformed);
    assert_eq!(at(&[&[2, 1], &[3, 0]]), malformed);
    assert_eq!(at(&[&[1, 2], &[1, 2]]), malformed);
    assert_eq!(at(&[&[0, 2], &[1, 2], &[0, 3]]), ends(Ok(false), 8));
    assert_eq!(at(&[&[1, 2], &[0, 3], &[1, 3]]), ends(Ok(true), 8));
    assert_eq!(at(&[&[1, 2], &[1, 3], &[0, 3]]), malformed);
}

#[test]
fn values_of_the_wrong_extent_are_refused() {
    let cut = &ELEMENT[..7];
    let surplus = [ELEMENT, &[0]].concat();
    assert_eq!(evaluate(P1, &[], 100), ends(Err(refused(14, 0)), 0));
    assert_eq!(evaluate(P1, cut, 100), ends(Err(refused(14, 0)), 0));
    assert_eq!(evaluate(P1, &surplus, 100), ends(Err(refused(14, 1)), 0));
    assert_eq!(evaluate(P1, ELEMENT, 0), ends(Err(refused(19, 2)), 0));
}

#[test]
fn a_refusal_leaves_the_sheet() {
    for (table, length, number) in [(P1, 255, 10), (P1, 0, 10), (P2, 192, 12), (&[][..], 8, 1)] {
        let mut sheet = vec![0xA5; length];
        let refusal = check_into(table, &mut sheet).expect_err("refused");
        assert_eq!(refusal, refused(number, 0));
        assert!(sheet.iter().all(|&byte| byte == 0xA5));
    }
}

#[test]
fn the_sheet_of_any_header_is_small() {
    let mut huge = P1.to_vec();
    huge[8..16].fill(0xFF);
    for length in 0..32 {
        assert_eq!(sheet_length(&P1[..length]), 0);
        assert_eq!(check(&P1[..length]).err(), Some(refused(1, 0)));
    }
    assert_eq!((sheet_length(P1), sheet_length(&huge)), (256, 0));
    assert_eq!(check(&huge).err(), Some(refused(2, 0)));
    assert_eq!(check(&P1[..87]).err(), Some(refused(3, 0)));
}

#[test]
fn damaged_tables_get_an_answer() {
    for at in 0..GATE.len() {
        for byte in [0, 1, 0x2C, 0xFF] {
            let mut table = GATE.to_vec();
            table[at] = byte;
            if let Err(refusal) = check(&table) {
                assert!((1..=13).contains(&refusal.number));
            }
            let evaluation = evaluate(&table, ELEMENT, 100);
            assert!(evaluation.steps <= 100);
        }
    }
}

#[test]
fn threads_do_not_disturb_one_another() {
    std::thread::scope(|scope| {
        for table in [power(5), power(6), empty_range(), P2.to_vec()] {
            scope.spawn(move || {
                let first = (check(&table), evaluate(&table, &[], 100));
                for _ in 0..200 {
                    assert_eq!((check(&table), evaluate(&table, &[], 100)), first);
                }
            });
        }
    });
}

/// The values of tests/values against the types that Check writes.
#[test]
fn values_conform_to_the_sheet() {
    let mut sheet = vec![0; sheet_length(GATE)];
    check_into(GATE, &mut sheet).expect("the gate's condition is well typed");
    let open = include_bytes!("../../tests/values/gate-open");
    assert!(conforms(GATE, &sheet, open));
    assert!(!conforms(GATE, &sheet, &open[1..]), "malformed values");
    assert!(
        !conforms(GATE, &sheet[1..], open),
        "a sheet of another length"
    );
    sheet[0] ^= 1;
    assert!(!conforms(GATE, &sheet, open), "another type");
}

/// A checked evaluation is Check's refusal with the sheet left alone, or the sheet written, the evaluation's own answer, and
/// whether the values conform.
#[test]
fn a_checked_evaluation_is_its_three_calls() {
    let (one, yes) = ([23, 1, 0, 0], [24, 1, 0, 0]);
    let p4 = table(&[], &[one, yes, [6, 0, 1, 0]]);
    let p8 = table(&[], &[[26, 0, 0, 0], [43, 0, 0, 0], one, [6, 1, 2, 0]]);
    let (integer, surplus) = ([1, 0, 0, 0, 1, 0, 0, 0], [ELEMENT, &[0]].concat());
    let open = include_bytes!("../../tests/values/gate-open");
    let cases: [(&[u8], &[u8], u32); 12] = [
        (P1, ELEMENT, 100),
        (P1, ELEMENT, 2),
        (P1, &integer, 100),
        (P1, &[], 100),
        (P1, &surplus, 100),
        (P2, &[], 100),
        (P3, ELEMENT, 100),
        (&p4, &[], 100),
        (&p8, &[], 100),
        (GATE, open, 100),
        (GATE, &open[1..], 100),
        (&P1[..87], ELEMENT, 100),
    ];
    let mut applied = 0;
    for (table, values, budget) in cases {
        let length = sheet_length(table);
        for room in [length, length + 1] {
            let (mut wanted, mut sheet) = (vec![0xA5; room], vec![0xA5; room]);
            let answer = checked_evaluation(table, &mut sheet, values, budget);
            let calls = check_into(table, &mut wanted).map(|()| GuardedRun {
                evaluation: evaluate(table, values, budget),
                conforms: conforms(table, &wanted, values),
            });
            assert_eq!((answer, &sheet), (calls, &wanted));
            applied += usize::from(answer.is_ok_and(|run| run.conforms));
        }
    }
    assert_eq!(applied, 4, "P1 twice, P8 and the gate");
    let mut sheet = vec![0; sheet_length(P1)];
    let unlike = checked_evaluation(P1, &mut sheet, &integer, 100).expect("P1 is accepted");
    assert_eq!(unlike.evaluation, ends(Err(refused(15, 2)), 3));
    assert!(!unlike.conforms);
    let cut = checked_evaluation(P1, &mut sheet, &[], 100).expect("P1 is accepted");
    assert_eq!(cut.evaluation, ends(Err(refused(14, 0)), 0));
    assert!(!cut.conforms);
}
