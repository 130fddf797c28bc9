//! The conditions that document 01 tries.

mod common;

use common::checked;
use reference::batch::{evaluate_answer, hex};
use reference::cases;
use reference::examples::{all, Example};
use reference::listing::listing;

fn named(name: &str) -> Example {
    let mut found = all().into_iter().filter(|example| example.name == name);
    found.next().expect("the example is there")
}

#[test]
fn every_answer_of_the_document_holds() {
    let examples = all();
    assert_eq!(examples.len(), 20);
    for e in &examples {
        if let Some(answer) = e.checked {
            assert_eq!(checked(&e.draft), answer, "{}", e.name);
        }
        if let Some(answer) = e.evaluated {
            let found = evaluate_answer(&e.draft.bytes(), &e.values, e.budget);
            assert_eq!(found, answer, "{}", e.name);
        }
    }
}

#[test]
fn p1_has_the_bytes_of_the_document() {
    let words: [u32; 22] = [
        1, 1, 1, 3, 32, 36, 40, 88, 2, 0, 20, 0, 0, 0, 21, 0, 0, 0, 7, 0, 1, 0,
    ];
    let bytes: Vec<u8> = words.iter().flat_map(|word| word.to_le_bytes()).collect();
    let p1 = named("P1");
    assert_eq!(hex(&p1.draft.bytes()), hex(&bytes));
    assert_eq!(hex(&p1.values), "0100000003000000");
}

#[test]
fn p1_is_listed_whole() {
    let expected = "i 0 10\nn 0 10\nn 1 0310\nn 2 p\naccepted\n";
    assert_eq!(listing(&named("P1").draft.bytes()), expected);
}

#[test]
fn refused_tables_are_listed_in_one_line() {
    assert_eq!(listing(&named("P3").draft.bytes()), "refused 11 3\n");
    assert_eq!(listing(&[]), "refused 1 0\n");
}

#[test]
fn steps_and_ends_of_the_document() {
    let answer = |name: &str| {
        let e = named(name);
        evaluate_answer(&e.draft.bytes(), &e.values, e.budget)
    };
    assert_eq!(answer("P1"), "true 3");
    assert_eq!(answer("P4"), "refused 15 2 3");
    assert_eq!(answer("P5"), "true 4");
    assert_eq!(answer("P6"), "true 7");
    assert_eq!(answer("P7"), "refused 18 3 6");
    assert_eq!(answer("P8"), "refused 16 1 3");
    assert_eq!(answer("P9"), "refused 17 2 4");
    assert_eq!(answer("P10"), "true 4");
    assert_eq!(answer("P11"), "refused 19 1 3");
    assert_eq!(answer("P12"), "refused 16 10 12");
}

#[test]
fn pairing_of_32_integers_weighs_64_in_one_singleton() {
    let row = checked(&named("weight 64").draft);
    let longest = row.split(' ').skip(1).map(|row| row.len() / 2).max();
    assert!(row.starts_with("accepted "));
    assert_eq!(longest, Some(64));
    assert_eq!(checked(&named("weight 65").draft), "refused 13 64");
}

#[test]
fn negations_pass_up_to_25() {
    assert!(checked(&named("25 negations").draft).starts_with("accepted "));
    assert_eq!(checked(&named("26 negations").draft), "refused 8 28");
}

#[test]
fn a_gate_with_no_clauses_is_listed_in_one_line() {
    assert_eq!(listing(&named("no clauses").draft.bytes()), "accepted\n");
    assert_eq!(
        listing(&named("no clauses, free").draft.bytes()),
        "refused 12 0\n"
    );
}

#[test]
fn every_further_case_has_its_answer() {
    let cases = cases::all().into_iter().chain(cases::merges());
    for (i, answered) in cases.enumerate() {
        assert_eq!(answered.case.whole_answer(), answered.answer, "case {i}");
    }
}
