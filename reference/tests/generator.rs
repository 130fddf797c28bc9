//! The generator's reach, batches, and demand 3 on generated cases.

use reference::batch::{self, Case};
use reference::check::{check, sheet_length};
use reference::evaluate::{evaluate, observe, Outcome};
use reference::generate::{Class, Generator, Sample};
use reference::kinds::{Kind, KINDS};
use reference::stats::Stats;
use reference::table::{self, Node};
use reference::types::{Type, ROW_BYTES};
use reference::values::Value;
use reference::Refusal;

fn stats(seed: u64, count: usize, small: bool) -> Stats {
    let mut generator = Generator::new(seed, small, None);
    let mut stats = Stats::default();
    (0..count).for_each(|_| stats.add(&generator.case()));
    stats
}

fn assert_reaches(stats: &Stats, operation: &'static str, answers: &[String]) {
    for answer in answers {
        let key = (operation, answer.clone());
        assert!(stats.answers.contains_key(&key), "{operation} {answer}");
    }
}

fn refusals(numbers: impl Iterator<Item = u32>) -> Vec<String> {
    numbers.map(|n| format!("refused {n:>2}")).collect()
}

fn assert_reaches_all(stats: &Stats) {
    assert_reaches(stats, "check", &refusals(1..=13));
    assert_reaches(stats, "check", &["accepted".to_string()]);
    assert_reaches(stats, "evaluate", &refusals((1..=9).chain(14..=19)));
    assert_reaches(
        stats,
        "evaluate",
        &["true".to_string(), "false".to_string()],
    );
    for row in &KINDS {
        let code = row.kind as u32;
        assert!(stats.accepted_kinds.contains_key(&code), "kind {code}");
    }
}

#[test]
fn every_kind_and_every_answer_is_reached() {
    let stats = stats(1, 12_000, false);
    assert_reaches(&stats, "read", &refusals(1..=9));
    assert_reaches(&stats, "read", &["readable".to_string()]);
    assert_reaches_all(&stats);
}

#[test]
fn tables_without_nodes_reach_every_answer_that_they_can_have() {
    let mut stats = Stats::default();
    // The classes that have them.
    for class in [Class::Damaged, Class::Buffers, Class::Boundary] {
        let mut generator = Generator::new(3, false, Some(class));
        (0..6_000)
            .map(|_| generator.case())
            .filter(|case| case.table().get(12..16) == Some(&[0; 4]))
            .for_each(|case| stats.add(&case));
    }
    assert_reaches(&stats, "check", &refusals([3, 4, 5, 9, 10, 12].into_iter()));
    assert_reaches(&stats, "check", &["accepted".to_string()]);
    assert_reaches(&stats, "evaluate", &refusals([3, 4, 5, 9, 14].into_iter()));
    assert_reaches(&stats, "evaluate", &["true".to_string()]);
    let spent = ("evaluate", "refused 19".to_string());
    assert!(!stats.answers.contains_key(&spent));
}

/// Of the generated cases alone, without the conditions of document 01.
#[test]
fn the_stored_batch_reaches_every_kind_and_every_answer() {
    let mut generator = Generator::new(107, false, None);
    let mut stats = Stats::default();
    (0..2_970).for_each(|_| stats.add(&generator.batch_case()));
    assert_reaches_all(&stats);
}

#[test]
fn small_cases_reach_every_kind_and_most_answers() {
    let stats = stats(1, 6_000, true);
    // 8 and 13 need more nodes than a small case has.
    assert_reaches(&stats, "check", &refusals((1..=7).chain(9..=12)));
    assert_reaches(&stats, "evaluate", &refusals((1..=7).chain(14..=19)));
    for row in &KINDS {
        let code = row.kind as u32;
        assert!(stats.kinds.contains_key(&code), "kind {code}");
    }
}

#[test]
fn small_cases_are_small() {
    let mut generator = Generator::new(5, true, None);
    for _ in 0..2_000 {
        let case = generator.case();
        assert!(case.table().len() <= 288);
        if let Ok(table) = table::read(case.table()) {
            assert!(table.nodes.len() <= 14);
        }
        if let Case::Evaluate {
            table,
            values,
            budget,
        } = case
        {
            let (evaluation, seen) = observe(&table, &values, budget);
            assert!(values.len() <= 96);
            assert!(evaluation.steps <= 200 && seen.widest_interval <= 12);
        }
    }
}

#[test]
fn a_seed_fixes_the_cases() {
    let lines = |seed| -> Vec<String> {
        let mut generator = Generator::new(seed, false, None);
        (0..300).map(|_| generator.case().line()).collect()
    };
    assert_eq!(lines(7), lines(7));
    assert_ne!(lines(7), lines(8));
}

#[test]
fn every_class_has_its_name() {
    for class in Class::ALL {
        assert_eq!(Class::from_name(class.name()), Some(class));
        let mut generator = Generator::new(3, false, Some(class));
        (0..50).for_each(|_| assert!(!generator.case().answer().is_empty()));
    }
    assert_eq!(Class::from_name("none"), None);
}

#[test]
fn batches_and_answers_agree() {
    let mut generator = Generator::new(11, false, None);
    let cases: Vec<Case> = (0..2_000).map(|_| generator.batch_case()).collect();
    let (bytes, text) = batch::make(&cases);
    assert_eq!(text.lines().count(), cases.len());
    assert_eq!(batch::answers(&bytes), text);
}

#[test]
fn batches_that_stop() {
    let case = Case::Check {
        table: vec![0; 5],
        sheet: 0,
    };
    let (bytes, text) = batch::make(&[case.clone(), case]);
    assert_eq!(text, "refused 1 0\nrefused 1 0\n");
    for length in 18..34 {
        assert_eq!(batch::answers(&bytes[..length]), "refused 1 0\ncut\n");
    }
    assert_eq!(batch::answers(&[]), "");
    let words = |words: &[u32]| -> Vec<u8> { words.iter().flat_map(|w| w.to_le_bytes()).collect() };
    assert_eq!(batch::answers(&words(&[1, 16_385, 0])), "long\n");
    assert_eq!(batch::answers(&words(&[1, 0, 1_048_577])), "long\n");
    assert_eq!(batch::answers(&words(&[1, 0, 1_048_576])), "refused 1 0\n");
    assert_eq!(batch::answers(&words(&[2, 0, 131_073, 0])), "long\n");
    assert_eq!(batch::answers(&words(&[2, 0, 0, 0])), "refused 1 0 0\n");
    assert_eq!(batch::answers(&words(&[7])), "unknown\n");
}

/// Each place's type, where Check accepts.
fn written_types(table: &[u8]) -> Option<Vec<Option<Type>>> {
    let read = table::read(table).ok()?;
    let mut sheet = vec![0; sheet_length(&read)];
    check(table, &mut sheet).ok()?;
    Some(sheet.chunks_exact(ROW_BYTES).map(Type::from_row).collect())
}

/// Demand 3 on one sample; the number of values formed, or None where Check
/// refuses.
fn holds_demand_3(sample: &Sample) -> Option<usize> {
    let types = written_types(&sample.table)?;
    let (evaluation, seen) = observe(&sample.table, &sample.values, sample.budget);
    if let Outcome::Refused(refusal) = evaluation.outcome {
        assert!((16..=19).contains(&refusal.number), "{refusal:?}");
    }
    let read = table::read(&sample.table).expect("an accepted table is readable");
    for (node, value) in &seen.formed {
        let wanted = types[read.identifiers() + node].as_ref();
        assert!(wanted.is_some_and(|wanted| value.has_type(wanted)));
        assert!(value.shape().is_some() && value.weight() <= 256);
    }
    Some(seen.formed.len())
}

#[test]
fn accepted_conditions_never_meet_unlike_operands() {
    let mut formed = 0;
    for small in [false, true] {
        let mut generator = Generator::new(21, small, None);
        for _ in 0..4_000 {
            let sample = generator.sample(Class::Typed);
            formed += holds_demand_3(&sample).expect("the class is accepted");
        }
    }
    assert!(formed > 50_000, "{formed}");
}

/// Whether no two different pairs of f share a first part, and the second parts
/// that stand with e in f.
fn application(f: &Value, e: &Value) -> (bool, Vec<Value>) {
    let Value::Set(members) = f else {
        panic!("{f:?} is no set");
    };
    let pairs: Vec<(&Value, &Value)> = members
        .iter()
        .map(|member| match member {
            Value::Pair(first, second) => (&**first, &**second),
            _ => panic!("{member:?} is no pair"),
        })
        .collect();
    let shared = |x: &(&Value, &Value)| pairs.iter().any(|y| x != y && x.0 == y.0);
    let found = pairs.iter().filter(|x| x.0 == e).map(|x| x.1.clone());
    (!pairs.iter().any(shared), found.collect())
}

/// Document 02, N2, wherever a generated case comes to an application.
#[test]
fn application_means_a_function() {
    let mut generator = Generator::new(41, false, None);
    let (mut given, mut refused) = (0, [[0; 2]; 2]);
    for _ in 0..12_000 {
        let class = Class::ALL[generator_class(&mut generator)];
        let sample = generator.sample(class);
        let (evaluation, seen) = observe(&sample.table, &sample.values, sample.budget);
        let Ok(table) = table::read(&sample.table) else {
            continue;
        };
        let mut latest = vec![None; table.nodes.len()];
        let operands = |latest: &[Option<Value>], node: &Node| {
            let [f, e] = [0, 1].map(|i| latest[node.fields[i] as usize].clone());
            application(&f.expect("f is formed"), &e.expect("e is formed"))
        };
        for (node, value) in &seen.formed {
            let operation = &table.nodes[*node];
            if operation.kind == Kind::Application {
                assert_eq!(operands(&latest, operation), (true, vec![value.clone()]));
                given += 1;
            }
            latest[*node] = Some(value.clone());
        }
        if let Outcome::Refused(Refusal { number: 16, place }) = evaluation.outcome {
            let operation = &table.nodes[place as usize];
            if operation.kind == Kind::Application {
                let (function, found) = operands(&latest, operation);
                assert!(!function || found.is_empty());
                refused[usize::from(function)][usize::from(!found.is_empty())] += 1;
            }
        }
    }
    assert!(given > 300, "{given} values");
    let [[outside, inside], [undefined, _]] = refused;
    assert!(outside > 15 && inside > 30 && undefined > 30, "{refused:?}");
}

#[test]
fn an_answer_comes_back_for_every_budget_from_its_steps_on() {
    let mut generator = Generator::new(31, true, None);
    for _ in 0..1_500 {
        let class = Class::ALL[generator_class(&mut generator)];
        let sample = generator.sample(class);
        let whole = evaluate(&sample.table, &sample.values, 1_000);
        let spent = matches!(whole.outcome, Outcome::Refused(r) if r.number == 19);
        if spent {
            continue;
        }
        for budget in 0..whole.steps {
            let part = evaluate(&sample.table, &sample.values, budget);
            assert!(matches!(part.outcome, Outcome::Refused(r) if r.number == 19));
            assert_eq!(part.steps, budget);
        }
        assert_eq!(evaluate(&sample.table, &sample.values, whole.steps), whole);
        assert_eq!(evaluate(&sample.table, &sample.values, u32::MAX), whole);
    }
}

/// Any class but those whose tables differ only in bytes.
fn generator_class(generator: &mut Generator) -> usize {
    generator.case().table().len() % Class::ALL.len()
}
