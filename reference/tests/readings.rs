//! The readings of document 01's open points, by their numbers, and what document 02's requests ask.

mod common;

use common::*;
use reference::batch::{check_answer, evaluate_answer};
use reference::build::Draft;
use reference::check::check;
use reference::examples;
use reference::former;
use reference::kinds::Kind;
use reference::listing::listing;
use reference::values::{cell, set, Value};

fn one_is_one(d: &mut Draft) -> u32 {
    let (e, f) = (d.integer(1), d.integer(1));
    d.two(Kind::Equal, e, f)
}

/// kind(first literal, second literal) as a whole condition.
fn relation(kind: Kind, first: &Value, second: &Value) -> Draft {
    draft(|d| {
        let (e, f) = (d.literal(first), d.literal(second));
        d.two(kind, e, f);
    })
}

/// card(kind(first, second)) = n.
fn card_of(kind: Kind, first: &Value, second: &Value, n: i32) -> Draft {
    draft(|d| {
        let (s, r) = (d.literal(first), d.literal(second));
        let made = d.two(kind, s, r);
        let card = d.one(Kind::Card, made);
        let n = d.integer(n);
        d.two(Kind::Equal, card, n);
    })
}

/// x0 = x0, for trying values buffers; `sizes` are the given sets.
fn lent(sizes: &[u32]) -> Draft {
    draft(|d| {
        d.sizes.extend(sizes);
        let x = d.identifier(0);
        let (e, f) = (d.using(x), d.using(x));
        d.two(Kind::Equal, e, f);
    })
}

fn lent_bytes(sizes: &[u32], buffer: &[u8]) -> String {
    evaluate_answer(&lent(sizes).bytes(), buffer, 100)
}

#[test]
fn r01_a_refusal_leaves_the_sheet_untouched() {
    let mut tables: Vec<(Vec<u8>, usize)> = examples::all()
        .iter()
        .map(|e| (e.draft.bytes(), e.draft.sheet_length()))
        .collect();
    tables.push((vec![0; 40], 64));
    tables.push((lent(&[]).bytes(), 1));
    let mut refused = 0;
    for (table, length) in tables {
        let mut sheet = vec![0xaa; length];
        if check(&table, &mut sheet).is_err() {
            refused += 1;
            assert!(sheet.iter().all(|&byte| byte == 0xaa));
        }
    }
    assert_eq!(refused, 11);
}

#[test]
fn r01_an_acceptance_writes_every_byte() {
    let p1 = &examples::all()[0].draft;
    let mut sheet = vec![0xaa; p1.sheet_length()];
    check(&p1.bytes(), &mut sheet).expect("P1 is accepted");
    assert_eq!(&sheet[128..131], &[3, 16, 0]);
    assert_eq!(sheet.iter().filter(|&&byte| byte == 0).count(), 256 - 4);
}

#[test]
fn r02_places_of_12_count_identifiers_first() {
    let d = draft(|d| {
        let x = d.identifier(0);
        let (e, f) = (d.using(x), d.integer(1));
        let p = d.two(Kind::Equal, e, f);
        let (s, r) = (d.leaf(Kind::Empty), d.leaf(Kind::Empty));
        let q = d.two(Kind::Equal, s, r);
        d.two(Kind::And, p, q);
    });
    assert_eq!(checked(&d), "refused 12 4");
}

#[test]
fn r03_a_cycle_counts_where_it_closes() {
    let d = draft(|d| {
        let (x, y) = (d.identifier(0), d.identifier(0));
        let (e, f) = (d.using(x), d.using(y));
        let s = d.one(Kind::Singleton, f);
        let p = d.two(Kind::Equal, e, s);
        let (e, f) = (d.using(y), d.using(x));
        let s = d.one(Kind::Singleton, f);
        let q = d.two(Kind::Equal, e, s);
        d.two(Kind::And, p, q);
    });
    assert_eq!(checked(&d), "refused 11 7");
}

#[test]
fn r03_the_binder_has_the_rule_of_its_identifier() {
    let d = draft(|d| {
        let x = d.identifier(1);
        let e = d.integer(1);
        let s = d.one(Kind::Singleton, e);
        let (e, f) = (d.using(x), d.one(Kind::Truth, 1));
        let body = d.two(Kind::Equal, e, f);
        d.node(Kind::Exists, x, s, body);
    });
    assert_eq!(checked(&d), "refused 11 5");
}

#[test]
fn r04_an_unknown_anywhere_inside_is_ambiguous() {
    let d = draft(|d| {
        let x = d.identifier(0);
        let (n, s) = (d.integer(1), d.leaf(Kind::Empty));
        let pair = d.two(Kind::Pair, n, s);
        let e = d.using(x);
        d.two(Kind::Equal, e, pair);
    });
    assert_eq!(checked(&d), "refused 12 0");
}

#[test]
fn r04_an_unused_free_identifier_is_ambiguous() {
    let d = draft(|d| {
        let x = d.identifier(0);
        d.identifier(0);
        let (e, f) = (d.using(x), d.integer(1));
        d.two(Kind::Equal, e, f);
    });
    assert_eq!(checked(&d), "refused 12 1");
}

/// y = {x25}, x25 = 8 copies of x24, .., x0 = end; y has place 0.
fn heavy(end: impl Fn(&mut Draft) -> u32) -> Draft {
    draft(|d| {
        let names: Vec<u32> = (0..27).map(|_| d.identifier(0)).collect();
        let (e, f) = (d.using(0), d.using(1));
        let s = d.one(Kind::Singleton, f);
        let mut clauses = vec![d.two(Kind::Equal, e, s)];
        for pair in names[1..].windows(2) {
            let e = d.using(pair[0]);
            let f = d.balanced(3, &|d| d.using(pair[1]));
            clauses.push(d.two(Kind::Equal, e, f));
        }
        let (e, f) = (d.using(26), end(d));
        clauses.push(d.two(Kind::Equal, e, f));
        d.joined(Kind::And, &clauses);
    })
}

#[test]
fn r05_weights_do_not_wrap() {
    // y weighs 2^76, which is 0 for a counter of 32 or 64 bits.
    assert_eq!(checked(&heavy(|d| d.integer(1))), "refused 13 0");
}

#[test]
fn r05_12_comes_before_13() {
    assert_eq!(checked(&heavy(|d| d.leaf(Kind::Empty))), "refused 12 0");
    let d = draft(|d| {
        let mut e = d.balanced(5, &|d| d.integer(1));
        e = d.one(Kind::Singleton, e);
        e = d.one(Kind::Singleton, e);
        let card = d.one(Kind::Card, e);
        let s = d.leaf(Kind::Empty);
        let none = d.one(Kind::Card, s);
        d.two(Kind::Equal, card, none);
    });
    assert_eq!(checked(&d), "refused 12 66");
}

#[test]
fn r06_10_comes_after_9_and_before_11() {
    let p4 = relation(Kind::Equal, &int(1), &truth(true));
    assert_eq!(check_answer(&p4.bytes(), 1), "refused 10 0");
    assert_eq!(check_answer(&p4.bytes()[..40], 1), "refused 3 0");
    assert_eq!(checked(&p4), "refused 11 2");
}

#[test]
fn r06_heavy_tables_run() {
    let heavy = &examples::all()[13];
    assert_eq!(heavy.name, "weight 65");
    assert_eq!(evaluated(&heavy.draft, &[]), "true 68");
}

#[test]
fn r07_15_judges_values_not_written_types() {
    let d = draft(|d| {
        let (s, r) = (d.literal(&ints(&[1])), d.literal(&ints(&[1])));
        let none = d.two(Kind::Difference, s, r);
        let truths = d.leaf(Kind::BoolSet);
        let joined = d.two(Kind::Union, none, truths);
        let card = d.one(Kind::Card, joined);
        let n = d.integer(2);
        d.two(Kind::Equal, card, n);
    });
    assert_eq!(checked(&d), "refused 11 6");
    assert_eq!(evaluated(&d, &[]), "true 10");
}

#[test]
fn r07_one_empty_set_serves_at_two_types() {
    let d = draft(|d| {
        let x = d.identifier(0);
        let (s, r) = (d.using(x), d.literal(&ints(&[1])));
        let p = d.two(Kind::Subset, s, r);
        let (s, r) = (d.using(x), d.leaf(Kind::BoolSet));
        let q = d.two(Kind::Subset, s, r);
        d.two(Kind::And, p, q);
    });
    assert_eq!(evaluated(&d, &[ints(&[])]), "true 8");
    assert_eq!(evaluated(&d, &[ints(&[1])]), "refused 15 6 8");
}

fn quantified(kind: Kind, range: &Value) -> Draft {
    draft(|d| {
        let x = d.identifier(1);
        let s = d.literal(range);
        let (e, f) = (d.using(x), d.one(Kind::Truth, 1));
        let body = d.two(Kind::Equal, e, f);
        d.node(kind, x, s, body);
    })
}

#[test]
fn r08_15_at_a_binder_comes_before_the_body() {
    assert_eq!(
        evaluated(&quantified(Kind::ForAll, &int(1)), &[]),
        "refused 15 4 2"
    );
    assert_eq!(
        evaluated(&quantified(Kind::Exists, &ints(&[])), &[]),
        "false 2"
    );
    assert_eq!(
        evaluated(&quantified(Kind::ForAll, &ints(&[])), &[]),
        "true 2"
    );
    assert_eq!(
        evaluated(&quantified(Kind::ForAll, &ints(&[1])), &[]),
        "refused 15 4 6"
    );
}

/// f(e) = 1
fn applied(f: &Value, e: &Value) -> String {
    let d = draft(|d| {
        let (x, y) = (d.identifier(0), d.identifier(0));
        let (s, a) = (d.using(x), d.using(y));
        let value = d.two(Kind::Application, s, a);
        let n = d.integer(1);
        d.two(Kind::Equal, value, n);
    });
    evaluated(&d, &[f.clone(), e.clone()])
}

#[test]
fn r09_application_shares_one_type_with_all_first_parts() {
    let relation = |pairs: &[(Value, i32)]| {
        set(pairs
            .iter()
            .map(|(e, n)| both(e.clone(), int(*n)))
            .collect())
    };
    let numbers = relation(&[(int(1), 1), (int(2), 2), (int(3), 4)]);
    assert_eq!(applied(&numbers, &int(1)), "true 5");
    assert_eq!(applied(&numbers, &int(3)), "false 5");
    assert_eq!(applied(&numbers, &int(4)), "refused 16 2 4");
    assert_eq!(applied(&numbers, &truth(true)), "refused 15 2 4");
    assert_eq!(applied(&ints(&[]), &truth(true)), "refused 16 2 4");
    assert_eq!(applied(&ints(&[1]), &int(1)), "refused 15 2 4");
    let sets = relation(&[(ints(&[]), 1), (ints(&[1]), 2)]);
    assert_eq!(applied(&sets, &ints(&[])), "true 5");
    assert_eq!(applied(&sets, &ints(&[7])), "refused 16 2 4");
    assert_eq!(applied(&sets, &set(vec![truth(true)])), "refused 15 2 4");
}

/// The relation of the pairs, applied at each first part that it has and at
/// `outside`: a function gives values at the former and 16 at the latter,
/// any other relation 16 throughout.
fn applied_throughout(pairs: &[(Value, i32)], outside: &Value, function: bool) {
    let f = set(pairs
        .iter()
        .map(|(e, n)| both(e.clone(), int(*n)))
        .collect());
    for (e, n) in pairs {
        let told = match (function, n) {
            (false, _) => "refused 16 2 4",
            (true, 1) => "true 5",
            (true, _) => "false 5",
        };
        assert_eq!(applied(&f, e), told, "{f:?} at {e:?}");
    }
    assert_eq!(
        applied(&f, outside),
        "refused 16 2 4",
        "{f:?} at {outside:?}"
    );
}

#[test]
fn n2_application_means_a_function() {
    applied_throughout(&[], &int(1), true);
    applied_throughout(&[(int(1), 1), (int(2), 1), (int(3), 2)], &int(0), true);
    // The two pairs that share a first part stand below and above others.
    applied_throughout(&[(int(1), 1), (int(1), 2), (int(3), 1)], &int(2), false);
    applied_throughout(&[(int(1), 1), (int(3), 1), (int(3), 2)], &int(4), false);
    applied_throughout(&[(int(1), 1), (int(1), 2), (int(1), 3)], &int(0), false);
    let pairs = |m, n| both(int(m), int(n));
    applied_throughout(&[(pairs(1, 2), 1), (pairs(1, 3), 1)], &pairs(2, 2), true);
    applied_throughout(&[(pairs(1, 2), 1), (pairs(1, 2), 2)], &pairs(1, 3), false);
    applied_throughout(&[(ints(&[]), 1), (ints(&[1, 2]), 2)], &ints(&[1]), true);
    applied_throughout(&[(ints(&[1, 2]), 1), (ints(&[1, 2]), 2)], &ints(&[]), false);
    // 15 comes first.
    let twice = set(vec![both(int(1), int(1)), both(int(1), int(2))]);
    assert_eq!(applied(&twice, &truth(true)), "refused 15 2 4");
}

#[test]
fn r10_unlike_sets_are_refused_at_all_four_kinds() {
    let (numbers, truths) = (ints(&[1]), set(vec![truth(true)]));
    let subset = relation(Kind::Subset, &numbers, &truths);
    assert_eq!(evaluated(&subset, &[]), "refused 15 4 5");
    for kind in [Kind::Union, Kind::Intersection, Kind::Difference] {
        let d = card_of(kind, &numbers, &truths, 0);
        assert_eq!(evaluated(&d, &[]), "refused 15 4 7");
    }
}

#[test]
fn r10_the_empty_set_has_a_domain_and_a_range() {
    for kind in [Kind::Domain, Kind::Range] {
        let d = draft(|d| {
            let s = d.leaf(Kind::Empty);
            let image = d.one(kind, s);
            let r = d.leaf(Kind::Empty);
            d.two(Kind::Equal, image, r);
        });
        assert_eq!(evaluated(&d, &[]), "true 4");
    }
}

#[test]
fn r10_unlike_operands_of_the_other_kinds() {
    let unlike = [
        (Kind::Equal, int(1), truth(true)),
        (Kind::Member, int(1), set(vec![truth(true)])),
        (Kind::Member, ints(&[]), ints(&[1])),
        (Kind::AtMost, int(1), truth(true)),
    ];
    for (kind, e, f) in unlike {
        let answer = evaluated(&relation(kind, &e, &f), &[]);
        assert!(answer.starts_with("refused 15 "), "{kind:?} {answer}");
    }
    // (a,(b,c)) is not ((a,b),c).
    let (left, right) = (
        both(int(1), both(int(2), int(3))),
        both(both(int(1), int(2)), int(3)),
    );
    let d = relation(Kind::Equal, &left, &right);
    assert_eq!(checked(&d), "refused 11 10");
    assert_eq!(evaluated(&d, &[]), "refused 15 10 11");
}

#[test]
fn r11_members_share_one_type_all_at_once() {
    let member = |n, part| both(int(n), part);
    let unlike = set(vec![
        member(1, ints(&[1])),
        member(2, ints(&[])),
        member(3, set(vec![truth(true)])),
    ]);
    assert_eq!(evaluated(&lent(&[]), &[unlike]), "refused 14 0 0");
    // Each empty set has a hole of its own.
    let alike = set(vec![
        both(ints(&[]), ints(&[])),
        both(ints(&[1]), set(vec![truth(true)])),
    ]);
    assert_eq!(evaluated(&lent(&[]), &[alike]), "true 3");
}

#[test]
fn r12_a_257th_cell_is_a_fault() {
    let members: Vec<i32> = (0..256).collect();
    assert_eq!(evaluated(&lent(&[]), &[ints(&members[..255])]), "true 3");
    let heavy = cells(&[ints(&members)]);
    assert_eq!(lent_bytes(&[], &heavy), "refused 14 0 0");
    assert_eq!(lent_bytes(&[], &heavy[..256 * 8]), "refused 14 0 0");
    assert_eq!(lent_bytes(&[], &cell(5, u32::MAX)), "refused 14 0 0");
    let deep = [cell(4, 0).repeat(300), cell(1, 1).repeat(301)].concat();
    assert_eq!(lent_bytes(&[], &deep), "refused 14 0 0");
}

#[test]
fn r13_elements_by_payload() {
    for (payload, answer) in [
        (0, "true 3"),
        (1, "true 3"),
        (2, "refused 14 0 0"),
        (256, "true 3"),
        (257, "refused 14 0 0"),
        (512, "refused 14 0 0"),
        (0x1_0000, "refused 14 0 0"),
        (u32::MAX, "refused 14 0 0"),
    ] {
        assert_eq!(lent_bytes(&[2, 1], &cell(3, payload)), answer, "{payload}");
    }
}

#[test]
fn r12_malformed_cells() {
    let bad = [
        cell(0, 0),
        cell(6, 0),
        cell(2, 2),
        cell(4, 1),
        [1, 0, 0, 0, 1, 1, 0, 0],
        [1, 0, 0, 0, 1, 0, 0, 1],
    ];
    for buffer in bad {
        let buffer = [buffer, cell(1, 1), cell(1, 1)].concat();
        assert_eq!(lent_bytes(&[], &buffer), "refused 14 0 0");
    }
    let falling = [cell(5, 2), cell(1, 1), cell(1, u32::MAX)].concat();
    assert_eq!(lent_bytes(&[], &falling), "refused 14 0 0");
    let repeated = [cell(5, 2), cell(1, 1), cell(1, 1)].concat();
    assert_eq!(lent_bytes(&[], &repeated), "refused 14 0 0");
    let rising = [cell(5, 2), cell(1, u32::MAX), cell(1, 1)].concat();
    assert_eq!(lent_bytes(&[], &rising), "true 3");
}

#[test]
fn r14_extent_of_the_buffer() {
    assert_eq!(lent_bytes(&[], &[]), "refused 14 0 0");
    assert_eq!(lent_bytes(&[], &cell(1, 1)[..7]), "refused 14 0 0");
    assert_eq!(
        lent_bytes(&[], &[&cell(1, 1)[..], &[0]].concat()),
        "refused 14 1 0"
    );
    let closed = draft(|d| {
        one_is_one(d);
    });
    assert_eq!(
        evaluate_answer(&closed.bytes(), &[0], 100),
        "refused 14 0 0"
    );
    // An unused free identifier has a value; a faulty value precedes surplus.
    let unused = draft(|d| {
        d.identifier(0);
        d.identifier(0);
        one_is_one(d);
    });
    assert_eq!(
        evaluate_answer(&unused.bytes(), &cell(1, 1), 100),
        "refused 14 1 0"
    );
    let both = [cell(1, 1), cell(9, 1), cell(1, 1)].concat();
    assert_eq!(
        evaluate_answer(&unused.bytes(), &both, 100),
        "refused 14 1 0"
    );
    let surplus = [cell(1, 1), cell(1, 1), cell(9, 1)].concat();
    assert_eq!(
        evaluate_answer(&unused.bytes(), &surplus, 100),
        "refused 14 2 0"
    );
}

#[test]
fn r14_bound_identifiers_have_no_value_in_the_buffer() {
    let d = draft(|d| {
        let x = d.identifier(1);
        let y = d.identifier(0);
        let s = d.using(y);
        let body = one_is_one_using(d, x);
        d.node(Kind::ForAll, x, s, body);
    });
    assert_eq!(evaluated(&d, &[ints(&[1, 2])]), "true 8");
    assert_eq!(evaluated(&d, &[]), "refused 14 1 0");
    assert_eq!(evaluated(&d, &[ints(&[]), int(1)]), "refused 14 2 0");
}

fn one_is_one_using(d: &mut Draft, x: u32) -> u32 {
    let (e, f) = (d.using(x), d.using(x));
    d.two(Kind::Equal, e, f)
}

#[test]
fn r15_fields_and_children() {
    let mut own_child = draft(|d| {
        one_is_one(d);
    });
    own_child.nodes[2] = [Kind::Not as u32, 2, 0, 0];
    assert_eq!(checked(&own_child), "refused 6 2");
    let wrong_category = draft(|d| {
        let e = d.integer(1);
        d.one(Kind::Not, e);
    });
    assert_eq!(checked(&wrong_category), "refused 6 1");
    let binds_free = draft(|d| {
        let x = d.identifier(0);
        let s = d.leaf(Kind::BoolSet);
        let body = one_is_one(d);
        d.node(Kind::ForAll, x, s, body);
    });
    assert_eq!(checked(&binds_free), "refused 9 0");
    let any_word = relation(Kind::Equal, &int(i32::MIN), &int(-1));
    assert!(checked(&any_word).starts_with("accepted"));
    let unused_field = draft(|d| {
        d.node(Kind::Empty, 0, 0, 1);
    });
    assert_eq!(checked(&unused_field), "refused 6 0");
    for (kind, expected) in [
        (0, "6 0"),
        (12, "6 0"),
        (19, "6 0"),
        (44, "6 0"),
        (20, "6 0"),
    ] {
        let mut d = Draft::default();
        d.nodes.push([kind, 0, 0, 0]);
        assert_eq!(checked(&d), format!("refused {expected}"), "{kind}");
    }
}

#[test]
fn r16_children_counted_by_field() {
    let twice = draft(|d| {
        let e = d.integer(1);
        d.two(Kind::Equal, e, e);
    });
    assert_eq!(checked(&twice), "refused 7 0");
    let orphan = draft(|d| {
        d.integer(1);
        one_is_one(d);
    });
    assert_eq!(checked(&orphan), "refused 7 0");
    let expression = draft(|d| {
        let p = one_is_one(d);
        d.one(Kind::Bool, p);
    });
    assert_eq!(checked(&expression), "refused 7 3");
    let single = draft(|d| {
        d.integer(1);
    });
    assert_eq!(checked(&single), "refused 7 0");
}

#[test]
fn r17_least_node_above_the_height() {
    let d = draft(|d| {
        let mut p = one_is_one(d);
        for _ in 0..45 {
            p = d.one(Kind::Not, p);
        }
    });
    assert_eq!(checked(&d), "refused 8 28");
}

#[test]
fn r18_binding() {
    let without_use = draft(|d| {
        let x = d.identifier(1);
        let s = d.leaf(Kind::BoolSet);
        let body = one_is_one(d);
        d.node(Kind::ForAll, x, s, body);
    });
    assert!(checked(&without_use).starts_with("accepted"));
    let without_binder = draft(|d| {
        d.identifier(1);
        one_is_one(d);
    });
    assert_eq!(checked(&without_binder), "refused 9 0");
}

#[test]
fn r18_uses_outside_the_body() {
    let used_in_range = draft(|d| {
        let x = d.identifier(1);
        let e = d.using(x);
        let s = d.one(Kind::Singleton, e);
        let body = one_is_one(d);
        d.node(Kind::ForAll, x, s, body);
    });
    assert_eq!(checked(&used_in_range), "refused 9 0");
    let used_outside = draft(|d| {
        d.identifier(0);
        let x = d.identifier(1);
        let s = d.leaf(Kind::BoolSet);
        let body = one_is_one(d);
        let p = d.node(Kind::ForAll, x, s, body);
        let q = one_is_one_using(d, x);
        d.two(Kind::And, p, q);
    });
    assert_eq!(checked(&used_outside), "refused 9 1");
    let two_binders = draft(|d| {
        let x = d.identifier(1);
        let s = d.leaf(Kind::BoolSet);
        let body = one_is_one(d);
        let p = d.node(Kind::ForAll, x, s, body);
        let s = d.leaf(Kind::BoolSet);
        d.node(Kind::Exists, x, s, p);
    });
    assert_eq!(checked(&two_binders), "refused 9 0");
}

#[test]
fn r19_words_are_unsigned_and_2_precedes_3() {
    let sound = draft(|d| {
        one_is_one(d);
    })
    .bytes();
    let with = |index: usize, word: u32| {
        let mut bytes = sound.clone();
        bytes[4 * index..4 * index + 4].copy_from_slice(&word.to_le_bytes());
        check_answer(&bytes, 192)
    };
    assert_eq!(with(0, 2), "refused 1 0");
    for index in 1..4 {
        assert_eq!(with(index, u32::MAX), "refused 2 0");
    }
    assert_eq!(with(3, 0), "refused 3 0");
    assert_eq!(with(3, 513), "refused 2 0");
    assert_eq!(with(3, 4), "refused 3 0");
    for index in 4..8 {
        assert_eq!(with(index, u32::MAX), "refused 3 0");
    }
    assert_eq!(check_answer(&sound[..31], 0), "refused 1 0");
    assert_eq!(
        check_answer(&[sound.clone(), vec![0]].concat(), 0),
        "refused 3 0"
    );
}

#[test]
fn r19_sizes_and_flags() {
    for (size, answer) in [
        (0, "refused 4 1"),
        (33, "refused 4 1"),
        (u32::MAX, "refused 4 1"),
    ] {
        let d = draft(|d| {
            d.sizes.extend([1, size]);
            one_is_one(d);
        });
        assert_eq!(checked(&d), answer);
    }
    let d = draft(|d| {
        d.flags.extend([0, 2]);
        one_is_one(d);
    });
    assert_eq!(checked(&d), "refused 5 1");
}

#[test]
fn r20_steps_and_budgets() {
    let d = draft(|d| {
        one_is_one(d);
    });
    for (budget, answer) in [
        (0, "refused 19 2 0"),
        (1, "refused 19 0 1"),
        (2, "refused 19 1 2"),
        (3, "true 3"),
        (u32::MAX, "true 3"),
    ] {
        assert_eq!(evaluate_answer(&d.bytes(), &[], budget), answer);
    }
}

#[test]
fn r21_which_operands_run() {
    let steps = |kind: Kind, p: i32, q: i32| {
        let d = draft(|d| {
            let mut clause = |n: i32| {
                let (e, f) = (d.integer(1), d.integer(n));
                d.two(Kind::Equal, e, f)
            };
            let (p, q) = (clause(p), clause(q));
            d.two(kind, p, q);
        });
        evaluated(&d, &[])
    };
    assert_eq!(steps(Kind::And, 0, 1), "false 4");
    assert_eq!(steps(Kind::And, 1, 1), "true 7");
    assert_eq!(steps(Kind::Or, 1, 0), "true 4");
    assert_eq!(steps(Kind::Or, 0, 0), "false 7");
    assert_eq!(steps(Kind::Implies, 0, 0), "true 4");
    assert_eq!(steps(Kind::Implies, 1, 0), "false 7");
    assert_eq!(steps(Kind::Equivalent, 0, 0), "true 7");
    assert_eq!(steps(Kind::Equivalent, 0, 1), "false 7");
}

#[test]
fn r21_quantifiers_stop_and_comprehension_does_not() {
    let d = |kind: Kind| {
        draft(|d| {
            let x = d.identifier(1);
            let s = d.identifier(0);
            let range = d.using(s);
            let (e, f) = (d.using(x), d.integer(2));
            let body = d.two(Kind::AtMost, e, f);
            let made = d.node(kind, x, range, body);
            if kind == Kind::Comprehension {
                let wanted = d.literal(&ints(&[1, 2]));
                d.two(Kind::Equal, made, wanted);
            }
        })
    };
    let range = ints(&[1, 2, 3, 4]);
    let answer = |kind| evaluated(&d(kind), std::slice::from_ref(&range));
    assert_eq!(answer(Kind::ForAll), "false 11");
    assert_eq!(answer(Kind::Exists), "true 5");
    assert_eq!(answer(Kind::Comprehension), "true 20");
}

#[test]
fn r22_order_of_values() {
    let rising = [
        int(i32::MIN),
        int(-1),
        int(0),
        int(i32::MAX),
        truth(false),
        truth(true),
        Value::Element(0, 31),
        Value::Element(1, 0),
        both(int(1), int(9)),
        both(int(2), int(0)),
        ints(&[]),
        ints(&[9]),
        ints(&[2, 3]),
        ints(&[1, 4]),
        ints(&[0, 1, 2]),
    ];
    assert_rising(&rising);
}

/// Each value before all that stand behind it.
fn assert_rising(values: &[Value]) {
    for (i, a) in values.iter().enumerate() {
        for (j, b) in values.iter().enumerate() {
            assert_eq!(a.cmp(b), i.cmp(&j), "{a:?} and {b:?}");
        }
    }
}

#[test]
fn r23_weights_of_what_is_formed() {
    let interval = |low: i32, high: i32| -> Value { set((low..=high).map(int).collect()) };
    let joined = |a: Value, b: Value, kind: Kind| {
        let d = draft(|d| {
            let (x, y) = (d.identifier(0), d.identifier(0));
            let (s, r) = (d.using(x), d.using(y));
            let made = d.two(kind, s, r);
            let single = d.one(Kind::Singleton, made);
            let card = d.one(Kind::Card, single);
            let n = d.integer(1);
            d.two(Kind::Equal, card, n);
        });
        evaluated(&d, &[a, b])
    };
    // The union weighs 256; its singleton 257.
    let (a, b) = (interval(1, 200), interval(100, 255));
    assert_eq!(joined(a.clone(), b, Kind::Union), "refused 18 3 6");
    assert_eq!(joined(a.clone(), interval(100, 254), Kind::Union), "true 7");
    assert_eq!(
        joined(a.clone(), interval(100, 256), Kind::Union),
        "refused 18 2 6"
    );
    assert_eq!(
        joined(a.clone(), interval(1, 53), Kind::Pair),
        "refused 18 3 6"
    );
    assert_eq!(joined(a, interval(1, 54), Kind::Pair), "refused 18 2 6");
}

#[test]
fn r23_intervals_products_and_power_sets_at_the_limit() {
    let interval = |d: &mut Draft, low, high| {
        let (e, f) = (d.integer(low), d.integer(high));
        d.two(Kind::Interval, e, f)
    };
    let counted = |low, high| {
        let d = draft(|d| {
            let s = interval(d, low, high);
            let card = d.one(Kind::Card, s);
            let n = d.integer(255);
            d.two(Kind::Equal, card, n);
        });
        evaluated(&d, &[])
    };
    assert_eq!(counted(1, 255), "true 6");
    assert_eq!(counted(1, 256), "refused 18 2 5");
    assert_eq!(counted(i32::MIN, i32::MAX), "refused 18 2 5");
    assert_eq!(counted(i32::MAX, i32::MIN), "false 6");
    assert_eq!(counted(i32::MAX - 254, i32::MAX), "true 6");
    let product = |m, n| {
        let d = draft(|d| {
            let (s, r) = (interval(d, 1, m), interval(d, 1, n));
            let made = d.two(Kind::Product, s, r);
            let card = d.one(Kind::Card, made);
            let n = d.integer(85);
            d.two(Kind::Equal, card, n);
        });
        evaluated(&d, &[])
    };
    assert_eq!(product(5, 17), "true 10");
    assert_eq!(product(2, 43), "refused 18 6 9");
    assert_eq!(product(255, 255), "refused 18 6 9");
    assert_eq!(product(0, 255), "false 10");
}

#[test]
fn r24_every_line_of_a_listing_ends() {
    for example in examples::all() {
        let text = listing(&example.draft.bytes());
        assert!(text.ends_with('\n'));
        let last = text.lines().last().expect("there is a line");
        assert!(last == "accepted" || last.starts_with("refused "));
    }
}

/// Document 02, N1: a table of given sets and identifiers alone.
fn no_clauses(flags: &[u32]) -> Draft {
    draft(|d| {
        d.sizes.push(3);
        d.flags.extend(flags);
    })
}

#[test]
fn n1_check_tests_the_sheet_first_and_then_the_identifiers() {
    let table = |flags: &[u32]| no_clauses(flags).bytes();
    assert_eq!(check_answer(&table(&[]), 0), "accepted");
    assert_eq!(check_answer(&table(&[]), 1), "refused 10 0");
    assert_eq!(check_answer(&table(&[]), 64), "refused 10 0");
    for flags in [&[0][..], &[0; 2], &[0; 32]] {
        let room = 64 * flags.len();
        assert_eq!(check_answer(&table(flags), room), "refused 12 0");
        assert_eq!(check_answer(&table(flags), room - 1), "refused 10 0");
        assert_eq!(check_answer(&table(flags), 0), "refused 10 0");
    }
    assert_eq!(check_answer(&table(&[1]), 64), "refused 9 0");
    assert_eq!(check_answer(&table(&[0, 1, 1]), 192), "refused 9 1");
}

#[test]
fn n1_evaluate_tests_the_values_first_and_then_is_true() {
    let one = cell(1, 7);
    for budget in [0, 1, u32::MAX] {
        let answer = |flags: &[u32], buffer: &[u8]| {
            evaluate_answer(&no_clauses(flags).bytes(), buffer, budget)
        };
        assert_eq!(answer(&[], &[]), "true 0");
        assert_eq!(answer(&[0], &one), "true 0");
        assert_eq!(answer(&[0], &[]), "refused 14 0 0");
        assert_eq!(answer(&[0], &cell(3, 3)), "refused 14 0 0");
        assert_eq!(answer(&[0], &cell(3, 2)), "true 0");
        assert_eq!(answer(&[], &one), "refused 14 0 0");
        assert_eq!(answer(&[1], &one), "refused 9 0 0");
    }
}

fn of(members: &[&Value]) -> Value {
    set(members.iter().copied().cloned().collect())
}

/// Document 02, N6: pairs of values whose order it turns round, the lesser
/// first.
fn turned_pairs() -> Vec<[Value; 2]> {
    let [one, two, three, four] = [1, 2, 3, 4].map(|n| ints(&[n]));
    let (low, high) = (ints(&[2, 3]), ints(&[1, 4]));
    let left = |part: &Value, n| both(part.clone(), int(n));
    let right = |n, part: &Value| both(int(n), part.clone());
    vec![
        [low.clone(), high.clone()],
        [ints(&[0, 1]), ints(&[-1, 5])],
        [ints(&[2, 3, 4]), ints(&[0, 1, 5])],
        [ints(&[1, 3, 5]), ints(&[0, 4, 5])],
        [ints(&[5, 6, 20, 30, 40]), ints(&[1, 10, 20, 30, 40])],
        // By a set inside, by the greatest set, by both.
        [of(&[&low]), of(&[&high])],
        [of(&[&two, &three]), of(&[&one, &four])],
        [of(&[&four, &low]), of(&[&one, &high])],
        [of(&[&low, &high]), of(&[&ints(&[0, 1]), &ints(&[3, 4])])],
        [of(&[&of(&[&low])]), of(&[&of(&[&high])])],
        [of(&[&of(&[&two, &three])]), of(&[&of(&[&one, &four])])],
        [
            of(&[&of(&[&two]), &of(&[&three])]),
            of(&[&of(&[&one]), &of(&[&four])]),
        ],
        // Sets of pairs.
        [
            of(&[&both(int(2), int(0)), &both(int(3), int(9))]),
            of(&[&both(int(1), int(5)), &both(int(4), int(0))]),
        ],
        [
            of(&[&both(int(2), int(0)), &both(int(3), int(0))]),
            of(&[&both(int(1), int(9)), &both(int(3), int(1))]),
        ],
        // Sets in pairs, alone and in sets.
        [left(&low, 1), left(&high, 0)],
        [right(1, &low), right(1, &high)],
        [right(1, &of(&[&low])), right(1, &of(&[&high]))],
        [of(&[&left(&low, 1)]), of(&[&left(&high, 0)])],
        [of(&[&right(0, &low)]), of(&[&right(0, &high)])],
        [
            of(&[&right(0, &low), &right(1, &ints(&[]))]),
            of(&[&right(0, &high), &right(1, &ints(&[]))]),
        ],
        [
            of(&[&right(2, &low), &right(3, &low)]),
            of(&[&right(1, &low), &right(4, &low)]),
        ],
    ]
}

/// Pairs of values, the lesser first, that N6 leaves as they were.
fn unturned_pairs() -> Vec<[Value; 2]> {
    let (low, high) = (ints(&[2, 3]), ints(&[1, 4]));
    vec![
        // The count comes first.
        [ints(&[9]), high.clone()],
        [ints(&[8, 9]), ints(&[0, 1, 2])],
        [of(&[&ints(&[7, 8, 9])]), of(&[&low, &high])],
        [of(&[&ints(&[9])]), of(&[&low])],
        // Both ends agree.
        [high.clone(), ints(&[2, 4])],
        [ints(&[1, 3]), ints(&[2, 4])],
        [of(&[&ints(&[1]), &low]), of(&[&ints(&[4]), &high])],
        [of(&[&of(&[&ints(&[1, 3])])]), of(&[&of(&[&ints(&[2, 4])])])],
        // Pairs go from left to right.
        [both(int(0), high.clone()), both(int(1), low.clone())],
        [both(high.clone(), int(0)), both(high.clone(), int(1))],
        [both(int(1), int(4)), both(int(2), int(3))],
        [of(&[&both(int(1), int(4))]), of(&[&both(int(2), int(3))])],
    ]
}

#[test]
fn n6_sets_of_equal_count_go_by_their_greatest_members() {
    let twos = [
        [0, 1],
        [0, 2],
        [1, 2],
        [0, 3],
        [1, 3],
        [2, 3],
        [0, 4],
        [1, 4],
    ];
    assert_rising(&twos.map(|members| ints(&members)));
    let threes = [[0, 1, 4], [0, 2, 4], [1, 2, 4], [0, 3, 4], [0, 1, 5]];
    assert_rising(&threes.map(|members| ints(&members)));
    let elements = |k, l| set(vec![Value::Element(0, k), Value::Element(0, l)]);
    assert_rising(&[elements(1, 2), elements(0, 3), elements(1, 3)]);
    let former = |a: &Value, b: &Value| former::order(&former::arranged(a), &former::arranged(b));
    for [a, b] in turned_pairs() {
        assert_rising(&[a.clone(), b.clone()]);
        assert!(former(&a, &b).is_gt(), "{a:?} and {b:?}");
    }
    for [a, b] in unturned_pairs() {
        assert_rising(&[a.clone(), b.clone()]);
        assert!(former(&a, &b).is_lt(), "{a:?} and {b:?}");
    }
}

/// choice(x0) = x1
fn least_is(s: &Value, e: &Value) -> String {
    let d = draft(|d| {
        let (x, y) = (d.identifier(0), d.identifier(0));
        let s = d.using(x);
        let least = d.one(Kind::Choice, s);
        let e = d.using(y);
        d.two(Kind::Equal, least, e);
    });
    evaluated(&d, &[s.clone(), e.clone()])
}

#[test]
fn n6_choice_gives_the_least() {
    for [a, b] in turned_pairs().into_iter().chain(unturned_pairs()) {
        let both = set(vec![b.clone(), a.clone()]);
        assert_eq!(least_is(&both, &a), "true 4", "{both:?}");
        assert_eq!(least_is(&both, &b), "false 4", "{both:?}");
    }
}

#[test]
fn n6_14_asks_for_members_that_rise_in_the_new_order() {
    let told = |value: Value, good: &str| {
        let answer = evaluated(&lent(&[]), std::slice::from_ref(&value));
        assert_eq!(answer, good, "{value:?}");
    };
    let (good, bad) = ("true 3", "refused 14 0 0");
    for [a, b] in turned_pairs().into_iter().chain(unturned_pairs()) {
        let rising = || Value::Set(vec![a.clone(), b.clone()]);
        let falling = || Value::Set(vec![b.clone(), a.clone()]);
        let twice = || Value::Set(vec![a.clone(), a.clone()]);
        told(rising(), good);
        told(falling(), bad);
        told(twice(), bad);
        // In a set of one member, and in pairs.
        let inside: [fn(Value) -> Value; 4] = [
            |v| Value::Set(vec![v]),
            |v| both(int(7), v),
            |v| both(v, int(7)),
            |v| Value::Set(vec![both(int(7), v)]),
        ];
        for within in inside {
            told(within(rising()), good);
            told(within(falling()), bad);
            told(within(twice()), bad);
        }
    }
    // Only the comparison is turned: a set's own members still rise.
    let falling = |m, n| Value::Set(vec![int(n), int(m)]);
    told(Value::Set(vec![falling(2, 3), falling(1, 4)]), bad);
    told(Value::Set(vec![falling(1, 4), falling(2, 3)]), bad);
}

#[test]
fn n6_a_buffer_in_the_former_order_is_malformed_at_its_identifier() {
    // x0 = x2 ∧ ∀x1∈x3·1=1: x1 is bound.
    let d = draft(|d| {
        d.flags.extend([0, 1, 0, 0]);
        let (e, f) = (d.using(0), d.using(2));
        let p = d.two(Kind::Equal, e, f);
        let s = d.using(3);
        let body = one_is_one(d);
        let q = d.node(Kind::ForAll, 1, s, body);
        d.two(Kind::And, p, q);
    });
    for [a, b] in turned_pairs() {
        let now = set(vec![a.clone(), b.clone()]);
        let before = former::arranged(&now);
        assert_ne!(before, now);
        let answer = |values: [&Value; 3]| evaluated(&d, &values.map(Value::clone));
        assert_eq!(answer([&now, &now, &now]), "true 12");
        assert_eq!(answer([&before, &now, &now]), "refused 14 0 0");
        assert_eq!(answer([&now, &before, &now]), "refused 14 2 0");
        assert_eq!(answer([&now, &now, &before]), "refused 14 3 0");
        assert_eq!(answer([&now, &before, &before]), "refused 14 2 0");
    }
}

/// The members of a set in the order in which a quantifier takes them: each is
/// found by ∃z∈S·z=y after 3 visits for each member up to it. `range` writes S,
/// an expression of `visits` nodes over the values.
fn taken_in_order(
    values: &[Value],
    visits: usize,
    range: impl Fn(&mut Draft) -> u32,
    members: &[Value],
) {
    let d = draft(|d| {
        d.flags.resize(values.len(), 0);
        let s = range(d);
        let (y, z) = (d.identifier(0), d.identifier(1));
        let (e, f) = (d.using(z), d.using(y));
        let same = d.two(Kind::Equal, e, f);
        d.node(Kind::Exists, z, s, same);
    });
    for (i, member) in members.iter().enumerate() {
        let lent = [values, std::slice::from_ref(member)].concat();
        let steps = 1 + visits + 3 * (i + 1);
        assert_eq!(evaluated(&d, &lent), format!("true {steps}"), "{member:?}");
    }
    let counted = draft(|d| {
        d.flags.resize(values.len(), 0);
        let s = range(d);
        let (card, n) = (d.one(Kind::Card, s), d.integer(members.len() as i32));
        d.two(Kind::Equal, card, n);
    });
    assert_eq!(evaluated(&counted, values), format!("true {}", visits + 3));
}

#[test]
fn n6_quantifiers_take_members_from_the_least_up() {
    let groups = [[0, 1], [2, 3], [1, 4], [0, 5]].map(|members| ints(&members));
    let whole = set(groups.to_vec());
    taken_in_order(std::slice::from_ref(&whole), 1, |d| d.using(0), &groups);
    let d = draft(|d| {
        let (x, y, z) = (d.identifier(0), d.identifier(0), d.identifier(1));
        let (s, e, f) = (d.using(x), d.using(z), d.using(y));
        let same = d.two(Kind::Equal, e, f);
        let other = d.one(Kind::Not, same);
        d.node(Kind::ForAll, z, s, other);
    });
    for (group, answer) in groups
        .iter()
        .zip(["false 6", "false 10", "false 14", "false 18"])
    {
        assert_eq!(evaluated(&d, &[whole.clone(), group.clone()]), answer);
    }
    assert_eq!(evaluated(&d, &[whole, ints(&[0])]), "true 18");
}

#[test]
fn n6_power_sets_go_by_count_and_then_from_the_greatest() {
    let power = |d: &mut Draft| {
        let s = d.using(0);
        d.one(Kind::Power, s)
    };
    let rising: [&[i32]; 16] = [
        &[],
        &[1],
        &[2],
        &[3],
        &[4],
        &[1, 2],
        &[1, 3],
        &[2, 3],
        &[1, 4],
        &[2, 4],
        &[3, 4],
        &[1, 2, 3],
        &[1, 2, 4],
        &[1, 3, 4],
        &[2, 3, 4],
        &[1, 2, 3, 4],
    ];
    let subsets = rising.map(ints);
    taken_in_order(&[ints(&[1, 2, 3, 4])], 2, power, &subsets);
    let [low, high, most] = [[2, 3], [1, 4], [0, 5]].map(|members| ints(&members));
    let families = [
        of(&[]),
        of(&[&low]),
        of(&[&high]),
        of(&[&most]),
        of(&[&low, &high]),
        of(&[&low, &most]),
        of(&[&high, &most]),
        of(&[&low, &high, &most]),
    ];
    taken_in_order(&[families[7].clone()], 2, power, &families);
}

#[test]
fn n6_domains_ranges_and_products_rise_in_the_new_order() {
    let groups = [[0, 1], [2, 3], [1, 4], [0, 5]].map(|members| ints(&members));
    // The integers beside the groups rise, fall or are the same.
    for step in [1, -1, 0] {
        let beside = |group: &Value, i: usize| (group.clone(), int(step * i as i32));
        let parts = || groups.iter().enumerate().map(|(i, group)| beside(group, i));
        let firsts = set(parts().map(|(group, n)| both(group, n)).collect());
        let seconds = set(parts().map(|(group, n)| both(n, group)).collect());
        for (kind, relation) in [(Kind::Domain, firsts), (Kind::Range, seconds)] {
            let part = |d: &mut Draft| {
                let f = d.using(0);
                d.one(kind, f)
            };
            taken_in_order(&[relation], 2, part, &groups);
        }
    }
    let product = |d: &mut Draft| {
        let (s, r) = (d.using(0), d.using(1));
        d.two(Kind::Product, s, r)
    };
    let numbers = ints(&[1, 2]);
    let pairs = groups
        .iter()
        .flat_map(|group| [1, 2].map(|n| both(group.clone(), int(n))));
    let pairs: Vec<Value> = pairs.collect();
    taken_in_order(&[set(groups.to_vec()), numbers.clone()], 3, product, &pairs);
    let pairs = [1, 2]
        .into_iter()
        .flat_map(|n| groups.clone().map(|group| both(int(n), group)));
    let pairs: Vec<Value> = pairs.collect();
    taken_in_order(&[numbers, set(groups.to_vec())], 3, product, &pairs);
}

#[test]
fn n6_unions_and_comprehensions_rise_in_the_new_order() {
    let groups = [[0, 1], [2, 3], [1, 4], [0, 5]].map(|members| ints(&members));
    let [least, low, high, most] = &groups;
    let join = |kind: Kind, s: &[&Value], r: &[&Value], made: &[&Value]| {
        let joined = |d: &mut Draft| {
            let (s, r) = (d.using(0), d.using(1));
            d.two(kind, s, r)
        };
        let made: Vec<Value> = made.iter().map(|&group| group.clone()).collect();
        taken_in_order(&[of(s), of(r)], 3, joined, &made);
    };
    join(Kind::Union, &[high], &[low], &[low, high]);
    join(
        Kind::Union,
        &[least, high],
        &[low, most],
        &[least, low, high, most],
    );
    join(Kind::Union, &[low, high], &[high, most], &[low, high, most]);
    join(
        Kind::Intersection,
        &[least, low, high],
        &[low, high, most],
        &[low, high],
    );
    join(
        Kind::Difference,
        &[least, low, high, most],
        &[least, high],
        &[low, most],
    );
    // choice({w∈x0|w=w}) = {2,3}
    let d = draft(|d| {
        let (x, w) = (d.identifier(0), d.identifier(1));
        let (s, body) = (d.using(x), one_is_one_using(d, w));
        let all = d.node(Kind::Comprehension, w, s, body);
        let (least, e) = (d.one(Kind::Choice, all), d.literal(low));
        d.two(Kind::Equal, least, e);
    });
    assert_eq!(evaluated(&d, &[of(&[low, high])]), "true 15");
}

#[test]
fn n6_tests_and_applications_find_sets_wherever_they_stand() {
    let groups = [[0, 1], [2, 3], [1, 4], [0, 5]].map(|members| ints(&members));
    let whole = set(groups.to_vec());
    let relation = |kind: Kind, e: &Value, s: &Value| {
        let d = draft(|d| {
            let (x, y) = (d.identifier(0), d.identifier(0));
            let (e, s) = (d.using(x), d.using(y));
            d.two(kind, e, s);
        });
        evaluated(&d, &[e.clone(), s.clone()])
    };
    let numbered = groups
        .iter()
        .zip(1..)
        .map(|(group, n)| both(group.clone(), int(n)));
    let f = set(numbered.collect());
    for (i, group) in groups.iter().enumerate() {
        let rest = groups.iter().filter(|other| *other != group).cloned();
        let rest = set(rest.collect());
        assert_eq!(relation(Kind::Member, group, &whole), "true 3");
        assert_eq!(relation(Kind::Member, group, &rest), "false 3");
        assert_eq!(relation(Kind::Subset, &rest, &whole), "true 3");
        assert_eq!(relation(Kind::Subset, &whole, &rest), "false 3");
        let answer = if i == 0 { "true 5" } else { "false 5" };
        assert_eq!(applied(&f, group), answer);
    }
    assert_eq!(applied(&f, &ints(&[0, 4])), "refused 16 2 4");
    assert_eq!(applied(&former::arranged(&f), &groups[0]), "refused 14 0 0");
}
