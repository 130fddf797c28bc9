//! Reading, Check, Evaluate and the merge end on any bytes.

use reference::check::check;
use reference::evaluate::evaluate;
use reference::generate::{Class, Generator};
use reference::merge::merge;
use reference::random::Random;

#[test]
fn random_bytes_are_answered() {
    let mut rng = Random::new(1);
    for _ in 0..20_000 {
        let mut table: Vec<u8> = (0..rng.below(200)).map(|_| rng.word() as u8).collect();
        if table.len() >= 4 {
            table[..4].copy_from_slice(&1u32.to_le_bytes());
        }
        let _ = check(&table, &mut [0; 64]);
        let _ = evaluate(&table, &table, 100);
        let _ = merge(&table, &table);
    }
}

#[test]
fn every_byte_of_a_table_and_of_values_may_be_damaged() {
    let mut rng = Random::new(2);
    let mut generator = Generator::new(2, true, None);
    for _ in 0..60 {
        let sample = generator.sample(Class::Typed);
        for at in 0..sample.table.len() {
            let mut table = sample.table.clone();
            table[at] = *rng.pick(&[0, 1, 2, 127, 128, 255]);
            let _ = check(&table, &mut vec![0; sample.sheet as usize]);
            let _ = evaluate(&table, &sample.values, 500);
            let _ = evaluate(&table[..at], &sample.values, 500);
        }
        for at in 0..sample.values.len() {
            let mut values = sample.values.clone();
            values[at] = *rng.pick(&[0, 1, 2, 3, 4, 5, 127, 128, 255]);
            let _ = evaluate(&sample.table, &values, 500);
            let _ = evaluate(&sample.table, &values[..at], 500);
        }
    }
}

#[test]
fn every_byte_of_what_is_merged_may_be_damaged() {
    let mut rng = Random::new(3);
    let mut generator = Generator::new(3, true, None);
    for _ in 0..60 {
        let (table, values) = generator.merge_sample();
        for at in 0..table.len() {
            let mut table = table.clone();
            table[at] = *rng.pick(&[0, 1, 2, 127, 128, 255]);
            let _ = merge(&table, &values);
            let _ = merge(&table[..at], &values);
        }
        for at in 0..values.len() {
            let mut values = values.clone();
            values[at] = *rng.pick(&[0, 1, 2, 3, 4, 5, 127, 128, 255]);
            let _ = merge(&table, &values);
            let _ = merge(&table, &values[..at]);
        }
    }
}
