//! differential SEED COUNT: compares the library with the reference on COUNT generated cases of Check, sheets included, and Evaluate,
//! and as many merges, lent cells included.

use falgrumi::{check_into, evaluate, merge_into, Merge, Refusal};
use reference::batch::hex;
use reference::evaluate::Outcome;
use reference::generate::{Class, Generator, Sample};
use reference::merge;

/// What a sheet or lent cells hold before a call, so that untouched ones can be told.
const FILL: u8 = 0xA5;

fn check_differs(sample: &Sample) -> Option<String> {
    let length = sample.sheet as usize;
    let mut ours = vec![FILL; length];
    let mut theirs = vec![FILL; length];
    let answer = check_into(&sample.table, &mut ours).map_err(|r| (u32::from(r.number), r.place));
    let wanted = reference::check::check(&sample.table, &mut theirs).map_err(|r| (r.number, r.place));
    if answer == wanted && ours == theirs {
        return None;
    }
    Some(format!(
        "check: {answer:?}, the reference {wanted:?}, sheets {}",
        if ours == theirs { "alike" } else { "differ" }
    ))
}

fn evaluation_differs(sample: &Sample) -> Option<String> {
    let ours = evaluate(&sample.table, &sample.values, sample.budget);
    let answer = (ours.outcome.map_err(|r| (u32::from(r.number), r.place)), ours.steps);
    let run = reference::evaluate::evaluate(&sample.table, &sample.values, sample.budget);
    let end = match run.outcome {
        Outcome::Truth(truth) => Ok(truth),
        Outcome::Refused(r) => Err((r.number, r.place)),
    };
    if answer == (end, run.steps) {
        return None;
    }
    Some(format!(
        "evaluate at budget {}: {answer:?}, the reference {:?}, values {}",
        sample.budget,
        (end, run.steps),
        hex(&sample.values)
    ))
}

/// The bytes lent to a merge in turn: what its cells take, more, less, none. Where there is no union, there is room for one.
fn room(merge: &merge::Merge, number: u64) -> usize {
    let cells = match merge {
        merge::Merge::Merged { cells, .. } => cells.len(),
        _ => 64,
    };
    let some = 1 + (number / 4) as usize % 64;
    match number % 4 {
        0 => cells,
        1 => cells + some,
        2 => cells.saturating_sub(some),
        _ => 0,
    }
}

/// What the library must answer and have written to this many bytes.
fn wanted_merge(merge: merge::Merge, room: usize) -> (Merge<usize>, Vec<u8>) {
    let mut lent = vec![FILL; room];
    let answer = match merge {
        merge::Merge::Merged { comparisons, cells } => {
            if cells.len() <= room {
                lent[..cells.len()].copy_from_slice(&cells);
            }
            Merge::Merged {
                comparisons: comparisons.into(),
                cells: cells.len(),
            }
        }
        merge::Merge::Heavy { comparisons } => Merge::Heavy {
            comparisons: comparisons.into(),
        },
        merge::Merge::Unfit => Merge::Unfit,
        merge::Merge::Refused(r) => Merge::Refused(Refusal {
            number: r.number as u8,
            place: r.place,
        }),
    };
    (answer, lent)
}

/// The library's answer, and how it differs from the reference's.
fn merge_differs(table: &[u8], values: &[u8], number: u64) -> (Merge<usize>, Option<String>) {
    let merge = merge::merge(table, values);
    let room = room(&merge, number);
    let mut ours = vec![FILL; room];
    let answer = merge_into(table, values, &mut ours);
    let (wanted, theirs) = wanted_merge(merge, room);
    if answer == wanted && ours == theirs {
        return (answer, None);
    }
    let text = format!(
        "merge into {room} bytes: {answer:?}, the reference {wanted:?}, cells {} for {}",
        hex(&ours),
        hex(&theirs)
    );
    (answer, Some(text))
}

/// How many of so many merges differ.
fn merges(generator: &mut Generator, count: u64) -> u64 {
    let mut failed = 0;
    let (mut merged, mut heavy, mut unfit, mut refused) = (0u64, 0u64, 0u64, 0u64);
    for number in 0..count {
        let (table, values) = generator.merge_sample();
        let (answer, text) = merge_differs(&table, &values, number);
        if let Some(text) = text {
            failed += 1;
            println!("merge {number}: table {}, values {}: {text}", hex(&table), hex(&values));
        }
        *match answer {
            Merge::Merged { .. } => &mut merged,
            Merge::Heavy { .. } => &mut heavy,
            Merge::Unfit => &mut unfit,
            Merge::Refused(_) => &mut refused,
        } += 1;
    }
    println!("merge: {merged} merged, {heavy} heavy, {unfit} unfit, {refused} refused");
    failed
}

fn main() {
    let arguments: Vec<String> = std::env::args().skip(1).collect();
    let numbers: Vec<u64> = arguments.iter().filter_map(|a| a.parse().ok()).collect();
    let [seed, count] = numbers[..] else {
        eprintln!("usage: differential SEED COUNT");
        std::process::exit(2);
    };
    let mut generator = Generator::new(seed, false, None);
    let (mut failed, mut accepted) = (0u64, 0u64);
    // How many evaluations ended with each number; 0 is a truth.
    let mut ends = [0u64; 20];
    for number in 0..count {
        let class = Class::ALL[number as usize % Class::ALL.len()];
        let sample = generator.sample(class);
        for text in [check_differs(&sample), evaluation_differs(&sample)].into_iter().flatten() {
            failed += 1;
            println!("case {number} ({}): table {}: {text}", class.name(), hex(&sample.table));
        }
        let mut sheet = vec![0; sample.sheet as usize];
        accepted += u64::from(check_into(&sample.table, &mut sheet).is_ok());
        let end = evaluate(&sample.table, &sample.values, sample.budget).outcome;
        ends[end.map_or_else(|r| usize::from(r.number), |_| 0)] += 1;
    }
    println!("check: {accepted} of {count} tables accepted");
    println!("evaluate: {} truths, refusals by number: {:?}", ends[0], &ends[1..]);
    failed += merges(&mut generator, count);
    println!("{} passed, {failed} failed", 3 * count - failed);
    std::process::exit(i32::from(failed > 0));
}
