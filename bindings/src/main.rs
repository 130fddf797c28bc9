//! Checks, shows and evaluates tables in files, and merges sets of their values.

mod arguments;
mod notation;
mod show;
mod table;

use arguments::{Command, Evaluate, Inputs};
use falgrumi::{Merge, Refusal};
use std::ffi::{OsStr, OsString};
use std::fs::File;
use std::io::{self, Read, Write};
use std::process::ExitCode;

/// No table or values buffer is nearly as long.
const LONGEST: u64 = 1 << 20;

/// What is printed, and whether it tells a refusal.
struct Report {
    text: String,
    refused: bool,
}

fn main() -> ExitCode {
    let arguments: Vec<OsString> = std::env::args_os().skip(1).collect();
    match run(&arguments).and_then(print) {
        Ok(refused) => ExitCode::from(u8::from(refused)),
        Err(message) => {
            // Nothing is left to do where standard error is closed.
            let _ = writeln!(io::stderr(), "falgrumi: {message}");
            ExitCode::from(2)
        }
    }
}

fn run(arguments: &[OsString]) -> Result<Report, String> {
    match arguments::parse(arguments).map_err(|m| format!("{m}; --help tells the commands"))? {
        Command::Help => Ok(Report {
            text: arguments::USAGE.to_string(),
            refused: false,
        }),
        Command::Check(file) => Ok(check(&read(&file)?)),
        Command::Show(file) => Ok(show(&read(&file)?)),
        Command::Evaluate(wanted) => evaluate(&wanted),
        Command::Merge(inputs) => merge(&inputs),
    }
}

fn check(table: &[u8]) -> Report {
    let checked = falgrumi::check(table);
    let text = match &checked {
        Ok(sheet) => format!("accepted\n{}", rows(sheet)),
        Err(refusal) => show::refusal(table, refusal),
    };
    Report {
        text,
        refused: checked.is_err(),
    }
}

fn rows(sheet: &falgrumi::Sheet) -> String {
    let mut out = String::new();
    for x in 0..sheet.identifiers() {
        let found = sheet.identifier(x).map(|t| t.to_string());
        out += &format!("identifier {x}: {}\n", found.unwrap_or_default());
    }
    for node in 0..sheet.nodes() {
        let found = sheet.node(node).map(|t| t.to_string());
        out += &format!(
            "node {node}: {}\n",
            found.unwrap_or("predicate".to_string())
        );
    }
    out
}

fn show(table: &[u8]) -> Report {
    let checked = falgrumi::check(table);
    let answer = match &checked {
        Ok(_) => "accepted\n".to_string(),
        Err(refusal) => show::refusal(table, refusal),
    };
    Report {
        text: show::table(table, &checked) + &answer,
        refused: checked.is_err(),
    }
}

fn evaluate(wanted: &Evaluate) -> Result<Report, String> {
    let (table, values) = read_both(&wanted.inputs)?;
    if !wanted.checked {
        let evaluation = falgrumi::evaluate(&table, &values, wanted.budget);
        return ended(&table, &wanted.inputs, &evaluation);
    }
    let mut sheet = vec![0; falgrumi::sheet_length(&table)];
    match falgrumi::checked_evaluation(&table, &mut sheet, &values, wanted.budget) {
        Ok(run) => {
            let report = ended(&table, &wanted.inputs, &run.evaluation)?;
            let guarantee = match run.conforms {
                true => {
                    "the guarantee applies: the table is accepted, and the values have its types"
                }
                false => {
                    "the guarantee does not apply: the values do not have the types of the table"
                }
            };
            Ok(Report {
                text: format!("{}{guarantee}\n", report.text),
                refused: report.refused,
            })
        }
        Err(refusal) => Ok(Report {
            text: show::refusal(&table, &refusal) + "not evaluated: the table is not accepted\n",
            refused: true,
        }),
    }
}

fn ended(
    table: &[u8],
    inputs: &Inputs,
    evaluation: &falgrumi::Evaluation,
) -> Result<Report, String> {
    let answer = match evaluation.outcome {
        Ok(truth) => format!("{truth}\n"),
        Err(refusal) => refused(table, inputs, &refusal)?,
    };
    Ok(Report {
        text: format!("{answer}steps: {}\n", evaluation.steps),
        refused: evaluation.outcome.is_err(),
    })
}

fn merge(inputs: &Inputs) -> Result<Report, String> {
    let (table, values) = read_both(inputs)?;
    let merge = falgrumi::merge(&table, &values);
    let names: Vec<String> = free(&table).into_iter().take(2).collect();
    let union = names.join(" ∪ ");
    let text = match &merge {
        Merge::Merged { comparisons, cells } => {
            let members = falgrumi::word(cells, 0).unwrap_or_default();
            let (value, _) = notation::value(cells).unwrap_or_default();
            format!("{union} = {value}\nmembers: {members}, comparisons: {comparisons}\n")
        }
        Merge::Heavy { comparisons } => format!(
            "refused 18: {union} would weigh more than 256 cells\ncomparisons: {comparisons}\n"
        ),
        Merge::Unfit if names.len() < 2 => {
            "refused 15: the table has fewer than two free identifiers\n".to_string()
        }
        Merge::Unfit => format!(
            "refused 15: the values of {} are not sets that share a type\n",
            names.join(" and ")
        ),
        Merge::Refused(refusal) => refused(&table, inputs, refusal)?,
    };
    Ok(Report {
        text,
        refused: !matches!(merge, Merge::Merged { .. }),
    })
}

/// The text of a refusal; no values at all where some are needed are a bad argument.
fn refused(table: &[u8], inputs: &Inputs, refusal: &Refusal) -> Result<String, String> {
    if refusal.number == 14 && inputs.values.is_none() {
        return Err(format!(
            "the table has free identifiers ({}): give their values with --values FILE",
            free(table).join(", ")
        ));
    }
    Ok(show::refusal(table, refusal))
}

/// The names of the free identifiers.
fn free(table: &[u8]) -> Vec<String> {
    let table = table::Table::read(table);
    let numbers = table.map_or(Vec::new(), |table| table.free().collect());
    numbers.iter().map(|x| format!("x{x}")).collect()
}

/// The bytes of the table, and of the values if a file has them.
fn read_both(inputs: &Inputs) -> Result<(Vec<u8>, Vec<u8>), String> {
    let table = read(&inputs.table)?;
    let values = inputs.values.as_deref().map_or(Ok(Vec::new()), read)?;
    Ok((table, values))
}

fn read(file: &OsStr) -> Result<Vec<u8>, String> {
    let (name, bytes) = if file == "-" {
        ("standard input".into(), read_all(io::stdin()))
    } else {
        (file.to_string_lossy(), File::open(file).and_then(read_all))
    };
    match bytes {
        Ok(bytes) if bytes.len() as u64 <= LONGEST => Ok(bytes),
        Ok(_) => Err(format!(
            "{name}: over {LONGEST} bytes, no table or values are as long"
        )),
        Err(error) => Err(format!("{name}: {error}")),
    }
}

/// The bytes, one beyond the longest at most.
fn read_all(from: impl Read) -> io::Result<Vec<u8>> {
    let mut bytes = Vec::new();
    from.take(LONGEST + 1).read_to_end(&mut bytes)?;
    Ok(bytes)
}

/// Whether the report tells a refusal. A reader that closes early ends the output; nothing is wrong.
fn print(report: Report) -> Result<bool, String> {
    let mut out = io::stdout().lock();
    let done = out
        .write_all(report.text.as_bytes())
        .and_then(|()| out.flush());
    match done {
        Err(error) if error.kind() != io::ErrorKind::BrokenPipe => {
            Err(format!("standard output: {error}"))
        }
        _ => Ok(report.refused),
    }
}
