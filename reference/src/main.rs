//! The commands: batch, cases, answers, listing, listings, stats.

use reference::batch::{self, Case};
use reference::generate::{Class, Generator};
use reference::stats::Stats;
use reference::{cases, examples, listing, table};
use std::io::{self, BufWriter, Read, Write};
use std::process::ExitCode;

const USAGE: &str = "usage:
  reference batch --seed S --count N [--merges M] --stdin FILE --stdout FILE [--class NAME]
  reference cases --seed S --count N [--merges M] [--small] [--class NAME]
  reference stats --seed S --count N [--merges M] [--small] [--class NAME]
  reference listings --seed S --count N
  reference answers    (a batch on standard input)
  reference listing    (a table on standard input)
classes: typed mutated mixture ambiguous cyclic unused damaged buffers boundary";

fn main() -> ExitCode {
    let arguments: Vec<String> = std::env::args().skip(1).collect();
    match run(&arguments) {
        Ok(()) => ExitCode::SUCCESS,
        Err(Fault::Usage(message)) => {
            eprintln!("reference: {message}\n{USAGE}");
            ExitCode::from(2)
        }
        // A reader that closes early ends the output; nothing is wrong.
        Err(Fault::Io(error)) if error.kind() == io::ErrorKind::BrokenPipe => ExitCode::SUCCESS,
        Err(Fault::Io(error)) => {
            eprintln!("reference: {error}");
            ExitCode::FAILURE
        }
    }
}

enum Fault {
    Usage(String),
    Io(io::Error),
}

impl From<io::Error> for Fault {
    fn from(error: io::Error) -> Fault {
        Fault::Io(error)
    }
}

fn run(arguments: &[String]) -> Result<(), Fault> {
    let Some((command, rest)) = arguments.split_first() else {
        return Err(Fault::Usage("a command is missing".to_string()));
    };
    match command.as_str() {
        "batch" => {
            let own = ["--merges", "--stdin", "--stdout"];
            write_batch(&Options::parse(rest, &own, false)?)
        }
        "cases" => print_cases(&Options::parse(rest, &["--merges"], true)?),
        "listings" => print_listings(&Options::parse(rest, &[], false)?),
        "stats" => print_stats(&Options::parse(rest, &["--merges"], true)?),
        "answers" | "listing" if !rest.is_empty() => {
            Err(Fault::Usage(format!("{command} takes no arguments")))
        }
        "answers" => print_text(&batch::answers(&standard_input()?)),
        "listing" => print_text(&listing::listing(&standard_input()?)),
        other => Err(Fault::Usage(format!("unknown command {other:?}"))),
    }
}

#[derive(Default)]
struct Options {
    seed: Option<u64>,
    count: Option<usize>,
    /// Merges, after the others.
    merges: usize,
    class: Option<Class>,
    small: bool,
    stdin: Option<String>,
    stdout: Option<String>,
}

impl Options {
    /// `own` are the command's options beside those that all have.
    fn parse(words: &[String], own: &[&str], small: bool) -> Result<Options, Fault> {
        let mut found = Options::default();
        let mut words = words.iter();
        while let Some(name) = words.next() {
            if name == "--small" && small {
                found.small = true;
                continue;
            }
            let known = ["--seed", "--count", "--class"].contains(&name.as_str());
            if !known && !own.contains(&name.as_str()) {
                return Err(Fault::Usage(format!("unknown option {name:?}")));
            }
            let missing = || Fault::Usage(format!("{name} needs a value"));
            found.set(name, words.next().ok_or_else(missing)?)?;
        }
        let files = found.stdin.is_some() && found.stdout.is_some();
        let complete = files || !own.contains(&"--stdin");
        if found.seed.is_none() || found.count.is_none() || !complete {
            return Err(Fault::Usage("an option is missing".to_string()));
        }
        Ok(found)
    }

    fn set(&mut self, name: &str, value: &str) -> Result<(), Fault> {
        let wrong = || Fault::Usage(format!("{name} does not take {value:?}"));
        match name {
            "--seed" => self.seed = Some(value.parse().map_err(|_| wrong())?),
            "--count" => self.count = Some(value.parse().map_err(|_| wrong())?),
            "--merges" => self.merges = value.parse().map_err(|_| wrong())?,
            "--class" => self.class = Some(Class::from_name(value).ok_or_else(wrong)?),
            "--stdin" => self.stdin = Some(value.to_string()),
            _ => self.stdout = Some(value.to_string()),
        }
        Ok(())
    }

    fn generator(&self) -> Generator {
        Generator::new(self.seed.unwrap_or(0), self.small, self.class)
    }

    fn count(&self) -> usize {
        self.count.unwrap_or(0)
    }
}

/// The conditions of document 01, each checked and evaluated.
fn example_cases() -> Vec<Case> {
    let mut cases = Vec::new();
    for example in examples::all() {
        let table = example.draft.bytes();
        cases.push(Case::Check {
            table: table.clone(),
            sheet: example.draft.sheet_length() as u32,
        });
        cases.push(Case::Evaluate {
            table,
            values: example.values,
            budget: example.budget,
        });
    }
    cases
}

fn write_batch(options: &Options) -> Result<(), Fault> {
    let mut generator = options.generator();
    let mut batch = example_cases();
    batch.extend(cases::all().into_iter().map(|answered| answered.case));
    batch.extend((0..options.count()).map(|_| generator.batch_case()));
    // Behind all others, so that those stay as they are.
    batch.extend(cases::merges().into_iter().map(|answered| answered.case));
    batch.extend((0..options.merges).map(|_| generator.merge_case()));
    let (bytes, text) = batch::make(&batch);
    std::fs::write(options.stdin.as_deref().unwrap_or_default(), bytes)?;
    std::fs::write(options.stdout.as_deref().unwrap_or_default(), text)?;
    Ok(())
}

fn print_cases(options: &Options) -> Result<(), Fault> {
    let mut generator = options.generator();
    let mut out = BufWriter::new(io::stdout().lock());
    for _ in 0..options.count() {
        writeln!(out, "{}", generator.case().line())?;
    }
    for _ in 0..options.merges {
        writeln!(out, "{}", generator.merge_case().line())?;
    }
    out.flush()?;
    Ok(())
}

/// Tables of 0 to 512 nodes, the sizes evenly spread and rising, every second one with a fault, each before its listing.
fn print_listings(options: &Options) -> Result<(), Fault> {
    let mut generator = options.generator();
    let mut out = BufWriter::new(io::stdout().lock());
    let most = table::MAX_NODES as usize;
    let last = options.count().saturating_sub(1).max(1);
    for i in 0..options.count() {
        let table = generator.sized(i * most / last, i % 2 == 1);
        let listing = listing::listing(&table);
        write!(out, "table {}\n{listing}", batch::hex(&table))?;
    }
    out.flush()?;
    Ok(())
}

fn print_stats(options: &Options) -> Result<(), Fault> {
    let mut generator = options.generator();
    let mut stats = Stats::default();
    for _ in 0..options.count() {
        stats.add(&generator.case());
    }
    for _ in 0..options.merges {
        stats.add(&generator.merge_case());
    }
    print_text(&stats.text())
}

fn print_text(text: &str) -> Result<(), Fault> {
    let mut out = io::stdout().lock();
    out.write_all(text.as_bytes())?;
    out.flush()?;
    Ok(())
}

fn standard_input() -> Result<Vec<u8>, Fault> {
    let mut bytes = Vec::new();
    io::stdin().lock().read_to_end(&mut bytes)?;
    Ok(bytes)
}
