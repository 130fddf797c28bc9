//! The command line.

use std::ffi::{OsStr, OsString};

pub const USAGE: &str = "\
falgrumi checks the types of a B condition's table, evaluates it, and merges two of its values.

usage:
  falgrumi check FILE
      says whether the table is accepted, with the type of each identifier and node
  falgrumi show FILE
      draws the table as a tree, with types where it is accepted and else the refused place marked
  falgrumi evaluate FILE [--values FILE] [--budget N] [--checked]
      says whether the condition is true or false, with the steps made; the values are those of
      the free identifiers, and a table without any needs none; N is 1000000 unless told;
      --checked checks the table first, and says whether the values have its types, so that the
      guarantee applies: no refusal 15, and every value formed has the type of its node
  falgrumi merge FILE [--values FILE]
      gives the union of the first two of the free identifiers' values, two sets, with its number
      of members and the comparisons that the merge takes; the condition is not evaluated
  falgrumi -h | --help

A FILE `-` is standard input. Exit status: 0 accepted, evaluated or merged, 1 refused, 2 bad file
or arguments.
";

#[derive(PartialEq, Eq, Debug)]
pub enum Command {
    Help,
    Check(OsString),
    Show(OsString),
    Evaluate(Evaluate),
    Merge(Inputs),
}

/// The files of a table and of the values of its free identifiers.
#[derive(PartialEq, Eq, Debug)]
pub struct Inputs {
    pub table: OsString,
    pub values: Option<OsString>,
}

#[derive(PartialEq, Eq, Debug)]
pub struct Evaluate {
    pub inputs: Inputs,
    pub budget: u32,
    pub checked: bool,
}

pub fn parse(arguments: &[OsString]) -> Result<Command, String> {
    if arguments.iter().any(|a| a == "-h" || a == "--help") {
        return Ok(Command::Help);
    }
    let (command, rest) = arguments.split_first().ok_or("a command is missing")?;
    match command.to_str() {
        Some("check") => Ok(Command::Check(only_file(rest)?)),
        Some("show") => Ok(Command::Show(only_file(rest)?)),
        Some("evaluate") => Ok(Command::Evaluate(evaluate(rest)?)),
        Some("merge") => Ok(Command::Merge(options(rest, &["--values"])?.inputs()?)),
        _ => Err(format!("unknown command {command:?}")),
    }
}

fn only_file(words: &[OsString]) -> Result<OsString, String> {
    match words {
        [] => Err("a file is missing".to_string()),
        [file] if !is_option(file) => Ok(file.clone()),
        [option] => Err(format!("unknown option {option:?}")),
        [_, extra, ..] => Err(format!("{extra:?} is one argument too many")),
    }
}

/// A name that starts with `-`; `-` itself is standard input.
fn is_option(word: &OsStr) -> bool {
    word != "-" && word.as_encoded_bytes().starts_with(b"-")
}

#[derive(Default)]
struct Options {
    values: Option<OsString>,
    budget: Option<OsString>,
    checked: bool,
    /// The words that are no options of the command, nor values of them.
    files: Vec<OsString>,
}

/// The words of a command that knows these options.
fn options(words: &[OsString], known: &[&str]) -> Result<Options, String> {
    let mut found = Options::default();
    let mut words = words.iter();
    while let Some(word) = words.next() {
        let slot = match word.to_str().filter(|name| known.contains(name)) {
            Some("--values") => &mut found.values,
            Some("--budget") => &mut found.budget,
            Some("--checked") => {
                if std::mem::replace(&mut found.checked, true) {
                    return Err(format!("{word:?} is given twice"));
                }
                continue;
            }
            _ => {
                found.files.push(word.clone());
                continue;
            }
        };
        let value = words.next().ok_or(format!("{word:?} needs a value"))?;
        if slot.replace(value.clone()).is_some() {
            return Err(format!("{word:?} is given twice"));
        }
    }
    Ok(found)
}

impl Options {
    fn inputs(self) -> Result<Inputs, String> {
        let (table, values) = (only_file(&self.files)?, self.values);
        if table == "-" && values.as_deref() == Some(OsStr::new("-")) {
            return Err("the table and the values cannot both be standard input".to_string());
        }
        Ok(Inputs { table, values })
    }
}

fn evaluate(words: &[OsString]) -> Result<Evaluate, String> {
    let mut found = options(words, &["--values", "--budget", "--checked"])?;
    let (budget, checked) = (found.budget.take(), found.checked);
    Ok(Evaluate {
        inputs: found.inputs()?,
        budget: budget.map_or(Ok(1_000_000), number)?,
        checked,
    })
}

fn number(word: OsString) -> Result<u32, String> {
    let found = word.to_str().and_then(|text| text.parse().ok());
    found.ok_or(format!(
        "a budget is a number from 0 to {}, not {word:?}",
        u32::MAX
    ))
}

#[cfg(test)]
mod tests {
    use super::*;

    fn parsed(line: &str) -> Result<Command, String> {
        let words: Vec<OsString> = line
            .split(' ')
            .filter(|w| !w.is_empty())
            .map(OsString::from)
            .collect();
        parse(&words)
    }

    #[test]
    fn commands_are_understood() {
        let inputs = |values: Option<&str>| Inputs {
            table: "t".into(),
            values: values.map(OsString::from),
        };
        let evaluate = |values, budget, checked| {
            Ok(Command::Evaluate(Evaluate {
                inputs: inputs(values),
                budget,
                checked,
            }))
        };
        let merge = |values| Ok(Command::Merge(inputs(values)));
        assert_eq!(parsed("check -"), Ok(Command::Check("-".into())));
        assert_eq!(parsed("show t"), Ok(Command::Show("t".into())));
        assert_eq!(parsed("evaluate t"), evaluate(None, 1_000_000, false));
        assert_eq!(
            parsed("evaluate --checked t"),
            evaluate(None, 1_000_000, true)
        );
        assert_eq!(
            parsed("evaluate --budget 0 t --values v"),
            evaluate(Some("v"), 0, false)
        );
        assert_eq!(
            parsed("evaluate t --budget 4294967295"),
            evaluate(None, u32::MAX, false)
        );
        assert_eq!(parsed("merge t"), merge(None));
        assert_eq!(parsed("merge --values - t"), merge(Some("-")));
        assert_eq!(parsed("-h"), Ok(Command::Help));
        assert_eq!(parsed("check t --help"), Ok(Command::Help));
    }

    #[test]
    fn bad_lines_are_refused() {
        let lines = [
            "",
            "list t",
            "check",
            "check t u",
            "check --all",
            "evaluate",
            "evaluate t u",
            "evaluate t --values",
            "evaluate t --budget",
            "evaluate t --budget x",
            "evaluate t --budget -1",
            "evaluate t --budget 4294967296",
            "evaluate t --budget 1 --budget 2",
            "evaluate t --checked --checked",
            "evaluate - --values -",
            "evaluate --fast",
            "merge",
            "merge t u",
            "merge t --values",
            "merge t --values v --values v",
            "merge t --values v --budget 1",
            "merge --checked",
            "merge - --values -",
        ];
        for line in lines {
            assert!(parsed(line).is_err(), "{line}");
        }
    }
}
