//! Batches: cases in one binary stream, one line of text for each answer.

use crate::check::check;
use crate::evaluate::{evaluate, Outcome};
use crate::merge::{merge, Merge};
use crate::table;
use crate::types::ROW_BYTES;
use crate::Refusal;

pub const WORD_CHECK: u32 = 1;
pub const WORD_EVALUATE: u32 = 2;
pub const WORD_MERGE: u32 = 9;
pub const MAX_TABLE: u32 = 16_384;
pub const MAX_VALUES: u32 = 131_072;
pub const MAX_SHEET: u32 = 1_048_576;

/// One question. `Read` has no place in a batch: its answer is part of the
/// others.
#[derive(Clone, PartialEq, Eq, Debug)]
pub enum Case {
    Read {
        table: Vec<u8>,
    },
    Check {
        table: Vec<u8>,
        sheet: u32,
    },
    Evaluate {
        table: Vec<u8>,
        values: Vec<u8>,
        budget: u32,
    },
    Merge {
        table: Vec<u8>,
        values: Vec<u8>,
    },
}

impl Case {
    pub fn table(&self) -> &[u8] {
        match self {
            Case::Read { table }
            | Case::Check { table, .. }
            | Case::Evaluate { table, .. }
            | Case::Merge { table, .. } => table,
        }
    }

    /// The line in a batch's output.
    pub fn answer(&self) -> String {
        match self {
            Case::Read { table } => match table::read(table) {
                Ok(_) => "readable".to_string(),
                Err(refusal) => refused(refusal),
            },
            Case::Check { table, sheet } => check_answer(table, *sheet as usize),
            Case::Evaluate {
                table,
                values,
                budget,
            } => evaluate_answer(table, values, *budget),
            Case::Merge { table, values } => merge_answer(&merge(table, values)),
        }
    }

    /// The answer, and beside `heavy` the comparisons. A batch's output has no
    /// room for these, but the definitions are to be compared in them too.
    pub fn whole_answer(&self) -> String {
        let answer = self.answer();
        match self {
            Case::Merge { table, values } => match merge(table, values) {
                Merge::Heavy { comparisons } => format!("{answer} {comparisons}"),
                _ => answer,
            },
            _ => answer,
        }
    }

    /// The case as one line of text, bytes in hexadecimal, with its whole
    /// answer.
    pub fn line(&self) -> String {
        let question = match self {
            Case::Read { table } => format!("read {}", hex_or_dash(table)),
            Case::Check { table, sheet } => format!("check {} {sheet}", hex_or_dash(table)),
            Case::Evaluate {
                table,
                values,
                budget,
            } => format!(
                "evaluate {} {} {budget}",
                hex_or_dash(table),
                hex_or_dash(values)
            ),
            Case::Merge { table, values } => {
                format!("merge {} {}", hex_or_dash(table), hex_or_dash(values))
            }
        };
        format!("{question} {}", self.whole_answer())
    }

    /// The case in a batch.
    pub fn write(&self, out: &mut Vec<u8>) {
        match self {
            Case::Read { .. } => panic!("a batch holds no reading case"),
            Case::Check { table, sheet } => {
                put_words(out, &[WORD_CHECK, table.len() as u32, *sheet]);
                out.extend(table);
            }
            Case::Evaluate {
                table,
                values,
                budget,
            } => {
                let (t, v) = (table.len() as u32, values.len() as u32);
                put_words(out, &[WORD_EVALUATE, t, v, *budget]);
                out.extend(table);
                out.extend(values);
            }
            Case::Merge { table, values } => {
                put_words(out, &[WORD_MERGE, table.len() as u32, values.len() as u32]);
                out.extend(table);
                out.extend(values);
            }
        }
    }
}

fn put_words(out: &mut Vec<u8>, words: &[u32]) {
    out.extend(words.iter().flat_map(|word| word.to_le_bytes()));
}

pub fn hex(bytes: &[u8]) -> String {
    bytes.iter().map(|byte| format!("{byte:02x}")).collect()
}

fn hex_or_dash(bytes: &[u8]) -> String {
    match bytes {
        [] => "-".to_string(),
        _ => hex(bytes),
    }
}

fn refused(refusal: Refusal) -> String {
    format!("refused {} {}", refusal.number, refusal.place)
}

/// A row without its fill, `p` for the zero row of a predicate. No code of a
/// type is 0, so the fill starts at the first zero.
pub fn row_text(row: &[u8]) -> String {
    let end = row.iter().position(|&byte| byte == 0);
    match end.unwrap_or(row.len()) {
        0 => "p".to_string(),
        end => hex(&row[..end]),
    }
}

pub fn check_answer(table: &[u8], sheet: usize) -> String {
    let mut sheet = vec![0; sheet];
    match check(table, &mut sheet) {
        Err(refusal) => refused(refusal),
        Ok(()) => sheet
            .chunks_exact(ROW_BYTES)
            .fold("accepted".to_string(), |line, row| {
                line + " " + &row_text(row)
            }),
    }
}

pub fn evaluate_answer(table: &[u8], values: &[u8], budget: u32) -> String {
    let evaluation = evaluate(table, values, budget);
    match evaluation.outcome {
        Outcome::Truth(truth) => format!("{truth} {}", evaluation.steps),
        Outcome::Refused(refusal) => format!("{} {}", refused(refusal), evaluation.steps),
    }
}

fn merge_answer(merge: &Merge) -> String {
    match merge {
        Merge::Merged { comparisons, cells } => format!("merged {comparisons} {}", hex(cells)),
        Merge::Heavy { .. } => "heavy".to_string(),
        Merge::Unfit => "unfit".to_string(),
        Merge::Refused(refusal) => refused(*refusal),
    }
}

/// Why a batch stops before its end.
#[derive(Clone, Copy, PartialEq, Eq, Debug)]
enum Stop {
    Cut,
    Long,
    Unknown,
}

/// The output text for a batch.
pub fn answers(batch: &[u8]) -> String {
    let mut out = String::new();
    let mut rest = batch;
    while !rest.is_empty() {
        match take_case(&mut rest) {
            Ok(case) => out += &(case.answer() + "\n"),
            Err(stop) => {
                out += match stop {
                    Stop::Cut => "cut\n",
                    Stop::Long => "long\n",
                    Stop::Unknown => "unknown\n",
                };
                break;
            }
        }
    }
    out
}

/// Takes all words of the case first, then tests the lengths, then takes the
/// bytes.
fn take_case(rest: &mut &[u8]) -> Result<Case, Stop> {
    match take_word(rest)? {
        WORD_CHECK => {
            let (length, sheet) = (take_word(rest)?, take_word(rest)?);
            if length > MAX_TABLE || sheet > MAX_SHEET {
                return Err(Stop::Long);
            }
            let table = take_bytes(rest, length)?;
            Ok(Case::Check { table, sheet })
        }
        WORD_EVALUATE => {
            let (t, v, budget) = (take_word(rest)?, take_word(rest)?, take_word(rest)?);
            if t > MAX_TABLE || v > MAX_VALUES {
                return Err(Stop::Long);
            }
            let table = take_bytes(rest, t)?;
            let values = take_bytes(rest, v)?;
            Ok(Case::Evaluate {
                table,
                values,
                budget,
            })
        }
        WORD_MERGE => {
            let (t, v) = (take_word(rest)?, take_word(rest)?);
            if t > MAX_TABLE || v > MAX_VALUES {
                return Err(Stop::Long);
            }
            let table = take_bytes(rest, t)?;
            let values = take_bytes(rest, v)?;
            Ok(Case::Merge { table, values })
        }
        _ => Err(Stop::Unknown),
    }
}

fn take_word(rest: &mut &[u8]) -> Result<u32, Stop> {
    let bytes = take_bytes(rest, 4)?;
    Ok(u32::from_le_bytes([bytes[0], bytes[1], bytes[2], bytes[3]]))
}

fn take_bytes(rest: &mut &[u8], count: u32) -> Result<Vec<u8>, Stop> {
    let count = count as usize;
    if rest.len() < count {
        return Err(Stop::Cut);
    }
    let (front, behind) = rest.split_at(count);
    *rest = behind;
    Ok(front.to_vec())
}

/// The bytes of a batch and its expected output.
pub fn make(cases: &[Case]) -> (Vec<u8>, String) {
    let mut bytes = Vec::new();
    let mut text = String::new();
    for case in cases {
        case.write(&mut bytes);
        text += &(case.answer() + "\n");
    }
    (bytes, text)
}
