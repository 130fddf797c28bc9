//! The commands of the binary.

use reference::{cases, examples};
use std::io::Write;
use std::process::{Command, Output, Stdio};

fn run(arguments: &[&str], input: &[u8]) -> Output {
    let mut child = Command::new(env!("CARGO_BIN_EXE_reference"))
        .args(arguments)
        .stdin(Stdio::piped())
        .stdout(Stdio::piped())
        .stderr(Stdio::piped())
        .spawn()
        .expect("the binary starts");
    let mut pipe = child.stdin.take().expect("there is a pipe");
    // A command that refuses its arguments reads nothing.
    let _ = pipe.write_all(input);
    drop(pipe);
    child.wait_with_output().expect("the binary ends")
}

#[test]
fn bad_arguments_end_with_status_2() {
    let bad: [&[&str]; 11] = [
        &[],
        &["other"],
        &["cases"],
        &["cases", "--seed", "1"],
        &["cases", "--seed", "x", "--count", "1"],
        &["cases", "--seed", "1", "--count"],
        &["stats", "--seed", "1", "--count", "1", "--class", "none"],
        &["batch", "--seed", "1", "--count", "1", "--stdin", "a"],
        &["cases", "--seed", "1", "--count", "1", "--merges", "x"],
        &["listings", "--seed", "1", "--count", "1", "--merges", "1"],
        &["answers", "more"],
    ];
    for arguments in bad {
        let output = run(arguments, &[]);
        assert_eq!(output.status.code(), Some(2), "{arguments:?}");
        assert!(output.stdout.is_empty());
        assert!(output.stderr.starts_with(b"reference: "));
    }
}

#[test]
fn the_listing_of_p1() {
    let table = examples::all()[0].draft.bytes();
    let output = run(&["listing"], &table);
    assert!(output.status.success());
    let expected = "i 0 10\nn 0 10\nn 1 0310\nn 2 p\naccepted\n";
    assert_eq!(String::from_utf8_lossy(&output.stdout), expected);
}

/// The two files that `batch` writes.
fn written(seed: &str, count: &str, merges: &str) -> (Vec<u8>, Vec<u8>) {
    let name = format!("reference-batch-{}-{seed}", std::process::id());
    let folder = std::env::temp_dir().join(name);
    std::fs::create_dir_all(&folder).expect("a folder for the files");
    let (stdin, stdout) = (folder.join("in"), folder.join("out"));
    let names = [stdin.to_string_lossy(), stdout.to_string_lossy()];
    let mut arguments = vec!["batch", "--seed", seed, "--count", count];
    arguments.extend(["--merges", merges]);
    arguments.extend(["--stdin", &names[0], "--stdout", &names[1]]);
    assert!(run(&arguments, &[]).status.success());
    let batch = std::fs::read(&stdin).expect("the batch is there");
    let expected = std::fs::read(&stdout).expect("its output is there");
    std::fs::remove_dir_all(&folder).expect("the folder is removed");
    (batch, expected)
}

#[test]
fn a_written_batch_is_answered_alike() {
    let (batch, expected) = written("9", "300", "50");
    assert_eq!(run(&["answers"], &batch).stdout, expected);
    let text = String::from_utf8_lossy(&expected);
    let fixed = 40 + cases::all().len() + cases::merges().len();
    assert_eq!(text.lines().count(), fixed + 300 + 50);
    assert!(text.starts_with("accepted 10 10 0310 p\ntrue 3\nrefused 12 0\n"));
}

/// The batch of the program `answers`; the README says how it is made again.
#[test]
fn the_stored_batch_is_of_this_reference() {
    let stored = |name| std::fs::read(format!("../crates/answers/{name}")).expect("it is stored");
    let (batch, expected) = written("107", "2970", "300");
    assert!(batch == stored("stdin"), "stdin differs");
    assert!(expected == stored("stdout"), "stdout differs");
}

#[test]
fn cases_have_the_stated_form() {
    let count = ["--count", "90", "--merges", "30", "--small"];
    let output = run(&[&["cases", "--seed", "3"], &count[..]].concat(), &[]);
    let text = String::from_utf8_lossy(&output.stdout);
    assert_eq!(text.lines().count(), 120);
    for (number, line) in text.lines().enumerate() {
        let words: Vec<&str> = line.split(' ').collect();
        assert_eq!(words[0] == "merge", number >= 90);
        let (answer, known): (&str, &[&str]) = match words[0] {
            "read" => (words[2], &["readable", "refused"]),
            "check" => (words[3], &["accepted", "refused"]),
            "merge" => (words[3], &["merged", "heavy", "unfit", "refused"]),
            _ => (words[4], &["true", "false", "refused"]),
        };
        assert!(known.contains(&answer), "{line}");
    }
}

#[test]
fn listings_have_tables_of_all_sizes() {
    let output = run(&["listings", "--seed", "2", "--count", "15"], &[]);
    let text = String::from_utf8_lossy(&output.stdout);
    let parts: Vec<&str> = text.split("table ").skip(1).collect();
    assert_eq!(parts.len(), 15);
    for (i, part) in parts.iter().enumerate() {
        let (_, listing) = part
            .split_once('\n')
            .expect("a listing stands below its table");
        if i % 2 == 0 {
            assert!(listing.ends_with("accepted\n"), "{part}");
            let nodes = listing
                .lines()
                .filter(|line| line.starts_with("n "))
                .count();
            assert_eq!(nodes, i * 512 / 14);
        } else {
            assert!(listing.ends_with("accepted\n") || listing.starts_with("refused "));
        }
    }
}
