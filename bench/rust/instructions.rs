//! Instructions counted by valgrind's callgrind, which do not swing with the machine's load as times do.
#![allow(dead_code)]

use std::fs;
use std::hint::black_box;
use std::path::Path;
use std::process::{Command, Stdio};

/// Whether valgrind is there.
pub fn countable() -> bool {
    let version = Command::new("valgrind").arg("--version").stdout(Stdio::null()).stderr(Stdio::null()).status();
    version.is_ok_and(|status| status.success())
}

/// Parts one count from the next.
#[no_mangle]
#[inline(never)]
pub extern "C" fn instruction_mark() {
    black_box(());
}

/// The total of one file that callgrind wrote; the file is removed.
fn total_in(file: &Path) -> Option<u64> {
    let text = fs::read_to_string(file).ok()?;
    let total = text.lines().find_map(|line| line.strip_prefix("totals: ")).expect("a total");
    fs::remove_file(file).expect("a file of ours");
    Some(total.parse().expect("a number"))
}

/// The number by which a file of callgrind knows the program itself.
fn number_of<'a>(text: &'a str, program: &str) -> &'a str {
    let named = text.lines().filter_map(|line| line.strip_prefix("ob=").or(line.strip_prefix("cob=")));
    named.filter_map(|name| name.split_once(' ')).find(|(_, path)| path.ends_with(program)).expect("the program").0
}

/// The instructions of the program's own code in the text of such a file. The line behind one of calls has the callee's.
fn own_in(text: &str, program: &str) -> u64 {
    let number = number_of(text, program);
    let (mut own, mut called, mut sum) = (false, false, 0);
    for line in text.lines() {
        if let Some(name) = line.strip_prefix("ob=") {
            own = name.split(' ').next() == Some(number);
        } else if line.starts_with("calls=") {
            called = true;
        } else if line.starts_with(|first: char| first.is_ascii_digit() || "+-*".contains(first)) {
            if own && !called {
                sum += line.split(' ').nth(1).expect("a count").parse::<u64>().expect("a number");
            }
            called = false;
        }
    }
    sum
}

/// The instructions of a program's own code, without those of the libraries that it finds when it runs.
pub fn own_count(program: &str, input: Stdio, folder: &str) -> u64 {
    let file = format!("{folder}/callgrind.out.{}", std::process::id());
    let mut command = Command::new("valgrind");
    command.args(["--tool=callgrind", &format!("--callgrind-out-file={file}"), program]);
    let status = command.stdin(input).stdout(Stdio::null()).stderr(Stdio::null()).status().expect("valgrind");
    assert!(status.success(), "{program} under valgrind: {status}");
    let text = fs::read_to_string(&file).expect("a file of ours");
    fs::remove_file(&file).expect("a file of ours");
    own_in(&text, program.trim_start_matches("./"))
}

/// The instructions of a program between its marks: before the first, between the first and the second, and so on, and last
/// those after the last mark.
pub fn counts(program: &str, words: &[&str], input: Stdio, folder: &str) -> Vec<u64> {
    let file = format!("{folder}/callgrind.out.{}", std::process::id());
    let status = Command::new("valgrind")
        .args(["--tool=callgrind", "--dump-before=instruction_mark", &format!("--callgrind-out-file={file}"), program])
        .args(words)
        .stdin(input)
        .stdout(Stdio::null())
        .stderr(Stdio::null())
        .status()
        .expect("valgrind");
    assert!(status.success(), "{program} under valgrind: {status}");
    let parts = (1..).map_while(|part| total_in(Path::new(&format!("{file}.{part}"))));
    parts.chain(total_in(Path::new(&file))).collect()
}
