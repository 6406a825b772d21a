//! A transcript through a pipe in random small pieces. After a piece that completes a line, its answer is waited for
//! before the next piece is sent: a program that holds an answer back while it waits for more input is found out.

use crate::numbers::Numbers;
use std::io::{Read, Write};
use std::process::{ChildStdout, Command, Stdio};
use std::sync::mpsc::{channel, Receiver};
use std::thread;
use std::time::Duration;

/// An answer that takes longer is held back.
const PATIENCE: Duration = Duration::from_secs(20);
/// Time for a program to take a piece that completes no line.
const PAUSE: Duration = Duration::from_micros(100);

/// What comes out of the program, handed over as it comes.
fn collect(mut stdout: ChildStdout) -> Receiver<Vec<u8>> {
    let (sender, receiver) = channel();
    thread::spawn(move || {
        let mut block = [0; 4096];
        while let Ok(count @ 1..) = stdout.read(&mut block) {
            if sender.send(block[..count].to_vec()).is_err() {
                break;
            }
        }
    });
    receiver
}

/// What the program with these arguments writes; `after` says how much of it is due after each newline sent.
pub fn output_of(program: &str, words: &[&str], transcript: &[u8], after: &[usize], numbers: &mut Numbers) -> Vec<u8> {
    let mut child = Command::new(program);
    let mut child = child.args(words).stdin(Stdio::piped()).stdout(Stdio::piped()).spawn().expect("a program");
    let mut stdin = child.stdin.take().expect("a pipe");
    let answers = collect(child.stdout.take().expect("a pipe"));
    let longest = numbers.pick(&[1, 7, 40, 300]);
    let (mut rest, mut newlines, mut output) = (transcript, 0, Vec::new());
    while !rest.is_empty() {
        let (piece, later) = rest.split_at((1 + numbers.below(longest) as usize).min(rest.len()));
        rest = later;
        stdin.write_all(piece).expect("a program that reads to the end");
        let completed = piece.iter().filter(|&&byte| byte == b'\n').count();
        newlines += completed;
        if completed == 0 && numbers.chance(20) {
            thread::sleep(PAUSE);
        }
        while newlines > 0 && output.len() < after[newlines - 1] {
            match answers.recv_timeout(PATIENCE) {
                Ok(bytes) => output.extend_from_slice(&bytes),
                Err(_) => return output,
            }
        }
    }
    drop(stdin);
    output.extend(answers.iter().flatten());
    assert!(child.wait().expect("a program").success(), "{program} did not end well");
    output
}
