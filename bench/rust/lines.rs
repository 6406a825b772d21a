//! Three line programs on long mixed transcripts: the same output, their times, and their instructions.
//! `lines TUNER SAME_ROAD FASTEST LINES FOLDER`

#[path = "line_program/answer.rs"]
mod answer;
#[path = "line_program/call.rs"]
mod call;
mod instructions;
mod names;
mod numbers;
mod planner;
mod processor;
mod transcript;

use planner::devices::DEVICES;
use processor::seconds_of_children;
use std::fs::{self, File};
use std::process::{exit, Command, Stdio};
use std::time::Instant;

const SEED: u64 = 1;
const RUNS: usize = 15;
/// Instructions are counted on fewer lines: under valgrind a program takes some fifty times as long.
const COUNTED_LINES: usize = 20_000;

/// The proved program, the Rust one on its road and the fastest, and where their inputs and outputs lie.
struct Bench<'a> {
    programs: [&'a str; 3],
    folder: &'a str,
}

/// Runs a program on a transcript, from its start to its end.
fn run(program: &str, input: &str, output: Stdio) {
    let input = File::open(input).expect("the transcript");
    let status = Command::new(program).stdin(input).stdout(output).status();
    let status = status.unwrap_or_else(|error| panic!("{program}: {error}"));
    assert!(status.success(), "{program}: {status}");
}

fn output_of(program: &str, input: &str, output: &str) -> Vec<u8> {
    run(program, input, File::create(output).expect("a place for the output").into());
    fs::read(output).expect("the output")
}

/// The seconds of runs of one program: by the clock, and of the processor.
#[derive(Default)]
struct Times {
    clock: Vec<f64>,
    processor: Vec<f64>,
}

impl Times {
    fn run(&mut self, program: &str, input: &str) {
        let (start, before) = (Instant::now(), seconds_of_children());
        run(program, input, Stdio::null());
        self.clock.push(start.elapsed().as_secs_f64());
        self.processor.push(seconds_of_children() - before);
    }
}

/// The best and the median of some runs.
fn best_and_median(mut runs: Vec<f64>) -> (f64, f64) {
    runs.sort_by(f64::total_cmp);
    (runs[0], runs[runs.len() / 2])
}

fn print_row(device: char, what: &str, [ours, road, fastest]: [f64; 3], digits: usize) {
    let (to_road, to_fastest) = (ours / road, ours / fastest);
    println!("{device}, {what:32}{ours:10.digits$}{road:10.digits$}{to_road:7.2}{fastest:10.digits$}{to_fastest:7.2}");
}

fn print_rows(device: char, what: &str, runs: [Vec<f64>; 3]) {
    let rows = runs.map(best_and_median);
    print_row(device, &format!("{what}, best of {RUNS}"), rows.map(|row| row.0), 3);
    print_row(device, &format!("{what}, median"), rows.map(|row| row.1), 3);
}

impl Bench<'_> {
    fn write_transcript(&self, device: char, lines: usize) -> String {
        let input = format!("{}/lines.{device}.txt", self.folder);
        fs::write(&input, transcript::long::transcript(device, lines, SEED)).expect("a place for the transcript");
        input
    }

    fn compare(&self, device: char, input: &str) {
        let files = [".tuner", ".same-road", ".fastest"].map(|end| format!("{input}{end}"));
        let outputs: Vec<_> = self.programs.iter().zip(&files).map(|(program, file)| output_of(program, input, file)).collect();
        if outputs.iter().any(|output| *output != outputs[0]) {
            println!("DIFFERENT: {input} gives {}", files.join(", "));
            exit(1);
        }
        println!("device {device}: the same output, byte for byte");
        for file in files {
            fs::remove_file(file).expect("a file of ours");
        }
    }

    fn print_times(&self, device: char, input: &str) {
        let mut times: [Times; 3] = Default::default();
        for _ in 0..RUNS {
            for (program, times) in self.programs.iter().zip(&mut times) {
                times.run(program, input);
            }
        }
        print_rows(device, "seconds", times.each_ref().map(|times| times.clock.clone()));
        print_rows(device, "processor seconds", times.map(|times| times.processor));
    }

    fn print_instructions(&self, device: char) {
        let input = self.write_transcript(device, COUNTED_LINES);
        let a_line = |program| {
            let transcript = File::open(&input).expect("the transcript");
            let counts = instructions::counts(program, &[], transcript.into(), self.folder);
            counts.iter().sum::<u64>() as f64 / COUNTED_LINES as f64
        };
        print_row(device, "instructions a line", self.programs.map(a_line), 1);
        fs::remove_file(input).expect("a file of ours");
    }
}

fn main() {
    let words: Vec<String> = std::env::args().skip(1).collect();
    let [tuner, road, fastest, lines, folder] = &words[..] else { panic!("lines TUNER SAME_ROAD FASTEST LINES FOLDER") };
    let lines = lines.parse().expect("a number of lines");
    let bench = Bench { programs: [tuner, road, fastest], folder };
    let devices = DEVICES.each_ref().map(|device| device.letter as char);
    let inputs = devices.map(|device| (device, bench.write_transcript(device, lines)));
    inputs.iter().for_each(|(device, input)| bench.compare(*device, input));
    println!("{:35}{:>10}{:>10}{:>7}{:>10}{:>7}", format!("{lines} lines"), "ours", "same road", "ratio", "fastest", "ratio");
    for (device, input) in inputs {
        bench.print_times(device, &input);
        fs::remove_file(input).expect("a file of ours");
    }
    match instructions::countable() {
        true => devices.iter().for_each(|device| bench.print_instructions(*device)),
        false => println!("valgrind is not there: times alone"),
    }
}
