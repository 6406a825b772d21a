//! Three line programs on `named` lines beside lists of several lengths: the same output, and the instructions of a line.
//! `named_lines TUNER SAME_ROAD FASTEST FOLDER`

mod instructions;

use std::fs::{self, File};
use std::process::{Command, Stdio};

/// The rows of each of the two lists.
const ROWS: [usize; 2] = [10, 1000];
/// The lines of the shorter run; a run of twice as many is set against it, so that start and end do not count.
const LINES: usize = 50;

/// Lines that are repeated, as they stand in the table.
struct Repeated {
    what: &'static str,
    lines: &'static str,
}

/// An add is followed by its drop, so that the next one is accepted too; the first is what names are set against.
const TYPED: Repeated = Repeated { what: "event, drop", lines: "event\t1\tC0\t00\t15\ndrop\t1\n" };
const NAMED: [Repeated; 4] = [
    Repeated { what: "named, drop: the site's first row", lines: "named\t1\tSITE_EVENT_1\t15\ndrop\t1\n" },
    Repeated { what: "named, drop: the house's last row", lines: "named\t1\tLAST_EVENT\t15\ndrop\t1\n" },
    Repeated { what: "named: in neither list", lines: "named\t1\tNO_SUCH_EVENT\t15\n" },
    Repeated { what: "named: the id is 0", lines: "named\t0\tLAST_EVENT\t15\n" },
];

/// The proved program, the Rust one on its road and the fastest, and where their inputs lie.
struct Bench<'a> {
    programs: [&'a str; 3],
    folder: &'a str,
}

/// A list of so many rows.
fn list(begin: &str, rows: usize, last: &str) -> String {
    let others: String = (1..rows).map(|n| format!("{begin}_EVENT_{n}\tG\tC0\t00\n")).collect();
    format!("{others}{last}\tG\tC0\t00\n")
}

impl Bench<'_> {
    fn file(&self, name: &str) -> String {
        format!("{}/{name}", self.folder)
    }

    fn write(&self, name: &str, text: &str) {
        fs::write(self.file(name), text).expect("a place for a file");
    }

    fn open(&self, name: &str) -> File {
        File::open(self.file(name)).expect("a file of ours")
    }

    fn output_of(&self, program: &str) -> Vec<u8> {
        let files = [self.file("site"), self.file("house")];
        let done = Command::new(program).args(files).stdin(self.open("text")).stderr(Stdio::inherit()).output();
        let done = done.unwrap_or_else(|error| panic!("{program}: {error}"));
        assert!(done.status.success(), "{program}: {}", done.status);
        done.stdout
    }

    fn write_text(&self, repeated: &Repeated, times: usize) {
        self.write("text", &format!("open\tG\t15\t0\t0\t-\n{}", repeated.lines.repeat(times)));
    }

    fn compare(&self, repeated: &Repeated) {
        self.write_text(repeated, LINES);
        let outputs = self.programs.map(|program| self.output_of(program));
        assert!(outputs.iter().all(|output| *output == outputs[0]), "DIFFERENT: {}", repeated.what);
    }

    /// The instructions of a whole run.
    fn total(&self, program: &str) -> u64 {
        let (site, house) = (self.file("site"), self.file("house"));
        instructions::counts(program, &[&site, &house], self.open("text").into(), self.folder).iter().sum()
    }

    fn totals(&self, repeated: &Repeated, times: usize) -> [f64; 3] {
        self.write_text(repeated, times);
        self.programs.map(|program| self.total(program) as f64)
    }

    fn print_instructions(&self, rows: usize, repeated: &Repeated) {
        let (once, twice) = (self.totals(repeated, LINES), self.totals(repeated, 2 * LINES));
        let [ours, road, fastest] = [0, 1, 2].map(|program| (twice[program] - once[program]) / LINES as f64);
        let what = format!("{rows:4} rows, {}", repeated.what);
        println!("{what:46}{ours:10.0}{road:10.0}{:7.2}{fastest:10.0}{:10.2}", ours / road, ours / fastest);
    }

    /// All lines beside two lists of so many rows.
    fn run(&self, rows: usize, countable: bool) {
        self.write("site", &list("SITE", rows, "SITE_EVENT"));
        self.write("house", &list("HOUSE", rows, "LAST_EVENT"));
        for repeated in [&TYPED].into_iter().chain(&NAMED) {
            self.compare(repeated);
            if countable {
                self.print_instructions(rows, repeated);
            }
        }
    }
}

fn main() {
    let words: Vec<String> = std::env::args().skip(1).collect();
    let [tuner, road, fastest, folder] = &words[..] else { panic!("named_lines TUNER SAME_ROAD FASTEST FOLDER") };
    let bench = Bench { programs: [tuner, road, fastest], folder };
    let countable = instructions::countable();
    println!("{:46}{:>10}{:>10}{:>7}{:>10}{:>10}", "instructions", "ours", "same road", "ratio", "fastest", "ratio");
    ROWS.iter().for_each(|rows| bench.run(*rows, countable));
    for name in ["site", "house", "text"] {
        fs::remove_file(bench.file(name)).expect("a file of ours");
    }
    println!("the same output, byte for byte");
    if !countable {
        println!("valgrind is not there: nothing is counted");
    }
}
