//! Compares the proved planner with the fast Rust one and with the model: the same answers; and the time and the
//! instructions of the proved one beside the fast one. `compare FOLDER`, where the folder is for what is counted.

mod cases;
mod instructions;
mod numbers;
mod planner;
mod rows;
mod searches;
mod turns;

use cases::Case;
use numbers::Numbers;

fn main() {
    let words: Vec<String> = std::env::args().skip(1).collect();
    let words: Vec<&str> = words.iter().map(String::as_str).collect();
    let measured = || -> Vec<Case> { searches::cases().into_iter().chain(turns::cases()).collect() };
    match words[..] {
        [cases::COUNT] => cases::run_once(&measured()),
        [folder] => {
            let mut numbers = Numbers(0x9E37_79B9_7F4A_7C15);
            searches::compare_answers(&mut numbers);
            turns::compare_answers(&mut numbers);
            cases::print(&measured(), folder);
        }
        _ => panic!("compare FOLDER"),
    }
}
