//! Prints the stored output of the program crate `listings`, from the model: how the events of every code and mask are
//! answered on each device, counted, and all of the answers in one sum.

mod planner;

use planner::devices::{Device, DEVICES};
use planner::model::refusal_of;
use planner::requests::Request;

/// The sum is a number below this prime; each answer moves those before it by a factor.
const PRIME: u64 = 65521;
const FACTOR: u64 = 31;

/// The number that refuses each event on counter 0, 0 where it is accepted: code by code, and of each code mask by mask.
fn answers(device: &Device) -> Vec<u64> {
    let events = (0..=255).flat_map(|code| (0..=255).map(move |mask| Request::Event { code, mask, allowed: 1 }));
    events.map(|event| refusal_of(device, event).map_or(0, |refusal| refusal.number as u64)).collect()
}

fn print_listing(device: &Device) {
    let answers = answers(device);
    let count = |number| answers.iter().filter(|&&answer| answer == number).count();
    let sum = answers.iter().fold(0, |sum, answer| (sum * FACTOR + answer) % PRIME);
    print!("{} accepted {} unlisted {}", device.letter as char, count(0), count(8));
    println!(" incomplete {} range {} sum {sum}", count(9), count(10));
}

fn main() {
    DEVICES.iter().for_each(print_listing);
}
