//! Prints the stored output of the program crate `by_hand`, from the model.

mod planner;

use planner::devices::{Device, Opening, Setup};
use planner::model::Session;
use planner::refusal::Refusal;
use planner::requests::{Entry, Place, Request};
use planner::{Calls, Turn, LIMIT, LIST};

fn event(code: u8, mask: u8, allowed: u64) -> Request {
    Request::Event { code, mask, allowed }
}

fn print_request(request: Request) {
    match request {
        Request::Event { code, mask, allowed } => print!("event {code:02x} {mask:02x} {allowed}"),
        Request::Packet { match_word, mask_word, allowed } => print!("packet {match_word:016x} {mask_word:016x} {allowed}"),
        Request::Offcore { word, allowed } => print!("offcore {word:016x} {allowed}"),
        Request::Latency { types, first, second } => print!("latency {types:04x} {first} {second}"),
    }
}

fn print_session(s: &Session) {
    print_session_of(s, s.queue.len());
}

/// A session whose length says more than it has room for has as many requests as there is room for.
fn print_session_of(s: &Session, length: usize) {
    match s.setup {
        None => println!("session not open"),
        Some(setup) => println!("session {} {} len {length}", setup.device.letter as char, setup.usable),
    }
    for entry in &s.queue {
        print!("  {} ", entry.id);
        print_request(entry.request);
        println!();
    }
}

fn print_answer(answer: Result<(), Refusal>) {
    match answer {
        Ok(()) => println!("ok"),
        Err(Refusal { number, field }) => println!("no {number} {field}"),
    }
}

fn print_turn(turn: &Turn, out: &[u64]) {
    for (&Entry { id, .. }, place) in turn.taken.iter().zip(turn.places).take(turn.count) {
        match place {
            Place::Counter(k) => println!("take {id} {k} -"),
            Place::WithRsp(k, i) => println!("take {id} {k} {i}"),
            Place::Pair(j, k) => {
                println!("take {id} {j} 0");
                println!("take {id} {k} 1");
            }
        }
    }
    for write in out.chunks(2).take(turn.writes) {
        println!("set {:04x} {:016x}", write[0], write[1]);
    }
}

fn turn_and_print(s: &mut Session, out: &mut [u64]) {
    match s.turn(out) {
        Ok(turn) => {
            print_turn(&turn, out);
            println!("ok");
        }
        Err(Refusal { number, field }) => println!("no {number} {field}"),
    }
}

fn by_hand() {
    let mut queue = vec![Entry { id: 7, request: Request::Offcore { word: u64::MAX, allowed: u64::MAX } }; LIMIT];
    queue[1] = Entry { id: 7, request: Request::Latency { types: 0xFFFF, first: 4, second: u64::MAX } };
    queue[2] = Entry { id: 0, request: event(0xFF, 0xFF, 8) };
    let device = Device::named(83).unwrap();
    let setup = Setup { device, usable: u64::MAX, fixed: 0, box_number: 0, freeze: 0, core: None };
    let mut s = Session { setup: Some(setup), queue, limit: LIMIT };
    print_session_of(&s, 1000);
    print_answer(s.open(Opening::plain(71, 15, 0, 0)));
    print_answer(s.add(8, event(0x52, 0, 1)));
    turn_and_print(&mut s, &mut [0; LIST]);
    print_session(&s);
    print_answer(s.drop(7));
    print_session(&s);
    turn_and_print(&mut s, &mut [0; LIST]);
}

fn main() {
    by_hand();
}
