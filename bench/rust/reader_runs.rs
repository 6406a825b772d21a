//! Prints the stored output of the program crate `reader_runs`, from the model. For each plan: what the reader tells of
//! the registers that its writes leave, and how many of the values with one bit changed it accepts.

mod planner;

use planner::devices::{Filters, Opening, Setup};
use planner::model::applied::{applied, register};
use planner::model::plan::first_plan;
use planner::model::reader::{read, Registers, State};
use planner::model::writes::list_of;
use planner::requests::Request;
use planner::{pebs, u_box};

fn print_state(k: usize, state: State) {
    match state {
        State::NotOurs => println!("{k} not ours"),
        State::Off => println!("{k} off"),
        State::Counts { code, mask, register, words } => {
            print!("{k} counts {code:02x} {mask:02x}");
            if let Some(i) = register {
                print!(" rsp {i}");
            }
            for word in words.iter().flatten() {
                print!(" {word:016x}");
            }
            println!();
        }
    }
}

/// The addresses whose values are looked at, and those whose values are not.
fn looked_at(setup: Setup, r: &Registers) -> (Vec<u64>, Vec<u64>) {
    let at = setup.addresses();
    let has_rsp = setup.device.filters == Filters::OffcoreResponse;
    let has_match = setup.device.filters == Filters::PacketMatch;
    let control = (0..setup.device.counters).map(|k| (at.control + at.step * k, setup.usable >> k & 1 == 1));
    let filters = [
        (at.global, true),
        (0x1A6, has_rsp),
        (0x1A7, has_rsp),
        (0xE48, has_match),
        (0xE49, has_match && r.mm_cfg != 0),
        (0xE4A, has_match && r.mm_cfg != 0),
        (u_box::ADDRESS, setup.asks()),
        (pebs::ADDRESS, setup.device.has_precise()),
    ];
    let (yes, no): (Vec<_>, Vec<_>) = control.chain(filters).partition(|(_, looked)| *looked);
    let addresses = |rows: Vec<(u64, bool)>| rows.into_iter().map(|row| row.0).collect();
    (addresses(yes), addresses(no))
}

fn flipped(setup: Setup, r: &Registers, address: u64, bit: u64) -> Registers {
    let mut changed = *r;
    *register(setup, &mut changed, address).unwrap() ^= 1 << bit;
    changed
}

/// What the plan was opened with; fixed counters are told where they are on, the box where the device has several, and what an
/// overflow does where something is asked.
fn print_opening(setup: Setup, writes: usize) {
    print!("{} {}", setup.device.letter as char, setup.usable);
    if setup.fixed != 0 {
        print!(" fixed {}", setup.fixed);
    }
    if setup.device.has_boxes() {
        print!(" box {}", setup.box_number);
    }
    if setup.freeze != 0 {
        print!(" freeze {}", setup.freeze);
    }
    if let Some(core) = setup.core {
        print!(" core {core}");
    }
    println!(" writes {writes}");
}

fn run(opening: Opening, requests: &[Request]) {
    let setup = Setup::of(opening).unwrap();
    let plan = first_plan(setup, requests).unwrap();
    let writes = list_of(setup, requests, &plan);
    let r = applied(setup, &writes);
    print_opening(setup, writes.len());
    let told = read(opening, &r).unwrap();
    for (k, state) in told.iter().enumerate() {
        print_state(k, *state);
    }
    let (yes, no) = looked_at(setup, &r);
    let answer = |address, bit| read(opening, &flipped(setup, &r, address, bit));
    let (mut accepted, mut refused, mut same) = (0, 0, 0);
    for bit in 0..64 {
        for &address in &yes {
            match answer(address, bit) {
                Ok(_) => accepted += 1,
                Err(number) => {
                    assert_eq!(number, 15);
                    refused += 1;
                }
            }
        }
        same += no.iter().filter(|&&address| answer(address, bit).as_ref() == Ok(&told)).count();
    }
    println!("one bit changed: accepted {accepted}, refused {refused}; where not looked at: the same {same} of {}", 64 * no.len());
}

fn event(code: u8, mask: u8) -> Request {
    Request::Event { code, mask, allowed: 15 }
}

fn on_g() {
    let g = |usable, fixed| Opening::plain(71, usable, fixed, 0);
    let offcore = |word| Request::Offcore { word, allowed: 15 };
    let latency = |types| Request::Latency { types, first: 15, second: 15 };
    let events = [event(0xC0, 0), event(0x3C, 1), event(0x2E, 0x41), event(0xC5, 0)];
    let words = [offcore(0x1200000002), offcore(0x10002), event(0x3C, 0)];
    let hits = [offcore(0x40001), offcore(0x200040001), event(0x3C, 0)];
    run(g(15, 0), &[]);
    run(g(15, 0), &events);
    run(g(15, 0), &[offcore(0x10001), latency(1)]);
    run(g(15, 0), &[latency(0x8001), latency(0x8001)]);
    run(g(14, 0), &words);
    run(g(15, 0), &hits);
    run(g(15, 5), &[]);
    run(g(15, 5), &events);
    run(g(14, 7), &words);
}

fn on_s() {
    let s = |usable| Opening::plain(83, usable, 0, 0);
    let asks = |usable, freeze, core| Opening { freeze, core, ..s(usable) };
    let packet = Request::Packet { match_word: 0x0123456789ABCDEF, mask_word: 0x00000000FFFFFFFF, allowed: 15 };
    run(s(9), &[]);
    run(s(15), &[event(0x51, 1), event(0x31, 2), event(0x52, 0), event(0x2F, 0)]);
    run(s(15), &[packet, packet, event(0x51, 3)]);
    run(s(14), &[packet, event(0x51, 3)]);
    run(asks(9, 1, None), &[]);
    run(asks(15, 0, Some(0)), &[event(0x51, 1), event(0x31, 2), event(0x52, 0), event(0x2F, 0)]);
    run(asks(14, 1, Some(7)), &[packet, event(0x51, 3)]);
}

fn on_c() {
    let c = |usable, box_number| Opening::plain(67, usable, 0, box_number);
    let asks = |usable, box_number, freeze, core| Opening { freeze, core, ..c(usable, box_number) };
    let event = |code, mask| Request::Event { code, mask, allowed: 63 };
    let six = [event(0x19, 0), event(0x1B, 0), event(0x1F, 0), event(0x23, 0), event(0x0B, 0x07), event(0x28, 0xA5)];
    run(c(63, 0), &[]);
    run(c(63, 0), &six);
    run(c(48, 1), &[event(0x1F, 0)]);
    run(c(62, 7), &[event(0x0B, 0x18), event(0x14, 0x05), event(0x09, 0x7F)]);
    run(asks(63, 0, 1, Some(2)), &six);
    run(asks(48, 1, 0, Some(5)), &[event(0x1F, 0)]);
    run(asks(62, 7, 1, None), &[]);
}

fn on_b() {
    let b = |usable, fixed| Opening::plain(66, usable, fixed, 0);
    let (pdir, store) = (event(0xC0, 1), event(0xCD, 2));
    let events = [event(0xC0, 0), event(0x3C, 1), event(0x2E, 0x41), event(0xC5, 0)];
    run(b(15, 0), &[]);
    run(b(15, 0), &events);
    run(b(15, 0), &[pdir]);
    run(b(15, 5), &[pdir]);
    run(b(15, 0), &[event(0xC0, 0), store]);
    run(b(14, 7), &[store, event(0x3C, 0), event(0x2E, 0x4F)]);
    run(b(8, 0), &[store]);
    run(b(7, 1), &[event(0xC4, 0)]);
}

fn main() {
    on_g();
    on_s();
    on_c();
    on_b();
}
