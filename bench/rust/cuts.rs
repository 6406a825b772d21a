//! Prints a script that feeds the text on standard input in pieces of so many bytes, and declares its end: `cuts SIZE`. Where a
//! call answers something, it is first made with an output that is one byte too short, and then with one that just fits.

#[path = "line_program/answer.rs"]
mod answer;
#[path = "line_program/call.rs"]
mod call;
mod expected;
mod feed;
mod grammar;
mod names;
mod planner;
mod script;

use feed::{Fed, Feed};
use planner::fast::session::Session;
use script::feed::text_of;
use std::io::{stdin, Read};

type OwnFeed = <Session as Fed>::Feed;

/// More than the answers of any piece have here.
const ROOM: usize = 1 << 20;

/// Makes a call of the feed, and prints it as often as it is to be made.
fn put(feed: &mut OwnFeed, verb: &str, text: &str, call: impl Fn(&mut OwnFeed, &mut [u8]) -> usize) {
    let needed = call(feed, &mut vec![0; ROOM]);
    if needed > 0 {
        println!("{verb} {}{text}", needed - 1);
    }
    println!("{verb} {needed}{text}");
}

fn main() {
    let size = std::env::args().nth(1).and_then(|word| word.parse().ok()).expect("cuts SIZE");
    let (mut text, mut feed) = (Vec::new(), OwnFeed::new());
    stdin().read_to_end(&mut text).expect("standard input");
    println!("new");
    for piece in text.chunks(size) {
        put(&mut feed, "piece", &format!(" {}", text_of(piece)), |feed, output| feed.piece(piece, output).expect("a piece"));
    }
    put(&mut feed, "end", "", |feed, output| feed.end(output).expect("an end"));
}
