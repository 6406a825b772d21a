//! Prints the stored output of the program crate `name_runs`, from the model: `name_runs FOLDER`, which holds its lists and
//! transcripts. What the house's list names of each device's events, what names find in two lists, and the answers of
//! transcripts with lists.

#[path = "line_program/answer.rs"]
mod answer;
#[path = "line_program/call.rs"]
mod call;
mod expected;
mod grammar;
mod names;
mod planner;

use expected::expected;
use names::model::{rows_of, Row};
use names::Texts;
use planner::devices::{Device, DEVICES};
use planner::model::refusal_of;
use planner::requests::Request;
use std::io::Write;

/// Two lists with one name in both.
const SITE: &str = "BOTH\tG\t3C\t00\nSITE\tG\tC0\t00\n";
const HOUSE: &str = "BOTH\tG\tC4\t00\nHOUSE\tG\tC5\t00\n";
/// What is looked up in them.
const NAMES: [&str; 5] = ["BOTH", "SITE", "HOUSE", "HOUS", ""];
/// And asked for by name.
const LINES: &str = "open\tG\t15\t0\t0\t-\nnamed\t1\tBOTH\t15\nnamed\t2\tHOUSE\t15\nturn\n";
/// The transcripts, each with its site's list and its house's.
const TRANSCRIPTS: [[&str; 3]; 7] = [
    ["technician.txt", "technician.site", "house.txt"],
    ["g.txt", "no_site.txt", "house.txt"],
    ["s.txt", "no_site.txt", "house.txt"],
    ["c.txt", "no_site.txt", "house.txt"],
    ["b.txt", "no_site.txt", "house.txt"],
    ["names.txt", "names.site", "names.house"],
    ["damaged.txt", "damaged.site", "damaged.house"],
];

/// Whether the event is accepted on counter 0.
fn is_accepted(device: &Device, code: u8, mask: u8) -> bool {
    refusal_of(device, Request::Event { code, mask, allowed: 1 }).is_none()
}

/// The rows of a device, and what they name of its events.
fn print_coverage(device: &Device, rows: &[Row]) {
    let own: Vec<usize> = (0..rows.len()).filter(|at| rows[*at].1.letter == device.letter).collect();
    let refused = own.iter().filter(|at| !is_accepted(device, rows[**at].1.code, rows[**at].1.mask)).count();
    let again = own.iter().filter(|at| rows[..**at].iter().any(|above| above.0 == rows[**at].0)).count();
    let named = |code, mask| own.iter().any(|at| (rows[*at].1.code, rows[*at].1.mask) == (code, mask));
    let masks = |code| (0..=255).filter(move |mask| is_accepted(device, code, *mask));
    let codes: Vec<u8> = (0..=255).filter(|code| masks(*code).next().is_some()).collect();
    let unnamed = codes.iter().filter(|code| !masks(**code).any(|mask| named(**code, mask))).count();
    let pairs: Vec<(u8, u8)> = codes.iter().flat_map(|code| masks(*code).map(|mask| (*code, mask))).collect();
    let named_pairs = pairs.iter().filter(|(code, mask)| named(*code, *mask)).count();
    print!("{} rows {} refused {refused} again {again}", device.letter as char, own.len());
    println!(" codes {} unnamed {unnamed} pairs {} named {named_pairs}", codes.len(), pairs.len());
}

/// The row that a name finds, as it stands in its list; nothing where there is none, or where a list is ill-formed.
fn row_text<'a>(texts: &'a Texts, name: &str) -> &'a str {
    let text = |list: &'a [u8]| std::str::from_utf8(list).expect("letters");
    if rows_of(&texts.site).is_none() || rows_of(&texts.house).is_none() {
        return "";
    }
    let mut rows = text(&texts.site).lines().chain(text(&texts.house).lines());
    rows.find(|row| row.split('\t').next() == Some(name)).unwrap_or("")
}

fn print_answers(transcript: &[u8], texts: &Texts) {
    let expected = expected(transcript, texts, |_, _, _| {});
    std::io::stdout().write_all(&expected.bytes).expect("standard output");
}

fn print_look_ups(site: &str, house: &str) {
    let texts = Texts { site: site.into(), house: house.into() };
    NAMES.iter().for_each(|name| println!("{name}: {}", row_text(&texts, name)));
    print_answers(LINES.as_bytes(), &texts);
}

fn main() {
    let folder = std::env::args().nth(1).expect("a folder");
    let read = |name: &str| std::fs::read(format!("{folder}/{name}")).expect("a file of the folder");
    let house = read("house.txt");
    let rows = rows_of(&house);
    println!("{}", if rows.is_some() { "formed" } else { "ill-formed" });
    DEVICES.iter().for_each(|device| print_coverage(device, rows.as_deref().unwrap_or(&[])));
    print_look_ups(SITE, HOUSE);
    print_look_ups(HOUSE, SITE);
    print_look_ups(SITE, HOUSE.trim_end());
    for [transcript, site, house] in TRANSCRIPTS {
        print_answers(&read(transcript), &Texts { site: read(site), house: read(house) });
    }
}
