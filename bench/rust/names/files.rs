//! The lists that the program's arguments name.

use super::Texts;
use std::process::exit;

fn read(file: &str) -> Vec<u8> {
    std::fs::read(file).unwrap_or_else(|error| {
        eprintln!("{file}: {error}");
        exit(1)
    })
}

/// Two files, the site's list and the house's, each read whole; without arguments both are empty. Otherwise the program ends.
pub fn given(program: &str) -> Texts {
    let files: Vec<String> = std::env::args().skip(1).collect();
    match &files[..] {
        [] => Texts::default(),
        [site, house] => Texts { site: read(site), house: read(house) },
        _ => {
            eprintln!("usage: {program} [SITE HOUSE]");
            exit(1)
        }
    }
}
