//! The words of the feed: `piece LENGTH TEXT` and `end LENGTH`, with an output of LENGTH bytes. After a call the line `output`
//! has the whole output. In a text a tab stands as `\t` and a newline as `\n`.

use super::texts;
use super::words::{decimal, LONGEST_SLICE};
use crate::feed::Feed;
use crate::planner::refusal::Refusal;

/// What a lent output holds at every place before a call.
const KEPT: u8 = b'#';

/// An output of so many bytes, as it is before a call.
fn output(length: &str) -> Option<Vec<u8>> {
    let length = decimal(length).filter(|length| *length <= LONGEST_SLICE)?;
    Some(vec![KEPT; length as usize])
}

/// The bytes of a text; none where a `\` stands before anything but `t` and `n`.
pub fn bytes_of(text: &str) -> Option<Vec<u8>> {
    let mut letters = text.chars();
    let mut bytes = Vec::new();
    while let Some(letter) = letters.next() {
        bytes.push(match letter {
            '\\' => match letters.next()? {
                't' => b'\t',
                'n' => b'\n',
                _ => return None,
            },
            _ => letter as u8,
        });
    }
    Some(bytes)
}

/// Bytes as a text.
pub fn text_of(bytes: &[u8]) -> String {
    bytes.iter().map(|&byte| byte as char).collect::<String>().replace('\t', "\\t").replace('\n', "\\n")
}

fn told(result: Result<usize, Refusal>, output: &[u8]) -> String {
    let answer = match result {
        Ok(count) => format!("ok {count}"),
        Err(_) => texts::answer(&result),
    };
    format!("{answer}\noutput {}", text_of(output))
}

fn piece(feed: &mut impl Feed, length: &str, text: &str) -> Option<String> {
    let (mut output, bytes) = (output(length)?, bytes_of(text)?);
    let result = feed.piece(&bytes, &mut output);
    Some(told(result, &output))
}

fn end(feed: &mut impl Feed, length: &str) -> Option<String> {
    let mut output = output(length)?;
    let result = feed.end(&mut output);
    Some(told(result, &output))
}

/// What is printed for a call; none where the words are not in the notation.
pub fn answer(feed: &mut impl Feed, words: &[&str]) -> Option<String> {
    match words {
        ["piece", length] => piece(feed, length, ""),
        ["piece", length, text] => piece(feed, length, text),
        ["end", length] => end(feed, length),
        _ => None,
    }
}
