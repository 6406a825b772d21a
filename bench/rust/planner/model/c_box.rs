//! The events of the C-Box as document 004, section 2.3, prints them: each page's code and its list of unit masks, with `x`
//! for a bit that may be either. The printed row 00000000, under which nothing is counted, is left out.

/// A page's code, and its list of masks where it prints one.
type Page = (u8, Option<&'static [&'static str]>);

const DIRECTIONS: Option<&[&str]> = Some(&["000000x1", "0000001x", "00000011"]);
const SINKS: Option<&[&str]> = Some(&["00000001", "00000010", "00000100"]);
const RINGS: Option<&[&str]> = Some(&[
    "00000001", "00000010", "00000011", "00000100", "00001000", "00001100", "00010000", "00100000", "00110000", "01000000",
    "01111111",
]);
const STARVED: Option<&[&str]> = Some(&[
    "00000001", "00000010", "00000011", "00000100", "00000111", "00001000", "00010000", "00011000", "00100000", "01000000",
    "01100000", "10000000",
]);
const BYPASSES: Option<&[&str]> =
    Some(&["00000001", "00000010", "00000100", "00001000", "00010000", "00100000", "01000000", "10000000"]);
const MISSES: Option<&[&str]> = Some(&["00000xx1", "00000x1x", "000001xx", "00000111"]);
const FILLS: Option<&[&str]> = Some(&["0000xxx1", "0000xx1x", "0000x1xx", "00001xxx", "00001111"]);
const VICTIMS: Option<&[&str]> = Some(&["000xxxx1", "000xxx1x", "000xx1xx", "000x1xxx", "0001xxxx"]);
const HITS: Option<&[&str]> = Some(&[
    "xxxxxxx1", "xxxxxx1x", "xxxxx1xx", "xxxx1xxx", "xxx1xxxx", "xx1xxxxx", "x1xxxxxx", "1xxxxxxx", "xxx1xxx1", "xx1xxx1x",
    "x1xxx1xx", "1xxx1xxx", "11111111",
]);
/// The page says that the mask selects a path, but its list is lost.
const LOST: Option<&[&str]> = Some(&[]);

/// In the order of the pages.
const PAGES: [Page; 30] = [
    (0x0A, RINGS),      // ARB_LOSSES
    (0x09, RINGS),      // ARB_WINS
    (0x02, DIRECTIONS), // BOUNCES_C2P_AK
    (0x03, DIRECTIONS), // BOUNCES_C2P_BL
    (0x04, None),       // BOUNCES_C2P_IV
    (0x01, DIRECTIONS), // BOUNCES_P2C_AD
    (0x0C, BYPASSES),   // EGRESS_BYPASS_WINS
    (0x0E, LOST),       // INGRESS_BYPASS_WINS_AD
    (0x14, MISSES),     // LLC_MISSES
    (0x16, FILLS),      // LLC_S_FILLS
    (0x17, VICTIMS),    // LLC_VICTIMS
    (0x1A, None),       // OCCUPANCY_IPQ
    (0x18, None),       // OCCUPANCY_IRQ
    (0x1E, None),       // OCCUPANCY_MAF
    (0x22, None),       // OCCUPANCY_RSPF
    (0x20, None),       // OCCUPANCY_RWRF
    (0x1C, None),       // OCCUPANCY_VIQ
    (0x06, SINKS),      // SINKS_C2P
    (0x05, SINKS),      // SINKS_P2C
    (0x07, SINKS),      // SINKS_S2C
    (0x08, None),       // SINKS_S2P_BL
    (0x28, HITS),       // SNP_HITS
    (0x27, DIRECTIONS), // SNPS, whose two bits are the kinds of snoops
    (0x0B, STARVED),    // STARVED_EGRESS
    (0x1B, None),       // TRANS_IPQ
    (0x19, None),       // TRANS_IRQ
    (0x1F, None),       // TRANS_MAF
    (0x23, None),       // TRANS_RSPF
    (0x21, None),       // TRANS_RWRF
    (0x1D, None),       // TRANS_VIQ
];

/// Whether a mask agrees with a printed pattern.
fn agrees(pattern: &str, mask: u8) -> bool {
    let bits = format!("{mask:08b}");
    pattern.chars().zip(bits.chars()).all(|(printed, bit)| printed == 'x' || printed == bit)
}

/// Order 3: where masks are listed, 0 is refused with 9 and others with 10; elsewhere mask 0 alone is accepted.
pub fn event_refusal(code: u8, mask: u8) -> Option<u64> {
    let Some((_, list)) = PAGES.iter().find(|page| page.0 == code) else { return Some(8) };
    let accepted = match list {
        None => mask == 0,
        Some(patterns) => patterns.iter().any(|pattern| agrees(pattern, mask)),
    };
    match (accepted, mask) {
        (true, _) => None,
        (false, 0) => Some(9),
        (false, _) => Some(10),
    }
}
