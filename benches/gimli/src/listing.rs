//! Listings: a line for each section, with its name, its length and its bytes in hex.

use crate::Written;
use gimli::SectionId;
use std::collections::HashMap;

fn digit(digit: u8) -> u8 {
    (digit as char).to_digit(16).expect("a digit") as u8
}

/// The bytes that digits spell, two of them each.
pub fn bytes_of(digits: &str) -> Vec<u8> {
    digits.as_bytes().chunks_exact(2).map(|pair| digit(pair[0]) << 4 | digit(pair[1])).collect()
}

/// The bytes of each section that isn't empty.
pub fn read(text: &str) -> HashMap<&str, Vec<u8>> {
    let mut sections = HashMap::new();
    for line in text.lines() {
        if let [name, _, digits] = line.split(' ').collect::<Vec<_>>()[..] {
            sections.insert(name, bytes_of(digits));
        }
    }
    sections
}

/// The sections of a listing, in its order.
fn slices(sections: &Written) -> [(SectionId, &[u8]); 11] {
    [
        (SectionId::DebugAbbrev, sections.debug_abbrev.slice()),
        (SectionId::DebugStr, sections.debug_str.slice()),
        (SectionId::DebugLineStr, sections.debug_line_str.slice()),
        (SectionId::DebugLine, sections.debug_line.slice()),
        (SectionId::DebugRanges, sections.debug_ranges.slice()),
        (SectionId::DebugRngLists, sections.debug_rnglists.slice()),
        (SectionId::DebugLoc, sections.debug_loc.slice()),
        (SectionId::DebugLocLists, sections.debug_loclists.slice()),
        (SectionId::DebugInfo, sections.debug_info.slice()),
        (SectionId::DebugFrame, sections.debug_frame.slice()),
        (SectionId::EhFrame, sections.eh_frame.slice()),
    ]
}

/// The listing of what was written.
pub fn text(sections: &Written) -> Vec<u8> {
    let slices = slices(sections);
    let mut text = b"order little\n".to_vec();
    text.reserve(slices.iter().map(|(_, bytes)| 2 * bytes.len() + 64).sum());
    for (id, bytes) in slices {
        text.extend(format!("{} {}", id.name(), bytes.len()).bytes());
        if !bytes.is_empty() {
            text.push(b' ');
        }
        for byte in bytes {
            let digits = b"0123456789abcdef";
            text.push(digits[usize::from(byte >> 4)]);
            text.push(digits[usize::from(byte & 15)]);
        }
        text.push(b'\n');
    }
    text
}
