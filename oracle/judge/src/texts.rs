//! Byte strings at the edges of RFC 3629's forms, and what the two checks of a text say of them: `std::str::from_utf8`
//! on reading, and the scope's count of bytes on writing.

use crate::hex;
use crate::resilient::counted;

/// 1 where RFC 3629 takes the bytes, and 2 more where the check on writing does.
pub fn answers(text: &[u8]) -> u64 {
    u64::from(std::str::from_utf8(text).is_ok()) + 2 * u64::from(counted(text))
}

/// The strings of one byte and then of two, in order, as 257 lines of 256 answers, lowest bits first.
pub fn short() -> Vec<String> {
    let first = std::iter::once(vec![]).chain((0..=255).map(|b| vec![b]));
    first
        .map(|first| {
            let word = |from: u8| {
                (0..32).fold(0, |word, j| {
                    word | answers(&[first.as_slice(), &[from + j]].concat()) << (2 * j)
                })
            };
            let words = (0..=255).step_by(32).map(|from| format!("{:016x}", word(from)));
            words.collect::<Vec<_>>().join(" ")
        })
        .collect()
}

fn answered(text: &[u8]) -> String {
    format!("{} {}", hex::of_bytes(text), answers(text))
}

/// The edges of RFC 3629's forms.
const EDGES: [&[u8]; 35] = [
    b"\x00",
    b"\x7f",
    b"\x80",
    b"\xbf",
    b"\xc0\x80",
    b"\xc1\xbf",
    b"\xc2\x7f",
    b"\xc2\x80",
    b"\xdf\xbf",
    b"\xdf\xc0",
    b"\xe0\x80\x80",
    b"\xe0\x9f\xbf",
    b"\xe0\xa0\x80",
    b"\xe1\x80\x80",
    b"\xec\xbf\xbf",
    b"\xed\x80\x80",
    b"\xed\x9f\xbf",
    b"\xed\xa0\x80",
    b"\xed\xbf\xbf",
    b"\xee\x80\x80",
    b"\xef\xbf\xbf",
    b"\xf0\x80\x80\x80",
    b"\xf0\x8f\xbf\xbf",
    b"\xf0\x90\x80\x80",
    b"\xf1\x80\x80\x80",
    b"\xf3\xbf\xbf\xbf",
    b"\xf4\x80\x80\x80",
    b"\xf4\x8f\xbf\xbf",
    b"\xf4\x90\x80\x80",
    b"\xf5\x80\x80\x80",
    b"\xf7\xbf\xbf\xbf",
    b"\xf8\x88\x80\x80\x80",
    b"\xfc\x84\x80\x80\x80\x80",
    b"\xfe",
    b"\xff",
];

/// Each edge and what is left of it when it is cut short, bare, before ASCII, after it and between it.
pub fn edges() -> Vec<String> {
    let mut lines = vec![answered(b"")];
    for edge in EDGES {
        for length in 1..=edge.len() {
            for (before, after) in [("", ""), ("a", ""), ("", "z"), ("a", "z")] {
                let text = [before.as_bytes(), &edge[..length], after.as_bytes()].concat();
                lines.push(answered(&text));
            }
        }
    }
    lines
}

/// The bytes next to an edge, at the first place, at the second and at the later ones.
const FIRST: [u8; 20] = [
    0x7f, 0x80, 0xbf, 0xc0, 0xc1, 0xc2, 0xdf, 0xe0, 0xe1, 0xec, 0xed, 0xee, 0xef, 0xf0, 0xf1, 0xf3,
    0xf4, 0xf5, 0xf7, 0xf8,
];
const SECOND: [u8; 8] = [0x7f, 0x80, 0x8f, 0x90, 0x9f, 0xa0, 0xbf, 0xc0];
const LATER: [u8; 4] = [0x7f, 0x80, 0xbf, 0xc0];

/// All strings of three and four such bytes.
pub fn neighbours() -> Vec<String> {
    let mut lines = vec![];
    for a in FIRST {
        for b in SECOND {
            for c in LATER {
                lines.push(answered(&[a, b, c]));
                lines.extend(LATER.map(|d| answered(&[a, b, c, d])));
            }
        }
    }
    lines
}
