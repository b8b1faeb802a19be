//! Spoiled scripts: a share of the random scripts, in which bytes or lines are cut, inserted, replaced or doubled.

use std::ops::Range;

use crate::generate;
use crate::random::Random;
use crate::script::LONGEST_LINE;

/// Bytes that a script may not have, or not there.
const ODD: [&[u8]; 22] = [
    b"\r",
    b"\r\r",
    b"\r\n",
    b"\n",
    b"\t",
    b"\0",
    b" ",
    b"#",
    b"\xff",
    b"\xc3",
    b"\xc3\xa4",
    b"\xc2\xa0",
    b"\x0b",
    b"+1",
    b"-1",
    b"1",
    b" 0",
    b"65536",
    b"000000000000000000000000",
    b"99999999999999999999999999",
    b"show",
    b"call 0\n",
];

/// The random script of a seed, spoiled in one of four cases; and whether it is.
pub fn script(seed: u64, steps: usize) -> (Vec<u8>, bool) {
    let mut text = generate::script(seed, steps).into_bytes();
    let mut random = Random::new(!seed);
    let spoiled = random.chance(250);
    if spoiled {
        // A mistake at the front hides all that come later, so it is made in some scripts only.
        let front = random.chance(300);
        for _ in 0..random.from_to(1, 4) {
            spoil(&mut random, &mut text, front);
        }
    }
    (text, spoiled)
}

fn spoil(random: &mut Random, text: &mut Vec<u8>, front: bool) {
    let place = random.below(if front { text.len().min(90) } else { text.len() } + 1);
    let line = line_at(text, place);
    let some = place..(place + random.below(6)).min(text.len());
    let odd = random.one_of(&ODD);
    match random.below(10) {
        0 => drop(text.drain(some)),
        1 | 2 => drop(text.splice(place..place, odd.iter().copied())),
        3 | 4 => drop(text.splice(some, odd.iter().copied())),
        5 => double(text, some),
        6 => drop(text.drain(line)),
        7 => double(text, line),
        8 => drop(text.splice(line, [odd, b"\n"].concat())),
        _ => lengthen(random, text, place),
    }
}

/// The line of a place, with its line feed.
fn line_at(text: &[u8], place: usize) -> Range<usize> {
    let begin = text[..place].iter().rposition(|byte| *byte == b'\n').map_or(0, |feed| feed + 1);
    let end = text[place..].iter().position(|byte| *byte == b'\n').map_or(text.len(), |feed| place + feed + 1);
    begin..end
}

fn double(text: &mut Vec<u8>, part: Range<usize>) {
    let again = text[part.clone()].to_vec();
    text.splice(part.start..part.start, again);
}

/// Fills a line up at a place, until it has about as many bytes as a line may have.
fn lengthen(random: &mut Random, text: &mut Vec<u8>, place: usize) {
    let filling = random.one_of(b"   \t##0\r\xff");
    let line = &text[line_at(text, place)];
    let length = line.strip_suffix(b"\n").unwrap_or(line).len();
    let missing = (LONGEST_LINE + random.below(5) - 2).saturating_sub(length);
    text.splice(place..place, std::iter::repeat_n(filling, missing));
}
