//! Texts that are made with their faults on purpose: what each must answer is
//! known before it is read, and by neither program.

use super::random::Random;
use super::random_cases::good_text_of;

/// A refusal of the bytes, 13 or 9, and its place; of a text without a fault
/// both are 0.
pub type Fault = (u32, usize);

/// One way to make a text of some length.
pub struct Make {
    pub name: &'static str,
    /// Shorter texts have no room for the fault.
    pub least_length: usize,
    /// Puts the fault into a text without one, and says which it is.
    pub spoil: fn(&mut Random, &mut [u8]) -> Fault,
}

const fn make(
    name: &'static str,
    least_length: usize,
    spoil: fn(&mut Random, &mut [u8]) -> Fault,
) -> Make {
    Make {
        name,
        least_length,
        spoil,
    }
}

#[rustfmt::skip] // one way, one line
pub const MAKES: &[Make] = &[
    make("no fault", 0, |_, _| (0, 0)),
    make("a strange byte", 1, a_strange_byte),
    make("several strange bytes", 2, several_strange_bytes),
    make("a strange byte first", 1, a_strange_byte_first),
    make("a strange byte last", 1, a_strange_byte_last),
    make("a sign twice, side by side", 2, side_by_side),
    make("a sign twice, zeros between", 3, zeros_between),
    make("a sign twice, first", 2, twice_first),
    make("a sign twice, last", 2, twice_last),
    make("several signs twice", 3, several_twice),
    make("a strange byte before a sign twice", 3, strange_before),
    make("a strange byte amid a sign twice", 3, strange_amid),
    make("a strange byte after a sign twice", 3, strange_after),
];

/// A text of this way and length.
pub fn text_of(random: &mut Random, way: &Make, length: usize) -> (Vec<u8>, Fault) {
    let mut text = good_text_of(random, length);
    let fault = (way.spoil)(random, &mut text);
    (text, fault)
}

/// Neighbours of the three, bytes that are typed or sent in their stead, and the
/// three with their top bit set.
pub const STRANGE: &[u8] = b" ?x1Oo_*,./=~\t\n\r\0\x1B\x7F\x80\x96\xE2\xFF\xAB\xB0\xAD";

/// Any byte outside the three.
fn strange(random: &mut Random) -> u8 {
    if random.once_in(2) {
        return random.one_of(STRANGE);
    }
    loop {
        let byte = random.next() as u8;
        if !b"+0-".contains(&byte) {
            return byte;
        }
    }
}

/// Any of the three: signs repeat as they will.
fn any_digit(random: &mut Random) -> u8 {
    random.one_of(b"+0-")
}

/// So many unlike places, from left to right.
fn places<const N: usize>(random: &mut Random, length: usize) -> [usize; N] {
    let mut places = [0; N];
    let mut least = 0;
    for index in 0..N {
        // Those after it need a place as well.
        let room = length - least - (N - 1 - index);
        places[index] = least + random.below(room as u64) as usize;
        least = places[index] + 1;
    }
    places
}

/// Puts one sign into two places, with only zeros between. Nothing before them
/// repeats, so the second is the leftmost that does, whatever follows it.
pub fn twice(random: &mut Random, text: &mut [u8], first: usize, second: usize) {
    let before = text[..first].iter().rev().find(|byte| **byte != b'0');
    let sign = match before {
        Some(b'+') => b'-',
        Some(_) => b'+',
        None => random.one_of(b"+-"),
    };
    text[first..second].fill(b'0');
    text[first] = sign;
    text[second] = sign;
}

fn a_strange_byte(random: &mut Random, text: &mut [u8]) -> Fault {
    let [place] = places(random, text.len());
    text[place] = strange(random);
    (13, place)
}

fn several_strange_bytes(random: &mut Random, text: &mut [u8]) -> Fault {
    let [place, next] = places(random, text.len());
    text[place] = strange(random);
    text[next] = strange(random);
    for byte in &mut text[next..] {
        if random.once_in(4) {
            *byte = strange(random);
        }
    }
    (13, place)
}

/// Anything may follow it.
fn a_strange_byte_first(random: &mut Random, text: &mut [u8]) -> Fault {
    for byte in text.iter_mut() {
        *byte = match random.once_in(8) {
            true => strange(random),
            false => any_digit(random),
        };
    }
    text[0] = strange(random);
    (13, 0)
}

/// Any of the three may stand before it.
fn a_strange_byte_last(random: &mut Random, text: &mut [u8]) -> Fault {
    if random.once_in(2) {
        text.fill_with(|| any_digit(random));
    }
    let last = text.len() - 1;
    text[last] = strange(random);
    (13, last)
}

fn side_by_side(random: &mut Random, text: &mut [u8]) -> Fault {
    let [first] = places(random, text.len() - 1);
    twice(random, text, first, first + 1);
    (9, first + 1)
}

fn zeros_between(random: &mut Random, text: &mut [u8]) -> Fault {
    let [first, _, second] = places(random, text.len());
    twice(random, text, first, second);
    (9, second)
}

/// No sign stands before the first byte, so the second is the first that can
/// repeat one.
fn twice_first(random: &mut Random, text: &mut [u8]) -> Fault {
    twice(random, text, 0, 1);
    for byte in &mut text[2..] {
        *byte = any_digit(random);
    }
    (9, 1)
}

fn twice_last(random: &mut Random, text: &mut [u8]) -> Fault {
    let last = text.len() - 1;
    let [first] = places(random, last);
    twice(random, text, first, last);
    (9, last)
}

fn several_twice(random: &mut Random, text: &mut [u8]) -> Fault {
    let [first, second, third] = places(random, text.len());
    twice(random, text, first, second);
    for byte in &mut text[second + 1..] {
        *byte = any_digit(random);
    }
    text[second + 1..third].fill(b'0');
    text[third] = text[second];
    (9, second)
}

fn strange_before(random: &mut Random, text: &mut [u8]) -> Fault {
    let [place, first, second] = places(random, text.len());
    twice(random, text, first, second);
    text[place] = strange(random);
    (13, place)
}

fn strange_amid(random: &mut Random, text: &mut [u8]) -> Fault {
    let [first, place, second] = places(random, text.len());
    twice(random, text, first, second);
    text[place] = strange(random);
    (13, place)
}

fn strange_after(random: &mut Random, text: &mut [u8]) -> Fault {
    let [first, second, place] = places(random, text.len());
    twice(random, text, first, second);
    text[place] = strange(random);
    (13, place)
}
