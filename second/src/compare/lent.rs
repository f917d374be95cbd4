//! Buffers to lend: each stands between two margins, and buffer and margins
//! hold a pattern, so that a byte changed anywhere is seen afterwards.

use crate::model::layout::FileNumber;

const MARGIN: usize = 64;

#[derive(Clone, Debug, PartialEq)]
pub struct Lent<T> {
    whole: Vec<T>,
    room: usize,
}

/// A pattern that depends on the place and on a salt: a stray write that
/// happens to agree with the pattern in one case differs in the next. All its
/// bytes do, so that a write of some bytes of a number is seen as well.
fn pattern(place: usize, salt: u64) -> u64 {
    let mixed = (place as u64 + 1).wrapping_mul(0x9E37_79B9_7F4A_7C15) ^ salt;
    mixed.wrapping_mul(0xD6E8_FEB8_6659_FD93).rotate_right(24)
}

impl Lent<u8> {
    pub fn bytes(room: usize, salt: u64) -> Lent<u8> {
        let whole = (0..room + 2 * MARGIN)
            .map(|i| pattern(i, salt) as u8)
            .collect();
        Lent { whole, room }
    }
    pub fn holding_bytes(content: &[u8], salt: u64) -> Lent<u8> {
        let mut lent = Lent::bytes(content.len(), salt);
        lent.lend().copy_from_slice(content);
        lent
    }
}

impl Lent<FileNumber> {
    pub fn numbers(room: usize, salt: u64) -> Lent<FileNumber> {
        let whole = (0..room + 2 * MARGIN)
            .map(|i| pattern(i, salt) as FileNumber)
            .collect();
        Lent { whole, room }
    }
    pub fn holding_numbers(content: &[FileNumber], salt: u64) -> Lent<FileNumber> {
        let mut lent = Lent::numbers(content.len(), salt);
        lent.lend().copy_from_slice(content);
        lent
    }
}

impl<T: Copy + PartialEq + std::fmt::Debug> Lent<T> {
    pub fn room(&self) -> usize {
        self.room
    }

    pub fn lend(&mut self) -> &mut [T] {
        &mut self.whole[MARGIN..MARGIN + self.room]
    }

    pub fn content(&self) -> &[T] {
        &self.whole[MARGIN..MARGIN + self.room]
    }

    /// For the library. The pointer is good for the margins too.
    pub fn pointer(&mut self) -> *mut T {
        self.whole[MARGIN..].as_mut_ptr()
    }

    /// The first place where two buffers differ, counted from the lent part's
    /// start (negative: in the margin before it), with both contents there.
    pub fn first_difference(&self, other: &Lent<T>) -> String {
        for i in 0..self.whole.len() {
            if self.whole[i] != other.whole[i] {
                let place = i as i64 - MARGIN as i64;
                let both = (self.whole[i], other.whole[i]);
                return format!("place {} of {}: {:?}", place, self.room, both);
            }
        }
        "none".to_string()
    }
}
