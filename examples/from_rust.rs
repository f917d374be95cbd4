#[repr(C)]
#[derive(Clone, Copy)]
struct RoundBit {
    number: i64,
    width: u32,
    unit: i32,
    round: u8,
}

#[repr(C)]
struct RoundBitAnswer {
    word: RoundBit,
    refusal: u32,
}

extern "C" {
    fn frost_round_bit_cut(word: RoundBit, depth: u64) -> RoundBitAnswer;
}

fn main() {
    let word = RoundBit { number: -718, width: 11, unit: 0, round: 0 };
    for depth in [2, 10] {
        // It takes every word and depth; `unsafe` is for the declarations above, which no proof covers.
        let RoundBitAnswer { word: cut, refusal } = unsafe { frost_round_bit_cut(word, depth) };
        print!("cut by {depth}: ({},{}), ", cut.number, cut.round);
        println!("width {}, unit {}, refusal {refusal}", cut.width, cut.unit);
    }
}
