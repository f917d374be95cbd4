//! Block files worked by hand from document 02, Ask 7. Here both programs are held
//! against these answers, not only against each other; so the numbers stand here
//! as they stand there, and not under the model's names.

use super::file_laws::{block_of, same};
use super::file_read_case::expect_read;
use super::file_write_case::{expect_write, ToWrite};
use super::random::Random;
use super::tally::Record;

/// Kind, width and unit, and the records.
type Held = (u32, u32, i32, &'static [(i64, u8)]);

/// A file, and the block that it holds.
#[rustfmt::skip] // head, then a record in a line
const GOOD: &[(&[u8], Held)] = &[
    // Both ends of width 33, then the first numbers that 32 digits have no room for.
    (&[0x52, 0x4E, 0x42, 0x02, 0x00, 0x00, 0x21, 0x00, 0x04, 0x00, 0x00, 0x00,
       0x00, 0x00, 0x00, 0x00, 0xFF, 0xFF, 0x00,
       0xFF, 0xFF, 0xFF, 0xFF, 0x00, 0x00, 0x00,
       0x00, 0x00, 0x00, 0x80, 0x00, 0x00, 0x00,
       0xFF, 0xFF, 0xFF, 0x7F, 0xFF, 0xFF, 0x00],
     (0, 33, 0, &[(-4_294_967_296, 0), (4_294_967_295, 0), (2_147_483_648, 0), (-2_147_483_649, 0)])),
    // Both ends of width 48 with both round bits.
    (&[0x52, 0x4E, 0x42, 0x02, 0x00, 0x01, 0x30, 0x81, 0x04, 0x00, 0x00, 0x00,
       0x00, 0x00, 0x00, 0x00, 0x00, 0x80, 0x00,
       0x00, 0x00, 0x00, 0x00, 0x00, 0x80, 0x01,
       0xFF, 0xFF, 0xFF, 0xFF, 0xFF, 0x7F, 0x00,
       0xFF, 0xFF, 0xFF, 0xFF, 0xFF, 0x7F, 0x01],
     (1, 48, -127, &[(-140_737_488_355_328, 0), (-140_737_488_355_328, 1),
                     (140_737_488_355_327, 0), (140_737_488_355_327, 1)])),
    // Both ends of width 40, then 0 and -1.
    (&[0x52, 0x4E, 0x42, 0x02, 0x00, 0x02, 0x28, 0x7F, 0x04, 0x00, 0x00, 0x00,
       0x00, 0x00, 0x00, 0x00, 0x80, 0xFF, 0x00,
       0xFF, 0xFF, 0xFF, 0xFF, 0x7F, 0x00, 0x00,
       0x00, 0x00, 0x00, 0x00, 0x00, 0x00, 0x00,
       0xFF, 0xFF, 0xFF, 0xFF, 0xFF, 0xFF, 0x00],
     (2, 40, 127, &[(-549_755_813_888, 0), (549_755_813_887, 0), (0, 0), (-1, 0)])),
    // Six unlike bytes: 010203040506 hex and its opposite, in the least width.
    (&[0x52, 0x4E, 0x42, 0x02, 0x00, 0x01, 0x2A, 0x40, 0x02, 0x00, 0x00, 0x00,
       0x06, 0x05, 0x04, 0x03, 0x02, 0x01, 0x00,
       0xFA, 0xFA, 0xFB, 0xFC, 0xFD, 0xFE, 0x01],
     (1, 42, 64, &[(1_108_152_157_446, 0), (-1_108_152_157_446, 1)])),
    // No records, in each version.
    (&[0x52, 0x4E, 0x42, 0x02, 0x00, 0x00, 0x30, 0xFF, 0x00, 0x00, 0x00, 0x00],
     (0, 48, -1, &[])),
    (&[0x52, 0x4E, 0x42, 0x01, 0x00, 0x02, 0x20, 0x01, 0x00, 0x00, 0x00, 0x00],
     (2, 32, 1, &[])),
    // Both ends of width 32, in version 1 as before.
    (&[0x52, 0x4E, 0x42, 0x01, 0x00, 0x00, 0x20, 0x00, 0x02, 0x00, 0x00, 0x00,
       0x00, 0x00, 0x00, 0x80, 0x00,
       0xFF, 0xFF, 0xFF, 0x7F, 0x00],
     (0, 32, 0, &[(-2_147_483_648, 0), (2_147_483_647, 0)])),
];

/// Read, and written as the same bytes.
pub fn good(_: &mut Random, record: &mut Record) {
    for &(file, held) in GOOD {
        let block = block(held);
        let read = expect_read("a file worked by hand", file, 0, record);
        record.check(same(&block_of(&read), &block), || {
            let read = block_of(&read).text();
            format!(
                "a file worked by hand\n  library: {}\n  by hand: {}",
                read,
                block.text()
            )
        });
        let written = expect_write("a block worked by hand", &block, 0, record);
        record.check(written.file() == file, || {
            let (case, written) = (block.text(), written.file());
            format!(
                "a block worked by hand\n  case:    {}\n  library: {:02X?}\n  by hand: {:02X?}",
                case, written, file
            )
        });
    }
}

fn block((kind, width, unit, records): Held) -> ToWrite {
    ToWrite {
        kind,
        width,
        unit,
        numbers: records.iter().map(|record| record.0).collect(),
        rounds: records.iter().map(|record| record.1).collect(),
    }
}

/// A refusal, and what stands between the mark and the records; then the records.
#[rustfmt::skip] // one line by hand, one line here
const REFUSED: &[(u32, [u8; 9], &[u8])] = &[
    // Version 2 of a smaller width and of 49, and version 1 of a larger one.
    (1, [2, 0, 0, 32, 0, 1, 0, 0, 0], &[5, 0, 0, 0, 0, 0, 0]),
    (1, [2, 0, 1, 2, 0, 0, 0, 0, 0], &[]),
    (1, [2, 0, 2, 49, 0, 1, 0, 0, 0], &[5, 0, 0, 0, 0, 0, 0]),
    (1, [1, 0, 2, 33, 0, 1, 0, 0, 0], &[5, 0, 0, 0, 0]),
    (1, [1, 0, 0, 48, 0, 0, 0, 0, 0], &[]),
    // Any other version, as long as one of version 2, 1 and neither.
    (11, [3, 0, 0, 40, 0, 1, 0, 0, 0], &[5, 0, 0, 0, 0, 0, 0]),
    (11, [0, 0, 0, 5, 0, 1, 0, 0, 0], &[5, 0, 0, 0, 0]),
    (11, [2, 1, 0, 40, 0, 1, 0, 0, 0], &[5, 0, 0, 0, 0, 0, 0]),
    (11, [0, 2, 0, 40, 0, 1, 0, 0, 0], &[5, 0, 0, 0, 0, 0, 0]),
    (11, [3, 0, 3, 49, 128, 1, 0, 0, 0], &[]),
    // The length of the other version, and kind 3.
    (12, [2, 0, 0, 40, 0, 1, 0, 0, 0], &[5, 0, 0, 0, 0]),
    (12, [1, 0, 0, 32, 0, 1, 0, 0, 0], &[5, 0, 0, 0, 0, 0, 0]),
    (12, [2, 0, 3, 40, 0, 1, 0, 0, 0], &[5, 0, 0, 0, 0, 0, 0]),
    // 7 times 24924925 hex is 3 in 32 digits; 8,001 records; unit byte 80.
    (12, [2, 0, 0, 40, 0, 0x25, 0x49, 0x92, 0x24], &[0, 0, 0]),
    (12, [2, 0, 0, 40, 0, 0x41, 0x1F, 0, 0], &[5, 0, 0, 0, 0, 0, 0]),
    (2, [2, 0, 0, 40, 128, 1, 0, 0, 0], &[5, 0, 0, 0, 0, 0, 0]),
    // One past each end of widths 33, 40 and 47; and 40 digits without their sign.
    (3, [2, 0, 0, 33, 0, 1, 0, 0, 0], &[0, 0, 0, 0, 1, 0, 0]),
    (3, [2, 0, 1, 33, 0, 1, 0, 0, 0], &[255, 255, 255, 255, 254, 255, 0]),
    (3, [2, 0, 2, 40, 0, 1, 0, 0, 0], &[0, 0, 0, 0, 128, 0, 0]),
    (3, [2, 0, 0, 40, 0, 1, 0, 0, 0], &[255, 255, 255, 255, 127, 255, 0]),
    (3, [2, 0, 1, 47, 0, 1, 0, 0, 0], &[0, 0, 0, 0, 0, 64, 0]),
    (3, [2, 0, 2, 47, 0, 1, 0, 0, 0], &[255, 255, 255, 255, 255, 191, 0]),
    (3, [2, 0, 0, 40, 0, 1, 0, 0, 0], &[255, 255, 255, 255, 255, 0, 0]),
    // Round bytes.
    (3, [2, 0, 0, 40, 0, 1, 0, 0, 0], &[5, 0, 0, 0, 0, 0, 1]),
    (3, [2, 0, 1, 40, 0, 1, 0, 0, 0], &[5, 0, 0, 0, 0, 0, 2]),
    (3, [2, 0, 2, 40, 0, 1, 0, 0, 0], &[5, 0, 0, 0, 0, 0, 1]),
    // Several at once: each has what the later ones are refused by.
    (12, [2, 0, 3, 32, 128, 1, 0, 0, 0], &[0, 0, 0, 0, 0, 64, 9]),
    (12, [2, 0, 0, 32, 128, 2, 0, 0, 0], &[0, 0, 0, 0, 0, 64, 9]),
    (1, [2, 0, 0, 32, 128, 1, 0, 0, 0], &[0, 0, 0, 0, 0, 64, 9]),
    (2, [2, 0, 0, 33, 128, 1, 0, 0, 0], &[0, 0, 0, 0, 0, 64, 9]),
    (3, [2, 0, 0, 33, 0, 1, 0, 0, 0], &[0, 0, 0, 0, 0, 64, 9]),
];

/// Blocks that are not written: a refusal, kind, width, unit and a number.
#[rustfmt::skip]
const NOT_WRITTEN: &[(u32, u32, u32, i32, i64)] = &[
    (12, 3, 40, 0, 5),
    (1, 0, 49, 0, 5),
    (1, 0, 1, 0, 0),
    (1, 0, 49, -128, i64::MAX),
    (2, 0, 48, 128, 5),
    (2, 0, 33, -128, i64::MIN),
    // One past the ends.
    (3, 0, 32, 0, 2_147_483_648),
    (3, 1, 32, 0, -2_147_483_649),
    (3, 2, 33, 0, 4_294_967_296),
    (3, 0, 33, 0, -4_294_967_297),
    (3, 1, 48, 0, 140_737_488_355_328),
    (3, 2, 48, 0, -140_737_488_355_329),
    // 5 with a digit above: at 2^32, 2^40, 2^48 and 2^62.
    (3, 0, 5, 0, 4_294_967_301),
    (3, 1, 33, 0, 1_099_511_627_781),
    (3, 2, 40, 0, 281_474_976_710_661),
    (3, 0, 48, 0, 4_611_686_018_427_387_909),
    (3, 0, 32, 0, i64::MIN),
    (3, 0, 48, 0, i64::MAX),
];

pub fn refused(_: &mut Random, record: &mut Record) {
    for (refusal, head, records) in REFUSED {
        let file = [b"RNB", &head[..], records].concat();
        expect_read("a file refused by hand", &file, *refusal, record);
    }
    for &(refusal, kind, width, unit, number) in NOT_WRITTEN {
        let block = ToWrite {
            kind,
            width,
            unit,
            numbers: vec![number],
            rounds: vec![0],
        };
        expect_write("a block refused by hand", &block, refusal, record);
    }
    // The counts that are too long for a line: of widths 33 and 48.
    for width in [33, 48] {
        for (count, refusal) in [(8_000, 0), (8_001, 12)] {
            let block = ToWrite {
                kind: 1,
                width,
                unit: 0,
                numbers: vec![-5; count],
                rounds: vec![1; count],
            };
            let head = [2, 0, 1, width as u8, 0];
            let said = (count as u32).to_le_bytes();
            let record_bytes = [0xFB, 0xFF, 0xFF, 0xFF, 0xFF, 0xFF, 1];
            let file = [b"RNB", &head[..], &said, &record_bytes.repeat(count)].concat();
            expect_read("a file of many records", &file, refusal, record);
            expect_write("a block of many records", &block, refusal, record);
        }
    }
}
