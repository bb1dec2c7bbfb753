//! The floor file: plate and fixtures of a site (FLOOR-FILE.md).

use crate::claims::{Fixture, Kind, Span, ThingFault};
use crate::plate::{Plate, PlateFault, FIELD_COUNT};
use crate::surroundings::MOST_THINGS;

pub const BLOCK: usize = 512;
pub const MOST_BLOCKS: usize = 80;
/// The bytes of a block before its records.
const HEAD: usize = 8;
/// Where the checksum stands in a block.
const SUM_AT: usize = 510;
const PLATE_RECORD: usize = 72;
const FIXTURE_RECORD: usize = 36;
/// How many fixtures a full block holds.
const PER_BLOCK: usize = 13;
const PLATE_KIND: u8 = 1;
const FIXTURE_KIND: u8 = 2;

/// Why a floor is not read. Blocks, and bytes of a block, count from 0.
#[derive(Clone, Copy, Debug, PartialEq, Eq)]
pub enum ReadFault {
    WrongLength,
    WrongSum {
        block: usize,
    },
    WrongByte {
        block: usize,
        byte: usize,
    },
    /// The fault travels whole.
    NoPlate(PlateFault),
    NoFixture {
        block: usize,
        byte: usize,
        fault: ThingFault,
    },
    TableTooShort,
}

impl ReadFault {
    pub fn number(&self) -> u8 {
        match self {
            ReadFault::WrongLength => 51,
            ReadFault::WrongSum { .. } => 52,
            ReadFault::WrongByte { .. } => 53,
            ReadFault::NoPlate(_) => 54,
            ReadFault::NoFixture { .. } => 55,
            ReadFault::TableTooShort => 56,
        }
    }

    /// Block and byte, where the refusal names them; 56 names none.
    pub fn place(&self) -> Option<(usize, usize)> {
        match self {
            ReadFault::WrongLength => Some((0, 0)),
            ReadFault::WrongSum { block } => Some((*block, SUM_AT)),
            ReadFault::WrongByte { block, byte } => Some((*block, *byte)),
            ReadFault::NoPlate(_) => Some((0, HEAD)),
            ReadFault::NoFixture { block, byte, .. } => Some((*block, *byte)),
            ReadFault::TableTooShort => None,
        }
    }

    /// The number of the fault inside, or 0.
    pub fn inner_number(&self) -> u8 {
        match self {
            ReadFault::NoPlate(fault) => fault.number(),
            ReadFault::NoFixture { fault, .. } => fault.number(),
            _ => 0,
        }
    }

    /// The field that the fault inside names, where it names one.
    pub fn inner_field(&self) -> Option<u8> {
        match self {
            ReadFault::NoPlate(fault) => fault.field(),
            ReadFault::NoFixture { fault, .. } => fault.field(),
            _ => None,
        }
    }
}

/// Why a floor is not written.
#[derive(Clone, Copy, Debug, PartialEq, Eq)]
pub enum WriteFault {
    TooMany,
    TooFewBytes,
}

impl WriteFault {
    pub fn number(&self) -> u8 {
        match self {
            WriteFault::TooMany => 23,
            WriteFault::TooFewBytes => 56,
        }
    }
}

/// What reading answers; the fixtures are in the table.
#[derive(Clone, Copy, Debug, PartialEq, Eq)]
pub struct Floor {
    pub plate: Plate,
    pub count: usize,
}

/// Reads a floor, with its fixtures into the first rows of the table. The
/// other rows, and after a refusal all rows, stay as they were.
pub fn read_floor(bytes: &[u8], table: &mut [Fixture]) -> Result<Floor, ReadFault> {
    if bytes.is_empty() || !bytes.len().is_multiple_of(BLOCK) || bytes.len() > MOST_BLOCKS * BLOCK {
        return Err(ReadFault::WrongLength);
    }
    let blocks: Vec<&[u8]> = bytes.chunks(BLOCK).collect();
    check_block(&blocks, 0)?;
    let plate = plate_of(blocks[0]).map_err(ReadFault::NoPlate)?;
    let mut fixtures = Vec::new();
    for number in 1..blocks.len() {
        check_block(&blocks, number)?;
        read_fixtures(&blocks, number, &mut fixtures)?;
    }
    // Only now, so that nothing is half done.
    if table.len() < fixtures.len() {
        return Err(ReadFault::TableTooShort);
    }
    table[..fixtures.len()].copy_from_slice(&fixtures);
    Ok(Floor { plate, count: fixtures.len() })
}

/// The sum of the 16-bit words of some bytes, modulo 65,536. A single byte at
/// the end counts as a low byte.
pub fn sum_of_words(bytes: &[u8]) -> u16 {
    let high = |pair: &[u8]| pair.get(1).copied().unwrap_or(0);
    let words = bytes.chunks(2).map(|pair| u16::from_le_bytes([pair[0], high(pair)]));
    words.fold(0, u16::wrapping_add)
}

/// The checks 52 and 53 of one block.
fn check_block(blocks: &[&[u8]], number: usize) -> Result<(), ReadFault> {
    if sum_of_words(blocks[number]) != 0 {
        return Err(ReadFault::WrongSum { block: number });
    }
    match first_wrong_byte(blocks, number) {
        Some(byte) => Err(ReadFault::WrongByte { block: number, byte }),
        None => Ok(()),
    }
}

/// The first byte of the head that is not what it must be, or unused byte that
/// is not 0.
fn first_wrong_byte(blocks: &[&[u8]], number: usize) -> Option<usize> {
    let block = blocks[number];
    let (kind, records) = match number {
        0 => (PLATE_KIND, PLATE_RECORD),
        _ => (FIXTURE_KIND, FIXTURE_RECORD * usize::from(block[1])),
    };
    if block[0] != kind {
        return Some(0);
    }
    // Before this is checked, nothing is known of where the records end.
    if !count_is_right(usize::from(block[1]), number, blocks.len()) {
        return Some(1);
    }
    let number_bytes = (number as u32).to_le_bytes();
    (2..SUM_AT).find(|&byte| match byte {
        2 | 3 => block[byte] != 0,
        4..=7 => block[byte] != number_bytes[byte - 4],
        _ => byte >= HEAD + records && block[byte] != 0,
    })
}

/// Whether a block may hold so many fixtures, where every fixture block before
/// it is full.
fn count_is_right(count: usize, number: usize, blocks: usize) -> bool {
    if number == 0 {
        return count == 0;
    }
    let is_last = number == blocks - 1;
    let fits = if is_last { (1..=PER_BLOCK).contains(&count) } else { count == PER_BLOCK };
    fits && PER_BLOCK * (number - 1) + count <= MOST_THINGS
}

fn plate_of(block: &[u8]) -> Result<Plate, PlateFault> {
    let mut numbers = [0; FIELD_COUNT];
    for (field, number) in numbers.iter_mut().enumerate() {
        *number = signed_at(block, HEAD + 8 * field);
    }
    Plate::new(numbers)
}

/// The fixtures of one block, behind those of the blocks before it.
fn read_fixtures(
    blocks: &[&[u8]],
    number: usize,
    fixtures: &mut Vec<Fixture>,
) -> Result<(), ReadFault> {
    let block = blocks[number];
    for record in 0..usize::from(block[1]) {
        let byte = HEAD + FIXTURE_RECORD * record;
        let fixture = fixture_at(block, byte);
        if let Some(fault) = fixture.fault() {
            return Err(ReadFault::NoFixture { block: number, byte, fault });
        }
        fixtures.push(fixture);
    }
    Ok(())
}

fn fixture_at(block: &[u8], byte: usize) -> Fixture {
    let label = block[byte..byte + 4].try_into().expect("four bytes");
    let span = |at: usize| Span { low: signed_at(block, at), high: signed_at(block, at + 8) };
    Fixture { label: u32::from_le_bytes(label), x: span(byte + 4), y: span(byte + 20) }
}

fn signed_at(block: &[u8], byte: usize) -> i64 {
    i64::from_le_bytes(block[byte..byte + 8].try_into().expect("eight bytes"))
}

/// How many bytes the file of so many fixtures has.
pub fn file_length(fixtures: usize) -> usize {
    BLOCK * (1 + fixtures.div_ceil(PER_BLOCK))
}

/// Writes a floor into the first bytes and answers its length. The other
/// bytes, and after a refusal all bytes, stay as they were.
pub fn write_floor(plate: &Plate, rows: &[Fixture], bytes: &mut [u8]) -> Result<usize, WriteFault> {
    if rows.len() > MOST_THINGS {
        return Err(WriteFault::TooMany);
    }
    let file = file_of(plate, rows);
    if bytes.len() < file.len() {
        return Err(WriteFault::TooFewBytes);
    }
    bytes[..file.len()].copy_from_slice(&file);
    Ok(file.len())
}

fn file_of(plate: &Plate, rows: &[Fixture]) -> Vec<u8> {
    let record: Vec<u8> = plate.numbers().iter().flat_map(|n| n.to_le_bytes()).collect();
    let mut file = block_of(PLATE_KIND, 0, 0, &record).to_vec();
    for (place, group) in rows.chunks(PER_BLOCK).enumerate() {
        let records: Vec<u8> = group.iter().flat_map(record_of).collect();
        let number = place as u32 + 1;
        file.extend(block_of(FIXTURE_KIND, group.len() as u8, number, &records));
    }
    file
}

/// The record of a row: of the fixture at 0, if making a fixture refuses it.
fn record_of(row: &Fixture) -> Vec<u8> {
    let thing = row.counted();
    let mut record = thing.label.to_le_bytes().to_vec();
    for edge in [thing.x.low, thing.x.high, thing.y.low, thing.y.high] {
        record.extend(edge.to_le_bytes());
    }
    record
}

fn block_of(kind: u8, count: u8, number: u32, records: &[u8]) -> [u8; BLOCK] {
    let mut block = [0; BLOCK];
    block[0] = kind;
    block[1] = count;
    block[4..HEAD].copy_from_slice(&number.to_le_bytes());
    block[HEAD..HEAD + records.len()].copy_from_slice(records);
    // The word that makes the sum of all words a multiple of 65,536.
    let checksum = sum_of_words(&block).wrapping_neg();
    block[SUM_AT..].copy_from_slice(&checksum.to_le_bytes());
    block
}

#[cfg(test)]
mod tests {
    use super::*;
    use crate::claims::{worked_fixture, THING_EDGE};
    use crate::plate::{sample_plate, FIELDS, SAMPLE};

    /// What the rows of a table hold that nobody has written.
    const UNTOUCHED: Fixture =
        Fixture { label: 77, x: Span { low: 9, high: 8 }, y: Span { low: 7, high: 6 } };

    fn written(rows: &[Fixture]) -> Vec<u8> {
        let mut bytes = vec![0xA5; file_length(rows.len())];
        let length = write_floor(&sample_plate(), rows, &mut bytes).unwrap();
        assert_eq!(length, bytes.len());
        bytes
    }

    /// `count` fixtures that differ from each other.
    fn fixtures(count: usize) -> Vec<Fixture> {
        let row = |k: usize| {
            let low = k as i64 * 1_000 - THING_EDGE;
            let x = Span { low, high: low + 5 };
            Fixture { label: k as u32, x, y: Span { low: -(k as i64), high: THING_EDGE } }
        };
        (0..count).map(row).collect()
    }

    /// Sets the checksum of a block right again after an edit.
    fn mend(bytes: &mut [u8], block: usize) {
        let block = &mut bytes[BLOCK * block..BLOCK * (block + 1)];
        block[SUM_AT..].fill(0);
        let checksum = sum_of_words(block).wrapping_neg();
        block[SUM_AT..].copy_from_slice(&checksum.to_le_bytes());
    }

    /// The refusal of a file, which must leave the table as it was.
    fn refusal(bytes: &[u8]) -> ReadFault {
        let mut table = vec![UNTOUCHED; MOST_THINGS];
        let fault = read_floor(bytes, &mut table).unwrap_err();
        assert!(table.iter().all(|row| *row == UNTOUCHED));
        fault
    }

    /// The refusal of a file with one byte of one block changed and the
    /// checksum right.
    fn refusal_with(file: &[u8], block: usize, byte: usize, value: u8) -> ReadFault {
        let mut bytes = file.to_vec();
        bytes[BLOCK * block + byte] = value;
        mend(&mut bytes, block);
        refusal(&bytes)
    }

    fn with_signed(file: &[u8], block: usize, byte: usize, value: i64) -> Vec<u8> {
        let mut bytes = file.to_vec();
        let at = BLOCK * block + byte;
        bytes[at..at + 8].copy_from_slice(&value.to_le_bytes());
        mend(&mut bytes, block);
        bytes
    }

    #[test]
    fn the_sample_floor() {
        let fixture = worked_fixture(1_020_500_001);
        let file = written(&[fixture]);
        assert_eq!(file.len(), 1_024);
        let mut table = [UNTOUCHED; 3];
        let floor = read_floor(&file, &mut table).unwrap();
        assert_eq!(floor.plate.numbers(), SAMPLE);
        assert_eq!(floor.count, 1);
        assert_eq!(table, [fixture, UNTOUCHED, UNTOUCHED]);
    }

    #[test]
    fn the_bytes_of_the_sample_floor() {
        let file = written(&[worked_fixture(1_020_500_001)]);
        assert_eq!(file[..8], [1, 0, 0, 0, 0, 0, 0, 0]);
        assert_eq!(file[8..18], [0xB0, 4, 0, 0, 0, 0, 0, 0, 0x20, 3]);
        assert!(file[80..510].iter().all(|byte| *byte == 0));
        assert_eq!(file[512..520], [2, 1, 0, 0, 1, 0, 0, 0]);
        assert_eq!(file[520..524], [7, 0, 0, 0]);
        assert_eq!(file[524..532], 1_020_500_001_i64.to_le_bytes());
        assert_eq!(file[532..540], 1_100_000_000_i64.to_le_bytes());
        assert_eq!(file[540..548], (-500_000_000_i64).to_le_bytes());
        assert_eq!(file[548..556], 500_000_000_i64.to_le_bytes());
        assert!(file[556..1_022].iter().all(|byte| *byte == 0));
        // Both checksums were also worked out by other means.
        assert_eq!(file[510..512], 32_601_u16.to_le_bytes());
        assert_eq!(file[1_022..], 15_733_u16.to_le_bytes());
        for block in file.chunks(BLOCK) {
            let words = block.chunks(2).map(|w| u32::from(w[0]) + 256 * u32::from(w[1]));
            assert_eq!(words.sum::<u32>() % 65_536, 0);
        }
    }

    #[test]
    fn round_trips() {
        let blocks = [(0, 1), (1, 2), (13, 2), (14, 3), (1_023, 80), (1_024, 80)];
        for (count, blocks) in blocks {
            let rows = fixtures(count);
            let file = written(&rows);
            assert_eq!(file.len(), blocks * BLOCK);
            let mut table = vec![UNTOUCHED; count + 1];
            let floor = read_floor(&file, &mut table).unwrap();
            assert_eq!(floor, Floor { plate: sample_plate(), count });
            assert_eq!(table[..count], rows);
            assert_eq!(table[count], UNTOUCHED);
            assert_eq!(written(&table[..count]), file);
        }
    }

    #[test]
    fn fixtures_stand_where_the_document_says() {
        let file = written(&fixtures(1_024));
        for k in 0..1_024 {
            let at = 520 + 512 * (k / 13) + 36 * (k % 13);
            assert_eq!(file[at..at + 4], (k as u32).to_le_bytes());
        }
        assert_eq!(file[79 * BLOCK + 1], 10);
    }

    #[test]
    fn lengths_at_their_limits() {
        let file = written(&fixtures(1_024));
        for length in [0, 1, 511, 513, 40_959] {
            let fault = refusal(&file[..length]);
            assert_eq!((fault.number(), fault.place()), (51, Some((0, 0))));
            assert_eq!((fault.inner_number(), fault.inner_field()), (0, None));
        }
        let mut long = file.clone();
        long.push(0);
        assert_eq!(refusal(&long).number(), 51);
        long.resize(81 * BLOCK, 0);
        assert_eq!(refusal(&long).number(), 51);
    }

    #[test]
    fn every_changed_byte_breaks_the_sum() {
        let file = written(&fixtures(1));
        for at in 0..file.len() {
            let mut bytes = file.clone();
            bytes[at] ^= 0x10;
            let fault = refusal(&bytes);
            assert_eq!(fault, ReadFault::WrongSum { block: at / BLOCK });
            assert_eq!((fault.number(), fault.place()), (52, Some((at / BLOCK, 510))));
        }
    }

    #[test]
    fn wrong_bytes_of_heads_and_unused_bytes() {
        let file = written(&fixtures(14));
        // From where on the bytes of blocks 0, 1 and 2 are unused.
        for (block, unused) in [(0, 80), (1, 8 + 13 * 36), (2, 8 + 36)] {
            for byte in (0..8).chain(unused..SUM_AT) {
                let value = file[BLOCK * block + byte] ^ 0xFF;
                let fault = refusal_with(&file, block, byte, value);
                assert_eq!(fault, ReadFault::WrongByte { block, byte });
                assert_eq!((fault.number(), fault.place()), (53, Some((block, byte))));
                assert_eq!((fault.inner_number(), fault.inner_field()), (0, None));
            }
        }
    }

    #[test]
    fn the_first_wrong_byte_is_named() {
        let mut file = written(&fixtures(14));
        for (byte, value) in [(500, 1), (7, 1), (4, 9), (3, 1), (2, 1), (1, 14), (0, 3)] {
            file[BLOCK + byte] = value;
            mend(&mut file, 1);
            assert_eq!(refusal(&file), ReadFault::WrongByte { block: 1, byte });
        }
        assert_eq!(refusal_with(&file, 1, 0, 1), ReadFault::WrongByte { block: 1, byte: 0 });
    }

    #[test]
    fn counts_at_their_limits() {
        let file = written(&fixtures(27));
        // Block 0 holds none; blocks between 13; the last 1 to 13.
        for (block, counts) in [(0, vec![1, 13]), (1, vec![0, 1, 12, 14]), (3, vec![0, 14, 255])] {
            for count in counts {
                let fault = refusal_with(&file, block, 1, count);
                assert_eq!(fault, ReadFault::WrongByte { block, byte: 1 });
            }
        }
        // The last of 27 holds one; a count of 2 makes the zeros after it a
        // fixture, and a floor of 28.
        let mut bytes = file.clone();
        bytes[3 * BLOCK + 1] = 2;
        mend(&mut bytes, 3);
        let mut table = [UNTOUCHED; 28];
        assert_eq!(read_floor(&bytes, &mut table).unwrap().count, 28);
        assert_eq!(table[27], Fixture::AT_ZERO);
    }

    #[test]
    fn no_more_than_1024_fixtures() {
        let file = written(&fixtures(1_024));
        for count in [11, 13] {
            let fault = refusal_with(&file, 79, 1, count);
            assert_eq!(fault, ReadFault::WrongByte { block: 79, byte: 1 });
        }
        // A count of 9 leaves the tenth record unused, and its first byte that
        // is not 0 is wrong. Its label is 1,023, so that is its first byte.
        let fault = refusal_with(&file, 79, 1, 9);
        assert_eq!(fault, ReadFault::WrongByte { block: 79, byte: 8 + 9 * 36 });
    }

    #[test]
    fn plates_at_their_limits() {
        let file = written(&[]);
        for (field, (_, least, greatest)) in FIELDS.into_iter().enumerate() {
            for bad in [least - 1, greatest + 1, i64::MIN, i64::MAX] {
                let fault = refusal(&with_signed(&file, 0, 8 + 8 * field, bad));
                assert_eq!(fault, ReadFault::NoPlate(PlateFault::OutOfRange(field as u8 + 1)));
                assert_eq!((fault.number(), fault.place()), (54, Some((0, 8))));
                assert_eq!(fault.inner_number(), 11);
                assert_eq!(fault.inner_field(), Some(field as u8 + 1));
            }
        }
        for (field, value, inner) in [(2, 1_151, 12), (6, 10_000, 13)] {
            let fault = refusal(&with_signed(&file, 0, 8 + 8 * field, value));
            assert_eq!((fault.number(), fault.place()), (54, Some((0, 8))));
            assert_eq!((fault.inner_number(), fault.inner_field()), (inner, None));
        }
    }

    #[test]
    fn fixtures_at_their_limits() {
        let file = written(&fixtures(15));
        for (field, at) in [(2, 4), (3, 12), (4, 20), (5, 28)] {
            for bad in [-THING_EDGE - 1, THING_EDGE + 1, i64::MIN, i64::MAX] {
                // Both fixtures of block 2: the second is at byte 44.
                for byte in [8, 44] {
                    let fault = refusal(&with_signed(&file, 2, byte + at, bad));
                    assert_eq!((fault.number(), fault.place()), (55, Some((2, byte))));
                    assert_eq!((fault.inner_number(), fault.inner_field()), (21, Some(field)));
                }
            }
        }
    }

    #[test]
    fn the_fault_of_the_document() {
        // `fault 55 block 1 byte 8 inner 22`: low x above high x by one.
        let file = written(&[worked_fixture(1_020_500_001)]);
        let equal = with_signed(&file, 1, 12, 1_100_000_000);
        assert!(read_floor(&equal, &mut [UNTOUCHED]).is_ok());
        let fault = refusal(&with_signed(&file, 1, 12, 1_100_000_001));
        assert_eq!((fault.number(), fault.place()), (55, Some((1, 8))));
        assert_eq!((fault.inner_number(), fault.inner_field()), (22, None));
    }

    #[test]
    fn all_of_a_block_comes_before_the_next_block() {
        let good = written(&fixtures(14));
        // Wrong from the end to the beginning; each fault hides those before.
        let mut bytes = with_signed(&good, 2, 12, i64::MAX);
        assert_eq!(refusal(&bytes).number(), 55);
        bytes[2 * BLOCK + 2] = 1;
        mend(&mut bytes, 2);
        assert_eq!(refusal(&bytes), ReadFault::WrongByte { block: 2, byte: 2 });
        bytes[2 * BLOCK + 511] ^= 1;
        assert_eq!(refusal(&bytes), ReadFault::WrongSum { block: 2 });
        bytes = with_signed(&bytes, 1, 12, i64::MAX);
        assert_eq!(refusal(&bytes).place(), Some((1, 8)));
        bytes = with_signed(&bytes, 0, 8, 0);
        assert_eq!(refusal(&bytes).number(), 54);
        bytes.push(0);
        assert_eq!(refusal(&bytes).number(), 51);
    }

    #[test]
    fn tables_at_their_limit() {
        let rows = fixtures(14);
        let file = written(&rows);
        let mut table = vec![UNTOUCHED; 14];
        assert_eq!(read_floor(&file, &mut table).unwrap().count, 14);
        assert_eq!(table, rows);
        let mut table = vec![UNTOUCHED; 13];
        let fault = read_floor(&file, &mut table).unwrap_err();
        assert_eq!(table, vec![UNTOUCHED; 13]);
        assert_eq!((fault.number(), fault.place()), (56, None));
        assert_eq!((fault.inner_number(), fault.inner_field()), (0, None));
        assert!(read_floor(&written(&[]), &mut []).is_ok());
        // 56 comes after all blocks.
        let bad = with_signed(&file, 2, 12, i64::MAX);
        assert_eq!(read_floor(&bad, &mut []).unwrap_err().number(), 55);
    }

    #[test]
    fn writing_at_its_limits() {
        let plate = sample_plate();
        let many = vec![Fixture::AT_ZERO; 1_025];
        let mut bytes = vec![0xA5; 50_000];
        assert_eq!(write_floor(&plate, &many, &mut bytes).unwrap_err().number(), 23);
        assert_eq!(write_floor(&plate, &many, &mut []).unwrap_err().number(), 23);
        let few = &mut bytes[..40_959];
        assert_eq!(write_floor(&plate, &many[..1_024], few).unwrap_err().number(), 56);
        assert!(bytes.iter().all(|byte| *byte == 0xA5));
        assert_eq!(write_floor(&plate, &many[..1_024], &mut bytes), Ok(40_960));
        assert!(bytes[40_960..].iter().all(|byte| *byte == 0xA5));
        let mut bytes = [0xA5; 511];
        assert_eq!(write_floor(&plate, &[], &mut bytes), Err(WriteFault::TooFewBytes));
        assert_eq!(bytes, [0xA5; 511]);
    }

    #[test]
    fn a_refused_row_is_written_as_the_fixture_at_zero() {
        let rows = [fixtures(1)[0], UNTOUCHED, fixtures(2)[1]];
        let counted = [rows[0], Fixture::AT_ZERO, rows[2]];
        assert_eq!(written(&rows), written(&counted));
        let mut table = [UNTOUCHED; 3];
        read_floor(&written(&rows), &mut table).unwrap();
        assert_eq!(table, counted);
    }
}
