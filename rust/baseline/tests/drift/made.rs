//! Makers of lists for these tests, over the crate `make`, and calls that see what must hold of every
//! one.

use baseline::drift::{for_each, read, record_at, write, Fix, State};
pub use make::drift::{good, list, Fields};

/// What fills a buffer before it is written to.
const FILLING: u8 = 0xA5;

/// A good record.
pub const USUAL: Fields = Fields {
    buoy: 7,
    state: 1,
    longitude: 1,
    latitude: -1,
    minute: 1,
    spare: 0,
};

/// A good record before any other that is tested: the least buoy.
pub const FIRST: Fields = Fields { buoy: 1, ..USUAL };

/// A list of these records with their count.
pub fn list_of(records: &[Fields]) -> Vec<u8> {
    list(0x1234, records.len() as u16, records)
}

/// The numbers of records as the writer takes them.
pub fn numbers_of(records: &[Fields]) -> Vec<i32> {
    let numbers = records.iter().map(|record| {
        let (buoy, state, minute) = (record.buoy, record.state, record.minute);
        let (longitude, latitude) = (record.longitude, record.latitude);
        [
            buoy as i32,
            state as i32,
            longitude,
            latitude,
            minute as i32,
        ]
    });
    numbers.flatten().collect()
}

/// The same of a record that was read.
fn numbers_read(fix: &Fix) -> [i32; 5] {
    let state = match fix.state {
        State::None => 0,
        State::Fix => 1,
        State::LastKnown => 2,
    };
    let (buoy, minute) = (fix.buoy as i32, i32::from(fix.minute));
    [buoy, state, fix.longitude, fix.latitude, minute]
}

/// Reads a list in all three ways, sees that they agree, and gives issue and numbers or the refusal.
pub fn reading(list: &[u8]) -> Result<(u16, Vec<i32>), u8> {
    let mut walked = Vec::new();
    let issue = for_each(list, |fix| walked.push(fix));
    let all = read(list);
    match &all {
        Ok((number, fixes)) => {
            assert_eq!((issue, &walked), (Ok(*number), fixes));
            for place in [0, fixes.len() / 2, fixes.len(), usize::MAX] {
                assert_eq!(record_at(list, place), fixes.get(place).copied().ok_or(19));
            }
        }
        Err(refusal) => {
            assert_eq!((issue, walked.len()), (Err(*refusal), 0));
            for place in [0, 1, usize::MAX] {
                assert_eq!(record_at(list, place), Err(*refusal));
            }
        }
    }
    all.map(|(issue, fixes)| (issue, fixes.iter().flat_map(numbers_read).collect()))
}

/// The refusal of a list of these records, 0 for none.
pub fn refusal_of(records: &[Fields]) -> u8 {
    reading(&list_of(records)).err().unwrap_or(0)
}

/// The refusal of one record by the reader; and, as its spare bits are zero, by the writer, which is
/// the same.
pub fn refusal(record: Fields) -> u8 {
    assert_eq!(record.spare, 0);
    let refusal = refusal_of(&[record]);
    let written = writing(0x1234, 1, &numbers_of(&[record]), 16);
    assert_eq!(written.err().unwrap_or(0), refusal);
    refusal
}

/// Writes into a buffer of this size, sees that nothing changed on a refusal and nothing past the list
/// otherwise, and gives the list or the refusal.
pub fn writing(issue: u32, count: u32, numbers: &[i32], buffer: usize) -> Result<Vec<u8>, u8> {
    let mut out = vec![FILLING; buffer];
    let written = write(issue, count, numbers, &mut out);
    let size = written.unwrap_or(0);
    assert!(out[size..].iter().all(|&byte| byte == FILLING));
    written.map(|size| out[..size].to_vec())
}

/// Writes records of issue 1 into a buffer that is large enough.
pub fn writing_all(numbers: &[i32]) -> Result<Vec<u8>, u8> {
    let count = numbers.len() / 5;
    writing(1, count as u32, numbers, 4 + 12 * count)
}

/// Puts a fault into a good record.
pub fn spoil(record: &mut Fields, fault: u8) {
    match fault {
        31 => record.latitude = 54_000_001,
        32 => record.minute = 10_080,
        33 => record.buoy = 0,
        34 => record.spare = 1,
        35 => record.state = 3,
        _ => panic!("fault {fault}"),
    }
}

/// The usual record with these faults.
pub fn spoilt(faults: &[u8]) -> Fields {
    let mut record = USUAL;
    for &fault in faults {
        spoil(&mut record, fault);
    }
    record
}

/// All sets out of these.
pub fn subsets(of: &[u8]) -> Vec<Vec<u8>> {
    let chosen = |set: usize| {
        let places = (0..of.len()).filter(move |place| set >> place & 1 == 1);
        places.map(|place| of[place]).collect()
    };
    (0..1 << of.len()).map(chosen).collect()
}
