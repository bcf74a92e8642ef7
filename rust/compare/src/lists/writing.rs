//! Numbers, written: into each buffer, the answer, every byte of the buffer after it, and what is read of it.

use nebosvar::drift::{write, write_numbers, DriftList, Row};
use nebosvar::Refusal;

use super::counts::{Call, Counts};
use super::{Draft, NUMBERS};
use crate::difference::{same, same_bytes, Same};
use crate::fence::{Edge, Lender};
use crate::pair::Image;
use crate::random::Random;

/// Compares both writers, into buffers of each size, filled with any bytes.
pub fn compare(
    draft: &Draft,
    edge: Option<Edge>,
    random: &mut Random,
    counts: &mut Counts,
) -> Same {
    let mut lender = Lender::new(edge, size_of_val(&draft.numbers[..]));
    let numbers = lender.lend_numbers(&draft.numbers);
    counts.drafts += 1;
    for &room in &draft.rooms {
        let before = random.bytes(room);
        into_buffer(draft, numbers, &before, edge, counts)
            .map_err(|difference| difference.at(room))?;
    }
    Ok(())
}

/// Into one buffer.
fn into_buffer(
    draft: &Draft,
    numbers: &[i32],
    before: &[u8],
    edge: Option<Edge>,
    counts: &mut Counts,
) -> Same {
    let (issue, count) = (draft.issue, draft.count);
    let (mut ours, mut theirs) = (Image::new(before, edge), before.to_vec());
    let answer = write_numbers(issue, count, numbers, ours.bytes_mut()).map_err(Refusal::number);
    let wanted = baseline::drift::write(issue, count, numbers, &mut theirs);
    same("write", &answer, &wanted)?;
    same_bytes("buffer after write", ours.bytes(), &theirs)?;
    same("guards after write", &ours.is_guarded(), &true)?;
    counts.buffers += 1;
    counts.written += u64::from(answer.is_ok());
    counts.answer(Call::Write, &answer);
    by_rows(draft, before, &answer, &theirs)?;
    // "A refusal writes nothing", and past the list nothing is written.
    let size = answer.unwrap_or(0);
    same_bytes("past the list", &ours.bytes()[size..], &before[size..])?;
    match answer {
        Ok(size) => again(draft, &ours.bytes()[..size]),
        Err(_) => Ok(()),
    }
}

/// The same by rows, where the numbers are a whole number of them.
fn by_rows(draft: &Draft, before: &[u8], answer: &Result<usize, u8>, after: &[u8]) -> Same {
    let (rows, left) = draft.numbers.as_chunks::<NUMBERS>();
    if !left.is_empty() {
        return Ok(());
    }
    let rows: Vec<_> = rows.iter().map(row).collect();
    let mut out = before.to_vec();
    let by_rows = write(draft.issue, draft.count, &rows, &mut out).map_err(Refusal::number);
    same("write of rows", &by_rows, answer)?;
    same_bytes("buffer after write of rows", &out, after)
}

fn row(&[buoy, state, longitude, latitude, minute]: &[i32; NUMBERS]) -> Row {
    Row {
        buoy,
        state,
        longitude,
        latitude,
        minute,
    }
}

/// What was written is read, and is the numbers that were given.
fn again(draft: &Draft, list: &[u8]) -> Same {
    let read = DriftList::read(list).map_err(Refusal::number);
    let read = read.map(|list| {
        let rows = list.iter().map(Row::from);
        let numbers = rows.flat_map(|row| {
            let (longitude, latitude) = (row.longitude, row.latitude);
            [row.buoy, row.state, longitude, latitude, row.minute]
        });
        (
            u32::from(list.issue()),
            list.len(),
            numbers.collect::<Vec<_>>(),
        )
    });
    let given = (draft.issue, draft.count as usize, draft.numbers.clone());
    same("read again", &read, &Ok(given))
}
