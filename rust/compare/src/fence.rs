//! Memory between two fences: bytes that may not be touched. Whoever reads or writes one byte past what is lent
//! at a fence is ended by the machine, at once.

#![allow(unsafe_code)] // Only the machine's own calls can make a fence.

use std::ffi::{c_int, c_void};
use std::mem::{align_of, size_of, size_of_val};
use std::ptr::{null_mut, NonNull};
use std::slice;

/// On which side what is lent meets a fence.
#[derive(Clone, Copy, PartialEq, Eq, Debug)]
pub enum Edge {
    /// It ends where a fence begins.
    Ends,
    /// It begins where a fence ends.
    Begins,
}

impl Edge {
    /// Of every fifty stretches one is lent at each edge.
    pub fn of(stretch: u64) -> Option<Edge> {
        match stretch % 50 {
            0 => Some(Edge::Ends),
            25 => Some(Edge::Begins),
            _ => None,
        }
    }
}

/// Bytes that lie at one of two fences.
pub struct Fenced {
    /// The first fence begins here; the room follows it, and then the second.
    base: NonNull<u8>,
    room: usize,
    edge: Edge,
    length: usize,
}

/// A fence's size: a page, of whatever size a page is.
const FENCE: usize = 65_536;

// Of the machine's C library, on Linux.
const NO_ACCESS: c_int = 0;
const READ_AND_WRITE: c_int = 1 | 2;
const PRIVATE_AND_ANONYMOUS: c_int = 0x02 | 0x20;

extern "C" {
    fn mmap(
        at: *mut c_void,
        length: usize,
        access: c_int,
        flags: c_int,
        file: c_int,
        offset: i64,
    ) -> *mut c_void;
    fn mprotect(at: *mut c_void, length: usize, access: c_int) -> c_int;
    fn munmap(at: *mut c_void, length: usize) -> c_int;
}

impl Fenced {
    /// No bytes yet; there is room for so many.
    pub fn new(edge: Edge, most: usize) -> Fenced {
        let room = most.next_multiple_of(FENCE).max(FENCE);
        let (none, flags) = (null_mut(), PRIVATE_AND_ANONYMOUS);
        // SAFETY: a new mapping at a place that the machine chooses.
        let at = unsafe { mmap(none, room + 2 * FENCE, NO_ACCESS, flags, -1, 0) };
        assert_ne!(at as isize, -1, "no memory for a fence");
        let base = NonNull::new(at.cast::<u8>()).expect("a mapping is not at 0");
        // SAFETY: the room is a part of that mapping, and no one has it yet.
        let answer = unsafe { mprotect(at.add(FENCE), room, READ_AND_WRITE) };
        assert_eq!(answer, 0, "no room between the fences");
        Fenced {
            base,
            room,
            edge,
            length: 0,
        }
    }

    /// Where so many bytes lie, at the edge.
    fn place(&self, length: usize) -> *mut u8 {
        assert!(length <= self.room, "{length} bytes");
        let before = match self.edge {
            Edge::Ends => FENCE + self.room - length,
            Edge::Begins => FENCE,
        };
        // SAFETY: the first fence and the room are parts of one mapping.
        unsafe { self.base.as_ptr().add(before) }
    }

    /// A copy of these bytes, instead of those before.
    pub fn put(&mut self, bytes: &[u8]) -> &mut [u8] {
        self.length = bytes.len();
        self.bytes_mut().copy_from_slice(bytes);
        self.bytes_mut()
    }

    /// A copy of this value, and no bytes any more.
    pub fn put_value<T: Copy>(&mut self, value: T) -> &mut T {
        assert_eq!(FENCE % align_of::<T>(), 0);
        self.length = 0;
        let at = self.place(size_of::<T>()).cast::<T>();
        // SAFETY: in the room, and aligned: its ends are, and T's size is a multiple of its alignment.
        unsafe {
            at.write(value);
            &mut *at
        }
    }

    /// A copy of these numbers, and no bytes any more.
    pub fn put_numbers(&mut self, numbers: &[i32]) -> &mut [i32] {
        assert_eq!(FENCE % align_of::<i32>(), 0);
        self.length = 0;
        let at = self.place(size_of_val(numbers)).cast::<i32>();
        // SAFETY: in the room, and aligned: its ends are; all bytes have a value, and they are borrowed from no one else.
        let put = unsafe { slice::from_raw_parts_mut(at, numbers.len()) };
        put.copy_from_slice(numbers);
        put
    }

    pub fn bytes(&self) -> &[u8] {
        // SAFETY: so many bytes of the room, which all have a value: at first 0.
        unsafe { slice::from_raw_parts(self.place(self.length), self.length) }
    }

    pub fn bytes_mut(&mut self) -> &mut [u8] {
        // SAFETY: as above; and they are borrowed from no one else.
        unsafe { slice::from_raw_parts_mut(self.place(self.length), self.length) }
    }
}

impl Clone for Fenced {
    fn clone(&self) -> Fenced {
        let mut other = Fenced::new(self.edge, self.room);
        other.put(self.bytes());
        other
    }
}

impl Drop for Fenced {
    fn drop(&mut self) {
        // SAFETY: the whole mapping, of which nothing is borrowed any more.
        unsafe { munmap(self.base.as_ptr().cast(), self.room + 2 * FENCE) };
    }
}

/// Lends bytes or numbers, at a fence if there is one.
pub struct Lender(Option<Fenced>);

impl Lender {
    /// A lender of slices of at most so many bytes.
    pub fn new(edge: Option<Edge>, most: usize) -> Lender {
        Lender(edge.map(|edge| Fenced::new(edge, most)))
    }

    pub fn lend<'a>(&'a mut self, bytes: &'a [u8]) -> &'a [u8] {
        match &mut self.0 {
            None => bytes,
            Some(fenced) => fenced.put(bytes),
        }
    }

    pub fn lend_numbers<'a>(&'a mut self, numbers: &'a [i32]) -> &'a [i32] {
        match &mut self.0 {
            None => numbers,
            Some(fenced) => fenced.put_numbers(numbers),
        }
    }
}

#[cfg(test)]
mod tests {
    use super::*;
    use crate::limits::{EQUAL_SHARE, MARK_WORDS, MOST_BLOCKS, MOST_BYTES, MOST_MODULES};
    use std::os::unix::process::ExitStatusExt;
    use std::process::Command;

    /// A fault of memory, by its signal.
    const FAULT: i32 = 11;
    /// A drift list of one record, and its numbers, that lack the last byte and the last number.
    const SHORT_LIST: [u8; 15] = [0, 7, 0, 1, 0, 0, 0x14, 0, 0, 0, 0x7F, 0xFF, 0xFF, 0xF8, 0];
    const SHORT_ROW: [i32; 4] = [1, 1, 1, -1];
    /// A packet that begins a section, and lacks its last byte.
    const SHORT_PACKET: [u8; 187] = {
        let mut packet = [7; 187];
        [packet[0], packet[1], packet[2], packet[3], packet[4]] = [0x47, 0x41, 0x23, 0x10, 0];
        packet
    };
    /// A table that lacks its last byte.
    const SHORT: [u8; 15] = [0x74, 0xB0, 13, 0, 1, 0xC1, 0, 0, 0xF0, 0, 0xF0, 0, 0, 0, 0];

    #[test]
    #[ignore = "it ends its process: the test below has it done by another"]
    fn goes_outside() {
        let (mut after, mut before) = (Fenced::new(Edge::Ends, 9), Fenced::new(Edge::Begins, 9));
        let at = after.put(b"buoy").as_mut_ptr_range();
        let first = before.put(b"buoy").as_mut_ptr();
        let table = after_table();
        let (mut list, mut row) = (Fenced::new(Edge::Ends, 16), Fenced::new(Edge::Ends, 20));
        let (list, row) = (list.put(&SHORT_LIST), row.put_numbers(&SHORT_ROW));
        let mut packet = Fenced::new(Edge::Ends, SHORT_PACKET.len());
        let packet = packet.put(&SHORT_PACKET);
        // SAFETY: none, but for the first and the last: these are the faults that a fence is to find.
        unsafe {
            match std::env::var("GOES").as_deref() {
                Ok("inside") => assert_eq!((at.end.sub(1).read(), first.read()), (b'y', b'b')),
                Ok("reads after") => assert_ne!(at.end.read_volatile(), 1),
                Ok("writes after") => at.end.write_volatile(1),
                Ok("reads before") => assert_ne!(first.sub(1).read_volatile(), 1),
                Ok("writes before") => first.sub(1).write_volatile(1),
                // The archive, told of a byte that is not there.
                Ok("table") => {
                    let told = slice::from_raw_parts(table.bytes().as_ptr(), SHORT.len() + 1);
                    assert!(nebosvar::table(told).is_err());
                }
                Ok("list") => {
                    let told = slice::from_raw_parts(list.as_ptr(), SHORT_LIST.len() + 1);
                    assert!(nebosvar::drift::DriftList::read(told).is_err());
                }
                Ok("numbers") => {
                    let told = slice::from_raw_parts(row.as_ptr(), SHORT_ROW.len() + 1);
                    assert!(nebosvar::drift::write_numbers(7, 1, told, &mut [0; 16]).is_ok());
                }
                Ok("buffer") => {
                    let told = slice::from_raw_parts_mut(list.as_mut_ptr(), SHORT_LIST.len() + 1);
                    let numbers = [1, 1, 1, -1, 3];
                    assert!(nebosvar::drift::write_numbers(7, 1, &numbers, told).is_ok());
                }
                Ok("packet") => {
                    let told = slice::from_raw_parts(packet.as_ptr(), SHORT_PACKET.len() + 1);
                    assert!(fed(told).is_ok());
                }
                Ok("whole packet") => {
                    assert_eq!(fed(packet), Err(nebosvar::Refusal::PACKET_LENGTH));
                }
                Ok("whole list") => {
                    let refusal = nebosvar::Refusal::LIST_LENGTH;
                    assert_eq!(nebosvar::drift::DriftList::read(list), Err(refusal));
                    let refusal = nebosvar::Refusal::LIST_WIDTH;
                    let answer = nebosvar::drift::write_numbers(7, 1, row, list);
                    assert_eq!(answer, Err(refusal));
                }
                _ => assert!(nebosvar::table(table.bytes()).is_err()),
            }
        }
    }

    fn fed(packet: &[u8]) -> Result<nebosvar::transport::Fed, nebosvar::Refusal> {
        let mut out = [0; nebosvar::transport::ROOM];
        nebosvar::transport::Transport::new(0x123).feed(packet, &mut out)
    }

    const RECORD: usize = size_of::<nebosvar::Record>();

    #[test]
    #[ignore = "it ends its process: the test below has it done by another"]
    fn goes_outside_the_largest() {
        // SAFETY: none: a record that lacks its last word of marks, and an image that lacks its last byte.
        unsafe {
            match std::env::var("GOES").as_deref() {
                Ok("record") => {
                    let mut short = Fenced::new(Edge::Ends, RECORD);
                    let at = short.put(&[0; RECORD - 4]).as_ptr();
                    assert!((*at.cast::<nebosvar::Record>()).missing(7).is_err());
                }
                Ok("image") => {
                    let (mut record, section, bytes) = last_block();
                    let mut short = Fenced::new(Edge::Ends, MOST_BYTES);
                    let at = short.put(&bytes[1..]).as_mut_ptr();
                    let told = slice::from_raw_parts_mut(at, MOST_BYTES);
                    assert!(record.step(&section, told).is_ok());
                }
                _ => at_both_edges(),
            }
        }
    }

    /// Every limit at once: a record that lacks only the last block of its last module, that block, and an image.
    fn last_block() -> (nebosvar::Record, Vec<u8>, Vec<u8>) {
        let last = MOST_MODULES - 1;
        let module = |place: usize| (place as u16, EQUAL_SHARE, 0);
        let modules: Vec<_> = (0..MOST_MODULES).map(module).collect();
        let size = EQUAL_SHARE as usize / MOST_BLOCKS;
        let mut record = nebosvar::Record::new();
        let announcement = make::announcement(1, size as u16, &modules);
        assert_eq!(record.step(&announcement, &mut []), Ok(nebosvar::Kind::New));
        record.marks = [u32::MAX; MARK_WORDS];
        record.marks[MARK_WORDS - 1] >>= 1;
        let number = MOST_BLOCKS as u16 - 1;
        let section = make::block(1, last as u16, 0, number, &vec![7; size]);
        (record, section, vec![1; MOST_BYTES])
    }

    /// The largest record and the largest image are lent at both edges, and all of them is used.
    fn at_both_edges() {
        let (first, section, bytes) = last_block();
        let last = MOST_MODULES as u16 - 1;
        for edge in [Edge::Ends, Edge::Begins] {
            let mut lent = [RECORD, MOST_BYTES, section.len()].map(|most| Fenced::new(edge, most));
            let [record, image, block] = &mut lent;
            let (record, image) = (record.put_value(first), image.put(&bytes));
            let block = block.put(&section);
            assert_eq!(record.step(block, image), Ok(nebosvar::Kind::Stored));
            assert_eq!(record.step(block, image), Ok(nebosvar::Kind::Repeated));
            assert_eq!(record.marks, [u32::MAX; MARK_WORDS]);
            assert_eq!((image[MOST_BYTES - 1], record.missing(last)), (7, Ok(None)));
            assert_eq!(
                record.handout(image, last).map(<[u8]>::len),
                Ok(EQUAL_SHARE as usize)
            );
        }
    }

    fn after_table() -> Fenced {
        let mut table = Fenced::new(Edge::Ends, SHORT.len());
        table.put(&SHORT);
        table
    }

    #[test]
    fn a_byte_outside_ends_the_process() {
        for (how, signal) in [
            ("inside", None),
            ("reads after", Some(FAULT)),
            ("writes after", Some(FAULT)),
            ("reads before", Some(FAULT)),
            ("writes before", Some(FAULT)),
            ("table", Some(FAULT)),
            ("whole table", None),
            ("list", Some(FAULT)),
            ("numbers", Some(FAULT)),
            ("buffer", Some(FAULT)),
            ("whole list", None),
            ("packet", Some(FAULT)),
            ("whole packet", None),
        ] {
            ended("goes_outside", how, signal);
        }
    }

    #[test]
    fn a_byte_outside_the_largest_ends_the_process() {
        for (how, signal) in [
            ("record", Some(FAULT)),
            ("image", Some(FAULT)),
            ("neither", None),
        ] {
            ended("goes_outside_the_largest", how, signal);
        }
    }

    /// Another process that does this test ends so.
    fn ended(test: &str, how: &str, signal: Option<i32>) {
        let test = format!("fence::tests::{test}");
        let mut other = Command::new(std::env::current_exe().unwrap());
        other.args(["--exact", &test, "--ignored"]);
        let done = other.env("GOES", how).output().unwrap();
        assert_eq!(done.status.signal(), signal, "{how}");
        assert_eq!(done.status.success(), signal.is_none(), "{how}");
    }

    #[test]
    fn values_and_bytes_lie_at_their_edge() {
        for (edge, ends) in [(Edge::Ends, true), (Edge::Begins, false)] {
            let mut fenced = Fenced::new(edge, 70_000);
            let place = |at: usize, length: usize| if ends { at + length } else { at };
            let bytes = fenced.put(&[7; 70_000]);
            let first = place(bytes.as_ptr() as usize, bytes.len());
            assert_eq!(fenced.clone().bytes(), [7; 70_000]);
            let value = fenced.put_value(0x0102_0304_u32);
            assert_eq!(place(value as *const u32 as usize, 4), first);
            assert_eq!(*value, 0x0102_0304);
            let numbers = fenced.put_numbers(&[-1, 7, 9]);
            assert_eq!(place(numbers.as_ptr() as usize, 12), first);
            assert_eq!(numbers, [-1, 7, 9]);
            assert_eq!(place(fenced.put(&[]).as_ptr() as usize, 0), first);
        }
    }
}
