//! "The application section": whether it is accepted, and its counts, without building anything.
//! Refusals 2 to 7 and 18. Behind the frame a refusal has no place, and is a bare number here.

use crate::reader::Reader;
use crate::refusal::{self, Refusal};
use crate::section::{self, Frame, BODY};

/// The largest L of an application section (refusal 4).
const MOST_LENGTH: usize = 1_021;
/// The bytes of a profile in an application descriptor.
const PROFILE: usize = 5;
/// The bytes of an item in an external authorisation descriptor.
const AUTHORISATION: usize = 7;

/// Descriptor tags whose contents are known.
pub mod tag {
    /// Application.
    pub const APPLICATION: u8 = 0x00;
    /// Application name.
    pub const NAMES: u8 = 0x01;
    /// Transport protocol.
    pub const TRANSPORT: u8 = 0x02;
    /// External application authorisation.
    pub const AUTHORISATIONS: u8 = 0x05;
    /// Simple application location.
    pub const PATH: u8 = 0x15;
}

/// Protocols whose selector is known.
pub mod protocol {
    /// Object carousel.
    pub const CAROUSEL: u16 = 1;
    /// Interaction channel, by base and extensions.
    pub const INTERACTION: u16 = 3;
}

/// The first bit of a protocol 1 selector.
pub const REMOTE: u8 = 0x80;

/// An accepted application section, by its header and its counts.
#[derive(Clone, Copy, PartialEq, Eq, Debug)]
pub struct Table {
    /// The test flag, 0 or 1.
    pub test: u16,
    /// The application type, 15 bits.
    pub application: u16,
    /// The version, 5 bits.
    pub version: u8,
    /// The section number.
    pub section: u8,
    /// The last section number.
    pub last: u8,
    /// How many common descriptors.
    pub common: usize,
    /// How many applications.
    pub applications: usize,
}

/// The frame of an application section: refusals 2 to 6, with their places.
pub fn frame(section: &[u8]) -> Result<Frame<'_>, Refusal> {
    section::frame(section, |table| table == section::APPLICATIONS, MOST_LENGTH)
}

/// Reads an application section: its header and counts, or its refusal.
///
/// # Errors
/// 2 to 6 with their places, 7 or 18.
pub fn read(section: &[u8]) -> Result<Table, Refusal> {
    counted(&frame(section)?).map_err(Refusal::plain)
}

/// The header and counts of a framed section: refusals 7 and 18.
fn counted(frame: &Frame<'_>) -> Result<Table, u8> {
    let mut body = Reader::new(frame.body, BODY);
    let common = descriptors(body.part12()?)?.all;
    let mut applications = body.part12()?;
    body.end()?;
    let mut count = 0;
    let mut each_described = true;
    while !applications.is_empty() {
        each_described &= application(&mut applications)?.described == 1;
        count += 1;
    }
    // 7 is judged over the whole section before 18.
    if !each_described {
        return Err(refusal::DESCRIPTION);
    }
    Ok(Table {
        test: frame.extension >> 15,
        application: frame.extension & 0x7FFF,
        version: frame.version,
        section: frame.number,
        last: frame.last,
        common,
        applications: count,
    })
}

/// What a loop of descriptors holds.
struct Count {
    /// How many descriptors.
    all: usize,
    /// How many of them are 0x00.
    described: usize,
}

/// Checks one application: organisation 32, application 16, control code 8, reserved 4, length 12, descriptors.
fn application(bytes: &mut Reader<'_>) -> Result<Count, u8> {
    bytes.part(7)?;
    descriptors(bytes.part12()?)
}

/// Checks a loop of descriptors that ends exactly.
fn descriptors(mut bytes: Reader<'_>) -> Result<Count, u8> {
    let mut count = Count {
        all: 0,
        described: 0,
    };
    while !bytes.is_empty() {
        let tag = bytes.u8()?;
        contents(tag, bytes.part8()?)?;
        count.all += 1;
        count.described += usize::from(tag == tag::APPLICATION);
    }
    Ok(count)
}

/// "Known contents must be well formed; other tags are kept raw."
fn contents(tag: u8, bytes: Reader<'_>) -> Result<(), u8> {
    match tag {
        tag::APPLICATION => description(bytes),
        tag::NAMES => names(bytes),
        tag::TRANSPORT => transport(bytes),
        tag::AUTHORISATIONS => multiple(bytes.left(), AUTHORISATION),
        _ => Ok(()),
    }
}

fn multiple(length: usize, of: usize) -> Result<(), u8> {
    if length.is_multiple_of(of) {
        Ok(())
    } else {
        Err(refusal::MALFORMED)
    }
}

/// 0x00: profile length, profiles, flags, priority; the rest are labels.
fn description(mut bytes: Reader<'_>) -> Result<(), u8> {
    multiple(bytes.part8()?.left(), PROFILE)?;
    bytes.bytes::<2>()?;
    Ok(())
}

/// 0x01: repeated language, length, name.
fn names(mut bytes: Reader<'_>) -> Result<(), u8> {
    while !bytes.is_empty() {
        bytes.bytes::<3>()?;
        bytes.part8()?;
    }
    Ok(())
}

/// 0x02: protocol, label, selector.
fn transport(mut bytes: Reader<'_>) -> Result<(), u8> {
    let protocol = bytes.u16()?;
    bytes.u8()?;
    match protocol {
        protocol::CAROUSEL => carousel(bytes),
        protocol::INTERACTION => bases(bytes),
        _ => Ok(()),
    }
}

/// Protocol 1: remote flag; if set, three 16-bit numbers; component tag; nothing more.
fn carousel(mut bytes: Reader<'_>) -> Result<(), u8> {
    if bytes.u8()? & REMOTE != 0 {
        bytes.bytes::<6>()?;
    }
    bytes.u8()?;
    bytes.end()
}

/// Protocol 3: repeated base length, base, extension count, each extension with its length.
fn bases(mut bytes: Reader<'_>) -> Result<(), u8> {
    while !bytes.is_empty() {
        bytes.part8()?;
        for _ in 0..bytes.u8()? {
            bytes.part8()?;
        }
    }
    Ok(())
}
