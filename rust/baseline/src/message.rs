//! "The messages": the message header, the announcement (DII) and the block (DDB), each read as far as the
//! section alone allows. Refusals 7 to 9, which have no place and are bare numbers here.

use crate::reader::Reader;
use crate::record::{Module, MODULES};
use crate::refusal;
use crate::section::{Frame, BODY};

/// The first two bytes of every message.
pub const BEGINNING: [u8; 2] = [0x11, 0x03];
/// The message number of an announcement, in table 0x3B.
pub const ANNOUNCEMENT: u16 = 0x1002;
/// The message number of a block, in table 0x3C.
pub const BLOCK: u16 = 0x1003;
/// Bytes of the message header.
pub const HEADER: usize = 12;
/// The fixed fields of a block before its data.
pub const BLOCK_FIELDS: usize = 6;
/// The bytes between blockSize and compatibility length, unread.
pub const UNREAD: usize = 10;
/// How many section numbers a section header can tell.
pub const SECTION_NUMBERS: u16 = 256;
/// How many versions the five bits of a section header can tell.
pub const SECTION_VERSIONS: u8 = 32;

/// A framed announcement; its limits (refusals 10 and 11) are not judged yet.
pub struct Announcement {
    /// downloadId.
    pub download: u32,
    /// blockSize.
    pub block_size: u16,
    /// The announced number of modules, which may be more than `modules` holds.
    pub count: u16,
    /// The first modules; starts are zero here.
    pub modules: [Module; MODULES],
}

/// A block that refusals 2 to 9 do not meet.
pub struct Block<'a> {
    /// downloadId, the identifier of its message.
    pub download: u32,
    /// Module number.
    pub module: u16,
    /// Module version.
    pub version: u8,
    /// Block number.
    pub number: u16,
    /// The data, adaptation bytes excluded.
    pub data: &'a [u8],
}

/// The identifier of the message with this number, and its bytes after the adaptation bytes.
///
/// The exception to "the lowest that applies" is here: a body under 12 bytes is 7, then 8, then the rest of 7.
fn message(body: &[u8], number: u16) -> Result<(u32, &[u8]), u8> {
    let (header, rest) = body
        .split_first_chunk::<HEADER>()
        .ok_or(refusal::MALFORMED)?;
    let &[protocol, kind, n0, n1, i0, i1, i2, i3, _, adaptation, m0, m1] = header;
    if [protocol, kind] != BEGINNING || u16::from_be_bytes([n0, n1]) != number {
        return Err(refusal::MESSAGE);
    }
    if usize::from(u16::from_be_bytes([m0, m1])) != rest.len() {
        return Err(refusal::MALFORMED);
    }
    let content = rest
        .get(usize::from(adaptation)..)
        .ok_or(refusal::MALFORMED)?;
    Ok((u32::from_be_bytes([i0, i1, i2, i3]), content))
}

/// Reads an announcement. All announced modules are framed, also those past a record's last entry, so that 7
/// comes before 10.
pub fn announcement(frame: &Frame<'_>) -> Result<Announcement, u8> {
    let (_, content) = message(frame.body, ANNOUNCEMENT)?;
    let mut content = Reader::new(content, BODY);
    let download = content.u32()?;
    let block_size = content.u16()?;
    content.part(UNREAD)?;
    content.part16()?;
    let count = content.u16()?;
    let mut modules = [Module::NONE; MODULES];
    for place in 0..usize::from(count) {
        let module = module(&mut content)?;
        if let Some(entry) = modules.get_mut(place) {
            *entry = module;
        }
    }
    content.part16()?;
    content.end()?;
    Ok(Announcement {
        download,
        block_size,
        count,
        modules,
    })
}

fn module(content: &mut Reader<'_>) -> Result<Module, u8> {
    let number = content.u16()?;
    let size = content.u32()?;
    let version = content.u8()?;
    content.part8()?;
    Ok(Module {
        number,
        size,
        version,
        start: 0,
    })
}

/// Reads a block and holds it against its section header (refusal 9).
pub fn block<'a>(frame: &Frame<'a>) -> Result<Block<'a>, u8> {
    let (download, content) = message(frame.body, BLOCK)?;
    let (&[m0, m1, version, _, b0, b1], data) = content
        .split_first_chunk::<BLOCK_FIELDS>()
        .ok_or(refusal::MALFORMED)?;
    let block = Block {
        download,
        module: u16::from_be_bytes([m0, m1]),
        version,
        number: u16::from_be_bytes([b0, b1]),
        data,
    };
    if !is_header_of(frame, &block) {
        return Err(refusal::BLOCK_HEADER);
    }
    Ok(block)
}

/// Whether the section header is that of its block. The version is held to the block's own, not to the announced
/// one: a relay's old header on a new block shows in the section alone, and an old block as a whole is for
/// refusal 14.
fn is_header_of(frame: &Frame<'_>, block: &Block<'_>) -> bool {
    frame.extension == block.module
        && u16::from(frame.number) == block.number % SECTION_NUMBERS
        && frame.version == block.version % SECTION_VERSIONS
}
