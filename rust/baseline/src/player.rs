//! The shore player (02, §13): one rotation of a carousel, a section at a time. Place 0 is the announcement; then
//! comes each block, module by module in announced order. Refusals 10, 11, 15, 19 and 21, the lowest first.
//!
//! All is judged before a byte is written, and nothing is allocated.

use crate::checksum::crc;
use crate::message::{
    ANNOUNCEMENT, BLOCK, BLOCK_FIELDS, SECTION_NUMBERS, SECTION_VERSIONS, UNREAD,
};
use crate::record::{judge, set_starts, Module, MODULES};
use crate::{message, refusal, section};

/// The bytes of a section that are not what its message says: its header, the message's header and the CRC.
const AROUND: usize = section::BODY + message::HEADER + section::CRC_BYTES;
/// The four bits before L: syntax indicator 1, the unread bit 0, both reserved bits ones.
const FLAGS: u16 = 0xB000;
/// Both reserved bits before the version, and current_next behind it: ones.
const CURRENT: u8 = 0xC1;
/// A single byte that no one reads.
const SINGLE: u8 = 0xFF;
/// What an announcement says besides its modules: downloadId, blockSize, the unread bytes, and the lengths of the
/// compatibility and private bytes and the module count, 2 bytes each.
const ANNOUNCEMENT_FIELDS: usize = 4 + 2 + UNREAD + 2 + 2 + 2;
/// What it says of a module: number, size, version and info length.
const MODULE_FIELDS: usize = 2 + 4 + 1 + 1;

/// What shore announces. Any may be lent, also one beyond the limits.
#[derive(Clone, Copy, PartialEq, Eq, Debug)]
pub struct Playlist<'a> {
    /// downloadId.
    pub download: u32,
    /// blockSize.
    pub block_size: u16,
    /// The modules, in announced order. They lie in shore's image in this order, one after another from byte 0.
    pub modules: &'a [Listed],
}

/// A module as shore announces it.
#[derive(Clone, Copy, PartialEq, Eq, Debug)]
pub struct Listed {
    /// Its number (moduleId).
    pub number: u16,
    /// Its size in bytes.
    pub size: u32,
    /// Its version.
    pub version: u8,
}

impl Playlist<'_> {
    /// How many sections one rotation has: the announcement and each block.
    ///
    /// # Errors
    /// 10 beyond the limits, then 11 for a module number twice.
    pub fn section_count(&self) -> Result<usize, u8> {
        let laid = self.laid()?;
        let blocks = self.used(&laid).iter().map(|m| m.blocks(self.block_size));
        Ok(1 + blocks.sum::<usize>())
    }

    /// Writes the section at a place of the rotation at the start of `out` and answers its length. The identifier
    /// is the announcement's; a block has the downloadId in its stead. What `out` has past the section stays as it was.
    ///
    /// # Errors
    /// 10 and 11 as [`Playlist::section_count`]; then 15 for an image shorter than the sizes together, whatever the
    /// place; then 19 for a place past the last block; then 21 for a buffer shorter than this section. Nothing is
    /// written then.
    pub fn write_section(
        &self,
        image: &[u8],
        identifier: u32,
        place: usize,
        out: &mut [u8],
    ) -> Result<usize, u8> {
        let laid = self.laid()?;
        let modules = self.used(&laid);
        let together: usize = modules.iter().map(|module| module.size as usize).sum();
        if image.len() < together {
            return Err(refusal::IMAGE);
        }
        match place.checked_sub(1) {
            None => self.write_announcement(identifier, out),
            Some(block) => {
                let (module, block) = self.block_at(modules, block)?;
                self.write_block(module, block, &image[module.part()], out)
            }
        }
    }

    /// The modules with their starts in shore's image, the unused entries zero: refusals 10 and 11.
    fn laid(&self) -> Result<[Module; MODULES], u8> {
        let mut laid = [Module::NONE; MODULES];
        let used = laid.get_mut(..self.modules.len()).ok_or(refusal::LIMITS)?;
        for (module, listed) in used.iter_mut().zip(self.modules) {
            module.number = listed.number;
            module.size = listed.size;
            module.version = listed.version;
        }
        judge(self.block_size, used)?;
        set_starts(used);
        Ok(laid)
    }

    /// Of these, the entries that are used.
    fn used<'m>(&self, laid: &'m [Module; MODULES]) -> &'m [Module] {
        &laid[..self.modules.len()]
    }

    /// The module and the number in it of a block that is counted over all modules: refusal 19.
    fn block_at<'m>(
        &self,
        modules: &'m [Module],
        mut block: usize,
    ) -> Result<(&'m Module, usize), u8> {
        for module in modules {
            let blocks = module.blocks(self.block_size);
            if block < blocks {
                return Ok((module, block));
            }
            block -= blocks;
        }
        Err(refusal::PLACE)
    }

    fn write_announcement(&self, identifier: u32, out: &mut [u8]) -> Result<usize, u8> {
        let head = Head {
            table: section::ANNOUNCEMENT,
            extension: identifier as u16,
            version: 0,
            number: 0,
            last: 0,
            message: ANNOUNCEMENT,
            identifier,
        };
        let length = ANNOUNCEMENT_FIELDS + MODULE_FIELDS * self.modules.len();
        head.write(length, out, |pen| {
            pen.put(&self.download.to_be_bytes());
            pen.put(&self.block_size.to_be_bytes());
            pen.put(&[0; UNREAD]);
            pen.put(&[0; 2]); // of the compatibility bytes
            pen.put(&(self.modules.len() as u16).to_be_bytes());
            for listed in self.modules {
                pen.put(&listed.number.to_be_bytes());
                pen.put(&listed.size.to_be_bytes());
                pen.put(&[listed.version, 0]); // no info
            }
            pen.put(&[0; 2]); // of the private bytes
        })
    }

    /// A block of the module whose bytes these are.
    fn write_block(
        &self,
        module: &Module,
        block: usize,
        bytes: &[u8],
        out: &mut [u8],
    ) -> Result<usize, u8> {
        let size = usize::from(self.block_size);
        let begin = block * size;
        let data = &bytes[begin..bytes.len().min(begin + size)];
        let last = module.blocks(self.block_size) - 1;
        let number = block as u16;
        let head = Head {
            table: section::BLOCK,
            extension: module.number,
            version: module.version % SECTION_VERSIONS,
            number: (number % SECTION_NUMBERS) as u8,
            last: u8::try_from(last).unwrap_or(u8::MAX),
            message: BLOCK,
            identifier: self.download,
        };
        head.write(BLOCK_FIELDS + data.len(), out, |pen| {
            pen.put(&module.number.to_be_bytes());
            pen.put(&[module.version, SINGLE]);
            pen.put(&number.to_be_bytes());
            pen.put(data);
        })
    }
}

/// What both headers of a section tell, but for the lengths.
struct Head {
    table: u8,
    extension: u16,
    version: u8,
    number: u8,
    last: u8,
    message: u16,
    identifier: u32,
}

impl Head {
    /// Writes a whole section whose message says so many bytes, without adaptation bytes: refusal 21.
    fn write(
        &self,
        length: usize,
        out: &mut [u8],
        content: impl FnOnce(&mut Pen<'_>),
    ) -> Result<usize, u8> {
        let size = AROUND + length;
        let section = out.get_mut(..size).ok_or(refusal::ROOM)?;
        let (bytes, check) = section.split_at_mut(size - section::CRC_BYTES);
        let mut pen = Pen(bytes);
        pen.put(&[self.table]);
        pen.put(&(FLAGS | (size - section::BEFORE_LENGTH) as u16).to_be_bytes());
        pen.put(&self.extension.to_be_bytes());
        pen.put(&[CURRENT | self.version << 1, self.number, self.last]);
        pen.put(&message::BEGINNING);
        pen.put(&self.message.to_be_bytes());
        pen.put(&self.identifier.to_be_bytes());
        pen.put(&[SINGLE, 0]); // no adaptation
        pen.put(&(length as u16).to_be_bytes());
        content(&mut pen);
        check.copy_from_slice(&crc(bytes).to_be_bytes());
        Ok(size)
    }
}

/// What is still to be written of a section.
struct Pen<'a>(&'a mut [u8]);

impl Pen<'_> {
    fn put(&mut self, bytes: &[u8]) {
        let (put, rest) = std::mem::take(&mut self.0).split_at_mut(bytes.len());
        put.copy_from_slice(bytes);
        self.0 = rest;
    }
}
