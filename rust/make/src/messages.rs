//! Announcements and blocks.

use crate::{Section, ANNOUNCEMENT, BLOCK};

/// Bytes after their 16-bit length.
fn with_length(bytes: &[u8]) -> Vec<u8> {
    let mut all = (bytes.len() as u16).to_be_bytes().to_vec();
    all.extend(bytes);
    all
}

/// The body of a section with a message: its header, adaptation bytes, content.
pub fn message(number: u16, identifier: u32, adaptation: &[u8], content: &[u8]) -> Vec<u8> {
    let mut body = vec![0x11, 0x03];
    body.extend(number.to_be_bytes());
    body.extend(identifier.to_be_bytes());
    // The byte before the adaptation length is unread.
    body.extend([0xFF, adaptation.len() as u8]);
    body.extend(((adaptation.len() + content.len()) as u16).to_be_bytes());
    body.extend(adaptation);
    body.extend(content);
    body
}

/// A module as it is announced.
#[derive(Clone, Copy, PartialEq, Eq, Debug)]
pub struct Module {
    pub number: u16,
    pub size: u32,
    pub version: u8,
}

impl From<(u16, u32, u8)> for Module {
    fn from((number, size, version): (u16, u32, u8)) -> Module {
        Module {
            number,
            size,
            version,
        }
    }
}

/// An announcement before it is a section.
#[derive(Clone)]
pub struct Announcement {
    pub download: u32,
    pub block_size: u16,
    pub unread: [u8; 10],
    pub compatibility: Vec<u8>,
    pub modules: Vec<Module>,
    /// Each module's info.
    pub info: Vec<u8>,
    pub private: Vec<u8>,
    pub adaptation: Vec<u8>,
    /// The identifier of its message, which is not compared with anything.
    pub identifier: u32,
}

impl Announcement {
    /// One with nothing that could be left out.
    pub fn new<M>(download: u32, block_size: u16, modules: &[M]) -> Announcement
    where
        M: Copy + Into<Module>,
    {
        Announcement {
            download,
            block_size,
            unread: [0; 10],
            compatibility: vec![],
            modules: modules.iter().map(|&module| module.into()).collect(),
            info: vec![],
            private: vec![],
            adaptation: vec![],
            identifier: 0x8000_0002,
        }
    }

    /// What the message says.
    pub fn content(&self) -> Vec<u8> {
        let mut content = self.download.to_be_bytes().to_vec();
        content.extend(self.block_size.to_be_bytes());
        content.extend(self.unread);
        content.extend(with_length(&self.compatibility));
        content.extend((self.modules.len() as u16).to_be_bytes());
        for module in &self.modules {
            content.extend(module.number.to_be_bytes());
            content.extend(module.size.to_be_bytes());
            content.extend([module.version, self.info.len() as u8]);
            content.extend(&self.info);
        }
        content.extend(with_length(&self.private));
        content
    }

    /// Its section.
    pub fn section(&self) -> Section {
        let body = message(0x1002, self.identifier, &self.adaptation, &self.content());
        Section::new(ANNOUNCEMENT, self.identifier as u16, 0, body)
    }

    pub fn bytes(&self) -> Vec<u8> {
        self.section().bytes()
    }
}

/// A block before it is a section.
#[derive(Clone)]
pub struct Block {
    pub download: u32,
    pub module: u16,
    pub version: u8,
    pub unread: u8,
    pub number: u16,
    pub data: Vec<u8>,
    pub adaptation: Vec<u8>,
}

impl Block {
    /// One without adaptation bytes.
    pub fn new(download: u32, module: u16, version: u8, number: u16, data: &[u8]) -> Block {
        Block {
            download,
            module,
            version,
            unread: 0xFF,
            number,
            data: data.to_vec(),
            adaptation: vec![],
        }
    }

    /// What the message says.
    pub fn content(&self) -> Vec<u8> {
        let mut content = self.module.to_be_bytes().to_vec();
        content.extend([self.version, self.unread]);
        content.extend(self.number.to_be_bytes());
        content.extend(&self.data);
        content
    }

    /// Its section: the extension is the module number, the section number the block number mod 256, and the section version
    /// the module version mod 32 (02, §6).
    pub fn section(&self) -> Section {
        let body = message(0x1003, self.download, &self.adaptation, &self.content());
        let mut section = Section::new(BLOCK, self.module, self.number as u8, body);
        section.version = self.version % 32;
        section
    }

    pub fn bytes(&self) -> Vec<u8> {
        self.section().bytes()
    }
}

/// The bytes of an announcement; of each module its number, size and version.
pub fn announcement(download: u32, block_size: u16, modules: &[(u16, u32, u8)]) -> Vec<u8> {
    Announcement::new(download, block_size, modules).bytes()
}

/// The bytes of a block.
pub fn block(download: u32, module: u16, version: u8, number: u16, data: &[u8]) -> Vec<u8> {
    Block::new(download, module, version, number, data).bytes()
}

#[cfg(test)]
mod tests {
    use super::*;
    use crate::BEFORE_LENGTH;

    #[test]
    fn an_announcement_field_by_field() {
        let mut made = Announcement::new(0x0102_0304, 0x0506, &[(0x0708, 0x090A_0B0C, 0x0D)]);
        made.unread = [0xEE; 10];
        made.compatibility = vec![0xC0];
        (made.info, made.private, made.adaptation) = (vec![0x1F], vec![0xA1, 0xA2], vec![0xAD]);
        let mut wanted = vec![0x11, 0x03, 0x10, 0x02, 0x80, 0, 0, 2, 0xFF, 1, 0, 35, 0xAD];
        wanted.extend([1, 2, 3, 4, 5, 6]);
        wanted.extend([0xEE; 10]);
        wanted.extend([
            0, 1, 0xC0, 0, 1, 7, 8, 9, 10, 11, 12, 13, 1, 0x1F, 0, 2, 0xA1, 0xA2,
        ]);
        assert_eq!(made.section().body, wanted);
        assert_eq!((made.section().table, made.section().extension), (0x3B, 2));
    }

    #[test]
    fn a_block_field_by_field() {
        // Version 0xB4 is 20 mod 32: with the reserved bits and the current one byte 5 is 0b11_10100_1.
        let made = Block::new(0x0102_0304, 0x0506, 0xB4, 0x0809, b"ab");
        let wanted = [
            0x11, 0x03, 0x10, 0x03, 1, 2, 3, 4, 0xFF, 0, 0, 8, 5, 6, 0xB4, 0xFF, 8, 9, b'a', b'b',
        ];
        assert_eq!(made.section().body, wanted);
        let header = [0x3C, 0xB0, 29, 0x05, 0x06, 0b1110_1001, 9, 9];
        assert_eq!(made.bytes()[..8], header);
    }

    #[test]
    fn the_largest_block_has_the_largest_length() {
        // The paper's sounding: a 4,066-byte block without adaptation has L = 4,093.
        assert_eq!(block(1, 2, 3, 0, &[0; 4_066]).len(), BEFORE_LENGTH + 4_093);
    }
}
