//! The archive's structs and functions, as `include/nebosvar.h` has them.

use crate::drift::Row;
use crate::player::{Listed, Playlist};
use crate::{Module, Record};
use std::mem::{offset_of, size_of};

/// `NEBOSVAR_COMMON`.
pub const COMMON: usize = usize::MAX;

/// `NEBOSVAR_NOWHERE`.
pub const NOWHERE: usize = usize::MAX;

#[repr(C)]
pub struct Fate {
    pub refused_at: usize,
    pub refusal: u8,
    pub kind: u8,
}

#[repr(C)]
pub struct Taken {
    pub length: usize,
    pub refused_at: usize,
    pub stop: u8,
    pub refusal: u8,
    pub kind: u8,
}

#[repr(C)]
pub struct Passage {
    pub taken: usize,
    pub passed: usize,
    pub stop: u8,
}

#[repr(C)]
pub struct Part {
    pub at: usize,
    pub length: usize,
    pub refused_at: usize,
    pub refusal: u8,
}

#[repr(C)]
pub struct Lack {
    pub count: usize,
    pub lowest: usize,
    pub refusal: u8,
}

#[repr(C)]
pub struct TableHead {
    pub common: usize,
    pub applications: usize,
    pub refused_at: usize,
    pub test: u16,
    pub application_type: u16,
    pub version: u8,
    pub section: u8,
    pub last: u8,
    pub refusal: u8,
}

#[repr(C)]
pub struct ApplicationHead {
    pub descriptors: usize,
    pub refused_at: usize,
    pub organisation: u32,
    pub number: u16,
    pub class_number: u8,
    pub code: u8,
    pub control: u8,
    pub refusal: u8,
}

#[repr(C)]
pub struct DescriptorHead {
    pub count: usize,
    pub labels: usize,
    pub at: usize,
    pub length: usize,
    pub refused_at: usize,
    pub protocol: u16,
    pub network: u16,
    pub transport: u16,
    pub service: u16,
    pub kind: u8,
    pub tag: u8,
    pub label: u8,
    pub component: u8,
    pub bound: u8,
    pub visibility: u8,
    pub priority: u8,
    pub refusal: u8,
}

#[repr(C)]
pub struct ItemFound {
    pub at: usize,
    pub length: usize,
    pub extensions: usize,
    pub refused_at: usize,
    pub organisation: u32,
    pub number: u16,
    pub class_number: u8,
    pub kind: u8,
    pub label: u8,
    pub major: u8,
    pub minor: u8,
    pub micro: u8,
    pub priority: u8,
    pub language: [u8; 3],
    pub refusal: u8,
}

#[repr(C)]
pub struct LabelFound {
    pub common: usize,
    pub place: usize,
    pub refused_at: usize,
    pub found: u8,
    pub refusal: u8,
}

#[repr(C)]
pub struct List {
    pub issue: u16,
    pub count: u16,
    pub refusal: u8,
}

#[repr(C)]
pub struct Found {
    pub buoy: u32,
    pub longitude: i32,
    pub latitude: i32,
    pub minute: u16,
    pub state: u8,
    pub refusal: u8,
}

#[repr(C)]
pub struct Written {
    pub size: usize,
    pub refusal: u8,
}

#[repr(C)]
pub struct Counted {
    pub sections: usize,
    pub refusal: u8,
}

#[repr(C)]
pub struct Fed {
    pub size: usize,
    pub refusal: u8,
    pub kind: u8,
}

#[repr(C)]
pub struct Gathered {
    pub passed: usize,
    pub size: usize,
    pub taken: usize,
    pub repeated: usize,
    pub broken: usize,
    pub refused40: usize,
    pub refused41: usize,
    pub refused42: usize,
    pub refused43: usize,
    pub refusal: u8,
}

#[repr(C)]
pub struct Packed {
    pub packets: usize,
    pub refusal: u8,
}

extern "C" {
    pub fn nebosvar_start() -> Record;
    pub fn nebosvar_step(
        record: *mut Record,
        section: *const u8,
        length: usize,
        image: *mut u8,
        room: usize,
    ) -> Fate;
    pub fn nebosvar_take(
        record: *mut Record,
        stretch: *const u8,
        length: usize,
        image: *mut u8,
        room: usize,
        budget: usize,
    ) -> Taken;
    pub fn nebosvar_run(
        record: *mut Record,
        stretch: *const u8,
        length: usize,
        image: *mut u8,
        room: usize,
        budget: usize,
    ) -> Passage;
    pub fn nebosvar_handout(
        record: *const Record,
        image: *const u8,
        room: usize,
        number: u16,
    ) -> Part;
    pub fn nebosvar_missing(record: *const Record, number: u16) -> Lack;
    pub fn nebosvar_table(section: *const u8, length: usize) -> TableHead;
    pub fn nebosvar_application(
        section: *const u8,
        length: usize,
        application: usize,
    ) -> ApplicationHead;
    pub fn nebosvar_descriptor(
        section: *const u8,
        length: usize,
        application: usize,
        descriptor: usize,
    ) -> DescriptorHead;
    pub fn nebosvar_item(
        section: *const u8,
        length: usize,
        application: usize,
        descriptor: usize,
        kind: u8,
        item: usize,
    ) -> ItemFound;
    pub fn nebosvar_extension(
        section: *const u8,
        length: usize,
        application: usize,
        descriptor: usize,
        base: usize,
        extension: usize,
    ) -> Part;
    pub fn nebosvar_label(
        section: *const u8,
        length: usize,
        application: usize,
        label: usize,
    ) -> LabelFound;
    pub fn nebosvar_list_read(list: *const u8, length: usize) -> List;
    pub fn nebosvar_list_record(list: *const u8, length: usize, k: usize) -> Found;
    pub fn nebosvar_list_walk(list: *const u8, length: usize, k: usize) -> Found;
    pub fn nebosvar_list_write(
        issue: u32,
        count: u32,
        numbers: *const i32,
        length: usize,
        out: *mut u8,
        room: usize,
    ) -> Written;
    pub fn nebosvar_section_count(playlist: *const Playlist) -> Counted;
    pub fn nebosvar_write_section(
        playlist: *const Playlist,
        image: *const u8,
        length: usize,
        identifier: u32,
        place: usize,
        out: *mut u8,
        room: usize,
    ) -> Written;
    pub fn nebosvar_feed(
        pid: u16,
        packet: *const u8,
        length: usize,
        state: *mut u8,
        state_length: usize,
        out: *mut u8,
        room: usize,
    ) -> Fed;
    pub fn nebosvar_gather(
        pid: u16,
        packets: *const u8,
        length: usize,
        state: *mut u8,
        state_length: usize,
        out: *mut u8,
        room: usize,
    ) -> Gathered;
    pub fn nebosvar_write_packets(
        pid: u16,
        counter: u8,
        section: *const u8,
        length: usize,
        out: *mut u8,
        room: usize,
    ) -> Packed;
}

// The layout on x86-64.
const _: () = {
    assert!(size_of::<Module>() == 16);
    assert!(offset_of!(Module, number) == 0);
    assert!(offset_of!(Module, size) == 4);
    assert!(offset_of!(Module, version) == 8);
    assert!(offset_of!(Module, start) == 12);
    assert!(size_of::<Record>() == 4_616);
    assert!(offset_of!(Record, download) == 0);
    assert!(offset_of!(Record, block_size) == 4);
    assert!(offset_of!(Record, count) == 6);
    assert!(offset_of!(Record, modules) == 8);
    assert!(offset_of!(Record, marks) == 520);
    assert!(size_of::<Fate>() == 16);
    assert!(size_of::<Taken>() == 24);
    assert!(size_of::<Passage>() == 24);
    assert!(size_of::<Part>() == 32);
    assert!(size_of::<Lack>() == 24);
    assert!(size_of::<TableHead>() == 32);
    assert!(size_of::<ApplicationHead>() == 32);
    assert!(size_of::<DescriptorHead>() == 56);
    assert!(size_of::<ItemFound>() == 56);
    assert!(size_of::<LabelFound>() == 32);
    assert!(size_of::<List>() == 6);
    assert!(size_of::<Found>() == 16);
    assert!(size_of::<Written>() == 16);
    assert!(size_of::<Counted>() == 16);
    assert!(size_of::<Fed>() == 16);
    assert!(size_of::<Gathered>() == 80);
    assert!(size_of::<Packed>() == 16);
    assert!(size_of::<Listed>() == 12);
    assert!(offset_of!(Listed, number) == 0);
    assert!(offset_of!(Listed, size) == 4);
    assert!(offset_of!(Listed, version) == 8);
    assert!(size_of::<Playlist>() == 392);
    assert!(offset_of!(Playlist, download) == 0);
    assert!(offset_of!(Playlist, block_size) == 4);
    assert!(offset_of!(Playlist, count) == 6);
    assert!(offset_of!(Playlist, modules) == 8);
    // A row is its five numbers, in the writer's order, and nothing else.
    assert!(size_of::<Row>() == 5 * size_of::<i32>());
    assert!(offset_of!(Row, buoy) == 0);
    assert!(offset_of!(Row, state) == 4);
    assert!(offset_of!(Row, longitude) == 8);
    assert!(offset_of!(Row, latitude) == 12);
    assert!(offset_of!(Row, minute) == 16);
};
