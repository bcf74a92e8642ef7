//! The application section, asked for by place.

use crate::ffi;
use crate::proved::{excluded, range};
use crate::Refusal;
use std::ops::Range;

/// An accepted application section: its header, and how much there is in it.
#[derive(Clone, Copy, PartialEq, Eq, Debug)]
pub struct Table {
    /// The test flag, 0 or 1.
    pub test: u16,
    /// The application type.
    pub application_type: u16,
    /// The version.
    pub version: u8,
    /// The section number.
    pub section: u8,
    /// The last section number.
    pub last: u8,
    /// How many common descriptors there are.
    pub common: usize,
    /// How many applications there are.
    pub applications: usize,
}

/// The class of an application number.
#[derive(Clone, Copy, PartialEq, Eq, Debug)]
pub enum Class {
    /// 0x0000 to 0x3FFF.
    Unsigned,
    /// 0x4000 to 0x7FFF.
    Signed,
    /// 0x8000 to 0xFFFD.
    Other,
    /// 0xFFFE and 0xFFFF.
    Wildcard,
}

impl Class {
    pub(crate) fn of(number: u8) -> Class {
        match number {
            1 => Class::Unsigned,
            2 => Class::Signed,
            3 => Class::Other,
            4 => Class::Wildcard,
            _ => excluded(),
        }
    }
}

/// The class of a control code.
#[derive(Clone, Copy, PartialEq, Eq, Debug)]
pub enum Control {
    /// 1.
    Autostart,
    /// 2.
    Present,
    /// 3.
    Destroy,
    /// 4.
    Kill,
    /// 6.
    Remote,
    /// Any other; it is no refusal.
    Reserved,
}

impl Control {
    /// Each class bears its code; 255, a reserved code, stands for all that are reserved.
    pub(crate) fn of(number: u8) -> Control {
        match number {
            1 => Control::Autostart,
            2 => Control::Present,
            3 => Control::Destroy,
            4 => Control::Kill,
            6 => Control::Remote,
            255 => Control::Reserved,
            _ => excluded(),
        }
    }
}

/// An application.
#[derive(Clone, Copy, PartialEq, Eq, Debug)]
pub struct Application {
    /// The organisation.
    pub organisation: u32,
    /// The application number.
    pub number: u16,
    /// The number's class.
    pub class: Class,
    /// The control code.
    pub code: u8,
    /// The code's class.
    pub control: Control,
    /// How many descriptors it has.
    pub descriptors: usize,
}

/// Whose descriptors are asked for.
#[derive(Clone, Copy, PartialEq, Eq, Debug)]
pub enum Scope {
    /// The section's common ones.
    Common,
    /// Those of the application at this place.
    Application(usize),
}

impl Scope {
    /// As the archive takes it. No section has an application at either of the last two places, so
    /// both are refused alike, and the last is free to stand for the common loop.
    fn number(self) -> usize {
        match self {
            Scope::Common => ffi::COMMON,
            Scope::Application(i) => i.min(ffi::COMMON - 1),
        }
    }
}

/// A descriptor. A range is one of the section's bytes.
#[derive(Clone, PartialEq, Eq, Debug)]
pub enum Descriptor {
    /// 0x00: the application descriptor.
    Application {
        /// How many profiles.
        profiles: usize,
        /// The bound flag, 0 or 1.
        bound: u8,
        /// The visibility, 0 to 3.
        visibility: u8,
        /// The priority.
        priority: u8,
        /// How many transport labels.
        labels: usize,
    },
    /// 0x01: so many names.
    Names(usize),
    /// 0x02, protocol 1, without the remote flag: a carousel of this service.
    Local {
        /// The label.
        label: u8,
        /// The component tag.
        component: u8,
    },
    /// 0x02, protocol 1, with the remote flag: a carousel of another service.
    Remote {
        /// The label.
        label: u8,
        /// The first number: the network.
        network: u16,
        /// The second number: the transport stream.
        transport: u16,
        /// The third number: the service.
        service: u16,
        /// The component tag.
        component: u8,
    },
    /// 0x02, protocol 3.
    Bases {
        /// The label.
        label: u8,
        /// How many bases.
        bases: usize,
    },
    /// 0x02 of any other protocol.
    Selector {
        /// The protocol.
        protocol: u16,
        /// The label.
        label: u8,
        /// Where the selector lies.
        selector: Range<usize>,
    },
    /// 0x05: so many identifiers.
    Identifiers(usize),
    /// 0x15: where the path lies.
    Path(Range<usize>),
    /// Any other tag.
    Raw {
        /// The tag.
        tag: u8,
        /// Where the contents lie.
        contents: Range<usize>,
    },
}

/// Which of the things that repeat within a descriptor is asked for. The numbers are the archive's: a descriptor's
/// own, and 10 for the labels, which a 0x00 has beside its profiles.
#[derive(Clone, Copy, PartialEq, Eq, Debug)]
pub enum ItemKind {
    /// A profile of a 0x00.
    Profile = 1,
    /// A name of a 0x01.
    Name = 2,
    /// A base of a 0x02 of protocol 3.
    Base = 5,
    /// An identifier of a 0x05.
    Identifier = 7,
    /// A transport label of a 0x00.
    Label = 10,
}

/// Something that repeats within a descriptor. A range is one of the section's bytes.
#[derive(Clone, PartialEq, Eq, Debug)]
pub enum Item {
    /// A profile and its version.
    Profile {
        /// The profile.
        number: u16,
        /// The version's first number.
        major: u8,
        /// The version's second number.
        minor: u8,
        /// The version's third number.
        micro: u8,
    },
    /// A transport label.
    Label(u8),
    /// A name.
    Name {
        /// The language's three bytes.
        language: [u8; 3],
        /// Where the name lies.
        text: Range<usize>,
    },
    /// A base.
    Base {
        /// Where the base lies.
        text: Range<usize>,
        /// How many extensions it has.
        extensions: usize,
    },
    /// An identifier and its priority.
    Identifier {
        /// The organisation.
        organisation: u32,
        /// The application number.
        number: u16,
        /// The number's class.
        class: Class,
        /// The priority.
        priority: u8,
    },
}

/// Where the 0x02 descriptor that a label names was found.
#[derive(Clone, Copy, PartialEq, Eq, Debug)]
pub enum Label {
    /// Among the application's own descriptors, at this place.
    Own(usize),
    /// Among common descriptors.
    Common {
        /// Which common loop: 0 is the section's.
        loop_number: usize,
        /// The descriptor's place there.
        place: usize,
    },
    /// Nowhere.
    Unresolved,
}

/// Judges an application section (table 0x74): its header, and how much there is in it. It can refuse
/// with 2 to 7 and 18, and every call below with these too, at the same [place](Refusal::place).
///
/// What is in the section is asked for by place, from 0:
///
/// ```
/// use nebosvar::{application, descriptor, item, label, table};
/// use nebosvar::{Control, Descriptor, Item, ItemKind, Label, Refusal, Scope};
///
/// // A common 0x02 (protocol 1, label 5, component 0x21), and an application with a 0x00 (no
/// // profiles, priority 9, label 5) and a 0x01 (one name).
/// let common = [0x02, 5, 0, 1, 5, 0x00, 0x21];
/// let own = [0x00, 4, 0, 0xFF, 9, 5, 0x01, 9, b'e', b'n', b'g', 5, b'D', b'r', b'i', b'f', b't'];
/// let head = [0, 0, 0, 1, 0x40, 0x00, 1, 0xF0, own.len() as u8]; // organisation 1, number, AUTOSTART
/// let section = make::table(&common, &[&head[..], &own].concat());
///
/// let found = table(&section)?;
/// assert_eq!((found.common, found.applications), (1, 1));
///
/// let first = application(&section, 0)?;
/// assert_eq!((first.number, first.control), (0x4000, Control::Autostart));
/// assert_eq!(application(&section, 1), Err(Refusal::NO_PLACE));
///
/// assert_eq!(descriptor(&section, Scope::Application(0), 1)?, Descriptor::Names(1));
/// if let Item::Name { text, .. } = item(&section, Scope::Application(0), 1, ItemKind::Name, 0)? {
///     assert_eq!(&section[text], b"Drift");
/// }
///
/// // The application's label is resolved by the common descriptor.
/// assert_eq!(label(&section, 0, 0)?, Label::Common { loop_number: 0, place: 0 });
/// assert_eq!(descriptor(&section, Scope::Common, 0)?, Descriptor::Local { label: 5, component: 0x21 });
/// # Ok::<(), Refusal>(())
/// ```
pub fn table(section: &[u8]) -> Result<Table, Refusal> {
    // SAFETY: the slice lends as many bytes as its length says; no precondition.
    let head = unsafe { ffi::nebosvar_table(section.as_ptr(), section.len()) };
    Refusal::check(head.refusal, head.refused_at)?;
    Ok(Table {
        test: head.test,
        application_type: head.application_type,
        version: head.version,
        section: head.section,
        last: head.last,
        common: head.common,
        applications: head.applications,
    })
}

/// The application at place `i`; 19 where there is none.
pub fn application(section: &[u8], i: usize) -> Result<Application, Refusal> {
    // SAFETY: the slice lends as many bytes as its length says; no precondition.
    let head = unsafe { ffi::nebosvar_application(section.as_ptr(), section.len(), i) };
    Refusal::check(head.refusal, head.refused_at)?;
    Ok(Application {
        organisation: head.organisation,
        number: head.number,
        class: Class::of(head.class_number),
        code: head.code,
        control: Control::of(head.control),
        descriptors: head.descriptors,
    })
}

/// The descriptor at place `j` of an application, or of the common ones; 19 where there is none.
pub fn descriptor(section: &[u8], scope: Scope, j: usize) -> Result<Descriptor, Refusal> {
    let i = scope.number();
    // SAFETY: the slice lends as many bytes as its length says; no precondition.
    let head = unsafe { ffi::nebosvar_descriptor(section.as_ptr(), section.len(), i, j) };
    Refusal::check(head.refusal, head.refused_at)?;
    let part = range(head.at, head.length);
    Ok(match head.kind {
        1 => Descriptor::Application {
            profiles: head.count,
            bound: head.bound,
            visibility: head.visibility,
            priority: head.priority,
            labels: head.labels,
        },
        2 => Descriptor::Names(head.count),
        3 => Descriptor::Local {
            label: head.label,
            component: head.component,
        },
        4 => Descriptor::Remote {
            label: head.label,
            network: head.network,
            transport: head.transport,
            service: head.service,
            component: head.component,
        },
        5 => Descriptor::Bases {
            label: head.label,
            bases: head.count,
        },
        6 => Descriptor::Selector {
            protocol: head.protocol,
            label: head.label,
            selector: part,
        },
        7 => Descriptor::Identifiers(head.count),
        8 => Descriptor::Path(part),
        9 => Descriptor::Raw {
            tag: head.tag,
            contents: part,
        },
        _ => excluded(),
    })
}

/// The item at place `k` of a kind within that descriptor; 19 where there is none, as in a descriptor
/// that has no items of that kind.
pub fn item(
    section: &[u8],
    scope: Scope,
    j: usize,
    kind: ItemKind,
    k: usize,
) -> Result<Item, Refusal> {
    let i = scope.number();
    // SAFETY: the slice lends as many bytes as its length says; no precondition.
    let found = unsafe { ffi::nebosvar_item(section.as_ptr(), section.len(), i, j, kind as u8, k) };
    Refusal::check(found.refusal, found.refused_at)?;
    let part = range(found.at, found.length);
    Ok(match found.kind {
        1 => Item::Profile {
            number: found.number,
            major: found.major,
            minor: found.minor,
            micro: found.micro,
        },
        2 => Item::Name {
            language: found.language,
            text: part,
        },
        5 => Item::Base {
            text: part,
            extensions: found.extensions,
        },
        7 => Item::Identifier {
            organisation: found.organisation,
            number: found.number,
            class: Class::of(found.class_number),
            priority: found.priority,
        },
        10 => Item::Label(found.label),
        _ => excluded(),
    })
}

/// Where extension `m` of base `k` of that descriptor lies in the section; 19 where there is none.
pub fn extension(
    section: &[u8],
    scope: Scope,
    j: usize,
    k: usize,
    m: usize,
) -> Result<Range<usize>, Refusal> {
    let i = scope.number();
    // SAFETY: the slice lends as many bytes as its length says; no precondition.
    let part = unsafe { ffi::nebosvar_extension(section.as_ptr(), section.len(), i, j, k, m) };
    Refusal::check(part.refusal, part.refused_at)?;
    Ok(range(part.at, part.length))
}

/// Which 0x02 descriptor label `k` of application `i` names: the first among its own, else the first
/// among the common ones. `k` is the label's place in the application's 0x00, not its value. 19 where there is no such application or label.
pub fn label(section: &[u8], i: usize, k: usize) -> Result<Label, Refusal> {
    // SAFETY: the slice lends as many bytes as its length says; no precondition.
    let found = unsafe { ffi::nebosvar_label(section.as_ptr(), section.len(), i, k) };
    Refusal::check(found.refusal, found.refused_at)?;
    Ok(match found.found {
        1 => Label::Own(found.place),
        2 => Label::Common {
            loop_number: found.common,
            place: found.place,
        },
        3 => Label::Unresolved,
        _ => excluded(),
    })
}
