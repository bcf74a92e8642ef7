//! The full reading of an accepted application section, as a tree of owned values.
//!
//! Items stand in the order of the section, so that an index into a vector is the paper's "place". A string of
//! bytes is given by its [`Span`] in the section. Every number is kept; its class is asked for besides.

use crate::ait::{self, protocol, tag};
use crate::reader::Reader;
use crate::refusal::{self, Refusal};
use crate::section::{Frame, BODY};

/// Bytes of the section.
#[derive(Clone, Copy, PartialEq, Eq, Debug)]
pub struct Span {
    /// Where the first one stands in the section.
    pub position: usize,
    /// How many they are.
    pub length: usize,
}

impl Span {
    /// These bytes, out of the section they were read from.
    #[must_use]
    pub fn of<'a>(&self, section: &'a [u8]) -> &'a [u8] {
        section
            .get(self.position..)
            .and_then(|rest| rest.get(..self.length))
            .unwrap_or(&[])
    }
}

/// An accepted application section.
#[derive(Clone, PartialEq, Eq, Debug)]
pub struct Section {
    /// The test flag, 0 or 1.
    pub test: u16,
    /// The application type, 15 bits.
    pub application: u16,
    /// The version, 5 bits.
    pub version: u8,
    /// The section number.
    pub section: u8,
    /// The last section number.
    pub last: u8,
    /// The common descriptors.
    pub common: Vec<Descriptor>,
    /// The applications.
    pub applications: Vec<Application>,
}

/// An application.
#[derive(Clone, PartialEq, Eq, Debug)]
pub struct Application {
    /// Where its first byte stands in the section.
    pub position: usize,
    /// The organisation.
    pub organisation: u32,
    /// The application number.
    pub number: u16,
    /// The control code.
    pub code: u8,
    /// Its own descriptors.
    pub descriptors: Vec<Descriptor>,
}

/// A descriptor.
#[derive(Clone, PartialEq, Eq, Debug)]
pub struct Descriptor {
    /// Its tag.
    pub tag: u8,
    /// Its bytes after tag and length.
    pub bytes: Span,
    /// What they say.
    pub content: Content,
}

/// What a descriptor says, by kind.
#[derive(Clone, PartialEq, Eq, Debug)]
pub enum Content {
    /// 0x00: the application descriptor.
    Application {
        /// The profiles.
        profiles: Vec<Profile>,
        /// The bound flag.
        bound: bool,
        /// The visibility, 2 bits.
        visibility: u8,
        /// The priority.
        priority: u8,
        /// The transport labels.
        labels: Vec<u8>,
    },
    /// 0x01: names.
    Names(Vec<Name>),
    /// 0x02: a transport.
    Transport {
        /// The protocol.
        protocol: u16,
        /// The label by which applications refer to it.
        label: u8,
        /// The selector, by protocol.
        selector: Selector,
    },
    /// 0x05: identifiers of external applications.
    Identifiers(Vec<Identifier>),
    /// 0x15: a path, any bytes.
    Path(Span),
    /// Any other tag.
    Raw(Span),
}

/// A profile.
#[derive(Clone, Copy, PartialEq, Eq, Debug)]
pub struct Profile {
    /// The profile's number.
    pub profile: u16,
    /// Major version.
    pub major: u8,
    /// Minor version.
    pub minor: u8,
    /// Micro version.
    pub micro: u8,
}

/// A name in a language.
#[derive(Clone, Copy, PartialEq, Eq, Debug)]
pub struct Name {
    /// The language code.
    pub language: [u8; 3],
    /// The name.
    pub text: Span,
}

/// The selector of a transport.
#[derive(Clone, PartialEq, Eq, Debug)]
pub enum Selector {
    /// Protocol 1, remote flag clear.
    Local {
        /// The component tag.
        component: u8,
    },
    /// Protocol 1, remote flag set.
    Remote {
        /// original_network_id.
        network: u16,
        /// transport_stream_id.
        stream: u16,
        /// service_id.
        service: u16,
        /// The component tag.
        component: u8,
    },
    /// Protocol 3.
    Bases(Vec<Base>),
    /// Any other protocol.
    Raw(Span),
}

/// A base and its extensions.
#[derive(Clone, PartialEq, Eq, Debug)]
pub struct Base {
    /// The base.
    pub base: Span,
    /// The extensions.
    pub extensions: Vec<Span>,
}

/// An item of an external authorisation: the six bytes of the identifier, and a priority.
#[derive(Clone, Copy, PartialEq, Eq, Debug)]
pub struct Identifier {
    /// The organisation.
    pub organisation: u32,
    /// The application number.
    pub number: u16,
    /// The priority.
    pub priority: u8,
}

/// The class of an application number.
#[derive(Clone, Copy, PartialEq, Eq, Debug)]
pub enum NumberClass {
    /// 0x0000 to 0x3FFF.
    Unsigned,
    /// 0x4000 to 0x7FFF.
    Signed,
    /// 0x8000 to 0xFFFD.
    Other,
    /// 0xFFFE and 0xFFFF.
    Wildcard,
}

/// The class of a control code.
#[derive(Clone, Copy, PartialEq, Eq, Debug)]
pub enum CodeClass {
    /// 1.
    Autostart,
    /// 2.
    Present,
    /// 3.
    Destroy,
    /// 4.
    Kill,
    /// 6.
    Remote,
    /// Any other.
    Reserved,
}

/// Where a label leads.
#[derive(Clone, Copy, PartialEq, Eq, Debug)]
pub enum Resolved {
    /// The application's own descriptor at this place.
    Own(usize),
    /// The section's common descriptor at this place.
    Common(usize),
    /// No 0x02 descriptor has the label.
    Unresolved,
}

/// The class of an application number.
#[must_use]
pub fn number_class(number: u16) -> NumberClass {
    match number {
        0x0000..=0x3FFF => NumberClass::Unsigned,
        0x4000..=0x7FFF => NumberClass::Signed,
        0x8000..=0xFFFD => NumberClass::Other,
        0xFFFE..=0xFFFF => NumberClass::Wildcard,
    }
}

/// The class of a control code.
#[must_use]
pub fn code_class(code: u8) -> CodeClass {
    match code {
        1 => CodeClass::Autostart,
        2 => CodeClass::Present,
        3 => CodeClass::Destroy,
        4 => CodeClass::Kill,
        6 => CodeClass::Remote,
        _ => CodeClass::Reserved,
    }
}

impl Application {
    /// The class of its number.
    #[must_use]
    pub fn number_class(&self) -> NumberClass {
        number_class(self.number)
    }

    /// The class of its control code.
    #[must_use]
    pub fn code_class(&self) -> CodeClass {
        code_class(self.code)
    }

    /// The labels of its one 0x00 descriptor.
    #[must_use]
    pub fn labels(&self) -> &[u8] {
        self.descriptors
            .iter()
            .find_map(|descriptor| match &descriptor.content {
                Content::Application { labels, .. } => Some(labels.as_slice()),
                _ => None,
            })
            .unwrap_or(&[])
    }
}

impl Section {
    /// Looks a label up among an application's own 0x02 descriptors, then the common ones. The first hit counts.
    #[must_use]
    pub fn resolve(&self, application: &Application, label: u8) -> Resolved {
        if let Some(place) = first_transport(&application.descriptors, label) {
            Resolved::Own(place)
        } else if let Some(place) = first_transport(&self.common, label) {
            Resolved::Common(place)
        } else {
            Resolved::Unresolved
        }
    }
}

fn first_transport(descriptors: &[Descriptor], wanted: u8) -> Option<usize> {
    descriptors.iter().position(|descriptor| {
        matches!(descriptor.content, Content::Transport { label, .. } if label == wanted)
    })
}

/// Reads an application section whole.
///
/// # Errors
/// 2 to 6 with their places, 7 or 18, the same as [`crate::read`].
pub fn read_all(section: &[u8]) -> Result<Section, Refusal> {
    whole(&ait::frame(section)?).map_err(Refusal::plain)
}

/// The tree of a framed section: refusals 7 and 18.
fn whole(frame: &Frame<'_>) -> Result<Section, u8> {
    let mut body = Reader::new(frame.body, BODY);
    let common = repeated(body.part12()?, descriptor)?;
    let applications = body.part12()?;
    body.end()?;
    let applications = repeated(applications, application)?;
    if !applications.iter().all(is_described) {
        return Err(refusal::DESCRIPTION);
    }
    Ok(Section {
        test: frame.extension >> 15,
        application: frame.extension & 0x7FFF,
        version: frame.version,
        section: frame.number,
        last: frame.last,
        common,
        applications,
    })
}

/// Whether exactly one of its own descriptors is 0x00.
fn is_described(application: &Application) -> bool {
    let described = application
        .descriptors
        .iter()
        .filter(|descriptor| descriptor.tag == tag::APPLICATION);
    described.count() == 1
}

/// "Repeated" means none or more, ending exactly.
fn repeated<'a, T>(
    mut bytes: Reader<'a>,
    item: impl Fn(&mut Reader<'a>) -> Result<T, u8>,
) -> Result<Vec<T>, u8> {
    let mut items = Vec::new();
    while !bytes.is_empty() {
        items.push(item(&mut bytes)?);
    }
    Ok(items)
}

fn span(bytes: Reader<'_>) -> Span {
    Span {
        position: bytes.position(),
        length: bytes.left(),
    }
}

fn application(bytes: &mut Reader<'_>) -> Result<Application, u8> {
    Ok(Application {
        position: bytes.position(),
        organisation: bytes.u32()?,
        number: bytes.u16()?,
        code: bytes.u8()?,
        descriptors: repeated(bytes.part12()?, descriptor)?,
    })
}

fn descriptor(bytes: &mut Reader<'_>) -> Result<Descriptor, u8> {
    let tag = bytes.u8()?;
    let bytes = bytes.part8()?;
    let content = match tag {
        tag::APPLICATION => description(bytes)?,
        tag::NAMES => Content::Names(repeated(bytes, name)?),
        tag::TRANSPORT => transport(bytes)?,
        tag::AUTHORISATIONS => Content::Identifiers(repeated(bytes, identifier)?),
        tag::PATH => Content::Path(span(bytes)),
        _ => Content::Raw(span(bytes)),
    };
    Ok(Descriptor {
        tag,
        bytes: span(bytes),
        content,
    })
}

fn description(mut bytes: Reader<'_>) -> Result<Content, u8> {
    let profiles = repeated(bytes.part8()?, profile)?;
    let [flags, priority] = bytes.bytes()?;
    Ok(Content::Application {
        profiles,
        bound: flags & 0x80 != 0,
        visibility: flags >> 5 & 0x03,
        priority,
        labels: repeated(bytes, Reader::u8)?,
    })
}

fn profile(bytes: &mut Reader<'_>) -> Result<Profile, u8> {
    let profile = bytes.u16()?;
    let [major, minor, micro] = bytes.bytes()?;
    Ok(Profile {
        profile,
        major,
        minor,
        micro,
    })
}

fn name(bytes: &mut Reader<'_>) -> Result<Name, u8> {
    Ok(Name {
        language: bytes.bytes()?,
        text: span(bytes.part8()?),
    })
}

fn transport(mut bytes: Reader<'_>) -> Result<Content, u8> {
    let protocol = bytes.u16()?;
    let label = bytes.u8()?;
    let selector = match protocol {
        protocol::CAROUSEL => carousel(bytes)?,
        protocol::INTERACTION => Selector::Bases(repeated(bytes, base)?),
        _ => Selector::Raw(span(bytes)),
    };
    Ok(Content::Transport {
        protocol,
        label,
        selector,
    })
}

fn carousel(mut bytes: Reader<'_>) -> Result<Selector, u8> {
    let selector = if bytes.u8()? & ait::REMOTE == 0 {
        Selector::Local {
            component: bytes.u8()?,
        }
    } else {
        Selector::Remote {
            network: bytes.u16()?,
            stream: bytes.u16()?,
            service: bytes.u16()?,
            component: bytes.u8()?,
        }
    };
    bytes.end()?;
    Ok(selector)
}

fn base(bytes: &mut Reader<'_>) -> Result<Base, u8> {
    let base = span(bytes.part8()?);
    let count = bytes.u8()?;
    let extensions = (0..count)
        .map(|_| bytes.part8().map(span))
        .collect::<Result<_, u8>>()?;
    Ok(Base { base, extensions })
}

fn identifier(bytes: &mut Reader<'_>) -> Result<Identifier, u8> {
    Ok(Identifier {
        organisation: bytes.u32()?,
        number: bytes.u16()?,
        priority: bytes.u8()?,
    })
}
