//! The full reading of an application section.

use crate::made::*;
use baseline::read_all;
use baseline::table::*;

fn only(tag: u8, content: &[u8]) -> (Vec<u8>, Descriptor) {
    let section = common(&[descriptor(tag, content)]);
    let mut tree = read_all(&section).unwrap();
    assert_eq!(tree.common.len(), 1);
    let descriptor = tree.common.remove(0);
    assert_eq!(descriptor.tag, tag);
    assert_eq!(descriptor.bytes.position, 12);
    assert_eq!(descriptor.bytes.of(&section), content);
    (section, descriptor)
}

#[test]
fn application_descriptor() {
    let bytes = [10, 1, 2, 3, 4, 5, 0xFF, 0xFE, 8, 9, 10, 0xDF, 77, 5, 0, 5];
    let (_, descriptor) = only(0x00, &bytes);
    let profiles = vec![
        Profile {
            profile: 0x0102,
            major: 3,
            minor: 4,
            micro: 5,
        },
        Profile {
            profile: 0xFFFE,
            major: 8,
            minor: 9,
            micro: 10,
        },
    ];
    let content = Content::Application {
        profiles,
        bound: true,
        visibility: 2,
        priority: 77,
        labels: vec![5, 0, 5],
    };
    assert_eq!(descriptor.content, content);
    let (_, descriptor) = only(0x00, &[0, 0x3F, 0]);
    let content = Content::Application {
        profiles: vec![],
        bound: false,
        visibility: 1,
        priority: 0,
        labels: vec![],
    };
    assert_eq!(descriptor.content, content);
}

#[test]
fn names() {
    let (section, descriptor) = only(0x01, b"eng\x03Nowslk\x00");
    let Content::Names(names) = descriptor.content else {
        panic!()
    };
    assert_eq!(names.len(), 2);
    assert_eq!(names[0].language, *b"eng");
    assert_eq!(names[0].text.of(&section), b"Now");
    assert_eq!(names[0].text.position, 16);
    assert_eq!(names[1].language, *b"slk");
    let none = Span {
        position: 23,
        length: 0,
    };
    assert_eq!(names[1].text, none);
}

#[test]
fn transports() {
    let transport = |bytes: &[u8]| match only(0x02, bytes) {
        (
            section,
            Descriptor {
                content:
                    Content::Transport {
                        protocol,
                        label,
                        selector,
                    },
                ..
            },
        ) => (section, protocol, label, selector),
        other => panic!("{other:?}"),
    };
    let (_, protocol, label, selector) = transport(&[0, 1, 9, 0x7F, 33]);
    assert_eq!((protocol, label), (1, 9));
    assert_eq!(selector, Selector::Local { component: 33 });
    let (_, _, _, selector) = transport(&[0, 1, 9, 0x80, 1, 2, 3, 4, 5, 6, 33]);
    let remote = Selector::Remote {
        network: 0x0102,
        stream: 0x0304,
        service: 0x0506,
        component: 33,
    };
    assert_eq!(selector, remote);
    let (section, protocol, label, selector) =
        transport(b"\x00\x03\x08\x02ab\x02\x01c\x00\x00\x00\x03def\x01\x02gh");
    assert_eq!((protocol, label), (3, 8));
    let Selector::Bases(bases) = selector else {
        panic!()
    };
    let shown: Vec<(&[u8], Vec<&[u8]>)> = bases
        .iter()
        .map(|base| {
            let extensions = base.extensions.iter().map(|span| span.of(&section));
            (base.base.of(&section), extensions.collect())
        })
        .collect();
    let expected: Vec<(&[u8], Vec<&[u8]>)> = vec![
        (b"ab", vec![b"c", b""]),
        (b"", vec![]),
        (b"def", vec![b"gh"]),
    ];
    assert_eq!(shown, expected);
    assert_eq!(bases[0].base.position, 16);
    let (section, protocol, _, selector) = transport(&[0, 2, 8, 0x80, 1]);
    assert_eq!(protocol, 2);
    let Selector::Raw(span) = selector else {
        panic!()
    };
    assert_eq!(span.of(&section), [0x80, 1]);
}

#[test]
fn identifiers_path_and_raw() {
    let (_, descriptor) = only(0x05, &[1, 2, 3, 4, 5, 6, 7, 0, 0, 0, 9, 0xFF, 0xFE, 1]);
    let identifiers = vec![
        Identifier {
            organisation: 0x0102_0304,
            number: 0x0506,
            priority: 7,
        },
        Identifier {
            organisation: 9,
            number: 0xFFFE,
            priority: 1,
        },
    ];
    assert_eq!(descriptor.content, Content::Identifiers(identifiers));
    let (_, descriptor) = only(0x15, b"index");
    assert_eq!(descriptor.content, Content::Path(descriptor.bytes));
    for tag in [0x03, 0x06, 0x0B, 0x10, 0x14, 0x16, 0x17, 0x5F, 0xFF] {
        let (_, descriptor) = only(tag, b"any");
        assert_eq!(descriptor.content, Content::Raw(descriptor.bytes));
    }
}

#[test]
fn applications_and_where_they_stand() {
    let section = ait(
        &[descriptor(0x15, b"x")],
        &[
            application(0x0102_0304, 0x4000, 5, &[described(&[])]),
            application(9, 0xFFFE, 6, &[descriptor(0x15, b"/"), described(&[1, 2])]),
        ],
    );
    let tree = read_all(&section).unwrap();
    let [first, second] = &tree.applications[..] else {
        panic!()
    };
    assert_eq!(first.position, 15);
    assert_eq!(
        (first.organisation, first.number, first.code),
        (0x0102_0304, 0x4000, 5)
    );
    assert_eq!(first.number_class(), NumberClass::Signed);
    assert_eq!(first.code_class(), CodeClass::Reserved);
    assert_eq!(second.position, 15 + 14);
    assert_eq!(second.number_class(), NumberClass::Wildcard);
    assert_eq!(second.code_class(), CodeClass::Remote);
    assert_eq!(second.descriptors[0].bytes.of(&section), b"/");
    assert_eq!(second.labels(), [1, 2]);
    assert!(first.labels().is_empty());
}

#[test]
fn labels() {
    let carousel = |label| descriptor(0x02, &[0, 1, label, 0, 0]);
    let raw = |label| descriptor(0x02, &[0, 9, label]);
    let section = ait(
        &[raw(1), raw(3), carousel(3), carousel(2)],
        &[
            application(
                1,
                1,
                1,
                &[carousel(4), described(&[1, 2, 3, 4, 5]), raw(2), raw(4)],
            ),
            application(1, 2, 1, &[described(&[4, 3])]),
        ],
    );
    let tree = read_all(&section).unwrap();
    let resolve = |application: &Application| {
        let labels = application.labels().iter();
        labels
            .map(|&label| tree.resolve(application, label))
            .collect::<Vec<_>>()
    };
    assert_eq!(
        resolve(&tree.applications[0]),
        [
            Resolved::Common(0),
            Resolved::Own(2),
            Resolved::Common(1),
            Resolved::Own(0),
            Resolved::Unresolved
        ]
    );
    // Another application's own descriptors are not looked at.
    assert_eq!(
        resolve(&tree.applications[1]),
        [Resolved::Unresolved, Resolved::Common(1)]
    );
}

#[test]
fn classes_at_their_limits() {
    for (number, class) in [
        (0x0000, NumberClass::Unsigned),
        (0x3FFF, NumberClass::Unsigned),
        (0x4000, NumberClass::Signed),
        (0x7FFF, NumberClass::Signed),
        (0x8000, NumberClass::Other),
        (0xFFFD, NumberClass::Other),
        (0xFFFE, NumberClass::Wildcard),
        (0xFFFF, NumberClass::Wildcard),
    ] {
        assert_eq!(number_class(number), class);
    }
    let known = [
        CodeClass::Reserved,
        CodeClass::Autostart,
        CodeClass::Present,
        CodeClass::Destroy,
        CodeClass::Kill,
        CodeClass::Reserved,
        CodeClass::Remote,
    ];
    for code in 0..=255u8 {
        let class = known.get(usize::from(code)).unwrap_or(&CodeClass::Reserved);
        assert_eq!(code_class(code), *class);
    }
}
