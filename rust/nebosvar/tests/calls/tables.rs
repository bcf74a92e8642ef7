//! The application section.

use make::{self, closed, with};
use nebosvar::{application, descriptor, extension, item, label, table};
use nebosvar::{
    Application, Class, Control, Descriptor, Item, ItemKind, Label, Refusal, Scope, Table,
};

const OWN: Scope = Scope::Application(0);
const KINDS: [ItemKind; 5] = [
    ItemKind::Profile,
    ItemKind::Label,
    ItemKind::Name,
    ItemKind::Base,
    ItemKind::Identifier,
];

/// The least 0x00: no profiles, no labels.
const LEAST: [u8; 5] = [0x00, 3, 0, 0, 0];

/// A section written out, with one common descriptor and one application of three.
fn drift() -> Vec<u8> {
    closed(vec![
        0x74, 0xB0, 78, // byte 0: table, L
        0x80, 0x10, 0xC7, 1, 2, // 3: test flag and type 0x0010, version 3, section 1 of 2
        0xF0, 7, // 8: common length
        0x02, 5, 0, 1, 5, 0x7F, 0x21, // 10: protocol 1, label 5, not remote, component 0x21
        0xF0, 58, // 17: application loop length
        0, 0, 0x01, 0x94, 0x40, 0x01, 1, 0xF0, 49, // 19: organisation, number, code, length
        0x00, 16, 10, // 28: two profiles
        0x00, 0x01, 1, 4, 2, 0xAB, 0xCD, 5, 6, 7, // 31
        0xDF, 9, 5, 6, 8, // 41: bound 1, visibility 2, priority 9, labels 5, 6, 8
        0x01, 16, // 46: two names
        b'e', b'n', b'g', 5, b'D', b'r', b'i', b'f', b't', // 48
        b'i', b's', b'l', 3, b'R', b'e', b'k', // 57
        0x02, 11, 0, 3, 6, // 64: protocol 3, label 6
        3, b'a', b':', b'/', 2, 1, b'x', 0, // 69: one base, with extensions of 1 and 0 bytes
    ]) // 77: CRC
}

/// A section whose common descriptors are of the other kinds, and no application.
fn others() -> Vec<u8> {
    closed(vec![
        0x74, 0xB0, 69, 0x00, 0x10, 0xC1, 0, 0, // byte 0
        0xF0, 56, // 8: common length
        0x02, 11, 0, 1, 8, 0x80, 0x22, 0x33, 0x44, 0x55, 0x66, 0x77, 0x88, // 10: remote
        0x02, 5, 0xFF, 0x04, 8, 0xAA, 0xBB, // 23: protocol 0xFF04; selector from 28
        0x05, 14, // 30: two identifiers
        0, 0, 0, 1, 0x40, 0x00, 3, 0xFF, 0xFE, 0xFD, 0xFC, 0xFB, 0xFA, 0xF9, // 32
        0x15, 4, b'/', b'd', b'/', b'x', // 46: path from 48
        0x7E, 1, 0x5A, // 52: raw, from 54
        0x01, 0, // 55: no names
        0x15, 0, // 57: an empty path
        0x02, 5, 0, 3, 9, 0, 0, // 59: protocol 3, label 9; an empty base without extensions
        0xF0, 0, // 66: application loop length
    ]) // 68: CRC
}

#[test]
fn the_header() {
    let expected = Table {
        test: 1,
        application_type: 0x0010,
        version: 3,
        section: 1,
        last: 2,
        common: 1,
        applications: 1,
    };
    assert_eq!(table(&drift()), Ok(expected));
    let expected = Table {
        test: 0,
        application_type: 0x0010,
        version: 0,
        section: 0,
        last: 0,
        common: 8,
        applications: 0,
    };
    assert_eq!(table(&others()), Ok(expected));
    // An empty one has L = 13.
    let empty = make::table(&[], &[]);
    assert_eq!(empty.len(), 3 + 13);
    assert_eq!(
        table(&empty),
        Ok(Table {
            common: 0,
            ..expected
        })
    );
}

#[test]
fn an_application() {
    let expected = Application {
        organisation: 0x0194,
        number: 0x4001,
        class: Class::Signed,
        code: 1,
        control: Control::Autostart,
        descriptors: 3,
    };
    assert_eq!(application(&drift(), 0), Ok(expected));
    assert_eq!(application(&drift(), 1), Err(Refusal::NO_PLACE));
    assert_eq!(application(&drift(), usize::MAX), Err(Refusal::NO_PLACE));
    assert_eq!(application(&others(), 0), Err(Refusal::NO_PLACE));
}

#[test]
fn its_descriptors_and_items() {
    let section = drift();
    let local = Descriptor::Local {
        label: 5,
        component: 0x21,
    };
    assert_eq!(descriptor(&section, Scope::Common, 0), Ok(local));
    let described = Descriptor::Application {
        profiles: 2,
        bound: 1,
        visibility: 2,
        priority: 9,
        labels: 3,
    };
    assert_eq!(descriptor(&section, OWN, 0), Ok(described));
    assert_eq!(descriptor(&section, OWN, 1), Ok(Descriptor::Names(2)));
    let bases = Descriptor::Bases { label: 6, bases: 1 };
    assert_eq!(descriptor(&section, OWN, 2), Ok(bases));

    let profiles = [
        Item::Profile {
            number: 1,
            major: 1,
            minor: 4,
            micro: 2,
        },
        Item::Profile {
            number: 0xABCD,
            major: 5,
            minor: 6,
            micro: 7,
        },
    ];
    let labels = [Item::Label(5), Item::Label(6), Item::Label(8)];
    let names = [
        Item::Name {
            language: *b"eng",
            text: 52..57,
        },
        Item::Name {
            language: *b"isl",
            text: 61..64,
        },
    ];
    let bases = [Item::Base {
        text: 70..73,
        extensions: 2,
    }];
    // All items of a kind in a descriptor, and then no such place.
    let same = |j, kind, items: &[Item]| {
        for (k, expected) in items.iter().enumerate() {
            assert_eq!(item(&section, OWN, j, kind, k).as_ref(), Ok(expected));
        }
        for k in [items.len(), usize::MAX] {
            assert_eq!(item(&section, OWN, j, kind, k), Err(Refusal::NO_PLACE));
        }
    };
    for kind in KINDS {
        same(
            0,
            kind,
            match kind {
                ItemKind::Profile => &profiles,
                ItemKind::Label => &labels,
                _ => &[],
            },
        );
        same(1, kind, if kind == ItemKind::Name { &names } else { &[] });
        same(2, kind, if kind == ItemKind::Base { &bases } else { &[] });
        same(3, kind, &[]);
    }
    assert_eq!(&section[52..57], b"Drift");
    assert_eq!(&section[61..64], b"Rek");
    assert_eq!(&section[70..73], b"a:/");

    assert_eq!(extension(&section, OWN, 2, 0, 0), Ok(75..76));
    assert_eq!(extension(&section, OWN, 2, 0, 1), Ok(77..77));
    let none = Err(Refusal::NO_PLACE);
    assert_eq!(extension(&section, OWN, 2, 0, 2), none);
    assert_eq!(extension(&section, OWN, 2, 1, 0), none);
    assert_eq!(extension(&section, OWN, 1, 0, 0), none);
    assert_eq!(extension(&section, OWN, 3, 0, 0), none);
    assert_eq!(extension(&section, Scope::Common, 0, 0, 0), none);
}

#[test]
fn the_other_descriptors() {
    let section = others();
    let expected = [
        Descriptor::Remote {
            label: 8,
            network: 0x2233,
            transport: 0x4455,
            service: 0x6677,
            component: 0x88,
        },
        Descriptor::Selector {
            protocol: 0xFF04,
            label: 8,
            selector: 28..30,
        },
        Descriptor::Identifiers(2),
        Descriptor::Path(48..52),
        Descriptor::Raw {
            tag: 0x7E,
            contents: 54..55,
        },
        Descriptor::Names(0),
        Descriptor::Path(59..59),
        Descriptor::Bases { label: 9, bases: 1 },
    ];
    for (j, expected) in expected.iter().enumerate() {
        let found = descriptor(&section, Scope::Common, j);
        assert_eq!(found.as_ref(), Ok(expected));
    }
    let none = descriptor(&section, Scope::Common, expected.len());
    assert_eq!(none, Err(Refusal::NO_PLACE));

    let identifier = |k| item(&section, Scope::Common, 2, ItemKind::Identifier, k);
    assert_eq!(
        identifier(0),
        Ok(Item::Identifier {
            organisation: 1,
            number: 0x4000,
            class: Class::Signed,
            priority: 3
        })
    );
    assert_eq!(
        identifier(1),
        Ok(Item::Identifier {
            organisation: 0xFFFE_FDFC,
            number: 0xFBFA,
            class: Class::Other,
            priority: 0xF9
        })
    );
    assert_eq!(identifier(2), Err(Refusal::NO_PLACE));
    let base = Item::Base {
        text: 65..65,
        extensions: 0,
    };
    let found = item(&section, Scope::Common, 7, ItemKind::Base, 0);
    assert_eq!(found, Ok(base));
}

#[test]
fn no_application_stands_at_the_common_loop_s_number() {
    let section = drift();
    for i in [1, usize::MAX - 1, usize::MAX] {
        let scope = Scope::Application(i);
        assert_eq!(descriptor(&section, scope, 0), Err(Refusal::NO_PLACE));
        for kind in KINDS {
            let found = item(&section, scope, 0, kind, 0);
            assert_eq!(found, Err(Refusal::NO_PLACE));
        }
        let found = extension(&section, scope, 2, 0, 0);
        assert_eq!(found, Err(Refusal::NO_PLACE));
        assert_eq!(label(&section, i, 0), Err(Refusal::NO_PLACE));
    }
}

#[test]
fn labels() {
    let section = drift();
    let common = |place| {
        Ok(Label::Common {
            loop_number: 0,
            place,
        })
    };
    assert_eq!(label(&section, 0, 0), common(0));
    assert_eq!(label(&section, 0, 1), Ok(Label::Own(2)));
    assert_eq!(label(&section, 0, 2), Ok(Label::Unresolved));
    assert_eq!(label(&section, 0, 3), Err(Refusal::NO_PLACE));

    // Own ones go before common ones, and the first hit counts. Only 0x02 descriptors are looked at.
    let commons = [
        [0x7E, 3, 0, 2, 4],
        [0x02, 3, 0, 2, 4],
        [0x02, 3, 0, 2, 5],
        [0x02, 3, 0, 2, 4],
    ];
    let own = [
        [0x7E, 3, 0, 2, 5].to_vec(),
        vec![0x02, 3, 0, 2, 5],
        vec![0x00, 5, 0, 0, 0, 4, 5],
        vec![0x02, 3, 0, 2, 5],
    ];
    let two = [
        make::application(0, 1, 1, &LEAST),
        make::application(0, 2, 1, &own.concat()),
    ];
    let section = make::table(&commons.concat(), &two.concat());
    assert_eq!(label(&section, 1, 0), common(1));
    assert_eq!(label(&section, 1, 1), Ok(Label::Own(1)));
    assert_eq!(label(&section, 0, 0), Err(Refusal::NO_PLACE));
}

#[test]
fn classes() {
    let class_of = |number| {
        let section = make::table(&[], &make::application(0, number, 1, &LEAST));
        let found = application(&section, 0).unwrap();
        assert_eq!(found.number, number);
        found.class
    };
    for (number, class) in [
        (0x0000, Class::Unsigned),
        (0x3FFF, Class::Unsigned),
        (0x4000, Class::Signed),
        (0x7FFF, Class::Signed),
        (0x8000, Class::Other),
        (0xFFFD, Class::Other),
        (0xFFFE, Class::Wildcard),
        (0xFFFF, Class::Wildcard),
    ] {
        assert_eq!(class_of(number), class);
    }
    for code in 0..=255 {
        let section = make::table(&[], &make::application(0, 1, code, &LEAST));
        let found = application(&section, 0).unwrap();
        let control = match code {
            1 => Control::Autostart,
            2 => Control::Present,
            3 => Control::Destroy,
            4 => Control::Kill,
            6 => Control::Remote,
            _ => Control::Reserved,
        };
        assert_eq!((found.code, found.control), (code, control));
    }
}

#[test]
fn seventy_two_applications() {
    let least = make::application(0, 0x1234, 2, &LEAST);
    assert_eq!(least.len(), 14);
    let section = make::table(&[], &least.repeat(72));
    assert_eq!(section.len(), 3 + 1021);
    assert_eq!(table(&section).unwrap().applications, 72);
    assert_eq!(application(&section, 71).unwrap().number, 0x1234);
    assert_eq!(application(&section, 72), Err(Refusal::NO_PLACE));
}

/// Every call refuses, whatever place is asked for.
fn refused(section: &[u8], refusal: Refusal) {
    assert_eq!(table(section), Err(refusal));
    for i in [0, 7] {
        assert_eq!(application(section, i), Err(refusal));
        assert_eq!(label(section, i, 0), Err(refusal));
        for scope in [Scope::Common, Scope::Application(i)] {
            assert_eq!(descriptor(section, scope, i), Err(refusal));
            assert_eq!(extension(section, scope, i, 0, 0), Err(refusal));
            for kind in KINDS {
                assert_eq!(item(section, scope, i, kind, 0), Err(refusal));
            }
        }
    }
}

#[test]
fn refusals_of_the_section() {
    let good = drift();
    for length in [0, 1, 2, 3, 80] {
        refused(&good[..length], Refusal::bad_size(length));
    }
    refused(&with(&good, 0, 0x3B), Refusal::bad_table(0));
    refused(&[0x74, 0xB0, 0], Refusal::bad_header(1));
    refused(&with(&good, 1, 0x30), Refusal::bad_header(1));
    refused(&with(&good, 6, 3), Refusal::bad_header(6)); // above last, 2
    let long = make::section(0x74, 0, 0, &[0; 1013]); // L = 1,022
    refused(&long, Refusal::bad_header(1));
    let mut damaged = good.clone();
    damaged[53] ^= 4;
    refused(&damaged, Refusal::bad_crc(77));
    refused(&with(&good, 5, 0xC6), Refusal::not_current(5));
}

#[test]
fn soundings_of_the_place() {
    let good = drift();
    refused(&good[..2], Refusal::bad_size(2));
    refused(&[], Refusal::bad_size(0));
    let short = closed(vec![0x74, 0xB0, 8, 0, 0, 0xC1, 0]); // L = 8
    refused(&short, Refusal::bad_header(1));
    let numbers = with(&good, 6, 3); // over last 2
    refused(&numbers, Refusal::bad_header(6));
    refused(&with(&numbers, 1, 0x30), Refusal::bad_header(1)); // and syntax indicator 0
    let mut damaged = make::table(&[], &[]); // L = 13
    damaged[15] ^= 1;
    refused(&damaged, Refusal::bad_crc(12));
    refused(&with(&good, 5, 0xC6), Refusal::not_current(5));
    // Only the section numbers, at the least and the largest L; and not at one more.
    for (body, place) in [(0, 6), (1012, 6), (1013, 1)] {
        let section = make::section(0x74, 0, 0, &vec![0; body]);
        refused(&with(&section, 6, 1), Refusal::bad_header(place));
    }
    // What is refused behind the frame has no place, nor has a place that is not there.
    let refusal = table(&make::section(0x74, 0, 0, &[])).unwrap_err();
    assert_eq!((refusal.number(), refusal.place()), (7, None));
    let refusal = application(&good, 1).unwrap_err();
    assert_eq!((refusal.number(), refusal.place()), (19, None));
}

#[test]
fn malformed_sections() {
    let good = drift();
    refused(&make::section(0x74, 0, 0, &[]), Refusal::MALFORMED);
    refused(
        &make::section(0x74, 0, 0, &[0, 0, 0, 0, 0]),
        Refusal::MALFORMED,
    );
    for (at, byte) in [
        (9, 8),   // common length
        (18, 57), // application loop length
        (18, 59),
        (27, 48), // the application's length
        (27, 50),
        (29, 15), // the 0x00 descriptor's
        (30, 9),  // no multiple of 5
        (30, 15), // nothing left for flags and priority
        (51, 6),  // the first name's length
        (60, 4),  // the second name's
        (69, 9),  // the base's
        (73, 3),  // extension count
        (76, 1),  // the second extension's length
    ] {
        refused(&with(&good, at, byte), Refusal::MALFORMED);
    }
    // Known contents, in the common loop.
    for contents in [
        &[0x00, 0][..],
        &[0x00, 2, 0, 0],
        &[0x01, 3, b'e', b'n', b'g'],
        &[0x02, 2, 0, 9],
        &[0x02, 4, 0, 1, 8, 0x00],
        &[0x02, 6, 0, 1, 8, 0x00, 1, 1],
        &[0x02, 5, 0, 1, 8, 0x80, 1],
        &[0x02, 4, 0, 3, 8, 0],
        &[0x05, 6, 0, 0, 0, 0, 0, 0],
        &[0x15],
        &[0x7E, 1],
    ] {
        refused(&make::table(contents, &[]), Refusal::MALFORMED);
    }
    // 7 goes before 18.
    let bare = make::application(0, 1, 1, &[0x01, 1, 0]);
    refused(&make::table(&[], &bare), Refusal::MALFORMED);
}

#[test]
fn exactly_one_application_descriptor() {
    let none = make::application(0, 1, 1, &[0x01, 0]);
    let two = make::application(0, 1, 1, &LEAST.repeat(2));
    let one = make::application(0, 1, 1, &LEAST);
    let refusal = Refusal::NO_APPLICATION_DESCRIPTOR;
    refused(&make::table(&[], &none), refusal);
    refused(&make::table(&[], &two), refusal);
    refused(&make::table(&LEAST, &none), refusal);
    refused(&make::table(&[], &[one.clone(), two].concat()), refusal);
    // In the common loop there may be any number.
    assert!(table(&make::table(&LEAST.repeat(2), &one)).is_ok());
}
