//! The whole reading of a table: everything that can be asked for by place, beside the independent receiver's
//! tree; one place past each end, and far past it; and where every label leads.

use std::fmt::Debug;
use std::ops::Range;

use baseline::table::{self as tree, CodeClass, Content, NumberClass, Resolved, Selector, Span};
use baseline::Refusal;
use nebosvar::{Application, Class, Control, Descriptor, Item, ItemKind, Label, Scope, Table};

use crate::counts::{Call, Counts};
use crate::difference::{same, Same};
use crate::pair::their_refusal;

/// "No such place": it is of the question, and at no byte of the section.
const NO_PLACE: Refusal = Refusal::plain(19);
/// Far past every end.
const FAR: usize = usize::MAX;

const KINDS: [ItemKind; 5] = [
    ItemKind::Profile,
    ItemKind::Label,
    ItemKind::Name,
    ItemKind::Base,
    ItemKind::Identifier,
];

/// Compares all that can be asked of these bytes.
pub fn compare(section: &[u8], counts: &mut Counts) -> Same {
    let read = baseline::read_all(section);
    let mut reading = Reading { section, counts };
    reading.head(&read)?;
    match read {
        Err(refusal) => reading.refused(refusal),
        Ok(read) => reading.whole(&read),
    }
}

struct Reading<'a> {
    section: &'a [u8],
    counts: &'a mut Counts,
}

/// The calls: each asks us, and is told what the answer must be.
impl Reading<'_> {
    fn check<T: PartialEq + Debug>(
        &mut self,
        (call, asked): (Call, impl Debug),
        ours: Result<T, nebosvar::Refusal>,
        theirs: Result<T, Refusal>,
    ) -> Same {
        let ours = ours.map_err(their_refusal);
        if ours != theirs {
            return same(&format!("{call:?} {asked:?}"), &ours, &theirs);
        }
        self.counts.refusal(call, &ours);
        self.counts.found(ours.is_ok());
        Ok(())
    }

    fn application(&mut self, i: usize, theirs: Result<Application, Refusal>) -> Same {
        let ours = nebosvar::application(self.section, i);
        self.check((Call::Application, i), ours, theirs)
    }

    fn descriptor(&mut self, scope: Scope, j: usize, theirs: Result<Descriptor, Refusal>) -> Same {
        let ours = nebosvar::descriptor(self.section, scope, j);
        self.check((Call::Descriptor, (scope, j)), ours, theirs)
    }

    fn item(&mut self, at: (Scope, usize, ItemKind, usize), theirs: Result<Item, Refusal>) -> Same {
        let (scope, j, kind, k) = at;
        let ours = nebosvar::item(self.section, scope, j, kind, k);
        self.check((Call::Item, at), ours, theirs)
    }

    fn extension(
        &mut self,
        at: (Scope, usize, usize, usize),
        theirs: Result<Range<usize>, Refusal>,
    ) -> Same {
        let (scope, j, k, m) = at;
        let ours = nebosvar::extension(self.section, scope, j, k, m);
        self.check((Call::Extension, at), ours, theirs)
    }

    fn label(&mut self, i: usize, k: usize, theirs: Result<Label, Refusal>) -> Same {
        let ours = nebosvar::label(self.section, i, k);
        self.check((Call::Label, (i, k)), ours, theirs)
    }
}

/// What is asked for.
impl Reading<'_> {
    /// The header and the counts; the independent receiver has two readings of them.
    fn head(&mut self, read: &Result<tree::Section, Refusal>) -> Same {
        let counted = baseline::read(self.section).map(counted);
        let built = read.as_ref().map(built).map_err(|refusal| *refusal);
        same("baseline's read_all and read", &built, &counted)?;
        let ours = nebosvar::table(self.section);
        self.check((Call::Table, ()), ours, counted)
    }

    /// Whatever is asked of a refused section, its own refusal goes before 19, with the same place.
    fn refused(&mut self, refusal: Refusal) -> Same {
        for place in [0, FAR] {
            self.application(place, Err(refusal))?;
            self.label(place, place, Err(refusal))?;
            self.no_descriptor(Scope::Common, place, refusal)?;
            self.no_descriptor(Scope::Application(place), place, refusal)?;
        }
        Ok(())
    }

    /// Nothing of a descriptor is answered, but this refusal.
    fn no_descriptor(&mut self, scope: Scope, j: usize, refusal: Refusal) -> Same {
        self.descriptor(scope, j, Err(refusal))?;
        self.item((scope, j, ItemKind::Label, 0), Err(refusal))?;
        self.extension((scope, j, 0, 0), Err(refusal))
    }

    fn whole(&mut self, read: &tree::Section) -> Same {
        self.descriptors(Scope::Common, &read.common)?;
        for (i, application) in read.applications.iter().enumerate() {
            self.application(i, Ok(our_application(application)))?;
            self.descriptors(Scope::Application(i), &application.descriptors)?;
            self.labels(i, application, read)?;
        }
        for past in [read.applications.len(), FAR] {
            self.application(past, Err(NO_PLACE))?;
            self.label(past, 0, Err(NO_PLACE))?;
            self.no_descriptor(Scope::Application(past), 0, NO_PLACE)?;
        }
        Ok(())
    }

    fn labels(&mut self, i: usize, application: &tree::Application, read: &tree::Section) -> Same {
        let labels = application.labels();
        for (k, label) in labels.iter().enumerate() {
            let resolved = read.resolve(application, *label);
            self.label(i, k, Ok(our_label(resolved)))?;
        }
        self.label(i, labels.len(), Err(NO_PLACE))
    }

    fn descriptors(&mut self, scope: Scope, all: &[tree::Descriptor]) -> Same {
        for (j, descriptor) in all.iter().enumerate() {
            self.descriptor(scope, j, Ok(our_descriptor(descriptor)))?;
            self.items(scope, j, &descriptor.content)?;
            self.extensions(scope, j, bases(&descriptor.content))?;
        }
        self.no_descriptor(scope, all.len(), NO_PLACE)?;
        self.no_descriptor(scope, FAR, NO_PLACE)
    }

    /// The items of every kind: a descriptor has none of a kind that is not its own.
    fn items(&mut self, scope: Scope, j: usize, content: &Content) -> Same {
        for kind in KINDS {
            let items = our_items(content, kind);
            let past = items.len();
            for (k, item) in items.into_iter().enumerate() {
                self.item((scope, j, kind, k), Ok(item))?;
            }
            self.item((scope, j, kind, past), Err(NO_PLACE))?;
        }
        Ok(())
    }

    fn extensions(&mut self, scope: Scope, j: usize, bases: &[tree::Base]) -> Same {
        for (k, base) in bases.iter().enumerate() {
            for (m, extension) in base.extensions.iter().enumerate() {
                self.extension((scope, j, k, m), Ok(range(*extension)))?;
            }
            self.extension((scope, j, k, base.extensions.len()), Err(NO_PLACE))?;
        }
        self.extension((scope, j, bases.len(), 0), Err(NO_PLACE))
    }
}

fn range(span: Span) -> Range<usize> {
    span.position..span.position + span.length
}

fn counted(table: baseline::Table) -> Table {
    Table {
        test: table.test,
        application_type: table.application,
        version: table.version,
        section: table.section,
        last: table.last,
        common: table.common,
        applications: table.applications,
    }
}

fn built(read: &tree::Section) -> Table {
    Table {
        test: read.test,
        application_type: read.application,
        version: read.version,
        section: read.section,
        last: read.last,
        common: read.common.len(),
        applications: read.applications.len(),
    }
}

fn our_application(application: &tree::Application) -> Application {
    Application {
        organisation: application.organisation,
        number: application.number,
        class: our_class(application.number_class()),
        code: application.code,
        control: match application.code_class() {
            CodeClass::Autostart => Control::Autostart,
            CodeClass::Present => Control::Present,
            CodeClass::Destroy => Control::Destroy,
            CodeClass::Kill => Control::Kill,
            CodeClass::Remote => Control::Remote,
            CodeClass::Reserved => Control::Reserved,
        },
        descriptors: application.descriptors.len(),
    }
}

fn our_class(class: NumberClass) -> Class {
    match class {
        NumberClass::Unsigned => Class::Unsigned,
        NumberClass::Signed => Class::Signed,
        NumberClass::Other => Class::Other,
        NumberClass::Wildcard => Class::Wildcard,
    }
}

fn our_label(resolved: Resolved) -> Label {
    match resolved {
        Resolved::Own(place) => Label::Own(place),
        // There is one common loop, the section's.
        Resolved::Common(place) => Label::Common {
            loop_number: 0,
            place,
        },
        Resolved::Unresolved => Label::Unresolved,
    }
}

fn our_descriptor(descriptor: &tree::Descriptor) -> Descriptor {
    match &descriptor.content {
        Content::Application {
            profiles,
            bound,
            visibility,
            priority,
            labels,
        } => Descriptor::Application {
            profiles: profiles.len(),
            bound: u8::from(*bound),
            visibility: *visibility,
            priority: *priority,
            labels: labels.len(),
        },
        Content::Names(names) => Descriptor::Names(names.len()),
        Content::Transport {
            protocol,
            label,
            selector,
        } => our_transport(*protocol, *label, selector),
        Content::Identifiers(identifiers) => Descriptor::Identifiers(identifiers.len()),
        Content::Path(path) => Descriptor::Path(range(*path)),
        Content::Raw(contents) => Descriptor::Raw {
            tag: descriptor.tag,
            contents: range(*contents),
        },
    }
}

fn our_transport(protocol: u16, label: u8, selector: &Selector) -> Descriptor {
    match selector {
        Selector::Local { component } => Descriptor::Local {
            label,
            component: *component,
        },
        Selector::Remote {
            network,
            stream,
            service,
            component,
        } => Descriptor::Remote {
            label,
            network: *network,
            transport: *stream,
            service: *service,
            component: *component,
        },
        Selector::Bases(bases) => Descriptor::Bases {
            label,
            bases: bases.len(),
        },
        Selector::Raw(selector) => Descriptor::Selector {
            protocol,
            label,
            selector: range(*selector),
        },
    }
}

/// The bases of a transport of protocol 3; none of any other descriptor.
fn bases(content: &Content) -> &[tree::Base] {
    match content {
        Content::Transport {
            selector: Selector::Bases(bases),
            ..
        } => bases,
        _ => &[],
    }
}

/// The items of a kind, in their order.
fn our_items(content: &Content, kind: ItemKind) -> Vec<Item> {
    match (content, kind) {
        (Content::Application { profiles, .. }, ItemKind::Profile) => {
            profiles.iter().map(our_profile).collect()
        }
        (Content::Application { labels, .. }, ItemKind::Label) => {
            labels.iter().map(|label| Item::Label(*label)).collect()
        }
        (Content::Names(names), ItemKind::Name) => names.iter().map(our_name).collect(),
        (_, ItemKind::Base) => bases(content).iter().map(our_base).collect(),
        (Content::Identifiers(identifiers), ItemKind::Identifier) => {
            identifiers.iter().map(our_identifier).collect()
        }
        _ => vec![],
    }
}

fn our_profile(profile: &tree::Profile) -> Item {
    Item::Profile {
        number: profile.profile,
        major: profile.major,
        minor: profile.minor,
        micro: profile.micro,
    }
}

fn our_name(name: &tree::Name) -> Item {
    Item::Name {
        language: name.language,
        text: range(name.text),
    }
}

fn our_base(base: &tree::Base) -> Item {
    Item::Base {
        text: range(base.base),
        extensions: base.extensions.len(),
    }
}

fn our_identifier(identifier: &tree::Identifier) -> Item {
    Item::Identifier {
        organisation: identifier.organisation,
        number: identifier.number,
        class: our_class(tree::number_class(identifier.number)),
        priority: identifier.priority,
    }
}
