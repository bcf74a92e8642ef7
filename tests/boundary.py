"""The C boundary as it is declared three times: in the Rattle source, in include/nebosvar.h and in rust/nebosvar/src. Each is read into one form,

    structs     name -> [(field, type, count)]
    calls       name -> ([(parameter, type)], answer)
    constants   lists of (name, number), one for each enum

with C's names and Rust's types; `faults` tells where the header differs from the source, and `swaps` makes wrong headers to try that on. The row that
the writer of drift lists is given is no struct of the source, which takes its numbers; it is held to the definition that names them."""
import itertools
import re

from second import ROOT

CRATES = ROOT / "crates"
RUST = ROOT / "rust" / "nebosvar" / "src"
HEADER = ROOT / "include" / "nebosvar.h"
SOURCES = [CRATES / c / "src" / "lib.rt" for c in ("nebosvar", "ait_numbers", "carousel_record", "carousel_messages", "carousel_play")]
DRIFT = CRATES / "drift_list" / "src" / "lib.rt"
ROWS = CRATES / "drift_list" / "specs" / "Writing.antt"
TRANSPORT = [CRATES / c / "src" / "lib.rt" for c in ("transport", "transport_write")]
PACKETS = CRATES / "nebosvar" / "src" / "packets.rt"
LIMITS = [CRATES / c / "src" / f for c, f in (("carousel_messages", "limits.rt"), ("carousel_record", "marks.rt"), ("carousel_play", "lib.rt"))]

# ---- names that differ, and why

# In C a call and a type can not both be `nebosvar_table`.
STRUCTS = {
    "Module": "module",
    "Carousel": "record",
    "FateOut": "fate",
    "TakenOut": "taken",
    "PassageOut": "passage",
    "PartOut": "part",
    "LackOut": "lack",
    "TableOut": "table_head",
    "ApplicationOut": "application_head",
    "DescriptorOut": "descriptor_head",
    "ItemOut": "item_found",
    "LabelOut": "label_found",
    "ListOut": "list",
    "FixOut": "found",
    "WrittenOut": "written",
    "Listed": "listed",
    "Playlist": "playlist",
    "CountedOut": "counted",
    "FedOut": "fed",
    "GatheredOut": "gathered",
    "PackedOut": "packed",
}
RUST_STRUCTS = {"Row": "fix"}  # in Rust, `Fix` is a record that was read
PARAMETERS = {"c": "record"}  # `record` is a word of the contracts' language
LENGTHS = {"image": "room", "out": "room", "state": "state_length"}  # a slice is a pointer and a length; where it is written to, that has a name of its own
READ = {"nebosvar_write_section": ["image"]}  # the shore's image is not written to
ARRAYS = {"language": ["first", "second", "third"]}  # three fields are an array
# Of packets: in a header, which has the limits of all; in the source; in the Rust crate.
TRANSPORT_LIMITS = [("TRANSPORT_STATE", "STATE_LENGTH", "STATE"), ("TRANSPORT_ROOM", "LEAST_ROOM", "ROOM"), ("MOST_PACKETS", "MOST_PACKETS", "MOST_PACKETS")]
VARIANTS = {"KIND_REFUSED": "KIND_NONE"}  # the section's kind where it was refused
WORDS = {"×": "*", "not as above": "not as in the paper"}  # of the paper's table, in a header
C_TYPES = {"uint8_t": "u8", "uint16_t": "u16", "uint32_t": "u32", "int32_t": "i32", "size_t": "usize"}


def blank(text):
    """Comments as spaces: every place stays what it is."""
    return re.sub(r"/\*.*?\*/|//[^\n]*", lambda m: re.sub(r"[^\n]", " ", m[0]), text, flags=re.S)


def c_type(t):
    """A type of the source, as it crosses: a struct by its C name."""
    return "nebosvar_" + STRUCTS[t] if t in STRUCTS else t


# ---- the Rattle source


def body(path, function):
    """What a function does that stands in a file, or in one of a crate's files."""
    text = "".join(p.read_text() for p in (sorted(path.glob("*.rt")) if path.is_dir() else [path]))
    return re.search(r"fn %s\(.*?\n\{\n(.*?)\n\}\n" % function, blank(text), re.S)[1]


def limits():
    """The constants that the source gives a number to, in the order in which it does."""
    numbers = {}
    for path in LIMITS:
        for name, value in re.findall(r"^pub const (\w+): \w+ = ([^;]+);", path.read_text(), re.M):
            numbers[name] = eval(re.sub(r"\w+::", "", value).replace("/", "//"), {}, numbers)
    return numbers


def transport_limits(text):
    """The limits of packets that a crate's text gives, under the header's names."""
    numbers = {name: int(value.replace("_", "")) for name, value in re.findall(r"^pub const (\w+): usize = ([\d_]+);", text, re.M)}
    return [(name, numbers.get(here, numbers.get(there))) for name, here, there in TRANSPORT_LIMITS]


def field(name, type_):
    array = re.fullmatch(r"\[(\w+); ([\w:]+)\]", type_)
    if not array:
        return name, c_type(type_), 1
    count = array[2].split("::")[-1]
    return name, c_type(array[1]), limits().get(count) or int(count)


def source_structs(text):
    for name, inside in re.findall(r"#\[repr\(C\)\]\s*(?:#\[derive\([^)]*\)\]\s*)?pub struct (\w+) \{(.*?)\}", text, re.S):
        yield c_type(name), [field(*f) for f in re.findall(r"pub (\w+): ([^,\n]+),", inside)]


def crossed(call, name, type_):
    """A parameter as C has it."""
    behind = re.fullmatch(r"&(mut )?(?:\[(u8|i32)\]|([A-Z]\w*))", type_)
    if not behind:
        return [(name, type_)]
    pointer = "*mut " if behind[1] else "*const "
    if behind[3]:
        return [(PARAMETERS.get(name, name), pointer + c_type(behind[3]))]
    return [(name, pointer + behind[2]), ("length" if name in READ.get(call, []) else LENGTHS.get(name, "length"), "usize")]


def source_calls(text):
    for name, parameters, answer in re.findall(r"#\[unsafe\(no_mangle\)\]\s*pub extern \"C\" fn (\w+)\((.*?)\) -> (\w+)", text, re.S):
        yield name, ([c for p in re.findall(r"(\w+): ([^,]+)", parameters) for c in crossed(name, p[0], p[1].strip())], c_type(answer))


def row(calls):
    """The row that the writer is given, as the definitions have it: by the places where the numbers are looked for, and as values are given in numbers. Each
    number is of the type that the call's slice has."""
    text = ROWS.read_text()
    fields = re.search(r"^pub record InFields .*? where\n((?:  .*\n)+)", text, re.M)[1]
    looked = re.findall(r"pub (\w+) : \w+ \S.*? \(cell ns (?:i|\(i \+ (\d)\))\)$", fields, re.M)
    given = re.search(r"^rows_of \(f ∷ fs\) = (.*) ∷ rows_of fs$", text, re.M)[1]
    assert [int(k or 0) for _, k in looked] == list(range(fields.count("\n"))), looked
    assert [n for n, _ in looked] == re.findall(r"f\.(\w+)", given), (looked, given)
    one = dict(calls["nebosvar_list_write"][0])["numbers"].removeprefix("*const ")
    return {"nebosvar_fix": [(n, one, 1) for n, _ in looked]}


def variants(prefix, told):
    return [(VARIANTS.get(n, n), int(k)) for n, k in (("%s_%s" % (prefix, v.upper()), k) for v, k in told)]


def matched(path, function):
    """A function that is a match with a number for each case; of a case within another the inner name, REFUSED for an `Err`."""
    return [(v or "Refused", n) for v, n in re.findall(r"(?:Err\(\w+\)|\w+::(\w+)\)*) => (\d+),", body(path, function))]


def kind_told(path, builder):
    return re.search(r"\b(?:kind: |counted\(|placed\()(\d+)", body(path, builder))[1]


def descriptor_kinds(path):
    for variant, builder in re.findall(r"Described::(\w+)\(\w+\) => (\w+)\(", body(path, "described_out")):
        yield variant, kind_told(path, builder)


def item_kinds(path):
    """By what is asked for, which must be what is told."""
    asked = [(v, k) for k, v in re.findall(r"(\d+) => Some\(Repeated::(\w+)s\),", body(path, "asked_by"))]
    told = {(v, kind_told(path, f)) for v, f in re.findall(r"Item::(\w+)\(\w+\) => (\w+)\(", body(path, "found_out"))}
    assert set(asked) == told, (asked, told)
    return asked


def refusals():
    """Numbers and words by docs/NUMBERS.md, which tests/numbers.py holds to the definitions; names by the Rust crate."""
    words = dict(re.findall(r"^\| (\d+) \| ([^|]+) \|", (ROOT / "docs" / "NUMBERS.md").read_text(), re.M))
    for there, here in WORDS.items():
        words = {n: w.replace(there, here) for n, w in words.items()}
    names = refusal_names((RUST / "refusal.rs").read_text())
    assert [n for _, n in names] == list(words), (names, list(words))
    return [("ACCEPTED", 0)] + [(name, int(n)) for name, n in names], {name: words[n] for name, n in names}


def refusal_names(text):
    """Of the Rust crate, in its order: a constant is a refusal without a place, a function one with its place; 2 to 6 are these (02, §9)."""
    plain = r"pub const (\w+): Refusal = Refusal::plain\((\d+)\);"
    placed = r"pub const fn (\w+)\(place: usize\) -> Refusal \{\s*Refusal::at\((\d+), place\)\s*\}"
    found = re.findall(plain + "|" + placed, text)
    assert [n for _, _, _, n in found if n] == list("23456"), found
    return [((constant or function).upper(), n or k) for constant, n, function, k in found]


def short_words():
    """The words of docs/NUMBERS.md without what only a reader of the table needs."""
    words = re.findall(r"^\| (\d+) \| ([^|]+) \|", (ROOT / "docs" / "NUMBERS.md").read_text(), re.M)
    return {n: re.sub(r" \((?:an|carousel) [a-z ]+\)$|^DDB, hand-out: ", "", w.replace("as above", "as in the paper")) for n, w in words}


def rust_words():
    """What the Rust crate prints of each refusal."""
    return dict(re.findall(r'^ +(\d+) => "(.*)",$', (RUST / "refusal.rs").read_text(), re.M))


def source_constants():
    box, numbers = SOURCES[0], SOURCES[1].parent
    receiver = CRATES / "receiver" / "src" / "lib.rt"
    taken = re.search(r"Ok\(section\).*\bstop: (\d+)", body(box, "what_out"), re.S)[1]
    label = body(numbers, "label")
    found = [(v or "Unresolved", n) for v, n in re.findall(r"Ok\((?:Some\(Resolved::(\w+)[^=]*|None\)) => LabelOut \{[^}]*found: (\d+)", label)]
    assert re.search(r"Err\(r\) => LabelOut \{[^}]*\.\.LabelOut::default\(\)\s*\}", label), "what a refused label says of where it was found"
    places = re.findall(r"const (COMMON|NOWHERE): usize = (\w+);", SOURCES[1].read_text())
    assert [name for name, _ in places] == ["COMMON", "NOWHERE"], places
    return [
        refusals()[0],
        variants("KIND", matched(receiver, "kind_number")),
        [("TAKEN", int(taken))] + variants("STOP", matched(receiver, "stop_number")),
        list(limits().items()),
        variants("CLASS", matched(numbers, "class_number")),
        variants("CONTROL", matched(numbers, "control_number")),
        variants("DESCRIPTOR", descriptor_kinds(numbers)),
        variants("ITEM", item_kinds(numbers)),
        variants("FOUND", found),
        variants("STATE", matched(DRIFT, "state_number")),
        transport_limits("".join(p.read_text() for p in TRANSPORT)),
        variants("FED", matched(PACKETS, "kind_number")),
        *([(name, int(value, 16))] for name, value in places),
    ]


def source():
    text = "".join(blank(p.read_text()) for p in SOURCES)
    calls = dict(source_calls(text))
    structs = {**dict(source_structs(text)), **row(calls)}
    return {"structs": structs, "calls": calls, "constants": source_constants(), "words": refusals()[1], "unread": {}}


# ---- the header

STRUCT = re.compile(r"typedef struct \{(?P<inside>.*?)\} (\w+);", re.S)
FIELD = re.compile(r"(?P<type>\w+) (?P<name>\w+)(?:\[(?P<count>\w+)\])?;")
CALL = re.compile(r"^(\w+) (nebosvar_\w+)\((?P<inside>.*?)\);", re.M | re.S)
PARAMETER = re.compile(r"(?P<type>(?:const )?\w+ \*?)(?P<name>\w+)(?=,|$)")
ENUM = re.compile(r"enum \{(?P<inside>.*?)\}", re.S)
CONSTANT = re.compile(r"NEBOSVAR_(?P<name>\w+) = (?P<value>\d+|NEBOSVAR_\w+ [*/] (?:\d+|NEBOSVAR_\w+))(?=,|\s|$)")


def header_field(m, numbers):
    type_ = C_TYPES.get(m["type"], m["type"])
    if m["name"] in ARRAYS:
        assert int(m["count"]) == len(ARRAYS[m["name"]]), m[0]
        return [(n, type_, 1) for n in ARRAYS[m["name"]]]
    count = m["count"] or "1"
    count = numbers.get(count.removeprefix("NEBOSVAR_"), count)
    return [(m["name"], type_, int(count) if str(count).isdecimal() else count)]


def header_parameter(m):
    const, type_, star = re.fullmatch(r"(const )?(\w+) (\*)?", m["type"]).groups()
    return m["name"], ("*const " if const else "*mut ") * bool(star) + C_TYPES.get(type_, type_)


def unread(text):
    """What none of the forms above reads; a header should have nothing of that."""
    rest = text
    for whole, part in ((STRUCT, FIELD), (CALL, PARAMETER), (ENUM, CONSTANT)):
        yield from (part.sub("", w["inside"]) for w in whole.finditer(text) if w["inside"] != "void")
        rest = whole.sub("", rest)
    yield re.sub(r"^#.*$|extern \"C\" \{|^\}$", "", rest, flags=re.M)


def header_number(value, numbers):
    """A constant's number. C reads downwards, so what follows from others follows from those above it; else it is told as it stands."""
    try:
        return eval(value.replace("NEBOSVAR_", "").replace("/", "//"), {}, numbers)
    except NameError:
        return value


def header_constants(text):
    """By enum; and the numbers of all."""
    enums, numbers = [], {}
    for enum in ENUM.finditer(text):
        enums.append([])
        for m in CONSTANT.finditer(enum["inside"]):
            number = header_number(m["value"], numbers)
            enums[-1].append((m["name"], number))
            if number != m["value"]:
                numbers[m["name"]] = number
    return enums, numbers


def header(raw):
    text = blank(raw)
    left = [u for u in unread(text) if u.strip(" \n,;")]
    constants, numbers = header_constants(text)
    constants += [[(name, 2**64 - 1 if value == "SIZE_MAX" else value)] for name, value in re.findall(r"^#define (?:NEBOSVAR_)?(\w+) (.+)$", text, re.M)]
    structs = {s[2]: [f for m in FIELD.finditer(s["inside"]) for f in header_field(m, numbers)] for s in STRUCT.finditer(text)}
    calls = {c[2]: ([header_parameter(m) for m in PARAMETER.finditer(c["inside"])], c[1]) for c in CALL.finditer(text)}
    refused = re.search(r"NEBOSVAR_ACCEPTED.*?\}", raw, re.S)[0]
    words = dict(re.findall(r"NEBOSVAR_(\w+) = \d+,? +/\* (.*) \*/", refused))
    return {"structs": structs, "calls": calls, "constants": constants, "words": words, "unread": {u: u for u in left}}


def faults(wanted, raw):
    """Where these declarations are not the wanted ones; both ways, and in order."""
    declared = header(raw)
    for what in wanted:
        a, b = ({e[0][0]: e for e in x[what]} if what == "constants" else x[what] for x in (wanted, declared))
        for name in a.keys() | b.keys():
            if a.get(name) != b.get(name):
                yield "%s %s: %s in the source, %s in the header" % (what, name, a.get(name), b.get(name))


# ---- wrong headers


def exchanged(text, a, b):
    """With what stands at two places exchanged."""
    (i, j), (k, l) = sorted((a, b))
    return text[:i] + text[k:l] + text[j:k] + text[i:j] + text[l:]


def swaps(raw):
    """Two names of fields or parameters of one type, two values or two names of an enum, exchanged."""
    text = blank(raw)
    for whole, part, alike, exchange in (
        (STRUCT, FIELD, ("type", "count"), ["name"]),
        (CALL, PARAMETER, ("type",), ["name"]),
        (ENUM, CONSTANT, (), ["value", "name"]),
    ):
        for w in whole.finditer(text):
            parts = part.finditer(text, w.start("inside"), w.end("inside"))
            for a, b in itertools.combinations(parts, 2):
                if all(a[g] == b[g] for g in alike):
                    for g in exchange:
                        yield "%s and %s exchanged" % (a[0], b[0]), exchanged(raw, a.span(g), b.span(g))


def others(raw):
    """Other wrong headers: (what is wrong, text)."""
    for old, new in (
        ("const uint8_t *image, size_t room", "uint8_t *image, size_t room"),
        ("uint16_t application_type;", "uint32_t application_type;"),
        ("    uint8_t tag;\n", ""),
        ("    uint8_t tag;\n", "    uint8_t tag;\n    uint8_t extra;\n"),
        ("    NEBOSVAR_CLASS_OTHER = 3,\n", ""),
        ("    NEBOSVAR_CLASS_OTHER = 3,\n", "    NEBOSVAR_CLASS_OTHER = 3,\n    NEBOSVAR_CLASS_MORE = 5,\n"),
        ("nebosvar_module modules[NEBOSVAR_MOST_MODULES]", "nebosvar_module modules[NEBOSVAR_MARK_WORDS]"),
        ("uint32_t marks[NEBOSVAR_MARK_WORDS]", "uint32_t marks[NEBOSVAR_MODULE_WORDS]"),
        ("NEBOSVAR_MOST_BLOCKS / 32", "NEBOSVAR_MOST_BLOCKS / 16"),
        ("NEBOSVAR_MOST_BLOCKS / 32", "NEBOSVAR_MOST_BYTES / 32"),
        ("NEBOSVAR_MOST_MODULES * NEBOSVAR_MODULE_WORDS", "NEBOSVAR_MOST_BLOCKS * NEBOSVAR_MODULE_WORDS"),
        ("NEBOSVAR_MOST_MODULES * NEBOSVAR_MODULE_WORDS", "NEBOSVAR_MOST_MODULES * NEBOSVAR_MORE_WORDS"),
        ("NEBOSVAR_MOST_BLOCKS = 1024,", "NEBOSVAR_MOST_BLOCKS = 256,"),
        ("NEBOSVAR_MOST_MODULES = 32,", "NEBOSVAR_MOST_MODULES = 16,"),
        ("NEBOSVAR_MOST_BYTES = 262144,", "NEBOSVAR_MOST_BYTES = 65536,"),
        ("a size 0 or over 1,024 * blockSize", "a size 0 or over 256 * blockSize"),
        ("uint8_t language[3];", "uint8_t language[3], spare;"),
        ("    uint8_t bound;\n", "    uint8_t bound : 1;\n"),
        ("uint8_t *image, size_t room, size_t budget);\n\n/* Where", "uint8_t *image, size_t room, size_t budget, ...);\n\n/* Where"),
        ("NEBOSVAR_COMMON SIZE_MAX", "NEBOSVAR_COMMON 0xFFFFFFFF"),
        ("NEBOSVAR_COMMON SIZE_MAX\n", "NEBOSVAR_COMMON SIZE_MAX\n#define NEBOSVAR_FAR 7\n"),
        ("NEBOSVAR_NOWHERE SIZE_MAX", "NEBOSVAR_NOWHERE 0"),
        ("#define NEBOSVAR_NOWHERE SIZE_MAX\n", ""),
        ("    size_t refused_at; /* of refusals 2 to 6;", "    uint32_t refused_at; /* of refusals 2 to 6;"),
        ("    size_t refused_at; /* of a section; always NEBOSVAR_NOWHERE in nebosvar_handout's answer */\n", ""),
        ("/* Which 0x02", "extern int nebosvar_more;\n/* Which 0x02"),
        ("nebosvar_part nebosvar_extension", "nebosvar_lack nebosvar_extension"),
        ("/* no such place */", "/* module not complete */"),
        ("const int32_t *numbers", "const uint8_t *numbers"),
        ("const int32_t *numbers", "int32_t *numbers"),
        ("    int32_t minute;\n", "    uint16_t minute;\n"),
        ("    int32_t minute;\n", "    int32_t minute;\n    int32_t spare;\n"),
        ("    NEBOSVAR_STATE_LASTKNOWN = 2\n", "    NEBOSVAR_STATE_LASTKNOWN = 2,\n    NEBOSVAR_STATE_REFUSED = 3\n"),
        ("NEBOSVAR_LIST_ROOM = 37,", "NEBOSVAR_LIST_ROOM = 38,"),
        ("/* spare */", "/* minute */"),
        ("nebosvar_list nebosvar_list_read", "nebosvar_written nebosvar_list_read"),
        ("*numbers, size_t length, uint8_t *out, size_t room", "*numbers, size_t length, const uint8_t *out, size_t room"),
        ("*section, size_t length, uint8_t *out, size_t room", "*section, size_t length, const uint8_t *out, size_t room"),
        ("size_t place, uint8_t *out, size_t room", "size_t place, const uint8_t *out, size_t room"),
        ("const uint8_t *image, size_t length", "uint8_t *image, size_t length"),
        ("const uint8_t *image, size_t length", "const uint8_t *image, size_t room"),
        ("const nebosvar_playlist *playlist, ", "nebosvar_playlist *playlist, "),
        ("const nebosvar_playlist *playlist);", "const nebosvar_record *playlist);"),
        ("nebosvar_counted nebosvar_section_count", "nebosvar_written nebosvar_section_count"),
        ("nebosvar_listed modules[NEBOSVAR_MOST_MODULES]", "nebosvar_module modules[NEBOSVAR_MOST_MODULES]"),
        ("nebosvar_listed modules[NEBOSVAR_MOST_MODULES]", "nebosvar_listed modules[NEBOSVAR_MODULE_WORDS + 1]"),
        ("NEBOSVAR_LARGEST_SECTION = 4096 ", "NEBOSVAR_LARGEST_SECTION = 4095 "),
        ("NEBOSVAR_SHORT_BUFFER = 21,", "NEBOSVAR_SHORT_BUFFER = 22,"),
        ("NEBOSVAR_TRANSPORT_STATE = 4287,", "NEBOSVAR_TRANSPORT_STATE = 4286,"),
        ("NEBOSVAR_MOST_PACKETS = 23 ", "NEBOSVAR_MOST_PACKETS = 22 "),
        ("    size_t refused43;\n", ""),
        ("const uint8_t *packets, size_t length", "uint8_t *packets, size_t length"),
        ("nebosvar_packed nebosvar_write_packets", "nebosvar_written nebosvar_write_packets"),
        ("/* other PID */", "/* sync */"),
    ):
        assert raw.count(old) == 1, old
        yield "%r for %r" % (new, old), raw.replace(old, new)


# ---- the Rust crate


def snake(name):
    if name in RUST_STRUCTS:
        return "nebosvar_" + RUST_STRUCTS[name]
    return "nebosvar_" + re.sub(r"(?<!^)(?=[A-Z])", "_", name).lower()


def rust_type(t):
    pointer, name = re.fullmatch(r"(\*\w+ )?(\w+)", t).groups()
    return (pointer or "") + (snake(name) if name[0].isupper() else name)


def rust_limits():
    """The limits as the Rust crate gives them, in its order; one may follow from those above it."""
    numbers = {}
    for name, value in re.findall(r"^pub const (\w+): usize = ([^;]+);", "".join((RUST / f).read_text() for f in ("limits.rs", "player.rs")), re.M):
        numbers[name] = eval(value.replace("/", "//"), {}, numbers)
    return numbers


def rust():
    """The structs and calls of the Rust crate's declarations."""
    numbers = rust_limits()
    text = "".join(blank((RUST / f).read_text()) for f in ("ffi.rs", "record.rs", "drift.rs", "player.rs"))
    structs = {}
    for name, inside in re.findall(r"#\[repr\(C\)\][^{]*pub struct (\w+) \{(.*?)\}", text, re.S):
        fields = structs[snake(name)] = []
        for n, t in re.findall(r"pub (\w+): ([^,\n]+),", inside):
            one, count = re.fullmatch(r"\[?(\w+)(?:; (\w+)\])?", t).groups()
            fields += [(m, one, 1) for m in ARRAYS[n]] if n in ARRAYS else [(n, rust_type(one), numbers.get(count) or int(count or 1))]
    calls = {}
    for name, parameters, answer in re.findall(r"pub fn (nebosvar_\w+)\((.*?)\) -> (\w+);", text, re.S):
        calls[name] = [(n, rust_type(t)) for n, t in re.findall(r"(\w+): ([^,\n]+?)(?=,|$)", parameters)], rust_type(answer)
    return {"structs": structs, "calls": calls}


def rust_places():
    """The numbers that stand for no place, by C's names."""
    ends = {"usize::MAX": 2**64 - 1}
    return {name: ends.get(value, value) for name, value in re.findall(r"^pub const (\w+): usize = (.+);$", (RUST / "ffi.rs").read_text(), re.M)}


def rust_constants():
    """The numbers that the Rust crate takes for each case, by C's names; and those that it gives."""
    prefix = {"Kind": "KIND", "Stop": "STOP", "Class": "CLASS", "Control": "CONTROL", "Descriptor": "DESCRIPTOR", "Item": "ITEM", "Label": "FOUND", "State": "STATE", "PacketKind": "FED"}
    text = "".join(blank((RUST / f).read_text()) for f in ("answer.rs", "table.rs", "drift.rs", "transport.rs"))
    taken = [("%s_%s" % (prefix[e], v.upper()), int(n)) for n, e, v in re.findall(r"(\d+) => (?:Ok\()?(\w+)::(\w+)", text) if e in prefix]
    given = []
    for enum, name in (("ItemKind", "ITEM"), ("State", "STATE")):
        inside = re.search(r"pub enum %s \{(.*?)\}" % enum, text, re.S)[1]
        given += [("%s_%s" % (name, v.upper()), int(n)) for v, n in re.findall(r"(\w+) = (\d+),", inside)]
    return taken, given
