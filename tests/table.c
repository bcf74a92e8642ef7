/* What `inspect` prints (its lines: tests/test_inspect.py), over the archive: all that can be asked of each table by every call that
 * reads one, and of the record at the end. What no line shows is checked beside it; a fault is told, and ends the program with 1.
 * tests/embed.py compiles it and compares what it prints. */
#include <stddef.h>
#include <stdio.h>
#include <stdlib.h>
#include <unistd.h>

#include "nebosvar.h"

/* The record as the archive has it: 8 bytes, 32 entries of 16, and 1,024 words of marks. */
_Static_assert(NEBOSVAR_MODULE_WORDS == 32 && NEBOSVAR_MARK_WORDS == 1024, "words of marks");
_Static_assert(sizeof(nebosvar_module) == 16, "an entry");
_Static_assert(offsetof(nebosvar_record, modules) == 8, "entries behind the numbers");
_Static_assert(offsetof(nebosvar_record, marks) == 520, "marks behind the entries");
_Static_assert(sizeof(nebosvar_record) == 4616, "nothing behind the marks");

static const char *const kinds[] = {
    [NEBOSVAR_KIND_NONE] = "none", [NEBOSVAR_KIND_TABLE] = "table",   [NEBOSVAR_KIND_NEW] = "new",
    [NEBOSVAR_KIND_SAME] = "same", [NEBOSVAR_KIND_STORED] = "stored", [NEBOSVAR_KIND_REPEATED] = "repeated",
};
static const char *const stops[] = {
    [NEBOSVAR_STOP_END] = "end",       [NEBOSVAR_STOP_STUFFING] = "stuffing", [NEBOSVAR_STOP_SHORT] = "short",
    [NEBOSVAR_STOP_BUDGET] = "budget", [NEBOSVAR_STOP_STATE] = "state",
};
static const char *const classes[] = {
    [NEBOSVAR_CLASS_UNSIGNED] = "unsigned", [NEBOSVAR_CLASS_SIGNED] = "signed",
    [NEBOSVAR_CLASS_OTHER] = "other",       [NEBOSVAR_CLASS_WILDCARD] = "wildcard",
};
static const char *const controls[] = {
    [NEBOSVAR_CONTROL_AUTOSTART] = "autostart", [NEBOSVAR_CONTROL_PRESENT] = "present", [NEBOSVAR_CONTROL_DESTROY] = "destroy",
    [NEBOSVAR_CONTROL_KILL] = "kill",           [NEBOSVAR_CONTROL_REMOTE] = "remote",   [NEBOSVAR_CONTROL_RESERVED] = "reserved",
};
static const char *const found[] = {
    [NEBOSVAR_FOUND_OWN] = "own", [NEBOSVAR_FOUND_COMMON] = "common", [NEBOSVAR_FOUND_UNRESOLVED] = "unresolved",
};

/* What `inspect` reads, and its image. The program keeps to 65,536 bytes of each; a record's sizes together may be more, and are 15 then. */
enum { READ = 65536, IMAGE = 65536 };

static uint8_t stretch[READ], image[IMAGE];

/* The section that is read. */
static const uint8_t *section;
static size_t length;

static void must(int holds, const char *what)
{
    if (holds)
        return;
    fprintf(stderr, "table: not so: %s\n", what);
    exit(1);
}

/* A call's refusal and its place are these. */
static int refused_so(uint8_t refusal, size_t at, uint8_t wanted, size_t place)
{
    return refusal == wanted && at == place;
}

/* It is refused with 19, which has no place in the section itself. */
static int not_there(uint8_t refusal, size_t at)
{
    return refused_so(refusal, at, NEBOSVAR_NO_PLACE, NEBOSVAR_NOWHERE);
}

/* Nothing is refused, and at no place. */
static int accepted(uint8_t refusal, size_t at)
{
    return refused_so(refusal, at, NEBOSVAR_ACCEPTED, NEBOSVAR_NOWHERE);
}

/* The line's name, the descriptor's loop and its place there. */
static void begin(const char *name, size_t application, size_t descriptor)
{
    if (application == NEBOSVAR_COMMON)
        printf("%s,common,%zu", name, descriptor);
    else
        printf("%s,%zu,%zu", name, application, descriptor);
}

/* Only an application's labels are looked up. */
static void say_label(size_t application, size_t k, uint8_t label)
{
    nebosvar_label_found x;
    printf(",%zu,%u", k, label);
    if (application == NEBOSVAR_COMMON) {
        puts(",,");
        return;
    }
    x = nebosvar_label(section, length, application, k);
    must(accepted(x.refusal, x.refused_at) && x.common == 0, "a label of an application is found or not, in the section's own loop");
    printf(",%s,", found[x.found]);
    if (x.found != NEBOSVAR_FOUND_UNRESOLVED)
        printf("%zu", x.place);
    putchar('\n');
}

static void say_extensions(size_t application, size_t descriptor, size_t base, size_t count)
{
    for (size_t m = 0; m < count; m++) {
        nebosvar_part x = nebosvar_extension(section, length, application, descriptor, base, m);
        must(accepted(x.refusal, x.refused_at), "each extension that is counted is found");
        begin("extension", application, descriptor);
        printf(",%zu,%zu,%zu,%zu\n", base, m, x.at, x.length);
    }
}

static int class_of(uint16_t number)
{
    if (number < 0x4000)
        return NEBOSVAR_CLASS_UNSIGNED;
    if (number < 0x8000)
        return NEBOSVAR_CLASS_SIGNED;
    return number < 0xFFFE ? NEBOSVAR_CLASS_OTHER : NEBOSVAR_CLASS_WILDCARD;
}

static void say_item(size_t application, size_t descriptor, uint8_t kind, size_t k)
{
    nebosvar_item_found x = nebosvar_item(section, length, application, descriptor, kind, k);
    must(accepted(x.refusal, x.refused_at) && x.kind == kind, "each item that is counted is found, and is of the kind that was asked for");
    must(x.class_number == (kind == NEBOSVAR_ITEM_IDENTIFIER ? class_of(x.number) : 0), "an identifier's number is classed");
    switch (kind) {
    case NEBOSVAR_ITEM_PROFILE:
        begin("profile", application, descriptor);
        printf(",%zu,%u,%u,%u,%u\n", k, x.number, x.major, x.minor, x.micro);
        break;
    case NEBOSVAR_ITEM_NAME:
        begin("name", application, descriptor);
        printf(",%zu,%u,%zu,%zu\n", k, x.language[0] * 65536u + x.language[1] * 256u + x.language[2], x.at, x.length);
        break;
    case NEBOSVAR_ITEM_BASE:
        begin("base", application, descriptor);
        printf(",%zu,%zu,%zu,%zu\n", k, x.at, x.length, x.extensions);
        say_extensions(application, descriptor, k, x.extensions);
        break;
    case NEBOSVAR_ITEM_IDENTIFIER:
        begin("identifier", application, descriptor);
        printf(",%zu,%u,%u,%u\n", k, x.organisation, x.number, x.priority);
        break;
    case NEBOSVAR_ITEM_LABEL:
        begin("label", application, descriptor);
        say_label(application, k, x.label);
    }
}

static void say_contents(nebosvar_descriptor_head d)
{
    switch (d.kind) {
    case NEBOSVAR_DESCRIPTOR_APPLICATION:
        printf(",application,%zu,%u,%u,%u,%zu\n", d.count, d.bound, d.visibility, d.priority, d.labels);
        break;
    case NEBOSVAR_DESCRIPTOR_NAMES:
        printf(",names,%zu\n", d.count);
        break;
    case NEBOSVAR_DESCRIPTOR_LOCAL:
        printf(",carousel,%u,0,,,,%u\n", d.label, d.component);
        break;
    case NEBOSVAR_DESCRIPTOR_REMOTE:
        printf(",carousel,%u,1,%u,%u,%u,%u\n", d.label, d.network, d.transport, d.service, d.component);
        break;
    case NEBOSVAR_DESCRIPTOR_BASES:
        printf(",bases,%u,%zu\n", d.label, d.count);
        break;
    case NEBOSVAR_DESCRIPTOR_SELECTOR:
        printf(",selector,%u,%u,%zu,%zu\n", d.protocol, d.label, d.at, d.length);
        break;
    case NEBOSVAR_DESCRIPTOR_IDENTIFIERS:
        printf(",identifiers,%zu\n", d.count);
        break;
    case NEBOSVAR_DESCRIPTOR_PATH:
        printf(",path,%zu,%zu\n", d.at, d.length);
        break;
    case NEBOSVAR_DESCRIPTOR_RAW:
        printf(",raw,%zu,%zu\n", d.at, d.length);
    }
}

/* The items of a kind, and that there are no more. */
static void say_items(size_t application, size_t descriptor, uint8_t kind, size_t count)
{
    nebosvar_item_found past = nebosvar_item(section, length, application, descriptor, kind, count);
    for (size_t k = 0; k < count; k++)
        say_item(application, descriptor, kind, k);
    must(not_there(past.refusal, past.refused_at), "no item after the last");
}

/* A loop's descriptors, each with its items: those that it counts by its own kind, and the labels. */
static void say_loop(size_t application, size_t count)
{
    nebosvar_descriptor_head past = nebosvar_descriptor(section, length, application, count);
    for (size_t j = 0; j < count; j++) {
        nebosvar_descriptor_head d = nebosvar_descriptor(section, length, application, j);
        must(accepted(d.refusal, d.refused_at), "each descriptor that is counted is found");
        begin("descriptor", application, j);
        printf(",%u", d.tag);
        say_contents(d);
        say_items(application, j, d.kind, d.count);
        say_items(application, j, NEBOSVAR_ITEM_LABEL, d.labels);
    }
    must(not_there(past.refusal, past.refused_at), "no descriptor after the last");
}

/* A place where no application is: neither it nor a label of it is found. */
static void no_application(size_t application)
{
    nebosvar_application_head a = nebosvar_application(section, length, application);
    nebosvar_label_found l = nebosvar_label(section, length, application, 0);
    must(not_there(a.refusal, a.refused_at), "no application after the last, nor is the common loop one");
    must(not_there(l.refusal, l.refused_at), "no application that has labels after the last, nor is the common loop one");
}

static void say_table(nebosvar_table_head t)
{
    must(accepted(t.refusal, t.refused_at), "a table is accepted as the section was");
    printf("table,%u,%u,%u,%u,%u,%zu,%zu\n", t.test, t.application_type, t.version, t.section, t.last, t.common, t.applications);
    say_loop(NEBOSVAR_COMMON, t.common);
    for (size_t i = 0; i < t.applications; i++) {
        nebosvar_application_head a = nebosvar_application(section, length, i);
        must(accepted(a.refusal, a.refused_at), "each application that is counted is found");
        printf("application,%zu,%u,%u,%s,%u,%s,%zu\n", i, a.organisation, a.number, classes[a.class_number], a.code, controls[a.control], a.descriptors);
        must(a.control == a.code || a.control == NEBOSVAR_CONTROL_RESERVED, "a class bears its code");
        say_loop(i, a.descriptors);
    }
    no_application(t.applications);
    no_application(NEBOSVAR_COMMON);
}

/* Whatever is asked of a refused table, its own refusal goes before 19, with the same place. */
static void refused(uint8_t refusal, size_t at)
{
    nebosvar_table_head t = nebosvar_table(section, length);
    nebosvar_application_head a = nebosvar_application(section, length, 0);
    nebosvar_descriptor_head d = nebosvar_descriptor(section, length, NEBOSVAR_COMMON, 0);
    nebosvar_item_found i = nebosvar_item(section, length, NEBOSVAR_COMMON, 0, 0, 0);
    nebosvar_part e = nebosvar_extension(section, length, NEBOSVAR_COMMON, 0, 0, 0);
    nebosvar_label_found l = nebosvar_label(section, length, NEBOSVAR_COMMON, 0);
    must(refused_so(t.refusal, t.refused_at, refusal, at), "a table is refused as the section was");
    must(refused_so(a.refusal, a.refused_at, refusal, at), "a refused table has no application");
    must(refused_so(d.refusal, d.refused_at, refusal, at), "a refused table has no descriptor");
    must(refused_so(i.refusal, i.refused_at, refusal, at), "a refused table has no item, of any kind");
    must(refused_so(e.refusal, e.refused_at, refusal, at), "a refused table has no extension");
    must(refused_so(l.refusal, l.refused_at, refusal, at), "a refused table has no label");
}

/* Lent a byte less, it is refused where that ends. A run never lends so, and no line shows it. */
static void cut(void)
{
    length--;
    refused(NEBOSVAR_BAD_SIZE, length);
}

static void say_section(size_t index, size_t at, nebosvar_taken next)
{
    section = stretch + at;
    length = next.length;
    printf("section,%zu,%zu,%zu,%u,%u,%s,", index, at, length, section[0], next.refusal, kinds[next.kind]);
    if (next.refused_at != NEBOSVAR_NOWHERE)
        printf("%zu", next.refused_at);
    putchar('\n');
    if (section[0] != 0x74)
        return;
    if (next.refusal == 0)
        say_table(nebosvar_table(section, length));
    else
        refused(next.refusal, next.refused_at);
    cut();
}

static uint32_t crc(const uint8_t *bytes, size_t count)
{
    uint32_t r = 0xFFFFFFFF;
    for (size_t i = 0; i < 8 * count; i++)
        r = r << 1 ^ ((r >> 31 ^ (bytes[i / 8] >> (7 - i % 8) & 1u)) ? 0x04C11DB7 : 0);
    return r;
}

static void say_module(const nebosvar_record *record, size_t place)
{
    nebosvar_module m = record->modules[place];
    nebosvar_part part = nebosvar_handout(record, image, sizeof image, m.number);
    nebosvar_lack lack = nebosvar_missing(record, m.number);
    must(part.refused_at == NEBOSVAR_NOWHERE, "a hand-out breaks at no byte of a section");
    printf("module,%zu,%u,%u,%u,%u,%u,%zu,", place, m.number, m.size, m.version, m.start, part.refusal, lack.count);
    if (lack.count > 0)
        printf("%zu", lack.lowest);
    putchar(',');
    if (part.refusal == 0)
        printf("%u", crc(image + part.at, part.length));
    putchar('\n');
}

static size_t read_all(void)
{
    size_t n = 0;
    ssize_t got = 1;
    while (n < sizeof stretch && (got = read(0, stretch + n, sizeof stretch - n)) > 0)
        n += (size_t)got;
    return n;
}

int main(void)
{
    nebosvar_record record = nebosvar_start();
    size_t all = read_all(), at = 0, index = 0;
    nebosvar_taken next;

    while ((next = nebosvar_take(&record, stretch + at, all - at, image, sizeof image, 1)).stop == NEBOSVAR_TAKEN) {
        say_section(index++, at, next);
        at += next.length;
    }
    must(next.kind == NEBOSVAR_KIND_NONE && next.length == 0, "a stop has no kind and length");
    must(accepted(next.refusal, next.refused_at), "a stop has no refusal and place");
    printf("stop,%s\n", stops[next.stop]);
    if (record.count > 0)
        printf("record,%u,%u,%u\n", record.download, record.block_size, record.count);
    for (size_t i = 0; i < record.count; i++)
        say_module(&record, i);
    return fflush(stdout) == 0 ? 0 : 1;
}
