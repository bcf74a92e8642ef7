/* Nebosvar: the receiver of wheelhouse boxes, and the player on shore. Link target/staticlib/libnebosvar.a (x86-64 Linux).
 *
 * Every call is proved to end with its one stated answer, whatever bytes, record, playlist and image it is
 * lent: there is nothing to check first. What C can not say is left to the caller: each pointer is to as many
 * bytes as its length says, or numbers (for a length of 0 it is not read); the record, the section and the
 * image of one call do not overlap, nor do the numbers of a list and the bytes it is written to, nor the bytes
 * that a section is written to and the playlist or the image it is made from, nor packets, their state and the
 * bytes that sections are handed on to, nor a section and the packets it is written to; and nothing else changes
 * what is lent while the call runs. No call keeps a pointer, allocates, blocks or uses anything but what it is
 * lent.
 *
 * A refusal (1 to 21, 25, 30 to 37, and 40 to 43, below) changes nothing: not the record, not the image, not the
 * state, not the bytes to be written to. */
#ifndef NEBOSVAR_H
#define NEBOSVAR_H

#include <stddef.h>
#include <stdint.h>

#ifdef __cplusplus
extern "C" {
#endif

/* Refusals: the paper's numbers, in its words. A DII is an announcement, a DDB a block, an AIT an application table; L is the section's length.
 * 21 is the shore player's. From 30 on they are the drift list's, and 36 and 37 its writer's; 25 and those from 40 on are the
 * packets', whose calls give 1, 2, 3 and 21 too. */
enum {
    NEBOSVAR_ACCEPTED = 0,
    NEBOSVAR_BAD_RECORD = 1,                 /* record breaks its rule (carousel calls) */
    NEBOSVAR_BAD_SIZE = 2,                   /* under 3 bytes, or not 3 + L */
    NEBOSVAR_BAD_TABLE = 3,                  /* wrong table number */
    NEBOSVAR_BAD_HEADER = 4,                 /* L under 9, or over 1,021 (AIT) or 4,093; syntax indicator 0; section number above last */
    NEBOSVAR_BAD_CRC = 5,                    /* CRC */
    NEBOSVAR_NOT_CURRENT = 6,                /* current_next 0 */
    NEBOSVAR_MALFORMED = 7,                  /* a length or fixed field inside does not fit, bytes are left over, or known contents malformed */
    NEBOSVAR_BAD_MESSAGE = 8,                /* first two message bytes or message number not as in the paper */
    NEBOSVAR_BAD_BLOCK_HEADER = 9,           /* DDB: extension is not the module number, or section number is not block number mod 256; section version isn't the module version mod 32 */
    NEBOSVAR_BEYOND_LIMITS = 10,             /* DII: blockSize 0 or over 4,066; 0 or over 32 modules; a size 0 or over 1,024 * blockSize; sizes over 262,144 together */
    NEBOSVAR_MODULE_TWICE = 11,              /* DII: module number twice */
    NEBOSVAR_NOT_ANNOUNCED = 12,             /* DDB: no announcement, or downloadId differs */
    NEBOSVAR_NO_MODULE = 13,                 /* module not announced */
    NEBOSVAR_OTHER_VERSION = 14,             /* version differs */
    NEBOSVAR_SHORT_IMAGE = 15,               /* DDB, hand-out: image shorter than the record's sizes together (an announcement never looks at the image) */
    NEBOSVAR_BAD_BLOCK = 16,                 /* block number or block length wrong */
    NEBOSVAR_BYTES_DIFFER = 17,              /* block marked, bytes differ */
    NEBOSVAR_NO_APPLICATION_DESCRIPTOR = 18, /* an application without exactly one 0x00 descriptor */
    NEBOSVAR_NO_PLACE = 19,                  /* no such place */
    NEBOSVAR_INCOMPLETE = 20,                /* module not complete */
    NEBOSVAR_SHORT_BUFFER = 21,              /* a short buffer */
    NEBOSVAR_OUT_OF_RANGE = 25,              /* PID above 0x1FFF, or counter above 15 */
    NEBOSVAR_LIST_LENGTH = 30,               /* length */
    NEBOSVAR_LIST_COORDINATE = 31,           /* coordinate range */
    NEBOSVAR_LIST_MINUTE = 32,               /* minute */
    NEBOSVAR_LIST_BUOY = 33,                 /* buoy zero or not rising */
    NEBOSVAR_LIST_SPARE = 34,                /* spare */
    NEBOSVAR_LIST_STATE = 35,                /* state 3, or state against coordinates */
    NEBOSVAR_LIST_WIDTH = 36,                /* a value too wide for its field, or a count that isn't the number of records */
    NEBOSVAR_LIST_ROOM = 37,                 /* a short buffer */
    NEBOSVAR_PACKET_LENGTH = 40,             /* not 188 bytes */
    NEBOSVAR_PACKET_SYNC = 41,               /* sync */
    NEBOSVAR_PACKET_PID = 42,                /* other PID */
    NEBOSVAR_PACKET_FIELD = 43               /* transport error, scrambled, adaptation control 00, or a field that runs past the packet */
};

/* Where a section broke, `refused_at` below: a byte, counted from the section's first as 0. Refusals 2 to 6 have it:
 * 2 the length that was lent, which is one past the last byte, so never index with it; 3 zero; 4 one, or six where only
 * the section numbers are wrong; 5 the first CRC byte; 6 five. For every other refusal, and where there is none, it is
 * NEBOSVAR_NOWHERE: that is no place, since no bytes that can be lent are so many. */
#define NEBOSVAR_NOWHERE SIZE_MAX

/* What became of a section. */
enum {
    NEBOSVAR_KIND_NONE = 0, /* it was refused; also where none was taken: at a stop */
    NEBOSVAR_KIND_TABLE = 1,
    NEBOSVAR_KIND_NEW = 2,
    NEBOSVAR_KIND_SAME = 3,
    NEBOSVAR_KIND_STORED = 4,
    NEBOSVAR_KIND_REPEATED = 5
};

/* Why nothing was taken at a place, and why a run stopped. */
enum {
    NEBOSVAR_TAKEN = 0, /* no stop: a section was taken */
    NEBOSVAR_STOP_END = 1,
    NEBOSVAR_STOP_STUFFING = 2,
    NEBOSVAR_STOP_SHORT = 3,
    NEBOSVAR_STOP_BUDGET = 4,
    NEBOSVAR_STOP_STATE = 5 /* the record breaks its rule */
};

enum { /* limits */
    NEBOSVAR_LARGEST_BLOCK = 4066,
    NEBOSVAR_MOST_MODULES = 32,
    NEBOSVAR_MOST_BLOCKS = 1024,                                         /* of a module */
    NEBOSVAR_MOST_BYTES = 262144,                                        /* of all modules together: an image of so many is enough for every announcement */
    NEBOSVAR_MODULE_WORDS = NEBOSVAR_MOST_BLOCKS / 32,                   /* of marks, for each module: 32 */
    NEBOSVAR_MARK_WORDS = NEBOSVAR_MOST_MODULES * NEBOSVAR_MODULE_WORDS, /* of marks, for all: 1,024 */
    NEBOSVAR_LARGEST_SECTION = 4096                                      /* bytes to be written to: so many are enough for every section */
};

typedef struct {
    uint16_t number;
    uint32_t size;
    uint8_t version;
    uint32_t start; /* of its part in the image */
} nebosvar_module;

/* What was announced, and which blocks have come: mark 1,024 * place + block, 32 to a word, lowest bit first.
 * Under a new announcement a kept module's marks go with it to its new place; all others are clear (see nebosvar_step).
 * It may be copied, kept and lent again; its rule is looked at in every call. It is a struct of 4.6 KB (4,616 bytes): where a stack
 * is small, keep it elsewhere, and pass it on by its address. */
typedef struct {
    uint32_t download;
    uint16_t block_size;
    uint16_t count;
    nebosvar_module modules[NEBOSVAR_MOST_MODULES];
    uint32_t marks[NEBOSVAR_MARK_WORDS];
} nebosvar_record;

/* Exactly one of refusal and kind is 0; so too below, where a section was taken. */
typedef struct {
    size_t refused_at; /* of refusals 2 to 6; NEBOSVAR_NOWHERE for all else */
    uint8_t refusal;
    uint8_t kind;
} nebosvar_fate;

typedef struct {
    size_t length;     /* of the section that was taken; 0 at a stop */
    size_t refused_at; /* in the section, from its first byte, not the stretch's; NEBOSVAR_NOWHERE at a stop */
    uint8_t stop;
    uint8_t refusal;   /* of the section; 0 at a stop */
    uint8_t kind;      /* of the section; NEBOSVAR_KIND_NONE at a stop */
} nebosvar_taken;

typedef struct {
    size_t taken;  /* sections */
    size_t passed; /* bytes */
    uint8_t stop;
} nebosvar_passage;

/* A part of the bytes that were lent. On a refusal at and length are 0, and refused_at is where the section broke. */
typedef struct {
    size_t at;
    size_t length;
    size_t refused_at; /* of a section; always NEBOSVAR_NOWHERE in nebosvar_handout's answer */
    uint8_t refusal;
} nebosvar_part;

typedef struct {
    size_t count;  /* of missing blocks; 0 says that the module is complete only where refusal is 0 */
    size_t lowest; /* of them; it says nothing where count is 0 */
    uint8_t refusal;
} nebosvar_lack;

/* The record that one starts with: nothing announced. It is answered by value, so all of its 4.6 KB are copied; once is enough. */
nebosvar_record nebosvar_start(void);

/* One section of the carousel (tables 0x3B, 0x3C). A new announcement keeps the marks of each module whose downloadId, blockSize,
 * number, version, size and start are as before; all others begin empty, and no image byte moves. So also in take and run. */
nebosvar_fate nebosvar_step(nebosvar_record *record, const uint8_t *section, size_t length, uint8_t *image, size_t room);

/* What stands at the head of a stretch: one section is taken, or there is a stop. Go on `length` bytes later. */
nebosvar_taken nebosvar_take(nebosvar_record *record, const uint8_t *stretch, size_t length, uint8_t *image, size_t room, size_t budget);

/* Sections are taken, at most `budget`, until there is a stop. */
nebosvar_passage nebosvar_run(nebosvar_record *record, const uint8_t *stretch, size_t length, uint8_t *image, size_t room, size_t budget);

/* Where in the image the module with this number lies, if every block of it has come (1, 13, 15, 20). What was handed out once is handed
 * out again after any further calls with this record and image, written by nobody else: the same bytes at the same place, or 15 while more
 * is announced than the image holds; until a new announcement changes or drops the module. */
nebosvar_part nebosvar_handout(const nebosvar_record *record, const uint8_t *image, size_t room, uint16_t number);

/* The module's missing blocks (1, 13). */
nebosvar_lack nebosvar_missing(const nebosvar_record *record, uint16_t number);

/* The application section (table 0x74). Things are asked for by place, from 0; each call judges the section first
 * (2 to 7, 18), and a place that is not there is 19. On a refusal all other fields but refused_at are 0. */

/* As an application's place it stands for the common descriptors in nebosvar_descriptor, nebosvar_item and
 * nebosvar_extension. Where an application itself is asked for (nebosvar_application, nebosvar_label) it is 19. */
#define NEBOSVAR_COMMON SIZE_MAX

enum { /* classes of an application number */
    NEBOSVAR_CLASS_UNSIGNED = 1,
    NEBOSVAR_CLASS_SIGNED = 2,
    NEBOSVAR_CLASS_OTHER = 3,
    NEBOSVAR_CLASS_WILDCARD = 4
};

enum { /* classes of a control code: each bears its code. Every other code is reserved; 255 is such a code itself */
    NEBOSVAR_CONTROL_AUTOSTART = 1,
    NEBOSVAR_CONTROL_PRESENT = 2,
    NEBOSVAR_CONTROL_DESTROY = 3,
    NEBOSVAR_CONTROL_KILL = 4,
    NEBOSVAR_CONTROL_REMOTE = 6,
    NEBOSVAR_CONTROL_RESERVED = 255
};

enum { /* kinds of descriptors: each has its tag and, under 0x02, its protocol; a field beside these that the list does not give is 0 */
    NEBOSVAR_DESCRIPTOR_APPLICATION = 1, /* count of profiles, bound, visibility, priority, labels */
    NEBOSVAR_DESCRIPTOR_NAMES = 2,       /* count */
    NEBOSVAR_DESCRIPTOR_LOCAL = 3,       /* label, component */
    NEBOSVAR_DESCRIPTOR_REMOTE = 4,      /* label, network, transport, service, component */
    NEBOSVAR_DESCRIPTOR_BASES = 5,       /* label, count */
    NEBOSVAR_DESCRIPTOR_SELECTOR = 6,    /* label, and where the selector lies */
    NEBOSVAR_DESCRIPTOR_IDENTIFIERS = 7, /* count */
    NEBOSVAR_DESCRIPTOR_PATH = 8,        /* where the path lies */
    NEBOSVAR_DESCRIPTOR_RAW = 9          /* where the contents lie */
};

/* Kinds of items within a descriptor. They are the descriptors' kinds: of a descriptor d the items 0 to d.count - 1 are asked
 * for by d.kind. A 0x00 has labels too, d.labels of them, with a kind of their own. A field that the list does not give is 0. */
enum {
    NEBOSVAR_ITEM_PROFILE = 1,    /* of a 0x00: number, major, minor, micro */
    NEBOSVAR_ITEM_NAME = 2,       /* language, and where the name lies */
    NEBOSVAR_ITEM_BASE = 5,       /* where the base lies, extensions */
    NEBOSVAR_ITEM_IDENTIFIER = 7, /* organisation, number, the number's class, priority */
    NEBOSVAR_ITEM_LABEL = 10      /* of a 0x00: label */
};

enum { /* where the descriptor that a label names was found */
    NEBOSVAR_FOUND_OWN = 1,
    NEBOSVAR_FOUND_COMMON = 2,
    NEBOSVAR_FOUND_UNRESOLVED = 3 /* nowhere; it is no refusal */
};

typedef struct {
    size_t common;       /* descriptors */
    size_t applications;
    size_t refused_at;   /* where the section broke */
    uint16_t test;
    uint16_t application_type;
    uint8_t version;
    uint8_t section;
    uint8_t last;
    uint8_t refusal;
} nebosvar_table_head;

typedef struct {
    size_t descriptors;
    size_t refused_at; /* where the section broke */
    uint32_t organisation;
    uint16_t number;
    uint8_t class_number; /* the number's class */
    uint8_t code;
    uint8_t control; /* the code's class */
    uint8_t refusal;
} nebosvar_application_head;

typedef struct {
    size_t count;
    size_t labels;
    size_t at; /* in the section */
    size_t length;
    size_t refused_at; /* where the section broke */
    uint16_t protocol;
    uint16_t network;
    uint16_t transport;
    uint16_t service;
    uint8_t kind;
    uint8_t tag;
    uint8_t label;
    uint8_t component;
    uint8_t bound;
    uint8_t visibility;
    uint8_t priority;
    uint8_t refusal;
} nebosvar_descriptor_head;

typedef struct {
    size_t at; /* in the section */
    size_t length;
    size_t extensions;
    size_t refused_at; /* where the section broke */
    uint32_t organisation;
    uint16_t number;
    uint8_t class_number; /* the number's class */
    uint8_t kind;
    uint8_t label;
    uint8_t major;
    uint8_t minor;
    uint8_t micro;
    uint8_t priority;
    uint8_t language[3];
    uint8_t refusal;
} nebosvar_item_found;

typedef struct {
    size_t common;     /* which common loop: 0 is the section's own */
    size_t place;      /* of the descriptor there */
    size_t refused_at; /* where the section broke */
    uint8_t found;
    uint8_t refusal;
} nebosvar_label_found;

/* The header, and how many common descriptors and applications there are. */
nebosvar_table_head nebosvar_table(const uint8_t *section, size_t length);

/* The application at a place. */
nebosvar_application_head nebosvar_application(const uint8_t *section, size_t length, size_t application);

/* A descriptor of an application, or of the common loop. */
nebosvar_descriptor_head nebosvar_descriptor(const uint8_t *section, size_t length, size_t application, size_t descriptor);

/* An item within a descriptor, by its kind and its place among the items of that kind; 19 for a kind that is none of the five. */
nebosvar_item_found nebosvar_item(const uint8_t *section, size_t length, size_t application, size_t descriptor, uint8_t kind, size_t item);

/* Where an extension of a base lies in the section. */
nebosvar_part nebosvar_extension(const uint8_t *section, size_t length, size_t application, size_t descriptor, size_t base, size_t extension);

/* Which 0x02 descriptor a label of an application names. `label` is the label's place in the application's 0x00, from 0, not its value. */
nebosvar_label_found nebosvar_label(const uint8_t *section, size_t length, size_t application, size_t label);

/* The drift list: an issue, a count, and a record of 12 bytes for each buoy. It is read out of any bytes that are lent, as of a module
 * that was handed out, and written into any. Records are asked for by place, from 0. Coordinates are in 1/10,000 minute, east and north
 * positive; the minute is of the week. On a refusal all other fields are 0. */

enum { /* states of a fix */
    NEBOSVAR_STATE_NONE = 0,     /* no position: both coordinates are 0, and only then */
    NEBOSVAR_STATE_FIX = 1,
    NEBOSVAR_STATE_LASTKNOWN = 2
};

typedef struct {
    uint16_t issue;
    uint16_t count; /* of records */
    uint8_t refusal;
} nebosvar_list;

/* A record that was read. */
typedef struct {
    uint32_t buoy;     /* 1 to 1,048,575 */
    int32_t longitude; /* -107,999,999 to 108,000,000 */
    int32_t latitude;  /* -54,000,000 to 54,000,000 */
    uint16_t minute;   /* 0 to 10,079 */
    uint8_t state;
    uint8_t refusal;
} nebosvar_found;

/* A record to be written: five numbers, in this order and with nothing between them. The writer takes the numbers of all records one
 * after another, so fill an array `nebosvar_fix fixes[n]` and pass `&fixes[0].buoy, 5 * n` for `numbers, length`. */
typedef struct {
    int32_t buoy;
    int32_t state;
    int32_t longitude;
    int32_t latitude;
    int32_t minute;
} nebosvar_fix;

typedef struct {
    size_t size; /* of the list or the section that was written, in bytes */
    uint8_t refusal;
} nebosvar_written;

/* Judges a whole list (30; then, at its first faulty record, the lowest of 31 to 35): its issue, and how many records it has. */
nebosvar_list nebosvar_list_read(const uint8_t *list, size_t length);

/* Record k of a list (30 to 35, as nebosvar_list_read; then 19). It judges the whole list each time. */
nebosvar_found nebosvar_list_record(const uint8_t *list, size_t length, size_t k);

/* Record k, judged alone, with the buoy before it (30; then 19; then 31 to 35 of record k), so that it costs the same for every k. It
 * answers as nebosvar_list_record does wherever nebosvar_list_read accepts the list. Asked for k = 0, 1, 2 and so on, its first refusal is
 * the list's own, or 19 after the last record of an accepted list. So read the list first, or throw away what was walked when a refusal
 * other than 19 comes. */
nebosvar_found nebosvar_list_walk(const uint8_t *list, size_t length, size_t k);

/* Writes a list of 4 + 12 * count bytes: `length` is how many numbers there are, five for each record (nebosvar_fix), and not their bytes;
 * `room` is that of `out`, in bytes. It can refuse with 36, where issue, count or any number is too wide for its field or length is not
 * 5 * count; then, at the first faulty record, with the lowest of 31, 32, 33 and 35 (34 can not come: the spare bits are not given); then
 * with 37. A refusal writes nothing, and what `out` has past the list stays as it was. */
nebosvar_written nebosvar_list_write(uint32_t issue, uint32_t count, const int32_t *numbers, size_t length, uint8_t *out, size_t room);

/* The shore player. From a playlist, which is an announcement, and an image that holds its modules one after another from byte 0, in
 * announced order, it writes one rotation of the carousel: the announcement, then each block in order. Sections are asked for by place,
 * from 0, which is the announcement's. On a refusal all other fields are 0. */

/* A module as it is announced. */
typedef struct {
    uint16_t number;
    uint32_t size;
    uint8_t version;
} nebosvar_listed;

typedef struct {
    uint32_t download;
    uint16_t block_size;
    uint16_t count;                                 /* of modules; more than NEBOSVAR_MOST_MODULES is refused with 10 */
    nebosvar_listed modules[NEBOSVAR_MOST_MODULES]; /* entries from the count on are not looked at */
} nebosvar_playlist;

typedef struct {
    size_t sections; /* of one rotation, the announcement among them */
    uint8_t refusal;
} nebosvar_counted;

/* How many sections one rotation has (10, 11). */
nebosvar_counted nebosvar_section_count(const nebosvar_playlist *playlist);

/* Writes the section at a place of the rotation at the start of `out`, which has `room` bytes; `length` is that of the image. The
 * identifier is the announcement's, with its low half as extension; a block does not look at it. It can refuse with 10 and 11; then, at
 * every place, with 15 where the image is shorter than the sizes together; then with 19; then with 21. A refusal writes nothing, and what
 * `out` has past the section stays as it was. */
nebosvar_written nebosvar_write_section(const nebosvar_playlist *playlist, const uint8_t *image, size_t length, uint32_t identifier, size_t place, uint8_t *out, size_t room);

/* Transport packets, of 188 bytes each. Out of those of one PID come the whole sections that they carry, end to end, as
 * nebosvar_run takes them; sections are not judged here. An exact repeat of the last packet is passed over; any other break of the
 * counter drops the section that has begun, and the next begins at a unit start, the breaking packet's own included.
 *
 * What is kept from call to call is the state: bytes that the program holds and lends, at first all zeros, one state for each PID. Bytes 0
 * to 187 are the last packet that was not refused (zeros: none yet), 188 and 189 how many bytes are in hand (the high byte first), and from
 * 190 on are these: the section that has begun and is not whole. Bytes past them are not looked at and not changed. A state that packets
 * of this PID can not have left is 1: too short; or its last packet would be refused; or something is in hand before the first packet; or
 * what is in hand begins with 0xFF, or is a whole section. On a refusal all other fields are 0. */

enum { /* limits of packets */
    NEBOSVAR_TRANSPORT_STATE = 4287, /* bytes of a state; more may be lent */
    NEBOSVAR_TRANSPORT_ROOM = 4281,  /* least room for what one packet hands on */
    NEBOSVAR_MOST_PACKETS = 23       /* of one section */
};

enum { /* what became of a packet */
    NEBOSVAR_FED_REFUSED = 0,
    NEBOSVAR_FED_TAKEN = 1,
    NEBOSVAR_FED_BROKEN = 2,  /* taken, though the counter broke */
    NEBOSVAR_FED_REPEATED = 3 /* passed over: nothing changed */
};

typedef struct {
    size_t size;     /* bytes of whole sections at the start of `out` */
    uint8_t refusal; /* 1, 21, 40, 41, 42, 43; 0 where the packet was not refused */
    uint8_t kind;
} nebosvar_fed;

typedef struct {
    size_t passed;    /* bytes of `packets` that were gone through: go on there */
    size_t size;      /* bytes of whole sections at the start of `out` */
    size_t taken;     /* packets of the PID that were used, with or without payload, breaking ones included */
    size_t repeated;
    size_t broken;
    size_t refused40; /* and so on: how many packets were refused with this number */
    size_t refused41;
    size_t refused42;
    size_t refused43;
    uint8_t refusal;  /* 1 or 21, and then nothing was passed; else 0 */
} nebosvar_gathered;

typedef struct {
    size_t packets;  /* written, 188 bytes each */
    uint8_t refusal;
} nebosvar_packed;

/* Takes one packet. It can refuse with 1; then with 21, where `out` has fewer than NEBOSVAR_TRANSPORT_ROOM bytes; then with 40 to 43.
 * What lies past the sections in `out` stays as it was. */
nebosvar_fed nebosvar_feed(uint16_t pid, const uint8_t *packet, size_t length, uint8_t *state, size_t state_length, uint8_t *out, size_t room);

/* Takes the packets of a stretch one by one, as long as `out` has NEBOSVAR_TRANSPORT_ROOM bytes left before each: so fewer than all may be
 * passed. A rest of fewer than 188 bytes is one packet, refused with 40 and not kept. A refused packet is counted and does not stop the rest.
 * It can itself refuse with 1 and 21, before the first packet. */
nebosvar_gathered nebosvar_gather(uint16_t pid, const uint8_t *packets, size_t length, uint8_t *state, size_t state_length, uint8_t *out, size_t room);

/* Writes the packets of one section at the start of `out`: unit start and a pointer of 0 in the first, the counters from `counter` on, 0xFF
 * behind the section. It can refuse with 2, for a section that is not 3 + L bytes long; then with 3, for one that begins with 0xFF; then with
 * 21; then with 25. A refusal writes nothing, and what `out` has past the packets stays as it was. NEBOSVAR_MOST_PACKETS * 188 bytes are
 * always enough. */
nebosvar_packed nebosvar_write_packets(uint16_t pid, uint8_t counter, const uint8_t *section, size_t length, uint8_t *out, size_t room);

#ifdef __cplusplus
}
#endif
#endif
