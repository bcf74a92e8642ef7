/* Plays one rotation over the archive. Standard input has, most significant byte first: downloadId (4 bytes), blockSize (2), the
 * announcement's identifier (4), how many modules (2), of each of them, but at most 32, number (2), size (4) and version (1), and then the
 * image. It prints
 *
 *     refused,REFUSAL      where the playlist is refused, or, where it is not,
 *     sections,COUNT       and for each place
 *     SECTION              in hexadecimal, or refused,REFUSAL
 *
 * What no line shows is checked beside it; a fault is told, and ends the program with 1. tests/embed.py compiles it and compares what it
 * prints. */
#include <stddef.h>
#include <stdio.h>
#include <stdlib.h>
#include <string.h>
#include <unistd.h>

#include "nebosvar.h"

enum { HEAD = 12, ENTRY = 7, MOST = HEAD + NEBOSVAR_MOST_MODULES * ENTRY + NEBOSVAR_MOST_BYTES };

static uint8_t given[MOST + 1], out[NEBOSVAR_LARGEST_SECTION + 1], again[NEBOSVAR_LARGEST_SECTION];
static nebosvar_playlist playlist;
static uint32_t identifier;
static const uint8_t *image;
static size_t length;

static void must(int holds, const char *what)
{
    if (holds)
        return;
    fprintf(stderr, "play: not so: %s\n", what);
    exit(1);
}

static uint32_t number(const uint8_t *at, int bytes)
{
    uint32_t n = 0;
    while (bytes-- > 0)
        n = n << 8 | *at++;
    return n;
}

static size_t read_all(void)
{
    size_t n = 0;
    ssize_t got = 1;
    while (n < sizeof given && (got = read(0, given + n, sizeof given - n)) > 0)
        n += (size_t)got;
    return n;
}

/* Entries from the count on are not looked at, so they are filled with what would be refused. */
static void fill(void)
{
    size_t total = read_all(), listed;
    memset(&playlist, 0xFF, sizeof playlist);
    must(total >= HEAD, "there is a playlist");
    playlist.download = number(given, 4);
    playlist.block_size = (uint16_t)number(given + 4, 2);
    identifier = number(given + 6, 4);
    playlist.count = (uint16_t)number(given + 10, 2);
    listed = playlist.count < NEBOSVAR_MOST_MODULES ? playlist.count : NEBOSVAR_MOST_MODULES;
    must(total >= HEAD + listed * ENTRY, "there is each module");
    for (size_t i = 0; i < listed; i++) {
        const uint8_t *at = given + HEAD + i * ENTRY;
        playlist.modules[i] = (nebosvar_listed){.number = (uint16_t)number(at, 2), .size = number(at + 2, 4), .version = at[6]};
    }
    image = given + HEAD + listed * ENTRY;
    length = total - (HEAD + listed * ENTRY);
}

/* Of the bytes to be written to, those from a place on are as they were. */
static int untouched(size_t from)
{
    for (size_t i = from; i < sizeof out; i++)
        if (out[i] != 0xA5)
            return 0;
    return 1;
}

static nebosvar_written write_into(size_t place, size_t room)
{
    memset(out, 0xA5, sizeof out);
    return nebosvar_write_section(&playlist, image, length, identifier, place, out, room);
}

/* A refusal has nothing besides, and nothing is written. */
static void must_refuse(nebosvar_written x, uint8_t refusal, const char *what)
{
    must(x.refusal == refusal && x.size == 0 && untouched(0), what);
}

/* The room of the largest section is enough, that of the section itself too, and one byte less is not. */
static void say_section(size_t place)
{
    nebosvar_written x = write_into(place, NEBOSVAR_LARGEST_SECTION), y;
    if (x.refusal != 0) {
        must_refuse(x, x.refusal, "a refusal has nothing besides");
        printf("refused,%u\n", x.refusal);
        return;
    }
    must(x.size <= NEBOSVAR_LARGEST_SECTION && untouched(x.size), "past the section nothing is written");
    memcpy(again, out, x.size);
    for (size_t i = 0; i < x.size; i++)
        printf("%02x", again[i]);
    putchar('\n');
    y = write_into(place, x.size);
    must(y.refusal == 0 && y.size == x.size && untouched(x.size) && memcmp(out, again, x.size) == 0, "room for the section alone");
    must_refuse(write_into(place, x.size - 1), NEBOSVAR_SHORT_BUFFER, "too little room");
    must_refuse(write_into(place, 0), NEBOSVAR_SHORT_BUFFER, "no room");
}

/* Places past the last; of an image that is too short, that is said first. */
static void say_past(size_t sections)
{
    uint8_t refusal = write_into(0, NEBOSVAR_LARGEST_SECTION).refusal == NEBOSVAR_SHORT_IMAGE ? NEBOSVAR_SHORT_IMAGE : NEBOSVAR_NO_PLACE;
    must_refuse(write_into(sections, 0), refusal, "no section after the last");
    must_refuse(write_into(SIZE_MAX, NEBOSVAR_LARGEST_SECTION), refusal, "no section at the largest place");
}

int main(void)
{
    nebosvar_counted counted;

    fill();
    counted = nebosvar_section_count(&playlist);
    if (counted.refusal != 0) {
        must(counted.sections == 0, "a refusal has nothing besides");
        must_refuse(write_into(0, NEBOSVAR_LARGEST_SECTION), counted.refusal, "both calls refuse a playlist alike");
        must_refuse(write_into(SIZE_MAX, 0), counted.refusal, "the playlist's refusal goes before 15, 19 and 21");
        printf("refused,%u\n", counted.refusal);
        return fflush(stdout) == 0 ? 0 : 1;
    }
    printf("sections,%zu\n", counted.sections);
    for (size_t place = 0; place < counted.sections; place++)
        say_section(place);
    say_past(counted.sections);
    return fflush(stdout) == 0 ? 0 : 1;
}
