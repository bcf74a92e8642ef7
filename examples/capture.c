/* From a capture to modules: reads a transport stream, packets of 188 bytes, from standard input, takes the sections of one
 * PID out of it and gives them to the receiver; then says what became of the packets and, for each module number given after
 * the PID, whether it is complete.
 *
 *     gcc -Iinclude examples/capture.c target/staticlib/libnebosvar.a -o capture && ./capture 291 1 2 < stream */
#include <stdio.h>
#include <stdlib.h>

#include "nebosvar.h"

enum { READ = 349 * 188, SECTIONS = 65536 };

/* The state is all zeros before the first packet. */
static uint8_t packets[READ], state[NEBOSVAR_TRANSPORT_STATE], sections[SECTIONS], image[NEBOSVAR_MOST_BYTES];
static size_t taken, repeated, broken, refused;

/* As long as packets are left: the buffer may be full before all are passed. */
static void take_packets(nebosvar_record *record, uint16_t pid, size_t length)
{
    for (size_t at = 0; at < length;) {
        nebosvar_gathered g = nebosvar_gather(pid, packets + at, length - at, state, sizeof state, sections, sizeof sections);
        nebosvar_run(record, sections, g.size, image, sizeof image, SIZE_MAX);
        at += g.passed;
        taken += g.taken;
        repeated += g.repeated;
        broken += g.broken;
        refused += g.refused40 + g.refused41 + g.refused42 + g.refused43;
    }
}

static void say_module(const nebosvar_record *record, uint16_t number)
{
    nebosvar_part part = nebosvar_handout(record, image, sizeof image, number);
    nebosvar_lack lack = nebosvar_missing(record, number);
    if (part.refusal == NEBOSVAR_ACCEPTED)
        printf("module,%u,complete,%zu bytes at %zu\n", number, part.length, part.at);
    else if (part.refusal == NEBOSVAR_INCOMPLETE)
        printf("module,%u,incomplete,%zu blocks missing from %zu on\n", number, lack.count, lack.lowest);
    else
        printf("module,%u,refused,%u\n", number, part.refusal);
}

int main(int argc, char **argv)
{
    nebosvar_record record = nebosvar_start();
    uint16_t pid = (uint16_t)(argc > 1 ? atoi(argv[1]) : 0);
    size_t length;

    while ((length = fread(packets, 1, sizeof packets, stdin)) > 0)
        take_packets(&record, pid, length);
    printf("taken,%zu\nrepeated,%zu\nbroken,%zu\nrefused,%zu\n", taken, repeated, broken, refused);
    for (int i = 2; i < argc; i++)
        say_module(&record, (uint16_t)atoi(argv[i]));
    return fflush(stdout) == 0 ? 0 : 1;
}
