/* The paper's program over the archive: reads up to 65,536 bytes of sections from standard input, says what became of
 * each, with the place where it broke, and why it stopped, and then, for each module number given as an argument,
 * whether it is complete.
 *
 *     gcc -Iinclude examples/receive.c target/staticlib/libnebosvar.a -o receive && ./receive 1 2 < sections */
#include <stdio.h>
#include <stdlib.h>
#include <unistd.h>

#include "nebosvar.h"

static const char *const kinds[] = {"none", "table", "new", "same", "stored", "repeated"};
static const char *const stops[] = {"taken", "end", "stuffing", "short", "budget", "state"};

/* What the paper's program reads, and its image. With an image of NEBOSVAR_MOST_BYTES no block would be refused with 15. */
enum { READ = 65536, IMAGE = 65536 };

static uint8_t stretch[READ], image[IMAGE];

static size_t read_all(void)
{
    size_t n = 0;
    ssize_t got = 1;
    while (n < sizeof stretch && (got = read(0, stretch + n, sizeof stretch - n)) > 0)
        n += (size_t)got;
    return n;
}

static void say_module(const nebosvar_record *record, uint16_t number)
{
    nebosvar_part part = nebosvar_handout(record, image, sizeof image, number);
    nebosvar_lack lack = nebosvar_missing(record, number);
    if (part.refusal == NEBOSVAR_ACCEPTED)
        printf("module,%u,complete,%zu bytes at %zu\n", number, part.length, part.at);
    else if (part.refusal == NEBOSVAR_INCOMPLETE)
        printf("module,%u,incomplete,%zu blocks missing from %zu on\n", number, lack.count, lack.lowest);
    else
        printf("module,%u,refused,%u\n", number, part.refusal);
}

int main(int argc, char **argv)
{
    nebosvar_record record = nebosvar_start();
    size_t length = read_all(), at = 0, index = 0;
    nebosvar_taken next;

    puts("index,answer,kind,place");
    while ((next = nebosvar_take(&record, stretch + at, length - at, image, sizeof image, 1)).stop == NEBOSVAR_TAKEN) {
        printf("%zu,%u,%s,", index++, next.refusal, kinds[next.kind]);
        if (next.refused_at != NEBOSVAR_NOWHERE)
            printf("%zu", next.refused_at);
        putchar('\n');
        at += next.length;
    }
    printf("stop,%s\n", stops[next.stop]);
    for (int i = 1; i < argc; i++)
        say_module(&record, (uint16_t)atoi(argv[i]));
    return fflush(stdout) == 0 ? 0 : 1;
}
