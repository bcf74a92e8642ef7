/* Reads a drift list from standard input over the archive, prints its issue and its records, and writes it again from what was read:
 *
 *     list,REFUSAL                                or, where it is accepted,
 *     issue,ISSUE,COUNT                           and for each record
 *     BUOY,STATE,LONGITUDE,LATITUDE,MINUTE
 *
 * What no line shows is checked beside it; a fault is told, and ends the program with 1. tests/embed.py compiles it and compares what it
 * prints. */
#include <stddef.h>
#include <stdio.h>
#include <stdlib.h>
#include <string.h>
#include <unistd.h>

#include "nebosvar.h"

/* The row that the writer is given is its five numbers and nothing else. */
_Static_assert(sizeof(nebosvar_fix) == 5 * sizeof(int32_t), "no padding");
_Static_assert(offsetof(nebosvar_fix, minute) == 4 * sizeof(int32_t), "minute last");

static const char *const states[] = {
    [NEBOSVAR_STATE_NONE] = "none", [NEBOSVAR_STATE_FIX] = "fix", [NEBOSVAR_STATE_LASTKNOWN] = "last",
};

enum { MOST = 4 + 12 * 65535 };

static uint8_t list[MOST + 1], again[MOST + 1];
static nebosvar_fix fixes[65535];

static void must(int holds, const char *what)
{
    if (holds)
        return;
    fprintf(stderr, "list: not so: %s\n", what);
    exit(1);
}

static int same(nebosvar_found a, nebosvar_found b)
{
    return a.buoy == b.buoy && a.state == b.state && a.longitude == b.longitude && a.latitude == b.latitude && a.minute == b.minute
           && a.refusal == b.refusal;
}

/* Whatever is asked of a refused list, its own refusal is the answer, and the first one of a walk. */
static void refused(size_t length, uint8_t refusal)
{
    nebosvar_found x;
    size_t k = 0;
    printf("list,%u\n", refusal);
    must(nebosvar_list_record(list, length, 0).refusal == refusal, "a refused list has no record");
    must(nebosvar_list_record(list, length, SIZE_MAX).refusal == refusal, "its refusal goes before 19");
    while ((x = nebosvar_list_walk(list, length, k)).refusal == 0)
        k++;
    must(x.refusal == refusal, "a walk ends with the list's refusal");
    must(x.buoy == 0 && x.longitude == 0 && x.latitude == 0 && x.minute == 0 && x.state == 0, "a refusal has nothing besides");
}

static void say_record(size_t length, size_t k)
{
    nebosvar_found x = nebosvar_list_walk(list, length, k);
    must(x.refusal == 0, "each record that is counted is found");
    if (k < 100)
        must(same(x, nebosvar_list_record(list, length, k)), "both calls find the same record");
    printf("%u,%s,%d,%d,%u\n", x.buoy, states[x.state], x.longitude, x.latitude, x.minute);
    fixes[k] = (nebosvar_fix){.buoy = (int32_t)x.buoy, .state = x.state, .longitude = x.longitude, .latitude = x.latitude, .minute = x.minute};
}

/* What was read is written again, and is the same bytes; into one byte less nothing is written. */
static void write_again(size_t length, nebosvar_list head)
{
    nebosvar_written x;
    memset(again, 0xA5, sizeof again);
    x = nebosvar_list_write(head.issue, head.count, &fixes[0].buoy, 5 * (size_t)head.count, again, length - 1);
    must(x.refusal == NEBOSVAR_LIST_ROOM && x.size == 0 && again[0] == 0xA5 && again[length - 1] == 0xA5, "too little room");
    x = nebosvar_list_write(head.issue, head.count, &fixes[0].buoy, 5 * (size_t)head.count, again, sizeof again);
    must(x.refusal == 0 && x.size == length && memcmp(again, list, length) == 0, "what was read is written again");
    must(again[length] == 0xA5, "past the list nothing is written");
}

static size_t read_all(void)
{
    size_t n = 0;
    ssize_t got = 1;
    while (n < sizeof list && (got = read(0, list + n, sizeof list - n)) > 0)
        n += (size_t)got;
    return n;
}

int main(void)
{
    size_t length = read_all();
    nebosvar_list head = nebosvar_list_read(list, length);

    if (head.refusal != 0) {
        must(head.issue == 0 && head.count == 0, "a refusal has nothing besides");
        refused(length, head.refusal);
        return fflush(stdout) == 0 ? 0 : 1;
    }
    printf("issue,%u,%u\n", head.issue, head.count);
    for (size_t k = 0; k < head.count; k++)
        say_record(length, k);
    must(nebosvar_list_walk(list, length, head.count).refusal == NEBOSVAR_NO_PLACE, "no record after the last");
    must(nebosvar_list_record(list, length, head.count).refusal == NEBOSVAR_NO_PLACE, "no record after the last");
    write_again(length, head);
    return fflush(stdout) == 0 ? 0 : 1;
}
