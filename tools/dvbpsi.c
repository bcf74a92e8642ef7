/* dvbpsi FILE: how fast libdvbpsi takes sections out of a transport stream of one PID. Each packet is pushed by itself, with a decoder attached
 * that is told of every section and keeps none. Unlike ours, libdvbpsi looks at the CRC of each section, and allocates it. */
#include <stdbool.h>
#include <stdint.h>
#include <stdio.h>
#include <stdlib.h>
#include <time.h>

#include <dvbpsi/dvbpsi.h>
#include <dvbpsi/psi.h>
#include <dvbpsi/descriptor.h>
#include <dvbpsi/demux.h>

enum { PACKET = 188, ROUNDS = 5 };

static void told(dvbpsi_t *handle, uint8_t table, uint16_t extension, void *count)
{
    (void)handle, (void)table, (void)extension;
    ++*(size_t *)count;
}

static double seconds(void)
{
    struct timespec now;
    clock_gettime(CLOCK_MONOTONIC, &now);
    return (double)now.tv_sec + 1e-9 * (double)now.tv_nsec;
}

/* One round over all packets: how long it took. */
static double round_over(uint8_t *bytes, size_t size, size_t *sections)
{
    dvbpsi_t *handle = dvbpsi_new(NULL, DVBPSI_MSG_NONE);
    *sections = 0;
    if (handle == NULL || !dvbpsi_AttachDemux(handle, told, sections))
        exit(1);
    double begin = seconds();
    for (size_t at = 0; at + PACKET <= size; at += PACKET)
        dvbpsi_packet_push(handle, bytes + at);
    double taken = seconds() - begin;
    dvbpsi_DetachDemux(handle);
    dvbpsi_delete(handle);
    return taken;
}

int main(int argc, char **argv)
{
    FILE *file = argc == 2 ? fopen(argv[1], "rb") : NULL;
    if (file == NULL || fseek(file, 0, SEEK_END) != 0)
        return fprintf(stderr, "usage: dvbpsi FILE\n"), 2;
    size_t size = (size_t)ftell(file), sections = 0;
    uint8_t *bytes = malloc(size);
    rewind(file);
    if (bytes == NULL || fread(bytes, 1, size, file) != size)
        return 1;
    double best = 1e9;
    for (int k = 0; k < ROUNDS; k++) {
        double time = round_over(bytes, size, &sections);
        best = time < best ? time : best;
    }
    printf("libdvbpsi: %zu packets, %zu sections, %.1f MiB/s, best of %d\n", size / PACKET, sections, (double)size / (1 << 20) / best, ROUNDS);
    return 0;
}
