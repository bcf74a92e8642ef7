/* The shore's player over the archive: plays standard input, a drift list or any other module, as module 1, version 3, of
 * download 2026, one rotation on standard output.
 *
 *     gcc -Iinclude examples/play.c target/staticlib/libnebosvar.a -o play && ./play < examples/drift.list | ./run driftlist 1 */
#include <stdio.h>

#include "nebosvar.h"

static uint8_t image[NEBOSVAR_MOST_BYTES + 1], section[NEBOSVAR_LARGEST_SECTION];

int main(void)
{
    uint32_t size = (uint32_t)fread(image, 1, sizeof image, stdin);
    nebosvar_playlist playlist = {.download = 2026, .block_size = 4066, .count = 1, .modules = {{.number = 1, .size = size, .version = 3}}};
    nebosvar_counted all = nebosvar_section_count(&playlist);

    if (all.refusal != 0)
        fprintf(stderr, "refused,%u\n", all.refusal);
    for (size_t place = 0; place < all.sections; place++) {
        nebosvar_written next = nebosvar_write_section(&playlist, image, sizeof image, 0x80000002, place, section, sizeof section);
        fwrite(section, 1, next.size, stdout);
    }
    return fflush(stdout) == 0 ? 0 : 1;
}
