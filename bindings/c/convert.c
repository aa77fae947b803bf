/* Writes what a page becomes, and a line feed: Guarded, of any page, by the selectors of a second word; in pieces of as
 * many bytes as a third word says, without the line feed. Where the page becomes nothing, it writes nothing, and the
 * exit status is 1. */
#include "htmd.h"

#include <stdio.h>
#include <stdlib.h>
#include <string.h>

int main(int count, char **words) {
    enum { ROOM = 1 << 20 };
    static uint8_t page[ROOM], out[ROOM];
    FILE *file = count == 3 || count == 4 ? fopen(words[1], "rb") : NULL;
    if (file == NULL)
        return EXIT_FAILURE;
    size_t length = fread(page, 1, ROOM, file), needed, place;
    uint8_t kind;
    fclose(file);
    htmd_page_options options;
    htmd_default_page_options(&options);
    options.options.reader = HTMD_HTML5;
    options.options.mode = HTMD_GUARDED;
    options.options.chunk_bytes = count == 4 ? (uint32_t)strtoul(words[3], NULL, 10) : 0;
    options.select.bytes = (const uint8_t *)words[2];
    options.select.len = strlen(words[2]);
    if (htmd_convert_page(page, length, &options, out, ROOM, &needed, &place, &kind) != HTMD_DONE)
        return EXIT_FAILURE;
    fwrite(out, 1, needed, stdout);
    if (count == 3)
        puts("");
    return EXIT_SUCCESS;
}
