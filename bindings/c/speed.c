/* Tells how many microseconds a conversion of a file takes at best, by the options that the Python package has without
 * any word: Guarded, of any page. */
#define _POSIX_C_SOURCE 199309L
#include "htmd.h"

#include <stdio.h>
#include <stdlib.h>
#include <time.h>

static double now(void) {
    struct timespec time;
    clock_gettime(CLOCK_MONOTONIC, &time);
    return (double)time.tv_sec * 1e6 + (double)time.tv_nsec / 1e3;
}

int main(int count, char **words) {
    enum { ROOM = 1 << 20, ROUNDS = 300 };
    static uint8_t html[ROOM], out[ROOM];
    FILE *file = count == 2 ? fopen(words[1], "rb") : NULL;
    if (file == NULL)
        return EXIT_FAILURE;
    size_t length = fread(html, 1, ROOM, file);
    fclose(file);
    htmd_options options;
    htmd_default_options(&options);
    options.reader = HTMD_HTML5;
    options.mode = HTMD_GUARDED;
    double best = 1e9;
    for (int round = 0; round < ROUNDS; round++) {
        size_t needed, place;
        uint8_t kind;
        double start = now();
        if (htmd_convert(html, length, &options, out, ROOM, &needed, &place, &kind) != HTMD_DONE)
            return EXIT_FAILURE;
        double taken = now() - start;
        best = taken < best ? taken : best;
    }
    printf("%.1f\n", best);
    return EXIT_SUCCESS;
}
