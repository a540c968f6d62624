/* The cost of segments: `embed STORE SIZE < SEGMENTS` opens a machine on the snapshot in the file STORE, applies
 * the transactions on standard input in segments of SIZE, trims the past after each, and writes the store, and on
 * standard error the seconds that this took. */
#include "../crates/bohm_c/include/bohm.h"

#include <stdio.h>
#include <stdlib.h>
#include <string.h>
#include <time.h>

/* The same in each run, so that times compare. */
static const uint8_t seed[16];

static double seconds(void) {
    struct timespec now;
    clock_gettime(CLOCK_MONOTONIC, &now);
    return (double)now.tv_sec + (double)now.tv_nsec * 1e-9;
}

static char *read_all(FILE *file, size_t *len) {
    size_t room = 1 << 26, got = 0, some;
    char *all = malloc(room + 1);
    while (all && (some = fread(all + got, 1, room - got, file))) got += some;
    if (all) all[got] = 0;
    *len = got;
    return all;
}

int main(int argc, char **argv) {
    if (argc != 3) return 2;
    size_t store_len, len;
    FILE *file = fopen(argv[1], "rb");
    if (!file) return 2;
    char *store = read_all(file, &store_len), *txns = read_all(stdin, &len);
    long size = atol(argv[2]);
    bohm_machine machine = {0};
    bohm_bytes out = BOHM_NO_BYTES;
    if (bohm_open(&machine, seed, (uint8_t *)store, store_len, 0, &out)) return 1;
    char *segment = malloc(len + 7);
    memcpy(segment, "log 1\n", 6);
    double spent = 0;
    for (char *at = txns; *at;) {
        char *end = at;
        for (long left = size; left && *end; left--) end = strstr(end, "\nend\n") + 5;
        memcpy(segment + 6, at, (size_t)(end - at));
        double start = seconds();
        uint32_t status = bohm_apply(&machine, (uint8_t *)segment, 6 + (size_t)(end - at), &out);
        uint32_t floor, top;
        bohm_timestamps(&machine, &floor, &top);
        uint32_t trimmed = bohm_trim(&machine, top);
        spent += seconds() - start;
        if (status || trimmed) return 1;
        bohm_free_bytes(&out);
        at = end;
    }
    fprintf(stderr, "%.9f\n", spent);
    uint32_t floor, top;
    if (bohm_timestamps(&machine, &floor, &top) || bohm_store_at(&machine, top, &out)) return 1;
    fwrite(out.at + 6, 1, out.len - 6, stdout);
    bohm_free_bytes(&out);
    bohm_close(&machine);
    return 0;
}
