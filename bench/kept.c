/* The memory of a kept version: `kept KEYS TRANSFERS` runs transfers between KEYS keys on a machine that drops none of
 * its past, and writes the bytes that they added to the heap, divided by the versions that they added. */
#include "../crates/bohm_c/include/bohm.h"

#include <malloc.h>
#include <stdio.h>
#include <stdlib.h>
#include <string.h>

static const char *transfer = "procedure 2\nkey from\nkey to\nvalue amount\nreads from to\nwrites from to\n"
                              "set from = from - $amount\nset to = to + $amount\nend\n";

static const uint8_t seed[16];

static void done(uint32_t status) {
    if (status == BOHM_DONE) return;
    fprintf(stderr, "kept: %s\n", bohm_status_text(status));
    exit(1);
}

static size_t in_use(void) {
    struct mallinfo2 heap = mallinfo2();
    return heap.uordblks + heap.hblkhd;
}

static uint64_t versions(const bohm_machine *machine) {
    bohm_machine_counts counts;
    done(bohm_counts(machine, &counts));
    return counts.versions;
}

int main(int argc, char **argv) {
    if (argc != 3) return 2;
    long keys = atol(argv[1]), count = atol(argv[2]);
    bohm_machine machine = {0};
    bohm_procedure by = {0};
    bohm_calls calls = {0};
    done(bohm_prepare(&by, seed, (const uint8_t *)transfer, strlen(transfer), NULL));
    done(bohm_open_calls(&calls, seed, 2));
    char *store = malloc((size_t)keys * 24 + 16), *at = store + sprintf(store, "log 2\n");
    for (long i = 0; i < keys; i++) at += sprintf(at, "k%07ld 1000\n", i);
    done(bohm_open(&machine, seed, (uint8_t *)store, (size_t)(at - store), 0, NULL));
    uint64_t before = versions(&machine);
    size_t held = in_use();
    unsigned long long state = 1;
    for (long ran = 0; ran < count;) {
        for (long i = 0; i < 4096 && ran < count; i++, ran++) {
            char names[2][16];
            bohm_key ends[2];
            for (int j = 0; j < 2; j++) {
                state = state * 6364136223846793005ULL + 1442695040888963407ULL;
                sprintf(names[j], "k%07llu", (state >> 33) % (unsigned long long)keys);
                ends[j] = (bohm_key){(uint8_t *)names[j], 8};
            }
            int64_t amount = 1;
            done(bohm_push(&calls, &by, ends, 2, &amount, 1));
        }
        done(bohm_run_calls_held(&machine, &calls));
        bohm_reply_rows rows = BOHM_NO_ROWS;
        bohm_values values = BOHM_NO_VALUES;
        done(bohm_rows(&machine, &rows, &values));
        bohm_free_rows(&rows, &values);
        done(bohm_clear_calls(&calls));
    }
    bohm_close_calls(&calls);
    printf("%.1f\n", (double)(in_use() - held) / (double)(versions(&machine) - before));
    bohm_close(&machine);
    bohm_close_procedure(&by);
    return 0;
}
