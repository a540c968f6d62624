/* Counts for programs whose header has fewer or more of them than the library: the first ones, and zeros behind the last. It is
 * built with the present header. */
#include "bohm.h"

#include <stdio.h>
#include <string.h>

int main(void) {
    static const uint8_t seed[16];
    static const char *store = "log 2\na 1\nb 2\n";
    bohm_machine machine = {0};
    bohm_machine_counts whole;
    if (bohm_open(&machine, seed, (const uint8_t *)store, strlen(store), 5, NULL) || bohm_counts(&machine, &whole)) return 1;
    if (whole.floor != 5 || whole.top != 5 || whole.names != 2 || whole.left != UINT32_MAX - 5 || whole.unused) return 2;
    union {
        bohm_machine_counts counts;
        uint8_t bytes[2 * sizeof(bohm_machine_counts)];
    } told;
    for (size_t size = 0; size <= sizeof told; size += 4) {
        memset(&told, 0xa5, sizeof told);
        if (bohm_counts_sized(&machine, &told.counts, size)) return 3;
        for (size_t i = 0; i < sizeof told; i++) {
            uint8_t right = i >= size ? 0xa5 : i < sizeof whole ? ((const uint8_t *)&whole)[i] : 0;
            if (told.bytes[i] != right) return fprintf(stderr, "byte %zu of %zu\n", i, size), 4;
        }
    }
    bohm_close(&machine);
    return 0;
}
