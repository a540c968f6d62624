/* A ledger in a C program without headers of a C library, so that the toolchain alone can build it: `plain SIZE`
 * takes a log on standard input, applies its transactions in segments of SIZE, and writes the log's answer. */
typedef __SIZE_TYPE__ size_t;
typedef __PTRDIFF_TYPE__ ssize_t;
typedef __UINT8_TYPE__ uint8_t;
typedef __UINT32_TYPE__ uint32_t;
typedef __UINT64_TYPE__ uint64_t;
typedef __INT64_TYPE__ int64_t;
ssize_t read(int file, void *at, size_t len);
ssize_t write(int file, const void *at, size_t len);
int getentropy(void *at, size_t len);

#define BOHM_TYPES_ARE_DECLARED
#include "../../crates/bohm_c/include/bohm.h"

static uint8_t text[1 << 26], segment[1 << 26];

static int is_at(size_t at, size_t len, const char *word) {
    size_t i = 0;
    while (word[i] && at + i < len && text[at + i] == (uint8_t)word[i]) i++;
    return !word[i];
}

static int tell(const uint8_t *at, size_t len) {
    ssize_t sent;
    for (; len; at += sent, len -= (size_t)sent)
        if ((sent = write(1, at, len)) <= 0) return 1;
    return 0;
}

/* Copies the lines of a segment of `size` transactions, and returns its end. */
static size_t fill(size_t at, size_t len, uint64_t size, size_t *filled) {
    while (at < len && size) {
        int ends = is_at(at, len, "end\n");
        do segment[(*filled)++] = text[at];
        while (text[at++] != '\n' && at < len);
        size -= (uint64_t)ends;
    }
    return at;
}

int main(int argc, char **argv) {
    uint64_t size = 0;
    for (const char *digit = argc == 2 ? argv[1] : ""; *digit; digit++) size = size * 10 + (uint64_t)(*digit - '0');
    size_t len = 0, at = 0;
    ssize_t got;
    while ((got = read(0, text + len, sizeof text - len)) > 0) len += (size_t)got;
    while (at < len && !is_at(at, len, "txn\n")) while (at < len && text[at++] != '\n');
    bohm_machine machine = {0};
    bohm_bytes out = BOHM_NO_BYTES;
    uint8_t seed[16];
    if (!size || getentropy(seed, sizeof seed) || bohm_open(&machine, seed, text, at, 0, &out)) return 1;
    while (at < len) {
        size_t filled = 0;
        while (filled < 6) segment[filled] = text[filled], filled++;
        at = fill(at, len, size, &filled);
        if (bohm_apply(&machine, segment, filled, &out) || tell(out.at, out.len)) return 1;
        bohm_free_bytes(&out);
    }
    bohm_machine_counts counts;
    bohm_counts(&machine, &counts);
    if (bohm_store_at(&machine, counts.top, &out) || tell((const uint8_t *)"--\n", 3) || tell(out.at + 6, out.len - 6)) return 1;
    bohm_free_bytes(&out);
    bohm_close(&machine);
    return 0;
}
