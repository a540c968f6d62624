/* A log of tests/colliding_keys by each way of bohm.h: `colliding drawn|zeros < LOG` runs it as a whole, as a segment and
 * by calls of a procedure, which must produce the same store. It writes the answer, and on standard error the processor
 * seconds that each way took. With `drawn` the seed is random, with `zeros` it is known. */
#include "../crates/bohm_c/include/bohm.h"

#include <stdio.h>
#include <stdlib.h>
#include <string.h>
#include <time.h>
#include <unistd.h>

static uint8_t seed[16];
static char *text;
static size_t len, store_len;

static void need(int is_so, const char *what) {
    if (is_so) return;
    fprintf(stderr, "colliding: %s\n", what);
    exit(1);
}

static void read_log(void) {
    size_t room = 1 << 26, some;
    need((text = malloc(room + 1)) != NULL, "no memory");
    while ((some = fread(text + len, 1, room - len, stdin))) len += some;
    text[len] = 0;
    char *first = strstr(text, "\ntxn\n");
    need(first != NULL, "no transactions");
    store_len = (size_t)(first - text) + 1;
}

static void open_store(bohm_machine *machine) {
    need(bohm_open(machine, seed, (uint8_t *)text, store_len, 0, NULL) == BOHM_DONE, "open");
}

/* Closes the machine, whose store must be the one that the answer ends with. */
static void end(bohm_machine *machine, bohm_bytes answer) {
    bohm_bytes out = BOHM_NO_BYTES;
    uint32_t floor, top;
    need(bohm_timestamps(machine, &floor, &top) == BOHM_DONE && bohm_store_at(machine, top, &out) == BOHM_DONE, "store_at");
    need(out.len < answer.len && !memcmp(answer.at + answer.len - (out.len - 6), out.at + 6, out.len - 6), "another store");
    bohm_free_bytes(&out);
    bohm_close(machine);
}

static void apply(bohm_bytes answer) {
    bohm_machine machine = {0};
    open_store(&machine);
    char *segment = text + store_len - 6;
    memcpy(segment, "log 1\n", 6); /* overwrites the end of the store, which has been read */
    need(bohm_apply(&machine, (uint8_t *)segment, len - store_len + 6, NULL) == BOHM_DONE, "apply");
    end(&machine, answer);
}

/* Each transaction sets the key that it writes to 2. */
static void call(bohm_bytes answer) {
    static const char *set_text = "procedure 1\nkey k\nreads\nwrites k\nset k = 2\nend\n";
    bohm_machine machine = {0};
    bohm_procedure set = {0};
    bohm_calls calls = {0};
    open_store(&machine);
    need(bohm_prepare(&set, seed, (const uint8_t *)set_text, strlen(set_text), NULL) == BOHM_DONE, "prepare");
    need(bohm_open_calls(&calls, seed, 1) == BOHM_DONE, "open_calls");
    for (char *at = text + store_len; (at = strstr(at, "\nwrites "));) {
        bohm_key key = {(uint8_t *)(at += 8), strcspn(at, "\n")};
        need(bohm_push(&calls, &set, &key, 1, NULL, 0) == BOHM_DONE, "push");
    }
    need(bohm_run_calls(&machine, &calls, NULL) == BOHM_DONE, "run_calls");
    bohm_close_calls(&calls);
    bohm_close_procedure(&set);
    end(&machine, answer);
}

static void timed(const char *what, void (*way)(bohm_bytes), bohm_bytes answer) {
    clock_t start = clock();
    way(answer);
    fprintf(stderr, "%s %.2f\n", what, (double)(clock() - start) / CLOCKS_PER_SEC);
}

int main(int argc, char **argv) {
    if (argc == 2 && !strcmp(argv[1], "drawn")) need(!getentropy(seed, sizeof seed), "getentropy");
    else need(argc == 2 && !strcmp(argv[1], "zeros"), "usage: colliding drawn|zeros");
    read_log();
    bohm_bytes answer = BOHM_NO_BYTES;
    clock_t start = clock();
    need(bohm_answer(seed, (uint8_t *)text, len, &answer) == BOHM_DONE, "answer");
    fprintf(stderr, "answer %.2f\n", (double)(clock() - start) / CLOCKS_PER_SEC);
    timed("calls", call, answer);
    timed("apply", apply, answer);
    fwrite(answer.at, 1, answer.len, stdout);
    bohm_free_bytes(&answer);
    free(text);
    return 0;
}
