/* Transfers between accounts by procedures: each procedure is read once, and then called with keys and amounts. Each
 * account is looked up once, and named by its handle. Most calls run as one list, the last two by themselves. Writes the
 * replies, the last one with the statement that failed, a line `--` and the balances. */
#include "../../crates/bohm_c/include/bohm.h"

#include <stdio.h>
#include <stdlib.h>
#include <string.h>
#include <unistd.h>

static const char *accounts = "log 1\nalice 100\nbob 20\ncarol 0\n";

static const char *transfer_text = "procedure 2\n"
                                   "key from\n"
                                   "key to\n"
                                   "value amount\n"
                                   "reads from to\n"
                                   "writes from to\n"
                                   "need from >= $amount\n"
                                   "set from = from - $amount\n"
                                   "set to = to + $amount\n"
                                   "end\n";

static const char *audit_text = "procedure 2\n"
                                "reads alice bob carol\n"
                                "writes\n"
                                "show alice + bob + carol\n"
                                "show carol\n"
                                "end\n";

static void need_done(const char *what, uint32_t status) {
    if (status == BOHM_DONE) return;
    fprintf(stderr, "%s: %s\n", what, bohm_status_text(status));
    exit(1);
}

static bohm_procedure prepare(const uint8_t *seed, const char *text) {
    bohm_procedure procedure = {0};
    bohm_bytes report = BOHM_NO_BYTES;
    uint32_t status = bohm_prepare_report(&procedure, seed, (const uint8_t *)text, strlen(text), &report);
    if (status == BOHM_REFUSED) fputs((const char *)report.at, stderr);
    need_done("prepare", status);
    return procedure;
}

static uint32_t look_up(bohm_calls *calls, const char *name) {
    uint32_t handle = 0;
    need_done("key_handle", bohm_key_handle(calls, (const uint8_t *)name, strlen(name), &handle));
    return handle;
}

static void transfer(bohm_calls *calls, const bohm_procedure *procedure, uint32_t from, uint32_t to, int64_t amount) {
    const uint32_t keys[] = {from, to};
    need_done("transfer", bohm_push_named(calls, procedure, keys, 2, &amount, 1));
}

int main(void) {
    bohm_machine machine = {0};
    bohm_calls calls = {0};
    bohm_bytes out = BOHM_NO_BYTES;
    uint8_t seed[16];
    if (getentropy(seed, sizeof seed)) return 1;
    need_done("open", bohm_open(&machine, seed, (const uint8_t *)accounts, strlen(accounts), 0, &out));
    bohm_procedure by = prepare(seed, transfer_text), audit = prepare(seed, audit_text);

    need_done("open_calls", bohm_open_calls_for(&machine, &calls, 2));
    uint32_t alice = look_up(&calls, "alice"), bob = look_up(&calls, "bob"), carol = look_up(&calls, "carol");
    transfer(&calls, &by, alice, bob, 30);
    transfer(&calls, &by, bob, carol, 80);
    transfer(&calls, &by, alice, carol, 70);
    transfer(&calls, &by, alice, bob, 1);
    transfer(&calls, &by, bob, bob, 50);

    need_done("run_calls", bohm_run_calls(&machine, &calls, &out));
    fwrite(out.at, 1, out.len, stdout);
    bohm_free_bytes(&out);

    bohm_reply reply;
    int64_t shown[BOHM_MOST_SHOWN];
    need_done("audit", bohm_call(&machine, &audit, 0, 0, 0, 0, &reply, shown, BOHM_MOST_SHOWN));
    printf("6 commit");
    for (uint64_t i = 0; i < reply.shown; i++) printf(" %lld", (long long)shown[i]);
    printf("\n");

    const bohm_key names[] = {{(const uint8_t *)"alice", 5}, {(const uint8_t *)"carol", 5}};
    int64_t amount = 5;
    need_done("transfer", bohm_call(&machine, &by, names, 2, &amount, 1, &reply, shown, BOHM_MOST_SHOWN));
    if (reply.outcome == BOHM_ABORT_NEED) {
        size_t line;
        need_done("statement_text", bohm_statement_text(&by, reply.statement, &line, &out));
        printf("7 abort need %u: %s\n", reply.statement, (const char *)out.at);
        bohm_free_bytes(&out);
    }

    bohm_entries store = BOHM_NO_ENTRIES;
    need_done("store_rows", bohm_store_rows(&machine, 7, &store));
    printf("--\n");
    for (size_t i = 0; i < store.len; i++)
        printf("%.*s %lld\n", BOHM_LONGEST_KEY, (const char *)store.at[i].key, (long long)store.at[i].value);
    bohm_free_entries(&store);

    bohm_close_calls(&calls);
    bohm_close_procedure(&by);
    bohm_close_procedure(&audit);
    bohm_close(&machine);
    return 0;
}
