/* The executor by calls of a prepared procedure: a list of them for each segment, with replies as rows, or with ONE_BY_ONE 1
 * each call by itself. The past below the last segment is dropped. With BY_HANDLES defined, each account is looked up before
 * the first call, and named by its handle. */
#include "peer.h"

#include "../../crates/bohm_c/include/bohm.h"

#include <stdio.h>
#include <stdlib.h>
#include <string.h>

#ifndef ONE_BY_ONE
#define ONE_BY_ONE 0
#endif

static const char *transfer_text = "procedure 1\n"
                                   "key from\n"
                                   "key to\n"
                                   "value amount\n"
                                   "reads from to\n"
                                   "writes from to\n"
                                   "need from >= $amount\n"
                                   "set from = from - $amount\n"
                                   "set to = to + $amount\n"
                                   "end\n";

/* The same in each run, so that times compare. */
static const uint8_t seed[16];

static bohm_machine machine;
static bohm_procedure by;
static bohm_calls calls;
static char *store;
static size_t len, room, accounts;

static void done(uint32_t status) { check(status == BOHM_DONE, bohm_status_text(status)); }

static void put_line(const char *line) {
    size_t more = strlen(line);
    if (room - len < more) check((store = realloc(store, room = 2 * room + 4096)) != NULL, "no memory");
    memcpy(store + len, line, more);
    len += more;
}

void peer_open(void) {
    done(bohm_prepare(&by, seed, (const uint8_t *)transfer_text, strlen(transfer_text), NULL));
    put_line("log 1\n");
}

#ifdef BY_HANDLES
/* The handles of the accounts, by their numbers. */
static uint32_t *handles;

static uint32_t handle_of(const uint8_t *name, size_t size, uint32_t *handle) {
    return ONE_BY_ONE ? bohm_machine_key(&machine, name, size, handle) : bohm_key_handle(&calls, name, size, handle);
}

/* Looks up each account of the store's lines. */
static void look_up(const char *line, const char *end, size_t count) {
    check((handles = malloc((count + 1) * sizeof *handles)) != NULL, "no memory");
    for (size_t i = 0; line < end; line = strchr(line, '\n') + 1)
        done(handle_of((const uint8_t *)line, strcspn(line, " "), &handles[i++]));
}

static uint32_t push(const transfer *it) {
    uint32_t keys[] = {handles[it->payer_number], handles[it->payee_number]};
    int64_t amount = it->amount;
    return bohm_push_named(&calls, &by, keys, 2, &amount, 1);
}

static uint32_t call(const transfer *it, bohm_reply *reply, int64_t *shown) {
    uint32_t keys[] = {handles[it->payer_number], handles[it->payee_number]};
    int64_t amount = it->amount;
    return bohm_call_named(&machine, &by, keys, 2, &amount, 1, reply, shown, BOHM_MOST_SHOWN);
}
#else
static void look_up(const char *line, const char *end, size_t count) { (void)line, (void)end, (void)count; }

static bohm_key key_of(const char *name) { return (bohm_key){(const uint8_t *)name, strlen(name)}; }

static uint32_t push(const transfer *it) {
    bohm_key keys[] = {key_of(it->payer), key_of(it->payee)};
    int64_t amount = it->amount;
    return bohm_push(&calls, &by, keys, 2, &amount, 1);
}

static uint32_t call(const transfer *it, bohm_reply *reply, int64_t *shown) {
    bohm_key keys[] = {key_of(it->payer), key_of(it->payee)};
    int64_t amount = it->amount;
    return bohm_call(&machine, &by, keys, 2, &amount, 1, reply, shown, BOHM_MOST_SHOWN);
}
#endif

void peer_put(const char *key, long long balance) {
    char line[64];
    accounts++;
    snprintf(line, sizeof line, "%s %lld\n", key, balance);
    put_line(line);
}

void peer_filled(void) {
    done(bohm_open(&machine, seed, (const uint8_t *)store, len, 0, NULL));
    done(bohm_open_calls_for(&machine, &calls, 1));
    look_up(store + strlen("log 1\n"), store + len, accounts);
    free(store);
}

static uint32_t top(void) {
    uint32_t floor, last;
    done(bohm_timestamps(&machine, &floor, &last));
    return last;
}

static void run_each(transfer *transfers, size_t count) {
    bohm_reply reply;
    int64_t shown[BOHM_MOST_SHOWN];
    for (size_t i = 0; i < count; i++) {
        done(call(&transfers[i], &reply, shown));
        transfers[i].is_done = reply.outcome == BOHM_COMMIT;
    }
}

static void run_list(transfer *transfers, size_t count) {
    bohm_reply_rows rows = BOHM_NO_ROWS;
    bohm_values values = BOHM_NO_VALUES;
    for (size_t i = 0; i < count; i++) done(push(&transfers[i]));
    done(bohm_run_calls_held(&machine, &calls));
    done(bohm_rows(&machine, &rows, &values));
    for (size_t i = 0; i < count; i++) transfers[i].is_done = rows.at[i].outcome == BOHM_COMMIT;
    bohm_free_rows(&rows, &values);
    done(bohm_clear_calls(&calls));
}

void peer_run(transfer *transfers, size_t count) {
    static uint32_t ran;
    if (ONE_BY_ONE) run_each(transfers, count);
    else run_list(transfers, count);
    done(bohm_trim(&machine, ran += (uint32_t)count));
}

void peer_each(void (*tell)(const char *key, size_t size, long long balance)) {
    bohm_bytes out = BOHM_NO_BYTES;
    done(bohm_store_at(&machine, top(), &out));
    const char *end = (const char *)out.at + out.len;
    for (const char *at = (const char *)out.at + strlen("log 1\n"); at < end; at = strchr(at, '\n') + 1) {
        const char *space = strchr(at, ' ');
        tell(at, (size_t)(space - at), strtoll(space, NULL, 10));
    }
    bohm_free_bytes(&out);
}

void peer_close(void) {
    bohm_close(&machine);
    bohm_close_calls(&calls);
    bohm_close_procedure(&by);
}
