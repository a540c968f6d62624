/* The calls of bohm.h. Each makes sure that no pointer is null, which the proved call that it wraps requires, and passes
 * a pointer to nothing instead of a null pointer to no elements. The proved call itself checks whether a handle is open.
 * scripts/pack builds this file into the library, where the names of the proved calls begin with `proved_`.
 *
 * A call that doesn't change a handle passes on a copy of it: a proved call empties the handle that it is given, and
 * fills it again before it returns. */
typedef __SIZE_TYPE__ size_t;
typedef __UINT8_TYPE__ uint8_t;
typedef __UINT32_TYPE__ uint32_t;
typedef __UINT64_TYPE__ uint64_t;
typedef __INT64_TYPE__ int64_t;

#define BOHM_TYPES_ARE_DECLARED
#include "../../crates/bohm_c/include/bohm.h"

void *malloc(size_t size);
void *realloc(void *at, size_t size);
void free(void *at);

uint32_t proved_bohm_answer(const uint8_t *seed, const uint8_t *text, size_t len, bohm_bytes *out);
uint32_t proved_bohm_open(bohm_machine *machine, const uint8_t *seed, const uint8_t *text, size_t len, uint32_t top, bohm_bytes *out);
uint32_t proved_bohm_apply(bohm_machine *machine, const uint8_t *text, size_t len, bohm_bytes *out);
uint32_t proved_bohm_replies(bohm_machine *machine, bohm_bytes *out);
uint32_t proved_bohm_apply_held(bohm_machine *machine, const uint8_t *text, size_t len, bohm_bytes *out);
uint32_t proved_bohm_rows(bohm_machine *machine, bohm_reply_rows *rows, bohm_values *values);
uint32_t proved_bohm_value_at(bohm_machine *machine, const uint8_t *key, size_t len, uint32_t ts, uint8_t *present, int64_t *value);
uint32_t proved_bohm_store_at(bohm_machine *machine, uint32_t ts, bohm_bytes *out);
uint32_t proved_bohm_open_rows(bohm_machine *machine, const uint8_t *seed, const bohm_entry *entries, size_t count, uint32_t top);
uint32_t proved_bohm_store_rows(bohm_machine *machine, uint32_t ts, bohm_entries *out);
uint32_t proved_bohm_compact(bohm_machine *machine);
uint32_t proved_bohm_digest(bohm_machine *machine, uint32_t ts, uint8_t *digest);
uint32_t proved_bohm_trim(bohm_machine *machine, uint32_t floor);
uint32_t proved_bohm_timestamps(bohm_machine *machine, uint32_t *floor, uint32_t *top);
uint32_t proved_bohm_counts(bohm_machine *machine, bohm_machine_counts *counts);
uint32_t proved_bohm_prepare(bohm_procedure *procedure, const uint8_t *seed, const uint8_t *text, size_t len, bohm_bytes *out);
uint32_t proved_bohm_prepare_report(bohm_procedure *procedure, const uint8_t *seed, const uint8_t *text, size_t len, bohm_bytes *out);
uint32_t proved_bohm_statement_text(bohm_procedure *procedure, uint32_t statement, size_t *line, bohm_bytes *out);
uint32_t proved_bohm_open_calls(bohm_calls *calls, const uint8_t *seed, uint32_t edition);
uint32_t proved_bohm_open_calls_for(bohm_machine *machine, bohm_calls *calls, uint32_t edition);
uint32_t proved_bohm_push(bohm_calls *calls, bohm_procedure *procedure, const bohm_key *keys, size_t key_count, const int64_t *values, size_t value_count);
uint32_t proved_bohm_key_handle(bohm_calls *calls, const uint8_t *key, size_t len, uint32_t *handle);
uint32_t proved_bohm_push_named(bohm_calls *calls, bohm_procedure *procedure, const uint32_t *handles, size_t handle_count, const int64_t *values, size_t value_count);
uint32_t proved_bohm_run_calls(bohm_machine *machine, bohm_calls *calls, bohm_bytes *out);
uint32_t proved_bohm_run_calls_held(bohm_machine *machine, bohm_calls *calls);
uint32_t proved_bohm_share_calls(bohm_machine *machine, bohm_calls *calls, uint32_t workers);
uint32_t proved_bohm_open_worker(bohm_machine *machine, bohm_worker *worker);
uint32_t proved_bohm_work(bohm_worker *worker);
uint32_t proved_bohm_finish_calls(bohm_machine *machine, bohm_calls *calls);
uint32_t proved_bohm_clear_calls(bohm_calls *calls);
uint32_t proved_bohm_calls_text(bohm_calls *calls, bohm_bytes *out);
uint32_t proved_bohm_takes(bohm_calls *calls, bohm_procedure *procedure, size_t key_count, size_t value_count);
uint32_t proved_bohm_fits(bohm_machine *machine, bohm_procedure *procedure, size_t key_count, size_t value_count);
uint32_t proved_bohm_call(bohm_machine *machine, bohm_procedure *procedure, const bohm_key *keys, size_t key_count, const int64_t *values, size_t value_count, bohm_reply *row, int64_t *shown, size_t room);
uint32_t proved_bohm_call_named(bohm_machine *machine, bohm_procedure *procedure, const uint32_t *handles, size_t handle_count, const int64_t *values, size_t value_count, bohm_reply *row, int64_t *shown, size_t room);
uint32_t proved_bohm_machine_key(bohm_machine *machine, const uint8_t *key, size_t len, uint32_t *handle);
void proved_bohm_close(void *handle);

/* The pointer that is passed for no elements: the proved calls don't accept null, and read nothing there. */
#define NOWHERE ((void *)16)

#define is_array(at, len) ((at) || !(len))
#define array_of(at) ((at) ? (at) : NOWHERE)

/* ---- the heap: scripts/pack has the proved calls allocate by the three functions of this part that aren't static */

/* The caller's allocator, whose functions are null if there is none, and whether anything was allocated. */
static bohm_allocator chosen;
static unsigned char is_used;

static void note_use(void) {
    if (!__atomic_load_n(&is_used, __ATOMIC_RELAXED)) __atomic_store_n(&is_used, 1, __ATOMIC_RELAXED);
}

void *bohm_heap_malloc(size_t size) {
    note_use();
    return chosen.allocate ? chosen.allocate(chosen.context, size) : malloc(size);
}

void *bohm_heap_realloc(void *at, size_t size) {
    if (!at) return bohm_heap_malloc(size);
    return chosen.resize ? chosen.resize(chosen.context, at, size) : realloc(at, size);
}

void bohm_heap_free(void *at) {
    if (!at) return;
    if (chosen.release) chosen.release(chosen.context, at);
    else free(at);
}

uint32_t bohm_use_allocator(const bohm_allocator *allocator) {
    if (!allocator || !allocator->allocate || !allocator->resize || !allocator->release) return BOHM_MISUSE;
    if (chosen.allocate || __atomic_load_n(&is_used, __ATOMIC_RELAXED)) return BOHM_MISUSE;
    chosen = *allocator;
    return BOHM_DONE;
}

void bohm_free(void *at) { bohm_heap_free(at); }

/* ---- the calls */

uint32_t bohm_abi(void) { return BOHM_ABI; }

/* Passes the bytes that a proved call returned to the caller, or frees them. */
static uint32_t hand_out(bohm_bytes *out, bohm_bytes told, uint32_t status) {
    if (!told.len) told.at = 0;
    if (!out) bohm_free(told.at);
    else if (status == BOHM_DONE || status == BOHM_REFUSED || status == BOHM_STOPPED) *out = told;
    return status;
}

const char *bohm_status_text(uint32_t status) {
    static const char *const texts[] = {
        [BOHM_DONE] = "done",
        [BOHM_REFUSED] = "the text was refused",
        [BOHM_NO_MEMORY] = "an allocation failed",
        [BOHM_TRIMMED] = "the timestamp is below the floor",
        [BOHM_FUTURE] = "the timestamp is above the top",
        [BOHM_HAS_STORE] = "the segment has a store",
        [BOHM_TIMESTAMPS] = "the segment's timestamps would pass 4294967295",
        [BOHM_HAS_LOG] = "the snapshot has transactions",
        [BOHM_NO_KEY] = "the bytes are not a key",
        [BOHM_WAITING] = "replies of an earlier segment were not taken yet",
        [BOHM_STOPPED] = "an allocation failed after part of the segment had run",
        [BOHM_KEPT] = "there was no room for the replies, which wait",
        [BOHM_UNFIT] = "an edition, a statement, or a number of arguments, calls or workers is not acceptable",
        [BOHM_MISUSE] = "a handle or a pointer is not valid for the call",
        [BOHM_UNSORTED] = "the keys are not in rising order",
        [BOHM_IN_ORDER] = "one worker runs these calls in less time",
        [BOHM_SHARED] = "workers share the machine or the list, or one of them is left",
    };
    return status < sizeof texts / sizeof *texts ? texts[status] : "unknown status";
}

uint32_t bohm_answer(const uint8_t seed[16], const uint8_t *text, size_t len, bohm_bytes *out) {
    if (!seed || !is_array(text, len)) return BOHM_MISUSE;
    bohm_bytes told = {NOWHERE, 0};
    uint32_t status = proved_bohm_answer(seed, array_of(text), len, &told);
    return hand_out(out, told, status);
}

uint32_t bohm_open(bohm_machine *machine, const uint8_t seed[16], const uint8_t *text, size_t len, uint32_t top,
                   bohm_bytes *out) {
    if (!machine || !seed || !is_array(text, len)) return BOHM_MISUSE;
    bohm_bytes told = {NOWHERE, 0};
    uint32_t status = proved_bohm_open(machine, seed, array_of(text), len, top, &told);
    return status ? hand_out(out, told, status) : status;
}

uint32_t bohm_apply(bohm_machine *machine, const uint8_t *text, size_t len, bohm_bytes *out) {
    if (!machine || !is_array(text, len)) return BOHM_MISUSE;
    bohm_bytes told = {NOWHERE, 0};
    uint32_t status = proved_bohm_apply(machine, array_of(text), len, &told);
    return hand_out(out, told, status);
}

uint32_t bohm_replies(bohm_machine *machine, bohm_bytes *out) {
    if (!machine) return BOHM_MISUSE;
    bohm_bytes told = {NOWHERE, 0};
    uint32_t status = proved_bohm_replies(machine, &told);
    return hand_out(out, told, status);
}

uint32_t bohm_apply_held(bohm_machine *machine, const uint8_t *text, size_t len, bohm_bytes *out) {
    if (!machine || !is_array(text, len)) return BOHM_MISUSE;
    bohm_bytes told = {NOWHERE, 0};
    uint32_t status = proved_bohm_apply_held(machine, array_of(text), len, &told);
    return status == BOHM_REFUSED ? hand_out(out, told, status) : status;
}

uint32_t bohm_rows(bohm_machine *machine, bohm_reply_rows *rows, bohm_values *values) {
    if (!machine || !rows || !values) return BOHM_MISUSE;
    bohm_reply_rows replies = {NOWHERE, 0};
    bohm_values shown = {NOWHERE, 0};
    uint32_t status = proved_bohm_rows(machine, &replies, &shown);
    if (status) return status;
    if (!replies.len) replies.at = 0;
    if (!shown.len) shown.at = 0;
    *rows = replies;
    *values = shown;
    return status;
}

uint32_t bohm_value_at(const bohm_machine *machine, const uint8_t *key, size_t len, uint32_t ts,
                       uint8_t *present, int64_t *value) {
    if (!machine || !is_array(key, len) || !present || !value) return BOHM_MISUSE;
    bohm_machine held = *machine;
    uint8_t is_there = 0;
    int64_t holds = 0;
    uint32_t status = proved_bohm_value_at(&held, array_of(key), len, ts, &is_there, &holds);
    if (status) return status;
    *present = is_there;
    if (is_there) *value = holds;
    return status;
}

uint32_t bohm_store_at(const bohm_machine *machine, uint32_t ts, bohm_bytes *out) {
    if (!machine) return BOHM_MISUSE;
    bohm_machine held = *machine;
    bohm_bytes told = {NOWHERE, 0};
    uint32_t status = proved_bohm_store_at(&held, ts, &told);
    return hand_out(out, told, status);
}

uint32_t bohm_open_rows(bohm_machine *machine, const uint8_t seed[16], const bohm_entry *entries, size_t count,
                        uint32_t top) {
    if (!machine || !seed || !is_array(entries, count)) return BOHM_MISUSE;
    return proved_bohm_open_rows(machine, seed, array_of(entries), count, top);
}

uint32_t bohm_store_rows(const bohm_machine *machine, uint32_t ts, bohm_entries *out) {
    if (!machine) return BOHM_MISUSE;
    bohm_machine held = *machine;
    bohm_entries told = {NOWHERE, 0};
    uint32_t status = proved_bohm_store_rows(&held, ts, &told);
    if (status) return status;
    if (!told.len) told.at = 0;
    if (out) *out = told;
    else bohm_free(told.at);
    return status;
}

uint32_t bohm_compact(bohm_machine *machine) {
    return machine ? proved_bohm_compact(machine) : BOHM_MISUSE;
}

uint32_t bohm_digest(const bohm_machine *machine, uint32_t ts, uint8_t digest[32]) {
    if (!machine || !digest) return BOHM_MISUSE;
    bohm_machine held = *machine;
    return proved_bohm_digest(&held, ts, digest);
}

uint32_t bohm_trim(bohm_machine *machine, uint32_t floor) {
    return machine ? proved_bohm_trim(machine, floor) : BOHM_MISUSE;
}

uint32_t bohm_timestamps(const bohm_machine *machine, uint32_t *floor, uint32_t *top) {
    if (!machine || !floor || !top) return BOHM_MISUSE;
    bohm_machine held = *machine;
    uint32_t least = 0, greatest = 0;
    uint32_t status = proved_bohm_timestamps(&held, &least, &greatest);
    if (status) return status;
    *floor = least;
    *top = greatest;
    return status;
}

uint32_t bohm_counts_sized(const bohm_machine *machine, bohm_machine_counts *counts, size_t size) {
    if (!machine || !counts) return BOHM_MISUSE;
    bohm_machine held = *machine;
    bohm_machine_counts known = {0};
    uint32_t status = proved_bohm_counts(&held, &known);
    if (status) return status;
    for (size_t i = 0; i < size; i++) ((uint8_t *)counts)[i] = i < sizeof known ? ((const uint8_t *)&known)[i] : 0;
    return status;
}

/* What programs call that were built with the header of 0.2.0, which has the first four counts. */
#undef bohm_counts
uint32_t bohm_counts(const bohm_machine *machine, bohm_machine_counts *counts) {
    return bohm_counts_sized(machine, counts, __builtin_offsetof(bohm_machine_counts, names));
}

void bohm_close(bohm_machine *machine) {
    if (machine) proved_bohm_close(machine);
}

uint32_t bohm_prepare(bohm_procedure *procedure, const uint8_t seed[16], const uint8_t *text, size_t len,
                      bohm_bytes *out) {
    if (!procedure || !seed || !is_array(text, len)) return BOHM_MISUSE;
    bohm_bytes told = {NOWHERE, 0};
    uint32_t status = proved_bohm_prepare(procedure, seed, array_of(text), len, &told);
    return status ? hand_out(out, told, status) : status;
}

uint32_t bohm_prepare_report(bohm_procedure *procedure, const uint8_t seed[16], const uint8_t *text, size_t len,
                             bohm_bytes *out) {
    if (!procedure || !seed || !is_array(text, len)) return BOHM_MISUSE;
    bohm_bytes told = {NOWHERE, 0};
    uint32_t status = proved_bohm_prepare_report(procedure, seed, array_of(text), len, &told);
    return status ? hand_out(out, told, status) : status;
}

uint32_t bohm_statement_text(const bohm_procedure *procedure, uint32_t statement, size_t *line, bohm_bytes *out) {
    if (!procedure || !line) return BOHM_MISUSE;
    bohm_procedure held = *procedure;
    bohm_bytes told = {NOWHERE, 0};
    uint32_t status = proved_bohm_statement_text(&held, statement, line, &told);
    return hand_out(out, told, status);
}

void bohm_close_procedure(bohm_procedure *procedure) {
    if (procedure) proved_bohm_close(procedure);
}

uint32_t bohm_open_calls(bohm_calls *calls, const uint8_t seed[16], uint32_t edition) {
    return calls && seed ? proved_bohm_open_calls(calls, seed, edition) : BOHM_MISUSE;
}

uint32_t bohm_open_calls_for(const bohm_machine *machine, bohm_calls *calls, uint32_t edition) {
    if (!machine || !calls) return BOHM_MISUSE;
    bohm_machine held = *machine;
    return proved_bohm_open_calls_for(&held, calls, edition);
}

/* The most keys that a procedure has. */
#define MOST_KEYS 32

/* The keys themselves if no pointer is null. Else a copy in `room`, in which null pointers to no bytes are replaced, or null
 * if a null pointer has a length. There are at most MOST_KEYS. */
static const bohm_key *pointed(const bohm_key *keys, size_t count, bohm_key room[MOST_KEYS]) {
    size_t i = 0;
    while (i < count && keys[i].at) i++;
    if (i == count) return array_of(keys);
    for (i = 0; i < count; i++) {
        if (!keys[i].at && keys[i].len) return 0;
        room[i] = (bohm_key){array_of(keys[i].at), keys[i].len};
    }
    return room;
}

uint32_t bohm_push(bohm_calls *calls, const bohm_procedure *procedure, const bohm_key *keys, size_t key_count,
                   const int64_t *values, size_t value_count) {
    if (!calls || !procedure || !is_array(keys, key_count) || !is_array(values, value_count)) return BOHM_MISUSE;
    bohm_procedure held = *procedure;
    bohm_key room[MOST_KEYS];
    /* The keys are counted before any is read. */
    uint32_t status = proved_bohm_takes(calls, &held, key_count, value_count);
    if (status) return status;
    keys = pointed(keys, key_count, room);
    return keys ? proved_bohm_push(calls, &held, keys, key_count, array_of(values), value_count) : BOHM_MISUSE;
}

uint32_t bohm_key_handle(bohm_calls *calls, const uint8_t *key, size_t len, uint32_t *handle) {
    if (!calls || !is_array(key, len) || !handle) return BOHM_MISUSE;
    uint32_t made = 0;
    uint32_t status = proved_bohm_key_handle(calls, array_of(key), len, &made);
    if (!status) *handle = made;
    return status;
}

uint32_t bohm_push_named(bohm_calls *calls, const bohm_procedure *procedure, const uint32_t *handles, size_t handle_count,
                         const int64_t *values, size_t value_count) {
    if (!calls || !procedure || !is_array(handles, handle_count) || !is_array(values, value_count)) return BOHM_MISUSE;
    bohm_procedure held = *procedure;
    return proved_bohm_push_named(calls, &held, array_of(handles), handle_count, array_of(values), value_count);
}

uint32_t bohm_run_calls(bohm_machine *machine, const bohm_calls *calls, bohm_bytes *out) {
    if (!machine || !calls) return BOHM_MISUSE;
    bohm_calls held = *calls;
    bohm_bytes told = {NOWHERE, 0};
    uint32_t status = proved_bohm_run_calls(machine, &held, &told);
    return hand_out(out, told, status);
}

uint32_t bohm_run_calls_held(bohm_machine *machine, const bohm_calls *calls) {
    if (!machine || !calls) return BOHM_MISUSE;
    bohm_calls held = *calls;
    return proved_bohm_run_calls_held(machine, &held);
}

uint32_t bohm_share_calls(bohm_machine *machine, bohm_calls *calls, uint32_t workers) {
    return machine && calls ? proved_bohm_share_calls(machine, calls, workers) : BOHM_MISUSE;
}

uint32_t bohm_open_worker(bohm_machine *machine, bohm_worker *worker) {
    return machine && worker ? proved_bohm_open_worker(machine, worker) : BOHM_MISUSE;
}

uint32_t bohm_work(bohm_worker *worker) {
    return worker ? proved_bohm_work(worker) : BOHM_MISUSE;
}

void bohm_close_worker(bohm_worker *worker) {
    if (worker) proved_bohm_close(worker);
}

uint32_t bohm_finish_calls(bohm_machine *machine, bohm_calls *calls) {
    return machine && calls ? proved_bohm_finish_calls(machine, calls) : BOHM_MISUSE;
}

uint32_t bohm_calls_text(const bohm_calls *calls, bohm_bytes *out) {
    if (!calls) return BOHM_MISUSE;
    bohm_calls held = *calls;
    bohm_bytes told = {NOWHERE, 0};
    uint32_t status = proved_bohm_calls_text(&held, &told);
    return hand_out(out, told, status);
}

uint32_t bohm_call(bohm_machine *machine, const bohm_procedure *procedure, const bohm_key *keys, size_t key_count,
                   const int64_t *values, size_t value_count, bohm_reply *row, int64_t *shown, size_t room) {
    if (!machine || !procedure || !is_array(keys, key_count) || !is_array(values, value_count)) return BOHM_MISUSE;
    if (!row || !is_array(shown, room)) return BOHM_MISUSE;
    bohm_procedure held = *procedure;
    bohm_key copies[MOST_KEYS];
    uint32_t status = proved_bohm_fits(machine, &held, key_count, value_count);
    if (status) return status;
    keys = pointed(keys, key_count, copies);
    if (!keys) return BOHM_MISUSE;
    return proved_bohm_call(machine, &held, keys, key_count, array_of(values), value_count, row, array_of(shown), room);
}

uint32_t bohm_machine_key(bohm_machine *machine, const uint8_t *key, size_t len, uint32_t *handle) {
    if (!machine || !is_array(key, len) || !handle) return BOHM_MISUSE;
    return proved_bohm_machine_key(machine, array_of(key), len, handle);
}

uint32_t bohm_call_named(bohm_machine *machine, const bohm_procedure *procedure, const uint32_t *handles,
                         size_t handle_count, const int64_t *values, size_t value_count, bohm_reply *row, int64_t *shown,
                         size_t room) {
    if (!machine || !procedure || !is_array(handles, handle_count) || !is_array(values, value_count)) return BOHM_MISUSE;
    if (!row || !is_array(shown, room)) return BOHM_MISUSE;
    bohm_procedure held = *procedure;
    return proved_bohm_call_named(machine, &held, array_of(handles), handle_count, array_of(values), value_count, row,
                                  array_of(shown), room);
}

uint32_t bohm_clear_calls(bohm_calls *calls) {
    return calls ? proved_bohm_clear_calls(calls) : BOHM_MISUSE;
}

void bohm_close_calls(bohm_calls *calls) {
    if (calls) proved_bohm_close(calls);
}
