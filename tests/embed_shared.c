/* Calls that workers share, on one thread, in each order: the replies, the store and the list are those of a run in order;
 * each status; and each allocation refused in turn.
 * Linked with -Wl,--wrap=malloc,--wrap=realloc,--wrap=free. */
#include "embed_heap.h"
#include "embed_long.h"

enum { COUNT = 300, MOST = 16 };

static procedures of;

static text text_of(bohm_calls *calls) {
    bohm_bytes out = BOHM_NO_BYTES;
    hold(bohm_calls_text(calls, &out) == BOHM_DONE, "calls_text");
    return (text){(char *)out.at, out.len, out.len};
}

/* The replies of the `count` transactions after `top` wait, and the list has its calls, which are these. */
static void check_finished(bohm_machine *machine, bohm_calls *calls, text before, uint32_t top, uint32_t count) {
    bohm_bytes out = BOHM_NO_BYTES;
    hold(bohm_replies(machine, &out) == BOHM_DONE, "replies");
    take(now, &out, replies_behind(top, count));
    hold(bohm_calls_text(calls, &out) == BOHM_DONE, "calls_text");
    take(now, &out, before);
    check_machine(machine, top + count);
}

static uint32_t open_all(bohm_machine *machine, bohm_worker workers[MOST]) {
    uint32_t opened = 0;
    memset(workers, 0, MOST * sizeof *workers);
    while (opened < MOST && !bohm_open_worker(machine, &workers[opened])) opened++;
    return opened;
}

/* Has some of the workers work, as the bits of `which` say, from the first on or from the last on, and closes the others. */
static void work_some(bohm_worker *workers, uint32_t opened, uint32_t which, int from_last) {
    for (uint32_t i = 0; i < opened; i++) {
        uint32_t at = from_last ? opened - 1 - i : i;
        if (which >> at & 1) hold(bohm_work(&workers[at]) == BOHM_DONE && !workers[at].at, "work");
        else bohm_close_worker(&workers[at]);
    }
}

/* Each number of workers, of which each set works, in both orders. */
static void every_order(void) {
    now = "shared calls";
    bohm_machine machine = {0};
    open_behind(&machine, 0);
    uint32_t top = 0;
    for (uint32_t workers = 2; workers <= 5; workers++)
        for (uint32_t which = 0; which < 2u << workers; which++) {
            bohm_worker open[MOST];
            bohm_calls calls = calls_behind(now, &of, top, COUNT);
            text before = text_of(&calls);
            hold(bohm_share_calls(&machine, &calls, workers) == BOHM_DONE, "share_calls");
            hold(open_all(&machine, open) == workers, "another number of workers");
            work_some(open, workers, which >> 1, which & 1);
            hold(bohm_finish_calls(&machine, &calls) == BOHM_DONE, "finish_calls");
            check_finished(&machine, &calls, before, top, COUNT);
            bohm_close_calls(&calls);
            top += COUNT;
        }
    bohm_close(&machine);
}

/* There are at most as many workers as calls, and they needn't all be opened. */
static void few_calls(void) {
    now = "few shared calls";
    for (uint32_t count = 1; count <= 4; count++) {
        bohm_machine machine = {0};
        bohm_worker open[MOST];
        open_behind(&machine, 0);
        bohm_calls calls = calls_behind(now, &of, 0, count);
        text before = text_of(&calls);
        hold(bohm_share_calls(&machine, &calls, 3) == BOHM_DONE, "share_calls");
        uint32_t opened = open_all(&machine, open);
        hold(opened == (count < 3 ? count : 3), "another number of workers");
        hold(bohm_open_worker(&machine, &open[MOST - 1]) == BOHM_UNFIT && !open[MOST - 1].at, "one more worker");
        work_some(open, opened, 1, 0);
        hold(bohm_finish_calls(&machine, &calls) == BOHM_DONE, "finish_calls");
        check_finished(&machine, &calls, before, 0, count);
        hold(bohm_share_calls(&machine, &calls, 2) == BOHM_DONE && bohm_finish_calls(&machine, &calls) == BOHM_DONE, "no worker");
        bohm_close_calls(&calls);
        bohm_close(&machine);
    }
}

/* Each call on a machine that is shared, or on its list, is refused, and changes nothing. */
static void check_refused(bohm_machine *machine, bohm_calls *calls) {
    bohm_machine own = {0};
    bohm_calls list = {0};
    bohm_bytes out = BOHM_NO_BYTES;
    bohm_reply_rows rows = BOHM_NO_ROWS;
    bohm_values values = BOHM_NO_VALUES;
    bohm_entries entries = BOHM_NO_ENTRIES;
    bohm_machine_counts counts;
    bohm_key a = key_of("a");
    bohm_reply row;
    const uint8_t *log = (const uint8_t *)"log 1\n";
    uint8_t present = 0, digest[32];
    uint32_t floor, top, handle = 0;
    int64_t value = 0, shown[2];
    open_behind(&own, 0);
    hold(bohm_open_calls(&list, seed, 1) == BOHM_DONE, "open_calls");
#define refused(call) hold(call == BOHM_SHARED, #call)
    refused(bohm_apply(machine, log, 6, &out));
    refused(bohm_apply_held(machine, log, 6, &out));
    refused(bohm_replies(machine, &out));
    refused(bohm_rows(machine, &rows, &values));
    refused(bohm_value_at(machine, a.at, a.len, 0, &present, &value));
    refused(bohm_store_at(machine, 0, &out));
    refused(bohm_store_rows(machine, 0, &entries));
    refused(bohm_digest(machine, 0, digest));
    refused(bohm_trim(machine, 0));
    refused(bohm_compact(machine));
    refused(bohm_timestamps(machine, &floor, &top));
    refused(bohm_counts(machine, &counts));
    refused(bohm_open_calls_for(machine, &(bohm_calls){0}, 1));
    refused(bohm_machine_key(machine, a.at, a.len, &handle));
    refused(bohm_call(machine, &of.count, &a, 1, &value, 1, &row, shown, 2));
    refused(bohm_call_named(machine, &of.count, &handle, 1, &value, 1, &row, shown, 2));
    refused(bohm_run_calls(machine, &list, &out));
    refused(bohm_run_calls_held(machine, &list));
    refused(bohm_run_calls_held(machine, calls));
    refused(bohm_share_calls(machine, &list, 2));
    refused(bohm_share_calls(machine, calls, 0));
    refused(bohm_share_calls(&own, calls, 2));
    refused(bohm_run_calls(&own, calls, &out));
    refused(bohm_push(calls, &of.count, &a, 1, &value, 1));
    refused(bohm_push_named(calls, &of.count, &handle, 1, &value, 1));
    refused(bohm_key_handle(calls, a.at, a.len, &handle));
    refused(bohm_calls_text(calls, &out));
    refused(bohm_clear_calls(calls));
    hold(bohm_finish_calls(machine, &list) == BOHM_MISUSE, "another list");
    hold(bohm_finish_calls(&own, calls) == BOHM_MISUSE, "another machine");
    hold(bohm_open(machine, seed, log, 6, 0, &out) == BOHM_MISUSE && bohm_open_calls(calls, seed, 1) == BOHM_MISUSE, "opened again");
    hold(is_none(out), "bytes of a call that is refused");
    bohm_close_calls(&list);
    bohm_close(&own);
}

static void shared_statuses(void) {
    now = "statuses of shared calls";
    bohm_machine machine = {0}, closed = {0};
    bohm_worker one = {0}, two = {0}, none = {0};
    open_behind(&machine, 0);
    bohm_calls calls = calls_behind(now, &of, 0, COUNT), shut = {0};
    text before = text_of(&calls);
    hold(bohm_finish_calls(&machine, &calls) == BOHM_MISUSE && bohm_open_worker(&machine, &one) == BOHM_MISUSE, "nothing is shared");
    hold(bohm_share_calls(NULL, &calls, 2) == BOHM_MISUSE && bohm_share_calls(&machine, NULL, 2) == BOHM_MISUSE, "null");
    hold(bohm_share_calls(&closed, &calls, 2) == BOHM_MISUSE && bohm_share_calls(&machine, &shut, 2) == BOHM_MISUSE, "closed");
    hold(bohm_share_calls(&machine, &calls, 0) == BOHM_UNFIT, "no worker");
    hold(bohm_share_calls(&machine, &calls, 1) == BOHM_IN_ORDER && bohm_share_calls(&machine, &calls, 17) == BOHM_IN_ORDER, "one, or too many");
    hold(bohm_share_calls(&machine, &calls, 2) == BOHM_DONE, "share_calls");
    check_refused(&machine, &calls);
    hold(bohm_open_worker(&machine, NULL) == BOHM_MISUSE && bohm_open_worker(NULL, &one) == BOHM_MISUSE, "null");
    hold(bohm_open_worker(&machine, &one) == BOHM_DONE && bohm_open_worker(&machine, &one) == BOHM_MISUSE, "an open worker");
    hold(bohm_work(&none) == BOHM_MISUSE && bohm_work(NULL) == BOHM_MISUSE, "a closed worker");
    hold(bohm_finish_calls(&machine, &calls) == BOHM_SHARED, "a worker is left");
    hold(bohm_open_worker(&machine, &two) == BOHM_DONE && bohm_open_worker(&machine, &none) == BOHM_UNFIT, "two workers");
    hold(bohm_work(&one) == BOHM_DONE && bohm_work(&one) == BOHM_MISUSE, "a worker works once");
    hold(bohm_finish_calls(&machine, &calls) == BOHM_SHARED, "a worker is left");
    check_refused(&machine, &calls);
    bohm_close_worker(&two);
    bohm_close_worker(&two);
    bohm_close_worker(NULL);
    hold(bohm_finish_calls(NULL, &calls) == BOHM_MISUSE && bohm_finish_calls(&machine, NULL) == BOHM_MISUSE, "null");
    hold(bohm_finish_calls(&closed, &calls) == BOHM_MISUSE && bohm_finish_calls(&machine, &shut) == BOHM_MISUSE, "closed");
    hold(bohm_finish_calls(&machine, &calls) == BOHM_DONE, "finish_calls");
    hold(bohm_share_calls(&machine, &calls, 2) == BOHM_WAITING && bohm_share_calls(&machine, &calls, 0) == BOHM_WAITING, "replies wait");
    hold(bohm_finish_calls(&machine, &calls) == BOHM_MISUSE, "finished twice");
    check_finished(&machine, &calls, before, 0, COUNT);
    bohm_close_calls(&calls);
    bohm_close(&machine);
}

/* Short bodies, no calls and too many are run in order; timestamps that would pass the last are refused before that. */
static void in_order(void) {
    now = "calls in order";
    bohm_machine machine = {0}, last = {0};
    procedures brief = prepare_all(now);
    open_behind(&machine, 0);
    open_behind(&last, 4294967290u);
    bohm_calls calls = calls_behind(now, &brief, 0, COUNT), many = calls_behind(now, &of, 0, 4097), empty = calls_behind(now, &of, 0, 0);
    hold(bohm_share_calls(&machine, &calls, 4) == BOHM_IN_ORDER, "short bodies");
    hold(bohm_share_calls(&machine, &many, 4) == BOHM_IN_ORDER, "more than a batch");
    hold(bohm_share_calls(&machine, &empty, 4) == BOHM_IN_ORDER, "no calls");
    hold(bohm_share_calls(&last, &calls, 4) == BOHM_TIMESTAMPS, "timestamps");
    check_machine(&machine, 0);
    bohm_close_calls(&calls);
    bohm_close_calls(&many);
    bohm_close_calls(&empty);
    bohm_close(&machine);
    bohm_close(&last);
    close_all(&brief);
}

/* What is shared can be closed, in each order, and workers that are left work in vain. */
static void closed_meanwhile(void) {
    now = "closed while it is shared";
    for (int order = 0; order < 6; order++) {
        long before = blocks;
        bohm_machine machine = {0};
        bohm_worker open[MOST];
        open_behind(&machine, 0);
        bohm_calls calls = calls_behind(now, &of, 0, COUNT);
        hold(bohm_share_calls(&machine, &calls, 3) == BOHM_DONE && open_all(&machine, open) == 3, "share_calls");
        if (order % 2) work_some(open, 3, 1, 0);
        if (order % 3 == 1) bohm_close_calls(&calls);
        if (order % 3 == 1) hold(bohm_finish_calls(&machine, &calls) == BOHM_MISUSE, "without the list");
        if (order % 3 != 2) bohm_close(&machine);
        if (order % 3 == 0) hold(bohm_clear_calls(&calls) == BOHM_SHARED, "without the machine");
        if (order % 2 == 0) work_some(open, 3, 3, 1);
        if (order % 3 != 1) bohm_close_calls(&calls);
        bohm_close(&machine);
        hold(blocks == before, "a block that nobody frees");
    }
}

/* ---- each allocation refused */

static uint32_t run_workers(bohm_machine *machine, bohm_calls *calls) {
    bohm_worker open[MOST];
    uint32_t status = bohm_share_calls(machine, calls, 3);
    if (status) return status;
    work_some(open, open_all(machine, open), 7, 0);
    return bohm_finish_calls(machine, calls);
}

static long run_refused(long from, long to) {
    bohm_machine machine = {0};
    open_behind(&machine, 0);
    bohm_calls calls = calls_behind(now, &of, 0, least_count);
    text before = text_of(&calls);
    refuse(from, to);
    uint32_t status = run_workers(&machine, &calls);
    long asked_for = relent();
    if (status) {
        hold(status == BOHM_NO_MEMORY || status == BOHM_STOPPED, "another status");
        check_machine(&machine, 0);
        hold(run_workers(&machine, &calls) == BOHM_DONE, "they don't run again");
    }
    check_finished(&machine, &calls, before, 0, least_count);
    bohm_close_calls(&calls);
    bohm_close(&machine);
    return asked_for;
}

int main(void) {
    of = prepare_long("long procedures");
    every_order();
    few_calls();
    shared_statuses();
    in_order();
    closed_meanwhile();
    each_refused("shared calls", run_refused, 100);
    close_all(&of);
    puts("calls that workers share, in each order, and their statuses: as it should be");
    return 0;
}
