/* How the calls of bohm.h fail: each status, and each allocation of each call failing in turn, alone and with all later
 * ones. The call reports the failure, and the machine answers as before, and continues.
 * Linked with -Wl,--wrap=malloc,--wrap=realloc,--wrap=free. */
#include "embed_heap.h"

/* ---- each call with failing allocations; each returns how many it requested */

static long answer_refused(long from, long to) {
    text log = log_of(least_count);
    bohm_bytes out = BOHM_NO_BYTES;
    refuse(from, to);
    uint32_t status = bohm_answer(seed, bytes_of(log), log.len, &out);
    long asked_for = relent();
    if (status == BOHM_DONE) take(now, &out, answer_of(least_count));
    else hold(status == BOHM_NO_MEMORY && is_none(out) && asked_for >= from, "another end");
    free(log.at);
    return asked_for;
}

static long open_refused(long from, long to) {
    text snapshot = snapshot_behind(40);
    bohm_machine machine = {0};
    bohm_bytes out = BOHM_NO_BYTES;
    refuse(from, to);
    uint32_t status = bohm_open(&machine, seed, bytes_of(snapshot), snapshot.len, 40, &out);
    long asked_for = relent();
    hold(is_none(out), "something is handed out");
    if (status) {
        hold(status == BOHM_NO_MEMORY && asked_for >= from && !machine.at, "another end");
        open_behind(&machine, 40);
    }
    check_machine(&machine, 40);
    go_on(&machine, 5);
    bohm_close(&machine);
    hold(!machine.at, "it isn't closed");
    free(snapshot.at);
    return asked_for;
}

/* The waiting replies are those of the last `ran` transactions: each allocation of their text fails in turn, with all
 * later ones (a request for the text's buffer may fail alone, since the text may well be shorter), and then none. */
static void take_waiting(bohm_machine *machine, uint32_t top, uint32_t ran) {
    bohm_bytes out = BOHM_NO_BYTES;
    text more = segment_behind(top + ran, 1);
    hold(bohm_apply(machine, bytes_of(more), more.len, &out) == BOHM_WAITING && is_none(out), "it doesn't wait");
    free(more.at);
    for (long from = 1;; from++) {
        refuse(from, 1L << 60);
        uint32_t status = bohm_replies(machine, &out);
        long asked_for = relent();
        if (status == BOHM_DONE) {
            hold(asked_for < from, "done without memory");
            break;
        }
        hold(status == BOHM_NO_MEMORY && is_none(out), "another end of bohm_replies");
        hold(counts_of(machine).waiting == ran && counts_of(machine).top == top + ran, "bohm_replies changed it");
    }
    take(now, &out, replies_behind(top, ran));
}

static long ended[BOHM_UNSORTED + 1];

static long apply_refused(long from, long to) {
    uint32_t top = 6, count = least_count;
    bohm_machine machine = {0};
    open_behind(&machine, 0);
    go_on(&machine, top);
    text segment = segment_behind(top, count);
    bohm_bytes out = BOHM_NO_BYTES;
    refuse(from, to);
    uint32_t status = bohm_apply(&machine, bytes_of(segment), segment.len, &out);
    long asked_for = relent();
    uint32_t ran = counts_of(&machine).top - top;
    hold(status == BOHM_DONE || asked_for >= from, "an end without cause");
    hold(ran == count || ran % 4096 == 0, "no whole batches");
    hold(status != BOHM_DONE || ran == count, "some didn't run");
    hold(status != BOHM_NO_MEMORY || ran == 0, "something has changed");
    hold(counts_of(&machine).waiting == (status == BOHM_KEPT ? ran : 0), "replies that wait");
    if (status == BOHM_DONE || status == BOHM_STOPPED) take(now, &out, replies_behind(top, ran));
    else hold((status == BOHM_NO_MEMORY || status == BOHM_KEPT) && is_none(out), "another end");
    if (status == BOHM_KEPT && ran) take_waiting(&machine, top, ran);
    ended[status]++;
    check_machine(&machine, top + ran);
    go_on(&machine, count - ran + 4);
    bohm_close(&machine);
    free(segment.at);
    return asked_for;
}

static long store_at_refused(long from, long to) {
    bohm_machine machine = {0};
    open_behind(&machine, 0);
    go_on(&machine, 9);
    bohm_bytes out = BOHM_NO_BYTES;
    refuse(from, to);
    uint32_t status = bohm_store_at(&machine, 5, &out);
    long asked_for = relent();
    if (status == BOHM_DONE) take(now, &out, snapshot_behind(5));
    else hold(status == BOHM_NO_MEMORY && is_none(out) && asked_for >= from, "another end");
    check_machine(&machine, 9);
    go_on(&machine, 4);
    bohm_close(&machine);
    return asked_for;
}

/* Writes a digest's text and its hex digits, which tests/embed compares with those of sha256sum. */
static void tell_digest(uint32_t ts, const uint8_t digest[32]) {
    const char *folder = getenv("DIGESTS");
    if (!folder) return;
    char name[4096];
    text digested = digested_behind(ts);
    snprintf(name, sizeof name, "%s/%" PRIu32, folder, ts);
    FILE *of = fopen(name, "wb");
    hold(of && fwrite(digested.at, 1, digested.len, of) == digested.len && !fclose(of), "the text isn't written");
    free(digested.at);
    snprintf(name, sizeof name, "%s/told", folder);
    FILE *told = fopen(name, "ab");
    hold(told != NULL, "the digest isn't written");
    for (int i = 0; i < 32; i++) fprintf(told, "%02x", digest[i]);
    hold(fprintf(told, "  %" PRIu32 "\n", ts) > 0 && !fclose(told), "the digest isn't written");
}

/* Whether a digest is unchanged, as it must be after a refusal. */
static int is_as_before(const uint8_t digest[32]) {
    for (int i = 0; i < 32; i++)
        if (digest[i] != 0xa5) return 0;
    return 1;
}

static long digest_refused(long from, long to) {
    bohm_machine machine = {0};
    open_behind(&machine, 0);
    go_on(&machine, 9);
    uint8_t digest[32];
    memset(digest, 0xa5, sizeof digest);
    refuse(from, to);
    uint32_t status = bohm_digest(&machine, 5, digest);
    long asked_for = relent();
    if (status) hold(status == BOHM_NO_MEMORY && is_as_before(digest) && asked_for >= from, "another end");
    else hold(!is_as_before(digest), "no digest");
    check_machine(&machine, 9);
    go_on(&machine, 4);
    bohm_close(&machine);
    return asked_for;
}

/* Two machines have the same digest if they have the same store, however they came to it, and otherwise different ones. */
static void digests(void) {
    now = "digests";
    bohm_machine one = {0}, other = {0};
    uint8_t last[32] = {0}, digest[32], same[32];
    open_behind(&one, 0);
    go_on(&one, 12);
    for (uint32_t ts = 0; ts <= 12; ts++) {
        hold(bohm_digest(&one, ts, digest) == BOHM_DONE, "no digest");
        tell_digest(ts, digest);
        open_behind(&other, ts);
        hold(bohm_digest(&other, ts, same) == BOHM_DONE && !memcmp(digest, same, 32), "another digest of the same");
        bohm_close(&other);
        hold((memcmp(digest, last, 32) == 0) == (ts && ts % 4 == 0), "one digest of other stores");
        memcpy(last, digest, 32);
    }
    hold(bohm_trim(&one, 8) == BOHM_DONE, "trim");
    memset(digest, 0xa5, sizeof digest);
    hold(bohm_digest(&one, 7, digest) == BOHM_TRIMMED && is_as_before(digest), "a digest below the floor");
    hold(bohm_digest(&one, 13, digest) == BOHM_FUTURE && is_as_before(digest), "a digest of the future");
    check_machine(&one, 12);
    bohm_close(&one);
}

static long prepare_refused(long from, long to) {
    bohm_procedure procedure = {0};
    bohm_bytes out = BOHM_NO_BYTES;
    refuse(from, to);
    uint32_t status = bohm_prepare(&procedure, seed, (const uint8_t *)COPY_TEXT, strlen(COPY_TEXT), &out);
    long asked_for = relent();
    hold(is_none(out), "something is handed out");
    if (status) hold(status == BOHM_NO_MEMORY && asked_for >= from && !procedure.at, "another end");
    else bohm_close_procedure(&procedure);
    hold(!procedure.at, "it isn't closed");
    return asked_for;
}

/* Runs calls on a machine whose top is `top`; they must be those of the next `count` transactions. */
static void run_on(bohm_machine *machine, bohm_calls *calls, uint32_t count) {
    uint32_t top = counts_of(machine).top;
    bohm_bytes out = BOHM_NO_BYTES;
    hold(bohm_run_calls(machine, calls, &out) == BOHM_DONE, "the calls aren't run");
    take(now, &out, replies_behind(top, count));
    check_machine(machine, top + count);
}

/* The allocations of each push fail; afterwards the list has exactly the calls that were accepted. */
static long push_refused(long from, long to) {
    procedures of = prepare_all(now);
    bohm_machine machine = {0};
    bohm_calls calls = {0};
    uint32_t taken = 0, status;
    open_behind(&machine, 0);
    refuse(from, to);
    status = bohm_open_calls(&calls, seed, 1);
    while (!status && taken < 12 && !(status = push(&calls, &of, taken + 1))) taken++;
    long asked_for = relent();
    hold(!status || (status == BOHM_NO_MEMORY && asked_for >= from), "another end");
    if (!calls.at) hold(bohm_open_calls(&calls, seed, 1) == BOHM_DONE, "no list of calls");
    run_on(&machine, &calls, taken);
    bohm_clear_calls(&calls);
    for (uint32_t k = taken + 1; k <= 16; k++) hold(push(&calls, &of, k) == BOHM_DONE, "a call isn't taken");
    run_on(&machine, &calls, 16 - taken);
    bohm_close(&machine);
    bohm_close_calls(&calls);
    hold(!calls.at, "it isn't closed");
    close_all(&of);
    return asked_for;
}

/* Opens a list that shares the machine's names, or one that has its own. */
static uint32_t open_list(const bohm_machine *machine, bohm_calls *calls, int shares) {
    return shares ? bohm_open_calls_for(machine, calls, 1) : bohm_open_calls(calls, seed, 1);
}

/* The allocations of making handles fail, and those of pushes by them. A handle names its key also after failures, and
 * after the calls are cleared. */
static long named_refused(int shares, long from, long to) {
    procedures of = prepare_all(now);
    bohm_machine machine = {0};
    bohm_calls calls = {0};
    handles keys = {7, 7, 7};
    uint32_t taken = 0, status;
    open_behind(&machine, 0);
    refuse(from, to);
    status = open_list(&machine, &calls, shares);
    if (!status) status = make_handles(&calls, &keys);
    while (!status && taken < 12 && !(status = push_named(&calls, &of, &keys, taken + 1))) taken++;
    long asked_for = relent();
    hold(!status || (status == BOHM_NO_MEMORY && asked_for >= from), "another end");
    hold((keys.a == 7 || keys.a == 0) && (keys.b == 7 || keys.b == 1) && (keys.c == 7 || keys.c == 2), "other handles");
    if (!calls.at) hold(open_list(&machine, &calls, shares) == BOHM_DONE, "no list of calls");
    if (keys.c == 7) hold(make_handles(&calls, &keys) == BOHM_DONE, "no handles");
    run_on(&machine, &calls, taken);
    bohm_clear_calls(&calls);
    for (uint32_t k = taken + 1; k <= 16; k++) hold(push_named(&calls, &of, &keys, k) == BOHM_DONE, "a call isn't taken");
    run_on(&machine, &calls, 16 - taken);
    bohm_close(&machine);
    bohm_close_calls(&calls);
    close_all(&of);
    return asked_for;
}

static long push_named_refused(long from, long to) { return named_refused(0, from, to); }
static long push_shared_refused(long from, long to) { return named_refused(1, from, to); }

static long run_calls_refused(long from, long to) {
    uint32_t top = 6, count = least_count;
    procedures of = prepare_all(now);
    bohm_machine machine = {0};
    open_behind(&machine, 0);
    go_on(&machine, top);
    bohm_calls calls = calls_behind(now, &of, top, count);
    bohm_bytes out = BOHM_NO_BYTES;
    refuse(from, to);
    uint32_t status = bohm_run_calls(&machine, &calls, &out);
    long asked_for = relent();
    uint32_t ran = counts_of(&machine).top - top;
    hold(status == BOHM_DONE || asked_for >= from, "an end without cause");
    hold(ran == count || ran % 4096 == 0, "no whole batches");
    hold(status != BOHM_DONE || ran == count, "some didn't run");
    hold(counts_of(&machine).waiting == (status == BOHM_KEPT ? ran : 0), "replies that wait");
    if (status == BOHM_DONE || status == BOHM_STOPPED) take(now, &out, replies_behind(top, ran));
    else hold(status == BOHM_KEPT && is_none(out), "another end");
    if (status == BOHM_KEPT && ran) {
        hold(bohm_run_calls(&machine, &calls, &out) == BOHM_WAITING && is_none(out), "it doesn't wait");
        take_waiting(&machine, top, ran);
    }
    ended[status]++;
    check_machine(&machine, top + ran);
    go_on(&machine, count - ran + 4);
    bohm_close(&machine);
    bohm_close_calls(&calls);
    close_all(&of);
    return asked_for;
}

/* The rows of the transactions after `top` are those that the log's rules give. */
static void check_rows(bohm_reply_rows *rows, bohm_values *values, uint32_t top, uint32_t count) {
    uint64_t shown = 0;
    hold(rows->len == count, "another number of rows");
    for (uint32_t i = 0; i < count; i++) {
        uint32_t k = top + i + 1;
        bohm_reply row = rows->at[i];
        hold(row.first == shown, "another first value");
        if (k % 4 == 0) {
            hold(row.outcome == BOHM_ABORT_NEED && row.statement == 2 && row.shown == 0, "another abort");
        } else {
            int64_t right = k % 2 ? counted_a(k - 1) : 7 + counted_b(k - 1);
            hold(row.outcome == BOHM_COMMIT && row.statement == 0 && row.shown == 1, "another commit");
            hold(shown < values->len && values->at[shown] == right, "another shown value");
            shown++;
        }
    }
    hold(values->len == shown, "another number of values");
    bohm_free_rows(rows, values);
}

static int are_none(bohm_reply_rows rows, bohm_values values) {
    return !rows.at && !rows.len && !values.at && !values.len;
}

/* A segment as text, and then calls, with replies returned as rows. */
static long rows_refused(long from, long to) {
    uint32_t top = 6, count = least_count;
    procedures of = prepare_all(now);
    bohm_machine machine = {0};
    open_behind(&machine, 0);
    go_on(&machine, top);
    text segment = segment_behind(top, count);
    bohm_bytes out = BOHM_NO_BYTES;
    bohm_reply_rows rows = BOHM_NO_ROWS;
    bohm_values values = BOHM_NO_VALUES;
    refuse(from, to);
    uint32_t status = bohm_apply_held(&machine, bytes_of(segment), segment.len, &out);
    uint32_t told = status == BOHM_DONE || status == BOHM_STOPPED ? bohm_rows(&machine, &rows, &values) : BOHM_DONE;
    long asked_for = relent();
    uint32_t ran = counts_of(&machine).top - top;
    hold(is_none(out), "something is handed out");
    hold((status == BOHM_DONE && told == BOHM_DONE) || asked_for >= from, "an end without cause");
    hold(status == BOHM_DONE ? ran == count : ran % 4096 == 0, "no whole batches");
    hold(status == BOHM_DONE || status == BOHM_STOPPED || (status == BOHM_NO_MEMORY && !ran), "another end");
    if (told) {
        hold(told == BOHM_NO_MEMORY && are_none(rows, values) && counts_of(&machine).waiting == ran, "another end of rows");
        hold(bohm_rows(&machine, &rows, &values) == BOHM_DONE, "no rows");
    }
    if (status == BOHM_NO_MEMORY) hold(are_none(rows, values), "rows of nothing");
    check_rows(&rows, &values, top, ran);
    check_machine(&machine, top + ran);
    bohm_calls calls = calls_behind(now, &of, top + ran, 5);
    hold(bohm_run_calls_held(&machine, &calls) == BOHM_DONE, "the calls aren't run");
    hold(bohm_run_calls_held(&machine, &calls) == BOHM_WAITING, "it doesn't wait");
    hold(bohm_apply_held(&machine, bytes_of(segment), segment.len, &out) == BOHM_WAITING && is_none(out), "it doesn't wait");
    hold(counts_of(&machine).waiting == 5, "no reply waits");
    hold(bohm_rows(&machine, &rows, &values) == BOHM_DONE, "no rows");
    check_rows(&rows, &values, top + ran, 5);
    hold(bohm_rows(&machine, &rows, &values) == BOHM_DONE, "no rows");
    check_rows(&rows, &values, top + ran + 5, 0);
    bohm_clear_calls(&calls);
    for (uint32_t k = 1; k <= 3; k++) hold(push(&calls, &of, top + ran + 5 + k) == BOHM_DONE, "a call isn't taken");
    hold(bohm_run_calls_held(&machine, &calls) == BOHM_DONE, "the calls aren't run");
    hold(bohm_replies(&machine, &out) == BOHM_DONE, "no text of the replies");
    take(now, &out, replies_behind(top + ran + 5, 3));
    go_on(&machine, 4);
    bohm_close(&machine);
    bohm_close_calls(&calls);
    close_all(&of);
    free(segment.at);
    return asked_for;
}

/* How many allocations it takes to return the replies of `count` transactions, most of which show a value. */
static long taking(uint32_t count, int as_text) {
    bohm_machine machine = {0};
    bohm_bytes out = BOHM_NO_BYTES;
    bohm_reply_rows rows = BOHM_NO_ROWS;
    bohm_values values = BOHM_NO_VALUES;
    text segment = segment_behind(0, count);
    open_behind(&machine, 0);
    hold(bohm_apply_held(&machine, bytes_of(segment), segment.len, &out) == BOHM_DONE, "it isn't run");
    refuse(-1, -1);
    uint32_t status = as_text ? bohm_replies(&machine, &out) : bohm_rows(&machine, &rows, &values);
    long asked_for = relent();
    hold(status == BOHM_DONE, "no replies");
    if (as_text) take(now, &out, replies_behind(0, count));
    else check_rows(&rows, &values, 0, count);
    bohm_close(&machine);
    free(segment.at);
    return asked_for;
}

/* Replies have room for all values that they show, up front: as many allocations for many replies as for few. */
static void room_for_shows(void) {
    now = "room for shown values";
    for (int as_text = 0; as_text <= 1; as_text++) hold(taking(4096, as_text) == taking(8, as_text), "allocations grow with the replies");
}

/* Each outcome, and statuses of held segments. */
static void outcomes(void) {
    now = "outcomes";
    bohm_machine machine = {0};
    bohm_bytes out = BOHM_NO_BYTES;
    bohm_reply_rows rows = BOHM_NO_ROWS;
    bohm_values values = BOHM_NO_VALUES;
    const char *segment = "log 1\n"
                          "txn\nreads a b\nwrites\nshow b\nshow a\nshow a - b\nend\n"
                          "txn\nreads a\nwrites\nshow a\nneed a > 0\nend\n"
                          "txn\nreads\nwrites\nfail\nend\n"
                          "txn\nreads d\nwrites\nshow 1\nshow d\nend\n"
                          "txn\nreads b\nwrites\nshow b\nshow b\nshow 9223372036854775807 + b\nend\n"
                          "txn\nreads\nwrites\nend\n"
                          "txn\nreads\nwrites\nshow 5\nend\n";
    const bohm_reply right[] = {{BOHM_COMMIT, 0, 0, 3},       {BOHM_ABORT_NEED, 2, 3, 0},  {BOHM_ABORT_FAIL, 1, 3, 0},
                                {BOHM_ABORT_ABSENT, 2, 3, 0}, {BOHM_ABORT_RANGE, 3, 3, 0}, {BOHM_COMMIT, 0, 3, 0},
                                {BOHM_COMMIT, 0, 3, 1}};
    const int64_t shown[] = {7, 0, -7, 5};
    const char *store = "log 1\na 1\n", *bad = "log 1\ntxn\nend\n";
    open_behind(&machine, 0);
    hold(bohm_apply_held(&machine, (const uint8_t *)segment, strlen(segment), &out) == BOHM_DONE, "it isn't run");
    hold(bohm_rows(&machine, &rows, &values) == BOHM_DONE && rows.len == 7 && values.len == 4, "other rows");
    hold(!memcmp(rows.at, right, sizeof right) && !memcmp(values.at, shown, sizeof shown), "other rows");
    bohm_free_rows(&rows, &values);
    hold(are_none(rows, values), "rows stay");
    hold(bohm_apply_held(&machine, (const uint8_t *)store, strlen(store), &out) == BOHM_HAS_STORE && is_none(out), "a store");
    hold(bohm_apply_held(&machine, (const uint8_t *)bad, strlen(bad), &out) == BOHM_REFUSED, "a bad line");
    text line = {0};
    put(&line, "refused: line 3\n", 0, "");
    take(now, &out, line);
    bohm_close(&machine);
}

/* A procedure's text is refused with this line, or accepted if the line is "". */
static void check_refusal(const char *procedure, const char *line) {
    bohm_procedure made = {0};
    bohm_bytes out = BOHM_NO_BYTES;
    text right = {0};
    uint32_t status = bohm_prepare(&made, seed, (const uint8_t *)procedure, strlen(procedure), &out);
    put(&right, line, 0, "");
    hold(status == (*line ? BOHM_REFUSED : BOHM_DONE) && !made.at == !!*line, "another end of a procedure");
    take(now, &out, right);
    if (made.at) bohm_close_procedure(&made);
}

static void each_call_status(void) {
    now = "calls";
    check_refusal("procedure 3\n", "refused: line 1\n");
    check_refusal("procedure 1\nkey x\nvalue x\n", "refused: line 3\n");
    check_refusal("procedure 1\nkey x\nreads\nwrites\n", "refused: line 4\n");
    check_refusal("procedure 1\nreads\nwrites\n", "refused: short\n");
    check_refusal("procedure 1\nvalue v\nreads\nwrites\nneed a > 0\nend\n", "refused: check unread 1 2\n");
    check_refusal("procedure 2\nreads\nwrites\nend\n", "");
    procedures of = prepare_all(now);
    bohm_procedure other = prepared(now, "procedure 2\nreads\nwrites\nend\n");
    bohm_calls calls = {0};
    bohm_machine machine = {0};
    bohm_key a = key_of("a"), none = {(const uint8_t *)"a", 0}, large = key_of("A"), two[] = {a, large};
    int64_t one = 1;
    hold(bohm_open_calls(&calls, seed, 0) == BOHM_UNFIT && !calls.at, "a list of no edition");
    hold(bohm_open_calls(&calls, seed, 3) == BOHM_UNFIT && !calls.at, "a list of no edition");
    hold(bohm_open_calls(&calls, seed, 1) == BOHM_DONE && calls.at, "no list of calls");
    open_behind(&machine, 4294967290u);
    hold(bohm_push(&calls, &of.count, &none, 1, &one, 1) == BOHM_NO_KEY, "no key");
    hold(bohm_push(&calls, &of.count, &large, 1, &one, 1) == BOHM_NO_KEY, "no key");
    hold(bohm_push(&calls, &of.copy, two, 2, &one, 1) == BOHM_NO_KEY, "no key");
    hold(bohm_push(&calls, &of.count, &a, 1, &one, 0) == BOHM_UNFIT, "too few values");
    hold(bohm_push(&calls, &of.need, &a, 1, &one, 1) == BOHM_UNFIT, "too many values");
    hold(bohm_push(&calls, &of.copy, &a, 1, &one, 1) == BOHM_UNFIT, "too few keys");
    hold(bohm_push(&calls, &other, &a, 0, &one, 0) == BOHM_UNFIT, "another edition");
    run_on(&machine, &calls, 0);
    for (uint32_t k = 1; k <= 5; k++) hold(push(&calls, &of, 4294967290u + k) == BOHM_DONE, "a call isn't taken");
    close_all(&of);
    run_on(&machine, &calls, 5);
    bohm_bytes out = BOHM_NO_BYTES;
    hold(bohm_run_calls(&machine, &calls, &out) == BOHM_TIMESTAMPS && is_none(out), "timestamps pass");
    check_machine(&machine, 4294967295u);
    bohm_clear_calls(&calls);
    run_on(&machine, &calls, 0);
    bohm_close(&machine);
    bohm_close_procedure(&other);
    bohm_close_calls(&calls);
}

/* Each status of calls whose keys are named by handles. */
static void each_handle_status(int shares) {
    now = shares ? "shared handles" : "handles";
    procedures of = prepare_all(now);
    bohm_procedure other = prepared(now, "procedure 2\nreads\nwrites\nend\n");
    bohm_calls calls = {0};
    bohm_machine machine = {0};
    uint32_t keys[4] = {9, 9, 9, 9}, strange[] = {0, 4}, last[] = {0, UINT32_MAX};
    int64_t one = 1;
    open_behind(&machine, 0);
    hold(open_list(&machine, &calls, shares) == BOHM_DONE, "no list of calls");
    hold(handle_of(&calls, "", keys) == BOHM_NO_KEY && handle_of(&calls, "A", keys) == BOHM_NO_KEY && keys[0] == 9, "no key");
    hold(bohm_push_named(&calls, &of.count, strange, 1, &one, 1) == BOHM_MISUSE, "a handle that nobody made");
    const char *names[] = {"a", "b", "a", "c"};
    for (uint32_t i = 0; i < 4; i++) hold(handle_of(&calls, names[i], &keys[i]) == BOHM_DONE && keys[i] == i, "another handle");
    hold(bohm_push_named(&calls, &of.copy, strange, 2, &one, 1) == BOHM_MISUSE, "a handle that nobody made");
    hold(bohm_push_named(&calls, &of.copy, last, 2, &one, 1) == BOHM_MISUSE, "a handle that nobody made");
    hold(bohm_push_named(&calls, &of.count, strange, 2, &one, 1) == BOHM_MISUSE, "a handle that nobody made");
    hold(bohm_push_named(&calls, &of.count, keys, 1, &one, 0) == BOHM_UNFIT, "too few values");
    hold(bohm_push_named(&calls, &of.need, keys, 1, &one, 1) == BOHM_UNFIT, "too many values");
    hold(bohm_push_named(&calls, &of.copy, keys, 1, &one, 1) == BOHM_UNFIT, "too few keys");
    hold(bohm_push_named(&calls, &of.need, keys, 2, NULL, 0) == BOHM_UNFIT, "too many keys");
    hold(bohm_push_named(&calls, &other, NULL, 0, NULL, 0) == BOHM_UNFIT, "another edition");
    run_on(&machine, &calls, 0);
    /* both handles of `a`, and a list that is cleared, with more handles each time */
    for (uint32_t top = 0; top < 24; top += 4) {
        handles by = {keys[top / 4 % 2 * 2], keys[1], keys[3]};
        char name[16];
        for (uint32_t k = top + 1; k <= top + 4; k++) hold(push_named(&calls, &of, &by, k) == BOHM_DONE, "a call isn't taken");
        run_on(&machine, &calls, 4);
        bohm_clear_calls(&calls);
        sprintf(name, "other_%" PRIu32, top);
        hold(handle_of(&calls, name, &strange[1]) == BOHM_DONE && strange[1] == 4 + top / 4, "another handle");
    }
    bohm_close(&machine);
    bohm_close_procedure(&other);
    bohm_close_calls(&calls);
    close_all(&of);
}

/* A list that shares a machine's names runs on another machine, whose store has other keys, after the first is closed. */
static void another_machines_list(void) {
    now = "another machine's list";
    procedures of = prepare_all(now);
    bohm_calls calls = {0};
    bohm_machine first = {0}, second = {0};
    handles keys;
    open_behind(&first, 4);
    hold(open_list(&first, &calls, 1) == BOHM_DONE && make_handles(&calls, &keys) == BOHM_DONE, "no list of calls");
    bohm_close(&first);
    open_behind(&second, 0);
    for (uint32_t k = 1; k <= 8; k++) {
        uint32_t status = k % 3 ? push_named(&calls, &of, &keys, k) : push(&calls, &of, k);
        hold(status == BOHM_DONE, "a call isn't taken");
    }
    run_on(&second, &calls, 8);
    bohm_close(&second);
    bohm_close_calls(&calls);
    close_all(&of);
}

/* The handles of keys that a list shares with a machine take four bytes each, in an array that doubles; other handles
 * contain the key. Calls on shared keys, cleared one by one, leave no table of names in the list. */
static void small_handles(void) {
    now = "small handles";
    enum { KEYS = 1000 };
    bohm_procedure look = prepared(now, "procedure 1\nkey of\nreads of\nwrites\nshow of\nend\n");
    static char store[16 * KEYS];
    char *at = store + sprintf(store, "log 1\n");
    bohm_machine machine = {0};
    for (int k = 0; k < KEYS; k++) at += sprintf(at, "k%04d 1\n", k);
    hold(bohm_open(&machine, seed, (uint8_t *)store, (size_t)(at - store), 0, NULL) == BOHM_DONE, "it doesn't open");
    for (int shares = 0; shares < 2; shares++) {
        bohm_calls calls = {0};
        uint32_t handle;
        char name[8];
        hold(open_list(&machine, &calls, shares) == BOHM_DONE, "no list of calls");
        largest = 0;
        for (int k = 0; k < KEYS; k++) {
            sprintf(name, "k%04d", k);
            hold(handle_of(&calls, name, &handle) == BOHM_DONE && handle == (uint32_t)k, "another handle");
            hold(bohm_push_named(&calls, &look, &handle, 1, NULL, 0) == BOHM_DONE, "a call isn't taken");
            hold(bohm_clear_calls(&calls) == BOHM_DONE, "it isn't cleared");
        }
        hold(shares ? largest <= 8 * KEYS : largest >= 32 * KEYS, "handles of another size");
        bohm_close_calls(&calls);
    }
    bohm_close_procedure(&look);
    bohm_close(&machine);
}

/* Calls of one procedure share their statements: no block is as large as one copy of the statements for each call would
 * be. Keys are given in both orders, and then only in falling order; values have both signs. */
static void common_statements(void) {
    now = "common statements";
    enum { CALLS = 4096, STATEMENTS = 6, BYTES = 24 };
    const char *store = "log 1\na 0\nb 0\n";
    bohm_procedure move = prepared(now, "procedure 1\nkey of\nkey to\nvalue by\nreads of to\nwrites of to\n"
                                        "set to = to + $by\nset of = of - $by\nshow of\nshow to\nshow $by\nend\n");
    bohm_key keys[] = {key_of("a"), key_of("b"), key_of("a")};
    for (int fall = 0; fall < 2; fall++) {
        bohm_machine machine = {0};
        bohm_calls calls = {0};
        bohm_bytes out = BOHM_NO_BYTES;
        text right = {0};
        int held[2] = {0, 0};
        hold(bohm_open(&machine, seed, (const uint8_t *)store, strlen(store), 0, NULL) == BOHM_DONE, "it doesn't open");
        hold(bohm_open_calls(&calls, seed, 1) == BOHM_DONE, "no list of calls");
        largest = 0;
        for (int k = 1; k <= CALLS; k++) {
            int64_t by = k * 7 % 100 - 50;
            int from = fall || k / 3 % 2;
            hold(bohm_push(&calls, &move, keys + from, 2, &by, 1) == BOHM_DONE, "a call isn't taken");
        }
        hold(largest < STATEMENTS * BYTES * CALLS, "the statements stand once for each call");
        for (int k = 1; k <= CALLS; k++) {
            int from = fall || k / 3 % 2, by = k * 7 % 100 - 50;
            char line[96];
            sprintf(line, "%d commit %d %d %d\n", k, held[from], held[1 - from], by);
            held[1 - from] += by, held[from] -= by;
            put(&right, line, 0, "");
        }
        hold(bohm_run_calls(&machine, &calls, &out) == BOHM_DONE, "the calls aren't run");
        take(now, &out, right);
        bohm_close_calls(&calls);
        bohm_close(&machine);
    }
    bohm_close_procedure(&move);
}

/* Calls with equal keys, and with the least and the greatest value. */
static void arguments(void) {
    now = "arguments";
    bohm_machine machine = {0};
    bohm_calls calls = {0};
    bohm_bytes out = BOHM_NO_BYTES;
    bohm_procedure move = prepared(now, "procedure 1\nkey of\nkey to\nvalue by\nreads of to\nwrites of to\n"
                                        "set to = to + $by\nset of = of - $by\nshow of\nshow to\nshow $by\nend\n");
    bohm_key both[] = {key_of("b"), key_of("a")}, same[] = {key_of("b"), key_of("b")};
    int64_t values[] = {3, INT64_MIN, INT64_MAX, 0};
    text right = {0};
    open_behind(&machine, 0);
    hold(bohm_open_calls(&calls, seed, 1) == BOHM_DONE, "no list of calls");
    hold(bohm_push(&calls, &move, both, 2, &values[0], 1) == BOHM_DONE, "a call isn't taken");
    hold(bohm_push(&calls, &move, same, 2, &values[0], 1) == BOHM_DONE, "a call isn't taken");
    hold(bohm_push(&calls, &move, both, 2, &values[1], 1) == BOHM_DONE, "a call isn't taken");
    hold(bohm_push(&calls, &move, both, 2, &values[2], 1) == BOHM_DONE, "a call isn't taken");
    hold(bohm_push(&calls, &move, both, 2, &values[3], 1) == BOHM_DONE, "a call isn't taken");
    /* a 0, b 7; b 4, a 3; both sets write one key, and the last one counts: b 1; b - least exceeds the greatest; a +
     * greatest exceeds it */
    put(&right, "1 commit 7 0 3\n2 commit 4 4 3\n3 abort range 3\n4 abort range 2\n5 commit 1 3 0\n", 0, "");
    hold(bohm_run_calls(&machine, &calls, &out) == BOHM_DONE, "the calls aren't run");
    take(now, &out, right);
    check_value(&machine, "a", 5, 1, 3);
    check_value(&machine, "b", 5, 1, 1);
    bohm_close_calls(&calls);
    bohm_close_procedure(&move);
    bohm_close(&machine);
}

/* A text with a bad third line is refused for that, or because an allocation failed. */
static long line_refused(long from, long to) {
    const char *segment = "log 1\ntxn\nreads  a\nwrites a\nend\n";
    text line = {0};
    put(&line, "refused: line 3\n", 0, "");
    bohm_machine machine = {0};
    open_behind(&machine, 0);
    go_on(&machine, 9);
    bohm_bytes out = BOHM_NO_BYTES;
    refuse(from, to);
    uint32_t status = bohm_apply(&machine, (const uint8_t *)segment, strlen(segment), &out);
    long asked_for = relent();
    if (status == BOHM_REFUSED) {
        take(now, &out, line);
    } else {
        hold(status == BOHM_NO_MEMORY && is_none(out) && asked_for >= from, "another end");
        free(line.at);
    }
    check_machine(&machine, 9);
    go_on(&machine, 4);
    bohm_close(&machine);
    return asked_for;
}

/* ---- the other statuses, and the calls that allocate nothing */

static uint32_t apply_text(bohm_machine *machine, const char *segment) {
    bohm_bytes out = BOHM_NO_BYTES;
    uint32_t status = bohm_apply(machine, (const uint8_t *)segment, strlen(segment), &out);
    hold(status == BOHM_DONE || is_none(out), "something is handed out");
    bohm_free_bytes(&out);
    return status;
}

static void each_status(void) {
    now = "statuses";
    bohm_machine machine = {0};
    bohm_bytes out = BOHM_NO_BYTES;
    text log = log_of(1);
    hold(bohm_open(&machine, seed, bytes_of(log), log.len, 0, &out) == BOHM_HAS_LOG && !machine.at && is_none(out), "a log is opened");
    free(log.at);
    open_behind(&machine, 4294967290u);
    hold(counts_of(&machine).floor == 4294967290u, "another floor");
    hold(apply_text(&machine, "log 1\na 1\n") == BOHM_HAS_STORE, "a store is applied");
    text past = segment_behind(4294967290u, 5), one = {0};
    put(&past, "txn\nreads\nwrites\nend\n", 0, "");
    hold(apply_text(&machine, past.at) == BOHM_TIMESTAMPS, "timestamps pass");
    free(past.at);
    go_on(&machine, 5);
    put(&one, "log 2\ntxn\nreads\nwrites\nend\n", 0, "");
    hold(apply_text(&machine, one.at) == BOHM_TIMESTAMPS, "timestamps pass");
    hold(apply_text(&machine, "log 1\n") == BOHM_DONE, "a segment of nothing");
    free(one.at);
    check_machine(&machine, 4294967295u);
    bohm_close(&machine);
}

/* Answers don't depend on the seed, and a machine continues from another machine's snapshot. */
static void seeds(void) {
    now = "seeds";
    static const uint8_t others[3][16] = {{0}, {255, 255, 255, 255, 255, 255, 255, 255}, "\1\2\3\4\5\6\7\b\t\n"};
    text log = log_of(9), snapshot = snapshot_behind(40);
    uint8_t right[32], told[32];
    bohm_machine machine = {0};
    open_behind(&machine, 40);
    go_on(&machine, 9);
    hold(bohm_digest(&machine, 49, right) == BOHM_DONE, "no digest");
    bohm_close(&machine);
    for (size_t i = 0; i < 3; i++) {
        bohm_bytes out = BOHM_NO_BYTES;
        hold(bohm_answer(others[i], bytes_of(log), log.len, &out) == BOHM_DONE, "no answer");
        take(now, &out, answer_of(9));
        hold(bohm_open(&machine, others[i], bytes_of(snapshot), snapshot.len, 40, &out) == BOHM_DONE, "it doesn't open");
        go_on(&machine, 9);
        hold(bohm_digest(&machine, 49, told) == BOHM_DONE && !memcmp(told, right, 32), "another digest");
        bohm_close(&machine);
    }
    free(log.at);
    free(snapshot.at);
}

static void without_memory(void) {
    now = "without memory";
    bohm_machine machine = {0};
    open_behind(&machine, 0);
    go_on(&machine, 12);
    uint8_t present = 0;
    int64_t value = 0;
    const uint8_t *key = (const uint8_t *)"a";
    refuse(1, 1L << 60);
    hold(bohm_value_at(&machine, key, 1, 12, &present, &value) == BOHM_DONE && present && value == 6, "value_at");
    hold(bohm_value_at(&machine, key, 0, 12, &present, &value) == BOHM_NO_KEY, "no key");
    hold(bohm_value_at(&machine, (const uint8_t *)"A", 1, 12, &present, &value) == BOHM_NO_KEY, "no key");
    hold(bohm_value_at(&machine, key, 1, 13, &present, &value) == BOHM_FUTURE, "the future");
    hold(bohm_trim(&machine, 13) == BOHM_FUTURE, "a floor in the future");
    hold(bohm_trim(&machine, 8) == BOHM_DONE && counts_of(&machine).floor == 8, "trim");
    hold(bohm_trim(&machine, 2) == BOHM_DONE && counts_of(&machine).floor == 8, "a floor below the floor");
    hold(bohm_value_at(&machine, key, 1, 7, &present, &value) == BOHM_TRIMMED, "below the floor");
    hold(relent() == 0, "memory is asked for");
    bohm_bytes out = BOHM_NO_BYTES;
    hold(bohm_store_at(&machine, 7, &out) == BOHM_TRIMMED && is_none(out), "a snapshot below the floor");
    hold(bohm_store_at(&machine, 13, &out) == BOHM_FUTURE && is_none(out), "a snapshot of the future");
    hold(bohm_replies(&machine, &out) == BOHM_DONE && out.len == 0, "no reply waits");
    check_machine(&machine, 12);
    go_on(&machine, 4);
    refuse(1, 1L << 60);
    bohm_close(&machine);
    hold(relent() == 0, "memory is asked for");
}

/* ---- misuse, which is reported, and touches nothing */

/* Each call on a closed machine and on a null one, and with null pointers that aren't allowed. */
static void misused_machine(bohm_machine *machine) {
    bohm_calls calls = {0};
    bohm_bytes out = BOHM_NO_BYTES;
    bohm_reply_rows rows = BOHM_NO_ROWS;
    bohm_values values = BOHM_NO_VALUES;
    bohm_machine_counts counts = {.floor = 1, .top = 2, .versions = 3, .waiting = 4};
    uint8_t present = 7, digest[32];
    int64_t value = 8;
    const uint8_t *some = (const uint8_t *)"log 1\n";
    memset(digest, 0xa5, sizeof digest);
    hold(bohm_open_calls(&calls, seed, 1) == BOHM_DONE, "no list of calls");
    hold(bohm_apply(machine, some, 6, &out) == BOHM_MISUSE, "apply");
    hold(bohm_apply_held(machine, some, 6, &out) == BOHM_MISUSE, "apply_held");
    hold(bohm_replies(machine, &out) == BOHM_MISUSE, "replies");
    hold(bohm_rows(machine, &rows, &values) == BOHM_MISUSE, "rows");
    hold(bohm_value_at(machine, some, 1, 0, &present, &value) == BOHM_MISUSE && present == 7 && value == 8, "value_at");
    hold(bohm_value_at(machine, some, 0, 0, &present, &value) == BOHM_MISUSE && present == 7 && value == 8, "value_at");
    hold(bohm_store_at(machine, 0, &out) == BOHM_MISUSE, "store_at");
    hold(bohm_digest(machine, 0, digest) == BOHM_MISUSE && is_as_before(digest), "digest");
    hold(bohm_trim(machine, 0) == BOHM_MISUSE, "trim");
    hold(bohm_counts(machine, &counts) == BOHM_MISUSE && counts.floor == 1 && counts.waiting == 4, "counts");
    hold(bohm_timestamps(machine, &counts.floor, &counts.top) == BOHM_MISUSE && counts.floor == 1 && counts.top == 2, "timestamps");
    hold(bohm_run_calls(machine, &calls, &out) == BOHM_MISUSE, "run_calls");
    hold(bohm_run_calls_held(machine, &calls) == BOHM_MISUSE, "run_calls_held");
    hold(is_none(out) && are_none(rows, values), "something is handed out");
    bohm_close(machine);
    bohm_close_calls(&calls);
}

/* Null pointers with an open machine. */
static void misused_pointers(void) {
    bohm_machine machine = {0}, same;
    bohm_bytes out = BOHM_NO_BYTES;
    bohm_reply_rows rows = BOHM_NO_ROWS;
    bohm_values values = BOHM_NO_VALUES;
    bohm_calls closed = {0};
    uint8_t present = 7;
    int64_t value = 8;
    open_behind(&machine, 0);
    go_on(&machine, 5);
    same = machine;
    text snapshot = snapshot_behind(0), segment = segment_behind(5, 3);
    hold(bohm_open(&machine, seed, bytes_of(snapshot), snapshot.len, 0, &out) == BOHM_MISUSE, "an open machine is opened");
    hold(bohm_apply(&machine, NULL, 1, &out) == BOHM_MISUSE, "a null text");
    hold(bohm_apply_held(&machine, NULL, 1, &out) == BOHM_MISUSE, "a null text");
    hold(bohm_answer(seed, NULL, 1, &out) == BOHM_MISUSE, "a null text");
    hold(bohm_value_at(&machine, NULL, 1, 0, &present, &value) == BOHM_MISUSE, "a null key");
    hold(bohm_value_at(&machine, (const uint8_t *)"a", 1, 0, NULL, &value) == BOHM_MISUSE, "a null flag");
    hold(bohm_value_at(&machine, (const uint8_t *)"a", 1, 0, &present, NULL) == BOHM_MISUSE, "a null value");
    hold(bohm_digest(&machine, 0, NULL) == BOHM_MISUSE, "a null digest");
    hold(bohm_counts(&machine, NULL) == BOHM_MISUSE, "null counts");
    uint32_t last = 3;
    hold(bohm_timestamps(&machine, NULL, &last) == BOHM_MISUSE && last == 3, "a null floor");
    hold(bohm_timestamps(&machine, &last, NULL) == BOHM_MISUSE && last == 3, "a null top");
    hold(bohm_rows(&machine, NULL, &values) == BOHM_MISUSE, "null rows");
    hold(bohm_rows(&machine, &rows, NULL) == BOHM_MISUSE, "null values");
    hold(bohm_run_calls(&machine, NULL, &out) == BOHM_MISUSE, "null calls");
    hold(bohm_run_calls(&machine, &closed, &out) == BOHM_MISUSE, "closed calls");
    hold(bohm_run_calls_held(&machine, NULL) == BOHM_MISUSE, "null calls");
    hold(bohm_run_calls_held(&machine, &closed) == BOHM_MISUSE, "closed calls");
    hold(present == 7 && value == 8 && is_none(out) && are_none(rows, values), "something is handed out");
    hold(machine.at == same.at, "another machine");
    check_machine(&machine, 5);
    /* allowed null pointers: to no bytes, and an `out` */
    hold(bohm_value_at(&machine, NULL, 0, 0, &present, &value) == BOHM_NO_KEY, "no bytes are no key");
    hold(bohm_apply(&machine, NULL, 0, NULL) == BOHM_REFUSED, "no bytes are no segment");
    hold(bohm_apply(&machine, bytes_of(segment), segment.len, NULL) == BOHM_DONE, "replies that nobody wants");
    hold(bohm_store_at(&machine, 8, NULL) == BOHM_DONE, "a snapshot that nobody wants");
    hold(bohm_answer(seed, NULL, 0, NULL) == BOHM_REFUSED, "no bytes are no log");
    check_machine(&machine, 8);
    bohm_close(&machine);
    hold(!machine.at && bohm_open(&machine, seed, NULL, 0, 0, NULL) == BOHM_REFUSED && !machine.at, "no bytes are no snapshot");
    free(snapshot.at);
    free(segment.at);
}

/* Key handles and calls by them, with null pointers, closed handles and handles that were never made. */
static void misused_handles(procedures *of, bohm_calls *calls) {
    bohm_procedure none = {0};
    bohm_calls closed = {0};
    uint32_t key = 9;
    int64_t one = 1;
    hold(handle_of(&closed, "a", &key) == BOHM_MISUSE && handle_of(NULL, "a", &key) == BOHM_MISUSE, "a closed list");
    hold(handle_of(&closed, "A", &key) == BOHM_MISUSE, "a closed list");
    hold(handle_of(calls, "a", NULL) == BOHM_MISUSE, "a null handle");
    hold(bohm_key_handle(calls, NULL, 1, &key) == BOHM_MISUSE, "a null key");
    hold(bohm_key_handle(calls, NULL, 0, &key) == BOHM_NO_KEY && key == 9, "no bytes are no key");
    hold(handle_of(calls, "a", &key) == BOHM_DONE && key == 0, "another handle");
    hold(bohm_push_named(&closed, &of->count, &key, 1, &one, 1) == BOHM_MISUSE, "a closed list");
    hold(bohm_push_named(NULL, &of->count, &key, 1, &one, 1) == BOHM_MISUSE, "no list");
    hold(bohm_push_named(calls, &none, &key, 1, &one, 1) == BOHM_MISUSE, "a closed procedure");
    hold(bohm_push_named(calls, NULL, &key, 1, &one, 1) == BOHM_MISUSE, "no procedure");
    hold(bohm_push_named(calls, &of->count, NULL, 1, &one, 1) == BOHM_MISUSE, "null handles");
    hold(bohm_push_named(calls, &of->count, &key, 1, NULL, 1) == BOHM_MISUSE, "null values");
    hold(bohm_push_named(calls, &of->count, NULL, 0, NULL, 0) == BOHM_UNFIT, "no arguments");
    key = 1;
    hold(bohm_push_named(calls, &of->count, &key, 1, &one, 1) == BOHM_MISUSE, "a handle that nobody made");
}

static void misused_calls(void) {
    procedures of = prepare_all(now);
    bohm_procedure none = {0}, *procedure_at = &of.count;
    bohm_calls calls = {0}, closed = {0};
    bohm_machine machine = {0};
    bohm_key a = key_of("a"), null_key = {NULL, 0}, wrong = {NULL, 1};
    int64_t one = 1;
    hold(bohm_prepare(procedure_at, seed, (const uint8_t *)COPY_TEXT, strlen(COPY_TEXT), NULL) == BOHM_MISUSE, "an open procedure is opened");
    hold(bohm_prepare(&none, seed, NULL, 1, NULL) == BOHM_MISUSE && bohm_prepare(NULL, seed, NULL, 0, NULL) == BOHM_MISUSE, "a null text");
    hold(bohm_open_calls(&calls, seed, 1) == BOHM_DONE, "no list of calls");
    hold(bohm_open_calls(&calls, seed, 1) == BOHM_MISUSE && bohm_open_calls(NULL, seed, 1) == BOHM_MISUSE, "an open list is opened");
    hold(bohm_open_calls_for(&machine, &closed, 1) == BOHM_MISUSE && bohm_open_calls_for(NULL, &closed, 1) == BOHM_MISUSE, "no machine");
    hold(bohm_push(&closed, &of.count, &a, 1, &one, 1) == BOHM_MISUSE, "a closed list");
    hold(bohm_push(NULL, &of.count, &a, 1, &one, 1) == BOHM_MISUSE, "no list");
    hold(bohm_push(&calls, &none, &a, 1, &one, 1) == BOHM_MISUSE, "a closed procedure");
    hold(bohm_push(&calls, NULL, &a, 1, &one, 1) == BOHM_MISUSE, "no procedure");
    hold(bohm_push(&calls, &of.count, NULL, 1, &one, 1) == BOHM_MISUSE, "null keys");
    hold(bohm_push(&calls, &of.count, &a, 1, NULL, 1) == BOHM_MISUSE, "null values");
    hold(bohm_push(&calls, &of.count, &wrong, 1, &one, 1) == BOHM_MISUSE, "a null key");
    hold(bohm_push(&calls, &of.count, &null_key, 1, &one, 1) == BOHM_NO_KEY, "no bytes are no key");
    hold(bohm_push(&calls, &of.count, NULL, 0, NULL, 0) == BOHM_UNFIT, "no arguments");
    hold(bohm_clear_calls(&closed) == BOHM_MISUSE && bohm_clear_calls(NULL) == BOHM_MISUSE, "a closed list");
    misused_handles(&of, &calls);
    /* a handle of another kind isn't accepted */
    bohm_calls odd = {of.count.at};
    hold(bohm_clear_calls(&odd) == BOHM_MISUSE && odd.at == of.count.at, "a procedure in the place of a list");
    uint32_t key = 9;
    hold(handle_of(&odd, "a", &key) == BOHM_MISUSE && key == 9 && odd.at == of.count.at, "a procedure in the place of a list");
    bohm_machine strange = {of.count.at};
    misused_machine(&(bohm_machine){0});
    hold(bohm_trim(&strange, 0) == BOHM_MISUSE && strange.at == of.count.at, "a procedure in the place of a machine");
    hold(bohm_open_calls_for(&strange, &closed, 1) == BOHM_MISUSE && !closed.at, "a procedure in the place of a machine");
    hold(push(&calls, &of, 1) == BOHM_DONE, "a call isn't taken");
    open_behind(&machine, 0);
    hold(bohm_open_calls_for(&machine, &calls, 1) == BOHM_MISUSE && bohm_open_calls_for(&machine, NULL, 1) == BOHM_MISUSE, "an open list is opened");
    hold(bohm_open_calls_for(&machine, &closed, 0) == BOHM_UNFIT && bohm_open_calls_for(&machine, &closed, 3) == BOHM_UNFIT && !closed.at, "a list of no edition");
    run_on(&machine, &calls, 1);
    bohm_close(&machine);
    bohm_close_calls(&calls);
    bohm_close_calls(&calls);
    bohm_close_calls(NULL);
    close_all(&of);
    close_all(&of);
    bohm_close_procedure(NULL);
}

/* A null pointer instead of a seed. */
static void misused_seeds(void) {
    const uint8_t *some = (const uint8_t *)"log 1\n", *copy = (const uint8_t *)COPY_TEXT;
    bohm_machine machine = {0};
    bohm_procedure procedure = {0};
    bohm_calls calls = {0};
    bohm_bytes out = BOHM_NO_BYTES;
    hold(bohm_answer(NULL, some, 6, &out) == BOHM_MISUSE, "answer");
    hold(bohm_open(&machine, NULL, some, 6, 0, &out) == BOHM_MISUSE && !machine.at, "open");
    hold(bohm_prepare(&procedure, NULL, copy, strlen(COPY_TEXT), &out) == BOHM_MISUSE && !procedure.at, "prepare");
    hold(bohm_open_calls(&calls, NULL, 1) == BOHM_MISUSE && !calls.at, "open_calls");
    hold(is_none(out), "something is handed out");
}

static void misuse(void) {
    now = "misuse";
    long before = blocks;
    bohm_machine closed = {0};
    misused_machine(&closed);
    hold(!closed.at, "it is open");
    misused_machine(NULL);
    hold(bohm_open(NULL, seed, NULL, 0, 0, NULL) == BOHM_MISUSE, "no machine");
    misused_seeds();
    misused_pointers();
    misused_calls();
    bohm_free(NULL);
    for (uint32_t one = 0; one <= BOHM_UNSORTED; one++)
        for (uint32_t other = 0; other <= BOHM_UNSORTED + 1; other++)
            hold((one == other) == !strcmp(bohm_status_text(one), bohm_status_text(other)), "a status in other words");
    hold(blocks == before, "a block that nobody frees");
}

int main(void) {
    misuse();
    each_status();
    each_call_status();
    each_handle_status(0);
    each_handle_status(1);
    another_machines_list();
    small_handles();
    common_statements();
    arguments();
    outcomes();
    room_for_shows();
    seeds();
    without_memory();
    digests();
    each_refused("bohm_answer", answer_refused, 9);
    each_refused("bohm_open", open_refused, 0);
    each_refused("bohm_apply", apply_refused, 9);
    hold(ended[BOHM_NO_MEMORY] && ended[BOHM_STOPPED] && ended[BOHM_KEPT], "an end that isn't reached");
    memset(ended, 0, sizeof ended);
    each_refused("bohm_apply in three batches", apply_refused, 8200);
    hold(ended[BOHM_NO_MEMORY] && ended[BOHM_STOPPED] && ended[BOHM_KEPT], "an end that isn't reached");
    memset(ended, 0, sizeof ended);
    each_refused("bohm_run_calls", run_calls_refused, 9);
    each_refused("bohm_run_calls in three batches", run_calls_refused, 8200);
    hold(ended[BOHM_STOPPED] && ended[BOHM_KEPT], "an end that isn't reached");
    each_refused("bohm_rows", rows_refused, 9);
    each_refused("bohm_rows of three batches", rows_refused, 8200);
    each_refused("bohm_prepare", prepare_refused, 0);
    each_refused("bohm_push", push_refused, 0);
    each_refused("bohm_push_named", push_named_refused, 0);
    each_refused("bohm_push_named, shared names", push_shared_refused, 0);
    each_refused("bohm_store_at", store_at_refused, 0);
    each_refused("bohm_digest", digest_refused, 0);
    each_refused("bohm_apply of a bad line", line_refused, 0);
    puts("each status, and each allocation refused: as it should be");
    return 0;
}
