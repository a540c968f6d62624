/* The procedures of embed.h with bodies so long that workers share their calls: they compute sums that nobody reads, behind
 * their own statements. */
#include <string.h>

enum { LONG_SUMS = 40 };

/* The text of a procedure with the sums behind its statements; the key is `x` or `of`. */
static inline text lengthened(const char *procedure, const char *key) {
    text made = {0};
    size_t len = strlen(procedure) - strlen("end\n");
    put(&made, "", 0, "");
    made.at = realloc(made.at, made.room = len + 64);
    if (!made.at) fault("the test", "no memory");
    memcpy(made.at, procedure, len);
    made.len = len;
    for (uint32_t i = 1; i <= LONG_SUMS; i++) {
        put(&made, "let $s%" PRIu32 " = ", i, key);
        put(&made, " + ", 0, key);
        put(&made, "\n", 0, "");
    }
    put(&made, "end\n", 0, "");
    return made;
}

static inline bohm_procedure prepared_long(const char *what, const char *procedure, const char *key) {
    text made = lengthened(procedure, key);
    bohm_procedure is = prepared(what, made.at);
    free(made.at);
    return is;
}

static inline procedures prepare_long(const char *what) {
    return (procedures){prepared_long(what, COUNT_TEXT, "x"), prepared_long(what, COPY_TEXT, "of"), prepared_long(what, NEED_TEXT, "x")};
}
