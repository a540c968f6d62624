/* A program's own allocator: `embed_allocator early` sets it before anything else, and all of the library's memory comes from
 * it, and goes back to it; `embed_allocator late` tries to set it after a call that allocated. */
#include "embed.h"

typedef struct {
    long blocks, asked;
} heap;

static heap own;
static long of_c;

void *__real_malloc(size_t size);
void *__real_realloc(void *at, size_t size);

void *__wrap_malloc(size_t size) {
    of_c++;
    return __real_malloc(size);
}

void *__wrap_realloc(void *at, size_t size) {
    of_c++;
    return __real_realloc(at, size);
}

static void *allocate(void *context, size_t size) {
    heap *from = context;
    from->asked++;
    void *at = __real_malloc(size);
    from->blocks += at != NULL;
    return at;
}

static void *resize(void *context, void *at, size_t size) {
    if (!at) fault("allocator", "a null pointer is resized");
    ((heap *)context)->asked++;
    return __real_realloc(at, size);
}

static void release(void *context, void *at) {
    if (!at) fault("allocator", "a null pointer is released");
    ((heap *)context)->blocks--;
    free(at);
}

int main(int count, char **words) {
    bohm_allocator mine = {allocate, resize, release, &own}, wrong[3] = {mine, mine, mine};
    text log = log_of(9);
    bohm_bytes out = BOHM_NO_BYTES;
    int late = count > 1 && !strcmp(words[1], "late");
    wrong[0].allocate = NULL, wrong[1].resize = NULL, wrong[2].release = NULL;
    for (int i = 0; i < 3; i++)
        if (bohm_use_allocator(&wrong[i]) != BOHM_MISUSE) fault("allocator", "a null function is taken");
    if (bohm_use_allocator(NULL) != BOHM_MISUSE) fault("allocator", "a null allocator is taken");
    if (late && bohm_answer(seed, bytes_of(log), log.len, NULL)) fault("allocator", "no answer");
    if (bohm_use_allocator(&mine) != (late ? BOHM_MISUSE : BOHM_DONE)) fault("allocator", "another status");
    if (bohm_use_allocator(&mine) != BOHM_MISUSE) fault("allocator", "it is set twice");
    of_c = 0;
    if (bohm_answer(seed, bytes_of(log), log.len, &out)) fault("allocator", "no answer");
    if (late ? own.asked || !of_c : own.asked < 10 || of_c || own.blocks != 1) fault("allocator", "another heap");
    text right = answer_of(9);
    take("allocator", &out, right);
    if (own.blocks) fault("allocator", "a block that nobody frees");
    free(log.at);
    printf("an allocator that is set %s: as it should be\n", late ? "too late" : "first");
    return 0;
}
