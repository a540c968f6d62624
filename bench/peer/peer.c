/* Transfers by a peer: `PEER STORE TOGETHER < TRANSFERS` takes lines PAYER AMOUNT PAYEE, runs TOGETHER of them as one
 * transaction of the peer, and writes the answer of the log of these transfers; on standard error it writes the seconds
 * that running took, without reading, filling and writing. */
#include "peer.h"

#include <dirent.h>
#include <stdio.h>
#include <stdlib.h>
#include <string.h>
#include <time.h>
#include <unistd.h>

static char directory[512];

void check(int is_so, const char *what) {
    if (is_so) return;
    fprintf(stderr, "peer: %s\n", what);
    exit(1);
}

const char *new_directory(void) {
#ifdef DURABLE
    const char *within = getenv("PEER_FOLDER");
    check(within && strlen(within) < sizeof directory - 16, "PEER_FOLDER names no folder");
    sprintf(directory, "%s/peer.XXXXXX", within);
#else
    strcpy(directory, access("/dev/shm", W_OK) ? "/tmp/peer.XXXXXX" : "/dev/shm/peer.XXXXXX");
#endif
    check(mkdtemp(directory) != NULL, "no directory");
    return directory;
}

void remove_directory(void) {
    DIR *files = opendir(directory);
    for (struct dirent *file; files && (file = readdir(files));) unlinkat(dirfd(files), file->d_name, 0);
    if (files) closedir(files);
    rmdir(directory);
}

static double seconds(void) {
    struct timespec now;
    clock_gettime(CLOCK_MONOTONIC, &now);
    return (double)now.tv_sec + (double)now.tv_nsec * 1e-9;
}

typedef char name[LONGEST_KEY + 1];

static name *names;
static size_t name_count;

static void fill(const char *store) {
    FILE *file = fopen(store, "r");
    size_t room = 1 << 16;
    long long balance;
    names = malloc(room * sizeof *names);
    check(file && names && fscanf(file, "log 1\n") == 0, "no store");
    while (fscanf(file, "%32s %lld", names[name_count], &balance) == 2) {
        peer_put(names[name_count], balance);
        if (++name_count == room) check((names = realloc(names, (room *= 2) * sizeof *names)) != NULL, "no memory");
    }
    peer_filled();
    fclose(file);
}

static int is_before(const void *one, const void *other) { return strcmp(one, other); }

static unsigned number_of(const char *key) {
    name *found = bsearch(key, names, name_count, sizeof *names, is_before);
    check(found != NULL, "a key that isn't in the store");
    return (unsigned)(found - names);
}

static transfer *read_transfers(size_t *count) {
    size_t room = 1 << 16, got = 0;
    transfer *all = malloc(room * sizeof *all);
    name payer, payee;
    while (all && scanf("%32s %lld %32s", payer, &all[got].amount, payee) == 3) {
        all[got].payer = names[all[got].payer_number = number_of(payer)];
        all[got].payee = names[all[got].payee_number = number_of(payee)];
        if (++got == room) all = realloc(all, (room *= 2) * sizeof *all);
    }
    check(all != NULL, "no memory");
    *count = got;
    return all;
}

static void tell(const char *key, size_t size, long long balance) { printf("%.*s %lld\n", (int)size, key, balance); }

int main(int argc, char **argv) {
    check(argc == 3 && atol(argv[2]) > 0, "STORE TOGETHER");
    size_t together = (size_t)atol(argv[2]), count;
    peer_open();
    fill(argv[1]);
    transfer *transfers = read_transfers(&count);
    double start = seconds();
    for (size_t at = 0; at < count; at += together) peer_run(transfers + at, count - at < together ? count - at : together);
    fprintf(stderr, "%.9f\n", seconds() - start);
    for (size_t at = 0; at < count; at++) printf("%zu %s\n", at + 1, transfers[at].is_done ? "commit" : "abort need 1");
    printf("--\n");
    peer_each(tell);
    peer_close();
    return 0;
}
