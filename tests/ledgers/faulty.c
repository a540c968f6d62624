/* Preloaded into a process: the synchronisations of a disk that fails, or loses what wasn't synchronised.
 *     FAULTY_FAIL=N     from the N-th fsync or fdatasync on, FAULTY_TIMES of them fail with EIO, and do nothing
 *     FAULTY_SHADOW=D   each fsync or fdatasync of a file copies it to D/I, where I is its inode's number, and each one of
 *                       a folder writes the names in it, with their inodes' numbers, to D/names; nothing is synchronised
 *     FAULTY_SLOW=U     with it, each takes U microseconds more, before anything is copied
 * A copy is renamed into place, so a process that is killed leaves the old one or the new one. */
#define _GNU_SOURCE
#include <dirent.h>
#include <dlfcn.h>
#include <errno.h>
#include <fcntl.h>
#include <pthread.h>
#include <stdio.h>
#include <stdlib.h>
#include <string.h>
#include <sys/stat.h>
#include <unistd.h>

static pthread_mutex_t turn = PTHREAD_MUTEX_INITIALIZER;

static void check(int is_so, const char *what) {
    if (is_so) return;
    perror(what);
    _exit(99);
}

static void copy_content(int from, FILE *to) {
    static char part[1 << 16];
    off_t at = 0;
    ssize_t got;
    while ((got = pread(from, part, sizeof part, at)) > 0) {
        check(fwrite(part, 1, (size_t)got, to) == (size_t)got, "fwrite");
        at += got;
    }
    check(got == 0, "pread");
}

static void copy_names(int from, FILE *to) {
    char path[64];
    snprintf(path, sizeof path, "/proc/self/fd/%d", from);
    DIR *folder = opendir(path);
    check(folder != NULL, "opendir");
    for (struct dirent *each; (each = readdir(folder));)
        if (each->d_name[0] != '.') fprintf(to, "%llu %s\n", (unsigned long long)each->d_ino, each->d_name);
    closedir(folder);
}

/* A file that can't be read through its own descriptor is opened again. */
static void keep(const char *shadow, int file) {
    char path[4096], new[4200], own[64];
    struct stat about;
    check(!fstat(file, &about), "fstat");
    if (S_ISDIR(about.st_mode)) snprintf(path, sizeof path, "%s/names", shadow);
    else snprintf(path, sizeof path, "%s/%llu", shadow, (unsigned long long)about.st_ino);
    snprintf(new, sizeof new, "%s.new", path);
    FILE *to = fopen(new, "wb");
    check(to != NULL, new);
    if (S_ISDIR(about.st_mode)) {
        copy_names(file, to);
    } else {
        snprintf(own, sizeof own, "/proc/self/fd/%d", file);
        int from = open(own, O_RDONLY | O_CLOEXEC);
        check(from >= 0, own);
        copy_content(from, to);
        /* Closing it would drop SQLite's locks on the file. */
    }
    check(!fclose(to) && !rename(new, path), "rename");
}

static int synced(int file, const char *name) {
    static long count;
    const char *fail = getenv("FAULTY_FAIL"), *times = getenv("FAULTY_TIMES"), *shadow = getenv("FAULTY_SHADOW");
    pthread_mutex_lock(&turn);
    long number = ++count;
    int is_failing = fail && number >= atol(fail) && number < atol(fail) + (times ? atol(times) : 1);
    if (!is_failing && shadow) {
        const char *slow = getenv("FAULTY_SLOW");
        if (slow) usleep((unsigned)atol(slow));
        keep(shadow, file);
    }
    pthread_mutex_unlock(&turn);
    if (is_failing) {
        errno = EIO;
        return -1;
    }
    return shadow ? 0 : ((int (*)(int))dlsym(RTLD_NEXT, name))(file);
}

int fsync(int file) { return synced(file, "fsync"); }

int fdatasync(int file) { return synced(file, "fdatasync"); }
