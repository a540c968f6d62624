/* Redis over its own socket, without files: a script for each transfer. The transfers of one call are sent together, and
 * then their replies are read. */
#include "peer.h"

#include <hiredis/hiredis.h>
#include <signal.h>
#include <stdio.h>
#include <stdlib.h>
#include <string.h>
#include <sys/prctl.h>
#include <sys/wait.h>
#include <unistd.h>

static const char *const script = "if tonumber(redis.call('get', KEYS[1])) < tonumber(ARGV[1]) then return 0 end "
                                  "redis.call('decrby', KEYS[1], ARGV[1]) redis.call('incrby', KEYS[2], ARGV[1]) return 1";
static pid_t server;
static redisContext *base;
static char hash[41];
/* The number of replies that are still to be read. */
static size_t asked;

static redisReply *reply(void) {
    void *got = NULL;
    check(redisGetReply(base, &got) == REDIS_OK, "no reply");
    check(((redisReply *)got)->type != REDIS_REPLY_ERROR, ((redisReply *)got)->str);
    return got;
}

static void start_server(const char *socket) {
    server = fork();
    if (server) return;
    prctl(PR_SET_PDEATHSIG, SIGTERM);
    if (!freopen("/dev/null", "w", stdout)) _exit(127);
    execlp("redis-server", "redis-server", "--port", "0", "--unixsocket", socket, "--save", "", "--appendonly", "no", NULL);
    _exit(127);
}

void peer_open(void) {
    char socket[128];
    snprintf(socket, sizeof socket, "%s/socket", new_directory());
    start_server(socket);
    for (int tries = 0; tries < 1000; tries++) {
        base = redisConnectUnix(socket);
        if (base && !base->err) break;
        if (base) redisFree(base);
        check(waitpid(server, NULL, WNOHANG) == 0, "redis-server didn't start");
        usleep(5000);
    }
    check(base && !base->err, "no connection");
    redisAppendCommand(base, "script load %s", script);
    redisReply *loaded = reply();
    snprintf(hash, sizeof hash, "%s", loaded->str);
    freeReplyObject(loaded);
}

static void read_replies(void) {
    for (; asked; asked--) freeReplyObject(reply());
}

void peer_put(const char *key, long long balance) {
    redisAppendCommand(base, "set %s %lld", key, balance);
    if (++asked == 1000) read_replies();
}

void peer_filled(void) { read_replies(); }

void peer_run(transfer *transfers, size_t count) {
    for (transfer *each = transfers; each < transfers + count; each++) {
        char amount[24];
        const char *words[] = {"evalsha", hash, "2", each->payer, each->payee, amount};
        snprintf(amount, sizeof amount, "%lld", each->amount);
        check(redisAppendCommandArgv(base, 6, words, NULL) == REDIS_OK, "not sent");
    }
    for (transfer *each = transfers; each < transfers + count; each++) {
        redisReply *got = reply();
        each->is_done = got->integer == 1;
        freeReplyObject(got);
    }
}

static int by_name(const void *first, const void *second) {
    return strcmp((*(redisReply *const *)first)->str, (*(redisReply *const *)second)->str);
}

void peer_each(void (*tell)(const char *key, size_t size, long long balance)) {
    redisAppendCommand(base, "keys *");
    redisReply *keys = reply();
    qsort(keys->element, keys->elements, sizeof *keys->element, by_name);
    for (size_t at = 0; at < keys->elements; at++) redisAppendCommand(base, "get %s", keys->element[at]->str);
    for (size_t at = 0; at < keys->elements; at++) {
        redisReply *value = reply();
        tell(keys->element[at]->str, keys->element[at]->len, atoll(value->str));
        freeReplyObject(value);
    }
    freeReplyObject(keys);
}

void peer_close(void) {
    redisFree(base);
    kill(server, SIGTERM);
    waitpid(server, NULL, 0);
    remove_directory();
}
