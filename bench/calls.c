/* The stack of each call for C on the bundle of a file, in bytes: the call is made on a painted stack of 8 MiB, and what a thread that does nothing takes is taken off.
 *   tools/archive && cc -O1 -Itarget/c bench/calls.c target/c/libchukelowa.a -lpthread -o target/calls && target/calls BUNDLE */
#define _GNU_SOURCE
#include <pthread.h>
#include <stdio.h>
#include <string.h>
#include <sys/mman.h>

#include "chukelowa.h"

enum { STACK = 8 << 20, PAINT = 0xA5 };

static unsigned char bundle[88 * 512], tables[44704], work[8 * 6144], result[8 * 8192];
static size_t length;
static chukelowa_reply reply;

static void *nothing(void *none) { return none; }

static void *read_it(void *none) {
    reply = chukelowa_read(bundle, length, tables, sizeof tables);
    return none;
}

static void *check_it(void *none) {
    reply = chukelowa_check(bundle, length, work, sizeof work);
    return none;
}

static void *fit_it(void *none) {
    reply = chukelowa_fit(bundle, length, tables[14] + 256u * tables[15]); /* A, word 7 of the header */
    return none;
}

static void *run_it(void *none) {
    reply = chukelowa_run(bundle, length, work, sizeof work, result, sizeof result);
    return none;
}

static void *apply_it(void *none) {
    reply = chukelowa_apply(bundle, length, work, sizeof work, result, sizeof result);
    return none;
}

/* How many bytes of a painted stack are not as painted after the call. */
static size_t taken(void *(*call)(void *)) {
    unsigned char *stack = mmap(NULL, STACK, PROT_READ | PROT_WRITE, MAP_PRIVATE | MAP_ANONYMOUS, -1, 0);
    pthread_attr_t on;
    pthread_t thread;
    size_t at = 0;
    memset(stack, PAINT, STACK);
    pthread_attr_init(&on);
    pthread_attr_setstack(&on, stack, STACK);
    pthread_create(&thread, &on, call, NULL);
    pthread_join(thread, NULL);
    while (at < STACK && stack[at] == PAINT) at++;
    munmap(stack, STACK);
    return STACK - at;
}

int main(int count, char **words) {
    static const struct { const char *name; void *(*call)(void *); } calls[] = {
        {"read", read_it}, {"check", check_it}, {"fit", fit_it}, {"run", run_it}, {"apply", apply_it}};
    FILE *file = count == 2 ? fopen(words[1], "rb") : NULL;
    size_t none, one;
    if (!file) return fprintf(stderr, "usage: calls BUNDLE\n"), 2;
    length = fread(bundle, 1, sizeof bundle, file);
    none = taken(nothing);
    for (one = 0; one < sizeof calls / sizeof *calls; one++) {
        size_t bytes = taken(calls[one].call) - none;
        printf("%s %zu (answer %zu)\n", calls[one].name, bytes, (size_t)reply.number);
    }
    return 0;
}
