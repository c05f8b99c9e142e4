/* Where the stack pointer stands during calls for C on the bundle of a file: a call is made one instruction at a time, and each place is
 * marked. A loop comes back to the same places however often it turns; a frame for each turn adds places. The deepest place alone does not
 * show that where another part of the call goes deeper. x86-64 under Linux.
 *   cc -O1 -static -Itarget/c tests/c/steps.c target/c/libchukelowa.a -o target/steps && target/steps BUNDLE fit apply
 * prints for each call named how many places, a sum of them (equal sums: the same places, counted from the caller), and the answer. */
#define _GNU_SOURCE
#include <signal.h>
#include <stdint.h>
#include <stdio.h>
#include <string.h>
#include <ucontext.h>

#include "chukelowa.h"

enum { WORDS = (8 << 20) / 8, TRAP_FLAG = 0x100 };

static unsigned char bundle[88 * 512], tables[44704], work[8 * 6144], result[8 * 8192], aside[1 << 16];
static size_t length;
static volatile chukelowa_reply reply;
static unsigned char marked[WORDS]; /* by how many words below the caller */
static volatile uintptr_t caller;

static void mark(int number, siginfo_t *info, void *context) {
    uintptr_t pointer = (uintptr_t)((ucontext_t *)context)->uc_mcontext.gregs[REG_RSP];
    (void)number, (void)info;
    if (pointer <= caller && (caller - pointer) / 8 < WORDS) marked[(caller - pointer) / 8] = 1;
}

static void check_it(void) { reply = chukelowa_check(bundle, length, work, sizeof work); }
static void fit_it(void) { reply = chukelowa_fit(bundle, length, tables[14] + 256u * tables[15]); } /* A, word 7 of the header */
static void run_it(void) { reply = chukelowa_run(bundle, length, work, sizeof work, result, sizeof result); }
static void apply_it(void) { reply = chukelowa_apply(bundle, length, work, sizeof work, result, sizeof result); }

static const struct { const char *name; void (*call)(void); } calls[] = {
    {"check", check_it}, {"fit", fit_it}, {"run", run_it}, {"apply", apply_it}};

static __attribute__((noinline)) void step_by_step(void (*call)(void)) {
    caller = (uintptr_t)__builtin_frame_address(0);
    __asm__ volatile("pushfq; orq %0, (%%rsp); popfq" : : "i"(TRAP_FLAG) : "memory", "cc");
    call();
    __asm__ volatile("pushfq; andq %0, (%%rsp); popfq" : : "i"(~TRAP_FLAG) : "memory", "cc");
}

/* The places of one call, printed. */
static void show(const char *name, void (*call)(void)) {
    size_t at, places = 0;
    uint64_t sum = 0;
    memset(marked, 0, sizeof marked);
    step_by_step(call);
    for (at = 0; at < WORDS; at++) {
        places += marked[at];
        sum = sum * 31 + marked[at] * (at + 1);
    }
    printf("%s %zu %016llx (answer %zu)\n", name, places, (unsigned long long)sum, (size_t)reply.number);
}

int main(int count, char **words) {
    FILE *file = count > 2 ? fopen(words[1], "rb") : NULL;
    stack_t other = {.ss_sp = aside, .ss_size = sizeof aside};
    struct sigaction how = {.sa_sigaction = mark, .sa_flags = SA_SIGINFO | SA_ONSTACK};
    size_t one;
    int word;
    if (!file) return fprintf(stderr, "usage: steps BUNDLE CALL...\n"), 2;
    length = fread(bundle, 1, sizeof bundle, file);
    if (chukelowa_read(bundle, length, tables, sizeof tables).number) return fprintf(stderr, "steps: the bundle is refused\n"), 2;
    if (sigaltstack(&other, NULL) || sigaction(SIGTRAP, &how, NULL)) return perror("steps"), 2;
    for (word = 2; word < count; word++) {
        for (one = 0; one < sizeof calls / sizeof *calls; one++) {
            if (!strcmp(words[word], calls[one].name)) show(calls[one].name, calls[one].call);
        }
    }
    return 0;
}
