/* How much stack the proved functions use: each call runs on a painted stack of its own, and what is no longer painted is counted.
 * Models come on standard input, each behind its length, four bytes with the least first. Prints the most bytes that a search, one in the
 * loading profile, the same two with a list of widths and a plan check used, the thread's own frames included. */
#define _POSIX_C_SOURCE 200809L

#include "repgypsum.h"

#include <pthread.h>
#include <stdio.h>
#include <stdlib.h>
#include <string.h>

enum { STACK = 1 << 18, LONGEST = 65537, WIDTH = 16, LENGTH = 256, PAINT = 0xA5 };

static uint8_t model[LONGEST];
static uint32_t model_len;
static uint8_t plan[LENGTH];
static uint64_t words[REPGYPSUM_WORDS(WIDTH, LENGTH)];
static uint8_t *stack;

static void *search(void *unused) {
    repgypsum_search(model, model_len, WIDTH, LENGTH, 1000, plan, LENGTH, words, sizeof words / sizeof *words);
    return unused;
}

static void *load(void *unused) {
    repgypsum_load(model, model_len, WIDTH, 1000, plan, LENGTH, words, sizeof words / sizeof *words);
    return unused;
}

static const uint16_t widths[] = {1, 3, WIDTH};

static void *search_widths(void *unused) {
    repgypsum_search_widths(model, model_len, widths, 3, LENGTH, 1000, plan, LENGTH, words, sizeof words / sizeof *words);
    return unused;
}

static void *load_widths(void *unused) {
    repgypsum_load_widths(model, model_len, widths, 3, 1000, plan, LENGTH, words, sizeof words / sizeof *words);
    return unused;
}

static void *check(void *unused) {
    repgypsum_check_answer(model, model_len, plan, LENGTH);
    repgypsum_check_cost(model, model_len, plan, LENGTH);
    repgypsum_check_low(model, model_len, plan, LENGTH);
    return unused;
}

static void *nothing(void *unused) {
    return unused;
}

/* The bytes of the painted stack that the call wrote to. */
static size_t used(void *(*call)(void *)) {
    pthread_attr_t own;
    pthread_t thread;
    memset(stack, PAINT, STACK);
    if (pthread_attr_init(&own) || pthread_attr_setstack(&own, stack, STACK) || pthread_create(&thread, &own, call, NULL) || pthread_join(thread, NULL)) {
        fprintf(stderr, "no thread\n");
        exit(2);
    }
    pthread_attr_destroy(&own);
    size_t untouched = 0;
    while (untouched < STACK && stack[untouched] == PAINT) untouched++;
    return STACK - untouched;
}

int main(void) {
    void *(*const calls[])(void *) = {search, load, search_widths, load_widths, check};
    const char *const names[] = {"search", "load", "search_widths", "load_widths", "check"};
    enum { CALLS = sizeof calls / sizeof *calls };
    size_t most[CALLS] = {0};
    uint8_t head[4];
    stack = aligned_alloc(4096, STACK);
    if (!stack) return 2;
    size_t thread = used(nothing);
    while (fread(head, 1, 4, stdin) == 4) {
        model_len = head[0] | (uint32_t)head[1] << 8 | (uint32_t)head[2] << 16 | (uint32_t)head[3] << 24;
        if (model_len > LONGEST || fread(model, 1, model_len, stdin) != model_len) return 2;
        for (int i = 0; i < CALLS; i++) {
            size_t n = used(calls[i]);
            if (n > most[i]) most[i] = n;
        }
    }
    for (int i = 0; i < CALLS; i++) printf("%s %zu ", names[i], most[i]);
    printf("thread %zu\n", thread);
    return 0;
}
