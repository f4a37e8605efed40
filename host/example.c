/* A scheduler's use of the planner: plans the model file named by the first argument, then has the plan checked. A pure loading order
 * needs no length limit; other models are searched with one. */
#include "repgypsum.h"

#include <inttypes.h>
#include <stdio.h>
#include <stdlib.h>

enum { WIDTH = 16, LENGTH = REPGYPSUM_MOST_OBJECTS, BUDGET = 100000, LONGEST_MODEL = REPGYPSUM_MOST_MODEL_BYTES };

/* Reads a file of at most one byte more than the longest model; answers how many bytes it has, or -1. */
static long read_model(const char *path, uint8_t *model)
{
    FILE *file = fopen(path, "rb");
    if (!file) {
        return -1;
    }
    size_t n = fread(model, 1, LONGEST_MODEL + 1, file);
    int failed = ferror(file);
    fclose(file);
    return failed ? -1 : (long)n;
}

static void print_plan(const char *title, const uint8_t *plan, uint64_t length)
{
    printf("%s", title);
    for (uint64_t i = 0; i < length; i++) {
        printf(" %u", plan[i]);
    }
    printf("\n");
}

/* Asks the plan check for the answer number, the cost and the low figure, and prints them. */
static int check(const uint8_t *model, uintptr_t model_len, const uint8_t *plan, uintptr_t plan_len)
{
    uint8_t answer = repgypsum_check_answer(model, model_len, plan, plan_len);
    uint64_t cost = repgypsum_check_cost(model, model_len, plan, plan_len);
    uint64_t low = repgypsum_check_low(model, model_len, plan, plan_len);
    printf("plan check: answer %u, cost %" PRIu64 ", low %" PRIu64 "\n", answer, cost, low);
    return answer;
}

int main(int argc, char **argv)
{
    static uint8_t model[LONGEST_MODEL + 1];
    static uint64_t words[REPGYPSUM_WORDS(WIDTH, LENGTH)];
    uint8_t plan[REPGYPSUM_PLAN_BYTES(WIDTH, LENGTH)];

    if (argc != 2) {
        fprintf(stderr, "usage: example MODEL\n");
        return 2;
    }
    long n = read_model(argv[1], model);
    if (n < 0) {
        perror(argv[1]);
        return 2;
    }
    uintptr_t lent = sizeof words / sizeof *words;
    struct repgypsum_answer a = repgypsum_load(model, (uintptr_t)n, WIDTH, BUDGET, plan, sizeof plan, words, lent);
    if (a.refused && a.verdict == REPGYPSUM_OUTSIDE_PROFILE) {
        a = repgypsum_search(model, (uintptr_t)n, WIDTH, LENGTH, BUDGET, plan, sizeof plan, words, lent);
    }
    if (a.refused) {
        printf("refused %" PRIu32 "\n", a.verdict);
        print_plan("path:", plan, a.length);
        return 1;
    }
    printf("verdict %" PRIu32 ", bound %" PRIu64 ", %" PRIu64 " expansions in %" PRIu64 " rounds\n", a.verdict, a.bound,
           a.expansions, a.rounds);
    if (!a.flag) {
        printf("no plan is given\n");
        return 0;
    }
    printf("cost %" PRIu64, a.cost);
    if (a.low < a.cost) {
        printf(", or down to %" PRIu64 " where steps take less than their high costs", a.low);
    }
    printf("\n");
    print_plan("plan:", plan, a.length);
    return check(model, (uintptr_t)n, plan, a.length) == 0 ? 0 : 1;
}
