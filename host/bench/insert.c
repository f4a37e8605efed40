/* Times the proved insertion alone, nanoseconds a child: layer after layer of width 16 to 4,096, eight children offered for each place.
   Build: cc -O3 insert.c libbench_parts.a (see run-insert beside this file). */
#include <stdint.h>
#include <stdio.h>
#include <stdlib.h>
#include <time.h>

/* Offers children to an empty layer of this width, which takes 29 × width words; answers how many are kept, 0 where something is refused. */
uint64_t repgypsum_insertions(const uint8_t *model, uintptr_t model_len, uint64_t *words, uintptr_t words_len, uint32_t width, uint32_t children,
                              uint32_t seed);

enum { LONGEST_MODEL = 65536, WIDEST = 4096, LAYER_WORDS = 29, CHILDREN = 2000000, RUNS = 5 };

static double seconds(void) {
    struct timespec t;
    clock_gettime(CLOCK_PROCESS_CPUTIME_ID, &t);
    return (double)t.tv_sec + (double)t.tv_nsec / 1e9;
}

int main(int argc, char **argv) {
    static uint8_t model[LONGEST_MODEL];
    static uint64_t words[LAYER_WORDS * WIDEST];
    FILE *file = argc == 2 ? fopen(argv[1], "rb") : NULL;
    if (!file) {
        fprintf(stderr, "usage: insert MODEL\n");
        return 2;
    }
    uintptr_t n = fread(model, 1, sizeof model, file);
    fclose(file);
    printf("%6s %8s %18s\n", "width", "kept", "ns a child, least");
    static const uint32_t widths[] = {16, 256, 1024, 4096};
    for (int i = 0; i < 4; i++) {
        double least = 1e9;
        uint64_t kept = 0;
        for (int run = 0; run < RUNS; run++) {
            uint32_t layer = 8 * widths[i];
            double start = seconds();
            for (uint32_t offered = 0; offered < CHILDREN; offered += layer) {
                kept = repgypsum_insertions(model, n, words, LAYER_WORDS * WIDEST, widths[i], layer, offered);
            }
            double taken = seconds() - start;
            if (taken < least) least = taken;
        }
        printf("%6u %8llu %18.1f\n", widths[i], (unsigned long long)kept, least * 1e9 / CHILDREN);
    }
    return 0;
}
