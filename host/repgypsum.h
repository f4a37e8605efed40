/* Repgypsum for C and C++: the search and the plan check on the bytes of a model, on x86-64.
 *
 * Link with librepgypsum.a, or with librepgypsum.so; `make install` puts both in their place with a file for pkg-config. Of the C
 * library they need memcpy and memset alone.
 *
 * Every function takes any bytes and any numbers: what is wrong with them is told by a refusal. What the caller sees to:
 *
 * - A pointer has as many elements behind it as its length says, and may be null only where that is 0.
 * - `words` is aligned as uint64_t is, to 8 bytes, and `widths` as uint16_t is, to 2. Bytes need no alignment.
 * - The buffers of a search do not overlap, with a length or without: `plan` and `words` are apart from each other and from `model` and
 *   `widths`. Those of a plan check are only read and may.
 * - Nobody else writes to a lent buffer during the call.
 *
 * Threads: there is no shared state. Nothing is allocated, nothing is kept between calls, and no variable outlives one; calls with
 * buffers of their own may run at the same time.
 *
 * Stack: a call takes less than 48 kilobytes (measured: some 40, host/tests/stack.rs), whatever the model; 20.8 are the outline of
 * the model and what is prepared of it, 2,601 words.
 *
 * What is proved of the functions stands in docs/AUDIT.md; this header stands outside the proofs.
 */
#ifndef REPGYPSUM_H
#define REPGYPSUM_H

#include <stdint.h>

#define REPGYPSUM_VERSION "0.1.0"
#define REPGYPSUM_VERSION_MAJOR 0
#define REPGYPSUM_VERSION_MINOR 1
#define REPGYPSUM_VERSION_PATCH 0

/* Limits: bytes of a model, the widest beam, entries of a list of widths, steps of a plan (and so the length limit), transitions,
 * objects of a set (and so the length that repgypsum_load chooses). */
#define REPGYPSUM_MOST_MODEL_BYTES 65536
#define REPGYPSUM_MOST_WIDTH 4096
#define REPGYPSUM_MOST_WIDTHS 16
#define REPGYPSUM_MOST_STEPS 256
#define REPGYPSUM_MOST_TRANSITIONS 256
#define REPGYPSUM_MOST_OBJECTS 64

#ifdef __cplusplus
extern "C" {
#endif

/* How a run ended. Runs with 2, 3 or 4 are stopped: their bound is at most the cost of every plan, if the model's declared
 * bounds and preferences are true. Where a step's cost is a range, a low and a high one, costs here and bounds are at high figures;
 * declared bounds that are true of the low costs are true of the high ones too. */
enum repgypsum_verdict {
    REPGYPSUM_CHEAPEST = 0,     /* the plan costs no more than any other, if the declarations are true */
    REPGYPSUM_NO_PLAN = 1,      /* there is none, if the declarations are true, or if the target breaks a constraint */
    REPGYPSUM_WIDTH_STOP = 2,   /* some layer has more states than the widest beam */
    REPGYPSUM_LENGTH_STOP = 3,  /* some unfinished state lies at the length limit; never from repgypsum_load or repgypsum_load_widths */
    REPGYPSUM_BUDGET_SPENT = 4,
    REPGYPSUM_CONTRADICTED = 5  /* some declaration is false */
};

/* Why a call was refused: 1 to 9, 15 and 16 by the input, 11 to 14 and 17 by a state. */
enum repgypsum_refusal {
    REPGYPSUM_MODEL_TOO_LONG = 1,   /* over 65,536 bytes */
    REPGYPSUM_BAD_SETTING = 2,      /* a setting out of range, or a plan of over 256 steps */
    REPGYPSUM_TOO_LITTLE_LENT = 3,
    REPGYPSUM_ENDS_EARLY = 4,
    REPGYPSUM_NOT_DUE = 5,          /* a byte that begins nothing due here */
    REPGYPSUM_MISMATCH = 6,         /* wrong kind, undeclared name, counts that do not fit */
    REPGYPSUM_OFF_LIMITS = 7,       /* an operand outside its limits, one command too many, a second effect */
    REPGYPSUM_TOO_DEEP = 8,
    REPGYPSUM_BYTES_AFTER_END = 9,
    REPGYPSUM_OUT_OF_RANGE = 11,    /* a number expression left -2^31 .. 2^31 - 1 */
    REPGYPSUM_DIVISOR_ZERO = 12,
    REPGYPSUM_NEGATIVE_COST = 13,
    REPGYPSUM_NOT_A_PLAN = 14,      /* plan check only; always where the target breaks a constraint */
    REPGYPSUM_OUTSIDE_PROFILE = 15, /* repgypsum_load and repgypsum_load_widths only: the model is no pure loading order */
    REPGYPSUM_BAD_WIDTHS = 16,      /* a list of widths that is empty, too long, not rising, or has an entry out of range */
    REPGYPSUM_HIGH_BELOW_LOW = 17   /* a step's high cost is below its low cost */
};

/* The answer of a search. At a refusal by the input all fields but the first two are 0. At a refusal by a state cost, low, length
 * and the plan buffer give the path to the state evaluated. For every choice of step costs inside their ranges the plan's real cost
 * lies between low and cost; where no step has a range they are the same. */
struct repgypsum_answer {
    uint32_t refused;     /* 1 at a refusal, else 0 */
    uint32_t verdict;     /* the verdict's number, or the refusal's */
    uint64_t flag;        /* 1 if a plan is given */
    uint64_t cost;        /* at high figures, which the search works on */
    uint64_t bound;       /* for high figures */
    uint64_t length;      /* steps at the front of the plan buffer */
    uint64_t expansions;
    uint64_t rounds;      /* rounds begun */
    uint64_t width;       /* of the last round: 1, 2, 4 up to the widest beam, or an entry of the list of widths */
    uint64_t low;         /* the cost at low figures */
};

/* What a search with widest beam `width` and length limit `length` has to be lent. With a list of widths its last entry is the widest
 * beam. */
#define REPGYPSUM_PLAN_BYTES(width, length) ((uintptr_t)(length))
#define REPGYPSUM_WORDS(width, length) ((uintptr_t)(width) * 64 + (uintptr_t)(width) * ((uintptr_t)(length) + 1))

/* Looks for the cheapest plan. width: 1, 2, 4 up to 4,096. length: 1 to 256. budget: the most expansions.
 * The plan's steps, a transition's number each, are written to the front of `plan`; the rest of it stays. `words` is working
 * memory; its values afterwards mean nothing. A refusal by the input changes neither. */
struct repgypsum_answer repgypsum_search(const uint8_t *model, uintptr_t model_len, uint32_t width, uint32_t length, uint32_t budget,
                                         uint8_t *plan, uintptr_t plan_len, uint64_t *words, uintptr_t words_len);

/* The same for models in the loading profile, where the length is chosen: the number of start members of set variable 0, or 1 if there
 * are none. Such a model loads each design once: variable 0 is a set, every transition has a condition that a literal object is in
 * variable 0 and an effect that removes that same literal from it, and the one base case has the one condition that variable 0 is empty
 * (docs/FORMAT.md, "Loading profile"). No run ends with REPGYPSUM_LENGTH_STOP.
 * Refusals by the input come in the order 1; 2, for the width alone; 4 to 9; 15; 3, where fewer than REPGYPSUM_PLAN_BYTES or
 * REPGYPSUM_WORDS for that length are lent. With REPGYPSUM_MOST_OBJECTS as length, enough is lent for every model. */
struct repgypsum_answer repgypsum_load(const uint8_t *model, uintptr_t model_len, uint32_t width, uint32_t budget, uint8_t *plan,
                                       uintptr_t plan_len, uint64_t *words, uintptr_t words_len);

/* Both searches with a list of widths in the place of the widest beam: 1 to REPGYPSUM_MOST_WIDTHS numbers from 1 to REPGYPSUM_MOST_WIDTH,
 * each above the one before it, powers of two or not. Round 1 has the first entry's width, each further round the next entry's, and every
 * round behind the last entry has that width again. The last entry is the widest beam, which REPGYPSUM_WORDS asks for. The list
 * { 1, 2, 4, 8, 16 } gives the answers of width 16. A list of no entries is no list that can be taken: a search without a list is
 * repgypsum_search or repgypsum_load.
 * Another list is refused with REPGYPSUM_BAD_WIDTHS, right behind 2, which is then for the length alone, or for nothing in the loading
 * profile: the order is 1, 2, 16, 3, 4 to 9; and 1, 16, 4 to 9, 15, 3. */
struct repgypsum_answer repgypsum_search_widths(const uint8_t *model, uintptr_t model_len, const uint16_t *widths, uintptr_t widths_len,
                                                uint32_t length, uint32_t budget, uint8_t *plan, uintptr_t plan_len, uint64_t *words,
                                                uintptr_t words_len);
struct repgypsum_answer repgypsum_load_widths(const uint8_t *model, uintptr_t model_len, const uint16_t *widths, uintptr_t widths_len,
                                              uint32_t budget, uint8_t *plan, uintptr_t plan_len, uint64_t *words, uintptr_t words_len);

/* The plan check, the target's constraints first and then step by step: 0 exactly if the bytes are a plan of the model, else the
 * refusal's number. */
uint8_t repgypsum_check_answer(const uint8_t *model, uintptr_t model_len, const uint8_t *plan, uintptr_t plan_len);

/* The plan's cost where the answer is 0, else 0: the sum of the high costs of its steps, or the largest of them. */
uint64_t repgypsum_check_cost(const uint8_t *model, uintptr_t model_len, const uint8_t *plan, uintptr_t plan_len);

/* The same of the low costs. */
uint64_t repgypsum_check_low(const uint8_t *model, uintptr_t model_len, const uint8_t *plan, uintptr_t plan_len);

#ifdef __cplusplus
}
#endif

#endif
