/* A day's bales at a stroke: input 0 is a free truth, the gate, input 1 a free word, the head, and the others are the word
 * 100; the rule is "if gate, let below be head < 100; if below, head + 100, else error; else abort". Prints what its result
 * reads as under each of five bales, one of them with a gate that is neither 0 nor 1, all read in one call. */
#include "desk.h"

#include <stdio.h>
#include <stdlib.h>

static const uint8_t rule[] = {
    7, 0, 0, 0, 1, 0, 6, 0,
    6, 0, 2, 0, 3, 0, 0, 0,
    5, 11, 1, 0, 2, 0, 0, 0,
    7, 0, 0, 0, 4, 0, 5, 0,
    5, 1, 2, 0, 3, 0, 0, 0,
    9, 0, 0, 0, 0, 0, 0, 0,
    8, 0, 0, 0, 0, 0, 0, 0,
};

enum {
    SAMPLES = 5
};

/* The gate and the head of each bale's sample; the numbers of the constants are ignored. */
static const desk_word numbers[SAMPLES * DESK_SAMPLE] = {
    [0 * DESK_SAMPLE] = 1, 42,
    [1 * DESK_SAMPLE] = 1, 100,
    [2 * DESK_SAMPLE] = 0, 42,
    [3 * DESK_SAMPLE] = 2, 42,
    [4 * DESK_SAMPLE] = 1, 99,
};

static unsigned two(const uint8_t *bytes)
{
    return bytes[0] + 256u * bytes[1];
}

static void accepted(uint8_t refusal)
{
    if (refusal != 0) {
        printf("refused %u\n", (unsigned)refusal);
        exit(1);
    }
}

static void tell(unsigned sample, desk_place answer)
{
    static const char *const names[] = {
        [DESK_SAMPLE_REFUSED] = "refused", [DESK_TRUTH] = "truth", [DESK_WORD] = "word",
        [DESK_PROCEDURE] = "procedure", [DESK_ABORT] = "abort", [DESK_ERROR] = "error",
    };
    printf("bale %u: %s", sample, names[DESK_SAMPLE_KIND(answer)]);
    if (DESK_SAMPLE_KIND(answer) <= DESK_PROCEDURE)
        printf(" %lu", (unsigned long)DESK_SAMPLE_NUMBER(answer));
    printf("\n");
}

int main(void)
{
    static uint8_t table[DESK_MOST_TABLE];
    static desk_place work[DESK_MOST_TABLE / 8];
    uint8_t inputs[DESK_INPUTS] = {0};
    uint8_t session[DESK_SESSION];
    uint8_t answer[DESK_ANSWER];
    desk_place answers[SAMPLES];
    unsigned i;

    for (i = 0; i < 16; i++) {
        inputs[2 * DESK_WORD_BYTES * i] = i == 0 ? DESK_FREE_TRUTH : i == 1 ? DESK_FREE_WORD : DESK_CONSTANT_WORD;
        inputs[2 * DESK_WORD_BYTES * i + DESK_WORD_BYTES] = i < 2 ? 0 : 100;
    }
    accepted(desk_open(inputs, sizeof inputs, table, sizeof table, session, sizeof session));
    accepted(desk_evaluate(session, sizeof session, table, sizeof table, rule, sizeof rule, 100, answer, sizeof answer));

    /* the answer begins with its result */
    accepted(desk_read_all(session, sizeof session, table, sizeof table, answer, DESK_RESULT,
                           numbers, (size_t)SAMPLES * DESK_SAMPLE, work, two(session + DESK_INPUTS), answers, SAMPLES));
    for (i = 0; i < SAMPLES; i++)
        tell(i, answers[i]);
    return 0;
}
