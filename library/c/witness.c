/* A bale that does it: input 0 is a free truth, the gate, input 1 a free word, the head, and the others are the word 100; the
 * rule is "if gate, let below be head < 100; if below, head + 100, else error; else abort". For an error, an abort and two words,
 * prints the gate and the head of the first bale that brings them about, or that there is none; then the same of an error with a
 * head that never reads above 99. */
#include "desk.h"

#include <stdio.h>
#include <stdlib.h>

static const uint8_t rule[] = {
    7, 0, 0, 0, 1, 0, 6, 0,
    6, 0, 2, 0, 3, 0, 0, 0,
    5, 11, 1, 0, 2, 0, 0, 0,
    7, 0, 0, 0, 4, 0, 5, 0,
    5, 1, 2, 0, 3, 0, 0, 0,
    9, 0, 0, 0, 0, 0, 0, 0,
    8, 0, 0, 0, 0, 0, 0, 0,
};

static uint8_t table[DESK_MOST_TABLE];
static desk_place work[DESK_MOST_TABLE / 8];

static unsigned two(const uint8_t *bytes)
{
    return bytes[0] + 256u * bytes[1];
}

static void accepted(uint8_t refusal)
{
    if (refusal != 0) {
        printf("refused %u\n", (unsigned)refusal);
        exit(1);
    }
}

/* The lows and the highs are of DESK_NUMBERS bytes each, or of none. */
static void print_witness(const char *name, const uint8_t *session, const uint8_t *result, uint8_t kind, uint8_t number,
                          const uint8_t *lows, const uint8_t *highs, size_t spans_len)
{
    uint8_t goal[DESK_GOAL] = {0};
    uint8_t witness[DESK_WITNESS];
    const uint8_t *numbers = witness + DESK_WITNESS_NUMBERS;

    goal[0] = kind;
    goal[DESK_WORD_BYTES] = number;
    accepted(desk_witness(session, DESK_SESSION, table, sizeof table, result, DESK_RESULT, goal, sizeof goal,
                          lows, spans_len, highs, spans_len, work, two(session + DESK_INPUTS), witness, sizeof witness));
    if (witness[0] == 1)
        printf("%s: gate %u, head %u\n", name, two(numbers), two(numbers + DESK_WORD_BYTES));
    else
        printf("%s: none\n", name);
}

int main(void)
{
    uint8_t inputs[DESK_INPUTS] = {0};
    uint8_t session[DESK_SESSION];
    uint8_t answer[DESK_ANSWER];
    uint8_t lows[DESK_NUMBERS] = {0};
    uint8_t highs[DESK_NUMBERS] = {0};
    unsigned i;

    for (i = 0; i < 16; i++) {
        inputs[2 * DESK_WORD_BYTES * i] = i == 0 ? DESK_FREE_TRUTH : i == 1 ? DESK_FREE_WORD : DESK_CONSTANT_WORD;
        inputs[2 * DESK_WORD_BYTES * i + DESK_WORD_BYTES] = i < 2 ? 0 : 100;
    }
    accepted(desk_open(inputs, sizeof inputs, table, sizeof table, session, sizeof session));
    accepted(desk_evaluate(session, sizeof session, table, sizeof table, rule, sizeof rule, 100, answer, sizeof answer));

    /* the answer begins with its result; no lows and no highs are no spans */
    print_witness("error", session, answer, DESK_ERROR, 0, lows, highs, 0);
    print_witness("abort", session, answer, DESK_ABORT, 0, lows, highs, 0);
    print_witness("word 142", session, answer, DESK_WORD, 142, lows, highs, 0);
    print_witness("word 200", session, answer, DESK_WORD, 200, lows, highs, 0);
    highs[DESK_WORD_BYTES] = 99;
    print_witness("error, head 0 to 99", session, answer, DESK_ERROR, 0, lows, highs, DESK_NUMBERS);
    return 0;
}
