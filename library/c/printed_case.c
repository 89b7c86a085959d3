/* Document 01's printed case: input 0 a free truth, the others constant false; the rule is "if place 0, word 7, else
 * error". Prints what the printing program prints, then the readings and the plain runs under true and under false. */
#include "desk.h"

#include <stdio.h>
#include <stdlib.h>

static const uint8_t rule[] = {
    7, 0, 0, 0, 1, 0, 2, 0,
    1, 2, 7, 0, 0, 0, 0, 0,
    9, 0, 0, 0, 0, 0, 0, 0,
};

static unsigned two(const uint8_t *bytes)
{
    return bytes[0] + 256u * bytes[1];
}

static unsigned long word(const uint8_t *bytes)
{
    unsigned long number = 0;
    int i;
    for (i = DESK_WORD_BYTES; i > 0; i--)
        number = 256 * number + bytes[i - 1];
    return number;
}

static void accepted(uint8_t refusal)
{
    if (refusal != 0) {
        printf("refused %u\n", (unsigned)refusal);
        exit(1);
    }
}

static void tell(const char *what, unsigned truth, const uint8_t *reading)
{
    static const char *const names[] = {
        [DESK_TRUTH] = "truth", [DESK_WORD] = "word", [DESK_PROCEDURE] = "procedure",
        [DESK_ABORT] = "abort", [DESK_ERROR] = "error",
    };
    printf("%s %u: %s", what, truth, names[reading[0]]);
    if (reading[0] <= DESK_PROCEDURE)
        printf(" %lu", word(reading + DESK_WORD_BYTES));
    printf("\n");
}

int main(void)
{
    static uint8_t table[DESK_MOST_TABLE];
    static desk_place work[DESK_MOST_TABLE / 8];
    uint8_t inputs[DESK_INPUTS] = {DESK_FREE_TRUTH};
    uint8_t session[DESK_SESSION];
    uint8_t answer[DESK_ANSWER];
    uint8_t reading[DESK_READING];
    uint8_t store[16 * 8];
    unsigned opened, count, i;
    int truth;

    accepted(desk_open(inputs, sizeof inputs, table, sizeof table, session, sizeof session));
    opened = two(session + DESK_INPUTS);
    accepted(desk_evaluate(session, sizeof session, table, sizeof table, rule, sizeof rule, 100, answer, sizeof answer));
    count = two(session + DESK_INPUTS);
    if (answer[6] == 1)
        printf("halt %u %u %u\n", two(answer), two(answer + 2), count);
    else
        printf("out %u %u %u %u\n", two(answer), two(answer + 2), two(answer + 4), count);
    for (i = opened; i < count; i++) {
        const uint8_t *term = table + 8 * i;
        printf("%u %u %u %u %u %u\n", i, term[0], term[1], two(term + 2), two(term + 4), two(term + 6));
    }

    /* the answer begins with its result */
    for (truth = 1; truth >= 0; truth--) {
        uint8_t numbers[DESK_NUMBERS] = {0};
        numbers[0] = (uint8_t)truth;
        accepted(desk_read(session, sizeof session, table, sizeof table, numbers, sizeof numbers, answer, DESK_RESULT,
                           work, count, reading, sizeof reading));
        tell("read", (unsigned)truth, reading);
        accepted(desk_run(inputs, sizeof inputs, numbers, sizeof numbers, rule, sizeof rule,
                          (uint16_t)two(answer + 8), store, sizeof store, reading, sizeof reading));
        tell("run", (unsigned)truth, reading);
    }
    return 0;
}
