/* A moisture head that never reads above its ceiling: input 0 is a free word, the others are the word 100; the rule is
 * "let below be head < 100; if below, word 7, else error". For a ceiling of 99 and for one of 100, prints what the rule's
 * terms may read as, and whether a reading within the span can err. */
#include "desk.h"

#include <stdio.h>
#include <stdlib.h>

static const uint8_t rule[] = {
    6, 0, 1, 0, 2, 0, 0, 0,
    5, 11, 0, 0, 1, 0, 0, 0,
    7, 0, 0, 0, 3, 0, 4, 0,
    1, 2, 7, 0, 0, 0, 0, 0,
    9, 0, 0, 0, 0, 0, 0, 0,
};

static unsigned two(const uint8_t *bytes)
{
    return bytes[0] + 256u * bytes[1];
}

static void accepted(uint8_t refusal)
{
    if (refusal != 0) {
        printf("refused %u\n", (unsigned)refusal);
        exit(1);
    }
}

static void tell(unsigned number, const uint32_t *report)
{
    uint32_t low = report[DESK_REPORT_LOW], high = report[DESK_REPORT_HIGH];
    if (report[DESK_REPORT_SORT] == DESK_SORT_OPEN)
        printf("%u open\n", number);
    else if (report[DESK_REPORT_SORT] == DESK_SORT_WORD)
        printf("%u %lu to %lu\n", number, (unsigned long)low, (unsigned long)high);
    else
        printf("%u %s\n", number, low == 1 ? "true" : high == 0 ? "false" : "false or true");
}

int main(void)
{
    static uint8_t table[DESK_MOST_TABLE];
    static uint32_t reports[DESK_REPORT * (DESK_MOST_TABLE / 8)];
    uint8_t inputs[DESK_INPUTS] = {0};
    uint8_t session[DESK_SESSION];
    uint8_t answer[DESK_ANSWER];
    uint8_t lows[DESK_NUMBERS] = {0};
    uint8_t highs[DESK_NUMBERS] = {0};
    const uint32_t *asserted;
    unsigned opened, count, i;
    uint8_t ceiling;

    for (i = 0; i < 16; i++) {
        inputs[2 * DESK_WORD_BYTES * i] = i == 0 ? DESK_FREE_WORD : DESK_CONSTANT_WORD;
        inputs[2 * DESK_WORD_BYTES * i + DESK_WORD_BYTES] = i == 0 ? 0 : 100;
    }
    accepted(desk_open(inputs, sizeof inputs, table, sizeof table, session, sizeof session));
    opened = two(session + DESK_INPUTS);
    accepted(desk_evaluate(session, sizeof session, table, sizeof table, rule, sizeof rule, 100, answer, sizeof answer));
    count = two(session + DESK_INPUTS);
    for (ceiling = 99; ceiling <= 100; ceiling++) {
        highs[0] = ceiling;
        printf("head 0 to %u\n", (unsigned)ceiling);
        accepted(desk_spans(session, sizeof session, table, sizeof table, lows, sizeof lows, highs, sizeof highs,
                            reports, (size_t)DESK_REPORT * count));
        for (i = opened; i < count; i++)
            tell(i, reports + (size_t)DESK_REPORT * i);
        /* the session is kept from its opening: a T that can only be true says that no reading errs */
        asserted = reports + (size_t)DESK_REPORT * two(session + DESK_INPUTS + 4);
        printf("%s\n", asserted[DESK_REPORT_LOW] == 1 ? "no reading errs" : "a reading may err");
    }
    return 0;
}
