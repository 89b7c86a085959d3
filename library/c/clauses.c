/* What a solver is asked of a rule: input 0 is a free word, the head, and the others are the word 100; the rule is "let below
 * be head < 100; if below, word 7, else error". For each of three goals, an error, an abort and the word 7, prints the problem
 * line of the clauses, how many bytes their text has, and its last line. */
#include "desk.h"

#include <stdio.h>
#include <stdlib.h>

static const uint8_t rule[] = {
    6, 0, 1, 0, 2, 0, 0, 0,
    5, 11, 0, 0, 1, 0, 0, 0,
    7, 0, 0, 0, 3, 0, 4, 0,
    1, 2, 7, 0, 0, 0, 0, 0,
    9, 0, 0, 0, 0, 0, 0, 0,
};

static void accepted(uint8_t refusal)
{
    if (refusal != 0) {
        printf("refused %u\n", (unsigned)refusal);
        exit(1);
    }
}

/* The bytes from a place on, up to the line feed. */
static void print_line(const uint8_t *text)
{
    while (*text != '\n')
        putchar(*text++);
    putchar('\n');
}

static void print_clauses(const char *name, const uint8_t *session, const uint8_t *table, const uint8_t *result,
                          uint8_t kind, uint8_t number)
{
    uint8_t goal[DESK_GOAL] = {0};
    uint8_t none[1];
    uint64_t length[DESK_LENGTH];
    uint8_t *text, *last;

    goal[0] = kind;
    goal[DESK_WORD_BYTES] = number;
    /* an empty buffer is told how long the text is */
    if (desk_clauses(session, DESK_SESSION, table, DESK_MOST_TABLE, result, DESK_RESULT, goal, sizeof goal,
                     none, 0, length, DESK_LENGTH) != 18)
        exit(1);
    text = malloc(length[0]);
    if (text == NULL)
        exit(1);
    accepted(desk_clauses(session, DESK_SESSION, table, DESK_MOST_TABLE, result, DESK_RESULT, goal, sizeof goal,
                          text, length[0], length, DESK_LENGTH));
    printf("%s: %lu bytes\n", name, (unsigned long)length[0]);
    print_line(text);
    for (last = text + length[0] - 1; last[-1] != '\n'; last--)
        ;
    print_line(last);
    free(text);
}

int main(void)
{
    static uint8_t table[DESK_MOST_TABLE];
    uint8_t inputs[DESK_INPUTS] = {0};
    uint8_t session[DESK_SESSION];
    uint8_t answer[DESK_ANSWER];
    unsigned i;

    for (i = 0; i < 16; i++) {
        inputs[2 * DESK_WORD_BYTES * i] = i == 0 ? DESK_FREE_WORD : DESK_CONSTANT_WORD;
        inputs[2 * DESK_WORD_BYTES * i + DESK_WORD_BYTES] = i == 0 ? 0 : 100;
    }
    accepted(desk_open(inputs, sizeof inputs, table, sizeof table, session, sizeof session));
    accepted(desk_evaluate(session, sizeof session, table, sizeof table, rule, sizeof rule, 100, answer, sizeof answer));
    /* an answer begins with its result */
    print_clauses("error", session, table, answer, DESK_ERROR, 0);
    print_clauses("abort", session, table, answer, DESK_ABORT, 0);
    print_clauses("word 7", session, table, answer, DESK_WORD, 7);
    return 0;
}
