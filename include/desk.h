/* The desk's library, target/staticlib/libdesk.a, which `tools/build` proves and writes (x86-64 Linux).
 *
 * A slice is lent as an address and a length: of bytes, but for lists of numbers, whose lengths count numbers and not bytes:
 * a work list and the answers for bales hold desk_place, the numbers of bales desk_word, a list of reports uint32_t and the
 * place of a text's length uint64_t. The caller owes that the address is not null and holds so many, that a list is aligned for the numbers that it holds, and that
 * nothing written (not const) overlaps another slice of the same call. Nothing else is asked of a caller: every length and
 * every byte is taken or refused. A call keeps no address and uses no memory but what is lent and the stack; an evaluation at
 * the largest depth takes up to 0.7 MiB of it.
 *
 * Each function but desk_rule_turns, which answers a count, answers 0, or the number of the refusal that came first. What is
 * lent to a refused call is left as it was, except that work list and store are zero on every return. Documents 01 and 02
 * have the numbers:
 *
 *    1 table bytes not a multiple of 8, below 272 or above 65,536
 *    2 an input's kind or value; inputs that are not of their form, or of another length than 64
 *    3 session and table do not fit; a session that is not of its form
 *    4 rule bytes none, above 32,768 or not a multiple of 8
 *    5 a kind, op or unused field of a record
 *    6 the tree of records, or a child past the last record
 *    7 a place out of scope
 *    8 an allowance outside 1 to 256
 *    9 1,000 rules already accepted
 *   10 a 65th leaf in one call's walk
 *   11 a new term with the table full
 *   12 the depth is spent
 *   13 a free truth given a number over 1
 *   14 a result's S, T or value; a result that is not of its form
 *   15 a work list or a list of reports shorter than the count of terms; of desk_read_all also numbers that are no whole
 *      bales of sixteen, or an answers list whose length is not the count of bales
 *   16 the store is full
 *   17 a free word's low is above its high
 *   18 the text is longer than the lent buffer; the text's length is written
 *   19 more than 24 free bits: a free truth is one, a free word sixteen, whatever its span is
 *
 * and one more is the library's own, which comes before all of them:
 *
 *  255 a session, numbers (but those of bales), lows, highs, a result, a goal, or the place of an answer, a reading, a
 *      text's length or a witness, of another length than its form has; a goal that is not of its form. The lows and the highs of
 *      desk_witness may both be empty; only one of them may not
 *
 * The operators of a rule are those of document 01 with the shifts of document 02: a shift by 16 or more gives 0, to the
 * left and to the right, where its term is made, where it is read and in a plain run. A session that a library without
 * these shifts wrote is opened anew: its table has shifts of constants worked out with the amount modulo 16.
 *
 * Each function names its numbers below in the order in which they are tested. crates/forms/specs has the forms, and the
 * specs of crates/byte_opening, byte_fitting and so on each function's answer and every byte that it leaves, as definitions;
 * the functions are proved equal to them on all arguments.
 */
#ifndef DESK_H
#define DESK_H

#include <stddef.h>
#include <stdint.h>

#ifdef __cplusplus
extern "C" {
#endif

/* A word of the rules, and a place of a work list or of the answers for bales. */
typedef uint16_t desk_word;
typedef uint32_t desk_place;

/* The forms. Numbers of two bytes have the low one first, and so have words, which take two. A byte that is called zero
 * and is not, or a mark over 1, breaks a form.
 *
 * inputs, 64 bytes: input i stands at 4 * i
 *   0  kind: one of enum desk_input
 *   1  zero
 *   2  value, a word
 *
 * session, 74 bytes: written by desk_open and desk_evaluate
 *   0  inputs, 64 bytes
 *  64  count of terms, two bytes
 *  66  S, what is assumed: the number of a term, two bytes
 *  68  T, what is asserted: the number of a term, two bytes
 *  70  count of accepted rules, two bytes
 *  72  halted mark: 0 or 1
 *  73  zero
 *
 * numbers, 32 bytes: the number for input i stands at 2 * i, a word; a constant ignores its own. The lows and the highs of
 * desk_spans and desk_witness have this form too: there every input but a free word ignores its own
 *
 * samples, a list of type desk_word. A sample is the sixteen numbers of a bale: the number of sample n for input i is number
 * 16 * n + i; a constant ignores its own
 *
 * result, 8 bytes: what desk_read and desk_read_all read, and what desk_clauses and desk_witness ask about; an answer begins
 * with it
 *   0  S, two bytes
 *   2  T, two bytes
 *   4  value: the number of a term, two bytes; of a halt it is not looked at
 *   6  halted mark: 0 or 1
 *   7  zero
 *
 * answer, 10 bytes: written by desk_evaluate
 *   0  result, 8 bytes; its value is 0 of a halt
 *   8  depth: the smallest allowance that gives this result, two bytes
 *
 * reading, 4 bytes: written by desk_read and desk_run
 *   0  one of enum desk_reading
 *   1  zero
 *   2  its number, a word: 0 or 1 of a truth, the word, a procedure's record; 0 of an abort and of an error
 *
 * goal, 4 bytes: what desk_clauses and desk_witness ask of a reading, in the form of the reading
 *   0  DESK_WORD, DESK_ABORT or DESK_ERROR
 *   1  zero
 *   2  the word; 0 of an abort and of an error
 *
 * a text's length, one number of type uint64_t: written by desk_clauses
 *
 * witness, 34 bytes: written by desk_witness
 *   0  found mark: 1, or 0 where no reading reaches the goal
 *   1  zero
 *   2  the reading's numbers, 32 bytes, in the form of numbers; 0 of a constant input, and all of them where none is found
 *
 * a sample's answer, one number of type desk_place: written by desk_read_all for each sample, that of sample n as number n. It
 * is a kind times 65,536, which is two to the power of a word's bits, plus a number: DESK_SAMPLE_KIND and DESK_SAMPLE_NUMBER
 * take it apart. Kind and number are those of the reading that desk_read would write; where it would refuse the sample by 13,
 * the kind is DESK_SAMPLE_REFUSED and the number 13, so that the answer is 13
 *
 * report, three numbers of type uint32_t: written by desk_spans for each term, that of term i from number 3 * i on
 *   0  one of enum desk_sort
 *   1  low: of a truth 0 if it may be false, else 1; of a word the least that it may be; 0 where the kind is open
 *   2  high: of a truth 1 if it may be true, else 0; of a word the most that it may be; 0 where the kind is open
 *
 * A table is records of 8 bytes, a rule too: document 01 has their fields. */
enum {
    DESK_WORD_BYTES = sizeof(desk_word),
    DESK_INPUTS = 16 * 2 * DESK_WORD_BYTES,
    DESK_SESSION = DESK_INPUTS + 10,
    DESK_SAMPLE = 16,
    DESK_NUMBERS = DESK_SAMPLE * DESK_WORD_BYTES,
    DESK_RESULT = 8,
    DESK_ANSWER = 10,
    DESK_READING = 2 * DESK_WORD_BYTES,
    DESK_GOAL = DESK_READING,
    DESK_LENGTH = 1,
    DESK_WITNESS_NUMBERS = DESK_WORD_BYTES,
    DESK_WITNESS = DESK_WITNESS_NUMBERS + DESK_NUMBERS,
    DESK_REPORT = 3,
    DESK_LEAST_TABLE = 272,
    DESK_MOST_TABLE = 65536,
    DESK_MOST_RULE = 32768,
    DESK_MOST_ALLOWANCE = 256
};

/* The answer to a form of another length, and to a goal that is not of its form: no number of document 01 or 02. */
enum {
    DESK_WRONG_LENGTH = 255
};

/* An input's kind. The value is 0 or 1 of a constant truth, any of a constant word, and 0 of the free ones. */
enum desk_input {
    DESK_CONSTANT_TRUTH = 0,
    DESK_CONSTANT_WORD = 1,
    DESK_FREE_TRUTH = 2,
    DESK_FREE_WORD = 3
};

/* What a reading's first byte says: the kind of the term that stands for a value, or of the record that stopped. */
enum desk_reading {
    DESK_TRUTH = 1,
    DESK_WORD = 2,
    DESK_PROCEDURE = 7,
    DESK_ABORT = 8,
    DESK_ERROR = 9
};

/* A sample's answer taken apart: its kind, which is one of enum desk_reading or DESK_SAMPLE_REFUSED, and its number. */
#define DESK_SAMPLE_KIND(answer) ((unsigned)((desk_place)(answer) >> (8 * DESK_WORD_BYTES)))
#define DESK_SAMPLE_NUMBER(answer) ((desk_word)(answer))
enum {
    DESK_SAMPLE_REFUSED = 0
};

/* The numbers of a report, and what its first one says. */
enum {
    DESK_REPORT_SORT = 0,
    DESK_REPORT_LOW = 1,
    DESK_REPORT_HIGH = 2
};
enum desk_sort {
    DESK_SORT_OPEN = 0,
    DESK_SORT_TRUTH = 1,
    DESK_SORT_WORD = 2
};

/* Opens a session: the table then holds the terms of the inputs and zeros, and the session is written.
 * Answers 255, 1 or 2, or 0. */
uint8_t desk_open(const uint8_t *inputs, size_t inputs_len,
                  uint8_t *table, size_t table_len,
                  uint8_t *session, size_t session_len);

/* Tests a rule alone. Answers 4, 5, 6 or 7, or 0. */
uint8_t desk_rule_refusal(const uint8_t *rule, size_t rule_len);

/* Says how many turns the check of a rule's tree and places (6 and 7) takes: how often it takes up a record. That is at most
 * once for each, however long the rule: once for every record of a rule that 4 to 6 take, also where 7 then refuses it; once
 * for each up to the record at which the tree is found bad, of a rule that 6 refuses. Answers this count; 0 of a rule that 4
 * or 5 refuses: its tree is not looked at. */
uint16_t desk_rule_turns(const uint8_t *rule, size_t rule_len);

/* Tests whether a session and a table fit. Answers 255 or 3, or 0. */
uint8_t desk_fits(const uint8_t *session, size_t session_len,
                  const uint8_t *table, size_t table_len);

/* Evaluates a rule in a session over its table: session and table are advanced, and the answer is written.
 * Answers 255, 3 to 9, then whichever of 10, 11 and 12 comes first, or 0. A halted session answers 0 with the same halt,
 * and the rule counts. */
uint8_t desk_evaluate(uint8_t *session, size_t session_len,
                      uint8_t *table, size_t table_len,
                      const uint8_t *rule, size_t rule_len,
                      uint16_t allowance,
                      uint8_t *answer, size_t answer_len);

/* Reads a result under sixteen numbers. The work list has a place for each term: as many as the session's count, or
 * more. Answers 255, 3, 13, 14 or 15, or 0. */
uint8_t desk_read(const uint8_t *session, size_t session_len,
                  const uint8_t *table, size_t table_len,
                  const uint8_t *numbers, size_t numbers_len,
                  const uint8_t *result, size_t result_len,
                  desk_place *work, size_t work_len,
                  uint8_t *reading, size_t reading_len);

/* Reads one result under many bales at a stroke: the numbers have a sample for each bale, the answers a place for each. In the
 * bales' order, the answers are just what desk_read would give for each: a bale that 13 refuses has that as its answer and
 * stops no other one. 3, 14 and 15 come first and stop the whole call. The work list is as for desk_read. No bales, which are
 * two lists of length 0, are no refusal. The table is tested once, and for each bale only those terms are read that S, T
 * and the value stand on. Answers 255, 3, 14 or 15, or 0. */
uint8_t desk_read_all(const uint8_t *session, size_t session_len,
                      const uint8_t *table, size_t table_len,
                      const uint8_t *result, size_t result_len,
                      const desk_word *numbers, size_t numbers_len,
                      desk_place *work, size_t work_len,
                      desk_place *answers, size_t answers_len);

/* Runs one rule plainly, with no table and no session, under sixteen numbers. The store has a place for each whole 8
 * bytes, at most 8,192: 16 for the inputs, and one for each let and each call of a procedure.
 * Answers 255, 2, 13, 4 to 8, then whichever of 16 and 12 comes first, or 0. */
uint8_t desk_run(const uint8_t *inputs, size_t inputs_len,
                 const uint8_t *numbers, size_t numbers_len,
                 const uint8_t *rule, size_t rule_len,
                 uint16_t allowance,
                 uint8_t *store, size_t store_len,
                 uint8_t *reading, size_t reading_len);

/* Says what each term may read as while every moisture head, a free word, reads at its low, at its high or between: the
 * truths that it may take, or the span in which its word lies, or that its kind is open. Every reading within the spans lies
 * in what is reported. The list has DESK_REPORT numbers for each term: three times the session's count, or more; those past
 * the last report are left as they were. Answers 255, 3, 17 or 15, or 0.
 *
 * What a gin may be told: take a session that was opened by desk_open and changed only by desk_evaluate, with the table that
 * these left. If the report of its T (two bytes at DESK_INPUTS + 4) can only be true, which is sort 1 and low 1, then no
 * reading within the spans errs: under no numbers within them does reading the last accepted result give an error, nor does
 * running the accepted rules in turn (theorem no_reading_errs). A report of T that may be false promises nothing: there need
 * not be a reading that errs. */
uint8_t desk_spans(const uint8_t *session, size_t session_len,
                   const uint8_t *table, size_t table_len,
                   const uint8_t *lows, size_t lows_len,
                   const uint8_t *highs, size_t highs_len,
                   uint32_t *reports, size_t reports_len);

/* Writes clauses for a solver: DIMACS CNF text, as docs/CLAUSES.md has it, of a session's table, a result and a goal. They can
 * be satisfied exactly where some sixteen numbers, none of which 13 refuses, make reading the result give the goal, and the
 * input variables of whatever satisfies them are such numbers: the number for a free input is the word of bits 18n + 3 to
 * 18n + 18, lowest first, where term n is that input's (theorems clauses_exact and model_is_reading). What the grammar of
 * DIMACS reads from the text is these clauses (text_is_clauses). The bytes past the text are left as they were. The length is
 * written where the answer is 0 or 18, so that a call with an empty buffer tells how much to lend. Answers 255, 3, 14 or 18, or
 * 0.
 *
 * What a gin may be told: take a session that was opened by desk_open and changed only by desk_evaluate, with the table that
 * these left, and the result of its last accepted rule. If the clauses for DESK_ERROR can't be satisfied, no reading of that
 * result errs, and no run of the accepted rules does (theorem unsatisfied_never_errs). */
uint8_t desk_clauses(const uint8_t *session, size_t session_len,
                     const uint8_t *table, size_t table_len,
                     const uint8_t *result, size_t result_len,
                     const uint8_t *goal, size_t goal_len,
                     uint8_t *text, size_t text_len,
                     uint64_t *length, size_t length_len);

/* Shows a bale that does it: the first sixteen numbers under which reading a result gives the goal, comparing inputs from 0 up
 * as plain numbers, or that there are none; none that 13 refuses are among them, and constant inputs have 0. Lows and highs are
 * spans as desk_spans has them, and then only numbers within them count; both of length 0 are no spans. At most 24 bits are free
 * in all, a truth being one and a word sixteen, with spans or without. The work list is as for desk_read. Reading the result
 * under the numbers that are found gives the goal, under none before them does it, and where none are found, under none at all
 * (theorems witness_reaches, witness_first and none_means_none). Answers 255, 3, 14, 17, 19 or 15, or 0.
 *
 * The search halves boxes of numbers and passes over those in which the ranges of the terms show that nothing reaches the goal.
 * Where the ranges never show it, the result is read under up to 16,777,216 numbers; docs/PERFORMANCE.md has times.
 *
 * What a gin may be told: take a session that was opened by desk_open and changed only by desk_evaluate, with the table that
 * these left, and the result of its last accepted rule. If none are found for DESK_ERROR, no run of the accepted rules under
 * numbers within the spans errs (theorem none_never_errs); under numbers that are found the run comes to the goal (theorem
 * witness_runs). */
uint8_t desk_witness(const uint8_t *session, size_t session_len,
                     const uint8_t *table, size_t table_len,
                     const uint8_t *result, size_t result_len,
                     const uint8_t *goal, size_t goal_len,
                     const uint8_t *lows, size_t lows_len,
                     const uint8_t *highs, size_t highs_len,
                     desk_place *work, size_t work_len,
                     uint8_t *witness, size_t witness_len);

#ifdef __cplusplus
}
#endif

#endif
