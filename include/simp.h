/*
 * SImp scripts on a sheet: checking, running, viewing, rounds of several scripts, who reads a label, and which scripts
 * are trust-keeping.
 *
 * Link with libsimp.a, which is x86-64 code (System V ABI: a stack aligned to 16 bytes, SSE2 enabled, the red zone in
 * use, so run interrupt handlers on another stack). It needs two symbols from outside, memcpy and memset of the C
 * library, and nothing else; it has no static data that is written, and no constructors. The calls keep no state,
 * allocate nothing and read and write only what they are lent. They settle every input: bad input gets one of the
 * numbers below, the first that applies in the order 1 2 3 11 4 5 6 7 8 (of simp_groups 1 2 12), then 9 or 10 by the
 * run, and a refused call writes to no lent slice. Each call ends, given the stack that SIMP_STACK_CHECK and its like
 * state; a large budget can take hours, so choose it for the time that you have (a round has it anew for each script).
 * docs/TEXTS.md has the forms of sheets, scripts, rounds and memories. An answer of 9 or 10, and the steps, may depend
 * on what a group cannot read: don't show them to everyone. A script may open with the label that it starts at
 * (`b label`): whoever cannot read that label is shown the same before and after its run, whatever that answers.
 *
 * A value in a memory is 1 and an integer, 2 and an error, 3 or 4 (left or right) and a value, 5, a label and a value
 * (a package), or 6 and two values (a pair). Pairs have the types that the lines `Q a b` of a sheet make; a script
 * makes a pair by `p`, and takes its parts by `f` and `g`.
 *
 * The sheet has a rule of reading. On a sheet with the line `R 1`, right after `P`, a group reads a label if one of its
 * members is a reader for every owner; on any other, if for every owner it holds a reader, not necessarily the same.
 * Unpacks (in simp_run and simp_round), views and the groups of simp_groups go by that rule. Who writes a label is the
 * same by both: a group that for every owner holds a writer.
 *
 * A slice is a pointer and the number of its elements. A pointer is suitably aligned; it may be null where the number
 * is 0 (memcpy and memset may then be handed it, with 0 bytes). No other slice of the call overlaps one that the call
 * may write (a memory of simp_run and simp_round, a view of simp_view, groups of simp_groups). Calls are reentrant: two
 * may go on at once if neither may write what the other is lent.
 */
#ifndef SIMP_H
#define SIMP_H

#include <stddef.h>
#include <stdint.h>

#ifdef __cplusplus
extern "C" {
#endif

/* The version of this header and of the archive that it belongs to. `simp --version` has the archive's SHA-256. */
#define SIMP_VERSION "1.6.0"

/* Words of 32 bits that a location takes in a memory or a view: at most so many of a value, the rest 0. A pair takes
 * one more than both of its parts together. */
#define SIMP_CELL 16

/* The most locations that a sheet has, the most bytes of a text (a longer one is refused; of a round, each script has
 * this limit for itself, and the whole text none), and the most scripts of a round. */
#define SIMP_MOST_LOCATIONS 64
#define SIMP_MOST_TEXT 16384
#define SIMP_MOST_SCRIPTS 32

/* Places that are enough for the smallest groups of every label: no more sets of 16 principals can be such that none
 * holds another (Sperner's theorem). */
#define SIMP_MOST_GROUPS 12870

/* The most bytes of code and constants that the archive adds to a program, as the project's gate holds. */
#define SIMP_CODE_BYTES 27648

/* The most bytes of stack that a call of this archive takes, its return address included, for every input: no less than
 * what is computed from its code, as the project's gate holds (docs/PERFORMANCE.md). Not in it are the arguments on the
 * stack, 16 bytes of simp_run and 24 of simp_round, and the caller's place for what a round hands back, 164 bytes;
 * memcpy and memset are called where much of it is free (1.2 KB in simp_groups, 3.5 KB in a view). */
#define SIMP_STACK_CHECK 86016
#define SIMP_STACK_RUN 86016
#define SIMP_STACK_VIEW 7168
#define SIMP_STACK_ROUND 86016
#define SIMP_STACK_GROUPS 4096
#define SIMP_STACK_TRUST 86016

/* Answers. */
enum {
    SIMP_DONE = 0,               /* done; accepted; shown */
    SIMP_SHEET_MALFORMED = 1,    /* the sheet isn't of the form, or names what isn't there */
    SIMP_SHEET_REPEATS = 2,      /* the sheet repeats a sum, a pair or a label; a sum and a pair are never the same */
    SIMP_PRINCIPAL_UNKNOWN = 3,  /* the authority or group holds a principal not on the sheet */
    SIMP_SCRIPT_MALFORMED = 4,   /* the script isn't of the form, or names what isn't there */
    SIMP_ILL_TYPED = 5,          /* the script has no derivation, even with every label condition struck out; so too
                                  * where it names a type of the wrong kind, such as a sum for a pair */
    SIMP_ILL_LABELLED = 6,       /* the script has a derivation only with the label conditions struck out */
    SIMP_SLICE_SIZE = 7,         /* a lent memory or view isn't SIMP_CELL words for each location */
    SIMP_MEMORY_ILL_FORMED = 8,  /* a location's words aren't a value of its type and zeros, or name no label */
    SIMP_SPENT = 9,              /* the budget was used up before the script ended */
    SIMP_TOO_LONG = 10,          /* in a step within the budget a value took more than SIMP_CELL words, be it a
                                  * pair of which only a part is taken */
    SIMP_TOO_MANY_SCRIPTS = 11,  /* a round has more than SIMP_MOST_SCRIPTS scripts; judged between 3 and 4 */
    SIMP_NOT_LISTED = 12         /* the label isn't on the sheet, or has more smallest groups than there are places */
};

/* How a run ended. Steps are the transitions taken: 0 for 1 to 8, the budget for SIMP_SPENT, those before the
 * stopping one for SIMP_TOO_LONG. Compare the members: there is padding between them. */
typedef struct {
    uint8_t answer;
    uint32_t steps;
} simp_outcome;

/* How a round ended: its own answer, and in the place of each script, counted from 0, that script's answer (SIMP_DONE,
 * SIMP_SPENT or SIMP_TOO_LONG) and steps. Places past the last script are 0; beside an answer other than SIMP_DONE all
 * places are. The answer is SIMP_DONE also where a script was stopped. Compare the members: there is padding. */
typedef struct {
    uint8_t answer;
    uint8_t answers[SIMP_MOST_SCRIPTS];
    uint32_t steps[SIMP_MOST_SCRIPTS];
} simp_round_outcome;

/* The answer of simp_groups, and how many groups it lists: 0 beside an answer other than SIMP_DONE, and where a sheet
 * has `R 1` and no one reads the label by himself. Compare the members: there is padding between them. */
typedef struct {
    uint8_t answer;
    uint32_t count;
} simp_groups_outcome;

/* The answer of simp_trust, and whether the script is trust-keeping: 1 or 0, and 0 beside an answer other than
 * SIMP_DONE. */
typedef struct {
    uint8_t answer;
    uint8_t keeping;
} simp_trust_outcome;

/* Whether a script is accepted on a sheet: 0, 1, 2, 4, 5 or 6. */
uint8_t simp_check(const uint8_t *sheet, size_t sheet_len, const uint8_t *script, size_t script_len);

/* Checks a script and runs it on a memory under an authority, for at most `budget` steps: 0 to 10. Bit p of a set
 * is principal p. The memory changes only if the answer is SIMP_DONE. */
simp_outcome simp_run(const uint8_t *sheet, size_t sheet_len, const uint8_t *script, size_t script_len,
                      uint32_t *memory, size_t memory_len, uint16_t authority, uint32_t budget);

/* Writes into `view` what a group is shown of a memory: 0, 1, 2, 3, 7 or 8. The view changes only if the answer
 * is SIMP_DONE. A location that the group cannot read, by the sheet's rule, is 0 in all words. The content of a package
 * that it cannot read is one word 0, and in a pair the next part follows that word at once. */
uint8_t simp_view(const uint8_t *sheet, size_t sheet_len, const uint32_t *memory, size_t memory_len,
                  uint16_t group, uint32_t *view, size_t view_len);

/* A round: checks every script of a text, then runs them in order on a memory under an authority, each for at most
 * `budget` steps: 0 to 8 or 11. Every line without a byte parts two scripts, so k of them make k + 1 scripts, and an
 * empty script is SIMP_SCRIPT_MALFORMED; of 4, 5 and 6 the lowest over all scripts is given. A script that is stopped
 * leaves the memory as the one before it did, and the round goes on. A refused round leaves the memory as it was. */
simp_round_outcome simp_round(const uint8_t *sheet, size_t sheet_len, const uint8_t *scripts, size_t scripts_len,
                              uint32_t *memory, size_t memory_len, uint16_t authority, uint32_t budget);

/* Who can read a label, by the sheet's rule: every smallest group, that is one which reads it while none of its proper
 * subsets does, into the first places of `groups`, rising as numbers: 0, 1, 2 or 12. Labels count from 0; bit p of a
 * group is principal p. A group of the sheet's principals reads the label exactly if it holds one that is listed. On a
 * sheet with `R 1` each has one member, who reads the label by himself, and there may be none: a slice of no places is
 * then enough. Places after the count keep their content, and beside an answer other than SIMP_DONE all places do. */
simp_groups_outcome simp_groups(const uint8_t *sheet, size_t sheet_len, uint32_t label, uint16_t *groups,
                                size_t groups_len);

/* Whether a script is accepted on a sheet, as of simp_check: 0, 1, 2, 4, 5 or 6; and whether an accepted one is
 * trust-keeping: whether the operand of each unpack has a least label at or below the label that it is opened as,
 * writers as well as readers. Distrust any group, and leave out all locations and package contents whose labels it
 * writes: two memories that are alike in the rest still are after done runs of a trust-keeping script under one
 * authority. */
simp_trust_outcome simp_trust(const uint8_t *sheet, size_t sheet_len, const uint8_t *script, size_t script_len);

#ifdef __cplusplus
}
#endif

#endif
