/*
 * Packs a tally on a grading line, shows it to two groups, runs a round, lists who together reads a label, and asks
 * which scripts are trust-keeping: the smallest program over libsimp.a. Exits with 0 if every call answered as it
 * should.
 */
#include <stdio.h>
#include <string.h>

#include "simp.h"

/* Three principals; location 0 may be read and written by everyone, location 1 is principal 0's alone, and
 * location 2 takes what a pack leaves. Label 2 says that everyone reads and principal 0 alone writes. */
static const char sheet[] =
    "P\t3\n"
    "T\t0\t1\n"
    "L\n"
    "L\nO\t0\t0000\t0007\n"
    "L\nO\t0\t0007\t0000\n"
    "X\t0\t0\n"
    "X\t0\t1\n"
    "X\t4\t0\n";

/* Adds location 0 to the tally in location 1. */
static const char count[] = "=\t1\n+\nx\t1\nx\t0\n";

/* Packs the tally for principal 0 into location 2, which everyone reads. */
static const char pack[] = "=\t2\nk\t1\nx\t1\n";

/* Copies the tally to location 0, where everyone would read it: refused. */
static const char leak[] = "=\t0\nx\t1\n";

/* Opens the package in location 2 as label 1, which everyone writes, and as label 2: everyone can put another package
 * there, and it would pass for what principal 0 alone wrote. */
static const char open_as_1[] = "c\nx\t2\nc\nu\t5\t1\nv\t0\n=\t1\nv\t0\ns\ns\n";
static const char open_as_2[] = "c\nx\t2\nc\nu\t5\t2\nv\t0\n=\t1\nv\t0\ns\ns\n";

/* A round: counts, loops without end, packs. An empty line parts two scripts. */
static const char morning[] =
    "=\t1\n+\nx\t1\nx\t0\n"
    "\n"
    "w\nl\t3\ni\t0\ns\n"
    "\n"
    "=\t2\nk\t1\nx\t1\n";

static const uint8_t *bytes(const char *text) { return (const uint8_t *)text; }

static simp_outcome run(const char *script, uint32_t *memory, size_t words)
{
    return simp_run(bytes(sheet), strlen(sheet), bytes(script), strlen(script), memory, words, 1u << 1, 100);
}

static simp_trust_outcome trust(const char *script)
{
    return simp_trust(bytes(sheet), strlen(sheet), bytes(script), strlen(script));
}

/* Prints the words of a location without the zeros at their end. A zero may stand between others: label 0. */
static void print(const char *name, const uint32_t *words)
{
    size_t n = SIMP_CELL;
    while (n > 0 && words[n - 1] == 0)
        n--;
    printf("%s:", name);
    for (size_t i = 0; i < n; i++)
        printf(" %u", (unsigned)words[i]);
    printf("\n");
}

int main(void)
{
    uint32_t memory[3 * SIMP_CELL] = {0};
    uint32_t view[3 * SIMP_CELL] = {0};
    memory[0] = 1, memory[1] = 30;                              /* integer 30 */
    memory[SIMP_CELL] = 1, memory[SIMP_CELL + 1] = 12;          /* integer 12 */
    memory[2 * SIMP_CELL] = 4, memory[2 * SIMP_CELL + 1] = 2;   /* right, error 1 */
    memory[2 * SIMP_CELL + 2] = 1;

    if (simp_check(bytes(sheet), strlen(sheet), bytes(leak), strlen(leak)) != SIMP_ILL_LABELLED)
        return 1;
    simp_outcome counted = run(count, memory, 3 * SIMP_CELL);
    simp_outcome packed = run(pack, memory, 3 * SIMP_CELL);
    if (counted.answer != SIMP_DONE || counted.steps != 1 || packed.answer != SIMP_DONE || packed.steps != 1)
        return 2;
    print("package", memory + 2 * SIMP_CELL);

    /* Principal 0 reads the package's content, principal 2 doesn't. */
    const uint32_t content[] = {3, 5, 1, 1, 42};
    const uint32_t hidden[] = {3, 5, 1, 0, 0};
    if (simp_view(bytes(sheet), strlen(sheet), memory, 3 * SIMP_CELL, 1u << 0, view, 3 * SIMP_CELL) != SIMP_DONE
        || memcmp(view + 2 * SIMP_CELL, content, sizeof content) != 0)
        return 3;
    print("principal 0 is shown", view + 2 * SIMP_CELL);
    if (simp_view(bytes(sheet), strlen(sheet), memory, 3 * SIMP_CELL, 1u << 2, view, 3 * SIMP_CELL) != SIMP_DONE
        || memcmp(view + 2 * SIMP_CELL, hidden, sizeof hidden) != 0)
        return 4;
    print("principal 2 is shown", view + 2 * SIMP_CELL);

    /* The second script uses its budget up and changes nothing; the third goes on from what the first left. */
    simp_round_outcome round = simp_round(bytes(sheet), strlen(sheet), bytes(morning), strlen(morning), memory,
                                          3 * SIMP_CELL, 1u << 1, 100);
    if (round.answer != SIMP_DONE || round.answers[0] != SIMP_DONE || round.answers[1] != SIMP_SPENT
        || round.answers[2] != SIMP_DONE || round.steps[1] != 100)
        return 5;
    print("package after the round", memory + 2 * SIMP_CELL);

    /* Who together reads the package's content, of label 1? With three principals, three places are always enough. */
    uint16_t groups[3];
    simp_groups_outcome readers = simp_groups(bytes(sheet), strlen(sheet), 1, groups, 3);
    if (readers.answer != SIMP_DONE || readers.count != 1 || groups[0] != 1u << 0)
        return 6;
    printf("smallest groups that read label 1:");
    for (uint32_t i = 0; i < readers.count; i++)
        printf(" %04x", (unsigned)groups[i]);
    printf("\n");

    /* Which is trust-keeping? Both are accepted. */
    simp_trust_outcome kept = trust(open_as_1), other = trust(open_as_2);
    if (kept.answer != SIMP_DONE || kept.keeping != 1 || other.answer != SIMP_DONE || other.keeping != 0)
        return 7;
    printf("trust-keeping: %u as label 1, %u as label 2\n", (unsigned)kept.keeping, (unsigned)other.keeping);
    return 0;
}
