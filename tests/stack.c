/*
 * The peak stack of the calls, for some shapes of script: each call runs in a thread whose stack was filled with a
 * pattern, and what is left of the pattern afterwards was not used. What the thread itself takes is measured by an
 * empty call and taken off. See docs/PERFORMANCE.md.
 */
#define _POSIX_C_SOURCE 200809L
#include <pthread.h>
#include <stdio.h>
#include <stdlib.h>
#include <string.h>

#include "simp.h"

#define STACK (1u << 20)
#define PATTERN 0xA5
#define LOCATIONS 3

static const char sheet[] = "P\t2\nQ\t0\t0\nL\nL\nO\t0\t0000\t0003\nX\t0\t1\nX\t4\t1\nX\t3\t0\n";

enum call { NOTHING, CHECK, RUN, VIEW, ROUND, GROUPS, TRUST };

static char script[SIMP_MOST_TEXT], twice[2 * SIMP_MOST_TEXT];
static enum call chosen;
static int answer;

static const uint8_t *bytes(const char *text) { return (const uint8_t *)text; }

/* A memory of the sheet: integer 0; a left package of label 0 whose content is as deep as a value can be; a left. */
static void write_memory(uint32_t *memory)
{
    uint32_t *package = memory + SIMP_CELL, *deep = package + 3;
    memset(memory, 0, LOCATIONS * SIMP_CELL * sizeof *memory);
    memory[0] = 1;
    package[0] = 3, package[1] = 5;
    while (deep < package + SIMP_CELL - 2)
        *deep++ = 3;
    *deep = 1;
    memory[2 * SIMP_CELL] = 3, memory[2 * SIMP_CELL + 1] = 1;
}

/* The empty call, by a pointer so that it is made: it touches the last word of its caller's frame, as each call
   does. */
static int nothing(void) { return 0; }
static int (*volatile empty)(void) = nothing;

/* Makes the chosen call. Its arguments and slices are outside the measured stack. */
static void *make(void *unused)
{
    static uint32_t memory[LOCATIONS * SIMP_CELL], view[LOCATIONS * SIMP_CELL];
    static uint16_t groups[2];
    (void)unused;
    write_memory(memory);
    if (chosen == NOTHING)
        answer = empty();
    if (chosen == CHECK)
        answer = simp_check(bytes(sheet), strlen(sheet), bytes(script), strlen(script));
    if (chosen == RUN)
        answer = simp_run(bytes(sheet), strlen(sheet), bytes(script), strlen(script),
                          memory, LOCATIONS * SIMP_CELL, 3, 1000).answer;
    if (chosen == VIEW)
        answer = simp_view(bytes(sheet), strlen(sheet), memory, LOCATIONS * SIMP_CELL, 3, view, LOCATIONS * SIMP_CELL);
    if (chosen == ROUND)
        answer = simp_round(bytes(sheet), strlen(sheet), bytes(twice), strlen(twice),
                            memory, LOCATIONS * SIMP_CELL, 3, 1000).answer;
    if (chosen == GROUPS)
        answer = simp_groups(bytes(sheet), strlen(sheet), 1, groups, 2).answer;
    if (chosen == TRUST)
        answer = simp_trust(bytes(sheet), strlen(sheet), bytes(script), strlen(script)).answer;
    return NULL;
}

/* The bytes of stack that a thread used which made the call. */
static size_t used(enum call call)
{
    unsigned char *stack = NULL;
    pthread_attr_t attributes;
    pthread_t thread;
    size_t untouched = 0;
    if (posix_memalign((void **)&stack, 4096, STACK) != 0)
        abort();
    memset(stack, PATTERN, STACK);
    chosen = call;
    if (pthread_attr_init(&attributes) != 0 || pthread_attr_setstack(&attributes, stack, STACK) != 0
        || pthread_create(&thread, &attributes, make, NULL) != 0 || pthread_join(thread, NULL) != 0)
        abort();
    while (untouched < STACK && stack[untouched] == PATTERN)
        untouched++;
    free(stack);
    return STACK - untouched;
}

/* A script, and a round of it twice: a first part, one part so many times, another so many times; and its answers to a
 * check and a run. */
struct shape {
    const char *name, *first, *part;
    int times;
    const char *last;
    int last_times, checked, ran;
};

static const struct shape shapes[] = {
    {"one s", "s\n", "", 0, "", 0, 0, 0},
    {"510 packs inside one another", "=\t1\n", "k\t1\n", 510, "i\t1\n", 1, 0, 10},
    {"510 packs of a location", "=\t1\n", "k\t1\n", 510, "x\t1\n", 1, 0, 10},
    {"510 lefts inside one another", "=\t1\n", "l\t3\n", 510, "i\t1\n", 1, 5, 5},
    {"255 ; inside one another", "", ";\n", 255, "s\n", 256, 0, 0},
    {"255 ; each the second of another", "", ";\ns\n", 255, "s\n", 1, 0, 0},
    {"255 w inside one another", "", "w\nx\t2\n", 255, "s\n", 1, 0, 9},
    {"255 + inside one another", "=\t0\n", "+\n", 255, "i\t1\n", 256, 0, 0},
    {"170 f, each of a p, the first operand", "=\t0\n", "f\np\t5\n", 170, "i\t1\n", 171, 0, 0},
    {"170 g, each of a p, the second operand", "=\t0\n", "g\np\t5\ni\t1\n", 170, "i\t1\n", 1, 0, 0},
    {"255 p inside one another", "=\t0\n", "p\t5\n", 255, "i\t1\n", 256, 5, 5},
    {"255 p, each the second of another", "=\t0\n", "p\t5\ni\t1\n", 255, "i\t1\n", 1, 5, 5},
    {"512 ; and nothing else", "", ";\n", 512, "", 0, 4, 4},
    {"512 w and nothing else", "", "w\n", 512, "", 0, 4, 4},
    {"512 + and nothing else", "", "+\n", 512, "", 0, 4, 4},
    {"512 p and nothing else", "", "p\t5\n", 512, "", 0, 4, 4},
    {"= and 511 packs, nothing else", "=\t1\n", "k\t1\n", 511, "", 0, 4, 4},
};

static void write_script(const struct shape *shape)
{
    strcpy(script, shape->first);
    for (int i = 0; i < shape->times; i++)
        strcat(script, shape->part);
    for (int i = 0; i < shape->last_times; i++)
        strcat(script, shape->last);
    strcat(strcat(strcpy(twice, script), "\n"), script);
}

/* The bytes that a call took beyond what the thread itself takes. Its answer must be the wanted one. */
static size_t measured(enum call call, int wanted)
{
    size_t own = used(NOTHING), all = used(call);
    if (answer != wanted) {
        fprintf(stderr, "stack: the answer is %d, not %d\n", answer, wanted);
        exit(1);
    }
    return all - own;
}

int main(void)
{
    size_t most_check = 0, most_run = 0, most_round = 0, most_trust = 0;
    for (size_t i = 0; i < sizeof shapes / sizeof *shapes; i++) {
        write_script(&shapes[i]);
        size_t check = measured(CHECK, shapes[i].checked), run = measured(RUN, shapes[i].ran);
        size_t round = measured(ROUND, shapes[i].checked), trust = measured(TRUST, shapes[i].checked);
        printf("%-38s check %7zu bytes (answer %2d), run %7zu bytes (answer %2d), round %7zu bytes, trust %7zu bytes\n",
               shapes[i].name, check, shapes[i].checked, run, shapes[i].ran, round, trust);
        most_trust = trust > most_trust ? trust : most_trust;
        most_round = round > most_round ? round : most_round;
        most_check = check > most_check ? check : most_check;
        most_run = run > most_run ? run : most_run;
    }
    printf("peak check %zu\npeak run %zu\npeak view %zu\npeak round %zu\npeak groups %zu\npeak trust %zu\n", most_check,
           most_run, measured(VIEW, 0), most_round, measured(GROUPS, 0), most_trust);
    return 0;
}
