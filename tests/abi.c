/* The C boundary: null with length 0 is an empty slice, for each slice of each call. Answers 0 if all is well. */
#include "simp.h"

#include <stdio.h>
#include <string.h>

static int wrong = 0;

static void expect(const char *what, unsigned got, unsigned wanted) {
    if (got != wanted) {
        printf("abi: %s: %u, not %u\n", what, got, wanted);
        wrong = 1;
    }
}

static const uint8_t *bytes(const char *text) { return (const uint8_t *)text; }

int main(void) {
    const char *sheet = "P\t1\n", *with_location = "P\t1\nL\nX\t0\t0\n", *script = "s\n";
    uint32_t memory[SIMP_CELL] = {1, 7}, view[SIMP_CELL] = {9, 9};
    const uint32_t kept[SIMP_CELL] = {9, 9};
    simp_outcome o;
    simp_round_outcome r;
    simp_groups_outcome g;
    simp_trust_outcome t;
    uint16_t groups[2] = {9, 9};

    expect("a check without a sheet", simp_check(NULL, 0, bytes(script), strlen(script)), SIMP_SHEET_MALFORMED);
    expect("a check without a script", simp_check(bytes(sheet), strlen(sheet), NULL, 0), SIMP_SCRIPT_MALFORMED);
    expect("a check without either", simp_check(NULL, 0, NULL, 0), SIMP_SHEET_MALFORMED);

    o = simp_run(NULL, 0, NULL, 0, NULL, 0, 0, 5);
    expect("a run without anything", o.answer, SIMP_SHEET_MALFORMED);
    expect("its steps", o.steps, 0);
    o = simp_run(bytes(sheet), strlen(sheet), NULL, 0, NULL, 0, 1, 5);
    expect("a run without a script", o.answer, SIMP_SCRIPT_MALFORMED);
    o = simp_run(bytes(sheet), strlen(sheet), bytes(";\ns\ns\n"), 6, NULL, 0, 1, 5);
    expect("a run without locations", o.answer, SIMP_DONE);
    expect("its steps", o.steps, 1);
    o = simp_run(bytes(with_location), strlen(with_location), bytes(script), strlen(script), NULL, 0, 1, 5);
    expect("a run without a memory", o.answer, SIMP_SLICE_SIZE);

    r = simp_round(NULL, 0, NULL, 0, NULL, 0, 0, 5);
    expect("a round without anything", r.answer, SIMP_SHEET_MALFORMED);
    r = simp_round(bytes(sheet), strlen(sheet), NULL, 0, NULL, 0, 1, 5);
    expect("a round without a script", r.answer, SIMP_SCRIPT_MALFORMED);
    r = simp_round(bytes(sheet), strlen(sheet), bytes(";\ns\ns\n\ns\n"), 9, NULL, 0, 1, 5);
    expect("a round without locations", r.answer, SIMP_DONE);
    expect("its first script's answer", r.answers[0], SIMP_DONE);
    expect("its first script's steps", r.steps[0], 1);
    expect("its second script's steps", r.steps[1], 0);
    r = simp_round(bytes(with_location), strlen(with_location), bytes(script), strlen(script), NULL, 0, 1, 5);
    expect("a round without a memory", r.answer, SIMP_SLICE_SIZE);
    expect("its last place", r.answers[SIMP_MOST_SCRIPTS - 1] + r.steps[SIMP_MOST_SCRIPTS - 1], 0);

    expect("a view without anything", simp_view(NULL, 0, NULL, 0, 0, NULL, 0), SIMP_SHEET_MALFORMED);
    expect("a view without locations", simp_view(bytes(sheet), strlen(sheet), NULL, 0, 1, NULL, 0), SIMP_DONE);
    expect("a view of no memory",
           simp_view(bytes(with_location), strlen(with_location), NULL, 0, 1, view, SIMP_CELL), SIMP_SLICE_SIZE);
    expect("a view into nothing",
           simp_view(bytes(with_location), strlen(with_location), memory, SIMP_CELL, 1, NULL, 0), SIMP_SLICE_SIZE);
    expect("what they left", memcmp(view, kept, sizeof view) != 0, 0);

    g = simp_groups(NULL, 0, 0, NULL, 0);
    expect("groups without anything", g.answer, SIMP_SHEET_MALFORMED);
    g = simp_groups(bytes(sheet), strlen(sheet), 0, NULL, 0);
    expect("groups of a label that isn't there", g.answer, SIMP_NOT_LISTED);
    g = simp_groups(bytes(with_location), strlen(with_location), 0, NULL, 0);
    expect("groups into nothing", g.answer, SIMP_NOT_LISTED);
    expect("their count", g.count, 0);
    g = simp_groups(bytes(with_location), strlen(with_location), 0, groups, 2);
    expect("groups", g.answer, SIMP_DONE);
    expect("the count of one", g.count, 1);
    expect("the first place", groups[0], 1);
    expect("the place after it", groups[1], 9);

    t = simp_trust(NULL, 0, bytes(script), strlen(script));
    expect("trust without a sheet", t.answer, SIMP_SHEET_MALFORMED);
    expect("its keeping", t.keeping, 0);
    t = simp_trust(bytes(sheet), strlen(sheet), NULL, 0);
    expect("trust without a script", t.answer, SIMP_SCRIPT_MALFORMED);
    expect("its keeping", t.keeping, 0);
    t = simp_trust(NULL, 0, NULL, 0);
    expect("trust without either", t.answer, SIMP_SHEET_MALFORMED);
    t = simp_trust(bytes(sheet), strlen(sheet), bytes(script), strlen(script));
    expect("trust", t.answer, SIMP_DONE);
    expect("its keeping", t.keeping, 1);
    expect("the size of an outcome", sizeof(simp_outcome), 8);
    expect("the size of a round's outcome", sizeof(simp_round_outcome), 164);
    expect("the size of a groups' outcome", sizeof(simp_groups_outcome), 8);
    expect("the size of a trust outcome", sizeof(simp_trust_outcome), 2);
    expect("the version's length", strlen(SIMP_VERSION) >= 5, 1);
    return wrong;
}
