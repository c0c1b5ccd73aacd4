/* The operations from C: each is called, and what it answers is held to the specification's first example. */
#include "nesskettle.h"

#include <stdio.h>
#include <string.h>

static int failures = 0;

static void expect(int holds, const char *what) {
    if (!holds) {
        printf("not so: %s\n", what);
        failures++;
    }
}

static int text_is(const uint8_t *bytes, uint64_t length, const char *text) {
    return length == strlen(text) && memcmp(bytes, text, length) == 0;
}

int main(void) {
    static const char text[] = "sheet=1\nfuns=2\nfun=a/0\nfun=b/0\npreds=0\nclauses=1\nclause=- = a b\n";
    static const char least[] = "case=1\nsize=2\na=1\nb=2\n";
    const uint8_t *sheet = (const uint8_t *)text;
    const size_t sheet_length = strlen(text);
    uint8_t output[100];
    uint32_t work[1000];

    nk_read_answer read = nk_read(sheet, sheet_length);
    expect(read.outcome == NK_READ && read.funs == 2 && read.preds == 0 && read.clauses == 1, "the sheet is read");
    read = nk_read(sheet, sheet_length - 2);
    expect(read.outcome == NK_REFUSED && read.reason == NK_LAYOUT, "a cut sheet is refused");
    expect(read.line == 7 && read.column == 14, "one past the end of its last line");

    nk_judge_answer judged = nk_judge(sheet, sheet_length, (const uint8_t *)least, strlen(least));
    expect(judged.outcome == NK_YES && judged.reason == 0, "the least model is judged one");
    expect(judged.line == 0 && judged.column == 0, "without a place");
    judged = nk_judge(sheet, sheet_length, (const uint8_t *)"case=1\nsize=9\n", 14);
    expect(judged.outcome == NK_REFUSED && judged.reason == NK_BAD_CASE, "a case of size 9 is refused");
    expect(judged.line == 2 && judged.column == 6, "at its size");

    nk_explain_answer explained = nk_explain(sheet, sheet_length, (const uint8_t *)least, strlen(least));
    expect(explained.outcome == NK_YES && explained.clause == 0 && explained.count == 0, "nothing is wrong with it");
    static const char ordered[] = "sheet=1\nfuns=0\npreds=1\npred=p/2\nclauses=2\nclause=+ p A A\nclause=+ p B A\n";
    static const char table[] = "case=1\nsize=2\np=1 1 0 1\n";
    explained = nk_explain((const uint8_t *)ordered, strlen(ordered), (const uint8_t *)table, strlen(table));
    expect(explained.outcome == NK_NO && explained.clause == 2 && explained.count == 2, "the second clause fails");
    expect(memcmp(explained.letters, "BA\0\0\0\0\0", 8) == 0, "B comes first in it");
    expect(memcmp(explained.values, "\2\1\0\0\0\0\0", 8) == 0, "it fails for 2 and 1");
    explained = nk_explain((const uint8_t *)ordered, strlen(ordered), (const uint8_t *)table, 14);
    expect(explained.outcome == NK_REFUSED && explained.reason == NK_BAD_CASE, "a case without a table is refused");
    expect(explained.line == 3 && explained.column == 1 && explained.clause == 0, "where the table is missing");

    nk_write_answer written = nk_write(sheet, sheet_length, 2, 0, 0, output, sizeof output);
    expect(written.outcome == NK_WRITTEN, "the clauses are written");
    expect(text_is(output, written.length, "p cnf 4 6\n1 2 0\n-1 -2 0\n3 4 0\n-3 -4 0\n-3 -1 0\n-4 -2 0\n"),
           "the clauses are those of the specification");

    const uint8_t setting[] = {0, 1, 1, 0};
    written = nk_read_back(sheet, sheet_length, 2, 0, setting, sizeof setting, output, 10);
    expect(written.reason == NK_OUTPUT_TOO_SHORT && written.length == 22, "a short output is refused");
    expect(written.line == 0 && written.column == 0, "without a place");
    written = nk_read_back(sheet, sheet_length, 2, 0, setting, sizeof setting, output, sizeof output);
    expect(text_is(output, written.length, "case=1\nsize=2\na=2\nb=1\n"), "the setting is read back");

    output[4] = 9;
    written = nk_setting(sheet, sheet_length, (const uint8_t *)least, strlen(least), output, sizeof output);
    expect(written.outcome == NK_WRITTEN && written.length == 4, "the least model has a setting of four bytes");
    expect(memcmp(output, "\1\0\0\1\11", 5) == 0, "it is 1 0 0 1, and the byte after it is as it was");
    written = nk_setting(sheet, sheet_length, (const uint8_t *)least, strlen(least), output, 3);
    expect(written.reason == NK_OUTPUT_TOO_SHORT && written.length == 4, "three bytes are too few for it");
    written = nk_setting(sheet, sheet_length, (const uint8_t *)least, 18, output, sizeof output);
    expect(written.outcome == NK_REFUSED && written.reason == NK_BAD_CASE, "a case without its last line is refused");
    expect(written.line == 4 && written.column == 1 && written.length == 0, "where the line is missing");

    const uint64_t most = 1000000;
    nk_find_answer found = nk_find(sheet, sheet_length, 1, 3, 0, 0, most, work, 1000, output, sizeof output);
    expect(found.outcome == NK_FOUND && found.size == 2 && found.settled == 0, "a model of size 2 is found");
    expect(text_is(output, found.length, least), "it is the least one");
    expect(found.choices == 1, "that a is 1 is the one choice");
    found = nk_find(sheet, sheet_length, 1, 3, 0, 0, 1, work, 1000, output, sizeof output);
    expect(found.outcome == NK_FOUND && found.choices == 1, "one choice is enough");
    output[0] = 9;
    work[0] = work[999] = 9;
    found = nk_find(sheet, sheet_length, 1, 3, 0, 0, 0, work, 1000, output, sizeof output);
    expect(found.outcome == NK_STOPPED && found.size == 2 && found.choices == 0, "without one it is stopped at size 2");
    expect(found.reason == 0 && found.length == 0 && found.settled == 0, "which is no refusal and no none");
    expect(output[0] == 9 && work[0] == 0 && work[999] == 0, "the output is as it was, the work area cleared");
    found = nk_find(sheet, sheet_length, 1, 9, 0, 0, most + 1, work, 1000, output, sizeof output);
    expect(found.reason == NK_BAD_SIZE, "sizes are looked at first");
    found = nk_find(sheet, sheet_length, 1, 3, 0, 0, most + 1, work, 0, output, sizeof output);
    expect(found.outcome == NK_REFUSED && found.reason == NK_ALLOWANCE_TOO_LARGE, "then the allowance");
    expect(found.line == 0 && found.column == 0 && found.length == 0 && found.choices == 0, "without a place");
    found = nk_find(sheet, sheet_length, 1, 1, 0, 0, most, work, 1000, output, sizeof output);
    expect(found.outcome == NK_NONE && found.settled == 0 && found.length == 0, "there is none of size 1");
    found = nk_find(sheet + 1, sheet_length - 1, 1, 1, 0, 0, most, work, 1000, output, sizeof output);
    expect(found.reason == NK_LAYOUT && found.line == 1 && found.column == 1, "a sheet without its first byte is refused");

    static const char never[] = "sheet=1\nfuns=0\npreds=0\nclauses=1\nclause=\n";
    found = nk_find((const uint8_t *)never, strlen(never), 1, 1, 0, 1, most, work, 1000, output, sizeof output);
    expect(found.outcome == NK_NONE && found.settled == 1, "a search from size 1 settles that there is none");
    found = nk_find((const uint8_t *)never, strlen(never), 2, 3, 0, 0, most, work, 1000, output, sizeof output);
    expect(found.outcome == NK_NONE && found.settled == 0, "a search from size 2 does not");

    static const char terms[] = "sheet=1\nfuns=2\nfun=a/0\nfun=f/1\npreds=1\npred=p/1\nclauses=2\n"
                                "clause=+ p f a\nclause=- p a\n";
    const uint8_t *deep = (const uint8_t *)terms;
    const size_t deep_length = strlen(terms);
    written = nk_write(deep, deep_length, 1, 1, 0, output, sizeof output);
    expect(written.outcome == NK_WRITTEN, "the clauses with f a named are written");
    expect(text_is(output, written.length, "p cnf 4 6\n1 0\n2 0\n4 0\n-1 -2 4 0\n-4 3 0\n-1 -3 0\n"),
           "the helper is numbered last and its clause comes first");
    written = nk_write(deep, deep_length, 1, 0, 0, output, sizeof output);
    expect(text_is(output, written.length, "p cnf 3 4\n1 0\n2 0\n-1 -2 3 0\n-1 -3 0\n"), "as written there is none");
    const uint8_t with_helper[] = {0, 1, 1, 0, 1, 0, 1, 0, 0, 1};
    output[30] = 9;
    written = nk_read_back(deep, deep_length, 2, 1u << 31, with_helper, 10, output, sizeof output);
    expect(text_is(output, written.length, "case=1\nsize=2\na=2\nf=1 1\np=1 0\n") && output[30] == 9,
           "it is not shown in a case");
    written = nk_read_back(deep, deep_length, 2, 1, with_helper, 8, output, sizeof output);
    expect(written.reason == NK_BAD_SETTING, "a setting has its bytes");
    written = nk_read_back(deep, deep_length, 2, 0, with_helper, 8, output, sizeof output);
    expect(written.outcome == NK_WRITTEN, "but not where terms stay as written");
    found = nk_find(deep, deep_length, 1, 2, 256, 0, most, work, 1000, output, sizeof output);
    expect(found.outcome == NK_FOUND && found.size == 2, "a model is found");
    expect(text_is(output, found.length, "case=1\nsize=2\na=1\nf=2 1\np=0 1\n"), "it is the least one");
    found = nk_find(deep, deep_length, 1, 2, 0, 0, most, work, 1000, output, sizeof output);
    expect(text_is(output, found.length, "case=1\nsize=2\na=1\nf=2 1\np=0 1\n"), "and the same as written");
    static const char pairs[] = "abcdef";
    char many[1200] = "sheet=1\nfuns=7\nfun=a/0\nfun=b/0\nfun=c/0\nfun=d/0\nfun=e/0\nfun=f/0\nfun=g/2\npreds=1\npred=p/1\n"
                      "clauses=33\n";
    for (int i = 0; i < 33; i++) {
        char line[] = "clause=+ p g a b\n";
        line[13] = pairs[i / 6];
        line[15] = pairs[i % 6];
        strcat(many, line);
    }
    written = nk_write((const uint8_t *)many, strlen(many), 9, 1, 0, output, sizeof output);
    expect(written.outcome == NK_REFUSED && written.reason == NK_TOO_MANY_HELPERS, "33 helpers are refused before the size");
    expect(written.line == 0 && written.column == 0 && written.length == 0, "without a place");
    written = nk_write((const uint8_t *)many, strlen(many), 9, 0, 1, output, sizeof output);
    expect(written.reason == NK_BAD_SIZE, "as written there are none");

    static const char behind[] = "sheet=1\nfuns=2\nfun=f/1\nfun=a/0\npreds=0\nclauses=2\nclause=+ = f A f B\nclause=- = f a a\n";
    const uint8_t *mapped = (const uint8_t *)behind;
    const size_t mapped_length = strlen(behind);
    written = nk_write(mapped, mapped_length, 1, 0, 1, output, sizeof output);
    expect(text_is(output, written.length, "p cnf 2 5\n1 0\n2 0\n2 0\n-1 1 0\n-2 -1 0\n"),
           "the constant clause comes after those of the cells");
    written = nk_write(mapped, mapped_length, 1, 0, 0, output, sizeof output);
    expect(text_is(output, written.length, "p cnf 2 4\n1 0\n2 0\n-1 1 0\n-2 -1 0\n"), "there is none where it is not asked for");
    found = nk_find(mapped, mapped_length, 1, 2, 0, 0, most, work, 1000, output, sizeof output);
    expect(text_is(output, found.length, "case=1\nsize=2\nf=1 1\na=2\n"), "the least model of all has a = 2");
    found = nk_find(mapped, mapped_length, 1, 2, 0, 1u << 31, most, work, 1000, output, sizeof output);
    expect(found.outcome == NK_FOUND && found.size == 2, "with constant clauses the size is the same");
    expect(text_is(output, found.length, "case=1\nsize=2\nf=2 2\na=1\n"), "and a is 1");

    output[22] = 9;
    found = nk_find_plain(sheet, sheet_length, 1, 3, output, sizeof output);
    expect(found.outcome == NK_FOUND && found.size == 2 && found.settled == 0, "the plain search finds a model of size 2");
    expect(text_is(output, found.length, least) && output[22] == 9, "the same, and the byte after it is as it was");
    expect(found.choices == 0, "it makes no choices");
    found = nk_find_plain(sheet, sheet_length, 1, 3, output, 21);
    expect(found.reason == NK_OUTPUT_TOO_SHORT && found.length == 22, "21 bytes are too few for it");
    found = nk_find_plain((const uint8_t *)never, strlen(never), 1, 1, output, sizeof output);
    expect(found.outcome == NK_NONE && found.settled == 1 && found.length == 0, "it settles that there is none");
    static const char cells[] = "sheet=1\nfuns=1\nfun=a/0\npreds=1\npred=p/2\nclauses=0\n";
    found = nk_find_plain((const uint8_t *)cells, strlen(cells), 1, 8, output, sizeof output);
    expect(found.outcome == NK_REFUSED && found.reason == NK_TOO_MANY_CELLS, "65 cells are refused");
    expect(found.line == 0 && found.column == 0 && found.length == 0, "without a place");

    static const char clauses[] = "% two constants\ncnf(1, axiom, a != b).\n";
    written = nk_from_tptp((const uint8_t *)clauses, strlen(clauses), output, sizeof output);
    expect(written.outcome == NK_WRITTEN && written.line == 0 && written.column == 0, "the clause is taken");
    expect(text_is(output, written.length, text), "its sheet is the first example");
    written = nk_from_tptp((const uint8_t *)clauses, strlen(clauses), output, 10);
    expect(written.reason == NK_OUTPUT_TOO_SHORT && written.length == sheet_length, "a short output is refused");
    written = nk_from_tptp((const uint8_t *)clauses, strlen(clauses) - 2, output, sizeof output);
    expect(written.outcome == NK_REFUSED && written.reason == NK_NOT_TPTP, "a missing full stop is refused");
    expect(written.line == 2 && written.column == 22 && written.length == 0, "at the text's end");

    static const char states[] = "c a solver\ns SATISFIABLE\nv -1 3\nv -4 2 0\n";
    output[22] = 9;
    written = nk_from_solver(sheet, sheet_length, 2, (const uint8_t *)states, strlen(states), output, sizeof output);
    expect(written.outcome == NK_WRITTEN && written.reason == 0, "a solver's answer is taken");
    expect(text_is(output, written.length, "case=1\nsize=2\na=2\nb=1\n"), "its case is written");
    expect(output[22] == 9, "and the byte after it is as it was");
    written = nk_from_solver(sheet, sheet_length, 2, (const uint8_t *)states, strlen(states), output, 21);
    expect(written.reason == NK_OUTPUT_TOO_SHORT && written.length == 22, "21 bytes are too few for it");
    written = nk_from_solver(sheet, sheet_length, 2, (const uint8_t *)states, strlen(states) - 1, output, sizeof output);
    expect(written.outcome == NK_REFUSED && written.reason == NK_BAD_ANSWER, "it is refused without its last line feed");
    expect(written.line == 0 && written.column == 0 && written.length == 0, "without a place");
    static const char equal[] = "s SATISFIABLE\nv 1 -2 3 -4 0\n";
    written = nk_from_solver(sheet, sheet_length, 2, (const uint8_t *)equal, strlen(equal), output, sizeof output);
    expect(written.outcome == NK_REFUSED && written.reason == NK_NO_MODEL, "equal constants are no model");
    static const char none[] = "s UNSATISFIABLE\n";
    written = nk_from_solver(sheet, sheet_length, 2, (const uint8_t *)none, strlen(none), output, 0);
    expect(written.outcome == NK_CLAIMED_NONE && written.length == 0, "a claim of none is no refusal");

    static const char rules[] = "sheet=1\nfuns=1\nfun=b/0\npreds=1\npred=p/1\nclauses=2\nclause=+ p b\nclause=+ = A A\n";
    static const char both[] = "sheet=1\nfuns=2\nfun=a/0\nfun=b/0\npreds=1\npred=p/1\nclauses=3\nclause=- = a b\n"
                               "clause=+ p b\nclause=+ = A A\n";
    const uint8_t *more = (const uint8_t *)rules;
    uint8_t merged[200];
    merged[strlen(both)] = 9;
    nk_merge_answer made = nk_merge(sheet, sheet_length, more, strlen(rules), merged, sizeof merged);
    expect(made.outcome == NK_WRITTEN && made.reason == 0 && made.sheet == 0, "two sheets are merged");
    expect(text_is(merged, made.length, both), "b is one symbol, and the second sheet's clauses come last");
    expect(merged[strlen(both)] == 9, "the byte after them is as it was");
    made = nk_merge(sheet, sheet_length, sheet, sheet_length, merged, sizeof merged);
    expect(text_is(merged, made.length, text), "a sheet merged with itself stays as it is");
    made = nk_merge(sheet, sheet_length, more, strlen(rules), merged, strlen(both) - 1);
    expect(made.reason == NK_OUTPUT_TOO_SHORT && made.length == strlen(both) && made.sheet == 0, "a byte is missing");
    made = nk_merge(sheet, sheet_length - 1, more, 0, merged, sizeof merged);
    expect(made.outcome == NK_REFUSED && made.reason == NK_LAYOUT && made.sheet == 1, "the first sheet is looked at first");
    expect(made.line == 7 && made.column == 15 && made.length == 0, "it lacks its last line feed");
    made = nk_merge(sheet, sheet_length, more, strlen(rules) - 15, merged, sizeof merged);
    expect(made.reason == NK_LAYOUT && made.sheet == 2, "then the second");
    expect(made.line == 8 && made.column == 1, "it lacks its last line");
    static const char other[] = "sheet=1\nfuns=1\nfun=b/1\npreds=0\nclauses=0\n";
    made = nk_merge(sheet, sheet_length, (const uint8_t *)other, strlen(other), merged, sizeof merged);
    expect(made.outcome == NK_REFUSED && made.reason == NK_NAMES_DIFFER, "b cannot have an argument too");
    expect(made.sheet == 0 && made.line == 0 && made.column == 0, "which is about both sheets");
    char full[800] = "sheet=1\nfuns=0\npreds=0\nclauses=64\n";
    for (int i = 0; i < 64; i++) {
        strcat(full, "clause=\n");
    }
    made = nk_merge((const uint8_t *)full, strlen(full), sheet, sheet_length, merged, sizeof merged);
    expect(made.outcome == NK_REFUSED && made.reason == NK_MERGE_TOO_LARGE, "65 clauses are too many");
    expect(made.sheet == 0 && made.line == 0 && made.length == 0, "which is about both sheets too");

    static const char before[] = "case=1\nsize=3\na=1\nb=3\n";
    const uint8_t *pair = (const uint8_t *)before;
    const uint8_t turn[] = {2, 3, 1};
    output[22] = 9;
    written = nk_renumber(sheet, sheet_length, pair, strlen(before), turn, sizeof turn, output, sizeof output);
    expect(written.outcome == NK_WRITTEN && written.reason == 0, "a case is renumbered");
    expect(text_is(output, written.length, "case=1\nsize=3\na=2\nb=1\n"), "1 becomes 2 and 3 becomes 1");
    expect(output[22] == 9, "and the byte after it is as it was");
    written = nk_renumber(sheet, sheet_length, pair, strlen(before), turn, sizeof turn, output, 21);
    expect(written.reason == NK_OUTPUT_TOO_SHORT && written.length == 22, "21 bytes are too few for it");
    written = nk_renumber(sheet, sheet_length, pair, strlen(before), turn, 2, output, 0);
    expect(written.outcome == NK_REFUSED && written.reason == NK_BAD_LIST, "two bytes are no list for three elements");
    expect(written.line == 0 && written.column == 0 && written.length == 0, "without a place");
    const uint8_t twice[] = {2, 2, 1};
    written = nk_renumber(sheet, sheet_length, pair, strlen(before), twice, sizeof twice, output, sizeof output);
    expect(written.outcome == NK_REFUSED && written.reason == NK_BAD_LIST, "nor is one with an entry twice");
    written = nk_renumber(sheet, sheet_length, pair, 18, twice, sizeof twice, output, sizeof output);
    expect(written.reason == NK_BAD_CASE && written.line == 4 && written.column == 1, "the case is looked at first");
    written = nk_least_form(sheet, sheet_length, pair, strlen(before), output, sizeof output);
    expect(written.outcome == NK_WRITTEN, "it has a least form");
    expect(text_is(output, written.length, "case=1\nsize=3\na=1\nb=2\n") && output[22] == 9, "in which b is 2");
    written = nk_least_form(sheet, sheet_length, pair, strlen(before), output, 21);
    expect(written.reason == NK_OUTPUT_TOO_SHORT && written.length == 22, "21 bytes are too few for this too");
    written = nk_least_form(sheet, sheet_length, pair, 18, output, sizeof output);
    expect(written.reason == NK_BAD_CASE && written.line == 4 && written.length == 0, "without b there is none");

    printf("%zu %zu %zu %zu %zu %zu\n", sizeof(nk_read_answer), sizeof(nk_judge_answer), sizeof(nk_explain_answer),
           sizeof(nk_write_answer), sizeof(nk_find_answer), sizeof(nk_merge_answer));
    return failures;
}
