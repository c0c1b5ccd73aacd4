/*
 * Nesskettle: finite model finder. Its operations for C.
 *
 * Link crates/exports/out/libexports.a (`rt lib` in crates/exports writes it; x86-64 Linux).
 *
 * Every call ends, for every byte string, number and buffer, and answers a result or a refusal. It never expects
 * checked input. What must hold is what C itself asks of the pointers: each points to as many bytes or numbers as the
 * length beside it says, is not null (also where the length is 0) and is aligned for its type; a buffer that is lent
 * for writing overlaps no other argument. No call keeps state: calls on different buffers may run side by side.
 *
 * Sheets, cases, settings, TPTP texts and solvers' answers are bytes; nothing is ended by a zero byte.
 *
 * Answers. `outcome` 0 is NK_REFUSED in every answer. Then `reason` is the number of the refusal, `line` the faulty
 * line, counted from 1, and `column` the faulty byte of that line, counted in bytes from 1; both are 0 where the refusal
 * names no line. `reason`, `line` and `column` are 0 in results, and a field that an outcome does not speak of is 0.
 *
 * A refused call changes nothing: every lent byte and number is as it was.
 */
#ifndef NESSKETTLE_H
#define NESSKETTLE_H

#include <stddef.h>
#include <stdint.h>

#ifdef __cplusplus
extern "C" {
#endif

/* Outcomes. */
enum {
    NK_REFUSED = 0,

    NK_READ = 1,         /* nk_read: the sheet is accepted */
    NK_YES = 1,          /* nk_judge, nk_explain: the case is a model */
    NK_NO = 2,           /* nk_judge, nk_explain: it is none */
    NK_WRITTEN = 1,      /* nk_write, nk_read_back, nk_setting, nk_from_tptp, nk_from_solver, nk_merge, nk_renumber,
                            nk_least_form: it stands in the output */
    NK_CLAIMED_NONE = 2, /* nk_from_solver: the solver says that there is no model; whether that is so is not checked */
    NK_FOUND = 1,        /* nk_find, nk_find_plain: a model, told there which, stands in the output */
    NK_NONE = 2,         /* nk_find, nk_find_plain: no case of a searched size is a model */
    NK_STOPPED = 3       /* nk_find: one choice more is needed than is allowed */
};

/*
 * Refusals. Checks run in the order that is told at each call, sheet numbers first; of a sheet's faulty lines the first
 * is named, and on one line the lower number wins.
 *
 * 2 to 7, 12 and 15 to 17 name a line and a column, the others name none. The column is
 *
 *   for 2 and 12   the first byte with which the line can no longer be as laid out, whatever follows it; one past the
 *                  line's end where more bytes would have made it so (a line cut short, no line feed); 1 where the line
 *                  is missing or stands after the end;
 *   for 3 to 5     the start of the first faulty number (a count, or the digit of an arity), name or word; an empty word
 *                  starts right after the space before it;
 *   for 6          the start of the first word that cannot stand after those before it; one past the line's end where
 *                  more words would have made a clause;
 *   for 7          the start of the 65th word or the sign of the 17th literal, whichever comes first; 1 where only the
 *                  variables are too many, and always 1 where terms are named;
 *   for 15 to 17   told at nk_from_tptp.
 */
enum {
    /* The sheet, in every call that takes one; all but 1 name line and column. */
    NK_SHEET_TOO_LONG = 1,   /* over 16,384 bytes */
    NK_LAYOUT = 2,           /* key, line feed, digits or /arity not as laid out, a line missing, bytes after the end */
    NK_OVER_LIMIT = 3,       /* over 12 functions, 12 predicates, 64 clauses, or arity 3 */
    NK_BAD_NAME = 4,         /* a name badly formed or repeated */
    NK_UNKNOWN_WORD = 5,     /* an unknown or empty word */
    NK_NOT_A_CLAUSE = 6,     /* words that are no clause */
    NK_CLAUSE_TOO_LARGE = 7, /* over 64 words, 16 literals or 10 variables after flattening; where terms are named, of the
                                clause with the names put in or of a helper's own that is new on the line */

    /* The other arguments; only NK_BAD_CASE names line and column. */
    NK_BAD_SIZE = 8,            /* a size that is not 1 to 8, or low above high */
    NK_TOO_MANY_INSTANCES = 9,  /* over 1,000,000 instances at the size, before dropping */
    NK_WORK_TOO_SHORT = 10,     /* `length` says how many numbers are needed */
    NK_OUTPUT_TOO_SHORT = 11,   /* `length` says how many bytes are needed */
    NK_BAD_CASE = 12,           /* at the first line of the case that is not exactly as laid out */
    NK_BAD_SETTING = 13,        /* not one byte for each propositional variable, or a byte over 1 */
    NK_NOT_ONE_RESULT = 14,     /* a function cell with no result or several */

    /* A TPTP text; each names line and column. */
    NK_NOT_TPTP = 15,      /* text outside the part of TPTP that is read, or text missing */
    NK_SYMBOL_CLASH = 16,  /* a symbol with two arities, or that is a function and a predicate */
    NK_BEYOND_SHEETS = 17, /* a name that no sheet has, a ninth variable, or any limit of a sheet */

    /* A solver's answer; neither names a line. */
    NK_BAD_ANSWER = 18, /* lines not as laid out, or a propositional variable missing, doubled or above the last one */
    NK_NO_MODEL = 19,   /* its case is no model of the sheet */

    /* The search of nk_find_plain; it names no line. */
    NK_TOO_MANY_CELLS = 20, /* over 64 cells at high */

    /* Named terms; it names no line, and comes directly after the sheet's numbers. */
    NK_TOO_MANY_HELPERS = 21, /* over 32 helper constants */

    /* Two sheets made one; both are about the two together and name no line. */
    NK_NAMES_DIFFER = 22,    /* a name in both sheets with different kinds or arities */
    NK_MERGE_TOO_LARGE = 23, /* the merged sheet has over 12 functions, 12 predicates, 64 clauses or 16,384 bytes */

    /* The search of nk_find; it names no line, and comes directly after 8. */
    NK_ALLOWANCE_TOO_LARGE = 24, /* an allowance over 1,000,000 */

    /* The list of nk_renumber; it names no line. */
    NK_BAD_LIST = 25 /* not as many bytes as the case's size, or not each number from 1 to the size once */
};

/*
 * Named terms. nk_write, nk_read_back and nk_find take a number `named`: 0 takes a sheet's terms as they are written, every
 * other number names its fixed terms.
 *
 * A fixed term is one without variables that is no constant. Each outermost one, in every place of a clause, gets a fresh
 * constant, a helper, and terms that are equal word for word, over the whole sheet, share one. The helper stands in the
 * clauses instead of its term, and one clause `+ = helper term` for each helper, in order of first appearance, stands in
 * front of the sheet's clauses. So a clause with deep terms on constants has fewer variables after flattening.
 *
 * The limits of a clause (7) are then those of the clauses with the names put in and of the helpers' own; how many words a
 * line has as it is written does not matter. There are at most 32 helpers (21). They are function symbols without arguments
 * whose cells and propositional variables come after those of all predicates; they count in the number of instances, of
 * propositional variables and of work, and settings have their cells, but they are never shown in a case. A case and its
 * length are the same with and without them.
 *
 * Some sheets are taken with named terms alone, and some as written alone. Where neither call is refused or stopped, nk_find
 * answers the same, but for the number of choices, and leaves the same in the output, `symmetry` being the same. What is said
 * of settings and models at nk_read_back holds in both.
 */

/*
 * Constant clauses. A case whose elements are numbered otherwise is a model exactly if the case is, and a search that ends in
 * none repeats its work for every renumbering. nk_write and nk_find take a number `symmetry`: 0 adds nothing, every other
 * number adds clauses that few of the renumberings of a case obey.
 *
 * Of the declared constants in order, the i-th has a value from 1 to i (to the size, where that is smaller), and a value d
 * above 1 only if an earlier one has d - 1.
 * (So the first is 1, and each other has a value of an earlier one or the value after the highest of these.) The clauses come
 * after those of the function cells, constant by constant: that it has one of these values, then for each d from 2 up that it
 * is not d or an earlier constant is d - 1. Helpers are not declared. The clauses count in the number of instances and of
 * work, so that some calls are refused (9, 10) with them alone.
 *
 * Every model has a renumbering that obeys them. So where neither call is refused or stopped, nk_find answers none with them
 * exactly where it does without, and finds a model of the same size; it is the same case where all constants are declared before
 * other functions.
 */

/*
 * Choices. nk_find takes a number `allowance`, from 0 to 1,000,000: how many choices it may make. The number that it made
 * is in its answer. Both speak of one walk through the clauses that nk_write writes at a size with the same switches:
 *
 *   - Where every literal of a clause is false, the walk has failed. The empty clause fails at once.
 *   - Else, where one literal of a clause is unset (repeats of it count once) and the rest are false, that literal is forced: its
 *     variable is set so that it is true.
 *   - Else, where a variable is unset, also where all clauses are true already, a choice is made: the lowest unset variable is
 *     set, to yes where it is a function's (a helper's too), to no where it is a predicate's.
 *   - Else every variable is set: this is the setting of the case that is found.
 *
 * A failure goes back to the latest choice whose other value is untried and takes that value, which is no choice; where there
 * is none, there is no model at the size. Choices count over all sizes from low on. Exactly if one more is needed and none is
 * left, the answer is NK_STOPPED.
 *
 * A larger allowance that is not refused never turns NK_FOUND or NK_NONE into another answer, nor its number into another. The
 * number depends on `named` and `symmetry`.
 */

/* The answer of nk_read. */
typedef struct {
    uint32_t outcome; /* NK_READ or NK_REFUSED */
    uint32_t reason;
    uint64_t line;
    uint64_t column;
    uint64_t funs;    /* NK_READ: how many functions, */
    uint64_t preds;   /*          predicates */
    uint64_t clauses; /*          and clauses the sheet has */
} nk_read_answer;

/* The answer of nk_judge. */
typedef struct {
    uint32_t outcome; /* NK_YES, NK_NO or NK_REFUSED */
    uint32_t reason;
    uint64_t line;
    uint64_t column;
} nk_judge_answer;

/* The answer of nk_explain. */
typedef struct {
    uint32_t outcome; /* NK_YES, NK_NO or NK_REFUSED */
    uint32_t reason;
    uint64_t line;
    uint64_t column;
    uint64_t clause;    /* NK_NO: which clause of the sheet fails, counted from 1, */
    uint64_t count;     /*        how many letters it has, 0 to 8, */
    uint8_t letters[8]; /*        the letters, 'A' to 'H', in the order in which they first appear in it, */
    uint8_t values[8];  /*        and the elements that they stand for, numbers from 1 (not digits); 0 past `count` */
} nk_explain_answer;

/* The answer of nk_write, nk_read_back, nk_setting, nk_from_tptp, nk_from_solver, nk_renumber and nk_least_form. */
typedef struct {
    uint32_t outcome; /* NK_WRITTEN or NK_REFUSED; of nk_from_solver NK_CLAIMED_NONE too */
    uint32_t reason;
    uint64_t line;
    uint64_t column;
    uint64_t length; /* NK_WRITTEN: how many bytes are written; refused 11: how many are needed */
} nk_write_answer;

/* The answer of nk_find and nk_find_plain. */
typedef struct {
    uint32_t outcome; /* NK_FOUND, NK_NONE or NK_REFUSED; of nk_find NK_STOPPED too */
    uint32_t reason;
    uint64_t line;
    uint64_t column;
    uint64_t size;    /* NK_FOUND: the model's size; NK_STOPPED: the size at which one more choice is needed */
    uint64_t length;  /* NK_FOUND: the case's length; refused 10 or 11: the length that is needed */
    uint64_t choices; /* NK_FOUND, NK_NONE, NK_STOPPED: the choices made over all sizes so far; of nk_find_plain 0 */
    uint32_t settled; /* NK_NONE: 1 exactly if low is 1, no function has arity above 0 and high is at least the number
                         of constants; then the sheet has no model of any size, above 8 included; else 0 */
} nk_find_answer;

/* The answer of nk_merge: that of nk_write, and which sheet is at fault. */
typedef struct {
    uint32_t outcome; /* NK_WRITTEN or NK_REFUSED */
    uint32_t reason;
    uint64_t line;
    uint64_t column;
    uint64_t length; /* NK_WRITTEN: how many bytes are written; refused 11: how many are needed */
    uint32_t sheet;  /* refused 1 to 7: 1 where the first sheet is at fault, 2 where the second is; else 0 */
} nk_merge_answer;

/*
 * Is this a sheet? Answers how many functions, predicates and clauses it has.
 * Lent for writing: nothing.
 * Refused: 1 to 7.
 */
nk_read_answer nk_read(const uint8_t *sheet, size_t sheet_length);

/*
 * Is this case a model of the sheet: has each clause a true literal, whichever elements its letters stand for?
 * Lent for writing: nothing.
 * Refused: 1 to 7, then 12.
 */
nk_judge_answer nk_judge(const uint8_t *sheet, size_t sheet_length,
                         const uint8_t *case_, size_t case_length);

/*
 * Why is this case no model of the sheet? Answers the first clause that fails, in the sheet's order, and the first choice
 * of elements for its letters under which none of its literals is true. Choices are taken in the order of numbers: the
 * first is 1 for every letter, and the last letter's element changes fastest. NK_YES exactly where nk_judge answers it.
 * Lent for writing: nothing.
 * Refused: as nk_judge, 1 to 7, then 12.
 */
nk_explain_answer nk_explain(const uint8_t *sheet, size_t sheet_length,
                             const uint8_t *case_, size_t case_length);

/*
 * Writes the sheet's clauses at this size as DIMACS text; where terms are named, the helpers' own in front. Unless `symmetry`
 * is 0, the constant clauses are among them.
 * Afterwards the output's first `length` bytes are the text; the bytes after it are as they were.
 * Refused: 1 to 7, then 21 (only where terms are named), 8, 9, 11; every byte of the output is then as it was.
 */
nk_write_answer nk_write(const uint8_t *sheet, size_t sheet_length, uint64_t size, uint32_t named, uint32_t symmetry,
                         uint8_t *output, size_t output_length);

/*
 * Reads a setting back: writes the case in which a function cell's value is the one result whose variable is 1, and a
 * predicate cell's value is its byte. The setting has one byte, the number 0 or 1 (not the digit), for each
 * propositional variable of the text that nk_write writes with the same `named`. A helper's cell must have one result too,
 * but that need not be its term's value, and it is not shown.
 * Settings that satisfy the clauses that nk_write writes with `symmetry` 0 are read back as models of the sheet, each model
 * from exactly one.
 * Afterwards the output's first `length` bytes are the case; the bytes after it are as they were.
 * Refused: 1 to 7, then 21 (only where terms are named), 8, 13, 14, 11; every byte of the output is then as it was.
 */
nk_write_answer nk_read_back(const uint8_t *sheet, size_t sheet_length, uint64_t size, uint32_t named,
                             const uint8_t *setting, size_t setting_length,
                             uint8_t *output, size_t output_length);

/*
 * The other way of nk_read_back: writes the setting of a case, at the case's own size. Of the variables of a function cell
 * the one of its value is 1, the others are 0; a predicate cell's variable is its value. nk_read_back of the setting, at
 * that size and of terms as written, writes the same case. The case need not be a model: the setting satisfies the clauses
 * that nk_write writes at that size, of terms as written and with `symmetry` 0, exactly if it is one.
 * Afterwards the output's first `length` bytes are the setting, each the number 0 or 1; the bytes after it are as they
 * were.
 * Refused: as nk_judge, 1 to 7, then 12; then 11; every byte of the output is then as it was.
 */
nk_write_answer nk_setting(const uint8_t *sheet, size_t sheet_length,
                           const uint8_t *case_, size_t case_length,
                           uint8_t *output, size_t output_length);

/*
 * Searches the sizes low, low + 1, .., high for a model, and answers the least one at the smallest size that has one,
 * or that no case of these sizes is a model; where that is settled, the sheet has no model of any other size either.
 * Unless `symmetry` is 0, it is the least of those that obey the constant clauses; the size and the answer that there is none
 * are the same.
 * It makes at most `allowance` choices. Where it is stopped, no case of a searched size below the one that it answers is a
 * model, and of that size and larger ones nothing is said.
 * The caller lends the work area; what stands in it before does not matter.
 * Afterwards every number of the work area is 0, on all three results. Found: the output's first `length` bytes are the
 * case, and the bytes after it are as they were. None, stopped: every byte of the output is as it was.
 * Refused: 1 to 7, then 21 (only where terms are named), 8, 24, 9 (at high), 10, 11 (output shorter than a case of size high);
 * every byte of the output and every number of the work area is then as it was.
 */
nk_find_answer nk_find(const uint8_t *sheet, size_t sheet_length, uint64_t low, uint64_t high, uint32_t named,
                       uint32_t symmetry, uint64_t allowance,
                       uint32_t *work, size_t work_length,
                       uint8_t *output, size_t output_length);

/*
 * The search of nk_find a second time, of terms as written, as on a whiteboard: it fills the cells of a case in order, the
 * least value first, copies the tables before each guess, and judges each full case by truth alone. It makes no clauses and
 * is lent no work area. Where neither call is refused and nk_find is not stopped, it answers the same as nk_find with
 * `symmetry` 0, but that it makes no choices, and leaves the same in the output.
 * Time grows with the number of cases that are tried, at worst all of the searched sizes: at size s a function cell has s
 * values and a predicate cell 2, and the number of cases is their product.
 * Found: the output's first `length` bytes are the case, and the bytes after it are as they were. None: every byte of the
 * output is as it was.
 * Refused: 1 to 7, then 8, 20 (at high), 11 (output shorter than a case of size high); every byte of the output is then
 * as it was.
 */
nk_find_answer nk_find_plain(const uint8_t *sheet, size_t sheet_length, uint64_t low, uint64_t high,
                             uint8_t *output, size_t output_length);

/*
 * Reads TPTP clauses into a sheet, and writes the sheet: a case is a model of the sheet exactly if every clause of the
 * text is true in it. The text is any number of statements
 *
 *     cnf(name, role, literal | literal | ..).
 *
 * with blanks (space, tab, CR, LF) and comments (% to the line's end, or between slash-star and star-slash) between
 * tokens. A literal is $false, an atom, ~ and an atom, or term != term; an atom is a predicate with its arguments or
 * term = term; the whole clause may stand in parentheses. A clause's name is a lower word or digits, a role is a lower
 * word, and both are forgotten. Symbols are declared in order of first appearance, functions and predicates apart;
 * variables become A to H likewise in each clause; `$false` leaves no literal.
 * The text has no limit; time grows with its length, at worst times the depth to which terms nest.
 * Afterwards the output's first `length` bytes are the sheet; the bytes after it are as they were.
 * Refused: 15 to 17, statement by statement. In a whole statement the earliest place is named, and of one place the lower
 * number; where a statement is not whole, 15 is given before any 16 or 17 of its own. The place is the start of the
 * faulty token (of the symbol for an arity, of `cnf` for a 65th clause); the clause's full stop for its words, literals
 * and variables after flattening; the text's end for missing text, a comment without an end, and the sheet's bytes.
 * Then 11. Every byte of the output is then as it was.
 */
nk_write_answer nk_from_tptp(const uint8_t *text, size_t text_length,
                             uint8_t *output, size_t output_length);

/*
 * Reads what a SAT solver answers to the clauses that nk_write writes of the sheet at this size, of terms as written, with or
 * without the constant clauses, in the layout of the solver competitions:
 *
 *     c any bytes
 *     s SATISFIABLE
 *     v 1 -2 ..
 *     v .. 7 0
 *
 * One `s` line, then `v` lines of one number or more; the last number of all is 0, and no other is. Lines that begin with
 * `c` may stand anywhere and are passed over. Every line ends with a line feed, one space parts the words of a line, and
 * a number has no plus sign and no leading zero, and is not -0. Each propositional variable stands there once, in any
 * order: n where it is yes, -n where it is no. The text has no limit; time grows with its length.
 * NK_WRITTEN: the numbers are the setting of a case that is a model of the sheet, and the output's first `length` bytes are
 * the case; the bytes after it are as they were. Every model is taken, however its setting is laid out.
 * NK_CLAIMED_NONE: the answer is `s UNSATISFIABLE` without `v` lines. This is the solver's claim and not NK_NONE: nothing
 * here has been checked. The output, which may have any length, is as it was.
 * Refused: 1 to 7, then 8, 18, 14, 19, 11; every byte of the output is then as it was.
 */
nk_write_answer nk_from_solver(const uint8_t *sheet, size_t sheet_length, uint64_t size,
                               const uint8_t *text, size_t text_length,
                               uint8_t *output, size_t output_length);

/*
 * Makes one sheet of two: the first sheet's functions, predicates and clauses, each followed by the second's that are new, in
 * their order. A name with the same kind and arity in both is one symbol. A clause is not new if the first sheet has it byte
 * for byte; repeats in the first sheet stay, and so do repeats of a new clause. A case is a model of the merged sheet exactly
 * if its tables for each sheet's symbols form a model of that sheet. Merging with a sheet without symbols and clauses changes
 * no byte, and three sheets give the same bytes however they are grouped, where no step is refused.
 * Afterwards the output's first `length` bytes are the merged sheet; the bytes after it are as they were.
 * Refused: 1 to 7 of the first sheet, then 1 to 7 of the second, 22, 23, 11; every byte of the output is then as it was.
 */
nk_merge_answer nk_merge(const uint8_t *first, size_t first_length,
                         const uint8_t *second, size_t second_length,
                         uint8_t *output, size_t output_length);

/*
 * Writes the case with its elements numbered otherwise. The list is a rearrangement of 1 to the case's size s: s bytes, each of
 * the numbers (not digits) from 1 to s once. Element d becomes the number p(d) that stands d-th in it, in arguments and in
 * values: the new table of a function f has f(p(x), ..) = p(f(x, ..)), that of a predicate P has P(p(x), ..) = P(x, ..), where
 * the right sides are the old tables'. The case need not be a model: what is written is one exactly if the case is. One list
 * after another writes the same as the composed one, d to q(p(d)), and the reverse list brings the case back.
 * Afterwards the output's first `length` bytes are the case; the bytes after it are as they were.
 * Refused: as nk_judge, 1 to 7, then 12; then 25, 11; every byte of the output is then as it was.
 */
nk_write_answer nk_renumber(const uint8_t *sheet, size_t sheet_length,
                            const uint8_t *case_, size_t case_length,
                            const uint8_t *list, size_t list_length,
                            uint8_t *output, size_t output_length);

/*
 * Writes the least form of a case: the least of all that nk_renumber writes of it, with any rearrangement. Of two cases the one
 * is less that has the lower value in the first cell in which they differ, cells in the order in which a case writes them.
 * The least forms of two cases of one sheet and size are equal exactly if some rearrangement turns one case into the other.
 * Time grows with the number of rearrangements, 40,320 at size 8, and with how many cells it takes to tell them apart.
 * Afterwards the output's first `length` bytes are the least form; the bytes after it are as they were.
 * Refused: as nk_judge, 1 to 7, then 12; then 11; every byte of the output is then as it was.
 */
nk_write_answer nk_least_form(const uint8_t *sheet, size_t sheet_length,
                              const uint8_t *case_, size_t case_length,
                              uint8_t *output, size_t output_length);

#ifdef __cplusplus
}
#endif

#endif
