/* Tests of the C interface.

   usage: tests QUARRELS SHORTEST [COPIES [FAILURES]]; the files are reference/quarrels.txt and reference/shortest.txt, the bodies by hand
   of nunthila_quarrel and nunthila_shortest, COPIES is how many damaged copies of bodies are tried, 2,000 by default, and FAILURES after how
   many failures the tests end. The last line is `N passed, M failed`; exits with 1 on a failure. Static slices stand between elements that
   must stay as they were. */
#include "nunthila.h"

#include <stdio.h>
#include <stdlib.h>
#include <string.h>

/* ---- checks ---- */

static unsigned long passed, failed, most_failures;
static char about[160]; /* what is tried */

static void summary(void) {
    printf("%lu passed, %lu failed\n", passed, failed);
}

static void check(int good, const char *what) {
    if (good) {
        passed++;
        return;
    }
    failed++;
    if (failed <= 40)
        printf("%s: %s\n", about, what);
    if (failed == 41)
        printf("further failures are counted only\n");
    if (failed == most_failures) {
        summary();
        exit(1);
    }
}

static void check_of(int good, const char *of, const char *what) {
    char line[160];
    if (good) {
        passed++;
        return;
    }
    snprintf(line, sizeof line, "%s: %s", of, what);
    check(0, line);
}

/* ---- slices ---- */

enum { ROWS, CELLS, NODES, VARS, TYPES, ERRORS, LOG, MEMORY, TABLES, OUT = TABLES, TOLD, SLICES };

static const char *const slice_name[SLICES] = {"rows", "cells", "nodes", "vars", "types", "errors", "log", "memory", "out", "told"};
static const size_t element[SLICES] = {2, 2, 2, 2, 2, sizeof(nunthila_error), 2, 2, 1, sizeof(size_t)};
static const size_t required[TABLES] = {NUNTHILA_ROWS,  NUNTHILA_CELLS,  NUNTHILA_NODES, NUNTHILA_VARS,
                                        NUNTHILA_TYPES, NUNTHILA_ERRORS, 0,              NUNTHILA_MEMORY};

#define AROUND 64 /* elements before each slice, and at least so many behind it */
#define LONGER 9  /* so many elements more than required are lent at most */
#define OUT_MOST 131072

/* A static room with AROUND elements, a slice, and the rest. */
#define ROOM(type, name, length) static type name##_room[AROUND + (length) + LONGER + AROUND]

ROOM(uint16_t, rows, NUNTHILA_ROWS);
ROOM(uint16_t, cells, NUNTHILA_CELLS);
ROOM(uint16_t, nodes, NUNTHILA_NODES);
ROOM(uint16_t, vars, NUNTHILA_VARS);
ROOM(uint16_t, types, NUNTHILA_TYPES);
ROOM(nunthila_error, errors, NUNTHILA_ERRORS);
ROOM(uint16_t, log, NUNTHILA_LOG);
ROOM(uint16_t, memory, NUNTHILA_MEMORY);
ROOM(uint8_t, out, OUT_MOST);
ROOM(size_t, told, NUNTHILA_TOLD);

static unsigned char *const room[SLICES] = {
    (unsigned char *)rows_room,   (unsigned char *)cells_room, (unsigned char *)nodes_room,  (unsigned char *)vars_room,
    (unsigned char *)types_room,  (unsigned char *)errors_room, (unsigned char *)log_room,   (unsigned char *)memory_room,
    (unsigned char *)out_room,    (unsigned char *)told_room};
static const size_t room_size[SLICES] = {sizeof rows_room,   sizeof cells_room,  sizeof nodes_room, sizeof vars_room,
                                         sizeof types_room,  sizeof errors_room, sizeof log_room,   sizeof memory_room,
                                         sizeof out_room,    sizeof told_room};

static uint16_t *const rows = rows_room + AROUND;
static uint16_t *const cells = cells_room + AROUND;
static uint16_t *const nodes = nodes_room + AROUND;
static uint16_t *const vars = vars_room + AROUND;
static uint16_t *const types = types_room + AROUND;
static nunthila_error *const errors = errors_room + AROUND;
static uint16_t *const log_cells = log_room + AROUND;
static uint8_t *const out = out_room + AROUND;
static size_t *const told = told_room + AROUND;

/* The length of each slice in the next call. */
static size_t length[SLICES];

static void usual_lengths(void) {
    memcpy(length, required, sizeof required);
    length[LOG] = NUNTHILA_LOG;
    length[OUT] = NUNTHILA_OUT;
    length[TOLD] = NUNTHILA_TOLD;
}

/* Bytes that are not 0 and differ from place to place. A room is filled with a part of them, which before points to. */
#define ALL_ROOMS                                                                                                          \
    (sizeof rows_room + sizeof cells_room + sizeof nodes_room + sizeof vars_room + sizeof types_room + sizeof errors_room + \
     sizeof log_room + sizeof memory_room + sizeof out_room + sizeof told_room)
static unsigned char pattern[ALL_ROOMS + 4096];
static const unsigned char *before[SLICES];

static const unsigned char zeros[ALL_ROOMS];

static void make_pattern(void) {
    size_t i;
    for (i = 0; i < sizeof pattern; i++)
        pattern[i] = (unsigned char)((i * 37 + i / 256 * 11) | 1);
}

/* Fills every room; what it holds differs by the seed. */
static void fill(unsigned seed) {
    int s;
    for (s = 0; s < SLICES; s++) {
        before[s] = pattern + (seed * 1009 + (unsigned)s * 337) % 4096;
        memcpy(room[s], before[s], room_size[s]);
    }
}

static size_t slice_from(int s) {
    return AROUND * element[s];
}

static size_t slice_to(int s) {
    return slice_from(s) + length[s] * element[s];
}

static int unchanged(int s) {
    return memcmp(room[s], before[s], room_size[s]) == 0;
}

static int unchanged_around(int s) {
    size_t to = slice_to(s);
    return memcmp(room[s], before[s], slice_from(s)) == 0 && memcmp(room[s] + to, before[s] + to, room_size[s] - to) == 0;
}

/* Whether the elements of a slice from one on, up to another, are 0. */
static int zero(int s, size_t from, size_t to) {
    return from >= to || memcmp(room[s] + slice_from(s) + from * element[s], zeros, (to - from) * element[s]) == 0;
}

/* ---- calls ---- */

static uint8_t body[NUNTHILA_BYTES + 64];
static uint8_t body_before[NUNTHILA_BYTES + 64];
static size_t body_length;

static void set_body(const void *bytes, size_t n) {
    memmove(body, bytes, n);
    body_length = n;
}

static void set_text(const char *text) {
    set_body(text, strlen(text));
}

static void add_text(const char *text) {
    memcpy(body + body_length, text, strlen(text));
    body_length += strlen(text);
}

/* nunthila_quarrel and nunthila_shortest are each tried as two functions: with 0 for places, and with another number. */
enum { CHECK, REPORT, NUMBERS, PLACES, SHORTEST, SHORTEST_PLACES, FUNCTIONS };

static const char *const function_name[FUNCTIONS] = {"check",   "report", "quarrel", "quarrel with places", "shortest",
                                                     "shortest with places"};

/* Whether it is a form of quarrel or shortest. */
static int is_conflict(int which) {
    return which >= NUMBERS;
}

static int is_shortest(int which) {
    return which == SHORTEST || which == SHORTEST_PLACES;
}

static int has_places(int which) {
    return which == PLACES || which == SHORTEST_PLACES;
}

/* Numbers other than 0; the last has no bit in its lower half. */
static const size_t other_than_0[4] = {1, 2, ~(size_t)0, ~(size_t)0 / 2 + 1};
static size_t places = 1;

/* How many subsets shortest may test in the next call. */
#define USUAL_NUMBER 100
static uint64_t number = USUAL_NUMBER;

static void *const lent[SLICES] = {rows_room + AROUND,  cells_room + AROUND,  nodes_room + AROUND, vars_room + AROUND,
                                   types_room + AROUND, errors_room + AROUND, log_room + AROUND,   memory_room + AROUND,
                                   out_room + AROUND,   told_room + AROUND};

/* Calls with a body of the length that is set, in slices of the lengths that are set. */
static size_t call_in(int which, const uint8_t *s, void *const *slice) {
#define LENT(t) slice[t], length[t]
#define LENT_TABLES LENT(ROWS), LENT(CELLS), LENT(NODES), LENT(VARS), LENT(TYPES), LENT(ERRORS), LENT(LOG), LENT(MEMORY)
    if (which == CHECK)
        return nunthila_check(s, body_length, LENT_TABLES, LENT(TOLD));
    if (which == REPORT)
        return nunthila_report(s, body_length, LENT_TABLES, LENT(OUT), LENT(TOLD));
#define LENT_FORM LENT(OUT), LENT(TOLD), has_places(which) ? places : NUNTHILA_NUMBERS
    if (is_shortest(which))
        return nunthila_shortest(s, body_length, LENT_TABLES, LENT_FORM, number);
    return nunthila_quarrel(s, body_length, LENT_TABLES, LENT_FORM);
}

static size_t call(int which) {
    return call_in(which, body, lent);
}

/* ---- what holds after every call ---- */

/* The rows of a key from the used ones on. */
static int rows_zero_behind(size_t first, size_t used, size_t most) {
    return zero(ROWS, NUNTHILA_ROW_CELLS * (first + used), NUNTHILA_ROW_CELLS * (first + most));
}

static int counts_within_limits(void) {
    return told[NUNTHILA_TOLD_TYPES] <= 512 && told[NUNTHILA_TOLD_DEFS] <= 256 && told[NUNTHILA_TOLD_INSTS] <= 64 &&
           told[NUNTHILA_TOLD_BINDS] <= 64 && told[NUNTHILA_TOLD_NODES] >= 1 && told[NUNTHILA_TOLD_NODES] <= 1024 &&
           told[NUNTHILA_TOLD_FIELDS] >= 2 && told[NUNTHILA_TOLD_FIELDS] <= NUNTHILA_CELLS / NUNTHILA_FIELD_CELLS &&
           told[NUNTHILA_TOLD_MADE] <= 4096 && told[NUNTHILA_TOLD_VARS] <= 1024 && told[NUNTHILA_TOLD_ERRORS] <= 4096 && told[NUNTHILA_TOLD_EQUATIONS] >= 1 &&
           told[NUNTHILA_TOLD_EQUATIONS] <= 2048;
}

static void judge_checked(void) {
    size_t inputs = 0, top = NUNTHILA_TYPE_FILE + told[NUNTHILA_TOLD_TYPES] + told[NUNTHILA_TOLD_MADE];
    size_t in_log = told[NUNTHILA_TOLD_EQUATIONS], i;
    int good;

    check(rows_zero_behind(NUNTHILA_FIRST_TYPE, told[NUNTHILA_TOLD_TYPES], 512) &&
              rows_zero_behind(NUNTHILA_FIRST_DEF, told[NUNTHILA_TOLD_DEFS], 256) &&
              rows_zero_behind(NUNTHILA_FIRST_INST, told[NUNTHILA_TOLD_INSTS], 64) &&
              rows_zero_behind(NUNTHILA_FIRST_BIND, told[NUNTHILA_TOLD_BINDS], 64) &&
              rows_zero_behind(NUNTHILA_FIRST_NODE, told[NUNTHILA_TOLD_NODES], 1024) && zero(ROWS, NUNTHILA_ROWS, length[ROWS]),
          "rows: zero behind the used rows");
    check(zero(CELLS, NUNTHILA_FIELD_CELLS * told[NUNTHILA_TOLD_FIELDS], length[CELLS]), "cells: zero behind the used rows");
    check(zero(NODES, NUNTHILA_NODE_CELLS * told[NUNTHILA_TOLD_NODES], length[NODES]), "nodes: zero behind the used rows");
    check(zero(VARS, NUNTHILA_VAR_CELLS * told[NUNTHILA_TOLD_VARS], length[VARS]), "vars: zero behind the used rows");
    check(zero(ERRORS, told[NUNTHILA_TOLD_ERRORS], length[ERRORS]), "errors: zero behind the used rows");
    if (in_log > length[LOG] / NUNTHILA_EQUATION_CELLS)
        in_log = length[LOG] / NUNTHILA_EQUATION_CELLS;
    check(zero(LOG, NUNTHILA_EQUATION_CELLS * in_log, length[LOG]), "log: zero behind the used rows");
    check(zero(MEMORY, 0, length[MEMORY]), "memory: zero throughout");

    good = rows[NUNTHILA_ROW_CELLS * NUNTHILA_FIRST_FN] == 29;
    for (i = 0; i < told[NUNTHILA_TOLD_NODES]; i++) {
        const uint16_t *n = rows + NUNTHILA_ROW_CELLS * (NUNTHILA_FIRST_NODE + i);
        good = good && n[NUNTHILA_ROW_FORM] >= 7 && n[NUNTHILA_ROW_FORM] <= 28 && n[NUNTHILA_ROW_LEVELS] >= 1 &&
               n[NUNTHILA_ROW_LEVELS] <= 64 &&
               (size_t)n[NUNTHILA_ROW_FIELD] + n[NUNTHILA_ROW_FIELDS] <= told[NUNTHILA_TOLD_FIELDS] &&
               n[NUNTHILA_ROW_USER] <= told[NUNTHILA_TOLD_FIELDS];
    }
    check(good, "rows: each node has a form, its levels, its fields and its user");

    good = 1;
    for (i = 0; i < told[NUNTHILA_TOLD_NODES]; i++) {
        const uint16_t *n = nodes + NUNTHILA_NODE_CELLS * i;
        good = good && n[NUNTHILA_NODE_HAS_RAW] <= 1 && n[NUNTHILA_NODE_HAS_FINAL] == n[NUNTHILA_NODE_HAS_RAW] &&
               n[NUNTHILA_NODE_RAW] < top && n[NUNTHILA_NODE_FINAL] < top && n[NUNTHILA_NODE_EXTRA] <= NUNTHILA_EXTRA_METHOD;
    }
    check(good, "nodes: each has flags, types and a tag");

    good = 1;
    for (i = 0; i < told[NUNTHILA_TOLD_VARS]; i++) {
        const uint16_t *v = vars + NUNTHILA_VAR_CELLS * i;
        good = good && v[NUNTHILA_VAR_KIND] <= NUNTHILA_KIND_FLOAT && v[NUNTHILA_VAR_IS_BOUND] <= 1 && v[NUNTHILA_VAR_BOUND] < top &&
               v[NUNTHILA_VAR_HAS_ORIGIN] <= 1 && v[NUNTHILA_VAR_ORIGIN] < told[NUNTHILA_TOLD_NODES] && v[NUNTHILA_VAR_MARKED] <= 1;
    }
    check(good, "vars: each has a kind, flags, a type and a node");

    good = 1;
    for (i = 0; i < told[NUNTHILA_TOLD_MADE]; i++) {
        const uint16_t *t = types + NUNTHILA_MADE_CELLS * i;
        uint16_t h = t[NUNTHILA_MADE_HEAD];
        good = good && t[NUNTHILA_MADE_FIRST] == inputs && (h == NUNTHILA_HEAD_LAMBDA || t[NUNTHILA_MADE_INPUTS] == 0) &&
               (h == NUNTHILA_HEAD_INST || h == NUNTHILA_HEAD_FN || h == NUNTHILA_HEAD_ARRAY || h == NUNTHILA_HEAD_VAR ||
                h == NUNTHILA_HEAD_LAMBDA || h == NUNTHILA_HEAD_REF);
        inputs += t[NUNTHILA_MADE_INPUTS];
    }
    check(good, "types: each has a head and its inputs behind those before it");
    good = NUNTHILA_INPUTS_FROM + inputs <= length[TYPES];
    check(good && zero(TYPES, NUNTHILA_MADE_CELLS * told[NUNTHILA_TOLD_MADE], NUNTHILA_INPUTS_FROM) &&
              zero(TYPES, NUNTHILA_INPUTS_FROM + inputs, length[TYPES]),
          "types: zero behind the used rows and inputs");

    good = 1;
    for (i = 0; i < told[NUNTHILA_TOLD_ERRORS]; i++)
        good = good && errors[i].kind <= NUNTHILA_INFER_FAIL && errors[i].cause <= NUNTHILA_CAUSE_MISMATCH &&
               errors[i].span <= NUNTHILA_SPAN_SIGNATURE && errors[i].between <= 1;
    check(good, "errors: each has a kind, a cause and a span");

    good = 1;
    for (i = 0; i < in_log; i++) {
        const uint16_t *e = log_cells + NUNTHILA_EQUATION_CELLS * i;
        good = good && e[NUNTHILA_EQUATION_EXPECTED] < top && e[NUNTHILA_EQUATION_GOT] < top &&
               e[NUNTHILA_EQUATION_OUTCOME] <= NUNTHILA_CAUSE_MISMATCH;
    }
    check(good, "log: each equation has two types and an outcome");
}

/* The report of the tables, as text. */
static char rebuilt[OUT_MOST];
static size_t rebuilt_length;

static void put(const char *text) {
    size_t n = strlen(text);
    if (rebuilt_length + n < sizeof rebuilt) {
        memcpy(rebuilt + rebuilt_length, text, n);
        rebuilt_length += n;
    }
}

static void put_number(const char *text, size_t number) {
    char digits[24];
    put(text);
    sprintf(digits, "%lu", (unsigned long)number);
    put(digits);
}

static void put_option(const char *text, uint16_t flag, uint16_t number) {
    if (flag == 1) {
        put_number(text, number);
    } else {
        put(text);
        put("-");
    }
}

static void put_made(const uint16_t *t) {
    size_t k;
    switch (t[NUNTHILA_MADE_HEAD]) {
    case NUNTHILA_HEAD_INST: put_number("type=inst,", t[NUNTHILA_MADE_NUMBER]); break;
    case NUNTHILA_HEAD_FN: put_number("type=fn,", t[NUNTHILA_MADE_NUMBER]); break;
    case NUNTHILA_HEAD_ARRAY: put_number("type=array,", t[NUNTHILA_MADE_NUMBER]); break;
    case NUNTHILA_HEAD_VAR: put_number("type=var,", t[NUNTHILA_MADE_NUMBER]); break;
    case NUNTHILA_HEAD_REF: put_number("type=ref,", t[NUNTHILA_MADE_NUMBER]); break;
    case NUNTHILA_HEAD_LAMBDA:
        put_number("type=lambda,", t[NUNTHILA_MADE_NUMBER]);
        put_number(",", t[NUNTHILA_MADE_OUTPUT]);
        for (k = 0; k < t[NUNTHILA_MADE_INPUTS] && NUNTHILA_INPUTS_FROM + t[NUNTHILA_MADE_FIRST] + k < length[TYPES]; k++)
            put_number(",", types[NUNTHILA_INPUTS_FROM + t[NUNTHILA_MADE_FIRST] + k]);
        break;
    default: put("no head"); break;
    }
    put("\n");
}

static void put_var(const uint16_t *v) {
    static const char *const kinds[] = {"var=any", "var=int", "var=float"};
    put(v[NUNTHILA_VAR_KIND] <= NUNTHILA_KIND_FLOAT ? kinds[v[NUNTHILA_VAR_KIND]] : "no kind");
    put_option(",", v[NUNTHILA_VAR_IS_BOUND], v[NUNTHILA_VAR_BOUND]);
    put_option(",", v[NUNTHILA_VAR_HAS_ORIGIN], v[NUNTHILA_VAR_ORIGIN]);
    put("\n");
}

static void put_node(const uint16_t *n) {
    put_option("node=", n[NUNTHILA_NODE_HAS_RAW], n[NUNTHILA_NODE_RAW]);
    put_option(",", n[NUNTHILA_NODE_HAS_FINAL], n[NUNTHILA_NODE_FINAL]);
    switch (n[NUNTHILA_NODE_EXTRA]) {
    case NUNTHILA_EXTRA_NONE: put(",-"); break;
    case NUNTHILA_EXTRA_LOCAL: put_number(",l", n[NUNTHILA_NODE_NUMBER]); break;
    case NUNTHILA_EXTRA_FN: put_number(",f", n[NUNTHILA_NODE_NUMBER]); break;
    case NUNTHILA_EXTRA_CONSTRUCTOR: put_number(",c", n[NUNTHILA_NODE_NUMBER]); break;
    case NUNTHILA_EXTRA_INST: put_number(",i", n[NUNTHILA_NODE_NUMBER]); break;
    case NUNTHILA_EXTRA_ERROR: put(",e"); break;
    case NUNTHILA_EXTRA_OTHER: put(",o"); break;
    case NUNTHILA_EXTRA_LET:
    case NUNTHILA_EXTRA_METHOD: put_number(",", n[NUNTHILA_NODE_NUMBER]); break;
    default: put("no tag"); break;
    }
    put("\n");
}

static void put_error(const nunthila_error *e) {
    static const size_t values[] = {2, 1, 1, 2, 1, 3, 2, 2, 1, 2, 0};
    size_t n = e->kind <= NUNTHILA_INFER_FAIL ? values[e->kind] : 0;
    put_number("error=", e->kind);
    put_number(",", e->cause);
    switch (e->span) {
    case NUNTHILA_SPAN_NODE: put_number(",", e->at); break;
    case NUNTHILA_SPAN_BIND_ITEM: put_number(",d", e->at); break;
    case NUNTHILA_SPAN_SIGNATURE: put(",sig"); break;
    default: put(",no span"); break;
    }
    put_option(",", e->between, e->second);
    if (n > 0)
        put_number(",", e->a);
    if (n > 1)
        put_number(",", e->b);
    if (n > 2)
        put_number(",", e->c);
    put("\n");
}

/* The counts of told have to be within the limits. */
static void rebuild(void) {
    size_t i;
    rebuilt_length = 0;
    put_number("answer=", told[NUNTHILA_TOLD_ANSWER]);
    if (told[NUNTHILA_TOLD_HAS_PLACE] == 1)
        put_number(",", told[NUNTHILA_TOLD_PLACE]);
    else
        put(",-");
    put("\n");
    if (told[NUNTHILA_TOLD_ANSWER] != NUNTHILA_CHECKED)
        return;
    put_number("types=", told[NUNTHILA_TOLD_MADE]);
    put("\n");
    for (i = 0; i < told[NUNTHILA_TOLD_MADE]; i++)
        put_made(types + NUNTHILA_MADE_CELLS * i);
    put_number("vars=", told[NUNTHILA_TOLD_VARS]);
    put("\n");
    for (i = 0; i < told[NUNTHILA_TOLD_VARS]; i++)
        put_var(vars + NUNTHILA_VAR_CELLS * i);
    for (i = 0; i < told[NUNTHILA_TOLD_NODES]; i++)
        put_node(nodes + NUNTHILA_NODE_CELLS * i);
    put_number("errors=", told[NUNTHILA_TOLD_ERRORS]);
    put("\n");
    for (i = 0; i < told[NUNTHILA_TOLD_ERRORS]; i++)
        put_error(errors + i);
}

static void judge_text(size_t answer) {
    size_t n = told[NUNTHILA_TOLD_LENGTH];

    if (answer == NUNTHILA_NO_ROOM) {
        check(zero(OUT, 0, length[OUT]), "out: zero throughout on 9");
        check(n == 0, "told: no text on 9");
        return;
    }
    check(n <= length[OUT], "the text is within the output");
    if (n > length[OUT])
        return;
    check(memcmp(out + n, before[OUT] + slice_from(OUT) + n, length[OUT] - n) == 0, "out: the bytes behind the text are as they were");
    rebuild();
    check(n == rebuilt_length && memcmp(out, rebuilt, n) == 0, "the text is that of the tables");
}

/* The lines of a text of quarrel or shortest; without places, the numbers alone. */
struct line {
    size_t number, node, expected, got;
};
static struct line lines[2048];
static size_t line_count;
static size_t below_line; /* the number of the last line of shortest */

/* The next number of a text, or 0. */
static size_t next_number(const char **at) {
    char *end;
    size_t n;
    while (**at != '\0' && (**at < '0' || **at > '9'))
        (*at)++;
    n = strtoul(*at, &end, 10);
    *at = end;
    return n;
}

/* Reads the text of quarrel or shortest. Returns whether it is what its numbers give, written anew. */
static int read_lines(int which) {
    static char text[OUT_MOST + 1];
    const char *at = text;
    size_t n = told[NUNTHILA_TOLD_LENGTH];

    memcpy(text, out, n);
    text[n] = '\0';
    line_count = 0;
    rebuilt_length = 0;
    while (strncmp(at, "equation=", 9) == 0 && line_count < 2048) {
        struct line *l = &lines[line_count++];
        put_number("equation=", l->number = next_number(&at));
        if (has_places(which)) {
            put_number(",", l->node = next_number(&at));
            put_number(",", l->expected = next_number(&at));
            put_number(",", l->got = next_number(&at));
        }
        put("\n");
        at += *at == '\n';
    }
    if (is_shortest(which)) {
        put_number("below=", below_line = next_number(&at));
        put("\n");
    }
    return n == rebuilt_length && memcmp(out, rebuilt, n) == 0;
}

/* Whether a type is plain: not err, diverges, a function, a def, a lambda or a reference, and no array of one of these. */
static int is_plain(size_t t) {
    const size_t first_made = NUNTHILA_TYPE_FILE + told[NUNTHILA_TOLD_TYPES];
    for (;;) {
        size_t element;
        if (t < NUNTHILA_TYPE_FILE)
            return t != NUNTHILA_TYPE_ERR && t != NUNTHILA_TYPE_DIVERGES;
        if (t < first_made) {
            const uint16_t *r = rows + NUNTHILA_ROW_CELLS * (t - NUNTHILA_TYPE_FILE);
            if (r[NUNTHILA_ROW_FORM] != 0)
                return r[NUNTHILA_ROW_FORM] == 2;
            element = cells[NUNTHILA_FIELD_CELLS * r[NUNTHILA_ROW_FIELD] + NUNTHILA_FIELD_VALUE];
        } else {
            const uint16_t *m = types + NUNTHILA_MADE_CELLS * (t - first_made);
            if (t - first_made >= told[NUNTHILA_TOLD_MADE]) /* no log has this */
                return 0;
            if (m[NUNTHILA_MADE_HEAD] != NUNTHILA_HEAD_ARRAY)
                return m[NUNTHILA_MADE_HEAD] == NUNTHILA_HEAD_INST || m[NUNTHILA_MADE_HEAD] == NUNTHILA_HEAD_VAR;
            element = m[NUNTHILA_MADE_NUMBER];
        }
        if (element >= t) /* no table has this */
            return 0;
        t = element;
    }
}

/* Judges quarrel or shortest by the log, which has to hold every equation; the lines are read if the answer is 0. */
static void judge_by_log(int which, size_t answer) {
    const size_t count = told[NUNTHILA_TOLD_EQUATIONS];
    size_t worked = 0, i;
    int good = 1;

    while (worked < count && log_cells[NUNTHILA_EQUATION_CELLS * worked + NUNTHILA_EQUATION_OUTCOME] == 0)
        worked++;
    for (i = 0; i <= worked && i < count; i++) {
        const uint16_t *e = log_cells + NUNTHILA_EQUATION_CELLS * i;
        good = good && is_plain(e[NUNTHILA_EQUATION_EXPECTED]) &&
               (e[NUNTHILA_EQUATION_GOT] == NUNTHILA_TYPE_DIVERGES || is_plain(e[NUNTHILA_EQUATION_GOT]));
    }
    check((answer == NUNTHILA_NOTHING) == (worked == count || !good), "14 where no equation failed or a side is not plain");
    if (answer != 0 || line_count == 0)
        return;
    check(lines[line_count - 1].number == worked, "the last line is that of the first equation that failed");
    if (!has_places(which))
        return;
    good = 1;
    for (i = 0; i < line_count && good; i++) {
        const uint16_t *e = log_cells + NUNTHILA_EQUATION_CELLS * (lines[i].number < count ? lines[i].number : 0);
        good = lines[i].number < count && lines[i].node < told[NUNTHILA_TOLD_NODES] &&
               lines[i].expected == e[NUNTHILA_EQUATION_EXPECTED] && lines[i].got == e[NUNTHILA_EQUATION_GOT];
    }
    check(good, "each line has a node, and the sides that the log has");
}

/* The answer of the check. Behind 0, 9 and 14 of quarrel and shortest it is 0 or 12, told by the counts. */
static size_t checked_answer(int which) {
    size_t a = told[NUNTHILA_TOLD_ANSWER];
    if (!is_conflict(which) || (a != NUNTHILA_CHECKED && a != NUNTHILA_NO_ROOM && a != NUNTHILA_NOTHING))
        return a;
    return told[NUNTHILA_TOLD_NODES] > 0 ? NUNTHILA_CHECKED : NUNTHILA_INSIDE_ITSELF;
}

static void judge_conflict(int which, size_t answer) {
    size_t n = told[NUNTHILA_TOLD_LENGTH], i;
    int rising = 1;

    line_count = 0;
    if (answer != 0) {
        check(zero(OUT, 0, length[OUT]), "out: zero throughout on a refusal");
        check(n == 0, "told: no text on a refusal");
    } else {
        check(n > 0 && n <= length[OUT], "there is a text, within the output");
        if (n > length[OUT])
            return;
        check(memcmp(out + n, before[OUT] + slice_from(OUT) + n, length[OUT] - n) == 0,
              "out: the bytes behind the text are as they were");
        check(read_lines(which), "the text is lines of equations");
        for (i = 1; i < line_count; i++)
            rising = rising && lines[i - 1].number < lines[i].number;
        check(rising, "the numbers rise");
        if (is_shortest(which))
            check(below_line >= 1 && below_line <= (number == 0 ? 1 : line_count), "below= is at most the lines, and 1 without a test");
    }
    if (checked_answer(which) == NUNTHILA_CHECKED && told[NUNTHILA_TOLD_EQUATIONS] <= length[LOG] / NUNTHILA_EQUATION_CELLS)
        judge_by_log(which, answer);
}

/* Judges a call by what it answered and told; told has its whole length. */
static void judge(int which, size_t answer) {
    size_t t = told[NUNTHILA_TOLD_ANSWER], a = checked_answer(which), i;
    int of_line = t >= 3 && t <= 6, of_node = t >= 10 && t <= 13, s;

    check(a <= 6 || (a >= 10 && a <= 13), "the answer of the check is one of 0 to 6, 10 to 13");
    if (is_conflict(which))
        check(answer == t && t != NUNTHILA_INSIDE_ITSELF, "what quarrel or shortest returns is told, and is not 12");
    else
        check(answer == t || (which == REPORT && answer == NUNTHILA_NO_ROOM),
              "what is returned is the answer of the check, or 9 of report");
    check(told[NUNTHILA_TOLD_HAS_PLACE] == (size_t)(of_line || of_node), "the answer has a place for 3 to 6 and 10 to 13");
    if (of_line)
        check(told[NUNTHILA_TOLD_PLACE] >= 1 && told[NUNTHILA_TOLD_PLACE] <= body_length + 1, "the place is a line");
    else if (of_node)
        check(told[NUNTHILA_TOLD_PLACE] < 1024, "the place is a node");
    else
        check(told[NUNTHILA_TOLD_PLACE] == 0, "the place is 0 where there is none");
    if (a == NUNTHILA_CHECKED) {
        check(counts_within_limits(), "the counts are within the limits");
        if (!counts_within_limits())
            return; /* the tables cannot be read */
        judge_checked();
    } else {
        int none = 1;
        for (i = NUNTHILA_TOLD_TYPES; i <= NUNTHILA_TOLD_EQUATIONS; i++)
            none = none && told[i] == 0;
        check(none, "the counts are 0");
        for (s = 0; s < TABLES; s++) {
            if (a == NUNTHILA_TOO_LONG || a == NUNTHILA_SHORT_TABLE)
                check_of(unchanged(s), slice_name[s], "as it was");
            else
                check_of(zero(s, 0, length[s]), slice_name[s], "zero throughout");
        }
    }
    if (which == REPORT)
        judge_text(answer);
    else if (is_conflict(which))
        judge_conflict(which, answer);
    else
        check(told[NUNTHILA_TOLD_LENGTH] == 0, "told: no text of check");
}

/* Calls with the lengths that are set, in rooms filled by the seed, and judges what must hold. */
static size_t run(int which, unsigned seed) {
    size_t answer;
    int s;

    fill(seed);
    places = other_than_0[seed % 4];
    memcpy(body_before, body, sizeof body);
    answer = call(which);
    for (s = 0; s < SLICES; s++)
        check_of(unchanged_around(s), slice_name[s], "the elements around the slice are as they were");
    check(memcmp(body, body_before, sizeof body) == 0, "the body is as it was");
    if (length[TOLD] >= NUNTHILA_TOLD)
        judge(which, answer);
    return answer;
}

/* The slices of a call, to be compared with those of another one. */
static unsigned char kept_rooms[ALL_ROOMS];
static unsigned char *kept[SLICES];
static size_t kept_length[SLICES];

static void keep(void) {
    unsigned char *at = kept_rooms;
    int s;
    for (s = 0; s < SLICES; s++) {
        kept[s] = at;
        kept_length[s] = length[s];
        memcpy(kept[s], room[s] + slice_from(s), length[s] * element[s]);
        at += room_size[s];
    }
}

/* Whether the elements of a slice up to one are those that were kept. */
static int as_kept(int s, size_t to) {
    return to <= kept_length[s] && to <= length[s] && memcmp(kept[s], room[s] + slice_from(s), to * element[s]) == 0;
}

static int tables_as_kept(void) {
    int s, good = 1;
    for (s = 0; s < TABLES; s++)
        good = good && as_kept(s, length[s]);
    return good;
}

static int counts_as_kept(void) {
    return memcmp(kept[TOLD] + NUNTHILA_TOLD_TYPES * sizeof *told, told + NUNTHILA_TOLD_TYPES,
                  (NUNTHILA_TOLD_LENGTH - NUNTHILA_TOLD_TYPES) * sizeof *told) == 0;
}

/* Check and report on the body that is set, with usual lengths, in rooms of different contents: answer, place and text, or no text where
   it is null. */
static void expect(const char *name, size_t answer, size_t place, const char *text) {
    size_t got;

    usual_lengths();
    snprintf(about, sizeof about, "check %s", name);
    got = run(CHECK, 1);
    check(got == answer, "answer");
    check(told[NUNTHILA_TOLD_PLACE] == place, "place");
    keep();
    snprintf(about, sizeof about, "report %s", name);
    got = run(REPORT, 2);
    check(got == answer, "answer");
    check(told[NUNTHILA_TOLD_PLACE] == place, "place");
    if (answer != NUNTHILA_TOO_LONG)
        check(tables_as_kept(), "the tables are those of check");
    check(as_kept(TOLD, NUNTHILA_TOLD_LENGTH), "what is told is as of check, but for the length");
    if (text) {
        check(told[NUNTHILA_TOLD_LENGTH] == strlen(text), "length of the text");
        check(memcmp(out, text, strlen(text)) == 0, "text");
    }
}

/* ---- bodies ---- */

static const char worked[] = "node=param,8\nnode=int\nnode=let,-,1\nnode=path,l0,1,7:l0\nnode=path,l2,1,9:l2\nnode=bin,a,3,4\n"
                             "node=block,5,2\nfn=8,6,0\n";
static const char worked_text[] = "answer=0,-\ntypes=1\ntype=var,0\nvars=1\nvar=int,8,-\nnode=8,8,-\nnode=14,8,-\nnode=14,8,14\n"
                                  "node=8,8,l0\nnode=14,8,l2\nnode=8,8,-\nnode=8,8,-\nerrors=0\n";

/* A lambda with two inputs, a negated literal, two errors. */
static const char lambda[] = "node=param,8\nnode=param,-\nnode=path,l0,1,1:l0\nnode=lambda,-,2,0,1\nnode=bool\nnode=un,n,4\nnode=int\n"
                             "node=un,n,6\nnode=block,-,3,5,7\nfn=0,8\n";
static const char lambda_text[] =
    "answer=0,-\ntypes=4\ntype=var,0\ntype=var,1\ntype=lambda,3,15,8,14\ntype=var,2\nvars=3\nvar=any,-,1\nvar=any,8,3\nvar=int,-,-\n"
    "node=8,8,-\nnode=14,12,-\nnode=8,8,l0\nnode=16,16,-\nnode=1,1,-\nnode=12,12,-\nnode=17,9,-\nnode=17,9,-\nnode=0,0,-\nerrors=2\n"
    "error=2,0,4,-,1\nerror=10,0,1,-\n";

/* Instances, functions, methods, arrays and references. */
static const char keys[] =
    "type=inst,0\ntype=array,10\ndef=10,10\ndef=14,10,10\ndef=10,14,8\ninst=1:10,2:15\nbind=14,5:2,6:0\nnode=param,14\n"
    "node=path,c1,1,3:c1\nnode=float\nnode=float\nnode=call,1,2,3\nnode=let,-,4\nnode=path,l5,1,4:l5\nnode=int\n"
    "node=mcall,6,5,7\nnode=path,l0,1,9:l0\nnode=field,9,2\nnode=int\nnode=index,10,11\nnode=bin,a,8,12\nnode=path,l0,1,9:l0\n"
    "node=un,r,14\nnode=block,13,5,15\nfn=10,16,0\n";
static const char keys_text[] =
    "answer=0,-\ntypes=6\ntype=fn,1\ntype=var,0\ntype=var,1\ntype=ref,14\ntype=var,2\ntype=var,3\nvars=4\nvar=float,10,-\n"
    "var=float,10,-\nvar=int,8,-\nvar=int,5,-\nnode=14,14,-\nnode=16,16,c1\nnode=17,10,-\nnode=18,10,-\nnode=14,14,-\n"
    "node=14,14,14\nnode=14,14,l5\nnode=20,8,-\nnode=10,10,2\nnode=14,14,l0\nnode=15,15,-\nnode=21,5,-\nnode=10,10,-\n"
    "node=10,10,-\nnode=14,14,l0\nnode=19,19,-\nnode=10,10,-\nerrors=0\n";

/* Methods that are found, not there, of a wrong amount, of a wrong argument. */
static const char methods[] =
    "def=8,8\ndef=1,8,1\ndef=0\nbind=8,5:0,6:1\nbind=8,5:2,7:2\nbind=1\nnode=param,8\nnode=path,l0,1,1:l0\nnode=mcall,1,5\n"
    "node=path,l0,1,1:l0\nnode=int\nnode=mcall,3,6,4\nnode=path,l0,1,1:l0\nnode=mcall,6,7\nnode=bool\nnode=int\n"
    "node=mcall,8,5,9\nnode=int\nnode=mcall,10,5,11\nnode=block,2,5,7,12\nfn=8,13,0\n";
static const char methods_text[] =
    "answer=0,-\ntypes=1\ntype=var,0\nvars=1\nvar=int,-,-\nnode=8,8,-\nnode=8,8,l0\nnode=8,8,0\nnode=8,8,l0\nnode=14,9,-\n"
    "node=1,1,1\nnode=8,8,l0\nnode=0,0,2\nnode=1,1,-\nnode=-,-,-\nnode=12,12,-\nnode=-,-,-\nnode=12,12,-\nnode=8,8,-\n"
    "errors=3\nerror=5,1,d1,-,1,14,1\nerror=6,0,d2,-,1,0\nerror=9,0,8,-,1,5\n";

/* An equation that fails, and one whose roles are exchanged. */
static const char quarrel[] =
    "node=param,10\nnode=param,3\nnode=path,l0,1,1:l0\nnode=path,l1,1,2:l1\nnode=assign,2,3\nnode=param,-\nnode=int\n"
    "node=path,l5,1,3:l5\nnode=bin,a,6,7\nnode=lambda,-,8,5\nnode=let,-,9\nnode=path,l10,1,4:l10\nnode=path,l1,1,2:l1\n"
    "node=call,11,12\nnode=path,l0,1,1:l0\nnode=block,14,4,10,13\nfn=10,15,0,1\n";
static const char quarrel_text[] =
    "answer=0,-\ntypes=4\ntype=var,0\ntype=var,1\ntype=var,2\ntype=lambda,9,15,14\nvars=3\nvar=any,16,5\n"
    "var=any,16,9\nvar=int,3,-\nnode=10,10,-\nnode=3,3,-\nnode=10,10,l0\nnode=3,3,l1\nnode=0,0,-\nnode=14,3,-\n"
    "node=16,3,-\nnode=14,3,l5\nnode=16,3,-\nnode=17,17,-\nnode=17,17,17\nnode=17,17,l10\nnode=3,3,l1\nnode=15,3,-\n"
    "node=10,10,l0\nnode=10,10,-\nerrors=1\nerror=0,1,2,3,10,3\n";

/* Refused 12 and 13. */
static const char inside[] = "node=let,-,-\nnode=path,l0,1,1:l0\nnode=path,l0,1,1:l0\nnode=list,2\nnode=assign,1,3\n"
                             "node=block,-,0,4\nfn=0,5\n";
static const char negated[] = "node=int\nnode=un,n,0\nnode=let,5,1\nnode=block,-,2\nfn=0,3\n";

static const char short_body[] = "node=bool\nfn=1,0\n";
static const char short_text[] = "answer=0,-\ntypes=0\nvars=0\nnode=1,1,-\nerrors=0\n";

struct known {
    const char *name;
    const char *body;
    size_t answer, place;
    const char *text;
};

static const struct known known[] = {
    {"worked", worked, 0, 0, worked_text},
    {"lambda", lambda, 0, 0, lambda_text},
    {"keys", keys, 0, 0, keys_text},
    {"methods", methods, 0, 0, methods_text},
    {"quarrel", quarrel, 0, 0, quarrel_text},
    {"result", "node=bool\nfn=8,0\n", 0, 0, "answer=0,-\ntypes=0\nvars=0\nnode=1,1,-\nerrors=1\nerror=0,1,sig,-,8,1\n"},
    {"short", short_body, 0, 0, short_text},
    {"empty", "", 3, 1, "answer=3,1\n"},
    {"line feed", "\n", 3, 1, "answer=3,1\n"},
    {"no fn", "node=bool\n", 3, 2, "answer=3,2\n"},
    {"no last line feed", "node=bool\nfn=1,0", 3, 2, "answer=3,2\n"},
    {"line behind fn", "node=bool\nfn=1,0\nfn=1,0\n", 3, 3, "answer=3,3\n"},
    {"carriage return", "node=bool\r\nfn=1,0\r\n", 3, 1, "answer=3,1\n"},
    {"leading zero", "node=bool\nfn=01,0\n", 3, 2, "answer=3,2\n"},
    {"number 65,536", "def=65536\nnode=bool\nfn=1,0\n", 3, 1, "answer=3,1\n"},
    {"order", "node=bool\ntype=array,8\nfn=1,0\n", 3, 2, "answer=3,2\n"},
    {"byte 255", "node=bool\nfn=1,0\n\xff", 3, 3, "answer=3,3\n"},
    {"written diverges", "type=array,13\nnode=bool\nfn=1,0\n", 5, 1, "answer=5,1\n"},
    {"no such node", "node=bool\nnode=un,t,7\nfn=1,1\n", 5, 2, "answer=5,2\n"},
    {"str", "node=str\nfn=0,0\n", 10, 0, "answer=10,0\n"},
    {"local not typed", "node=let,-,-\nnode=path,l0,1,1:l0\nnode=block,1\nfn=0,2\n", 11, 1, "answer=11,1\n"},
    {"inside itself", inside, 12, 4, "answer=12,4\n"},
    {"negated", negated, 13, 2, "answer=13,2\n"},
};
enum { KNOWN = sizeof known / sizeof known[0] };

static void known_bodies(void) {
    size_t i;
    for (i = 0; i < KNOWN; i++) {
        set_text(known[i].body);
        expect(known[i].name, known[i].answer, known[i].place, known[i].text);
    }
    set_body("node=bool\0\nfn=1,0\n", 18);
    expect("byte 0", 3, 1, "answer=3,1\n");
}

/* A form of quarrel or shortest on the body whose slices of check are kept, in an output of so many bytes: answer, place and text. */
static void expect_conflict(const char *name, int which, size_t bytes, size_t answer, size_t place, const char *text, size_t fit) {
    static unsigned seed = 0;
    size_t got;

    usual_lengths();
    length[OUT] = bytes;
    snprintf(about, sizeof about, "%s %s, output of %lu bytes, number %llu", function_name[which], name, (unsigned long)bytes,
             (unsigned long long)number);
    got = run(which, seed++);
    check(got == answer, "answer");
    check(told[NUNTHILA_TOLD_PLACE] == place, "place");
    if (answer != NUNTHILA_TOO_LONG)
        check(tables_as_kept(), "the tables are those of check");
    check(counts_as_kept(), "the counts are those of check");
    check(told[NUNTHILA_TOLD_LENGTH] == fit, "length of the text");
    check(memcmp(out, text, fit) == 0, "text");
}

/* The same in an output with room, with room for just the text and for one byte less, and with none. */
static void expect_in_rooms(const char *name, int which, size_t answer, size_t place, const char *text, size_t fit) {
    size_t bytes[4], i;

    bytes[0] = NUNTHILA_OUT;
    bytes[1] = fit;
    bytes[2] = fit > 0 ? fit - 1 : 10;
    bytes[3] = 0;
    for (i = 0; i < 4; i++) {
        if (answer == 0 && bytes[i] < fit)
            expect_conflict(name, which, bytes[i], NUNTHILA_NO_ROOM, 0, "", 0);
        else
            expect_conflict(name, which, bytes[i], answer, place, text, fit);
    }
}

/* The text of shortest where it finds nothing: that of quarrel, of so many bytes, and a last line; none on a refusal. */
static const char *with_below(size_t answer, const char *text, size_t fit, unsigned below) {
    static char whole[OUT_MOST];

    whole[0] = '\0';
    if (answer == 0)
        snprintf(whole, sizeof whole, "%.*sbelow=%u\n", (int)fit, text, below);
    return whole;
}

/* A form of shortest with so many tests where it finds nothing. */
static void expect_stays(const char *name, int which, uint64_t tests, size_t answer, size_t place, const char *text, unsigned below) {
    const char *whole = with_below(answer, text, strlen(text), below);

    number = tests;
    expect_in_rooms(name, which, answer, place, whole, strlen(whole));
    number = USUAL_NUMBER;
}

/* Both forms of quarrel on the body that is set, and of shortest without a test; on a refusal also with as many as there can be. */
static void expect_quarrel(const char *name, size_t answer, size_t place, const char *numbers, const char *with_places) {
    usual_lengths();
    snprintf(about, sizeof about, "check %s", name);
    run(CHECK, 1);
    keep();
    expect_in_rooms(name, NUMBERS, answer, place, numbers, strlen(numbers));
    expect_in_rooms(name, PLACES, answer, place, with_places, strlen(with_places));
    expect_stays(name, SHORTEST, 0, answer, place, numbers, 1);
    expect_stays(name, SHORTEST_PLACES, answer == 0 ? 0 : UINT64_MAX, answer, place, with_places, 1);
}

/* Those of the bodies above that have a minimal conflict, each of one equation. */
static const struct {
    const char *name, *numbers, *with_places;
} conflicts[] = {
    {"methods", "equation=1\n", "equation=1,5,1,14\n"},
    {"quarrel", "equation=0\n", "equation=0,4,10,3\n"},
    {"result", "equation=0\n", "equation=0,0,8,1\n"},
    {"inside itself", "equation=0\n", "equation=0,4,14,15\n"},
};

static void known_conflicts(void) {
    size_t i, k, found = 0;
    for (i = 0; i < KNOWN; i++) {
        const struct known *b = &known[i];
        for (k = 0; k < sizeof conflicts / sizeof conflicts[0] && strcmp(conflicts[k].name, b->name) != 0; k++)
            ;
        set_text(b->body);
        if (k < sizeof conflicts / sizeof conflicts[0]) {
            expect_quarrel(b->name, 0, 0, conflicts[k].numbers, conflicts[k].with_places);
            expect_stays(b->name, SHORTEST, UINT64_MAX, 0, 0, conflicts[k].numbers, 1);
            found++;
        } else if (b->answer == NUNTHILA_CHECKED) {
            expect_quarrel(b->name, NUNTHILA_NOTHING, 0, "", "");
        } else {
            expect_quarrel(b->name, b->answer, b->place, "", "");
        }
    }
    strcpy(about, "known conflicts");
    check(found == sizeof conflicts / sizeof conflicts[0], "each is of a known body");
}

static void types_of(unsigned n) {
    char line[40];
    unsigned i;
    set_text("");
    for (i = 0; i < n; i++) {
        sprintf(line, "type=fun,%u,8\n", i);
        add_text(line);
    }
    add_text(short_body);
}

static void levels_of(unsigned n) {
    char line[40];
    unsigned i;
    set_text("node=bool\n");
    for (i = 0; i + 1 < n; i++) {
        sprintf(line, "node=un,t,%u\n", i);
        add_text(line);
    }
    sprintf(line, "fn=1,%u\n", n - 1);
    add_text(line);
}

static void nodes_of(unsigned n) {
    char line[40];
    unsigned i;
    set_text("");
    for (i = 0; i < n; i++)
        add_text("node=bool\n");
    sprintf(line, "fn=1,%u\n", n - 1);
    add_text(line);
}

static void limits(void) {
    types_of(512);
    expect("512 types", 0, 0, short_text);
    check(told[NUNTHILA_TOLD_TYPES] == 512, "told: types");
    types_of(513);
    expect("513 types", 4, 513, "answer=4,513\n");
    levels_of(64);
    expect("64 levels", 0, 0, NULL);
    check(told[NUNTHILA_TOLD_NODES] == 64, "told: nodes");
    levels_of(65);
    expect("65 levels", 6, 66, "answer=6,66\n");
    nodes_of(1024);
    expect("1,024 nodes", 0, 0, NULL);
    check(told[NUNTHILA_TOLD_NODES] == 1024, "told: nodes");
    nodes_of(1025);
    expect("1,025 nodes", 4, 1025, "answer=4,1025\n");
}

/* A body of 65,536 bytes: 512 types with 16 inputs, 256 defs with 16, 64 insts with 30 fields, a bind with 7 methods. */
static void full_body(void) {
    char line[40];
    size_t i, k;
    set_text("");
    for (i = 0; i < 512; i++) {
        sprintf(line, "type=fun,%u,11", 10000 + (unsigned)i);
        add_text(line);
        for (k = 0; k < 16; k++)
            add_text(",11");
        add_text("\n");
    }
    for (i = 0; i < 256; i++) {
        add_text("def=11");
        for (k = 0; k < 16; k++)
            add_text(",11");
        add_text("\n");
    }
    for (i = 0; i < 64; i++) {
        add_text("inst=65535:11");
        for (k = 0; k < 29; k++)
            add_text(",65535:11");
        add_text("\n");
    }
    add_text("bind=11,100:0,100:0,100:0,100:0,100:0,1:0,10:0");
    add_text("\n");
    add_text(short_body);
}

static void sizes(void) {
    size_t i;

    strcpy(about, "full body");
    full_body();
    check(body_length == NUNTHILA_BYTES, "the body of the test has 65,536 bytes");
    expect("65,536 bytes, accepted", 0, 0, short_text);
    check(told[NUNTHILA_TOLD_TYPES] == 512 && told[NUNTHILA_TOLD_DEFS] == 256 && told[NUNTHILA_TOLD_INSTS] == 64, "told: counts");
    /* The same with one digit more. */
    body_length -= strlen(short_body) + 1;
    add_text("0\n");
    add_text(short_body);
    check(body_length == NUNTHILA_BYTES + 1, "the body of the test has 65,537 bytes");
    expect("65,537 bytes", 1, 0, "answer=1,-\n");

    for (i = 0; i < 3; i++) {
        static const char fill_byte[3] = {'a', '\n', '\0'};
        memset(body, fill_byte[i], NUNTHILA_BYTES + 1);
        body_length = NUNTHILA_BYTES;
        expect("65,536 equal bytes", 3, 1, "answer=3,1\n");
        body_length = NUNTHILA_BYTES + 1;
        expect("65,537 equal bytes", 1, 0, "answer=1,-\n");
    }
}

/* ---- the bodies by hand of quarrel and shortest ---- */

/* What is expected of a body: of the functions from the first to the last, with each of the numbers, in an output of so many bytes, or in
   any with room if given is 0. */
struct part {
    int first, last, given;
    uint64_t numbers[8]; /* one, which is not used, of quarrel */
    size_t number_count;
    size_t bytes, answer, place;
    const char *text;
    size_t fit;
};

struct by_hand {
    const char *name, *body;
    int form;             /* the function without places */
    size_t length, parts; /* of the body in bytes, and how many are expected of it */
    struct part part[16];
};

static struct by_hand by_hand[256];
static size_t by_hand_count;

static void not_read(const char *path, const char *why) {
    printf("%s: %s\n", path, why);
    exit(1);
}

/* The head of a part, behind `--`, up to the line feed. */
static void read_head(const char *path, const char *at, int form, struct part *p) {
    char word[16] = "";
    unsigned long bytes = 0;

    p->first = p->last = form;
    while (is_shortest(form) && at[0] == ' ' && at[1] >= '0' && at[1] <= '9') {
        char *end;
        if (p->number_count == 8)
            not_read(path, at);
        p->numbers[p->number_count++] = strtoull(at, &end, 10);
        at = end;
    }
    if (!is_shortest(form))
        p->number_count = 1;
    if (p->number_count == 0)
        not_read(path, at);
    if (strncmp(at, " where", 6) == 0 || strncmp(at, " either", 7) == 0) {
        sscanf(at, "%15s", word);
        p->last = form + 1;
        p->first = strcmp(word, "where") == 0 ? form + 1 : form;
        at += 1 + strlen(word);
    }
    p->given = *at != '\n';
    if (p->given && (sscanf(at, "%15s %lu", word, &bytes) != 2 || strcmp(word, "room") != 0))
        not_read(path, at);
    p->bytes = bytes;
}

/* Bodies that stand in one line of the files. */
static char expanded[1 << 17];
static size_t expanded_length;

static void expand_part(const char *path, const char *from, const char *to, unsigned long turn) {
    for (; from < to; from++) {
        if (*from == '\\' || expanded_length + 24 > sizeof expanded)
            not_read(path, from);
        if (*from == '#')
            expanded_length += (size_t)sprintf(expanded + expanded_length, "%lu", turn);
        else
            expanded[expanded_length++] = *from == '/' ? '\n' : *from;
    }
}

/* Adds the bytes of a body on one line: `/` is a line feed, `{N:T}` the text T N times, where `#` in T is the number of the turn from 0. */
static void expand(const char *path, const char *at) {
    while (*at != '\n') {
        const char *stop = at + strcspn(at, "{\n"), *close;
        unsigned long turns, turn;
        char *colon;
        expand_part(path, at, stop, 0);
        at = stop;
        if (*at == '\n')
            return;
        turns = strtoul(at + 1, &colon, 10);
        close = at + strcspn(at, "}\n");
        if (*colon != ':' || *close != '}')
            not_read(path, at);
        for (turn = 0; turn < turns; turn++)
            expand_part(path, colon + 1, close, turn);
        at = close + 1;
    }
}

/* Reads a file into a room of so many bytes; its first lines say of what form it is. */
static void read_by_hand(const char *path, int form, char *file, size_t room_bytes) {
    FILE *f = fopen(path, "rb");
    size_t n = f ? fread(file, 1, room_bytes - 1, f) : 0;
    struct by_hand *c = NULL;
    struct part *p = NULL;
    char *at, *next;

    if (f)
        fclose(f);
    if (n == 0 || n == room_bytes - 1 || file[n - 1] != '\n')
        not_read(path, "no file of bodies");
    for (at = file; *at != '\0'; at = next) {
        next = strchr(at, '\n') + 1;
        if (strncmp(at, "== ", 3) == 0) {
            if (by_hand_count == 256)
                not_read(path, "too many bodies");
            c = &by_hand[by_hand_count++];
            c->name = at + 3;
            c->body = next;
            c->form = form;
            next[-1] = '\0';
            p = NULL;
        } else if (c == NULL || *at == '\n') {
            continue;
        } else if (strncmp(at, "--", 2) == 0) {
            if (c->parts == 16)
                not_read(path, c->name);
            p = &c->part[c->parts++];
            read_head(path, at + 2, form, p);
        } else if (p != NULL && p->text == NULL) {
            const char *place = strchr(at, ',');
            if (strncmp(at, "answer=", 7) != 0 || place == NULL)
                not_read(path, c->name);
            p->answer = strtoul(at + 7, NULL, 10);
            p->place = strtoul(place + 1, NULL, 10); /* 0 for `-` */
            p->text = next;
        } else if (p != NULL) {
            p->fit += (size_t)(next - at);
        } else if (*at == '#' && c->length == 0) {
            c->body = next;
        } else if (strncmp(at, "text ", 5) == 0) {
            c->body = expanded + expanded_length;
            expand(path, at + 5);
            c->length = (size_t)(expanded + expanded_length - c->body);
        } else if (strncmp(at, "text\n", 5) != 0) { /* `text` alone is the empty body */
            c->length += (size_t)(next - at);
        }
    }
}

/* Those of quarrel are tried with shortest without a test too. */
static void bodies_by_hand(void) {
    size_t i, j, k;
    int which;

    for (i = 0; i < by_hand_count; i++) {
        const struct by_hand *c = &by_hand[i];
        int tried[FUNCTIONS] = {0};
        set_body(c->body, c->length);
        usual_lengths();
        snprintf(about, sizeof about, "check %s", c->name);
        run(CHECK, 1);
        keep();
        for (k = 0; k < c->parts; k++) {
            const struct part *p = &c->part[k];
            for (which = p->first; which <= p->last; which++) {
                for (j = 0; j < p->number_count; j++) {
                    number = p->numbers[j];
                    if (p->given)
                        expect_conflict(c->name, which, p->bytes, p->answer, p->place, p->text, p->fit);
                    else
                        expect_in_rooms(c->name, which, p->answer, p->place, p->text, p->fit);
                }
                tried[which] |= !p->given;
                if (c->form == NUMBERS && !p->given) {
                    const char *whole = with_below(p->answer, p->text, p->fit, 1);
                    number = 0;
                    expect_conflict(c->name, which == NUMBERS ? SHORTEST : SHORTEST_PLACES, NUNTHILA_OUT, p->answer, p->place, whole,
                                    strlen(whole));
                }
            }
        }
        number = USUAL_NUMBER;
        snprintf(about, sizeof about, "body by hand %s", c->name);
        check(tried[c->form] && tried[c->form + 1], "both forms are tried");
    }
    strcpy(about, "bodies by hand");
    check(by_hand_count >= 70 + 41, "there are 70 of quarrel and 41 of shortest");
}

/* b = true, a = true, a = b, b = 1: the subset of the first and the last is tested as the seventh. No bit of the number is disregarded. */
static void numbers_of_tests(void) {
    static const char all[] = "equation=1\nequation=2\nequation=3\n", found[] = "equation=0\nequation=3\nbelow=2\n";
    static const char found_with_places[] = "equation=0,4,15,1\nequation=3,13,15,16\nbelow=2\n";
    unsigned tests, bit;

    set_text("node=let,-,-\nnode=let,-,-\nnode=path,l1,1\nnode=bool\nnode=assign,2,3\nnode=path,l0,1\nnode=bool\nnode=assign,5,6\n"
             "node=path,l0,1\nnode=path,l1,1\nnode=assign,8,9\nnode=path,l1,1\nnode=int\nnode=assign,11,12\n"
             "node=block,-,0,1,4,7,10,13\nfn=0,14\n");
    usual_lengths();
    strcpy(about, "numbers of tests, check");
    run(CHECK, 1);
    keep();
    for (tests = 0; tests < 7; tests++)
        expect_stays("numbers of tests", SHORTEST, tests, 0, 0, all, tests < 4 ? 1 : 2);
    number = 7;
    expect_in_rooms("numbers of tests", SHORTEST, 0, 0, found, strlen(found));
    for (bit = 3; bit < 64; bit++) {
        number = (uint64_t)1 << bit;
        expect_conflict("numbers of tests", SHORTEST, NUNTHILA_OUT, 0, 0, found, strlen(found));
    }
    number = UINT64_MAX;
    expect_in_rooms("numbers of tests", SHORTEST, 0, 0, found, strlen(found));
    expect_in_rooms("numbers of tests", SHORTEST_PLACES, 0, 0, found_with_places, strlen(found_with_places));
    number = USUAL_NUMBER;
}

/* A body of 1,024 nodes: let a, b, .., z; a = true; a = b; b = c; ..; z = 1, 253 lets in all. Without any one of its 254 equations there is
   a solution. */
static void chain(char *numbers, char *with_places) {
    enum { LETS = 253, FIRST = NUNTHILA_TYPE_FILE, IN_BLOCK = 64, STATEMENTS = LETS + LETS + 1 };
    unsigned i, node = 0, blocks = 0;
    char line[64];

    set_text("");
    for (i = 0; i < LETS; i++, node++)
        add_text("node=let,-,-\n");
    for (i = 0; i <= LETS; i++, node += 3) {
        sprintf(line, "node=path,l%u,1\n", i == 0 ? 0 : i - 1);
        add_text(line);
        sprintf(line, "node=path,l%u,1\n", i);
        add_text(i == 0 ? "node=bool\n" : i == LETS ? "node=int\n" : line);
        sprintf(line, "node=assign,%u,%u\n", node, node + 1);
        add_text(line);
        numbers += sprintf(numbers, "equation=%u\n", i);
        with_places += sprintf(with_places, "equation=%u,%u,%u,%u\n", i, node + 2, i == 0 ? FIRST : FIRST + i - 1,
                               i == 0 ? NUNTHILA_TYPE_BOOL : FIRST + i);
    }
    for (i = 0; i < STATEMENTS; i++) {
        if (i % IN_BLOCK == 0) {
            add_text(i == 0 ? "node=block,-" : "\nnode=block,-");
            blocks++;
        }
        sprintf(line, ",%u", i < LETS ? i : LETS + 3 * (i - LETS) + 2);
        add_text(line);
    }
    add_text("\nnode=block,-");
    for (i = 0; i < blocks; i++) {
        sprintf(line, ",%u", node + i);
        add_text(line);
    }
    sprintf(line, "\nfn=0,%u\n", node + blocks);
    add_text(line);
}

static void full_conflict(void) {
    static char numbers[254 * 32], with_places[254 * 32];

    chain(numbers, with_places);
    expect("1,024 nodes, 254 equations", 0, 0, NULL);
    check(told[NUNTHILA_TOLD_NODES] == 1024 && told[NUNTHILA_TOLD_EQUATIONS] == 255, "told: nodes and equations");
    expect_quarrel("1,024 nodes, 254 equations", 0, 0, numbers, with_places);
    /* 254 subsets of one equation, 32,131 of two. */
    expect_stays("1,024 nodes, 254 equations", SHORTEST, 253, 0, 0, numbers, 1);
    expect_stays("1,024 nodes, 254 equations", SHORTEST_PLACES, 254, 0, 0, with_places, 2);
    expect_stays("1,024 nodes, 254 equations", SHORTEST, 32384, 0, 0, numbers, 2);
    expect_stays("1,024 nodes, 254 equations", SHORTEST, 32385, 0, 0, numbers, 3);
    nodes_of(1024);
    expect_quarrel("1,024 nodes", NUNTHILA_NOTHING, 0, "", "");
    nodes_of(1025);
    expect_quarrel("1,025 nodes", 4, 1025, "", "");
    full_body();
    expect_quarrel("65,536 bytes", NUNTHILA_NOTHING, 0, "", "");
    body[body_length++] = '\n';
    expect_quarrel("65,537 bytes", 1, 0, "", "");
    memset(body, '\n', NUNTHILA_BYTES + 1);
    body_length = NUNTHILA_BYTES;
    expect_quarrel("65,536 line feeds", 3, 1, "", "");
    body_length++;
    expect_quarrel("65,537 line feeds", 1, 0, "", "");
}

/* ---- cells by hand ---- */

static int same(const uint16_t *got, const uint16_t *wanted, size_t n) {
    return memcmp(got, wanted, n * sizeof *got) == 0;
}

static void cells_by_hand(void) {
    static const uint16_t want_rows[9 * 5] = {26, 0, 1, 1, 8,  26, 1, 1, 1, 9,  28, 2,  3, 1, 7,  27, 5,  4, 2, 15, 7,  9, 0,
                                              1,  11, 12, 9, 2, 2, 16, 8, 11, 0, 1, 13, 12, 11, 2, 2, 17, 24, 13, 4, 3, 19};
    static const uint16_t want_fn[5] = {29, 17, 2, 3, 0};
    static const uint16_t want_cells[19 * 3] = {0, 1, 8, 0, 0, 0, 0, 1, 0, 0, 1, 1, 1, 1, 0, 0, 0, 0, 0, 1, 2, 0, 1, 0, 0, 1, 1, 0, 1,
                                                2, 0, 1, 4, 0, 1, 2, 0, 1, 6, 0, 0, 0, 0, 1, 3, 0, 1, 5, 0, 1, 7, 0, 1, 0, 0, 1, 8};
    static const uint16_t want_nodes[9 * 6] = {1, 8, 0, 0, 1, 8,  1, 14, 0, 0, 1, 12, 1, 8, 1, 0, 1, 8,  1, 16, 0, 0, 1, 16, 1, 1, 0,
                                               0, 1, 1, 1, 12, 0, 0, 1, 12, 1, 17, 0, 0, 1, 9, 1, 17, 0, 0, 1, 9, 1, 0, 0, 0, 1, 0};
    static const uint16_t want_vars[3 * 6] = {0, 0, 0, 1, 1, 0, 0, 1, 8, 1, 3, 0, 1, 0, 0, 0, 0, 1};
    static const uint16_t want_types[4 * 5] = {12, 0, 0, 0, 0, 12, 1, 0, 0, 0, 13, 3, 15, 0, 2, 12, 2, 0, 2, 0};
    static const uint16_t want_inputs[2] = {8, 14};
    static const nunthila_error want_errors[2] = {{2, 0, 0, 4, 0, 0, 1, 0, 0}, {10, 0, 0, 1, 0, 0, 0, 0, 0}};
    static const uint16_t want_log[2 * 3] = {15, 8, 0, 0, 0, 0};
    static const size_t want_told[NUNTHILA_TOLD] = {0, 0, 0, 0, 0, 0, 0, 9, 19, 4, 3, 2, 2, 0};
    static const size_t want_keys[NUNTHILA_TOLD] = {0, 0, 0, 2, 3, 1, 1, 17, 51, 6, 4, 0, 7, 0};
    static const uint16_t want_quarrel[5 * 3] = {10, 3, 1, 16, 14, 0, 15, 16, 0, 14, 3, 0, 10, 10, 0};
    int which;

    set_text(lambda);
    usual_lengths();
    for (which = CHECK; which <= REPORT; which++) {
        strcpy(about, which == CHECK ? "cells by hand, check" : "cells by hand, report");
        run(which, 3);
        check(same(rows + NUNTHILA_ROW_CELLS * NUNTHILA_FIRST_NODE, want_rows, 9 * 5), "rows of the nodes");
        check(same(rows + NUNTHILA_ROW_CELLS * NUNTHILA_FIRST_FN, want_fn, 5), "row of fn");
        check(same(cells, want_cells, 19 * 3), "cells");
        check(same(nodes, want_nodes, 9 * 6), "nodes");
        check(same(vars, want_vars, 3 * 6), "vars");
        check(same(types, want_types, 4 * 5), "types");
        check(same(types + NUNTHILA_INPUTS_FROM, want_inputs, 2), "inputs");
        check(memcmp(errors, want_errors, sizeof want_errors) == 0, "errors");
        check(same(log_cells, want_log, 2 * 3), "log");
        check(memcmp(told, want_told, NUNTHILA_TOLD_LENGTH * sizeof *told) == 0, "told");
    }
    check(told[NUNTHILA_TOLD_LENGTH] == strlen(lambda_text), "told: length");

    strcpy(about, "cells by hand, keys");
    set_text(keys);
    run(CHECK, 3);
    check(nodes[NUNTHILA_NODE_CELLS * 5 + NUNTHILA_NODE_EXTRA] == NUNTHILA_EXTRA_LET, "tag of a let");
    check(nodes[NUNTHILA_NODE_CELLS * 8 + NUNTHILA_NODE_EXTRA] == NUNTHILA_EXTRA_METHOD, "tag of a method call");
    check(memcmp(told, want_keys, sizeof want_keys) == 0, "told");

    strcpy(about, "cells by hand, quarrel");
    set_text(quarrel);
    run(CHECK, 3);
    check(told[NUNTHILA_TOLD_EQUATIONS] == 5 && same(log_cells, want_quarrel, 5 * 3), "log");
}

/* ---- lengths of the tables ---- */

static void short_tables(void) {
    int s, which;
    size_t i;

    for (s = 0; s < TABLES; s++) {
        size_t lengths[3];
        if (s == LOG)
            continue; /* no length of the log is too short */
        lengths[0] = required[s] - 1;
        lengths[1] = 1;
        lengths[2] = 0;
        for (i = 0; i < 3; i++) {
            for (which = CHECK; which < FUNCTIONS; which++) {
                size_t answer;
                usual_lengths();
                length[s] = lengths[i];
                snprintf(about, sizeof about, "%s of %lu elements, %s", slice_name[s], (unsigned long)lengths[i], function_name[which]);
                set_text(worked);
                answer = run(which, 4);
                check(answer == 2, "2 with a good body");
                check(told[NUNTHILA_TOLD_ANSWER] == 2, "told: 2");
                set_text("x");
                check(run(which, 5) == 2, "2 before 3");
                set_text("node=str\nfn=0,0\n");
                check(run(which, 5) == 2, "2 before 10");
                if (is_conflict(which)) {
                    length[OUT] = 0;
                    check(run(which, 5) == 2, "2 before 9");
                }
                memset(body, 'x', NUNTHILA_BYTES + 1);
                body_length = NUNTHILA_BYTES + 1;
                check(run(which, 6) == 1, "1 before 2");
            }
        }
    }
}

/* Longer tables, each alone and all at once: the same rows, and zeros to the end of each. */
static void longer_tables(int which) {
    static const char *const bodies[] = {lambda, keys, quarrel, inside, "x", "node=str\nfn=0,0\n"};
    size_t i;
    int s, t;

    for (i = 0; i < sizeof bodies / sizeof bodies[0]; i++) {
        for (s = 0; s <= TABLES; s++) {
            size_t answer;
            set_text(bodies[i]);
            usual_lengths();
            snprintf(about, sizeof about, "longer tables, body %lu, %s, %s", (unsigned long)i, s == TABLES ? "all" : slice_name[s],
                     function_name[which]);
            answer = run(which, 7);
            keep();
            for (t = 0; t < TABLES; t++)
                if (t == s || s == TABLES)
                    length[t] += LONGER;
            check(run(which, 8) == answer, "the same answer");
            for (t = 0; t < TABLES; t++)
                check_of(as_kept(t, kept_length[t]), slice_name[t], "the same rows");
            check(as_kept(TOLD, NUNTHILA_TOLD), "the same is told");
            check(as_kept(OUT, told[NUNTHILA_TOLD_LENGTH]), "the same text");
        }
    }
}

static void logs(void) {
    static const uint16_t equations[3 * 3] = {8, 14, 0, 1, 1, 0, 0, 0, 0};
    size_t n;

    set_text("node=int\nnode=let,8,0\nnode=bool\nnode=let,1,2\nnode=block,-,1,3\nfn=0,4\n");
    for (n = 0; n <= 12; n++) {
        size_t whole = n < 9 ? n / 3 * 3 : 9;
        usual_lengths();
        length[LOG] = n;
        snprintf(about, sizeof about, "log of %lu cells", (unsigned long)n);
        check(run(CHECK, 9) == 0, "0");
        check(told[NUNTHILA_TOLD_EQUATIONS] == 3, "told: three equations");
        check(same(log_cells, equations, whole), "the equations that fit whole");
        check(run(REPORT, 10) == 0, "0 of report");
        check(same(log_cells, equations, whole), "the equations that fit whole, of report");
        check(run(NUMBERS, 11) == NUNTHILA_NOTHING, "14 of quarrel");
        check(same(log_cells, equations, whole), "the equations that fit whole, of quarrel");
        check(run(SHORTEST, 11) == NUNTHILA_NOTHING, "14 of shortest");
        check(same(log_cells, equations, whole), "the equations that fit whole, of shortest");
    }

    /* a = true, b = 1, a = 1 */
    set_text("node=let,-,-\nnode=path,l0,1\nnode=bool\nnode=assign,1,2\nnode=let,-,-\nnode=path,l4,1\nnode=int\nnode=assign,5,6\n"
             "node=path,l0,1\nnode=int\nnode=assign,8,9\nnode=block,-,0,3,4,7,10\nfn=0,11\n");
    for (n = 0; n <= 15; n++) {
        usual_lengths();
        length[LOG] = n;
        snprintf(about, sizeof about, "log of %lu cells, a conflict", (unsigned long)n);
        check(run(CHECK, 12) == 0 && told[NUNTHILA_TOLD_EQUATIONS] == 4, "0, and four equations");
        keep();
        check(run(PLACES, 13) == 0, "0 of quarrel");
        check(tables_as_kept(), "the tables are those of check");
        check(told[NUNTHILA_TOLD_LENGTH] == 38 && memcmp(out, "equation=0,3,14,1\nequation=2,10,14,17\n", 38) == 0,
              "the same text with any log");
        check(run(SHORTEST_PLACES, 13) == 0, "0 of shortest");
        check(tables_as_kept(), "the tables are those of check");
        check(told[NUNTHILA_TOLD_LENGTH] == 46 && memcmp(out, "equation=0,3,14,1\nequation=2,10,14,17\nbelow=2\n", 46) == 0,
              "the same text of shortest with any log");
    }
}

/* ---- lengths of the output ---- */

static void outputs_of(const char *name, size_t answer, size_t place, const char *text) {
    size_t fit = strlen(text), i;
    size_t lengths[8];

    expect(name, answer, place, text);
    lengths[0] = 0;
    lengths[1] = 1;
    lengths[2] = 10;
    lengths[3] = 11;
    lengths[4] = fit - 1;
    lengths[5] = fit;
    lengths[6] = fit + 1;
    lengths[7] = OUT_MOST;
    for (i = 0; i < 8; i++) {
        int room_enough = lengths[i] >= fit;
        usual_lengths();
        run(CHECK, 11);
        keep();
        snprintf(about, sizeof about, "output of %lu bytes, %s", (unsigned long)lengths[i], name);
        length[OUT] = lengths[i];
        check(run(REPORT, 11) == (room_enough ? answer : NUNTHILA_NO_ROOM), "9 where the text has no room, else the answer");
        check(tables_as_kept(), "the tables are those of check");
        check(as_kept(TOLD, NUNTHILA_TOLD_LENGTH), "what is told is as of check, but for the length");
        check(told[NUNTHILA_TOLD_LENGTH] == (room_enough ? fit : 0), "told: the length, or 0");
        if (room_enough)
            check(memcmp(out, text, fit) == 0, "text");
    }
}

static void outputs(void) {
    set_text(worked);
    outputs_of("worked", 0, 0, worked_text);
    set_text(lambda);
    outputs_of("lambda", 0, 0, lambda_text);
    set_text(short_body);
    outputs_of("short", 0, 0, short_text);
    set_text("");
    outputs_of("empty", 3, 1, "answer=3,1\n");
    set_text("node=str\nfn=0,0\n");
    outputs_of("str", 10, 0, "answer=10,0\n");
    memset(body, 'x', NUNTHILA_BYTES + 1);
    body_length = NUNTHILA_BYTES + 1;
    outputs_of("65,537 bytes", 1, 0, "answer=1,-\n");

    strcpy(about, "output too short and a table too short");
    set_text(worked);
    usual_lengths();
    length[ERRORS]--;
    length[OUT] = 10;
    check(run(REPORT, 12) == 9, "9");
    check(told[NUNTHILA_TOLD_ANSWER] == 2, "told: 2");
    length[OUT] = 11;
    check(run(REPORT, 12) == 2, "2");
}

/* ---- lengths of told ---- */

static void told_lengths(void) {
    static const char *const bodies[] = {lambda, quarrel, "x", "node=str\nfn=0,0\n"};
    size_t i, n;
    int which;

    for (i = 0; i < sizeof bodies / sizeof bodies[0]; i++) {
        for (which = CHECK; which < FUNCTIONS; which++) {
            size_t answer;
            set_text(bodies[i]);
            usual_lengths();
            snprintf(about, sizeof about, "told, body %lu", (unsigned long)i);
            answer = run(which, 13);
            keep();
            for (n = 0; n <= NUNTHILA_TOLD + LONGER; n++) {
                size_t fits = n < NUNTHILA_TOLD ? n : NUNTHILA_TOLD;
                length[TOLD] = n;
                snprintf(about, sizeof about, "told of %lu elements, body %lu, %s", (unsigned long)n, (unsigned long)i,
                         function_name[which]);
                check(run(which, 13) == answer, "the same answer");
                check(as_kept(TOLD, fits), "what fits is told");
                check(memcmp(told + fits, before[TOLD] + slice_from(TOLD) + fits * sizeof *told, (n - fits) * sizeof *told) == 0,
                      "elements from 14 on are as they were");
                check(tables_as_kept(), "the same tables");
                if (which != CHECK)
                    check(as_kept(OUT, length[OUT]), "the same output");
            }
        }
    }
}

/* ---- slices of exact length, not initialised: for valgrind ---- */

static void exact_slices(int which) {
    size_t i;

    for (i = 0; i < KNOWN; i++) {
        void *slice[SLICES];
        uint8_t *s;
        size_t answer;
        int t, given = 1;

        snprintf(about, sizeof about, "slices of exact length, %s, %s", known[i].name, function_name[which]);
        set_text(known[i].body);
        usual_lengths();
        answer = run(which, 14);
        length[OUT] = told[NUNTHILA_TOLD_LENGTH];
        keep();
        s = malloc(body_length ? body_length : 1);
        for (t = 0; t < SLICES; t++) {
            slice[t] = malloc(length[t] ? length[t] * element[t] : 1);
            given = given && slice[t] != NULL;
        }
        if (!given || s == NULL) {
            printf("no memory\n");
            exit(1);
        }
        memcpy(s, body, body_length);
        check(call_in(which, s, slice) == answer, "the same answer");
        for (t = 0; t < SLICES; t++)
            check_of(memcmp(slice[t], kept[t], length[t] * element[t]) == 0, slice_name[t], "as in a longer room");
        check(call_in(CHECK, s, slice) == known[i].answer, "answer of check in the same slices");
        for (t = 0; t < TABLES; t++)
            check_of(memcmp(slice[t], kept[t], length[t] * element[t]) == 0, slice_name[t], "the same from check");
        for (t = 0; t < SLICES; t++)
            free(slice[t]);
        free(s);
    }
}

/* ---- slices that hold what an earlier call left ---- */

static void used_again(void) {
    size_t i, k;

    for (i = 0; i < KNOWN; i++) {
        for (k = 0; k < KNOWN; k++) {
            size_t answer;
            snprintf(about, sizeof about, "%s behind %s", known[k].name, known[i].name);
            usual_lengths();
            set_text(known[k].body);
            answer = call(REPORT);
            keep();
            set_text(known[i].body);
            call(REPORT);
            set_text(known[k].body);
            check(call(REPORT) == answer && answer == known[k].answer, "the same answer");
            check(tables_as_kept(), "the same tables");
            check(as_kept(TOLD, NUNTHILA_TOLD), "the same is told");
            check(as_kept(OUT, told[NUNTHILA_TOLD_LENGTH]), "the same text");
        }
    }
}

/* Quarrel and shortest behind each function. */
static void used_by_conflicts(void) {
    static const char *const bodies[] = {quarrel, methods, inside, keys, "x", "node=str\nfn=0,0\n"};
    enum { BODIES = sizeof bodies / sizeof bodies[0] };
    size_t i, k;
    int which, earlier;

    for (which = NUMBERS; which < FUNCTIONS; which++) {
        for (k = 0; k < BODIES; k++) {
            size_t answer;
            usual_lengths();
            set_text(bodies[k]);
            snprintf(about, sizeof about, "body %lu, %s", (unsigned long)k, function_name[which]);
            answer = run(which, 15);
            keep();
            for (i = 0; i < BODIES; i++) {
                for (earlier = CHECK; earlier < FUNCTIONS; earlier++) {
                    snprintf(about, sizeof about, "body %lu, %s behind body %lu, %s", (unsigned long)k, function_name[which],
                             (unsigned long)i, function_name[earlier]);
                    set_text(bodies[i]);
                    call(earlier);
                    set_text(bodies[k]);
                    check(call(which) == answer, "the same answer");
                    check(tables_as_kept(), "the same tables");
                    check(as_kept(TOLD, NUNTHILA_TOLD), "the same is told");
                    check(as_kept(OUT, told[NUNTHILA_TOLD_LENGTH]), "the same text");
                }
            }
        }
    }
}

/* ---- damaged copies ---- */

static uint32_t state = 20260101;

/* A pseudo-random number below n. */
static size_t below(size_t n) {
    state ^= state << 13;
    state ^= state >> 17;
    state ^= state << 5;
    return state % n;
}

static size_t line_start(size_t at) {
    while (at > 0 && body[at - 1] != '\n')
        at--;
    return at;
}

/* One behind the line feed of the line, or the end. */
static size_t line_end(size_t at) {
    while (at < body_length && body[at] != '\n')
        at++;
    return at < body_length ? at + 1 : at;
}

/* A digit for a digit, where the body has one behind the place. */
static void damage_digit(size_t at) {
    while (at < body_length && (body[at] < '0' || body[at] > '9'))
        at++;
    if (at < body_length)
        body[at] = (uint8_t)('0' + below(10));
}

/* A line once more, in front of another one. */
static void damage_line(size_t at, size_t to) {
    uint8_t line[64];
    size_t from = line_start(at), n = line_end(at) - from;
    to = line_start(to);
    if (n > sizeof line)
        return;
    memcpy(line, body + from, n);
    memmove(body + to + n, body + to, body_length - to);
    memcpy(body + to, line, n);
    body_length += n;
}

static void damage_once(void) {
    static const char bytes[] = "0123456789,:=-\nabcdefilnoprtuy";
    size_t at, from, to;

    if (body_length == 0)
        return;
    at = below(body_length);
    switch (below(12)) {
    case 0: /* another byte of the alphabet of bodies */
        body[at] = (uint8_t)bytes[below(sizeof bytes - 1)];
        break;
    case 1: /* any other byte */
        body[at] = (uint8_t)below(256);
        break;
    case 2: /* a byte less */
        memmove(body + at, body + at + 1, body_length - at - 1);
        body_length--;
        break;
    case 3: /* a byte more */
        memmove(body + at + 1, body + at, body_length - at);
        body[at] = (uint8_t)bytes[below(sizeof bytes - 1)];
        body_length++;
        break;
    case 4: /* a line less */
        from = line_start(at);
        to = line_end(at);
        memmove(body + from, body + to, body_length - to);
        body_length -= to - from;
        break;
    case 5:
        damage_line(at, below(body_length));
        break;
    default:
        damage_digit(at);
        break;
    }
}

static void damaged(unsigned long copies) {
    static const char *const bodies[] = {worked, lambda, keys, negated, inside};
    unsigned long i, answers[14] = {0};

    for (i = 0; i < copies; i++) {
        size_t a, b, n = 1 + below(2), length_before, k;
        set_text(bodies[i % (sizeof bodies / sizeof bodies[0])]);
        for (k = 0; k < n; k++)
            damage_once();
        usual_lengths();
        length[LOG] = below(40);
        length[OUT] = below(4) == 0 ? below(700) : NUNTHILA_OUT;
        snprintf(about, sizeof about, "damaged copy %lu, check", i);
        a = run(CHECK, (unsigned)(2 * i));
        keep();
        snprintf(about, sizeof about, "damaged copy %lu, report", i);
        b = run(REPORT, (unsigned)(2 * i + 1));
        check(b == a || b == NUNTHILA_NO_ROOM, "the answer of check, or 9");
        check(tables_as_kept(), "the tables are those of check");
        check(as_kept(TOLD, NUNTHILA_TOLD_LENGTH), "what is told is as of check, but for the length");
        length_before = told[NUNTHILA_TOLD_LENGTH];
        /* The text fits into its own length, and not into one byte less. */
        if (b != NUNTHILA_NO_ROOM && length_before > 0) {
            keep();
            length[OUT] = length_before;
            check(call(REPORT) == a && as_kept(OUT, length_before), "the text fits exactly");
            length[OUT] = length_before - 1;
            check(call(REPORT) == NUNTHILA_NO_ROOM, "9 with one byte less");
        }
        if (a < 14)
            answers[a]++;
    }
    if (copies >= 2000) {
        strcpy(about, "damaged copies");
        check(answers[0] > copies / 50 && answers[3] > copies / 50 && answers[5] > copies / 50, "many are answered 0, 3 and 5");
        check(answers[11] > 0 && answers[12] > 0 && answers[13] > 0, "some are answered 11, 12 and 13");
    }
}

/* Another literal, an empty list or a `break` for a literal, where the body has one behind the place: the body stays well formed, and other
   equations fail. */
static void other_literal(size_t at) {
    static const char *const literals[] = {"node=bool\n", "node=int\n", "node=float\n", "node=list\n", "node=break\n"};
    for (at = line_end(at); at < body_length; at = line_end(at)) {
        size_t k, n = line_end(at) - at;
        for (k = 0; k < 3; k++) {
            if (n == strlen(literals[k]) && memcmp(body + at, literals[k], n) == 0) {
                const char *other = literals[below(5)];
                memmove(body + at + strlen(other), body + at + n, body_length - at - n);
                memcpy(body + at, other, strlen(other));
                body_length = body_length - n + strlen(other);
                return;
            }
        }
    }
}

/* How many subsets of so many out of n there are, or the greatest number where they are about as many. */
static uint64_t subsets(size_t n, size_t size) {
    uint64_t count = 1;
    size_t i;
    for (i = 0; i < size; i++) {
        if (n - i > 0 && count > UINT64_MAX / (n - i))
            return UINT64_MAX;
        count = count * (n - i) / (i + 1);
    }
    return count;
}

static uint64_t sum(uint64_t a, uint64_t b) {
    return a > UINT64_MAX - b ? UINT64_MAX : a + b;
}

/* How many subsets of n are smaller than a size, the empty one apart. */
static uint64_t smaller(size_t n, size_t size) {
    uint64_t count = 0;
    size_t k;
    for (k = 1; k < size; k++)
        count = sum(count, subsets(n, k));
    return count;
}

/* As which one, from 1, the subset of n that was read is tested; the greatest number where it is none. */
static uint64_t position(size_t n) {
    uint64_t before = smaller(n, line_count);
    size_t i, x = 0;
    for (i = 0; i < line_count; i++, x++) {
        if (lines[i].number < x || lines[i].number >= n)
            return UINT64_MAX;
        for (; x < lines[i].number; x++)
            before = sum(before, subsets(n - 1 - x, line_count - 1 - i));
    }
    return sum(before, 1);
}

/* The lines of a call, to be compared with those of another one. */
struct kept_lines {
    size_t answer, count, below;
    struct line line[2048];
};

static void keep_lines(size_t answer, struct kept_lines *to) {
    to->answer = answer;
    to->count = line_count;
    to->below = below_line;
    memcpy(to->line, lines, line_count * sizeof *lines);
}

/* Whether the answer and the numbers of the equations are the same. */
static int lines_as_kept(size_t answer, const struct kept_lines *other) {
    size_t k;
    int good = answer == other->answer && line_count == other->count;
    for (k = 0; good && k < line_count; k++)
        good = lines[k].number == other->line[k].number;
    return good;
}

/* Judges shortest, which was just called without places, by the minimal conflict: where it finds nothing, below= is what the count of the
   subsets gives; what it finds is smaller, and is found with just as many tests as there are up to it. Returns whether it finds one. */
static int judge_search(size_t answer, const struct kept_lines *minimal) {
    const uint64_t given = number;
    size_t n, found = line_count;

    if (minimal->answer != 0 || minimal->count == 0) {
        check(lines_as_kept(answer, minimal), "the answer of quarrel");
        return 0;
    }
    n = minimal->line[minimal->count - 1].number + 1;
    if (lines_as_kept(answer, minimal)) {
        size_t size = minimal->count;
        while (size > 1 && smaller(n, size) > number)
            size--;
        check(below_line == size, "below= is the greatest size below which all subsets are tested");
        return 0;
    }
    check(answer == 0 && found < minimal->count && below_line == found, "what is found is smaller, and below= is its size");
    check(position(n) <= number, "it is found with as many tests as there are up to it");
    number = position(n);
    check(call(SHORTEST) == 0 && read_lines(SHORTEST) && line_count == found && below_line == found, "it is found with just these");
    number = number > 0 ? number - 1 : 0;
    check(call(SHORTEST) == 0 && read_lines(SHORTEST) && lines_as_kept(0, minimal) && below_line == found, "not with one less");
    number = given;
    return 1;
}

/* Damaged copies of the bodies by hand of quarrel and shortest. */
static void damaged_conflicts(unsigned long copies) {
    static uint8_t text[OUT_MOST];
    static struct kept_lines minimal, searched;
    unsigned long i, answers[15] = {0}, inside_itself = 0, found = 0;

    for (i = 0; i < copies; i++) {
        const struct by_hand *c = &by_hand[i % by_hand_count];
        size_t a, b, n;
        int which;

        if (c->length > NUNTHILA_BYTES) /* the tables are not written */
            continue;
        set_body(c->body, c->length);
        for (n = below(3); n > 0 && body_length > 0; n--)
            other_literal(below(body_length));
        if (below(3) == 0)
            damage_once();
        usual_lengths();
        if (below(4) == 0)
            length[LOG] = below(20);
        snprintf(about, sizeof about, "damaged copy %lu of %s, check", i, c->name);
        a = run(CHECK, (unsigned)(3 * i));
        keep();
        number = below(4) == 0 ? 0 : below(below(2) == 0 ? 12 : 1000);
        for (which = NUMBERS; which < FUNCTIONS; which++) {
            snprintf(about, sizeof about, "damaged copy %lu of %s, %s", i, c->name, function_name[which]);
            length[OUT] = NUNTHILA_OUT;
            b = run(which, (unsigned)(3 * i + (unsigned)which));
            if (a == NUNTHILA_CHECKED || a == NUNTHILA_INSIDE_ITSELF)
                check(b == 0 || b == NUNTHILA_NOTHING, "0 or 14 where check answers 0 or 12");
            else
                check(b == a && as_kept(TOLD, NUNTHILA_TOLD), "answer and place of check where it refuses otherwise");
            check(tables_as_kept(), "the tables are those of check");
            check(counts_as_kept(), "the counts are those of check");
            if (which == NUMBERS)
                keep_lines(b, &minimal);
            else if (which == SHORTEST)
                keep_lines(b, &searched);
            else
                check(lines_as_kept(b, which == PLACES ? &minimal : &searched), "both forms have the same numbers");
            if (which == SHORTEST_PLACES && b == 0)
                check(below_line == searched.below, "both forms have the same below=");
            /* The text fits into its own length, and not into one byte less; a refusal needs no room. */
            n = told[NUNTHILA_TOLD_LENGTH] <= length[OUT] ? told[NUNTHILA_TOLD_LENGTH] : 0;
            memcpy(text, out, n);
            length[OUT] = n;
            check(call(which) == b && told[NUNTHILA_TOLD_LENGTH] == n && memcmp(out, text, n) == 0,
                  "the same in an output of just the text");
            if (n > 0) {
                length[OUT] = n - 1;
                check(run(which, (unsigned)(3 * i)) == NUNTHILA_NO_ROOM, "9 with one byte less");
                check(tables_as_kept(), "the tables are those of check, on 9 too");
            }
            if (which == SHORTEST) {
                length[OUT] = NUNTHILA_OUT;
                check(run(SHORTEST, (unsigned)i) == b, "the same answer again");
                found += (unsigned long)judge_search(b, &minimal);
            }
            if (b < 15)
                answers[b]++;
            inside_itself += a == NUNTHILA_INSIDE_ITSELF && b == 0;
        }
    }
    number = USUAL_NUMBER;
    if (copies >= 2000) {
        strcpy(about, "damaged copies, quarrel and shortest");
        check(found > copies / 100, "of some a shorter conflict is found");
        check(answers[0] > copies / 4 && answers[NUNTHILA_NOTHING] > copies / 4, "many are answered 0 and 14");
        check(answers[3] > copies / 50 && answers[5] > copies / 50 && answers[10] > 0 && answers[11] > 0 && answers[13] > 0,
              "some are answered 3, 5, 10, 11 and 13");
        check(inside_itself > copies / 100, "some are answered 0 where check answers 12");
    }
}

int main(int argc, char **argv) {
    static char quarrels[1 << 17], shortest[1 << 17];
    unsigned long copies = argc > 3 ? strtoul(argv[3], NULL, 10) : 2000;
    int which;

    if (argc < 3)
        not_read("usage", "tests QUARRELS SHORTEST [COPIES [FAILURES]]");
    most_failures = argc > 4 ? strtoul(argv[4], NULL, 10) : 0;
    read_by_hand(argv[1], NUMBERS, quarrels, sizeof quarrels);
    read_by_hand(argv[2], SHORTEST, shortest, sizeof shortest);
    make_pattern();
    known_bodies();
    known_conflicts();
    limits();
    sizes();
    bodies_by_hand();
    numbers_of_tests();
    full_conflict();
    cells_by_hand();
    short_tables();
    logs();
    outputs();
    told_lengths();
    for (which = REPORT; which < FUNCTIONS; which++) {
        longer_tables(which);
        exact_slices(which);
    }
    used_again();
    used_by_conflicts();
    damaged(copies);
    damaged_conflicts(copies);
    summary();
    return failed > 0;
}
