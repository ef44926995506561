/* A library that is wrong in one way, to see that the tests tell it: the true functions, renamed, and a fault behind them. The variable
   NUNTHILA_FAULT has the number of the fault; 0 is none. Those from 101 to 199 are of nunthila_quarrel, and with 100 more of
   nunthila_shortest; those from 301 on are of nunthila_shortest alone. `test` builds the tests with it and wants each fault to be told. */
#include "nunthila.h"

#include <stdio.h>
#include <stdlib.h>
#include <string.h>

#define SLICES                                                                                                                      \
    const uint8_t *s, size_t s_len, uint16_t *rows, size_t rows_len, uint16_t *cells, size_t cells_len, uint16_t *nodes,            \
        size_t nodes_len, uint16_t *vars, size_t vars_len, uint16_t *types, size_t types_len, nunthila_error *errors,               \
        size_t errors_len, uint16_t *log, size_t log_len, uint16_t *memory, size_t memory_len

#define GIVEN                                                                                                                       \
    s, s_len, rows, rows_len, cells, cells_len, nodes, nodes_len, vars, vars_len, types, types_len, errors, errors_len, log,        \
        log_len, memory, memory_len

size_t nunthila_true_check(SLICES, size_t *told, size_t told_len);
size_t nunthila_true_report(SLICES, uint8_t *out, size_t out_len, size_t *told, size_t told_len);
size_t nunthila_true_quarrel(SLICES, uint8_t *out, size_t out_len, size_t *told, size_t told_len, size_t places);
size_t nunthila_true_shortest(SLICES, uint8_t *out, size_t out_len, size_t *told, size_t told_len, size_t places, uint64_t number);

static int fault(void) {
    static int number = -1;
    if (number < 0) {
        const char *v = getenv("NUNTHILA_FAULT");
        number = v ? atoi(v) : 0;
    }
    return number;
}

/* Each thread has its own, since the tests of the wrapper call from several. */
static __thread uint16_t spare[NUNTHILA_CELLS + NUNTHILA_MEMORY]; /* as long as any table */
static __thread nunthila_error spare_errors[NUNTHILA_ERRORS];

/* No table that is used below is short, and told is whole. */
#define WHOLE (rows_len >= NUNTHILA_ROWS && memory_len >= NUNTHILA_MEMORY && told_len >= NUNTHILA_TOLD)

static size_t either(int report, SLICES, uint8_t *out, size_t out_len, size_t *told, size_t told_len) {
    size_t inner[NUNTHILA_TOLD], answer, i, n;
    uint16_t tail = nodes_len > NUNTHILA_NODES ? nodes[nodes_len - 1] : 0;
    int f = fault();

    /* ---- faults of what is accepted ---- */
    if (f == 1 && rows_len == NUNTHILA_ROWS - 1)
        rows = spare, rows_len++;
    if (f == 2 && cells_len == NUNTHILA_CELLS - 1)
        cells = spare, cells_len++;
    if (f == 3 && nodes_len == NUNTHILA_NODES - 1)
        nodes = spare, nodes_len++;
    if (f == 4 && vars_len == NUNTHILA_VARS - 1)
        vars = spare, vars_len++;
    if (f == 5 && types_len == NUNTHILA_TYPES - 1)
        types = spare, types_len++;
    if (f == 6 && errors_len == NUNTHILA_ERRORS - 1)
        errors = spare_errors, errors_len++;
    if (f == 7 && memory_len == NUNTHILA_MEMORY - 1)
        memory = spare, memory_len++;
    if (f == 8 && s_len == NUNTHILA_BYTES + 1)
        s_len--;
    if (f == 9 && s_len == NUNTHILA_BYTES) /* as if too long */
        rows_len = 0;
    if (f == 10 && memory_len == NUNTHILA_MEMORY) /* as if one cell more were needed */
        memory_len = 0;

    answer = report ? nunthila_true_report(GIVEN, out, out_len, inner, NUNTHILA_TOLD) : nunthila_true_check(GIVEN, inner, NUNTHILA_TOLD);
    n = inner[NUNTHILA_TOLD_LENGTH];

    /* ---- faults of what is told ---- */
    if (f == 11 && answer == NUNTHILA_NO_ROOM)
        inner[NUNTHILA_TOLD_ANSWER] = 9;
    if (f == 12 && inner[NUNTHILA_TOLD_HAS_PLACE] == 1)
        inner[NUNTHILA_TOLD_HAS_PLACE] = 0;
    if (f == 13 && inner[NUNTHILA_TOLD_HAS_PLACE] == 1)
        inner[NUNTHILA_TOLD_PLACE]++;
    if (f == 14 && answer == 1)
        inner[NUNTHILA_TOLD_PLACE] = 1;
    if (f == 15 && answer >= 3 && answer <= 6)
        inner[NUNTHILA_TOLD_FIELDS] = 1;
    if (f == 16 && report)
        inner[NUNTHILA_TOLD_LENGTH]++;
    if (f == 17 && !report)
        inner[NUNTHILA_TOLD_LENGTH] = 1;
    if (f == 18 && answer == NUNTHILA_NO_ROOM)
        inner[NUNTHILA_TOLD_LENGTH] = out_len;
    if (f == 19 && answer == 0)
        inner[NUNTHILA_TOLD_DEFS]++;
    if (f == 20 && answer == 0)
        inner[NUNTHILA_TOLD_EQUATIONS] = inner[NUNTHILA_TOLD_EQUATIONS] < log_len / 3 ? inner[NUNTHILA_TOLD_EQUATIONS] : log_len / 3;
    if (f == 21 && answer == 0)
        inner[NUNTHILA_TOLD_VARS] = 1025;
    if (f == 22)
        answer = answer == 5 ? 4 : answer;
    if (f == 23 && answer == 13)
        answer = inner[NUNTHILA_TOLD_ANSWER] = 12;
    if (f == 76 && answer == NUNTHILA_NO_ROOM)
        answer = inner[NUNTHILA_TOLD_ANSWER];
    if (f == 77 && answer >= 10)
        inner[NUNTHILA_TOLD_PLACE] = 65535;
    if (f == 24 && told_len < NUNTHILA_TOLD)
        told_len = 0;
    if (f == 25 && told_len > NUNTHILA_TOLD)
        told[NUNTHILA_TOLD] = 0;
    if (f == 26)
        told[told_len] = 0;
    for (i = 0; i < told_len && i < NUNTHILA_TOLD; i++)
        told[i] = inner[i];

    /* ---- faults of the output ---- */
    if (f == 27 && answer == NUNTHILA_NO_ROOM && out_len > 0)
        out[out_len - 1] = 'a';
    if (f == 28 && report && answer != NUNTHILA_NO_ROOM && n < out_len)
        out[n] = 0;
    if (f == 29 && report && n > 12)
        out[n - 2] ^= 1;
    if (f == 30 && report && n > 0 && n == out_len) { /* as if one byte more were needed */
        memset(out, 0, out_len);
        answer = NUNTHILA_NO_ROOM;
    }
    if (f == 31 && report)
        out[out_len] = 0;
    if (f == 32 && report)
        out[-1] = 0;

    /* ---- faults around the tables and in the body ---- */
    if (f == 33)
        rows[-1] = 0;
    if (f == 34)
        cells[cells_len] = 0;
    if (f == 35)
        errors[errors_len].c = 0;
    if (f == 36)
        log[log_len] = 0;
    if (f == 37)
        memory[memory_len] = 0;
    if (f == 38)
        types[-1] = 0;
    if (f == 39 && s_len > 0)
        *(uint8_t *)(size_t)s ^= 1;

    /* ---- faults in the tables ---- */
    if (!WHOLE) {
        if (f == 40 && answer == 2 && memory_len > 0)
            memory[memory_len - 1] = 0;
        if (f == 41 && answer == 2 && rows_len > 0)
            rows[0] = 0;
        return answer;
    }
    if (f == 42 && answer == 1 && types_len > 0)
        types[0] = 0;
    if (f == 43 && answer >= 3 && answer <= 6)
        cells[cells_len - 1] = 1;
    if (f == 44 && answer >= 10 && answer <= 13)
        errors[errors_len - 1].kind = 1;
    if (f == 45 && answer >= 10 && answer <= 13 && log_len > 0)
        log[log_len - 1] = 1;
    if (f == 46 && answer >= 3 && answer <= 6)
        memory[7] = 1;
    if (told[NUNTHILA_TOLD_ANSWER] != 0)
        return answer;
    if (f == 47)
        rows[2559] = 1;
    if (f == 48)
        cells[cells_len - 1] = 1;
    if (f == 49)
        nodes[nodes_len - 1] = 1;
    if (f == 50)
        vars[vars_len - 1] = 1;
    if (f == 51)
        types[types_len - 1] = 1;
    if (f == 52)
        types[NUNTHILA_INPUTS_FROM - 1] = 1;
    if (f == 53)
        errors[errors_len - 1].c = 1;
    if (f == 54 && log_len % 3 != 0)
        log[log_len - 1] = 1;
    if (f == 55)
        memory[memory_len - 1] = 1;
    if (f == 56 && nodes_len > NUNTHILA_NODES) /* as if no cell behind the required length were written */
        nodes[nodes_len - 1] = tail;
    for (i = 0; i < told[NUNTHILA_TOLD_NODES]; i++) {
        uint16_t *c = nodes + NUNTHILA_NODE_CELLS * i;
        if (f == 57)
            c[NUNTHILA_NODE_FINAL] = c[NUNTHILA_NODE_RAW];
        if (f == 58 && c[NUNTHILA_NODE_EXTRA] == NUNTHILA_EXTRA_LET)
            c[NUNTHILA_NODE_EXTRA] = NUNTHILA_EXTRA_METHOD;
        if (f == 59 && c[NUNTHILA_NODE_EXTRA] == NUNTHILA_EXTRA_CONSTRUCTOR)
            c[NUNTHILA_NODE_EXTRA] = NUNTHILA_EXTRA_FN;
        if (f == 60)
            rows[NUNTHILA_ROW_CELLS * (NUNTHILA_FIRST_NODE + i) + NUNTHILA_ROW_LEVELS] = 0;
    }
    for (i = 0; i < told[NUNTHILA_TOLD_VARS] && i < 1024; i++) {
        uint16_t *c = vars + NUNTHILA_VAR_CELLS * i;
        if (f == 61)
            c[NUNTHILA_VAR_MARKED] = 0;
        if (f == 62 && c[NUNTHILA_VAR_KIND] == NUNTHILA_KIND_FLOAT)
            c[NUNTHILA_VAR_KIND] = NUNTHILA_KIND_INT;
        if (f == 63)
            c[NUNTHILA_VAR_IS_BOUND] = 1;
    }
    for (i = 0; i < told[NUNTHILA_TOLD_MADE]; i++) {
        uint16_t *c = types + NUNTHILA_MADE_CELLS * i;
        if (f == 64 && c[NUNTHILA_MADE_HEAD] == NUNTHILA_HEAD_REF)
            c[NUNTHILA_MADE_HEAD] = NUNTHILA_HEAD_ARRAY;
        if (f == 65 && c[NUNTHILA_MADE_INPUTS] > 1)
            types[NUNTHILA_INPUTS_FROM + c[NUNTHILA_MADE_FIRST]] = types[NUNTHILA_INPUTS_FROM + c[NUNTHILA_MADE_FIRST] + 1];
        if (f == 66)
            c[NUNTHILA_MADE_HEAD] = 9;
    }
    for (i = 0; i < told[NUNTHILA_TOLD_ERRORS]; i++) {
        if (f == 67)
            errors[i].cause = 0;
        if (f == 68 && errors[i].span == NUNTHILA_SPAN_SIGNATURE)
            errors[i].span = NUNTHILA_SPAN_BIND_ITEM;
        if (f == 69)
            errors[i].between = 0;
        if (f == 70)
            errors[i].kind = 11;
        if (f == 71 && errors[i].kind == NUNTHILA_WRONG_ARGUMENT_TY)
            errors[i].c++;
    }
    for (i = 0; i < log_len / 3; i++) {
        if (f == 72 && log[3 * i + 2] != 0)
            log[3 * i + 2] = 0;
        if (f == 73 && log[3 * i + 2] == 1)
            log[3 * i + 2] = 2;
    }
    if (f == 74 && report)
        rows[NUNTHILA_ROW_CELLS * NUNTHILA_FIRST_FN] = 28;
    if (f == 75 && log_len >= 3)
        log[2] = 12;
    return answer;
}

size_t nunthila_check(SLICES, size_t *told, size_t told_len) {
    return either(0, GIVEN, NULL, 0, told, told_len);
}

size_t nunthila_report(SLICES, uint8_t *out, size_t out_len, size_t *told, size_t told_len) {
    return either(1, GIVEN, out, out_len, told, told_len);
}

/* ---- nunthila_quarrel and nunthila_shortest ---- */

static __thread uint8_t spare_out[2 * NUNTHILA_OUT];

static size_t put_line(size_t to, int fields, unsigned q, unsigned node, unsigned x, unsigned y) {
    char *end = (char *)spare_out + to;
    return to + (size_t)(fields == 1 ? sprintf(end, "equation=%u\n", q) : sprintf(end, "equation=%u,%u,%u,%u\n", q, node, x, y));
}

static size_t put_below(size_t to, unsigned below) {
    return to + (size_t)sprintf((char *)spare_out + to, "below=%u\n", below);
}

/* Writes the text with the fault to spare_out; its bytes. */
static size_t rewritten(int f, const uint8_t *out, size_t n, uint64_t number) {
    static __thread char text[NUNTHILA_OUT + 1];
    const char *at = text;
    size_t to = 0, line, last_line;
    unsigned below = 0;

    memcpy(text, out, n);
    text[n] = '\0';
    at = strstr(text, "below=");
    if (at != NULL)
        sscanf(at, "below=%u", &below);
    last_line = at != NULL ? (size_t)(at - text) : n; /* where the lines of equations end */
    if (f == 310) /* below= is the first line */
        to = put_below(to, below);
    for (line = 0, at = text; at < text + last_line; line++) {
        unsigned q = 0, node = 0, x = 0, y = 0;
        int fields = sscanf(at, "equation=%u,%u,%u,%u", &q, &node, &x, &y), last;
        at = strchr(at, '\n') + 1;
        last = at == text + last_line;
        if (f == 142 && line == 0 && q > 0) /* one more */
            to = put_line(to, fields, q - 1, 0, 0, 0);
        if (f == 143 && line == 0 && !last) /* the first is missing */
            continue;
        if (f == 144 && line > 0 && last) /* the last is missing */
            continue;
        if (f == 145 && line > 0) /* each behind the first twice */
            to = put_line(to, fields, q, node, x, y);
        if (f == 146) /* counted from 1 */
            q++;
        if (f == 311 && line == 0 && !last && q > 0) /* another set of the same size */
            q--;
        if (f == 147)
            to = put_line(to, fields, q, node, y, x);
        else
            to = put_line(to, fields, q, node + (f == 148), x + (f == 149), y);
    }
    if (below == 0) {
        if (f == 183) /* a last line that quarrel does not have */
            to = put_below(to, 1);
        return to;
    }
    if (f == 183) /* shortest: a last line more */
        to = put_below(to, below);
    if (f == 312) /* one more */
        below++;
    if (f == 313 && below > 1) /* one less */
        below--;
    if (f == 314 && number == 0) /* 0 where nothing is tested */
        below = 0;
    if (f == 315) /* that of an answer for which all were tested */
        below = (unsigned)line;
    if (f == 309 || f == 310) /* it is missing */
        return to;
    return put_below(to, below) - (f == 316); /* without its line feed */
}

/* The true function that was called. */
static size_t true_conflict(int shortest, SLICES, uint8_t *out, size_t out_len, size_t *told, size_t told_len, size_t places,
                            uint64_t number) {
    return shortest ? nunthila_true_shortest(GIVEN, out, out_len, told, told_len, places, number)
                    : nunthila_true_quarrel(GIVEN, out, out_len, told, told_len, places);
}

static size_t conflict(int f, int shortest, SLICES, uint8_t *out, size_t out_len, size_t *told, size_t told_len, size_t places,
                       uint64_t number) {
    size_t inner[NUNTHILA_TOLD], answer, i, n;
    int refused_12, own;
    int used = types_len > 0 && types[0] == NUNTHILA_HEAD_VAR; /* a body before had a variable */
    uint16_t tail = nodes_len > NUNTHILA_NODES ? nodes[nodes_len - 1] : 0;

    /* ---- faults of what is accepted ---- */
    if (f == 101 && rows_len == NUNTHILA_ROWS - 1)
        rows = spare, rows_len++;
    if (f == 102 && cells_len == NUNTHILA_CELLS - 1)
        cells = spare, cells_len++;
    if (f == 103 && nodes_len == NUNTHILA_NODES - 1)
        nodes = spare, nodes_len++;
    if (f == 104 && vars_len == NUNTHILA_VARS - 1)
        vars = spare, vars_len++;
    if (f == 105 && types_len == NUNTHILA_TYPES - 1)
        types = spare, types_len++;
    if (f == 106 && errors_len == NUNTHILA_ERRORS - 1)
        errors = spare_errors, errors_len++;
    if (f == 107 && memory_len == NUNTHILA_MEMORY - 1)
        memory = spare, memory_len++;
    if (f == 108 && s_len == NUNTHILA_BYTES + 1)
        s_len--;
    if (f == 109 && s_len == NUNTHILA_BYTES) /* as if too long */
        rows_len = 0;
    if (f == 110 && memory_len == NUNTHILA_MEMORY) /* as if one cell more were needed */
        memory_len = 0;

    /* ---- faults of the form that is asked for ---- */
    if (f == 111)
        places = 0;
    if (f == 112)
        places = 1;
    if (f == 113)
        places = places == 1;
    if (f == 114)
        places = (uint32_t)places;

    /* ---- faults of the number that is given ---- */
    if (f == 301)
        number = (uint32_t)number;
    if (f == 302)
        number = (uint16_t)number;
    if (f == 303 && number > INT64_MAX) /* as if it had a sign */
        number = 0;
    if (f == 304 && number > 0)
        number--;
    if (f == 305 && number < UINT64_MAX)
        number++;
    if (f == 306)
        number = 0;
    if (f == 307)
        number = 100000;
    if (f == 308) { /* the last two arguments exchanged; the search has to end */
        uint64_t other = number;
        number = places < 1000 ? places : 1000;
        places = (size_t)other;
    }

    answer = true_conflict(shortest, GIVEN, out, out_len, inner, NUNTHILA_TOLD, places, number);
    refused_12 = (answer == 0 || answer == 9 || answer == 14) && inner[NUNTHILA_TOLD_NODES] == 0;
    own = answer != 0 && answer != 9 && answer != 14;

    /* ---- faults of the answer ---- */
    if (f == 115 && answer == 0 && refused_12) { /* 12 refuses, with its place */
        answer = nunthila_true_check(GIVEN, inner, NUNTHILA_TOLD);
        memset(out, 0, out_len);
    }
    if (f == 116 && answer == 0 && refused_12) { /* 12 is no failure */
        answer = inner[NUNTHILA_TOLD_ANSWER] = 14;
        inner[NUNTHILA_TOLD_LENGTH] = 0;
        memset(out, 0, out_len);
    }
    if (f == 117 && answer == 14)
        answer = inner[NUNTHILA_TOLD_ANSWER] = 0;
    if (f == 118 && answer == 14 && refused_12)
        answer = inner[NUNTHILA_TOLD_ANSWER] = 12;
    if (f == 119 && answer == 14 && out_len == 0) /* 9 before 14 */
        answer = inner[NUNTHILA_TOLD_ANSWER] = 9;
    if (f == 120 && own && out_len == 0) { /* 9 before the refusals of the check */
        answer = inner[NUNTHILA_TOLD_ANSWER] = 9;
        inner[NUNTHILA_TOLD_HAS_PLACE] = inner[NUNTHILA_TOLD_PLACE] = 0;
    }
    if (f == 121 && answer == 0 && inner[NUNTHILA_TOLD_LENGTH] == out_len) { /* as if one byte more were needed */
        answer = inner[NUNTHILA_TOLD_ANSWER] = 9;
        inner[NUNTHILA_TOLD_LENGTH] = 0;
        memset(out, 0, out_len);
    }
    if (f == 122 && answer == 9) { /* what has room of the text */
        answer = true_conflict(shortest, GIVEN, spare_out, NUNTHILA_OUT, inner, NUNTHILA_TOLD, places, number);
        memcpy(out, spare_out, inner[NUNTHILA_TOLD_LENGTH] = out_len);
    }
    if (f == 123 && answer == 13)
        answer = inner[NUNTHILA_TOLD_ANSWER] = 14;
    if (f == 178 && answer == 14)
        answer = inner[NUNTHILA_TOLD_ANSWER] = 15;
    if (f == 124 && log_len < NUNTHILA_LOG && answer == 0) { /* as if the lent log were read */
        answer = inner[NUNTHILA_TOLD_ANSWER] = 14;
        inner[NUNTHILA_TOLD_LENGTH] = 0;
        memset(out, 0, out_len);
    }
    if (f == 125 && answer == 0 && used) { /* as if a table had to be cleared before */
        answer = inner[NUNTHILA_TOLD_ANSWER] = 14;
        inner[NUNTHILA_TOLD_LENGTH] = 0;
        memset(out, 0, out_len);
    }

    if (f == 317 && answer == 0 && number == 0) { /* nothing is found without a test */
        answer = inner[NUNTHILA_TOLD_ANSWER] = 14;
        inner[NUNTHILA_TOLD_LENGTH] = 0;
        memset(out, 0, out_len);
    }
    if (f == 318 && answer == 0) { /* as if the minimal conflict had to have room too */
        nunthila_true_quarrel(GIVEN, spare_out, NUNTHILA_OUT, inner, NUNTHILA_TOLD, places);
        n = inner[NUNTHILA_TOLD_LENGTH];
        answer = true_conflict(shortest, GIVEN, out, out_len, inner, NUNTHILA_TOLD, places, number);
        if (n > out_len) {
            answer = inner[NUNTHILA_TOLD_ANSWER] = 9;
            inner[NUNTHILA_TOLD_LENGTH] = 0;
            memset(out, 0, out_len);
        }
    }
    if (f == 319 && answer == 9) /* as if the last line could be left out */
        answer = nunthila_true_quarrel(GIVEN, out, out_len, inner, NUNTHILA_TOLD, places);
    if (f == 320 && answer == 0) { /* the minimal conflict also where another is found, with the last line of that */
        size_t to = inner[NUNTHILA_TOLD_LENGTH], from = to - 1, last;
        while (out[from - 1] != '\n')
            from--;
        last = to - from;
        nunthila_true_quarrel(GIVEN, spare_out, NUNTHILA_OUT, inner, NUNTHILA_TOLD, places);
        n = inner[NUNTHILA_TOLD_LENGTH];
        inner[NUNTHILA_TOLD_LENGTH] = to;
        if (n + last <= out_len) {
            memcpy(spare_out + n, out + from, last);
            memcpy(out, spare_out, inner[NUNTHILA_TOLD_LENGTH] = n + last);
        }
    }
    if (f == 321 && answer == 0 && refused_12 && number > 0) { /* as if the search ended with 12 */
        answer = inner[NUNTHILA_TOLD_ANSWER] = 12;
        inner[NUNTHILA_TOLD_LENGTH] = 0;
        memset(out, 0, out_len);
    }

    /* ---- faults of what is told ---- */
    if (f == 126 && (answer == 9 || answer == 14)) /* as of report: the answer of the check */
        inner[NUNTHILA_TOLD_ANSWER] = 0;
    if (f == 127 && answer == 14)
        inner[NUNTHILA_TOLD_HAS_PLACE] = 1;
    if (f == 128 && own && inner[NUNTHILA_TOLD_HAS_PLACE] == 1)
        inner[NUNTHILA_TOLD_PLACE]++;
    if (f == 129 && own)
        inner[NUNTHILA_TOLD_HAS_PLACE] = 0;
    if (f == 179 && own && answer >= 10)
        inner[NUNTHILA_TOLD_PLACE] = 65535;
    if (f == 130 && answer == 9)
        inner[NUNTHILA_TOLD_PLACE] = 1;
    if (f == 131 && answer == 14)
        memset(inner + NUNTHILA_TOLD_TYPES, 0, 10 * sizeof *inner);
    if (f == 132 && answer == 9)
        memset(inner + NUNTHILA_TOLD_TYPES, 0, 10 * sizeof *inner);
    if (f == 133 && refused_12)
        inner[NUNTHILA_TOLD_FIELDS] = 1;
    if (f == 134 && answer == 0 && !refused_12)
        inner[NUNTHILA_TOLD_ERRORS]++;
    if (f == 180 && answer == 14 && !refused_12)
        inner[NUNTHILA_TOLD_VARS] = 1025;
    if (f == 135 && answer == 0)
        inner[NUNTHILA_TOLD_LENGTH]++;
    if (f == 136 && answer == 9)
        inner[NUNTHILA_TOLD_LENGTH] = out_len + 1;
    if (f == 137 && answer == 14)
        inner[NUNTHILA_TOLD_LENGTH] = 1;
    if (f == 138 && own)
        inner[NUNTHILA_TOLD_LENGTH] = 11;
    n = answer == 0 ? inner[NUNTHILA_TOLD_LENGTH] : 0;

    /* ---- faults of the text: where the other text has no room, it stays ---- */
    if (((f >= 142 && f <= 149) || f == 183 || (f >= 309 && f <= 316)) && n > 0) {
        size_t other = rewritten(f, out, n, number);
        if (other <= out_len) {
            memcpy(out, spare_out, other);
            inner[NUNTHILA_TOLD_LENGTH] = n = other;
        }
    }

    if (f == 139 && told_len < NUNTHILA_TOLD)
        told_len = 0;
    if (f == 140 && told_len > NUNTHILA_TOLD)
        told[NUNTHILA_TOLD] = 0;
    if (f == 141)
        told[told_len] = 0;
    for (i = 0; i < told_len && i < NUNTHILA_TOLD; i++)
        told[i] = inner[i];

    /* ---- faults of the output ---- */
    if (f == 150 && answer == 14 && out_len > 0)
        out[out_len - 1] = 'a';
    if (f == 151 && answer == 9 && out_len > 0)
        out[0] = 'e';
    if (f == 152 && own && answer > 2 && out_len > 0)
        out[out_len - 1] = 'a';
    if (f == 153 && answer <= 2 && answer > 0 && out_len > 0)
        out[0] = 'a';
    if (f == 154 && answer == 0 && n < out_len)
        out[n] = 0;
    if (f == 155 && answer == 0)
        out[n - 1] = ' ';
    if (f == 156)
        out[out_len] = 0;
    if (f == 157)
        out[-1] = 0;

    /* ---- faults around the tables and in the body ---- */
    if (f == 158)
        rows[-1] = 0;
    if (f == 159)
        cells[cells_len] = 0;
    if (f == 160)
        errors[errors_len].c = 0;
    if (f == 161)
        log[log_len] = 0;
    if (f == 162)
        memory[memory_len] = 0;
    if (f == 163)
        types[-1] = 0;
    if (f == 164 && s_len > 0)
        *(uint8_t *)(size_t)s ^= 1;

    /* ---- faults in the tables ---- */
    if (f == 165 && answer == 2 && memory_len > 0)
        memory[memory_len - 1] = 1;
    if (f == 166 && answer == 1)
        types[0] = 1;
    if (answer == 1 || answer == 2)
        return answer;
    if (f == 167 && own)
        cells[cells_len - 1] = 1;
    if (f == 168 && refused_12)
        nodes[0] = 1;
    if (f == 169 && refused_12)
        memory[2] = 1;
    if (own || refused_12)
        return answer;
    for (i = 0; i < inner[NUNTHILA_TOLD_VARS] && i < 1024; i++) { /* as if the tables were filled once the variables are open again */
        if ((f == 170 && answer == 0) || (f == 171 && answer == 14) || (f == 172 && answer == 9))
            vars[NUNTHILA_VAR_CELLS * i + NUNTHILA_VAR_IS_BOUND] = 0;
    }
    if (f == 173)
        memory[2] = 1;
    if (f == 174 && inner[NUNTHILA_TOLD_ERRORS] > 0)
        memset(errors, 0, sizeof *errors);
    if (f == 175 && log_len >= 3) /* the node in the cell of the outcome */
        log[2] += 16;
    if (f == 176 && nodes_len > NUNTHILA_NODES) /* as if no cell behind the required length were written */
        nodes[nodes_len - 1] = tail;
    if (f == 177)
        types[types_len - 1] = 1;
    if (f == 181 && log_len % 3 != 0)
        log[log_len - 1] = 1;
    for (i = 0; i < inner[NUNTHILA_TOLD_ERRORS] && i < errors_len; i++) {
        if (f == 182)
            errors[i].kind = 11;
    }
    return answer;
}

size_t nunthila_quarrel(SLICES, uint8_t *out, size_t out_len, size_t *told, size_t told_len, size_t places) {
    int f = fault();
    return conflict(f > 100 && f < 200 ? f : 0, 0, GIVEN, out, out_len, told, told_len, places, 0);
}

size_t nunthila_shortest(SLICES, uint8_t *out, size_t out_len, size_t *told, size_t told_len, size_t places, uint64_t number) {
    int f = fault();
    return conflict(f > 300 ? f : f > 200 ? f - 100 : 0, 1, GIVEN, out, out_len, told, told_len, places, number);
}
