/* The stack that nunthila_check, nunthila_report, nunthila_quarrel and nunthila_shortest take. Each runs on a stack of its own that is filled
   with a pattern: on bodies of up to 64 levels of each two forms of nodes in turn; on the same with an equation at the bottom that searches a
   lambda for a variable, that goes four functions deep and searches there, or that fails; on chains and rings of lets; and on the bodies that
   the command line names. The last four lines have the deepest of each function; the exit status is 1 if one is more than 128 KiB. */
#define _XOPEN_SOURCE 700
#include "nunthila.h"
#include <stdio.h>
#include <string.h>
#include <ucontext.h>

#define STACK (1u << 20)
#define PATTERN 0xA5
#define MOST 131072

static unsigned char stack[STACK];
static uint16_t rows[NUNTHILA_ROWS], cells[NUNTHILA_CELLS], nodes[NUNTHILA_NODES], vars[NUNTHILA_VARS], types[NUNTHILA_TYPES];
static uint16_t equations[NUNTHILA_LOG], memory[NUNTHILA_MEMORY];
static nunthila_error errors[NUNTHILA_ERRORS];
static size_t told[NUNTHILA_TOLD];
static uint8_t body[NUNTHILA_BYTES + 1];
static uint8_t out[NUNTHILA_OUT];
static size_t length;
static ucontext_t here, there;

/* How many subsets nunthila_shortest may test: of a chain all of one equation, and many of two. */
enum { NUMBER = 1000 };

enum { CHECK, REPORT, QUARREL, SHORTEST, FUNCTIONS, NONE = FUNCTIONS };
static const char *const function_name[FUNCTIONS] = {"check", "report", "quarrel", "shortest"};
static int function;
static size_t answer;

static void run(void)
{
    if (function == CHECK)
        answer = nunthila_check(body, length, rows, NUNTHILA_ROWS, cells, NUNTHILA_CELLS, nodes, NUNTHILA_NODES, vars, NUNTHILA_VARS,
                                types, NUNTHILA_TYPES, errors, NUNTHILA_ERRORS, equations, NUNTHILA_LOG, memory, NUNTHILA_MEMORY, told,
                                NUNTHILA_TOLD);
    if (function == REPORT)
        answer = nunthila_report(body, length, rows, NUNTHILA_ROWS, cells, NUNTHILA_CELLS, nodes, NUNTHILA_NODES, vars, NUNTHILA_VARS,
                                 types, NUNTHILA_TYPES, errors, NUNTHILA_ERRORS, equations, NUNTHILA_LOG, memory, NUNTHILA_MEMORY, out,
                                 NUNTHILA_OUT, told, NUNTHILA_TOLD);
    if (function == QUARREL)
        answer = nunthila_quarrel(body, length, rows, NUNTHILA_ROWS, cells, NUNTHILA_CELLS, nodes, NUNTHILA_NODES, vars, NUNTHILA_VARS,
                                  types, NUNTHILA_TYPES, errors, NUNTHILA_ERRORS, equations, NUNTHILA_LOG, memory, NUNTHILA_MEMORY, out,
                                  NUNTHILA_OUT, told, NUNTHILA_TOLD, NUNTHILA_PLACES);
    if (function == SHORTEST)
        answer = nunthila_shortest(body, length, rows, NUNTHILA_ROWS, cells, NUNTHILA_CELLS, nodes, NUNTHILA_NODES, vars, NUNTHILA_VARS,
                                   types, NUNTHILA_TYPES, errors, NUNTHILA_ERRORS, equations, NUNTHILA_LOG, memory, NUNTHILA_MEMORY, out,
                                   NUNTHILA_OUT, told, NUNTHILA_TOLD, NUNTHILA_PLACES, NUMBER);
}

/* The bytes of the stack that a call of the function changes. */
static size_t depth(int of)
{
    size_t i = 0;
    function = of;
    memset(stack, PATTERN, STACK);
    getcontext(&there);
    there.uc_stack.ss_sp = stack;
    there.uc_stack.ss_size = STACK;
    there.uc_link = &here;
    makecontext(&there, run, 0);
    swapcontext(&here, &there);
    while (i < STACK && stack[i] == PATTERN)
        i++;
    return STACK - i;
}

static void put(const char *line)
{
    size_t n = strlen(line);
    memcpy(body + length, line, n);
    length += n;
}

/* Lines that put a form over the node before, and the levels that they add. In them @ is that node, and #0, #1 and so on are the nodes of these lines. */
struct form {
    const char *name;
    const char *lines;
    int levels;
};

static void over(const struct form *form, int *last)
{
    const char *c;
    char number[16];
    int nodes = 0;
    for (c = form->lines; *c; c++) {
        if (*c == '@' || *c == '#') {
            snprintf(number, sizeof number, "%d", *c == '@' ? *last : *last + 1 + (c[1] - '0'));
            put(number);
            c += *c == '#';
        } else {
            body[length++] = (uint8_t)*c;
            nodes += *c == '\n';
        }
    }
    *last += nodes;
}

/* Up to so many levels of two forms in turn over the node `last`, and a block over them, with the statements `before` before it. */
static void pile(const struct form *odd, const struct form *even, int levels, int last, const char *before)
{
    char line[64];
    int i;
    for (i = 0; (i % 2 ? even : odd)->levels <= levels; i++) {
        over(i % 2 ? even : odd, &last);
        levels -= (i % 2 ? even : odd)->levels;
    }
    snprintf(line, sizeof line, "node=block,-,%s%d\nfn=0,%d\n", before, last, last + 1);
    put(line);
}

/* A function and a method of it, for the forms that call one. */
#define DECLARED "def=8,8\nbind=8,1:0\n"

/* 64 levels, a list of an integer below them. */
static void levels(const struct form *odd, const struct form *even)
{
    length = 0;
    put(DECLARED "node=int\nnode=list,0\n");
    pile(odd, even, 61, 1, "");
}

/* The same over an assignment of a lambda to a variable that stands in it: answered 12. */
static void search(const struct form *odd, const struct form *even)
{
    length = 0;
    put(DECLARED "node=let,-,-\nnode=path,l0,1\nnode=path,l0,1\nnode=lambda,-,2\nnode=assign,1,3\n");
    pile(odd, even, 60, 4, "0,");
}

/* The same over an assignment of lambdas four deep to functions four deep; at the bottom an array is searched for a param's variable. */
static void functions(const struct form *odd, const struct form *even)
{
    length = 0;
    put("type=array,8\ntype=fun,0,8,14\ntype=fun,0,15\ntype=fun,0,16\ntype=fun,0,17\n" DECLARED
        "node=let,18,-\nnode=param,-\nnode=int\nnode=lambda,-,2,1\nnode=lambda,-,3\nnode=lambda,-,4\nnode=lambda,-,5\nnode=let,-,6\n"
        "node=path,l0,1\nnode=path,l7,1\nnode=assign,8,9\n");
    pile(odd, even, 61, 10, "0,7,");
}

/* The same over an assignment that fails, of a let that an assignment before has bound. */
static void failure(const struct form *odd, const struct form *even)
{
    length = 0;
    put(DECLARED "node=let,-,-\nnode=path,l0,1\nnode=bool\nnode=assign,1,2\nnode=path,l0,1\nnode=int\nnode=assign,4,5\n");
    pile(odd, even, 61, 6, "0,3,");
}

/* Lets a, b, .., z and assignments, 64 statements in a block: a = true, a = b, b = c, .., z = 1; if `ring`, a = b, b = c, .., z = a. One in
   `lists` of those between two neighbours is of a list of the second, as a = [b]. */
static void chain(int lets, int lists, int ring)
{
    char line[64];
    int statements[1024], count = 0, node = 0, i, block;
    length = 0;
    for (i = 0; i < lets; i++) {
        put("node=let,-,-\n");
        statements[count++] = node++;
    }
    for (i = ring; i <= lets; i++) {
        snprintf(line, sizeof line, "node=path,l%d,1\n", i == 0 ? 0 : i - 1);
        put(line);
        snprintf(line, sizeof line, "node=path,l%d,1\n", i % lets);
        put(i == 0 ? "node=bool\n" : i == lets && !ring ? "node=int\n" : line);
        node += 2;
        if (i > 0 && i < lets && i % lists == 0) {
            snprintf(line, sizeof line, "node=list,%d\nnode=assign,%d,%d\n", node - 1, node - 2, node);
            node++;
        } else {
            snprintf(line, sizeof line, "node=assign,%d,%d\n", node - 2, node - 1);
        }
        put(line);
        statements[count++] = node++;
    }
    for (i = 0; i < count; i++) {
        snprintf(line, sizeof line, "%s,%d", i % 64 ? "" : i ? "\nnode=block,-" : "node=block,-", statements[i]);
        put(line);
    }
    put("\nnode=block,-");
    for (block = 0; block < (count + 63) / 64; block++) {
        snprintf(line, sizeof line, ",%d", node++);
        put(line);
    }
    snprintf(line, sizeof line, "\nfn=0,%d\n", node);
    put(line);
}

static size_t deepest[FUNCTIONS], without;
static int wrong;

enum { ANY = 100 };

static void measure(const char *name, size_t checked, size_t quarreled)
{
    const size_t expected[FUNCTIONS] = {checked, checked, quarreled, quarreled};
    int of;
    for (of = 0; of < FUNCTIONS; of++) {
        size_t d = depth(of) - without;
        if (expected[of] != ANY && answer != expected[of]) {
            printf("%s: %s answers %zu, expected %zu\n", name, function_name[of], answer, expected[of]);
            wrong = 1;
        }
        if (d > deepest[of]) {
            deepest[of] = d;
            printf("%7zu %s, %s\n", d, function_name[of], name);
        }
    }
}

int main(int count, char **names)
{
    static const struct form forms[] = {
        {"list", "node=list,@\n", 1},
        {"list behind another element", "node=int\nnode=list,#0,@\n", 1},
        {"un,t", "node=un,t,@\n", 1},
        {"un,r", "node=un,r,@\n", 1},
        {"bin", "node=int\nnode=bin,b,#0,@\n", 1},
        {"index", "node=int\nnode=list,#0\nnode=index,#1,@\n", 1},
        {"assign", "node=int\nnode=assign,#0,@\n", 1},
        {"opassign", "node=int\nnode=opassign,#0,@\n", 1},
        {"field", "node=field,@,1\n", 1},
        {"call", "node=call,@\n", 1},
        {"argument of a function", "node=path,f0,1\nnode=call,#0,@\n", 1},
        {"argument of a lambda", "node=param,-\nnode=int\nnode=lambda,-,#1,#0\nnode=call,#2,@\n", 1},
        {"mcall", "node=mcall,@,1\n", 1},
        {"argument of mcall", "node=path,f0,1\nnode=int\nnode=call,#0,#1\nnode=mcall,#2,1,@\n", 1},
        {"condition", "node=block,-\nnode=if,@,#0,-\n", 1},
        {"else", "node=bool\nnode=block,-\nnode=if,#0,#1,@\n", 1},
        {"loop", "node=block,-,@\nnode=loop,#0\n", 2},
        {"let", "node=let,-,@\nnode=block,-,#0\n", 2},
        {"tail of a block", "node=block,@\n", 1},
        {"statement", "node=block,-,@\n", 1},
        {"lambda", "node=lambda,-,@\n", 1},
        {"return", "node=return,@\n", 1},
    };
    const size_t kinds = sizeof forms / sizeof forms[0];
    size_t i, j;
    int k;
    char name[128];
    without = depth(NONE);
    for (i = 0; i < kinds; i++)
        for (j = 0; j < kinds; j++) {
            snprintf(name, sizeof name, "64 levels of %s and %s", forms[i].name, forms[j].name);
            levels(&forms[i], &forms[j]);
            measure(name, 0, ANY);
            snprintf(name, sizeof name, "a search under %s and %s", forms[i].name, forms[j].name);
            search(&forms[i], &forms[j]);
            measure(name, 12, 14);
            snprintf(name, sizeof name, "functions four deep under %s and %s", forms[i].name, forms[j].name);
            functions(&forms[i], &forms[j]);
            measure(name, 0, 14);
            snprintf(name, sizeof name, "a failure under %s and %s", forms[i].name, forms[j].name);
            failure(&forms[i], &forms[j]);
            measure(name, 0, 0);
        }
    chain(253, 1000, 0);
    measure("a chain of 253 lets", 0, 0);
    chain(202, 1, 0);
    measure("a chain of 202 lets in lists", 0, 0);
    chain(253, 1000, 1);
    measure("a ring of 253 lets", 0, 14);
    chain(203, 1, 1);
    measure("a ring of 203 lets in lists", 12, 0);
    chain(252, 251, 1);
    measure("a ring of 252 lets, one in a list", 12, 0);
    for (k = 1; k < count; k++) {
        FILE *f = fopen(names[k], "rb");
        if (!f) {
            fprintf(stderr, "stack: %s cannot be read\n", names[k]);
            return 2;
        }
        length = fread(body, 1, sizeof body, f);
        fclose(f);
        measure(names[k], ANY, ANY);
    }
    for (k = 0; k < FUNCTIONS; k++) {
        printf("deepest stack of %s: %zu bytes\n", function_name[k], deepest[k]);
        wrong |= deepest[k] > MOST;
    }
    return wrong;
}
