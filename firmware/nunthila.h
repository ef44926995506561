/* The type checker of a synthesizer's scripts: libnunthila.a, for x86-64.

   A slice is lent as a pointer and a length in elements. No pointer may be null or misaligned, also where the length is 0, and no two
   slices may overlap. Nothing is kept between two calls, no memory is taken, and no table has to be cleared before a call.
   docs/TABLES.md has the tables cell by cell.

   The library calls memset, which the firmware has to provide, and nothing else. Its stack is measured, not proved: at most 102,600 bytes of
   nunthila_check and 102,696 of nunthila_report, and 103,048 of nunthila_quarrel and nunthila_shortest (docs/TABLES.md says on which bodies). */
#ifndef NUNTHILA_H
#define NUNTHILA_H

#include <stddef.h>
#include <stdint.h>

#ifdef __cplusplus
extern "C" {
#endif

/* ---- lengths ---- */

/* A body of more bytes is answered 1. */
#define NUNTHILA_BYTES 65536

/* The least length of each table, in elements; a shorter one is answered 2. A longer one is written over its whole length. */
#define NUNTHILA_ROWS 9605    /* uint16_t: the lines of the file */
#define NUNTHILA_CELLS 94716  /* uint16_t: the fields of the lines */
#define NUNTHILA_NODES 6144   /* uint16_t: the types of the nodes */
#define NUNTHILA_VARS 6144    /* uint16_t: the variables */
#define NUNTHILA_TYPES 21504  /* uint16_t: the made types and their inputs */
#define NUNTHILA_ERRORS 4096  /* nunthila_error: the type errors */
#define NUNTHILA_MEMORY 86946 /* uint16_t: working memory, zero after an answer other than 1 and 2 */

/* uint16_t: a log that holds all equations of any body. The log may have any length, 0 too; it holds as many as fit whole. */
#define NUNTHILA_LOG 6144

/* The output may have any length; this is what the program typereport lends. A report can be longer, a text of nunthila_quarrel or
   nunthila_shortest cannot: it has at most 2,048 lines of at most 29 bytes, and of nunthila_shortest a last one of at most 11. No NUL is
   written behind a text: its length is told. */
#define NUNTHILA_OUT 65536

/* size_t: what is told of a call. In a shorter slice what fits is written; further elements of a longer one stay as they were. */
#define NUNTHILA_TOLD 14

/* ---- answers ---- */

enum {
    NUNTHILA_CHECKED = 0,        /* the body was typed; it may have type errors */
    NUNTHILA_TOO_LONG = 1,       /* over 65,536 bytes; no table is changed */
    NUNTHILA_SHORT_TABLE = 2,    /* a table is below its length; no table is changed */
    NUNTHILA_FORM = 3,           /* a line not of the form or order; place: the line, from 1 */
    NUNTHILA_LIMIT = 4,          /* a count over a limit; place: the line */
    NUNTHILA_REFERENCE = 5,      /* a number that breaks a reference rule; place: the line */
    NUNTHILA_LEVELS = 6,         /* too many levels; place: the line */
    NUNTHILA_NO_ROOM = 9,        /* the output is too short for the text; no place, also where the answer of the check has one; not of
                                    nunthila_check */
    NUNTHILA_NO_RULE = 10,       /* a string, or a path that has no type; place: the node */
    NUNTHILA_UNTYPED_LOCAL = 11, /* a local that is not yet typed; place: the node */
    NUNTHILA_INSIDE_ITSELF = 12, /* a variable that would stand inside its own binding; place: the node; of nunthila_check and
                                    nunthila_report alone */
    NUNTHILA_NEGATED = 13,       /* a negated number that would not be a signed integer; place: the node */
    NUNTHILA_NOTHING = 14        /* no equation failed, or one up to the first that did has a side that is not plain; of nunthila_quarrel
                                    and nunthila_shortest alone */
};

/* ---- told ---- */

/* The counts are 0 unless the answer of the check is 0. */
enum {
    NUNTHILA_TOLD_ANSWER = 0,     /* the answer of the check, also where nunthila_report returns 9; what nunthila_quarrel and
                                     nunthila_shortest return */
    NUNTHILA_TOLD_HAS_PLACE = 1,  /* 1 if told[NUNTHILA_TOLD_ANSWER] has a place: 3 to 6, 10 to 13. Where nunthila_report returns 9 this
                                     is the place of the check; the PLACE of the report is then `-` */
    NUNTHILA_TOLD_PLACE = 2,      /* the place, else 0 */
    NUNTHILA_TOLD_TYPES = 3,      /* type lines of the file */
    NUNTHILA_TOLD_DEFS = 4,       /* def lines */
    NUNTHILA_TOLD_INSTS = 5,      /* inst lines */
    NUNTHILA_TOLD_BINDS = 6,      /* bind lines */
    NUNTHILA_TOLD_NODES = 7,      /* node lines */
    NUNTHILA_TOLD_FIELDS = 8,     /* fields of all lines */
    NUNTHILA_TOLD_MADE = 9,       /* made types */
    NUNTHILA_TOLD_VARS = 10,      /* variables */
    NUNTHILA_TOLD_ERRORS = 11,    /* type errors */
    NUNTHILA_TOLD_EQUATIONS = 12, /* equations raised, those without room in the log too */
    NUNTHILA_TOLD_LENGTH = 13     /* bytes of the text; 0 where 9 is returned, of nunthila_check, and on any refusal of nunthila_quarrel
                                     and nunthila_shortest */
};

/* ---- types by number ---- */

enum {
    NUNTHILA_TYPE_NIL = 0,
    NUNTHILA_TYPE_BOOL = 1,
    NUNTHILA_TYPE_U8 = 2,
    NUNTHILA_TYPE_U16 = 3,
    NUNTHILA_TYPE_U32 = 4,
    NUNTHILA_TYPE_U64 = 5,
    NUNTHILA_TYPE_I8 = 6,
    NUNTHILA_TYPE_I16 = 7,
    NUNTHILA_TYPE_I32 = 8,
    NUNTHILA_TYPE_I64 = 9,
    NUNTHILA_TYPE_F32 = 10,
    NUNTHILA_TYPE_F64 = 11,
    NUNTHILA_TYPE_ERR = 12,
    NUNTHILA_TYPE_DIVERGES = 13,
    NUNTHILA_TYPE_FILE = 14 /* the first type line; the made types follow the last one, from 14 + told[NUNTHILA_TOLD_TYPES] on */
};

/* ---- rows and cells: the file ---- */

/* The line N of a key, from 0, has the row FIRST + N, and the row R the cells 5 R to 5 R + 4 of rows. */
#define NUNTHILA_ROW_CELLS 5
enum {
    NUNTHILA_FIRST_TYPE = 0,
    NUNTHILA_FIRST_DEF = 512,
    NUNTHILA_FIRST_INST = 768,
    NUNTHILA_FIRST_BIND = 832,
    NUNTHILA_FIRST_NODE = 896,
    NUNTHILA_FIRST_FN = 1920
};
enum {
    NUNTHILA_ROW_FORM = 0,   /* docs/TABLES.md lists the forms */
    NUNTHILA_ROW_FIELD = 1,  /* the first field */
    NUNTHILA_ROW_FIELDS = 2, /* how many */
    NUNTHILA_ROW_LEVELS = 3,
    NUNTHILA_ROW_USER = 4 /* of a node: the field that uses it, plus 1; 0 if none does */
};

/* The field J has the cells 3 J to 3 J + 2 of cells. */
#define NUNTHILA_FIELD_CELLS 3
enum {
    NUNTHILA_FIELD_NAME = 0,
    NUNTHILA_FIELD_TAG = 1, /* 0 for `-`, 1 for a number or operator; of a RES 1 to 6, as NUNTHILA_EXTRA_LOCAL to _OTHER */
    NUNTHILA_FIELD_VALUE = 2
};

/* ---- nodes ---- */

/* The node N has the cells 6 N to 6 N + 5. */
#define NUNTHILA_NODE_CELLS 6
enum {
    NUNTHILA_NODE_HAS_RAW = 0, /* 1 if a rule typed the node */
    NUNTHILA_NODE_RAW = 1,     /* the type that the rule gave */
    NUNTHILA_NODE_EXTRA = 2,   /* a tag, below */
    NUNTHILA_NODE_NUMBER = 3,  /* the number that the tag speaks of */
    NUNTHILA_NODE_HAS_FINAL = 4,
    NUNTHILA_NODE_FINAL = 5 /* the final type, which memory is cut from. Only a bare variable or an array directly of one is resolved:
                               the type of an array in an array, a reference or a lambda may still hold variables, bound or open */
};
enum {
    NUNTHILA_EXTRA_NONE = 0,
    NUNTHILA_EXTRA_LOCAL = 1,       /* a path to the local of this node */
    NUNTHILA_EXTRA_FN = 2,          /* a path to this def as a function */
    NUNTHILA_EXTRA_CONSTRUCTOR = 3, /* a path to this def as a constructor */
    NUNTHILA_EXTRA_INST = 4,        /* a path to this inst */
    NUNTHILA_EXTRA_ERROR = 5,       /* a path that failed; no number */
    NUNTHILA_EXTRA_OTHER = 6,       /* a path to anything else; no number */
    NUNTHILA_EXTRA_LET = 7,         /* of a let: the type of its init as the rules gave it, else its declared type. It is not resolved
                                       and may differ from the type of the let: memory must not be cut by it, but by FINAL */
    NUNTHILA_EXTRA_METHOD = 8       /* the def of a method call */
};

/* ---- variables ---- */

/* The variable V has the cells 6 V to 6 V + 5. */
#define NUNTHILA_VAR_CELLS 6
enum {
    NUNTHILA_VAR_KIND = 0,
    NUNTHILA_VAR_IS_BOUND = 1,
    NUNTHILA_VAR_BOUND = 2,      /* the type that it is bound to */
    NUNTHILA_VAR_HAS_ORIGIN = 3, /* 0 for a literal */
    NUNTHILA_VAR_ORIGIN = 4,     /* the node that drew it */
    NUNTHILA_VAR_MARKED = 5      /* 1 if it was negated, or if an equation passed the mark of another variable on to it */
};
enum { NUNTHILA_KIND_ANY = 0, NUNTHILA_KIND_INT = 1, NUNTHILA_KIND_FLOAT = 2 };

/* ---- made types ---- */

/* The made type I has the cells 5 I to 5 I + 4 of types; its inputs stand from cell NUNTHILA_INPUTS_FROM + FIRST on. */
#define NUNTHILA_MADE_CELLS 5
#define NUNTHILA_INPUTS_FROM 20480
enum {
    NUNTHILA_MADE_HEAD = 0,
    NUNTHILA_MADE_NUMBER = 1,
    NUNTHILA_MADE_OUTPUT = 2, /* of a lambda: a type */
    NUNTHILA_MADE_FIRST = 3,  /* its first input, counted over all made types */
    NUNTHILA_MADE_INPUTS = 4  /* how many inputs it has */
};
enum {
    NUNTHILA_HEAD_INST = 5,    /* number: the inst */
    NUNTHILA_HEAD_FN = 7,      /* number: the def */
    NUNTHILA_HEAD_ARRAY = 8,   /* number: the type of the elements */
    NUNTHILA_HEAD_VAR = 12,    /* number: the variable */
    NUNTHILA_HEAD_LAMBDA = 13, /* number: the node */
    NUNTHILA_HEAD_REF = 14     /* number: the type that it refers to */
};

/* ---- errors ---- */

typedef struct {
    uint16_t kind;
    uint16_t cause;
    uint16_t span;    /* what at is */
    uint16_t at;      /* a node or a def; 0 for the signature */
    uint16_t between; /* 1 if there is a second node */
    uint16_t second;  /* the node up to which the error spans */
    uint16_t a, b, c; /* the values of the kind; 0 for those that it does not have */
} nunthila_error;

typedef char nunthila_error_has_18_bytes[sizeof(nunthila_error) == 18 ? 1 : -1];

/* KIND, with its values. */
enum {
    NUNTHILA_TYPE_MISMATCH = 0,        /* expected type, got type */
    NUNTHILA_NO_INDEX_OP = 1,          /* type */
    NUNTHILA_NO_UNARY_OP = 2,          /* type */
    NUNTHILA_NO_BINARY_OP = 3,         /* left type, right type */
    NUNTHILA_CALLING_NOT_FN = 4,       /* type */
    NUNTHILA_WRONG_ARGUMENT_TY = 5,    /* expected type, got type, argument */
    NUNTHILA_WRONG_ARGUMENT_AMNT = 6,  /* given, required */
    NUNTHILA_NO_FIELD = 7,             /* type, name */
    NUNTHILA_NOT_INSTANCE = 8,         /* type */
    NUNTHILA_METHOD_NOT_FOUND = 9,     /* type, name */
    NUNTHILA_INFER_FAIL = 10           /* none */
};
enum {
    NUNTHILA_CAUSE_NONE = 0,    /* no equation raised the error */
    NUNTHILA_CAUSE_MISMATCH = 1 /* an equation that failed raised it */
};
enum { NUNTHILA_SPAN_NODE = 0, NUNTHILA_SPAN_BIND_ITEM = 1, NUNTHILA_SPAN_SIGNATURE = 2 };

/* ---- log ---- */

/* The equation I has the cells 3 I to 3 I + 2 of log. */
#define NUNTHILA_EQUATION_CELLS 3
enum {
    NUNTHILA_EQUATION_EXPECTED = 0,
    NUNTHILA_EQUATION_GOT = 1,
    NUNTHILA_EQUATION_OUTCOME = 2 /* 0 success, 1 mismatch */
};

/* ---- lines of nunthila_quarrel and nunthila_shortest ---- */

/* Any number other than 0 is taken as NUNTHILA_PLACES. */
enum {
    NUNTHILA_NUMBERS = 0, /* equation=N: the equation by its number, from 0 in the order raised */
    NUNTHILA_PLACES = 1   /* equation=N,NODE,EXPECTED,GOT: with the node whose rule raised it, and the types of its two sides */
};

/* ---- functions ---- */

/* Types the body s. Returns the answer: 0 to 6, 10 to 13. After 0 the rows in use come first in each table and all behind them is 0;
   after 3 to 6 and 10 to 13 every table is 0 throughout; after 1 and 2 every table is as it was. */
size_t nunthila_check(const uint8_t *s, size_t s_len,
                      uint16_t *rows, size_t rows_len,
                      uint16_t *cells, size_t cells_len,
                      uint16_t *nodes, size_t nodes_len,
                      uint16_t *vars, size_t vars_len,
                      uint16_t *types, size_t types_len,
                      nunthila_error *errors, size_t errors_len,
                      uint16_t *log, size_t log_len,
                      uint16_t *memory, size_t memory_len,
                      size_t *told, size_t told_len);

/* The same, and writes the report of the answer to out. Returns the answer of the check; the text is out[0] to
   out[told[NUNTHILA_TOLD_LENGTH] - 1], and the bytes behind it are as they were. Returns 9 where the text has no room: out is then 0
   throughout, the PLACE of the report is `-`, and the tables and the rest of told, a place too, are those of the check. */
size_t nunthila_report(const uint8_t *s, size_t s_len,
                       uint16_t *rows, size_t rows_len,
                       uint16_t *cells, size_t cells_len,
                       uint16_t *nodes, size_t nodes_len,
                       uint16_t *vars, size_t vars_len,
                       uint16_t *types, size_t types_len,
                       nunthila_error *errors, size_t errors_len,
                       uint16_t *log, size_t log_len,
                       uint16_t *memory, size_t memory_len,
                       uint8_t *out, size_t out_len,
                       size_t *told, size_t told_len);

/* Types the body s, and writes the minimal conflict among its equations to out. Of the equations up to and including the first that failed
   or was refused 12, each one is dropped, from number 0 up, whose removal leaves the rest without a common solution. Those that are left
   have none, and without any one of them the others have one. Each has a line, by rising number; places says of which form.

   Returns 1 to 6, 10, 11 and 13 as nunthila_check does. Else 14 where no equation failed so, or where one of those equations has a side
   that is not plain: err, diverges as the expected side, a function, a def, a lambda, a reference, or an array of one of these or of
   diverges. Else 9 where the text has no room. Else 0: the text is out[0] to out[told[NUNTHILA_TOLD_LENGTH] - 1], and the bytes behind it
   are as they were. After any answer other than 0 out is 0 throughout.

   The tables and the counts of told are those of nunthila_check, whatever is answered. Where nunthila_check answers 12 they are 0, and its
   place is not told. What is found does not depend on the length of the log. */
size_t nunthila_quarrel(const uint8_t *s, size_t s_len,
                        uint16_t *rows, size_t rows_len,
                        uint16_t *cells, size_t cells_len,
                        uint16_t *nodes, size_t nodes_len,
                        uint16_t *vars, size_t vars_len,
                        uint16_t *types, size_t types_len,
                        nunthila_error *errors, size_t errors_len,
                        uint16_t *log, size_t log_len,
                        uint16_t *memory, size_t memory_len,
                        uint8_t *out, size_t out_len,
                        size_t *told, size_t told_len,
                        size_t places);

/* Types the body s, and searches for a conflict that is shorter than the minimal one of nunthila_quarrel. Of the same equations it goes
   through the subsets that are smaller than that, by size from 1, within a size by the first number in which two differ, and tests at most
   as many as number says. The first that has no common solution is written to out; where none is found, the minimal one. Each equation has
   a line, as there, and a last line is below=N: the greatest size, at most that of the conflict written, below which every non-empty subset
   was tested and has a solution. So no conflict has fewer than N equations, and one of N is a shortest. With 0 nothing is tested, and N is
   1. With a number that is not below the count of the subsets to go through, the conflict written has N equations.

   The time is bounded by number alone. There may be very many subsets: with a minimal conflict of 254 equations at least 2^254 - 2. On such
   a body a call with UINT64_MAX ends only in principle.

   Whatever number is, the answers, what is told, the tables, and which bytes of out are written are as of nunthila_quarrel. */
size_t nunthila_shortest(const uint8_t *s, size_t s_len,
                         uint16_t *rows, size_t rows_len,
                         uint16_t *cells, size_t cells_len,
                         uint16_t *nodes, size_t nodes_len,
                         uint16_t *vars, size_t vars_len,
                         uint16_t *types, size_t types_len,
                         nunthila_error *errors, size_t errors_len,
                         uint16_t *log, size_t log_len,
                         uint16_t *memory, size_t memory_len,
                         uint8_t *out, size_t out_len,
                         size_t *told, size_t told_len,
                         size_t places, uint64_t number);

#ifdef __cplusplus
}
#endif

#endif
