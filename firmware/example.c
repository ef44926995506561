/* Prints the type report of a body, as firmware would make it: all memory is static.

   usage: example [FILE]; without FILE the body is read from standard input. Exits with the answer; with 100 where reading or writing
   fails. */
#define _POSIX_C_SOURCE 200809L
#include "nunthila.h"

#include <fcntl.h>
#include <unistd.h>

enum { FAILED = 100 };

/* One byte more than a body may have, so that a longer one is seen. */
static uint8_t body[NUNTHILA_BYTES + 1];

static uint16_t rows[NUNTHILA_ROWS];
static uint16_t cells[NUNTHILA_CELLS];
static uint16_t nodes[NUNTHILA_NODES];
static uint16_t vars[NUNTHILA_VARS];
static uint16_t types[NUNTHILA_TYPES];
static nunthila_error errors[NUNTHILA_ERRORS];
static uint16_t no_log[1]; /* lent with length 0 */
static uint16_t memory[NUNTHILA_MEMORY];
static uint8_t out[NUNTHILA_OUT];
static size_t told[NUNTHILA_TOLD];

/* Reads until the end of the file or until body is full. */
static int read_body(int file, size_t *length) {
    *length = 0;
    while (*length < sizeof body) {
        ssize_t n = read(file, body + *length, sizeof body - *length);
        if (n < 0)
            return 0;
        if (n == 0)
            return 1;
        *length += (size_t)n;
    }
    return 1;
}

static int write_all(const uint8_t *bytes, size_t length) {
    while (length > 0) {
        ssize_t n = write(STDOUT_FILENO, bytes, length);
        if (n <= 0)
            return 0;
        bytes += n;
        length -= (size_t)n;
    }
    return 1;
}

int main(int argc, char **argv) {
    static const uint8_t no_room[] = "answer=9,-\n";
    int file = STDIN_FILENO;
    size_t length, answer;
    int written;

    if (argc > 1)
        file = open(argv[1], O_RDONLY);
    if (file < 0 || !read_body(file, &length))
        return FAILED;
    answer = nunthila_report(body, length, rows, NUNTHILA_ROWS, cells, NUNTHILA_CELLS, nodes, NUNTHILA_NODES, vars, NUNTHILA_VARS,
                             types, NUNTHILA_TYPES, errors, NUNTHILA_ERRORS, no_log, 0, memory, NUNTHILA_MEMORY, out, NUNTHILA_OUT,
                             told, NUNTHILA_TOLD);
    if (answer == NUNTHILA_NO_ROOM)
        written = write_all(no_room, sizeof no_room - 1);
    else
        written = write_all(out, told[NUNTHILA_TOLD_LENGTH]);
    return written ? (int)answer : FAILED;
}
