/* Checks counted by group, and memory that traps a byte read or written beside what was passed. */
#ifndef CHECK_H
#define CHECK_H

#include <stdbool.h>
#include <stddef.h>
#include <stdint.h>

typedef struct {
    const uint8_t *at;
    size_t length;
} bytes;

/* the bytes of a string literal, without the null byte after it */
#define BYTES(text) ((bytes){(const uint8_t *)(text), sizeof(text) - 1})
/* the same in an initialiser */
#define TEXT(text) {(const uint8_t *)(text), sizeof(text) - 1}

/* Opens a group; the line of the one before is printed. `report` ends the last, and prints 'N passed, M failed'. */
void group(const char *name);
int report(void);

/* One check of the group. The first that fails is told. */
void check_at(bool holds, const char *what, const char *file, int line);
#define check(holds) check_at(holds, #holds, __FILE__, __LINE__)

bool all_zero(const void *at, size_t length);
bool same(const void *at, bytes expected);
bool is_hex(const uint8_t *at, size_t length, const char *digits);

/* Where bytes are put: directly before a page that cannot be touched, directly after one, or nowhere if there are none. */
enum side { AT_THE_END, AT_THE_START, NULL_IF_EMPTY, SIDES };
extern enum side side;

/* A copy of the bytes in one of the places for inputs. */
enum { INPUTS = 6 };
bytes input(int place, bytes from);

/* A buffer to lend, and whether the bytes written stand at its start while the rest of it, and what is before and after it, is unchanged. */
uint8_t *lend(size_t length);
bool holds_only(bytes written);

bytes read_file(const char *path);

#endif
