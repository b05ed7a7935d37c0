#define _DEFAULT_SOURCE
#include "check.h"
#include <stdio.h>
#include <stdlib.h>
#include <string.h>
#include <sys/mman.h>

enum { PAGE = 4096, ROOM = 26 * PAGE };

enum side side;
static const char *open_group;
static int checks, failures, passed, failed;

static void close_group(void)
{
    if (open_group == NULL) return;
    printf("c: %s: %d checks%s\n", open_group, checks, failures > 0 ? ", FAILED" : "");
    if (failures > 0) failed++;
    else passed++;
}

void group(const char *name)
{
    close_group();
    open_group = name;
    checks = failures = 0;
}

int report(void)
{
    close_group();
    printf("%d passed, %d failed\n", passed, failed);
    return failed == 0 && passed > 0 ? 0 : 1;
}

void check_at(bool holds, const char *what, const char *file, int line)
{
    checks++;
    if (!holds && failures++ == 0) printf("%s:%d: not so: %s (side %d)\n", file, line, what, side);
}

bool all_zero(const void *at, size_t length)
{
    const uint8_t *byte = at;
    for (size_t i = 0; i < length; i++)
        if (byte[i] != 0) return false;
    return true;
}

bool same(const void *at, bytes expected)
{
    return expected.length == 0 || memcmp(at, expected.at, expected.length) == 0;
}

bool is_hex(const uint8_t *at, size_t length, const char *digits)
{
    char two[3];
    for (size_t i = 0; i < length; i++) {
        snprintf(two, sizeof two, "%02x", at[i]);
        if (memcmp(two, digits + 2 * i, 2) != 0) return false;
    }
    return digits[2 * length] == '\0';
}

/* ROOM bytes between two pages that cannot be touched */
static uint8_t *fenced(void)
{
    uint8_t *at = mmap(NULL, ROOM + 2 * PAGE, PROT_NONE, MAP_PRIVATE | MAP_ANONYMOUS, -1, 0);
    if (at == MAP_FAILED || mprotect(at + PAGE, ROOM, PROT_READ | PROT_WRITE) != 0) abort();
    return at + PAGE;
}

static uint8_t *place_in(uint8_t *room, size_t length)
{
    if (length > ROOM) abort();
    if (side == NULL_IF_EMPTY && length == 0) return NULL;
    return side == AT_THE_START ? room : room + ROOM - length;
}

bytes input(int place, bytes from)
{
    static uint8_t *rooms[INPUTS];
    if (rooms[place] == NULL) rooms[place] = fenced();
    uint8_t *at = place_in(rooms[place], from.length);
    if (from.length > 0) memcpy(at, from.at, from.length);
    return (bytes){at, from.length};
}

static uint8_t *lent_room, *lent;
static uint8_t pattern[ROOM];

uint8_t *lend(size_t length)
{
    if (lent_room == NULL) {
        lent_room = fenced();
        for (size_t i = 0; i < ROOM; i++) pattern[i] = (uint8_t)(i * 7 + i / 256);
    }
    memcpy(lent_room, pattern, ROOM);
    lent = place_in(lent_room, length);
    return lent;
}

bool holds_only(bytes written)
{
    size_t front = lent == NULL ? 0 : (size_t)(lent - lent_room);
    size_t after = front + written.length;
    return same(lent, written) && memcmp(lent_room, pattern, front) == 0
           && memcmp(lent_room + after, pattern + after, ROOM - after) == 0;
}

bytes read_file(const char *path)
{
    FILE *file = fopen(path, "rb");
    uint8_t *at = malloc(ROOM);
    if (file == NULL || at == NULL) {
        fprintf(stderr, "%s cannot be read\n", path);
        exit(2);
    }
    bytes read = {at, fread(at, 1, ROOM, file)};
    fclose(file);
    return read;
}
