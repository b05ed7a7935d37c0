/*
 * YENDLOWA_POLICY_ROOM and the like: so many bytes of a longer file give the whole file's answer. One byte less does not, so the
 * numbers are no larger than they have to be.
 */
#include "groups.h"
#include <string.h>
#include <yendlowa_desk.h>
#include <yendlowa_issuer.h>

enum { LONGER = 3000 };

static uint8_t policy_refusal(bytes file) { return yendlowa_read_policy(file.at, file.length).refusal; }
static uint8_t envelope_refusal(bytes file) { return yendlowa_labels(file.at, file.length).refusal; }

/* a tree file for a policy of 64 labels */
static bytes full;
static uint8_t tree_refusal(bytes file) { return yendlowa_weigh(full.at, full.length, file.at, file.length).refusal; }

static uint8_t root_refusal(bytes file)
{
    return yendlowa_issuer_key((const uint8_t *)E, sizeof E - 1, (const uint8_t *)"SUITE   ", 8, file.at, file.length).refusal;
}

/* A long file has this refusal, as its first bytes have up to the room, and not those up to the byte before. */
static void decides(uint8_t refusal(bytes file), const uint8_t file[LONGER], size_t room, uint8_t number)
{
    for (size_t length = room; length < LONGER; length++) check(refusal(input(0, (bytes){file, length})) == number);
    check(refusal(input(0, (bytes){file, room - 1})) != number);
}

/* 64 labels, 512 pairs and a label more: cut by a byte, it is refused as cut short. */
static void policy_room(void)
{
    uint8_t file[LONGER] = "";
    memcpy(file, full.at, full.length);
    memcpy(file + full.length, "LBZ       \0\1", 12);
    decides(policy_refusal, file, YENDLOWA_POLICY_ROOM, YENDLOWA_LABEL_AFTER_PAIR);
}

/* 64 labels: one byte too many is a wrong length, and without it every label hangs from the top. */
static void tree_room(void)
{
    uint8_t file[LONGER] = "TR";
    decides(tree_refusal, file, YENDLOWA_TREE_ROOM, YENDLOWA_TREE_LENGTH);
}

/* 65 secrets: cut by a byte, the 65th is refused as cut short. */
static void envelope_room(void)
{
    uint8_t file[LONGER] = "EN\0\1AA      ";
    for (int k = 0; k < 65; k++) {
        uint8_t *record = file + 12 + 42 * k;
        memcpy(record, "KSAA      " ROOT, 42);
        record[2] = (uint8_t)('A' + k / 26);
        record[3] = (uint8_t)('A' + k % 26);
    }
    decides(envelope_refusal, file, YENDLOWA_ENVELOPE_ROOM, YENDLOWA_TOO_MANY);
}

static void root_room(void)
{
    uint8_t file[LONGER] = ROOT;
    decides(root_refusal, file, YENDLOWA_ROOT_ROOM, YENDLOWA_ROOT_LENGTH);
}

void rooms(void)
{
    if (full.at == NULL) full = read_file(FULL_POLICY);
    policy_room();
    tree_room();
    envelope_room();
    root_room();
}
