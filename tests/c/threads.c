/*
 * No function keeps anything between calls: four threads at once get what one alone gets, each on the stack that the header asks for,
 * 64 kB, or 256 kB with a roster.
 */
#include "groups.h"
#include <pthread.h>
#include <stdlib.h>
#include <string.h>
#include <yendlowa_desk.h>
#include <yendlowa_issuer.h>

enum { THREADS = 4, TURNS = 100, STACK = 64 * 1024, ROSTER_TURNS = 4, ROSTER_STACK = 256 * 1024 };

static const uint8_t *const e = (const uint8_t *)E, *const root = (const uint8_t *)ROOT;
static const size_t e_length = sizeof E - 1;

static bool issued_and_derived(uint32_t account)
{
    uint8_t envelope[YENDLOWA_ENVELOPE_ROOM];
    yendlowa_written w =
        yendlowa_issue(e, e_length, (const uint8_t *)"SUITE   ", 8, account, root, 32, envelope, sizeof envelope);
    yendlowa_derived d = yendlowa_derive(envelope, w.length, (const uint8_t *)"ACCRUED ", 8);
    return w.length == 87 && envelope[3] == account && d.applications == 3
           && is_hex(d.key, sizeof d.key, "951355f2b697b42d128ba5745838a78397ac8e851815031725cccfbee68762a0");
}

/* the longest text, in memory of the thread's own that is not its stack */
static bool sealed_and_opened(uint8_t *memory, uint8_t byte)
{
    static const uint8_t nonce[YENDLOWA_NONCE];
    uint8_t envelope[YENDLOWA_ENVELOPE_ROOM], *text = memory, *file = memory + YENDLOWA_MODULE_ROOM;
    memset(text, byte, YENDLOWA_MODULE_ROOM);
    yendlowa_written w = yendlowa_issue(e, e_length, (const uint8_t *)"CONV32  ", 8, 1, root, 32, envelope, sizeof envelope);
    yendlowa_written s = yendlowa_seal(e, e_length, (const uint8_t *)"ACCRUED ", 8, root, 32, nonce, sizeof nonce,
                                       text, YENDLOWA_MODULE_ROOM, file, YENDLOWA_SEALED_ROOM);
    memset(text, 0, YENDLOWA_MODULE_ROOM);
    yendlowa_written o = yendlowa_open(envelope, w.length, file, s.length, text, YENDLOWA_MODULE_ROOM);
    return s.length == YENDLOWA_SEALED_ROOM && o.length == YENDLOWA_MODULE_ROOM && text[0] == byte
           && memcmp(text, text + 1, YENDLOWA_MODULE_ROOM - 1) == 0;
}

static bool planned(void)
{
    uint8_t text[YENDLOWA_DRAWING_ROOM];
    return yendlowa_plan(e, e_length).total == 17 && yendlowa_order(e, e_length).rows[3][0]
           && yendlowa_weigh(e, e_length, (const uint8_t *)"TR\0\0\0\1", 6).total == 19
           && yendlowa_plan_text(e, e_length, text, sizeof text).length == 82
           && yendlowa_plan_dot(e, e_length, text, sizeof text).refusal == YENDLOWA_ACCEPTED
           && yendlowa_growth(e, e_length).costs[1] == 2 && yendlowa_growth_text(e, e_length, text, sizeof text).length == 44;
}

static bool told(void)
{
    uint8_t name[YENDLOWA_NAME];
    return same(yendlowa_refusal_text(YENDLOWA_CUT_SHORT).text, BYTES("the record is cut short\0"))
           && yendlowa_pad_name(e + 2, 5, name, sizeof name).length == 8 && same(name, BYTES("SUITE   "));
}

static void *turns(void *account)
{
    size_t agreed = 0;
    uint8_t *memory = malloc(YENDLOWA_MODULE_ROOM + YENDLOWA_SEALED_ROOM);
    if (memory == NULL) return NULL;
    for (int i = 0; i < TURNS; i++)
        agreed += issued_and_derived(*(uint32_t *)account) && planned() && told() && sealed_and_opened(memory, (uint8_t)(i + 1));
    free(memory);
    return (void *)agreed;
}

/* 64 labels and 512 pairs, and a roster of 4,096 joins and as many moves back and forth; account n is on label n % 64 */
static bytes full;
static uint8_t roster[2 * 12 * YENDLOWA_ACCOUNTS];

static void fill_roster(void)
{
    for (unsigned k = 0; k < 2 * YENDLOWA_ACCOUNTS; k++) {
        unsigned number = k % YENDLOWA_ACCOUNTS + 1, label = k < YENDLOWA_ACCOUNTS ? number / 64 % 64 : number % 64;
        uint8_t *record = roster + 12 * k;
        memcpy(record, k < YENDLOWA_ACCOUNTS ? "JN" : "MV", 2);
        record[2] = (uint8_t)(number >> 8);
        record[3] = (uint8_t)number;
        memcpy(record + 4, full.at + 12 * label + 2, YENDLOWA_NAME);
    }
}

#define BOTH full.at, full.length, roster, sizeof roster

/* Every function that takes a roster, once. What is written goes to memory of the thread's own that is not its stack. */
static bool with_roster(uint8_t *memory, size_t room)
{
    static const uint8_t nonce[YENDLOWA_NONCE], tree[2 + YENDLOWA_LABELS] = "TR";
    const uint8_t *name = full.at + 12 * 63 + 2;
    yendlowa_planned plan = yendlowa_plan_roster(BOTH);
    yendlowa_weighed flat = yendlowa_weigh_roster(BOTH, tree, sizeof tree);
    yendlowa_label_key key = yendlowa_issuer_key_roster(BOTH, name, 8, root, 32);
    yendlowa_written issued = yendlowa_issue_roster(BOTH, name, 8, 4095, root, 32, memory, room);
    yendlowa_derived derived = yendlowa_derive(memory, issued.length, name, 8);
    bool opens = issued.refusal == YENDLOWA_ACCEPTED && memory[2] * 256 + memory[3] == 4095
                 && memcmp(derived.key, key.key, sizeof key.key) == 0;
    yendlowa_written sealed = yendlowa_seal_roster(BOTH, name, 8, root, 32, nonce, sizeof nonce, e, e_length, memory, room);
    return opens && sealed.length == e_length + YENDLOWA_SEALED_MORE && yendlowa_roster_records(BOTH) == 2 * YENDLOWA_ACCOUNTS
           && flat.refusal == YENDLOWA_ACCEPTED && plan.total < flat.total && yendlowa_growth_roster(BOTH).costs[0] == 1
           && yendlowa_roster_text(BOTH, memory, room).length > 70000 && yendlowa_count_policy(BOTH, memory, room).length == full.length
           && yendlowa_plan_text_roster(BOTH, memory, room).refusal == YENDLOWA_ACCEPTED
           && yendlowa_plan_dot_roster(BOTH, memory, room).refusal == YENDLOWA_ACCEPTED
           && yendlowa_growth_text_roster(BOTH, memory, room).refusal == YENDLOWA_ACCEPTED;
}

/* the answer is not kept on the stack beside those of the others */
__attribute__((noinline)) static bool roster_read(void)
{
    yendlowa_roster a = yendlowa_read_roster(BOTH);
    return a.refusal == YENDLOWA_ACCEPTED && a.counts[0] == 64 && a.counts[63] == 64 && a.places[4094] == 63 && a.states[4095] == YENDLOWA_ACTIVE;
}

static void *roster_turns(void *unused)
{
    size_t agreed = 0;
    uint8_t *memory = malloc(YENDLOWA_ROSTER_TEXT_ROOM);
    (void)unused;
    if (memory == NULL) return NULL;
    for (int i = 0; i < ROSTER_TURNS; i++) agreed += roster_read() && with_roster(memory, YENDLOWA_ROSTER_TEXT_ROOM);
    free(memory);
    return (void *)agreed;
}

/* Every thread makes all its turns, on so much stack. */
static void at_once(void *turn(void *), size_t stack, size_t turns_each)
{
    pthread_t started[THREADS];
    pthread_attr_t small;
    uint32_t accounts[THREADS] = {1, 2, 1, 2};
    check(pthread_attr_init(&small) == 0 && pthread_attr_setstacksize(&small, stack) == 0);
    int running = 0;
    while (running < THREADS && pthread_create(&started[running], &small, turn, &accounts[running]) == 0) running++;
    check(running == THREADS);
    for (int i = 0; i < running; i++) {
        void *agreed = NULL;
        check(pthread_join(started[i], &agreed) == 0 && (size_t)agreed == turns_each);
    }
    pthread_attr_destroy(&small);
}

void threads(void) { at_once(turns, STACK, TURNS); }

void roster_threads(void)
{
    if (full.at == NULL) {
        full = read_file(FULL_POLICY);
        fill_roster();
    }
    at_once(roster_turns, ROSTER_STACK, ROSTER_TURNS);
}
