/*
 * Each byte of an answer is fixed by what was passed. A call is made several times, each time in memory, over a stack and after
 * secrets that hold other bytes than before; all bytes of its answer have to be the same, and zeros after a refusal.
 */
#include "groups.h"
#include <string.h>
#include <yendlowa_desk.h>
#include <yendlowa_issuer.h>

/*
 * An answer of more than 16 bytes is returned in memory that the caller lends. Its address goes in as if it were a first argument
 * and comes back (System V ABI for x86-64), so the functions are declared that way too: no copy is made behind the test's back.
 */
typedef const uint8_t *at;
void *sha256_into(void *answer, at message, size_t length) __asm__("yendlowa_sha256");
void *hmac_into(void *answer, at key, size_t key_length, at message, size_t length) __asm__("yendlowa_hmac_sha256");
void *read_into(void *answer, at policy, size_t length) __asm__("yendlowa_read_policy");
void *order_into(void *answer, at policy, size_t length) __asm__("yendlowa_order");
void *plan_into(void *answer, at policy, size_t length) __asm__("yendlowa_plan");
void *growth_into(void *answer, at policy, size_t length) __asm__("yendlowa_growth");
void *roster_into(void *answer, at policy, size_t length, at roster, size_t roster_length) __asm__("yendlowa_read_roster");
void *plan_roster_into(void *answer, at policy, size_t length, at roster, size_t roster_length) __asm__("yendlowa_plan_roster");
void *growth_roster_into(void *answer, at policy, size_t length, at roster, size_t roster_length) __asm__("yendlowa_growth_roster");
void *key_roster_into(void *answer, at policy, size_t length, at roster, size_t roster_length, at name, size_t name_length, at root,
                      size_t root_length) __asm__("yendlowa_issuer_key_roster");
void *key_into(void *answer, at policy, size_t length, at name, size_t name_length, at root, size_t root_length)
    __asm__("yendlowa_issuer_key");
void *derive_into(void *answer, at envelope, size_t length, at name, size_t name_length) __asm__("yendlowa_derive");
void *labels_into(void *answer, at envelope, size_t length) __asm__("yendlowa_labels");

/* One call on up to six inputs. Those that lend a buffer lend always the same one. */
typedef void call(void *answer, const bytes in[INPUTS]);
static uint8_t out[YENDLOWA_DRAWING_ROOM];

static void sha256(void *answer, const bytes *in) { check(sha256_into(answer, in[0].at, in[0].length) == answer); }
static void hmac(void *answer, const bytes *in)
{
    check(hmac_into(answer, in[0].at, in[0].length, in[1].at, in[1].length) == answer);
}
static void read_policy(void *answer, const bytes *in) { check(read_into(answer, in[0].at, in[0].length) == answer); }
static void order(void *answer, const bytes *in) { check(order_into(answer, in[0].at, in[0].length) == answer); }
static void plan(void *answer, const bytes *in) { check(plan_into(answer, in[0].at, in[0].length) == answer); }
static void growth_of(void *answer, const bytes *in) { check(growth_into(answer, in[0].at, in[0].length) == answer); }
static void weigh(void *answer, const bytes *in)
{
    yendlowa_weighed w = yendlowa_weigh(in[0].at, in[0].length, in[1].at, in[1].length);
    memcpy(answer, &w, sizeof w);
}
static void plan_text(void *answer, const bytes *in)
{
    yendlowa_written w = yendlowa_plan_text(in[0].at, in[0].length, out, sizeof out);
    memcpy(answer, &w, sizeof w);
}
static void plan_dot(void *answer, const bytes *in)
{
    yendlowa_written w = yendlowa_plan_dot(in[0].at, in[0].length, out, sizeof out);
    memcpy(answer, &w, sizeof w);
}
static void growth_text(void *answer, const bytes *in)
{
    yendlowa_written w = yendlowa_growth_text(in[0].at, in[0].length, out, sizeof out);
    memcpy(answer, &w, sizeof w);
}
static void pad_name(void *answer, const bytes *in)
{
    yendlowa_written w = yendlowa_pad_name(in[0].at, in[0].length, out, sizeof out);
    memcpy(answer, &w, sizeof w);
}
static void issue(void *answer, const bytes *in)
{
    yendlowa_written w =
        yendlowa_issue(in[0].at, in[0].length, in[1].at, in[1].length, 5, in[2].at, in[2].length, out, sizeof out);
    memcpy(answer, &w, sizeof w);
}
static void seal(void *answer, const bytes *in)
{
    yendlowa_written w = yendlowa_seal(in[0].at, in[0].length, in[1].at, in[1].length, in[2].at, in[2].length, in[3].at, in[3].length,
                                       in[4].at, in[4].length, out, sizeof out);
    memcpy(answer, &w, sizeof w);
}
static void open_sealed(void *answer, const bytes *in)
{
    yendlowa_written w = yendlowa_open(in[0].at, in[0].length, in[1].at, in[1].length, out, sizeof out);
    memcpy(answer, &w, sizeof w);
}
static void issuer_key(void *answer, const bytes *in)
{
    check(key_into(answer, in[0].at, in[0].length, in[1].at, in[1].length, in[2].at, in[2].length) == answer);
}
static void fingerprint(void *answer, const bytes *in)
{
    yendlowa_root_fingerprint f = yendlowa_fingerprint(in[0].at, in[0].length);
    memcpy(answer, &f, sizeof f);
}
static void derive(void *answer, const bytes *in)
{
    check(derive_into(answer, in[0].at, in[0].length, in[1].at, in[1].length) == answer);
}
static void labels(void *answer, const bytes *in) { check(labels_into(answer, in[0].at, in[0].length) == answer); }

#define BOTH in[0].at, in[0].length, in[1].at, in[1].length
static void read_roster(void *answer, const bytes *in) { check(roster_into(answer, BOTH) == answer); }
static void plan_roster(void *answer, const bytes *in) { check(plan_roster_into(answer, BOTH) == answer); }
static void growth_roster(void *answer, const bytes *in) { check(growth_roster_into(answer, BOTH) == answer); }
static void key_roster(void *answer, const bytes *in)
{
    check(key_roster_into(answer, BOTH, in[2].at, in[2].length, in[3].at, in[3].length) == answer);
}
static void weigh_roster(void *answer, const bytes *in)
{
    yendlowa_weighed w = yendlowa_weigh_roster(BOTH, in[2].at, in[2].length);
    memcpy(answer, &w, sizeof w);
}
static void roster_text(void *answer, const bytes *in)
{
    yendlowa_written w = yendlowa_roster_text(BOTH, out, sizeof out);
    memcpy(answer, &w, sizeof w);
}
static void count_policy(void *answer, const bytes *in)
{
    yendlowa_written w = yendlowa_count_policy(BOTH, out, sizeof out);
    memcpy(answer, &w, sizeof w);
}
static void plan_text_roster(void *answer, const bytes *in)
{
    yendlowa_written w = yendlowa_plan_text_roster(BOTH, out, sizeof out);
    memcpy(answer, &w, sizeof w);
}
static void plan_dot_roster(void *answer, const bytes *in)
{
    yendlowa_written w = yendlowa_plan_dot_roster(BOTH, out, sizeof out);
    memcpy(answer, &w, sizeof w);
}
static void growth_text_roster(void *answer, const bytes *in)
{
    yendlowa_written w = yendlowa_growth_text_roster(BOTH, out, sizeof out);
    memcpy(answer, &w, sizeof w);
}
static void issue_roster(void *answer, const bytes *in)
{
    yendlowa_written w = yendlowa_issue_roster(BOTH, in[2].at, in[2].length, 1, in[3].at, in[3].length, out, sizeof out);
    memcpy(answer, &w, sizeof w);
}
static void seal_roster(void *answer, const bytes *in)
{
    yendlowa_written w = yendlowa_seal_roster(BOTH, in[2].at, in[2].length, in[3].at, in[3].length, in[4].at, in[4].length,
                                              in[5].at, in[5].length, out, sizeof out);
    memcpy(answer, &w, sizeof w);
}

#define ENVELOPE "EN\0\5CONV32  " "KSCONV32  " ROOT "KDACCRUED \0"
#define NAME "CONV32  "

static const struct {
    call *ask;
    size_t size;
    uint8_t refusal;
    bytes in[INPUTS];
} calls[] = {
    {sha256, sizeof(yendlowa_digest), YENDLOWA_ACCEPTED, {TEXT("abc")}},
    {hmac, sizeof(yendlowa_digest), YENDLOWA_ACCEPTED, {TEXT("key"), TEXT("abc")}},
    {read_policy, sizeof(yendlowa_policy), YENDLOWA_ACCEPTED, {TEXT(E)}},
    {read_policy, sizeof(yendlowa_policy), YENDLOWA_NOT_ABOVE, {TEXT(E "OV\3\3")}},
    {order, sizeof(yendlowa_rows), YENDLOWA_ACCEPTED, {TEXT(E)}},
    {order, sizeof(yendlowa_rows), YENDLOWA_NOT_ABOVE, {TEXT(E "OV\3\3")}},
    {plan, sizeof(yendlowa_planned), YENDLOWA_ACCEPTED, {TEXT(E)}},
    {plan, sizeof(yendlowa_planned), YENDLOWA_NOT_ABOVE, {TEXT(E "OV\3\3")}},
    {weigh, sizeof(yendlowa_weighed), YENDLOWA_ACCEPTED, {TEXT(E), TEXT("TR\0\0\0\2")}},
    {weigh, sizeof(yendlowa_weighed), YENDLOWA_TREE_PARENT, {TEXT(E), TEXT("TR\0\0\1\2")}},
    {plan_text, sizeof(yendlowa_written), YENDLOWA_ACCEPTED, {TEXT(E)}},
    {plan_text, sizeof(yendlowa_written), YENDLOWA_NOT_ABOVE, {TEXT(E "OV\3\3")}},
    {plan_dot, sizeof(yendlowa_written), YENDLOWA_ACCEPTED, {TEXT(E)}},
    {plan_dot, sizeof(yendlowa_written), YENDLOWA_NOT_ABOVE, {TEXT(E "OV\3\3")}},
    {growth_of, sizeof(yendlowa_grown), YENDLOWA_ACCEPTED, {TEXT(E)}},
    {growth_of, sizeof(yendlowa_grown), YENDLOWA_NOT_ABOVE, {TEXT(E "OV\3\3")}},
    {growth_text, sizeof(yendlowa_written), YENDLOWA_ACCEPTED, {TEXT(E)}},
    {growth_text, sizeof(yendlowa_written), YENDLOWA_NOT_ABOVE, {TEXT(E "OV\3\3")}},
    {read_roster, sizeof(yendlowa_roster), YENDLOWA_ACCEPTED, {TEXT(E), TEXT(WORKED)}},
    {read_roster, sizeof(yendlowa_roster), YENDLOWA_NOT_ON_ROSTER, {TEXT(E), TEXT(WORKED "HD\0\3")}},
    {read_roster, sizeof(yendlowa_roster), YENDLOWA_NOT_ABOVE, {TEXT(E "OV\3\3"), TEXT(WORKED)}},
    {plan_roster, sizeof(yendlowa_planned), YENDLOWA_ACCEPTED, {TEXT(E), TEXT(WORKED)}},
    {plan_roster, sizeof(yendlowa_planned), YENDLOWA_NOT_ON_ROSTER, {TEXT(E), TEXT(WORKED "HD\0\3")}},
    {growth_roster, sizeof(yendlowa_grown), YENDLOWA_ACCEPTED, {TEXT(E), TEXT(WORKED)}},
    {growth_roster, sizeof(yendlowa_grown), YENDLOWA_NOT_ON_ROSTER, {TEXT(E), TEXT(WORKED "HD\0\3")}},
    {roster_text, sizeof(yendlowa_written), YENDLOWA_ACCEPTED, {TEXT(E), TEXT(WORKED)}},
    {roster_text, sizeof(yendlowa_written), YENDLOWA_NOT_ON_ROSTER, {TEXT(E), TEXT(WORKED "HD\0\3")}},
    {count_policy, sizeof(yendlowa_written), YENDLOWA_ACCEPTED, {TEXT(E), TEXT(WORKED)}},
    {count_policy, sizeof(yendlowa_written), YENDLOWA_NOT_ON_ROSTER, {TEXT(E), TEXT(WORKED "HD\0\3")}},
    {plan_text_roster, sizeof(yendlowa_written), YENDLOWA_ACCEPTED, {TEXT(E), TEXT(WORKED)}},
    {plan_text_roster, sizeof(yendlowa_written), YENDLOWA_NOT_ON_ROSTER, {TEXT(E), TEXT(WORKED "HD\0\3")}},
    {plan_dot_roster, sizeof(yendlowa_written), YENDLOWA_ACCEPTED, {TEXT(E), TEXT(WORKED)}},
    {plan_dot_roster, sizeof(yendlowa_written), YENDLOWA_NOT_ON_ROSTER, {TEXT(E), TEXT(WORKED "HD\0\3")}},
    {growth_text_roster, sizeof(yendlowa_written), YENDLOWA_ACCEPTED, {TEXT(E), TEXT(WORKED)}},
    {growth_text_roster, sizeof(yendlowa_written), YENDLOWA_NOT_ON_ROSTER, {TEXT(E), TEXT(WORKED "HD\0\3")}},
    {weigh_roster, sizeof(yendlowa_weighed), YENDLOWA_ACCEPTED, {TEXT(E), TEXT(WORKED), TEXT("TR\0\0\0\2")}},
    {weigh_roster, sizeof(yendlowa_weighed), YENDLOWA_TREE_PARENT, {TEXT(E), TEXT(WORKED), TEXT("TR\0\0\1\2")}},
    {key_roster, sizeof(yendlowa_label_key), YENDLOWA_ACCEPTED, {TEXT(E), TEXT(WORKED), TEXT(NAME), TEXT(ROOT)}},
    {key_roster, sizeof(yendlowa_label_key), YENDLOWA_ROOT_LENGTH, {TEXT(E), TEXT(WORKED), TEXT(NAME), TEXT("")}},
    {issue_roster, sizeof(yendlowa_written), YENDLOWA_ACCEPTED, {TEXT(E), TEXT(WORKED), TEXT("SUITE   "), TEXT(ROOT)}},
    {issue_roster, sizeof(yendlowa_written), YENDLOWA_ACCOUNT_HELD, {TEXT(E), TEXT(WORKED "HD\0\1"), TEXT("SUITE   "), TEXT(ROOT)}},
    {seal_roster, sizeof(yendlowa_written), YENDLOWA_ACCEPTED, {TEXT(E), TEXT(WORKED), TEXT(NAME), TEXT(ROOT), TEXT(NONCE), TEXT("abc")}},
    {seal_roster, sizeof(yendlowa_written), YENDLOWA_NOT_SEALED, {TEXT(E), TEXT(WORKED), TEXT(NAME), TEXT(ROOT), TEXT(""), TEXT("abc")}},
    {pad_name, sizeof(yendlowa_written), YENDLOWA_ACCEPTED, {TEXT("CONV32")}},
    {issue, sizeof(yendlowa_written), YENDLOWA_ACCEPTED, {TEXT(E), TEXT(NAME), TEXT(ROOT)}},
    {issue, sizeof(yendlowa_written), YENDLOWA_ROOT_LENGTH, {TEXT(E), TEXT(NAME), TEXT("")}},
    {seal, sizeof(yendlowa_written), YENDLOWA_ACCEPTED, {TEXT(E), TEXT(NAME), TEXT(ROOT), TEXT(NONCE), TEXT("abc")}},
    {seal, sizeof(yendlowa_written), YENDLOWA_NOT_SEALED, {TEXT(E), TEXT(NAME), TEXT(ROOT), TEXT(""), TEXT("abc")}},
    {open_sealed, sizeof(yendlowa_written), YENDLOWA_ACCEPTED, {TEXT(ENVELOPE), TEXT(SEALED)}},
    {open_sealed, sizeof(yendlowa_written), YENDLOWA_BAD_TAG, {TEXT(ENVELOPE), TEXT(SEALED "!")}},
    {issuer_key, sizeof(yendlowa_label_key), YENDLOWA_ACCEPTED, {TEXT(E), TEXT(NAME), TEXT(ROOT)}},
    {issuer_key, sizeof(yendlowa_label_key), YENDLOWA_ROOT_LENGTH, {TEXT(E), TEXT(NAME), TEXT("")}},
    {fingerprint, sizeof(yendlowa_root_fingerprint), YENDLOWA_ACCEPTED, {TEXT(ROOT)}},
    {fingerprint, sizeof(yendlowa_root_fingerprint), YENDLOWA_ROOT_LENGTH, {TEXT(ROOT "!")}},
    {derive, sizeof(yendlowa_derived), YENDLOWA_ACCEPTED, {TEXT(ENVELOPE), TEXT("ACCRUED ")}},
    {derive, sizeof(yendlowa_derived), YENDLOWA_NOT_LICENSED, {TEXT(ENVELOPE), TEXT("CURVES  ")}},
    {labels, sizeof(yendlowa_labels_read), YENDLOWA_ACCEPTED, {TEXT(ENVELOPE)}},
    {labels, sizeof(yendlowa_labels_read), YENDLOWA_BAD_MARK, {TEXT(ENVELOPE "K")}},
};

/* Fills the stack below the caller, which the next call will use. */
__attribute__((noinline)) static void fill_stack(uint8_t byte)
{
    uint8_t below[256 * 1024];
    memset(below, byte, sizeof below);
    __asm__ volatile("" : : "r"(below) : "memory");
}

/* Has a library work with secrets that this byte names, and leave them on the stack. */
static void work_with_secrets(uint8_t byte)
{
    static uint8_t envelope[YENDLOWA_ENVELOPE_ROOM];
    uint8_t root[YENDLOWA_KEY];
    memset(root, byte, sizeof root);
    at e = (at)E, name = (at) "ACCRUED ", top = (at) "SUITE   ";
    yendlowa_written w = yendlowa_issue(e, sizeof E - 1, top, 8, 1, root, sizeof root, envelope, sizeof envelope);
    yendlowa_derived d = yendlowa_derive(envelope, w.length, name, 8);
    yendlowa_label_key k = yendlowa_issuer_key(e, sizeof E - 1, name, 8, root, sizeof root);
    check(k.refusal == YENDLOWA_ACCEPTED && memcmp(d.key, k.key, sizeof k.key) == 0);
}

enum { BESIDE = 64, ROOM = 8400 };

/* An answer in memory that held this byte, after secrets that it names; what stands beside the answer stays. */
static uint8_t *answered(size_t i, const bytes *in, uint8_t byte, bool secrets)
{
    static _Alignas(16) uint8_t memory[BESIDE + ROOM + BESIDE];
    static uint8_t filled[sizeof memory];
    size_t after = BESIDE + calls[i].size;
    memset(memory, byte, sizeof memory);
    memset(filled, byte, sizeof filled);
    memset(out, byte, sizeof out);
    if (secrets) work_with_secrets(byte);
    else fill_stack(byte);
    calls[i].ask(memory + BESIDE, in);
    check(memcmp(memory, filled, BESIDE) == 0 && memcmp(memory + after, filled, sizeof memory - after) == 0);
    return memory + BESIDE;
}

void answers(void)
{
    static const uint8_t patterns[] = {0x00, 0xa5, 0x5a, 0xff};
    uint8_t first[ROOM];
    for (size_t i = 0; i < sizeof calls / sizeof *calls; i++) {
        bytes in[INPUTS];
        for (int k = 0; k < INPUTS; k++) in[k] = input(k, calls[i].in[k]);
        memcpy(first, answered(i, in, 0x33, false), calls[i].size);
        check(first[0] == calls[i].refusal);
        check(calls[i].refusal == YENDLOWA_ACCEPTED || all_zero(first + 1, calls[i].size - 1));
        for (size_t k = 0; k < sizeof patterns; k++) {
            check(memcmp(answered(i, in, patterns[k], false), first, calls[i].size) == 0);
            check(memcmp(answered(i, in, patterns[k], true), first, calls[i].size) == 0);
        }
    }
}
