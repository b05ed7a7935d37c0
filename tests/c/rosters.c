/*
 * Every function that takes a roster: accounts that join, move, are held, released and withdrawn, every refusal of a roster in its
 * order, what its counts change, and buffers of every length.
 */
#include "groups.h"
#include <stdio.h>
#include <string.h>
#include <yendlowa_issuer.h>

#define JN(number, name) "JN" number name
#define SUITE "SUITE   "
#define CURVES "CURVES  "
#define CONV32 "CONV32  "
#define ACCRUED "ACCRUED "
#define RATES "RATES   "

/* By these accounts ACCRUED hangs from CURVES, by those in E from CONV32. */
static const char worked_text[] = "1 SUITE active\n2 CURVES held\n3 - withdrawn\nSUITE 1\nCURVES 1\nCONV32 0\nACCRUED 0\nTOTAL 2\n";
static const char worked_plan[] = "SUITE - 1 1 1\nCURVES SUITE 1 1 1\nCONV32 SUITE 0 2 0\nACCRUED CURVES 0 1 0\nTOTAL 2\n";
static const char worked_growth[] = "SUITE 1 4\nCURVES 1 2\nCONV32 2 2\nACCRUED 1 1\n";

/* A policy and a roster in their places. */
#define BOTH p.at, p.length, r.at, r.length
#define PLACED bytes p = input(0, policy), r = input(1, roster)

static yendlowa_roster read_roster(bytes policy, bytes roster)
{
    PLACED;
    return yendlowa_read_roster(BOTH);
}

static size_t records(bytes policy, bytes roster)
{
    PLACED;
    return yendlowa_roster_records(BOTH);
}

static yendlowa_weighed weigh(bytes policy, bytes roster, bytes tree)
{
    PLACED;
    bytes t = input(2, tree);
    return yendlowa_weigh_roster(BOTH, t.at, t.length);
}

static yendlowa_label_key key(bytes policy, bytes roster, bytes name, bytes root)
{
    PLACED;
    bytes n = input(2, name), s = input(3, root);
    return yendlowa_issuer_key_roster(BOTH, n.at, n.length, s.at, s.length);
}

static yendlowa_written issue(bytes policy, bytes roster, bytes name, uint32_t account, bytes root, size_t room)
{
    PLACED;
    bytes n = input(2, name), s = input(3, root);
    return yendlowa_issue_roster(BOTH, n.at, n.length, account, s.at, s.length, lend(room), room);
}

static yendlowa_written seal(bytes policy, bytes roster, bytes name, bytes root, bytes nonce, bytes text, size_t room)
{
    PLACED;
    bytes n = input(2, name), s = input(3, root), c = input(4, nonce), t = input(5, text);
    return yendlowa_seal_roster(BOTH, n.at, n.length, s.at, s.length, c.at, c.length, t.at, t.length, lend(room), room);
}

typedef yendlowa_written writer(const uint8_t *policy, size_t policy_length, const uint8_t *roster, size_t roster_length,
                                uint8_t *out, size_t out_length);
static writer *const writers[] = {yendlowa_roster_text, yendlowa_count_policy, yendlowa_plan_text_roster, yendlowa_plan_dot_roster,
                                  yendlowa_growth_text_roster};
enum { WRITERS = sizeof writers / sizeof *writers };

static bool nothing(yendlowa_written w, uint8_t number)
{
    return w.refusal == number && all_zero(w.zeros, sizeof w.zeros) && w.length == 0 && holds_only(BYTES(""));
}

static bool wrote(yendlowa_written w, bytes text)
{
    return w.refusal == YENDLOWA_ACCEPTED && all_zero(w.zeros, sizeof w.zeros) && w.length == text.length && holds_only(text);
}

/* Beside a refusal an answer has zeros alone. */
#define ZEROS_BESIDE(answer) all_zero((const uint8_t *)&(answer) + 1, sizeof(answer) - 1)

/* Every function gives this number, whether all else is right or wrong, and writes nothing. */
static void refused(bytes policy, bytes roster, uint8_t number, size_t passed)
{
    PLACED;
    yendlowa_roster read = yendlowa_read_roster(BOTH);
    check(read.refusal == number && ZEROS_BESIDE(read));
    check(yendlowa_roster_records(BOTH) == passed);
    yendlowa_planned plan = yendlowa_plan_roster(BOTH);
    check(plan.refusal == number && ZEROS_BESIDE(plan));
    yendlowa_grown growth = yendlowa_growth_roster(BOTH);
    check(growth.refusal == number && ZEROS_BESIDE(growth));
    for (int k = 0; k < WRITERS; k++) {
        check(nothing(writers[k](BOTH, lend(0), 0), number));
        check(nothing(writers[k](BOTH, lend(900), 900), number));
    }
    for (int wrong = 0; wrong < 2; wrong++) {
        bytes name = wrong ? BYTES("") : BYTES(SUITE), root = wrong ? BYTES("") : BYTES(ROOT), nonce = wrong ? BYTES("") : BYTES(NONCE);
        yendlowa_weighed w = weigh(policy, roster, wrong ? BYTES("") : BYTES("TR\0\0\0\1"));
        check(w.refusal == number && ZEROS_BESIDE(w));
        yendlowa_label_key k = key(policy, roster, name, root);
        check(k.refusal == number && ZEROS_BESIDE(k));
        check(nothing(issue(policy, roster, name, wrong ? 0 : 1, root, wrong ? 0 : 200), number));
        check(nothing(seal(policy, roster, name, root, nonce, BYTES("abc"), wrong ? 0 : 200), number));
    }
}

/* A roster of E that has the worked records first. */
#define CONTINUED(more) BYTES(WORKED more)

static void refusals(void)
{
    bytes e = BYTES(E);
    refused(e, BYTES("J"), YENDLOWA_BAD_MARK, 0);
    refused(e, CONTINUED("H"), YENDLOWA_BAD_MARK, 6);
    refused(e, CONTINUED("LBSUITE   \0\1"), YENDLOWA_BAD_MARK, 6);
    refused(e, CONTINUED("hd\0\1"), YENDLOWA_BAD_MARK, 6);
    refused(e, BYTES("JN"), YENDLOWA_CUT_SHORT, 0);
    refused(e, CONTINUED("JN\0\0SUITE  "), YENDLOWA_CUT_SHORT, 6);
    refused(e, CONTINUED("MV\0\3RATES "), YENDLOWA_CUT_SHORT, 6);
    refused(e, CONTINUED("HD\0"), YENDLOWA_CUT_SHORT, 6);
    refused(e, CONTINUED("RL"), YENDLOWA_CUT_SHORT, 6);
    refused(e, CONTINUED("WD\0"), YENDLOWA_CUT_SHORT, 6);
    refused(e, CONTINUED(JN("\0\0", SUITE)), YENDLOWA_BAD_NUMBER, 6);
    refused(e, CONTINUED(JN("\20\1", SUITE)), YENDLOWA_BAD_NUMBER, 6);
    refused(e, CONTINUED(JN("\377\377", SUITE)), YENDLOWA_BAD_NUMBER, 6);
    refused(e, CONTINUED(JN("\0\1", CURVES)), YENDLOWA_BAD_NUMBER, 6);
    refused(e, CONTINUED(JN("\0\2", CURVES)), YENDLOWA_BAD_NUMBER, 6);
    refused(e, CONTINUED(JN("\0\3", ACCRUED)), YENDLOWA_BAD_NUMBER, 6);
    refused(e, CONTINUED(JN("\0\3", RATES)), YENDLOWA_BAD_NUMBER, 6);
    refused(e, BYTES(JN("\0\0", RATES) WORKED), YENDLOWA_BAD_NUMBER, 0);
    refused(e, BYTES("HD\0\1" WORKED), YENDLOWA_NOT_ON_ROSTER, 0);
    refused(e, CONTINUED("HD\0\3"), YENDLOWA_NOT_ON_ROSTER, 6);
    refused(e, CONTINUED("RL\0\4"), YENDLOWA_NOT_ON_ROSTER, 6);
    refused(e, CONTINUED("WD\0\3"), YENDLOWA_NOT_ON_ROSTER, 6);
    refused(e, CONTINUED("WD\0\0"), YENDLOWA_NOT_ON_ROSTER, 6);
    refused(e, CONTINUED("MV\20\1" SUITE), YENDLOWA_NOT_ON_ROSTER, 6);
    refused(e, CONTINUED("MV\0\3" RATES), YENDLOWA_NOT_ON_ROSTER, 6);
    refused(e, CONTINUED("MV\0\1" RATES), YENDLOWA_UNKNOWN_LABEL, 6);
    refused(e, CONTINUED("HD\0\1" JN("\0\4", RATES) "J"), YENDLOWA_UNKNOWN_LABEL, 7);
    refused(e, CONTINUED(JN("\0\4", "suite   ")), YENDLOWA_UNKNOWN_LABEL, 6);
    refused(e, CONTINUED(JN("\0\4", "SUITE  \0")), YENDLOWA_UNKNOWN_LABEL, 6);
    /* a policy is refused before the roster */
    refused(BYTES(""), BYTES("J"), YENDLOWA_EMPTY, 0);
    refused(BYTES(""), BYTES(WORKED), YENDLOWA_EMPTY, 0);
    refused(BYTES(E "OV\3\3"), BYTES("HD\0\1"), YENDLOWA_NOT_ABOVE, 0);
    refused(BYTES("LBA       \0\1LBB       \0\1"), BYTES(WORKED), YENDLOWA_SECOND_TOP, 0);
}

/* After these records of E: the accounts of each label, and how an account stands. */
static void stands(bytes roster, size_t passed, bytes counts, uint16_t account, uint8_t state, uint8_t place)
{
    yendlowa_roster a = read_roster(BYTES(E), roster);
    check(a.refusal == YENDLOWA_ACCEPTED && all_zero(a.zeros, sizeof a.zeros) && a.labels == 4);
    for (size_t l = 0; l < 4; l++) check(a.counts[l] == counts.at[l]);
    check(all_zero(a.counts + 4, sizeof a.counts - 4 * sizeof *a.counts));
    check(a.states[account - 1] == state && a.places[account - 1] == place);
    check(records(BYTES(E), roster) == passed);
}

static void standings(void)
{
    stands(BYTES(""), 0, BYTES("\0\0\0\0"), 1, YENDLOWA_UNKNOWN, 0);
    stands(BYTES(WORKED), 6, BYTES("\1\1\0\0"), 1, YENDLOWA_ACTIVE, 0);
    stands(BYTES(WORKED), 6, BYTES("\1\1\0\0"), 2, YENDLOWA_HELD, 1);
    stands(BYTES(WORKED), 6, BYTES("\1\1\0\0"), 3, YENDLOWA_WITHDRAWN, 0);
    stands(BYTES(WORKED), 6, BYTES("\1\1\0\0"), 4, YENDLOWA_UNKNOWN, 0);
    stands(CONTINUED("HD\0\2"), 7, BYTES("\1\1\0\0"), 2, YENDLOWA_HELD, 1);
    stands(CONTINUED("RL\0\2"), 7, BYTES("\1\1\0\0"), 2, YENDLOWA_ACTIVE, 1);
    stands(CONTINUED("RL\0\1"), 7, BYTES("\1\1\0\0"), 1, YENDLOWA_ACTIVE, 0);
    stands(CONTINUED("MV\0\2" CURVES), 7, BYTES("\1\1\0\0"), 2, YENDLOWA_ACTIVE, 1);
    stands(CONTINUED("MV\0\2" ACCRUED), 7, BYTES("\1\0\0\1"), 2, YENDLOWA_ACTIVE, 3);
    stands(CONTINUED("MV\0\1" ACCRUED), 7, BYTES("\0\1\0\1"), 1, YENDLOWA_ACTIVE, 3);
    stands(CONTINUED("WD\0\2"), 7, BYTES("\1\0\0\0"), 2, YENDLOWA_WITHDRAWN, 0);
    stands(CONTINUED(JN("\20\0", CONV32)), 7, BYTES("\1\1\1\0"), 4096, YENDLOWA_ACTIVE, 2);
    stands(CONTINUED(JN("\20\0", CONV32) "HD\20\0"), 8, BYTES("\1\1\1\0"), 4096, YENDLOWA_HELD, 2);
    stands(CONTINUED(JN("\1\0", CONV32)), 7, BYTES("\1\1\1\0"), 256, YENDLOWA_ACTIVE, 2);
    yendlowa_roster a = read_roster(BYTES(E), BYTES(WORKED));
    check(same(a.states, BYTES("\2\3\1")) && all_zero(a.states + 3, sizeof a.states - 3));
    check(same(a.places, BYTES("\0\1\0")) && all_zero(a.places + 3, sizeof a.places - 3));
}

/* What a function writes has to be `text`, in every buffer that has room for it. */
static void into_every_length(writer *write, bytes policy, bytes roster, bytes text)
{
    PLACED;
    for (size_t room = 0; room <= text.length + 40; room++) {
        yendlowa_written w = write(BOTH, lend(room), room);
        if (room < text.length) check(nothing(w, YENDLOWA_NO_ROOM));
        else check(wrote(w, text));
    }
}

/* The policy with a roster's counts, in a buffer of its own. */
static bytes counted(bytes policy, bytes roster)
{
    static uint8_t out[YENDLOWA_POLICY_ROOM];
    PLACED;
    yendlowa_written w = yendlowa_count_policy(BOTH, out, sizeof out);
    yendlowa_roster a = yendlowa_read_roster(BOTH);
    check(w.refusal == YENDLOWA_ACCEPTED && w.length == policy.length);
    for (size_t i = 0; i < policy.length; i++) {
        bool high = i < 12 * a.labels && i % 12 == 10, low = i < 12 * a.labels && i % 12 == 11;
        uint16_t count = a.counts[i / 12 % YENDLOWA_LABELS];
        check(out[i] == (high ? count >> 8 : low ? (count & 255) : policy.at[i]));
    }
    return (bytes){out, w.length};
}

static void worked(void)
{
    bytes e = BYTES(E), roster = BYTES(WORKED);
    static uint8_t drawing[YENDLOWA_DRAWING_ROOM];
    into_every_length(yendlowa_roster_text, e, roster, BYTES(worked_text));
    into_every_length(yendlowa_plan_text_roster, e, roster, BYTES(worked_plan));
    into_every_length(yendlowa_growth_text_roster, e, roster, BYTES(worked_growth));
    into_every_length(yendlowa_roster_text, e, BYTES(""), BYTES("SUITE 0\nCURVES 0\nCONV32 0\nACCRUED 0\nTOTAL 0\n"));
    bytes policy = counted(e, roster);
    check(same(policy.at, BYTES("LBSUITE   \0\1" "LBCURVES  \0\1" "LBCONV32  \0\0" "LBACCRUED \0\0" "OV\0\1")));
    into_every_length(yendlowa_count_policy, e, roster, policy);
    size_t length = yendlowa_plan_dot(policy.at, policy.length, drawing, sizeof drawing).length;
    into_every_length(yendlowa_plan_dot_roster, e, roster, (bytes){drawing, length});
    yendlowa_weighed least = weigh(e, roster, BYTES("TR\0\0\0\1")), other = weigh(e, roster, BYTES("TR\0\0\0\2"));
    check(least.refusal == YENDLOWA_ACCEPTED && least.least && least.total == 2);
    check(other.refusal == YENDLOWA_ACCEPTED && !other.least && other.total == 3);
    check(weigh(e, roster, BYTES("TR\0\0\0\3")).refusal == YENDLOWA_TREE_PARENT);
    check(weigh(e, roster, BYTES("TR\0\0\0")).refusal == YENDLOWA_TREE_LENGTH);
    check(weigh(e, roster, BYTES("")).refusal == YENDLOWA_BAD_MARK);
    /* without accounts every tree is the least, and the plan hangs each label from the last that it can */
    check(yendlowa_plan_roster(e.at, e.length, NULL, 0).total == 0 && yendlowa_plan(e.at, e.length).total == 17);
}

static void applied(uint8_t secret[YENDLOWA_KEY], const char *name)
{
    yendlowa_digest d = yendlowa_hmac_sha256(secret, YENDLOWA_KEY, (const uint8_t *)name, YENDLOWA_NAME);
    memcpy(secret, d.bytes, YENDLOWA_KEY);
}

/* ACCRUED's secret, from the root by CURVES */
static void accrued(uint8_t secret[YENDLOWA_KEY])
{
    memcpy(secret, ROOT, YENDLOWA_KEY);
    applied(secret, CURVES);
    applied(secret, ACCRUED);
}

static void keys(void)
{
    uint8_t expected[YENDLOWA_KEY];
    bytes e = BYTES(E), roster = BYTES(WORKED);
    accrued(expected);
    applied(expected, ACCRUED);
    yendlowa_label_key k = key(e, roster, BYTES(ACCRUED), BYTES(ROOT));
    check(k.refusal == YENDLOWA_ACCEPTED && same(k.key, (bytes){expected, sizeof expected}));
    k = key(e, roster, BYTES(RATES), BYTES(""));
    check(k.refusal == YENDLOWA_UNKNOWN_LABEL && ZEROS_BESIDE(k));
    k = key(e, roster, BYTES(ACCRUED), BYTES(ROOT "!"));
    check(k.refusal == YENDLOWA_ROOT_LENGTH && ZEROS_BESIDE(k));
}

/* Account 300 of CONV32, which holds ACCRUED's secret beside its own. */
#define JOINED WORKED JN("\1\54", CONV32) JN("\1\55", CURVES) JN("\1\56", CURVES)

static void issued(void)
{
    uint8_t envelope[96] = "EN\1\54" CONV32 "KS" CONV32, *second = envelope + 54;
    bytes e = BYTES(E), roster = BYTES(JOINED), root = BYTES(ROOT), conv32 = BYTES(CONV32);
    memcpy(envelope + 22, ROOT, 32);
    applied(envelope + 22, CONV32);
    memcpy(second, "KS" ACCRUED, 10);
    accrued(second + 10);
    for (size_t room = 0; room <= sizeof envelope + 40; room++) {
        yendlowa_written w = issue(e, roster, conv32, 300, root, room);
        if (room < sizeof envelope) check(nothing(w, YENDLOWA_NO_ROOM));
        else check(wrote(w, (bytes){envelope, sizeof envelope}));
    }
    static const uint32_t others[] = {0, 1, 2, 3, 4, 301, 4096, 4097, 65535, 65536, 65536 + 300, UINT32_MAX};
    check(nothing(issue(e, roster, BYTES(RATES), 0, BYTES(""), 0), YENDLOWA_UNKNOWN_LABEL));
    check(nothing(issue(e, roster, BYTES("CONV32"), 300, root, 200), YENDLOWA_UNKNOWN_LABEL));
    for (size_t i = 0; i < sizeof others / sizeof *others; i++) {
        check(nothing(issue(e, roster, conv32, others[i], BYTES(""), 0), YENDLOWA_NO_ACCOUNT));
        check(nothing(issue(e, roster, conv32, others[i], root, 200), YENDLOWA_NO_ACCOUNT));
    }
    check(nothing(issue(e, roster, BYTES(CURVES), 2, BYTES(""), 0), YENDLOWA_ACCOUNT_HELD));
    check(nothing(issue(e, roster, BYTES(CURVES), 2, root, 200), YENDLOWA_ACCOUNT_HELD));
    check(nothing(issue(e, roster, conv32, 300, BYTES(""), 0), YENDLOWA_ROOT_LENGTH));
    check(nothing(issue(e, roster, conv32, 300, BYTES(ROOT "!"), 200), YENDLOWA_ROOT_LENGTH));
    check(issue(e, BYTES(JOINED "RL\0\2"), BYTES(CURVES), 2, root, 200).refusal == YENDLOWA_ACCEPTED);
    check(issue(e, BYTES(JOINED "MV\0\2" SUITE), BYTES(SUITE), 2, root, 200).length == 87);
    check(nothing(issue(e, BYTES(JOINED "HD\1\54"), conv32, 300, root, 200), YENDLOWA_ACCOUNT_HELD));
    check(nothing(issue(e, BYTES(JOINED "WD\1\54"), conv32, 300, root, 200), YENDLOWA_NO_ACCOUNT));
    check(nothing(issue(e, BYTES(""), BYTES(SUITE), 1, root, 200), YENDLOWA_NO_ACCOUNT));
}

static void sealed(void)
{
    bytes e = BYTES(E), roster = BYTES(WORKED), name = BYTES(ACCRUED), root = BYTES(ROOT), text = BYTES("abc");
    bytes policy = counted(e, roster);
    uint8_t file[YENDLOWA_SEALED_MORE + 3];
    static uint8_t longer[YENDLOWA_MODULE_ROOM + 1];
    yendlowa_seal(policy.at, policy.length, name.at, 8, root.at, 32, (const uint8_t *)NONCE, 12, text.at, 3, file, sizeof file);
    for (size_t room = 0; room <= sizeof file + 40; room++) {
        yendlowa_written w = seal(e, roster, name, root, BYTES(NONCE), text, room);
        if (room < sizeof file) check(nothing(w, YENDLOWA_NO_ROOM));
        else check(wrote(w, (bytes){file, sizeof file}));
    }
    check(nothing(seal(e, roster, BYTES(RATES), BYTES(""), BYTES(""), text, 0), YENDLOWA_UNKNOWN_LABEL));
    check(nothing(seal(e, roster, name, BYTES(""), BYTES(""), text, 0), YENDLOWA_ROOT_LENGTH));
    check(nothing(seal(e, roster, name, root, BYTES(""), text, 0), YENDLOWA_NOT_SEALED));
    check(nothing(seal(e, roster, name, root, BYTES(NONCE), (bytes){longer, sizeof longer}, 0), YENDLOWA_NOT_SEALED));
}

/* 4,096 joins, and then moves up to this many bytes; account n is on a label that follows from n. */
static bytes many(bytes policy, size_t labels, size_t length)
{
    static uint8_t file[16 * 4096 + 4096];
    size_t at = 0;
    for (unsigned k = 0; at + 12 <= length; k++) {
        unsigned number = k % YENDLOWA_ACCOUNTS + 1;
        uint8_t head[] = {'J', 'N', (uint8_t)(number >> 8), (uint8_t)number};
        if (k >= YENDLOWA_ACCOUNTS) memcpy(head, "MV", 2);
        memcpy(file + at, head, 4);
        memcpy(file + at + 4, policy.at + 12 * (k * k % 61 % labels) + 2, 8);
        at += 12;
    }
    return (bytes){file, at};
}

/* Each function on a roster gives what its sibling gives on the policy with the roster's counts. */
static void as_counted(bytes policy, bytes roster)
{
    PLACED;
    static uint8_t expected[YENDLOWA_DRAWING_ROOM], tree[2 + YENDLOWA_LABELS] = "TR";
    bytes file = counted(policy, roster);
    yendlowa_planned plan = yendlowa_plan_roster(BOTH), sibling = yendlowa_plan(file.at, file.length);
    check(memcmp(&plan, &sibling, sizeof plan) == 0);
    yendlowa_grown growth = yendlowa_growth_roster(BOTH), grown = yendlowa_growth(file.at, file.length);
    check(memcmp(&growth, &grown, sizeof growth) == 0);
    size_t length = yendlowa_plan_text(file.at, file.length, expected, sizeof expected).length;
    check(wrote(yendlowa_plan_text_roster(BOTH, lend(4096), 4096), (bytes){expected, length}));
    length = yendlowa_plan_dot(file.at, file.length, expected, sizeof expected).length;
    check(wrote(yendlowa_plan_dot_roster(BOTH, lend(8192), 8192), (bytes){expected, length}));
    length = yendlowa_growth_text(file.at, file.length, expected, sizeof expected).length;
    check(wrote(yendlowa_growth_text_roster(BOTH, lend(1024), 1024), (bytes){expected, length}));
    memcpy(tree + 2, plan.parents, plan.labels);
    yendlowa_weighed w = weigh(policy, roster, (bytes){tree, 2 + plan.labels});
    check(w.refusal == YENDLOWA_ACCEPTED && w.least && w.total == plan.total);
    for (size_t l = 0; l < plan.labels; l++) {
        bytes name = {policy.at + 12 * l + 2, YENDLOWA_NAME};
        yendlowa_label_key k = key(policy, roster, name, BYTES(ROOT));
        yendlowa_label_key of = yendlowa_issuer_key(file.at, file.length, name.at, 8, (const uint8_t *)ROOT, 32);
        check(k.refusal == YENDLOWA_ACCEPTED && memcmp(&k, &of, sizeof k) == 0);
    }
    yendlowa_roster a = yendlowa_read_roster(BOTH);
    for (uint32_t account = 1; account <= YENDLOWA_ACCOUNTS; account += 315) {
        if (a.states[account - 1] != YENDLOWA_ACTIVE) continue;
        bytes name = {policy.at + 12 * a.places[account - 1] + 2, YENDLOWA_NAME};
        yendlowa_issue(file.at, file.length, name.at, 8, 1, (const uint8_t *)ROOT, 32, expected, sizeof expected);
        expected[2] = (uint8_t)(account >> 8);
        expected[3] = (uint8_t)account;
        yendlowa_written i = issue(policy, roster, name, account, BYTES(ROOT), YENDLOWA_ENVELOPE_ROOM);
        check(i.length > 12 && wrote(i, (bytes){expected, i.length}));
    }
}

/* The name of a label without its padding, or a dash. */
static const char *name_of(bytes policy, size_t label, bool dash)
{
    static char name[YENDLOWA_NAME + 1];
    memcpy(name, policy.at + 12 * label + 2, YENDLOWA_NAME);
    name[strcspn(name, " ")] = '\0';
    return dash ? "-" : name;
}

/* The text of a roster, made here from the answer of yendlowa_read_roster. */
static bytes text_of(bytes policy, bytes roster)
{
    static char text[YENDLOWA_ROSTER_TEXT_ROOM];
    static const char *const words[] = {"", "withdrawn", "active", "held"};
    yendlowa_roster a = read_roster(policy, roster);
    size_t at = 0, total = 0;
    for (int i = 0; i < YENDLOWA_ACCOUNTS; i++) {
        if (a.states[i] == YENDLOWA_UNKNOWN) continue;
        const char *name = name_of(policy, a.places[i], a.states[i] == YENDLOWA_WITHDRAWN);
        at += (size_t)snprintf(text + at, sizeof text - at, "%d %s %s\n", i + 1, name, words[a.states[i]]);
    }
    for (size_t l = 0; l < a.labels; l++) {
        at += (size_t)snprintf(text + at, sizeof text - at, "%s %d\n", name_of(policy, l, false), a.counts[l]);
        total += a.counts[l];
    }
    at += (size_t)snprintf(text + at, sizeof text - at, "TOTAL %zu\n", total);
    return (bytes){(const uint8_t *)text, at};
}

/* A long text into a buffer that always suffices, one that just does, and one that is a byte too short. */
static void written_whole(bytes policy, bytes roster, bytes text)
{
    PLACED;
    check(wrote(yendlowa_roster_text(BOTH, lend(YENDLOWA_ROSTER_TEXT_ROOM), YENDLOWA_ROSTER_TEXT_ROOM), text));
    check(wrote(yendlowa_roster_text(BOTH, lend(text.length), text.length), text));
    check(nothing(yendlowa_roster_text(BOTH, lend(text.length - 1), text.length - 1), YENDLOWA_NO_ROOM));
}

/* 4,096 joins, moves after them, and more than 65,536 bytes, of which the last record counts as the first does. */
static void large(bytes full)
{
    static const size_t lengths[] = {12 * 4096, 65536 - 4, 65536 + 8};
    for (size_t i = 0; i < sizeof lengths / sizeof *lengths; i++) {
        bytes roster = many(full, YENDLOWA_LABELS, lengths[i]);
        yendlowa_roster a = read_roster(full, roster);
        size_t total = 0;
        for (int l = 0; l < YENDLOWA_LABELS; l++) total += a.counts[l];
        check(a.refusal == YENDLOWA_ACCEPTED && total == YENDLOWA_ACCOUNTS && records(full, roster) == roster.length / 12);
        as_counted(full, roster);
        written_whole(full, roster, text_of(full, roster));
    }
    bytes roster = many(full, YENDLOWA_LABELS, 65536 + 8), cut = {roster.at, roster.length - 1};
    refused(full, cut, YENDLOWA_CUT_SHORT, roster.length / 12 - 1);
}

void rosters(void)
{
    static bytes full;
    if (full.at == NULL) full = read_file(FULL_POLICY);
    standings();
    refusals();
    worked();
    keys();
    issued();
    sealed();
    as_counted(BYTES(E), BYTES(JOINED));
    large(full);
}
