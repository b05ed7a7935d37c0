/*
 * The issuer's side of Yendlowa: policies read, planned and weighed, what one more account costs, rosters of accounts, the issuer's
 * keys, envelopes written, and module files sealed. Link with -lyendlowa-issuer. The libraries are for x86-64 Linux.
 *
 * No function allocates, keeps anything between calls or does input or output, so any number of threads may call them at
 * once. Every function may be called with any bytes. A byte array is passed as a pointer and a length; the pointer may
 * be null when the length is 0, and only then. The bytes passed are not changed. Answers are returned by value and have no padding:
 * each byte of an answer belongs to a field, and what is passed determines it. 64 kB of stack suffice for any call without a roster,
 * 256 kB for one with a roster. Secrets pass over that stack and are not wiped from it.
 *
 * Some functions write into a buffer that the caller lends (`out`): all that is to be written, from the buffer's start on, or, with
 * a refusal, nothing at all. A buffer that is too short, or null with length 0, is refused with 16, after everything that
 * can be refused in the policy, the roster and the other arguments. No byte after what is written is touched. A lent buffer must not
 * overlap the other arrays passed in that call.
 *
 * A policy file has at most 64 labels and 512 pairs: for each label LB, its name (8 bytes) and its accounts (2 bytes, most significant
 * first), then for each pair OV, the upper label's number and the lower label's number (1 byte each). Labels are numbered from 0 in
 * file order, and an upper label has the smaller number.
 *
 * A roster file says which accounts there are and where each stands. Each function that depends on the accounts has a sibling whose
 * name ends in _roster and that takes a roster beside the policy: there the roster's accounts count, and those in the LB records do
 * not. An empty roster has no accounts, so it is not the same as none.
 *
 *     yendlowa_written w = yendlowa_issue(policy, policy_length, (const uint8_t *)"CONV32  ", YENDLOWA_NAME, 5,
 *                                         root, root_length, envelope, sizeof envelope);
 *     if (w.refusal == YENDLOWA_ACCEPTED) fwrite(envelope, 1, w.length, file);
 *     else fprintf(stderr, "no envelope: %s\n", yendlowa_refusal_text(w.refusal).text);
 */
#ifndef YENDLOWA_ISSUER_H
#define YENDLOWA_ISSUER_H

#include <stdbool.h>
#include <stddef.h>
#include <stdint.h>
#include "yendlowa_refusals.h"

#ifdef __cplusplus
extern "C" {
#endif

#define YENDLOWA_PAIRS 512              /* the most over-pairs that a policy can have */
#define YENDLOWA_ACCOUNTS 4096          /* the most accounts that a roster can have; they are numbered from 1 */
#define YENDLOWA_TEXT_ROOM 4096         /* no plan's text has more bytes */
#define YENDLOWA_DRAWING_ROOM 8192      /* no plan's drawing has more bytes */
#define YENDLOWA_GROWTH_ROOM 1024       /* yendlowa_growth_text never writes more bytes */
#define YENDLOWA_ROSTER_TEXT_ROOM 98304 /* no roster's text has more bytes */

/*
 * How much of a file decides: more bytes than this do not change an answer, so it is enough to read this many from a file.
 * YENDLOWA_ENVELOPE_ROOM, in yendlowa_refusals.h, is the same for envelopes, and has room for every envelope that is issued.
 * There is no such number for rosters: a roster file may have any length, every record of it counts, and it has to be read whole.
 */
#define YENDLOWA_POLICY_ROOM 2828
#define YENDLOWA_TREE_ROOM 67
#define YENDLOWA_ROOT_ROOM 33

/* ---- policies ---- */

/* One OV record: label `lower` stands below label `upper`. */
typedef struct yendlowa_pair {
    uint8_t upper;
    uint8_t lower;
} yendlowa_pair;

typedef struct yendlowa_policy {
    uint8_t refusal;
    uint8_t zeros[7];                   /* always 0 */
    size_t labels;                      /* 1 to 64 */
    size_t pairs;                       /* 0 to 512 */
    uint16_t counts[YENDLOWA_LABELS];   /* each label's accounts; zeros after the last */
    yendlowa_pair over[YENDLOWA_PAIRS]; /* in file order; zeros after the last */
} yendlowa_policy;

/*
 * What a policy file says. Names stay in the file: that of label i is the 8 bytes from policy + 12 * i + 2 on.
 *
 * Takes    a policy file.
 * Gives    its labels' accounts and its pairs.
 * Refuses  1; then, record by record, 2, 3, 4, 5, 6 and 7 for LB, 2, 3, 5, 8 and 9 for OV; at the end 10.
 */
yendlowa_policy yendlowa_read_policy(const uint8_t *policy, size_t policy_length);

/*
 * Where the reading of a policy file stops: how many records pass before its end or its first refused record. It answers
 * for every file, refused or not; `yendlowa_read_policy` says why one is refused.
 *
 * Takes    any bytes, as a policy file.
 * Gives    for a file refused with 2 to 9 the number of the refused record, counted from 0; for an accepted file, or one refused
 *          with 1 or 10, the number of all its records (with 1 there are none). Never more than 576.
 * Refuses  nothing.
 */
size_t yendlowa_policy_records(const uint8_t *policy, size_t policy_length);

typedef struct yendlowa_rows {
    uint8_t refusal;
    bool rows[YENDLOWA_LABELS][YENDLOWA_LABELS]; /* rows[m][l]: label m is at or below label l; false past the last */
} yendlowa_rows;

/*
 * The order of a policy's labels: m is at or below l if they are the same or a chain of pairs leads from l down to m.
 *
 * Takes    a policy file.
 * Gives    the table of all pairs of labels.
 * Refuses  as `yendlowa_read_policy` does.
 */
yendlowa_rows yendlowa_order(const uint8_t *policy, size_t policy_length);

/* ---- rosters ---- */

/* How an account of a roster stands. */
enum yendlowa_standing {
    YENDLOWA_UNKNOWN = 0,   /* no record has joined it yet */
    YENDLOWA_WITHDRAWN = 1, /* for good: its number is not used again */
    YENDLOWA_ACTIVE = 2,    /* on a label */
    YENDLOWA_HELD = 3       /* on a label, but envelopes are not issued to it until it is released or moved */
};

typedef struct yendlowa_roster {
    uint8_t refusal;
    uint8_t zeros[7];                  /* always 0 */
    size_t labels;                     /* 1 to 64, as the policy has */
    uint16_t counts[YENDLOWA_LABELS];  /* the accounts that stand on each label, held ones included; zeros after the last label */
    uint8_t states[YENDLOWA_ACCOUNTS]; /* how account i + 1 stands, an enum yendlowa_standing */
    uint8_t places[YENDLOWA_ACCOUNTS]; /* the number of the label that it stands on; 0 if it is unknown or withdrawn */
} yendlowa_roster;

/*
 * What a roster file says: how each account stands after its last record. It has records of five kinds, in any order and of any
 * number, and may be empty. An account's number has 2 bytes, most significant first, and is 1 to 4,096; a label's name has 8 bytes.
 *
 *     JN number name    the account joins: it is active on the label from here on
 *     MV number name    it moves, and is active on this label, also if it was held or is on this label already
 *     HD number         it is held; nothing changes if it was held before
 *     RL number         it is released; nothing changes if it was active before
 *     WD number         it is withdrawn
 *
 * The answer has 8,336 bytes. A roster file has no bound on its length; the time of a call grows in proportion to its records.
 *
 * Takes    a policy file and a roster file.
 * Gives    for each label how many accounts stand on it, and for each account how and where it stands. The counts sum to the joins
 *          less the withdrawals.
 * Refuses  as `yendlowa_read_policy` does; then, record by record of the roster, 2 and 3; 24 for JN, 25 for the others; and 13 for
 *          JN and MV.
 */
yendlowa_roster yendlowa_read_roster(const uint8_t *policy, size_t policy_length, const uint8_t *roster, size_t roster_length);

/*
 * Where the reading of a roster file stops: how many records pass before its end or its first refused record.
 *
 * Takes    any bytes, as a policy file and a roster file.
 * Gives    for a refused roster the number of the refused record, counted from 0; for an accepted one the number of all its records;
 *          0 if the policy is refused.
 * Refuses  nothing.
 */
size_t yendlowa_roster_records(const uint8_t *policy, size_t policy_length, const uint8_t *roster, size_t roster_length);

/*
 * A roster as text: a line for each account that is known, in the order of their numbers, with its number, its label's name and
 * `active` or `held`, or with its number, - and `withdrawn`; then a line for each label, with its name and its accounts; then TOTAL
 * and their sum. No null byte follows the text.
 *
 * Takes    a policy file, a roster file, and a buffer; YENDLOWA_ROSTER_TEXT_ROOM bytes always suffice.
 * Gives    the length of the text, which starts at the buffer's start.
 * Refuses  as `yendlowa_read_roster` does; then 16.
 */
yendlowa_written yendlowa_roster_text(const uint8_t *policy, size_t policy_length, const uint8_t *roster, size_t roster_length,
                                      uint8_t *out, size_t out_length);

/*
 * The policy file with the roster's counts in place of those in its LB records. Plan, totals, growth, keys and sealed files of this
 * policy are those of the policy with the roster. Envelopes are not issued from it but by `yendlowa_issue_roster`, which knows the
 * numbers of the accounts.
 *
 * Takes    a policy file, a roster file, and a buffer as long as the policy file.
 * Gives    the length of the new policy file, that of the old one.
 * Refuses  as `yendlowa_read_roster` does; then 16.
 */
yendlowa_written yendlowa_count_policy(const uint8_t *policy, size_t policy_length, const uint8_t *roster, size_t roster_length,
                                       uint8_t *out, size_t out_length);

/* ---- plans ---- */

typedef struct yendlowa_planned {
    uint8_t refusal;
    uint8_t zeros[3];                  /* always 0 */
    uint32_t total;                    /* the keys issued to all accounts; no tree of the policy needs fewer */
    size_t labels;                     /* 1 to 64 */
    uint8_t parents[YENDLOWA_LABELS];  /* each label's parent, 0 for the top; zeros after the last label, here and below */
    uint32_t weights[YENDLOWA_LABELS]; /* the keys that the label costs under its parent; for the top, its accounts */
    uint8_t sizes[YENDLOWA_LABELS];    /* how many keys an account at the label holds */
} yendlowa_planned;

/*
 * The plan of a policy: a derivation tree that needs the fewest keys. Of several parents of least weight a label has the one with the
 * highest number, so that no other label lies between the two. "TR" followed by the first `labels` bytes of `parents` is its tree
 * file, as `yendlowa_weigh` takes it.
 *
 * Takes    a policy file.
 * Gives    the plan.
 * Refuses  as `yendlowa_read_policy` does.
 */
yendlowa_planned yendlowa_plan(const uint8_t *policy, size_t policy_length);

/*
 * The same with the accounts of a roster: no tree needs fewer keys for them.
 *
 * Takes    a policy file and a roster file.
 * Gives    the plan.
 * Refuses  as `yendlowa_read_roster` does.
 */
yendlowa_planned yendlowa_plan_roster(const uint8_t *policy, size_t policy_length, const uint8_t *roster, size_t roster_length);

typedef struct yendlowa_weighed {
    uint8_t refusal;
    bool least;       /* whether no tree of the policy needs fewer */
    uint8_t zeros[2]; /* always 0 */
    uint32_t total;   /* the keys issued to all accounts under the tree */
} yendlowa_weighed;

/*
 * The total of a tree that somebody offers instead of the plan's.
 *
 * Takes    a policy file, and a tree file: TR, then for each label one byte, its parent's number; the top's byte is 0.
 * Gives    the tree's total, and whether it is the least.
 * Refuses  as `yendlowa_read_policy` does; then 2, 11 and 12 for the tree file.
 */
yendlowa_weighed yendlowa_weigh(const uint8_t *policy, size_t policy_length, const uint8_t *tree, size_t tree_length);

/*
 * The same with the accounts of a roster.
 *
 * Takes    a policy file, a roster file, and a tree file.
 * Gives    the tree's total, and whether it is the least.
 * Refuses  as `yendlowa_read_roster` does; then 2, 11 and 12 for the tree file.
 */
yendlowa_weighed yendlowa_weigh_roster(const uint8_t *policy, size_t policy_length, const uint8_t *roster, size_t roster_length,
                                       const uint8_t *tree, size_t tree_length);

/*
 * The plan as text: a line for each label and one with the total, as `yendlowa plan` prints it. No null byte follows
 * the text. For a refused policy nothing is written; the line REFUSED is the program's.
 *
 * Takes    a policy file, and a buffer; YENDLOWA_TEXT_ROOM bytes always suffice.
 * Gives    the length of the text, which starts at the buffer's start.
 * Refuses  as `yendlowa_read_policy` does; then 16.
 */
yendlowa_written yendlowa_plan_text(const uint8_t *policy, size_t policy_length, uint8_t *out, size_t out_length);

/*
 * The same with the accounts of a roster.
 *
 * Takes    a policy file, a roster file, and a buffer; YENDLOWA_TEXT_ROOM bytes always suffice.
 * Gives    the length of the text, which starts at the buffer's start.
 * Refuses  as `yendlowa_read_roster` does; then 16.
 */
yendlowa_written yendlowa_plan_text_roster(const uint8_t *policy, size_t policy_length, const uint8_t *roster, size_t roster_length,
                                           uint8_t *out, size_t out_length);

/*
 * The plan as a drawing for Graphviz, in the language DOT, as `yendlowa draw` prints it. No null byte follows the drawing.
 *
 * Takes    a policy file, and a buffer; YENDLOWA_DRAWING_ROOM bytes always suffice.
 * Gives    the length of the drawing, which starts at the buffer's start.
 * Refuses  as `yendlowa_read_policy` does; then 16.
 */
yendlowa_written yendlowa_plan_dot(const uint8_t *policy, size_t policy_length, uint8_t *out, size_t out_length);

/*
 * The same with the accounts of a roster.
 *
 * Takes    a policy file, a roster file, and a buffer; YENDLOWA_DRAWING_ROOM bytes always suffice.
 * Gives    the length of the drawing, which starts at the buffer's start.
 * Refuses  as `yendlowa_read_roster` does; then 16.
 */
yendlowa_written yendlowa_plan_dot_roster(const uint8_t *policy, size_t policy_length, const uint8_t *roster, size_t roster_length,
                                          uint8_t *out, size_t out_length);

/* ---- what one more account costs ---- */

typedef struct yendlowa_grown {
    uint8_t refusal;
    uint8_t zeros[7];                  /* always 0 */
    size_t labels;                     /* 1 to 64 */
    uint8_t costs[YENDLOWA_LABELS];    /* what one more account at the label adds to the plan's total; zeros after the last label */
    uint8_t ceilings[YENDLOWA_LABELS]; /* a ceiling for that: the number of labels at or below; zeros after the last label */
} yendlowa_grown;

/*
 * What one more account costs at each label: the total of the plan with one account more at that label alone, less the total of
 * the plan as it is. The ceiling of a label with room for one more follows from labels and pairs alone: whatever the accounts
 * are, one more there never costs more.
 *
 * Takes    a policy file.
 * Gives    cost and ceiling of each label: the cost is at least 1 and at most the ceiling. Both are 0 for a label that has 65,535
 *          accounts, since it can have no more.
 * Refuses  as `yendlowa_read_policy` does.
 */
yendlowa_grown yendlowa_growth(const uint8_t *policy, size_t policy_length);

/*
 * The same with the accounts of a roster. A label there has at most 4,096 accounts, so every label has its cost and its ceiling.
 *
 * Takes    a policy file and a roster file.
 * Gives    cost and ceiling of each label: the cost is at least 1 and at most the ceiling.
 * Refuses  as `yendlowa_read_roster` does.
 */
yendlowa_grown yendlowa_growth_roster(const uint8_t *policy, size_t policy_length, const uint8_t *roster, size_t roster_length);

/*
 * The same as text, as `yendlowa growth` prints it: a line for each label, with its name, cost and ceiling; - stands for each of the
 * two if the label has 65,535 accounts. No null byte follows the text.
 *
 * Takes    a policy file, and a buffer; YENDLOWA_GROWTH_ROOM bytes always suffice.
 * Gives    the length of the text, which starts at the buffer's start.
 * Refuses  as `yendlowa_read_policy` does; then 16.
 */
yendlowa_written yendlowa_growth_text(const uint8_t *policy, size_t policy_length, uint8_t *out, size_t out_length);

/*
 * The same with the accounts of a roster.
 *
 * Takes    a policy file, a roster file, and a buffer; YENDLOWA_GROWTH_ROOM bytes always suffice.
 * Gives    the length of the text, which starts at the buffer's start.
 * Refuses  as `yendlowa_read_roster` does; then 16.
 */
yendlowa_written yendlowa_growth_text_roster(const uint8_t *policy, size_t policy_length, const uint8_t *roster, size_t roster_length,
                                             uint8_t *out, size_t out_length);

/* ---- keys and envelopes ---- */

typedef struct yendlowa_label_key {
    uint8_t refusal;
    uint8_t key[YENDLOWA_KEY];
} yendlowa_label_key;

/*
 * The issuer's key of a label: the key that `yendlowa_derive` gives at every desk that may open the label.
 *
 * Takes    a policy file, the label's name (8 bytes, padded with spaces), and the root secret (32 bytes).
 * Gives    the key.
 * Refuses  as `yendlowa_read_policy` does; then 13 and 15.
 */
yendlowa_label_key yendlowa_issuer_key(const uint8_t *policy, size_t policy_length, const uint8_t *name, size_t name_length,
                                       const uint8_t *root, size_t root_length);

/*
 * The same with the accounts of a roster. Keys follow the plan's tree, so a roster with other counts can give another key: keys,
 * envelopes and sealed files belong together only if policy, counts and root secret are the same.
 *
 * Takes    a policy file, a roster file, the label's name (8 bytes, padded with spaces), and the root secret (32 bytes).
 * Gives    the key.
 * Refuses  as `yendlowa_read_roster` does; then 13 and 15.
 */
yendlowa_label_key yendlowa_issuer_key_roster(const uint8_t *policy, size_t policy_length, const uint8_t *roster, size_t roster_length,
                                              const uint8_t *name, size_t name_length, const uint8_t *root, size_t root_length);

/*
 * The key envelope of an account.
 *
 * Takes    a policy file, the name of the account's label (8 bytes, padded with spaces), the account's number (1 to the label's
 *          accounts), the root secret (32 bytes), and a buffer; YENDLOWA_ENVELOPE_ROOM bytes always suffice.
 * Gives    the length of the envelope, which starts at the buffer's start.
 * Refuses  as `yendlowa_read_policy` does; then 13, 14, 15 and 16.
 */
yendlowa_written yendlowa_issue(const uint8_t *policy, size_t policy_length, const uint8_t *name, size_t name_length,
                                uint32_t account, const uint8_t *root, size_t root_length, uint8_t *out, size_t out_length);

/*
 * The key envelope of an account of a roster. It carries the number that the account has there.
 *
 * Takes    a policy file, a roster file, the name of the account's label (8 bytes, padded with spaces), the account's number, the root
 *          secret (32 bytes), and a buffer; YENDLOWA_ENVELOPE_ROOM bytes always suffice.
 * Gives    the length of the envelope, which starts at the buffer's start.
 * Refuses  as `yendlowa_read_roster` does; then 13, 14 (the account does not stand on this label), 26 (it does, and is held), 15 and
 *          16.
 */
yendlowa_written yendlowa_issue_roster(const uint8_t *policy, size_t policy_length, const uint8_t *roster, size_t roster_length,
                                       const uint8_t *name, size_t name_length, uint32_t account,
                                       const uint8_t *root, size_t root_length, uint8_t *out, size_t out_length);

typedef struct yendlowa_root_fingerprint {
    uint8_t refusal;
    uint8_t bytes[8];
} yendlowa_root_fingerprint;

/*
 * The fingerprint of a root secret, by which people see whether a file is the root secret that they mean: the first 8 bytes of
 * HMAC-SHA-256 under it of the text "Yendlowa root fingerprint". No name has that length, so no secret and no key is made from it.
 *
 * Takes    the root secret (32 bytes).
 * Gives    the fingerprint.
 * Refuses  15.
 */
yendlowa_root_fingerprint yendlowa_fingerprint(const uint8_t *root, size_t root_length);

/* ---- sealed module files ---- */

/*
 * A module's text, sealed under its label's key: with an envelope that opens the label `yendlowa_open` gives the text back, and it
 * refuses a file that was altered. Name and nonce stand in the file for everybody to read.
 *
 * NEVER USE THE SAME NONCE TWICE UNDER ONE KEY. Whoever has two files that were sealed with the same nonce under the same key learns
 * how their texts differ, without the key, and can make files that pass for sealed ones. This function keeps nothing between
 * calls and cannot notice. So keep a counter of 12 bytes for each root secret, beside it. FOR EACH SEAL RAISE THE COUNTER BY 1 AND
 * SAVE IT, AND ONLY THEN SEAL with its new value, whatever the policy and the label, even if the call before failed or the same text
 * is sealed again. Never seal with a copy of it elsewhere, and never set it back, not from a backup either: if it is lost, go on
 * from a number that was surely never reached.
 *
 * Takes    a policy file, the label's name (8 bytes, padded with spaces), the root secret (32 bytes), a nonce (12 bytes) that was
 *          never used before with this root secret, a text of up to YENDLOWA_MODULE_ROOM bytes, which may be empty, and a buffer with
 *          YENDLOWA_SEALED_MORE bytes more than the text; YENDLOWA_SEALED_ROOM bytes always suffice.
 * Gives    the length of the sealed file, which starts at the buffer's start; no byte after it is touched.
 * Refuses  as `yendlowa_read_policy` does; then 13, 15, 22 (the nonce does not have 12 bytes, or the text is too long) and 16. The
 *          buffer is then unchanged.
 */
yendlowa_written yendlowa_seal(const uint8_t *policy, size_t policy_length, const uint8_t *name, size_t name_length,
                               const uint8_t *root, size_t root_length, const uint8_t *nonce, size_t nonce_length,
                               const uint8_t *text, size_t text_length, uint8_t *out, size_t out_length);

/*
 * The same under the label's key with the accounts of a roster, as `yendlowa_issuer_key_roster` gives it. WHAT IS SAID OF NONCES ABOVE
 * HOLDS HERE TOO, with one counter for both functions.
 *
 * Takes    a policy file, a roster file, and all that `yendlowa_seal` takes beside the policy.
 * Gives    the length of the sealed file, which starts at the buffer's start; no byte after it is touched.
 * Refuses  as `yendlowa_read_roster` does; then 13, 15, 22 and 16, as `yendlowa_seal` does. The buffer is then unchanged.
 */
yendlowa_written yendlowa_seal_roster(const uint8_t *policy, size_t policy_length, const uint8_t *roster, size_t roster_length,
                                      const uint8_t *name, size_t name_length, const uint8_t *root, size_t root_length,
                                      const uint8_t *nonce, size_t nonce_length, const uint8_t *text, size_t text_length,
                                      uint8_t *out, size_t out_length);

/* ---- hash ---- */

typedef struct yendlowa_digest {
    uint8_t refusal;
    uint8_t bytes[YENDLOWA_KEY];
} yendlowa_digest;

/*
 * SHA-256 (FIPS 180-4).
 *
 * Takes    a message of up to 65,536 bytes.
 * Gives    its digest.
 * Refuses  21.
 */
yendlowa_digest yendlowa_sha256(const uint8_t *message, size_t message_length);

/*
 * HMAC-SHA-256 (FIPS 198-1).
 *
 * Takes    a key and a message of up to 65,536 bytes each.
 * Gives    the message's authentication code under the key.
 * Refuses  21.
 */
yendlowa_digest yendlowa_hmac_sha256(const uint8_t *key, size_t key_length, const uint8_t *message, size_t message_length);

#ifdef __cplusplus
}
#endif

#endif
