/*
 * What both libraries of Yendlowa share: sizes, the numbers of the refusals with their words, and a function that pads a name.
 * Both libraries have the two functions, and a program may link both.
 *
 * Every answer that can be a refusal starts with its number, which is 0 when nothing is refused. With a refusal every other number
 * of the answer is 0, every bool is false, a key or digest is all zeros, and a lent buffer is unchanged. Each function lists the
 * numbers that it can give, in the order of its checks: the first check that fails decides. The three functions that say where
 * reading stops (`yendlowa_policy_records`, `yendlowa_roster_records`, `yendlowa_envelope_records`) and `yendlowa_refusal_text` refuse
 * nothing.
 *
 * No answer has padding. Where the fields alone would leave a gap, a field `zeros` fills it, and its bytes are always 0.
 *
 * <yendlowa_version.h> has the version.
 */
#ifndef YENDLOWA_REFUSALS_H
#define YENDLOWA_REFUSALS_H

#include <stddef.h>
#include <stdint.h>

#ifdef __cplusplus
extern "C" {
#endif

#define YENDLOWA_NAME 8    /* the bytes of a label's name, padded with spaces at the end */
#define YENDLOWA_KEY 32    /* the bytes of a key, a secret or a digest */
#define YENDLOWA_LABELS 64 /* the most labels that a policy can have, and the most records of an envelope */

/*
 * How much of an envelope decides: more bytes than this do not change an answer, so it is enough to read this many from a file.
 * A buffer of this size also has room for every envelope that is issued.
 */
#define YENDLOWA_ENVELOPE_ROOM 2742

/*
 * Sealed module files: SM, the label's name (8 bytes), the nonce, the ciphertext, which is as long as the text, and a tag of 16 bytes.
 * The cipher is ChaCha20-Poly1305 (RFC 8439) under the label's key; mark and name are its additional data. A text of more
 * than YENDLOWA_MODULE_ROOM bytes or a sealed file of more than YENDLOWA_SEALED_ROOM is refused whatever its bytes are, so reading one
 * byte more than that from a file is enough.
 */
#define YENDLOWA_NONCE 12          /* the bytes of a nonce */
#define YENDLOWA_MODULE_ROOM 32768 /* the most bytes that a text to be sealed can have */
#define YENDLOWA_SEALED_MORE 38    /* how many bytes more than its text a sealed file has */
#define YENDLOWA_SEALED_ROOM 32806 /* the two together: no sealed file has more bytes */

enum yendlowa_refusal {
    YENDLOWA_ACCEPTED = 0,         /* not refused */

    /* policy file; 2, 3, 5, 6 and 7 are given for envelopes too, 2 and 3 for rosters, and 2 for tree files */
    YENDLOWA_EMPTY = 1,            /* the policy file is empty */
    YENDLOWA_BAD_MARK = 2,         /* fewer than 2 bytes are left, or the mark does not belong in this file */
    YENDLOWA_CUT_SHORT = 3,        /* a record is cut short */
    YENDLOWA_LABEL_AFTER_PAIR = 4, /* an LB record follows an OV record */
    YENDLOWA_TOO_MANY = 5,         /* a 65th label, a 513th OV record or a 65th envelope record */
    YENDLOWA_BAD_NAME = 6,         /* a name is not letters A to Z and digits, at least one, then spaces */
    YENDLOWA_NAME_TWICE = 7,       /* a name is carried by an earlier record */
    YENDLOWA_NO_SUCH_LABEL = 8,    /* a number of an OV record is not a label's */
    YENDLOWA_NOT_ABOVE = 9,        /* the upper number of an OV record is not less than the lower */
    YENDLOWA_SECOND_TOP = 10,      /* at the end: a label other than the first is never the lower of a pair */

    /* tree file, after 2 */
    YENDLOWA_TREE_LENGTH = 11,     /* the length is not 2 plus the number of labels */
    YENDLOWA_TREE_PARENT = 12,     /* a byte is not the number of a strictly higher label, or the top's byte is not 0 */

    /* what else is passed to a call; 13 is given for the names in rosters too */
    YENDLOWA_UNKNOWN_LABEL = 13,   /* the policy has no label with this name (a name has exactly 8 bytes) */
    YENDLOWA_NO_ACCOUNT = 14,      /* the label has no account with this number; with a roster: the
                                      account does not stand on this label */
    YENDLOWA_ROOT_LENGTH = 15,     /* the root secret does not have 32 bytes */
    YENDLOWA_NO_ROOM = 16,         /* the lent buffer is too short for what is to be written */

    /* envelope */
    YENDLOWA_BAD_HEADER = 17,      /* the header has fewer than 12 bytes, a mark other than EN, or account 0 */
    YENDLOWA_BAD_FIRST = 18,       /* the first record is missing, is not a KS, or does not carry the header's name */
    YENDLOWA_BAD_PLACE = 19,       /* the place in a KD record is not less than the record's own */
    YENDLOWA_NOT_LICENSED = 20,    /* the envelope has no label with this name (a name has exactly 8 bytes) */

    /* hash, HMAC */
    YENDLOWA_TOO_LONG = 21,        /* a key or message has more than 65,536 bytes */

    /* sealed module file */
    YENDLOWA_NOT_SEALED = 22,      /* a sealed file has fewer than 38 or more than 32,806 bytes, or a mark other than SM; when
                                      sealing: the text has more than 32,768 bytes, or the nonce does not have 12 */
    YENDLOWA_BAD_TAG = 23,         /* the tag differs: the file was altered, or sealed under another key */

    /* roster file, after 2 and 3 and before 13 */
    YENDLOWA_BAD_NUMBER = 24,      /* the number of a JN record is not 1 to 4,096, or an account has or had it */
    YENDLOWA_NOT_ON_ROSTER = 25,   /* the account of another record is unknown or withdrawn */

    /* issue by a roster, after 14 */
    YENDLOWA_ACCOUNT_HELD = 26     /* the account is held */
};

typedef struct yendlowa_text {
    char text[80]; /* ends with a null byte; all bytes after the words are 0 */
} yendlowa_text;

/*
 * The words of a refusal, in English and without a line feed: "the root secret does not have 32 bytes" for 15.
 *
 * Takes    any number.
 * Gives    its words; "accepted" for 0, and "no such refusal" above 26.
 * Refuses  nothing.
 */
yendlowa_text yendlowa_refusal_text(uint8_t number);

/* The answer of a function that writes into a lent buffer. */
typedef struct yendlowa_written {
    uint8_t refusal;
    uint8_t zeros[7]; /* always 0 */
    size_t length;    /* how many bytes were written, from the buffer's start on */
} yendlowa_written;

/*
 * A name as it is typed, padded with spaces to the 8 bytes that the other functions take. A name that is longer than 8 bytes is
 * written unchanged, and those functions refuse it.
 *
 * Takes    a name without its padding or with it, and a buffer. The buffer must not overlap the name.
 * Gives    the length of what is written: 8, or that of a longer name.
 * Refuses  16 when the buffer is shorter than that; it is then unchanged.
 */
yendlowa_written yendlowa_pad_name(const uint8_t *typed, size_t typed_length, uint8_t *out, size_t out_length);

#ifdef __cplusplus
}
#endif

#endif
