/*
 * The desk's side of Yendlowa: the keys that follow from a key envelope, the labels that it opens, and the texts of sealed module
 * files. Link with -lyendlowa-desk, which holds nothing of the issuer. The libraries are for x86-64 Linux.
 *
 * No function allocates, keeps anything between calls or does input or output, so any number of threads may call them at
 * once. Every function may be called with any bytes. A byte array is passed as a pointer and a length; the pointer may
 * be null when the length is 0, and only then. The bytes passed are not changed. Answers are returned by value and have no padding:
 * each byte of an answer belongs to a field, and what is passed determines it. 64 kB of stack suffice for any call. Secrets pass over
 * that stack and are not wiped from it.
 *
 *     yendlowa_derived d = yendlowa_derive(envelope, length, (const uint8_t *)"ACCRUED ", YENDLOWA_NAME);
 *     if (d.refusal == YENDLOWA_ACCEPTED) open_module(d.key);
 *     else fprintf(stderr, "ACCRUED: %s\n", yendlowa_refusal_text(d.refusal).text);
 */
#ifndef YENDLOWA_DESK_H
#define YENDLOWA_DESK_H

#include <stddef.h>
#include <stdint.h>
#include "yendlowa_refusals.h"

#ifdef __cplusplus
extern "C" {
#endif

typedef struct yendlowa_derived {
    uint8_t refusal;
    uint8_t key[YENDLOWA_KEY];
    uint8_t applications; /* how often HMAC-SHA-256 was applied: the steps from a held secret, plus one; 1 to 64 */
} yendlowa_derived;

/*
 * The key of the label `name`, from an envelope alone.
 *
 * Takes    an envelope, and a name of 8 bytes, padded with spaces.
 * Gives    the key, and the number of applications.
 * Refuses  17 for the header, and 18 if nothing follows it; then, record by record, 2, 3, 5, 6 and 7, followed by 18 at the
 *          first record and 19 at a later KD record; last 20.
 *
 * An envelope carries no check of its own secrets: an altered secret byte leads to another key, and this function does not notice.
 */
yendlowa_derived yendlowa_derive(const uint8_t *envelope, size_t envelope_length, const uint8_t *name, size_t name_length);

typedef struct yendlowa_labels_read {
    uint8_t refusal;
    uint8_t zeros[5];                              /* always 0 */
    uint16_t account;                              /* the account's number, 1 to 65,535 */
    size_t labels;                                 /* how many names there are, 1 to 64 */
    uint8_t names[YENDLOWA_LABELS][YENDLOWA_NAME]; /* the account's own label first; zeros after the last */
} yendlowa_labels_read;

/*
 * The account of an envelope, and the labels that it opens.
 *
 * Takes    an envelope.
 * Gives    the account's number, and the names of all labels whose key `yendlowa_derive` gives.
 * Refuses  as `yendlowa_derive` does, except 20.
 */
yendlowa_labels_read yendlowa_labels(const uint8_t *envelope, size_t envelope_length);

/*
 * Where the reading of an envelope stops: how many records pass before its end or its first refused record. It answers
 * for every envelope, refused or not; `yendlowa_labels` says why one is refused.
 *
 * Takes    any bytes, as an envelope.
 * Gives    for a refused envelope the number of the refused record, counted from 0, and 0 when its header is refused (17); for an
 *          accepted one its number of labels. Never more than 64.
 * Refuses  nothing.
 */
size_t yendlowa_envelope_records(const uint8_t *envelope, size_t envelope_length);

/*
 * The text of a module file that the issuer sealed for a label that the envelope opens. The label's name stands in the file. No
 * byte of text is written before the file's tag is known to be right.
 *
 * Takes    an envelope, a sealed file, and a buffer, which must not overlap them; YENDLOWA_MODULE_ROOM bytes always suffice, and
 *          YENDLOWA_SEALED_MORE fewer than the file has are enough.
 * Gives    the length of the text, which starts at the buffer's start and may be 0; no byte after it is touched.
 * Refuses  as `yendlowa_derive` does, except 20; then 22, 20 for the name in the file, 16 and 23. The buffer is then unchanged.
 *
 * 23 does not tell a damaged file from a wrong key: an envelope of another policy or root secret, or with an altered secret, leads to
 * it too.
 */
yendlowa_written yendlowa_open(const uint8_t *envelope, size_t envelope_length, const uint8_t *sealed, size_t sealed_length,
                               uint8_t *out, size_t out_length);

#ifdef __cplusplus
}
#endif

#endif
