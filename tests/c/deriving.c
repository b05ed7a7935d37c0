/* yendlowa_derive, yendlowa_labels, yendlowa_envelope_records: envelopes as issued, and every refusal of an envelope. */
#include "groups.h"
#include <string.h>
#include <yendlowa_desk.h>
#include <yendlowa_issuer.h>

#define SECRET "0123456789abcdef0123456789ABCDEF"
#define HEAD "EN\0\1CONV32  "
#define KS(name) "KS" name SECRET
#define KD(name, place) "KD" name place
#define FIRST HEAD KS("CONV32  ")

static yendlowa_derived derive(bytes envelope, bytes name)
{
    bytes e = input(0, envelope), n = input(1, name);
    return yendlowa_derive(e.at, e.length, n.at, n.length);
}

static yendlowa_labels_read labels(bytes envelope)
{
    bytes e = input(0, envelope);
    return yendlowa_labels(e.at, e.length);
}

static size_t records(bytes envelope)
{
    bytes e = input(0, envelope);
    return yendlowa_envelope_records(e.at, e.length);
}

static bool derive_refused(bytes envelope, bytes name, uint8_t number)
{
    yendlowa_derived d = derive(envelope, name);
    return d.refusal == number && d.applications == 0 && all_zero(d.key, sizeof d.key);
}

/* A refused envelope, whatever name is asked for. */
static void refused(bytes envelope, uint8_t number, size_t passed)
{
    check(derive_refused(envelope, BYTES("CONV32  "), number));
    check(derive_refused(envelope, BYTES(""), number));
    yendlowa_labels_read l = labels(envelope);
    check(l.refusal == number && l.account == 0 && l.labels == 0 && all_zero(l.names, sizeof l.names));
    check(records(envelope) == passed);
}

static void headers(void)
{
    refused(BYTES(""), YENDLOWA_BAD_HEADER, 0);
    refused(BYTES("EN\0\1CONV32 "), YENDLOWA_BAD_HEADER, 0);
    refused(BYTES("KS\0\1CONV32  "), YENDLOWA_BAD_HEADER, 0);
    refused(BYTES("EN\0\0CONV32  " KS("CONV32  ")), YENDLOWA_BAD_HEADER, 0);
    refused(BYTES(HEAD), YENDLOWA_BAD_FIRST, 0);
    refused(BYTES(HEAD KD("CONV32  ", "\0")), YENDLOWA_BAD_FIRST, 0);
    refused(BYTES(HEAD KS("ACCRUED ")), YENDLOWA_BAD_FIRST, 0);
}

static void later_records(void)
{
    refused(BYTES(HEAD "K"), YENDLOWA_BAD_MARK, 0);
    refused(BYTES(FIRST "EN"), YENDLOWA_BAD_MARK, 1);
    refused(BYTES(FIRST "KS"), YENDLOWA_CUT_SHORT, 1);
    refused(BYTES(FIRST "KDACCRUED "), YENDLOWA_CUT_SHORT, 1);
    refused(BYTES(FIRST KD("Accrued ", "\0")), YENDLOWA_BAD_NAME, 1);
    refused(BYTES(FIRST KD("CONV32  ", "\0")), YENDLOWA_NAME_TWICE, 1);
    refused(BYTES(FIRST KD("ACCRUED ", "\1")), YENDLOWA_BAD_PLACE, 1);
}

/* 64 records in a chain, the longest path, and a 65th */
static void chain(void)
{
    uint8_t envelope[YENDLOWA_ENVELOPE_ROOM];
    size_t length = sizeof FIRST - 1;
    memcpy(envelope, FIRST, length);
    for (int k = 1; k <= 64; k++, length += 11) {
        memcpy(envelope + length, "KDX         ", 11);
        envelope[length + 3] = (uint8_t)('A' + k % 26);
        envelope[length + 4] = (uint8_t)('A' + k / 26);
        envelope[length + 10] = (uint8_t)(k - 1);
    }
    bytes whole = {envelope, length - 11}, last = {envelope + length - 2 * 11 + 2, YENDLOWA_NAME};
    yendlowa_derived d = derive(whole, last);
    check(d.refusal == YENDLOWA_ACCEPTED && d.applications == 64);
    yendlowa_labels_read l = labels(whole);
    check(l.refusal == YENDLOWA_ACCEPTED && l.account == 1 && l.labels == 64 && same(l.names[63], last));
    check(records(whole) == 64);
    refused((bytes){envelope, length}, YENDLOWA_TOO_MANY, 64);
}

static bytes issued(bytes name, uint32_t account)
{
    static uint8_t out[YENDLOWA_ENVELOPE_ROOM];
    yendlowa_written w = yendlowa_issue((const uint8_t *)E, sizeof E - 1, name.at, name.length, account,
                                        (const uint8_t *)ROOT, 32, out, sizeof out);
    check(w.refusal == YENDLOWA_ACCEPTED);
    return (bytes){out, w.length};
}

/* Each label's key from an envelope, after so many applications; 0 if the envelope does not open the label. */
static void opens(bytes name, uint32_t account, const char applications[4])
{
    bytes envelope = issued(name, account);
    yendlowa_labels_read l = labels(envelope);
    size_t opened = 0;
    check(l.refusal == YENDLOWA_ACCEPTED && l.account == account && same(l.names[0], name));
    for (size_t i = 0; i < 4; i++) {
        bytes asked = {(const uint8_t *)E_NAMES + 8 * i, YENDLOWA_NAME};
        if (applications[i] == '0') {
            check(derive_refused(envelope, asked, YENDLOWA_NOT_LICENSED));
            continue;
        }
        yendlowa_derived d = derive(envelope, asked);
        yendlowa_label_key own = yendlowa_issuer_key((const uint8_t *)E, sizeof E - 1, asked.at, 8, (const uint8_t *)ROOT, 32);
        check(d.refusal == YENDLOWA_ACCEPTED && d.applications == applications[i] - '0');
        check(own.refusal == YENDLOWA_ACCEPTED && memcmp(d.key, own.key, YENDLOWA_KEY) == 0);
        check(same(l.names[opened++], asked));
    }
    check(l.labels == opened && records(envelope) == opened);
    check(all_zero(l.names[opened], sizeof l.names - opened * YENDLOWA_NAME));
}

void deriving(void)
{
    opens(BYTES("SUITE   "), 2, "1223");
    opens(BYTES("CURVES  "), 3, "0101");
    opens(BYTES("CONV32  "), 5, "0012");
    opens(BYTES("ACCRUED "), 4, "0001");
    check(derive_refused(issued(BYTES("CONV32  "), 1), BYTES(""), YENDLOWA_NOT_LICENSED));
    check(derive_refused(issued(BYTES("CONV32  "), 1), BYTES("CONV32"), YENDLOWA_NOT_LICENSED));
    check(derive_refused(issued(BYTES("CONV32  "), 1), BYTES("CONV32   "), YENDLOWA_NOT_LICENSED));
    headers();
    later_records();
    chain();
}
