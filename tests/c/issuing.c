/* yendlowa_issuer_key, yendlowa_issue: known keys, known envelopes, every refusal, and buffers of every length. */
#include "groups.h"
#include <string.h>
#include <yendlowa_issuer.h>

static yendlowa_label_key key(bytes policy, bytes name, bytes root)
{
    bytes p = input(0, policy), n = input(1, name), r = input(2, root);
    return yendlowa_issuer_key(p.at, p.length, n.at, n.length, r.at, r.length);
}

static yendlowa_written issue(bytes policy, bytes name, uint32_t account, bytes root, size_t room)
{
    bytes p = input(0, policy), n = input(1, name), r = input(2, root);
    return yendlowa_issue(p.at, p.length, n.at, n.length, account, r.at, r.length, lend(room), room);
}

static bool key_is(bytes name, const char *digits)
{
    yendlowa_label_key k = key(BYTES(E), name, BYTES(ROOT));
    return k.refusal == YENDLOWA_ACCEPTED && is_hex(k.key, sizeof k.key, digits);
}

static bool key_refused(bytes policy, bytes name, bytes root, uint8_t number)
{
    yendlowa_label_key k = key(policy, name, root);
    return k.refusal == number && all_zero(k.key, sizeof k.key);
}

static void keys(void)
{
    check(key_is(BYTES("SUITE   "), "cfd345d42a4ac26a16ad28d52c45b0dd6993b6274cb3ab067015aad9d3bc4d13"));
    check(key_is(BYTES("CURVES  "), "b1f51c09f1f745eb3ce38716451641bd7fb4728641d5ebdffba2f94b26beafb3"));
    check(key_is(BYTES("CONV32  "), "dccf9a901b8e8aa1bc1f67cb8a46c51779b53a2388684800c7657a19c33be721"));
    check(key_is(BYTES("ACCRUED "), "951355f2b697b42d128ba5745838a78397ac8e851815031725cccfbee68762a0"));
    check(key_refused(BYTES(""), BYTES(""), BYTES(""), YENDLOWA_EMPTY));
    check(key_refused(BYTES(E), BYTES("RATES   "), BYTES(""), YENDLOWA_UNKNOWN_LABEL));
    check(key_refused(BYTES(E), BYTES("SUITE"), BYTES(ROOT), YENDLOWA_UNKNOWN_LABEL));
    check(key_refused(BYTES(E), BYTES("SUITE    "), BYTES(ROOT), YENDLOWA_UNKNOWN_LABEL));
    check(key_refused(BYTES(E), BYTES(""), BYTES(ROOT), YENDLOWA_UNKNOWN_LABEL));
    check(key_refused(BYTES(E), BYTES("SUITE   "), BYTES(""), YENDLOWA_ROOT_LENGTH));
    check(key_refused(BYTES(E), BYTES("SUITE   "), BYTES(ROOT "!"), YENDLOWA_ROOT_LENGTH));
}

static bool issue_refused(bytes policy, bytes name, uint32_t account, bytes root, size_t room, uint8_t number)
{
    yendlowa_written w = issue(policy, name, account, root, room);
    return w.refusal == number && w.length == 0 && holds_only(BYTES(""));
}

static void refusals(void)
{
    bytes e = BYTES(E), conv32 = BYTES("CONV32  "), root = BYTES(ROOT);
    check(issue_refused(BYTES(""), BYTES(""), 0, BYTES(""), 0, YENDLOWA_EMPTY));
    check(issue_refused(e, BYTES(""), 0, BYTES(""), 0, YENDLOWA_UNKNOWN_LABEL));
    check(issue_refused(e, BYTES("RATES   "), 1, root, 200, YENDLOWA_UNKNOWN_LABEL));
    check(issue_refused(e, BYTES("CONV32"), 1, root, 200, YENDLOWA_UNKNOWN_LABEL));
    check(issue_refused(e, conv32, 0, BYTES(""), 0, YENDLOWA_NO_ACCOUNT));
    check(issue_refused(e, conv32, 6, root, 200, YENDLOWA_NO_ACCOUNT));
    check(issue_refused(e, conv32, 65536 + 5, root, 200, YENDLOWA_NO_ACCOUNT));
    check(issue_refused(e, conv32, UINT32_MAX, root, 200, YENDLOWA_NO_ACCOUNT));
    check(issue_refused(e, conv32, 5, BYTES(""), 0, YENDLOWA_ROOT_LENGTH));
    check(issue_refused(e, conv32, 5, BYTES(ROOT "!"), 200, YENDLOWA_ROOT_LENGTH));
    check(issue_refused(e, conv32, 5, root, 0, YENDLOWA_NO_ROOM));
    check(issue_refused(e, conv32, 5, root, 64, YENDLOWA_NO_ROOM));
}

/* The envelope of an account has to be `envelope`, in every buffer that has room for it. */
static void into_every_length(bytes policy, bytes name, uint32_t account, bytes envelope)
{
    for (size_t length = 0; length <= envelope.length + 70; length++) {
        yendlowa_written w = issue(policy, name, account, BYTES(ROOT), length);
        if (length < envelope.length) check(w.refusal == YENDLOWA_NO_ROOM && w.length == 0 && holds_only(BYTES("")));
        else check(w.refusal == YENDLOWA_ACCEPTED && w.length == envelope.length && holds_only(envelope));
    }
}

/* E's envelope for CONV32, account 5: the header, CONV32 with its secret, ACCRUED under it */
static void conv32_envelope(void)
{
    uint8_t envelope[65] = "EN\0\5" "CONV32  " "KS" "CONV32  ";
    yendlowa_digest secret = yendlowa_hmac_sha256((const uint8_t *)ROOT, 32, (const uint8_t *)"CONV32  ", 8);
    memcpy(envelope + 22, secret.bytes, 32);
    memcpy(envelope + 54, "KDACCRUED \0", 11);
    into_every_length(BYTES(E), BYTES("CONV32  "), 5, (bytes){envelope, sizeof envelope});
}

static void suite_envelope(void)
{
    into_every_length(BYTES(E), BYTES("SUITE   "), 2,
                      BYTES("EN\0\2" "SUITE   " "KS" "SUITE   " ROOT "KD" "CURVES  " "\0" "KD" "CONV32  " "\0" "KD" "ACCRUED " "\2"));
}

/* an envelope of the full policy, as it is in a buffer that always suffices */
static void full_envelope(bytes full)
{
    static uint8_t out[YENDLOWA_ENVELOPE_ROOM];
    bytes name = {full.at + 12 + 2, YENDLOWA_NAME};
    yendlowa_written w = yendlowa_issue(full.at, full.length, name.at, name.length, 258, (const uint8_t *)ROOT, 32, out, sizeof out);
    check(w.refusal == YENDLOWA_ACCEPTED && same(out, BYTES("EN\1\2")) && same(out + 4, name));
    into_every_length(full, name, 258, (bytes){out, w.length});
}

void issuing(void)
{
    static bytes full;
    if (full.at == NULL) full = read_file(FULL_POLICY);
    keys();
    refusals();
    conv32_envelope();
    suite_envelope();
    full_envelope(full);
}
