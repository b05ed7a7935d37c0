/* yendlowa_seal, yendlowa_open: known files, texts of many lengths, every refusal in its order, and buffers of every length. */
#include "groups.h"
#include <string.h>
#include <yendlowa_desk.h>
#include <yendlowa_issuer.h>

/* CONV32 alone, with ROOT as its secret, and with another */
#define ENVELOPE "EN\0\1CONV32  " "KSCONV32  " ROOT
#define OTHER_ENVELOPE "EN\0\1CONV32  " "KSCONV32  " "0123456789abcdef0123456789abcdef"

static yendlowa_written seal(bytes policy, bytes name, bytes root, bytes nonce, bytes text, size_t room)
{
    bytes p = input(0, policy), n = input(1, name), r = input(2, root), o = input(3, nonce), t = input(4, text);
    return yendlowa_seal(p.at, p.length, n.at, n.length, r.at, r.length, o.at, o.length, t.at, t.length, lend(room), room);
}

static yendlowa_written open_sealed(bytes envelope, bytes file, size_t room)
{
    bytes e = input(0, envelope), f = input(1, file);
    return yendlowa_open(e.at, e.length, f.at, f.length, lend(room), room);
}

/* whether an answer is that for `written`, at the start of the buffer that was lent */
static bool gave(yendlowa_written w, bytes written)
{
    return w.refusal == YENDLOWA_ACCEPTED && all_zero(w.zeros, sizeof w.zeros) && w.length == written.length && holds_only(written);
}

static bool refused(yendlowa_written w, uint8_t number)
{
    return w.refusal == number && all_zero(w.zeros, sizeof w.zeros) && w.length == 0 && holds_only(BYTES(""));
}

/* the envelope of an account at E's label */
static bytes issued(bytes name, uint32_t account)
{
    static uint8_t out[YENDLOWA_ENVELOPE_ROOM];
    yendlowa_written w = yendlowa_issue((const uint8_t *)E, sizeof E - 1, name.at, name.length, account,
                                        (const uint8_t *)ROOT, 32, out, sizeof out);
    check(w.refusal == YENDLOWA_ACCEPTED);
    return (bytes){out, w.length};
}

/* a text of E's label sealed, in memory that the next call uses again */
static bytes sealed(bytes name, bytes text)
{
    static uint8_t file[YENDLOWA_SEALED_ROOM];
    yendlowa_written w = yendlowa_seal((const uint8_t *)E, sizeof E - 1, name.at, name.length, (const uint8_t *)ROOT, 32,
                                       (const uint8_t *)NONCE, YENDLOWA_NONCE, text.at, text.length, file, sizeof file);
    check(w.refusal == YENDLOWA_ACCEPTED && w.length == YENDLOWA_SEALED_MORE + text.length);
    check(same(file, BYTES("SM")) && same(file + 2, name) && same(file + 10, BYTES(NONCE)));
    return (bytes){file, w.length};
}

/* A file of more than one block, for a label two steps from the root secret, made as SEALED was. */
#define KNOWN_TEXT "The module ACCRUED, of more than one block of sixty-four bytes each."
#define KNOWN_NONCE "\1\2\3\4\5\6\7\10\11\12\13\14"
#define KNOWN "SMACCRUED " KNOWN_NONCE \
    "\002\363\153\075\252\325\125\137\337\034\310\073\076\370\326\232\217\263\061\026\364\356\351\207" \
    "\007\100\250\155\276\221\015\203\160\041\155\344\375\370\145\077\365\066\307\130\124\371\263\273" \
    "\361\060\323\122\107\363\370\164\100\162\342\207\355\065\004\174\210\316\114\007" \
    "\312\353\321\055\335\161\200\374\055\054\354\225\244\173\344\372"

static void known(void)
{
    bytes one = BYTES("LBCONV32  \0\5"), conv32 = BYTES("CONV32  "), root = BYTES(ROOT);
    check(gave(seal(one, conv32, root, BYTES(NONCE), BYTES("abc"), 200), BYTES(SEALED)));
    check(gave(open_sealed(BYTES(ENVELOPE), BYTES(SEALED), 200), BYTES("abc")));
    check(gave(seal(BYTES(E), BYTES("ACCRUED "), root, BYTES(KNOWN_NONCE), BYTES(KNOWN_TEXT), 300), BYTES(KNOWN)));
    check(gave(open_sealed(issued(conv32, 5), BYTES(KNOWN), 300), BYTES(KNOWN_TEXT)));
}

/* What is sealed for ACCRUED, which all others are above, opens with the envelope of each. */
static void lengths(void)
{
    static const size_t lengths[] = {0, 1, 15, 16, 17, 63, 64, 65, YENDLOWA_MODULE_ROOM - 1, YENDLOWA_MODULE_ROOM};
    static uint8_t text[YENDLOWA_MODULE_ROOM + 1];
    bytes accrued = BYTES("ACCRUED ");
    for (size_t i = 0; i < sizeof text; i++) text[i] = (uint8_t)(i * 5 + i / 256);
    for (size_t i = 0; i < sizeof lengths / sizeof *lengths; i++) {
        bytes whole = {text, lengths[i]}, file = sealed(accrued, whole);
        check(gave(seal(BYTES(E), accrued, BYTES(ROOT), BYTES(NONCE), whole, file.length), file));
        check(refused(seal(BYTES(E), accrued, BYTES(ROOT), BYTES(NONCE), whole, file.length - 1), YENDLOWA_NO_ROOM));
        check(gave(open_sealed(issued(BYTES("SUITE   "), 2), file, whole.length), whole));
        check(gave(open_sealed(issued(BYTES("CURVES  "), 3), file, whole.length + 1), whole));
        check(gave(open_sealed(issued(BYTES("CONV32  "), 5), file, whole.length + 38), whole));
        check(gave(open_sealed(issued(accrued, 4), file, 2 * whole.length), whole));
        if (whole.length > 0) check(refused(open_sealed(issued(accrued, 4), file, whole.length - 1), YENDLOWA_NO_ROOM));
        bytes other = sealed(BYTES("CONV32  "), whole);
        check(refused(open_sealed(issued(BYTES("CURVES  "), 3), other, whole.length), YENDLOWA_NOT_LICENSED));
    }
    check(refused(seal(BYTES(E), accrued, BYTES(ROOT), BYTES(NONCE), (bytes){text, sizeof text}, YENDLOWA_SEALED_ROOM + 1),
                  YENDLOWA_NOT_SEALED));
}

/* One fault less each time: the first that is left decides. */
static void seal_refusals(void)
{
    static const uint8_t longer[YENDLOWA_MODULE_ROOM + 1];
    bytes e = BYTES(E), conv32 = BYTES("CONV32  "), root = BYTES(ROOT), nonce = BYTES(NONCE), none = BYTES("");
    bytes text = BYTES("abc"), too_long = {longer, sizeof longer};
    check(refused(seal(none, none, none, none, too_long, 0), YENDLOWA_EMPTY));
    check(refused(seal(BYTES(E "OV\3\3"), none, none, none, too_long, 0), YENDLOWA_NOT_ABOVE));
    check(refused(seal(e, none, none, none, too_long, 0), YENDLOWA_UNKNOWN_LABEL));
    check(refused(seal(e, BYTES("CONV32"), root, nonce, text, 200), YENDLOWA_UNKNOWN_LABEL));
    check(refused(seal(e, BYTES("RATES   "), root, nonce, text, 200), YENDLOWA_UNKNOWN_LABEL));
    check(refused(seal(e, conv32, none, none, too_long, 0), YENDLOWA_ROOT_LENGTH));
    check(refused(seal(e, conv32, BYTES(ROOT "!"), nonce, text, 200), YENDLOWA_ROOT_LENGTH));
    check(refused(seal(e, conv32, root, none, too_long, 0), YENDLOWA_NOT_SEALED));
    check(refused(seal(e, conv32, root, none, text, 200), YENDLOWA_NOT_SEALED));
    check(refused(seal(e, conv32, root, BYTES("\1\2\3\4\5\6\7\10\11\12\13"), text, 0), YENDLOWA_NOT_SEALED));
    check(refused(seal(e, conv32, root, BYTES(NONCE "!"), text, 200), YENDLOWA_NOT_SEALED));
    check(refused(seal(e, conv32, root, nonce, too_long, 0), YENDLOWA_NOT_SEALED));
    check(refused(seal(e, conv32, root, nonce, text, 0), YENDLOWA_NO_ROOM));
    check(refused(seal(e, conv32, root, nonce, none, 37), YENDLOWA_NO_ROOM));
}

static void open_refusals(void)
{
    static uint8_t longer[YENDLOWA_SEALED_ROOM + 1] = "SMCONV32  ";
    bytes envelope = BYTES(ENVELOPE), none = BYTES("");
    check(refused(open_sealed(none, none, 0), YENDLOWA_BAD_HEADER));
    check(refused(open_sealed(BYTES(ENVELOPE "KD"), none, 0), YENDLOWA_CUT_SHORT));
    check(refused(open_sealed(envelope, none, 0), YENDLOWA_NOT_SEALED));
    check(refused(open_sealed(envelope, BYTES("SMCURVES  " NONCE "123456789012345"), 0), YENDLOWA_NOT_SEALED));
    check(refused(open_sealed(envelope, BYTES("SNCURVES  " NONCE "1234567890123456"), 0), YENDLOWA_NOT_SEALED));
    check(refused(open_sealed(envelope, (bytes){longer, sizeof longer}, 0), YENDLOWA_NOT_SEALED));
    check(refused(open_sealed(envelope, BYTES("SMCURVES  " NONCE "1" "1234567890123456"), 0), YENDLOWA_NOT_LICENSED));
    check(refused(open_sealed(envelope, BYTES("SMCONV32  " NONCE "1" "1234567890123456"), 0), YENDLOWA_NO_ROOM));
    check(refused(open_sealed(envelope, BYTES("SMCONV32  " NONCE "1" "1234567890123456"), 1), YENDLOWA_BAD_TAG));
    check(refused(open_sealed(envelope, BYTES("SMCONV32  " NONCE "1234567890123456"), 0), YENDLOWA_BAD_TAG));
    check(refused(open_sealed(envelope, (bytes){longer, YENDLOWA_SEALED_ROOM}, YENDLOWA_MODULE_ROOM - 1), YENDLOWA_NO_ROOM));
    check(refused(open_sealed(envelope, (bytes){longer, YENDLOWA_SEALED_ROOM}, YENDLOWA_MODULE_ROOM), YENDLOWA_BAD_TAG));
    check(refused(open_sealed(BYTES(OTHER_ENVELOPE), BYTES(SEALED), 200), YENDLOWA_BAD_TAG));
}

/* What is too long is refused, however long it is. */
static void too_long(void)
{
    static const size_t more[] = {1, 2, 64, YENDLOWA_MODULE_ROOM, 40000};
    static uint8_t longer[80000] = "SMCONV32  ";
    for (size_t i = 0; i < sizeof more / sizeof *more; i++) {
        bytes text = {longer, YENDLOWA_MODULE_ROOM + more[i]}, file = {longer, YENDLOWA_SEALED_ROOM + more[i]};
        check(refused(seal(BYTES(E), BYTES("CONV32  "), BYTES(ROOT), BYTES(NONCE), text, 80000), YENDLOWA_NOT_SEALED));
        check(refused(open_sealed(BYTES(ENVELOPE), file, 80000), YENDLOWA_NOT_SEALED));
    }
}

/* Every byte altered once: 22 for the mark, 20 for the name, 23 for the rest. Then cut to every length, and a byte longer. */
static void damaged(void)
{
    bytes envelope = BYTES(ENVELOPE);
    uint8_t file[sizeof SEALED - 1];
    for (size_t i = 0; i < sizeof file; i++) {
        uint8_t number = i < 2 ? YENDLOWA_NOT_SEALED : i < 10 ? YENDLOWA_NOT_LICENSED : YENDLOWA_BAD_TAG;
        memcpy(file, SEALED, sizeof file);
        file[i] ^= (uint8_t)(1 << i % 8);
        check(refused(open_sealed(envelope, (bytes){file, sizeof file}, 100), number));
        memcpy(file, SEALED, sizeof file);
        number = i < YENDLOWA_SEALED_MORE ? YENDLOWA_NOT_SEALED : YENDLOWA_BAD_TAG;
        check(refused(open_sealed(envelope, (bytes){file, i}, 100), number));
    }
    check(refused(open_sealed(envelope, BYTES(SEALED "!"), 100), YENDLOWA_BAD_TAG));
}

/* The file, and its text, in every buffer that has room. */
static void into_every_length(bytes text)
{
    bytes conv32 = BYTES("CONV32  "), envelope = issued(conv32, 5), file = sealed(conv32, text);
    for (size_t room = 0; room <= file.length + 70; room++) {
        yendlowa_written w = seal(BYTES(E), conv32, BYTES(ROOT), BYTES(NONCE), text, room);
        if (room < file.length) check(refused(w, YENDLOWA_NO_ROOM));
        else check(gave(w, file));
    }
    for (size_t room = 0; room <= text.length + 70; room++) {
        yendlowa_written w = open_sealed(envelope, file, room);
        if (room < text.length) check(refused(w, YENDLOWA_NO_ROOM));
        else check(gave(w, text));
    }
}

void sealing(void)
{
    known();
    lengths();
    seal_refusals();
    open_refusals();
    too_long();
    damaged();
    into_every_length(BYTES(""));
    into_every_length(BYTES("a text of more than one block, of 64 bytes and of the few more that follow"));
}
