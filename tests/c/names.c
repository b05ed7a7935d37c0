/* yendlowa_refusal_text, yendlowa_pad_name: the words of every number, byte by byte, and names into buffers of every length. */
#include "groups.h"
#include <string.h>
#include <yendlowa_refusals.h>

static const char *const words[] = {
    "accepted",
    "the file is empty",
    "fewer than 2 bytes are left, or the mark does not belong in this file",
    "the record is cut short",
    "an LB record follows an OV record",
    "a 65th label, a 513th over-pair or a 65th envelope record",
    "the name is badly formed (A to Z and digits, at least one, then spaces)",
    "the name is carried by an earlier record",
    "a number of the over-pair is not a label's",
    "the upper number of the over-pair is not less than the lower",
    "a label other than the first is never the lower of an over-pair",
    "the length is not 2 plus the number of labels",
    "a byte is not the number of a strictly higher label, or the top's is not 0",
    "the policy has no label with this name",
    "the label has no account with this number",
    "the root secret does not have 32 bytes",
    "the buffer is too short for what is to be written",
    "the header has fewer than 12 bytes, a mark other than EN, or account 0",
    "the first record is missing, is not a KS, or does not carry the header's name",
    "the place in the KD record is not less than its own",
    "the envelope has no label with this name",
    "a key or message has more than 65,536 bytes",
    "not a sealed file, a text above 32,768 bytes, or a nonce that is not 12 bytes",
    "the tag differs: the file was altered, or sealed under another key",
    "the number is not 1 to 4,096, or an account has or had it",
    "the account is unknown or withdrawn",
    "the account is held",
};
enum { NUMBERS = sizeof words / sizeof *words };

static void refusal_texts(void)
{
    check(NUMBERS == YENDLOWA_ACCOUNT_HELD + 1);
    for (int number = 0; number <= UINT8_MAX; number++) {
        yendlowa_text expected = {""}, given = yendlowa_refusal_text((uint8_t)number);
        strcpy(expected.text, number < NUMBERS ? words[number] : "no such refusal");
        check(memcmp(given.text, expected.text, sizeof given.text) == 0);
    }
}

/* What is typed, and the name that it gives, which is no shorter. */
static void pads(bytes typed, bytes name)
{
    bytes t = input(0, typed);
    for (size_t length = 0; length <= name.length + 10; length++) {
        yendlowa_written w = yendlowa_pad_name(t.at, t.length, lend(length), length);
        check(all_zero(w.zeros, sizeof w.zeros));
        if (length < name.length) check(w.refusal == YENDLOWA_NO_ROOM && w.length == 0 && holds_only(BYTES("")));
        else check(w.refusal == YENDLOWA_ACCEPTED && w.length == name.length && holds_only(name));
    }
}

void names(void)
{
    refusal_texts();
    pads(BYTES(""), BYTES("        "));
    pads(BYTES("A"), BYTES("A       "));
    pads(BYTES("CONV32"), BYTES("CONV32  "));
    pads(BYTES("ACCRUED"), BYTES("ACCRUED "));
    pads(BYTES("ACCRUED "), BYTES("ACCRUED "));
    pads(BYTES("ACCRUED1"), BYTES("ACCRUED1"));
    pads(BYTES("ACCRUED12"), BYTES("ACCRUED12"));
    pads(BYTES("any\0bytes at all\n"), BYTES("any\0bytes at all\n"));
    pads(BYTES("\0\377"), BYTES("\0\377      "));
}
