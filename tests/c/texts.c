/*
 * yendlowa_plan_text, yendlowa_plan_dot, yendlowa_growth_text: what they write into buffers of every length, that they touch nothing
 * else, and that a refused policy is refused before a short buffer.
 */
#include "groups.h"
#include <string.h>
#include <yendlowa_issuer.h>

typedef yendlowa_written writer(const uint8_t *policy, size_t policy_length, uint8_t *out, size_t out_length);

/* The text of a policy has to be `text`, in every buffer that has room for it. */
static void into_every_length(writer *write, bytes policy, bytes text)
{
    bytes p = input(0, policy);
    for (size_t length = 0; length <= text.length + 70; length++) {
        yendlowa_written w = write(p.at, p.length, lend(length), length);
        if (length < text.length) check(w.refusal == YENDLOWA_NO_ROOM && w.length == 0 && holds_only(BYTES("")));
        else check(w.refusal == YENDLOWA_ACCEPTED && w.length == text.length && holds_only(text));
    }
}

/* A refused policy is refused under its number whatever room there is, and nothing is written. */
static void refused(bytes policy, uint8_t number)
{
    static writer *const writers[] = {yendlowa_plan_text, yendlowa_plan_dot, yendlowa_growth_text};
    bytes p = input(0, policy);
    for (size_t i = 0; i < sizeof writers / sizeof *writers; i++)
        for (size_t length = 0; length <= 70; length++) {
            yendlowa_written w = writers[i](p.at, p.length, lend(length), length);
            check(w.refusal == number && w.length == 0 && holds_only(BYTES("")));
        }
}

/* A policy's drawing, as it is in a buffer that always suffices. */
static bytes drawing(bytes policy)
{
    static uint8_t out[YENDLOWA_DRAWING_ROOM];
    yendlowa_written w = yendlowa_plan_dot(policy.at, policy.length, out, sizeof out);
    check(w.refusal == YENDLOWA_ACCEPTED && w.length > 17);
    check(same(out, BYTES("digraph plan {\n")) && same(out + w.length - 2, BYTES("}\n")));
    return (bytes){out, w.length};
}

void texts(void)
{
    static bytes full, full_text, full_growth, e_drawing;
    if (full.at == NULL) {
        full = read_file(FULL_POLICY);
        full_text = read_file(FULL_TEXT);
        full_growth = read_file(FULL_GROWTH);
        e_drawing = read_file(E_DRAWING);
    }
    into_every_length(yendlowa_plan_text, BYTES(E),
                      BYTES("SUITE - 2 1 2\nCURVES SUITE 3 2 3\nCONV32 SUITE 5 1 5\nACCRUED CONV32 7 1 4\nTOTAL 17\n"));
    into_every_length(yendlowa_plan_text, full, full_text);
    into_every_length(yendlowa_plan_dot, BYTES(E), e_drawing);
    into_every_length(yendlowa_plan_dot, full, drawing(full));
    into_every_length(yendlowa_growth_text, BYTES(E), BYTES("SUITE 1 4\nCURVES 2 2\nCONV32 1 2\nACCRUED 1 1\n"));
    into_every_length(yendlowa_growth_text, BYTES("LBONE     \377\377"), BYTES("ONE - -\n"));
    into_every_length(yendlowa_growth_text, full, full_growth);
    check(full_growth.length <= YENDLOWA_GROWTH_ROOM);
    refused(BYTES(""), YENDLOWA_EMPTY);
    refused(BYTES(E "OV\0"), YENDLOWA_CUT_SHORT);
    refused(BYTES(E "OV\3\3"), YENDLOWA_NOT_ABOVE);
    refused(BYTES("LBA       \0\1LBB       \0\1"), YENDLOWA_SECOND_TOP);
}
