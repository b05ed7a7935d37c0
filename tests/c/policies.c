/* yendlowa_read_policy, yendlowa_policy_records, yendlowa_order: policy E, a full policy, and every refusal of a policy. */
#include "groups.h"
#include <string.h>
#include <yendlowa_issuer.h>

#define A "LBA       \0\1"

static yendlowa_policy read_policy(bytes file)
{
    bytes p = input(0, file);
    return yendlowa_read_policy(p.at, p.length);
}

static size_t records(bytes file)
{
    bytes p = input(0, file);
    return yendlowa_policy_records(p.at, p.length);
}

static yendlowa_rows order(bytes file)
{
    bytes p = input(0, file);
    return yendlowa_order(p.at, p.length);
}

static void refused(bytes file, uint8_t number, size_t passed)
{
    yendlowa_policy policy = read_policy(file);
    check(policy.refusal == number);
    check(policy.labels == 0 && policy.pairs == 0);
    check(all_zero(policy.counts, sizeof policy.counts) && all_zero(policy.over, sizeof policy.over));
    check(records(file) == passed);
    yendlowa_rows rows = order(file);
    check(rows.refusal == number && all_zero(rows.rows, sizeof rows.rows));
}

static void refusals(void)
{
    refused(BYTES(""), YENDLOWA_EMPTY, 0);
    refused(BYTES("L"), YENDLOWA_BAD_MARK, 0);
    refused(BYTES(A "O"), YENDLOWA_BAD_MARK, 1);
    refused(BYTES(A "TR"), YENDLOWA_BAD_MARK, 1);
    refused(BYTES("LBA       \0"), YENDLOWA_CUT_SHORT, 0);
    refused(BYTES(E "OV\0"), YENDLOWA_CUT_SHORT, 8);
    refused(BYTES(E A), YENDLOWA_LABEL_AFTER_PAIR, 8);
    refused(BYTES("LBa       \0\1"), YENDLOWA_BAD_NAME, 0);
    refused(BYTES("LB        \0\1"), YENDLOWA_BAD_NAME, 0);
    refused(BYTES("LBA B     \0\1"), YENDLOWA_BAD_NAME, 0);
    refused(BYTES(A A), YENDLOWA_NAME_TWICE, 1);
    refused(BYTES(E "OV\3\4"), YENDLOWA_NO_SUCH_LABEL, 8);
    refused(BYTES(E "OV\4\0"), YENDLOWA_NO_SUCH_LABEL, 8);
    refused(BYTES(E "OV\3\3"), YENDLOWA_NOT_ABOVE, 8);
    refused(BYTES(A "LBB       \0\1"), YENDLOWA_SECOND_TOP, 2);
}

/* 5: a full policy with one record more, a label or a pair */
static void limits(bytes full)
{
    uint8_t longer[3000];
    memcpy(longer, full.at, full.length);
    memcpy(longer + full.length, "OV\0\1", 4);
    refused((bytes){longer, full.length + 4}, YENDLOWA_TOO_MANY, 576);
    memcpy(longer + 64 * 12, "LBZ       \0\1", 12);
    refused((bytes){longer, 64 * 12 + 12}, YENDLOWA_TOO_MANY, 64);
}

static void accepted(void)
{
    static const uint8_t over[] = "\0\1\0\2\1\3\2\3";
    yendlowa_policy policy = read_policy(BYTES(E));
    check(policy.refusal == YENDLOWA_ACCEPTED && policy.labels == 4 && policy.pairs == 4);
    check(policy.counts[0] == 2 && policy.counts[1] == 3 && policy.counts[2] == 5 && policy.counts[3] == 4);
    check(all_zero(policy.counts + 4, sizeof policy.counts - 4 * sizeof *policy.counts));
    check(memcmp(policy.over, over, 8) == 0 && all_zero(policy.over + 4, sizeof policy.over - 8));
    check(records(BYTES(E)) == 8);
}

static void ordered(void)
{
    static const char below[4][4] = {"1000", "1100", "1010", "1111"};
    yendlowa_rows rows = order(BYTES(E));
    check(rows.refusal == YENDLOWA_ACCEPTED);
    for (int m = 0; m < YENDLOWA_LABELS; m++)
        for (int l = 0; l < YENDLOWA_LABELS; l++)
            check(rows.rows[m][l] == (m < 4 && l < 4 && below[m][l] == '1'));
}

static void full_policy(bytes full)
{
    yendlowa_policy policy = read_policy(full);
    check(policy.refusal == YENDLOWA_ACCEPTED && policy.labels == YENDLOWA_LABELS && policy.pairs == YENDLOWA_PAIRS);
    check(policy.counts[63] == full.at[63 * 12 + 10] * 256 + full.at[63 * 12 + 11]);
    check(memcmp(&policy.over[511], full.at + full.length - 2, 2) == 0);
    check(records(full) == 576);
    yendlowa_rows rows = order(full);
    for (int m = 0; m < YENDLOWA_LABELS; m++) check(rows.rows[m][m] && rows.rows[m][0] && (m == 0 || !rows.rows[0][m]));
}

void policies(void)
{
    static bytes full;
    if (full.at == NULL) full = read_file(FULL_POLICY);
    refusals();
    limits(full);
    accepted();
    ordered();
    full_policy(full);
}
