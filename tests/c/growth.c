/*
 * yendlowa_growth: known answers, labels that are full, and, for every label of a policy, the plan of the file with one account more
 * there. texts.c has yendlowa_growth_text.
 */
#include "groups.h"
#include <string.h>
#include <yendlowa_issuer.h>

static yendlowa_grown grown(bytes file)
{
    bytes p = input(0, file);
    return yendlowa_growth(p.at, p.length);
}

/* The costs and the ceilings of all labels, and zeros beside them. */
static void costs(bytes file, bytes costs, bytes ceilings)
{
    yendlowa_grown answer = grown(file);
    size_t labels = costs.length, rest = YENDLOWA_LABELS - labels;
    check(answer.refusal == YENDLOWA_ACCEPTED && all_zero(answer.zeros, sizeof answer.zeros) && answer.labels == labels);
    check(same(answer.costs, costs) && all_zero(answer.costs + labels, rest));
    check(same(answer.ceilings, ceilings) && all_zero(answer.ceilings + labels, rest));
}

static void refused(bytes file, uint8_t number)
{
    yendlowa_grown answer = grown(file);
    check(answer.refusal == number && all_zero((const uint8_t *)&answer + 1, sizeof answer - 1));
}

/* E with this many accounts at CURVES. At 5, ACCRUED hangs elsewhere with one more there; in the old tree that would cost 2. */
#define E_CURVES(accounts) \
    "LBSUITE   \0\2" "LBCURVES  " accounts "LBCONV32  \0\5" "LBACCRUED \0\4" "OV\0\1" "OV\0\2" "OV\1\3" "OV\2\3"
#define CHAIN(a, b, c) "LBA       " a "LBB       " b "LBC       " c "OV\0\1OV\1\2"

static void known(void)
{
    costs(BYTES(E), BYTES("\1\2\1\1"), BYTES("\4\2\2\1"));
    costs(BYTES(E_CURVES("\0\4")), BYTES("\1\2\1\1"), BYTES("\4\2\2\1"));
    costs(BYTES(E_CURVES("\0\5")), BYTES("\1\1\1\1"), BYTES("\4\2\2\1"));
    costs(BYTES(E_CURVES("\0\6")), BYTES("\1\1\2\1"), BYTES("\4\2\2\1"));
    costs(BYTES("LBONE     \0\7"), BYTES("\1"), BYTES("\1"));
    costs(BYTES(CHAIN("\0\1", "\0\0", "\0\4")), BYTES("\1\1\1"), BYTES("\3\2\1"));
}

/* The last account that a label can have has its cost; after it there is none, and the other labels keep theirs. */
static void full_labels(void)
{
    costs(BYTES("LBONE     \377\376"), BYTES("\1"), BYTES("\1"));
    costs(BYTES("LBONE     \377\377"), BYTES("\0"), BYTES("\0"));
    costs(BYTES(CHAIN("\377\376", "\377\377", "\0\377")), BYTES("\1\0\1"), BYTES("\3\0\1"));
    costs(BYTES(CHAIN("\377\377", "\377\0", "\377\377")), BYTES("\0\1\0"), BYTES("\0\2\0"));
    costs(BYTES(E_CURVES("\377\376")), BYTES("\1\1\2\1"), BYTES("\4\2\2\1"));
    costs(BYTES(E_CURVES("\377\377")), BYTES("\1\0\2\1"), BYTES("\4\0\2\1"));
}

/* Every label as the request words it, with the count in the file raised by one: its bytes stand behind the label's mark and name. */
static void planned_anew(bytes file)
{
    yendlowa_grown answer = grown(file);
    yendlowa_planned today = yendlowa_plan(file.at, file.length);
    yendlowa_rows order = yendlowa_order(file.at, file.length);
    check(answer.refusal == YENDLOWA_ACCEPTED && answer.labels == today.labels);
    for (size_t l = 0; l < answer.labels; l++) {
        uint8_t raised[YENDLOWA_POLICY_ROOM], below = 0;
        size_t at = 12 * l + 10, accounts = file.at[at] * 256u + file.at[at + 1] + 1;
        if (accounts > 65535) {
            check(answer.costs[l] == 0 && answer.ceilings[l] == 0);
            continue;
        }
        memcpy(raised, file.at, file.length);
        raised[at] = (uint8_t)(accounts / 256);
        raised[at + 1] = (uint8_t)accounts;
        yendlowa_planned after = yendlowa_plan(raised, file.length);
        for (size_t m = 0; m < answer.labels; m++) below += order.rows[m][l];
        check(after.refusal == YENDLOWA_ACCEPTED && after.total == today.total + answer.costs[l]);
        check(answer.ceilings[l] == below && 1 <= answer.costs[l] && answer.costs[l] <= below);
    }
}

void growth(void)
{
    static bytes full;
    if (full.at == NULL) full = read_file(FULL_POLICY);
    known();
    full_labels();
    planned_anew(BYTES(E));
    planned_anew(BYTES(E_CURVES("\0\5")));
    planned_anew(full);
    refused(BYTES(""), YENDLOWA_EMPTY);
    refused(BYTES(E "OV\0"), YENDLOWA_CUT_SHORT);
    refused(BYTES(E "OV\3\3"), YENDLOWA_NOT_ABOVE);
    refused(BYTES("LBA       \0\1LBB       \0\1"), YENDLOWA_SECOND_TOP);
}
