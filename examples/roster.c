/*
 * The accounts of a roster: who stands where, what that changes in the plan, and an envelope for one of them. A held account gets none.
 * After 'make lib': cc -I build/include examples/roster.c -L build/lib -lyendlowa-issuer -o build/roster
 */
#include <stdio.h>
#include <yendlowa_issuer.h>

/* Four modules, and which stands above which. The accounts in the LB records do not count beside a roster. */
static const uint8_t policy[] =
    "LBSUITE   \0\0" "LBCURVES  \0\0" "LBCONV32  \0\0" "LBACCRUED \0\0"
    "OV\0\1" "OV\0\2" "OV\1\3" "OV\2\3";

/* Accounts 1 and 2 join CONV32 and 3 ACCRUED; 2 moves to CURVES and is held, and 3 withdraws. */
static const uint8_t roster[] =
    "JN\0\1CONV32  " "JN\0\2CONV32  " "JN\0\3ACCRUED " "MV\0\2CURVES  " "HD\0\2" "WD\0\3";

/* The null byte at a string's end does not belong to the file. */
#define FILES policy, sizeof policy - 1, roster, sizeof roster - 1

static const uint8_t root[YENDLOWA_KEY] = {7}; /* an example: a root secret is chosen at random and kept secret */

static void issue(const char *name, uint32_t account)
{
    uint8_t envelope[YENDLOWA_ENVELOPE_ROOM];
    yendlowa_written written =
        yendlowa_issue_roster(FILES, (const uint8_t *)name, YENDLOWA_NAME, account, root, sizeof root, envelope, sizeof envelope);
    if (written.refusal == YENDLOWA_ACCEPTED) printf("account %u: an envelope of %zu bytes\n", account, written.length);
    else printf("account %u: refused with %d\n", account, written.refusal);
}

int main(void)
{
    static uint8_t text[YENDLOWA_ROSTER_TEXT_ROOM];
    yendlowa_written written = yendlowa_roster_text(FILES, text, sizeof text);
    if (written.refusal != YENDLOWA_ACCEPTED) {
        printf("REFUSED %d\n", written.refusal);
        fprintf(stderr, "roster: after %zu records: %s\n", yendlowa_roster_records(FILES), yendlowa_refusal_text(written.refusal).text);
        return 1;
    }
    fwrite(text, 1, written.length, stdout);
    printf("keys: %u\n", yendlowa_plan_roster(FILES).total);
    issue("CONV32  ", 1);
    issue("CURVES  ", 2);
    issue("ACCRUED ", 3);
    return fflush(stdout) == 0 ? 0 : 2;
}
