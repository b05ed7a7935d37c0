/*
 * An envelope is issued to account 5 at CONV32, and the desk derives the key of ACCRUED from it.
 * After 'make lib': cc -I build/include examples/issue_and_derive.c -L build/lib -lyendlowa-issuer -lyendlowa-desk -o build/issue_and_derive
 */
#include <stdio.h>
#include <string.h>
#include <yendlowa_desk.h>
#include <yendlowa_issuer.h>

/*
 * Four modules with their accounts, and which stands above which. The top has no accounts, since its envelope would hold the root
 * secret itself. The null byte at the string's end does not belong to the policy.
 */
static const uint8_t policy[] =
    "LBSUITE   \0\0" "LBCURVES  \0\3" "LBCONV32  \0\5" "LBACCRUED \0\4"
    "OV\0\1" "OV\0\2" "OV\1\3" "OV\2\3";
static const size_t policy_length = sizeof policy - 1;

/* A name as a user types it, padded. */
static void pad(const char *typed, uint8_t name[YENDLOWA_NAME])
{
    yendlowa_pad_name((const uint8_t *)typed, strlen(typed), name, YENDLOWA_NAME);
}

static void print(const char *what, const uint8_t key[YENDLOWA_KEY])
{
    printf("%s ", what);
    for (int i = 0; i < YENDLOWA_KEY; i++) printf("%02x", key[i]);
    printf("\n");
}

int main(void)
{
    uint8_t root[YENDLOWA_KEY], envelope[YENDLOWA_ENVELOPE_ROOM], conv32[YENDLOWA_NAME], accrued[YENDLOWA_NAME];
    memset(root, 7, sizeof root); /* an example: a root secret is chosen at random and kept secret */
    pad("CONV32", conv32);
    pad("ACCRUED", accrued);

    yendlowa_written issued = yendlowa_issue(policy, policy_length, conv32, sizeof conv32, 5, root, sizeof root,
                                             envelope, sizeof envelope);
    if (issued.refusal != YENDLOWA_ACCEPTED) {
        fprintf(stderr, "issue_and_derive: %s\n", yendlowa_refusal_text(issued.refusal).text);
        return 1;
    }
    printf("an envelope of %zu bytes\n", issued.length);

    yendlowa_derived derived = yendlowa_derive(envelope, issued.length, accrued, sizeof accrued);
    yendlowa_label_key own = yendlowa_issuer_key(policy, policy_length, accrued, sizeof accrued, root, sizeof root);
    print("desk  ", derived.key);
    print("issuer", own.key);
    if (derived.refusal != 0 || own.refusal != 0 || memcmp(derived.key, own.key, YENDLOWA_KEY) != 0) return 1;
    printf("the desk's key is the issuer's own\n");
    return fflush(stdout) == 0 ? 0 : 2;
}
