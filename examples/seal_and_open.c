/*
 * The module ACCRUED is sealed, and the desk of account 5 at CONV32, which stands above it, opens the file with its envelope.
 * After 'make lib': cc -I build/include examples/seal_and_open.c -L build/lib -lyendlowa-issuer -lyendlowa-desk -o build/seal_and_open
 */
#include <stdio.h>
#include <string.h>
#include <yendlowa_desk.h>
#include <yendlowa_issuer.h>

/* Four modules with their accounts, and which stands above which; the null byte at the string's end does not belong to it. */
static const uint8_t policy[] =
    "LBSUITE   \0\0" "LBCURVES  \0\3" "LBCONV32  \0\5" "LBACCRUED \0\4"
    "OV\0\1" "OV\0\2" "OV\1\3" "OV\2\3";
static const size_t policy_length = sizeof policy - 1;

static const uint8_t conv32[] = {'C', 'O', 'N', 'V', '3', '2', ' ', ' '};
static const uint8_t accrued[] = {'A', 'C', 'C', 'R', 'U', 'E', 'D', ' '};
static const char module[] = "accrued = coupon * days / year";

/*
 * The next nonce. NEVER USE THE SAME NONCE TWICE UNDER ONE KEY: a real counter stands in a file beside the root secret, and is raised
 * and saved there before anything is sealed with it. This one starts anew with each run, since it is an example.
 */
static void count_up(uint8_t counter[YENDLOWA_NONCE])
{
    for (int i = YENDLOWA_NONCE - 1; i >= 0; i--)
        if (++counter[i] != 0) return;
}

static int refused(const char *what, uint8_t number)
{
    fprintf(stderr, "seal_and_open: %s: %s\n", what, yendlowa_refusal_text(number).text);
    return 1;
}

int main(void)
{
    uint8_t root[YENDLOWA_KEY], counter[YENDLOWA_NONCE] = {0};
    uint8_t envelope[YENDLOWA_ENVELOPE_ROOM], file[YENDLOWA_SEALED_ROOM], text[YENDLOWA_MODULE_ROOM];
    memset(root, 7, sizeof root); /* an example: a root secret is chosen at random and kept secret */

    /* at the seller's */
    count_up(counter);
    yendlowa_written sealed = yendlowa_seal(policy, policy_length, accrued, sizeof accrued, root, sizeof root, counter, sizeof counter,
                                            (const uint8_t *)module, strlen(module), file, sizeof file);
    if (sealed.refusal != YENDLOWA_ACCEPTED) return refused("seal", sealed.refusal);
    yendlowa_written issued = yendlowa_issue(policy, policy_length, conv32, sizeof conv32, 5, root, sizeof root,
                                             envelope, sizeof envelope);
    if (issued.refusal != YENDLOWA_ACCEPTED) return refused("issue", issued.refusal);
    printf("a text of %zu bytes, a sealed file of %zu\n", strlen(module), sealed.length);

    /* at the desk */
    yendlowa_written opened = yendlowa_open(envelope, issued.length, file, sealed.length, text, sizeof text);
    if (opened.refusal != YENDLOWA_ACCEPTED) return refused("open", opened.refusal);
    printf("%.*s\n", (int)opened.length, (const char *)text);

    /* a byte of the file is altered on the way */
    file[sealed.length / 2] ^= 1;
    opened = yendlowa_open(envelope, issued.length, file, sealed.length, text, sizeof text);
    printf("altered: refused with %d\n", opened.refusal);
    return fflush(stdout) == 0 ? 0 : 2;
}
