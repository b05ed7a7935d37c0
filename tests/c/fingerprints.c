/* yendlowa_fingerprint: known fingerprints, and 15 for every other length. */
#include "groups.h"
#include <yendlowa_issuer.h>

static yendlowa_root_fingerprint fingerprint(bytes root)
{
    bytes r = input(0, root);
    return yendlowa_fingerprint(r.at, r.length);
}

static bool fingerprint_is(bytes root, const char *digits)
{
    yendlowa_root_fingerprint f = fingerprint(root);
    return f.refusal == YENDLOWA_ACCEPTED && is_hex(f.bytes, sizeof f.bytes, digits);
}

/* the first bytes of the library's own HMAC */
static bool is_front_of_hmac(bytes root)
{
    yendlowa_digest mac = yendlowa_hmac_sha256(root.at, root.length, (const uint8_t *)"Yendlowa root fingerprint", 25);
    return same(fingerprint(root).bytes, (bytes){mac.bytes, 8});
}

void fingerprints(void)
{
    static const uint8_t zeros[40];
    check(fingerprint_is(BYTES(ROOT), "ea4abfd05d181dbf"));
    check(fingerprint_is((bytes){zeros, 32}, "38dbac5c9b1e9f21"));
    check(is_front_of_hmac(BYTES("0123456789abcdef0123456789abcdef")));
    for (size_t length = 0; length <= sizeof zeros; length++) {
        yendlowa_root_fingerprint f = fingerprint((bytes){zeros, length});
        if (length != 32) check(f.refusal == YENDLOWA_ROOT_LENGTH && all_zero(f.bytes, sizeof f.bytes));
    }
}
