/* yendlowa_sha256, yendlowa_hmac_sha256: FIPS 180-4, RFC 4231, and the limit of 65,536 bytes. */
#include "groups.h"
#include <string.h>
#include <yendlowa_issuer.h>

static uint8_t many[65537];

static yendlowa_digest hash(bytes message)
{
    bytes m = input(0, message);
    return yendlowa_sha256(m.at, m.length);
}

static yendlowa_digest mac(bytes key, bytes message)
{
    bytes k = input(0, key), m = input(1, message);
    return yendlowa_hmac_sha256(k.at, k.length, m.at, m.length);
}

static bool digest_is(yendlowa_digest digest, const char *digits)
{
    return digest.refusal == YENDLOWA_ACCEPTED && is_hex(digest.bytes, sizeof digest.bytes, digits);
}

static bool too_long(yendlowa_digest digest)
{
    return digest.refusal == YENDLOWA_TOO_LONG && all_zero(digest.bytes, sizeof digest.bytes);
}

static void hashed(void)
{
    check(digest_is(hash(BYTES("")), "e3b0c44298fc1c149afbf4c8996fb92427ae41e4649b934ca495991b7852b855"));
    check(digest_is(hash(BYTES("abc")), "ba7816bf8f01cfea414140de5dae2223b00361a396177a9cb410ff61f20015ad"));
    check(digest_is(hash((bytes){many, 65536}), "bf718b6f653bebc184e1479f1935b8da974d701b893afcf49e701f3e2f9f9c5a"));
    check(too_long(hash((bytes){many, 65537})));
}

static void authenticated(void)
{
    check(digest_is(mac(BYTES("Jefe"), BYTES("what do ya want for nothing?")),
                    "5bdcc146bf60754e6a042426089575c75a003f089d2739839dec58b964ec3843"));
    check(digest_is(mac(BYTES(""), BYTES("")), "b613679a0814d9ec772f95d778c35fc5ff1697c493715653c6c712144292c5ad"));
    check(digest_is(mac((bytes){many, 65536}, (bytes){many, 65536}),
                    "8e0c40afe0c1917fd487c5cee0e89c479ed6b6cdcebb79fa3de6810eadf5d35c"));
    check(too_long(mac((bytes){many, 65537}, BYTES(""))));
    check(too_long(mac(BYTES(""), (bytes){many, 65537})));
}

void hashes(void)
{
    memset(many, 'a', sizeof many);
    hashed();
    authenticated();
}
