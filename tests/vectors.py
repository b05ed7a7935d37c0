#!/usr/bin/env python3
"""Makes what the program `vectors` reads and what it has to write, from sources that know nothing of the project: the digests
that FIPS 180-4's examples and RFC 4231 give, Python's hashlib and hmac for the other messages, the values that RFC 8439 gives,
with which the ciphers of the package `cryptography` have to agree, and documents 01 and 02.

python3 tests/vectors.py    writes crates/vectors/stdin and crates/vectors/stdout
"""
import hashlib
import hmac
import pathlib

from cryptography.hazmat.primitives.ciphers import Cipher, algorithms
from cryptography.hazmat.primitives.ciphers.aead import ChaCha20Poly1305
from cryptography.hazmat.primitives.poly1305 import Poly1305

# The standards' own values; hashlib, and cryptography, have to agree with each.
GIVEN = {
    "sha256 of nothing": "e3b0c44298fc1c149afbf4c8996fb92427ae41e4649b934ca495991b7852b855",
    "sha256 of abc": "ba7816bf8f01cfea414140de5dae2223b00361a396177a9cb410ff61f20015ad",
    "sha256 of 448 bits": "248d6a61d20638b8e5c026930c3e6039a33ce45964ff2167f6ecedd419db06c1",
    "sha256 of 896 bits": "cf5b16a778af8380036ce59e7b0492370b249b11e8f07a51afac45037afee9d1",
    "RFC 4231 case 1": "b0344c61d8db38535ca8afceaf0bf12b881dc200c9833da726e9376c2e32cff7",
    "RFC 4231 case 2": "5bdcc146bf60754e6a042426089575c75a003f089d2739839dec58b964ec3843",
    "RFC 4231 case 3": "773ea91e36800e46854db8ebd09181a72959098b3ef8c122d9635514ced565fe",
    "RFC 4231 case 4": "82558a389a443c0ea4cc819899f2083a85f0faa3e578f8077a2e3ff46729665b",
    "RFC 4231 case 5, 128 bits": "a3b6167473100ee06e0c796c2955552b",
    "RFC 4231 case 6": "60e431591ee0b67f0d8a26aacbf5b77f8e0bc6213728c5140546040f0ee37f54",
    "RFC 4231 case 7": "9b09ffa71b942fcb27635fbcd5b0e944bfdc63644f0713938a7f51535c3a35e2",
}

LIMIT = 65_536

# The operations, as the program numbers them.
DIGEST, MAC, POLICY, PLAN, TREE, KEY, ENVELOPE, DERIVED, BLOCK, ONE_TIME, ENCRYPTED, TAG, SEALED, MODULE, OPENED = range(15)
ROSTER_POLICY, ROSTER_PLAN, ROSTER_TREE, ROSTER_KEY, ROSTER_ENVELOPE, ROSTER_MODULE = range(15, 21)

cases = []
answers = []


def number(n):
    return n.to_bytes(2, "big")


def data(content):
    """A file: how many bytes are given, how many a's follow them, and the bytes given."""
    given = content[: max(len(content.rstrip(b"a")), len(content) - 65_535)]
    return number(len(given)) + number(len(content) - len(given)) + given


def case(name, operation, answer, files, counted=0):
    """A case: its name, the operation, a number and four files, and the line that has to come of it."""
    if name in GIVEN and GIVEN[name] != answer:
        raise SystemExit(f"{name}: {answer} is not what the standard gives")
    taken = [data(content) for content in (*files, b"", b"", b"")[:4]]
    cases.append(data(name.encode()) + number(operation) + number(counted) + b"".join(taken))
    answers.append(f"{name}: {answer}\n")


def sha(name, message):
    answer = hashlib.sha256(message).hexdigest() if len(message) <= LIMIT else "REFUSED 21"
    case(name, DIGEST, answer, (message,), 32)


def mac(name, key, message, shown=32):
    refused = len(key) > LIMIT or len(message) > LIMIT
    answer = "REFUSED 21" if refused else hmac.new(key, message, "sha256").digest()[:shown].hex()
    case(name, MAC, answer, (key, message), shown)


sha("sha256 of nothing", b"")
sha("sha256 of abc", b"abc")
sha("sha256 of 448 bits", b"abcdbcdecdefdefgefghfghighijhijkijkljklmklmnlmnomnopnopq")
sha(
    "sha256 of 896 bits",
    b"abcdefghbcdefghicdefghijdefghijkefghijklfghijklmghijklmnhijklmno"
    b"ijklmnopjklmnopqklmnopqrlmnopqrsmnopqrstnopqrstu",
)
for length in (55, 56, 63, 64, 65, 119, 120, LIMIT, LIMIT + 1):
    sha(f"sha256 of {length} a", b"a" * length)

mac("RFC 4231 case 1", b"\x0b" * 20, b"Hi There")
mac("RFC 4231 case 2", b"Jefe", b"what do ya want for nothing?")
mac("RFC 4231 case 3", b"\xaa" * 20, b"\xdd" * 50)
mac("RFC 4231 case 4", bytes(range(1, 26)), b"\xcd" * 50)
mac("RFC 4231 case 5, 128 bits", b"\x0c" * 20, b"Test With Truncation", 16)
mac("RFC 4231 case 6", b"\xaa" * 131, b"Test Using Larger Than Block-Size Key - Hash Key First")
mac(
    "RFC 4231 case 7",
    b"\xaa" * 131,
    b"This is a test using a larger than block-size key and a larger than block-size data. "
    b"The key needs to be hashed before being used by the HMAC algorithm.",
)
mac("hmac of 65536 a", b"key", b"a" * LIMIT)
mac("hmac of 65537 a", b"key", b"a" * (LIMIT + 1))
mac("hmac with a key of 65536 a", b"a" * LIMIT, b"message")
mac("hmac with a key of 65537 a", b"a" * (LIMIT + 1), b"message")

# Policies of document 01, "Checked by hand".
def label(name, accounts):
    return b"LB" + name.encode().ljust(8) + number(accounts)


def over(upper, lower):
    return b"OV" + bytes([upper, lower])


ONE = label("SUITE", 7)
LABELS = label("SUITE", 2) + label("CURVES", 3) + label("CONV32", 5) + label("ACCRUED", 4)
E = LABELS + over(0, 1) + over(0, 2) + over(1, 3) + over(2, 3)
CHAIN = label("A", 1) + label("B", 0) + label("C", 4) + over(0, 1) + over(1, 2)
EXCHANGED = label("SUITE", 2) + label("CONV32", 5) + label("CURVES", 3) + label("ACCRUED", 4) + E[-16:]


def wide(labels, pairs):
    """So many labels, with pairs from label 0 down to each of the others in turn."""
    records = [label(f"L{i:02}", 1) for i in range(labels)] + [over(0, 1 + i % 63) for i in range(pairs)]
    return b"".join(records)


for name, policy, answer in (
    ("empty policy", b"", "REFUSED 1"),
    ("one label", ONE, "1 labels, 0 pairs"),
    ("one label, cut", ONE[:-1], "REFUSED 3"),
    ("E", E, "4 labels, 4 pairs"),
    ("E without its last two pairs", E[:-8], "REFUSED 10"),
    ("E with the pair 3-3", E + over(3, 3), "REFUSED 9"),
    ("E with the pair 3-4", E + over(3, 4), "REFUSED 8"),
    ("64 labels, each paired below the top", wide(64, 63), "64 labels, 63 pairs"),
    ("65 labels, each paired below the top", wide(65, 64), "REFUSED 5"),
    ("64 labels and 512 pairs", wide(64, 512), "64 labels, 512 pairs"),
    ("64 labels and 513 pairs", wide(64, 513), "REFUSED 5"),
):
    case(name, POLICY, answer, (policy,))

# For each label its parent, weight and set size. By document 02, Ask 1, C of the chain hangs from B. Where CURVES and CONV32 are exchanged, counting
# labels instead of accounts would hang ACCRUED from CURVES, label 2, for a total of 19.
for name, policy, answer in (
    ("plan of an empty policy", b"", "REFUSED 1"),
    ("plan of one label", ONE, "0 7 1, total 7"),
    ("plan of E", E, "0 2 1, 0 3 2, 0 5 1, 2 7 1, total 17"),
    ("plan of E, CURVES and CONV32 exchanged", EXCHANGED, "0 2 1, 0 5 1, 0 3 2, 1 7 1, total 17"),
    ("plan of the chain A 1, B 0, C 4", CHAIN, "0 1 1, 0 0 1, 1 4 1, total 5"),
):
    case(name, PLAN, answer, (policy,))

for name, policy, tree, answer in (
    ("E under 0,0,0,2", E, b"TR\0\0\0\2", "17, least"),
    ("E under 0,0,0,1", E, b"TR\0\0\0\1", "19, not least"),
    ("E under 0,0,0,0", E, b"TR\0\0\0\0", "22, not least"),
    ("E under 0,0,1,2", E, b"TR\0\0\1\2", "REFUSED 12"),
    ("E under 0,0,0,3, its own parent", E, b"TR\0\0\0\3", "REFUSED 12"),
    ("E under 1,0,0,2, the top's byte", E, b"TR\1\0\0\2", "REFUSED 12"),
    ("E exchanged under 0,0,0,2", EXCHANGED, b"TR\0\0\0\2", "19, not least"),
    ("the chain under 0,0,1", CHAIN, b"TR\0\0\1", "5, least"),
    ("the chain under 0,0,0", CHAIN, b"TR\0\0\0", "5, least"),
    ("E, three bytes after TR", E, b"TR\0\0\0", "REFUSED 11"),
    ("E, five bytes after TR, one wrong", E, b"TR\0\0\1\2\0", "REFUSED 11"),
    ("E, another mark", E, b"OV\0\0\0\2", "REFUSED 2"),
    ("E, one byte", E, b"T", "REFUSED 2"),
    ("E, an empty tree file", E, b"", "REFUSED 2"),
    ("an empty policy and an empty tree file", b"", b"", "REFUSED 1"),
):
    case(name, TREE, answer, (policy, tree))

# Keys and envelopes of document 01's policy E, whose tree it gives, and of the chain, whose tree document 02, Ask 1, gives, with the root secret
# 0, 1, .. 31.
NAMES = ("SUITE", "CURVES", "CONV32", "ACCRUED")
PARENTS = {"CURVES": "SUITE", "CONV32": "SUITE", "ACCRUED": "CONV32", "B": "A", "C": "B"}
BELOW = {"SUITE": NAMES, "CURVES": ("CURVES", "ACCRUED"), "CONV32": ("CONV32", "ACCRUED"), "ACCRUED": ("ACCRUED",)}
BELOW |= {"A": ("A", "B", "C"), "B": ("B", "C"), "C": ("C",)}
ROOT = bytes(range(32))


def padded(name):
    return name.encode().ljust(8)


def applied(secret, name):
    return hmac.new(secret, padded(name), "sha256").digest()


def secret_of(name, parents=PARENTS):
    return applied(secret_of(parents[name], parents), name) if name in parents else ROOT


def key_of(name, parents=PARENTS):
    return applied(secret_of(name, parents), name)


def held(label, parents=PARENTS):
    return [name for name in BELOW[label] if parents.get(name) not in BELOW[label]]


def envelope(label, account, parents=PARENTS):
    records = b""
    for name in BELOW[label]:
        if name in held(label, parents):
            records += b"KS" + padded(name) + secret_of(name, parents)
        else:
            records += b"KD" + padded(name) + bytes([BELOW[label].index(parents[name])])
    return b"EN" + account.to_bytes(2, "big") + padded(label) + records


def applications(label, name):
    """Tree steps from the secret that is held at the label, plus one."""
    return 1 if name in held(label) else 1 + applications(label, PARENTS[name])


def issued(label, account, length, secrets, room, title="E", policy=E):
    """An envelope, whose length document 01 gives for most labels of E, and the number of its secrets for one."""
    made = envelope(label, account)
    if (len(made), len(held(label))) != (length, secrets):
        raise SystemExit(f"{label}: {len(made)} bytes, {len(held(label))} secrets, not {length} and {secrets}")
    answer = f"{length} bytes, {made.hex()}"
    case(f"{title}, {label}, account {account}", ENVELOPE, answer, (policy, padded(label), ROOT, bytes(room)), account)


def derived(name, label, count):
    """A name from a label's envelope, with the applications that document 01 gives for most."""
    if applications(label, name) != count:
        raise SystemExit(f"{name} from {label}: {applications(label, name)} applications, not {count}")
    answer = f"{count} applications, {key_of(name).hex()}"
    case(f"{name} from {label}", DERIVED, answer, (envelope(label, 1), padded(name)))


for name in NAMES:
    case(f"key of {name}", KEY, key_of(name).hex(), (E, padded(name), ROOT))
for name, policy, asked, root, answer in (
    ("key of C of the chain", CHAIN, padded("C"), ROOT, key_of("C").hex()),
    ("key of RATES", E, padded("RATES"), ROOT, "REFUSED 13"),
    ("key of SUITE in 5 bytes", E, b"SUITE", ROOT, "REFUSED 13"),
    ("key of SUITE, root of 31 bytes", E, padded("SUITE"), bytes(31), "REFUSED 15"),
    ("key of RATES, root of 31 bytes", E, padded("RATES"), bytes(31), "REFUSED 13"),
    ("key, an empty policy", b"", b"", b"", "REFUSED 1"),
):
    case(name, KEY, answer, (policy, asked, root))

issued("CONV32", 5, 65, 1, room=65)
issued("CURVES", 3, 96, 2, room=100)
issued("SUITE", 2, 87, 1, room=128)
issued("ACCRUED", 1, 54, 1, room=54)
issued("A", 1, 76, 1, room=76, title="the chain", policy=CHAIN)
issued("C", 4, 54, 1, room=54, title="the chain", policy=CHAIN)
for name, asked, account, room, answer in (
    ("E, CONV32, account 5, 64 bytes", "CONV32", 5, 64, "REFUSED 16"),
    ("E, CONV32, account 6", "CONV32", 6, 65, "REFUSED 14"),
    ("E, CONV32, account 0", "CONV32", 0, 65, "REFUSED 14"),
    ("E, RATES, account 0, no buffer", "RATES", 0, 0, "REFUSED 13"),
):
    case(name, ENVELOPE, answer, (E, padded(asked), ROOT, bytes(room)), account)

derived("SUITE", "SUITE", 1)
derived("CURVES", "SUITE", 2)
derived("CONV32", "SUITE", 2)
derived("ACCRUED", "SUITE", 3)
derived("CONV32", "CONV32", 1)
derived("ACCRUED", "CONV32", 2)
derived("ACCRUED", "CURVES", 1)
derived("C", "A", 3)
for name, file, asked, answer in (
    ("CURVES from CONV32", envelope("CONV32", 1), padded("CURVES"), "REFUSED 20"),
    ("CONV32 from CONV32 in 6 bytes", envelope("CONV32", 1), b"CONV32", "REFUSED 20"),
    ("a bare header", b"EN\0\1CONV32  ", padded("CONV32"), "REFUSED 18"),
    ("11 bytes", b"EN\0\1CONV32 ", padded("CONV32"), "REFUSED 17"),
    ("a header with account 0", b"EN\0\0CONV32  ", padded("CONV32"), "REFUSED 17"),
):
    case(name, DERIVED, answer, (file, asked))

# ChaCha20, Poly1305 and the two together: the examples of RFC 8439, with the texts of its appendix.
SUNSCREEN = b"Ladies and Gentlemen of the class of '99: If I could offer you only one tip for the future, sunscreen would be it."
CONTRIBUTION = (
    b'Any submission to the IETF intended by the Contributor for publication as all or part of an IETF Internet-Draft or RFC and any '
    b'statement made within the context of an IETF activity is considered an "IETF Contribution". Such statements include oral '
    b"statements in IETF sessions, as well as written and electronic communications made at any time or place, which are addressed to"
)
JABBERWOCKY = (
    b"'Twas brillig, and the slithy toves\nDid gyre and gimble in the wabe:\nAll mimsy were the borogoves,\nAnd the mome raths outgrabe."
)
DRAFTS = (
    "Internet-Drafts are draft documents valid for a maximum of six months and may be updated, replaced, or obsoleted by other documents "
    "at any time. It is inappropriate to use Internet-Drafts as reference material or to cite them other than as /\u201cwork in progress./\u201d"
).encode()
ZERO, ONE_KEY, RISING, HIGH = bytes(32), bytes(31) + b"\1", bytes(range(32)), bytes(range(128, 160))
JABBERWOCKY_KEY = bytes.fromhex("1c9240a5eb55d38af333888604f6b5f0473917c1402b80099dca5cbc207075c0")
NONCE, NONCE_2 = bytes(12), bytes(11) + b"\2"


def chacha20(key, counter, nonce, text):
    return Cipher(algorithms.ChaCha20(key, counter.to_bytes(4, "little") + nonce), None).encryptor().update(text)


def block(name, key, counter, nonce, given):
    example(name, chacha20(key, counter, nonce, bytes(64)), given, BLOCK, (key, nonce), counter)


def one_time(name, key, nonce, given):
    example(name, chacha20(key, 0, nonce, bytes(32)), given, ONE_TIME, (key, nonce), 32)


def encrypted(name, key, counter, nonce, text, given):
    example(name, chacha20(key, counter, nonce, text), given, ENCRYPTED, (key, nonce, b"", text), counter)


def tag(name, key, message, given):
    example(name, Poly1305.generate_tag(key, message), given, TAG, (key, message))


def sealed(name, key, nonce, aad, text, given):
    example(name, ChaCha20Poly1305(key).encrypt(nonce, text, aad), given, SEALED, (key, nonce, aad, text))


def example(name, computed, given, operation, files, counted=0):
    GIVEN[name] = given
    case(name, operation, computed.hex(), files, counted)


def words(*parts):
    """Bytes from hexadecimal, each part filled with zeros to 16 bytes."""
    return b"".join(bytes.fromhex(part).ljust(16, b"\0") for part in parts)


block(
    "RFC 8439, 2.3.2", RISING, 1, bytes.fromhex("000000090000004a00000000"),
    "10f1e7e4d13b5915500fdd1fa32071c4c7d1f4c733c068030422aa9ac3d46c4ed2826446079faa0914c2d705d98b02a2b5129cd1de164eb9cbd083e8a2503c4e",
)
block(
    "RFC 8439, A.1, 1", ZERO, 0, NONCE,
    "76b8e0ada0f13d90405d6ae55386bd28bdd219b8a08ded1aa836efcc8b770dc7da41597c5157488d7724e03fb8d84a376a43b8f41518a11cc387b669b2ee6586",
)
block(
    "RFC 8439, A.1, 2", ZERO, 1, NONCE,
    "9f07e7be5551387a98ba977c732d080dcb0f29a048e3656912c6533e32ee7aed29b721769ce64e43d57133b074d839d531ed1f28510afb45ace10a1f4b794d6f",
)
block(
    "RFC 8439, A.1, 3", ONE_KEY, 1, NONCE,
    "3aeb5224ecf849929b9d828db1ced4dd832025e8018b8160b82284f3c949aa5a8eca00bbb4a73bdad192b5c42f73f2fd4e273644c8b36125a64addeb006c13a0",
)
block(
    "RFC 8439, A.1, 4", b"\0\xff" + bytes(30), 2, NONCE,
    "72d54dfbf12ec44b362692df94137f328fea8da73990265ec1bbbea1ae9af0ca13b25aa26cb4a648cb9b9d1be65b2c0924a66c54d545ec1b7374f4872e99f096",
)
block(
    "RFC 8439, A.1, 5", ZERO, 0, NONCE_2,
    "c2c64d378cd536374ae204b9ef933fcd1a8b2288b3dfa49672ab765b54ee27c78a970e0e955c14f3a88e741b97c286f75f8fc299e8148362fa198a39531bed6d",
)
encrypted(
    "RFC 8439, 2.4.2", RISING, 1, bytes.fromhex("000000000000004a00000000"), SUNSCREEN,
    "6e2e359a2568f98041ba0728dd0d6981e97e7aec1d4360c20a27afccfd9fae0bf91b65c5524733ab8f593dabcd62b3571639d624e65152ab8f530c359f0861d8"
    "07ca0dbf500d6a6156a38e088a22b65e52bc514d16ccf806818ce91ab77937365af90bbf74a35be6b40b8eedf2785e42874d",
)
encrypted(
    "RFC 8439, A.2, 1", ZERO, 0, NONCE, bytes(64),
    "76b8e0ada0f13d90405d6ae55386bd28bdd219b8a08ded1aa836efcc8b770dc7da41597c5157488d7724e03fb8d84a376a43b8f41518a11cc387b669b2ee6586",
)
encrypted(
    "RFC 8439, A.2, 2", ONE_KEY, 1, NONCE_2, CONTRIBUTION,
    "a3fbf07df3fa2fde4f376ca23e82737041605d9f4f4f57bd8cff2c1d4b7955ec2a97948bd3722915c8f3d337f7d370050e9e96d647b7c39f56e031ca5eb6250d"
    "4042e02785ececfa4b4bb5e8ead0440e20b6e8db09d881a7c6132f420e52795042bdfa7773d8a9051447b3291ce1411c680465552aa6c405b7764d5e87bea85a"
    "d00f8449ed8f72d0d662ab052691ca66424bc86d2df80ea41f43abf937d3259dc4b2d0dfb48a6c9139ddd7f76966e928e635553ba76c5c879d7b35d49eb2e62b"
    "0871cdac638939e25e8a1e0ef9d5280fa8ca328b351c3c765989cbcf3daa8b6ccc3aaf9f3979c92b3720fc88dc95ed84a1be059c6499b9fda236e7e818b04b0b"
    "c39c1e876b193bfe5569753f88128cc08aaa9b63d1a16f80ef2554d7189c411f5869ca52c5b83fa36ff216b9c1d30062bebcfd2dc5bce0911934fda79a86f6e6"
    "98ced759c3ff9b6477338f3da4f9cd8514ea9982ccafb341b2384dd902f3d1ab7ac61dd29c6f21ba5b862f3730e37cfdc4fd806c22f221",
)
encrypted(
    "RFC 8439, A.2, 3", JABBERWOCKY_KEY, 42, NONCE_2, JABBERWOCKY,
    "62e6347f95ed87a45ffae7426f27a1df5fb69110044c0d73118effa95b01e5cf166d3df2d721caf9b21e5fb14c616871fd84c54f9d65b283196c7fe4f60553eb"
    "f39c6402c42234e32a356b3e764312a61a5532055716ead6962568f87d3f3f7704c6a8d1bcd1bf4d50d6154b6da731b187b58dfd728afa36757a797ac188d1",
)
tag("RFC 8439, 2.5.2", bytes.fromhex("85d6be7857556d337f4452fe42d506a80103808afb0db2fd4abff6af4149f51b"), b"Cryptographic Forum Research Group", "a8061dc1305136c6c22b8baf0c0127a9")
S = "36e5f6b5c5e06070f0efca96227a863e"
tag("RFC 8439, A.3, 1", ZERO, bytes(64), "00000000000000000000000000000000")
tag("RFC 8439, A.3, 2", words("", S), CONTRIBUTION, S)
tag("RFC 8439, A.3, 3", words(S, ""), CONTRIBUTION, "f3477e7cd95417af89a6b8794c310cf0")
tag("RFC 8439, A.3, 4", JABBERWOCKY_KEY, JABBERWOCKY, "4541669a7eaaee61e708dc7cbcc5eb62")
tag("RFC 8439, A.3, 5", words("02", ""), words("ff" * 16), "03000000000000000000000000000000")
tag("RFC 8439, A.3, 6", words("02", "ff" * 16), words("02"), "03000000000000000000000000000000")
tag("RFC 8439, A.3, 7", words("01", ""), words("ff" * 16, "f0" + "ff" * 15, "11"), "05000000000000000000000000000000")
tag("RFC 8439, A.3, 8", words("01", ""), words("ff" * 16, "fb" + "fe" * 15, "01" * 16), "00000000000000000000000000000000")
tag("RFC 8439, A.3, 9", words("02", ""), words("fd" + "ff" * 15), "faffffffffffffffffffffffffffffff")
WIDE = words("0100000000000000" "04", "")
LOW = words("e33594d7505e43b9", "3394d7505e4379cd" "01")
tag("RFC 8439, A.3, 10", WIDE, LOW + words("", "01"), "14000000000000005500000000000000")
tag("RFC 8439, A.3, 11", WIDE, LOW + words(""), "13000000000000000000000000000000")
one_time("RFC 8439, 2.6.2", HIGH, bytes.fromhex("000000000001020304050607"), "8ad5a08b905f81cc815040274ab29471a833b637e3fd0da508dbb8e2fdd1a646")
one_time("RFC 8439, A.4, 1", ZERO, NONCE, "76b8e0ada0f13d90405d6ae55386bd28bdd219b8a08ded1aa836efcc8b770dc7")
one_time("RFC 8439, A.4, 2", ONE_KEY, NONCE_2, "ecfa254f845f647473d3cb140da9e87606cb33066c447b87bc2666dde3fbb739")
one_time("RFC 8439, A.4, 3", JABBERWOCKY_KEY, NONCE_2, "965e3bc6f9ec7ed9560808f4d229f94b137ff275ca9b3fcbdd59deaad23310ae")
sealed(
    "RFC 8439, 2.8.2", HIGH, bytes.fromhex("070000004041424344454647"), bytes.fromhex("50515253c0c1c2c3c4c5c6c7"), SUNSCREEN,
    "d31a8d34648e60db7b86afbc53ef7ec2a4aded51296e08fea9e2b5a736ee62d63dbea45e8ca9671282fafb69da92728b1a71de0a9e060b2905d6a5b67ecd3b36"
    "92ddbd7f2d778b8c9803aee328091b58fab324e4fad675945585808b4831d7bc3ff4def08e4b7a9de576d26586cec64b61161ae10b594f09e26a7e902ecbd060"
    "0691",
)
sealed(
    "RFC 8439, A.5", JABBERWOCKY_KEY, bytes.fromhex("000000000102030405060708"), bytes.fromhex("f33388860000000000004e91"), DRAFTS,
    "64a0861575861af460f062c79be643bd5e805cfd345cf389f108670ac76c8cb24c6cfc18755d43eea09ee94e382d26b0bdb7b73c321b0100d4f03b7f355894cf"
    "332f830e710b97ce98c8a84abd0b948114ad176e008d33bd60f982b1ff37c8559797a06ef4f0ef61c186324e2b3506383606907b6a7c02b0f9f6157b53c867e4"
    "b9166c767b804d46a59b5216cde7a4e99040c5a40433225ee282a1b0a06c523eaf4534d7f83fa1155b0047718cbc546a0d072b04b3564eea1b422273f548271a"
    "0bb2316053fa76991955ebd63159434ecebb4e466dae5a1073a6727627097a1049e617d91d361094fa68f0ff77987130305beaba2eda04df997b714d6c6f2c29"
    "a6ad5cb4022b02709beead9d67890cbb22392336fea1851f38",
)


def module(label, nonce, text, parents=PARENTS):
    """The sealed file of a text."""
    head = b"SM" + padded(label)
    return head + nonce + ChaCha20Poly1305(key_of(label, parents)).encrypt(nonce, text, head)


def told(content):
    return f"{len(content)} bytes, {hashlib.sha256(content).hexdigest()}"


# Modules of E, of the lengths about a block of either cipher and the limit. What is sealed is a's; what is opened has other bytes, into a buffer of a's.
NONCE_3 = bytes(11) + b"\3"
ASKED = padded("ACCRUED") + ROOT + NONCE_3
LENGTHS = (0, 1, 15, 16, 17, 63, 64, 65, 32_767, 32_768)
for length in LENGTHS:
    text = b"a" * length
    case(f"ACCRUED sealed, {length} bytes", MODULE, told(module("ACCRUED", NONCE_3, text)), (E, ASKED, text, b"a" * (length + 38)))
for length in LENGTHS:
    text = bytes(i % 97 for i in range(length))
    case(f"ACCRUED opened, {length} bytes", OPENED, told(text), (envelope("CONV32", 1), module("ACCRUED", NONCE_3, text), b"", b"a" * length))
TEXT = b"the text of a module"
FILE = module("ACCRUED", NONCE_3, TEXT)
for name, operation, files, answer in (
    ("ACCRUED sealed, 32769 bytes", MODULE, (E, ASKED, b"a" * 32_769, b"a" * 32_807), 22),
    ("ACCRUED sealed, nonce of 11 bytes", MODULE, (E, ASKED[:-1], TEXT, b"a" * 58), 22),
    ("RATES sealed, nonce of 11 bytes", MODULE, (E, padded("RATES") + ASKED[8:-1], TEXT, b"a" * 58), 13),
    ("ACCRUED sealed, a buffer of 57 bytes", MODULE, (E, ASKED, TEXT, b"a" * 57), 16),
    ("37 bytes opened", OPENED, (envelope("CONV32", 1), FILE[:37], b"", b"a" * 20), 22),
    ("32807 bytes opened", OPENED, (envelope("CONV32", 1), b"SM" + padded("ACCRUED") + b"a" * 32_797, b"", b"a" * 32_769), 22),
    ("CURVES opened from CONV32", OPENED, (envelope("CONV32", 1), module("CURVES", NONCE_3, TEXT), b"", b""), 20),
    ("ACCRUED opened, a buffer of 18 bytes, another tag", OPENED, (envelope("CONV32", 1), FILE[:-1], b"", b"a" * 18), 16),
    ("ACCRUED opened, another tag", OPENED, (envelope("CONV32", 1), FILE[:-1], b"", b"a" * 19), 23),
    ("37 bytes opened, no envelope", OPENED, (b"", FILE[:37], b"", b""), 17),
):
    case(name, operation, f"REFUSED {answer}", files)

# A roster of E, worked by hand from document 02, Ask 4: 1 is on SUITE, 2 is held on CURVES, 3 is withdrawn. By these accounts ACCRUED hangs from CURVES,
# where it weighs nothing; by those in E it hangs from CONV32.
def join(account, name):
    return b"JN" + number(account) + padded(name)


def move(account, name):
    return b"MV" + number(account) + padded(name)


def hold(account):
    return b"HD" + number(account)


def withdraw(account):
    return b"WD" + number(account)


WORKED = join(1, "SUITE") + join(2, "CONV32") + move(2, "CURVES") + hold(2) + join(3, "ACCRUED") + withdraw(3)
COUNTED = label("SUITE", 1) + label("CURVES", 1) + label("CONV32", 0) + label("ACCRUED", 0) + E[-16:]
for name, records, room, answer in (
    ("E with the worked roster's counts", WORKED, len(COUNTED), told(COUNTED)),
    ("E with the worked roster's counts, a byte too few", WORKED, len(COUNTED) - 1, "REFUSED 16"),
    ("E with the worked roster's counts, a refused record and no buffer", WORKED + hold(3), 0, "REFUSED 25"),
):
    case(name, ROSTER_POLICY, answer, (E, records, b"", b"a" * room))

for name, records, answer in (
    ("plan of E with the worked roster", WORKED, "0 1 1, 0 1 1, 0 0 2, 1 0 1, total 2"),
    ("plan of E with an empty roster", b"", "0 0 1, 0 0 2, 0 0 1, 2 0 1, total 0"),
    ("plan of E with a refused roster", WORKED + hold(3), "REFUSED 25"),
):
    case(name, ROSTER_PLAN, answer, (E, records))
for name, records, tree, answer in (
    ("E with the worked roster under 0,0,0,1", WORKED, b"TR\0\0\0\1", "2, least"),
    ("E with the worked roster under 0,0,0,2", WORKED, b"TR\0\0\0\2", "3, not least"),
    ("E with the worked roster under 0,0,0,3", WORKED, b"TR\0\0\0\3", "REFUSED 12"),
    ("E with a refused roster and an empty tree file", WORKED + hold(3), b"", "REFUSED 25"),
):
    case(name, ROSTER_TREE, answer, (E, records, tree))

ROSTER_PARENTS = PARENTS | {"ACCRUED": "CURVES"}
for name in NAMES:
    case(f"key of {name} with the worked roster", ROSTER_KEY, key_of(name, ROSTER_PARENTS).hex(), (E, WORKED, padded(name) + ROOT))
case("key of RATES with the worked roster", ROSTER_KEY, "REFUSED 13", (E, WORKED, padded("RATES") + ROOT[1:]))
case("key of SUITE with the worked roster, root of 31 bytes", ROSTER_KEY, "REFUSED 15", (E, WORKED, padded("SUITE") + ROOT[1:]))

MORE = WORKED + join(4, "CURVES") + join(4096, "CURVES")
for asked, account, length in (("SUITE", 1, 87), ("CURVES", 4, 65), ("CURVES", 4096, 65)):
    made = envelope(asked, account, ROSTER_PARENTS)
    if len(made) != length:
        raise SystemExit(f"{asked}, account {account}: {len(made)} bytes, not {length}")
    case(f"the roster's account {account} on {asked}", ROSTER_ENVELOPE, f"{length} bytes, {made.hex()}", (E, MORE, padded(asked) + ROOT, bytes(length)), account)
for name, asked, account, root, room, answer in (
    ("the roster's account 2 on CURVES, which is held, no root", "CURVES", 2, b"", 65, 26),
    ("the roster's account 2 on SUITE", "SUITE", 2, ROOT, 87, 14),
    ("the roster's account 3 on ACCRUED, which is withdrawn", "ACCRUED", 3, ROOT, 54, 14),
    ("the roster's account 5 on CURVES, which is unknown", "CURVES", 5, ROOT, 65, 14),
    ("the roster's account 4 on RATES", "RATES", 4, ROOT, 65, 13),
    ("the roster's account 4 on CURVES, root of 31 bytes", "CURVES", 4, ROOT[1:], 64, 15),
    ("the roster's account 4 on CURVES, 64 bytes", "CURVES", 4, ROOT, 64, 16),
):
    case(name, ROSTER_ENVELOPE, f"REFUSED {answer}", (E, MORE, padded(asked) + root, bytes(room)), account)

for name, records, asked, answer in (
    ("ACCRUED sealed with the worked roster", WORKED, ASKED, told(module("ACCRUED", NONCE_3, TEXT, ROSTER_PARENTS))),
    ("ACCRUED sealed with a refused roster", WORKED + hold(3), ASKED, "REFUSED 25"),
    ("RATES sealed with the worked roster", WORKED, padded("RATES") + ASKED[8:], "REFUSED 13"),
):
    case(name, ROSTER_MODULE, answer, (E, records, asked + TEXT, b"a" * (len(TEXT) + 38)))

program = pathlib.Path(__file__).parent.parent / "crates/vectors"
(program / "stdin").write_bytes(number(len(cases)) + b"".join(cases))
(program / "stdout").write_text("".join(answers))
