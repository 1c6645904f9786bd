"""The rows of `test_rows_proto` for digests, keys and nonces, and for requests that other programs sent.

The vectors are those of RFC 2202, RFC 4231 and RFC 5769; what else is wanted is worked out by Python's hmac,
hashlib and zlib.
"""

import zlib

from rows_proto_base import Section, in_hex
from rows_proto_keys import (
    ALL,
    BY,
    COOKIE,
    FEATURES,
    LETTERS,
    SHA1,
    SHA256,
    SHA512,
    WORDS,
    hmac_of,
    judged,
    key_of,
    nonce_of,
    offered,
    some,
    told,
    with_length,
    words,
)

# a key, a text, and its HMACs by HMAC-SHA1, HMAC-SHA256 and HMAC-SHA512: the vectors of RFC 2202, section 3, and of
# RFC 4231, section 4, and two examples of NIST. Where none has one of them, it is that of Python's hmac; so is the
# whole HMAC-SHA512 of the text with truncation, of which RFC 4231 has 128 bits.
BIG_KEY = "Test Using Larger Than Block-Size Key - Hash Key First"
HMACS = [
    (
        b"\x0b" * 20,
        b"Hi There",
        "b617318655057264e28bc0b6fb378c8ef146be00",
        "b0344c61d8db38535ca8afceaf0bf12b881dc200c9833da726e9376c2e32cff7",
        "87aa7cdea5ef619d4ff0b4241a1d6cb02379f4e2ce4ec2787ad0b30545e17cdedaa833b7d6b8a702038b274eaea3f4e4be9d914eeb61f1"
        "702e696c203a126854",
    ),
    (
        b"Jefe",
        b"what do ya want for nothing?",
        "effcdf6ae5eb2fa2d27416d5f184df9c259a7c79",
        "5bdcc146bf60754e6a042426089575c75a003f089d2739839dec58b964ec3843",
        "164b7a7bfcf819e2e395fbe73b56e0a387bd64222e831fd610270cd7ea2505549758bf75c05a994a6d034f65f8f0e6fdcaeab1a34d4a6b"
        "4b636e070a38bce737",
    ),
    (
        b"\xaa" * 20,
        b"\xdd" * 50,
        "125d7342b9ac11cd91a39af48aa17b4f63f175d3",
        "773ea91e36800e46854db8ebd09181a72959098b3ef8c122d9635514ced565fe",
        "fa73b0089d56a284efb0f0756c890be9b1b5dbdd8ee81a3655f83e33b2279d39bf3e848279a722c806b485a47e67c807b946a337bee894"
        "2674278859e13292fb",
    ),
    (
        bytes(range(1, 26)),
        b"\xcd" * 50,
        "4c9007f4026250c6bc8414f9bf50c86c2d7235da",
        "82558a389a443c0ea4cc819899f2083a85f0faa3e578f8077a2e3ff46729665b",
        "b0ba465637458c6990e5a8c5f61d4af7e576d97ff94b872de76f8050361ee3dba91ca5c11aa25eb4d679275cc5788063a5f19741120c4f"
        "2de2adebeb10a298dd",
    ),
    (
        b"\x0c" * 20,
        b"Test With Truncation",
        "4c1a03424b55e07fe7f27be1d58bb9324a9a5a04",
        "a3b6167473100ee06e0c796c2955552bfa6f7c0a6a8aef8b93f860aab0cd20c5",
        "415fad6271580a531d4179bc891d87a650188707922a4fbb36663a1eb16da008711c5b50ddd0fc235084eb9d3364a1454fb2ef67cd1d29"
        "fe6773068ea266e96b",
    ),
    # a key of one block
    (
        bytes(range(64)),
        b"Sample message for keylen=blocklen",
        "5fd596ee78d5553c8ff4e72d266dfd192366da29",
        "8bb9a1db9806f20df7f77b82138c7914d174d59e13dc4d0169c9057b133e1d62",
        "5baffa5b3cd7d37542657aec2792dc704b866d7e3d6d138a3eabf4d1ea4dc33543b3acc5d83b898d062828d200b648b6b946d228d75142"
        "49d84bc02f2888873e",
    ),
    # a key of one block of SHA-512
    (
        bytes(range(128)),
        b"Sample message for keylen=blocklen",
        "ae9578e4947dd0ef5606785e662ea4f3252bc2ff",
        "02ac78295aee848b01a18ca5400b0f56572fea92fa24dc5eb23e7be53f116fe2",
        "fc25e240658ca785b7a811a8d3f7b4ca48cfa26a8a366bf2cd1f836b05fcb024bd36853081811d6cea4216ebad79da1cfcb95ea4586b8a"
        "0ce356596a55fb1347",
    ),
    # keys that are longer than a block, and then texts too
    (
        b"\xaa" * 80,
        BIG_KEY.encode(),
        "aa4ae5e15272d00e95705637ce8a3b55ed402112",
        "6953025ed96f0c09f80a96f78e6538dbe2e7b820e3dd970e7ddd39091b32352f",
        "132c9ebc32531071f6c4d9e8842291e9403e5940f813170a3ba3a0dd6c055c8b8ca587b24c56c47f3c1f2fb8ee8f9fbc8d92deed0f8342"
        "6be3e8a2e9056778b3",
    ),
    (
        b"\xaa" * 131,
        BIG_KEY.encode(),
        "90d0dace1c1bdc957339307803160335bde6df2b",
        "60e431591ee0b67f0d8a26aacbf5b77f8e0bc6213728c5140546040f0ee37f54",
        "80b24263c7c1a3ebb71493c1dd7be8b49b46d1f41b4aeec1121b013783f8f3526b56d037e05f2598bd0fd2215d6a1e5295e64f73f63f0a"
        "ec8b915a985d786598",
    ),
    (
        b"\xaa" * 80,
        b"Test Using Larger Than Block-Size Key and Larger Than One Block-Size Data",
        "e8e99d0f45237d786d6bbaa7965c7808bbff1a91",
        "6355ac22e890d0a3c8481a5ca4825bc884d3e7a1ff98a2fc2ac7d8e064c3b2e6",
        "09441cda584ed2f4d2f5b519c71baf3c79cce19dfc89a548e73b3bb382a9124d6e792b77bf57903ff5858e5d111d15f45d6fd118eea023"
        "f28d2eb234ebe62f85",
    ),
    (
        b"\xaa" * 131,
        b"This is a test using a larger than block-size key and a larger than block-size data. The key needs to "
        b"be hashed before being used by the HMAC algorithm.",
        "217e44bb08b6e06a2d6c30f3cb9f537f97c63356",
        "9b09ffa71b942fcb27635fbcd5b0e944bfdc63644f0713938a7f51535c3a35e2",
        "e37b6a775dc87dbaa4dfa9f96e5e3ffddebd71f8867289865df5a32d20cdc944b6022cac3c4982b10d5eeb55c3e4de15134676fb6de044"
        "6065c97440fa8c6a58",
    ),
]


def numbered(size):
    """A text of so many bytes."""
    return bytes(i * 37 % 251 for i in range(size))


# about a block of each digest
KEY_SIZES = (0, 1, 63, 64, 65, 127, 128, 129, 200)


def hmacs(rows):
    """HMACs, each taken in three pieces and in one call."""
    rows.remark("a key and a text: its HMACs")
    for key, text, *hmacs_wanted in HMACS:
        assert [hmac_of(by, key, text).hex() for by in ALL] == hmacs_wanted
    texts = [(key, text) for key, text, *_ in HMACS]
    sizes = (*range(8), 55, 56, 64, 111, 112, 128, 165)
    texts += [(numbered(key), numbered(size)) for key in KEY_SIZES for size in sizes]
    for key, text in texts:
        answer = " ".join(f"{hmac} {hmac}" for hmac in (hmac_of(by, key, text).hex() for by in ALL))
        rows.ask(f"{answer} hmac", "hmac", value=in_hex(key), bytes=in_hex(text))
    rows.ask("Hmac { .. } IntegrityKey { .. }", "hidden", password="pass")


def third(text):
    return text[: len(text) // 3]


def hmacs_again(rows):
    """HMACs of several texts under one key, in both orders: the vectors, and keys about the size of a block."""
    rows.remark("a key and a text: its HMACs, those of its first third, its own again; and the third first")
    texts = [(key, text) for key, text, *_ in HMACS]
    texts += [(numbered(key), numbered(size)) for key in KEY_SIZES for size in (0, 3, 55, 111, 165)]
    for key, text in texts:
        order = [text, third(text), text, third(text), text]
        answer = " ".join(hmac_of(by, key, it).hex() for it in order for by in ALL)
        rows.ask(f"{answer} hmac", "hmac-again", value=in_hex(key), bytes=in_hex(text))


def signed_again(rows):
    """The same of keys of passwords and of users, for each algorithm, and of their clones."""
    rows.remark("a key and a text: what it and a clone sign of the text and of its first third, in both orders")
    passwords = [("p" * size, "-", "-") for size in KEY_SIZES]
    for of in [PASS, USER, SAMPLE, *passwords]:
        for by in ALL:
            for text in (b"", b"what do ya want for nothing?", numbered(165)):
                key = key_of(by, *of)
                order = [text, third(text), text, third(text), text]
                answer = " ".join(hmac_of(by, key, it).hex() for it in order)
                given = {"algorithm": WORDS[by], **credentials(of), "bytes": in_hex(text)}
                rows.ask(f"{answer} true {by}", "sign-again", **given)


FOX = b"The quick brown fox jumps over the lazy dog"
CRCS = [
    (b"", 0),
    (bytes(4), 0x2144DF1C),
    (b"c" * 4, 0xD82DFA0E),
    # the check value of the catalogue of CRCs
    (b"123456789", 0xCBF43926),
    # each number of steps by sixteen, eight and four bytes and by one
    (FOX[:3], 0x04082B06),
    (FOX[:4], 0x000B625B),
    (FOX[:8], 0x74D21C74),
    (FOX[:12], 0x09E98FAC),
    (FOX[:15], 0xC3118C34),
    (FOX[:16], 0xC81B2A7C),
    (FOX[:31], 0x88022E8C),
    (FOX, 0x414FA339),
]


def crcs(rows):
    """CRC-32s, by each way to take one."""
    rows.remark("a text: its CRC-32")
    assert all(zlib.crc32(text) == crc for text, crc in CRCS)
    for text in [*(text for text, _ in CRCS), *(numbered(size) for size in range(80))]:
        rows.ask(f"{zlib.crc32(text):08x} " * 5 + "crc", "crc", bytes=in_hex(text))


def fingerprint(rows, data, size, value=None):
    """A message whose header tells another length: whether a value is that of its FINGERPRINT, or the right one."""
    crc = zlib.crc32(with_length(data, size))
    right = crc ^ 0x5354554E
    value = right if value is None else value
    answer = f"{crc:08x} {right:08x} {str(value == right).lower()}"
    rows.ask(answer, "fingerprint", length=size, value=f"{value:08x}", bytes=data.hex())


# RFC 5769, sections 2.1 to 2.3, of which the last eight bytes are a FINGERPRINT, and 2.4
SAMPLE_REQUEST = bytes.fromhex(
    "000100582112a442b7e7a701bc34d686fa87dfae802200105354554e207465737420636c69656e74002400046e0001ff80290008932ff9b1"
    "51263b36000600096576746a3a68367659202020000800149aeaa70cbfd8cb56781ef2b5b2d3f249c1b571a280280004e57a3bcf"
)
SAMPLE_REPLY = bytes.fromhex(
    "0101003c2112a442b7e7a701bc34d686fa87dfae8022000b7465737420766563746f7220002000080001a147e112a643000800142b91f599"
    "fd9e90c38c7489f92af9ba53f06be7d780280004c07d4c96"
)
SAMPLE_REPLY_6 = bytes.fromhex(
    "010100482112a442b7e7a701bc34d686fa87dfae8022000b7465737420766563746f7220002000140002a1470113a9faa5d3f179bc25f4b5"
    "bed2b9d900080014a382954e4be67bf11784c97c8292c275bfe3ed4180280004c8fb0b4c"
)
SAMPLE_LONG = bytes.fromhex(
    "000100602112a44278ad3433c6ad72c029da412e00060012e3839ee38388e383aae38383e382afe382b900000015001c662f2f3439396b39"
    "353464364f4c33346f4c394653547679363473410014000b6578616d706c652e6f72670000080014f67024656dd64a3e02b8e0712e85c9a2"
    "8ca89666"
)
SAMPLE_NAME, SAMPLE_SECRET, SAMPLE_REALM = "マトリックス", "TheMatrIX", "example.org"
SAMPLE_PASSWORD = "VOkJxbRl1RmTxUk/WvJxBt"


def fingerprints(rows):
    """Values of FINGERPRINT."""
    rows.remark("a length, a value and a message: its FINGERPRINT")
    # a length that the header may not have
    fingerprint(rows, b"cc??cccccccccccccccccccc", 0x6363, 0x83BAB26D)
    fingerprint(rows, b"cc??cccccccccccccccccccc", 0x6363, 0x83BAB26C)
    for sample in (SAMPLE_REQUEST, SAMPLE_REPLY, SAMPLE_REPLY_6):
        front, value = sample[:-8], int.from_bytes(sample[-4:], "big")
        assert zlib.crc32(with_length(front, len(sample) - 20)) ^ 0x5354554E == value
        fingerprint(rows, front, len(sample) - 20, value)
        fingerprint(rows, front, len(sample) - 20, value ^ 0x80000000)
        fingerprint(rows, front, len(sample) - 28, value)
    for size in (0, 1, 255, 256, 65535):
        fingerprint(rows, SAMPLE_REPLY[:20], size)
    for size, value, end in ((0, "00000000", 19), (65536, "00000000", 20), (0, "000000", 20), (0, "0000000000", 20)):
        rows.ask("bad line", "fingerprint", length=size, value=value, bytes=SAMPLE_REPLY[:end].hex())


# a password, and a name and a realm or `-`
PASS, JEFE = ("pass", "-", "-"), ("Jefe", "-", "-")
USER, SAMPLE = ("pass", "user", "realm"), (SAMPLE_SECRET, SAMPLE_NAME, SAMPLE_REALM)
NOTHING = b"what do ya want for nothing?"

# credentials, a text, and what their keys sign
SIGNED = [
    (
        PASS,
        b"\n" * 30,
        "5c5b94f31ca8109a89b3faa999de257fd294de77",
        "10af35c31232999407f71bb9c3ab16c516b4f443beb9472296c26c124b5eddb9",
        "960562656fa3690f2d60c4bf18db2fa3ac92fb8acc1499e7cf13f2d2997671513f34aa48ca507fae158de5a0aa52eba0397752a2eafc6b"
        "a074e79b535f2e5942",
    ),
    # the second sample of RFC 4231
    (
        JEFE,
        NOTHING,
        "effcdf6ae5eb2fa2d27416d5f184df9c259a7c79",
        "5bdcc146bf60754e6a042426089575c75a003f089d2739839dec58b964ec3843",
        "164b7a7bfcf819e2e395fbe73b56e0a387bd64222e831fd610270cd7ea2505549758bf75c05a994a6d034f65f8f0e6fdcaeab1a34d4a6b"
        "4b636e070a38bce737",
    ),
    (
        USER,
        NOTHING,
        "543ff194a3bdb98c43c9235e7bfbd0c00022085b",
        "b50c997a78c613a592fda6da712c8888fd24acbd3e748105a8bd88c6a43bd36e",
        "926144f4c6a33e151bfd5dcbabbac5fbdac5505b05d66076496b7bc308241cf4d8b006135cefc29d5129380fdf397f1a1f007e3dd659cb"
        "01906cf267b46f364c",
    ),
    # the long-term sample of RFC 5769
    (
        SAMPLE,
        NOTHING,
        "b3a2a8a7acb126b9896fea588b2a356fef674fa7",
        "a49e8a6e6a6b860e1ce09df0c56c266f5f42fb3ae5bc1a3eac2c64e2df152c77",
        "0cf274be6abe9dd6599b27ed900108c185edf69ad4c607b144ef9dc74547bd3e183b32152ca3739bfc118480e68693e4a452ed6aaa6ea4"
        "fe3c1a9873a369e978",
    ),
]
LONG_KEYS = [
    (USER, SHA1, "8493fbc53ba582fb4c044c456bdc40eb"),
    (USER, SHA256, "07e934117abd40836e7c6329b54731b2b2d2a5f9a71f544922d75e0730d8251b"),
    (
        USER,
        SHA512,
        "b222af09cf23da9c2b4505147dfd6a12535d6f2776ab6b6db2f7e98bb96d8aaac3b4c6691af835231600b6c9b5cf0c75a976122a223f02"
        "919c21e53b70bde6e5",
    ),
    (SAMPLE, SHA1, "e8ca7ad59d5eb0518e312911d2dab2a9"),
    (SAMPLE, SHA256, "dd295a613b9058c3c23d6dc7165bda072304d989c9d0af3a8c7e184b4f9bb4a1"),
    (
        SAMPLE,
        SHA512,
        "f27729dc8484755e3dc9ef2915ceff0f6c7313b08ebae8a64e5893c96eaac9156bd77ac6234535b876212d8512d757814da151b697b1f7"
        "c21fda901d33fbf625",
    ),
]


def credentials(of):
    """What a line names of them."""
    return {name: it for name, it in zip(("password", "name", "realm"), of) if it != "-"}


def signatures(rows):
    """What keys of credentials sign."""
    rows.remark("credentials and a text: what they tell, and the HMACs under their keys")
    assert all(key_of(by, *of).hex() == key for of, by, key in LONG_KEYS)
    for of, text, *wanted in SIGNED:
        assert [hmac_of(by, key_of(by, *of), text).hex() for by in ALL] == wanted
    texts = [(of, text) for of, text, *_ in SIGNED]
    texts += [(of, numbered(size)) for of in (PASS, USER) for size in (0, 1, 2, 3, 64, 128)]
    for of, text in texts:
        password, name, realm = of
        tells = [password] if name == "-" else [name, realm, password]
        for by in ALL:
            hmac = hmac_of(by, key_of(by, *of), text).hex()
            # by the attribute of each algorithm, twice, and by the key itself
            tells += [by, *(hmac if it == by else "IntegrityFailed" for it in ALL for _ in range(2)), hmac]
        rows.ask(" ".join(tells), "sign", **credentials(of), bytes=in_hex(text))


def verdict(holds):
    return "Ok(())" if holds else "Err(IntegrityFailed)"


def verify(rows, of, algorithm, value, text):
    """Whether a value is taken for the HMAC of a text, under the key for an algorithm."""
    right = hmac_of(algorithm, key_of(algorithm, *of), text)
    by_sha1 = verdict(algorithm == SHA1 and value == right) if len(value) == 20 else "none"
    is_front = right.startswith(value)
    others = (SHA256, SHA512)
    by_others = " ".join(verdict(algorithm == it and is_front and len(value) in BY[it][4]) for it in others)
    given = {"algorithm": WORDS[algorithm], **credentials(of), "value": in_hex(value), "bytes": in_hex(text)}
    rows.ask(f"{by_sha1} {by_others} {str(is_front).lower()}", "verify", **given)


def turned(value, bit):
    """A value of which a bit is turned, the highest of its first byte being the first."""
    at = bit // 8
    return value[:at] + bytes([value[at] ^ (0x80 >> bit % 8)]) + value[at + 1 :]


def verifications(rows):
    """HMACs that are verified, and refused."""
    rows.remark("a key, a value and a text: whether the value is its HMAC")
    for of, text, *_ in SIGNED:
        for algorithm in ALL:
            right = hmac_of(algorithm, key_of(algorithm, *of), text)
            for by in ALL:
                verify(rows, of, by, right, text)
            verify(rows, of, algorithm, right, text[1:])
            verify(rows, of, algorithm, right, text + b"\0")
            verify(rows, (of[0] + "x", *of[1:]), algorithm, right, text)
    for of in (PASS, JEFE, USER):
        for algorithm in ALL:
            right = hmac_of(algorithm, key_of(algorithm, *of), NOTHING)
            # fronts of each length, and more
            for size in range(len(right) + 1):
                verify(rows, of, algorithm, right[:size], NOTHING)
            verify(rows, of, algorithm, right + b"\0", NOTHING)
            verify(rows, of, algorithm, right + bytes(4), NOTHING)
            # where one bit is another one
            for bit in range(0, 8 * len(right), 13):
                verify(rows, of, algorithm, turned(right, bit), NOTHING)
            for size in (16, 20):
                verify(rows, of, algorithm, turned(right[:size], 8 * size - 1), NOTHING)


def equalities(rows):
    """Keys are equal by their bytes, for whatever algorithm they were made."""
    rows.remark("a key: whether it is that of a password, and that of a user")
    keys = [key_of(SHA1, *PASS), key_of(SHA1, *USER)]
    others = [("past", "-", "-"), ("passx", "-", "-"), ("pass", "user", "other"), ("word", "user", "realm")]
    for of in [PASS, USER, SAMPLE, *others]:
        for by in ALL:
            is_one, is_other = (str(key_of(by, *of) == it).lower() for it in keys)
            rows.ask(f"{is_one} {is_other} {by}", "equal", algorithm=WORDS[by], **credentials(of))


# ---- nonces


def features_text(features):
    return "algorithms {} names {}".format(*(str(it).lower() for it in features))


SETTINGS = [
    ("sha1", [SHA1]),
    ("sha256", [SHA256]),
    ("sha1,sha256", [SHA1, SHA256]),
    ("sha256,sha1", [SHA256, SHA1]),
    ("sha1,sha1", [SHA1]),
    ("sha512", [SHA512]),
    ("sha512,sha1", [SHA512, SHA1]),
    ("sha1,sha256,sha512", [SHA1, SHA256, SHA512]),
    ("sha512,sha256,sha1,sha256,sha512", [SHA512, SHA256, SHA1]),
]


def nonces(rows):
    """What a server tells of its features, and texts of nonces."""
    rows.remark("settings of a server and the words of a generator: what it offers, and the nonce")
    bounds = [0, 25, 26, 51, 52, 61, 62, 123, 124, 4294967295, *[61] * 6]
    assert nonce_of((True, True), bounds) == "obMatJos2wAAAAZaz09A9AD999999"
    drawn = [bounds, *(words(seed) for seed in (0, 1, 2, 127, 255)), list(range(16)), list(range(46, 62))]
    for given, algorithms in SETTINGS:
        for anonymity in ("Auto", "Required", "Disabled"):
            features = offered(algorithms, anonymity)
            for it in drawn:
                answer = f"{features_text(features)} {nonce_of(features, it)}"
                of = {"supported": given, "anonymity": anonymity.lower(), "words": ",".join(map(str, it))}
                rows.ask(answer, "nonce", **of)
    for line in ("nonce words=4294967296", "nonce", "nonce supported=md5 words=0", "nonce anonymity=never words=0"):
        rows.say(line, "bad line")


def tellings(rows):
    """What nonces tell of features."""
    rows.remark("a nonce: the features that it tells")
    assert [told(COOKIE + it) for it in ("AAAA", "gAAAxyz", "QAAAxyz", "wAAA")] == list(FEATURES)
    tails = ["AAAA", "gAAAxyz", "QAAAxyz", "wAAA", "w+/9", *(f"{it}AAA" for it in LETTERS + "+/")]
    # too few characters, and such as are none of base64
    tails += ["w", "wA", "wAA", "wAA=", "wA==", "_AAA", "-AAA", "wAA_", "wAA-"]
    tails += ["\u00e9AA", "wA\u00e9", "wAA\u00e9", "wAAA\u00e9"]
    fronts = ["", "obMatJos", COOKIE, "abMatJos2wAAA", "obMatJos1wAAA", "OBMATJOS2wAAA"]
    for nonce in [*fronts, *(COOKIE + it for it in tails)]:
        rows.ask(features_text(told(nonce)), "told", nonce=nonce)


# ---- requests that other programs were recorded to send


# ALLOCATE requests of `user` in `realm`, signed by HMAC-SHA1 under the password `pass`: of aioice 0.8.0 and of
# pion/turn 2.1.0; and the nonces that they show
RECORDED = [
    (
        "000300582112a442dc6b35cdd89431eaf4a3aee3000d0004000002580019000411000000000600047573657200150010613866663932"
        "38363531393163326263001400057265616c6d0000000008001451fd6a9a3986d4816a897f100bb9ff072f573f2180280004798fc509",
        "a8ff92865191c2bc",
    ),
    (
        "000300502112a442a0a38b51cb851fc56fb53deb00190004110000000006000475736572001400057265616c6d000000001500103730"
        "39306438363265326161316436630008001465be3555d0f44a6cf97f9e8949a67bfdda564121802800046d9ff0a9",
        "7090d862e2aa1d6c",
    ),
]

# ALLOCATE requests that are not signed: of aioice, pion/turn, turnutils_uclient, libnice 0.1.21 and libre 1.1.0
UNSIGNED = [
    "000300102112a442aedd3a3fd9788d71494becb7000d0004000002580019000411000000",
    "000300102112a4423bba0276e61448e031a83e09001900041100000080280004291a9942",
    "000300282112a442f92f6cc2c9e522de1c8000cd0019000411000000000d0004000003090018000100000000001700040100000080280004"
    "c4d9dc72",
    "000300202112a442c800004b2ddc8654d89592228022000b6e6963652d636c69656e74200019000411000000000d000400000258",
    "000300302112a44297b4bde5a3b7ad5fca0990d0000d00040000025800190004110000008022001b6c696272652076312e312e3020287838"
    "365f36342f6c696e75782900",
]


def judge(rows, data, realm, algorithms, nonce, user):
    """Whom a server takes a message for, by what it knows."""
    taken, refused = judged(data, realm, algorithms, nonce, user)
    given = ",".join(WORDS[it] for it in algorithms)
    name, password = user or (None, None)
    of = {"realm": realm, "supported": given, "nonce": nonce, "name": name, "password": password}
    rows.ask(refused or "{} {}".format(*taken), "judge", **of, bytes=data.hex())


def judgements(rows):
    """Requests of other programs, held against a server for which the nonce that they show stands, or not."""
    rows.remark("what a server knows, and a request that another program sent: whom it is taken for")
    user = ("user", "pass")
    for text, nonce in RECORDED:
        data = bytes.fromhex(text)
        judge(rows, data, "realm", [SHA1], nonce, user)
        judge(rows, data, "realm", [SHA1, SHA256], nonce, user)
        judge(rows, data, "realm", [SHA256, SHA1], nonce, user)
        judge(rows, data, "realm", [SHA1, SHA256, SHA512], nonce, user)
        judge(rows, data, "realm", [SHA512, SHA1], nonce, user)
        # other algorithms alone
        judge(rows, data, "realm", [SHA256], nonce, user)
        judge(rows, data, "realm", [SHA512], nonce, user)
        judge(rows, data, "realm", [SHA512, SHA256], nonce, user)
        # another nonce stands, or none
        judge(rows, data, "realm", [SHA1], nonce_of((False, True), words(0)), user)
        judge(rows, data, "realm", [SHA1], nonce[:-1], user)
        judge(rows, data, "realm", [SHA1], nonce + "0", user)
        judge(rows, data, "realm", [SHA1], None, user)
        # another password, another name, another realm, or no such user
        judge(rows, data, "realm", [SHA1], nonce, ("user", "word"))
        judge(rows, data, "realm", [SHA1], nonce, ("users", "pass"))
        judge(rows, data, "realms", [SHA1], nonce, user)
        judge(rows, data, "realm", [SHA1], nonce, None)
    for text in UNSIGNED:
        judge(rows, bytes.fromhex(text), "realm", [SHA1], None, user)
        judge(rows, bytes.fromhex(text), "realm", [SHA1], "nonce", user)
    sample = (SAMPLE_NAME, SAMPLE_SECRET)
    nonce = "f//499k954d6OL34oL9FSTvy64sA"
    for algorithms in ([SHA1], [SHA256], [SHA1, SHA256], [SHA512], [SHA512, SHA256, SHA1]):
        judge(rows, SAMPLE_LONG, SAMPLE_REALM, algorithms, nonce, sample)
    # a bit of it is turned: in the number, the name and its padding, the nonce, the realm and its padding, the
    # signature
    for at in (8, 19, 24, 41, 42, 43, 48, 75, 80, 90, 91, 96, 115):
        judge(rows, turned(SAMPLE_LONG, 8 * at + 7), SAMPLE_REALM, [SHA1], nonce, sample)
    # what is no request of a user: a response, and no message
    for text in (SAMPLE_REPLY.hex(), "00", "-"):
        rows.ask("bad line", "judge", realm="realm", name="user", password="pass", bytes=text)


# ---- refusals


def refusals(rows):
    """What each refusal tells."""
    rows.remark("each refusal of an agent, of a client and of a server: its reason, its algorithm, its text")
    failed = "the integrity of the message does not hold"
    told = [
        "AlreadyInProgress already in progress",
        "ResourceNotFound resource not found",
        "TimedOut timed out",
        "ProtocolViolation protocol violation",
        "Aborted aborted",
        "ParseError(NotStun) the message can't be parsed",
        "WriteError(IntegrityFailed) the message can't be written",
        "NoMemory no memory",
    ]
    both = [("Unauthorized", None, "unauthorized"), *(("IntegrityFailed", it, failed) for it in ALL)]
    client = [*both, ("UnsupportedFeature", None, "unsupported feature"), ("NoMemory", None, "no memory")]
    server = [*both, ("BadRequest", None, "bad request"), ("StaleNonce", None, "stale nonce")]
    for reason, algorithm, text in [*client, *server, ("NoMemory", None, "no memory")]:
        whole = f"{reason}({algorithm})" if algorithm else reason
        told.append(f"{whole} {reason} {some(algorithm)} {text}")
    rows.say("errors", "".join(f"{it}; " for it in told))


def sections():
    makers = [hmacs, hmacs_again, crcs, fingerprints, signatures, signed_again, verifications, equalities]
    for make in [*makers, nonces, tellings, judgements, refusals]:
        rows = Section("values")
        make(rows)
        yield rows
