"""Keys, what is signed by them, what a message claims, and nonces, for the rows of `test_rows_proto`.

By RFC 8489, sections 9, 14.3 to 14.12 and 18.5, over Python's hmac and hashlib.
"""

import hashlib
import hmac
import struct
from typing import NamedTuple, Optional

from rows_proto_base import MAGIC, message
from traces_base import (
    ERROR_CODE, INTEGRITY, INTEGRITY_SHA256, NONCE, PASSWORD_ALGORITHM, PASSWORD_ALGORITHMS, REALM, TRANSPORT, USERHASH,
    USERNAME, attribute as attribute_of, block,
)

INTEGRITY_SHA512 = 0x3F12
FINGERPRINT = 0x8028
SHA1, SHA256, SHA512 = "Sha1", "Sha256", "Sha512"
# the weaker first
ALL = (SHA1, SHA256, SHA512)
WORDS = {SHA1: "sha1", SHA256: "sha256", SHA512: "sha512"}
# the attribute and the digest of an HMAC, that of a long-term key, the number of the latter, the lawful lengths
BY = {
    SHA1: (INTEGRITY, "sha1", "md5", 1, (20,)),
    SHA256: (INTEGRITY_SHA256, "sha256", "sha256", 2, (16, 20, 24, 28, 32)),
    SHA512: (INTEGRITY_SHA512, "sha512", "sha512", 0xFF12, tuple(range(16, 65, 4))),
}
NUMBERS = [BY[it][3] for it in ALL]
KIND = {BY[it][0]: it for it in ALL}
MOST_NAME, MOST_TEXT, HASH_SIZE = 513, 763, 32
NUMBER = 0x7392


def key_of(algorithm, password, name="-", realm="-"):
    """The key of a short-term password, or of a user in a realm."""
    if name == "-":
        return password.encode()
    return hashlib.new(BY[algorithm][2], f"{name}:{realm}:{password}".encode()).digest()


def hmac_of(algorithm, key, text):
    return hmac.new(key, text, BY[algorithm][1]).digest()


def hash_of(name, realm="realm"):
    return hashlib.sha256(f"{name}:{realm}".encode()).digest()


def attribute(kind, value):
    return attribute_of(kind, value.encode() if isinstance(value, str) else value)


def with_length(data, size):
    """A message, as if its header told this length."""
    return data[:2] + struct.pack(">H", size) + data[4:]


def joined(attributes):
    return b"".join(attribute(*it) for it in attributes)


def signed(kind, attributes, key=None, by=SHA1, number=NUMBER):
    """A message of a type, which is signed under a key where there is one."""
    data = message(kind, number, joined(attributes))
    if key is None:
        return data
    integrity, digest, _, _, _ = BY[by]
    size = hashlib.new(digest).digest_size
    text = with_length(data, len(data) - 20 + 4 + size)
    return text + attribute(integrity, hmac_of(by, key, text))


def entries(algorithms):
    """The value of the list of password algorithms that a server of these sends."""
    return b"".join(struct.pack(">HH", BY[it][3], 0) for it in algorithms)


def words(seed):
    """The first words of the ChaCha20 generator of a seed, 32 bytes of one value (RFC 8439, section 2.3)."""
    return block(0, [seed * 0x01010101] * 8)


COOKIE = "obMatJos2"
LETTERS = "ABCDEFGHIJKLMNOPQRSTUVWXYZabcdefghijklmnopqrstuvwxyz0123456789"
FEATURES = {(False, False): "AAAA", (True, False): "gAAA", (False, True): "QAAA", (True, True): "wAAA"}


def nonce_of(features, drawn):
    """The nonce of sixteen words, with what it tells: that there are password algorithms to choose from, and that
    hashed names are taken."""
    return COOKIE + FEATURES[features] + "".join(LETTERS[it % 62] for it in drawn)


def offered(algorithms, anonymity):
    return algorithms != [SHA1], anonymity != "Disabled"


def told(nonce):
    """What a nonce tells of features (RFC 8489, section 18.1): nothing, where the cookie or four characters of
    base64 that are three bytes don't stand at its front."""
    front = nonce.encode()
    digits = front[len(COOKIE) : len(COOKIE) + 4]
    alphabet = (LETTERS + "+/").encode()
    if not front.startswith(COOKIE.encode()) or len(digits) < 4 or any(it not in alphabet for it in digits):
        return False, False
    first = alphabet.index(digits[0])
    return first & 0b100000 != 0, first & 0b010000 != 0


# ---- what a message claims


RANKS = {INTEGRITY: 1, INTEGRITY_SHA256: 2, INTEGRITY_SHA512: 3, FINGERPRINT: 4}


def shown(data):
    """Where each attribute that a message shows stands, its type, and its value."""
    at, rank, found = 20, 0, []
    while at < len(data):
        kind, size = struct.unpack(">HH", data[at : at + 4])
        own = RANKS.get(kind, 0)
        if own < rank or 0 < own == rank:
            break
        rank = own
        found.append((at, kind, data[at + 4 : at + 4 + size]))
        at += 4 + size + -size % 4
    return found


class Claim(NamedTuple):
    """Of each kind of attribute the last one decides, and a malformed one is as if there were none; but an
    integrity attribute of unlawful length is there, and wrong."""

    integrity: Optional[str]
    username: Optional[str]
    user_hash: Optional[bytes]
    realm: Optional[str]
    nonce: Optional[str]
    algorithms: Optional[bytes]
    listed: Optional[bytes]
    algorithm: Optional[int]
    code: Optional[int]


def text_in(value, most):
    try:
        return None if value is None or len(value) > most else value.decode()
    except UnicodeDecodeError:
        return None


def numbers_in(value):
    """The numbers that entries tell. The length of their parameters is not looked at."""
    return [it for it, _ in struct.iter_unpack(">HH", value)]


def list_in(value):
    """The value of a list of one to eight password algorithms, each of them known."""
    if value is None or len(value) not in range(4, 33, 4):
        return None
    return value if all(it in NUMBERS for it in numbers_in(value)) else None


def entries_in(value):
    """The entries of a list, whose algorithms may be unknown, each a number and parameters that are padded to four
    bytes; None if the list isn't made of such alone, or isn't of 4 to 32 bytes."""
    if value is None or len(value) not in range(4, 33):
        return None
    found = []
    while value:
        if len(value) < 4:
            return None
        number, size = struct.unpack(">HH", value[:4])
        whole = 4 + (size + 3) // 4 * 4
        if whole > len(value):
            return None
        found.append((number, value[4 : 4 + size]))
        value = value[whole:]
    return found


def algorithm_in(value):
    if value is None or len(value) != 4:
        return None
    number = numbers_in(value)[0]
    return number if number in NUMBERS else None


def code_in(value):
    if value is None or len(value) < 4 or len(value) > 4 + MOST_TEXT or text_in(value[4:], MOST_TEXT) is None:
        return None
    return value[2] * 100 + value[3] if value[2] in range(3, 7) and value[3] < 100 else None


def claim_of(data):
    last = {kind: value for _, kind, value in shown(data)}
    kinds = [KIND[kind] for _, kind, _ in shown(data) if kind in KIND]
    hashed = last.get(USERHASH)
    return Claim(
        kinds[-1] if kinds else None,
        text_in(last.get(USERNAME), MOST_NAME),
        hashed if hashed is not None and len(hashed) == HASH_SIZE else None,
        text_in(last.get(REALM), MOST_TEXT),
        text_in(last.get(NONCE), MOST_TEXT),
        list_in(last.get(PASSWORD_ALGORITHMS)),
        last.get(PASSWORD_ALGORITHMS),
        algorithm_in(last.get(PASSWORD_ALGORITHM)),
        code_in(last.get(ERROR_CODE)),
    )


def is_signed(data, algorithm, key):
    """Whether the integrity attribute of an algorithm, which is shown, is right under a key."""
    integrity, _, _, _, lengths = BY[algorithm]
    at, value = next((at, value) for at, kind, value in shown(data) if kind == integrity)
    if len(value) not in lengths:
        return False
    text = with_length(data[:at], at - 20 + 4 + len(value))
    return hmac_of(algorithm, key, text)[: len(value)] == value


def refusal(claim, algorithms, nonce, takes_hashes):
    """Why a server refuses what a message claims before it looks for the user, or None. A server that does not
    take hashes asks for a USERNAME (RFC 8489, section 9.2.4: "does not contain either" is 400)."""
    if claim.integrity is None:
        return "Unauthorized"
    names_nobody = claim.username is None and (claim.user_hash is None or not takes_hashes)
    if names_nobody or claim.realm is None or claim.nonce is None:
        return "BadRequest"
    if claim.nonce != nonce:
        return "StaleNonce"
    if claim.algorithms is None and claim.algorithm is None:
        fits = claim.integrity == SHA1
    else:
        fits = claim.algorithms == entries(algorithms) and claim.algorithm == BY[claim.integrity][3]
    return None if fits and claim.integrity in algorithms else "BadRequest"


def judged(data, realm, algorithms, nonce, user, takes_hashes=True):
    """What a server makes of a message, of which it knows this user, a name and a password, or nobody: the user
    and the algorithm, or a refusal."""
    claim = claim_of(data)
    refused = refusal(claim, algorithms, nonce, takes_hashes)
    if refused:
        return None, refused
    if user is None:
        return None, "Unauthorized"
    name, password = user
    if not is_signed(data, claim.integrity, key_of(claim.integrity, password, name, realm)):
        return None, f"IntegrityFailed({claim.integrity})"
    return (name, claim.integrity), None


def rust_text(text):
    """As Rust prints an optional text for whoever debugs."""
    return "None" if text is None else f'Some("{text}")'


def some(it):
    return "None" if it is None else f"Some({it})"


assert struct.pack(">I", MAGIC) == bytes.fromhex("2112a442")
assert nonce_of((False, True), words(0)) == "obMatJos2QAAAgyiDbICXwPDaQ1ha"
