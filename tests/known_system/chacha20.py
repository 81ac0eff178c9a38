"""The random words that a server draws whose seed is known: the key stream of ChaCha20 (RFC 8439) with it as the key.

    python3 chacha20.py

compares it with the vectors of the RFC. The last line is 'N passed, M failed'.
"""

import struct
import sys

CONSTANTS = struct.unpack("<4I", b"expand 32-byte k")
ROUNDS = ((0, 4, 8, 12), (1, 5, 9, 13), (2, 6, 10, 14), (3, 7, 11, 15),
          (0, 5, 10, 15), (1, 6, 11, 12), (2, 7, 8, 13), (3, 4, 9, 14))
WORDS = 8  # of an event

# Key, counter, nonce and key stream: RFC 8439, section 2.3.2, and appendix A.1, vectors 1 and 2.
VECTORS = (
    (bytes(range(32)).hex(), 1, "000000090000004a00000000",
     "10f1e7e4d13b5915500fdd1fa32071c4c7d1f4c733c068030422aa9ac3d46c4e"
     "d2826446079faa0914c2d705d98b02a2b5129cd1de164eb9cbd083e8a2503c4e"),
    ("00" * 32, 0, "00" * 12,
     "76b8e0ada0f13d90405d6ae55386bd28bdd219b8a08ded1aa836efcc8b770dc7"
     "da41597c5157488d7724e03fb8d84a376a43b8f41518a11cc387b669b2ee6586"),
    ("00" * 32, 1, "00" * 12,
     "9f07e7be5551387a98ba977c732d080dcb0f29a048e3656912c6533e32ee7aed"
     "29b721769ce64e43d57133b074d839d531ed1f28510afb45ace10a1f4b794d6f"),
)


def block(key, counter, nonce=bytes(12)):
    """64 bytes of the key stream (RFC 8439, section 2.3)."""
    start = [*CONSTANTS, *struct.unpack("<8I", key), counter, *struct.unpack("<3I", nonce)]
    x = start[:]
    for _ in range(10):
        for a, b, c, d in ROUNDS:
            x[a] = x[a] + x[b] & 0xffffffff
            x[d] = ((x[d] ^ x[a]) << 16 | (x[d] ^ x[a]) >> 16) & 0xffffffff
            x[c] = x[c] + x[d] & 0xffffffff
            x[b] = ((x[b] ^ x[c]) << 12 | (x[b] ^ x[c]) >> 20) & 0xffffffff
            x[a] = x[a] + x[b] & 0xffffffff
            x[d] = ((x[d] ^ x[a]) << 8 | (x[d] ^ x[a]) >> 24) & 0xffffffff
            x[c] = x[c] + x[d] & 0xffffffff
            x[b] = ((x[b] ^ x[c]) << 7 | (x[b] ^ x[c]) >> 25) & 0xffffffff
    return struct.pack("<16I", *(now + then & 0xffffffff for now, then in zip(x, start)))


def words_of_events(seed):
    """The words of one event after the other. A word is two draws of eight bytes, the least byte first; the first draw
    is its high half."""
    counter = 0
    while True:
        stream = block(seed, counter) + block(seed, counter + 1)
        counter += 2
        draws = struct.unpack(f"<{2 * WORDS}Q", stream)
        yield [draws[place] << 64 | draws[place + 1] for place in range(0, 2 * WORDS, 2)]


def differs():
    """The places of the vectors with which the key stream does not agree."""
    return [place for place, (key, counter, nonce, stream) in enumerate(VECTORS)
            if block(bytes.fromhex(key), counter, bytes.fromhex(nonce)).hex() != stream]


def main():
    wrong = differs()
    print("".join(f"chacha20: another key stream than that of vector {place}\n" for place in wrong), end="")
    print(f"{len(VECTORS) - len(wrong)} passed, {len(wrong)} failed")
    return 1 if wrong else 0


if __name__ == "__main__":
    sys.exit(main())
