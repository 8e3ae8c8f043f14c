#!/usr/bin/env python3
"""Hellos, keys, records and deals of version 2, by hmac and a ChaCha20 of its own. Run alone it compares them with fixed vectors."""
import hashlib, hmac, struct


def H(key, message):
    return hmac.new(key, message, hashlib.sha256).digest()


SALT = b"viaduct deal 2"


def derive(key, info):
    return H(H(SALT, key), info + b"\x01")


def counts_bytes(counts):
    hosts, own, muls, ands, pairs = counts
    return bytes([hosts]) + b"".join(struct.pack(">I", n) for n in (own, muls, ands, pairs))


def dealing_id(key, counts):
    return derive(key, b"id" + counts_bytes(counts))


def items_key(key, counts):
    return derive(key, b"items" + counts_bytes(counts))


def link_key(key, counts, a, b):
    return derive(key, b"link" + counts_bytes(counts) + bytes([min(a, b), max(a, b)]))


def quarter(s, a, b, c, d):
    m = 0xFFFFFFFF
    for x, y, z, r in ((a, b, d, 16), (c, d, b, 12), (a, b, d, 8), (c, d, b, 7)):
        s[x] = (s[x] + s[y]) & m
        s[z] ^= s[x]
        s[z] = ((s[z] << r) | (s[z] >> (32 - r))) & m


def block(key, counter, stream):
    state = [0x61707865, 0x3320646E, 0x79622D32, 0x6B206574]
    state += list(struct.unpack("<8I", key)) + [counter & 0xFFFFFFFF, counter >> 32, stream & 0xFFFFFFFF, stream >> 32]
    s = list(state)
    for _ in range(10):
        quarter(s, 0, 4, 8, 12); quarter(s, 1, 5, 9, 13); quarter(s, 2, 6, 10, 14); quarter(s, 3, 7, 11, 15)
        quarter(s, 0, 5, 10, 15); quarter(s, 1, 6, 11, 12); quarter(s, 2, 7, 8, 13); quarter(s, 3, 4, 9, 14)
    return [(x + y) & 0xFFFFFFFF for x, y in zip(s, state)]


def words(key, stream, count):
    out, counter = [], 0
    while len(out) < count:
        out += block(key, counter, stream)
        counter += 1
    return out[:count]


def stream_bytes(key, number, count):
    out, counter = b"", 0
    while len(out) < count:
        out += struct.pack("<16I", *block(key, counter, number))
        counter += 1
    return out[:count]


def deal_texts(key, counts):
    """The deal files of a key of 32 bytes."""
    hosts, own, muls, ands, pairs = counts
    items, m = items_key(key, counts), 0xFFFFFFFF
    parts = {}
    for a in range(hosts):
        for b in range(a + 1, hosts):
            base = 64 + 16 * a + 4 * b
            lists = []
            for kind, count in ((0, muls), (1, ands)):
                w = words(items, base + kind, 5 * count)
                mine, theirs = [], []
                for i in range(count):
                    a0, b0, c0, a1, b1 = w[5 * i:5 * i + 5]
                    c1 = ((a0 + a1) * (b0 + b1) - c0) & m if kind == 0 else ((a0 ^ a1) & (b0 ^ b1)) ^ c0
                    mine += [a0, b0, c0]
                    theirs += [a1, b1, c1]
                lists.append((count, mine, theirs))
            w = words(items, base + 2, 3 * pairs)
            mine, theirs = [], []
            for i in range(pairs):
                s0, s1, x0 = w[3 * i:3 * i + 3]
                mine += [s0, x0]
                theirs += [s1, ((s0 + s1) & m) ^ x0]
            lists.append((pairs, mine, theirs))
            parts[a, b] = [(n, x) for n, x, y in lists]
            parts[b, a] = [(n, y) for n, x, y in lists]
    texts = []
    for me in range(hosts):
        lines = [f"viaduct-deal 2 {hosts} {me}", "id " + dealing_id(key, counts).hex()]
        lines.append(" ".join(["own", str(own)] + [str(x) for x in words(items, me, own)]))
        for k in range(hosts):
            if k != me:
                lines.append(f"link {k} " + link_key(key, counts, me, k).hex())
                for name, (n, x) in zip(("mul", "and", "pair"), parts[me, k]):
                    lines.append(" ".join([name, str(k), str(n)] + [str(v) for v in x]))
        text = "".join(line + "\n" for line in lines)
        texts.append(text + "sum " + hashlib.sha256(text.encode()).hexdigest() + "\n")
    return texts


def nonce(seed, peer, number):
    return H(seed, b"nonce" + bytes([peer]) + struct.pack(">I", number))


def hello(id, me, to, nonce):
    return b"\x47\x02" + id + bytes([me, to]) + nonce


class Keys:
    def __init__(self, link, hello_low, hello_high):
        digest = hashlib.sha256(hello_low + hello_high).digest()
        self.cipher = {}
        self.code = {}
        self.link, self.digest = link, digest

    def of(self, x):
        info = b"viaduct link 2"
        return (H(self.link, info + b"\x63" + bytes([x]) + self.digest + b"\x01"), H(self.link, info + b"\x6d" + bytes([x]) + self.digest + b"\x01"))

    def record(self, sender, number, data):
        cipher, code = self.of(sender)
        covered = bytes(a ^ b for a, b in zip(data, stream_bytes(cipher, number, len(data))))
        head = b"\x58" + bytes([len(data)]) + covered
        return head + H(code, struct.pack(">Q", number) + head)


if __name__ == "__main__":
    key = bytes(range(32))
    counts = (2, 4, 2, 0, 0)
    assert dealing_id(key, counts).hex() == "9aa64fc007f28f9d509b76b3966ae4b7e08011b75b94cd46e69a9d45cdf046b1"
    assert items_key(key, counts).hex() == "2e8715e5e784904f750fa50a12b2551eb0189723017b9562a32591601ac5c10b"
    assert link_key(key, counts, 0, 1).hex() == "df88cdd62daced8306d78617c94d9c7a786168da95b7915cac0de2b729ee368e"
    texts = deal_texts(key, counts)
    assert hashlib.sha256(texts[0].encode()).hexdigest() == "4da5a86ee33c801dfa2a665716195354fdf0f07f9af4eff00e8d948a41e59d96"
    assert hashlib.sha256(texts[1].encode()).hexdigest() == "60fb6874a37263f205e95b41d8b60c47abc6f67af18dec082305803a29a78839"
    id = dealing_id(key, counts)
    h0, h1 = hello(id, 0, 1, b"\xa0" * 32), hello(id, 1, 0, b"\xb1" * 32)
    keys = Keys(link_key(key, counts, 0, 1), h0, h1)
    assert keys.digest.hex() == "3cdaf84824042e806aa6d2e054a1acfb5a777c55591871ce100fcf7a80eee93b"
    assert keys.record(0, 0, b"").hex() == "580007c961ffa683e888a8021bc5ba71d994a2e880f02f1f2e0f98f6b0f05778596c"
    assert keys.record(1, 0, b"").hex() == "580086c019a75bb53a419c6fb3a1ed4dcf307dde605ea4b9f4adfc54f7cf7be51f4d"
    plan = bytes.fromhex("46a0b4966583c61b4eb11a84e30c7ffb907dcb7e8afa7a4bf67d4030dfc650b6")
    assert keys.record(0, 1, b"\x47\x01" + plan + b"\x00\x01").hex() == "5824ad41c6c7a973d6176503ed20c7f787cd88ecc1f8b84a8df3899d3010ff072a4ce22cd8476869462c20b1059ea972a85b924a36122e55737042699c1ec038bdb527d464b1"
    assert keys.record(0, 2, bytes.fromhex("56010000002a")).hex() == "5806d47affa581223b4e12aaa0a869132db8cb8bd83a97b44247c9d39c7bfff354b5613f4171feec"
    print("all agree", nonce(b"\x05" * 32, 1, 0).hex())
