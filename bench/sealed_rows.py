#!/usr/bin/env python3
"""sealed_rows.py FOLDER: writes the rows of deals of version 2, marks and sealed links that end the rows of crates/vd_test_acceptance, and what is
to come of each, as FOLDER/stdin and FOLDER/stdout. They come from a second implementation (sealing.py), never from the program."""
import sys

from sealing import *

KEY = bytes(range(32))
DRAWN = bytes(range(0x40, 0x60))
PLAN = bytes.fromhex("46a0b4966583c61b4eb11a84e30c7ffb907dcb7e8afa7a4bf67d4030dfc650b6")
PLAN3 = b"\x07" * 32
COUNTS = (2, 0, 0, 0, 0)
COUNTS3 = (3, 0, 0, 0, 0)
NAMES = ["alice", "bob", "carol"]
stdin, stdout = [], []


def spaced(data):
    return " ".join(f"{b:02x}" for b in data)


def lines_of(text):
    out = ["|" + line for line in text.split("\n")[:-1]]
    last = text.split("\n")[-1]
    return out + ([">" + last] if last else [])


def row(name, words, files=(), extra=(), status=0, out=(), err=None, calls=()):
    stdin.append(f"case {name}")
    stdin.append("words " + words)
    for file, text in files:
        stdin.append("file " + file)
        stdin.extend(lines_of(text))
    stdin.extend(extra)
    stdin.extend(["run", ""])
    stdout.extend([f"case {name}", f"status {status}"])
    if out:
        stdout.append("out")
        stdout.extend("|" + line for line in out)
    if err:
        stdout.extend(["err", "|viaduct: " + err])
    stdout.extend(calls)
    stdout.append("")


def draw(data):
    return "draw " + data.hex()


def stored(prefix, texts):
    out = []
    for number, text in enumerate(texts):
        out.append(f"store {prefix}.{number}.deal")
        out.extend(lines_of(text))
    return out


# ---- the dealer

DEAL = "deal 2 4 2 0 0"
COUNTED = (2, 4, 2, 0, 0)
row("deal, by a key that is drawn", DEAL + " draw v", extra=[draw(KEY)], calls=stored("v", deal_texts(KEY, COUNTED)) + ["draw"])
row("deal, by another key that is drawn", "deal 3 1 1 1 1 draw v", extra=[draw(DRAWN)], calls=stored("v", deal_texts(DRAWN, (3, 1, 1, 1, 1))) + ["draw"])
WRITTEN = "0123456789abcdefghijklmnopqrst\u00e9"
row("deal, by the key of a file", DEAL + " @K v", files=[("K", WRITTEN)], calls=["fetch K"] + stored("v", deal_texts(WRITTEN.encode(), COUNTED)))
row("deal, a draw that fails", DEAL + " draw v", extra=[draw(KEY), "fail marks 0"], status=3, err="read fault draw", calls=["draw"])
row("deal, a key of 31 bytes", DEAL + " @K v", files=[("K", WRITTEN[:30] + "u")], status=34, err="short key K 31", calls=["fetch K"])
row("deal, a key that is a text", DEAL + " @K v", files=[("K", WRITTEN[:30] + "uv")], status=34, err="short key K 32", calls=["fetch K"])
row("deal, a key of no bytes", DEAL + " @K v", files=[("K", "")], status=34, err="short key K 0", calls=["fetch K"])
row("deal, a key of 33 bytes", DEAL + " @K v", files=[("K", WRITTEN + "w")], status=5, err="too long K 32", calls=["fetch K"])
row("deal, no file of a key", DEAL + " @K v", status=3, err="read fault K", calls=["fetch K"])
row("deal, a store that fails, of a drawn key", DEAL + " draw v", extra=[draw(KEY), "fail files 1"], status=4, err="write fault",
    calls=stored("v", deal_texts(KEY, COUNTED)[:1]) + ["store v.1.deal", "draw"])
for word in ("drawn", "Draw", "K", "0x10"):
    row(f"words of no form: deal 2 0 0 0 0 {word} d", f"deal 2 0 0 0 0 {word} d", status=2, err="usage")
row("words of no form: deal 0 0 0 0 0 draw d", "deal 0 0 0 0 0 draw d", status=2, err="usage")
row("words of no form: deal 2 0 0 0 1048577 @K d", "deal 2 0 0 0 1048577 @K d", status=2, err="usage")

# ---- replay over deals of version 2

SQUARE = """principals A, B;
host alice {A ; A & B};
host bob {B ; A & B};
main {
  let a0 = input(alice);
  let b0 = input(bob);
  let d0 = a0 - b0;
  let q0 = d0 * d0;
  let r = declassify(q0 < 1000, {A | B});
  output r to alice;
  output r to bob;
}
"""
big = (2, 2, 1, 20, 0)
row("deal, by a drawn key, for the square of a difference", "deal 2 2 1 20 0 draw d", extra=[draw(DRAWN)], calls=stored("d", deal_texts(DRAWN, big)) + ["draw"])
replayed = ["fetch S1", "fetch I", "fetch d.0.deal", "fetch d.1.deal", "fetch SCH"]
row("replay, the square of a difference by a drawn key", "replay S1 I d SCH", extra=["keep"], files=[("S1", SQUARE), ("I", "alice: 3\nbob: 1\n"), ("SCH", "all\n")],
    out=["alice ended 1 1", "bob ended 1 1"], calls=replayed)
texts = deal_texts(DRAWN, big)
at = texts[1].index("link 0 ") + len("link 0 ") + 63
row("replay, a link key of 63 digits", "replay S1 I d SCH",
    files=[("S1", SQUARE), ("I", "alice: 3\nbob: 1\n"), ("SCH", "all\n"), ("d.0.deal", texts[0]), ("d.1.deal", texts[1][:at] + texts[1][at + 1:])],
    status=12, err=f"deal text bob at {at}", calls=["fetch S1", "fetch I", "fetch d.0.deal", "fetch d.1.deal"])

# ---- hosts over sealed links


class Side:
    """What a host of a dealing says to a peer over a connection."""

    def __init__(self, me, peer, plan=PLAN, key=KEY, counts=COUNTS, seed=None, number=0, nonce_of=None):
        self.me, self.peer, self.plan = me, peer, plan
        self.id = dealing_id(key, counts)
        self.link = link_key(key, counts, me, peer)
        self.nonce = nonce(seed, peer, number) if seed else nonce_of
        self.hello = hello(self.id, me, peer, self.nonce)

    def meet(self, other):
        low, high = (self, other) if self.me < other.me else (other, self)
        self.keys = Keys(self.link, low.hello, high.hello)

    def record(self, number, data=b""):
        return self.keys.record(self.me, number, data)

    def greeting(self):
        return self.record(1, b"\x47\x01" + self.plan + bytes([self.me, self.peer]))


def pair(me, peer, **how):
    ours = Side(me, peer, seed=DRAWN, plan=how.get("plan", PLAN), counts=how.get("counts", COUNTS), number=how.get("number", 0))
    theirs = Side(peer, me, nonce_of=how.get("nonce_of", bytes([0xB0 + peer]) * 32), plan=how.get("plan", PLAN), counts=how.get("counts", COUNTS))
    ours.meet(theirs)
    theirs.meet(ours)
    return ours, theirs


def program(me, code, plan=PLAN, hosts=2):
    return f"viaduct-host 1\nhosts {' '.join(NAMES[:hosts])}\nme {me}\nplan {plan.hex()}\n" + "".join(line + "\n" for line in code) + "end\n"


TAKES = ["recv 0 0", "print 0"]
GIVES = ["input 0", "send 1 0"]
LOADS = ["fetch P", "fetch I", "fetch d"]


def mark(me, counts=COUNTS, folder=""):
    return f"{folder}viaduct-used-{dealing_id(KEY, counts).hex()[:32]}-{me}"


def host(name, me, coming, back, *, status=0, out=("listening",), err=None, extra=(), net=None, released=False, files=None, deal="d", fails=(), made=True, marks=None, address="A"):
    code = TAKES if me == 1 else GIVES
    given = [("P", program(me, code)), ("I", "alice: 42\n" if me == 0 else ""), (deal, deal_texts(KEY, COUNTS)[me])] if files is None else files
    links = []
    for each in coming:
        links.append("link " + address)
        links.extend("<" + spaced(part) for part in each if part)
    if marks is None:
        folder = deal[:deal.rindex("/") + 1] if "/" in deal else ""
        marks = ["draw", "claim " + mark(me, folder=folder)] + (["release " + mark(me, folder=folder)] if released else [])
    if net is None:
        net = ["connect A"] if me == 1 else ["listen A"] + ["accept 0"] * len(coming)
    loads = ["fetch P", "fetch I", "fetch " + deal]
    row("host, sealed, " + name, f"host P I {deal} A", files=given, extra=[*extra, draw(DRAWN), *links, *[f"fail {x}" for x in fails]], status=status, out=out, err=err,
        calls=loads + marks + net + ["back " + spaced(b"".join(each)) if each else "back" for each in back])


bob, alice = pair(1, 0)
PACKET = bytes.fromhex("56010000002a")
began = [alice.hello, alice.record(0), alice.greeting()]
said = [bob.hello, bob.record(0), bob.greeting()]
word = alice.record(2, PACKET)
DONE = ("listening", "42", "ended")
host("a word that comes", 1, [began + [word]], [said], out=DONE, released=True)
host("a word that comes byte by byte", 1, [began + [word]], [said], out=DONE, released=True, extra=["most 1"])
host("a word that comes in two records", 1, [began + [alice.record(2, PACKET[:3]), alice.record(3, PACKET[3:])]], [said], out=DONE, released=True)
host("a greeting in two records", 1, [[alice.hello, alice.record(0), alice.record(1, (b"\x47\x01" + PLAN + b"\x00\x01")[:1]), alice.record(2, (b"\x47\x01" + PLAN + b"\x00\x01")[1:]), alice.record(3, PACKET)]], [said],
     out=DONE, released=True)
host("the greeting and the word in one record", 1, [[alice.hello, alice.record(0), alice.record(1, b"\x47\x01" + PLAN + b"\x00\x01" + PACKET)]], [said], out=DONE, released=True)
host("a deal in a folder", 1, [began + [word]], [said], out=DONE, released=True, deal="a/b/d")

ours, theirs = pair(0, 1)
came = [theirs.hello, theirs.record(0), theirs.greeting()]
went = [ours.hello, ours.record(0), ours.greeting(), ours.record(2, PACKET)]
host("a word that is sent", 0, [came], [went], out=("listening", "ended"))
host("the same deal again", 0, [came], [], out=(), status=33, err="deal used d", extra=["keep"], files=[], net=[])
host("a draw that fails", 0, [came], [], out=(), status=3, err="read fault draw", fails=["marks 0"], net=[], marks=["draw"])
host("a mark that cannot be made", 0, [came], [], out=(), status=4, err="write fault", fails=["marks 1"], net=[])
host("a mark that is there", 0, [came], [], out=(), status=33, err="deal used d", extra=["mark " + mark(0)], net=[])
host("a mark of the other host", 0, [came], [went], out=("listening", "ended"), extra=["mark " + mark(1)])
host("a mark in another folder", 0, [came], [went], out=("listening", "ended"), extra=["mark a/" + mark(0)])
host("no link", 1, [], [], status=18, err="peer fault alice", released=True)
host("the same deal after it met nobody", 1, [began + [word]], [said], out=DONE, extra=["keep"], files=[], released=True)
host("a mark that cannot be taken back", 1, [], [], status=18, err="peer fault alice", released=True, fails=["marks 2"])
host("the same deal after a mark that stays", 1, [began + [word]], [], out=(), status=33, err="deal used d", extra=["keep"], files=[], net=[])
host("a listen that fails", 0, [came], [], out=(), status=18, err="peer fault bob", released=True, fails=["net 0"], net=["listen A"])
host("a wait at a listener that fails", 0, [came], [], status=18, err="peer fault bob", released=True, fails=["net 1"])
host("a packet that is not sent", 0, [came], [went[:3]], status=18, err="peer fault bob", fails=["link 12"])
host("a greeting that is not sent", 0, [came], [went[:2]], status=18, err="peer fault bob", fails=["link 8"], released=True)
host("a hello that is not sent", 1, [began + [word]], [[]], status=18, err="peer fault alice", fails=["link 0"], released=True)
host("a proof that is not received", 1, [began + [word]], [said[:2]], status=18, err="peer fault alice", fails=["link 6"], released=True)

# who is no peer: a host that connects fails at once
other = Side(0, 1, nonce_of=bytes([0xB0]) * 32, counts=(2, 1, 0, 0, 0))
wrong = Side(0, 1, nonce_of=bytes([0xB0]) * 32)
wrong.link = other.link
wrong.meet(bob)


def refused(name, coming, back):
    host(name, 1, [coming], [back], status=18, err="peer fault alice", released=True)


refused("a peer of another dealing", [other.hello], said[:1])
refused("a peer that greets as without a deal of its dealing", [b"\x47\x01" + PLAN + b"\x00\x01"], said[:1])
refused("a peer that is no host", [b"HTTP/1.0 400 Bad Request\r\n\r\n"], said[:1])
refused("a peer that is the host itself", [bob.hello], said[:1])
refused("a peer with another link key", [wrong.hello, wrong.record(0), wrong.record(1, b"\x47\x01" + PLAN + b"\x00\x01")], said[:2])
refused("a peer that sends all back", [alice.hello, bob.record(0), bob.greeting()], said[:2])
again = Side(0, 1, nonce_of=bytes([0xB0]) * 32)
again.meet(Side(1, 0, nonce_of=bytes([0xEE]) * 32))
refused("a peer that plays a run again", [again.hello, again.record(0), again.greeting(), again.record(2, PACKET)], said[:2])
refused("a proof that carries a byte", [alice.hello, alice.keys.record(0, 0, b"\x00")], said[:2])
refused("a hello that is cut", [alice.hello[:67]], said[:1])
refused("no proof", [alice.hello], said[:2])
refused("a record without bytes", began + [alice.record(2)], said)
refused("a record again", began + [alice.greeting(), word], said)
refused("a record that is left out", began + [alice.record(3, PACKET)], said)
refused("the own record back", began + [bob.record(2, PACKET)], said)
refused("a packet that is not covered", began + [PACKET], said)
refused("a record of 129 bytes", began + [b"\x58\x81" + word[2:]], said)

# a host that listens says nothing to who says no hello of its dealing, and takes the next who comes
strangers = [[b"GET / HTTP/1.0\r\n\r\n"], [b"\x47\x01" + PLAN + b"\x01\x00"], [Side(1, 0, nonce_of=b"\xb1" * 32, counts=(2, 1, 0, 0, 0)).hello], [Side(0, 1, nonce_of=b"\xb1" * 32).hello], []]
hellos = [[] for _ in strangers]
mine = Side(0, 1, seed=DRAWN)
knows = Side(1, 0, nonce_of=b"\xb1" * 32)
knows.link = b"\x00" * 32
knows.meet(mine)
mine.meet(Side(1, 0, nonce_of=b"\xb1" * 32))
strangers.append([knows.hello, knows.record(0)])
hellos.append([mine.hello, mine.record(0)])
last, peer = pair(0, 1, number=1)
strangers.append([peer.hello, peer.record(0), peer.greeting()])
hellos.append([last.hello, last.record(0), last.greeting(), last.record(2, PACKET)])
host("strangers before the peer", 0, strangers, hellos, out=("listening", "ended"))
host("strangers and no peer", 0, strangers[:6], hellos[:6], status=18, err="peer fault bob", released=True, net=["listen A"] + ["accept 0"] * 7)

# three hosts
ours_a, alice3 = pair(1, 0, plan=PLAN3, counts=COUNTS3)
ours_c, carol3 = pair(1, 2, plan=PLAN3, counts=COUNTS3, number=1)
FIVE = bytes.fromhex("560100000005")
row("host, sealed, the middle one of three", "host P I d A B",
    files=[("P", program(1, ["recv 0 0", "send 2 0", "print 0"], PLAN3, 3)), ("I", ""), ("d", deal_texts(KEY, COUNTS3)[1])],
    extra=[draw(DRAWN), "link A"] + ["<" + spaced(x) for x in (alice3.hello, alice3.record(0), alice3.greeting(), alice3.record(2, FIVE))]
    + ["link B"] + ["<" + spaced(x) for x in (carol3.hello, carol3.record(0), carol3.greeting())],
    out=("listening", "5", "ended"),
    calls=LOADS + ["draw", "claim " + mark(1, COUNTS3), "listen B", "connect A", "accept 0",
                   "back " + spaced(ours_a.hello + ours_a.record(0) + ours_a.greeting()), "back " + spaced(ours_c.hello + ours_c.record(0) + ours_c.greeting() + ours_c.record(2, FIVE))])

# each byte of a record
files = None
for place in range(len(word)):
    changed = bytearray(word)
    changed[place] ^= 2
    host(f"a bit changed at byte {place} of a record", 1, [began + [bytes(changed)]], [said], status=18, err="peer fault alice", released=True,
         files=files, extra=() if files is None else ["keep"])
    files = []
for place in range(len(word)):
    host(f"a stream that ends at byte {place} of a record", 1, [began + [word[:place]]], [said], status=25, err="link ended alice", released=True, files=files, extra=["keep"])

open(sys.argv[1] + "/stdin", "w").write("\n" + "\n".join(stdin[:-1]) + "\n")
open(sys.argv[1] + "/stdout", "w").write("\n".join(stdout) + "\n")
