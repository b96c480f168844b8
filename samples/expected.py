#!/usr/bin/env python3
"""Writes seed48, frames and replies, the files of the demo, ramp, the samples of check.toml and answer.toml, and answers, the
replies of answer.toml's tree to the frames, into this script's folder. Beside them it writes shown, what `rbg_talk show` prints of
the replies of answer.toml's tree to calls, and seed-shown, what it prints of those of the stock tree over seed48 to seed-calls.

The replies are computed here from the standard alone, with Python's own HMAC, and not by the program that they test:
HMAC_DRBG over SHA-256 (SP 800-90A Rev. 1, 10.1.2) with the first 32 seed bytes as entropy, the other 16 as nonce, and no
personalization string. Every Generate changes the state, one of 0 bytes too. A refused one doesn't.

The tree of answer.toml is one node over a noise source, of which the first 1,024 samples are thrown away by its start. Each
block of entropy is an HMAC of the next 40 samples (SP 800-90B 3.1.5.1.2, with a key of 00 to 1f): 48 bytes of two blocks
instantiate the node, and 32 bytes of one reseed it before the third output, since its interval is 2. An additional input goes into
the reseed where there is one, and into the generate otherwise. The stock tree is one RBG1, which is never reseeded.
"""
import hashlib
import hmac
import pathlib
import struct

MAX_COUNT = 65_536
COUNTS = [32, 0, MAX_COUNT + 1, 33]


def mac(key, text):
    return hmac.new(key, text, hashlib.sha256).digest()


class HmacDrbg:
    def __init__(self, entropy, nonce, personal=b""):  # 10.1.2.3
        self.key, self.value = bytes(32), b"\x01" * 32
        self.update(entropy + nonce + personal)

    def update(self, provided):  # 10.1.2.2
        for mark in [b"\x00", b"\x01"] if provided else [b"\x00"]:
            self.key = mac(self.key, self.value + mark + provided)
            self.value = mac(self.key, self.value)

    def reseed(self, entropy, additional=b""):  # 10.1.2.4
        self.update(entropy + additional)

    def generate(self, count, additional=b""):  # 10.1.2.5
        if additional:
            self.update(additional)
        out = b""
        while len(out) < count:
            self.value = mac(self.key, self.value)
            out += self.value
        self.update(additional)
        return out[:count]


def request(ident, count):
    # version 1, op 2 (Generate), flags, node; id, count; strength, length of the string
    return struct.pack(">BBBBIIHH", 1, 2, 0, 0, ident, count, 0, 0)


def reply(drbg, ident, count):
    # version 1, code, op, node; id, a, b; length of the payload
    if count > MAX_COUNT:
        return struct.pack(">BBBBIQQI", 1, 2, 2, 0, ident, count, MAX_COUNT, 0)
    return struct.pack(">BBBBIQQI", 1, 0, 2, 0, ident, 0, 0, count) + drbg.generate(count)


def answers(ramp, asked):
    blocks = [mac(bytes(range(32)), ramp[at : at + 40]) for at in range(1024, len(ramp), 40)]
    seed = (blocks[0] + blocks[1])[:48]
    drbg, text, outputs = HmacDrbg(seed[:32], seed[32:]), b"", 0
    for ident, count in asked:
        if count <= MAX_COUNT:
            if outputs == 2:
                drbg.reseed(blocks[2])
                outputs = 0
            outputs += 1
        text += reply(drbg, ident, count)
    return text


class Node:
    """The one node of a tree, as its replies show it. Draws are of so many bytes, and None where the node is an RBG1."""

    def __init__(self, seed, draw, interval):
        self.draw, self.interval = draw, interval
        self.seeds, self.gives, self.drbg = 0, 0, None
        self.seed(seed, b"")

    def seed(self, seed, personal):
        self.drbg, self.counter = HmacDrbg(seed[:32], seed[32:], personal), 1
        self.seeds += 1

    def reseed(self, additional):
        self.drbg.reseed(self.draw(32), additional)
        self.counter = 1
        self.seeds += 1

    def generate(self, count, pr, additional):
        if pr or self.counter > self.interval:
            self.reseed(additional)
            additional = b""
        self.counter += 1
        self.gives += 1
        return self.drbg.generate(count, additional)

    def reply(self, operation, node, count, options):
        string = bytes.fromhex(options.get("string", ""))
        if node != 0:
            return f"NoSuchNode asked {node} of 1"
        if operation == "status":
            live, counter = ("no", 0) if self.drbg is None else ("yes", self.counter)
            return f"Done live {live} counter {counter} seeds {self.seeds} gives {self.gives}"
        if operation == "generate" and count > MAX_COUNT:
            return f"TooLong asked {count} limit {MAX_COUNT}"
        if operation == "instantiate" and self.drbg is not None:
            return "AlreadyInstantiated node 0"
        if operation != "instantiate" and self.drbg is None:
            return "NotInstantiated node 0"
        if self.draw is None and operation in ("reseed", "instantiate"):
            return "ReseedRefused node 0"
        if self.draw is None and "pr" in options:
            return "PrUnsupported node 0"
        if operation == "generate":
            return " ".join(["Done bytes", self.generate(count, "pr" in options, string).hex()]).rstrip()
        if operation == "instantiate":
            self.seed(self.draw(48), string)
        elif operation == "reseed":
            self.reseed(string)
        elif operation == "uninstantiate":
            self.drbg = None
        return "Done"


def shown(node, calls):
    """The lines that show the replies to calls on a tree of one node."""
    lines, ident = "", 0
    for words in (line.split() for line in calls.splitlines()):
        if words and not words[0].startswith("#"):
            ident += 1
            counted = words[0] == "generate"
            rest = words[3 if counted else 2 :]
            options = {}
            while rest:
                name = rest.pop(0)
                options[name] = None if name == "pr" else rest.pop(0)
            reply = node.reply(words[0], int(words[1]), int(words[2]) if counted else 0, options)
            lines += f"{ident} {words[0]} node {words[1]} {reply}\n"
    return lines


def drawn_from(ramp):
    """Draws of conditioned bytes from the samples behind the start's 1,024: whole blocks, of which what is over is thrown away."""
    at = 1024

    def draw(length):
        nonlocal at
        block = b""
        while len(block) < length:
            block += mac(bytes(range(32)), ramp[at : at + 40])
            at += 40
        return block[:length]

    return draw


def main():
    seed = bytes(range(48))
    drbg = HmacDrbg(seed[:32], seed[32:])
    asked = list(enumerate(COUNTS, start=1))
    folder = pathlib.Path(__file__).resolve().parent
    ramp = bytes(place % 251 for place in range(2048))
    (folder / "ramp").write_bytes(ramp)
    (folder / "answers").write_bytes(answers(ramp, asked))
    (folder / "seed48").write_bytes(seed)
    (folder / "frames").write_bytes(b"".join(request(*one) for one in asked))
    (folder / "replies").write_bytes(b"".join(reply(drbg, *one) for one in asked))
    draw = drawn_from(ramp)
    for name, node in [("", Node(draw(48), draw, 2)), ("seed-", Node(seed, None, 2**48))]:
        calls = (folder / f"{name}calls").read_text(encoding="ascii")
        (folder / f"{name}shown").write_text(shown(node, calls), encoding="ascii")


if __name__ == "__main__":
    main()
