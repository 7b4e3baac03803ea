#!/usr/bin/env python3
"""Makes the input and the expected output of crates/image_cases.

The expected output comes from the reader below, which is written from docs/IMAGE.md and shares nothing
with the one that is tested. Run it at the repository's root.
"""
import re

NAME = re.compile(rb"[A-Za-z_][A-Za-z0-9._-]{0,63}\Z")
SMALL = bytes.fromhex("010000000E0002014101420002000101000202")


class Refused(Exception):
    pass


def opened(image):
    """The names and the (label, depth) pairs of an image."""
    if not image:
        raise Refused(11, 0)
    if image[0] != 1:
        raise Refused(12, 0)
    if len(image) < 5 or int.from_bytes(image[1:5], "big") != len(image) - 5:
        raise Refused(11, 0)
    count = int.from_bytes(image[5:7], "big")
    if len(image) < 7 or not 1 <= count <= 512:
        raise Refused(13, 5)
    at, names = 7, []
    for _ in range(count):
        size = image[at] if at < len(image) else 0
        name = image[at + 1:at + 1 + size]
        if len(name) != size or not NAME.match(name) or name in names:
            raise Refused(13, at)
        names.append(name)
        at += 1 + size
    count = int.from_bytes(image[at:at + 2], "big")
    if len(image) < at + 2 or not 1 <= count <= 4096:
        raise Refused(14, at)
    at, nodes, greatest, before = at + 2, [], 0, 0
    for _ in range(count):
        label, depth = int.from_bytes(image[at:at + 2], "big"), image[at + 2] if at + 2 < len(image) else 0
        least = 2 if nodes else 1
        if not 1 <= label <= min(greatest + 1, len(names)) or not least <= depth <= min(64, before + 1):
            raise Refused(14, at)
        nodes.append((label, depth))
        greatest, before, at = max(greatest, label), depth, at + 3
    if at < len(image) or greatest < len(names):
        raise Refused(14, at)
    return names, nodes


def outcome(image):
    try:
        names, nodes = opened(image)
    except Refused as refusal:
        return "refused %d at %d\n" % refusal.args
    return "".join(f"{label} {depth} {names[label - 1].decode()}\n" for label, depth in nodes)


def framed(body):
    return b"\1" + len(body).to_bytes(4, "big") + body


def inputs():
    """Images that are wrong in one field each, at its first and its last possible place, and right ones."""
    names = b"\0\2\1A\1B"
    nodes = b"\0\2\0\1\1\0\2\2"
    yield b""
    yield from (bytes([v]) for v in (0, 1, 2, 255))
    yield b"\2" + SMALL[1:]
    yield from (SMALL + extra for extra in (b"\0", b"\0\0\0", SMALL))
    yield framed(b"")
    yield from (framed(bytes([n])) for n in (0, 1))
    for count in (0, 1, 3, 512, 513, 65535):
        yield framed(count.to_bytes(2, "big") + names[2:] + nodes)
    for first in (b"\0", b"\1", b"\2A", b"\1a", b"\1_", b"\1-", b"\1.", b"\0011", b"\1 ", b"\2A ", b"\2A-", b"\3A.9", b"\1\xC3", b"\2A\0", b"\x40" + b"x" * 64, b"\x41" + b"x" * 65, b"\xFF" + b"x" * 255):
        yield framed(b"\0\2" + first + b"\1B" + nodes)
        yield framed(b"\0\2\1B" + first + nodes)
    yield framed(b"\0\2\1A\1A" + nodes)
    yield framed(b"\0\3\1A\1B\1A\0\3\0\1\1\0\2\2\0\3\2")
    yield framed(b"\0\3\1A\1B\2AB\0\3\0\1\1\0\2\2\0\3\2")
    for count in (0, 1, 3, 4096, 4097, 65535):
        yield framed(names + count.to_bytes(2, "big") + nodes[2:])
    for size in range(len(nodes)):
        yield framed(names + nodes[:size])
    for label in (0, 1, 2, 3, 256, 257, 65535):
        yield framed(names + b"\0\2" + label.to_bytes(2, "big") + b"\1\0\2\2")
        yield framed(names + b"\0\2\0\1\1" + label.to_bytes(2, "big") + b"\2")
        yield framed(names + b"\0\3\0\1\1\0\2\2" + label.to_bytes(2, "big") + b"\2")
    for depth in (0, 1, 2, 3, 64, 65, 255):
        yield framed(names + b"\0\2\0\1" + bytes([depth]) + b"\0\2\2")
        yield framed(names + b"\0\2\0\1\1\0\2" + bytes([depth]))
        yield framed(names + b"\0\3\0\1\1\0\2\2\0\2" + bytes([depth]))
    yield framed(b"\0\1\1A")
    yield framed(names + nodes + b"\0")
    yield framed(names + b"\0\1\0\1\1")
    yield framed(names + b"\0\1\0\1\1" + b"\0")
    yield framed(b"\0\1\1A\0\1\0\1\1")
    yield framed(b"\0\5\4PLAN\3MON\6LESSON\5DRAFT\3TUE\0\7\0\1\1\0\2\2\0\3\3\0\4\3\0\3\4\0\5\2\0\3\3")


def limit(names=512, length=64, nodes=4096, deep=False, longer=False, spoiled=None):
    letters = lambda n: bytes(65 + n // place % 26 for place in (676, 26, 1))
    body = names.to_bytes(2, "big")
    body += b"".join(bytes([length]) + b"A" * (length - 3) + letters(n) for n in range(names))
    body += nodes.to_bytes(2, "big")
    for n in range(nodes):
        body += (min(n, max(names - 1, 0)) + 1).to_bytes(2, "big") + bytes([min(n if deep else min(n, 1), 254) + 1])
    image = bytearray(framed(body + b"\0" * longer))
    if spoiled:
        image[spoiled[0]] = spoiled[1]
    try:
        known, read = opened(bytes(image))
        return f"{len(image)} bytes: {len(known)} names, {len(read)} nodes, the last at depth {read[-1][1]}\n"
    except Refused as refusal:
        return f"{len(image)} bytes: refused %d at %d\n" % refusal.args


def limits():
    least = dict(names=1, length=3, nodes=1)
    yield limit()
    yield limit(**least)
    yield limit(**{**least, "names": 0})
    yield limit(names=513)
    yield limit(length=65)
    yield limit(**{**least, "nodes": 0})
    yield from (limit(nodes=n) for n in (4097, 511, 512))
    yield from (limit(**{**least, "nodes": n}, deep=True) for n in (64, 65))
    yield limit(longer=True)
    yield limit(**{**least, "names": 2})
    yield from (limit(spoiled=s) for s in ((33286, ord("Q")), (45576, 65), (33291, 2), (4, 0)))


def written(room, image):
    """What writing an image of `image`'s bytes into as many bytes of AA answers and leaves."""
    out = bytes([0xAA]) * room
    told = f"{len(image)} bytes written:"
    if room < len(image):
        told = f"refused 15 at {len(image)}:"
    else:
        out = image + out[len(image):]
    return told + "".join(f" {byte}" for byte in out) + "\n"


def views():
    yield "refused 16 at 1:" + " 170" * 20 + "\n"
    yield from (written(room, SMALL) for room in (18, 19, 21))
    yield "1 2\n"
    yield "1 2\n"
    yield from (written(room, framed(b"\0\1\1B\0\1\0\1\1")) for room in (13, 16))
    yield "1 1\n"
    yield written(16, framed(b"\0\1\1A\0\1\0\1\1"))
    yield "refused 15 at 45577\n"
    yield "45577 bytes written\n"
    yield "refused 16 at 4096\n"


def changes():
    for at, was in enumerate(SMALL):
        for value in range(256):
            if value != was:
                yield f"{at} {value}: " + outcome(SMALL[:at] + bytes([value]) + SMALL[at + 1:])


def main():
    given = list(inputs())
    with open("crates/image_cases/stdin", "w") as file:
        file.writelines(image.hex().upper() + "\n" for image in given)
    with open("crates/image_cases/stdout", "w") as file:
        file.writelines(outcome(image) for image in given)
        file.writelines(outcome(SMALL[:size]) for size in range(len(SMALL)))
        file.writelines(changes())
        file.writelines(limits())
        file.writelines(views())


main()
