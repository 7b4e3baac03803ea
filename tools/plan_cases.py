#!/usr/bin/env python3
"""Makes the input and the expected output of crates/plan_cases.

The expected output comes from the reader below, which is written from docs/PLAN-TEXT.md with regular
expressions and shares nothing with the reader that is tested. Run it at the repository's root.
"""
import re

WHITE = rb"[\x20\x09\x0d\x0a]"
NAME = rb"[A-Za-z_][A-Za-z0-9._-]*"
ATTRIBUTE = WHITE + rb"+" + NAME + WHITE + rb"*=" + WHITE + rb"*(?:\"[^<\"]*\"|'[^<']*')"
START = re.compile(rb"<(" + NAME + rb")(?:" + ATTRIBUTE + rb")*" + WHITE + rb"*(/?)>", re.S)
END = re.compile(rb"</(" + NAME + rb")" + WHITE + rb"*>", re.S)

NODE_SLOTS, NAME_SLOTS = 8, 4


def answer(text, slots, names):
    """What reading the text answers; fills the slots and names as it goes."""
    if len(text) > 65536:
        return "refused 1 at 0:"
    at, opened = 0, []
    while at < len(text):
        refused = lambda number: f"refused {number} at {at}:"
        if text[at] != 0x3C:
            if not opened and text[at] not in b" \t\r\n":
                return refused(4)
            at += 1
            continue
        start, end = START.match(text, at), END.match(text, at)
        if end:
            if not opened or opened.pop() != end.group(1):
                return refused(3)
            at = end.end()
            continue
        if not start:
            return refused(2)
        name = start.group(1)
        if not opened and slots:
            return refused(4)
        if len(name) > 64:
            return refused(6)
        if len(opened) >= 64:
            return refused(7)
        if len(slots) >= NODE_SLOTS:
            return refused(8)
        if name not in names and len(names) >= NAME_SLOTS:
            return refused(9)
        if name not in names:
            names.append(name)
        slots.append((names.index(name) + 1, len(opened) + 1, at))
        if not start.group(2):
            opened.append(name)
        at = start.end()
    if opened or not slots:
        return f"refused 5 at {len(text)}:"
    return f"read {len(slots)} nodes {len(names)} names:"


def line(text):
    slots, names = [], []
    head = answer(text, slots, names)
    return head.encode() + b"".join(b" %d.%d@%d" % s for s in slots) + b"".join(b" " + n for n in names)


def escaped(text):
    return b"".join(bytes([c]) if 32 <= c < 127 and c != 0x5C else b"\\x%02x" % c for c in text)


ACCEPTED = [
    b"<A/>", b"<A></A>", b"<A ></A >", b"<A\t\r\n/>", b" \t\r\n<A/>\n\r\t ", b"<_a.-9/>", b"<a/>", b"<A>text</A>",
    b"<A>\x00\x80\xff&]]></A>", b'<A b="1"/>', b"<A b='1'></A>", b'<A b="x>y"/>', b'<A b="it\'s"/>', b"<A b='\"'/>",
    b'<A b=""/>', b"<A  b\t=\r\n\"1\"\n c = '2' />", b'<A b="1" b="2"/>', b"<A><B/><B/><A/></A>",
    b"<A><B><C/></B><C/></A>", b"<A>/></A>", b'<A b="\x00\xfe/>"/>', b"<A>  <B />  </A>",
]
NO_TAG = [
    b"<?xml?>", b"<", b"<A", b"<A ", b"<A/", b"<A/ >", b"</", b"</A", b"</A ", b"<!-- x -->", b"<![CDATA[x]]>", b"< A/>",
    b"<1/>", b"<-A/>", b"<.A/>", b"<A b/>", b"<A b=/>", b"<A b=1/>", b'<A b="1/>', b"<A b=\"1'/>", b'<A b="1"c="2"/>',
    b'<A b="<"/>', b'<A =""/>', b'<A b="1" 2="3"/>', b"<A //>", b"<A><</A>", b'<A></A x="1">', b"<A></ A>", b"<A></A/>",
    b"<A></>", b'<A b:c="1"/>', b"<A\x0b/>", b"<A\x00/>", b"<A\xc3\xa9/>", b'<A b \n"1"/>',
]
WRONG_END = [
    b"</A>", b"<A/></A>", b"<A></A></A>", b"<A></B>", b"<A></a>", b"<A><B></A></B>", b"<AB></A>", b"<A></AB>", b" </A>",
]
OUTSIDE = [
    b"x", b"x<", b"\x00", b"\xef\xbb\xbf<A/>", b"<A/>x", b"<A></A> \xff", b"<A/><B/>", b"<A/> <A>", b"<A/>\x0b",
    b"&amp;<A/>", b"<A/>/>",
]
UNFINISHED = [b"", b" ", b"\n\n", b"<A>", b"<A>x", b"<A><B/>", b"<A><B></B>", b" <A> "]
FULL = [
    b"<A>" + b"<A/>" * 7 + b"</A>", b"<A>" + b"<A/>" * 8 + b"</A>", b"<A><B/><C/><D/></A>", b"<A><B/><C/><D/><E/></A>",
    b"<A><B/><C/><D/><A/><E/></A>",
]
LONG = b"N" * 65
ORDER = [
    b"<A/><" + LONG + b"/>", b"<" + LONG + b"/>", b"<" + LONG[1:] + b"/>", b"<A><B/><C/><D/><" + LONG + b"/></A>",
    b"<A></" + LONG + b">", b"<A>" + b"<B/>" * 7 + b"<" + LONG + b"/></A>",
    b"<A><B/><B/><C/><C/><D/><D/><D/><E/></A>", b"<A " + LONG + b'="1"/>',
]
PLAN = b"<A b='1' ><B/>x</A >\n"
CUTS = [PLAN[:k] for k in range(1, len(PLAN) + 1)]
BYTES = [form.replace(b"?", bytes([c])) for form in (b"<A>?</A>", b"?<A/>", b"<A?/>", b"<?/>") for c in range(256)]

cases = ACCEPTED + NO_TAG + WRONG_END + OUTSIDE + UNFINISHED + FULL + ORDER + CUTS + BYTES
with open("crates/plan_cases/stdin", "wb") as file:
    file.writelines(escaped(case) + b"\n" for case in cases)
with open("crates/plan_cases/stdout", "wb") as file:
    file.writelines(line(case) + b"\n" for case in cases)
