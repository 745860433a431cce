#!/usr/bin/env python3
"""Runs the built program on files that are made here, and holds its status and its whole output against a table.

.ci/run runs it behind the gate; it needs the program built. The sample tables and blocks stand in docs/FORMATS.md.
"""

import pathlib
import subprocess
import sys
import tempfile

TOP = pathlib.Path(__file__).resolve().parent.parent
USAGE = "ghes: usage: replay HEST EINJ SCRIPT | check HEST EINJ | decode BLOCK | load N\n"
HEADER = bytes.fromhex("484553546800000001404748455352545245504c4159303101000000474845530100000001000000")
SOURCE = bytes.fromhex(
    "09000100ffff0001010000000100000000000000004000040000007f00000000"
    "041c000000000000000000000000000000000000000000000000000000100000"
)
SOURCE_2 = bytes.fromhex(
    "0a000200ffff0001010000000100000000000000004000040800007f00000000"
    "041c000000000000000000000000000000000000000000000000000000100000"
    "002000030010007f00000000feffffff000000000100000000000000"
)
MEMORY = (
    "1200000000000000000000009000000002000000"
    "1411bca5646fde4eb8633e83ed7c83b1020000000102000050000000" + "00" * 36 + "064000000000000000000000000000000050341200000000"
    "00f0ffffffffffff" + "00" * 40 + "02" + "00" * 7
)
BARE = "0200000000000000000000000000000002000000"
NONE = BARE[:32] + "03000000"
FATAL = "0100000000000000000000000000000001000000"
BLOCKS = {"Z": BARE, "ZI": NONE, "ZF": FATAL, "B1": MEMORY, **{f"Z{k}": f"{k}{BARE[1:]}" for k in range(1, 7)}}
CORRECTED = "  severity corrected\n"
TWO = (
    "2200000000000000000000009000000002000000"
    "33221100554477668899aabbccddeeff020000000102000004000000" + "00" * 36 + "01020304"
    "33221100554477668899aabbccddeeff020000000003000004000000" + "00" * 36 + "00" * 8 + "01020304"
)


def changed(bytes_, changes):
    """The bytes, but for those at these offsets."""
    out = bytearray(bytes_)
    for at, byte in changes.items():
        out[at] = byte
    return bytes(out)


def mended(table):
    """The table with its own length and with the checksum that makes its bytes add up to 0."""
    table = changed(table[:4] + len(table).to_bytes(4, "little") + table[8:], {9: 0})
    return changed(table, {9: -sum(table) % 256})


def table(*structures):
    """The table of these structures."""
    return mended(HEADER[:36] + len(structures).to_bytes(4, "little") + b"".join(structures))


def blank(length, changes):
    return changed(bytes(length), changes)


def server(enabled):
    """The table "a server", where the enabled byte of its first generic source is this one."""
    others = [blank(152, {32: 4}), blank(160, {0: 1, 2: 1, 44: 4}), blank(48, {0: 6, 2: 2}), blank(44, {0: 7, 2: 3})]
    generic = [changed(SOURCE, {2: 8, 7: enabled}), changed(SOURCE, {2: 9, 24: 8, 32: 3})]
    return table(*others, blank(56, {0: 8, 2: 4}), *generic)


def totals(sources, reports, no_slot=0, fault=0):
    """The summary of sources, each with its id and its raised, acknowledged, delivered, dropped and panicked blocks."""
    lines = "".join(f"source {i}: raised {r}, acknowledged {a}, delivered {d}, duplicate 0, dropped {e}, panic {p}\n"
                    for i, r, a, d, e, p in ((*source, 0, 0)[:6] for source in sources))
    return f"summary\n{lines}reports {reports}, repeats 0, no slot {no_slot}, fault {fault}\n"


def summary(raised, acknowledged, delivered, dropped=0, panic=0, no_slot=0, source=1, fault=0):
    """The summary of one source."""
    return totals([(source, raised, acknowledged, delivered, dropped, panic)], delivered, no_slot, fault)


def severities(text):
    """The closing line of the counter of severities behind this text of a replay.

    It counts the deliveries: each report, by the severity in its body, and each repeat, which has the bytes of the report that it
    names. A block that is dropped or left in a panic report is none. As many are delivered as the summary says.
    """
    lines = text.split("\n")
    words = [line.split() for line in lines]
    found = {(w[2], w[4]): below[1] for w, below in zip(words, words[1:]) if w[:2] == ["report", "source"]}
    told = list(found.values()) + [found[w[7], w[9]] for w in words if w[:2] == ["repeat", "source"]]
    assert len(told) == sum(int(w[7].rstrip(",")) for w in words if w[:1] == ["source"] and w[6] == "delivered")
    return "severities: " + ", ".join(f"{word} {told.count(word)}" for word in ("recoverable", "fatal", "corrected", "none")) + "\n"


def report(source, number, body=CORRECTED):
    return f"report source {source} block {number}\n{body}"


def panicked(fatal, *pending):
    """The panic report of bare blocks, each by its source, its number and its severity."""
    lines = [("pending", *block) for block in pending] + [("fatal", *fatal, "fatal")]
    text = "".join(f"{word} source {i} block {n}\n  severity {severity}\n" for word, i, n, severity in lines)
    return f"panic\n{text}end of panic\n"


def entry(kind, fields, severity="corrected"):
    """The body of a block of one entry, with these lines of its section."""
    lines = "".join(f"    {field}\n" for field in fields)
    return f"  severity {severity}\n  entry 0 {kind} severity {severity}\n{lines}"


def script(lines):
    """The script of these lines, with `;` between them. The name of a block stands for its digits."""
    return "".join(" ".join(BLOCKS.get(word, word) for word in line.split()) + "\n" for line in lines.split(";")).encode()


ONE = HEADER + SOURCE
EINJ = (TOP / "crates/ghes/data/einj.bin").read_bytes()
NO_ADDRESS = mended(changed(EINJ[:-32], {44: 8}))
TABLES = {
    "one": ONE, "v2": table(SOURCE_2), "two": table(SOURCE, SOURCE_2), "server": server(1), "none": table(),
    "three": table(*[changed(SOURCE, {2: 1 + i, 24: 8 * i}) for i in range(3)]), "e": EINJ, "bare": NO_ADDRESS,
}
MEMORY_BODY = entry("memory", ["physical address 0x0000000012345000", "mask 0xfffffffffffff000", "type 0x02"])
SERVER_TEXT = (
    "hest: 7 sources\n0 at 40: type 0, length 152\n1 at 192: type 1, length 160\n2 at 352: type 6, length 48\n"
    "3 at 400: type 7, length 44\n4 at 444: type 8, length 56\n8 at 500: ghes enabled, notification 4, block length 4096\n"
    "9 at 564: ghes enabled, notification 3, block length 4096\neinj: none\n"
)


def usages():
    """Words that are no form of the command line."""
    for words in ["", "--help", "replay h", "replay h -", "replay h - s more", "check", "check h",
                  "check h - more", "Check h -", "decode", "decode h more", "load 8"]:
        yield f"the words {words!r}", {"h": ONE, "s": b""}, words, 2, USAGE


def listings():
    """What `check` prints."""
    yield "a server", {"h": server(1)}, "check h -", 0, SERVER_TEXT
    yield "a table named by a hyphen", {"-": server(1)}, "check - -", 0, SERVER_TEXT
    yield "no source", {"h": table()}, "check h -", 0, "hest: 0 sources\neinj: none\n"
    yield ("nine entries", {"h": ONE, "e": EINJ}, "check h e", 0,
           "hest: 1 sources\n1 at 40: ghes enabled, notification 4, block length 4096\neinj: 9 entries\n")
    for source, changes, line in [
        (SOURCE, {}, "1 at 40: ghes enabled, notification 4, block length 4096"),
        (SOURCE, {7: 0}, "1 at 40: ghes disabled, notification 4, block length 4096"),
        (SOURCE_2, {}, "2 at 40: ghesv2 enabled, notification 4, block length 4096"),
        (SOURCE_2, {7: 0}, "2 at 40: ghesv2 disabled, notification 4, block length 4096"),
        (SOURCE, {2: 255, 3: 255, 7: 2, 32: 255}, "65535 at 40: ghes enabled, notification 255, block length 4096"),
        (SOURCE, {7: 0, 20: 9, 60: 0, 61: 0}, "1 at 40: ghes disabled, notification 4, block length 0"),
    ]:
        yield line, {"h": table(changed(source, changes))}, "check h -", 0, f"hest: 1 sources\n{line}\neinj: none\n"
    # 40 + 52,424 * 20 + 56 = 1,048,576.
    full = table(*[blank(20, {0: 2})] * 52_424, blank(56, {0: 8}))
    lines = "".join(f"0 at {40 + 20 * i}: type 2, length 20\n" for i in range(52_424))
    yield ("a table of 1 MiB", {"h": full}, "check h -", 0,
           f"hest: 52425 sources\n{lines}0 at 1048520: type 8, length 56\neinj: none\n")
    yield "a table of 1 MiB and a byte", {"h": full + b"\0"}, "check h -", 5, "ghes: read h: 2 too long\n"


def tables():
    """How a table is refused, and in which order."""
    for changes, reason in [
        ({3: 0x55}, "1 table: 2 signature"),
        ({9: 0x41}, "1 table: 4 checksum"),
        ({36: 2, 9: 0x3F}, "4 count says 2, found 1"),
        ({40: 12, 9: 0x3D}, "3 source type 12 at 40"),
        ({63: 5, 9: 0x3F}, "6 register of source 1: 2 access size"),
        ({100: 19, 101: 0, 9: 0x3D}, "7 block length of source 1"),
    ]:
        yield reason, {"h": changed(ONE, changes)}, "check h -", 3, f"ghes: hest: {reason}\n"
        yield f"replayed: {reason}", {"h": changed(ONE, changes)}, "replay h - s", 3, f"ghes: hest: {reason}\n"
    doubled = changed(table(SOURCE, SOURCE_2), {106: 1, 9: 0x2E})
    yield "one id twice", {"h": doubled}, "check h -", 3, "ghes: hest: 5 source 1 twice\n"
    crowded = table(*[changed(SOURCE, {2: i}) for i in range(65)])
    yield "65 enabled sources", {"h": crowded}, "check h -", 3, "ghes: hest: 8 too many\n"
    for length in range(0, 104, 3):
        reason = "1 short" if length < 36 else "3 length"
        yield f"a table cut at {length}", {"h": ONE[:length]}, "check h -", 3, f"ghes: hest: 1 table: {reason}\n"
    # The length and the checksum fit what is left.
    for length, reason in [(36, "2 truncated at 36"), (39, "2 truncated at 36"), (40, "4 count says 1, found 0"),
                           (41, "2 truncated at 40"), (103, "2 truncated at 40")]:
        yield f"a table mended at {length}", {"h": mended(ONE[:length])}, "check h -", 3, f"ghes: hest: {reason}\n"
    # The table is judged before the injection table.
    files = {"h": ONE, "bad": changed(ONE, {9: 0x41}), "sixteen": changed(EINJ, {36: 16, 9: 0x91}), "long": bytes(1_048_577)}
    for words, status, line in [
        ("check bad sixteen", 3, "hest: 1 table: 4 checksum"), ("check bad x", 3, "hest: 1 table: 4 checksum"),
        ("check h sixteen", 3, "einj: 2 header size"), ("check h x", 5, "read x: 1 failed"),
        ("check h long", 5, "read long: 2 too long"), ("check x -", 5, "read x: 1 failed"),
        ("replay long - s", 5, "read long: 2 too long"), ("replay x - s", 5, "read x: 1 failed"),
        ("replay h - s", 5, "read s: 1 failed"),
    ]:
        yield words, files, words, status, f"ghes: {line}\n"


def served():
    """On which tables a script is replayed."""
    for name, h in [("none", table()), ("disabled", table(changed(SOURCE, {7: 0})))]:
        yield f"no source: {name}", {"h": h, "s": b"nmi 1\n"}, "replay h - s", 4, "ghes: script: line 1: 9 source\n"
        yield f"an empty script on no source: {name}", {"h": h, "s": b""}, "replay h - s", 0, totals([], 0)
    for name, changes in [("8 bits", {21: 8, 23: 1}), ("16 bits", {21: 16, 23: 2})]:
        yield f"narrow: {name}", {"h": table(changed(SOURCE, changes))}, "replay h - s", 8, "ghes: platform: 3 narrow source 1\n"
    two = server(1)
    more = changed(two, {36: 8, 9: (two[9] - 1) % 256})
    yield "judged before it is served", {"h": more}, "replay h - s", 3, "ghes: hest: 4 count says 8, found 7\n"
    wide = table(changed(SOURCE, {21: 32, 23: 3}))
    yield "32 bits", {"h": wide, "s": b"nmi 1\n"}, "replay h - s", 0, "nmi 1: nothing\n" + summary(0, 0, 0)
    script = f"raise 9 {BARE}\nnmi 9\nwork\n".encode()
    yield ("behind skipped and disabled ones", {"h": server(0), "s": script}, "replay h - s", 0,
           "nmi 9: queued 1\nreport source 9 block 1\n  severity corrected\n" + summary(1, 1, 1, source=9))
    yield ("a disabled source is none of the script's", {"h": server(0), "s": b"nmi 8\n"}, "replay h - s", 4,
           "ghes: script: line 1: 9 source\n")
    yield "a table named by a hyphen", {"-": ONE, "s": b""}, "replay - - s", 0, summary(0, 0, 0)
    lap = table(SOURCE, changed(SOURCE_2, {24: 4}))
    line = "ghes: platform: 1 overlap of source 1 and source 2 at memory 0x000000007f000004\n"
    yield "registers that overlap, before the script is loaded", {"h": lap}, "replay h - s", 8, line
    yield "the injection table before them", {"h": lap, "e": changed(EINJ, {9: 0})}, "replay h e s", 3, "ghes: einj: 1 table: 4 checksum\n"


def machines():
    """What a replay of several sources prints, with its settings, its clock and its cells."""
    ack = [("8 bits", {65: 8, 67: 1}, "0xf0", "0xf1"), ("16 bits", {65: 16, 67: 2}, "0x00f0", "0x00f1"),
           ("a field at bit 8", {65: 8, 66: 8}, "0xabcd00f0", "0xabcd0100"),
           ("64 bits", {65: 64, 67: 4}, "0x12345678abcd00f0", "0x00000000abcd00f1")]
    called = "raise {0} Z; nmi {0}"
    for name, words, lines, text, status in [
        ("a pool of one slot", "two -", "slots 1; raise 1 Z; raise 2 ZI; nmi 1; nmi 2; work; nmi 2",
         "nmi 1: queued 1\nnmi 2: no slot\n" + report(1, 1) + "nmi 2: queued 1\n" + report(2, 1, "  severity none\n")
         + totals([(1, 1, 1, 1), (2, 1, 1, 1)], 2, no_slot=1), 0),
        ("a fatal block needs no slot", "one -", "slots 2; raise 1 Z; raise 1 ZI; raise 1 ZF; nmi 1; nmi 1; nmi 1; nmi 1",
         "nmi 1: queued 1\nnmi 1: queued 2\nnmi 1: fatal 3\n" + panicked((1, 3), (1, 1, "corrected"), (1, 2, "none"))
         + summary(3, 3, 0, panic=3), 1),
        ("a read ack register", "v2 -", "ackcell 2 0xabcd00f0; raise 2 B1; nmi 2; peek 2",
         "nmi 2: queued 1\ncell 2: 0xabcd00f1\n" + report(2, 1, MEMORY_BODY) + summary(1, 1, 1, source=2), 0),
        ("a second block stands behind the acknowledgement of the first", "v2 -", "raise 2 Z1; raise 2 Z2; nmi 2; nmi 2; nmi 2",
         "nmi 2: queued 1\nnmi 2: queued 2\nnmi 2: nothing\n" + report(2, 1) + report(2, 2) + summary(2, 2, 2, source=2), 0),
        ("a cell before any call, and the low bits of a setting", "v2 -", "ackcell 2 1; ackcell 2 0x123456789; peek 2; peek 2",
         "cell 2: 0x23456789\ncell 2: 0x23456789\n" + summary(0, 0, 0, source=2), 0),
        ("a cell that was never set", "two -", "peek 2", "cell 2: 0x00000000\n" + totals([(1, 0, 0, 0), (2, 0, 0, 0)], 0), 0),
        ("no source of that kind", "two -", "peek 1", "ghes: script: line 1: 9 source\n", 4),
        ("a server's sources", "server -", "raise 8 Z; raise 9 ZI; nmi 8; nmi 9",
         "nmi 8: queued 1\nnmi 9: queued 1\n" + report(8, 1) + report(9, 1, "  severity none\n")
         + totals([(8, 1, 1, 1), (9, 1, 1, 1)], 2), 0),
        ("the clock prints nothing", "one -", "clock 0; clock 10; clock 10; raise 1 Z; nmi 1; clock 18446744073709551615; work",
         "nmi 1: queued 1\n" + report(1, 1) + summary(1, 1, 1), 0),
        ("the clock falls", "one -", "clock 10; clock 9", "ghes: script: line 2: 6 order\n", 4),
    ]:
        yield name, {**TABLES, "s": script(lines)}, f"replay {words} s", status, text
    for name, changes, before, after in ack:
        yield (f"a read ack register: {name}", {"h": table(changed(SOURCE_2, changes)),
               "s": script(f"ackcell 2 {before}; peek 2; raise 2 Z; nmi 2; peek 2")}, "replay h - s", 0,
               f"cell 2: {before}\nnmi 2: queued 1\ncell 2: {after}\n" + report(2, 1) + summary(1, 1, 1, source=2))


def injections():
    """What an injection makes, or how it ends."""
    asked = "inject 0x8 memory 0x12345678 0xfffffffffffff000"
    place = ["physical address 0x0000000012345678", "mask 0xfffffffffffff000"]
    pcie = ["vendor 0x0000", "device id 0x0000", "class 000000", "function 0x03", "device 0x01", "segment 0x0001", "bus 0x02",
            "secondary bus 0x00", "slot 0x0000"]
    platform = "section 6b1d0c52-98f4-4c3a-8e0b-2f7a51c0d9e3"
    some = entry("memory", ["type 0x02"])
    for lines, error, body in [
        (asked, 8, entry("memory", place + ["type 0x02"])), ("busy 2; " + asked, 8, entry("memory", place + ["type 0x02"])),
        ("busy 999; " + asked, 8, entry("memory", place + ["type 0x02"])), ("inject 8", 8, some),
        (asked.replace("0x8", "0x10"), 16, entry("memory", place + ["type 0x03"], "recoverable")),
        ("inject 1 processor 7", 1, entry("processor", ["id 0x0000000000000007"])),
        ("inject 0x40 pcie 0x01020b00", 64, entry("pcie", pcie)), ("inject 0x40", 64, entry("pcie", [])),
        ("inject 0x200", 512, entry(platform, ["data 0002000000000000"])),
    ]:
        yield (lines, {**TABLES, "s": script(lines + "; nmi 1")}, "replay one e s", 0,
               f"inject 0x{error:08x}: source 1 block 1\nnmi 1: queued 1\n" + report(1, 1, body) + summary(1, 1, 1))
    for words, lines, text, status in [
        ("one e", f"busy 1000; {asked}; nmi 1", "inject 0x00000008: busy\nnmi 1: nothing\n" + summary(0, 0, 0), 0),
        ("one e", "available 0x1; inject 0x8", "inject 0x00000008: not available\n" + summary(0, 0, 0), 0),
        ("one e", "status 2; inject 0x8; raise 1 Z; nmi 1",
         "inject 0x00000008: status 2\nnmi 1: queued 1\n" + report(1, 1) + summary(1, 1, 1), 0),
        ("one bare", f"{asked}; inject 0x8; nmi 1",
         "inject 0x00000008: no address\ninject 0x00000008: source 1 block 1\nnmi 1: queued 1\n" + report(1, 1, some)
         + summary(1, 1, 1), 0),
        ("one e", "raise 1 Z; inject 8; nmi 1; nmi 1", "inject 0x00000008: source 1 block 2\nnmi 1: queued 1\nnmi 1: queued 2\n"
         + report(1, 1) + report(1, 2, some) + summary(2, 2, 2), 0),
        ("two e", "route memory 2; inject 8; inject 0x40; nmi 2; nmi 1",
         "inject 0x00000008: source 2 block 1\ninject 0x00000040: source 1 block 1\nnmi 2: queued 1\nnmi 1: queued 1\n"
         + report(2, 1, some) + report(1, 1, entry("pcie", [])) + totals([(1, 1, 1, 1), (2, 1, 1, 1)], 2), 0),
        ("one e", asked.replace("0x8", "0x20") + "; nmi 1; inject 8", "inject 0x00000020: source 1 block 1\nnmi 1: fatal 1\n"
         "panic\nfatal source 1 block 1\n" + entry("memory", place + ["type 0x03"], "fatal") + "end of panic\n"
         + summary(1, 1, 0, panic=1), 1),
    ]:
        yield f"{words}: {lines}", {**TABLES, "s": script(lines)}, f"replay {words} s", status, text


def turns():
    """What a `run` prints: the contexts make their turns one after another, and the text goes by source."""
    each = "".join(f"nmi {i}: queued 1\nnmi {i}: queued 2\n" + f"nmi {i}: nothing\n" * 2 + report(i, 1) + report(i, 2)
                   for i in (1, 2, 3))
    twice = "raise 1 Z1; raise 1 Z2; raise 2 Z3; raise 2 Z4; raise 3 Z5; raise 3 Z6"
    once = "raise 1 Z1; raise 2 Z2; raise 3 Z3"
    for lines, text, status in [
        (f"contexts 3; {twice}; run 4", "run 4\n" + each + totals([(i, 2, 2, 2) for i in (1, 2, 3)], 6), 0),
        # Context 0 has the sources 1 and 3, and takes all three slots before context 1 makes a turn.
        (f"contexts 2; slots 3; {twice}; run 2",
         "run 2\nnmi 1: queued 1\nnmi 1: queued 2\n" + report(1, 1) + report(1, 2) + "nmi 2: no slot\n" * 2
         + "nmi 3: queued 1\nnmi 3: no slot\n" + report(3, 1)
         + totals([(1, 2, 2, 2), (2, 2, 0, 0), (3, 2, 1, 1)], 3, no_slot=3), 0),
        # Context 0 has the sources 1 and 2.
        (f"contexts 2; serve 2 0; serve 3 1; slots 3; {twice}; run 2",
         "run 2\nnmi 1: queued 1\nnmi 1: queued 2\n" + report(1, 1) + report(1, 2) + "nmi 2: queued 1\nnmi 2: no slot\n"
         + report(2, 1) + "nmi 3: no slot\n" * 2 + totals([(1, 2, 2, 2), (2, 2, 1, 1), (3, 2, 0, 0)], 3, no_slot=3), 0),
        # Context 0 has none, and context 1 has source 2.
        (f"contexts 3; serve 1 2; slots 1; {once}; run 1",
         "run 1\nnmi 1: no slot\nnmi 2: queued 1\n" + report(2, 1) + "nmi 3: no slot\n"
         + totals([(1, 1, 0, 0), (2, 1, 1, 1), (3, 1, 0, 0)], 1, no_slot=2), 0),
        # What is pending before a run is taken in it, and printed by source.
        (f"{once}; nmi 3; nmi 1; run 1; work; run 1",
         "nmi 3: queued 1\nnmi 1: queued 1\nrun 1\nnmi 1: nothing\n" + report(1, 1) + "nmi 2: queued 1\n" + report(2, 1)
         + "nmi 3: nothing\n" + report(3, 1) + "run 1\nnmi 1: nothing\nnmi 2: nothing\nnmi 3: nothing\n"
         + totals([(i, 1, 1, 1) for i in (1, 2, 3)], 3), 0),
        # Source 2 is fatal in the second turn of context 1: context 2 makes one call, and its block stands.
        ("contexts 3; raise 1 ZI; raise 2 Z1; raise 2 ZF; raise 2 Z2; raise 3 Z3; run 3; raise 1 Z4; nmi 3; work; run 1",
         "run 3\nnmi 1: queued 1\nnmi 1: nothing\nnmi 1: nothing\nnmi 2: queued 1\nnmi 2: fatal 2\nnmi 3: stopped\n"
         + panicked((2, 2), (1, 1, "none"), (2, 1, "corrected"))
         + totals([(1, 1, 1, 0, 0, 1), (2, 3, 2, 0, 0, 2), (3, 1, 0, 0)], 0), 1),
        # A context ends at its own fatal block, before its next source.
        ("contexts 2; raise 1 ZF; raise 3 Z; run 2", "run 2\nnmi 1: fatal 1\nnmi 2: stopped\n" + panicked((1, 1))
         + totals([(1, 1, 1, 0, 0, 1), (2, 0, 0, 0), (3, 1, 0, 0)], 0), 1),
    ]:
        yield lines, {**TABLES, "s": script(lines)}, "replay three - s", status, text
    h = table(*[changed(SOURCE, {2: i, 24: 8 * i % 256, 25: 8 * i // 256}) for i in range(64)])
    lines = "contexts 16; slots 64; " + "; ".join(f"raise {i} {4 * i + 2:02x}{BARE[2:]}" for i in range(64)) + "; run 1000"
    text = "".join(f"nmi {i}: queued 1\n" + f"nmi {i}: nothing\n" * 999 + report(i, 1) for i in range(64))
    yield ("64 sources and 1,000 turns", {"h": h, "s": script(lines)}, "replay h - s", 0,
           "run 1000\n" + text + totals([(i, 1, 1, 1) for i in range(64)], 64))


def faults():
    """What a failed access leaves: the accesses of a source are counted from its line `fail` on."""
    for access in range(1, 8):
        calls = ("nmi 2: fault\ncell 2: 0x00000000\nnmi 2: queued 1\ncell 2: 0x00000001\n" if access < 5 else
                 "nmi 2: queued 1, ack failed\ncell 2: 0x00000000\nnmi 2: nothing\ncell 2: 0x00000000\n" if access < 7 else
                 "nmi 2: queued 1\ncell 2: 0x00000001\nnmi 2: fault\ncell 2: 0x00000001\n")
        yield (f"access {access} of a block with an entry",
               {**TABLES, "s": script(f"raise 2 B1; fail 2 {access}; nmi 2; peek 2; nmi 2; peek 2")}, "replay v2 - s", 0,
               calls + report(2, 1, MEMORY_BODY) + summary(1, 1, 1, source=2, fault=int(access not in (5, 6))))
    malformed = "0200000000000000000000000100000002000000"
    for words, lines, text, status in [
        ("one -", "raise 1 Z; fail 1 1; nmi 1; fail 1 2; nmi 1; fail 1 3; nmi 1; nmi 1",
         "nmi 1: fault\n" * 3 + "nmi 1: queued 1\n" + report(1, 1) + summary(1, 1, 1, fault=3), 0),
        ("v2 -", "raise 2 Z; raise 2 ZI; fail 2 5; nmi 2; nmi 2",
         "nmi 2: queued 1, ack failed\nnmi 2: nothing\n" + report(2, 1) + summary(2, 1, 1, source=2), 0),
        ("v2 -", f"raise 2 {malformed}; fail 2 4; nmi 2", "nmi 2: malformed 1: 3 data length, ack failed\n"
         f"dropped source 2 block 1: 3 data length\n  data {malformed}\n" + summary(1, 1, 0, 1, source=2), 0),
        ("v2 -", "raise 2 ZF; fail 2 4; nmi 2", "nmi 2: fatal 1, ack failed\n" + panicked((2, 1))
         + summary(1, 1, 0, panic=1, source=2), 1),
        # A fatal block that is not cleared stands, and is no fatal one.
        ("one -", "raise 1 ZF; fail 1 3; nmi 1", "nmi 1: fault\n" + summary(1, 0, 0, fault=1), 0),
        ("one -", "fail 1 1; nmi 1; nmi 1", "nmi 1: fault\nnmi 1: nothing\n" + summary(0, 0, 0, fault=1), 0),
        ("one -", "raise 1 Z; fail 1 1; fail 1 1; nmi 1; nmi 1",
         "nmi 1: fault\nnmi 1: queued 1\n" + report(1, 1) + summary(1, 1, 1, fault=1), 0),
        # The failed access is the first, so that the second is that of the next call.
        ("one -", "raise 1 Z; fail 1 1; fail 1 2; nmi 1; nmi 1; nmi 1",
         "nmi 1: fault\n" * 2 + "nmi 1: queued 1\n" + report(1, 1) + summary(1, 1, 1, fault=2), 0),
        ("two -", "raise 1 Z1; raise 2 Z2; fail 2 1; nmi 1; nmi 2; nmi 2", "nmi 1: queued 1\nnmi 2: fault\nnmi 2: queued 1\n"
         + report(1, 1) + report(2, 1) + totals([(1, 1, 1, 1), (2, 1, 1, 1)], 2, fault=1), 0),
        ("three -", "contexts 3; raise 1 Z1; raise 2 Z2; fail 1 1; fail 2 2; run 2", "run 2\nnmi 1: fault\nnmi 1: queued 1\n"
         + report(1, 1) + "nmi 2: fault\nnmi 2: queued 1\n" + report(2, 1) + "nmi 3: nothing\n" * 2
         + totals([(1, 1, 1, 1), (2, 1, 1, 1), (3, 0, 0, 0)], 2, fault=2), 0),
    ]:
        yield f"{words}: {lines}", {**TABLES, "s": script(lines)}, f"replay {words} s", status, text


def repeats():
    """What the report cache makes of blocks with equal bytes."""
    line = "source {}: raised {}, acknowledged {}, delivered {}, duplicate {}, dropped 0, panic 0\n"
    last = "reports {}, repeats {}, no slot 0, fault 0\n"
    once = "nmi 1: queued 1\n" + report(1, 1, MEMORY_BODY)
    five = "raise 1 Z1; raise 1 Z2; raise 1 Z3; raise 1 Z4; raise 1 Z5; " + "nmi 1; " * 5 + "work; "
    told = "".join(f"nmi 1: queued {n}\n" for n in range(1, 6)) + "".join(report(1, n) for n in range(1, 6))
    storm = "raise 1 Z; nmi 1; work; " + "; ".join(
        (f"clock {n // 100}000000000; " if n % 100 == 0 else "") + "raise 1 Z; nmi 1" for n in range(1, 1000))
    for name, words, lines, text, counts, ends in [
        ("a report that is a nanosecond younger than ten seconds", "one", "raise 1 B1; nmi 1; work; clock 9999999999; raise 1 B1; nmi 1",
         once + "nmi 1: duplicate 2 of source 1 block 1\n", [(1, 2, 2, 1, 1)], (1, 0)),
        ("a report of ten seconds ago", "one", "raise 1 B1; nmi 1; work; clock 10000000000; raise 1 B1; nmi 1",
         once + "nmi 1: queued 2\n" + report(1, 2, MEMORY_BODY), [(1, 2, 2, 2, 0)], (2, 0)),
        ("a block that was pending already when its bytes were reported", "one", "raise 1 B1; raise 1 B1; nmi 1; nmi 1; work",
         "nmi 1: queued 1\nnmi 1: queued 2\n" + report(1, 1, MEMORY_BODY) + "repeat source 1 block 2 of source 1 block 1\n",
         [(1, 2, 2, 2, 0)], (1, 1)),
        ("the fifth report has the place of the first", "one", five + "raise 1 Z1; nmi 1",
         told + "nmi 1: queued 6\n" + report(1, 6), [(1, 6, 6, 6, 0)], (6, 0)),
        ("the second report has its place", "one", five + "raise 1 Z2; nmi 1",
         told + "nmi 1: duplicate 6 of source 1 block 2\n", [(1, 6, 6, 5, 1)], (5, 0)),
        ("two sources with one block", "server", "raise 8 Z; raise 9 Z; nmi 8; nmi 9",
         "nmi 8: queued 1\nnmi 9: queued 1\n" + report(8, 1) + "repeat source 9 block 1 of source 8 block 1\n",
         [(8, 1, 1, 1, 0), (9, 1, 1, 1, 0)], (1, 1)),
        ("a duplicate is acknowledged and needs no slot", "one",
         "slots 1; raise 1 Z; nmi 1; work; raise 1 Z1; nmi 1; raise 1 Z; nmi 1; nmi 1",
         "nmi 1: queued 1\n" + report(1, 1) + "nmi 1: queued 2\nnmi 1: duplicate 3 of source 1 block 1\nnmi 1: nothing\n"
         + report(1, 2), [(1, 3, 3, 2, 1)], (2, 0)),
        ("a storm of a thousand equal blocks, a hundred a second", "one", storm,
         "nmi 1: queued 1\n" + report(1, 1) + "".join(f"nmi 1: duplicate {n} of source 1 block 1\n" for n in range(2, 1001)),
         [(1, 1000, 1000, 1, 999)], (1, 0)),
    ]:
        yield (name, {**TABLES, "s": script(lines)}, f"replay {words} - s", 0,
               text + "summary\n" + "".join(line.format(*count) for count in counts) + last.format(*ends))


def many():
    """How many blocks a machine has at most."""
    line, room = f"raise 1 {BARE}\n", "ghes: platform: 2 room\n"
    full = line * 65_536
    for name, words, text, output, status in [
        ("65,536 blocks", "one -", full, summary(65_536, 0, 0), 0), ("65,537 blocks", "one -", full + line, room, 8),
        ("65,537 blocks of two sources", "two -", full[len(line):] + f"raise 2 {BARE}\n" * 2, room, 8),
        ("a bad line behind them", "one -", full + line + "works\n", "ghes: script: line 65538: 1 command\n", 4),
        ("an injected block behind them", "one e", full + "inject 8\n", room, 8),
        ("an injection that makes none", "one e", "available 1\n" + full + "inject 8\n",
         "inject 0x00000008: not available\n" + summary(65_536, 0, 0), 0),
        ("lines that are not executed", "one -", f"raise 1 {FATAL}\nnmi 1\n" + full,
         "nmi 1: fatal 1\n" + panicked((1, 1)) + summary(1, 1, 0, panic=1), 1),
    ]:
        yield name, {**TABLES, "s": text.encode()}, f"replay {words} s", status, output


def scripts():
    """At which line a script is refused."""
    for words, text, end in [
        ("one -", "work\nnmi 1\nworks\nnmi 7\n", "3: 1 command"), ("one -", "nmi 1\nslots 2\n", "2: 6 order"),
        ("one -", f"raise 7 {BARE}\n", "1: 9 source"), ("one -", "raise 7 zz\n", "1: 9 source"),
        ("one -", "raise 1 020\n", "1: 4 hex"), ("one -", f"raise 1 {BARE}\nraise 1 zz\n", "2: 4 hex"),
        ("one -", "work\nraise 1 0000000000000000000000000000000002000000", "2: 5 range"),
        ("one -", f"raise 1 {BARE}{'00' * 65_517}\n", "1: 5 range"), ("one -", "#" * 132_001 + "\n", "1: 8 too long"),
        ("one -", "ackcell 1 0\n", "1: 9 source"), ("one -", "slots 65\n", "1: 5 range"), ("one -", "serve 1 1\n", "1: 5 range"),
        ("one -", "serve 1 0\ncontexts 2\n", "2: 6 order"), ("one -", "run 0\n", "1: 5 range"), ("one -", "run 1001\n", "1: 5 range"),
        ("one -", "fail 1 0\n", "1: 5 range"), ("one -", "fail 1 17\n", "1: 5 range"), ("one -", "fail 2 1\n", "1: 9 source"),
        ("one -", "inject 0x8\n", "1: 10 no injection"), ("one e", "inject 0x3\n", "1: 5 range"),
        ("one e", "inject 0x1000\n", "1: 5 range"), ("none e", "inject 0x8\n", "1: 9 source"), ("none e", "inject x\n", "1: 3 number"),
    ]:
        yield f"{text[:40]!r} at {end}", {**TABLES, "s": text.encode()}, f"replay {words} s", 4, f"ghes: script: line {end}\n"
    long = b"#" * 16_777_217
    yield "a script past the limit", {"h": ONE, "s": long}, "replay h - s", 5, "ghes: read s: 2 too long\n"


def replays():
    """What an accepted script of one source prints."""
    malformed, behind = "0200000000000000000000000100000002000000", f"{MEMORY[:24]}91{MEMORY[26:]}00"
    raw, longer, fatal_longer = (f"0{a}00000014000000e{b}0f0000000000000{a}000000" for a, b in ["2c", "2d", "1d"])
    for name, lines, text, counts, status in [
        ("one block", "raise 1 Z; nmi 1; work", "nmi 1: queued 1\n" + report(1, 1), (1, 1, 1), 0),
        ("no line", "", "", (0, 0, 0), 0),
        ("no block stands, and the end drains", f"nmi 1; raise 1 ZI; raise 1 01{'0' * 38}; nmi 1; nmi 1",
         "nmi 1: nothing\nnmi 1: queued 1\nnmi 1: queued 2\n" + report(1, 1, "  severity none\n")
         + report(1, 2, "  severity recoverable\n"), (2, 2, 2), 0),
        ("raw data up to the limit, and one byte more",
         f"raise 1 {raw}; raise 1 {longer}; nmi 1; nmi 1",
         "nmi 1: queued 1\nnmi 1: malformed 2: 2 too long\n" + report(1, 1) + "  raw 4076 bytes\n"
         f"dropped source 1 block 2: 2 too long\n  data {longer}\n", (2, 2, 1, 1), 0),
        ("severity 4", f"raise 1 {BARE[:32]}04000000; nmi 1", "nmi 1: fatal 1\n" + panicked((1, 1)), (1, 1, 0, 0, 1), 1),
        ("a fatal block that is malformed", f"raise 1 {fatal_longer}; nmi 1",
         f"nmi 1: malformed 1: 2 too long\ndropped source 1 block 1: 2 too long\n  data {fatal_longer}\n", (1, 1, 0, 1), 0),
        ("a malformed block is pending, and lines behind the fatal call are not executed",
         f"raise 1 {malformed}; nmi 1; raise 1 ZF; nmi 1; raise 1 Z; nmi 1; work",
         "nmi 1: malformed 1: 3 data length\nnmi 1: fatal 2\npanic\npending source 1 block 1\n  malformed 3 data length\n"
         f"  data {malformed}\nfatal source 1 block 2\n  severity fatal\nend of panic\n", (2, 2, 0, 0, 2), 1),
        ("what was delivered before a fatal block stays so", "raise 1 Z; nmi 1; work; raise 1 ZF; nmi 1",
         "nmi 1: queued 1\n" + report(1, 1) + "nmi 1: fatal 2\n" + panicked((1, 2)), (2, 2, 1, 0, 1), 1),
        ("a memory section", "raise 1 B1; nmi 1", "nmi 1: queued 1\n" + report(1, 1, MEMORY_BODY), (1, 1, 1), 0),
        ("a byte behind its entry", f"raise 1 {behind}; nmi 1", "nmi 1: malformed 1: 6 left over\n"
         f"dropped source 1 block 1: 6 left over\n  data {behind}\n", (1, 1, 0, 1), 0),
    ]:
        yield name, {"h": ONE, "s": script(lines)}, "replay h - s", status, text + summary(*counts)
    yield ("an empty script", {"h": ONE, "s": b""}, "replay h - s", 0, summary(0, 0, 0))
    yield ("no line feed behind the last line", {"h": ONE, "s": b"nmi 1\nnmi 1"}, "replay h - s", 0,
           "nmi 1: nothing\n" * 2 + summary(0, 0, 0))


def limits():
    """What the block length of a source cuts of a block."""
    severity = "report source 1 block 1\n  severity corrected\n  raw {} bytes\n"
    for name, limit, header, zeros, reason, raw in [
        ("40 of 60 bytes", 40, "0200000014000000140000000000000002000000", 40, None, 20),
        ("zeros behind a short block", 40, "0200000014000000140000000000000002000000", 0, None, 20),
        ("one byte too many", 40, "0200000014000000150000000000000002000000", 40, "2 too long", 0),
        ("65,536 at most", 131_072, "0200000014000000ecff00000000000002000000", 0, None, 65_516),
        ("65,536 bytes", 131_072, "0200000014000000ecff00000000000002000000", 65_516, None, 65_516),
        ("one byte above", 131_072, "0200000014000000edff00000000000002000000", 0, "2 too long", 0),
    ]:
        h = table(SOURCE[:60] + limit.to_bytes(4, "little"))
        script = f"raise 1 {header}{'00' * zeros}\nnmi 1\n".encode()
        if reason:
            text = f"nmi 1: malformed 1: {reason}\ndropped source 1 block 1: {reason}\n  data {header}\n" + summary(1, 1, 0, 1)
        else:
            text = "nmi 1: queued 1\n" + severity.format(raw) + summary(1, 1, 1)
        yield name, {"h": h, "s": script}, "replay h - s", 0, text


def rounds():
    """How many blocks may be pending: in each round blocks are raised, calls are made, and all are taken or none."""
    for name, case, raised, acknowledged, no_slot in [
        ("one fewer", [(15, 15, False)], 15, 15, 0), ("as many", [(16, 16, False)], 16, 16, 0),
        ("one more", [(17, 17, False)], 17, 16, 1), ("a call without a block at a full pool", [(16, 17, False)], 16, 16, 0),
        ("a drain between", [(17, 17, True), (0, 1, False)], 17, 17, 1),
        ("two full rounds", [(40, 18, True), (0, 18, True)], 40, 32, 4),
    ]:
        script, text, made, pending, number = "", "", 0, [], 0
        for blocks, calls, drains in case:
            script += "".join(f"raise 1 {first:02x}{BARE[2:]}\n" for first in range(1, blocks + 1)) + "nmi 1\n" * calls
            script += "work\n" if drains else ""
            made += blocks
            for _ in range(calls):
                if number == made:
                    text += "nmi 1: nothing\n"
                elif len(pending) == 16:
                    text += "nmi 1: no slot\n"
                else:
                    number += 1
                    pending.append(number)
                    text += f"nmi 1: queued {number}\n"
            if drains:
                text += "".join(f"report source 1 block {n}\n  severity corrected\n" for n in pending)
                pending = []
        text += "".join(f"report source 1 block {n}\n  severity corrected\n" for n in pending)
        text += summary(raised, acknowledged, acknowledged, no_slot=no_slot)
        yield name, {"h": ONE, "s": script.encode()}, "replay h - s", 0, text


def blocks():
    """The text of one block, and why bytes begin with none."""
    two = (
        "block of 164 bytes\n  severity corrected\n" + "".join(
            f"  entry {i} section 00112233-4455-6677-8899-aabbccddeeff severity corrected\n    data 01020304\n" for i in (0, 1))
    )
    bare = "block of 20 bytes\n  severity corrected\n"
    for name, digits, zeros, text in [
        ("two entries", TWO, 0, two), ("a header alone", BARE, 0, bare), ("a byte behind the block", BARE, 1, bare),
        ("65,536 bytes", BARE, 65_516, bare),
        ("raw data behind a gap", "0200000018000000030000000000000001000000", 7,
         "block of 27 bytes\n  severity fatal\n  raw 3 bytes\n"),
    ]:
        yield name, {"b": bytes.fromhex(digits) + bytes(zeros)}, "decode b", 0, text
    yield "65,537 bytes", {"b": bytes.fromhex(BARE) + bytes(65_517)}, "decode b", 5, "ghes: read b: 2 too long\n"
    yield "no file", {}, "decode b", 5, "ghes: read b: 1 failed\n"
    for name, digits, zeros, reason in [
        ("no byte", "", 0, "1 too short"), ("19 bytes", "", 19, "1 too short"),
        ("a length of 12", "0200000008000000040000000000000002000000", 0, "1 too short"),
        ("a byte too few", "0200000000000000000000004000000002000000", 63, "2 too long"),
        ("a length of 65,537", "0200000014000000edff00000000000002000000", 65_516, "2 too long"),
        ("a data length of 63", "0200000000000000000000003f00000002000000", 63, "3 data length"),
        ("raw data at 19", "0200000013000000010000000000000002000000", 0, "4 raw offset"),
        ("raw data in the entries", "0200000053000000020000004000000002000000", 65, "4 raw offset"),
        ("a section past the data", "0200000000000000000000004000000002000000" + "00" * 24 + "01000000", 36, "5 entry 0 truncated"),
        ("a second section past the data", "0200000000000000000000008000000002000000" + "00" * 88 + "01000000", 36,
         "5 entry 1 truncated"),
        ("a byte behind an entry", "0200000000000000000000004100000002000000", 65, "6 left over"),
        ("63 bytes behind an entry", "0200000000000000000000007f00000002000000", 127, "6 left over"),
    ]:
        yield name, {"b": bytes.fromhex(digits) + bytes(zeros)}, "decode b", 0, f"malformed {reason}\n"


def main():
    failures = count = 0
    for topic in [usages, listings, tables, served, machines, injections, turns, faults, repeats, many, scripts, replays, limits, rounds,
                  blocks]:
        for name, files, words, status, text in topic():
            with tempfile.TemporaryDirectory() as folder:
                for file, contents in files.items():
                    (pathlib.Path(folder) / file).write_bytes(contents)
                ran = subprocess.run([str(TOP / "ghes"), *words.split()], cwd=folder, stdout=subprocess.PIPE,
                                     stderr=subprocess.DEVNULL, timeout=120)
            count += 1
            if words.startswith("replay") and status < 2:
                text += severities(text)
            if (ran.returncode, ran.stdout) != (status, text.encode()):
                failures += 1
                print(f"FAILED {topic.__name__}, {name}: status {ran.returncode}, output {ran.stdout[:300]!r}")
    print(f"{count} runs, {failures} not as expected")
    return 1 if failures else 0


if __name__ == "__main__":
    sys.exit(main())
