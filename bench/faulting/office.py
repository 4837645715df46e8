"""An office with orders of every sort, each with the lines that are printed of it: written from docs/FORMATS.md (offices, turns and
commands), docs/CONTENT.md and docs/SCRIPTS.md, and worked out by hand."""
import hashlib

from faulting import content
from faulting.server import sealed, sha256

# a file of an office is lines, so this one has four bytes where that of the agents has three
FILE = b"abc\n"
SITE = sealed(content.SITE[:content.SITE.rindex(b"digest ")].replace(content.ABC.encode(), sha256(FILE).encode())
              .replace(content.ABC_SHA1.encode(), hashlib.sha1(FILE).hexdigest().encode()).replace(b"size:3", b"size:4"))

# each order with the lines that are printed when it was played
ORDERS = [
    (b"publish\n" + SITE, ["publish: ok"]),
    (b"act\n" + content.ACTIONS[7], ["act: ok"]),
    (b"act\n" + content.ACTIONS[8], ["act: ok"]),
    (b"stop 9\n", ["stop: no such"]),
    (b"file\n| abc\nend\n", [f"file: ok {sha256(FILE)}"]),
    (b"relay r1\n", []),
    (b"computer pc1 r1\n" + content.MACHINE, []),
    (b"gather r1\n", ["gather r1: actionsite 2", "gather r1: desk 1"]),
    (b"gather r1\n", ["gather r1: nothing"]),
    # it wants the file, which the server gives; its program runs for one poll, and the report says that the attempt runs
    (b"turn pc1 1000\n", ["do place abc 4", "do copy __Download/abc /done", "do start slow", "turn pc1 1000: began 7, held at line 4"]),
    (b"restart pc1\n", ["restart pc1"]),
    (b"turn pc1 1030\n", ["turn pc1 1030: interrupted 7"]),
    (b"turn pc1 1040\n", ["do write __createfile 7", "do delete /etc/old", "turn pc1 1040: began 8, fixed"]),
    (b"turn pc1 1200\n", ["turn pc1 1200: idle"]),
    (b"send pc1 1\n", ["message 1: report pc1 1 to r1"]),
    (b"deliver 1\n", ["deliver 1: carried, message 2"]),
    (b"deliver 2\n", ["deliver 2: kept"]),
    (b"push r1\n", ["message 3: report pc1 1 to server"]),
    (b"deliver 3\n", ["deliver 3: ok, message 4"]),
    (b"deliver 4\n", ["deliver 4: noted"]),
    (b"report pc1\n", [
        "message 5: report pc1 1 to r1", "deliver 5: stored, message 6", "deliver 6: dropped",
        "message 7: report pc1 2 to r1", "deliver 7: carried, message 8", "deliver 8: kept",
        "message 9: report pc1 3 to r1", "deliver 9: carried, message 10", "deliver 10: kept"]),
    (b"send pc1 1\n", ["send pc1 1: nothing"]),
    (b"forward r1\n", [
        "message 11: report pc1 2 to server", "message 12: report pc1 3 to server", "deliver 11: ok, message 13", "deliver 13: noted",
        "deliver 12: ok, message 14", "deliver 14: noted"]),
    (b"push r1\n", ["push r1: nothing"]),
    (b"deliver 99\n", ["deliver 99: nothing"]),
    (b"forget r1\n", ["forget r1"]),
    (b"stop 8\n", ["stop: ok"]),
    (b"end\n", [
        "computers 1", "reports 3", "result pc1 7 1 interrupted 2", "result pc1 8 1 fixed 3", "queue r1 0", "outbox pc1 2",
        "sum fixed 1 failed 0 running 0 interrupted 1"]),
]
TEXT = b"office\n" + b"".join(order for order, _ in ORDERS)
PRINTED = [lines for _, lines in ORDERS]
