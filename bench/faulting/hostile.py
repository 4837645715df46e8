"""Hostile texts: each limit at its value and one above it, and each byte at which a text may end, or each end of a line. What is answered
stands in the tables of docs/LANGUAGE.md, docs/FORMATS.md, docs/CONTENT.md and docs/HTTP.md."""
import re

from faulting import content, office, session
from faulting.commands import ONE, Command, report, said_by
from faulting.devices import Choice
from faulting.program import clock, digits, door, pocket
from faulting.server import LIMITS, request, response, sealed, sha256

LAST_ID, LAST_MOMENT, SITE, INPUT, TEXT = 2**53, 2**37, 4_194_304, 8_388_608, 1_048_576
MANY = 30_000  # a text of more bytes is dear
BAD_REQUEST, NO_SUCH, TOO_LONG = (400, b"bad request\n"), (404, b"no such\n"), (413, b"too long\n")

# ---- questions, each with its answer

NO_COMMAND = "E: This is no command."
QUESTIONS = [
    ("(" * 64 + "1" + ")" * 64, "A: 1"), ("(" * 65, "E: The question is nested too deeply. (64..65)"),
    ("1".ljust(65_536), "A: 1"), ("1".ljust(65_537), "E: The question is too long. (0..0)"),
    ("/*", "E: A comment is not closed. (0..2)"), ("/*/", "E: A comment is not closed. (0..3)"), ('"', "E: A string is not closed. (0..1)"),
    (str(2**63 - 1), f"A: {2**63 - 1}"), (str(2**63), "E: A number is too large. (0..19)"),
    ('"%ff"', "E: A string is not text. (0..5)"), ("1 ?", "E: A character cannot stand here. (2..3)"),
    (":page 1000000", None), (":page 1000001", NO_COMMAND), (":page 0", None), (":page -1", NO_COMMAND), (":", NO_COMMAND),
    ('exists file "/' + "a" * 1023 + '"', "A: False"), ('exists file "/' + "a" * 1024 + '"', "A: False"),
]
# of lines of a MiB
LONG_LINES = [(f'line 1 of file "/b/long" = "{"x" * 9}"', "A: False"), ('line 1 of file "/b/longer"', "E: A text is too long. (0..6)")]
LONG = b"file 1 /b/long\n| %s\nfile 1 /b/longer\n| %s\n" % (b"x" * TEXT, b"x" * (TEXT + 1))
LONG_MACHINE = session.MACHINE.replace(b"package", LONG + b"package", 1)


class HostileQuestions(Command):
    """All of them in one run of `qna`. A path that is too long is none, and isn't looked up."""

    def __init__(self, machine, asked):
        said = "".join(f"Q: {line}\n" + ("" if answer is None else f"{answer}\n") for line, answer in asked)
        super().__init__("questions", ["qna"], "".join(f"{line}\n" for line, _ in asked).encode(), said=said.encode())
        self.machine, self.count = machine, len(asked)

    def devices(self, choice, sound):
        return [*super().devices(choice, sound), f"machine {digits(self.machine)}", clock(range(self.count))]

    def judge(self, ran, choice, sound):
        longest = max(len(it.about) - len("stat ") for it in ran.calls if it.name == "look")
        return super().judge(ran, choice, sound) + ([] if longest == 1024 else [f"a path of {longest} bytes is looked up"])


# ---- texts of one command, each with its status and what it says

def site_of(*lines):
    return sealed("".join(f"{line}\n" for line in ("site desk 1", *lines)).encode())


def fixlet(title="t", number=1, script=("delete /a",)):
    return site_of(f"fixlet {number}", f"title {title}", "success lines", *(f"| {line}" for line in script), "end")


def checked(name, text, said, status=2):
    return Command(f"check, {name}", ["check"], text, status, said)


def world(name="pc1", offset=0, moment=0, more="folder /a"):
    return f"world\nname {name}\nsystem 12.4 Debian\noffset {offset}\nmoment {moment}\n{more}\nend\n".encode()


def described(name, text, line=None):
    said = (2, f"bad line {line}\n".encode()) if line else (0, b"")
    return Command(f"qna --world, {name}", ["qna", "--world"], text, *said)


def played(name, text, line):
    """An office that is refused at this line."""
    return Command(f"office, {name}", ["office"], text, 2, f"bad line {line}\n".encode())


def asked(name, order, said):
    """An office of one order, and what is printed of it."""
    said += "computers 0\nreports 0\nsum fixed 0 failed 0 running 0 interrupted 0\n"
    return Command(f"office, {name}", ["office"], f"office\n{order}\nend\n".encode(), said=said.encode())


def texts():
    room = SITE - len(fixlet(""))
    return [
        checked("a site of 4,194,304 bytes", fixlet("t" * room), b"ok 1 0\n", 0),
        checked("of one more", fixlet("t" * (room + 1)), b"23\n"),
        checked("8,388,608 bytes", b"x" * INPUT, b"23\n"), checked("one more", b"x" * (INPUT + 1), b"", 10),
        checked("a script of 10,000 lines", fixlet(script=["wait a"] * 10_000), b"ok 1 0\n", 0),
        checked("of one more", fixlet(script=["wait a"] * 10_001), b"20 line 10005\n"),
        checked("a script of 262,144 bytes", fixlet(script=["delete " + "a" * 262_136]), b"ok 1 0\n", 0),
        checked("of one more", fixlet(script=["delete " + "a" * 262_137]), b"20 line 5\n"),
        checked("the last id", fixlet(number=LAST_ID), b"ok 1 0\n", 0), checked("one above", fixlet(number=LAST_ID + 1), b"20 line 2\n"),
        described("an offset of 840", world(offset=840)), described("of 841", world(offset=841), 4),
        described("an offset of -840", world(offset=-840)), described("of -841", world(offset=-841), 4),
        described("the last moment", world(moment=LAST_MOMENT)), described("one above", world(moment=LAST_MOMENT + 1), 5),
        described("a name of 64 bytes", world("n" * 64)), described("of 65", world("n" * 65), 2),
        described("a path of 1,024 bytes", world(more="folder /" + "p" * 1023)),
        described("of 1,025", world(more="folder /" + "p" * 1024), 6),
        described("1,000,000 polls", world(more="program 1000000 0 a")), described("one more", world(more="program 1000001 0 a"), 6),
        described("the exit 255", world(more="program 1 255 a")), described("256", world(more="program 1 256 a"), 6),
        asked("to stop the last id", f"stop {LAST_ID}", "stop: no such\n"),
        played("one above", b"office\nstop %d\nend\n" % (LAST_ID + 1), 2),
        asked("the last message", f"deliver {2**64 - 1}", f"deliver {2**64 - 1}: nothing\n"),
        played("one above", b"office\ndeliver %d\nend\n" % (2**64), 2),
        Command("make 2001", ["make", "2001"], status=1, said=b"usage: desk --help\n"),
        Command("make 0", ["make", "0"], status=1, said=b"usage: desk --help\n"),
    ]


# ---- pockets

class Pocket(Command):
    """An agent whose upstream doesn't answer, over this text in its pocket."""

    def __init__(self, name, text, line=None, posts=False):
        said = f"bad pocket {line}\n" if line else "link: no answer\nturn pc1 1000: idle\n" + "link: no answer\n" * posts
        super().__init__(f"agent, {name}", ["agent", "u", "p", "w", "pc1", "0", "1"], status=2 if line else 0, said=said.encode())
        self.text = text

    def devices(self, choice, sound):
        return [*super().devices(choice, sound), pocket(self.text), clock([1000])]


def saved(number=1, reports=0, computer="pc1"):
    return f"agent 2\ncomputer {computer}\nnext {number}\n".encode() + b"".join(map(report, range(1, reports + 1))) + b"end\n"


def pockets():
    return [
        Pocket("the last number", saved(LAST_ID)), Pocket("one above", saved(LAST_ID + 1), 3), Pocket("no number", saved(0), 3),
        Pocket("1,000 reports", saved(1001, 1000), posts=True), Pocket("one more", saved(1002, 1001), 4004),
        Pocket("another computer", saved(computer="pc2"), 2),
    ]


# ---- texts that are cut

def fronts(text, each):
    """The fronts of a text but the whole: at each byte, or before and behind the end of each line."""
    pieces = re.findall(rb"(?s).", text) if each else re.findall(rb"[^\n]+|\n", text)
    return [b"".join(pieces[:number]) for number in range(len(pieces))]


def cuts(text, each):
    """The fronts, each with the number of its first bad line: that of the line that is cut or missing."""
    return [(front, front.count(b"\n") + 1) for front in fronts(text, each)]


SAVED = b"""agent 2
computer pc1
next 3
action 7
attempt 1 1000 failed 1000 - 0 0 3
attempt 2 1060 running - - - - -
pending 7
report 2
computer pc1
seq 2
row 7 1 failed 1000 1000 0 0 3
end
end
"""


def cut_texts(each=True):
    rows = [checked(f"a site's {len(text)} bytes", text, f"20 line {line}\n".encode()) for text, line in cuts(content.SITE, each)]
    rows += [described(f"a world's {len(text)} bytes", text, line) for text, line in cuts(content.MACHINE, each)]
    rows += [played(f"{len(text)} bytes", text, line) for text, line in cuts(office.TEXT, each)]
    return rows + [Pocket(f"{len(text)} bytes", text, line) for text, line in cuts(SAVED, each)]


# ---- conversations, each with its answer, or none

def get(path, *fields, version="1.1"):
    return "\r\n".join([f"GET {path} HTTP/{version}", *fields, "", ""]).encode()


def padded(size):
    """A request whose head has so many bytes."""
    return get("/sites", "Host: desk", "A: " + "a" * (size - len(get("/sites", "Host: desk", "A: "))))


def post(path, length, body=b""):
    return f"POST {path} HTTP/1.1\r\nHost: desk\r\nContent-Length: {length}\r\n\r\n".encode() + body


def large_action(size):
    """An action with so many bytes in `actionsite`, where it is stopped."""
    text = content.action(7, 1, "TARGETS", "0 0")
    left = size - len(text) - len("stopped") + len("open") + len("target TARGETS\n")
    lines = ["target computer " + "n" * 64] * (left // 81 - 1)
    left -= 81 * len(lines)
    # names have at most 64 bytes
    names = [left - 17] if left <= 81 else [min(64, left - 35), max(1, left - 98)]
    lines += ["target computer " + "n" * size for size in names]
    return text.replace(b"target TARGETS", "\n".join(lines).encode())


def conversations(each=True):
    """What clients say, each with the status and body of the answer, or None where there is none."""
    last = LAST_ID
    full = b"full 4194304\n"
    one_more = large_action(SITE - len("site actionsite \n") - 16 - len("digest \n") - 64 + 1)
    rows = [(said_by(("POST", "/sites", content.SITE)), (200, b"ok\n"))]
    rows += [(get("/sites", "Host: desk"), (200, b"desk 1\n")), (padded(16_384), (200, b"desk 1\n")), (padded(16_385), BAD_REQUEST)]
    rows += [(b"GET /sites HTTP/1.1\r\nA: ".ljust(16_385, b"a"), BAD_REQUEST)]
    rows += [(get("/sites", "Host: desk", *["A: a"] * many), answer) for many, answer in ((63, (200, b"desk 1\n")), (64, BAD_REQUEST))]
    rows += [(get("/sites", "Host: desk", *fields), BAD_REQUEST) for fields in (
        ["Content-Length: 0", "Content-Length: 0"], ["Content-Length: 00"], ["Content-Length: +0"], ["Content-Length: "],
        ["Content-Length: 0, 0"], ["Transfer-Encoding: chunked"], ["Host: desk"])]
    rows += [(get("/sites"), BAD_REQUEST), (get("/sites", version="1.0"), (200, b"desk 1\n")), (b"", None)]
    rows += [(get(path, "Host: desk"), NO_SUCH) for path in (
        f"/files/{'0' * 63}", f"/files/{'0' * 65}", f"/files/{'A' * 64}", "/site", "/sites/", "/sites?", f"/sites/desk/{last + 1}",
        "/sites/desk/01")]
    rows += [(get(f"/sites/desk/{last}", "Host: desk"), (200, b"same\n"))]
    rows += [(post("/reports", 65_537), TOO_LONG), (post("/reports", 65_536), BAD_REQUEST), (post("/nowhere", 65_537), NO_SUCH)]
    rows += [(post("/reports", 65_536, b"x" * 65_536), (400, b"bad text 1\n")), (post("/files", "9" * 40), TOO_LONG)]
    rows += [(post("/files", SITE + 1), TOO_LONG), (post("/actions", len(one_more), one_more), (507, full))]
    many = [f"row {number} 1 fixed 1 1" for number in range(1, 502)]
    rows += [(request("POST", "/reports", report(1, *many)), (400, b"bad text 504\n"))]
    rows += [(request("POST", "/reports", report(1, *many[:-1])), (200, b"ok\n"))]
    rows += [(request("POST", "/reports", report(last, computer="n" * 64)), (200, b"ok\n"))]
    rows += [(request("POST", "/reports", report(last + 1)), (400, b"bad text 3\n"))]
    rows += [(request("POST", "/reports", report(1, computer="n" * 65)), (400, b"bad text 2\n"))]
    for path, text in (("/reports", ONE), ("/actions", content.ACTIONS[7])):
        rows += [(request("POST", path, cut), (400, f"bad text {line}\n".encode())) for cut, line in cuts(text, each)]
    rows += [(front, BAD_REQUEST) for front in fronts(request("POST", "/reports", ONE), each)[1:]]
    exact = large_action(SITE - len("site actionsite \n") - 16 - len("digest \n") - 64)
    return rows + [(request("POST", "/actions", exact), (200, b"ok\n"))]


def full_tables():
    """As many sites and files as are kept, and one more of each; what is kept is answered as before."""
    sites = [sealed(f"site s{number} 1\n".encode()) for number in range(LIMITS["sites"] + 1)]
    files = [str(number).encode() for number in range(LIMITS["files"] + 1)]
    rows = [(request("POST", "/sites", text), (200, b"ok\n")) for text in sites[:-1]]
    rows += [(request("POST", "/sites", sites[-1]), (507, b"full 100\n")), (request("POST", "/sites", sites[0]), (200, b"again\n"))]
    rows += [(request("POST", "/files", body), (200, f"ok {sha256(body)}\n".encode())) for body in files[:-1]]
    rows += [(request("POST", "/files", files[-1]), (507, b"full 500\n"))]
    return rows + [(request("POST", "/files", files[0]), (200, f"ok {sha256(files[0])}\n".encode()))]


class HostileTalks(Command):
    """Conversations in one run of `serve`."""

    def __init__(self, name, rows):
        self.rows = rows
        said = "".join("closed\n" if answer is None else f"answered {answer[0]}\n" for _, answer in rows)
        super().__init__(name, ["serve", "8080", "k", str(len(rows))], said=said.encode())

    def devices(self, choice, sound):
        return [*super().devices(choice, sound), door(said for said, _ in self.rows)]

    def judge(self, ran, choice, sound):
        wanted = [b"" if answer is None else response(answer) for _, answer in self.rows]
        complaints = [f"to {said[:60]!r} of {len(said)} bytes: {seen!r}, not {it!r}"
                      for (said, _), seen, it in zip(self.rows, ran.talks, wanted) if seen != it]
        return super().judge(ran, choice, sound) + complaints


def asking(commands, count):
    """What asks commands over so many texts."""
    def ask(program):
        complaints = []
        for command in commands:
            ran = program.run(command.words, command.devices(Choice(), None), Choice())
            complaints += [f"{command.name}: {it}" for it in command.judge(ran, Choice(), None)]
        return f": {count}", count, complaints
    return ask


def tables(each):
    """The tables of texts: what they are called and what asks them. They are cut at each byte and some are large, or they are cut at the
    ends of lines."""
    def some(rows, text):
        return [row for row in rows if each or len(text(row)) < MANY]

    of_commands = {"large and odd texts": some(texts(), lambda it: it.source), "pockets": some(pockets(), lambda it: it.text),
                   "texts that are cut": cut_texts(each)}
    talks = {"conversations": some(conversations(each), lambda it: it[0]), "full tables": full_tables()}
    asked_lines = some(QUESTIONS, lambda it: it[0]) + LONG_LINES * each
    questions = HostileQuestions(LONG_MACHINE if each else session.MACHINE, asked_lines)
    return [("questions", asking([questions], questions.count)),
            *((name, asking(commands, len(commands))) for name, commands in of_commands.items()),
            *((name, asking([HostileTalks(name, rows)], len(rows))) for name, rows in talks.items())]
