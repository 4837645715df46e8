"""What lines of questions are to print and to look up, where one look or none fails, written from docs/LANGUAGE.md and docs/SESSION.md:
each question is told by the trace of its list meaning, worked out by hand, page by page where it is so asked."""

# the machine that is asked
MACHINE = b"""world
name pc1
system 12.4 Debian
offset 0
moment 0
folder /b
file 10 /b/a
file 20 /b/b
| xy
package 1.0 agentd
process sshd
setting 5 rack 7
end
"""

CANNOT = "The machine could not answer."


def look(key, place):
    return "look", key, place


def give(text):
    return "give", text, ""


def error(text, place):
    return "error", text, place


FOLDER = look("stat /b", "(18..29)")
SIZES = [FOLDER, look("list /b", "(9..14)"), look("stat /b/a", "(0..5)"), give("0"), look("stat /b/b", "(0..5)"), give("3")]
NONEXISTENT = "Singular expression refers to nonexistent object."

# each line with its trace, or none where it is a command
LINES = [
    ("1 + 1", [give("2")]),
    ('sizes of files of folder "/b"', SIZES),
    # a look that fails is no False, no value that isn't there, and nothing that a bar catches
    ('exists size of file "/no"', [look("stat /no", "(15..25)"), give("False")]),
    ('size of file "/no" | 7', [look("stat /no", "(8..18)"), give("7")]),
    ('size of file "/no"', [look("stat /no", "(8..18)"), error(NONEXISTENT, "(8..18)")]),
    ('names of files whose (size of it = 3) of folder "/b"',
     [look("stat /b", "(41..52)"), look("list /b", "(9..14)"), look("stat /b/a", "(22..26)"), look("stat /b/b", "(22..26)"), give("b")]),
    ('exists (1; size of file "/b/b")', [give("True")]),
    ('line 1 of file "/b/b"', [look("stat /b/b", "(10..21)"), look("read /b/b", "(0..6)"), give("xy")]),
    ("name of operating system", [look("system", "(8..24)"), give("Debian")]),
    ("computer name", [look("name", "(0..13)"), give("pc1")]),
    ("names of processes", [look("processes", "(9..18)"), give("sshd")]),
    ("names of packages", [look("packages", "(9..17)"), give("agentd")]),
    ("names of settings of client", [look("settings", "(9..17)"), give("rack")]),
    (":page 1", None),
    ('sizes of files of folder "/b"', SIZES),
    ("2", [give("2")]),
    (":more", None),
    (":more", None),
    (":more", None),
    (":more", None),
    (":page 01", None),
    ("1 +", [error("This expression could not be parsed.", "(3..3)")]),
    ("", [error("This expression could not be parsed.", "(0..0)")]),
]


COMPUTERS = [look("list", "(9..22)"), give("pc1"), give("pc2")]

# the same over what a server kept of two computers, two actions and a site: each look is a call of the keeper, but the entries of a
# computer are two
KEPT_LINES = [
    ("names of bes computers", COMPUTERS),
    ("names of bes sites", [look("versions", "(9..18)"), give("desk")]),
    ("names of bes actions", [look("list", "(9..20)"), give("7"), give("8")]),
    ('exists bes computer "pc3"', [look("get", "(7..25)"), give("False")]),
    ('status of result "7" of bes computer "pc2"',
     [look("get", "(24..42)"), look("get", "(10..20)"), look("get", "(0..6)"), give("fixed")]),
    ("statuses of results of bes computers",
     [look("list", "(23..36)"), look("get", "(12..19)"), look("results", "(12..19)"), look("get", "(0..8)"), give("running"),
      look("get", "(12..19)"), look("results", "(12..19)"), look("get", "(0..8)"), give("fixed"), look("get", "(0..8)"), give("failed")]),
    (":page 1", None),
    ("names of bes computers", COMPUTERS),
    (":more", None),
]


class Session:
    """A run over lines in which the look of this number fails, counted from 1, or none."""

    def __init__(self, failing=0):
        self.failing, self.page, self.paused = failing, 0, []
        self.looks, self.moments, self.said = [], 0, []

    def tell(self, trace, at):
        """Tells a trace from this event on, up to its end or the end of the page."""
        given = 0
        for number in range(at, len(trace)):
            kind, text, place = trace[number]
            if kind == "look":
                self.looks.append(text)
                if len(self.looks) == self.failing:
                    self.say(f"E: {CANNOT} {place}")
                    return
            elif kind == "error":
                self.say(f"E: {text} {place}")
            else:
                self.say(f"A: {text}")
                given += 1
                if given == self.page:
                    self.say("M: more")
                    self.paused.append((trace, number + 1))
                    return

    def say(self, line):
        self.said[-1] += line + "\n"

    def line(self, text, trace):
        self.said.append(f"Q: {text}\n")
        if trace is not None:
            self.moments += 1
            self.tell(trace, 0)
        elif text == ":more" and self.paused:
            self.tell(*self.paused.pop())
        elif text == ":more":
            self.say("E: Nothing is paused.")
        elif text == ":page 1":
            self.page = 1
        else:
            self.say("E: This is no command.")


def played(lines, failing=0):
    """The run over these lines: what is said of each, and the keys that are looked up, the failed one among them."""
    session = Session(failing)
    for text, trace in lines:
        session.line(text, trace)
    return session


def source(lines):
    """The lines as they are read."""
    return "".join(text + "\n" for text, _ in lines).encode()
