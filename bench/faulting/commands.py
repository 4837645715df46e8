"""A run of each command, and what it is to do where one call of a device fails. Of each there is what is made for a run (`devices`), and
what is not so of one that was made (`judge`)."""
import os

from faulting import content, office, session
from faulting.agent import run_agent
from faulting.devices import DEVICES, Choice, Devices
from faulting.program import clock, digits, door, link, pocket
from faulting.relay import Relay
from faulting.rules import judge, judge_calls, judge_steps, judge_written
from faulting.server import KEEPER_FAULT, Server, request, response, sealed


class Command:
    """A run of words over bare devices that ends so and says this."""

    failing = DEVICES  # the devices whose calls fail in turn

    def __init__(self, name, words, source=b"", status=0, said=b""):
        self.name, self.words, self.source, self.status, self.said = name, words, source, status, said

    def devices(self, choice, sound):
        """The lines that make the devices. `sound` is the run of which nothing failed, or None before it."""
        return [f"source {digits(self.source)}", "sink", clock([]), pocket(None), "keeper", door([]), link([])]

    def judge(self, ran, choice, _sound):
        return judge(ran, choice, self.status) + judge_written(ran, self.said)

    def begin(self, _program):
        """Does what has to be done once, before the first run."""

    def look_again(self, _program):
        """What is not so of what is kept behind a run."""
        return []


class Questions(Command):
    """`qna` over a machine and a clock."""
    lines = session.LINES

    def __init__(self, name, words):
        super().__init__(name, words, session.source(self.lines))

    def devices(self, choice, sound):
        moments = range(1000, 1000 + len(self.lines))
        return [*super().devices(choice, sound), f"machine {digits(session.MACHINE)}", clock(moments)]

    def failing_look(self, choice):
        """The number of the look that fails, or 0."""
        return choice.number if choice.device == "machine" else 0

    def looked_up(self, ran):
        return [it.about.decode() for it in ran.calls if it.device == "machine"]

    def judge(self, ran, choice, _sound):
        """A look that fails is told at its place, and the lines behind it are asked all the same. Up to a fault of the sink or the clock
        the run is the one of which nothing failed; and where the clock failed, the lines before the one that asked it were written."""
        played = session.played(self.lines, self.failing_look(choice))
        keys = self.looked_up(ran)
        whole = ran.status == 0
        complaints = judge(ran, choice, 0) + judge_written(ran, "".join(played.said).encode())
        if keys != (played.looks if whole else played.looks[:len(keys)]):
            complaints.append(f"looked up {keys}")
        asked = sum(it.device == "clock" for it in ran.calls)
        if whole and asked != played.moments:
            complaints.append(f"{asked} moments, not {played.moments}")
        if ran.status == 5:
            questions = [number for number, (_, trace) in enumerate(self.lines) if trace is not None]
            least = "".join(played.said[:questions[asked - 1]]).encode()
            if not ran.sink.startswith(least):
                complaints.append(f"written {ran.sink!r}, less than {least!r}")
        return complaints


class Office(Command):
    """`office`: what is printed of a word is written as one piece, when it was played."""
    pieces = ["".join(f"{line}\n" for line in lines).encode() for lines in office.PRINTED if lines]

    def __init__(self):
        super().__init__("office", ["office"], office.TEXT, said=b"".join(self.pieces))

    def judge(self, ran, choice, sound):
        """Whole words are written, and a front of the next one."""
        pieces = [it.about for it in ran.calls if it.device == "sink" and it.about]
        complaints = [] if pieces == self.pieces[:len(pieces)] else [f"the pieces {pieces!r} are no words"]
        return super().judge(ran, choice, sound) + complaints


def report(number, *rows, computer="pc1"):
    return "".join(f"{line}\n" for line in ("report 1", f"computer {computer}", f"seq {number}", *rows, "end")).encode()


ONE = report(1, "row 7 1 running 1000 -")
OTHER_SITE = content.SITE.replace(b"Put abc", b"Put it")[:-len(b"digest \n") - 64]
# what clients say in turn: a method, a path and a body; or bytes as they are, with their refusal
ASKED = [
    ("GET", "/sites"), ("GET", "/sites/actionsite/0"), ("POST", "/sites", content.SITE), ("POST", "/sites", content.SITE),
    ("POST", "/sites", sealed(OTHER_SITE)), ("POST", "/sites", b"sit\n"), ("POST", "/actions", content.ACTIONS[7]),
    ("POST", "/actions", content.ACTIONS[7]), ("POST", "/actions", content.action(7, 2, "all", "0 0")),
    ("POST", "/actions", content.ACTIONS[8]), ("POST", "/files", b"abc"), ("POST", "/files", b"abc"), ("GET", f"/files/{content.ABC}"),
    ("POST", "/actions/8/stop"), ("POST", "/actions/8/stop"), ("POST", "/actions/9/stop"), ("POST", "/reports", ONE),
    ("POST", "/reports", ONE), ("POST", "/reports", report(1)), ("POST", "/reports", report(3, "row 7 1 fixed 1000 1010")),
    ("POST", "/reports", report(2, "row 7 1 failed 1000 1005")), ("GET", "/results/pc1"), ("GET", "/results/pc2"),
    ("GET", "/sites/actionsite/2"), ("GET", "/sites/actionsite/3"), ("GET", "/sites/desk/1"), b"", b"GET / HTTP/1.1\r\n\r\n",
    ("GET", "/sites"),
]
# some of each sort: what changes tables, what asks, what is refused, and nothing
TALKS = [("POST", "/sites", content.SITE), ("POST", "/actions", content.ACTIONS[7]), ("POST", "/reports", ONE), ("GET", "/sites/desk/0"),
         b"GET / HTTP/1.1\r\n\r\n", ("POST", "/files", b"abc"), b"", ("GET", "/results/pc1")]
# with these all that is kept is asked, and each key once more
AGAIN = [("GET", "/sites"), ("GET", "/sites/actionsite/0"), ("GET", "/sites/desk/0"), ("GET", f"/files/{content.ABC}"),
         ("GET", "/results/pc1"), ("POST", "/reports", ONE), ("POST", "/reports", report(2)), ("POST", "/reports", report(3)),
         ("POST", "/actions", content.ACTIONS[7]), ("POST", "/actions/8/stop"), ("GET", "/sites")]
NO_SUCH = (404, b"no such\n")


def said_by(asked):
    """What a client says that asks this."""
    return asked if isinstance(asked, bytes) else request(*asked)


def conversation_of(calls, number, device):
    """The conversation, counted from 0, in which the n-th call of a device stands in a run, or which it begins, and that call; -1 is before
    the first. None where the run has no such call."""
    begun = made = 0
    for call in calls:
        begun += (call.device, call.name) == ("door", "next")
        if call.device == device and call.name not in ("close", "pause"):
            made += 1
            if made == number:
                return begun - 1, call
    return None


def judge_talks(ran, talks, found):
    """What was written to each client is its response, and a front of it where the door failed while it was written."""
    complaints = [] if len(ran.talks) == len(talks) else [f"{len(ran.talks)} conversations, not {len(talks)}"]
    for number, (seen, wanted) in enumerate(zip(ran.talks, talks)):
        cut = found and number == found[0] and (found[1].device, found[1].name) == ("door", "write")
        if not (wanted.startswith(seen) if cut else seen == wanted):
            complaints.append(f"conversation {number}: {seen!r}, not {wanted!r}")
    return complaints


class Serve(Command):
    """`serve`, and a second run over what the first one kept."""

    def __init__(self, name, asked, failing):
        super().__init__(name, ["serve", "8080", "k", str(len(asked))])
        self.asked, self.failing = asked, failing

    def devices(self, choice, sound):
        return [*super().devices(choice, sound), door(map(said_by, self.asked))]

    def judge(self, ran, choice, sound):
        """Of each conversation the response and its line. One in which the keeper failed is a 500, and nothing of it is kept. One in which
        the door failed while it was read is not heard; where it failed while the response was written, a front of that was."""
        self.server = Server(bad={b"sit\n": 1})
        found = conversation_of(sound.calls, choice.number, choice.device) if sound and choice.number else None
        fault, call = found or (None, None)
        talks, lines = [], []
        for number, asked in enumerate(self.asked):
            failed = call.name if number == fault and call.device in ("keeper", "door") else None
            if failed == "next" or (fault == -1 and call.device in ("keeper", "door")):
                break
            if failed == "read":
                talks.append(b""), lines.append("door fault")
                continue
            answer = (KEEPER_FAULT if failed and call.device == "keeper" else (400, b"bad request\n") if isinstance(asked, bytes)
                      else self.server.answer(*asked))
            talks.append(b"" if asked == b"" else response(answer))
            lines.append("closed" if asked == b"" else "door fault" if failed == "write" else f"answered {answer[0]}")
            if call and call.device == "sink" and number == choice.number - 1:
                break
        return judge(ran, choice, 0) + judge_steps(ran, [[line] for line in lines]) + judge_talks(ran, talks, found)

    def look_again(self, program):
        """What is kept, as a second run over the same keeper tells it."""
        words = ["serve", "8080", "k", str(len(AGAIN))]
        ran = program.run(words, ["sink", door(map(said_by, AGAIN))], Choice())
        wanted = [response(self.server.answer(*asked)) for asked in AGAIN]
        complaints = [f"kept: {seen!r}, not {it!r}" for seen, it in zip(ran.talks, wanted) if seen != it]
        return complaints if ran.status == 0 else [*complaints, f"status {ran.status} of a second run"]


KEPT = [("POST", "/sites", content.SITE), ("POST", "/actions", content.ACTIONS[7]), ("POST", "/actions", content.ACTIONS[8]),
        ("POST", "/reports", ONE), ("POST", "/reports", report(1, "row 7 1 fixed 1000 1010", "row 8 1 failed 1000 1005", computer="pc2"))]


class SessionRun(Questions):
    """`session` over what a server kept, which it is told once."""
    lines = session.KEPT_LINES

    def begin(self, program):
        program.run(["serve", "8080", "k", str(len(KEPT))], ["sink", "keeper", door(map(said_by, KEPT))], Choice())

    def devices(self, choice, sound):
        return [it for it in super().devices(choice, sound) if it != "keeper"]

    def failing_look(self, choice):
        """Before the first look the keeper is opened."""
        return max(choice.number - 1, 0) if choice.device == "keeper" else 0

    def looked_up(self, ran):
        return [it.name for it in ran.calls if it.device == "keeper"][1:]


TWO = report(2, "row 7 1 fixed 1000 1010")
# what clients say to a relay in turn
RELAYED = [("GET", "/sites"), ("POST", "/reports", ONE), ("POST", "/reports", ONE), ("POST", "/reports", report(1)),
           ("GET", f"/files/{content.ABC}"), ("GET", f"/files/{'0' * 64}"), ("GET", "/sites/desk/0"), ("GET", "/sites/actionsite/2"),
           ("POST", "/actions", content.ACTIONS[7]), b"", ("POST", "/reports", TWO), ("GET", "/sites")]


class RelayRun(Command):
    """`relay`, over an upstream that has a site, a file and actions."""

    def __init__(self):
        super().__init__("relay", ["relay", "8081", "u", str(len(RELAYED))])

    def devices(self, choice, sound):
        """The run by its rules is played first, since the link has to be given the replies to what is asked."""
        self.found = conversation_of(sound.calls, choice.number, choice.device) if sound and choice.device == "door" else None
        self.played, self.talks = Devices(choice, Agent.upstream(), [], set(), (None, None)), []
        self.steps = [[]]
        self.play(Relay(self.played))
        return [*super().devices(choice, sound), door(map(said_by, RELAYED)), link(self.played.replies)]

    def play(self, relay):
        """An upstream round, and then conversations with a round after each, up to the one that ends the run."""
        fault, call = self.found or (None, None)
        if fault == -1 or not self.say(relay.round()):
            return
        for number, asked in enumerate(RELAYED):
            failed = call.name if number == fault else None
            if failed == "next":
                return
            line = "door fault" if failed else "closed"
            self.talks.append(b"")
            if asked != b"" and failed != "read":
                answer = relay.answer(*asked)
                self.talks[-1] = response(answer)
                line = line if failed else f"answered {answer[0]}"
            if not (self.say([line]) and self.say(relay.round())):
                return

    def say(self, lines):
        """Whether the lines of a step were written."""
        self.steps.append(lines)
        return self.played.write(lines)

    def judge(self, ran, choice, _sound):
        """The requests are those of the rules, in their order, and so are the responses and the lines."""
        return (judge(ran, choice, 0) + judge_calls(ran, self.played.calls, ["link"]) + judge_steps(ran, self.steps)
                + judge_talks(ran, self.talks, self.found))


class Agent(Command):
    """`agent`, which begins an action that wants a file and waits, and then another one."""
    MOMENTS = [1000, 1030, 1065, 1130, 1200, 1300]

    def __init__(self, *second):
        words = ["agent", "u", "p", "w", "pc1", "0", str(len(self.MOMENTS)), *second]
        super().__init__("agent with a second upstream" if second else "agent", words)
        self.has_second = bool(second)

    @staticmethod
    def upstream():
        """A server with the site, the file and the actions."""
        server = Server()
        for path, body in (("/sites", content.SITE), ("/files", content.FILE), *(("/actions", it) for it in content.ACTIONS.values())):
            server.answer("POST", path, body)
        return server

    def play(self, choice, world, saved, moments, upstream):
        """What a run is to do, by its own devices, and its status."""
        devices = Devices(choice, upstream, moments, world, saved)
        return devices, run_agent("pc1", devices, len(moments), self.has_second)

    def devices(self, choice, sound):
        self.plays = self.play(choice, set(), (None, None), self.MOMENTS, self.upstream())
        return [*super().devices(choice, sound), f"machine {digits(content.MACHINE)}", clock(self.MOMENTS), link(self.plays[0].replies)]

    def judge(self, ran, choice, _sound):
        """Every call, every line and the saved text are those of the rules."""
        return self.judge_play(ran, choice, *self.plays)

    @staticmethod
    def judge_play(ran, choice, devices, status):
        complaints = judge(ran, choice, status)
        complaints += judge_calls(ran, devices.calls, ["pocket", "machine", "clock", "link", "sink"])
        if ran.sink != devices.written:
            complaints.append(f"written {ran.sink!r}, not {devices.written!r}")
        if ran.pocket != devices.pocket[0]:
            complaints.append(f"the pocket has {ran.pocket!r}, not {devices.pocket[0]!r}")
        return complaints


WORLD = session.MACHINE.replace(b"setting 5 rack 7\n", b"")
USAGE = b"usage: desk --help\n"


def example(name):
    """What an example is to be answered."""
    with open(os.path.join(os.path.dirname(__file__), "..", "..", "examples", name), "rb") as file:
        return file.read()


def all_commands():
    """A run of each command, and of each way in which one refuses."""
    return [
        Command("--help", ["--help"], said=example("help.out")),
        Command("no command", ["qna", "qna"], status=1, said=USAGE),
        Command("make 2", ["make", "2"], said=example("make.out")),
        Command("check", ["check"], content.SITE, said=b"ok 2 0\n"),
        Command("check, refused", ["check"], b"sit desk 1\n", 2, b"20 line 1\n"),
        Command("qna --world", ["qna", "--world"], WORLD + b"1 + 1\ncomputer name\n", said=b"Q: 1 + 1\nA: 2\nQ: computer name\nA: pc1\n"),
        Command("qna --world, refused", ["qna", "--world"], WORLD[6:], 2, b"bad line 1\n"),
        Office(), Command("office, refused", ["office"], office.TEXT[:-len(b"end\n")], 2, b"bad line %d\n" % office.TEXT.count(b"\n")),
        Questions("qna", ["qna"]), SessionRun("session", ["session", "k"]), Command("session, refused", ["session", ""], status=1, said=USAGE),
        Serve("serve, each request", ASKED, ["keeper"]), Serve("serve, each conversation", TALKS, ["sink", "keeper", "door"]),
        RelayRun(), Agent(), Agent("v"),
    ]
