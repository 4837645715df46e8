"""A run of each command in which one allocation is refused, each in turn, over devices in memory. Such a run ends with status 9, or with
what a device in memory makes of it that can't grow, which is a fault of that device; or it comes to the same, where memory isn't needed."""
import collections

from faulting import commands
from faulting.devices import Choice
from faulting.program import door, told, words_line
from faulting.rules import failed_calls, status_of
from faulting.server import Server, response

NAMES = ["--help", "make 2", "check", "qna --world", "qna", "office", "serve, each conversation", "relay", "agent"]
NO_MEMORY = response((503, b"memory\n"))
FAULT = b"door fault\n"


def rows():
    """The runs that are done where nothing is refused."""
    return [command for command in commands.all_commands() if command.name in NAMES]


class Row:
    """Runs of a command in a copy of the program that refuses an allocation."""

    def __init__(self, command, program, refusing):
        self.command, self.refusing = command, refusing
        self.devices = command.devices(Choice(), None)
        self.sound = program.run(command.words, self.devices, Choice())
        self.saved = [None, *(it.about for it in self.sound.calls if (it.device, it.name) == ("pocket", "save"))]
        self.before = self.allocations("words")
        self.most = self.allocations("count")

    def asked(self, word):
        """What is given to the program to make the devices and run the words, and what is kept asked then."""
        # a line takes as much memory as its length, so each word is followed by blanks, which are none
        lines = ["quiet", *self.devices, words_line(word, self.command.words) + " " * (8 - len(word)), "over"]
        if isinstance(self.command, commands.Serve):
            again = commands.AGAIN
            lines += ["sink", door(map(commands.said_by, again)), words_line("run", ["serve", "8080", "k", str(len(again))]), "over"]
        return "".join(f"{line}\n" for line in lines).encode()

    def allocations(self, word):
        """How many allocations there are up to the end of a line of this word, which tells nothing: a line behind it takes one, and is
        answered up to the one that is refused."""
        given, number = self.asked(word).partition(b"\nover\n")[0] + b"\n", 1000
        while True:
            written, _, status = self.refusing.run(number, given + b"over\n" * number)
            if status and written:
                return number - 1 - written.count("over\n")
            number *= 4

    def ran(self, number):
        """How a run ended to which this allocation was refused, and what is not so of it."""
        written, errors, status = self.refusing.run(number, self.asked("run"))
        if status or not written.endswith("over\n"):
            return "no end", [f"the program ends with {status}: {errors[-300:]}"]
        lines = iter(written.splitlines())
        ran = told(lines)
        complaints = self.judge(ran)
        if isinstance(self.command, commands.Serve):
            complaints += self.judge_kept(ran, told(lines))
        failed = failed_calls(ran)
        return f"status {ran.status}" + (f", {failed[0].device} {failed[0].name}" if failed else ""), complaints

    def judge(self, ran):
        """Want of memory is told by status 9, or by a fault of a device, with its status where it has one; what is written is a front."""
        failed = failed_calls(ran)
        wanted = [9] if any(it.answer == "memory" for it in ran.calls) else [status_of(failed[0]) or 0] if failed else [9, 0]
        complaints = [] if ran.status in wanted else [f"status {ran.status}, not {wanted}"]
        if len(failed) > 1 or failed and failed[0].device not in ("sink", "door"):
            complaints.append(f"other calls failed: {failed}")
        if ran.pocket not in self.saved or not ran.status and ran.pocket != self.sound.pocket:
            complaints.append(f"the pocket has {ran.pocket!r}")
        return complaints + (self.judge_whole(ran, failed) if ran.status == 0 else self.judge_front(ran))

    def judge_front(self, ran):
        """What was written, and to each client, is what it is where nothing is refused, but for the end, where a client may be told."""
        complaints = [] if self.sound.sink.startswith(ran.sink) else [f"written {ran.sink!r}, no front"]
        begun = len(ran.talks)
        if ran.talks[:begun - 1] != self.sound.talks[:max(begun - 1, 0)]:
            complaints.append("another answer")
        if begun and ran.talks[-1] != NO_MEMORY and not self.sound.talks[begun - 1].startswith(ran.talks[-1]):
            complaints.append(f"the last answer is {ran.talks[-1]!r}")
        return complaints

    def judge_whole(self, ran, failed):
        """The same comes of it, but for the conversation whose door failed."""
        lines, wanted = ran.sink.splitlines(True), self.sound.sink.splitlines(True)
        other = [(one, it) for one, it in zip(lines, wanted) if one != it]
        complaints = [] if len(lines) == len(wanted) and [one for one, _ in other] == [FAULT] * len(failed) else [f"written {other}"]
        cut = [(seen, it) for seen, it in zip(ran.talks, self.sound.talks) if seen != it]
        if len(ran.talks) != len(self.sound.talks) or len(cut) > len(failed) or any(not it.startswith(seen) for seen, it in cut):
            complaints.append(f"answered {cut}")
        return complaints

    def judge_kept(self, ran, again):
        """What is kept is what it is behind the requests that were answered, and perhaps the one that was not."""
        whole = sum(seen == it for seen, it in zip(ran.talks, self.sound.talks)) if ran.status else len(self.sound.talks)
        wanted = []
        for accepted in (whole, whole + 1):
            server = Server()
            for asked in self.command.asked[:accepted]:
                if not isinstance(asked, bytes):
                    server.answer(*asked)
            wanted.append([response(server.answer(*asked)) for asked in commands.AGAIN])
        return [] if again.talks in wanted else ["something else is kept"]


def tried(row, every):
    """Refuses each of the row's allocations in turn, or one of so many. How the runs ended, and what is not so."""
    seen, complaints = collections.Counter(), []
    for number in range(row.before + 1, row.most + 1, every):
        end, told_of_it = row.ran(number)
        seen[end] += 1
        complaints += [f"allocation {number - row.before}: {it}" for it in told_of_it]
    return seen, complaints
