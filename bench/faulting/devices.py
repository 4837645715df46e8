"""What a run of an agent or a relay is to ask of its devices, in its order, and what they answer: some calls fail, and the calls are
kept."""
import copy

from faulting.content import LookFailed
from faulting.server import response

# how a call fails: nothing of it is done, all of it is done, or the first half of what it writes is written
NOTHING, ALL, HALF = range(3)
DEVICES = ["source", "sink", "clock", "machine", "pocket", "keeper", "door", "link"]


class Choice:
    """The calls that fail: the n-th of a device; or all from the n-th of all devices on."""

    def __init__(self, device=None, number=0, way=NOTHING, onwards=False):
        self.device, self.number, self.way, self.onwards = device, number, way, onwards
        self.made = dict.fromkeys([*DEVICES, None], 0)
        self.hits = 0

    def fails(self, device):
        """Counts a call of a device. Whether it is to fail."""
        self.made[device] += 1
        self.made[None] += 1
        number = self.made[None] if self.onwards else self.made[self.device] if device == self.device else 0
        hit = 0 < self.number <= number if self.onwards else 0 < self.number == number
        self.hits += hit
        return hit

    def spelled(self):
        """The line that tells it to the program of bench/faults_program."""
        if not self.number:
            return "sound"
        return f"stop {self.number} {self.way}" if self.onwards else f"fail {DEVICES.index(self.device)} {self.number} {self.way}"


class Devices:
    """Devices of an agent or a relay, over an upstream that is a `Server`. The world is the set of its paths that matter."""

    def __init__(self, choice, upstream, moments, world, pocket):
        self.choice, self.upstream, self.moments, self.world = choice, upstream, list(moments), world
        self.pocket = pocket  # the saved text and the state that it spells, or None and None
        self.calls, self.replies, self.written, self.supplied = [], [], b"", None

    def begin(self, device, call, about, answer):
        """Keeps a call. Whether it succeeds."""
        failing = self.choice.fails(device)
        self.calls.append((device, call, about, "failed" if failing else answer))
        return not failing

    def load(self):
        loaded = self.begin("pocket", "load", b"", "nothing" if self.pocket[0] is None else "saved")
        return loaded, copy.deepcopy(self.pocket[1])

    def save(self, text, state):
        saved = self.begin("pocket", "save", text, "done")
        if saved or self.choice.way == ALL:
            self.pocket = text, state
        return saved

    def now(self):
        return self.moments.pop(0) if self.begin("clock", "now", b"", "moment") else None

    def look(self, key):
        if not self.begin("machine", "look", key.encode(), "done"):
            raise LookFailed

    def act(self, words, made):
        """Does a command, which makes a path or changes nothing that matters."""
        acted = self.begin("machine", "act", words.encode() + b"\n", "done")
        if made and (acted or self.choice.way == ALL):
            self.world.add(made)
        return acted

    def poll(self, answer):
        return self.begin("machine", "poll", b"", answer)

    def exchange(self, method, path, asked, body):
        """The upstream's answer. Where the link fails, the request has come to the upstream or not."""
        replied = self.begin("link", "exchange", asked, "reply")
        if replied or self.choice.way == ALL:
            answer = self.upstream.answer(method, path, body)
        if not replied:
            return None
        self.replies.append(response(answer))
        return answer

    def pause(self):
        self.calls.append(("link", "pause", b"", "done"))

    def write(self, lines):
        piece = "".join(line + "\n" for line in lines).encode()
        wrote = self.begin("sink", "write", piece, "done")
        ways = {NOTHING: b"", ALL: piece, HALF: piece[:len(piece) // 2]}
        self.written += piece if wrote else ways[self.choice.way]
        return wrote
