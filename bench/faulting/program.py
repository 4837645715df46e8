"""The program of bench/faults_program, which runs the desk over devices in memory: how it is made, how it is told what to run, and what it
tells."""
import collections
import glob
import hashlib
import os
import subprocess
import sys
import tempfile

from workspace import HERE, LOADER, NAME, NEVER, TOP, below, crate, kept, with_wrong_body

Call = collections.namedtuple("Call", "device name about answer")
Ran = collections.namedtuple("Ran", "status sink pocket talks calls")
# a text of more bytes is told by what is repeated in it
LARGE = 20_000


def make(program, edits=()):
    """Makes the program unproved, of the sources with these wrong bodies, and puts it there."""
    with tempfile.TemporaryDirectory(dir=os.path.dirname(program)) as room:
        stands_on = dict.fromkeys([*below("desk_top", "turn_lines"), "desk_top", "turn_lines", "hex"])
        folder = crate(room, "faults_bench", "faults_program", stands_on)
        for edit in edits:
            with_wrong_body(room, edit)
        new = os.path.join(room, "program")
        written = kept(folder, new, "--fail-alloc", str(NEVER))
        if not os.path.exists(new):
            sys.exit(f"bench/{NAME}: the program isn't made\n{written[-3000:]}")
        os.replace(new, program)


def made():
    """The program, which is made where bin/faults isn't of these sources."""
    program, of = (os.path.join(TOP, "bin", name) for name in ("faults", "faults.sources"))
    sources = subprocess.run([os.path.join(TOP, "build"), "--sources"], stdout=subprocess.PIPE, check=True).stdout
    for file in sorted(glob.glob(os.path.join(HERE, "faults_program", "*"))):
        with open(file, "rb") as text:
            sources += text.read()
    sources = hashlib.sha256(sources).hexdigest()
    if not (os.path.exists(program) and os.path.exists(of) and open(of, encoding="ascii").read() == sources):
        os.makedirs(os.path.dirname(program), exist_ok=True)
        make(program)
        with open(of, "w", encoding="ascii") as file:
            file.write(sources)
    return program


def digits(data):
    """Bytes as the program reads them."""
    if len(data) < LARGE:
        return data.hex() or "-"
    middle = len(data) // 2
    for period in range(1, 101):
        unit = data[middle:middle + period] * (4096 // period)
        if data[middle:middle + len(unit)] == unit:
            return repeated(data, middle, unit)
    return data.hex()


def repeated(data, at, unit):
    """Bytes of which these stand there, once or more."""
    first, last = at, at + len(unit)
    while data.endswith(unit, 0, first):
        first -= len(unit)
    while data.startswith(unit, last):
        last += len(unit)
    around = [digits(data[:first]), f"{unit.hex()}*{(last - first) // len(unit)}", digits(data[last:])]
    return "+".join(piece for piece in around if piece != "-")


def undigits(text):
    return b"" if text == "-" else bytes.fromhex(text)


def words_line(word, words):
    return " ".join([word, *(digits(it.encode()) for it in words)])


def told(lines):
    """What the lines up to `over` tell of a run."""
    said, calls = {"talk": []}, []
    for line in lines:
        word, _, rest = line.partition(" ")
        if word == "call":
            device, name, about, answer = rest.split(" ")
            calls.append(Call(device, name, undigits(about), answer))
        elif word == "talk":
            said["talk"].append(undigits(rest))
        elif word in ("status", "sink", "pocket"):
            said[word] = rest
        elif word == "over":
            break
        else:
            raise RuntimeError(f"the program says {line!r}")
    pocket = undigits(said["pocket"]) if said["pocket"] else None
    return Ran(int(said["status"]), undigits(said["sink"]), pocket, said["talk"], calls)


class Program:
    """The program, which is asked a run at a time."""

    def __init__(self, program):
        self.process = subprocess.Popen([*LOADER, program], stdin=subprocess.PIPE, stdout=subprocess.PIPE)
        self.runs = 0

    def end(self):
        """Ends it. Its status."""
        self.process.stdin.close()
        return self.process.wait()

    def run(self, words, devices, choice):
        """Makes these devices anew, each of a line, and runs the words where the choice fails."""
        for line in (*devices, choice.spelled(), words_line("run", words), "over"):
            self.process.stdin.write(line.encode() + b"\n")
        self.process.stdin.flush()
        self.runs += 1
        return told(iter(lambda: self.process.stdout.readline().decode().rstrip("\n"), ""))


def door(conversations):
    return " ".join(["door", *map(digits, conversations)])


def link(replies):
    return " ".join(["link", *map(digits, replies)])


def clock(moments):
    return " ".join(["clock", *map(str, moments)])


def pocket(text):
    return "pocket" if text is None else f"pocket {digits(text)}"
