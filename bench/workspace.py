"""What the programs of bench/ share: the desk that they measure, the workspace in which a program of their own is made, and bounds."""
import contextlib
import os
import re
import shutil
import struct
import subprocess
import sys
import threading
import time

HERE = os.path.dirname(os.path.abspath(__file__))
TOP = os.path.dirname(HERE)
NAME = os.path.basename(sys.argv[0])
KIT = os.path.dirname(os.path.dirname(os.path.realpath(shutil.which("rt") or "/opt/rattle/bin/rt")))
LIBRARIES = os.path.join(KIT, "toolchain", "lib")
# runs a program that was made unproved, which is linked for the kit's C library
LOADER = [os.path.join(LIBRARIES, "ld-linux-x86-64.so.2"), "--inhibit-cache", "--library-path", LIBRARIES]
# the number of an allocation that no run comes to, above any distance between two places of a program: `rt try` makes a program in which
# the allocation of this number is refused, and another number is then written over it
NEVER = 1_000_000_007


def desk(words=()):
    """The path of the desk: that of the first word, or bin/desk."""
    path = os.path.realpath(words[0] if words else os.path.join(TOP, "bin", "desk"))
    if not os.access(path, os.X_OK):
        sys.exit(f"bench/{NAME}: there is no {path}; ./build makes bin/desk")
    return path


def below(*names):
    """What these crates stand on, by crates.txt, each once."""
    with open(os.path.join(TOP, "crates.txt"), encoding="utf-8") as file:
        lines = file.read()
    found = [re.search(rf"^{name}:(.*)$", lines, re.M) for name in names]
    if None in found:
        sys.exit(f"bench/{NAME}: crates.txt has no line of {names[found.index(None)]}")
    return list(dict.fromkeys(word for line in found for word in line[1].split()))


def crate(room, name, program, stands_on, taken=(), with_libraries=False):
    """Makes a copy of the crates in a folder, and in it a program: that of a file of bench/, or of a folder of modules, named without the
    ending, which rt takes for files of a crate; with files of other crates, as (crate, file), whose functions it may call. Of what rt has
    made beside the crates the libraries alone are copied, if at all. Returns its folder."""

    def unwanted(folder, files):
        if with_libraries:
            return [file for file in files if os.path.basename(folder) == "out" and file != "rlib"]
        return [file for file in files if file == "out"]

    shutil.copytree(os.path.join(TOP, "crates"), os.path.join(room, "crates"), ignore=unwanted)
    folder = os.path.join(room, "crates", name)
    os.makedirs(os.path.join(folder, "src"))
    if os.path.isdir(os.path.join(HERE, program)):
        for file in os.listdir(os.path.join(HERE, program)):
            shutil.copy(os.path.join(HERE, program, file), os.path.join(folder, "src", f"{file}.rt"))
    else:
        shutil.copy(os.path.join(HERE, program), os.path.join(folder, "src", "main.rt"))
    for of, file in taken:
        with open(os.path.join(room, "crates", of, "src", file), encoding="utf-8") as source:
            text = re.sub(r"^fn ", "pub(crate) fn ", source.read(), flags=re.M)
        with open(os.path.join(folder, "src", file), "w", encoding="utf-8") as copy:
            copy.write(text)
    with open(os.path.join(TOP, "crates.txt"), encoding="utf-8") as file:
        lines = file.read()
    with open(os.path.join(room, "crates.txt"), "w", encoding="utf-8") as file:
        file.write(f"{lines}{name}: {' '.join(stands_on)}\n")
    return folder


def with_wrong_body(room, edit):
    """Puts a wrong body, crates/NAME/wrong/EDIT or crates/NAME/must-fail/EDIT, into the copy of the crates in a folder."""
    folder = os.path.join(room, "crates", os.path.abspath(edit).split(os.sep)[-3])
    with open(edit, encoding="utf-8") as file:
        pairs = [line.rstrip("\n").partition(": ") for line in file]
    for word, _, text in pairs:
        if word == "file":
            path = os.path.join(folder, text)
        elif word == "old":
            old = text
        elif word == "new":
            with open(path, encoding="utf-8") as file:
                source = file.read()
            if source.count(old) != 1:
                sys.exit(f"bench/{NAME}: {edit}: {old.strip()!r} stands {source.count(old)} times in {path}")
            with open(path, "w", encoding="utf-8") as file:
                file.write(source.replace(old, text))


def step(name, words, folder):
    """A step of making a program, which has to end well."""
    run = subprocess.run(words, cwd=folder, capture_output=True, text=True, check=False)
    if run.returncode:
        sys.exit(f"bench/{NAME}: {name}: the program isn't made\n{run.stdout[-2000:]}{run.stderr[-2000:]}")


def proved(folder, libraries):
    """What the program of a folder writes, proved over the libraries of the crates in a folder (NAME.rlib) and compiled as the gate
    compiles."""
    kit, libraries = KIT, os.path.abspath(libraries)
    name = os.path.basename(folder)
    with open(os.path.join(folder, "..", "..", "crates.txt"), encoding="utf-8") as file:
        stands_on = re.search(rf"^{name}:(.*)$", file.read(), re.M)[1].split()
    words = ["--crate-name", name, "src/main.rt"]
    for library in dict.fromkeys(["core", "std", *stands_on]):
        found = [path for path in (f"{libraries}/{library}.rlib", f"{kit}/rlibs/{library}.rlib") if os.path.isdir(path)]
        if not found:
            sys.exit(f"bench/{NAME}: there is no {library}.rlib in {libraries}")
        words += ["--extern", f"{library}={found[0]}"]
    words += ["-L", f"dependency={kit}/rlibs", "-L", f"dependency={libraries}", "--logic-built", f"{kit}/logic_built"]
    words += ["--antt-project", f"{kit}/rattle/logic/antt-project.json", "--links", f"{name}=", "--toolchain", f"{kit}/toolchain"]
    binary = os.path.join(folder, name)
    step("build", [f"{kit}/bin/rattle", "build", *words, "--backend", "llvm", "-o", f"{binary}.o"], folder)
    target = ["--target", "x86_64-unknown-linux-gnu", "--toolchain", f"{kit}/toolchain"]
    step("link", [f"{kit}/bin/rattle-link", *target, "-o", binary, f"{binary}.o", f"{kit}/c/libos_c.a", f"{kit}/c/liblibc_c.a"], folder)
    return subprocess.run([binary], capture_output=True, text=True, check=False).stdout


def unproved(folder):
    """What the program of a folder writes, unproved."""
    run = subprocess.run(["rt", "try", "--seconds", "600"], cwd=folder, capture_output=True, text=True)
    return run.stdout + run.stderr


def linked(folder, program, over):
    """Gives the program a second name as soon as it stands somewhere in a folder, whose making is over where `over` is set: it may still be
    written then, and is whole when the making is over."""
    while not over.is_set():
        for at, _, files in os.walk(folder):
            if "program" in files and os.access(os.path.join(at, "program"), os.X_OK):
                with contextlib.suppress(FileNotFoundError):
                    os.link(os.path.join(at, "program"), program)
                    return
        time.sleep(0.02)


def kept(folder, program, *words):
    """Has `rt try` make the unproved program of a folder and run it without input, and keeps it. What was written."""
    room, over = f"{program}-made", threading.Event()
    os.mkdir(room)
    watcher = threading.Thread(target=linked, args=(room, program, over))
    watcher.start()
    try:
        run = subprocess.run(["rt", "try", "--seconds", "600", *words], cwd=folder, env={**os.environ, "TMPDIR": room}, text=True,
                             stdin=subprocess.DEVNULL, stdout=subprocess.PIPE, stderr=subprocess.STDOUT, check=False)
    finally:
        over.set()
        watcher.join()
        shutil.rmtree(room, ignore_errors=True)
    if os.path.exists(program):
        os.chmod(program, 0o755)
    return run.stdout


class Refusing:
    """A copy of a program that was made for the allocation NEVER, in which another one is refused."""

    def __init__(self, program, copy):
        self.path = copy
        shutil.copyfile(program, self.path)
        os.chmod(self.path, 0o755)
        with open(program, "rb") as file:
            self.places = [it.start() for it in re.finditer(re.escape(struct.pack("<I", NEVER)), file.read())]

    def run(self, number, given=b""):
        """Runs it over this input. What was written, the error lines and the status."""
        with open(self.path, "r+b") as file:
            for place in self.places:
                file.seek(place)
                file.write(struct.pack("<I", number))
        run = subprocess.run([*LOADER, self.path], input=given, capture_output=True, timeout=100, check=False)
        return run.stdout.decode(), run.stderr.decode(), run.returncode


class Bounds:
    """Bounds, each of which is told in a line as it is measured. The status of the whole is how many aren't kept."""

    def __init__(self):
        self.kept = self.broken = 0

    def holds(self, name, is_so):
        """What has to be so."""
        self.kept, self.broken = self.kept + bool(is_so), self.broken + (not is_so)
        print(f"  {'kept  ' if is_so else 'BROKEN'}  {name}")

    def at_most(self, name, value, bound, unit=""):
        self.holds(f"{name}: {value:.4g}{unit and ' ' + unit}, at most {bound:g}", value <= bound)

    def at_least(self, name, value, bound, unit=""):
        self.holds(f"{name}: {value:.4g}{unit and ' ' + unit}, at least {bound:g}", value >= bound)

    def end(self):
        print(f"{self.kept} bounds kept, {self.broken} broken")
        sys.exit(min(self.broken, 100))
