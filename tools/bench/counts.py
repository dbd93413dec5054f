"""The instructions of a call of each side of a job: from the callee's first to its return, all that it calls included, over the calls of a round.
valgrind counts them on an x86-64 machine; on another, where it cannot run the timer, the emulator does, with the plugin instructions.c."""
import os, re, shutil, struct, subprocess

HERE = os.path.dirname(os.path.abspath(__file__))


class Failed(Exception):
    pass


def per_call(job, spent):
    """For each side its figure; `spent` has the calls and the instructions of each callee."""
    figures = []
    for name in job["callees"]:
        if name != "-" and name not in spent:
            raise Failed(f"'{job['name']}': no call of {name} was seen")
        # valgrind lists calls outside the round too, but charges nothing for them
        if name != "-" and spent[name][0] < job["calls"]:
            raise Failed(f"'{job['name']}': {spent[name][0]} calls of {name}, not {job['calls']}")
        figures.append(None if name == "-" else spent[name][1] / job["calls"])
    return figures


class Valgrind:
    """What callgrind charges to a callee where a function of the timer called it."""

    def __init__(self, program, folder):
        self.program, self.folder = program, folder
        self.name = "valgrind's callgrind"

    @staticmethod
    def missing():
        return None if shutil.which("valgrind") else "valgrind is not on this machine"

    def count(self, root, job):
        out = f"{self.folder}/callgrind.{job['at']}"
        words = ["valgrind", "--tool=callgrind", "--toggle-collect=measured", f"--callgrind-out-file={out}", self.program, root, "count", job["at"]]
        if subprocess.run(words, stdout=subprocess.DEVNULL, stderr=subprocess.DEVNULL).returncode != 0:
            raise Failed(f"valgrind stopped at '{job['name']}'")
        names, caller, callee, calls, spent = {}, None, None, 0, {}
        for line in open(out):
            word, _, rest = line.strip().partition("=")
            if word in ("fn", "cfn"):
                number, _, name = rest.partition(" ")
                names.setdefault(number, name)
                caller, callee = (names[number], None) if word == "fn" else (caller, names[number])
            elif word == "calls":
                calls = int(rest.split(" ")[0])
            elif callee and calls and line[0] in "+-*0123456789":
                if caller.startswith("timer::") and callee in job["callees"]:
                    made, cost = spent.get(callee, (0, 0))
                    spent[callee] = (made + calls, cost + int(line.split()[1]))
                calls, callee = 0, None
        return per_call(job, spent)


class Emulator:
    """What the plugin counts while qemu-x86_64 runs the timer."""

    def __init__(self, program, folder):
        self.program, self.folder = self.binary(program), folder
        self.emulator = emulator_with_plugins()
        version = subprocess.run([self.emulator, "--version"], capture_output=True, text=True).stdout.split("\n")[0]
        self.name = "a plugin of " + " ".join(version.split()[:3])
        self.plugin = f"{folder}/instructions.so"
        if subprocess.run(["cc", "-O2", "-shared", "-fPIC", "-fvisibility=hidden", "-o", self.plugin, f"{HERE}/instructions.c"]).returncode != 0:
            raise Failed("instructions.c was not compiled")
        self.text = first_code(self.program)
        self.places = symbols(self.program)

    @staticmethod
    def binary(script):
        """The timer itself: tools/compare/oracles gives a script that starts the emulator, beside the folder of what was built."""
        return f"{os.path.dirname(script)}/target/x86_64-unknown-linux-gnu/release/timer"

    @staticmethod
    def missing():
        if not shutil.which("cc"):
            return "this machine has no cc for the emulator's plugin"
        return None if emulator_with_plugins() else "no qemu-x86_64 here takes plugins; Debian's qemu-user does"

    def place(self, name):
        found = self.places.get(name, set())
        if len(found) != 1:
            raise Failed(f"{len(found)} functions of the timer have the name {name}")
        return f"{min(found):x}"

    def count(self, root, job):
        out = f"{self.folder}/instructions.{job['at']}"
        callees = [name for name in job["callees"] if name != "-"]
        words = [f"file={self.plugin}", f"out={out}", f"text={self.text:x}", f"round={self.place('measured')}"]
        words += [f"callee={self.place(name)}" for name in callees]
        run = subprocess.run([self.emulator, "-plugin", ",".join(words), self.program, root, "count", job["at"]], capture_output=True, text=True)
        if run.returncode != 0:
            raise Failed(f"the emulator stopped at '{job['name']}': {run.stderr.strip()}")
        spent = {}
        # a round of each side is a line, in the order of the sides; in it each callee that was called: its place in the list, calls, instructions
        for name, line in zip(callees, open(out).read().splitlines(), strict=True):
            numbers = [int(word) for word in line.split()]
            if numbers[:2] != [callees.index(name), job["calls"]] or len(numbers) != 3:
                raise Failed(f"'{job['name']}': a round of {name} made other calls: {line}")
            spent[name] = (numbers[1], numbers[2])
        return per_call(job, spent)


def emulator_with_plugins():
    for place in [shutil.which("qemu-x86_64"), "/usr/bin/qemu-x86_64"]:
        if place and os.path.exists(place) and "-plugin" in subprocess.run([place, "-h"], capture_output=True, text=True).stdout:
            return place
    return None


def first_code(program):
    """The address of the first segment with code in a program's file, which has 64 bits and its low bytes first."""
    data = open(program, "rb").read()
    at, size, count = struct.unpack_from("<Q", data, 32)[0], *struct.unpack_from("<HH", data, 54)
    heads = [struct.unpack_from("<IIQQ", data, at + size * i) for i in range(count)]
    return min(address for kind, flags, _, address in heads if kind == 1 and flags & 1)


def symbols(program):
    """The addresses of the functions by their names, Rust's without the hash at the end."""
    text = subprocess.run(["x86_64-linux-gnu-nm", "--demangle", program], capture_output=True, text=True).stdout
    found = {}
    for address, kind, name in re.findall(r"^([0-9a-f]+) (\w) (.+)$", text, re.M):
        if kind in "tTwW":
            found.setdefault(re.sub(r"::h[0-9a-f]{16}$", "", name), set()).add(int(address, 16))
    return found
