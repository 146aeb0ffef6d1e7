"""Damages desks, and looks at what tools/salvage shows of them.

The desks of a requester and of a responder have five loans in five states. Of both it looks that

- a whole desk is shown as `ill status` shows it, and the example of docs/FORMATS.md as that document has it;
- with one wrong bit in an octet, or if it is cut, no other loan is shown otherwise, and it is not called whole;
- if the digest is made to fit again, it is called whole exactly if the program reads it;
- invalid input is shown without a failure;
- as a command it changes nothing, has the right status, and keeps to its bounds.

It prints a line for each part; exit 1 if one fails.
"""
import os
import random
import resource
import sys

from ill import harness
from ill.harness import CLOSED, FULL, read, write
from ill.records import DIGEST, repaired

REPORT = harness.Report()
SALVAGE = f"{harness.TOOLS}/salvage"

# The loans: what the sides do in turn, with the number of the message that is carried to the other side behind it.
COURSES = {
    "Maps": "here request none Maps",
    "War and Peace": "here request 20250310 War and Peace>1 there answer conditional>1 here reply yes>2",
    "Łódź": "here request none Łódź>1 there ship +14>1 here receive>2 here renew 20250401>3 "
            "there renew-answer yes +30>2 here return>4 there check-in>3",
    "Five": "here request none Five>1 here cancel>2 there cancel-reply yes>1",
    "Six": "here request none Six>1 there ship +3>1 here receive>2 here renew none>3",
}

# The example of docs/FORMATS.md, section 15, and what is in it.
EXAMPLE = bytes.fromhex(
    "494C4C32 00 0001 002F 494C4C31 00 01 024731 025431 0000 3030303030303030 01 "
    "6116800101A10881024731820254318201018604 4D617073 "
    "3D48115056CE9C51D3C9C741B5F8761010CBA14B5126FCE8991A47E0B7B1D7B5")
EXAMPLE_LINES = """\
file example
bytes 88
form ILL2
role requester
loans 1
digest fits

loan 1
record whole, bytes 9 to 55
role requester
group G1
transaction T1
state PENDING
due -
title Maps
messages 1
message 1 ILL-Request

found 1 whole, 0 inconsistent, 0 damaged
first damage none
"""


def invalid_input(rng, size):
    """Returns so many random bytes."""
    return bytes(rng.choices(range(256), k=size))


def bound_memory(most):
    """Lets this process take so many bytes of memory."""
    resource.setrlimit(resource.RLIMIT_AS, (most, most))


def case(name, wrong):
    """Reports a part. `wrong` has its faults, of which the first is shown."""
    REPORT.case(name, *wrong[:1])


class Checks:
    """The checks of tools/salvage, with the program and a folder to work in."""

    def __init__(self, program, folder):
        """Makes the desks of both roles with their loans, in a folder to work in."""
        self.program, self.folder, self.salvage = program, folder, harness.load("salvage")
        self.ill("new", "here", "requester")
        self.ill("new", "there", "responder")
        for number, course in enumerate(COURSES.values(), 1):
            self.perform(f"T{number}", course)
        self.desks = {name: read(f"{folder}/{name}") for name in ("here", "there")}

    def ill(self, *words, given=None):
        """Runs the program, which has to end with status 0, and returns its output."""
        return self.program.well(words, given, cwd=self.folder)

    def perform(self, transaction, course):
        """Performs a course of `COURSES` at both desks, in the loan G1 with this transaction."""
        steps = course.replace(" here ", "\nhere ").replace(" there ", "\nthere ").splitlines()
        for step in steps:
            words, _, number = step.partition(">")
            desk, *words = words.split()
            today = ["--today", "20250301"] * (desk == "there")
            self.ill("act", desk, "G1", transaction, *today, *words)
            if number:
                given = self.ill("send", desk, "G1", transaction, number)
                self.ill("take", "there" if desk == "here" else "here", given=given)

    def shown(self, data):
        """Returns whether tools/salvage calls these bytes whole, and the parts that it shows: the head, each loan, and
        the end."""
        texts = []
        is_whole = self.salvage.report("desk", data, False, texts.append)
        return is_whole, "".join(texts).split("\n\n")

    def is_read(self, data):
        """Returns true if the program reads these bytes as a desk."""
        write(f"{self.folder}/damaged", data)
        return self.program.run("status damaged", cwd=self.folder).status == 0

    def check_whole(self):
        """Compares what is shown of whole desks with `ill status`, and the example of docs/FORMATS.md."""
        wrong, kept = [], ("role ", "group ", "transaction ", "state ", "due ")
        for name, data in self.desks.items():
            is_whole, (_, *loans, _) = self.shown(data)
            lines = [line for loan in loans for line in loan.splitlines() if line.startswith(kept)]
            printed = [line for line in self.ill("status", name).decode().splitlines() if line.startswith(kept)]
            titles = [line[6:] for loan in loans for line in loan.splitlines() if line.startswith("title ")]
            if not is_whole or lines != printed or titles != [*COURSES][:len(titles)] and name == "here":
                wrong.append(f"{name} is shown otherwise than by ill status")
        texts = []
        self.salvage.report("example", EXAMPLE, False, texts.append)
        wrong += ["the example of docs/FORMATS.md"] * ("".join(texts) != EXAMPLE_LINES)
        case("whole desks", wrong)

    def check_bits(self):
        """Expects that a wrong bit changes only what is shown of its own loan. No such desk is called whole."""
        wrong = []
        for name, data in self.desks.items():
            _, (_, *before, _) = self.shown(data)
            ends = self.ends(data)
            for at in range(len(data)):
                own = next((loan for loan, end in enumerate(ends) if 7 <= at < end), None)
                is_whole, parts = self.shown(data[:at] + bytes([data[at] ^ 1 << at % 8]) + data[at + 1:])
                others = [loan for loan, part in enumerate(before)
                          if loan != own and parts[1 + loan:2 + loan] != [part]]
                is_other = at >= 7 and (others or len(parts) != len(before) + 2)
                if is_whole or is_other or parts[0].split("\n")[5:] != ["digest does not fit"]:
                    wrong.append(f"{name}, a wrong bit at {at}: loans {others} are shown otherwise")
        case("one wrong bit in each octet", wrong)

    @staticmethod
    def ends(data):
        """Returns the offset at which each loan of a whole desk ends."""
        at, found = 7, []
        while at < len(data) - DIGEST:
            at += 2 + int.from_bytes(data[at:at + 2], "big")
            found.append(at)
        return found

    def check_cuts(self):
        """Expects of a desk that is cut that the loans before the cut are shown as before."""
        wrong = []
        for name, data in self.desks.items():
            _, (_, *before, _) = self.shown(data)
            ends = self.ends(data)
            for size in range(len(data)):
                is_whole, parts = self.shown(data[:size])
                prefix = sum(end <= size for end in ends)
                if is_whole or parts[1:1 + prefix] != before[:prefix]:
                    wrong.append(f"{name}, cut behind {size} bytes")
        case("a desk that is cut", wrong)

    def check_digests(self):
        """Expects of desks with a wrong bit, whose digest fits, that those called whole are those that the program
        reads."""
        wrong, count = [], 0
        for name, data in self.desks.items():
            for at in range(len(data) - DIGEST):
                damaged = repaired(data[:at] + bytes([data[at] ^ 1 << (at // 3) % 3]) + data[at + 1:])
                is_whole, _ = self.shown(damaged)
                count += is_whole
                if is_whole != self.is_read(damaged):
                    wrong.append(f"{name}, a wrong bit at {at}, and the digest fits")
        case(f"one wrong bit, and a digest that fits: {count} are whole", wrong or ["none is whole"] * (not count))

    def check_invalid_input(self):
        """Expects that invalid input, and desks with many wrong octets, are shown without a failure."""
        rng = random.Random(17)
        for _ in range(1500):
            self.shown(self.changed(bytearray(rng.choice([*self.desks.values()])), rng))
        for data in [b"", b"I", b"ILL1", b"ILL2", b"ILL2\x00", b"ILL1" * 5000, b"ILL2" + bytes(5000),
                     invalid_input(rng, 5000)]:
            is_whole, parts = self.shown(data)
            if is_whole or len(parts) > 1002:
                case("invalid input", [f"{data[:8]} is shown as {parts[:2]}"])
                return
        case("invalid input", [])

    @staticmethod
    def changed(data, rng):
        """Returns these bytes with one to 29 random changes."""
        for _ in range(rng.randrange(1, 30)):
            at = rng.randrange(len(data))
            data[at:at + rng.randrange(3)] = rng.choice(
                [invalid_input(rng, rng.randrange(40)), b"ILL1", data[at:at + 50]])
            data = data or bytearray(b"I")
        return bytes(data)

    def run(self, *words, **more):
        """Runs tools/salvage. Returns its status, its output and its errors."""
        done = harness.run([SALVAGE, *words], cwd=self.folder, **more)
        return done.status, done.output.decode(), done.errors.decode()

    def check_command(self):
        """Expects of tools/salvage the right status for each use, and no change in the folder."""
        data = self.desks["here"]
        write(f"{self.folder}/wrong-bit", data[:60] + bytes([data[60] ^ 1]) + data[61:])
        os.chmod(f"{self.folder}/wrong-bit", 0o400)
        os.mkfifo(f"{self.folder}/pipe")
        before = self.folder_now()
        wanted = {("here",): 0, ("-h",): 0, ("wrong-bit",): 1, (): 2, ("here", "there"): 2, ("missing",): 3, (".",): 3,
                  ("pipe",): 3}
        wrong = [f"status {words}" for words, status in wanted.items() if self.run(*words, limit=20)[0] != status]
        wrong += ["the folder has changed"] * (self.folder_now() != before)
        wrong += ["a traceback"] * any("Traceback" in self.run(*words)[2] for words in wanted)
        case("the command", wrong + [*self.wrong_outputs()])

    def wrong_outputs(self):
        """Yields what is wrong with runs whose output or errors are full or closed."""
        for words in ("here", "wrong-bit", "--help"):
            for stream in (FULL, CLOSED):
                status, _, printed = self.run(words, output=stream)
                if status != 3 or not printed.startswith("ill-salvage: write: ") or printed.count("\n") != 1:
                    yield f"{words}, output {stream}: status {status}, {printed}"
        for words, wanted in (("here", 0), ("wrong-bit", 1), ("missing", 3), ("", 2)):
            for stream in (FULL, CLOSED):
                status, said, _ = self.run(*words.split(), errors=stream)
                if status != wanted or "ill-salvage" in said:
                    yield f"{words}, errors {stream}: status {status}, {said[:50]}"

    def check_opens(self):
        """Expects that tools/salvage reads a desk without opening a file for writing."""
        opened = []
        sys.addaudithook(lambda event, words: opened.append(words) if event == "open" else None)
        self.salvage.read_file(f"{self.folder}/here")
        wrong = [f"it opens {name}" for name, _, flags in opened if flags & (os.O_WRONLY | os.O_RDWR | os.O_CREAT)]
        case("nothing is opened for writing", wrong or ["nothing is opened"] * (not opened))

    def folder_now(self):
        """Returns the name of each thing in the folder, with what `stat_of` returns of it."""
        return [(name, *self.stat_of(name)) for name in sorted(os.listdir(self.folder))]

    def stat_of(self, name):
        """Returns the mode, the two times and the bytes of a file in the folder. What is no regular file has no
        bytes."""
        path = f"{self.folder}/{name}"
        found = os.lstat(path)
        return found.st_mode, found.st_mtime_ns, found.st_ctime_ns, read(path) if os.path.isfile(path) else b""

    def check_bounds(self):
        """Expects of a file that is too long that only its first bytes are looked at, in bounded memory."""
        with open(f"{self.folder}/long", "wb") as file:
            file.write(self.desks["here"])
            file.truncate(1 << 32)
        most = 400 << 20
        status, said, errors = self.run("long", before=lambda: bound_memory(most))
        is_success = status == 1 and "bytes 67108864, and more" in said and said.count("record whole") == len(COURSES)
        case("a file of 4 GiB in 400 MB", [] if is_success else [f"status {status}: {errors[-200:]}"])


def main(program):
    """Checks all, in the folder that it is in. Returns the exit status."""
    checks = Checks(harness.Program(program), os.getcwd())
    for check in (checks.check_whole, checks.check_bits, checks.check_cuts, checks.check_digests,
                  checks.check_invalid_input, checks.check_command, checks.check_opens, checks.check_bounds):
        check()
    return REPORT.status()
