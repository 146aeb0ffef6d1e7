"""Several commands at once on one desk: no change is lost, and no number of a loan is printed twice.

In each round four commands start together on one desk. Each kind of round has its turn: four new loans; four answers in
one loan; two actions beside a `take` of three messages and a `status`; four `new` of one file; four answers, one of
which is killed; and an action beside an `inbox`, an `outbox` and an `exchange` of three message files, with none of
them killed or one. A round fails if a command that was not killed ends with another fault than its own. It fails if a
change that was printed is not in the desk afterwards, if a number was printed twice, or if a file is left beside the
desk. The seed sets the moments of the kills.
"""
import collections
import os
import random
import subprocess
import time

from ill import harness
from ill.harness import read, write

REPORT = harness.Report()
RESULTS = ("will-supply", "hold-placed", "conditional", "estimate")
LOAN = ("G1", "T1")
DAY = ("--today", "20250301")

# What a command has left: its exit status, the lines of its output, and its standard error. `was_killed` is true if
# this script killed it.
Outcome = collections.namedtuple("Outcome", "status lines errors was_killed")


class Failed(Exception):
    """A round went wrong. The text of this exception says how."""


class Desks:
    """A folder of desks, and the program that keeps them."""

    def __init__(self, program, folder, seed):
        """Keeps the program and the folder. The seed decides the moments of kills."""
        self.program, self.folder, self.random = program, folder, random.Random(seed)

    def path(self, name):
        """Returns the path of a file of the folder."""
        return os.path.join(self.folder, name)

    def start(self, words, given=b""):
        """Starts the program with these words, and gives it all of its input. Returns the running process."""
        streams = {"stdin": subprocess.PIPE, "stdout": subprocess.PIPE, "stderr": subprocess.PIPE}
        process = subprocess.Popen([self.program, *words], cwd=self.folder, **streams)
        process.stdin.write(given)
        process.stdin.close()
        process.stdin = None
        return process

    def run(self, words, given=b""):
        """Runs the program with these words and this input. Returns its output. Raises `Failed` if the status is not
        0."""
        done = harness.run([self.program, *words], piped=given, cwd=self.folder)
        if done.status:
            raise Failed(f"ill {' '.join(words)}: status {done.status}, {done.errors.decode().strip()}")
        return done.output

    def together(self, commands, killed=None):
        """Starts commands, one right after another. Each is a tuple of the arguments of `start`. Kills the command with
        the index `killed` after 20 ms at most, or none if that is None. Returns an `Outcome` of each command, in their
        order."""
        started = [self.start(*command) for command in commands]
        if killed is not None:
            time.sleep(self.random.random() * 0.02)
            started[killed].kill()
        ended = [process.communicate(timeout=harness.SECONDS) for process in started]
        return [Outcome(process.returncode, output.decode().splitlines(), errors.decode().strip(), at == killed)
                for at, (process, (output, errors)) in enumerate(zip(started, ended))]

    def fresh(self, name):
        """Makes the desk a copy of the desk `name`, or removes it for None. Nothing of an earlier round is left."""
        names = ("desk", "desk.new", "desk.lck", "desk.came", "desk.diary", "desk.mail", "copy", "copy.new", "in", "out")
        harness.remove(*map(self.path, names))
        if name:
            write(self.path("desk"), read(self.path(name)))

    def left(self):
        """Returns the names of the files that may not stay beside the desk, such as `desk.new`. What came, the diary
        and the folder of message files may stay, and are left out."""
        kept = ("desk.came", "desk.diary", "desk.mail")
        return sorted(name for name in os.listdir(self.folder) if name.startswith("desk.") and name not in kept)

    def loans(self):
        """Returns what `ill status` says of each loan: (group, transaction) -> the label of a line -> its value."""
        lines = [line.split(" ", 1) for line in self.run(["status", "desk"]).decode().splitlines()]
        each = [dict(lines[at:at + 7]) for at in range(0, len(lines), 7)]
        return {(loan["group"], loan["transaction"]): loan for loan in each}

    def message(self, number):
        """Returns the lines that `ill show` writes of the message with this number, of the loan G1 T1."""
        sent = self.run(["send", "desk", *LOAN, str(number)])
        return self.run(["show"], sent).decode().splitlines()


def fine(outcomes):
    """Raises `Failed` if a command that was not killed has another status than 0, or a line of standard error.
    `outcomes` has an `Outcome` of each command."""
    for one in outcomes:
        if not one.was_killed and (one.status or one.errors):
            raise Failed(f"status {one.status}: {one.errors or one.lines}")


def issued(line):
    """Returns the number at the end of a line such as `done CONDITIONAL - 1/2`: how many messages the loan has
    issued."""
    return int(line.rsplit("/", 1)[1])


# The kinds of rounds. A kind is a function whose docstring is printed as the name of its rounds. It raises `Failed` if
# a round goes wrong. `killed` is the index of the command that is killed, or None.

def new_loans(desks):
    """Four commands ask for a book each."""
    desks.fresh("requester")
    loans = [("G1", f"N{at}") for at in range(4)]
    outcomes = desks.together([(["act", "desk", *loan, "request", "none", "Maps"],) for loan in loans])
    fine(outcomes)
    found = desks.loans()
    for loan in loans:
        if found.get(loan, {}).get("messages") != "1/1":
            raise Failed(f"the loan {loan} is lost")


def answer(result):
    """Returns the command, as `together` takes it, by which the responder answers G1 T1 with this result."""
    return (["act", "desk", *LOAN, *DAY, "answer", result],)


def answers(desks, killed=None):
    """Four commands answer in one loan."""
    desks.fresh("responder")
    results = list(RESULTS[:3]) + [RESULTS[0]]
    desks.random.shuffle(results)
    outcomes = desks.together([answer(result) for result in results], killed)
    done = {}
    for result, one in zip(results, outcomes):
        is_refused = one.status == 1 and one.lines[0].startswith("not-now")
        if not is_refused:
            fine([one])
        for line in one.lines:
            if line.startswith("done") and done.setdefault(issued(line), result) != result:
                raise Failed(f"the number {issued(line)} was acknowledged twice")
    if sum(line.startswith("done") for one in outcomes for line in one.lines) != len(done):
        raise Failed("a number was acknowledged twice")
    for number, result in done.items():
        if f"result {result}" not in desks.message(number):
            raise Failed(f"the message {number} is not {result}")
    count = int(desks.loans()[LOAN]["messages"].split("/")[1])
    if count not in (len(done), len(done) + (killed is not None)):
        raise Failed(f"{len(done)} answers were acknowledged, and {count} are there")


def a_killed_answer(desks):
    """Four commands answer in one loan, and one of them is killed."""
    answers(desks, desks.random.randrange(4))


def a_take_beside(desks):
    """Two commands act, one takes three messages, and one shows the desk."""
    desks.fresh("requester")
    outcomes = desks.together([
        (["act", "desk", "G1", "N0", "request", "none", "Maps"],),
        (["take", "desk"], read(desks.path("mail"))),
        (["status", "desk"],),
        (["act", "desk", "G1", "N1", "request", "none", "Maps"],)])
    fine(outcomes)
    found = desks.loans()
    if [found[loan]["state"] for loan in (("G1", "T1"), ("G1", "T2"), ("G1", "T3"))] != ["SHIPPED"] * 3:
        raise Failed("a message that was taken is lost")
    if not {("G1", "N0"), ("G1", "N1")} <= found.keys():
        raise Failed("an action that was done is lost")


def new_desks(desks):
    """Four commands begin one desk."""
    desks.fresh(None)
    roles = ("requester", "responder", "requester", "responder")
    outcomes = desks.together([(["new", "desk", role],) for role in roles])
    if sorted(one.status for one in outcomes) != [0, 1, 1, 1]:
        raise Failed(f"four desks began, with {[one.status for one in outcomes]}")
    if any(one.status and one.errors != "ill: exists" for one in outcomes):
        raise Failed("another fault than that the desk exists")


def nights(desks, killed=None):
    """An action, an `inbox`, an `outbox` and an `exchange` are at work at once."""
    desks.fresh("requester")
    for folder in ("in", "out"):
        os.mkdir(desks.path(folder))
    message_file = read(desks.path("mail"))
    size = len(message_file) // 3
    for at in range(3):
        write(desks.path(f"in/{at}"), message_file[at * size:(at + 1) * size])
    outcomes = desks.together([
        (["act", "desk", "G1", "N0", "request", "none", "Maps"],), (["inbox", "desk", "in"],),
        (["outbox", "desk", "out"],), (["exchange", "desk", "in", "out", "--copy", "copy"],)], killed)
    fine(outcomes)
    if killed is not None:
        desks.run(["exchange", "desk", "in", "out", "--copy", "copy"])
    found = desks.loans()
    if [found[loan]["state"] for loan in (("G1", "T1"), ("G1", "T2"), ("G1", "T3"))] != ["SHIPPED"] * 3:
        raise Failed("a message file is lost")
    if os.listdir(desks.path("in")) or os.listdir(desks.path("desk.mail/in")):
        raise Failed("a message file is left")
    if outcomes[0].lines and ("G1", "N0") not in found:
        raise Failed("an action that was done is lost")
    if sum(" taken SHIPPED " in line for one in outcomes for line in one.lines) > 3:
        raise Failed("a message file was taken twice")
    if len(os.listdir(desks.path("out"))) not in (3, 4) and killed is None:
        raise Failed("not all messages have left")


def a_killed_night(desks):
    """An action, an `inbox`, an `outbox` and an `exchange` are at work at once, and one of them is killed."""
    nights(desks, desks.random.randrange(4))


KINDS = (new_loans, answers, a_take_beside, new_desks, a_killed_answer, nights, a_killed_night)


def prepare(desks):
    """Makes a requester's desk of three loans and a responder's desk of the first. Makes the message file that ships
    all three items."""
    desks.run(["new", "requester", "requester"])
    desks.run(["new", "shipping", "responder"])
    for loan in ("T1", "T2", "T3"):
        desks.run(["act", "requester", "G1", loan, "request", "none", "Maps"])
        desks.run(["take", "shipping"], desks.run(["send", "requester", "G1", loan, "1"]))
        desks.run(["act", "shipping", "G1", loan, *DAY, "ship", "+14"])
    write(desks.path("mail"), b"".join(desks.run(["send", "shipping", "G1", loan, "1"]) for loan in ("T1", "T2", "T3")))
    desks.run(["new", "responder", "responder"])
    desks.run(["take", "responder"], desks.run(["send", "requester", "G1", "T1", "1"]))


def perform(desks, kind, rounds):
    """Performs so many rounds of a kind, up to the first that fails. Prints one line, which begins with the docstring
    of the kind."""
    for at in range(rounds):
        try:
            kind(desks)
            left = [name for name in desks.left() if kind not in (a_killed_answer, a_killed_night)]
            if left:
                raise Failed(f"{left} is left")
        except (Failed, subprocess.TimeoutExpired) as why:
            REPORT.fail(f"{kind.__doc__} Round {at + 1}: {why}")
            return
    REPORT.case(f"{kind.__doc__} {rounds} rounds.")


def main(program, rounds="20", seed=None):
    """Performs rounds in the folder in which it is called. Each kind has as many, and all together at least `rounds`.
    Without a seed it draws one. Returns the exit status."""
    rounds, seed = int(rounds), int(seed) if seed else random.randrange(1 << 16)
    print(f"the seed is {seed}")
    desks = Desks(os.path.realpath(program), os.getcwd(), seed)
    prepare(desks)
    for kind in KINDS:
        perform(desks, kind, (rounds + len(KINDS) - 1) // len(KINDS))
    return REPORT.status()
