"""Performs random scripts with a round after each, and judges the pair of states that the round leaves.

It draws many scripts of one loan, and a tenth as many of two desks with three loans, from a seed. The script loses,
repeats and reorders messages, fails saves and crashes. After it stand the lines of a round: the requester saves, and
all its messages are sent and delivered in order; then the responder does the same. The program performs the whole. The
last line of a loan must show a pair of states of docs/PROTOCOL.md's table of both sides, and equal due dates, unless
the item was recalled or returned. It says how often each pair was met. It fails if a loan has diverged, or if a pair of
the table was never met.

Four scripts are no random ones: a request that is lost and then cancelled; conditions that were withdrawn; a renewal
that crosses a Recall; and a crash of both sides before the round.
"""
import collections
import concurrent.futures
import os
import random

from ill import harness

SIDES = ("requester", "responder")
# The actions that a script draws; one that stands more often is drawn more often. Scripts that are not drawn follow.
WISHES = ("cancel", "reply yes", "reply no", "receive", "receive", "receive", "renew none", "renew none", "return")
DEEDS = ("answer conditional", "answer will-supply", "answer unfilled", "cancel-reply yes", "cancel-reply no", "ship",
         "ship", "renew-answer yes", "renew-answer yes", "renew-answer no", "overdue", "overdue", "recall", "check-in",
         "expire")
# A message of each loan may have a number up to this in what a script draws; a round sends all.
NUMBERS = 6

WORKED = {
    "a request that is lost and then cancelled": (
        "requester request none Maps", "save requester", "send requester 1", "requester cancel"),
    "conditions that were withdrawn": (
        "requester request none Maps", "save requester", "send requester 1", "deliver responder 1",
        "responder 20250301 answer conditional", "requester cancel", "save requester", "send requester 2",
        "deliver responder 2", "responder 20250301 cancel-reply no", "save responder", "send responder 1"),
    "a renewal that crosses a Recall": (
        "requester request none Maps", "save requester", "send requester 1", "deliver responder 1",
        "responder 20250301 ship 20250310", "save responder", "send responder 1", "deliver requester 1",
        "requester receive", "requester renew none", "save requester", "send requester 3", "deliver responder 3",
        "responder 20250302 renew-answer yes 20250320", "responder 20250303 recall", "save responder",
        "send responder 3", "deliver requester 3"),
    "a crash of both sides": (
        "requester request none Maps", "save requester", "send requester 1", "deliver responder 1", "save responder",
        "responder 20250301 ship 20250310", "requester cancel", "restart responder", "restart requester"),
}


class Script:
    """The lines of a script, with how many messages each side may have issued in each loan."""

    def __init__(self, draw, loans):
        """Begins a script of so many loans, without a line. `draw` decides all that is random."""
        self.draw, self.loans, self.lines = draw, loans, []
        self.counts = collections.Counter()

    def add(self, line, loan=None):
        """Adds a line. In a script of two desks a line before it names the loan."""
        if self.loans > 1:
            self.lines.append(f"use G{loan} T{loan}")
        self.lines.append(line)

    def wish(self, wish, loan):
        """Adds a wish of the requester. A no may be answered by a message of the responder."""
        self.counts["requester", loan] += 1
        self.counts["responder", loan] += wish == "reply no"
        self.add(f"requester {wish}", loan)

    def deed(self, deed, loan):
        """Adds a deed of the responder, on some day."""
        day = 20250301 + self.draw.randrange(20)
        if deed in ("ship", "renew-answer yes"):
            deed += f" {day + self.draw.randrange(9)}"
        self.counts["responder", loan] += 1
        self.add(f"responder {day} {deed}", loan)

    def passes(self, side, numbers, loan):
        """Adds lines by which these messages of a side are sent and delivered."""
        other = SIDES[side == "requester"]
        for number in numbers:
            self.add(f"send {side} {number}", loan)
            self.add(f"deliver {other} {number}", loan)

    def event(self, loan):
        """Adds lines for a random event: of a library, of the transport, of a store, or a crash."""
        side, kind = self.draw.choice(SIDES), self.draw.random()
        if kind < 0.2:
            self.wish(self.draw.choice(WISHES), loan)
        elif kind < 0.45:
            self.deed(self.draw.choice(DEEDS), loan)
        elif kind < 0.6:
            self.add(f"save {side}", loan)
            self.passes(side, range(1, NUMBERS + 1), loan)
        elif kind < 0.75:
            self.add(f"save {side}", loan)
            self.passes(side, [self.draw.randint(1, NUMBERS)], loan)
        elif kind < 0.9:
            self.add(f"deliver {side} {self.draw.randint(1, NUMBERS)}", loan)
        elif kind < 0.95:
            self.add(f"save-fault {side} {self.draw.choice(('old', 'new'))}", loan)
        else:
            self.add(f"restart {side}", loan)

    def round(self):
        """Adds the lines of a round of each loan, and a line for each loan that shows its states."""
        for side in SIDES:
            self.add(f"save {side}", 1)
            for loan in range(1, self.loans + 1):
                self.passes(side, range(1, min(self.counts[side, loan], 255) + 1), loan)
        for loan in range(1, self.loans + 1):
            self.add("noise requester none", loan)


def drawn(seed, loans):
    """Returns a script that is drawn from a seed."""
    script = Script(random.Random(seed), loans)
    for loan in range(1, loans + 1):
        if script.draw.random() < 0.95:
            script.wish(f"request {script.draw.choice(('none', '20250310'))} Maps", loan)
    for _ in range(script.draw.choice((5, 20, 60)) * loans):
        script.event(script.draw.randint(1, loans))
    script.round()
    return script


def worked(lines):
    """Returns the script of these lines, with a round after them."""
    script = Script(random.Random(0), 1)
    script.lines = list(lines)
    script.counts["requester", 1] = script.counts["responder", 1] = len(lines)
    script.round()
    return script


def judge(program, script, pairs):
    """Performs a script. Returns a list of the pairs of states in which its loans end, and a list of what is wrong.
    `pairs` are the converged pairs. If the program fails, the first list is empty."""
    words = ["simulate", "G1", "T1"] if script.loans == 1 else ["simulate-desks"]
    text = "".join(f"{line}\n" for line in script.lines)
    ran = program.run(words, piped=text.encode())
    if ran.status:
        return [], [f"exit {ran.status}: {ran.errors.decode().strip()}"]
    met, wrong = [], []
    for line in ran.output.decode().splitlines()[-script.loans:]:
        seen = line.split()
        here, due, there, granted = seen[3], seen[4], seen[7], seen[8]
        met.append((here, there))
        if (here, there) not in pairs:
            wrong.append(f"no pair: {line}")
        elif due != granted and here not in ("RECALL", "RETURNED"):
            wrong.append(f"two due dates: {line}")
    return met, wrong


def main(path, count="10000", seed="1"):
    """Performs the scripts of `WORKED`, `count` scripts of one loan, and a tenth as many of three loans. `seed` is that
    of the first script. Returns the exit status."""
    program, count, seed = harness.Program(path), int(count), int(seed)
    pairs, met, failed = harness.converged_pairs(), collections.Counter(), 0
    named = [(name, worked(lines)) for name, lines in WORKED.items()]
    named += [(f"seed {seed + i}, one loan", drawn(seed + i, 1)) for i in range(count)]
    named += [(f"seed {seed + i}, three loans", drawn(seed + i, 3)) for i in range(count // 10)]
    with concurrent.futures.ThreadPoolExecutor(os.cpu_count()) as lanes:
        for (name, script), (found, wrong) in zip(named, lanes.map(lambda it: judge(program, it[1], pairs), named)):
            met.update(found)
            for what in wrong:
                failed += 1
                print(f"FAILED: {name}: {what}")
    for pair in sorted(pairs - met.keys()):
        failed += 1
        print(f"FAILED: no loan was {pair[0]} beside {pair[1]}")
    print("; ".join(f"{here} beside {there} {n}" for (here, there), n in sorted(met.items())))
    print(f"{'FAILED' if failed else 'ok'}: {len(named)} scripts, {sum(met.values())} loans, {len(met)} pairs")
    return 1 if failed else 0
