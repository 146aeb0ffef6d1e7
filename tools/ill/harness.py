"""What the tests of the built program share: folders, a table, runs of a program, verdicts, tasks side by side, helpers
in C, and stops at calls.

A test compares what has come with what is expected, and reports it with a `Report`: a line `ok: NAME`, or a line
`FAILED: NAME:` that shows what came. A run is judged by its status and by the bytes of both its streams.

`Disk` and `stops` are for tools/stop-nth.c: a program is stopped at each of its calls of the system, and may lose what
was not flushed.
"""
import collections
import contextlib
import dataclasses
import errno
import importlib.machinery
import importlib.util
import itertools
import multiprocessing
import multiprocessing.connection
import os
import re
import shutil
import signal
import subprocess
import sys
import tempfile
import threading
import time

TOP = os.path.dirname(os.path.dirname(os.path.dirname(os.path.realpath(__file__))))
TOOLS = os.path.join(TOP, "tools")
TIMED_OUT = 124  # the status of a run that takes too long
NO_FOLDER = "no folder of its own: "  # how the fault of a script begins that gets none
CLOSED = "closed"  # in place of a stream that the command does not get
FULL = "/dev/full"  # a device on which each write fails, since it is full
# How long a run may take. Programs without proof are slow, so `make test` gives them more.
SECONDS = int(os.environ.get("ILL_SECONDS", "60"))
# The gate tries each stop at a call, and `make test` every STOP_STEP-th.
STOP_STEP = int(os.environ.get("ILL_STOP_STEP", "1"))
# True in `make test`, which leaves to the gate what takes a program without proof minutes.
IS_SHORT = "ILL_SHORT" in os.environ
FORK = multiprocessing.get_context("fork")
STARTS = 20  # how often a command is started while the machine has no room for a process, a quarter of a second apart


# ---- Folders and files

@contextlib.contextmanager
def own_folder(in_memory=False):
    """Gives the path of a new folder, which goes at the end. It lies in TMPDIR, if that is set; else `in_memory` has it
    lie in memory, if there is such a folder. Ends the script with status 2 if no folder can be made there."""
    memory = "/dev/shm" if in_memory and os.access("/dev/shm", os.W_OK) else None
    try:
        folder = os.path.realpath(tempfile.mkdtemp(dir=os.environ.get("TMPDIR") or memory))
    except OSError as error:
        print(f"{NO_FOLDER}{error}", file=sys.stderr)
        sys.exit(2)
    try:
        yield folder
    finally:
        shutil.rmtree(folder, ignore_errors=True)


def apart(part, folder, *words):
    """Performs a part of a script in a process of its own, in a new folder. Returns its exit status."""
    def perform():
        """Performs the part in the new folder, and ends the process with its status."""
        os.mkdir(folder)
        os.chdir(folder)
        sys.exit(part(*words))

    process = FORK.Process(target=perform)
    sys.stdout.flush()
    process.start()
    process.join()
    return process.exitcode


def all_apart(parts, chosen, folder, program, *words):
    """Performs the chosen parts of a script on a program, each apart in a new folder below `folder`. Returns the exit
    status. Ends the script if there is no such program."""
    program = os.path.realpath(program)
    if not os.access(program, os.X_OK):
        sys.exit(f"{program} is no program")
    statuses = [apart(parts[part], os.path.join(folder, part), program, *words) for part in dict.fromkeys(chosen)]
    return 1 if any(statuses) else 0


def read(path):
    """Returns the bytes of a file."""
    with open(path, "rb") as file:
        return file.read()


def write(path, contents):
    """Makes a file of these bytes, or of this text."""
    with open(path, "wb") as file:
        file.write(as_bytes(contents))


def remove(*paths):
    """Removes files, links and folders, if they are there."""
    for path in paths:
        if os.path.isdir(path) and not os.path.islink(path):
            shutil.rmtree(path)
        elif os.path.lexists(path):
            os.remove(path)


def as_bytes(text):
    """Returns the bytes of a text. Bytes stay."""
    return text.encode() if isinstance(text, str) else text


def load(name):
    """Returns a script of tools/ as a module."""
    loader = importlib.machinery.SourceFileLoader(name, os.path.join(TOOLS, name))
    module = importlib.util.module_from_spec(importlib.util.spec_from_loader(name, loader))
    sys.dont_write_bytecode = True
    loader.exec_module(module)
    return module


def build(source, folder, *options):
    """Compiles a helper of tools/, or another source, into a library that can be preloaded. Returns the path of the
    library. Ends the script with status 1 if the compiler fails."""
    name = os.path.splitext(os.path.basename(source))[0]
    path = os.path.join(folder, f"{name}.so")
    compiler = os.environ.get("CC", "cc").split()
    source = os.path.join(TOOLS, source)
    if subprocess.run([*compiler, "-O1", *options, "-shared", "-fPIC", "-o", path, source], check=False).returncode:
        sys.exit(1)
    return path


def build_stop_nth(folder):
    """Compiles tools/stop-nth.c into a library in this folder, and returns its path."""
    return build("stop-nth.c", folder, "-U_FORTIFY_SOURCE")


# ---- A table

STATES = ("IDLE PENDING IN-PROCESS CONDITIONAL CANCEL-PENDING CANCELLED NOT-SUPPLIED SHIPPED RECEIVED RENEW/PENDING "
          "OVERDUE RENEW/OVERDUE NOT-RECEIVED/OVERDUE RECALL RETURNED CHECKED-IN").split()
# A state as a whole word of a text: `OVERDUE` is not found in `RENEW/OVERDUE`.
STATE = re.compile("|".join(rf"(?<![-/A-Z]){re.escape(state)}(?![-/A-Z])" for state in STATES))


def converged_pairs():
    """Returns the pairs of states (requester, responder) in docs/PROTOCOL.md's table of converged pairs."""
    part = read(os.path.join(TOP, "docs", "PROTOCOL.md")).decode()
    part = part.partition("### A converged pair of states")[2].partition("\n#")[0]
    pairs = set()
    for line in part.splitlines():
        cells = [STATE.findall(cell) for cell in line.split("|")[1:3]]
        if len(cells) == 2:
            pairs.update(itertools.product(*cells))
    return pairs


# ---- Runs

@dataclasses.dataclass
class Done:
    """What a run has left: its status, and the bytes of its streams. A signal is a status below 0."""
    status: int
    output: bytes
    errors: bytes


def words_of(words):
    """Returns words as a list. A text is split at its spaces."""
    return words.split() if isinstance(words, str) else list(words)


def _source(given, stack):
    """Returns standard input as `subprocess` takes it. `given` is bytes, a path, a descriptor, or None for empty input.
    `stack` closes what is opened."""
    if given is None:
        return subprocess.DEVNULL
    if isinstance(given, bytes):
        file = stack.enter_context(tempfile.TemporaryFile())
        file.write(given)
        file.seek(0)
        return file
    if isinstance(given, str):
        descriptor = os.open(given, os.O_RDONLY)
        stack.callback(os.close, descriptor)
        return descriptor
    return given


def _sink(sink, stack):
    """Returns standard output or standard error as `subprocess` takes it. `sink` is None for a pipe that is read to its
    end, a path or a descriptor. `stack` closes what is opened."""
    if sink is None:
        return subprocess.PIPE
    if isinstance(sink, str):
        return stack.enter_context(open(sink, "wb"))
    return sink


def _perform(command, **how):
    """Runs a command, and returns the completed process. It is started again if the machine has no room for a process.
    Ends the script if no start helps: then no program was tried."""
    for left in itertools.count(STARTS, -1):
        try:
            return subprocess.run(command, check=False, **how)
        except OSError as error:
            if left == 1 or error.errno not in (errno.EAGAIN, errno.ENOMEM):
                sys.exit(f"{command[0]} cannot be started: {error}")
        time.sleep(0.25)


def run(command, given=None, *, piped=None, output=None, errors=None, limit=SECONDS, before=None, **more):
    """Runs a command to its end, and returns what it has left.

    `given` is standard input: none, bytes, which stand in a file, the path of a file, a descriptor, or CLOSED. `piped`
    has bytes that come in a pipe instead. `output` and `errors` may be CLOSED, a path or a descriptor; what goes there
    is not returned. A run that takes more than `limit` seconds is ended, with the status TIMED_OUT. `before` is called
    in the new process before the command.
    """
    streams = [given, output, errors]

    def settle():
        """Closes the streams that are CLOSED, and calls `before`, in the new process."""
        for descriptor, stream in enumerate(streams):
            if stream == CLOSED:
                os.close(descriptor)
        if before:
            before()

    with contextlib.ExitStack() as stack:
        if piped is None:
            more["stdin"] = None if given == CLOSED else _source(given, stack)
        else:
            more["input"] = piped
        try:
            done = _perform(
                command, stdout=None if output == CLOSED else _sink(output, stack),
                stderr=None if errors == CLOSED else _sink(errors, stack),
                preexec_fn=settle if before or CLOSED in streams else None, timeout=limit, **more)
        except subprocess.TimeoutExpired as late:
            return Done(TIMED_OUT, late.stdout or b"", late.stderr or b"")
        return Done(done.returncode, done.stdout or b"", done.stderr or b"")


def run_held(command, given, **more):
    """Runs a command whose standard input is a pipe that has these bytes, and stays open until the command ends.
    Returns what the command has left."""
    reading, writing = os.pipe()

    def fill():
        """Writes the bytes into the pipe, until all are there or nobody reads it."""
        with contextlib.suppress(BrokenPipeError):
            rest = memoryview(given)
            while rest:
                rest = rest[os.write(writing, rest):]

    writer = threading.Thread(target=fill)
    writer.start()
    try:
        return run(command, reading, **more)
    finally:
        os.close(reading)
        writer.join()
        os.close(writing)


def run_unread(command, given, **more):
    """Runs a command whose standard output is a pipe that nobody reads. Returns what the command has left."""
    reading, writing = os.pipe()
    os.close(reading)
    try:
        return run(command, given, output=writing, **more)
    finally:
        os.close(writing)


class Program:
    """A program that is tested, at its path. A run of it may take `limit` seconds."""

    def __init__(self, path, limit=SECONDS):
        """Keeps the whole path of the program, and the limit of seconds of a run."""
        self.path, self.limit = os.path.realpath(path), limit

    def command(self, words):
        """Returns the command line of the program with these words."""
        return [self.path, *words_of(words)]

    def run(self, words, given=None, **more):
        """Runs the program with these words, and returns what it has left. The parameters are those of the function
        `run`."""
        return run(self.command(words), given, **{"limit": self.limit, **more})

    def well(self, words, given=None, **more):
        """Runs the program, which has to end with status 0, and returns its output. Else ends the script."""
        done = self.run(words, given, **more)
        if done.status:
            print(f"FAILED: ill {' '.join(words_of(words))} in the making: {short(done.output + done.errors)}")
            sys.exit(1)
        return done.output


# ---- Verdicts

def short(value, most=160):
    """Returns the beginning of a value, quoted in one line of at most `most` characters."""
    text = value.decode(errors="backslashreplace") if isinstance(value, bytes) else value
    text = repr(text)
    return text if len(text) <= most else text[:most] + ".."


def differs(what, found, wanted):
    """Returns None if both are equal, or else a text that shows them."""
    return None if found == wanted else f"{what} {short(found)} in place of {short(wanted)}"


def lacks_prefix(what, found, prefix):
    """Returns None if `found` begins with `prefix`, or else a text that shows them."""
    return None if found.startswith(prefix) else f"{what} {short(found)}, which does not begin with {short(prefix)}"


def faults_of(done, status, output, errors):
    """Yields the faults of a run, with None for what is right. `output` and `errors` are all the bytes of a stream; or
    a text, which is its prefix; or None for anything."""
    yield differs("status", done.status, status)
    for what, found, wanted in (("output", done.output, output), ("errors", done.errors, errors)):
        if isinstance(wanted, str):
            yield lacks_prefix(what, found, wanted.encode())
        elif wanted is not None:
            yield differs(what, found, wanted)


class Wrong(Exception):
    """What a run, or a stop, has done wrong."""


def expect(is_so, what):
    """Raises `Wrong` with the text `what`, unless `is_so` is true."""
    if not is_so:
        raise Wrong(what)


class Report:
    """Reports what came of each case, and remembers if one has failed."""

    def __init__(self):
        """Begins without a failure."""
        self.failed = False

    def case(self, name, *faults):
        """Prints a line for a case, which succeeds if there are no faults but None. Returns True if it is."""
        faults = [fault for fault in faults if fault]
        if faults:
            self.fail(f"{name}: {'; '.join(faults)}")
        else:
            print(f"ok: {name}", flush=True)
        return not faults

    def fail(self, text):
        """Prints that this has failed. The script's status is 1 then."""
        print(f"FAILED: {text}", flush=True)
        self.failed = True

    def run(self, name, done, status, output, errors):
        """Reports a case whose run has to have this status and these streams, as `faults_of` says."""
        return self.case(name, *faults_of(done, status, output, errors))

    def same(self, name, found, wanted):
        """Reports a case that succeeds if both values are equal."""
        return self.case(name, differs("it is", found, wanted))

    def holds(self, name, is_so, why):
        """Reports a case that succeeds if `is_so` is true; `why` is its fault else."""
        return self.case(name, None if is_so else why)

    @staticmethod
    def skip(name, why):
        """Prints that a case cannot be tried here, and why."""
        print(f"skipped: {name}: {why}", flush=True)

    def status(self):
        """Returns the exit status of the script."""
        return 1 if self.failed else 0


# ---- Tasks side by side


class Task:
    """A function that is called with `words` in a process of its own. Its answer is whether it succeeded, and what to
    say of it."""

    def __init__(self, name, function, *words):
        """Keeps the name, the function and its words. `is_second` is set once a signal has ended the process."""
        self.name, self.function, self.words = name, function, words
        self.is_second = False

    def start(self):
        """Starts the process. Returns the pipe through which the answer comes."""
        receiver, sender = FORK.Pipe(duplex=False)
        self.process = FORK.Process(target=lambda: sender.send(self.function(*self.words)), daemon=True)
        sys.stdout.flush()
        self.process.start()
        sender.close()
        return receiver

    def end(self, receiver):
        """Returns the answer. If a signal has ended the process, nothing was judged: returns None the first time, and a
        failure the second time."""
        with receiver:
            try:
                return receiver.recv()
            except EOFError:
                pass
            finally:
                self.process.join()
        status = self.process.exitcode
        if status < 0 and not self.is_second:
            self.is_second = True
            print(f"again: {self.name}: signal {-status} has ended its process", file=sys.stderr, flush=True)
            return None
        return False, f"its process has given no answer, and ended with {status}"


def side_by_side(tasks, workers):
    """Performs tasks, `workers` of them at a time. Yields each with its answer, in their order. A task whose process a
    signal ends is performed once more."""
    waiting, running, answers = collections.deque(tasks), {}, {}
    for task in tasks:
        while task not in answers:
            while waiting and len(running) < workers:
                begun = waiting.popleft()
                running[begun.start()] = begun
            for receiver in multiprocessing.connection.wait(list(running)):
                ended = running.pop(receiver)
                answer = ended.end(receiver)
                if answer is None:
                    waiting.appendleft(ended)
                else:
                    answers[ended] = answer
        yield task, answers[task]


def report_all(tasks, workers):
    """Performs tasks, `workers` of them at a time, and prints a line for each. Returns the exit status of the
    script."""
    fine = True
    for task, (well, text) in side_by_side(tasks, workers):
        print(f"{'ok' if well else 'FAILED'}: {task.name}: {text}", flush=True)
        fine &= well
    return 0 if fine else 1


# ---- Stops at calls of the system

# What a loss of power takes of what was not flushed: bytes, a name that stood for a file, and a name that stood for
# nothing. A run is killed after a call, and then loses these.
LOSSES = {"lost": ("bytes",), "undone": ("name", "none"), "gone": ("bytes", "name", "none")}
KILLED = -signal.SIGKILL


class Disk:
    """The folder of what is not flushed, as tools/stop-nth.c says. Names are those of files in the folder `at`."""

    def __init__(self, folder, at):
        """Makes the folder of what is not flushed, if it is not there."""
        self.folder, self.at = folder, at
        os.makedirs(folder, exist_ok=True)

    def settle(self):
        """Lets all that was written be on the disk: empties the folder. A run that goes on beside may remove a file
        first."""
        for name in os.listdir(self.folder):
            with contextlib.suppress(FileNotFoundError):
                remove(os.path.join(self.folder, name))

    def lose(self, kinds):
        """Loses what was not flushed of these kinds, in their order, as when the power goes."""
        kept = sorted(os.listdir(self.folder))
        for kind in kinds:
            for name in [name for name in kept if name.startswith(kind + "-")]:
                self._lose(kind, os.path.join(self.folder, name), os.path.join(self.at, name[5:].replace("\1", "/")))

    def _lose(self, kind, path, there):
        """Loses one thing of this kind, kept at `path`, of the file `there`. Bytes are cut off; a name leads to its old
        file again; a name that led to nothing is removed."""
        if kind == "bytes":
            size = int(read(path.replace("/bytes-", "/size-")))
            if os.stat(path).st_size > size:
                os.truncate(path, size)
        elif kind == "name":
            os.makedirs(os.path.dirname(there), 0o700, exist_ok=True)
            if not (os.path.lexists(there) and os.path.samestat(os.lstat(path), os.lstat(there))):
                os.rename(path, there)
        else:
            remove(there)


def stops(calls, hows, is_tried):
    """Yields (way, number of a call, call) for each way of `hows` and each call for which `is_tried` returns true. Of
    these it yields every STOP_STEP-th."""
    tried = ((how, number, call) for how in hows for number, call in enumerate(calls, 1) if is_tried(how, call))
    return itertools.islice(tried, 0, None, STOP_STEP)
