"""Crashes of `inbox`, `outbox` and `exchange`, and of commands on a shelf, and faults, at each call of the system in turn;
and losses of power.

Each of the nights below is killed before, after and within each call, without and with the loss
of what was not flushed; and each call fails, by each of some faults, or all from one on. Each time

- FILE has one of the records that the night makes one after another, whole;
- each message file is in its folder, or claimed, or quarantined, or what it changes is saved;
- what was taken stands in FILE.came, which has nothing else but perhaps a part of a message at its end;
- each message that has left is whole, with its own bytes, and stands in the copy, also after a loss of the bytes that
  were not flushed; so does each reason why a message file was quarantined;
- nothing is printed that is not saved.

Then the night runs again, and all is as if it had never been stopped. On a shelf that holds of each desk with the
message files of its group; no loan begins at the shelf's own desk; a new group is begun whole or not at all; and a
group that is printed as retired has its mark, and never a desk again. It prints a line for each night; exit 1 if one
fails. It is a part of tools/crash.
"""
import hashlib
import itertools
import os
import shutil
import subprocess
import sys

from ill import harness
from ill.der import element, messages_of, request, shipped, encode
from ill.harness import LOSSES, Wrong, expect, read, write

KILLS = ("before", "after", "half")
FAULTS = ("EIO", "ENOSPC", "EDQUOT", "ENOMEM", "EINTR", "EPERM", "EACCES", "EINVAL", "ENFILE", "EMFILE", "short", "broken")
# The calls that may fail so; the others fail by EIO, ENOSPC and ENOMEM alone, and `broken` is of any.
TRIED = {"half": ("write",), "short": ("write", "read"), "EINTR": ("open", "read", "write", "fsync", "rename"),
         "EDQUOT": ("open", "write", "rename", "link", "mkdir"),
         "EPERM": ("open", "lstat", "rename", "link", "unlink", "lchown", "chgrp"),
         "EACCES": ("open", "openat", "lstat", "rename", "link", "unlink", "mkdir", "rmdir"), "EINVAL": ("fsync", "rename"),
         "ENFILE": ("open",), "EMFILE": ("open",)}


def is_tried(how, call):
    """Returns true if a call may be stopped or fail in the way `how`."""
    return how not in TRIED or call.split(" ")[0] in TRIED[how]


def is_new(name):
    """Returns true if a file of OUT is the new file of a message file, which a crash may leave."""
    return name.startswith("out/.")


def new_of(name):
    """Returns the path of the new file of the message file of this name in OUT."""
    return "out/." + name.removeprefix("out/")


def expect_reasons(files):
    """Expects beside each message file that was quarantined the file of its reason."""
    for path in files:
        if ".mail/aside/" in path and not path.endswith(".why") and len(os.path.basename(path)) == 64:
            expect(files.get(path + ".why"), f"{path} has no reason")


class Night:
    """A night at a desk: its words, its message files, and what becomes of each. A message file is `taken`, `done`,
    which repeats and asks, or `left`; any other word is why it is quarantined."""

    hows = (*KILLS, *LOSSES, *FAULTS)

    def __init__(self, program, shim, folder, words, message_files, claimed=()):
        """Makes the folder `template`, of which each run gets a copy. `claimed` names the message files that a killed
        run has claimed."""
        self.program, self.shim, self.folder, self.words = program, shim, folder, words
        self.message_files, self.claimed = message_files, dict(claimed)
        self.template, self.at = (os.path.join(folder, name) for name in ("template", "at"))
        self.log = os.path.join(folder, "log")
        for name in ("in", "out"):
            os.makedirs(os.path.join(self.template, name))
        self.disk = harness.Disk(os.path.join(folder, "disk"), self.at)

    def ill(self, *words, given=b"", cwd=None):
        """Runs the program, which has to end with status 0, and returns its output."""
        done = subprocess.run([self.program, *words], cwd=cwd or self.template, input=given, capture_output=True)
        if done.returncode:
            sys.exit(f"ill {words} in the making: {done.stderr}")
        return done.stdout

    def write(self, name, contents):
        """Writes a file of the template, and makes the folders that it lies in."""
        path = os.path.join(self.template, name)
        os.makedirs(os.path.dirname(path), exist_ok=True)
        if ".mail/" in name:
            os.chmod(os.path.join(self.template, name[:name.index(".mail/")] + ".mail"), 0o700)
        write(path, contents)

    def settle_in(self, steps):
        """Puts the message files where they are before the night, with what an earlier crash has left beside. Finds the
        records: that of now, and that after each of these steps. A step is a list of pairs of words and input."""
        self.records = [self.read(self.template, "loan")]
        for step in steps:
            scratch = os.path.join(self.folder, "scratch")
            shutil.copytree(self.template, scratch)
            for words, given in step:
                self.ill(*words, given=given, cwd=scratch)
            self.records.append(self.read(scratch, "loan"))
            shutil.copy(os.path.join(scratch, "loan"), os.path.join(self.template, "loan"))
            shutil.rmtree(scratch)
        self.write("loan", self.records[0])
        for name, (file, _) in self.message_files.items():
            self.write("loan.mail/in/0000000001/" + name if name in self.claimed else "in/" + name, file)
        self.write("loan.new", b"ILL1")

    @staticmethod
    def read(folder, name):
        """Returns the bytes of a file in a folder."""
        return read(os.path.join(folder, name))

    def begin(self):
        """Makes a fresh copy of the template, all of it flushed."""
        shutil.rmtree(self.at, ignore_errors=True)
        shutil.copytree(self.template, self.at)
        self.disk.settle()
        harness.remove(self.log)

    def run(self, stop=None, how=None):
        """Performs the night in the fresh copy. If `stop` is given, it is stopped at the call with this number in the
        way `how`. Returns its status, its output and its errors."""
        known = dict(os.environ, LD_PRELOAD=self.shim, STOP_DISK=self.disk.folder, STOP_LOG=self.log)
        if stop:
            known |= dict(STOP=str(stop), STOP_HOW=how)
        done = harness.run([self.program, *self.words], cwd=self.at, env=known)
        return done.status, done.output, done.errors

    def files(self):
        """Returns all files of the copy: path -> bytes."""
        return {os.path.relpath(os.path.join(path, name), self.at): self.read(path, name)
                for path, _, names in os.walk(self.at) for name in names}

    def leave_over(self):
        """Performs the night once, to learn which message files it sends. Puts the new file of each into OUT of the
        template, as an earlier crash leaves it."""
        self.begin()
        self.run()
        for name in self.files():
            if name.startswith("out/"):
                self.write(new_of(name), b"ILL1")

    def run_whole(self):
        """Performs the whole night, and keeps what it prints and its calls of the system."""
        self.leave_over()
        self.begin()
        self.whole = self.run()
        self.calls = read(self.log).decode().splitlines()

    def prepare(self):
        """Performs the whole night, and keeps its end. Finds the records of nights in which message files are left
        out."""
        self.run_whole()
        self.end = self.files()
        self.judge_end()
        if self.records[-1] != self.end["loan"]:
            sys.exit(f"{self.words}: a whole night makes another record")
        self.parts = [record for record in self.find_parts() if record not in self.records]

    def find_parts(self):
        """Yields the records of nights in which some of the message files that are taken are left out, also none or
        all. Of each there is the record that `inbox` makes, and that of the whole night."""
        taken = [name for name, (_, fate) in self.message_files.items() if fate == "taken"]
        for some in itertools.product((False, True), repeat=len(taken)):
            for words in (["inbox", "loan", "in"], self.words):
                self.begin()
                for name, is_out in zip(taken, some):
                    if is_out:
                        os.remove(os.path.join(self.at, "loan.mail/in/0000000001" if name in self.claimed else "in", name))
                subprocess.run([self.program, *words], cwd=self.at, capture_output=True, stdin=subprocess.DEVNULL)
                yield self.read(self.at, "loan")

    def judge(self, how, output, is_part):
        """Judges what a stop in the way `how` has left: the record, each message file, FILE.came, OUT and the copy.
        `output` is what was printed. If `is_part`, some message files may be left out, which could not be claimed or
        read."""
        files = self.files()
        expect(files.get("loan") in self.records + (self.parts if is_part else []), "FILE has another record")
        at = 1 if files["loan"] in self.parts else self.records.index(files["loan"])
        taken = [file for file, fate in self.message_files.values() if fate == "taken"]
        came, rest = messages_of(files.get("loan.came", b""))
        for name, (file, fate) in self.message_files.items():
            is_there = any(body == file for path, body in files.items() if path.startswith(("in/", "loan.mail/")))
            is_done = fate == "done" or fate == "taken" and at > 0 and file in came
            expect(is_there or is_done, f"the message file {name} is lost")
        expect(set(came) <= set(taken) and any(file.startswith(rest) for file in taken + [b""]), "FILE.came has something else")
        expect(at == 0 or is_part or set(taken) <= set(came), "a message is taken, and not in FILE.came")
        out = {name: body for name, body in files.items() if name.startswith("out/") and not is_new(name)}
        for name, body in out.items():
            expect(body and (body == self.end.get(name) or is_part), f"{name} is not whole")
        expect_reasons(files)
        if "--copy" in self.words:
            expect(not out or files.get("copy") == files["loan"], "what has left is not in the copy")
            expect(files.get("copy") in [None, *self.records, *self.parts], "the copy is not whole")
        if is_part:
            return
        expect(not output.endswith(b"\n") or output in self.prefixes(), "other lines are printed")
        expect(at > 0 or len(self.records) == 1 or b"\ntaken " not in output, "it is printed, and not saved")

    def prefixes(self):
        """Returns the outputs of the whole night up to each of its lines."""
        lines = self.whole[1].splitlines(True)
        return [b"".join(lines[:count]) for count in range(len(lines) + 1)]

    def judge_end(self):
        """Expects that all is done: nothing is left over, and each message file is where it belongs. Returns the
        files."""
        files = self.files()
        left = {path for path in files if path.endswith((".new", ".lck")) or is_new(path)}
        if len(self.records) == 1:
            left.discard("loan.new")  # only who saves removes it
        expect(not left, f"left: {left}")
        for name, (file, fate) in self.message_files.items():
            if fate in ("taken", "done"):
                expect(file not in [body for path, body in files.items() if path.startswith(("in/", "loan.mail/in/"))],
                       f"the message file {name} is not removed")
            elif fate == "left":
                expect(files.get("in/" + name) == file, f"the message file {name} is not back in its folder")
            else:
                place = "loan.mail/aside/" + hashlib.sha256(file).hexdigest()
                expect(files.get(place) == file, f"the message file {name} is not quarantined")
                why = files.get(place + ".why")
                expect(why == fate.encode() + b"\n", f"why is {name} quarantined: {why}")
        return files

    def judge_again(self):
        """Performs the night again. Message files that ask come again too, if they are done. Expects the files of a
        night that was never stopped."""
        status, output, errors = self.run()
        expect(status == self.whole[0] or status == 0 and self.whole[0] == 1, f"again: {status}, {errors}")
        asking = [(name, file) for name, (file, fate) in self.message_files.items() if fate == "done"]
        for name, file in asking:
            write(os.path.join(self.at, "in", name), file)
        if asking:
            self.run()
        files, end = self.judge_end(), dict(self.end)
        came = messages_of(files.pop("loan.came", b""))
        expect(set(came[0]) == set(messages_of(end.pop("loan.came", b""))[0]) and not came[1], "again: FILE.came is another")
        diary, whole = files.pop("loan.diary", b""), end.pop("loan.diary", b"")
        expect(set(diary.splitlines(True)) <= set(whole.splitlines(True)), "again: FILE.diary has another line")
        files.pop("loan.new", None), end.pop("loan.new", None)
        expect(files == end, f"again: another end: {sorted(name for name in files | end if files.get(name) != end.get(name))}")

    def stop(self, number, how):
        """Stops the night at the call with this number, in the way `how`. Judges its status, what is left, and the
        night after it."""
        self.begin()
        status, output, errors = self.run(number, "after" if how in LOSSES else how)
        is_part = how in FAULTS and (how == "broken" or self.may_leave_out(self.calls[number - 1]))
        if how in FAULTS:
            expect(status in (self.whole[0], 3) or is_part and status in (0, 1), f"status {status}, {errors}")
            last = errors.splitlines()[-1:] or [b""]
            is_said = last[0] in (b"ill: store failed", b"ill: left", b"ill: memory", b"ill: write")
            expect(status != 3 or is_said or self.calls[number - 1] == "write errors", f"it says {errors}")
            expect(b"ERROR: AddressSanitizer" not in errors, "a bad access")
        else:
            expect(status == harness.KILLED, f"it was not killed, but ended with {status}")
            self.disk.lose(LOSSES.get(how, ()))
        self.judge(how, output, is_part)
        self.judge_again()

    @staticmethod
    def may_leave_out(call):
        """Returns true if a message file may be left out when this call fails."""
        return "in/" in call

    def perform(self, name):
        """Stops the night at each call, in each way. Prints what came of it. Returns true if all succeeded."""
        runs, bad = 0, []
        for how, number, call in harness.stops(self.calls, self.hows, is_tried):
            runs += 1
            try:
                self.stop(number, how)
            except (Wrong, OSError) as wrong:
                bad.append(f"{name}, {how} at call {number}, {call}: {wrong}")
        for line in bad:
            print("FAILED:", line)
        if not bad:
            print(f"ok: {name}, {runs} runs with each of {len(self.calls)} calls: {' '.join(self.hows)}")
        return not bad


class ShelfNight(Night):
    """A night of the shelf `s`. Its message files have their paths; with each stand its bytes, what becomes of it, and
    the desk that takes it or quarantines it. A message file of a retired group is `gone` if it is answered, and
    `printed` if not."""

    hows = (*KILLS, *LOSSES, "EIO", "EACCES", "short", "broken")

    def __init__(self, program, shim, folder, words, role, message_files=()):
        """Makes the template with a new shelf of this role. `own` is the path of the shelf's own desk, which has no
        loans. `again` has further statuses that the night may have when it runs again."""
        super().__init__(program, shim, folder, words, dict(message_files))
        self.role, self.own, self.again = role, "s/.shelf", ()
        self.ill("shelf", "new", "s", role)

    def record_with(self, name, message_files):
        """Returns the record that a desk of the template, or a new one, has after `ill take` of these message files."""
        scratch = os.path.join(self.folder, "scratch")
        if os.path.exists(os.path.join(self.template, name)):
            shutil.copy(os.path.join(self.template, name), scratch)
        else:
            self.ill("new", scratch, self.role)
        subprocess.run([self.program, "take", scratch], input=b"".join(message_files), capture_output=True)
        record = self.read(self.folder, "scratch")
        os.remove(scratch)
        return record

    def settle_in(self):
        """Puts the message files where they are before the night, with what an earlier crash has left beside. Finds the
        records of each desk: that of now, that after its message files, and those after some of them."""
        self.desks, self.some = {self.own: [self.read(self.template, self.own)]}, {}
        for name in {desk for _, fate, desk in self.message_files.values() if fate == "taken"}:
            taken = self.taken_at(name)
            first = self.read(self.template, name) if os.path.exists(os.path.join(self.template, name)) else None
            begun = [] if first else [self.record_with(name, [])]
            self.desks[name] = [first] + begun + [self.record_with(name, taken)]
            self.some[name] = [self.record_with(name, part) for size in range(len(taken) + 1)
                               for part in itertools.combinations(taken, size)]
        for path, (file, _, _) in self.message_files.items():
            self.write(path, file)
        self.write("s/A.%s.new" % self.role, b"ILL1")

    def taken_at(self, name):
        """Returns the message files that a desk takes, in their order."""
        return [file for file, fate, desk in self.message_files.values() if fate == "taken" and desk == name]

    def prepare(self):
        """Performs the whole night, which has to leave the last record of each desk."""
        self.run_whole()
        self.end = self.judge_end()
        for name, records in self.desks.items():
            if self.end.get(name) != records[-1]:
                sys.exit(f"{self.words}: a whole night makes another record at {name}")

    @staticmethod
    def may_leave_out(call):
        """Returns true if a message file may be left out when this call fails: a message file that cannot be sorted
        is."""
        return not call.endswith(("output", "errors"))

    def judge(self, how, output, is_part):
        """Judges what a stop in the way `how` has left at each desk, in IN, OUT and the copies. `output` is what was
        printed. If `is_part`, some message files may be left out."""
        files = self.files()
        expect(files.get(self.own) == self.desks[self.own][0], "a loan begins at the shelf's own desk")
        saved = {}
        for name, records in self.desks.items():
            allowed = records + (self.some.get(name, []) if is_part else [])
            expect(files.get(name) in allowed, f"{name} has another record")
            saved[name] = files.get(name) not in records[:1] or len(records) == 1
            taken, (came, rest) = self.taken_at(name), messages_of(files.get(name + ".came", b""))
            is_prefix = any(file.startswith(rest) for file in taken + [b""])
            expect(set(came) <= set(taken) and is_prefix, f"{name}.came has others")
            is_all = files.get(name) == records[-1]
            expect(not is_all or is_part or set(taken) <= set(came), f"it is taken, and not in {name}.came")
        for path, (file, fate, desk) in self.message_files.items():
            is_there = any(body == file for at, body in files.items() if at.startswith("in/") or ".mail/" in at)
            is_taken = fate == "taken" and saved[desk] and file in files.get(desk + ".came", b"")
            is_done = fate in ("gone", "printed") or is_taken
            expect(is_there or is_done, f"the message file {path} is lost")
        for name, body in files.items():
            if name.startswith("out/") and not is_new(name):
                expect(body and (body == self.end.get(name) or is_part), f"{name} is not whole")
                desk = next((desk for desk in self.desks if element(0x81, desk[2:3].encode()) in body), None)
                is_copied = desk is None or files.get("copy" + desk[1:]) == files[desk]  # else it is the word of a mark
                expect(is_part or "--copy" not in self.words or is_copied, "what has left is not in the copy")
        expect_reasons(files)
        self.judge_marks(files, output)
        if not is_part:  # if the lines of a desk cannot be written, the others go on
            is_prefix = how in FAULTS or not output.endswith(b"\n") or output in self.prefixes()
            expect(is_prefix, "other lines are printed")
            for section in output.split(b"s/")[1:]:
                name, is_printed = "s/" + section.split(b":")[0].decode(), b" taken " in section.split(b"\ntaken ")[0]
                expect(not is_printed or saved[name], f"it is printed, and not saved at {name}")

    def judge_marks(self, files, output):
        """Expects that each mark has the last word of its group, and that the retired group R has no desk. A run that
        retires B leaves its mark, or all of its desk. What `output` prints is done in `files`."""
        for path, body in files.items():
            is_mark = body == b"retired\n" + of_group(path.split("/")[-1][:1].encode(), UNFILLED)
            expect(not path.endswith(".retired") or is_mark, f"{path} has another mark")
        expect("s/R.responder" not in files, "a retired group has a desk again")
        if self.words[1] == "retire":
            name = "s/B.responder"
            beside = [path for path in (name, name + ".came", name + ".mail/asked") if files.get(path)]
            expect(name + ".retired" in files or len(beside) == 3, f"without a mark there is only {beside}")
            is_retired = name + ".retired" in files and not beside
            expect(output != b"done\n" or is_retired, f"it says done, and left is {beside}")
        if self.words[1] == "act":
            expect(output != b"done PENDING - 1/1\n" or "s/N.requester" in files, "it is printed, and not saved")

    def judge_end(self):
        """Expects that all is done: nothing is left over, and each message file is where it belongs. Returns the
        files."""
        files = self.files()
        left = {path for path in files if path.endswith((".new", ".lck")) or is_new(path)}
        expect(left <= {"s/A.%s.new" % self.role}, f"left: {left}")
        for path, (file, fate, desk) in self.message_files.items():
            if fate in ("taken", "gone", "printed"):
                there = [at for at, body in files.items() if body == file and "in/" in at]
                expect(not there, f"the message file {path} is at {there}")
            elif fate == "left":
                expect(files.get(path) == file, f"the message file {path} is not back in its folder")
            else:
                place = f"{desk}.mail/aside/" + hashlib.sha256(file).hexdigest()
                expect(files.get(place) == file, f"the message file {path} is not quarantined")
                why = files.get(place + ".why")
                expect(why == fate.encode() + b"\n", f"why is {path} quarantined: {why}")
        return files

    @staticmethod
    def without_order(files):
        """Returns the files, with the messages of each .came as a set. What a crash may leave is left out, and each
        diary, which may lack lines."""
        return {name: set(messages_of(body)[0]) if name.endswith(".came") else body
                for name, body in files.items() if not name.endswith((".new", ".diary"))}

    def judge_again(self):
        """Performs the night again, with the message files of retired groups that a partner brings again. Expects the
        files of a night that was never stopped. Message files of a group that this night has retired begin nothing, and
        are answered."""
        for path, (file, fate, _) in self.message_files.items():
            if fate == "gone":
                write(os.path.join(self.at, path), file)
        status, _, errors = self.run()
        statuses = (self.whole[0], 0 if self.whole[0] == 1 else self.whole[0], *self.again)
        expect(status in statuses, f"again: {status}, {errors}")
        files, end = self.without_order(self.judge_end()), self.without_order(self.end)
        differing = sorted(name for name in files | end if files.get(name) != end.get(name))
        expect(not differing, f"again: another end: {differing}")
        if self.words[1] == "retire":
            write(os.path.join(self.at, "in", "again"), of_group(b"B", request(b"T1")))
            done = subprocess.run([self.program, "shelf", "inbox", "s", "in"], cwd=self.at, capture_output=True)
            expect(not done.stderr, f"a retired group: {done.stderr}")
            expect("s/B.responder" not in self.files(), "a retired group has a desk again")
            expect(self.files()["s/.unsorted.mail/asked"] == of_group(b"B", UNFILLED), "a retired group is not answered")


UNFILLED = encode(0x64, b"T1", 1, element(0x84, b"\3"))


def of_group(group, message):
    """Returns a message of the group G1 as one of a group of one letter."""
    version, number = message[2:5], message[7 + message[6]:]
    transaction = message[7:7 + message[6]].removeprefix(element(0x81, b"G1"))
    return element(message[0], version + element(0xA1, element(0x81, group) + transaction) + number)


def shelf_of_responder(program, shim, folder, *words):
    """Returns a night of a shelf of two desks and a retired group. A killed run has claimed a message file, and sorted
    another. A group is new. One message file alone begins a loan at each desk, so their order says nothing of the
    records."""
    message_files = {"s/.unsorted.mail/in/0000000001/a": (of_group(b"A", request(b"T2")), "taken", "s/A.responder"),
                     "s/B.responder.mail/in/0000000001/b": (of_group(b"B", request(b"T2")), "taken", "s/B.responder"),
                     "in/1": (of_group(b"A", encode(0x66, b"T1", 2)), "taken", "s/A.responder"),
                     "in/2": (of_group(b"N", request(b"T1")), "taken", "s/N.responder"),
                     "in/3": (b"junk", "short at 4", "s/.shelf"), "in/4": (of_group(b"R", request(b"T1")), "gone", ""),
                     "in/5": (of_group(b"X", shipped(b"T1")), "wrong-role", "s/.shelf"),
                     "in/6": (of_group(b"R", request(b"T9")), "printed", "")}
    night = ShelfNight(program, shim, folder, words, "responder", message_files)
    for group in ("A", "B", "R"):
        night.ill("shelf", "take", "s", given=of_group(group.encode(), request(b"T1")))
    night.ill("shelf", "act", "s", "R", "T1", "--today", "20250301", "answer", "unfilled")
    night.ill("shelf", "retire", "s", "R")
    night.settle_in()
    return night


def shelf_of_requester(program, shim, folder, *words):
    """Returns a night of a shelf of two desks, which sends. A killed run has claimed a message file, and one message
    file is of a group that the shelf lacks."""
    message_files = {"s/.unsorted.mail/in/0000000001/a": (of_group(b"A", shipped(b"T1")), "taken", "s/A.requester"),
                     "in/1": (of_group(b"B", shipped(b"T1")), "taken", "s/B.requester"),
                     "in/2": (b"junk", "short at 4", "s/.shelf"),
                     "in/3": (of_group(b"X", shipped(b"T1")), "left", "")}
    night = ShelfNight(program, shim, folder, words, "requester", message_files)
    for group in ("A", "B"):
        night.ill("shelf", "act", "s", group, "T1", "--new-group", "request", "none", "Maps")
    os.mkdir(os.path.join(night.template, "copy"))
    night.settle_in()
    return night


def shelf_that_retires(program, shim, folder, *words):
    """Returns a night of a shelf that retires a group whose loan is over. A message file was quarantined at its desk,
    and one asks in its loan."""
    night = ShelfNight(program, shim, folder, words, "responder")
    message = of_group(b"B", request(b"T1"))
    night.ill("shelf", "take", "--keep", "s", given=message)
    night.ill("shelf", "act", "s", "B", "T1", "--today", "20250301", "answer", "unfilled")
    night.write("s/B.responder.mail/asked", message)
    night.write("s/B.responder.mail/aside/mail", b"junk")
    night.settle_in()
    return night


def shelf_that_answers(program, shim, folder, *words):
    """Returns a night of a shelf of which two groups are retired, and a third is over. Message files have come that ask
    in loans of the two."""
    night = ShelfNight(program, shim, folder, words, "responder")
    for group in "BQR":
        night.ill("shelf", "take", "s", given=of_group(group.encode(), request(b"T1")))
        night.ill("shelf", "act", "s", group, "T1", "--today", "20250301", "answer", "unfilled")
    for group in "QR":
        night.ill("shelf", "retire", "s", group)
        night.write("in/" + group, of_group(group.encode(), request(b"T1")))
    night.ill("shelf", "inbox", "s", "in")
    night.settle_in()
    return night


def shelf_that_begins(program, shim, folder, *words):
    """Returns a night of a requester's shelf on which a group is begun. When it runs again, the action is refused."""
    night = ShelfNight(program, shim, folder, words, "requester")
    night.settle_in()
    scratch = os.path.join(night.folder, "scratch")
    night.ill("new", scratch, "requester")
    night.ill("act", scratch, "N", "T1", "request", "none", "Maps")
    night.desks["s/N.requester"], night.again = [None, night.read(night.folder, "scratch")], (1,)
    return night


def requester(program, shim, folder, *words):
    """Returns a night of a requester. Three messages are taken, of which a killed run has claimed one. Two message
    files are quarantined, and one is of a loan that the desk lacks."""
    conditional = encode(0x64, b"T1", 1, element(0x84, b"\1"))
    message_files = {"a": (shipped(b"T3"), "taken"), "1": (conditional, "taken"), "2": (shipped(b"T2"), "taken"),
                     "3": (b"junk", "short at 4"), "4": (request(b"T1"), "wrong-role"), "5": (shipped(b"T9"), "left")}
    night = Night(program, shim, folder, words, message_files, {"a": 1})
    night.ill("new", "loan", "requester")
    for loan in ("T1", "T2", "T3"):
        night.ill("act", "loan", "G1", loan, "request", "none", "Maps")
    night.settle_in([[(("take", "loan"), shipped(b"T3") + conditional + shipped(b"T2"))]])
    return night


def responder(program, shim, folder, *words):
    """Returns a night of a responder. A message is taken, one asks in a loan that is over, one loan is overdue, and one
    expires."""
    message_files = {"1": (request(b"T4"), "taken"), "2": (request(b"T2"), "done")}
    night = Night(program, shim, folder, words, message_files)
    night.ill("new", "loan", "responder")
    night.ill("take", "loan", given=request(b"T1") + request(b"T2") + request(b"T3", element(0x85, b"20250302")))
    night.ill("act", "loan", "G1", "T1", "--today", "20250301", "ship", "20250310")
    night.ill("act", "loan", "G1", "T2", "--today", "20250301", "answer", "unfilled")
    day = ["--today", "20250311"]
    night.settle_in([[(("take", "loan"), request(b"T4"))],
                     [(("act", "loan", "G1", "T1", *day, "overdue"), b""), (("act", "loan", "G1", "T3", *day, "expire"), b"")]])
    return night


def sender(program, shim, folder, *words):
    """Returns a night of a responder's desk that sends, and is asked in a loan that is over."""
    night = responder(program, shim, folder, *words)
    night.message_files, night.records = {}, night.records[:1]
    shutil.rmtree(os.path.join(night.template, "in"))
    os.mkdir(os.path.join(night.template, "in"))
    night.write("loan.mail/asked", request(b"T2"))
    return night


# Each night: its name, the function that makes it, its words, its status, and the end of its output.
NIGHTS = (
    ("inbox", requester, ["inbox", "loan", "in"], (3, b"taken 3, repeat 0, stale 0, conflict 0, unknown 0, aside 2, left 1, waiting 0\n")),
    ("outbox", sender, ["outbox", "loan", "out"], (0, b"sent 2\n")),
    ("outbox --stream", sender, ["outbox", "loan", "--stream"], (0, b"")),
    ("exchange of a requester", requester, ["exchange", "loan", "in", "out", "--copy", "copy", "--beat", "beat"], (3, b"sent 3\n")),
    ("exchange of a responder", responder, ["exchange", "loan", "in", "out", "--today", "20250311", "--overdue", "--expire",
                                            "--copy", "copy"], (0, b"sent 3\n")),
    ("shelf inbox", shelf_of_responder, ["shelf", "inbox", "s", "in"], (
        1, b"taken 0, repeat 0, stale 0, conflict 0, unknown 0, aside 2, left 0, waiting 0\n")),
    ("shelf outbox", shelf_that_answers, ["shelf", "outbox", "s", "out"], (0, b"s/B.responder:\nsent 0\n")),
    ("shelf exchange", shelf_of_requester, ["shelf", "exchange", "s", "in", "out", "--copy", "copy", "--beat", "beat"],
        (3, b"aside 1, left 1, waiting 0\nsent 0\n")),
    ("shelf retire", shelf_that_retires, ["shelf", "retire", "s", "B"], (0, b"done\n")),
    ("shelf act --new-group", shelf_that_begins, ["shelf", "act", "s", "N", "T1", "--new-group", "request", "none", "Maps"],
        (0, b"done PENDING - 1/1\n")),
)


def main(program, *only):
    """Performs all nights, or those with the names `only`. Returns the exit status, or ends the script if a night that
    is not stopped goes wrong."""
    fine = True
    with harness.own_folder(in_memory=True) as folder:
        shim = harness.build_stop_nth(folder)
        for number, (name, make, words, (status, last)) in enumerate(NIGHTS):
            if only and name not in only:
                continue
            night = make(program, shim, os.path.join(folder, str(number)), *words)
            night.prepare()
            if night.whole[0] != status or not night.whole[1].endswith(last):
                sys.exit(f"a whole {name} comes to {night.whole}")
            fine &= night.perform(name)
    return 0 if fine else 1
