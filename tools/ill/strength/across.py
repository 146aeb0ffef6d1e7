"""Tries what goes across two crates, since the edits in strength/ stay within one.

A crate of others may not release a message that no store has had: it cannot name the calls, and a bound that reaches
them does not give it a store's Ok. A wrong contract in one crate must be refused by a crate above. Its body is changed
with it, so that its own crate is proved. All is tried on a copy, a few minutes of proofs. A line says what became of
each.
"""
import functools
import re
import shutil
import subprocess
import sys
import tempfile

from ill.repository import full, read, write
from ill.strength.edits import BadEdit, Pair, change

HEAD = """\
//! Releases a message without a store.
#![tactic(auto)]

use ill_saved::{DeskFault, Holdings, ManySides, Role};
use ill_values::OutOfMemory;
use std::alloc::Global;

"""
# Functions of others that release messages which were never saved, each with the line and the name at which it must be
# refused.
OTHERS = {
    "of a desk's sides": ("""\
/// Returns sides whose messages were released.
pub fn released(alloc: Global) -> Result<ManySides, OutOfMemory> {
    let mut sides = ManySides::begin(alloc, Role::Requester);
    let record = sides.record(alloc)?;
    sides.release(record);
    Ok(sides)
}
""", "lib.rt:10:.*`begin`"),
    "of whatever a desk holds": ("""\
/// Returns what a desk holds, with its messages released.
pub fn released<H: Holdings>(alloc: Global, first: H::First) -> Result<H, OutOfMemory> {
    let mut held = H::begin(alloc, first);
    let record = held.record(alloc)?;
    held.release(record);
    Ok(held)
}
""", "lib.rt:12:.*`release`"),
    "of a record that no store has": ("""\
/// Returns what `bytes` encode, with its messages released.
pub fn released<H: Holdings>(alloc: Global, bytes: Vec<u8>) -> Result<H, DeskFault> {
    H::read(alloc, bytes)
}
""", "lib.rt:10:.*`read`")}
DESK = "crates/ill_saved/src/desk.rt"
# The changes of a desk that gives messages which are not saved, and says so.
GIVES_UNSAVED = [
    Pair(DESK, "ghost use Rattle.ill_der.specs.ShortForm.{apdu_at};", """\
ghost use Rattle.ill_der.specs.ShortForm.{apdu_at};
ghost use Rattle.ill_core.specs.Issued.{message};
ghost use Rattle.ill_saved.specs.Holdings.{Sends};"""),
    Pair(DESK, "SendsHeld (λ bytes. bytes.items) (one_side.found tt self.now.live) number result }",
         "Sends (λ bytes. bytes.items) (message (issued_of self.now.live.side) number) true result }"),
    Pair(DESK, "        self.message_of(alloc, &(), number)", """\
        let Some(apdu) = self.held.side().issued(number) else {
            return Err(DeskFault::NoSuchMessage);
        };
        Ok(ill_der::encode(alloc, apdu)?)""")]


def check(copy, crate):
    """Proves a crate of the copy. Returns whether it is proved, and what was said."""
    done = subprocess.run(["rt", "check"], cwd=f"{copy}/crates/{crate}", stdout=subprocess.PIPE,
                          stderr=subprocess.STDOUT, text=True, errors="replace", check=False)
    return done.returncode == 0, done.stdout


def unproved(crate, said):
    """Returns what was said of each function of a crate that has no proof."""
    return [line for line in said.splitlines() if line.startswith(f"fn {crate}::") and not line.endswith(": proved")]


def refused(crate, said):
    """Returns the functions without a proof that were refused themselves, and not for one that they call."""
    return [re.sub(rf"^fn {crate}::([^ ]*): .*", r"\1", line) for line in unproved(crate, said)
            if not line.endswith(", which is not proved")]


def releases_unsaved(copy, others):
    """Tries a crate of others that releases a message. `others` names its function. Returns an empty text if it is
    refused; else raises `BadEdit`."""
    source, refusal = OTHERS[others]
    crates = read(f"{copy}/crates.txt")
    write(f"{copy}/crates.txt", f"{crates}others: ill_values ill_saved\n")
    write(f"{copy}/crates/others/src/lib.rt", HEAD + source)
    is_proved, said = check(copy, "others")
    shutil.rmtree(f"{copy}/crates/others")
    write(f"{copy}/crates.txt", crates)
    if is_proved or not re.search(refusal, said):
        print(said, file=sys.stderr)
        raise BadEdit("it is not refused there")
    return ""


def gives_unsaved(copy):
    """Tries a desk that gives messages which are not saved. Returns where ill_world refuses it; else raises
    `BadEdit`."""
    change(copy, GIVES_UNSAVED)
    is_proved, said = check(copy, "ill_saved")
    if not is_proved:
        print(said, file=sys.stderr)
        raise BadEdit("ill_saved is not proved with it")
    is_proved, said = check(copy, "ill_world")
    if is_proved:
        raise BadEdit("ill_world is proved with it")
    where = " ".join(refused("ill_world", said))
    is_above = any(line.startswith("fn ill_world::world::World::step: ") for line in unproved("ill_world", said))
    if where != "party::Party::send" or not is_above:
        raise BadEdit(f"not at party::Party::send, which World::step calls, but at {where or 'no function'}")
    return f": ill_world has no proof of {where}, and so none of world::World::step"


CASES = {f"a crate of others releases a message {others}": functools.partial(releases_unsaved, others=others)
         for others in OTHERS}
CASES["a desk gives each message that was issued, saved or not"] = gives_unsaved


def perform():
    """Tries all cases. Returns true if each is refused where it must be."""
    all_refused = True
    with tempfile.TemporaryDirectory() as copy:
        # The copy has what was proved already, in out/, so that no library below is proved again.
        shutil.copytree(full("crates"), f"{copy}/crates", symlinks=True)
        for file in ("crates.txt", "HANDLES"):
            shutil.copy(full(file), copy)
        for name, case in CASES.items():
            try:
                print(f"refused, as it must be: {name}{case(copy)}", flush=True)
            except BadEdit as bad:
                print(f"NOT REFUSED: {name}: {bad}", flush=True)
                all_refused = False
    return all_refused
