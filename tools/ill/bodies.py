"""Mutants of functions that touch files, of which no contract knows. `tools/exchange` refuses programs with them."""

# Each mutant: its name, the attack of tools/exchange that has to refuse it, and words that the fault of the attack must
# have. Then come the file of the body, below crates/, and pairs of an old text and a new one. No contract says what
# these functions do to files.
MUTANTS = [
    ("in place", "a link that comes in out", "0 times in place of 1", "ill_folders/src/message_folder.rt", [
        ('let new = format!(in self.alloc; "{folder}/.{name}")?;', 'let new = format!(in self.alloc; "{folder}/{name}")?;')]),
    ("from IN", "another thing in place of a message file", "0 times in place of 1", "ill_folders/src/message_file.rt",
     [
        ("    fs::rename(rt, path, file.as_str())?;\n    Ok(file)", "    Ok(String::from_str(alloc, path)?)")]),
    ("takes links", "what is no message file", "the desk has a loan", "ill_folders/src/message_file.rt", [
        ("match fs::symlink_metadata(rt, path) {\n        Ok(found) if found.is_file() =>",
         "match fs::metadata(rt, path) {\n        Ok(found) if found.is_file() =>")]),
    ("waits", "another thing in place of a message file", "waits", "ill_folders/src/message_file.rt", [
        ("Ok(None) => return give_back_other(rt, alloc, source, &name, file.as_str()),",
         "Ok(None) => first_bytes(rt, alloc, file.as_str(), 0),")]),
    ("moves folders", "what is no message file", "it moves", "ill_folders/src/message_file.rt",
     [("nlink() != 2)", "nlink() == 0)")]),
    ("keeps what is no message file", "what is no message file", "something in in is gone",
     "ill_folders/src/message_file.rt", [
        ("Ok(None) => return give_back_other(rt, alloc, source, &name, file.as_str()),", "Ok(None) => return Ok(()),")]),
    ("all of it", "message files that are too long", "more than 362 bytes", "ill_folders/src/message_file.rt", [
        ("file.take(MOST.saturating_sub(count) as u64)\n            .read_to_end", "file.read_to_end")]),
    ("in aside", "a link at in/aside", "carried", "ill_folders/src/host_room.rt", [
        ("self.place\n            .claiming_folder\n            .quarantine(self.rt, claimed, digest.as_str(), &why)",
         'fs::rename(self.rt, claimed.file, (format!(in self.alloc; "{}/aside/{}", self.place.folder, digest)?).as_str())')]),
    ("through", "links in out", "is written", "ill_folders/src/host_message_files.rt", [
        ("Ok(fs::remove_file(self.rt, path_of(path)?)?)", "Ok(drop(fs::symlink_metadata(self.rt, path_of(path)?)?))"),
        ("        options.create_new(true);\n", "        options.create(true);\n        options.truncate(true);\n")]),
    ("lets others in", "a folder of others", "begins", "ill_folders/src/folders.rt", [
        ("if found.permissions().mode() & 0o077 == 0 {", "if found.is_dir() {")]),
    ("gives back over", "a message file that stays", "what has come there is gone",
     "ill_folders/src/host_message_files.rt", [
        ("fs::hard_link(self.rt, path_of(from)?, path_of(to)?)", "fs::rename(self.rt, path_of(from)?, path_of(to)?)")]),
    ("keeps who asked", "who asks", "is sent without end", "ill_folders/src/claiming_folder.rt", [
        ("return remove_if_there(rt, path.as_str());", "return Ok(());")]),
    ("first copy", "a clerk acts, with a copy", "copy.new is not called", "ill_exchange/src/backup.rt", [
        ("    let mut copy = FileStore::at(", "    if fs::symlink_metadata(rt, path).is_ok() {\n        return Ok(Copied::Done);\n    }\n"
         "    let mut copy = FileStore::at(")]),
    ("as they come", "names in another order", "diverged", "ill_folders/src/message_file.rt",
     [("    message_files.by_loan()\n}", "    Ok(message_files)\n}")]),
    ("over the desk", "a copy that is the desk", "status", "ill_folders/src/places.rt", [
        ("        && is_one(rt, path, places.original)?\n", "        && path == places.original\n")]),
    ("among its own", "folders of a desk", "is taken for a folder of message files", "ill_folders/src/reserved.rt", [
        ("            || is_within_message_file(rt, alloc, folder)?,", "            || (false && is_within_message_file(rt, alloc, folder)?),")]),
    ("as root", "root has run it", "belongs to", "ill_files/src/durable.rt", [
        ("        let _ = lchown(rt, path, Some(self.user), Some(self.group));", "        let _ = lchown(rt, path, None, None);")]),
]
