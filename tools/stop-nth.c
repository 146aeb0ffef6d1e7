/* Stops the process that it is preloaded into at a call of the system, and keeps what the disk lacks. What
   counts are its calls of open, openat, getdents64, statx, lchown, fchmod, flock, ftruncate, read, write, fsync,
   fdatasync, mkdir, rmdir, rename, renameat, link, unlink and close, from 1 on. STOP is the number of the one to stop
   at, or its line of the log, which stands for each such call. STOP_HOW says how:
     before  it is killed before the call
     after   it is killed after the call
     half    a write writes half of its bytes, and then the process is killed
     waits   it waits before the call, as SIGSTOP has it
     short   a read or a write moves half of the bytes
     EIO     or another name of the table below: the call fails so, and does nothing, but that a close closes
     broken  this call and all after it fail with EIO, but those of standard input, output and errors
     full    this call and all after it fail with ENOSPC if they write to a file or make a folder
   STOP_LOG names a file that gets a line for each call before it is made: its name, and that of the file. A
   statx that follows no link is an lstat there, one of an open file an fstat, and an lchown of the group alone a
   chgrp.
   STOP_DISK names a folder that says, from process to process, what a machine forgets whose power goes. In it
     name-N  is the file that the name N stood for when the folder of N was flushed last
     none-N  says that N was the name of nothing then
     bytes-I is a file, with the inode I, that has bytes which were not flushed
     size-I  says how many bytes that file had when it was flushed last
   The first two are made where a name is changed, and the others where a file is; the flush that succeeds,
   whoever makes it, removes them: that of a folder those of its own names. A name is the path that the process uses,
   with the byte 1 in place of each slash. A folder that was removed comes back only with what it had. */
#define _GNU_SOURCE
#include <dirent.h>
#include <dlfcn.h>
#include <errno.h>
#include <fcntl.h>
#include <signal.h>
#include <stdarg.h>
#include <stdio.h>
#include <stdlib.h>
#include <string.h>
#include <sys/file.h>
#include <sys/stat.h>
#include <unistd.h>

#define REAL(call) ((__typeof__(&call))dlsym(RTLD_NEXT, #call))

/* The most open files whose names are known, the longest name, and what stands for a slash in a name that is kept. */
enum { FILES = 64, NAME = 512, SLASH = 1 };

/* The name of each open file by its descriptor, and how many calls were made. */
static char names[FILES][NAME] = {"input", "output", "errors"};
static long count;

/* The words of STOP_HOW that stand for an errno. */
static const struct { const char *name; int error; } faults[] = {
  {"EIO", EIO}, {"ENOSPC", ENOSPC}, {"EDQUOT", EDQUOT}, {"ENOMEM", ENOMEM}, {"EINTR", EINTR}, {"EPERM", EPERM},
  {"EACCES", EACCES}, {"EINVAL", EINVAL}, {"ENOTSUP", ENOTSUP}, {"ENOSYS", ENOSYS}, {"ENFILE", ENFILE},
  {"EMFILE", EMFILE}, {"broken", EIO},
};

/* Returns the name of an open file, or an empty text if it is not known. */
static const char *name_of(int file) {
  return file < 0 || file >= FILES ? "" : names[file];
}

/* Returns true if STOP_HOW is this word. */
static int is_how(const char *text) {
  const char *how = getenv("STOP_HOW");
  return how && !strcmp(how, text);
}

/* Returns the errno with which the call is to fail, or 0. */
static int fault(void) {
  size_t at = 0;
  while (at < sizeof faults / sizeof *faults && !is_how(faults[at].name))
    at++;
  return at < sizeof faults / sizeof *faults ? faults[at].error : 0;
}

/* Kills this process. */
static void die(void) {
  kill(getpid(), SIGKILL);
}

/* Writes the line of a call into the log, if there is one. */
static void tell(const char *call, const char *name) {
  const char *path = getenv("STOP_LOG");
  char line[2 * NAME];
  int log, size = snprintf(line, sizeof line, "%s %s\n", call, name);
  if (!path)
    return;
  log = REAL(open)(path, O_WRONLY | O_CREAT | O_APPEND, 0600);
  if (log < 0 || REAL(write)(log, line, size) != size || REAL(close)(log))
    abort();
}

/* Returns true if a name is that of a standard stream. */
static int is_stream(const char *name) {
  return !strcmp(name, "input") || !strcmp(name, "output") || !strcmp(name, "errors");
}

/* Returns true if a text is the line of a call in the log. */
static int is_line(const char *text, const char *call, const char *name) {
  size_t size = strlen(call);
  return !strncmp(text, call, size) && text[size] == ' ' && !strcmp(text + size + 1, name);
}

/* Counts a call. Returns true if it is one to stop at. */
static int is_here(const char *call, const char *name) {
  const char *text = getenv("STOP");
  count++;
  if (!text)
    return 0;
  if (is_how("broken") || is_how("full"))
    return count >= atol(text) && !is_stream(name);
  return count == atol(text) || is_line(text, call, name);
}

/* Logs and counts a call before it is made, and kills the process or lets it wait there. Returns true if the call is
   one to stop at. The first three openings of a process are of /dev/null, so that no file gets the descriptor of a
   closed stream. They and their ends do not count. */
static int is_reached(const char *call, const char *name) {
  if (!strcmp(name, "/dev/null") && (!strcmp(call, "open") || !strcmp(call, "close")))
    return 0;
  tell(call, name);
  if (!is_here(call, name))
    return 0;
  if (is_how("before"))
    die();
  if (is_how("waits"))
    kill(getpid(), SIGSTOP);
  return 1;
}

/* Returns true if the call fails, and sets errno. `reached` says if it is one to stop at. */
static int fails(int reached) {
  if (!reached || !fault())
    return 0;
  errno = fault();
  return 1;
}

/* Returns true if a call that wants space finds none, and sets errno. */
static int finds_no_space(int reached) {
  if (!reached || !is_how("full"))
    return 0;
  errno = ENOSPC;
  return 1;
}

/* Returns the answer of a call, or kills the process after it. */
static long answered(int reached, long answer) {
  if (reached && is_how("after"))
    die();
  return answer;
}

/* Returns how many of these bytes a read or a write moves. */
static size_t moved(int reached, size_t size) {
  return reached && (is_how("half") || is_how("short")) ? (size + 1) / 2 : size;
}

/* Sets `path` to that of a thing of this kind and name in STOP_DISK. Returns true if there is such a folder. */
static int is_kept(char *path, const char *kind, const char *name) {
  const char *folder = getenv("STOP_DISK");
  int prefix;
  if (!folder)
    return 0;
  prefix = snprintf(path, 2 * NAME, "%s/%s-", folder, kind);
  snprintf(path + prefix, 2 * NAME - prefix, "%s", name);
  for (char *at = path + prefix; *at; at++)
    if (*at == '/')
      *at = SLASH;
  return 1;
}

/* Keeps what a name stands for before it changes, unless it has changed since its folder was flushed. */
static void keep_name(const char *name) {
  char kept[2 * NAME], none[2 * NAME];
  int error = errno;
  if (!is_kept(kept, "name", name) || !is_kept(none, "none", name))
    return;
  /* A folder has no second name, and neither has a file of another disk: these are not kept. Another program may keep the
     name at the same moment. */
  if (faccessat(AT_FDCWD, kept, F_OK, AT_SYMLINK_NOFOLLOW) && access(none, F_OK) && REAL(link)(name, kept) && errno != EPERM
      && errno != EXDEV && errno != EEXIST && (errno != ENOENT || (mknod(none, S_IFREG | 0600, 0) && errno != EEXIST)))
    abort();
  errno = error;
}

/* Sets `path` to that of a thing of this kind in STOP_DISK, named by the inode of a file. Returns true if there is such
   a folder. */
static int is_kept_file(char *path, const char *kind, int file) {
  char inode[32];
  struct stat is;
  if (fstat(file, &is))
    return 0;
  snprintf(inode, sizeof inode, "%lu", (unsigned long)is.st_ino);
  return is_kept(path, kind, inode);
}

/* Keeps how many bytes a file has, all of which are flushed. */
static void keep_size(int file) {
  char kept[2 * NAME], digits[32];
  struct stat is;
  int out, size;
  if (fstat(file, &is) || !is_kept_file(kept, "size", file))
    return;
  size = snprintf(digits, sizeof digits, "%ld", (long)is.st_size);
  out = REAL(open)(kept, O_WRONLY | O_CREAT | O_TRUNC, 0600);
  if (out < 0 || REAL(write)(out, digits, size) != size || REAL(close)(out))
    abort();
}

/* Keeps that a file has bytes which were not flushed. */
static void keep_bytes(int file) {
  char kept[2 * NAME], open_file[64];
  int error = errno;
  if (file <= STDERR_FILENO || !is_kept_file(kept, "bytes", file))
    return;
  if (access(kept, F_OK))
    keep_size(file);
  snprintf(open_file, sizeof open_file, "/proc/self/fd/%d", file);
  if (linkat(AT_FDCWD, open_file, AT_FDCWD, kept, AT_SYMLINK_FOLLOW) && errno != EEXIST)
    abort();
  errno = error;
}

/* Returns true if a name that was kept is one of the folder at this path. */
static int is_of(const char *kept, const char *path) {
  const char *last = strrchr(kept, SLASH);
  size_t size = strlen(path);
  if (!last)
    return !strcmp(path, ".");
  if (size != (size_t)(last - kept))
    return 0;
  for (size_t at = 0; at < size; at++)
    if (kept[at] != path[at] && !(kept[at] == SLASH && path[at] == '/'))
      return 0;
  return 1;
}

/* Forgets the names that were kept of the folder at this path: the disk has those of now. */
static void forget_names(const char *path) {
  const char *folder = getenv("STOP_DISK");
  DIR *disk = folder ? opendir(folder) : NULL;
  struct dirent *entry;
  while (disk && (entry = readdir(disk)))
    if ((!strncmp(entry->d_name, "name-", 5) || !strncmp(entry->d_name, "none-", 5)) && is_of(entry->d_name + 5, path))
      unlinkat(dirfd(disk), entry->d_name, 0);
  if (disk)
    closedir(disk);
}

/* Forgets what was kept of a file that is flushed now: its bytes, or its names if it is a folder. Returns `answer`. */
static int flushed(int file, int answer) {
  char kept[2 * NAME];
  struct stat is;
  if (answer)
    return answer;
  if (!fstat(file, &is) && S_ISDIR(is.st_mode))
    forget_names(name_of(file));
  else if (is_kept_file(kept, "bytes", file)) {
    REAL(unlink)(kept);
    if (is_kept_file(kept, "size", file))
      REAL(unlink)(kept);
  }
  return answer;
}

/* Keeps the name that an opening may create. */
static void keep_opened(const char *path, int flags) {
  if (flags & O_CREAT)
    keep_name(path);
}

/* Keeps the name of a file that was opened, and returns its descriptor. */
static int opened(int reached, int file, const char *path) {
  if (file >= 0 && file < FILES)
    snprintf(names[file], NAME, "%s", path);
  return answered(reached, file);
}

int open(const char *path, int flags, ...) {
  int reached = is_reached("open", path);
  mode_t mode;
  va_list rest;
  va_start(rest, flags);
  mode = flags & O_CREAT ? va_arg(rest, mode_t) : 0;
  va_end(rest);
  if (fails(reached))
    return -1;
  keep_opened(path, flags);
  return opened(reached, REAL(open)(path, flags, mode), path);
}

int openat(int folder, const char *path, int flags, ...) {
  int reached = is_reached("openat", path);
  mode_t mode;
  va_list rest;
  va_start(rest, flags);
  mode = flags & O_CREAT ? va_arg(rest, mode_t) : 0;
  va_end(rest);
  if (fails(reached))
    return -1;
  keep_opened(path, flags);
  return opened(reached, REAL(openat)(folder, path, flags, mode), path);
}

ssize_t getdents64(int file, void *out, size_t size) {
  int reached = is_reached("getdents", name_of(file));
  return fails(reached) ? -1 : answered(reached, REAL(getdents64)(file, out, size));
}

int mkdir(const char *path, mode_t mode) {
  int reached = is_reached("mkdir", path);
  if (fails(reached) || finds_no_space(reached))
    return -1;
  keep_name(path);
  return answered(reached, REAL(mkdir)(path, mode));
}

int rmdir(const char *path) {
  int reached = is_reached("rmdir", path);
  return fails(reached) ? -1 : answered(reached, REAL(rmdir)(path));
}

int statx(int folder, const char *path, int flags, unsigned mask, struct statx *out) {
  int reached = path && *path ? is_reached(flags & AT_SYMLINK_NOFOLLOW ? "lstat" : "statx", path)
                              : is_reached("fstat", name_of(folder));
  return fails(reached) ? -1 : answered(reached, REAL(statx)(folder, path, flags, mask, out));
}

int lchown(const char *path, uid_t owner, gid_t group) {
  int reached = is_reached(owner == (uid_t)-1 ? "chgrp" : "lchown", path);
  return fails(reached) ? -1 : answered(reached, REAL(lchown)(path, owner, group));
}

int fchmod(int file, mode_t mode) {
  int reached = is_reached("fchmod", name_of(file));
  return fails(reached) ? -1 : answered(reached, REAL(fchmod)(file, mode));
}

int flock(int file, int how) {
  int reached = is_reached("flock", name_of(file));
  return fails(reached) ? -1 : answered(reached, REAL(flock)(file, how));
}

int ftruncate(int file, off_t size) {
  int reached = is_reached("ftruncate", name_of(file));
  if (fails(reached))
    return -1;
  keep_bytes(file);
  return answered(reached, REAL(ftruncate)(file, size));
}

ssize_t read(int file, void *out, size_t size) {
  int reached = is_reached("read", name_of(file));
  return fails(reached) ? -1 : answered(reached, REAL(read)(file, out, moved(reached, size)));
}

ssize_t write(int file, const void *bytes, size_t size) {
  int reached = is_reached("write", name_of(file));
  ssize_t answer;
  if (fails(reached) || finds_no_space(reached))
    return -1;
  keep_bytes(file);
  answer = REAL(write)(file, bytes, moved(reached, size));
  if (reached && is_how("half"))
    die();
  return answered(reached, answer);
}

int fsync(int file) {
  int reached = is_reached("fsync", name_of(file));
  return fails(reached) ? -1 : answered(reached, flushed(file, REAL(fsync)(file)));
}

int fdatasync(int file) {
  int reached = is_reached("fdatasync", name_of(file));
  return fails(reached) ? -1 : answered(reached, flushed(file, REAL(fdatasync)(file)));
}

int rename(const char *from, const char *to) {
  int reached = is_reached("rename", from);
  if (fails(reached))
    return -1;
  keep_name(from);
  keep_name(to);
  return answered(reached, REAL(rename)(from, to));
}

int renameat(int old, const char *from, int new, const char *to) {
  int reached = is_reached("renameat", from);
  if (fails(reached))
    return -1;
  keep_name(from);
  keep_name(to);
  return answered(reached, REAL(renameat)(old, from, new, to));
}

int link(const char *from, const char *to) {
  int reached = is_reached("link", from);
  if (fails(reached))
    return -1;
  keep_name(to);
  return answered(reached, REAL(link)(from, to));
}

int unlink(const char *path) {
  int reached = is_reached("unlink", path);
  if (fails(reached))
    return -1;
  keep_name(path);
  return answered(reached, REAL(unlink)(path));
}

int close(int file) {
  int reached = is_reached("close", name_of(file));
  int answer = REAL(close)(file);
  if (file >= 0 && file < FILES)
    *names[file] = 0;
  return fails(reached) ? -1 : answered(reached, answer);
}
