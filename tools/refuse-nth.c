/* Refuses allocations of the process that it is preloaded into. REFUSE is the number of the one to refuse, from 1 on; if
   REFUSE_REST is set, all that follow it are refused too. REFUSE_SEEN names a file that gets a dot for each refusal.

   If REFUSE_MARKED is set, only what lies between two marks is refused, and REFUSE is not read. A mark is an allocation
   of a size that nothing else has (crates/ill_test_kit/src/marks.rt). After BEGIN it refuses the first allocation; and
   if it has refused one, it refuses the next after the next BEGIN. After BEGIN_QUIET it refuses all. END_OF_MEMORY
   says that the call between the marks has answered out of memory; END_OR_WITHOUT, that it has not, but may have done
   without what it was refused. Both are refused themselves if an allocation was. REFUSE_SEEN gets a W for each call that
   answers out of memory and was refused nothing, or the other way round. */
#define _GNU_SOURCE
#include <dlfcn.h>
#include <errno.h>
#include <fcntl.h>
#include <stdlib.h>
#include <unistd.h>

/* The sizes that are marks. */
enum { BEGIN = 54321, BEGIN_QUIET = 54323, END = 54327, END_OF_MEMORY = 54329, END_OR_WITHOUT = 54331 };

/* If the variables were read, REFUSE_MARKED is set, allocations may be refused now, all of them are, and REFUSE_REST is
   set; the file REFUSE_SEEN; the number of the one to refuse; and the counts since the last mark. */
static int is_ready, is_marked, is_open, is_quiet, goes_on;
static int seen = -1;
static long nth; /* 0 is none */
static long count, refusals;

/* Reads the variables. */
static void get_ready(void) {
  const char *text = getenv("REFUSE");
  is_marked = getenv("REFUSE_MARKED") != NULL;
  nth = is_marked ? 1 : text ? atol(text) : 0;
  goes_on = getenv("REFUSE_REST") != NULL;
  is_open = !is_marked;
  is_ready = 1;
}

/* Appends a letter to the file REFUSE_SEEN, if there is one. */
static void tell(const char *what) {
  const char *path = getenv("REFUSE_SEEN");
  if (path && seen == -1)
    seen = open(path, O_WRONLY | O_CREAT | O_APPEND | O_CLOEXEC, 0600);
  if (seen != -1 && write(seen, what, 1) != 1)
    abort();
}

/* Begins to count, and to refuse. Returns false, since this mark is never refused. */
static int begin(int quiet) {
  is_open = 1;
  is_quiet = quiet;
  count = refusals = 0;
  return 0;
}

/* Ends what a mark has begun, and reports if the answer of the call is wrong. Returns true if the mark is refused, so
   that the call is made again. */
static int end(size_t mark) {
  is_open = 0;
  if (mark == END_OF_MEMORY ? !refusals : mark == END && refusals)
    tell("W");
  if (!is_quiet)
    nth = refusals ? nth + 1 : 1;
  return mark != END && refusals;
}

/* Counts an allocation. Returns true if it is refused. */
static int refuses(void) {
  count++;
  if (!is_quiet && count != nth && !(goes_on && nth > 0 && count > nth))
    return 0;
  refusals++;
  tell(".");
  return 1;
}

/* Returns true if an allocation of this size is refused, which may be a mark. */
static int is_refused(size_t size) {
  if (is_marked && (size == BEGIN || size == BEGIN_QUIET))
    return begin(size == BEGIN_QUIET);
  if (is_marked && (size == END || size == END_OF_MEMORY || size == END_OR_WITHOUT))
    return end(size);
  return is_open && refuses();
}

/* Returns true if an allocation of this size is refused, and sets errno. */
static int refused(size_t size) {
  if (!is_ready)
    get_ready();
  if (!is_refused(size))
    return 0;
  errno = ENOMEM;
  return 1;
}

void *malloc(size_t size) {
  static void *(*real)(size_t);
  if (!real)
    real = (void *(*)(size_t))dlsym(RTLD_NEXT, "malloc");
  return refused(size) ? NULL : real(size);
}

void *realloc(void *old, size_t size) {
  static void *(*real)(void *, size_t);
  if (!real)
    real = (void *(*)(void *, size_t))dlsym(RTLD_NEXT, "realloc");
  return refused(size) ? NULL : real(old, size);
}

int posix_memalign(void **out, size_t alignment, size_t size) {
  static int (*real)(void **, size_t, size_t);
  if (!real)
    real = (int (*)(void **, size_t, size_t))dlsym(RTLD_NEXT, "posix_memalign");
  return refused(size) ? ENOMEM : real(out, alignment, size);
}

void *aligned_alloc(size_t alignment, size_t size) {
  static void *(*real)(size_t, size_t);
  if (!real)
    real = (void *(*)(size_t, size_t))dlsym(RTLD_NEXT, "aligned_alloc");
  return refused(size) ? NULL : real(alignment, size);
}
