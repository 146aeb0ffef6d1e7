/* cost RUNS FROM TO INPUT OUTPUT WORDS..: performs the words RUNS times, each time with a fresh copy TO of FROM, a
 * file or a folder, and with INPUT and OUTPUT as standard input and output. It prints for each run the
 * microseconds of processor time (user and system) and of wall time that the process took, from its fork to
 * its end. The copies are not part of it. */
#define _GNU_SOURCE
#include <fcntl.h>
#include <stdio.h>
#include <stdlib.h>
#include <sys/resource.h>
#include <sys/stat.h>
#include <sys/wait.h>
#include <time.h>
#include <unistd.h>

static void fail(const char *what) {
    perror(what);
    exit(2);
}

/* A fresh copy of a folder, in place of what an earlier run has left. */
static void copy_folder(const char *from, const char *to) {
    char command[4096];
    snprintf(command, sizeof command, "rm -rf '%s' && cp -r '%s' '%s'", to, from, to);
    if (system(command))
        fail(to);
}

/* A fresh copy of a file, on the disk: a run does not pay for it. */
static void copy_file(const char *from, const char *to) {
    static char bytes[1 << 26];
    int in = open(from, O_RDONLY), out = open(to, O_WRONLY | O_CREAT | O_TRUNC, 0644);
    ssize_t size = in < 0 ? -1 : read(in, bytes, sizeof bytes);
    if (size < 0 || out < 0 || write(out, bytes, size) != size || fsync(out))
        fail(to);
    close(in);
    close(out);
}

static void copy(const char *from, const char *to) {
    struct stat found;
    if (stat(from, &found))
        fail(from);
    if (S_ISDIR(found.st_mode))
        copy_folder(from, to);
    else
        copy_file(from, to);
}

static long microseconds(void) {
    struct timespec now;
    clock_gettime(CLOCK_MONOTONIC, &now);
    return now.tv_sec * 1000000L + now.tv_nsec / 1000;
}

static void perform(const char *input, const char *output, char **words) {
    int in = open(input, O_RDONLY), out = open(output, O_WRONLY | O_CREAT | O_TRUNC, 0644);
    if (in < 0 || out < 0 || dup2(in, 0) < 0 || dup2(out, 1) < 0)
        fail(input);
    close(in);
    close(out);
    execv(words[0], words);
    fail(words[0]);
}

int main(int count, char **words) {
    int runs = count > 6 ? atoi(words[1]) : 0;
    for (int run = 0; run < runs; run++) {
        struct rusage used;
        int status;
        long start;
        pid_t child;
        copy(words[2], words[3]);
        start = microseconds();
        child = fork();
        if (!child)
            perform(words[4], words[5], words + 6);
        if (child < 0 || wait4(child, &status, 0, &used) < 0)
            fail("fork");
        long wall = microseconds() - start;
        if (status) {
            fprintf(stderr, "cost: %s %s: status %d\n", words[6], count > 7 ? words[7] : "", WEXITSTATUS(status));
            exit(2);
        }
        printf("%ld %ld\n", (used.ru_utime.tv_sec + used.ru_stime.tv_sec) * 1000000L + used.ru_utime.tv_usec +
                                used.ru_stime.tv_usec, wall);
    }
    return runs > 0 ? 0 : 2;
}
