/* files FROM TO: moves each file of the folder FROM into the folder TO, which it makes, reads it there, and then
 * removes all, by the calls of the system that `ill inbox` makes for as many message files: what the system takes for
 * these. */
#define _GNU_SOURCE
#include <dirent.h>
#include <fcntl.h>
#include <stdio.h>
#include <stdlib.h>
#include <sys/stat.h>
#include <unistd.h>

#define MOST 10000

static char paths[MOST][512];

static void expect(int is_so, const char *path) {
    if (!is_so) {
        perror(path);
        exit(2);
    }
}

static void look(const char *path) {
    struct statx found;
    expect(!statx(AT_FDCWD, path, AT_SYMLINK_NOFOLLOW, STATX_BASIC_STATS, &found), path);
}

static void claim(const char *folder, const char *to, const char *name, char *path) {
    char from[512], bytes[360];
    snprintf(from, sizeof from, "%s/%s", folder, name);
    snprintf(path, sizeof from, "%s/%s", to, name);
    expect(!rename(from, path), path);
    look(path);
    int file = open(path, O_RDONLY | O_CLOEXEC);
    expect(file >= 0, path);
    expect(read(file, bytes, sizeof bytes) >= 0, path);
    close(file);
}

int main(int count, char **words) {
    DIR *folder = count == 3 ? opendir(words[1]) : NULL;
    int files = 0;
    expect(folder != NULL, "files");
    expect(!mkdir(words[2], 0700), words[2]);
    for (struct dirent *entry; files < MOST && (entry = readdir(folder));)
        if (entry->d_name[0] != '.')
            claim(words[1], words[2], entry->d_name, paths[files++]);
    for (int place = 0; place < files; place++)
        expect(!unlink(paths[place]), paths[place]);
    return 0;
}
