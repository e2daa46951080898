// Stands for the program in tests: runs PROGRAM on the same words, hands on what it writes, and keeps the call in a file of FOLDER: words,
// files that words name, status and both streams, each text behind its length in four bytes.
#include <fcntl.h>
#include <signal.h>
#include <stdio.h>
#include <stdlib.h>
#include <string.h>
#include <sys/stat.h>
#include <sys/wait.h>
#include <time.h>
#include <unistd.h>

static void put_number(FILE *file, unsigned number) { fwrite(&number, 4, 1, file); }

static void put_text(FILE *file, const char *text) {
    put_number(file, strlen(text));
    fputs(text, file);
}

// All that a file holds, to a file of the record or to a stream.
static void copy(int from, int to) {
    char piece[65536];
    ssize_t count;
    lseek(from, 0, SEEK_SET);
    while ((count = read(from, piece, sizeof piece)) > 0)
        if (write(to, piece, count) != count) return;
}

static void put_file(FILE *file, int from) {
    struct stat found;
    fstat(from, &found);
    put_number(file, found.st_size);
    fflush(file);
    copy(from, fileno(file));
    fseek(file, 0, SEEK_END);
}

// The files that the words name, with how many there are before them.
static void put_files(FILE *file, int words, char **word) {
    long at = ftell(file);
    unsigned files = 0;
    put_number(file, 0);
    for (int number = 1; number < words; number++) {
        const char *equals = strncmp(word[number], "--", 2) ? 0 : strchr(word[number], '=');
        const char *path = equals ? equals + 1 : word[number];
        struct stat found;
        int from = stat(path, &found) || !S_ISREG(found.st_mode) ? -1 : open(path, O_RDONLY);
        if (from < 0) continue;
        files++;
        put_text(file, path);
        put_file(file, from);
        close(from);
    }
    fseek(file, at, SEEK_SET);
    put_number(file, files);
    fseek(file, 0, SEEK_END);
}

static int stream(const char *name, const char *end) {
    char path[512];
    snprintf(path, sizeof path, "%s%s", name, end);
    int made = open(path, O_RDWR | O_CREAT | O_TRUNC, 0644);
    unlink(path);
    return made;
}

int main(int words, char **word) {
    char name[400], part[416];
    struct timespec now;
    clock_gettime(CLOCK_REALTIME, &now);
    snprintf(name, sizeof name, "%s/%ld%09ld-%d", FOLDER, (long)now.tv_sec, now.tv_nsec, getpid());
    snprintf(part, sizeof part, "%s.part", name);
    FILE *file = fopen(part, "w+");
    if (!file) return 98;
    put_number(file, words - 1);
    for (int number = 1; number < words; number++) put_text(file, word[number]);
    put_files(file, words, word);
    int out = stream(name, ".out"), err = stream(name, ".err"), ended;
    fflush(file);
    pid_t child = fork();
    if (!child) {
        dup2(out, 1);
        dup2(err, 2);
        word[0] = PROGRAM;
        execv(PROGRAM, word);
        _exit(97);
    }
    waitpid(child, &ended, 0);
    put_number(file, WIFEXITED(ended) ? WEXITSTATUS(ended) : 128 + WTERMSIG(ended));
    put_file(file, out);
    put_file(file, err);
    fclose(file);
    rename(part, name);
    copy(out, 1);
    copy(err, 2);
    if (WIFSIGNALED(ended)) kill(getpid(), WTERMSIG(ended));
    return WEXITSTATUS(ended);
}
