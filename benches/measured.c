/* Runs a program and says what it took: a process that is made by one that is small, so that the most
 * memory is its own, and with limits of its own.
 *
 * usage: measured SECONDS MEGABYTES OUTPUT WORD..
 *        measured SECONDS MEGABYTES OUTPUT --ahead COUNT LINES WORD..
 * The words are run with standard output to the file OUTPUT, at most so many processor seconds and so
 * much data. With --ahead the lines of the file LINES are its input. They come by a pipe, at most COUNT
 * of them ahead of the lines that it has printed. One line comes on standard output: seconds by the clock, processor seconds of the program
 * and of the system for it, kilobytes at most, and how it ended: `exit` or `signal` and the number. */
#define _GNU_SOURCE
#include <fcntl.h>
#include <signal.h>
#include <stdio.h>
#include <stdlib.h>
#include <string.h>
#include <sys/mman.h>
#include <sys/resource.h>
#include <sys/stat.h>
#include <sys/time.h>
#include <sys/wait.h>
#include <time.h>
#include <unistd.h>

static double seconds(struct timeval it) { return it.tv_sec + it.tv_usec / 1e6; }

static double now(void) {
    struct timespec it;
    clock_gettime(CLOCK_MONOTONIC, &it);
    return it.tv_sec + it.tv_nsec / 1e9;
}

static pid_t child;

/* A program that waits for ever takes no processor seconds. */
static void end_it(int signal) {
    (void)signal;
    kill(child, SIGXCPU);
}

static void run(rlim_t limit, rlim_t room, int out, char **words) {
    struct rlimit time = {limit, limit + 1}, data = {room, room};
    if (out < 0 || dup2(out, 1) < 0 || setrlimit(RLIMIT_CPU, &time) || setrlimit(RLIMIT_DATA, &data))
        _exit(126);
    close(out);
    execvp(words[0], words);
    _exit(127);
}

/* The lines that are the input, how many may be ahead, and the pipes to the program and from it. */
static const char *lines, *lines_end;
static long ahead;
static int to[2], from[2];

static int take_lines(const char *count, const char *path) {
    struct stat has;
    int file = open(path, O_RDONLY);
    if (file < 0 || fstat(file, &has) || pipe2(to, O_CLOEXEC) || pipe2(from, O_CLOEXEC))
        return 0;
    lines = mmap(NULL, has.st_size, PROT_READ, MAP_PRIVATE, file, 0);
    lines_end = lines + has.st_size;
    ahead = atol(count);
    return lines != MAP_FAILED && ahead > 0;
}

static long lines_in(const char *bytes, ssize_t size) {
    long count = 0;
    for (ssize_t at = 0; at < size; at++)
        count += bytes[at] == '\n';
    return count;
}

/* Writes the lines as there is room for them ahead, and what comes of them to the output. */
static void feed(int out) {
    static char bytes[1 << 16];
    long left = ahead;
    ssize_t size;
    close(to[0]);
    close(from[1]);
    signal(SIGPIPE, SIG_IGN);
    do {
        const char *end = lines;
        for (; left && end < lines_end; left--)
            end = (const char *)memchr(end, '\n', lines_end - end) + 1;
        while (lines < end && (size = write(to[1], lines, end - lines)) > 0)
            lines += size;
        if (lines == lines_end && to[1] >= 0) {
            close(to[1]);
            to[1] = -1;
        }
        size = read(from[0], bytes, sizeof bytes);
        left += lines_in(bytes, size);
    } while (size > 0 && write(out, bytes, size) == size);
}

int main(int count, char **words) {
    int is_fed = count > 7 && !strcmp(words[4], "--ahead");
    if (count < 5) {
        fprintf(stderr, "usage: measured SECONDS MEGABYTES OUTPUT [--ahead COUNT LINES] WORD..\n");
        return 2;
    }
    int out = open(words[3], O_WRONLY | O_CREAT | O_TRUNC | O_CLOEXEC, 0600);
    if (is_fed && !take_lines(words[5], words[6]))
        return 1;
    rlim_t limit = strtoul(words[1], NULL, 10), room = strtoul(words[2], NULL, 10) << 20;
    double began = now();
    child = fork();
    if (child < 0)
        return 1;
    if (child == 0 && is_fed && dup2(to[0], 0) < 0)
        _exit(126);
    if (child == 0)
        run(limit, room, is_fed ? from[1] : out, words + (is_fed ? 7 : 4));
    signal(SIGALRM, end_it);
    alarm(20 * limit);
    if (is_fed)
        feed(out);
    struct rusage used;
    int status;
    while (wait4(child, &status, 0, &used) < 0)
        ;
    const char *how = WIFSIGNALED(status) ? "signal" : "exit";
    int number = WIFSIGNALED(status) ? WTERMSIG(status) : WEXITSTATUS(status);
    printf("%.6f %.6f %.6f %ld %s %d\n", now() - began, seconds(used.ru_utime), seconds(used.ru_stime),
           used.ru_maxrss, how, number);
    return 0;
}
