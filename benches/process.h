/* A program run as a process: a file is its standard input, and its standard output
 * is read to the end. */
#ifndef PROCESS_H
#define PROCESS_H

#include <fcntl.h>
#include <spawn.h>
#include <stdio.h>
#include <stdlib.h>
#include <sys/resource.h>
#include <sys/wait.h>
#include <time.h>
#include <unistd.h>

extern char **environ;

/* Times are microseconds: from before the start to after the end, and of the
 * processor. */
struct run {
    double wall, processor;
    size_t bytes; /* of its answer */
};

static void fail(const char *what, const char *name)
{
    fprintf(stderr, "%s: %s\n", name, what);
    exit(1);
}

static double now(clockid_t clock)
{
    struct timespec t;
    clock_gettime(clock, &t);
    return (double)t.tv_sec * 1e6 + (double)t.tv_nsec / 1e3;
}

static double microseconds(struct timeval t)
{
    return (double)t.tv_sec * 1e6 + (double)t.tv_usec;
}

/* A file without a name, so that the program reads it while this process reads what
 * the program writes. */
static int save(const char *name, const void *bytes, size_t count)
{
    FILE *file = tmpfile();
    if (file == NULL || fwrite(bytes, 1, count, file) != count || fflush(file) != 0) {
        fail("cannot write a temporary file", name);
    }
    const int kept = fcntl(fileno(file), F_DUPFD_CLOEXEC, 0);
    fclose(file);
    return kept;
}

static pid_t start(const char *program, int in, int out)
{
    char *const arguments[] = {(char *)program, NULL};
    posix_spawn_file_actions_t actions;
    pid_t id;
    posix_spawn_file_actions_init(&actions);
    posix_spawn_file_actions_adddup2(&actions, in, 0);
    posix_spawn_file_actions_adddup2(&actions, out, 1);
    if (posix_spawn(&id, program, &actions, NULL, arguments, environ) != 0) {
        fail("cannot be started", program);
    }
    posix_spawn_file_actions_destroy(&actions);
    return id;
}

static size_t read_answer(int from, char *answer, size_t room)
{
    size_t len = 0;
    ssize_t got;
    while ((got = read(from, answer + len, room - len)) > 0) {
        len += (size_t)got;
    }
    return len;
}

/* Runs the program on a file and has its answer. */
static struct run run_on(const char *program, int file, char *answer, size_t room)
{
    int ends[2], status;
    struct rusage used;
    if (lseek(file, 0, SEEK_SET) != 0 || pipe(ends) != 0) {
        fail("no pipe", program);
    }
    fcntl(ends[0], F_SETFD, FD_CLOEXEC);
    fcntl(ends[1], F_SETFD, FD_CLOEXEC);
    const double from = now(CLOCK_MONOTONIC);
    const pid_t id = start(program, file, ends[1]);
    close(ends[1]);
    const size_t bytes = read_answer(ends[0], answer, room);
    close(ends[0]); /* where there was no room for more, this ends the program */
    if (wait4(id, &status, 0, &used) != id) {
        fail("cannot be waited for", program);
    }
    const double wall = now(CLOCK_MONOTONIC) - from;
    if (status != 0) {
        fail("did not end well", program);
    }
    return (struct run){wall, microseconds(used.ru_utime) + microseconds(used.ru_stime), bytes};
}

#endif
