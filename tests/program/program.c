/*
 * The program against right answers: program VECTORS COUNT COMMAND...
 *
 * Runs the command, which is jxe, once for each vector and each of COUNT generated records, with the record on its
 * standard input, and compares all that it prints; it must end with status 0. A record that is too long
 * goes in whole. Every number that the program can print must be reached. The last line is `N passed, M failed`.
 */
#define _POSIX_C_SOURCE 200809L

#include "coverage.h"
#include "records.h"

#include <errno.h>
#include <fcntl.h>
#include <signal.h>
#include <spawn.h>
#include <stdlib.h>
#include <string.h>
#include <sys/wait.h>
#include <time.h>
#include <unistd.h>

enum { MOST_OUTPUT = 4096 };

extern char **environ;

static char **command;
static struct coverage coverage;

static void give_up(const char *what) {
    perror(what);
    exit(2);
}

/* what goes in; in pieces with pauses if asked, as a pipe may bring it */
static void feed(int to, const uint8_t *rec, size_t len, int pieces) {
    size_t done = 0;
    while (done < len) {
        size_t part = len - done;
        if (pieces && part > len / 3 + 1) {
            part = len / 3 + 1;
            nanosleep(&(struct timespec){.tv_nsec = 2000000}, NULL);
        }
        ssize_t n = write(to, rec + done, part);
        if (n < 0 && errno == EINTR)
            continue;
        if (n < 0)      /* the program reads no more than it needs */
            return;
        done += (size_t)n;
    }
}

/* Runs the command. What it printed, with a 0 byte after it; says where it didn't end by itself with status 0. */
static void run(const uint8_t *rec, size_t len, int pieces, char *output) {
    int in[2], out[2], status;
    pid_t child;
    posix_spawn_file_actions_t actions;
    if (pipe(in) != 0 || pipe(out) != 0)
        give_up("pipe");
    fcntl(in[1], F_SETFD, FD_CLOEXEC);
    fcntl(out[0], F_SETFD, FD_CLOEXEC);
    posix_spawn_file_actions_init(&actions);
    posix_spawn_file_actions_adddup2(&actions, in[0], 0);
    posix_spawn_file_actions_adddup2(&actions, out[1], 1);
    posix_spawn_file_actions_addclose(&actions, in[0]);
    posix_spawn_file_actions_addclose(&actions, out[1]);
    errno = posix_spawnp(&child, command[0], &actions, NULL, command, environ);
    if (errno != 0)
        give_up(command[0]);
    posix_spawn_file_actions_destroy(&actions);
    close(in[0]);
    close(out[1]);
    feed(in[1], rec, len, pieces);
    close(in[1]);
    size_t got = 0;
    for (;;) {
        char rest[256];
        int full = got == MOST_OUTPUT - 1;
        ssize_t n = read(out[0], full ? rest : output + got, full ? sizeof rest : MOST_OUTPUT - 1 - got);
        if (n == 0 || (n < 0 && errno != EINTR))
            break;
        if (n > 0 && !full)
            got += (size_t)n;
    }
    close(out[0]);
    while (waitpid(child, &status, 0) < 0)
        if (errno != EINTR)
            give_up("waitpid");
    output[got] = 0;
    if (status != 0)
        snprintf(output + got, MOST_OUTPUT - got, "(%s %d)\n", WIFEXITED(status) ? "status" : "signal",
                 WIFEXITED(status) ? WEXITSTATUS(status) : WTERMSIG(status));
}

static size_t print_answer(char *text, enum question q, struct answer x) {
    return (size_t)sprintf(text, "%s %u %u %u %u", QUESTION[q], x.n, x.s, x.a, x.b);
}

/* the three lines that are right */
static void right_lines(const struct answer x[QUESTIONS], unsigned count, const uint16_t *list, char *text) {
    for (enum question q = VERDICT; q < QUESTIONS; q++) {
        text += print_answer(text, q, x[q]);
        if (q == ORDER && x[q].n == 0) {
            text += sprintf(text, " %u", count);
            for (unsigned k = 0; k < count; k++)
                text += sprintf(text, " %u", list[k]);
        }
        *text++ = '\n';
    }
    *text = 0;
}

static int holds(const struct vector *v, const char *where, unsigned long number) {
    static char right[MOST_OUTPUT], output[MOST_OUTPUT];
    const struct answer x[QUESTIONS] = {v->verdict, v->race, v->order};
    for (enum question q = VERDICT; q < QUESTIONS; q++)
        cover(&coverage, q, x[q]);
    right_lines(x, v->count, v->list, right);
    run(v->rec, v->len, number % 64 == 0, output);
    if (strcmp(output, right) == 0)
        return 1;
    printf("%s %lu: right is\n%sthe program printed\n%s\n", where, number, right, output);
    print_hex(stdout, v->rec, v->len);
    return 0;
}

int main(int argc, char **argv) {
    if (argc < 4) {
        fprintf(stderr, "usage: program VECTORS COUNT COMMAND...\n");
        return 2;
    }
    command = argv + 3;
    signal(SIGPIPE, SIG_IGN);
    struct tally t = test_records(argv[1], strtoul(argv[2], NULL, 0), 1, holds);
    t.failed += print_coverage(&coverage, QUESTIONS, 0);
    return finish(t);
}
