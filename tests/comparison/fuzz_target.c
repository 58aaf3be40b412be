// What tests/comparison/fuzz.sh has AFL++ run on each input: the plain C answers it, then the program that the
// variable TALLY names, and abort() marks an input on which they differ.
#define _POSIX_C_SOURCE 200809L
#include <spawn.h>
#include <stdlib.h>
#include <sys/wait.h>
#include <unistd.h>

#define main plain_main
#include "../../measure/plain_tally.c"
#undef main

extern char **environ;

static char other[sizeof output + 1];

static void stop(const char *what) {
    perror(what);
    exit(2);
}

// Starts the program on the same standard input, from its start, and returns the pipe to its output.
static int start(char *program, pid_t *process) {
    int ends[2];
    posix_spawn_file_actions_t actions;
    if (lseek(0, 0, SEEK_SET) != 0) stop("standard input is not a file");
    if (pipe(ends) != 0 || posix_spawn_file_actions_init(&actions) != 0) stop("pipe");
    posix_spawn_file_actions_adddup2(&actions, ends[1], 1);
    posix_spawn_file_actions_addclose(&actions, ends[0]);
    posix_spawn_file_actions_addclose(&actions, ends[1]);
    char *words[] = {program, NULL};
    if (posix_spawn(process, program, &actions, NULL, words, environ) != 0) stop(program);
    close(ends[1]);
    return ends[0];
}

// All that the program writes, or as much as shows that it is too long.
static size_t read_all(int from) {
    size_t size = 0;
    ssize_t more;
    while (size < sizeof other && (more = read(from, other + size, sizeof other - size)) > 0) size += (size_t)more;
    close(from);
    return size;
}

int main(void) {
    char *program = getenv("TALLY");
    pid_t process;
    int status;
    if (program == NULL) stop("TALLY names no program");
    tally();
    size_t size = read_all(start(program, &process));
    if (waitpid(process, &status, 0) != process || status != 0) abort();
    if (size != written || memcmp(output, other, size) != 0) abort();
    return 0;
}
