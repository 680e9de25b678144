/* Polls each so many seconds: poll_each SECONDS PROGRAM [WORD..]
 *
 * The program is `stanza_agent follow`. It gets a line `poll`, and behind its answer and these seconds the next one. Its
 * answers are printed, but for one that tells nothing new: its words are those of the answer before, `lines=` aside. SIGTERM and
 * SIGINT end the program's input; so it ends with the poll that it is at, since it doesn't hear them itself. The status is
 * the program's, and 2 where the words are wrong, and 71 where the program can't be started. */
#define _GNU_SOURCE
#include <errno.h>
#include <poll.h>
#include <signal.h>
#include <stdio.h>
#include <stdlib.h>
#include <string.h>
#include <sys/wait.h>
#include <time.h>
#include <unistd.h>

static volatile sig_atomic_t ending;

static void end(int signal) { ending = signal; }

/* Whether two answers are the same, the number behind ` lines=` aside. */
static int is_known(const char *one, const char *other) {
    static const char field[] = " lines=";
    const char *a = strstr(one, field), *b = strstr(other, field);
    if (a == NULL || b == NULL || a - one != b - other || strncmp(one, other, a - one) != 0)
        return strcmp(one, other) == 0;
    a += sizeof field - 1;
    b += sizeof field - 1;
    return strcmp(a + strspn(a, "0123456789"), b + strspn(b, "0123456789")) == 0;
}

/* Waits these seconds, or until a signal ends it, or until the program says more or has ended. The signals `open` are let
 * through meanwhile. Whether it says more. */
static int rest(time_t seconds, int answers, const sigset_t *open) {
    struct pollfd more = {.fd = answers, .events = POLLIN};
    struct timespec now, until;
    clock_gettime(CLOCK_MONOTONIC, &until);
    until.tv_sec += seconds;
    for (;;) {
        clock_gettime(CLOCK_MONOTONIC, &now);
        struct timespec left = {until.tv_sec - now.tv_sec, until.tv_nsec - now.tv_nsec};
        if (left.tv_nsec < 0) {
            left.tv_sec -= 1;
            left.tv_nsec += 1000000000;
        }
        if (ending || left.tv_sec < 0)
            return 0;
        int found = ppoll(&more, 1, &left, open);
        if (found >= 0)
            return found;
    }
}

/* The program, with these ends as its standard input and output. */
static pid_t start(char **words, int input[2], int output[2], const sigset_t *open) {
    pid_t child = fork();
    if (child != 0)
        return child;
    dup2(input[0], STDIN_FILENO);
    dup2(output[1], STDOUT_FILENO);
    for (int place = 0; place < 2; place++) {
        if (input[place] > STDERR_FILENO)
            close(input[place]);
        if (output[place] > STDERR_FILENO)
            close(output[place]);
    }
    signal(SIGTERM, SIG_IGN);
    signal(SIGINT, SIG_IGN);
    signal(SIGPIPE, SIG_DFL);
    sigprocmask(SIG_SETMASK, open, NULL);
    execvp(words[0], words);
    perror(words[0]);
    _exit(71);
}

int main(int count, char **words) {
    char *behind;
    long seconds = count > 2 ? strtol(words[1], &behind, 10) : -1;
    if (seconds < 1 || *behind != '\0') {
        fputs("usage: poll_each SECONDS PROGRAM [WORD..]\n", stderr);
        return 2;
    }
    /* The signals come while it rests, and nowhere else. */
    sigset_t held, open;
    sigemptyset(&held);
    sigaddset(&held, SIGTERM);
    sigaddset(&held, SIGINT);
    sigprocmask(SIG_BLOCK, &held, &open);
    sigdelset(&open, SIGTERM);
    sigdelset(&open, SIGINT);
    struct sigaction ends = {.sa_handler = end};
    sigaction(SIGTERM, &ends, NULL);
    sigaction(SIGINT, &ends, NULL);
    signal(SIGPIPE, SIG_IGN);

    int input[2], output[2];
    pid_t child = pipe(input) == 0 && pipe(output) == 0 ? start(words + 2, input, output, &open) : -1;
    if (child < 0) {
        perror("poll_each");
        return 71;
    }
    close(input[0]);
    close(output[1]);
    FILE *answers = fdopen(output[0], "r");
    char *line = NULL, *last = NULL;
    size_t room = 0, last_room = 0;
    int control = input[1];
    if (write(control, "poll\n", 5) != 5)
        ending = SIGPIPE;
    while (getline(&line, &room, answers) > 0) {
        if (last == NULL || !is_known(line, last)) {
            fputs(line, stdout);
            fflush(stdout);
            char *told = line;
            size_t told_room = room;
            line = last;
            room = last_room;
            last = told;
            last_room = told_room;
        }
        if (rest(seconds, output[0], &open))
            continue;
        if (!ending && write(control, "poll\n", 5) != 5)
            ending = SIGPIPE;
        if (ending && control >= 0) {
            close(control);
            control = -1;
        }
    }
    if (control >= 0)
        close(control);
    int status;
    while (waitpid(child, &status, 0) < 0 && errno == EINTR) {
    }
    return WIFEXITED(status) ? WEXITSTATUS(status) : 128 + WTERMSIG(status);
}
