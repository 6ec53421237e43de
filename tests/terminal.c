/* A command at a terminal of its own: terminal COMMAND..., with what the person there does on standard input, a line
   each. What comes to be seen goes to standard output. Ends as the command does, 128 and the signal where one ended it,
   or with 125 where something that is expected does not come.

     expect TEXT    waits until this is seen, behind what was expected before
     type TEXT      types it, and a line end
     key C-c        types this key (C-c, C-d, C-z ..)
     signal NAME    sends the command INT, TERM or HUP
     sh COMMAND     runs a command of the shell, which must succeed
     wait SECONDS   waits */
#define _XOPEN_SOURCE 700
#define _DEFAULT_SOURCE
#include <ctype.h>
#include <fcntl.h>
#include <poll.h>
#include <signal.h>
#include <stdbool.h>
#include <stdio.h>
#include <stdlib.h>
#include <string.h>
#include <sys/wait.h>
#include <time.h>
#include <unistd.h>

enum { SEEN_MOST = 1 << 22, EXPECTED_SECONDS = 300, POLL_MILLISECONDS = 20, LINE_ROOM = 4096, NOT_SEEN = 125 };

static int terminal;
static pid_t process;
static char seen[SEEN_MOST + 1];
static size_t seen_length, expected_up_to;

static double now(void)
{
    struct timespec time;

    clock_gettime(CLOCK_MONOTONIC, &time);
    return (double)time.tv_sec + (double)time.tv_nsec / 1e9;
}

static _Noreturn void give_up(const char *why, const char *what)
{
    fwrite(seen, 1, seen_length, stdout);
    fflush(stdout);
    fprintf(stderr, "terminal: %s %s\n", why, what);
    if (process > 0)
        kill(-process, SIGKILL); /* the whole session */
    exit(NOT_SEEN);
}

static const struct {
    const char *name;
    int number;
} signals[] = {{"INT", SIGINT}, {"TERM", SIGTERM}, {"HUP", SIGHUP}};

enum { SIGNALS = sizeof signals / sizeof signals[0] };

/* Whoever runs the tests may ignore signals, in the background or by nohup; a person's terminal does not. */
static void heed_signals(void)
{
    sigset_t none;

    for (int at = 0; at < SIGNALS; at++)
        signal(signals[at].number, SIG_DFL);
    sigemptyset(&none);
    sigprocmask(SIG_SETMASK, &none, NULL);
}

static void start(char **command)
{
    int side;

    terminal = posix_openpt(O_RDWR | O_NOCTTY);
    if (terminal < 0 || grantpt(terminal) != 0 || unlockpt(terminal) != 0)
        give_up("there is no terminal for", command[0]);
    process = fork();
    if (process < 0)
        give_up("there is no process for", command[0]);
    if (process > 0)
        return;
    setsid(); /* the terminal that is opened next is then the process's own, whose keys send it signals */
    side = open(ptsname(terminal), O_RDWR);
    if (side < 0 || dup2(side, 0) < 0 || dup2(side, 1) < 0 || dup2(side, 2) < 0)
        _exit(126);
    close(terminal);
    heed_signals();
    execvp(command[0], command);
    _exit(127);
}

/* Takes what has come to be seen. Answers whether the terminal is still there. */
static bool look(void)
{
    struct pollfd poller = {terminal, POLLIN, 0};
    ssize_t got;

    if (poll(&poller, 1, POLL_MILLISECONDS) == 0)
        return true;
    if (seen_length == SEEN_MOST) /* only what comes last is kept */
        seen_length = expected_up_to = 0;
    got = read(terminal, seen + seen_length, SEEN_MOST - seen_length);
    if (got <= 0)
        return false;
    for (ssize_t at = 0; at < got; at++) /* a 0 would end the text */
        if (seen[seen_length + (size_t)at] == '\0')
            seen[seen_length + (size_t)at] = '?';
    seen_length += (size_t)got;
    seen[seen_length] = '\0';
    return true;
}

static void expect(const char *text)
{
    double until = now() + EXPECTED_SECONDS;
    const char *found;

    while ((found = strstr(seen + expected_up_to, text)) == NULL)
        if (!look() || now() > until)
            give_up("this is not seen:", text);
    expected_up_to = (size_t)(found - seen) + strlen(text);
}

static void type(const char *text, size_t length)
{
    if (write(terminal, text, length) != (ssize_t)length)
        give_up("this cannot be typed:", text);
}

static void send_signal(const char *name)
{
    for (int at = 0; at < SIGNALS; at++)
        if (strcmp(signals[at].name, name) == 0) {
            kill(process, signals[at].number);
            return;
        }
    give_up("which signal is", name);
}

static void take_line(char *line)
{
    char *rest = strchr(line, ' ');
    double until;

    if (rest == NULL)
        give_up("what is meant by", line);
    *rest++ = '\0';
    if (strcmp(line, "expect") == 0) {
        expect(rest);
    } else if (strcmp(line, "type") == 0) {
        type(rest, strlen(rest));
        type("\n", 1);
    } else if (strcmp(line, "key") == 0 && strncmp(rest, "C-", 2) == 0) {
        rest[2] = (char)(toupper((unsigned char)rest[2]) - '@');
        type(rest + 2, 1);
    } else if (strcmp(line, "signal") == 0) {
        send_signal(rest);
    } else if (strcmp(line, "sh") == 0) {
        if (system(rest) != 0)
            give_up("this fails:", rest);
    } else if (strcmp(line, "wait") == 0) {
        for (until = now() + atof(rest); now() < until;)
            if (!look())
                usleep(POLL_MILLISECONDS * 1000);
    } else {
        give_up("what is meant by", line);
    }
}

int main(int argc, char **argv)
{
    char line[LINE_ROOM];
    double until;
    int status;

    if (argc < 2)
        give_up("which command?", "terminal COMMAND...");
    start(argv + 1);
    while (fgets(line, sizeof line, stdin) != NULL) {
        line[strcspn(line, "\n")] = '\0';
        take_line(line);
    }
    until = now() + EXPECTED_SECONDS;
    while (look() || waitpid(process, &status, WNOHANG) == 0)
        if (now() > until)
            give_up("it does not end:", argv[1]);
        else
            usleep(1000);
    fwrite(seen, 1, seen_length, stdout);
    return WIFSIGNALED(status) ? 128 + WTERMSIG(status) : WEXITSTATUS(status);
}
