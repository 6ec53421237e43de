/* Ctrl-C in a session at a terminal. */
#define _DEFAULT_SOURCE
#include "interrupt.h"

#include <errno.h>
#include <signal.h>
#include <stddef.h>
#include <sys/select.h>
#include <unistd.h>

static volatile sig_atomic_t asked;
static struct sigaction before;

static void ask(int signal)
{
    (void)signal;
    asked = 1;
}

void take_ctrl_c(void)
{
    const struct sigaction action = {.sa_handler = ask, .sa_flags = SA_RESTART};

    sigaction(SIGINT, &action, &before);
}

void leave_ctrl_c(void)
{
    sigaction(SIGINT, &before, NULL);
}

bool break_asked(void)
{
    return asked != 0;
}

void forget_break(void)
{
    asked = 0;
}

void hold_ctrl_c(bool hold)
{
    sigset_t set;

    sigemptyset(&set);
    sigaddset(&set, SIGINT);
    sigprocmask(hold ? SIG_BLOCK : SIG_UNBLOCK, &set, NULL);
}

bool await_input(void)
{
    sigset_t open;
    fd_set from;

    sigprocmask(SIG_BLOCK, NULL, &open);
    sigdelset(&open, SIGINT);
    do {
        FD_ZERO(&from);
        FD_SET(STDIN_FILENO, &from);
    } while (pselect(STDIN_FILENO + 1, &from, NULL, NULL, NULL, &open) < 0 && errno == EINTR && !asked);
    return !asked;
}
