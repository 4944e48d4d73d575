/* Which call is under way, and how the program ends where one went wrong: with status 1 and a line that says what and where. */
#define _GNU_SOURCE
#include "hostile.h"

#include <signal.h>
#include <stdarg.h>
#include <stdio.h>
#include <stdlib.h>
#include <string.h>
#include <unistd.h>

enum { LONGEST = 60, REST = 2048 }; /* seconds that a trial may take; trials between two looks at all that lies around the buffers */

static const char *function = "nothing";
static uint64_t seed;
static size_t trial;
static int side;

static int begin_line(char *line, size_t room)
{
    return snprintf(line, room, "hostile: %s, seed %llu, trial %zu, buffers flush with the page %s them: ", function,
                    (unsigned long long)seed, trial, side == 0 ? "after" : "before");
}

/* A signal's handler: the address says which buffer was left, and on which side. */
static void fault(int signal, siginfo_t *info, void *context)
{
    char line[512];
    (void)context;
    size_t length = (size_t)begin_line(line, sizeof line);
    if (signal == SIGALRM)
        snprintf(line + length, sizeof line - length, "the call does not return");
    else
        describe_address(info->si_addr, line + length, sizeof line - length);
    length = strlen(line);
    line[length++] = '\n';
    if (write(STDERR_FILENO, line, length) < 0)
        _exit(2);
    _exit(1);
}

void stop_at_faults(void)
{
    static uint8_t stack[1 << 16]; /* the handler's own, since the fault may be that the stack is used up */
    stack_t own = { .ss_sp = stack, .ss_size = sizeof stack };
    struct sigaction action = { .sa_sigaction = fault, .sa_flags = SA_SIGINFO | SA_ONSTACK };
    static const int signals[] = { SIGSEGV, SIGBUS, SIGILL, SIGFPE, SIGALRM };
    bool set = sigaltstack(&own, NULL) == 0;
    for (size_t i = 0; i < sizeof signals / sizeof *signals; i++)
        set = set && sigaction(signals[i], &action, NULL) == 0;
    if (!set) {
        perror("hostile: signals");
        exit(2);
    }
}

void begin_trial(const char *name, uint64_t from, size_t number)
{
    function = name;
    seed = from;
    trial = number;
    side = 0;
    alarm(LONGEST);
}

void begin_side(int which)
{
    side = which;
}

bool flush_with_page_after(void)
{
    return side == 0;
}

bool look_at_all_around(void)
{
    return trial % REST == 0;
}

void fail(const char *format, ...)
{
    char line[512];
    va_list arguments;
    begin_line(line, sizeof line);
    fflush(stdout);
    fputs(line, stderr);
    va_start(arguments, format);
    vfprintf(stderr, format, arguments);
    va_end(arguments);
    fputc('\n', stderr);
    exit(1);
}
