/* A small init: looks after one process, and stops it in two stages when it is told to end. Everything that happens comes in by one loop, which waits for signals (signalfd) and for the
 * next send that is due (timerfd), tells the chart, and does what the chart asks for.
 *
 *     init init.scxml COMMAND ARGUMENTS..
 *
 * As process 1 of a container it would also reap what others leave behind; that needs no chart.
 */
#define _GNU_SOURCE
#include <poll.h>
#include <signal.h>
#include <stdio.h>
#include <stdlib.h>
#include <string.h>
#include <sys/signalfd.h>
#include <sys/timerfd.h>
#include <sys/wait.h>
#include <time.h>
#include <unistd.h>

#include "auttervil.h"

enum action { START = 1, TERMINATE, KILL, LEAVE };

/* Entries of the trace, which have to be enough for any round of the chart, and rounds of a call: what is left over is done by the next one. */
enum { ROOM = 64, ROUNDS = 100 };

AUTTERVIL_PLACES_FOR_TEXT(chart);
static auttervil_session session;
static uint32_t trace[ROOM];
static char **command;
static pid_t child;
static int over;

static void fail(const char *what)
{
    perror(what);
    exit(1);
}

static uint64_t now(void)
{
    struct timespec t;
    if (clock_gettime(CLOCK_MONOTONIC, &t) != 0)
        fail("clock_gettime");
    return (uint64_t)t.tv_sec * 1000 + (uint64_t)t.tv_nsec / 1000000;
}

/* ---- what the chart asks for */

static void start_process(const sigset_t *signals)
{
    child = fork();
    if (child < 0)
        fail("fork");
    if (child > 0)
        return;
    (void)sigprocmask(SIG_UNBLOCK, signals, NULL);
    execvp(command[0], command);
    fail(command[0]);
}

static void perform(uint32_t action, const sigset_t *signals)
{
    switch (action) {
    case START: printf("start %s\n", command[0]); fflush(stdout); start_process(signals); break;
    case TERMINATE: printf("SIGTERM\n"); (void)kill(child, SIGTERM); break;
    case KILL: printf("SIGKILL\n"); (void)kill(child, SIGKILL); break;
    case LEAVE: printf("gone\n"); over = 1; break;
    default: break;
    }
    fflush(stdout);
}

static void perform_all(size_t count, const sigset_t *signals)
{
    size_t i;
    for (i = 0; i < count; i++)
        if (auttervil_entry_kind(trace[i]) == AUTTERVIL_TRACE_HOST)
            perform(auttervil_entry_index(trace[i]), signals);
}

/* ---- the loop */

/* Rounds until nothing is left to do. The trace has room for any round, so that each call does one at least. */
static void run(const auttervil_chart *c, const sigset_t *signals)
{
    auttervil_ran ran;
    do {
        ran = auttervil_run(&session, c, ROUNDS, trace, ROOM);
        perform_all(ran.count, signals);
    } while (ran.status == AUTTERVIL_MORE || (ran.status == AUTTERVIL_NO_ROOM && ran.rounds > 0));
    if (ran.status != AUTTERVIL_IDLE && ran.status != AUTTERVIL_ENDED) {
        fprintf(stderr, "%s\n", auttervil_strstatus(ran.status));
        exit(1);
    }
}

/* What has happened, as an event; a child that stops or goes on is none. */
static void post_signal(const auttervil_chart *c, int signals)
{
    struct signalfd_siginfo got;
    if (read(signals, &got, sizeof got) != (ssize_t)sizeof got)
        return;
    if (got.ssi_signo != SIGCHLD)
        (void)auttervil_post_text(&session, c, "stop");
    else if (waitpid(child, NULL, WNOHANG) == child)
        (void)auttervil_post_text(&session, c, "exited");
}

/* The timer rings when the next send is due: at once where its time is past, never where none is pending. */
static void set_timer(int timer, uint64_t first)
{
    struct itimerspec at;
    const uint64_t due = auttervil_next_due(&session);
    const uint64_t since = now() - first;
    const uint64_t left = due <= since ? 1 : due - since;
    memset(&at, 0, sizeof at);
    if (due != AUTTERVIL_NEVER) {
        at.it_value.tv_sec = (time_t)(left / 1000);
        at.it_value.tv_nsec = (long)(left % 1000) * 1000000;
    }
    if (timerfd_settime(timer, 0, &at, NULL) != 0)
        fail("timerfd_settime");
}

static void wait_for(const auttervil_chart *c, int signals, int timer)
{
    struct pollfd both[2] = {{0, POLLIN, 0}, {0, POLLIN, 0}};
    uint64_t rings;
    both[0].fd = signals;
    both[1].fd = timer;
    if (poll(both, 2, -1) < 0)
        return;
    if (both[0].revents != 0)
        post_signal(c, signals);
    if (both[1].revents != 0 && read(timer, &rings, sizeof rings) < 0)
        return;
}

static void look_after(const auttervil_chart *c)
{
    sigset_t set;
    int signals, timer;
    uint64_t first;
    auttervil_started started;
    (void)sigemptyset(&set);
    (void)sigaddset(&set, SIGTERM);
    (void)sigaddset(&set, SIGINT);
    (void)sigaddset(&set, SIGCHLD);
    if (sigprocmask(SIG_BLOCK, &set, NULL) != 0 || (signals = signalfd(-1, &set, SFD_CLOEXEC)) < 0 || (timer = timerfd_create(CLOCK_MONOTONIC, TFD_CLOEXEC)) < 0)
        fail("signalfd, timerfd");
    first = now();
    started = auttervil_start(&session, c, trace, ROOM);
    if (started.answer != AUTTERVIL_DONE) {
        fprintf(stderr, "%s\n", auttervil_strstatus(started.answer));
        exit(1);
    }
    perform_all(started.count, &set);
    for (;;) {
        run(c, &set);
        if (over)
            return;
        set_timer(timer, first);
        wait_for(c, signals, timer);
        /* Whatever woke us, the session is told how late it is: what is due by now joins the events that wait. */
        (void)auttervil_advance(&session, c, now() - first);
    }
}

int main(int count, char **arguments)
{
    static char text[AUTTERVIL_MOST_TEXT + 1];
    char message[AUTTERVIL_MESSAGE_BYTES];
    auttervil_reading reading;
    auttervil_compiled compiled;
    size_t length;
    FILE *file;
    if (count < 3) {
        fprintf(stderr, "init CHART.scxml COMMAND ARGUMENTS..\n");
        return 1;
    }
    file = fopen(arguments[1], "rb");
    if (file == NULL)
        fail(arguments[1]);
    length = fread(text, 1, sizeof text, file);
    (void)fclose(file);
    reading = AUTTERVIL_READ(text, length, chart);
    if (reading.answer != AUTTERVIL_DONE) {
        (void)auttervil_show_refusal(message, sizeof message, text, length, reading.answer, reading.offset);
        fprintf(stderr, "%s: %s\n", arguments[1], message);
        return 1;
    }
    compiled = AUTTERVIL_COMPILE(&reading.tables, chart);
    if (compiled.answer != AUTTERVIL_DONE || auttervil_room(&compiled.chart) > ROOM) {
        fprintf(stderr, "%s: %s\n", arguments[1], auttervil_strstatus(compiled.answer));
        return 1;
    }
    command = arguments + 2;
    look_after(&compiled.chart);
    return 0;
}
