/* Calls on stacks that are too small: below the stack is a page that may not be touched, and below that page memory that is none of the call's. A call returns, or
 * faults in that page; the memory below stays as it was. Each call is made in a process of its own. That a frame which steps over the page would be seen
 * is tried with a function of such a frame. */
#define _GNU_SOURCE
#include <signal.h>
#include <stdlib.h>
#include <sys/mman.h>
#include <sys/wait.h>
#include <ucontext.h>
#include <unistd.h>

#include "test.h"

enum { PAGE = 4096, BELOW = 1 << 18, MOST_STACK = 1 << 16, LARGEST_STACK = 1 << 19, PAINT = 0x5a };
/* How a process ends. */
enum { RETURNED = 10, IN_GUARD = 11, ELSEWHERE = 12 };

static lent a;
static auttervil_call calls[3];
static const char scxml[] = "<scxml><state id='a'><onentry><raise event='e'/></onentry><transition event='e' target='a'/></state></scxml>";
AUTTERVIL_PLACES(from_text, 4, 4, 4, 4, 4, 4);
static auttervil_scratch scratch;
static char written[AUTTERVIL_MOST_TEXT];
static uint8_t *below; /* shared with the processes; then the page, then the stack */
static ucontext_t here, there;

static void nothing(void)
{
}

static void read_text(void)
{
    (void)AUTTERVIL_READ(scxml, sizeof scxml - 1, from_text);
}

static void read_with(void)
{
    (void)AUTTERVIL_READ_WITH(&scratch, scxml, sizeof scxml - 1, from_text);
}

static void write_back(void)
{
    (void)auttervil_write(&a.tables, written, sizeof written);
}

static void sizes(void)
{
    (void)auttervil_sizes(&a.tables);
}

static void compile(void)
{
    (void)auttervil_compile(&a.tables, a.place, COUNT(a.place), a.name_place, COUNT(a.name_place));
}

static void check_chart(void)
{
    (void)auttervil_check(&a.chart);
}

static void room(void)
{
    (void)auttervil_room(&a.chart);
}

static void fingerprint(void)
{
    (void)auttervil_fingerprint(&a.chart);
}

static void start(void)
{
    (void)auttervil_start(&a.session, &a.chart, a.trace, COUNT(a.trace));
}

static void post(void)
{
    (void)auttervil_post(&a.session, &a.chart, "e4", 2);
}

static void run(void)
{
    (void)auttervil_run(&a.session, &a.chart, 10, a.trace, COUNT(a.trace));
}

static void advance(void)
{
    (void)auttervil_advance(&a.session, &a.chart, 10);
}

static void step(void)
{
    (void)auttervil_step(&a.session, &a.chart, "e4", 2, 10, a.trace, COUNT(a.trace));
}

static void perform(void)
{
    (void)auttervil_perform(&a.session, &a.chart, calls, 3, "e4", 2, a.trace, COUNT(a.trace));
}

static void write_byte(uint8_t *at)
{
    *at = 1;
}

/* Called through a pointer, so that no compiler knows what is done with the frame. */
static void (*volatile write_to)(uint8_t *) = write_byte;

/* A frame of many pages, of which the lowest byte alone is written. */
static void steps_over(void)
{
    uint8_t frame[MOST_STACK];
    write_to(frame);
}

static void on_fault(int number, siginfo_t *info, void *context)
{
    uintptr_t at = (uintptr_t)info->si_addr;
    uintptr_t guard = (uintptr_t)below + BELOW;
    (void)number;
    (void)context;
    _exit(at >= guard && at < guard + PAGE ? IN_GUARD : ELSEWHERE);
}

/* In a process of its own: the call, on the lowest so many bytes above the page. */
static void make_call(void (*call)(void), size_t stack)
{
    static uint8_t for_faults[1 << 16];
    stack_t other;
    struct sigaction action;
    memset(&other, 0, sizeof other);
    other.ss_sp = for_faults;
    other.ss_size = sizeof for_faults;
    memset(&action, 0, sizeof action);
    action.sa_sigaction = on_fault;
    action.sa_flags = SA_SIGINFO | SA_ONSTACK;
    if (sigaltstack(&other, NULL) != 0 || sigaction(SIGSEGV, &action, NULL) != 0 || getcontext(&there) != 0)
        _exit(1);
    there.uc_stack.ss_sp = below + BELOW + PAGE;
    there.uc_stack.ss_size = stack;
    there.uc_link = &here;
    makecontext(&there, call, 0);
    _exit(swapcontext(&here, &there) == 0 ? RETURNED : 1);
}

/* How the call ends, and whether the memory below the page is as it was. */
static int ends(void (*call)(void), size_t stack, int *is_left)
{
    int status = 0;
    pid_t child;
    size_t i;
    memset(below, PAINT, BELOW);
    child = fork();
    if (child == 0)
        make_call(call, stack);
    if (child < 0 || waitpid(child, &status, 0) != child) {
        printf("no process\n");
        exit(1);
    }
    for (i = 0; i < BELOW && below[i] == PAINT; i++)
        ;
    *is_left = i == BELOW;
    return WIFEXITED(status) ? WEXITSTATUS(status) : 0;
}

int main(void)
{
    static const struct {
        const char *name;
        void (*call)(void);
    } all[] = {{"read", read_text}, {"read_with", read_with}, {"write", write_back}, {"sizes", sizes}, {"compile", compile}, {"check", check_chart}, {"room", room}, {"fingerprint", fingerprint}, {"start", start},
               {"post", post}, {"run", run}, {"advance", advance}, {"step", step}, {"perform", perform}};
    /* Two pages more than the calls may take, for what the process takes at the top of its stack, for the linker, and for a read with a scratch, which takes more than the others. A read without one works on its
     * stack. */
    const size_t enough = MOST_STACK + 2 * PAGE;
    size_t i, stack;
    int is_left, how;
    below = (uint8_t *)mmap(NULL, BELOW + PAGE + LARGEST_STACK, PROT_READ | PROT_WRITE, MAP_SHARED | MAP_ANONYMOUS, -1, 0);
    if (below == MAP_FAILED || mprotect(below + BELOW, PAGE, PROT_NONE) != 0) {
        printf("no pages\n");
        return 1;
    }
    make_chart_a(&a);
    start();
    calls[0] = auttervil_call_start(16);
    calls[1] = auttervil_call_post(0, 2);
    calls[2] = auttervil_call_run(10, 48);
    for (i = 0; i < COUNT(all); i++) {
        unsigned faults = 0;
        for (stack = 512; stack <= MOST_STACK; stack += 512) {
            how = ends(all[i].call, stack, &is_left);
            CHECK(is_left && (how == RETURNED || how == IN_GUARD));
            faults += how == IN_GUARD;
        }
        printf("%s: %u of %u stacks too small\n", all[i].name, faults, MOST_STACK / 512);
        CHECK(ends(all[i].call, all[i].call == read_text ? LARGEST_STACK : enough, &is_left) == RETURNED && is_left);
        CHECK(faults > 0 || all[i].call == sizes || all[i].call == fingerprint);
    }
    CHECK(ends(nothing, 4096, &is_left) == RETURNED && is_left);
    /* The memory is written past the page, or the protection that the compiler adds stops at it. */
    how = ends(steps_over, 4096, &is_left);
    CHECK(PROTECTED ? how == IN_GUARD && is_left : !is_left);
    return report();
}
