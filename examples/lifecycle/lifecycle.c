/* Plays an init that drives a container's life cycle: reads event names from standard input, one to a line, hands each to the session by one call, and prints
 * the trace in words. A real one would perform each host action where this one prints it.
 *
 * The line 'new' starts another container, '+' and a number lets so many milliseconds pass, an empty one or one that begins with # does nothing.
 *
 *     lifecycle lifecycle.scxml < day.txt              the chart from its text; the trace in words
 *     lifecycle < day.txt                              the same chart, built by calls
 *     lifecycle --text [lifecycle.scxml]               nothing but the chart as text, in one line: what it was taken to mean
 *     lifecycle --tables [lifecycle.scxml] < day.txt   nothing but the chart and the active rows at the end, for second's picture
 */
#include <stdio.h>
#include <stdlib.h>
#include <string.h>

#include "text.h"

/* Entries of the trace, which have to be enough for any round of the chart; rounds of a call; and calls for one event: no chart keeps the init for ever. */
enum { ROOM = 256, ROUNDS = 100, CALLS = 100 };

static auttervil_session session;
static uint32_t trace[ROOM];
static unsigned host_actions; /* asked for so far */

static const char *host_words(uint32_t action)
{
    static const char *const words[] = {"?",
        "mount the volumes", "unmount the volumes", "exec the process", "freeze the process", "thaw the process", "send SIGTERM", "send SIGKILL",
        "send SIGHUP", "log a crash", "remove the container"};
    return action < sizeof words / sizeof words[0] ? words[action] : words[0];
}

/* Printing null is not C's to define; a chart that was compiled has a text for every number of its traces. */
static const char *text(const char *found)
{
    return found == NULL ? "?" : found;
}

static void print_transition(const auttervil_chart *chart, uint32_t transition)
{
    const char *event;
    uint64_t i;
    printf("    transition %u of %s", (unsigned)transition, text(auttervil_row_id(chart, auttervil_transition_source(chart, transition))));
    for (i = 0; (event = auttervil_transition_event(chart, transition, i)) != NULL; i++)
        printf("%s%s", i == 0 ? " on " : " or ", event);
    printf("\n");
}

static void print_entry(const auttervil_chart *chart, uint32_t entry)
{
    uint32_t index = auttervil_entry_index(entry);
    switch (auttervil_entry_kind(entry)) {
    case AUTTERVIL_TRACE_EXITED: printf("    leave %s\n", text(auttervil_row_id(chart, index))); break;
    case AUTTERVIL_TRACE_TRANSITION: print_transition(chart, index); break;
    case AUTTERVIL_TRACE_ENTERED: printf("    enter %s\n", text(auttervil_row_id(chart, index))); break;
    case AUTTERVIL_TRACE_HOST:
        host_actions++;
        printf("    DO %s\n", host_words(index));
        break;
    case AUTTERVIL_TRACE_RAISED: printf("    raise %s\n", text(auttervil_name(chart, index))); break;
    case AUTTERVIL_TRACE_DONE: printf("    done.state.%s\n", text(auttervil_row_id(chart, index))); break;
    case AUTTERVIL_TRACE_CHOSEN: printf("        chosen by %s\n", text(auttervil_row_id(chart, index))); break;
    case AUTTERVIL_TRACE_SENT: printf("    send %s later\n", text(auttervil_name(chart, index))); break;
    case AUTTERVIL_TRACE_CANCELLED: printf("    cancel %s\n", text(auttervil_name(chart, index))); break;
    default: printf("    entry %u\n", (unsigned)entry);
    }
}

static void print_entries(const auttervil_chart *chart, size_t count)
{
    size_t i;
    for (i = 0; i < count; i++)
        print_entry(chart, trace[i]);
}

static void print_active(const auttervil_chart *chart)
{
    uint64_t row;
    printf("    [");
    for (row = 1; row < auttervil_row_count(chart); row++)
        if (auttervil_is_active(&session, row))
            printf(" %s", text(auttervil_row_id(chart, row)));
    printf(" ]\n");
    if (auttervil_next_due(&session) != AUTTERVIL_NEVER)
        printf("    %s is due at %lu, and it is %lu\n", text(auttervil_pending_event(&session, 0)), (unsigned long)auttervil_next_due(&session),
               (unsigned long)session.clock.ticks);
}

/* The chart from its text, where there is one, else built; with this id for the state of mounted volumes. The builder tells an id that is too long at once. */
static void try_id(const document *d, const char *id)
{
    static document renamed;
    auttervil_builder b;
    auttervil_tables tables;
    auttervil_reading reading;
    if (d == NULL) {
        reading.answer = compile_chart(&b, id, &tables).answer;
        if (b.fault != AUTTERVIL_FAULT_NONE) {
            printf("%s\n", auttervil_strfault(b.fault));
            return;
        }
    } else {
        rename_mounted(&renamed, d, id);
        (void)read_chart(&renamed, &reading);
    }
    printf("answer %u, %s\n", (unsigned)reading.answer, auttervil_strstatus(reading.answer));
}

/* The runtime of the incident kept names in slots of 64 bytes: an id of 60 fitted, its done event did not. Here such a chart is refused when it is
 * read or built. There is no session yet, and so no host action that could mount anything. */
static void show_incident(const document *d)
{
    static const char id[] = "mounted-volume-of-the-orders-database-with-its-write-ahead-log";
    static const size_t lengths[] = {52, 53, 60};
    size_t i;
    printf("The incident, with ids cut from \"%s\":\n", id);
    for (i = 0; i < sizeof lengths / sizeof lengths[0]; i++) {
        char cut[64] = {0};
        memcpy(cut, id, lengths[i]);
        printf("    an id of %u bytes: ", (unsigned)lengths[i]);
        try_id(d, cut);
    }
    printf("    host actions asked for so far: %u\n\n", host_actions);
}

/* A chart with a typo is refused before anything runs too, and the message says where. */
static void show_typo(const document *d)
{
    static document mistyped;
    auttervil_reading reading;
    replace(&mistyped, d, "target=\"mounted\"", "target=\"mountd\"");
    (void)read_chart(&mistyped, &reading);
    printf("A typo in a target:\n");
    print_refusal(stdout, &mistyped, &reading);
    printf("\n");
}

static void print_rounds(const auttervil_chart *chart, auttervil_ran ran)
{
    print_entries(chart, ran.count);
    printf("    rounds: %u, then %s\n", (unsigned)ran.rounds, auttervil_strstatus(ran.status));
}

/* Goes on where a run stopped, until nothing is left to do. The trace has room for any round, so that each call does one at least. */
static int run_on(const auttervil_chart *chart, auttervil_ran ran, int quiet)
{
    int calls;
    if (!quiet)
        print_rounds(chart, ran);
    for (calls = 1; calls < CALLS && (ran.status == AUTTERVIL_MORE || ran.status == AUTTERVIL_NO_ROOM); calls++) {
        ran = auttervil_run(&session, chart, ROUNDS, trace, ROOM);
        if (!quiet)
            print_rounds(chart, ran);
    }
    if (!quiet)
        print_active(chart);
    return ran.status == AUTTERVIL_IDLE || ran.status == AUTTERVIL_ENDED;
}

/* One event: posted, and the rounds that it leads to. What is no event's name is refused, and the container goes on. */
static int handle(const auttervil_chart *chart, const char *event, int quiet)
{
    auttervil_stepped stepped = auttervil_step_text(&session, chart, event, ROUNDS, trace, ROOM);
    auttervil_ran ran;
    ran.status = stepped.status;
    ran.rounds = stepped.rounds;
    ran.count = stepped.count;
    if (!quiet)
        printf("%s: %s\n", event, auttervil_strstatus(stepped.answer));
    return stepped.answer != AUTTERVIL_DONE || run_on(chart, ran, quiet);
}

/* So many milliseconds later: what is due by then joins the events that wait, and the rounds that it leads to are done. */
static int let_pass(const auttervil_chart *chart, uint64_t milliseconds, int quiet)
{
    const uint32_t answer = auttervil_advance(&session, chart, session.clock.ticks + milliseconds);
    if (!quiet)
        printf("%lu milliseconds later: %s\n", (unsigned long)milliseconds, auttervil_strstatus(answer));
    return answer != AUTTERVIL_DONE || run_on(chart, auttervil_run(&session, chart, ROUNDS, trace, ROOM), quiet);
}

static void print_tables(const auttervil_tables *tables, const auttervil_chart *chart)
{
    size_t i;
    uint64_t row;
    printf("numbers");
    for (i = 0; i < tables->cells; i++)
        printf(" %llu", (unsigned long long)tables->numbers[i]);
    printf("\nnames");
    for (i = 0; i < tables->bytes; i++)
        printf(" %u", (unsigned)tables->names[i]);
    printf("\nactive");
    for (row = 1; row < auttervil_row_count(chart); row++)
        if (auttervil_is_active(&session, row))
            printf(" %llu", (unsigned long long)row);
    printf("\n");
}

static int print_text(const auttervil_tables *tables)
{
    static char text_of[AUTTERVIL_MOST_TEXT];
    const auttervil_written written = auttervil_write(tables, text_of, sizeof text_of);
    if (written.answer != AUTTERVIL_DONE)
        fprintf(stderr, "chart: %s\n", auttervil_strstatus(written.answer));
    else
        printf("%.*s\n", (int)written.length, text_of);
    return written.answer == AUTTERVIL_DONE;
}

/* A container of its own: the session begins anew. */
static int start_container(const auttervil_chart *chart, int quiet)
{
    auttervil_started started = auttervil_start(&session, chart, trace, ROOM);
    if (!quiet) {
        printf("a new container: %s\n", auttervil_strstatus(started.answer));
        print_entries(chart, started.count);
    }
    return started.answer == AUTTERVIL_DONE && run_on(chart, auttervil_run(&session, chart, ROUNDS, trace, ROOM), quiet);
}

/* The next line without its end; what does not fit is left out. A zero byte stands as '?', which is in no name, so that it cannot cut a line to one. */
static int read_line(char *line, size_t size)
{
    size_t length = 0;
    int c = getchar();
    if (c == EOF)
        return 0;
    for (; c != '\n' && c != EOF; c = getchar())
        if (length + 1 < size)
            line[length++] = c == 0 ? '?' : (char)c;
    if (length > 0 && line[length - 1] == '\r')
        length--;
    line[length] = 0;
    return 1;
}

static int play(const auttervil_chart *chart, int quiet)
{
    char line[256];
    if (!start_container(chart, quiet))
        return 0;
    while (read_line(line, sizeof line)) {
        if (line[0] == '#' && !quiet)
            printf("\n%s\n", line);
        if (line[0] == 0 || line[0] == '#')
            continue;
        if (strcmp(line, "new") == 0) {
            if (!start_container(chart, quiet))
                return 0;
            continue;
        }
        if (line[0] == '+' ? !let_pass(chart, strtoul(line + 1, NULL, 10), quiet) : !handle(chart, line, quiet))
            return 0;
    }
    return 1;
}

/* The chart and its tables, which stay in the places of chart.h. */
static auttervil_compiled get_chart(const document *d, const char *path, auttervil_tables *tables)
{
    auttervil_builder b;
    auttervil_reading reading;
    auttervil_compiled compiled;
    if (d == NULL) {
        char message[AUTTERVIL_MESSAGE_BYTES];
        compiled = compile_chart(&b, "mounted", tables);
        (void)auttervil_show_builder(message, sizeof message, &b);
        if (compiled.answer != AUTTERVIL_DONE)
            fprintf(stderr, "chart: %s; builder: %s\n", auttervil_strstatus(compiled.answer), message);
        return compiled;
    }
    compiled = read_chart(d, &reading);
    *tables = reading.tables;
    if (reading.answer != AUTTERVIL_DONE) {
        fprintf(stderr, "%s: ", path);
        print_refusal(stderr, d, &reading);
    }
    return compiled;
}

int main(int count, char **arguments)
{
    static document from_file;
    const int as_text = count > 1 && strcmp(arguments[1], "--text") == 0;
    const int quiet = as_text || (count > 1 && strcmp(arguments[1], "--tables") == 0);
    const char *path = count > 1 + quiet ? arguments[1 + quiet] : NULL;
    const document *d = path == NULL ? NULL : &from_file;
    auttervil_tables tables;
    auttervil_compiled compiled;
    if (path != NULL && !load(&from_file, path)) {
        fprintf(stderr, "%s: cannot be read\n", path);
        return 1;
    }
    if (!quiet)
        show_incident(d);
    if (!quiet && d != NULL)
        show_typo(d);
    compiled = get_chart(d, path, &tables);
    if (compiled.answer != AUTTERVIL_DONE)
        return 1;
    if (as_text)
        return print_text(&tables) ? 0 : 1;
    if (auttervil_room(&compiled.chart) > ROOM) {
        fprintf(stderr, "chart: a round may write %lu entries, more than the trace has\n", (unsigned long)auttervil_room(&compiled.chart));
        return 1;
    }
    if (!play(&compiled.chart, quiet))
        return 1;
    if (quiet)
        print_tables(&tables, &compiled.chart);
    return 0;
}
