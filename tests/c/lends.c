/* Places that are null, empty, misaligned, past the end of memory or overlapping: refused by each wrapper with the number that
 * auttervil.h gives, and nothing is written. */
#include "test.h"

static lent a;
static auttervil_session before;
/* Room for a struct at an odd address, and for a chart and a trace that share bytes. */
static union {
    uint64_t cells[4096];
    uint32_t trace[8192];
    uint8_t bytes[32768];
    auttervil_session session;
} shared;

/* The place that is n bytes past this one, as no array of C would have it. */
static void *shifted(void *place, size_t n)
{
    return (void *)((uintptr_t)place + n);
}

static uint32_t compile_into(const auttervil_tables *tables, uint64_t *place, size_t cells, uint8_t *name_place, size_t bytes)
{
    auttervil_compiled compiled = auttervil_compile(tables, place, cells, name_place, bytes);
    if (compiled.answer != AUTTERVIL_DONE)
        CHECK(compiled.chart.numbers == NULL && compiled.chart.cells == 0 && auttervil_check(&compiled.chart) == AUTTERVIL_BAD_CHART);
    return compiled.answer;
}

static void refused_tables(const auttervil_tables *tables, uint32_t answer)
{
    auttervil_sized sized = auttervil_sizes(tables);
    CHECK(sized.answer == answer && sized.cells == 0 && sized.bytes == 0);
    CHECK(compile_into(tables, a.place, a.chart.cells, a.name_place, a.chart.bytes) == answer);
}

static void tables(void)
{
    auttervil_tables t = a.tables;
    refused_tables(NULL, AUTTERVIL_TABLES_NULL);
    t.numbers = NULL;
    refused_tables(&t, AUTTERVIL_TABLES_NULL);
    t.cells = 0;
    refused_tables(&t, AUTTERVIL_SIZE);
    t = a.tables;
    t.numbers = (const uint64_t *)shifted(a.numbers, 4);
    refused_tables(&t, AUTTERVIL_TABLES_MISALIGNED);
    t = a.tables;
    t.cells = SIZE_MAX;
    refused_tables(&t, AUTTERVIL_TABLES_PAST_END);
    t.cells = SIZE_MAX / 8;
    refused_tables(&t, AUTTERVIL_TABLES_PAST_END);
    t.numbers = (const uint64_t *)(UINTPTR_MAX - 15);
    t.cells = 6;
    refused_tables(&t, AUTTERVIL_TABLES_PAST_END);
    t = a.tables;
    t.names = NULL;
    refused_tables(&t, AUTTERVIL_TABLES_NULL);
    t.names = (const uint8_t *)(UINTPTR_MAX - 15);
    refused_tables(&t, AUTTERVIL_TABLES_PAST_END);
    t = a.tables;
    t.cells = 5;
    refused_tables(&t, AUTTERVIL_SIZE);
    refused_tables((const auttervil_tables *)shifted(&t, 1), AUTTERVIL_TABLES_MISALIGNED);
    refused_tables((const auttervil_tables *)(UINTPTR_MAX - 7), AUTTERVIL_TABLES_PAST_END);
    refused_tables((const auttervil_tables *)(UINTPTR_MAX - 31), AUTTERVIL_TABLES_PAST_END);
    /* The header alone says the sizes. */
    t.cells = 6;
    CHECK(auttervil_sizes(&t).answer == AUTTERVIL_DONE && auttervil_sizes(&t).cells == a.chart.cells);
}

static void compiling(void)
{
    const size_t cells = a.chart.cells;
    const size_t bytes = a.chart.bytes;
    auttervil_tables t = a.tables;
    memset(&shared, 0x5a, sizeof shared);
    CHECK(compile_into(NULL, NULL, cells, NULL, bytes) == AUTTERVIL_TABLES_NULL);
    CHECK(compile_into(&a.tables, NULL, cells, shared.bytes + 16384, bytes) == AUTTERVIL_PLACE_NULL);
    CHECK(compile_into(&a.tables, shared.cells, cells, NULL, bytes) == AUTTERVIL_PLACE_NULL);
    CHECK(compile_into(&a.tables, NULL, 0, NULL, 0) == AUTTERVIL_SIZE);
    CHECK(compile_into(&a.tables, shared.cells, cells - 1, shared.bytes + 16384, bytes) == AUTTERVIL_SIZE);
    CHECK(compile_into(&a.tables, shared.cells, cells, shared.bytes + 16384, bytes - 1) == AUTTERVIL_SIZE);
    CHECK(compile_into(&a.tables, (uint64_t *)shifted(shared.cells, 1), cells, shared.bytes + 16384, bytes) == AUTTERVIL_PLACE_MISALIGNED);
    CHECK(compile_into(&a.tables, shared.cells, SIZE_MAX, shared.bytes + 16384, bytes) == AUTTERVIL_PLACE_PAST_END);
    CHECK(compile_into(&a.tables, shared.cells, cells, shared.bytes + 16384, SIZE_MAX) == AUTTERVIL_PLACE_PAST_END);
    CHECK(compile_into(&a.tables, shared.cells, cells, shared.bytes, bytes) == AUTTERVIL_PLACE_OVERLAP);
    CHECK(compile_into(&a.tables, shared.cells, cells, shared.bytes + 8 * cells - 1, bytes) == AUTTERVIL_PLACE_OVERLAP);
    CHECK(compile_into(&a.tables, shared.cells + bytes / 8 - 1, cells, shared.bytes, bytes) == AUTTERVIL_PLACE_OVERLAP);
    CHECK(compile_into(&a.tables, shared.cells + bytes / 8, cells, shared.bytes + 1, bytes) == AUTTERVIL_PLACE_OVERLAP);
    t.bytes = 0;
    CHECK(compile_into(&t, shared.cells, cells, shared.bytes + 16384, bytes) == AUTTERVIL_SIZE);
    t = a.tables;
    t.cells--;
    CHECK(compile_into(&t, shared.cells, cells, shared.bytes + 16384, bytes) == AUTTERVIL_SIZE);
    CHECK(shared.bytes[0] == 0x5a && memcmp(shared.bytes, shared.bytes + 1, sizeof shared - 1) == 0);
    /* Next to each other they are apart; a larger place is used from its front. */
    CHECK(compile_into(&a.tables, shared.cells, cells, shared.bytes + 8 * cells, bytes + 100) == AUTTERVIL_DONE);
    CHECK(memcmp(shared.cells, a.place, 8 * cells) == 0 && memcmp(shared.bytes + 8 * cells, a.name_place, bytes) == 0);
    CHECK(shared.bytes[8 * cells + bytes] == 0x5a);
    CHECK(compile_into(&a.tables, shared.cells + bytes / 8, cells, shared.bytes, bytes) == AUTTERVIL_DONE);
    CHECK(memcmp(shared.cells + bytes / 8, a.place, 8 * cells) == 0 && memcmp(shared.bytes, a.name_place, bytes) == 0);
}

/* The tables themselves as places for what they compile to. */
static void compiling_in_place(void)
{
    static lent same;
    const size_t cells = a.chart.cells;
    const size_t bytes = a.chart.bytes;
    auttervil_tables *inside = (auttervil_tables *)(void *)(shared.cells + cells - 4);
    same = a;
    same.tables.numbers = same.numbers;
    same.tables.names = same.names;
    CHECK(compile_into(&same.tables, same.numbers, COUNT(same.numbers), same.name_place, bytes) == AUTTERVIL_PLACE_OVERLAP);
    CHECK(compile_into(&same.tables, same.place, cells, same.names, bytes) == AUTTERVIL_PLACE_OVERLAP);
    CHECK(compile_into(&same.tables, same.place, cells, (uint8_t *)same.numbers, bytes) == AUTTERVIL_PLACE_OVERLAP);
    CHECK(compile_into(&same.tables, (uint64_t *)(void *)same.names, sizeof same.names / 8, same.name_place, bytes) == AUTTERVIL_PLACE_OVERLAP);
    CHECK(compile_into(&same.tables, same.place, cells, (uint8_t *)&same.tables - bytes + 1, bytes) == AUTTERVIL_PLACE_OVERLAP);
    memcpy(shared.bytes + 8 * cells - 1, a.names, bytes);
    same.tables.names = shared.bytes + 8 * cells - 1;
    CHECK(compile_into(&same.tables, shared.cells, cells, same.name_place, bytes) == AUTTERVIL_PLACE_OVERLAP);
    CHECK(memcmp(shared.bytes + 8 * cells - 1, a.names, bytes) == 0);
    same.tables.names = same.names;
    *inside = same.tables;
    CHECK(compile_into(inside, shared.cells, cells, same.name_place, bytes) == AUTTERVIL_PLACE_OVERLAP && inside->numbers == same.numbers);
    CHECK(memcmp(same.numbers, a.numbers, sizeof a.numbers) == 0 && memcmp(same.names, a.names, sizeof a.names) == 0);
    CHECK(compile_into(&same.tables, same.place, cells, same.name_place, bytes) == AUTTERVIL_DONE);
}

/* The four calls of a session with a chart, session or name whose place is refused. */
static void refused_by_all(auttervil_session *session, const auttervil_chart *chart, const char *name, size_t length, uint32_t answer)
{
    auttervil_ran ran;
    auttervil_stepped stepped;
    CHECK(auttervil_post(session, chart, name, length) == answer);
    stepped = auttervil_step(session, chart, name, length, 9, a.trace, COUNT(a.trace));
    CHECK(stepped.answer == answer && stepped.status == answer && stepped.rounds == 0 && stepped.count == 0);
    if (answer >= AUTTERVIL_NAME_NULL)
        return;
    ran = auttervil_run(session, chart, 9, a.trace, COUNT(a.trace));
    CHECK(ran.status == answer && ran.rounds == 0 && ran.count == 0);
}

static void refused(auttervil_session *session, const auttervil_chart *chart, uint32_t answer)
{
    auttervil_started started;
    refused_by_all(session, chart, "e4", 2, answer);
    started = auttervil_start(session, chart, a.trace, COUNT(a.trace));
    CHECK(started.answer == answer && started.count == 0);
}

static int is_ended(const auttervil_session *session)
{
    static const auttervil_session zero;
    return memcmp(&zero, session, sizeof zero) == 0;
}

/* A chart whose place cannot be lent: told before anything of the session, which stays as it was. */
static void refused_place(const auttervil_chart *chart, uint32_t answer)
{
    auttervil_session session = before;
    CHECK(auttervil_check(chart) == answer && auttervil_room(chart) == 0 && auttervil_fingerprint(chart) == 0);
    refused(&session, chart, answer);
    refused(NULL, chart, answer);
    CHECK(memcmp(&before, &session, sizeof before) == 0);
}

/* A chart that can be lent and is none: a start leaves an ended session, as document 01 has it. */
static void refused_chart(const auttervil_chart *chart)
{
    auttervil_session session = before;
    CHECK(auttervil_check(chart) == AUTTERVIL_BAD_CHART && auttervil_room(chart) == 0);
    refused_by_all(&session, chart, "e4", 2, AUTTERVIL_BAD_CHART);
    CHECK(memcmp(&before, &session, sizeof before) == 0);
    CHECK(auttervil_start(&session, chart, a.trace, COUNT(a.trace)).answer == AUTTERVIL_BAD_CHART && is_ended(&session));
    refused(NULL, chart, AUTTERVIL_SESSION_NULL);
}

static void charts(void)
{
    auttervil_chart c = a.chart;
    refused_place(NULL, AUTTERVIL_CHART_NULL);
    refused_place((const auttervil_chart *)shifted(&c, 1), AUTTERVIL_CHART_MISALIGNED);
    refused_place((const auttervil_chart *)(UINTPTR_MAX - 7), AUTTERVIL_CHART_PAST_END);
    refused_place((const auttervil_chart *)(UINTPTR_MAX - 31), AUTTERVIL_CHART_PAST_END);
    CHECK(auttervil_find_row((const auttervil_chart *)(UINTPTR_MAX - 7), "p") == AUTTERVIL_NONE);
    c.numbers = NULL;
    refused_place(&c, AUTTERVIL_CHART_NULL);
    c.cells = 0;
    refused_chart(&c);
    c.names = NULL;
    c.bytes = 0;
    refused_chart(&c);
    c = a.chart;
    c.numbers = (const uint64_t *)shifted(a.place, 4);
    refused_place(&c, AUTTERVIL_CHART_MISALIGNED);
    c = a.chart;
    c.cells = SIZE_MAX / 8 + 1;
    refused_place(&c, AUTTERVIL_CHART_PAST_END);
    c = a.chart;
    c.bytes = SIZE_MAX;
    refused_place(&c, AUTTERVIL_CHART_PAST_END);
    c.names = (const uint8_t *)(UINTPTR_MAX - 15);
    c.bytes = a.chart.bytes;
    refused_place(&c, AUTTERVIL_CHART_PAST_END);
    c = a.chart;
    c.names = NULL;
    refused_place(&c, AUTTERVIL_CHART_NULL);
    c.bytes = 0;
    refused_chart(&c);
    c = a.chart;
    c.cells--;
    refused_chart(&c);
    c = a.chart;
    c.bytes -= 64;
    refused_chart(&c);
}

static void sessions(void)
{
    refused(NULL, &a.chart, AUTTERVIL_SESSION_NULL);
    memset(&shared, 0x5a, sizeof shared);
    refused((auttervil_session *)shifted(&shared, 4), &a.chart, AUTTERVIL_SESSION_MISALIGNED);
    refused((auttervil_session *)shifted(&shared, 1), &a.chart, AUTTERVIL_SESSION_MISALIGNED);
    refused((auttervil_session *)(UINTPTR_MAX - 4095), &a.chart, AUTTERVIL_SESSION_PAST_END);
    auttervil_clear(NULL);
    auttervil_clear((auttervil_session *)shifted(&shared, 4));
    auttervil_clear((auttervil_session *)(UINTPTR_MAX - 4095));
    CHECK(shared.bytes[0] == 0x5a && memcmp(shared.bytes, shared.bytes + 1, sizeof shared - 1) == 0);
    /* One whose bytes are no session is the library's to refuse, and a start's to overwrite. */
    refused_by_all(&shared.session, &a.chart, "e4", 2, AUTTERVIL_BAD_SESSION);
    CHECK(shared.bytes[0] == 0x5a && memcmp(shared.bytes, shared.bytes + 1, sizeof shared - 1) == 0);
    CHECK(auttervil_start(&shared.session, &a.chart, a.trace, COUNT(a.trace)).answer == AUTTERVIL_DONE);
    CHECK(memcmp(&shared.session, &before, sizeof before) == 0 && shared.bytes[sizeof before] == 0x5a);
}

/* A chart whose cells, names or struct lie in the session. */
static void chart_in_session(void)
{
    static auttervil_session copy;
    auttervil_chart c = a.chart;
    auttervil_chart *inside = (auttervil_chart *)(void *)shared.session.internal;
    size_t turn;
    for (turn = 0; turn < 3; turn++) {
        const auttervil_chart *chart = &c;
        memset(&shared, 0, sizeof shared);
        shared.session = before;
        c = a.chart;
        if (turn == 0) {
            memcpy(shared.session.history + 8, a.place, 8 * a.chart.cells);
            c.numbers = shared.session.history + 8;
        } else if (turn == 1) {
            memcpy(shared.session.external, a.name_place, a.chart.bytes);
            c.names = shared.session.external;
        } else {
            *inside = a.chart;
            chart = inside;
        }
        copy = shared.session;
        CHECK(auttervil_check(chart) == AUTTERVIL_DONE);
        refused(&shared.session, chart, AUTTERVIL_SESSION_OVERLAP);
        CHECK(memcmp(&copy, &shared.session, sizeof copy) == 0);
    }
    /* Misaligned too: then nothing of it is read. */
    refused(&shared.session, (const auttervil_chart *)shifted(inside, 1), AUTTERVIL_CHART_MISALIGNED);
    CHECK(memcmp(&copy, &shared.session, sizeof copy) == 0);
}

static void refused_trace(auttervil_session *session, const auttervil_chart *chart, uint32_t *trace, size_t room, uint32_t answer)
{
    auttervil_started started;
    auttervil_ran ran;
    auttervil_stepped stepped;
    *session = before;
    ran = auttervil_run(session, chart, 9, trace, room);
    CHECK(ran.status == answer && ran.rounds == 0 && ran.count == 0);
    stepped = auttervil_step(session, chart, "e4", 2, 9, trace, room);
    CHECK(stepped.answer == answer && stepped.status == answer && stepped.rounds == 0 && stepped.count == 0);
    started = auttervil_start(session, chart, trace, room);
    CHECK(started.answer == answer && started.count == 0);
    CHECK(memcmp(&before, session, sizeof before) == 0);
}

static void traces(void)
{
    static auttervil_session session;
    refused_trace(&session, &a.chart, NULL, 1, AUTTERVIL_TRACE_NULL);
    refused_trace(&session, &a.chart, (uint32_t *)shifted(a.trace, 2), 4, AUTTERVIL_TRACE_MISALIGNED);
    refused_trace(&session, &a.chart, a.trace, SIZE_MAX, AUTTERVIL_TRACE_PAST_END);
    refused_trace(&session, &a.chart, (uint32_t *)(UINTPTR_MAX - 15), 8, AUTTERVIL_TRACE_PAST_END);
    refused_trace(&session, &a.chart, a.trace, SIZE_MAX / 4, AUTTERVIL_TRACE_PAST_END);
    refused_trace(&session, &a.chart, (uint32_t *)(void *)a.place, 4, AUTTERVIL_TRACE_OVERLAP);
    refused_trace(&session, &a.chart, (uint32_t *)(void *)(a.place + a.chart.cells) - 1, 4, AUTTERVIL_TRACE_OVERLAP);
    refused_trace(&session, &a.chart, (uint32_t *)(void *)a.name_place, 1, AUTTERVIL_TRACE_OVERLAP);
    refused_trace(&session, &a.chart, (uint32_t *)(void *)&a.chart, 1, AUTTERVIL_TRACE_OVERLAP);
    refused_trace(&shared.session, &a.chart, shared.trace, 1, AUTTERVIL_TRACE_OVERLAP);
    refused_trace(&shared.session, &a.chart, (uint32_t *)(void *)&shared.session.mode, 1, AUTTERVIL_TRACE_OVERLAP);
    refused_trace(&shared.session, &a.chart, shared.trace + sizeof before / 4 - 1, 8, AUTTERVIL_TRACE_OVERLAP);
    CHECK(auttervil_check(&a.chart) == AUTTERVIL_DONE);
    /* Directly behind the session is apart from it. */
    CHECK(auttervil_start(&shared.session, &a.chart, shared.trace + sizeof before / 4, 8).answer == AUTTERVIL_DONE);
    CHECK(memcmp(&before, &shared.session, sizeof before) == 0 && shared.trace[sizeof before / 4] == 196609);
}

static void posted_names(void)
{
    static const char e4[] = "e4";
    auttervil_session session = before;
    refused_by_all(&session, &a.chart, NULL, 2, AUTTERVIL_NAME_NULL);
    refused_by_all(&session, &a.chart, e4, SIZE_MAX, AUTTERVIL_NAME_PAST_END);
    refused_by_all(&session, &a.chart, (const char *)(UINTPTR_MAX - 3), 8, AUTTERVIL_NAME_PAST_END);
    CHECK(auttervil_post_text(&session, &a.chart, NULL) == AUTTERVIL_NAME_NULL);
    CHECK(auttervil_step_text(&session, &a.chart, NULL, 9, a.trace, COUNT(a.trace)).answer == AUTTERVIL_NAME_NULL);
    /* No bytes may be anywhere, and are no name. */
    CHECK(auttervil_post(&session, &a.chart, NULL, 0) == AUTTERVIL_NOT_A_NAME);
    CHECK(auttervil_post(&session, &a.chart, e4, 0) == AUTTERVIL_NOT_A_NAME);
    CHECK(auttervil_post(&session, &a.chart, (const char *)session.external, 0) == AUTTERVIL_NOT_A_NAME);
    CHECK(auttervil_step(&session, &a.chart, NULL, 0, 9, a.trace, COUNT(a.trace)).answer == AUTTERVIL_NOT_A_NAME);
    CHECK(memcmp(&before, &session, sizeof before) == 0);
    /* The order: chart, session, name, trace. */
    CHECK(auttervil_post(NULL, NULL, NULL, 2) == AUTTERVIL_CHART_NULL);
    CHECK(auttervil_post(NULL, &a.chart, NULL, 2) == AUTTERVIL_SESSION_NULL);
    CHECK(auttervil_run(NULL, NULL, 1, NULL, 1).status == AUTTERVIL_CHART_NULL);
    CHECK(auttervil_run(NULL, &a.chart, 1, NULL, 1).status == AUTTERVIL_SESSION_NULL);
    CHECK(auttervil_step(NULL, &a.chart, NULL, 2, 1, NULL, 1).status == AUTTERVIL_SESSION_NULL);
    CHECK(auttervil_step(&session, &a.chart, NULL, 2, 1, NULL, 1).status == AUTTERVIL_NAME_NULL);
    CHECK(auttervil_step(&session, &a.chart, e4, 2, 1, NULL, 1).status == AUTTERVIL_TRACE_NULL);
}

/* A name that lies in the session or, in a step, in the trace: each is read while the other is written. */
static void overlapping_names(void)
{
    static auttervil_session copy;
    char *name = (char *)shared.bytes + sizeof before;
    memset(&shared, 0, sizeof shared);
    shared.session = before;
    memcpy(shared.session.external, "e4", 2);
    shared.session.external_count = 1;
    memcpy(name, "e4", 2);
    copy = shared.session;
    refused_by_all(&shared.session, &a.chart, (const char *)shared.session.external, 2, AUTTERVIL_NAME_OVERLAP);
    refused_by_all(&shared.session, &a.chart, (const char *)&shared.session, 1, AUTTERVIL_NAME_OVERLAP);
    refused_by_all(&shared.session, &a.chart, name - 1, 2, AUTTERVIL_NAME_OVERLAP);
    CHECK(memcmp(&copy, &shared.session, sizeof copy) == 0);
    CHECK(auttervil_step(&shared.session, &a.chart, name, 2, 9, (uint32_t *)(void *)name, 8).status == AUTTERVIL_TRACE_OVERLAP);
    CHECK(auttervil_step(&shared.session, &a.chart, name + 7, 2, 9, (uint32_t *)(void *)name, 2).status == AUTTERVIL_TRACE_OVERLAP);
    CHECK(memcmp(&copy, &shared.session, sizeof copy) == 0 && memcmp(name, "e4", 3) == 0);
    /* Directly behind the session, and directly in front of the trace, is apart from them. */
    CHECK(auttervil_step(&shared.session, &a.chart, name, 2, 9, (uint32_t *)(void *)(name + 4), 8).answer == AUTTERVIL_DONE);
    CHECK(shared.session.external_count == 0 && auttervil_is_active(&shared.session, 4) && memcmp(name, "e4", 3) == 0);
}

int main(void)
{
    make_chart_a(&a);
    CHECK(auttervil_start(&a.session, &a.chart, a.trace, COUNT(a.trace)).answer == AUTTERVIL_DONE);
    before = a.session;
    tables();
    compiling();
    compiling_in_place();
    charts();
    sessions();
    chart_in_session();
    traces();
    posted_names();
    overlapping_names();
    return report();
}
