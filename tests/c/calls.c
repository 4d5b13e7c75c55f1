/* Every wrapper on charts that are well formed: what it answers, writes and leaves. */
#include <stdlib.h>

#include "test.h"

static lent a, other, door;

static void tables_by_hand(void)
{
    /* Chart A as docs/tables.md has it. */
    static const uint64_t numbers[] = {
        11, 5, 5, 5, 0, 14,
        0, 65535, 65535, 0, 0, 0, 0, 0, 0, 0, 0,
        2, 0, 0, 0, 0, 0, 0, 0, 0, 0, 0,
        1, 1, 1, 0, 0, 0, 0, 0, 0, 0, 0,
        1, 2, 2, 0, 0, 0, 0, 0, 0, 0, 0,
        1, 2, 3, 0, 0, 0, 0, 0, 0, 0, 0,
        3, 2, 4, 0, 0, 0, 0, 0, 0, 0, 0,
        1, 1, 5, 0, 0, 0, 0, 0, 0, 0, 0,
        1, 6, 6, 0, 0, 0, 0, 0, 0, 0, 0,
        1, 6, 7, 0, 0, 0, 0, 0, 0, 0, 0,
        3, 6, 8, 0, 0, 0, 0, 0, 0, 0, 0,
        1, 0, 9, 0, 0, 0, 0, 0, 0, 0, 0,
        1, 0, 1, 65535, 0, 0, 1, 0, 0,
        3, 1, 1, 65535, 0, 1, 1, 0, 0,
        4, 2, 1, 65535, 0, 2, 1, 0, 0,
        7, 3, 1, 65535, 0, 3, 1, 0, 0,
        8, 4, 1, 65535, 0, 4, 1, 0, 0,
        10, 4, 5, 8, 9,
        10, 11, 12, 12, 13};
    static uint64_t place[378];
    static uint8_t name_place[896];
    auttervil_tables tables = {numbers, COUNT(numbers), a.names, 896};
    auttervil_sized sized = auttervil_sizes(&tables);
    auttervil_compiled compiled;
    CHECK(sized.answer == 0 && sized.cells == 378 && sized.bytes == 896);
    CHECK(a.tables.cells == 182 && a.tables.bytes == 896);
    CHECK(memcmp(a.numbers, numbers, sizeof numbers) == 0);
    compiled = auttervil_compile(&tables, place, COUNT(place), name_place, COUNT(name_place));
    CHECK(compiled.answer == 0 && compiled.chart.cells == 378 && compiled.chart.bytes == 896);
    CHECK(memcmp(place, a.place, sizeof place) == 0 && memcmp(name_place, a.name_place, sizeof name_place) == 0);
    CHECK(auttervil_check(&compiled.chart) == 0);
    place[377] ^= 1;
    CHECK(auttervil_check(&compiled.chart) == AUTTERVIL_BAD_CHART);
}

static void run_event(lent *l, const char *name, uint32_t rounds, uint32_t status, const uint32_t *wanted)
{
    auttervil_ran ran;
    CHECK(auttervil_post_text(&l->session, &l->chart, name) == AUTTERVIL_DONE);
    ran = auttervil_run(&l->session, &l->chart, rounds, l->trace, COUNT(l->trace));
    CHECK(ran.status == status);
    CHECK(is_trace(l->trace, ran.count, wanted));
}

static void start(lent *l)
{
    auttervil_started started = auttervil_start(&l->session, &l->chart, l->trace, COUNT(l->trace));
    CHECK(started.answer == AUTTERVIL_DONE);
}

/* The runs of chart A that document 01 marks, with the rows that chose (document 02). */
static void marked_runs(void)
{
    static const uint32_t at_start[] = {3 << 16 | 1, 3 << 16 | 2, 3 << 16 | 3, 3 << 16 | 6, 3 << 16 | 7, 0};
    static const uint32_t at_e4[] = {1 << 16 | 3, 2 << 16 | 1, 7 << 16 | 3, 3 << 16 | 4, 0};
    static const uint32_t at_e1[] = {1 << 16 | 7, 1 << 16 | 4, 2 << 16 | 2, 7 << 16 | 4, 2 << 16 | 3, 7 << 16 | 7, 3 << 16 | 5, 6 << 16 | 2, 3 << 16 | 8, 0};
    static const uint32_t at_e2[] = {1 << 16 | 8, 2 << 16 | 4, 7 << 16 | 8, 3 << 16 | 9, 6 << 16 | 6, 6 << 16 | 1, 0};
    auttervil_started started = auttervil_start(&a.session, &a.chart, a.trace, COUNT(a.trace));
    auttervil_ran ran;
    uint32_t rounds;
    CHECK(started.answer == 0 && is_trace(a.trace, started.count, at_start));
    ran = auttervil_run(&a.session, &a.chart, 0, a.trace, COUNT(a.trace));
    CHECK(ran.status == AUTTERVIL_IDLE && ran.rounds == 0 && ran.count == 0);
    run_event(&a, "e4", 1, AUTTERVIL_IDLE, at_e4);
    run_event(&a, "e1", 1, AUTTERVIL_MORE, at_e1);
    CHECK(a.session.internal_count == 1 && strcmp(auttervil_internal_name(&a.session, 0), "done.state.S1") == 0);
    run_event(&a, "e2", 2, AUTTERVIL_MORE, at_e2);
    for (rounds = 3; rounds <= 10; rounds += 7) {
        start(&a);
        CHECK(auttervil_post_text(&a.session, &a.chart, "e4") == 0);
        CHECK(auttervil_post_text(&a.session, &a.chart, "e1") == 0);
        CHECK(auttervil_post_text(&a.session, &a.chart, "e2") == 0);
        ran = auttervil_run(&a.session, &a.chart, rounds, a.trace, COUNT(a.trace));
        CHECK(ran.rounds == (rounds == 3 ? 3 : 6) && ran.status == (rounds == 3 ? AUTTERVIL_MORE : AUTTERVIL_IDLE));
    }
    CHECK(auttervil_is_active(&a.session, 10) && a.session.configuration[0] == UINT64_C(1) << 10);
    start(&a);
    run_event(&a, "e4", 10, AUTTERVIL_IDLE, at_e4);
    run_event(&a, "e11", 10, AUTTERVIL_IDLE, at_e4 + 4);
    run_event(&a, "e1.x", 1, AUTTERVIL_MORE, at_e1);
}

static void door_runs(void)
{
    static const uint32_t at_start[] = {196609, 262145, 262146, 196611, 0};
    static const uint32_t at_close[] = {1 << 16 | 3, 4 << 16 | 2, 2 << 16 | 2, 7 << 16 | 3, 4 << 16 | 7, 5 << 16 | 7, 3 << 16 | 4, 0};
    static const uint32_t at_quit[] = {1 << 16 | 4, 1 << 16 | 1, 2 << 16 | 1, 7 << 16 | 4, 3 << 16 | 6, 1 << 16 | 6, 0};
    auttervil_started started = auttervil_start(&door.session, &door.chart, door.trace, COUNT(door.trace));
    uint32_t close[COUNT(at_close)];
    uint64_t raised = 0;
    CHECK(started.answer == 0 && is_trace(door.trace, started.count, at_start));
    while (auttervil_name(&door.chart, raised) != NULL && strcmp(auttervil_name(&door.chart, raised), "did.close") != 0)
        raised++;
    memcpy(close, at_close, sizeof close);
    close[5] = entry(AUTTERVIL_TRACE_RAISED, (uint32_t)raised);
    run_event(&door, "close", 9, AUTTERVIL_IDLE, close);
    CHECK(auttervil_has_stored(&door.session, 2, 3) == 0);
    run_event(&door, "quit", 9, AUTTERVIL_ENDED, at_quit);
    CHECK(auttervil_has_stored(&door.session, 2, 4) == 1 && auttervil_has_stored(&door.session, 2, 3) == 0);
    CHECK(door.session.mode == AUTTERVIL_MODE_ENDED);
    CHECK(auttervil_post_text(&door.session, &door.chart, "close") == AUTTERVIL_SESSION_ENDED);
}

static void names_and_queues(void)
{
    static const char longest[] = "a23456789.a23456789.a23456789.a23456789.a23456789.a23456789.a2345";
    static const char *const bad[] = {"", ".", "a.", ".a", "a..b", "*", "a.*", "a b", "a\n", "\xc3\xa4"};
    auttervil_session before;
    size_t i;
    start(&a);
    before = a.session;
    for (i = 0; i < COUNT(bad); i++)
        CHECK(auttervil_post_text(&a.session, &a.chart, bad[i]) == AUTTERVIL_NOT_A_NAME);
    CHECK(auttervil_post(&a.session, &a.chart, longest, 64) == AUTTERVIL_NOT_A_NAME);
    CHECK(auttervil_post_text(&a.session, &a.chart, longest) == AUTTERVIL_NOT_A_NAME);
    CHECK(auttervil_post(&a.session, &a.chart, "a\0b", 3) == AUTTERVIL_NOT_A_NAME);
    CHECK(memcmp(&before, &a.session, sizeof before) == 0);
    CHECK(auttervil_post(&a.session, &a.chart, longest, 63) == AUTTERVIL_DONE);
    CHECK(strlen(auttervil_external_name(&a.session, 0)) == 63 && auttervil_external_name(&a.session, 1) == NULL);
    CHECK(auttervil_post(&a.session, &a.chart, longest, 9) == AUTTERVIL_DONE);
    CHECK(strcmp(auttervil_external_name(&a.session, 1), "a23456789") == 0);
    for (i = 2; i < AUTTERVIL_MOST_QUEUED; i++)
        CHECK(auttervil_post_text(&a.session, &a.chart, "e") == AUTTERVIL_DONE);
    before = a.session;
    CHECK(auttervil_post_text(&a.session, &a.chart, "e") == AUTTERVIL_FULL);
    CHECK(auttervil_post_text(&a.session, &a.chart, "*") == AUTTERVIL_NOT_A_NAME);
    CHECK(memcmp(&before, &a.session, sizeof before) == 0);
    CHECK(auttervil_external_name(&a.session, 32) == NULL && auttervil_internal_name(&a.session, 0) == NULL);
}

static int is_ended(const auttervil_session *session)
{
    auttervil_session zero;
    memset(&zero, 0, sizeof zero);
    return memcmp(&zero, session, sizeof zero) == 0;
}

/* The last cell of a trace is beside others: nothing past its room is written. */
static void small_rooms(void)
{
    size_t room;
    auttervil_session before;
    auttervil_started started;
    auttervil_ran ran;
    for (room = 0; room <= 5; room++) {
        memset(a.trace, 0x5a, sizeof a.trace);
        memset(&a.session, 0xff, sizeof a.session);
        started = auttervil_start(&a.session, &a.chart, room == 0 ? NULL : a.trace, room);
        CHECK(started.answer == (room == 5 ? AUTTERVIL_DONE : AUTTERVIL_NO_ROOM));
        CHECK(started.count == (room == 5 ? room : 0) && (room == 5 || is_ended(&a.session)));
        CHECK(a.trace[started.count] == 0x5a5a5a5a);
    }
    CHECK(auttervil_post_text(&a.session, &a.chart, "nothing") == 0 && auttervil_post_text(&a.session, &a.chart, "e4") == 0);
    before = a.session;
    for (room = 0; room <= 3; room++) {
        a.session = before;
        memset(a.trace, 0x5a, sizeof a.trace);
        ran = auttervil_run(&a.session, &a.chart, 10, room == 0 ? NULL : a.trace, room);
        CHECK(ran.status == AUTTERVIL_NO_ROOM && ran.rounds == 1 && ran.count == 0 && a.trace[0] == 0x5a5a5a5a);
        CHECK(a.session.external_count == 1 && strcmp(auttervil_external_name(&a.session, 0), "e4") == 0);
    }
    a.session = before;
    ran = auttervil_run(&a.session, &a.chart, UINT32_MAX, a.trace, 4);
    CHECK(ran.status == AUTTERVIL_IDLE && ran.rounds == 2 && ran.count == 4 && a.trace[4] == 0x5a5a5a5a);
}

/* A start reads nothing of the session: valgrind would tell of memory that was never written. */
static void unwritten(void)
{
    auttervil_session *session = (auttervil_session *)malloc(sizeof *session);
    auttervil_started started;
    CHECK(session != NULL);
    if (session == NULL)
        return;
    started = auttervil_start(session, &a.chart, a.trace, COUNT(a.trace));
    start(&a);
    CHECK(started.answer == AUTTERVIL_DONE && memcmp(session, &a.session, sizeof *session) == 0);
    free(session);
}

/* With the room that auttervil_room() says, no start and no first round of a run gets 10. */
static void enough_room(void)
{
    static const char *const events[] = {"e4", "e1", "e2", "close", "key", "any", "reset", "open", "quit"};
    static uint32_t trace[64];
    lent *both[2] = {&a, &door};
    size_t i, turn;
    CHECK(auttervil_room(&a.chart) == 11 * 4 + 5 * 2 && auttervil_room(&door.chart) == 7 * 4 + 4 + 6 * 2 + 2);
    for (i = 0; i < 2; i++) {
        size_t room = auttervil_room(&both[i]->chart);
        CHECK(room <= COUNT(trace) && room <= AUTTERVIL_MOST_ROOM);
        CHECK(auttervil_start(&both[i]->session, &both[i]->chart, trace, room).answer == AUTTERVIL_DONE);
        for (turn = 0; turn < COUNT(events); turn++) {
            auttervil_stepped stepped = auttervil_step_text(&both[i]->session, &both[i]->chart, events[turn], 1, trace, room);
            CHECK(stepped.rounds == 1 || stepped.status == AUTTERVIL_ENDED);
        }
    }
}

/* room + 64, and the most that can be asked for where that is more. */
static void most_rounds(void)
{
    CHECK(auttervil_most_rounds(0) == 64 && auttervil_most_rounds(1) == 65 && auttervil_most_rounds(AUTTERVIL_MOST_ROOM) == 43072);
    CHECK(auttervil_most_rounds(UINT32_MAX - 65) == UINT32_MAX - 1 && auttervil_most_rounds(UINT32_MAX - 64) == UINT32_MAX);
    CHECK(auttervil_most_rounds(UINT32_MAX - 63) == UINT32_MAX && auttervil_most_rounds(UINT32_MAX) == UINT32_MAX && auttervil_most_rounds(SIZE_MAX) == UINT32_MAX);
}

/* Names that wait and select nothing: rounds without any entry, one for each. */
static void rounds_without_room(void)
{
    auttervil_ran ran;
    int i;
    start(&a);
    for (i = 0; i < AUTTERVIL_MOST_QUEUED; i++)
        CHECK(auttervil_post_text(&a.session, &a.chart, "nothing") == AUTTERVIL_DONE);
    ran = auttervil_run(&a.session, &a.chart, UINT32_MAX, NULL, 0);
    CHECK(ran.status == AUTTERVIL_IDLE && ran.rounds == AUTTERVIL_MOST_QUEUED && ran.rounds <= auttervil_most_rounds(0));
}

/* Eventless transitions that go round, which the rules do not refuse: a run ends all the same, after at most auttervil_most_rounds(). */
static void endless_loop(void)
{
    static lent loop;
    auttervil_builder b;
    auttervil_ran ran;
    size_t room;
    begin(&loop, &b);
    auttervil_add_row(&b, AUTTERVIL_KIND_STATE, NULL, "there");
    auttervil_add_row(&b, AUTTERVIL_KIND_STATE, NULL, "back");
    auttervil_add_transition(&b, "there", NULL, "back");
    auttervil_add_transition(&b, "back", NULL, "there");
    finish(&loop, &b);
    start(&loop);
    for (room = 0; room <= COUNT(loop.trace); room++) {
        ran = auttervil_run(&loop.session, &loop.chart, UINT32_MAX, loop.trace, room);
        CHECK(ran.status == AUTTERVIL_NO_ROOM && ran.rounds == room / 4 && ran.rounds <= auttervil_most_rounds(room));
    }
}

static void versions(void)
{
    CHECK(AUTTERVIL_ABI_VERSION == 3 && auttervil_raw3_version() == AUTTERVIL_ABI_VERSION && auttervil_is_compatible());
}

/* Equal for equal bytes, wherever they lie; another chart has another, here at least. */
static void fingerprints(void)
{
    uint64_t of_a = auttervil_fingerprint(&a.chart);
    CHECK(of_a == auttervil_fingerprint(&other.chart) && of_a != auttervil_fingerprint(&door.chart));
    other.place[7] ^= 1;
    CHECK(of_a != auttervil_fingerprint(&other.chart));
    other.place[7] ^= 1;
    other.name_place[0] ^= 1;
    CHECK(of_a != auttervil_fingerprint(&other.chart));
    other.name_place[0] ^= 1;
    CHECK(of_a == auttervil_fingerprint(&other.chart));
}

/* Two rows that changed places: a session of the one chart is well formed under the other, and means something else. The fingerprint tells. */
static void rows_that_changed_places(void)
{
    static lent doors[2];
    static const char *const ids[2][2] = {{"open", "closed"}, {"closed", "open"}};
    static const char *const active[2] = {"closed", "open"};
    auttervil_builder b;
    int i;
    for (i = 0; i < 2; i++) {
        begin(&doors[i], &b);
        auttervil_add_row(&b, AUTTERVIL_KIND_STATE, NULL, ids[i][0]);
        auttervil_add_row(&b, AUTTERVIL_KIND_STATE, NULL, ids[i][1]);
        auttervil_add_list(&b, NULL, "open");
        auttervil_add_transition(&b, "open", "close", "closed");
        auttervil_add_transition(&b, "closed", "open", "open");
        finish(&doors[i], &b);
    }
    start(&doors[0]);
    CHECK(auttervil_step_text(&doors[0].session, &doors[0].chart, "close", 9, doors[0].trace, COUNT(doors[0].trace)).status == AUTTERVIL_IDLE);
    for (i = 0; i < 2; i++)
        CHECK(auttervil_is_active(&doors[0].session, auttervil_find_row(&doors[i].chart, active[i])));
    CHECK(auttervil_run(&doors[0].session, &doors[1].chart, 9, doors[0].trace, COUNT(doors[0].trace)).status == AUTTERVIL_IDLE);
    CHECK(auttervil_fingerprint(&doors[0].chart) != auttervil_fingerprint(&doors[1].chart));
}

static void another_chart(void)
{
    auttervil_session before;
    auttervil_ran ran;
    start(&a);
    before = a.session;
    CHECK(auttervil_post_text(&a.session, &door.chart, "e4") == AUTTERVIL_BAD_SESSION);
    ran = auttervil_run(&a.session, &door.chart, 1, a.trace, COUNT(a.trace));
    CHECK(ran.status == AUTTERVIL_BAD_SESSION && ran.rounds == 0 && ran.count == 0);
    CHECK(memcmp(&before, &a.session, sizeof before) == 0);
    CHECK(auttervil_post_text(&a.session, &a.chart, "e4") == AUTTERVIL_DONE);
    /* A start does not look at the session, so it may change charts. */
    CHECK(auttervil_start(&a.session, &door.chart, a.trace, COUNT(a.trace)).answer == AUTTERVIL_DONE);
    CHECK(auttervil_post_text(&a.session, &door.chart, "close") == AUTTERVIL_DONE);
}

/* Two sessions of two charts, call by call, end as each alone. */
static void interleaved(void)
{
    static const char *const events[] = {"e4", "close", "e1", "key", "e2", "open", "reset", "quit"};
    static lent alone[2];
    lent *both[2] = {&a, &door};
    size_t i, turn;
    for (i = 0; i < 2; i++) {
        start(both[i]);
        alone[i] = *both[i];
        for (turn = 0; turn < COUNT(events); turn++) {
            auttervil_post_text(&alone[i].session, &both[i]->chart, events[turn]);
            auttervil_run(&alone[i].session, &both[i]->chart, 10, alone[i].trace, COUNT(alone[i].trace));
        }
    }
    for (turn = 0; turn < COUNT(events); turn++)
        for (i = 0; i < 2; i++)
            auttervil_post_text(&both[i]->session, &both[i]->chart, events[turn]);
    for (turn = 0; turn < 200; turn++)
        for (i = 0; i < 2; i++)
            auttervil_run(&both[i]->session, &both[i]->chart, 1, both[i]->trace, COUNT(both[i]->trace));
    for (i = 0; i < 2; i++)
        CHECK(memcmp(&alone[i].session, &both[i]->session, sizeof(auttervil_session)) == 0);
}

static void reading(void)
{
    uint32_t number;
    uint32_t unknown = 0;
    CHECK(auttervil_entry_kind(196609) == AUTTERVIL_TRACE_ENTERED && auttervil_entry_index(196609) == 1);
    CHECK(auttervil_row_count(&a.chart) == 11 && auttervil_transition_count(&a.chart) == 5);
    CHECK(strcmp(auttervil_row_id(&a.chart, 10), "someOtherState") == 0);
    CHECK(auttervil_row_id(&a.chart, 0) == NULL && auttervil_row_id(&a.chart, 11) == NULL && auttervil_row_id(&a.chart, UINT64_MAX) == NULL);
    CHECK(auttervil_find_row(&a.chart, "S22") == 8 && auttervil_find_row(&a.chart, "S") == AUTTERVIL_NONE);
    CHECK(auttervil_find_row(&a.chart, NULL) == AUTTERVIL_NONE && auttervil_find_row(NULL, "S22") == AUTTERVIL_NONE);
    CHECK(auttervil_row_kind(&a.chart, 5) == AUTTERVIL_KIND_FINAL && auttervil_row_parent(&a.chart, 5) == 2);
    CHECK(auttervil_transition_source(&a.chart, 4) == 8 && auttervil_transition_source(&a.chart, 5) == AUTTERVIL_NONE);
    CHECK(strcmp(auttervil_transition_event(&a.chart, 0, 0), "done.state.p") == 0);
    CHECK(auttervil_transition_event(&a.chart, 0, 1) == NULL && auttervil_transition_event(&a.chart, 9, 0) == NULL);
    CHECK(strcmp(auttervil_transition_event(&door.chart, 3, 1), "push.*") == 0);
    CHECK(auttervil_name(&a.chart, 14) == NULL && auttervil_name(NULL, 0) == NULL);
    CHECK(!auttervil_is_active(&a.session, AUTTERVIL_MOST_ROWS) && !auttervil_is_active(NULL, 1) && !auttervil_has_stored(&a.session, UINT64_MAX, 1));
    for (number = 0; number < 400; number++)
        if (strcmp(auttervil_strstatus(number), "no answer of this library") == 0)
            unknown++;
        else
            CHECK(number < 200 || auttervil_strstatus(number) == auttervil_strplace(number));
    /* 0 to 14 and three statuses; 36 of lent places. */
    CHECK(unknown == 400 - 18 - 36);
    CHECK(auttervil_strplace(199) == NULL && auttervil_strplace(AUTTERVIL_NO_ROOM) == NULL);
    CHECK(strcmp(auttervil_strstatus(AUTTERVIL_SESSION_MISALIGNED), "the session is misaligned") == 0);
    CHECK(strcmp(auttervil_strstatus(AUTTERVIL_TRACE_OVERLAP), "the trace overlaps another lent place") == 0);
    CHECK(strcmp(auttervil_strmode(1), "running") == 0 && strcmp(auttervil_strmode(3), "no mode") == 0);
}

int main(void)
{
    make_chart_a(&a);
    make_chart_a(&other);
    make_door(&door);
    CHECK(memcmp(a.place, other.place, sizeof a.place) == 0);
    tables_by_hand();
    marked_runs();
    door_runs();
    names_and_queues();
    small_rooms();
    unwritten();
    enough_room();
    most_rounds();
    rounds_without_room();
    endless_loop();
    versions();
    fingerprints();
    rows_that_changed_places();
    another_chart();
    interleaved();
    reading();
    return report();
}
