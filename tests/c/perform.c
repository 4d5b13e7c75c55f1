/* A list of calls in one call: the same as the calls one by one. What is no call ends the list, and places that cannot be lent are refused. */
#include "test.h"

enum { MOST_CALLS = 24, ROOM = 200 };

static lent a, door;
static const char text[] = "e4e1e2closekeyopenpush.itresetquit..*";
static auttervil_call calls[MOST_CALLS + 1];
static uint32_t trace[ROOM + 1];

/* All of it as it was filled before. */
static int is_left(const void *place, size_t bytes)
{
    const uint8_t *at = (const uint8_t *)place;
    size_t i;
    for (i = 0; i < bytes; i++)
        if (at[i] != 0x5a)
            return 0;
    return 1;
}

/* Whether a call has what it asked for, and nothing was written of what it gave. */
static int is_untold(const auttervil_call *call)
{
    return is_left(&call->number, 3 * sizeof call->number);
}

/* The trace, and what each call gave. */
static void fill(void)
{
    size_t i;
    for (i = 0; i < COUNT(calls); i++)
        memset(&calls[i].number, 0x5a, 3 * sizeof calls[i].number);
    memset(trace, 0x5a, sizeof trace);
}

/* One call of the list, done alone in a window of its own: the call with what it gives. */
static auttervil_call alone(lent *l, auttervil_session *session, auttervil_call call, uint32_t *window)
{
    call.rounds = 0;
    call.count = 0;
    if (call.kind == AUTTERVIL_CALL_START) {
        auttervil_started started = auttervil_start(session, &l->chart, window, (size_t)call.room);
        call.number = started.answer;
        call.count = started.count;
    } else if (call.kind == AUTTERVIL_CALL_POST) {
        call.number = auttervil_post(session, &l->chart, text + call.a, (size_t)(call.b - call.a));
    } else if (call.kind == AUTTERVIL_CALL_CLOCK) {
        call.number = auttervil_advance(session, &l->chart, call.a);
    } else {
        auttervil_ran ran = auttervil_run(session, &l->chart, (uint32_t)call.a, window, (size_t)call.room);
        call.number = ran.status;
        call.rounds = ran.rounds;
        call.count = ran.count;
    }
    return call;
}

/* Whether the list gives, call by call, what the calls alone give. */
static int is_same(lent *l, size_t count)
{
    static uint32_t windows[ROOM + 1];
    static auttervil_call asked[MOST_CALLS + 1];
    auttervil_session one = l->session;
    auttervil_performed performed;
    size_t i;
    size_t at = 0;
    fill();
    memcpy(asked, calls, sizeof asked);
    memset(windows, 0x5a, sizeof windows);
    performed = auttervil_perform(&l->session, &l->chart, calls, count, text, sizeof text - 1, trace, ROOM);
    if (performed.answer != AUTTERVIL_DONE || performed.performed != count)
        return 0;
    for (i = 0; i < count; i++) {
        auttervil_call call = alone(l, &one, asked[i], windows + at);
        if (memcmp(&call, &calls[i], sizeof call) != 0 || auttervil_window(calls, i) != at)
            return 0;
        at += (size_t)calls[i].room;
    }
    return memcmp(&one, &l->session, sizeof one) == 0 && memcmp(windows, trace, sizeof trace) == 0 && is_untold(&calls[count]);
}

static auttervil_call random_call(size_t room)
{
    size_t first = next_random() % sizeof text;
    switch (next_random() % 7) {
    case 0: return auttervil_call_start(room);
    case 1: return auttervil_call_run((uint32_t)(next_random() % 4), room);
    case 2: return auttervil_call_run(UINT32_MAX, room);
    case 3: return auttervil_call_clock(next_random() % 4 == 0 ? next_random() : next_random() % 60);
    default: return auttervil_call_post(first, next_random() % (sizeof text - first));
    }
}

static void random_lists(lent *l, size_t lists)
{
    int same = 1;
    for (; lists > 0; lists--) {
        size_t count = next_random() % (MOST_CALLS + 1);
        size_t left = ROOM;
        size_t i;
        for (i = 0; i < count; i++) {
            size_t room = next_random() % 30;
            calls[i] = random_call(room < left ? room : left);
            left -= (size_t)calls[i].room;
        }
        same = same && is_same(l, count);
    }
    CHECK(same);
}

/* The run of chart A that document 01 marks as the fifth, as one list. */
static void marked_run(void)
{
    calls[0] = auttervil_call_start(5);
    calls[1] = auttervil_call_post(0, 2);
    calls[2] = auttervil_call_post(2, 2);
    calls[3] = auttervil_call_post(4, 2);
    calls[4] = auttervil_call_run(3, 40);
    calls[5] = auttervil_call_run(10, 40);
    CHECK(is_same(&a, 6));
    CHECK(calls[0].number == AUTTERVIL_DONE && calls[0].count == 5);
    CHECK(calls[4].number == AUTTERVIL_MORE && calls[4].rounds == 3);
    CHECK(calls[5].number == AUTTERVIL_IDLE && calls[5].rounds == 3 && auttervil_is_active(&a.session, 10));
    CHECK(auttervil_window(calls, 5) == 45 && auttervil_entry_kind(trace[45]) != 0);
    CHECK(is_same(&a, 0));
}

/* The list 'start, X, start' ends before X; a refused call would not end it. */
static void ends_before(auttervil_call call, size_t room)
{
    auttervil_performed performed;
    calls[0] = auttervil_call_start(5);
    calls[1] = call;
    calls[2] = auttervil_call_start(0);
    fill();
    performed = auttervil_perform(&a.session, &a.chart, calls, 3, text, sizeof text - 1, trace, room);
    CHECK(performed.answer == AUTTERVIL_DONE && performed.performed == 1 && calls[0].count == 5);
    CHECK(is_untold(&calls[1]) && is_untold(&calls[2]) && is_left(trace + 5, sizeof trace - 20));
    CHECK(a.session.mode == AUTTERVIL_MODE_RUNNING && a.session.external_count == 0);
}

static void what_is_no_call(void)
{
    auttervil_call call;
    ends_before(auttervil_call_start(ROOM - 4), ROOM);
    ends_before(auttervil_call_run(1, SIZE_MAX), ROOM);
    ends_before(auttervil_call_run(1, 1), 5);
    ends_before(auttervil_call_post(0, sizeof text), ROOM);
    ends_before(auttervil_call_post(sizeof text, 0), ROOM);
    ends_before(auttervil_call_post(SIZE_MAX, SIZE_MAX), ROOM);
    ends_before(auttervil_call_run(UINT64_C(1) << 32, 0), ROOM);
    ends_before(auttervil_call_run(UINT64_MAX, 0), ROOM);
    call = auttervil_call_run(1, 0);
    call.kind = 4;
    ends_before(call, ROOM);
    call.kind = UINT64_MAX;
    ends_before(call, ROOM);
    call = auttervil_call_post(2, 2);
    call.b = 1;
    ends_before(call, ROOM);
    /* A refused call has its result, and the list goes on. */
    calls[0] = auttervil_call_start(4);
    calls[1] = auttervil_call_post(0, 2);
    calls[2] = auttervil_call_start(5);
    CHECK(is_same(&a, 3));
    CHECK(calls[0].number == AUTTERVIL_NO_ROOM && calls[1].number == AUTTERVIL_SESSION_ENDED && calls[2].number == AUTTERVIL_DONE);
}

static void refused(auttervil_session *session, const auttervil_chart *chart, auttervil_call *list, size_t count, const char *lent_text, size_t length, uint32_t *written,
                    size_t room, uint32_t answer)
{
    auttervil_performed performed = auttervil_perform(session, chart, list, count, lent_text, length, written, room);
    CHECK(performed.answer == answer && performed.performed == 0);
}

static void refused_places(void)
{
    static union {
        auttervil_call calls[8];
        uint32_t trace[112];
        char text[448];
    } shared;
    static auttervil_session s, before;
    auttervil_chart no_cells = {NULL, 0, NULL, 0};
    calls[0] = auttervil_call_start(5);
    calls[1] = auttervil_call_post(0, 2);
    s = before = a.session;
    fill();
    refused(&s, NULL, calls, 2, text, 2, trace, ROOM, AUTTERVIL_CHART_NULL);
    refused(&s, (const auttervil_chart *)(UINTPTR_MAX - 7), calls, 2, text, 2, trace, ROOM, AUTTERVIL_CHART_PAST_END);
    refused(NULL, &a.chart, calls, 2, text, 2, trace, ROOM, AUTTERVIL_SESSION_NULL);
    refused((auttervil_session *)((uintptr_t)&s + 4), &a.chart, calls, 2, text, 2, trace, ROOM, AUTTERVIL_SESSION_MISALIGNED);
    refused((auttervil_session *)(void *)a.place, &a.chart, calls, 2, text, 2, trace, ROOM, AUTTERVIL_SESSION_OVERLAP);
    refused(&s, &a.chart, NULL, 2, text, 2, trace, ROOM, AUTTERVIL_CALLS_NULL);
    refused(&s, &a.chart, calls, SIZE_MAX, text, 2, trace, ROOM, AUTTERVIL_CALLS_PAST_END);
    refused(&s, &a.chart, calls, SIZE_MAX / sizeof calls[0] + 1, text, 2, trace, ROOM, AUTTERVIL_CALLS_PAST_END);
    refused(&s, &a.chart, (auttervil_call *)((uintptr_t)calls + 4), 2, text, 2, trace, ROOM, AUTTERVIL_CALLS_MISALIGNED);
    refused(&s, &a.chart, calls, 2, NULL, 2, trace, ROOM, AUTTERVIL_TEXT_NULL);
    refused(&s, &a.chart, calls, 2, text, SIZE_MAX, trace, ROOM, AUTTERVIL_TEXT_PAST_END);
    refused(&s, &a.chart, calls, 2, (const char *)(UINTPTR_MAX - 3), 8, trace, ROOM, AUTTERVIL_TEXT_PAST_END);
    refused(&s, &a.chart, calls, 2, text, 2, NULL, ROOM, AUTTERVIL_TRACE_NULL);
    refused(&s, &a.chart, calls, 2, text, 2, (uint32_t *)((uintptr_t)trace + 2), 4, AUTTERVIL_TRACE_MISALIGNED);
    refused(&s, &a.chart, calls, 2, text, 2, trace, SIZE_MAX, AUTTERVIL_TRACE_PAST_END);
    /* Written places that overlap another; the session is one, and so are the calls. */
    refused(&s, &a.chart, (auttervil_call *)(void *)s.external, 2, text, 2, trace, ROOM, AUTTERVIL_CALLS_OVERLAP);
    refused(&s, &a.chart, (auttervil_call *)(void *)&s.clock, 2, text, 2, trace, ROOM, AUTTERVIL_CALLS_OVERLAP);
    refused(&s, &a.chart, (auttervil_call *)(void *)a.place, 2, text, 2, trace, ROOM, AUTTERVIL_CALLS_OVERLAP);
    refused(&s, &a.chart, calls, 2, (const char *)s.external, 2, trace, ROOM, AUTTERVIL_TEXT_OVERLAP);
    refused(&s, &a.chart, calls, 2, (const char *)s.clock.ids, 2, trace, ROOM, AUTTERVIL_TEXT_OVERLAP);
    refused(&s, &a.chart, calls, 2, text, 2, (uint32_t *)(void *)&s, 8, AUTTERVIL_TRACE_OVERLAP);
    refused(&s, &a.chart, calls, 2, text, 2, (uint32_t *)(void *)a.name_place, 8, AUTTERVIL_TRACE_OVERLAP);
    refused(&s, &a.chart, calls, 2, text, 2, (uint32_t *)(void *)calls, 8, AUTTERVIL_TRACE_OVERLAP);
    memcpy(shared.text, text, 8);
    refused(&s, &a.chart, shared.calls, 2, shared.text + 111, 2, trace, ROOM, AUTTERVIL_TEXT_OVERLAP);
    refused(&s, &a.chart, calls, 2, shared.text, 2, shared.trace, 1, AUTTERVIL_TRACE_OVERLAP);
    refused(&s, &a.chart, calls, 2, shared.text, 1, shared.trace, 1, AUTTERVIL_TRACE_OVERLAP);
    CHECK(memcmp(shared.text, text, 8) == 0 && is_untold(&calls[0]) && is_untold(&calls[1]) && is_left(trace, sizeof trace));
    CHECK(memcmp(&before, &s, sizeof s) == 0 && auttervil_check(&a.chart) == AUTTERVIL_DONE);
    /* Side by side they are apart; places of no elements may be null. */
    shared.calls[0] = calls[0];
    shared.calls[1] = calls[1];
    CHECK(auttervil_perform(&s, &a.chart, shared.calls, 2, shared.text + 112, 0, trace, ROOM).performed == 1);
    CHECK(auttervil_perform(&s, &a.chart, NULL, 0, NULL, 0, NULL, 0).answer == AUTTERVIL_DONE);
    /* A chart that can be lent and is none is refused call by call. */
    CHECK(auttervil_perform(&s, &no_cells, calls, 2, text, 2, trace, ROOM).performed == 2);
    CHECK(calls[0].number == AUTTERVIL_BAD_CHART && calls[1].number == AUTTERVIL_BAD_CHART);
}

/* Random cells as calls: what is done is a front part of the list, and nothing behind it is written. */
static void random_cells(size_t lists)
{
    int kept = 1;
    for (; lists > 0; lists--) {
        auttervil_session session = door.session;
        auttervil_performed performed;
        size_t i, used;
        fill_random(calls, sizeof calls);
        for (i = 0; i < MOST_CALLS; i++) {
            /* Mostly small numbers, so that some are calls. */
            calls[i].kind %= next_random() % 8 == 0 ? 6 : 4;
            calls[i].room %= next_random() % 8 == 0 ? UINT64_MAX : 20;
            calls[i].a %= next_random() % 8 == 0 ? UINT64_MAX : 40;
            calls[i].b %= next_random() % 8 == 0 ? UINT64_MAX : 60;
        }
        fill();
        performed = auttervil_perform(&session, &door.chart, calls, MOST_CALLS, text, sizeof text - 1, trace, ROOM);
        used = auttervil_window(calls, performed.performed);
        kept = kept && performed.answer == AUTTERVIL_DONE && performed.performed <= MOST_CALLS && used <= ROOM;
        for (i = performed.performed; i < COUNT(calls); i++)
            kept = kept && is_untold(&calls[i]);
        kept = kept && is_left(trace + used, (COUNT(trace) - used) * 4);
    }
    CHECK(kept);
}

int main(void)
{
    make_chart_a(&a);
    make_door(&door);
    marked_run();
    what_is_no_call();
    refused_places();
    random_lists(&a, 200);
    random_lists(&door, 200);
    random_cells(300);
    return report();
}
