/* Delayed sends, cancels and clock calls, from C: what a host is told, and records that are none. */
#include "test.h"

static lent timer;

/* A state that sends three events when it is entered, cancels when it is asked to, and leaves when one of them comes. */
static void make_timer(lent *l)
{
    auttervil_builder b;
    begin(l, &b);
    auttervil_add_row(&b, AUTTERVIL_KIND_STATE, NULL, "wait");
    auttervil_add_row(&b, AUTTERVIL_KIND_STATE, NULL, "rang");
    auttervil_add_row(&b, AUTTERVIL_KIND_FINAL, NULL, "off");
    auttervil_add_entry(&b, "wait");
    auttervil_add_send(&b, "late", 30, "watch");
    auttervil_add_send(&b, "soon", 10, NULL);
    auttervil_add_send(&b, "now", 0, "watch");
    auttervil_add_exit(&b, "rang");
    auttervil_add_send(&b, "never", AUTTERVIL_MOST_DELAY, NULL);
    auttervil_add_transition(&b, "wait", "stop", NULL);
    auttervil_add_cancel(&b, "watch");
    auttervil_add_transition(&b, "wait", "late", "rang");
    auttervil_add_transition(&b, "rang", "again", "rang");
    auttervil_add_transition(&b, "rang", "quit", "off");
    finish(l, &b);
}

static uint64_t name_number(const auttervil_chart *chart, const char *name)
{
    uint64_t number = 0;
    while (auttervil_name(chart, number) != NULL && !auttervil_is_same(auttervil_name(chart, number), name))
        number++;
    return number;
}

static uint32_t sent(const char *name)
{
    return entry(AUTTERVIL_TRACE_SENT, (uint32_t)name_number(&timer.chart, name));
}

static auttervil_ran run(void)
{
    return auttervil_run(&timer.session, &timer.chart, 10, timer.trace, COUNT(timer.trace));
}

static void start(void)
{
    CHECK(auttervil_start(&timer.session, &timer.chart, timer.trace, COUNT(timer.trace)).answer == AUTTERVIL_DONE);
}

static void what_is_sent(void)
{
    uint32_t wanted[5];
    auttervil_started started = auttervil_start(&timer.session, &timer.chart, timer.trace, COUNT(timer.trace));
    wanted[0] = entry(AUTTERVIL_TRACE_ENTERED, 1);
    wanted[1] = sent("late");
    wanted[2] = sent("soon");
    wanted[3] = sent("now");
    wanted[4] = 0;
    CHECK(started.answer == AUTTERVIL_DONE && is_trace(timer.trace, started.count, wanted));
    CHECK(timer.session.clock.ticks == 0 && auttervil_pending(&timer.session) == 3 && auttervil_next_due(&timer.session) == 0);
    CHECK(auttervil_is_same(auttervil_pending_event(&timer.session, 0), "late") && auttervil_is_same(auttervil_pending_id(&timer.session, 0), "watch"));
    CHECK(auttervil_is_same(auttervil_pending_event(&timer.session, 1), "soon") && auttervil_pending_id(&timer.session, 1) == NULL);
    CHECK(auttervil_pending_event(&timer.session, 3) == NULL && auttervil_pending_id(&timer.session, 3) == NULL);
    /* No run delivers anything; a delay of 0 waits for a clock call of the same tick. */
    CHECK(run().status == AUTTERVIL_IDLE && auttervil_pending(&timer.session) == 3);
    CHECK(auttervil_advance(&timer.session, &timer.chart, 0) == AUTTERVIL_DONE);
    CHECK(auttervil_pending(&timer.session) == 2 && auttervil_is_same(auttervil_external_name(&timer.session, 0), "now"));
    CHECK(auttervil_next_due(&timer.session) == 10);
    CHECK(auttervil_advance(&timer.session, &timer.chart, 9) == AUTTERVIL_DONE && timer.session.clock.ticks == 9 && timer.session.external_count == 1);
    /* Due at 10 and 30: by due time, though they were sent the other way round. */
    CHECK(auttervil_advance(&timer.session, &timer.chart, 30) == AUTTERVIL_DONE && auttervil_pending(&timer.session) == 0);
    CHECK(auttervil_is_same(auttervil_external_name(&timer.session, 1), "soon") && auttervil_is_same(auttervil_external_name(&timer.session, 2), "late"));
    CHECK(auttervil_next_due(&timer.session) == AUTTERVIL_NEVER && run().rounds == 3 && auttervil_is_active(&timer.session, 2));
}

static void what_is_cancelled(void)
{
    auttervil_stepped stepped;
    uint32_t wanted[4];
    start();
    stepped = auttervil_step_text(&timer.session, &timer.chart, "stop", 10, timer.trace, COUNT(timer.trace));
    wanted[0] = entry(AUTTERVIL_TRACE_TRANSITION, 0);
    wanted[1] = entry(AUTTERVIL_TRACE_CHOSEN, 1);
    wanted[2] = entry(AUTTERVIL_TRACE_CANCELLED, (uint32_t)name_number(&timer.chart, "watch"));
    wanted[3] = 0;
    CHECK(stepped.status == AUTTERVIL_IDLE && is_trace(timer.trace, stepped.count, wanted));
    CHECK(auttervil_pending(&timer.session) == 1 && auttervil_is_same(auttervil_pending_event(&timer.session, 0), "soon"));
}

static void refusals(void)
{
    auttervil_session before;
    auttervil_chart none = timer.chart;
    start();
    CHECK(auttervil_advance(&timer.session, &timer.chart, 100) == AUTTERVIL_DONE);
    before = timer.session;
    CHECK(auttervil_advance(&timer.session, &timer.chart, 99) == AUTTERVIL_CLOCK_BACK);
    CHECK(auttervil_advance(&timer.session, &timer.chart, AUTTERVIL_MOST_TICKS + 1) == AUTTERVIL_CLOCK_BACK);
    CHECK(auttervil_advance(&timer.session, &timer.chart, UINT64_MAX) == AUTTERVIL_CLOCK_BACK);
    none.cells--;
    CHECK(auttervil_advance(&timer.session, &none, 100) == AUTTERVIL_BAD_CHART);
    CHECK(auttervil_advance(NULL, &timer.chart, 100) == AUTTERVIL_SESSION_NULL);
    CHECK(auttervil_advance(&timer.session, NULL, 100) == AUTTERVIL_CHART_NULL);
    CHECK(auttervil_advance((auttervil_session *)(void *)timer.place, &timer.chart, 100) == AUTTERVIL_SESSION_OVERLAP);
    CHECK(memcmp(&before, &timer.session, sizeof before) == 0);
    CHECK(auttervil_advance(&timer.session, &timer.chart, 100) == AUTTERVIL_DONE);
    CHECK(auttervil_advance(&timer.session, &timer.chart, AUTTERVIL_MOST_TICKS) == AUTTERVIL_DONE && timer.session.clock.ticks == AUTTERVIL_MOST_TICKS);
    CHECK(strcmp(auttervil_strstatus(AUTTERVIL_CLOCK_BACK), "the clock is earlier than the last one, or over 2^62") == 0);
    CHECK(auttervil_pending(NULL) == 0 && auttervil_next_due(NULL) == AUTTERVIL_NEVER);
}

/* A record of this session but for some bytes: 9 of a run and a clock call, and nothing is changed; a post does not look at it. */
static void damaged(size_t at, uint8_t bits)
{
    auttervil_session before;
    start();
    ((uint8_t *)&timer.session.clock)[at] ^= bits;
    before = timer.session;
    CHECK(run().status == AUTTERVIL_BAD_SESSION && run().rounds == 0 && run().count == 0);
    CHECK(auttervil_advance(&timer.session, &timer.chart, 200) == AUTTERVIL_BAD_SESSION);
    CHECK(memcmp(&before, &timer.session, sizeof before) == 0);
    CHECK(auttervil_post_text(&timer.session, &timer.chart, "stop") == AUTTERVIL_DONE);
    CHECK(memcmp(&before.clock, &timer.session.clock, sizeof before.clock) == 0);
    /* A start takes any record. */
    start();
    CHECK(timer.session.clock.ticks == 0 && auttervil_pending(&timer.session) == 3);
}

static void damages(void)
{
    const size_t due = offsetof(auttervil_clock, due);
    const size_t events = offsetof(auttervil_clock, events);
    const size_t ids = offsetof(auttervil_clock, ids);
    damaged(7, 0x80);                  /* a clock over 2^62 */
    damaged(8, 32);                    /* 35 pending */
    damaged(8, 1);                     /* two pending, with something behind them */
    damaged(8, 4);                     /* seven, of which four have no event */
    damaged(due + 4, 1);               /* due 4,294,967,296 and more behind the clock */
    damaged(due + 8 * 3, 1);           /* a due time behind the last */
    damaged(due + 8 * 31 + 7, 0x40);
    damaged(events, 'l');              /* an event without its first byte */
    damaged(events + 4, '.');          /* "late." */
    damaged(events + 40, 'x');         /* something behind the zero */
    damaged(events + 64 * 3, 'x');     /* an event behind the last */
    damaged(ids + 1, 'a' ^ ' ');       /* a blank in an id */
    damaged(ids + 64 + 1, 'x');        /* an id that begins with a zero */
    damaged(ids + 64 * 31 + 63, 1);
}

/* An ended session has nothing pending: its closing round shows what it sends and drops it. */
static void ending(void)
{
    auttervil_session s;
    start();
    CHECK(auttervil_advance(&timer.session, &timer.chart, 30) == AUTTERVIL_DONE && run().status == AUTTERVIL_IDLE);
    CHECK(auttervil_step_text(&timer.session, &timer.chart, "again", 10, timer.trace, COUNT(timer.trace)).status == AUTTERVIL_IDLE);
    CHECK(auttervil_pending(&timer.session) == 1 && auttervil_next_due(&timer.session) == 30 + AUTTERVIL_MOST_DELAY);
    CHECK(auttervil_step_text(&timer.session, &timer.chart, "quit", 10, timer.trace, COUNT(timer.trace)).status == AUTTERVIL_ENDED);
    CHECK(auttervil_pending(&timer.session) == 0 && timer.session.clock.ticks == 30);
    CHECK(auttervil_advance(&timer.session, &timer.chart, 29) == AUTTERVIL_SESSION_ENDED);
    s = timer.session;
    s.clock.count = 1;
    s.clock.events[0] = 'x';
    CHECK(auttervil_run(&s, &timer.chart, 1, timer.trace, COUNT(timer.trace)).status == AUTTERVIL_BAD_SESSION);
    CHECK(auttervil_advance(&s, &timer.chart, 40) == AUTTERVIL_BAD_SESSION);
}

/* 32 sends are pending and one more is refused with 7, round and table as they were; a clock call makes room. */
static void full(void)
{
    auttervil_session before;
    size_t i;
    start();
    CHECK(auttervil_advance(&timer.session, &timer.chart, 30) == AUTTERVIL_DONE && run().status == AUTTERVIL_IDLE);
    for (i = 0; i < AUTTERVIL_MOST_PENDING; i++)
        CHECK(auttervil_step_text(&timer.session, &timer.chart, "again", 1, timer.trace, COUNT(timer.trace)).rounds == 1);
    CHECK(auttervil_pending(&timer.session) == AUTTERVIL_MOST_PENDING);
    CHECK(auttervil_post_text(&timer.session, &timer.chart, "again") == AUTTERVIL_DONE);
    before = timer.session;
    CHECK(run().status == AUTTERVIL_FULL && run().rounds == 0 && memcmp(&before, &timer.session, sizeof before) == 0);
    /* The external queue has one name: 31 join, one stays, and the round that was refused is done now. */
    CHECK(auttervil_advance(&timer.session, &timer.chart, 30 + AUTTERVIL_MOST_DELAY) == AUTTERVIL_DONE);
    CHECK(auttervil_pending(&timer.session) == 1 && timer.session.external_count == AUTTERVIL_MOST_QUEUED);
    CHECK(auttervil_next_due(&timer.session) == timer.session.clock.ticks);
    CHECK(run().status != AUTTERVIL_FULL);
}

static void builder(void)
{
    auttervil_builder b;
    begin(&timer, &b);
    auttervil_add_row(&b, AUTTERVIL_KIND_STATE, NULL, "a");
    auttervil_add_entry(&b, "a");
    auttervil_add_send(&b, "e", AUTTERVIL_MOST_DELAY + 1, NULL);
    CHECK(auttervil_finish(&b, &timer.tables) == AUTTERVIL_FAULT_DELAY && auttervil_is_same(b.culprit, "e"));
    begin(&timer, &b);
    auttervil_add_row(&b, AUTTERVIL_KIND_STATE, NULL, "a");
    auttervil_add_entry(&b, "a");
    auttervil_add_send(&b, "e.*", 0, NULL);
    CHECK(auttervil_finish(&b, &timer.tables) == AUTTERVIL_FAULT_NOT_A_NAME);
    begin(&timer, &b);
    auttervil_add_row(&b, AUTTERVIL_KIND_STATE, NULL, "a");
    auttervil_add_entry(&b, "a");
    auttervil_add_cancel(&b, "*");
    CHECK(auttervil_finish(&b, &timer.tables) == AUTTERVIL_FAULT_NOT_A_NAME);
    begin(&timer, &b);
    auttervil_add_row(&b, AUTTERVIL_KIND_STATE, NULL, "a");
    auttervil_add_send(&b, "e", 0, NULL);
    CHECK(auttervil_finish(&b, &timer.tables) == AUTTERVIL_FAULT_NOT_OPEN);
}

int main(void)
{
    make_timer(&timer);
    what_is_sent();
    what_is_cancelled();
    refusals();
    damages();
    ending();
    full();
    builder();
    return report();
}
