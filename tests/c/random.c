/* Random bytes as sessions, compiled charts and tables, and well-formed ones with single bytes changed: every answer is one that the call may give, what is refused
 * is left as it was, and nothing beside a lent place is written. The argument is how many random bytes to try as sessions, and how many as compiled
 * charts; each changed byte counts for a hundred. */
#include <stdlib.h>

#include "test.h"

static lent a, door;

/* A trial; those of one function count as one check. */
static size_t tried;
#define TRY(holds) (tried++, (holds) ? (void)0 : check(0, #holds, __FILE__, __LINE__))

/* A trace between two fences. */
static struct {
    uint32_t before[16];
    uint32_t trace[64];
    uint32_t behind[16];
} fenced;

static int fences_stand(void)
{
    size_t i;
    for (i = 0; i < COUNT(fenced.before); i++)
        if (fenced.before[i] != 0x5a5a5a5a || fenced.behind[i] != 0x5a5a5a5a)
            return 0;
    return 1;
}

/* Posts to a session, runs it and tells it the time; whether the answers are those that a chart known to be good or bad allows. A post does not look at the clock record, so that a run may be refused
 * with 9 behind a post that was not. */
static int is_handled(auttervil_session *session, const auttervil_chart *chart, size_t room)
{
    static auttervil_session before;
    uint32_t checked = auttervil_check(chart);
    uint32_t posted, told;
    auttervil_ran ran;
    before = *session;
    memset(&fenced, 0x5a, sizeof fenced);
    posted = auttervil_post(session, chart, "e4", 2);
    if (posted != 0 && memcmp(&before, session, sizeof before) != 0)
        return 0;
    if (checked != 0 ? posted != 8 : posted != 0 && posted != 7 && posted != 9 && posted != 11)
        return 0;
    before = *session;
    ran = auttervil_run(session, chart, 5, fenced.trace, room);
    if ((ran.status == 8) != (checked != 0) || (posted == 9 && ran.status != 9) || ran.count > room || ran.rounds > 5 || !fences_stand())
        return 0;
    if (ran.count < room && fenced.trace[ran.count] != 0x5a5a5a5a)
        return 0;
    if ((ran.status == 8 || ran.status == 9) && (ran.rounds != 0 || ran.count != 0 || memcmp(&before, session, sizeof before) != 0))
        return 0;
    before = *session;
    told = auttervil_advance(session, chart, before.clock.ticks);
    if ((told == 8) != (checked != 0) || (told == 9) != (ran.status == 9) || (told != 0 && memcmp(&before, session, sizeof before) != 0))
        return 0;
    if (told != 0 && told != 8 && told != 9 && told != 11)
        return 0;
    return ran.status == 7 || ran.status == 8 || ran.status == 9 || ran.status == 10 || (ran.status >= 100 && ran.status <= 102);
}

static size_t random_sessions(size_t bytes)
{
    static auttervil_session session;
    size_t done;
    for (done = 0; done < bytes; done += sizeof session) {
        fill_random(&session, sizeof session);
        TRY(is_handled(&session, &a.chart, 64));
        TRY(auttervil_post(&session, &a.chart, "e4", 2) == AUTTERVIL_BAD_SESSION);
        /* Counts and a mode in range, so that more than the counts is looked at. */
        session.internal_count %= 33;
        session.external_count %= 33;
        session.mode %= 3;
        TRY(is_handled(&session, &a.chart, 64));
    }
    CHECK(tried > 0 && done >= bytes);
    return done;
}

/* Random cells, and the same behind a header of small counts, so that the sizes are right. Only the part of the places that is then handed over as a compiled
 * chart is counted. */
static size_t random_charts(size_t bytes)
{
    static lent l;
    size_t done = 0;
    while (done < bytes) {
        auttervil_sized sized;
        auttervil_chart chart = {l.place, COUNT(l.place), l.name_place, COUNT(l.name_place)};
        auttervil_compiled compiled;
        size_t i;
        fill_random(l.numbers, sizeof l.numbers);
        fill_random(l.names, sizeof l.names);
        fill_random(l.place, sizeof l.place);
        fill_random(l.name_place, sizeof l.name_place);
        TRY(auttervil_check(&chart) == AUTTERVIL_BAD_CHART);
        for (i = 0; i < 6; i++)
            l.place[i] = l.numbers[i] = i == 0 ? 1 + next_random() % 16 : next_random() % 16;
        l.tables.numbers = l.numbers;
        l.tables.cells = (size_t)AUTTERVIL_NUMBERS_CELLS(l.numbers[0], l.numbers[1], l.numbers[2], l.numbers[3], l.numbers[4]);
        l.tables.names = l.names;
        l.tables.bytes = (size_t)AUTTERVIL_NAMES_BYTES(l.numbers[5]);
        sized = auttervil_sizes(&l.tables);
        TRY(sized.answer == 0 && sized.cells <= COUNT(l.place) && sized.bytes == l.tables.bytes);
        compiled = auttervil_compile(&l.tables, l.place, sized.cells, l.name_place, sized.bytes);
        TRY(compiled.answer >= 1 && compiled.answer <= 5);
        chart.cells = sized.cells;
        chart.bytes = sized.bytes;
        l.session = a.session;
        TRY(is_handled(&l.session, &chart, 64));
        TRY(auttervil_start(&l.session, &chart, fenced.trace, 64).answer == AUTTERVIL_BAD_CHART);
        for (i = 0; i < 1000; i += 7)
            (void)auttervil_row_id(&chart, i), (void)auttervil_transition_event(&chart, i, i % 5), (void)auttervil_find_row(&chart, "x");
        done += 8 * chart.cells + chart.bytes;
    }
    CHECK(tried > 0 && done >= bytes);
    return done;
}

/* One byte of a good session, or of a good chart, is another. */
static void changed_bytes(const lent *good, size_t tries)
{
    static lent l;
    size_t i;
    l = *good;
    l.chart.numbers = l.place;
    l.chart.names = l.name_place;
    for (i = 0; i < tries; i++) {
        size_t cells = next_random() % (8 * l.chart.cells);
        size_t names = next_random() % l.chart.bytes;
        uint8_t bit = (uint8_t)(1u << next_random() % 8);
        size_t room = next_random() % 65;
        size_t at = next_random() % 4 == 0 ? offsetof(auttervil_session, internal_count) + next_random() % 24 : next_random() % sizeof l.session;
        l.session = good->session;
        ((uint8_t *)&l.session)[at] ^= bit;
        TRY(is_handled(&l.session, &l.chart, room));
        l.session = good->session;
        ((uint8_t *)l.place)[cells] ^= bit;
        TRY(is_handled(&l.session, &l.chart, room));
        ((uint8_t *)l.place)[cells] ^= bit;
        l.session = good->session;
        l.name_place[names] ^= bit;
        TRY(is_handled(&l.session, &l.chart, room));
        l.name_place[names] ^= bit;
    }
    CHECK(tried > 0);
    CHECK(memcmp(l.place, good->place, sizeof l.place) == 0 && auttervil_check(&l.chart) == 0);
}

int main(int count, char **arguments)
{
    size_t bytes = count > 1 ? (size_t)strtoul(arguments[1], NULL, 10) : 1000000;
    size_t as_sessions, as_charts;
    make_chart_a(&a);
    make_door(&door);
    CHECK(auttervil_start(&a.session, &a.chart, a.trace, COUNT(a.trace)).answer == 0);
    CHECK(auttervil_start(&door.session, &door.chart, door.trace, COUNT(door.trace)).answer == 0);
    CHECK(auttervil_post_text(&door.session, &door.chart, "close") == 0);
    as_sessions = random_sessions(bytes);
    as_charts = random_charts(bytes);
    changed_bytes(&a, bytes / 200);
    changed_bytes(&door, bytes / 200);
    printf("%lu trials: %lu random bytes as sessions, %lu as compiled charts\n", (unsigned long)tried, (unsigned long)as_sessions, (unsigned long)as_charts);
    return report();
}
