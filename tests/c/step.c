/* One call for an event: in answer, status, session and trace the same as the post and then the run, on sessions that are well formed and on damaged ones; and
 * the library's own functions, lent places of other lengths than a session has: nothing is changed. The argument is how many calls to try. */
#include <stdlib.h>

#include "test.h"

static lent a, door;
static auttervil_session halves, whole;
static uint32_t of_halves[64], of_whole[64];

/* How often each number came up. */
static unsigned long answers[12], statuses[12], ran_on[3];

static void note(uint32_t answer, uint32_t status)
{
    if (answer < COUNT(answers))
        answers[answer]++;
    if (status < COUNT(statuses))
        statuses[status]++;
    else if (status - AUTTERVIL_MORE < COUNT(ran_on))
        ran_on[status - AUTTERVIL_MORE]++;
}

/* Both ways from the same session; whether they are alike. */
static int is_same(const auttervil_chart *chart, const char *name, size_t length, uint32_t rounds, size_t room)
{
    uint32_t answer;
    auttervil_ran ran;
    auttervil_stepped stepped;
    fill_random(of_halves, sizeof of_halves);
    memcpy(of_whole, of_halves, sizeof of_whole);
    whole = halves;
    answer = auttervil_post(&halves, chart, name, length);
    ran = auttervil_run(&halves, chart, rounds, of_halves, room);
    stepped = auttervil_step(&whole, chart, name, length, rounds, of_whole, room);
    note(answer, ran.status);
    return stepped.answer == answer && stepped.status == ran.status && stepped.rounds == ran.rounds && stepped.count == ran.count
        && memcmp(&halves, &whole, sizeof whole) == 0 && memcmp(of_halves, of_whole, sizeof of_whole) == 0;
}

static void random_calls(size_t calls)
{
    static const char *const names[] = {"e4", "e1", "e2", "close", "key", "open", "push.it", "reset", "quit", "", "a b", "x.y", "*"};
    static auttervil_session kept;
    lent *l = &a;
    int same = 1;
    size_t i;
    for (i = 0; i < calls; i++) {
        const char *name = names[next_random() % COUNT(names)];
        int is_damaged = next_random() % 4 == 0;
        auttervil_chart chart;
        if (i % 50 == 0) {
            l = next_random() % 2 == 0 ? &a : &door;
            same = same && auttervil_start(&kept, &l->chart, of_whole, COUNT(of_whole)).answer == AUTTERVIL_DONE;
        }
        chart = l->chart;
        if (next_random() % 64 == 0)
            chart.cells--;
        halves = kept;
        if (is_damaged)
            ((uint8_t *)&halves)[next_random() % sizeof halves] ^= (uint8_t)(1u << next_random() % 8);
        same = same && is_same(&chart, name, strlen(name), (uint32_t)(next_random() % 4), next_random() % 65);
        /* Posts pile up where the run does no round, so that a queue gets full now and then. */
        if (!is_damaged)
            kept = halves;
    }
    CHECK(same);
    for (i = 0; i < 40; i++) {
        (void)auttervil_start(&halves, &door.chart, of_whole, COUNT(of_whole));
        for (; halves.external_count < 30 + i % 3;)
            (void)auttervil_post(&halves, &door.chart, "x", 1);
        same = same && is_same(&door.chart, "close", 5, 1, i % 2 * 20);
    }
    CHECK(same);
}

/* Every answer of a post, and every status of a run but the 7 that these charts have no use for. */
static void all_came_up(void)
{
    static const uint32_t of_a_post[] = {0, 6, 7, 8, 9, 11};
    static const uint32_t of_a_run[] = {8, 9, 10};
    size_t i;
    for (i = 0; i < COUNT(of_a_post); i++)
        CHECK(answers[of_a_post[i]] > 0);
    for (i = 0; i < COUNT(of_a_run); i++)
        CHECK(statuses[of_a_run[i]] > 0);
    for (i = 0; i < COUNT(ran_on); i++)
        CHECK(ran_on[i] > 0);
}

/* Four places that are those of a session but for their lengths: 9 of a good chart, 8 of a bad one but for a start, and nothing is changed. A post is not lent the last, so that it is done beside a
 * clock record of another length, as the post of a step is. */
static void lengths(size_t numbers, size_t internal, size_t external, size_t clock)
{
    static uint64_t cells[1032];
    static uint8_t inner[2049], outer[2049], record[4369];
    static struct {
        uint64_t cells[1032];
        uint8_t inner[2049], outer[2049], record[4369];
    } before;
    const int posts = numbers == 1031 && internal == 2048 && external == 2048;
    static const uint8_t name[] = {'e', '4'};
    uint64_t calls[14] = {AUTTERVIL_CALL_START, 8, 0, 0, 9, 9, 9, AUTTERVIL_CALL_RUN, 8, 1, 0, 9, 9, 9};
    auttervil_chart charts[2];
    size_t i;
    charts[0] = charts[1] = a.chart;
    charts[1].cells--;
    memcpy(cells, &a.session, 8 * AUTTERVIL_SESSION_NUMBERS);
    memcpy(inner, a.session.internal, sizeof a.session.internal);
    memcpy(outer, a.session.external, sizeof a.session.external);
    memcpy(record, &a.session.clock, sizeof a.session.clock);
    memcpy(before.cells, cells, sizeof cells);
    memcpy(before.inner, inner, sizeof inner);
    memcpy(before.outer, outer, sizeof outer);
    memcpy(before.record, record, sizeof record);
    memset(of_whole, 0x5a, sizeof of_whole);
    for (i = 0; i < 2; i++) {
        const auttervil_chart *c = &charts[i];
        const uint32_t refusal = i == 0 ? AUTTERVIL_BAD_SESSION : AUTTERVIL_BAD_CHART;
        auttervil_started started = auttervil_raw3_start(cells, numbers, inner, internal, outer, external, record, clock, c->numbers, c->cells, c->names, c->bytes, of_whole, 64);
        auttervil_ran ran = auttervil_raw3_run(cells, numbers, inner, internal, outer, external, record, clock, c->numbers, c->cells, c->names, c->bytes, 5, of_whole, 64);
        auttervil_stepped stepped = auttervil_raw3_step(cells, numbers, inner, internal, outer, external, record, clock, c->numbers, c->cells, c->names, c->bytes, name, 2, 5, of_whole, 64);
        const uint32_t answer = i == 0 && posts ? AUTTERVIL_DONE : refusal;
        if (posts && i == 0) {
            CHECK(cells[1029] == before.cells[1029] + 1);
            cells[1029]--;
            memcpy(outer, before.outer, sizeof outer);
        }
        CHECK(started.answer == AUTTERVIL_BAD_SESSION && started.count == 0);
        CHECK(ran.status == refusal && ran.rounds == 0 && ran.count == 0);
        CHECK(stepped.answer == answer && stepped.status == refusal && stepped.rounds == 0 && stepped.count == 0);
        CHECK(auttervil_raw3_advance(cells, numbers, inner, internal, outer, external, record, clock, c->numbers, c->cells, c->names, c->bytes, 7) == refusal);
        CHECK(posts || auttervil_raw3_post(cells, numbers, inner, internal, outer, external, c->numbers, c->cells, c->names, c->bytes, name, 2) == refusal);
        CHECK(auttervil_raw3_perform(cells, numbers, inner, internal, outer, external, record, clock, c->numbers, c->cells, c->names, c->bytes, calls, 14, name, 2, of_whole, 64) == 0);
    }
    CHECK(memcmp(before.record, record, sizeof record) == 0);
    CHECK(memcmp(before.cells, cells, sizeof cells) == 0 && memcmp(before.inner, inner, sizeof inner) == 0 && memcmp(before.outer, outer, sizeof outer) == 0);
    for (i = 0; i < 64; i++)
        CHECK(of_whole[i] == 0x5a5a5a5a && calls[i % 2 * 7 + 4 + i % 3] == 9);
}

int main(int count, char **arguments)
{
    make_chart_a(&a);
    make_door(&door);
    CHECK(auttervil_start(&a.session, &a.chart, a.trace, COUNT(a.trace)).answer == AUTTERVIL_DONE);
    random_calls(count > 1 ? (size_t)strtoul(arguments[1], NULL, 10) : 100000);
    all_came_up();
    lengths(1030, 2048, 2048, 4368);
    lengths(1032, 2048, 2048, 4368);
    lengths(4, 2048, 2048, 4368);
    lengths(0, 2048, 2048, 4368);
    lengths(1031, 2047, 2048, 4368);
    lengths(1031, 2049, 2048, 4368);
    lengths(1031, 0, 2048, 4368);
    lengths(1031, 2048, 2047, 4368);
    lengths(1031, 2048, 2049, 4368);
    lengths(1031, 2048, 0, 4368);
    lengths(0, 0, 0, 4368);
    lengths(1031, 2048, 2048, 4367);
    lengths(1031, 2048, 2048, 4369);
    lengths(1031, 2048, 2048, 0);
    return report();
}
