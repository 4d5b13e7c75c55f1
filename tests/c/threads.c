/* Sessions in threads of their own, on one compiled chart that all read: each ends as a session alone does. And one text, read by each into places of its own. */
#define _POSIX_C_SOURCE 200809L
#include <pthread.h>

#include "test.h"

enum { THREADS = 4, TURNS = 50 };

typedef struct own {
    uint64_t numbers[64];
    uint8_t names[64 * 4];
    auttervil_scratch scratch;
    int same;
} own;

static const char text[] = "<scxml><state id='a'><transition event='e' target='b'/></state><state id='b'><onentry><log label='7'/></onentry></state></scxml>";
static lent a;
static auttervil_session alone;
static own first, owns[THREADS];

static void play(auttervil_session *session)
{
    static const char *const events[] = {"e4", "e1", "e2", "nothing"};
    uint32_t trace[64];
    size_t i;
    (void)auttervil_start(session, &a.chart, trace, COUNT(trace));
    for (i = 0; i < COUNT(events); i++) {
        (void)auttervil_post_text(session, &a.chart, events[i]);
        if (i % 2 == 1)
            (void)auttervil_run(session, &a.chart, 10, trace, COUNT(trace));
    }
}

static uint32_t read_into(own *o)
{
    uint32_t answer = auttervil_read(text, sizeof text - 1, o->numbers, COUNT(o->numbers), o->names, COUNT(o->names)).answer;
    if (answer != AUTTERVIL_DONE)
        return answer;
    return auttervil_read_with(&o->scratch, text, sizeof text - 1, o->numbers, COUNT(o->numbers), o->names, COUNT(o->names)).answer;
}

static void *in_thread(void *place)
{
    own *o = (own *)place;
    auttervil_session session;
    int turn;
    o->same = 1;
    for (turn = 0; turn < TURNS; turn++) {
        play(&session);
        if (memcmp(&session, &alone, sizeof session) != 0)
            o->same = 0;
        memset(o->numbers, 0, sizeof o->numbers);
        if (read_into(o) != AUTTERVIL_DONE || memcmp(o->numbers, first.numbers, sizeof o->numbers) != 0 || memcmp(o->names, first.names, sizeof o->names) != 0)
            o->same = 0;
    }
    return NULL;
}

int main(void)
{
    pthread_t threads[THREADS];
    size_t i;
    make_chart_a(&a);
    play(&alone);
    CHECK(alone.mode == AUTTERVIL_MODE_RUNNING && auttervil_is_active(&alone, 10));
    CHECK(read_into(&first) == AUTTERVIL_DONE && first.numbers[0] == 3);
    for (i = 0; i < THREADS; i++)
        CHECK(pthread_create(&threads[i], NULL, in_thread, &owns[i]) == 0);
    for (i = 0; i < THREADS; i++) {
        CHECK(pthread_join(threads[i], NULL) == 0);
        CHECK(owns[i].same);
    }
    return report();
}
