/* The header's wrappers as functions that a program in another language can link. There session and clock record are two structs, as the library's own functions take them; the header's session has the
 * record as its last field, so that both are put together for a call and taken apart again behind it. */
#include <string.h>

#include "auttervil.h"

auttervil_started wrapped_start(void *session, auttervil_clock *clock, const auttervil_chart *chart, uint32_t *trace, size_t room);
uint32_t wrapped_post(void *session, const auttervil_chart *chart, const char *name, size_t length);
uint32_t wrapped_clock(void *session, auttervil_clock *clock, const auttervil_chart *chart, uint64_t ticks);
auttervil_ran wrapped_run(void *session, auttervil_clock *clock, const auttervil_chart *chart, uint32_t rounds, uint32_t *trace, size_t room);
auttervil_stepped wrapped_step(void *session, auttervil_clock *clock, const auttervil_chart *chart, const char *name, size_t length, uint32_t rounds, uint32_t *trace, size_t room);

static auttervil_session together(const void *session, const auttervil_clock *clock)
{
    auttervil_session s;
    memcpy(&s, session, offsetof(auttervil_session, clock));
    if (clock == NULL)
        memset(&s.clock, 0x5a, sizeof s.clock);
    else
        s.clock = *clock;
    return s;
}

static void apart(const auttervil_session *s, void *session, auttervil_clock *clock)
{
    memcpy(session, s, offsetof(auttervil_session, clock));
    if (clock != NULL)
        *clock = s->clock;
}

auttervil_started wrapped_start(void *session, auttervil_clock *clock, const auttervil_chart *chart, uint32_t *trace, size_t room)
{
    auttervil_session s = together(session, clock);
    const auttervil_started started = auttervil_start(&s, chart, trace, room);
    apart(&s, session, clock);
    return started;
}

/* A post does not look at the record: it is one that no run would take. */
uint32_t wrapped_post(void *session, const auttervil_chart *chart, const char *name, size_t length)
{
    auttervil_session s = together(session, NULL);
    const uint32_t answer = auttervil_post(&s, chart, name, length);
    apart(&s, session, NULL);
    return answer;
}

uint32_t wrapped_clock(void *session, auttervil_clock *clock, const auttervil_chart *chart, uint64_t ticks)
{
    auttervil_session s = together(session, clock);
    const uint32_t answer = auttervil_advance(&s, chart, ticks);
    apart(&s, session, clock);
    return answer;
}

auttervil_ran wrapped_run(void *session, auttervil_clock *clock, const auttervil_chart *chart, uint32_t rounds, uint32_t *trace, size_t room)
{
    auttervil_session s = together(session, clock);
    const auttervil_ran ran = auttervil_run(&s, chart, rounds, trace, room);
    apart(&s, session, clock);
    return ran;
}

auttervil_stepped wrapped_step(void *session, auttervil_clock *clock, const auttervil_chart *chart, const char *name, size_t length, uint32_t rounds, uint32_t *trace, size_t room)
{
    auttervil_session s = together(session, clock);
    const auttervil_stepped stepped = auttervil_step(&s, chart, name, length, rounds, trace, room);
    apart(&s, session, clock);
    return stepped;
}
