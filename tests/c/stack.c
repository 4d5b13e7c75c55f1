/* How much stack each wrapper takes, the library's part with it: each call is made on a stack that was painted before, on two charts, through a whole session.
 * tests/c/depth tells the bound of the library's part for all inputs. */
#define _POSIX_C_SOURCE 200809L
#include <pthread.h>
#include <stdlib.h>

#include "test.h"

enum { STACK = 1 << 20, PAINT = 0x5a };

/* A call to be measured: of a chart, with a name. */
typedef struct made {
    lent *l;
    const char *name;
} made;

static lent charts[2];
AUTTERVIL_PLACES_FOR_TEXT(from_text);
static auttervil_scratch scratch;
/* An element of each kind, and a fault that only the last pass can find. */
static const char *const texts[2] = {
    "<scxml initial='p'><parallel id='p'><transition event='done.state.p' target='f'/><state id='a' initial='b'><state id='b'><onentry><raise event='e'/>"
    "<if cond=\"In('a')\"><log label='7'/><elseif cond=\"In('b')\"/><else/></if></onentry><onexit/></state><history id='h' type='deep'><transition target='b'/>"
    "</history></state><state id='c'><initial><transition target='d'/></initial><final id='d'/></state></parallel><final id='f'/></scxml>",
    "<scxml><state id='a'><transition event='e' target='a b'/></state></scxml>"};
static size_t lengths[2]; /* of them */
static char written[AUTTERVIL_MOST_TEXT];
static union {
    max_align_t aligned;
    uint8_t bytes[STACK];
} stack __attribute__((aligned(4096)));

static void *nothing(void *m)
{
    return m;
}

static void *sizes(void *m)
{
    (void)auttervil_sizes(&((made *)m)->l->tables);
    return m;
}

static void *compile(void *m)
{
    lent *l = ((made *)m)->l;
    (void)auttervil_compile(&l->tables, l->place, COUNT(l->place), l->name_place, COUNT(l->name_place));
    return m;
}

static void *check_chart(void *m)
{
    (void)auttervil_check(&((made *)m)->l->chart);
    return m;
}

static void *room(void *m)
{
    (void)auttervil_room(&((made *)m)->l->chart);
    return m;
}

static void *fingerprint(void *m)
{
    (void)auttervil_fingerprint(&((made *)m)->l->chart);
    return m;
}

static void *read_text(void *m)
{
    const int which = ((made *)m)->l == &charts[1];
    (void)AUTTERVIL_READ(texts[which], lengths[which], from_text);
    return m;
}

static void *read_with(void *m)
{
    const int which = ((made *)m)->l == &charts[1];
    (void)AUTTERVIL_READ_WITH(&scratch, texts[which], lengths[which], from_text);
    return m;
}

static void *write_back(void *m)
{
    (void)auttervil_write(&((made *)m)->l->tables, written, sizeof written);
    return m;
}

static void *start(void *m)
{
    lent *l = ((made *)m)->l;
    (void)auttervil_start(&l->session, &l->chart, l->trace, COUNT(l->trace));
    return m;
}

static void *post(void *m)
{
    lent *l = ((made *)m)->l;
    (void)auttervil_post_text(&l->session, &l->chart, ((made *)m)->name);
    return m;
}

static void *run(void *m)
{
    lent *l = ((made *)m)->l;
    (void)auttervil_run(&l->session, &l->chart, 10, l->trace, COUNT(l->trace));
    return m;
}

static void *advance(void *m)
{
    lent *l = ((made *)m)->l;
    (void)auttervil_advance(&l->session, &l->chart, 10);
    return m;
}

static void *step(void *m)
{
    lent *l = ((made *)m)->l;
    (void)auttervil_step_text(&l->session, &l->chart, ((made *)m)->name, 10, l->trace, COUNT(l->trace));
    return m;
}

static void *perform(void *m)
{
    lent *l = ((made *)m)->l;
    const char *name = ((made *)m)->name;
    auttervil_call calls[3];
    calls[0] = auttervil_call_start(16);
    calls[1] = auttervil_call_post(0, strlen(name));
    calls[2] = auttervil_call_run(10, 48);
    (void)auttervil_perform(&l->session, &l->chart, calls, 3, name, strlen(name), l->trace, COUNT(l->trace));
    return m;
}

/* The bytes of the stack that the call changed, from its top down. */
static size_t used_by(void *(*call)(void *), made *m)
{
    pthread_t thread;
    pthread_attr_t how;
    size_t low = 0;
    memset(stack.bytes, PAINT, STACK);
    if (pthread_attr_init(&how) != 0 || pthread_attr_setstack(&how, stack.bytes, STACK) != 0 || pthread_create(&thread, &how, call, m) != 0) {
        printf("no thread\n");
        exit(1);
    }
    pthread_join(thread, NULL);
    pthread_attr_destroy(&how);
    while (low < STACK && stack.bytes[low] == PAINT)
        low++;
    return STACK - low;
}

int main(void)
{
    static const struct {
        const char *name;
        void *(*call)(void *);
    } calls[] = {{"auttervil_read", read_text}, {"auttervil_read_with", read_with}, {"auttervil_write", write_back}, {"auttervil_sizes", sizes}, {"auttervil_compile", compile}, {"auttervil_check", check_chart}, {"auttervil_room", room},
                 {"auttervil_fingerprint", fingerprint}, {"auttervil_start", start}, {"auttervil_advance", advance}, {"auttervil_step", step}, {"auttervil_perform", perform},
                 {"auttervil_post", post}, {"auttervil_run", run},
    };
    static const char *const events[2][8] = {{"e4", "e1", "e2", "nothing"}, {"close", "open", "close", "key", "any", "reset", "quit", "."}};
    size_t most[COUNT(calls)] = {0};
    size_t none, i, chart, turn;
    for (i = 0; i < 2; i++)
        lengths[i] = strlen(texts[i]);
    make_chart_a(&charts[0]);
    make_door(&charts[1]);
    none = used_by(nothing, NULL);
    for (chart = 0; chart < 2; chart++) {
        made m = {&charts[chart], "e"};
        (void)start(&m);
        for (turn = 0; turn < 8 && events[chart][turn] != NULL; turn++) {
            m.name = events[chart][turn];
            for (i = 0; i < COUNT(calls); i++) {
                /* A start would undo what the posts have reached, and so would a list with a start. */
                auttervil_session kept = m.l->session;
                size_t used = used_by(calls[i].call, &m) - none;
                most[i] = used > most[i] ? used : most[i];
                if (calls[i].call != post && calls[i].call != run)
                    m.l->session = kept;
            }
        }
    }
    for (i = 0; i < COUNT(calls); i++) {
        printf("%s: %lu bytes of stack\n", calls[i].name, (unsigned long)most[i]);
        CHECK(most[i] < STACK / 2);
    }
    return report();
}
