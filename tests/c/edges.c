/* Every lent place up against a page that may not be touched, in front of it or behind it, and what is only read in pages that may not be written: a call
 * that reads or writes one byte beside what it was lent, or writes what it may only read, ends the program. */
#define _DEFAULT_SOURCE
#include <stdlib.h>
#include <sys/mman.h>

#include "test.h"

enum { PAGE = 4096, BYTES = 16 * PAGE + (int)(sizeof(auttervil_scratch) / 4096 + 1) * PAGE };

/* Pages between two that may not be touched. */
typedef struct fenced {
    uint8_t *pages;
} fenced;

enum side { IN_FRONT, BEHIND };

static lent a, door;
static fenced numbers, names, place, name_place, trace, text, session_place, internal, external, record, work;

static fenced make_fenced(void)
{
    fenced f;
    uint8_t *all = (uint8_t *)mmap(NULL, BYTES + 2 * PAGE, PROT_NONE, MAP_PRIVATE | MAP_ANONYMOUS, -1, 0);
    if (all == MAP_FAILED || mprotect(all + PAGE, BYTES, PROT_READ | PROT_WRITE) != 0) {
        printf("no pages\n");
        exit(1);
    }
    f.pages = all + PAGE;
    return f;
}

static void set_writable(fenced f, int writable)
{
    if (mprotect(f.pages, BYTES, writable ? PROT_READ | PROT_WRITE : PROT_READ) != 0)
        exit(1);
}

/* So many bytes that begin, or end, at a fence. */
static uint8_t *at_fence(fenced f, size_t bytes, enum side side)
{
    return side == IN_FRONT ? f.pages : f.pages + BYTES - bytes;
}

/* The same, with a copy in it that may not be written. */
static uint8_t *copy_at_fence(fenced f, const void *from, size_t bytes, enum side side)
{
    uint8_t *to = at_fence(f, bytes, side);
    set_writable(f, 1);
    if (bytes > 0)
        memcpy(to, from, bytes);
    set_writable(f, 0);
    return to;
}

static auttervil_tables fenced_tables(const lent *l, size_t cells, size_t bytes, enum side side)
{
    auttervil_tables tables;
    tables.numbers = (const uint64_t *)(void *)copy_at_fence(numbers, l->numbers, 8 * cells, side);
    tables.cells = cells;
    tables.names = copy_at_fence(names, l->names, bytes, side);
    tables.bytes = bytes;
    return tables;
}

static auttervil_chart fenced_chart(const lent *l, size_t cells, size_t bytes, enum side side)
{
    auttervil_chart chart;
    chart.numbers = (const uint64_t *)(void *)copy_at_fence(place, l->place, 8 * cells, side);
    chart.cells = cells;
    chart.names = copy_at_fence(name_place, l->name_place, bytes, side);
    chart.bytes = bytes;
    return chart;
}

static uint32_t *fenced_trace(size_t room, enum side side)
{
    return (uint32_t *)(void *)at_fence(trace, 4 * room, side);
}

static void compiling(const lent *l, enum side side)
{
    auttervil_tables tables = fenced_tables(l, l->tables.cells, l->tables.bytes, side);
    uint64_t *cells = (uint64_t *)(void *)at_fence(place, 8 * l->chart.cells, side);
    uint8_t *bytes = at_fence(name_place, l->chart.bytes, side);
    auttervil_compiled compiled;
    CHECK(auttervil_sizes(&tables).cells == l->chart.cells);
    set_writable(place, 1);
    set_writable(name_place, 1);
    compiled = auttervil_compile(&tables, cells, l->chart.cells, bytes, l->chart.bytes);
    CHECK(compiled.answer == AUTTERVIL_DONE && memcmp(cells, l->place, 8 * l->chart.cells) == 0 && memcmp(bytes, l->name_place, l->chart.bytes) == 0);
}

/* A day of the session with every room from 0 on, against the same without fences. */
static void playing(const lent *l, enum side side, const char *const *events, size_t count)
{
    auttervil_chart chart = fenced_chart(l, l->chart.cells, l->chart.bytes, side);
    static auttervil_session one;
    static uint32_t plain[64];
    auttervil_session *other = (auttervil_session *)(void *)at_fence(session_place, sizeof *other, side);
    int same = 1;
    size_t room, i;
    same = same && auttervil_room(&chart) == auttervil_room(&l->chart) && auttervil_fingerprint(&chart) == auttervil_fingerprint(&l->chart);
    for (room = 0; room <= 24; room++) {
        auttervil_started p = auttervil_start(&one, &l->chart, plain, 64);
        auttervil_started q = auttervil_start(other, &chart, fenced_trace(64, side), 64);
        same = same && p.answer == q.answer && auttervil_check(&chart) == 0;
        (void)auttervil_start(other, &chart, fenced_trace(room, side), room);
        *other = one;
        for (i = 0; i < count; i++) {
            size_t length = strlen(events[i]);
            const char *name = (const char *)copy_at_fence(text, events[i], length, side);
            auttervil_ran r, s;
            same = same && auttervil_post(&one, &l->chart, events[i], length) == auttervil_post(other, &chart, name, length);
            r = auttervil_run(&one, &l->chart, 10, plain, room);
            s = auttervil_run(other, &chart, 10, fenced_trace(room, side), room);
            same = same && r.status == s.status && r.rounds == s.rounds && r.count == s.count;
            same = same && memcmp(plain, fenced_trace(room, side), 4 * r.count) == 0 && memcmp(&one, other, sizeof one) == 0;
        }
    }
    CHECK(same);
}

/* A session in the four places that the library's functions take, each against a fence, and each event by one call; a post may not write the internal queue, and is not lent the clock record. */
static void in_four_places(const lent *l, enum side side, const char *const *events, size_t count)
{
    const auttervil_chart c = fenced_chart(l, l->chart.cells, l->chart.bytes, side);
    uint64_t *own = (uint64_t *)(void *)at_fence(session_place, 8 * AUTTERVIL_SESSION_NUMBERS, side);
    uint8_t *inner = at_fence(internal, 2048, side);
    uint8_t *outer = at_fence(external, 2048, side);
    uint8_t *clock = at_fence(record, sizeof(auttervil_clock), side);
    static auttervil_session one;
    static uint32_t plain[24];
    size_t i, room;
    int same = 1;
    for (room = 0; room <= 24; room++) {
        auttervil_started p = auttervil_start(&one, &l->chart, plain, 24);
        auttervil_started q = auttervil_raw3_start(own, AUTTERVIL_SESSION_NUMBERS, inner, 2048, outer, 2048, clock, 4368, c.numbers, c.cells, c.names, c.bytes, fenced_trace(24, side), 24);
        same = same && p.answer == q.answer && p.count == q.count;
        for (i = 0; i < count; i++) {
            size_t length = strlen(events[i]);
            const uint8_t *name = copy_at_fence(text, events[i], length, side);
            auttervil_stepped r, s;
            set_writable(internal, 0);
            same = same && auttervil_post(&one, &l->chart, events[i], length)
                    == auttervil_raw3_post(own, AUTTERVIL_SESSION_NUMBERS, inner, 2048, outer, 2048, c.numbers, c.cells, c.names, c.bytes, name, length);
            set_writable(internal, 1);
            r = auttervil_step(&one, &l->chart, events[i], length, 10, plain, room);
            s = auttervil_raw3_step(own, AUTTERVIL_SESSION_NUMBERS, inner, 2048, outer, 2048, clock, 4368, c.numbers, c.cells, c.names, c.bytes, name, length, 10, fenced_trace(room, side), room);
            same = same && r.answer == s.answer && r.status == s.status && r.rounds == s.rounds && r.count == s.count;
            same = same && memcmp(plain, fenced_trace(room, side), 4 * r.count) == 0 && memcmp(&one, own, 8 * AUTTERVIL_SESSION_NUMBERS) == 0;
            same = same && auttervil_advance(&one, &l->chart, 3 * i)
                    == auttervil_raw3_advance(own, AUTTERVIL_SESSION_NUMBERS, inner, 2048, outer, 2048, clock, 4368, c.numbers, c.cells, c.names, c.bytes, 3 * i);
            same = same && memcmp(one.internal, inner, 2048) == 0 && memcmp(one.external, outer, 2048) == 0 && memcmp(&one.clock, clock, 4368) == 0;
        }
    }
    CHECK(same);
}

/* Tables and charts that are cut short behind a header that promises more. */
static void cut_short(const lent *l, enum side side)
{
    int refused = 1;
    size_t cut;
    set_writable(place, 1);
    set_writable(name_place, 1);
    for (cut = 1; cut <= l->tables.cells; cut++) {
        auttervil_tables tables = fenced_tables(l, l->tables.cells - cut, l->tables.bytes, side);
        uint64_t *cells = (uint64_t *)(void *)at_fence(place, 8 * l->chart.cells, side);
        refused = refused && auttervil_compile(&tables, cells, l->chart.cells, at_fence(name_place, l->chart.bytes, side), l->chart.bytes).answer == AUTTERVIL_SIZE;
    }
    for (cut = 1; cut <= l->chart.cells; cut++) {
        auttervil_chart chart = fenced_chart(l, l->chart.cells - cut, l->chart.bytes, side);
        refused = refused && auttervil_check(&chart) == AUTTERVIL_BAD_CHART;
    }
    for (cut = 1; cut <= l->chart.bytes; cut++) {
        auttervil_chart chart = fenced_chart(l, l->chart.cells, l->chart.bytes - cut, side);
        refused = refused && auttervil_check(&chart) == AUTTERVIL_BAD_CHART;
    }
    CHECK(refused);
}

/* Charts and sessions with changed numbers. */
static void changed(const lent *l, enum side side, size_t times)
{
    static lent c;
    static auttervil_session session;
    static const uint64_t great[] = {0, 1, 63, 64, AUTTERVIL_MOST_ROWS, AUTTERVIL_MOST_TRANSITIONS, AUTTERVIL_MOST_NAMES, AUTTERVIL_MOST_REFERENCES, 65535, 65536, UINT64_C(1) << 32, UINT64_MAX / 64, UINT64_MAX};
    int listed = 1;
    for (; times > 0; times--) {
        auttervil_tables tables;
        auttervil_chart chart;
        uint64_t cell = next_random() % COUNT(great);
        size_t room = next_random() % 32;
        uint32_t answer, status;
        c = *l;
        c.numbers[next_random() % (next_random() % 4 == 0 ? 6 : l->tables.cells)] = great[cell];
        c.place[next_random() % (next_random() % 4 == 0 ? 6 : l->chart.cells)] = great[cell];
        session = l->session;
        if (next_random() % 2 == 0)
            ((uint8_t *)&session)[next_random() % sizeof session] = (uint8_t)next_random();
        tables = fenced_tables(&c, l->tables.cells, l->tables.bytes, side);
        set_writable(place, 1);
        set_writable(name_place, 1);
        answer = auttervil_compile(&tables, (uint64_t *)(void *)at_fence(place, 8 * l->chart.cells, side), l->chart.cells,
                                   at_fence(name_place, l->chart.bytes, side), l->chart.bytes).answer;
        chart = fenced_chart(next_random() % 2 == 0 ? l : &c, l->chart.cells, l->chart.bytes, side);
        status = auttervil_run(&session, &chart, 9, fenced_trace(room, side), room).status;
        listed = listed && answer <= 5 && ((status >= 7 && status <= 10) || (status >= 100 && status <= 102));
    }
    CHECK(listed);
}

/* A list of calls: its text may not be written, calls and trace end or begin at a fence. */
static void performing(const lent *l, enum side side)
{
    static const char events[] = "e4close";
    auttervil_chart chart = fenced_chart(l, l->chart.cells, l->chart.bytes, side);
    const char *lent_text = (const char *)copy_at_fence(text, events, 7, side);
    auttervil_call list[5], ends;
    auttervil_call *calls;
    static auttervil_session session;
    size_t count;
    int listed = 1;
    list[0] = auttervil_call_start(8);
    list[1] = auttervil_call_post(0, 2);
    list[2] = auttervil_call_post(2, 5);
    list[3] = auttervil_call_run(UINT32_MAX, 16);
    list[4] = auttervil_call_run(0, 0);
    ends = auttervil_call_post(7, 1);
    for (count = 0; count <= 5; count++) {
        calls = (auttervil_call *)(void *)copy_at_fence(numbers, list, count * sizeof list[0], side);
        set_writable(numbers, 1);
        auttervil_clear(&session);
        listed = listed && auttervil_perform(&session, &chart, calls, count, lent_text, 7, fenced_trace(24, side), 24).performed == count;
        listed = listed && auttervil_perform(&session, &chart, calls, count, lent_text, 7, fenced_trace(7, side), 7).performed == 0;
        listed = listed && (count == 0 || calls[0].number == AUTTERVIL_DONE);
    }
    list[1] = ends;
    calls = (auttervil_call *)(void *)copy_at_fence(numbers, list, sizeof list, side);
    set_writable(numbers, 1);
    listed = listed && auttervil_perform(&session, &chart, calls, 5, lent_text, 7, fenced_trace(24, side), 24).performed == 1;
    CHECK(listed);
}

/* A text that may not be written, and arrays of exactly the size of its tables, or a cell or byte less; each beginning of the text too. */
static void reading(enum side side)
{
    static const char scxml[] = "<scxml initial='b'><state id='a'><onentry><raise event='e'/></onentry></state><state id='b'><transition event='e' target='a'/></state></scxml>";
    static uint64_t plain[64];
    static uint8_t plain_names[256];
    const size_t length = sizeof scxml - 1;
    const auttervil_tables tables = auttervil_read(scxml, length, plain, 64, plain_names, 256).tables;
    const char *lent_text = (const char *)copy_at_fence(text, scxml, length, side);
    auttervil_scratch *lent_scratch = (auttervil_scratch *)(void *)at_fence(work, sizeof *lent_scratch, side);
    size_t less, end;
    int right = tables.cells == 55 && tables.bytes == 192;
    set_writable(place, 1);
    set_writable(name_place, 1);
    for (less = 0; less < 3; less++) {
        const size_t cells = tables.cells - (less == 1);
        const size_t bytes = tables.bytes - (less == 2);
        uint64_t *in_cells = (uint64_t *)(void *)at_fence(place, 8 * cells, side);
        uint8_t *in_bytes = at_fence(name_place, bytes, side);
        right = right && auttervil_read(lent_text, length, in_cells, cells, in_bytes, bytes).answer == (less == 0 ? AUTTERVIL_DONE : AUTTERVIL_SIZE);
        right = right && auttervil_read_with(lent_scratch, lent_text, length, in_cells, cells, in_bytes, bytes).answer == (less == 0 ? AUTTERVIL_DONE : AUTTERVIL_SIZE);
        right = right && (less > 0 || (memcmp(in_cells, plain, 8 * cells) == 0 && memcmp(in_bytes, plain_names, bytes) == 0));
    }
    for (end = 0; end < length; end++) {
        auttervil_reading cut;
        lent_text = (const char *)copy_at_fence(text, scxml, end, side);
        cut = auttervil_read_with(lent_scratch, lent_text, end, plain, 64, plain_names, 256);
        right = right && cut.answer == AUTTERVIL_BAD_TEXT && cut.offset == end && auttervil_position_of(lent_text, end, end).column == end + 1;
        right = right && auttervil_prolog_length(lent_text, end) == 0 && auttervil_show_offset(NULL, 0, lent_text, end, end) > end;
    }
    CHECK(right);
}

/* Tables that may not be written, and a buffer of exactly the text's length, or a byte less; tables cut short too. */
static void writing(const lent *l, enum side side)
{
    static char plain[4096];
    const size_t length = auttervil_write(&l->tables, plain, sizeof plain).length;
    auttervil_tables tables = fenced_tables(l, l->tables.cells, l->tables.bytes, side);
    size_t cut;
    int right = length > 500;
    set_writable(text, 1);
    right = right && auttervil_write(&tables, (char *)at_fence(text, length, side), length).answer == AUTTERVIL_DONE && memcmp(at_fence(text, length, side), plain, length) == 0;
    right = right && auttervil_write(&tables, (char *)at_fence(text, length - 1, side), length - 1).answer == AUTTERVIL_LONG_TEXT;
    right = right && auttervil_write(&tables, (char *)at_fence(text, 0, side), 0).length == length;
    for (cut = 1; cut <= l->tables.cells; cut++) {
        tables = fenced_tables(l, l->tables.cells - cut, l->tables.bytes, side);
        right = right && auttervil_write(&tables, (char *)at_fence(text, length, side), length).answer == AUTTERVIL_SIZE;
    }
    for (cut = 1; cut <= l->tables.bytes; cut++) {
        tables = fenced_tables(l, l->tables.cells, l->tables.bytes - cut, side);
        right = right && auttervil_write(&tables, (char *)at_fence(text, length, side), length).answer == AUTTERVIL_SIZE;
    }
    CHECK(right);
}

int main(void)
{
    static const char *const of_a[] = {"e4", "e1", "e2", "*", "nothing"};
    static const char *const of_door[] = {"close", "key", "any.thing", "reset", "open", "push.it", "quit"};
    int side;
    make_chart_a(&a);
    make_door(&door);
    CHECK(auttervil_start(&a.session, &a.chart, a.trace, COUNT(a.trace)).answer == AUTTERVIL_DONE);
    CHECK(auttervil_start(&door.session, &door.chart, door.trace, COUNT(door.trace)).answer == AUTTERVIL_DONE);
    CHECK(auttervil_post_text(&door.session, &door.chart, "close") == AUTTERVIL_DONE);
    numbers = make_fenced();
    names = make_fenced();
    place = make_fenced();
    name_place = make_fenced();
    trace = make_fenced();
    text = make_fenced();
    session_place = make_fenced();
    internal = make_fenced();
    external = make_fenced();
    record = make_fenced();
    work = make_fenced();
    for (side = IN_FRONT; side <= BEHIND; side++) {
        compiling(&a, (enum side)side);
        compiling(&door, (enum side)side);
        playing(&a, (enum side)side, of_a, COUNT(of_a));
        playing(&door, (enum side)side, of_door, COUNT(of_door));
        in_four_places(&a, (enum side)side, of_a, COUNT(of_a));
        in_four_places(&door, (enum side)side, of_door, COUNT(of_door));
        cut_short(&a, (enum side)side);
        cut_short(&door, (enum side)side);
        changed(&a, (enum side)side, 5000);
        changed(&door, (enum side)side, 5000);
        performing(&a, (enum side)side);
        performing(&door, (enum side)side);
        reading((enum side)side);
        writing(&a, (enum side)side);
        writing(&door, (enum side)side);
    }
    return report();
}
