/* Counting checks, and the two charts that the tests share. */
#ifndef TEST_H
#define TEST_H

#include <stdio.h>
#include <string.h>

#include "auttervil.h"

static unsigned passed, failed;

#define CHECK(holds) check((holds) != 0, #holds, __FILE__, __LINE__)
#define COUNT(array) (sizeof(array) / sizeof(array)[0])

static inline void check(int holds, const char *what, const char *file, int line)
{
    if (holds) {
        passed++;
        return;
    }
    failed++;
    printf("FAILED: %s:%d: %s\n", file, line, what);
}

static inline int report(void)
{
    printf("%u passed, %u failed\n", passed, failed);
    return failed == 0 ? 0 : 1;
}

/* A chart with its places, and a session of it. */
typedef struct lent {
    uint64_t numbers[AUTTERVIL_NUMBERS_CELLS(16, 16, 32, 32, 16)];
    uint8_t names[AUTTERVIL_NAMES_BYTES(32)];
    uint64_t place[AUTTERVIL_COMPILED_CELLS(16, 16, 32, 32, 16)];
    uint8_t name_place[AUTTERVIL_NAMES_BYTES(32)];
    auttervil_tables tables;
    auttervil_chart chart;
    auttervil_session session;
    uint32_t trace[64];
} lent;

static const auttervil_counts lent_counts = {16, 16, 32, 32, 16, 32};

static inline void begin(lent *l, auttervil_builder *b)
{
    auttervil_begin(b, lent_counts, l->numbers, COUNT(l->numbers), l->names, COUNT(l->names));
}

static inline void finish(lent *l, auttervil_builder *b)
{
    auttervil_compiled compiled;
    CHECK(auttervil_finish(b, &l->tables) == AUTTERVIL_FAULT_NONE);
    compiled = auttervil_compile(&l->tables, l->place, COUNT(l->place), l->name_place, COUNT(l->name_place));
    CHECK(compiled.answer == AUTTERVIL_DONE);
    l->chart = compiled.chart;
}

/* The parallel example of section 3.1.3 of the Recommendation; docs/tables.md has its cells. */
static inline void make_chart_a(lent *l)
{
    auttervil_builder b;
    begin(l, &b);
    auttervil_add_row(&b, AUTTERVIL_KIND_PARALLEL, NULL, "p");
    auttervil_add_row(&b, AUTTERVIL_KIND_STATE, "p", "S1");
    auttervil_add_row(&b, AUTTERVIL_KIND_STATE, "S1", "S11");
    auttervil_add_row(&b, AUTTERVIL_KIND_STATE, "S1", "S12");
    auttervil_add_row(&b, AUTTERVIL_KIND_FINAL, "S1", "S1Final");
    auttervil_add_row(&b, AUTTERVIL_KIND_STATE, "p", "S2");
    auttervil_add_row(&b, AUTTERVIL_KIND_STATE, "S2", "S21");
    auttervil_add_row(&b, AUTTERVIL_KIND_STATE, "S2", "S22");
    auttervil_add_row(&b, AUTTERVIL_KIND_FINAL, "S2", "S2Final");
    auttervil_add_row(&b, AUTTERVIL_KIND_STATE, "", "someOtherState");
    auttervil_add_transition(&b, "p", "done.state.p", "someOtherState");
    auttervil_add_transition(&b, "S11", "e4", "S12");
    auttervil_add_transition(&b, "S12", "e1", "S1Final");
    auttervil_add_transition(&b, "S21", "e1", "S22");
    auttervil_add_transition(&b, "S22", "e2", "S2Final");
    finish(l, &b);
}

/* The door of docs/tables.md: a history, lists, blocks, a condition and an internal transition. Transitions are added out of order. */
static inline void make_door(lent *l)
{
    auttervil_builder b;
    begin(l, &b);
    auttervil_add_row(&b, AUTTERVIL_KIND_STATE, NULL, "door");
    auttervil_add_row(&b, AUTTERVIL_KIND_SHALLOW, "door", "h");
    auttervil_add_row(&b, AUTTERVIL_KIND_STATE, "door", "open");
    auttervil_add_row(&b, AUTTERVIL_KIND_STATE, "door", "closed");
    auttervil_add_row(&b, AUTTERVIL_KIND_STATE, "door", "locked");
    auttervil_add_row(&b, AUTTERVIL_KIND_FINAL, NULL, "off");
    auttervil_add_list(&b, NULL, "door");
    auttervil_add_entry(&b, "door");
    auttervil_add_host(&b, 1);
    auttervil_add_list(&b, "door", "open");
    auttervil_add_host(&b, 2);
    auttervil_add_list(&b, "h", "closed");
    auttervil_add_host(&b, 7);
    auttervil_add_exit(&b, "open");
    auttervil_add_host(&b, 2);
    auttervil_add_transition(&b, "locked", "*", NULL);
    auttervil_add_transition(&b, "closed", "open push.*", "open");
    auttervil_add_transition(&b, "closed", "key", "locked");
    auttervil_set_condition(&b, "closed");
    auttervil_add_transition(&b, "open", "close", "closed");
    auttervil_add_host(&b, 7);
    auttervil_add_raise(&b, "did.close");
    auttervil_add_transition(&b, "door", "reset", "closed");
    auttervil_set_internal(&b);
    auttervil_add_transition(&b, "door", "quit", "off");
    finish(l, &b);
}

static inline uint32_t entry(uint32_t kind, uint32_t index)
{
    return kind * 65536 + index;
}

/* Whether a trace is this one, of which the last entry is followed by 0. */
static inline int is_trace(const uint32_t *trace, size_t count, const uint32_t *wanted)
{
    size_t i;
    for (i = 0; i < count; i++)
        if (wanted[i] == 0 || trace[i] != wanted[i])
            return 0;
    return wanted[count] == 0;
}

/* A seeded generator, so that every run is the same. */
static uint64_t random_state = 0x9E3779B97F4A7C15u;

static inline uint64_t next_random(void)
{
    random_state ^= random_state << 13;
    random_state ^= random_state >> 7;
    random_state ^= random_state << 17;
    return random_state;
}

static inline void fill_random(void *place, size_t bytes)
{
    uint8_t *at = (uint8_t *)place;
    size_t i;
    for (i = 0; i < bytes; i++)
        at[i] = (uint8_t)(next_random() >> 32);
}

#endif
