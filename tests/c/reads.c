/* Matches events with four descriptors, by one pass and one descriptor after the other, with marks in memory around each match; tests/reads counts the loads between them. */
#include <stdint.h>
#include <stdio.h>
#include <string.h>

extern uint32_t match_bench_one_pass(const uint8_t *slots, size_t slots_count, const uint8_t *event, size_t event_count);
extern uint32_t match_bench_one_by_one(const uint8_t *slots, size_t slots_count, const uint8_t *event, size_t event_count);

#define SLOT 64

static struct {
    _Alignas(4096) uint8_t event[4096]; /* a page of its own */
    _Alignas(4096) volatile uint32_t mark; /* a case's number before its match, 0 after it */
    _Alignas(4096) uint8_t slots[4 * SLOT];
} places;

typedef uint32_t way(const uint8_t *, size_t, const uint8_t *, size_t);

static uint32_t cases;

static void count(const char *name, way *match, const char *event)
{
    uint32_t answer;
    size_t length = strlen(event);
    memcpy(places.event, event, length);
    cases++;
    places.mark = cases;
    answer = match(places.slots, sizeof places.slots, places.event, length);
    places.mark = 0;
    printf("case %u %zu %u %s %s\n", (unsigned)cases, length, (unsigned)answer, match == match_bench_one_pass ? "pass" : "each", name);
}

static void both(const char *name, const char *a, const char *b, const char *c, const char *d, const char *event)
{
    const char *descriptors[4];
    int k;
    descriptors[0] = a;
    descriptors[1] = b;
    descriptors[2] = c;
    descriptors[3] = d;
    memset(places.slots, 0, sizeof places.slots);
    for (k = 0; k < 4; k++) {
        memcpy(places.slots + SLOT * k, descriptors[k], strlen(descriptors[k]));
    }
    count(name, match_bench_one_pass, event);
    count(name, match_bench_one_by_one, event);
}

/* Four descriptors of 63 bytes that differ from the event in the byte at a place alone; a dot stands at each so many bytes. */
static void differ_at(const char *name, int place, int dots)
{
    char event[SLOT], descriptors[4][SLOT];
    int i, k;
    for (i = 0; i < 63; i++) {
        event[i] = dots > 0 && i % dots == dots - 1 && i < 62 ? '.' : 'a';
    }
    event[63] = 0;
    for (k = 0; k < 4; k++) {
        memcpy(descriptors[k], event, SLOT);
        descriptors[k][place] = (char)('b' + k);
    }
    both(name, descriptors[0], descriptors[1], descriptors[2], descriptors[3], event);
}

int main(void)
{
    char longest[80];
    memset(longest, 'a', 70);
    longest[70] = 0;
    printf("event %lx\nmark %lx\n", (unsigned long)(uintptr_t)places.event, (unsigned long)(uintptr_t)&places.mark);
    differ_at("last-byte", 62, 0);
    differ_at("last-byte-few-dots", 62, 7);
    differ_at("last-byte-most-dots", 62, 2);
    differ_at("first-byte", 0, 0);
    both("last-matches", "b", "c", "d", "all", "all");
    both("first-matches", "all", "b", "c", "d", "all");
    both("all-match", "done.state.p", "done.state", "done.*", "*", "done.state.p");
    both("equal-descriptors", "aaaa.b", "aaaa.b", "aaaa.b", "aaaa.b", "aaaa.c");
    both("part-one-by-one", "abcd.e", "abcx.e", "abx.e", "ax.e", "abcd.e.f");
    both("event-is-shorter", "a.b.c", "a.b.c.d", "a.b.*", "a.bb", "a.b");
    both("event-is-one-byte", "a", "a.b", "a.*", "b", "a");
    both("event-is-longer-than-a-slot", longest + 7, longest + 8, "a", "*", longest);
    return 0;
}
