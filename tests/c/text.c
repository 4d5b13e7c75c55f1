/* Reading SCXML text from C: places that cannot be lent, refusals that leave the arrays as they were, the life cycle's text beside the chart that calls build, all
 * beginnings of it, line, column and caret of a fault, and what stands in front of a document. With a number, only the beginnings of each so many lengths. */
#include <stdlib.h>

#include "test.h"
#include "text.h"
#include "texts.h"

enum { CELLS = 512, BYTES = 64 * 64 };

static auttervil_scratch scratch;
static document lifecycle_text;
AUTTERVIL_PLACES_FOR_TEXT(any);

/* Arrays for tables, and room to lend them at odd addresses or over each other. */
static union {
    uint64_t cells[CELLS + BYTES / 8];
    uint8_t bytes[8 * CELLS + BYTES];
    char text[8 * CELLS + BYTES];
} lent_places;

static uint64_t *const numbers = lent_places.cells;
static uint8_t *const names = lent_places.bytes + 8 * CELLS;

/* The place that is n bytes past this one, as no array of C would have it. */
static void *shifted(void *place, size_t n)
{
    return (void *)((uintptr_t)place + n);
}

/* ---- answers */

static int is_alike(const auttervil_reading *one, const auttervil_reading *other)
{
    return one->answer == other->answer && one->offset == other->offset && one->tables.cells == other->tables.cells && one->tables.bytes == other->tables.bytes;
}

/* The answer of a text in arrays of so many cells and bytes, by both calls; a refusal has empty tables and leaves the arrays. */
static auttervil_reading read_both(const char *text, size_t length, size_t cells, size_t bytes)
{
    auttervil_reading reading, other;
    memset(&lent_places, PAINT, sizeof lent_places);
    reading = auttervil_read_with(&scratch, text, length, numbers, cells, names, bytes);
    if (reading.answer != AUTTERVIL_DONE)
        CHECK(is_painted(&lent_places, sizeof lent_places));
    memset(&lent_places, PAINT, sizeof lent_places);
    other = auttervil_read(text, length, numbers, cells, names, bytes);
    CHECK(is_alike(&reading, &other));
    if (other.answer != AUTTERVIL_DONE)
        CHECK(is_painted(&lent_places, sizeof lent_places) && other.tables.numbers == NULL && other.tables.cells == 0 && other.tables.names == NULL && other.tables.bytes == 0);
    else
        CHECK(other.offset == 0 && other.tables.numbers == numbers && other.tables.names == names);
    return other;
}

static uint32_t answer_of(const char *text)
{
    return read_both(text, strlen(text), CELLS, BYTES).answer;
}

/* Whether a text is refused with 12 at this byte. */
static int is_bad_at(const char *text, size_t length, size_t offset)
{
    auttervil_reading reading = read_both(text, length, CELLS, BYTES);
    return reading.answer == AUTTERVIL_BAD_TEXT && reading.offset == offset;
}

static void a_text_and_its_tables(void)
{
    static const uint64_t cells[28] = {2, 0, 0, 0, 0, 1, 0, 65535, 65535, 0, 0, 0, 0, 0, 0, 0, 0, 1, 0, 0};
    auttervil_reading reading = read_both(TEXT(small), CELLS, BYTES);
    CHECK(reading.answer == AUTTERVIL_DONE && reading.tables.cells == 28 && reading.tables.bytes == 64);
    CHECK(memcmp(numbers, cells, sizeof cells) == 0 && names[0] == 'a' && names[1] == 0 && names[63] == 0);
    CHECK(is_painted(numbers + 28, 8 * (CELLS - 28)) && is_painted(names + 64, BYTES - 64));
    /* Exactly as much as is needed, and less. */
    reading = read_both(TEXT(small), 28, 64);
    CHECK(reading.answer == AUTTERVIL_DONE && is_painted(numbers + 28, 8) && is_painted(names + 64, 8));
    CHECK(read_both(TEXT(small), 27, 64).answer == AUTTERVIL_SIZE && read_both(TEXT(small), 28, 63).answer == AUTTERVIL_SIZE);
    CHECK(read_both(TEXT(small), 0, 0).answer == AUTTERVIL_SIZE && read_both(TEXT(small), 5, 64).answer == AUTTERVIL_SIZE);
    CHECK(auttervil_read(TEXT(small), NULL, 0, NULL, 0).answer == AUTTERVIL_SIZE);
    CHECK(auttervil_read_with(&scratch, TEXT(small), NULL, 0, NULL, 0).answer == AUTTERVIL_SIZE);
}

static void answers(void)
{
    char id[60] = {0};
    char text[128];
    CHECK(answer_of("<scxml><state id='1'/></scxml>") == AUTTERVIL_NAMES);
    CHECK(answer_of("<scxml><state id='a'/><state id='a'/></scxml>") == AUTTERVIL_NAMES);
    CHECK(answer_of("<scxml/>") == AUTTERVIL_TREE);
    CHECK(answer_of("<scxml><final id='f'><state id='s'/></final></scxml>") == AUTTERVIL_TREE);
    CHECK(answer_of("<scxml initial='b'><state id='a' initial='b'/><state id='b'/></scxml>") == AUTTERVIL_LISTS);
    CHECK(answer_of("<scxml><final id='f'><transition event='e'/></final></scxml>") == AUTTERVIL_TRANSITIONS);
    CHECK(answer_of("<scxml><state id='a'><onentry><else/></onentry></state></scxml>") == AUTTERVIL_TRANSITIONS);
    CHECK(answer_of("<scxml><state id='a'><transition event='a b c d e'/></state></scxml>") == AUTTERVIL_SIZE);
    /* 12 comes before what the arrays are too small for, and that before the other rules. */
    CHECK(read_both(TEXT("<scxml><state/></scxml>"), 0, 0).answer == AUTTERVIL_BAD_TEXT);
    CHECK(read_both(TEXT("<scxml/>"), 0, 0).answer == AUTTERVIL_SIZE);
    /* The incident: an id of 60 bytes would fit its slot, but not its done event. */
    memset(id, 'i', 52);
    (void)snprintf(text, sizeof text, "<scxml><state id='%s'/></scxml>", id);
    CHECK(answer_of(text) == AUTTERVIL_DONE);
    memset(id, 'i', 53);
    (void)snprintf(text, sizeof text, "<scxml><state id='%s'/></scxml>", id);
    CHECK(answer_of(text) == AUTTERVIL_NAMES);
    (void)snprintf(text, sizeof text, "<scxml><state id='%siiiiiiii'/></scxml>", id);
    CHECK(answer_of(text) == AUTTERVIL_NAMES);
    (void)snprintf(text, sizeof text, "<scxml><state id='%siiiiiiiiiii'/></scxml>", id);
    CHECK(is_bad_at(text, strlen(text), 18));
}

static void faults(void)
{
    CHECK(is_bad_at(NULL, 0, 0) && is_bad_at("", 0, 0) && is_bad_at(" \n", 2, 2));
    CHECK(is_bad_at(TEXT("<scxml><state/></scxml>"), 7));
    CHECK(is_bad_at(TEXT("<scxml initial='nix'><state id='a'/></scxml>"), 16));
    CHECK(is_bad_at(TEXT("<scxml><state id='a'><transition cond=\"In('b')\"/></state></scxml>"), 43));
    CHECK(is_bad_at(TEXT("<scxml version='2'><state id='a'/></scxml>"), 16));
    CHECK(is_bad_at(TEXT("<scxml><foo/></scxml>"), 9) && is_bad_at(TEXT("<scxml foo=''/>"), 7));
    CHECK(is_bad_at(TEXT("<scxml><state id='a'/></scxml>\0"), 30) && is_bad_at(TEXT("\0<scxml/>"), 0));
    CHECK(is_bad_at(TEXT("<scxml><!-- \xC3\xA9 --></scxml>"), 12));
    /* A zero ends nothing, and a length may end the text before it. */
    CHECK(is_bad_at("<scxml></scxml>", 9, 9) && is_bad_at(TEXT("<scxml>\0</scxml>"), 7));
    /* What the grammar does not have, which auttervil_prolog_length() is for. */
    CHECK(is_bad_at(TEXT("<?xml version='1.0'?><scxml/>"), 1) && is_bad_at(TEXT("\xEF\xBB\xBF<scxml/>"), 0));
}

/* At most 32,768 bytes: white space behind a document counts. */
static void the_longest_text(void)
{
    static char text[AUTTERVIL_MOST_TEXT + 8];
    memset(text, ' ', sizeof text);
    memcpy(text, small, sizeof small - 1);
    CHECK(read_both(text, AUTTERVIL_MOST_TEXT, CELLS, BYTES).answer == AUTTERVIL_DONE);
    CHECK(is_bad_at(text, AUTTERVIL_MOST_TEXT + 1, AUTTERVIL_MOST_TEXT) && is_bad_at(text, sizeof text, AUTTERVIL_MOST_TEXT));
    text[AUTTERVIL_MOST_TEXT - 1] = 'x';
    CHECK(is_bad_at(text, sizeof text, AUTTERVIL_MOST_TEXT - 1));
}

/* A text of nearly 32,768 bytes with as many rows and transitions as a chart may have fits the places for any text; one row or transition more is 1. */
static void a_full_text(void)
{
    static char text[2 * AUTTERVIL_MOST_TEXT];
    size_t length = full_text(text, AUTTERVIL_MOST_ROWS - 1, AUTTERVIL_MOST_TRANSITIONS);
    auttervil_reading reading = AUTTERVIL_READ(text, length, any);
    auttervil_compiled compiled = AUTTERVIL_COMPILE(&reading.tables, any);
    CHECK(length > AUTTERVIL_MOST_TEXT - 1000 && length <= AUTTERVIL_MOST_TEXT && reading.answer == AUTTERVIL_DONE && compiled.answer == AUTTERVIL_DONE);
    CHECK(reading.tables.cells == AUTTERVIL_NUMBERS_CELLS(AUTTERVIL_MOST_ROWS, AUTTERVIL_MOST_TRANSITIONS, 512, 512, 15 * AUTTERVIL_ACTIONS_EACH) && reading.tables.bytes == 64 * 256);
    CHECK(AUTTERVIL_READ_WITH(&scratch, text, length, any).tables.cells == reading.tables.cells);
    memset(&any.numbers, PAINT, sizeof any.numbers);
    memset(&any.names, PAINT, sizeof any.names);
    length = full_text(text, AUTTERVIL_MOST_ROWS, AUTTERVIL_MOST_TRANSITIONS);
    CHECK(AUTTERVIL_READ(text, length, any).answer == AUTTERVIL_SIZE && AUTTERVIL_READ_WITH(&scratch, text, length, any).answer == AUTTERVIL_SIZE);
    length = full_text(text, AUTTERVIL_MOST_ROWS - 1, AUTTERVIL_MOST_TRANSITIONS + 1);
    CHECK(AUTTERVIL_READ(text, length, any).answer == AUTTERVIL_SIZE && AUTTERVIL_READ_WITH(&scratch, text, length, any).answer == AUTTERVIL_SIZE);
    CHECK(is_painted(&any.numbers, sizeof any.numbers) && is_painted(&any.names, sizeof any.names));
}

/* Texts of as many tags, rows, transitions or actions as there is room for, one after the other or inside each other: no place that a read works in is too small. */
static void the_fullest_texts(void)
{
    static const struct {
        const char *before, *unit, *end, *after;
        uint32_t answer;
    } all[] = {
        {"<scxml>", "<state>", "</state>", "</scxml>", AUTTERVIL_BAD_TEXT},
        {"<scxml>", "<state id='a'>", "</state>", "</scxml>", AUTTERVIL_SIZE},
        {"<scxml>", "<final/>", "", "</scxml>", AUTTERVIL_BAD_TEXT},
        {"<scxml>", "<final id='a'/>", "", "</scxml>", AUTTERVIL_SIZE},
        {"<scxml>", "<transition/>", "", "</scxml>", AUTTERVIL_SIZE},
        {"<scxml><state id='a'><onentry>", "<else/>", "", "</onentry></state></scxml>", AUTTERVIL_SIZE},
        {"<scxml><state id='a'><onentry>", "<if cond=\"In('a')\"/>", "", "</onentry></state></scxml>", AUTTERVIL_SIZE},
        {"<scxml><state id='a'><onentry>", "<if cond=\"In('a')\">", "</if>", "</onentry></state></scxml>", AUTTERVIL_SIZE},
    };
    static char text[AUTTERVIL_MOST_TEXT];
    size_t i, n, many, length;
    for (i = 0; i < COUNT(all); i++) {
        auttervil_reading reading, other;
        length = strlen(all[i].before);
        many = (sizeof text - length - strlen(all[i].after)) / (strlen(all[i].unit) + strlen(all[i].end));
        memcpy(text, all[i].before, length);
        for (n = 0; n < 2 * many + 1; n++) {
            const char *next = n < many ? all[i].unit : n < 2 * many ? all[i].end : all[i].after;
            memcpy(text + length, next, strlen(next));
            length += strlen(next);
        }
        reading = AUTTERVIL_READ(text, length, any);
        other = AUTTERVIL_READ_WITH(&scratch, text, length, any);
        CHECK(length > AUTTERVIL_MOST_TEXT - 32 && reading.answer == all[i].answer && is_alike(&reading, &other));
    }
}

/* ---- places that cannot be lent */

/* Both calls refuse these places alike, and write nothing. */
static void refused(uint32_t answer, const char *text, size_t length, uint64_t *cells_at, size_t cells, uint8_t *names_at, size_t bytes)
{
    auttervil_reading reading = auttervil_read(text, length, cells_at, cells, names_at, bytes);
    auttervil_reading other = auttervil_read_with(&scratch, text, length, cells_at, cells, names_at, bytes);
    CHECK(reading.answer == answer && is_alike(&reading, &other) && auttervil_strplace(answer) != NULL);
    CHECK(reading.offset == 0 && reading.tables.numbers == NULL && reading.tables.cells == 0 && reading.tables.names == NULL && reading.tables.bytes == 0);
    CHECK(auttervil_compile(&reading.tables, any.place, COUNT(any.place), any.name_place, COUNT(any.name_place)).answer == AUTTERVIL_SIZE);
}

static void bad_places(void)
{
    const size_t length = sizeof small - 1;
    char *inside = lent_places.text;
    memset(&lent_places, PAINT, sizeof lent_places);
    refused(AUTTERVIL_TEXT_NULL, NULL, length, numbers, CELLS, names, BYTES);
    refused(AUTTERVIL_TEXT_NULL, NULL, 1, NULL, CELLS, NULL, BYTES);
    refused(AUTTERVIL_TEXT_PAST_END, small, SIZE_MAX, numbers, CELLS, names, BYTES);
    refused(AUTTERVIL_TEXT_PAST_END, (const char *)(UINTPTR_MAX - 7), 8, numbers, CELLS, names, BYTES);
    refused(AUTTERVIL_TABLES_NULL, small, length, NULL, CELLS, names, BYTES);
    refused(AUTTERVIL_TABLES_NULL, small, length, numbers, CELLS, NULL, BYTES);
    refused(AUTTERVIL_TABLES_MISALIGNED, small, length, (uint64_t *)shifted(numbers, 4), CELLS - 1, names, BYTES);
    refused(AUTTERVIL_TABLES_PAST_END, small, length, numbers, SIZE_MAX, names, BYTES);
    refused(AUTTERVIL_TABLES_PAST_END, small, length, numbers, SIZE_MAX / 8, names, BYTES);
    refused(AUTTERVIL_TABLES_PAST_END, small, length, numbers, CELLS, names, SIZE_MAX);
    refused(AUTTERVIL_TABLES_OVERLAP, small, length, numbers, CELLS + 1, names, BYTES);
    refused(AUTTERVIL_TABLES_OVERLAP, small, length, numbers, CELLS, names - 1, BYTES);
    refused(AUTTERVIL_TABLES_OVERLAP, inside, length, numbers, CELLS, names, BYTES);
    refused(AUTTERVIL_TABLES_OVERLAP, inside + 8 * CELLS - 1, 1, numbers, CELLS, names, BYTES);
    refused(AUTTERVIL_TABLES_OVERLAP, inside + 8 * CELLS - 1, 2, numbers, 1, names, BYTES);
    refused(AUTTERVIL_TABLES_OVERLAP, inside + 8 * CELLS + BYTES - 1, 1, numbers, CELLS, names, BYTES);
    CHECK(is_painted(&lent_places, sizeof lent_places));
    /* Directly in front of the names and behind the numbers is apart from both. */
    memcpy(inside + 8 * (CELLS - 8), small, length);
    CHECK(auttervil_read(inside + 8 * (CELLS - 8), length, numbers, CELLS - 8, (uint8_t *)inside + 8 * (CELLS - 8) + length, 64).answer == AUTTERVIL_DONE);
    CHECK(memcmp(inside + 8 * (CELLS - 8), small, length) == 0);
}

static void refused_scratch(uint32_t answer, auttervil_scratch *place, const char *text, size_t length, uint64_t *cells_at, size_t cells, uint8_t *names_at, size_t bytes)
{
    auttervil_reading reading = auttervil_read_with(place, text, length, cells_at, cells, names_at, bytes);
    CHECK(reading.answer == answer && reading.tables.numbers == NULL && auttervil_strplace(answer) != NULL);
}

static void bad_scratch(void)
{
    const size_t length = sizeof small - 1;
    uint8_t *const in_it = (uint8_t *)&scratch;
    memset(&lent_places, PAINT, sizeof lent_places);
    memset(&scratch, PAINT, sizeof scratch);
    refused_scratch(AUTTERVIL_SCRATCH_NULL, NULL, TEXT(small), numbers, CELLS, names, BYTES);
    refused_scratch(AUTTERVIL_TABLES_NULL, NULL, TEXT(small), NULL, CELLS, names, BYTES);
    refused_scratch(AUTTERVIL_SCRATCH_MISALIGNED, (auttervil_scratch *)shifted(&scratch, 4), TEXT(small), numbers, CELLS, names, BYTES);
    refused_scratch(AUTTERVIL_SCRATCH_PAST_END, (auttervil_scratch *)(UINTPTR_MAX - 7), TEXT(small), numbers, CELLS, names, BYTES);
    refused_scratch(AUTTERVIL_SCRATCH_OVERLAP, &scratch, (const char *)in_it, length, numbers, CELLS, names, BYTES);
    refused_scratch(AUTTERVIL_SCRATCH_OVERLAP, &scratch, (const char *)in_it + sizeof scratch - 1, 1, numbers, CELLS, names, BYTES);
    refused_scratch(AUTTERVIL_SCRATCH_OVERLAP, &scratch, TEXT(small), scratch.cells + 9, CELLS, names, BYTES);
    refused_scratch(AUTTERVIL_SCRATCH_OVERLAP, &scratch, TEXT(small), numbers, CELLS, scratch.bytes, BYTES);
    CHECK(is_painted(&scratch, sizeof scratch) && is_painted(&lent_places, sizeof lent_places));
    /* Whatever it held before, the answer is the same. */
    fill_random(&scratch, sizeof scratch);
    CHECK(auttervil_read_with(&scratch, TEXT(small), numbers, CELLS, names, BYTES).tables.cells == 28);
}

/* Work places of other lengths, which no wrapper lends: 199, and nothing is written, in them neither. */
static void other_lengths(void)
{
    size_t most[6] = {COUNT(scratch.cells), COUNT(scratch.bytes), COUNT(scratch.ids), COUNT(scratch.spots), COUNT(scratch.sources), COUNT(scratch.ranks)};
    size_t i;
    memset(&lent_places, PAINT, sizeof lent_places);
    memset(&scratch, PAINT, sizeof scratch);
    for (i = 0; i < COUNT(most); i++) {
        auttervil_raw_reading raw;
        most[i]--;
        raw = auttervil_raw3_read_with(auttervil_lend_bytes(TEXT(small)), sizeof small - 1, numbers, CELLS, names, BYTES, scratch.cells, most[0], scratch.bytes, most[1], scratch.ids, most[2],
                                       scratch.spots, most[3], scratch.sources, most[4], scratch.ranks, most[5]);
        most[i]++;
        CHECK(raw.answer == 199 && raw.offset == 0 && raw.cells == 0 && raw.bytes == 0);
        CHECK(is_painted(&scratch, sizeof scratch) && is_painted(&lent_places, sizeof lent_places));
    }
}

/* ---- the life cycle */

static int is_same_name(const auttervil_chart *a, uint64_t i, const auttervil_chart *b, uint64_t j)
{
    return (i == AUTTERVIL_NONE && j == AUTTERVIL_NONE) || auttervil_is_same(auttervil_name(a, i), auttervil_name(b, j));
}

/* Where a chart's references begin; descriptors and actions stand behind them. */
static size_t references_of(const auttervil_chart *c)
{
    return 6 + 11 * (size_t)c->numbers[0] + 9 * (size_t)c->numbers[1];
}

static int are_same_rows(const auttervil_chart *a, const uint64_t *p, const auttervil_chart *b, const uint64_t *q)
{
    uint64_t i;
    for (i = 0; p[1] == q[1] && i < p[1]; i++)
        if (a->numbers[references_of(a) + p[0] + i] != b->numbers[references_of(b) + q[0] + i])
            return 0;
    return p[1] == q[1];
}

static int are_same_descriptors(const auttervil_chart *a, const uint64_t *p, const auttervil_chart *b, const uint64_t *q)
{
    const uint64_t *in_a = a->numbers + references_of(a) + a->numbers[2] + p[0];
    const uint64_t *in_b = b->numbers + references_of(b) + b->numbers[2] + q[0];
    uint64_t i;
    for (i = 0; p[1] == q[1] && i < p[1]; i++)
        if (!is_same_name(a, in_a[i], b, in_b[i]))
            return 0;
    return p[1] == q[1];
}

static int are_same_actions(const auttervil_chart *a, const uint64_t *p, const auttervil_chart *b, const uint64_t *q)
{
    const uint64_t *in_a = a->numbers + references_of(a) + a->numbers[2] + a->numbers[3] + 4 * p[0];
    const uint64_t *in_b = b->numbers + references_of(b) + b->numbers[2] + b->numbers[3] + 4 * q[0];
    uint64_t i;
    for (i = 0; p[1] == q[1] && i < 4 * p[1]; i += 4)
        if (in_a[i] != in_b[i] || !(in_a[i] == 0 || in_a[i] >= 6 ? is_same_name(a, in_a[i + 1], b, in_b[i + 1]) : in_a[i + 1] == in_b[i + 1])
            || in_a[i + 2] != in_b[i + 2] || !(in_a[i] == 6 ? is_same_name(a, in_a[i + 3], b, in_b[i + 3]) : in_a[i + 3] == in_b[i + 3]))
            return 0;
    return p[1] == q[1];
}

/* Whether two charts are the same but for the numbers of their names and the order inside their tables. */
static int are_same_charts(const auttervil_chart *a, const auttervil_chart *b)
{
    int same = a->numbers[0] == b->numbers[0] && a->numbers[1] == b->numbers[1];
    uint64_t i;
    for (i = 0; same && i < a->numbers[0]; i++) {
        const uint64_t *p = a->numbers + 6 + 11 * i;
        const uint64_t *q = b->numbers + 6 + 11 * i;
        same = p[0] == q[0] && p[1] == q[1] && is_same_name(a, p[2], b, q[2]) && are_same_actions(a, p + 3, b, q + 3) && are_same_actions(a, p + 5, b, q + 5)
            && are_same_rows(a, p + 7, b, q + 7) && are_same_actions(a, p + 9, b, q + 9);
    }
    for (i = 0; same && i < a->numbers[1]; i++) {
        const uint64_t *p = a->numbers + 6 + 11 * a->numbers[0] + 9 * i;
        const uint64_t *q = b->numbers + 6 + 11 * b->numbers[0] + 9 * i;
        same = p[0] == q[0] && are_same_descriptors(a, p + 1, b, q + 1) && p[3] == q[3] && p[4] == q[4] && are_same_rows(a, p + 5, b, q + 5)
            && are_same_actions(a, p + 7, b, q + 7);
    }
    return same;
}

/* Three lines from text to a compiled chart, in places for any text, beside the one that chart.h builds; and a change in the text is one in the chart. */
static void the_text_is_the_built_chart(void)
{
    static document changed;
    auttervil_builder b;
    auttervil_tables tables;
    auttervil_compiled built = compile_chart(&b, "mounted", &tables);
    auttervil_reading reading = AUTTERVIL_READ(lifecycle_text.bytes, lifecycle_text.length, any);
    auttervil_compiled compiled = AUTTERVIL_COMPILE(&reading.tables, any);
    CHECK(built.answer == AUTTERVIL_DONE && reading.answer == AUTTERVIL_DONE && compiled.answer == AUTTERVIL_DONE);
    CHECK(reading.tables.cells == tables.cells && reading.tables.bytes == tables.bytes && compiled.chart.cells == built.chart.cells);
    CHECK(are_same_charts(&compiled.chart, &built.chart));
    replace(&changed, &lifecycle_text, "label=\"9\"", "label=\"8\"");
    reading = AUTTERVIL_READ(changed.bytes, changed.length, any);
    compiled = AUTTERVIL_COMPILE(&reading.tables, any);
    CHECK(compiled.answer == AUTTERVIL_DONE && !are_same_charts(&compiled.chart, &built.chart));
    replace(&changed, &lifecycle_text, "event=\"timeout kill\"", "event=\"timeout\"");
    reading = AUTTERVIL_READ_WITH(&scratch, changed.bytes, changed.length, any);
    compiled = AUTTERVIL_COMPILE(&reading.tables, any);
    CHECK(compiled.answer == AUTTERVIL_DONE && !are_same_charts(&compiled.chart, &built.chart));
    /* The builder's places are exact for neither way, and those for a text are none for the builder. */
    reading = AUTTERVIL_READ(lifecycle_text.bytes, lifecycle_text.length, lifecycle);
    CHECK(reading.answer == AUTTERVIL_DONE && reading.tables.numbers == lifecycle.numbers && reading.tables.names == lifecycle.names);
    AUTTERVIL_BEGIN(&b, any);
    CHECK(b.fault == AUTTERVIL_FAULT_LIMITS);
}

/* The incident's id of 60 bytes in the text, and a typo, which is told as the example tells it; also behind a byte order mark and a declaration. */
static void the_incident_and_a_typo(void)
{
    static const char id[] = "mounted-volume-of-the-orders-database-with-its-write-ahead-lo";
    static const char said[] = "answer 12, line 27, column 48: no row has the id mountd\n"
                               "        <transition event=\"mount.done\" target=\"mountd\"/>\n                                               ^\n";
    static document changed, other;
    char cut[64] = {0};
    char told[512] = {0};
    auttervil_reading reading;
    FILE *file = tmpfile();
    memcpy(cut, id, 60);
    rename_mounted(&changed, &lifecycle_text, cut);
    CHECK(read_chart(&changed, &reading).answer == AUTTERVIL_SIZE && reading.answer == AUTTERVIL_NAMES);
    cut[52] = 0;
    rename_mounted(&changed, &lifecycle_text, cut);
    CHECK(read_chart(&changed, &reading).answer == AUTTERVIL_DONE && reading.answer == AUTTERVIL_DONE);
    replace(&other, &lifecycle_text, "target=\"mounted\"", "target=\"mountd\"");
    replace(&changed, &other, "<!-- The life", "\xEF\xBB\xBF<?xml version='1.0' encoding='UTF-8'?>\n<!-- The life");
    CHECK(read_chart(&changed, &reading).answer == AUTTERVIL_SIZE && reading.answer == AUTTERVIL_BAD_TEXT);
    CHECK(memcmp(changed.bytes + reading.offset, "mountd\"", 7) == 0);
    if (file == NULL) {
        CHECK(file != NULL);
        return;
    }
    print_refusal(file, &changed, &reading);
    rewind(file);
    CHECK(fread(told, 1, sizeof told - 1, file) > 0 && strcmp(told, said) == 0);
    CHECK(fclose(file) == 0);
}

/* The example of docs/grammar.md is accepted as it stands there. */
static void the_documented_example(void)
{
    static document page;
    char *text, *end;
    auttervil_reading reading;
    auttervil_compiled compiled;
    CHECK(load(&page, "docs/grammar.md") && page.length < sizeof page.bytes);
    page.bytes[page.length < sizeof page.bytes ? page.length : sizeof page.bytes - 1] = 0;
    text = strstr(page.bytes, "## An example\n");
    text = text == NULL ? NULL : strstr(text, "```\n");
    end = text == NULL ? NULL : strstr(text + 4, "```\n");
    if (end == NULL) {
        CHECK(end != NULL);
        return;
    }
    reading = AUTTERVIL_READ(text + 4, (size_t)(end - text) - 4, any);
    compiled = AUTTERVIL_COMPILE(&reading.tables, any);
    CHECK(compiled.answer == AUTTERVIL_DONE && auttervil_row_count(&compiled.chart) == 11 && auttervil_transition_count(&compiled.chart) == 7);
}

/* Each beginning of the text ends too soon, up to the end of its root. */
static void beginnings(size_t step)
{
    static char whole[sizeof lifecycle_text.bytes];
    size_t end = lifecycle_text.length;
    size_t n, wrong = 0;
    while (end > 0 && lifecycle_text.bytes[end - 1] != '>')
        end--;
    memset(&any.numbers, PAINT, sizeof any.numbers);
    memset(&any.names, PAINT, sizeof any.names);
    for (n = 0; n < end; n += step) {
        char *copy = copy_of(lifecycle_text.bytes, n);
        auttervil_reading reading;
        reading = n / step % 2 == 0 ? AUTTERVIL_READ(copy, n, any) : AUTTERVIL_READ_WITH(&scratch, copy, n, any);
        wrong += reading.answer != AUTTERVIL_BAD_TEXT || reading.offset != n || memcmp(copy, lifecycle_text.bytes, n) != 0;
        free(copy);
    }
    CHECK(end > 3000 && wrong == 0 && is_painted(&any.numbers, sizeof any.numbers) && is_painted(&any.names, sizeof any.names));
    memcpy(whole, lifecycle_text.bytes, end);
    CHECK(AUTTERVIL_READ(whole, end, any).answer == AUTTERVIL_DONE);
}

/* ---- places in a text */

static int is_at(const char *text, size_t length, size_t offset, size_t line, size_t column)
{
    auttervil_position at = auttervil_position_of(text, length, offset);
    return at.line == line && at.column == column;
}

static void lines_and_columns(void)
{
    static const char three[] = "ab\ncd\r\ne\rf";
    CHECK(is_at(TEXT(three), 0, 1, 1) && is_at(TEXT(three), 1, 1, 2) && is_at(TEXT(three), 2, 1, 3));
    CHECK(is_at(TEXT(three), 3, 2, 1) && is_at(TEXT(three), 5, 2, 3) && is_at(TEXT(three), 6, 2, 4));
    CHECK(is_at(TEXT(three), 7, 3, 1) && is_at(TEXT(three), 8, 3, 2) && is_at(TEXT(three), 9, 4, 1));
    CHECK(is_at(TEXT(three), 10, 4, 2) && is_at(TEXT(three), 11, 4, 2) && is_at(TEXT(three), SIZE_MAX, 4, 2));
    CHECK(is_at("", 0, 0, 1, 1) && is_at(NULL, 0, 7, 1, 1) && is_at("\n", 1, 1, 2, 1) && is_at("\r", 1, 1, 2, 1) && is_at("\r\n", 2, 2, 2, 1));
    CHECK(is_at("\n\n\n", 3, 2, 3, 1) && is_at("\r\r\r", 3, 2, 3, 1) && is_at("\r\n\r\n", 4, 2, 2, 1) && is_at("\n\r\n\r", 4, 4, 4, 1));
    CHECK(is_at("\tx", 2, 1, 1, 2) && is_at("\xC3\xA9x", 3, 2, 1, 3));
    CHECK(is_at(NULL, 1, 0, 0, 0) && is_at(small, SIZE_MAX, 0, 0, 0));
}

/* Whether the message is this one: whole in a buffer that is large enough, cut in every smaller one, and never past its end. */
static int shows(const char *text, size_t length, size_t offset, const char *wanted)
{
    char buffer[AUTTERVIL_MESSAGE_BYTES + 8];
    const size_t whole = strlen(wanted);
    size_t size;
    int right = 1;
    for (size = 0; size <= AUTTERVIL_MESSAGE_BYTES; size++) {
        size_t fits = size > whole ? whole : size - (size > 0);
        memset(buffer, PAINT, sizeof buffer);
        right = right && auttervil_show_offset(buffer, size, text, length, offset) == whole;
        right = right && memcmp(buffer, wanted, fits) == 0 && (size == 0 || buffer[fits] == 0) && is_painted(buffer + fits + (size > 0), sizeof buffer - fits - (size > 0));
    }
    if (!right) {
        (void)auttervil_show_offset(buffer, sizeof buffer, text, length, offset);
        printf("[%s]\nand not\n[%s]\n", buffer, wanted);
    }
    return right && auttervil_show_offset(NULL, 0, text, length, offset) == whole && auttervil_show_offset(NULL, 9, text, length, offset) == whole;
}

static void carets(void)
{
    CHECK(shows(TEXT("<scxml>\n  <state/>\n</scxml>"), 10, "line 2, column 3:\n  <state/>\n  ^"));
    CHECK(shows(TEXT("<scxml>\r\n\t<state/>\r\n</scxml>"), 10, "line 2, column 2:\n\t<state/>\n\t^"));
    CHECK(shows(TEXT("a\tb\tc"), 4, "line 1, column 5:\na\tb\tc\n \t \t^"));
    /* At the beginning, at the end of a line, in CR LF, behind the text. */
    CHECK(shows(TEXT("ab\ncd"), 0, "line 1, column 1:\nab\n^") && shows(TEXT("ab\ncd"), 2, "line 1, column 3:\nab\n  ^"));
    CHECK(shows(TEXT("ab\r\ncd"), 2, "line 1, column 3:\nab\n  ^") && shows(TEXT("ab\r\ncd"), 3, "line 1, column 4:\nab\n   ^"));
    CHECK(shows(TEXT("ab\ncd"), 5, "line 2, column 3, the end of the text:\ncd\n  ^") && shows(TEXT("ab\ncd"), 99, "line 2, column 3, the end of the text:\ncd\n  ^"));
    CHECK(shows(TEXT("ab\n"), 3, "line 2, column 1, the end of the text:\n\n^") && shows("", 0, 0, "line 1, column 1, the end of the text:\n\n^") && shows(NULL, 0, 5, "line 1, column 1, the end of the text:\n\n^"));
    /* A byte that no one sees, or that moves the cursor, has one column. */
    CHECK(shows(TEXT("\xEF\xBB\xBF<scxml/>"), 0, "line 1, column 1:\n\?\?\?<scxml/>\n^") && shows(TEXT("a\x1b[2J\0b\x7f"), 6, "line 1, column 7:\na?[2J?b?\n      ^"));
    /* A text that cannot be there has no message, and its buffer an empty one. */
    CHECK(shows(NULL, 1, 0, "") && shows(small, SIZE_MAX, 0, ""));
}

/* A line of 300 bytes of which the byte at the column is an X. */
static const char *long_line(size_t column)
{
    static char line[301];
    size_t i;
    for (i = 0; i < 300; i++)
        line[i] = (char)('0' + i % 10);
    if (column < 300)
        line[column] = 'X';
    return line;
}

static void long_lines(void)
{
    char buffer[AUTTERVIL_MESSAGE_BYTES];
    char text[400];
    size_t column;
    int right = 1;
    CHECK(shows(long_line(300), 72, 40, "line 1, column 41:\n012345678901234567890123456789012345678901234567890123456789012345678901\n                                        ^"));
    CHECK(shows(long_line(300), 300, 0, "line 1, column 1:\n012345678901234567890123456789012345678901234567890123456789012345678901...\n^"));
    CHECK(shows(long_line(300), 300, 150, "line 1, column 151:\n...456789012345678901234567890123456789012345678901234567890123456789012345...\n                                       ^"));
    CHECK(shows(long_line(300), 300, 300, "line 1, column 301, the end of the text:\n...890123456789012345678901234567890123456789012345678901234567890123456789\n                                                                           ^"));
    /* Wherever it is, also between other lines and with a tab in front, the caret is below the X, and the message fits. */
    for (column = 0; column < 300; column++) {
        size_t length, line, caret;
        memcpy(text, "first\n", 6);
        memcpy(text + 6, long_line(column), 300);
        memcpy(text + 306, "\nlast", 5);
        if (column > 1)
            text[6 + column / 2] = '\t';
        length = auttervil_show_offset(buffer, sizeof buffer, text, 311, 6 + column);
        line = (size_t)(strchr(buffer, '\n') - buffer) + 1;
        caret = (size_t)(strchr(buffer + line, '\n') - buffer) + 1;
        right = right && length < sizeof buffer && length == strlen(buffer) && buffer[length - 1] == '^' && strchr(buffer + line, 'X') == buffer + line + (length - 1 - caret);
        right = right && caret - line <= AUTTERVIL_SHOWN_BYTES + 7 && length - caret <= AUTTERVIL_SHOWN_BYTES + 4;
        right = right && (strchr(buffer + line, '\t') == NULL || (strchr(buffer + caret, '\t') != NULL && strchr(buffer + caret, '\t') - (buffer + caret) == strchr(buffer + line, '\t') - (buffer + line)));
    }
    CHECK(right);
}

/* A buffer in the text is left alone. */
static void message_in_the_text(void)
{
    char both[64] = "<scxml>\n<foo/>\n</scxml>\n";
    char copy[64];
    memcpy(copy, both, sizeof both);
    CHECK(auttervil_show_offset(both + 8, 32, both, 24, 9) > 0 && auttervil_show_offset(both, sizeof both, both, 24, 9) > 0 && memcmp(both, copy, sizeof both) == 0);
    CHECK(auttervil_show_offset(both + 24, 40, both, 24, 9) == strlen("line 2, column 2:\n<foo/>\n ^") && strcmp(both + 24, "line 2, column 2:\n<foo/>\n ^") == 0);
}

/* ---- what stands in front of a document */

static void prologs(void)
{
    static const char whole[] = "\xEF\xBB\xBF<?xml version=\"1.0\" encoding=\"UTF-8\"?>\n<scxml><state id='a'/></scxml>";
    size_t first = auttervil_prolog_length(TEXT(whole));
    size_t n;
    int right = 1;
    CHECK(first == 41 && auttervil_read(whole + first, sizeof whole - 1 - first, numbers, CELLS, names, BYTES).answer == AUTTERVIL_DONE);
    CHECK(auttervil_prolog_length(TEXT(small)) == 0 && auttervil_prolog_length(NULL, 0) == 0 && auttervil_prolog_length("", 0) == 0);
    CHECK(auttervil_prolog_length(NULL, 9) == 0 && auttervil_prolog_length(small, SIZE_MAX) == 0);
    CHECK(auttervil_prolog_length(TEXT("\xEF\xBB\xBF<scxml/>")) == 3 && auttervil_prolog_length(TEXT("\xEF\xBB\xBF")) == 3 && auttervil_prolog_length(TEXT("\xEF\xBB<scxml/>")) == 0);
    CHECK(auttervil_prolog_length(TEXT("<?xml version='1.0'?>")) == 21 && auttervil_prolog_length(TEXT("<?xml\r\n\tversion='1.0' ?><scxml/>")) == 24);
    CHECK(auttervil_prolog_length(TEXT("<?xml version='?' ?>x")) == 20 && auttervil_prolog_length(TEXT("<?xml ?\?>")) == 9);
    /* No declaration: another instruction, one that stands later, one without its end or with bytes that it cannot have. */
    CHECK(auttervil_prolog_length(TEXT("<?xml-stylesheet href='a'?>")) == 0 && auttervil_prolog_length(TEXT("<?xml?>")) == 0 && auttervil_prolog_length(TEXT("<?XML version='1.0'?>")) == 0);
    CHECK(auttervil_prolog_length(TEXT(" <?xml version='1.0'?>")) == 0 && auttervil_prolog_length(TEXT("<?xml version='1.0'?")) == 0);
    CHECK(auttervil_prolog_length(TEXT("<?xml version='1.0'><scxml/>?>")) == 0 && auttervil_prolog_length(TEXT("<?xml <scxml/>?>")) == 0);
    CHECK(auttervil_prolog_length(TEXT("<?xml \0?>")) == 0 && auttervil_prolog_length(TEXT("<?xml \xC3\xA9?>")) == 0);
    /* Of each beginning: nothing, the mark, or both. */
    for (n = 0; n < sizeof whole; n++) {
        char *copy = copy_of(whole, n);
        right = right && auttervil_prolog_length(copy, n) == (n < 3 ? 0u : n < 41 ? 3u : 41u);
        free(copy);
    }
    CHECK(right);
}

static void words(void)
{
    CHECK(strcmp(auttervil_strstatus(AUTTERVIL_BAD_TEXT), "the text is not of the grammar, lacks an id, or names what does not exist or is too long") == 0);
    CHECK(auttervil_strplace(AUTTERVIL_BAD_TEXT) == NULL && auttervil_strplace(AUTTERVIL_TABLES_OVERLAP) != NULL && auttervil_strplace(294) == NULL);
    CHECK(AUTTERVIL_MOST_TEXT_CELLS == 27756 && sizeof(auttervil_scratch) == 364496);
}

int main(int count, char **arguments)
{
    if (!load(&lifecycle_text, "examples/lifecycle/lifecycle.scxml")) {
        printf("no examples/lifecycle/lifecycle.scxml\n");
        return 1;
    }
    a_text_and_its_tables();
    answers();
    faults();
    the_longest_text();
    a_full_text();
    the_fullest_texts();
    bad_places();
    bad_scratch();
    other_lengths();
    the_text_is_the_built_chart();
    the_incident_and_a_typo();
    the_documented_example();
    beginnings(count > 1 ? (size_t)atoi(arguments[1]) : 1);
    lines_and_columns();
    carets();
    long_lines();
    message_in_the_text();
    prologs();
    words();
    return report();
}
