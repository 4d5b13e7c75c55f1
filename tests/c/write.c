/* Writing a chart back from C: whole texts of known charts, buffers of every length, refusals that leave the buffer as it was, texts of the greatest length, places that cannot be
 * lent; what was written is read and written again. */
#include "texts.h"

enum { AROUND = 16 };

#define ROOT "<scxml xmlns=\"http://www.w3.org/2005/07/scxml\" version=\"1.0\""

/* Chart A as docs/tables.md has it, and as the example of the Recommendation states its lists (docs/grammar.md has both). */
#define CHART_A(first, second) \
    ROOT "><parallel id=\"p\"><transition event=\"done.state.p\" target=\"someOtherState\"/><state id=\"S1\"" first "><state id=\"S11\"><transition event=\"e4\" target=\"S12\"/></state>" \
    "<state id=\"S12\"><transition event=\"e1\" target=\"S1Final\"/></state><final id=\"S1Final\"/></state><state id=\"S2\"" second "><state id=\"S21\"><transition event=\"e1\" target=\"S22\"/></state>" \
    "<state id=\"S22\"><transition event=\"e2\" target=\"S2Final\"/></state><final id=\"S2Final\"/></state></parallel><state id=\"someOtherState\"/></scxml>"

#define DOOR \
    ROOT " initial=\"door\"><state id=\"door\"><onentry><log label=\"1\"/></onentry><initial><transition target=\"open\"><log label=\"2\"/></transition></initial>" \
    "<transition type=\"internal\" event=\"reset\" target=\"closed\"/><transition event=\"quit\" target=\"off\"/><history id=\"h\"><transition target=\"closed\"><log label=\"7\"/></transition></history>" \
    "<state id=\"open\"><onexit><log label=\"2\"/></onexit><transition event=\"close\" target=\"closed\"><log label=\"7\"/><raise event=\"did.close\"/></transition></state>" \
    "<state id=\"closed\"><transition event=\"open push.*\" target=\"open\"/><transition event=\"key\" cond=\"In('closed')\" target=\"locked\"/></state>" \
    "<state id=\"locked\"><transition event=\"*\"/></state></state><final id=\"off\"/></scxml>"

AUTTERVIL_PLACES_FOR_TEXT(any);
AUTTERVIL_PLACES_FOR_TEXT(again);
AUTTERVIL_PLACES(large, AUTTERVIL_MOST_ROWS, 4, 64, 8, 16384, AUTTERVIL_MOST_NAMES);
static lent a, door;
static char buffer[AROUND + 2 * AUTTERVIL_MOST_TEXT + AROUND];

/* Writes into a buffer of so many bytes between others: on 0 the text stands at its beginning, and no other byte is changed, whatever the answer. */
static auttervil_written write_in(const auttervil_tables *tables, size_t size)
{
    auttervil_written written;
    size_t text;
    memset(buffer, PAINT, sizeof buffer);
    written = auttervil_write(tables, buffer + AROUND, size);
    text = written.answer == AUTTERVIL_DONE ? written.length : 0;
    CHECK(is_painted(buffer, AROUND) && text <= size && is_painted(buffer + AROUND + text, sizeof buffer - AROUND - text));
    return written;
}

static int is_written(const auttervil_tables *tables, size_t size, uint32_t answer, size_t length)
{
    auttervil_written written = write_in(tables, size);
    if (written.answer != answer || written.length != length)
        printf("answer %u, length %lu\n", (unsigned)written.answer, (unsigned long)written.length);
    return written.answer == answer && written.length == length;
}

/* Whether this is what is written, in buffers of its length, of more, and of each shorter length, with 13 and nothing written in these. */
static int writes(const auttervil_tables *tables, const char *wanted)
{
    const size_t length = strlen(wanted);
    size_t less;
    int right = is_written(tables, length, AUTTERVIL_DONE, length) && memcmp(buffer + AROUND, wanted, length) == 0;
    if (!right)
        printf("[%.*s]\nand not\n[%s]\n", (int)length, buffer + AROUND, wanted);
    right = right && is_written(tables, length + 1, AUTTERVIL_DONE, length) && memcmp(buffer + AROUND, wanted, length) == 0;
    right = right && is_written(tables, 2 * AUTTERVIL_MOST_TEXT, AUTTERVIL_DONE, length) && memcmp(buffer + AROUND, wanted, length) == 0;
    for (less = 1; less <= length; less += less < 4 || less + 4 > length ? 1 : 7)
        right = right && is_written(tables, length - less, AUTTERVIL_LONG_TEXT, length);
    return right && auttervil_write(tables, NULL, 0).answer == AUTTERVIL_LONG_TEXT && auttervil_write(tables, NULL, 0).length == length;
}

static void known_charts(void)
{
    auttervil_tables tables;
    CHECK(writes(&a.tables, CHART_A("", "")));
    CHECK(writes(&door.tables, DOOR));
    /* A compiled chart has its tables at its beginning. */
    tables = auttervil_tables_of(&a.chart);
    CHECK(tables.cells == a.tables.cells && writes(&tables, CHART_A("", "")));
    tables = auttervil_tables_of(&door.chart);
    CHECK(tables.cells == door.tables.cells && writes(&tables, DOOR));
}

/* Whether a text is read and written as this one, and that one as itself. */
static int writes_read(const char *text, size_t length, const char *wanted)
{
    auttervil_reading reading = AUTTERVIL_READ(text, length, any);
    const int right = reading.answer == AUTTERVIL_DONE && writes(&reading.tables, wanted);
    reading = AUTTERVIL_READ(wanted, strlen(wanted), any);
    return right && reading.answer == AUTTERVIL_DONE && writes(&reading.tables, wanted);
}

/* Every element and attribute, out of order, spelt at length and with what is the default. */
static void spellings(void)
{
    static const char text[] =
        "<!-- all --> <scxml initial='p'>\n <parallel id='p'>\n"
        "  <state id='s'><state id='t'><onexit/><onentry><log label='007'></log></onentry><onentry><raise event='e'/></onentry>"
        "<transition target='u' cond='In(&apos;t&apos;)' event=' x.*\n y ' type='external'/></state>"
        "<transition type='internal' target='t'  event='*' >\n<if cond=\"In('s')\"><if cond=\"In('u')\"/><elseif cond=\"In('t')\"/><log label='1'/><else/><raise event='z'/></if></transition>"
        "<initial><transition type='internal' target='h'/></initial><history id='h' type='shallow'><transition target='u'/></history>"
        "<history id='d' type='deep'><transition target='u'><log label='65535'/></transition></history><state id='u'></state></state>\n <state id='v'/></parallel>\n <final id='f'/>\n</scxml>\n";
    static const char written[] = ROOT
        " initial=\"p\"><parallel id=\"p\"><state id=\"s\" initial=\"h\"><transition type=\"internal\" event=\"*\" target=\"t\"><if cond=\"In('s')\"><if cond=\"In('u')\"/><elseif cond=\"In('t')\"/>"
        "<log label=\"1\"/><else/><raise event=\"z\"/></if></transition><state id=\"t\"><onentry><log label=\"7\"/><raise event=\"e\"/></onentry>"
        "<transition event=\"x.* y\" cond=\"In('t')\" target=\"u\"/></state><history id=\"h\"><transition target=\"u\"/></history>"
        "<history id=\"d\" type=\"deep\"><transition target=\"u\"><log label=\"65535\"/></transition></history><state id=\"u\"/></state><state id=\"v\"/></parallel><final id=\"f\"/></scxml>";
    CHECK(writes_read(TEXT(text), written));
    CHECK(writes_read(TEXT(small), ROOT "><state id=\"a\"/></scxml>"));
    /* An initial list that is stated is written, also where it names the first child. */
    CHECK(writes_read(TEXT("<scxml initial='a'><state id='a'/></scxml>"), ROOT " initial=\"a\"><state id=\"a\"/></scxml>"));
}

/* docs/grammar.md shows chart A both ways, cut into lines. */
static void shown(void)
{
    static char page[1 << 16];
    FILE *file = fopen("docs/grammar.md", "rb");
    size_t length = file == NULL ? 0 : fread(page, 1, sizeof page - 1, file);
    size_t i, to = 0;
    for (i = 0; i < length; i++)
        if (page[i] != '\n')
            page[to++] = page[i];
    page[to] = 0;
    CHECK(length > 0 && length < sizeof page - 1 && fclose(file) == 0);
    CHECK(strstr(page, CHART_A("", "")) != NULL && strstr(page, CHART_A(" initial=\"S11\"", " initial=\"S21\"")) != NULL);
}

/* Texts of files, written and read again. */
static void documents(void)
{
    static char text[1 << 16];
    static const char *const paths[] = {"second/texts/rec-3.1.3-mended.scxml", "examples/lifecycle/lifecycle.scxml"};
    size_t i;
    for (i = 0; i < COUNT(paths); i++) {
        FILE *file = fopen(paths[i], "rb");
        size_t length = file == NULL ? 0 : fread(text, 1, sizeof text, file);
        auttervil_reading reading = AUTTERVIL_READ(text, length, any);
        auttervil_written written = write_in(&reading.tables, AUTTERVIL_MOST_TEXT);
        CHECK(length > 0 && fclose(file) == 0 && reading.answer == AUTTERVIL_DONE && written.answer == AUTTERVIL_DONE && written.length < length);
        if (i == 0)
            CHECK(written.length == 551 && memcmp(buffer + AROUND, CHART_A(" initial=\"S11\"", " initial=\"S21\""), 551) == 0);
        memcpy(text, buffer + AROUND, written.length);
        text[written.length] = 0;
        reading = AUTTERVIL_READ(text, written.length, again);
        CHECK(reading.answer == AUTTERVIL_DONE && memcmp(any.numbers, again.numbers, 8 * reading.tables.cells) == 0 && writes(&reading.tables, text));
    }
}

/* Charts that break rules 1 to 5, and tables that are none: the answer of compiling, length 0, and the buffer as it was, whatever its size. */
static void refused(const auttervil_tables *tables, uint32_t answer)
{
    CHECK(is_written(tables, 0, answer, 0) && is_written(tables, 9, answer, 0) && is_written(tables, 2 * AUTTERVIL_MOST_TEXT, answer, 0));
    CHECK(auttervil_write(tables, NULL, 0).answer == answer);
}

static void refusals(void)
{
    static lent broken;
    static const auttervil_tables empty;
    auttervil_tables t = a.tables;
    size_t cell;
    refused(&empty, AUTTERVIL_SIZE);
    t.cells--;
    refused(&t, AUTTERVIL_SIZE);
    t = a.tables;
    t.bytes -= 64;
    refused(&t, AUTTERVIL_SIZE);
    t.bytes = 0;
    refused(&t, AUTTERVIL_SIZE);
    for (cell = 0; cell < 5; cell++) {
        broken = a;
        broken.tables.numbers = broken.numbers;
        broken.tables.names = broken.names;
        switch (cell) {
        case 0: broken.numbers[0] = AUTTERVIL_MOST_ROWS + 1; break;
        case 1: broken.names[0] = '9'; break;
        case 2: broken.numbers[6 + 11 * 10] = AUTTERVIL_KIND_DEEP; break;
        case 3: broken.numbers[6 + 11 * 11 + 9 * 5] = 0; break; /* a target that is the root */
        default: broken.numbers[6 + 11 * 11 + 3] = 0;           /* a condition on the root */
        }
        refused(&broken.tables, (uint32_t)cell + 1);
        CHECK(auttervil_compile(&broken.tables, broken.place, COUNT(broken.place), broken.name_place, COUNT(broken.name_place)).answer == cell + 1);
    }
}

/* A chart whose text has so many bytes: states with long ids and full exit blocks, and one whose id makes up the rest. */
static auttervil_tables long_chart(size_t bytes)
{
    static const char id[] = "xxxxxxxxxxxxxxxxxxxxxxxxxxxxxxxxxxxxxxxxxxxxxxxxxxxx"; /* 52 */
    const size_t around = sizeof ROOT "></scxml>" - 1 + sizeof "<state id=\"\"/>" - 1; /* and an id of 1 to 52 bytes */
    auttervil_builder b;
    auttervil_tables tables;
    size_t length = around, state, action;
    AUTTERVIL_BEGIN(&b, large);
    for (state = 0; bytes - length > 52; state++) {
        char name[8];
        const size_t empty = sizeof "<state id=\"s000\"/>" - 1;
        (void)snprintf(name, sizeof name, "s%03u", (unsigned)state);
        auttervil_add_row(&b, AUTTERVIL_KIND_STATE, NULL, name);
        length += empty;
        if (bytes - length < 200)
            continue;
        auttervil_add_exit(&b, name);
        length += sizeof "></state><onexit></onexit>" - 1 - 2;
        for (action = 0; action < AUTTERVIL_ACTIONS_EACH && bytes - length > 100; action++) {
            auttervil_add_host(&b, 10000);
            length += sizeof "<log label=\"10000\"/>" - 1;
        }
    }
    auttervil_add_row(&b, AUTTERVIL_KIND_STATE, NULL, id + 52 - (bytes - length));
    CHECK(auttervil_finish(&b, &tables) == AUTTERVIL_FAULT_NONE);
    return tables;
}

/* 32,768 bytes are written, and read again; of a longer text nothing is said but that. */
static void the_longest_text(void)
{
    static char text[AUTTERVIL_MOST_TEXT];
    auttervil_tables tables;
    auttervil_reading reading;
    size_t bytes;
    for (bytes = AUTTERVIL_MOST_TEXT - 60; bytes <= AUTTERVIL_MOST_TEXT; bytes += 20) {
        tables = long_chart(bytes);
        CHECK(is_written(&tables, AUTTERVIL_MOST_TEXT, AUTTERVIL_DONE, bytes) && is_written(&tables, bytes, AUTTERVIL_DONE, bytes));
        CHECK(is_written(&tables, bytes - 1, AUTTERVIL_LONG_TEXT, bytes) && is_written(&tables, 0, AUTTERVIL_LONG_TEXT, bytes));
    }
    tables = long_chart(AUTTERVIL_MOST_TEXT);
    CHECK(is_written(&tables, AUTTERVIL_MOST_TEXT, AUTTERVIL_DONE, AUTTERVIL_MOST_TEXT));
    memcpy(text, buffer + AROUND, sizeof text);
    reading = AUTTERVIL_READ(text, sizeof text, any);
    CHECK(reading.answer == AUTTERVIL_DONE && reading.tables.cells == tables.cells && is_written(&reading.tables, sizeof text, AUTTERVIL_DONE, sizeof text));
    CHECK(memcmp(text, buffer + AROUND, sizeof text) == 0);
    for (bytes = AUTTERVIL_MOST_TEXT + 1; bytes < AUTTERVIL_MOST_TEXT + 3000; bytes += 499) {
        tables = long_chart(bytes);
        CHECK(is_written(&tables, 2 * AUTTERVIL_MOST_TEXT, AUTTERVIL_LONG_TEXT, 0) && is_written(&tables, AUTTERVIL_MOST_TEXT, AUTTERVIL_LONG_TEXT, 0) && is_written(&tables, 0, AUTTERVIL_LONG_TEXT, 0));
    }
}

/* ---- places that cannot be lent */

static void not_lent(const auttervil_tables *tables, char *place, size_t size, uint32_t answer)
{
    auttervil_written written = auttervil_write(tables, place, size);
    CHECK(written.answer == answer && written.length == 0 && auttervil_strplace(answer) != NULL);
}

static void bad_places(void)
{
    static lent copy;
    auttervil_tables t = a.tables;
    copy = a;
    memset(buffer, PAINT, sizeof buffer);
    not_lent(NULL, buffer, sizeof buffer, AUTTERVIL_TABLES_NULL);
    not_lent(NULL, NULL, 1, AUTTERVIL_TABLES_NULL);
    not_lent((const auttervil_tables *)((uintptr_t)&t + 4), buffer, sizeof buffer, AUTTERVIL_TABLES_MISALIGNED);
    t.numbers = (const uint64_t *)((uintptr_t)a.numbers + 4);
    not_lent(&t, buffer, sizeof buffer, AUTTERVIL_TABLES_MISALIGNED);
    t = a.tables;
    t.names = NULL;
    not_lent(&t, buffer, sizeof buffer, AUTTERVIL_TABLES_NULL);
    t = a.tables;
    t.cells = SIZE_MAX;
    not_lent(&t, buffer, sizeof buffer, AUTTERVIL_TABLES_PAST_END);
    not_lent(&a.tables, NULL, 1, AUTTERVIL_BUFFER_NULL);
    not_lent(&a.tables, buffer, SIZE_MAX, AUTTERVIL_BUFFER_PAST_END);
    not_lent(&a.tables, (char *)(UINTPTR_MAX - 7), 8, AUTTERVIL_BUFFER_PAST_END);
    CHECK(is_painted(buffer, sizeof buffer));
    not_lent(&a.tables, (char *)a.numbers, 8 * a.tables.cells, AUTTERVIL_BUFFER_OVERLAP);
    not_lent(&a.tables, (char *)(a.numbers + a.tables.cells) - 1, 1, AUTTERVIL_BUFFER_OVERLAP);
    not_lent(&a.tables, (char *)a.names, 1, AUTTERVIL_BUFFER_OVERLAP);
    not_lent(&a.tables, (char *)a.names + a.tables.bytes - 1, 1, AUTTERVIL_BUFFER_OVERLAP);
    not_lent(&a.tables, (char *)&a.tables, sizeof a.tables, AUTTERVIL_BUFFER_OVERLAP);
    CHECK(memcmp(a.numbers, copy.numbers, sizeof a.numbers) == 0 && memcmp(a.names, copy.names, sizeof a.names) == 0 && memcmp(&a.tables, &copy.tables, sizeof a.tables) == 0);
    /* Directly behind the numbers is apart from them, and no bytes are apart from everything. */
    CHECK(auttervil_write(&a.tables, (char *)(a.numbers + a.tables.cells), sizeof a.numbers - 8 * a.tables.cells).answer == AUTTERVIL_DONE);
    CHECK(memcmp(a.numbers, copy.numbers, 8 * a.tables.cells) == 0 && auttervil_write(&a.tables, (char *)a.numbers, 0).answer == AUTTERVIL_LONG_TEXT);
}

/* Tables of what is no compiled chart are refused. */
static void no_charts(void)
{
    auttervil_chart chart = a.chart;
    auttervil_tables tables = auttervil_tables_of(NULL);
    CHECK(tables.numbers == NULL && tables.cells == 0);
    chart.cells = 5;
    tables = auttervil_tables_of(&chart);
    CHECK(tables.cells == 0 && auttervil_write(&tables, buffer, sizeof buffer).answer == AUTTERVIL_SIZE);
    chart.cells = 100;
    tables = auttervil_tables_of(&chart);
    CHECK(tables.cells == 0);
    chart.cells = a.chart.cells - 1;
    tables = auttervil_tables_of(&chart);
    CHECK(auttervil_write(&tables, buffer, sizeof buffer).answer == AUTTERVIL_SIZE);
    chart.numbers = NULL;
    CHECK(auttervil_tables_of(&chart).cells == 0);
}

static void words(void)
{
    CHECK(strcmp(auttervil_strstatus(AUTTERVIL_LONG_TEXT), "the chart's text does not fit the buffer, or has more than 32,768 bytes") == 0);
    CHECK(AUTTERVIL_LONG_TEXT == 13 && auttervil_strplace(AUTTERVIL_LONG_TEXT) == NULL && auttervil_strplace(301) == NULL);
}

int main(void)
{
    make_chart_a(&a);
    make_door(&door);
    known_charts();
    spellings();
    shown();
    documents();
    refusals();
    the_longest_text();
    bad_places();
    no_charts();
    words();
    return report();
}
