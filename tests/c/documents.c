/* Documents as they are found, read by the library: every line of second/texts/README.md says what a file reads to, or where it is refused. What reads well is compiled and
 * started, written and read again; what begins with a declaration is read once more from behind it. */
#include <stdlib.h>

#include "test.h"

enum { MOST = 1 << 16 };

AUTTERVIL_PLACES_FOR_TEXT(any);
AUTTERVIL_PLACES_FOR_TEXT(again);
static auttervil_scratch scratch;
static auttervil_session session;
static uint32_t trace[AUTTERVIL_MOST_ROOM];

static size_t load(const char *path, char *bytes)
{
    FILE *file = fopen(path, "rb");
    size_t length;
    if (file == NULL)
        return 0;
    length = fread(bytes, 1, MOST, file);
    return fclose(file) == 0 ? length : 0;
}

/* The next column of a line, without blanks and backquotes around it; the line goes on behind it. */
static char *column(char **line)
{
    char *first = *line + strspn(*line, " `");
    char *bar = strchr(first, '|');
    char *end = bar;
    if (bar == NULL)
        return NULL;
    while (end > first && (end[-1] == ' ' || end[-1] == '`'))
        end--;
    *end = 0;
    *line = bar + 1;
    return first;
}

/* The part of a text that a line quotes, with its line ends, and how many of its bytes stand in front of the mark. */
static size_t unmark(char *part)
{
    static const char mark[] = "\xC2\xA6";
    char *at = strstr(part, mark);
    char *from = part;
    char *to = part;
    size_t before = 0;
    if (at == NULL)
        return SIZE_MAX;
    while (*from != 0) {
        if (from == at) {
            before = (size_t)(to - part);
            from += 2;
        } else if (from[0] == '\\' && from[1] == 'n') {
            *to++ = '\n';
            from += 2;
        } else {
            *to++ = *from++;
        }
    }
    *to = 0;
    return before;
}

/* Where the quoted part stands in the text; once and no more. */
static size_t place_of(const char *text, size_t length, const char *part)
{
    const size_t long_is = strlen(part);
    size_t found = SIZE_MAX;
    size_t i;
    for (i = 0; i + long_is <= length; i++)
        if (memcmp(text + i, part, long_is) == 0) {
            if (found != SIZE_MAX)
                return SIZE_MAX;
            found = i;
        }
    return found;
}

/* What a document was taken to mean, as text, reads to tables of the same size and is written as itself. */
static int is_written(const auttervil_tables *tables)
{
    static char one[AUTTERVIL_MOST_TEXT], other[AUTTERVIL_MOST_TEXT];
    const auttervil_written written = auttervil_write(tables, one, sizeof one);
    const auttervil_reading reading = AUTTERVIL_READ_WITH(&scratch, one, written.length, again);
    return written.answer == AUTTERVIL_DONE && reading.answer == AUTTERVIL_DONE && reading.tables.cells == tables->cells
        && auttervil_write(&reading.tables, other, sizeof other).length == written.length && memcmp(one, other, written.length) == 0;
}

static int is_as_said(const char *text, size_t length, auttervil_reading reading, char *found)
{
    char said[64];
    auttervil_compiled compiled;
    size_t before, place;
    if (reading.answer == AUTTERVIL_BAD_TEXT) {
        before = unmark(found);
        place = place_of(text, length, found);
        return before != SIZE_MAX && place != SIZE_MAX && reading.offset == place + before;
    }
    if (reading.answer != AUTTERVIL_DONE)
        return found[0] == 0;
    (void)snprintf(said, sizeof said, "%u rows, %u transitions", (unsigned)reading.tables.numbers[0], (unsigned)reading.tables.numbers[1]);
    compiled = AUTTERVIL_COMPILE(&reading.tables, any);
    return strcmp(said, found) == 0 && compiled.answer == AUTTERVIL_DONE && is_written(&reading.tables)
        && auttervil_start(&session, &compiled.chart, trace, auttervil_room(&compiled.chart)).answer == AUTTERVIL_DONE;
}

/* Rules that a document keeps are told of none of its places: all where it is accepted, else those in front of its answer. */
static int are_kept(const char *text, size_t length, uint32_t answer)
{
    uint32_t rule;
    for (rule = AUTTERVIL_SIZE; answer != AUTTERVIL_BAD_TEXT && rule <= AUTTERVIL_TRANSITIONS && rule != answer; rule++)
        if (auttervil_seek(text, length, rule).words != NULL)
            return 0;
    return 1;
}

static void try_line(char *line)
{
    static char text[MOST];
    char path[256];
    const char *file = column(&line);
    const char *answer = column(&line);
    char *found = column(&line);
    auttervil_reading reading, other;
    size_t length, first;
    int right;
    if (file == NULL || answer == NULL || found == NULL) {
        CHECK(found != NULL);
        return;
    }
    (void)snprintf(path, sizeof path, "second/texts/%s.scxml", file);
    length = load(path, text);
    other = AUTTERVIL_READ_WITH(&scratch, text, length, any);
    reading = AUTTERVIL_READ(text, length, any);
    right = length > 0 && reading.answer == other.answer && reading.offset == other.offset && reading.answer == (uint32_t)atoi(answer);
    right = right && is_as_said(text, length, reading, found) && are_kept(text, length, reading.answer);
    /* A declaration is passed, and then the text goes on at least to its root. */
    first = auttervil_prolog_length(text, length);
    right = right && (first > 0) == (length > 5 && memcmp(text, "<?xml", 5) == 0);
    reading = AUTTERVIL_READ(text + first, length - first, any);
    right = right && (first == 0 || reading.answer != AUTTERVIL_BAD_TEXT || reading.offset > 0);
    if (!right)
        printf("%s: answer %u at %lu\n", file, (unsigned)reading.answer, (unsigned long)(first + reading.offset));
    CHECK(right);
}

int main(void)
{
    static char table[MOST + 1];
    const size_t length = load("second/texts/README.md", table);
    char *line;
    unsigned lines = 0;
    table[length] = 0;
    for (line = strtok(table, "\n"); line != NULL; line = strtok(NULL, "\n")) {
        if (strncmp(line, "| ", 2) != 0 || strncmp(line, "| File", 6) == 0)
            continue;
        lines++;
        try_line(line + 1);
    }
    CHECK(lines > 50);
    return report();
}
