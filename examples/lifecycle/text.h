/* The life cycle's chart read from its text, as a runtime reads the chart of a bundle.
 *
 * Changed copies of the text show what such a runtime is spared: an id that is too long, and a typo.
 */
#ifndef LIFECYCLE_TEXT_H
#define LIFECYCLE_TEXT_H

#include <stdio.h>
#include <string.h>

#include "chart.h"

/* A file's bytes; more than a text may have are read, so that a longer one is refused by the reader. */
typedef struct document {
    char bytes[2 * AUTTERVIL_MOST_TEXT];
    size_t length;
} document;

static int load(document *d, const char *path)
{
    FILE *file = fopen(path, "rb");
    if (file == NULL)
        return 0;
    d->length = fread(d->bytes, 1, sizeof d->bytes, file);
    return fclose(file) == 0;
}

/* From a text to a compiled chart. The answer is the reader's, which has asked the rules. */
static auttervil_compiled read_chart(const document *d, auttervil_reading *reading)
{
    const size_t first = auttervil_prolog_length(d->bytes, d->length);
    *reading = AUTTERVIL_READ(d->bytes + first, d->length - first, lifecycle);
    reading->offset += first;
    return AUTTERVIL_COMPILE(&reading->tables, lifecycle);
}

/* Why a text was refused, and where. */
static void print_refusal(FILE *to, const document *d, const auttervil_reading *reading)
{
    char message[AUTTERVIL_MESSAGE_BYTES];
    (void)auttervil_show_refusal(message, sizeof message, d->bytes, d->length, reading->answer, reading->offset);
    fprintf(to, "answer %u, %s\n", (unsigned)reading->answer, message);
}

/* The text with one word for another wherever it stands. What does not fit is left out. */
static void replace(document *to, const document *from, const char *word, const char *other)
{
    const size_t length = strlen(word);
    const size_t other_length = strlen(other);
    size_t i = 0;
    to->length = 0;
    while (i < from->length && to->length + other_length < sizeof to->bytes) {
        if (from->length - i >= length && memcmp(from->bytes + i, word, length) == 0) {
            memcpy(to->bytes + to->length, other, other_length);
            to->length += other_length;
            i += length;
        } else {
            to->bytes[to->length++] = from->bytes[i++];
        }
    }
}

/* The same chart, but the state of mounted volumes has the id that is given: in its row, as a target and in a condition. */
static void rename_mounted(document *to, const document *from, const char *id)
{
    static document half;
    char quoted[80];
    (void)snprintf(quoted, sizeof quoted, "\"%s\"", id);
    replace(&half, from, "\"mounted\"", quoted);
    (void)snprintf(quoted, sizeof quoted, "'%s'", id);
    replace(to, &half, "'mounted'", quoted);
}

#endif
