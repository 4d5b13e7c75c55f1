/* Texts for the tests, and memory of which every change is seen. */
#ifndef TEXTS_H
#define TEXTS_H

#include <stdlib.h>

#include "test.h"

#define TEXT(literal) literal, sizeof(literal) - 1

enum { PAINT = 0x5a };

static const char small[] = "<scxml><state id='a'/></scxml>";

static inline int is_painted(const void *place, size_t bytes)
{
    const uint8_t *at = (const uint8_t *)place;
    size_t i;
    for (i = 0; i < bytes; i++)
        if (at[i] != PAINT)
            return 0;
    return 1;
}

/* So many bytes in memory of their own, so that valgrind and the sanitizers see a byte that is read behind them. */
static inline char *copy_of(const char *text, size_t length)
{
    char *copy = (char *)malloc(length > 0 ? length : 1);
    if (copy == NULL)
        exit(1);
    memcpy(copy, text, length);
    return copy;
}

/* So many states under the root with so many transitions between them; the first 15 have a full exit block. */
static inline size_t full_text(char *text, unsigned states, unsigned transitions)
{
    size_t length = (size_t)sprintf(text, "<scxml>");
    unsigned i, k;
    for (i = 0; i < states; i++) {
        length += (size_t)sprintf(text + length, "<state id='s%u'>", i);
        for (k = i; k < transitions; k += states)
            length += (size_t)sprintf(text + length, "<transition event='e' target='s%u'/>", k % 9);
        length += (size_t)sprintf(text + length, i < 15 ? "<onexit>" : "");
        for (k = 0; i < 15 && k < AUTTERVIL_ACTIONS_EACH; k++)
            length += (size_t)sprintf(text + length, "<log label='%u'/>", k % 10);
        length += (size_t)sprintf(text + length, i < 15 ? "</onexit></state>" : "</state>");
    }
    return length + (size_t)sprintf(text + length, "</scxml>");
}

#endif
