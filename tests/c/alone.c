/* The header without a C library: compiled for a freestanding program, to see what it asks for. */
#include "auttervil.h"

static uint64_t numbers[AUTTERVIL_NUMBERS_CELLS(3, 1, 1, 1, 1)];
static uint8_t names[AUTTERVIL_NAMES_BYTES(3)];
static uint64_t place[AUTTERVIL_COMPILED_CELLS(3, 1, 1, 1, 1)];
static uint8_t name_place[AUTTERVIL_NAMES_BYTES(3)];
static auttervil_session session;
static uint32_t trace[32];
static auttervil_call calls[1];
static const char text[] = "<scxml><state id='off'/></scxml>";
static char message[AUTTERVIL_MESSAGE_BYTES];
static auttervil_scratch scratch;

uint64_t play(void);

uint64_t play(void)
{
    static const auttervil_counts most = {3, 1, 1, 1, 1, 3};
    auttervil_builder b;
    auttervil_tables tables;
    auttervil_compiled compiled;
    const size_t first = auttervil_prolog_length(text, sizeof text - 1);
    auttervil_reading reading = auttervil_read(text + first, sizeof text - 1 - first, numbers, sizeof numbers / sizeof numbers[0], names, sizeof names);
    if (reading.answer == AUTTERVIL_BAD_TEXT)
        return auttervil_show_refusal(message, sizeof message, text, sizeof text - 1, reading.answer, first + reading.offset);
    reading = auttervil_read_with(&scratch, text, sizeof text - 1, numbers, sizeof numbers / sizeof numbers[0], names, sizeof names);
    auttervil_begin(&b, most, numbers, sizeof numbers / sizeof numbers[0], names, sizeof names);
    auttervil_add_row(&b, AUTTERVIL_KIND_STATE, NULL, "off");
    auttervil_add_row(&b, AUTTERVIL_KIND_STATE, NULL, "on");
    auttervil_add_entry(&b, "on");
    auttervil_add_host(&b, 1);
    auttervil_add_transition(&b, "off", "push", "on");
    if (auttervil_finish(&b, &tables) != AUTTERVIL_FAULT_NONE)
        return auttervil_show_builder(message, sizeof message, &b) + reading.answer;
    if (auttervil_write(&tables, message, sizeof message).answer != AUTTERVIL_DONE)
        return auttervil_write(&tables, NULL, 0).length;
    compiled = auttervil_compile(&tables, place, sizeof place / sizeof place[0], name_place, sizeof name_place);
    if (!auttervil_is_compatible() || auttervil_check(&compiled.chart) != AUTTERVIL_DONE || auttervil_room(&compiled.chart) > 32)
        return auttervil_fingerprint(&compiled.chart);
    (void)auttervil_start(&session, &compiled.chart, trace, 32);
    (void)auttervil_step_text(&session, &compiled.chart, "push", 10, trace, 32);
    (void)auttervil_post_text(&session, &compiled.chart, "push");
    (void)auttervil_run(&session, &compiled.chart, 10, trace, 32);
    calls[0] = auttervil_call_start(32);
    (void)auttervil_perform(&session, &compiled.chart, calls, 1, NULL, 0, trace, 32);
    if (auttervil_next_due(&session) != AUTTERVIL_NEVER)
        (void)auttervil_advance(&session, &compiled.chart, auttervil_next_due(&session));
    return auttervil_find_row(&compiled.chart, "on") + (uint64_t)auttervil_is_active(&session, 2);
}
