// The header as C++: a chart through the builder, a start, an event and a run.
#include "test.h"

static lent a;

AUTTERVIL_PLACES(lamp, 3, 2, 2, 2, 1, 4);

static void lamp_is_lit()
{
    auttervil_builder b;
    auttervil_tables tables;
    AUTTERVIL_BEGIN(&b, lamp);
    auttervil_add_row(&b, AUTTERVIL_KIND_STATE, nullptr, "off");
    auttervil_add_row(&b, AUTTERVIL_KIND_STATE, nullptr, "on");
    auttervil_add_transition(&b, "off", "push", "on");
    auttervil_add_host(&b, 1);
    auttervil_add_transition(&b, "on", "push", "off");
    CHECK(auttervil_finish(&b, &tables) == AUTTERVIL_FAULT_NONE);
    auttervil_compiled compiled = AUTTERVIL_COMPILE(&tables, lamp);
    CHECK(compiled.answer == AUTTERVIL_DONE);
    CHECK(auttervil_is_compatible() && auttervil_room(&compiled.chart) == 3 * 4 + 2 * 2 + 1);
    CHECK(auttervil_start(&a.session, &compiled.chart, a.trace, COUNT(a.trace)).count == 1);
    auttervil_stepped stepped = auttervil_step_text(&a.session, &compiled.chart, "push", 9, a.trace, COUNT(a.trace));
    CHECK(stepped.answer == AUTTERVIL_DONE && stepped.status == AUTTERVIL_IDLE && stepped.count == 5 && a.trace[3] == entry(AUTTERVIL_TRACE_HOST, 1));
    CHECK(auttervil_step(&a.session, nullptr, "push", 4, 9, a.trace, COUNT(a.trace)).status == AUTTERVIL_CHART_NULL);
}

AUTTERVIL_PLACES_FOR_TEXT(read);
static auttervil_scratch scratch;

static void text_is_read()
{
    static const char text[] = "<scxml><state id='off'><transition event='push' target='on'/></state><state id='on'/></scxml>";
    char message[AUTTERVIL_MESSAGE_BYTES];
    auttervil_reading reading = AUTTERVIL_READ(text, sizeof text - 1, read);
    auttervil_compiled compiled = AUTTERVIL_COMPILE(&reading.tables, read);
    CHECK(reading.answer == AUTTERVIL_DONE && compiled.answer == AUTTERVIL_DONE && auttervil_find_row(&compiled.chart, "on") == 2);
    auttervil_tables tables = auttervil_tables_of(&compiled.chart);
    char again[sizeof message];
    CHECK(auttervil_write(&tables, again, sizeof again).length == auttervil_write(&reading.tables, message, sizeof message).length);
    CHECK(memcmp(again, message, auttervil_write(&tables, nullptr, 0).length) == 0);
    reading = AUTTERVIL_READ_WITH(&scratch, text, 30, read);
    CHECK(reading.answer == AUTTERVIL_BAD_TEXT && reading.offset == 30 && auttervil_prolog_length(text, sizeof text - 1) == 0);
    CHECK(auttervil_position_of(text, 30, reading.offset).column == 31 && auttervil_show_offset(message, sizeof message, text, 30, 30) == strlen(message));
    CHECK(auttervil_show_refusal(message, sizeof message, text, 30, reading.answer, 30) == strlen(message) && strstr(message, "does not end") != nullptr);
}

int main()
{
    lamp_is_lit();
    text_is_read();
    make_chart_a(&a);
    auttervil_started started = auttervil_start(&a.session, &a.chart, a.trace, COUNT(a.trace));
    CHECK(started.answer == AUTTERVIL_DONE && started.count == 5);
    CHECK(auttervil_post_text(&a.session, &a.chart, "e4") == AUTTERVIL_DONE);
    auttervil_ran ran = auttervil_run(&a.session, &a.chart, 10, a.trace, COUNT(a.trace));
    CHECK(ran.status == AUTTERVIL_IDLE && ran.rounds == 1 && ran.count == 4);
    CHECK(auttervil_is_active(&a.session, auttervil_find_row(&a.chart, "S12")));
    return report();
}
