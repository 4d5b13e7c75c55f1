/* The builder: what it fills in, and what it reports. */
#include "test.h"

/* As much of everything as a chart may have. */
enum {
    ROWS = AUTTERVIL_MOST_ROWS,
    TRANSITIONS = AUTTERVIL_MOST_TRANSITIONS,
    REFERENCES = AUTTERVIL_MOST_REFERENCES,
    DESCRIPTORS = AUTTERVIL_MOST_DESCRIPTORS,
    ACTIONS = AUTTERVIL_MOST_ACTIONS,
    NAMES = AUTTERVIL_MOST_NAMES
};

static uint64_t numbers[AUTTERVIL_NUMBERS_CELLS(ROWS, TRANSITIONS, REFERENCES, DESCRIPTORS, ACTIONS)];
static uint8_t names[AUTTERVIL_NAMES_BYTES(NAMES)];
static uint64_t place[AUTTERVIL_COMPILED_CELLS(ROWS, TRANSITIONS, REFERENCES, DESCRIPTORS, ACTIONS)];
static uint8_t name_place[AUTTERVIL_NAMES_BYTES(NAMES)];
static auttervil_builder b;
static auttervil_tables tables;

static void begin_with(auttervil_counts most)
{
    memset(numbers, 0xff, sizeof numbers);
    memset(names, 0xff, sizeof names);
    auttervil_begin(&b, most, numbers, COUNT(numbers), names, COUNT(names));
}

static auttervil_counts counts(size_t rows, size_t transitions, size_t references, size_t descriptors, size_t actions, size_t slots)
{
    auttervil_counts most;
    most.rows = rows;
    most.transitions = transitions;
    most.references = references;
    most.descriptors = descriptors;
    most.actions = actions;
    most.names = slots;
    return most;
}

static int ends_with(uint32_t fault, const char *culprit)
{
    uint32_t got = auttervil_finish(&b, &tables);
    int same = culprit == NULL ? b.culprit == NULL : b.culprit != NULL && strcmp(b.culprit, culprit) == 0;
    if (fault != AUTTERVIL_FAULT_NONE)
        CHECK(tables.numbers == NULL && tables.cells == 0 && auttervil_sizes(&tables).answer == AUTTERVIL_SIZE);
    return got == fault && b.fault == fault && same && strcmp(auttervil_strfault(fault), "no fault of the builder") != 0;
}

/* A chart of two states that uses 3 rows, 1 transition, 2 references, 2 descriptors, 2 actions and 5 names. */
static void small_chart(auttervil_counts most)
{
    begin_with(most);
    auttervil_add_row(&b, AUTTERVIL_KIND_STATE, NULL, "one");
    auttervil_add_row(&b, AUTTERVIL_KIND_STATE, NULL, "two");
    auttervil_add_list(&b, NULL, "one");
    auttervil_add_entry(&b, "one");
    auttervil_add_host(&b, 65535);
    auttervil_add_transition(&b, "one", " go  away.* ", "two ");
    auttervil_add_raise(&b, "gone");
}

static uint32_t compile(void)
{
    return auttervil_compile(&tables, place, COUNT(place), name_place, COUNT(name_place)).answer;
}

static void fits_exactly(void)
{
    small_chart(counts(3, 1, 2, 2, 2, 5));
    CHECK(ends_with(AUTTERVIL_FAULT_NONE, NULL));
    CHECK(tables.cells == AUTTERVIL_NUMBERS_CELLS(3, 1, 2, 2, 2) && tables.bytes == AUTTERVIL_NAMES_BYTES(5));
    CHECK(compile() == AUTTERVIL_DONE);
    memcpy(name_place, names, sizeof names);
    memcpy(place, numbers, 8 * tables.cells);
    /* With more room than is used the tables are the same, and the cells behind them are not looked at. */
    small_chart(counts(ROWS, TRANSITIONS, REFERENCES, DESCRIPTORS, ACTIONS, NAMES));
    CHECK(ends_with(AUTTERVIL_FAULT_NONE, NULL));
    CHECK(memcmp(place, numbers, 8 * tables.cells) == 0 && memcmp(name_place, names, tables.bytes) == 0);
    CHECK(compile() == AUTTERVIL_DONE);
    CHECK(auttervil_finish(&b, &tables) == AUTTERVIL_FAULT_FINISHED && tables.cells == 0);
}

static void does_not_fit(void)
{
    small_chart(counts(2, 1, 2, 2, 2, 5));
    CHECK(ends_with(AUTTERVIL_FAULT_ROWS, "two"));
    small_chart(counts(3, 0, 2, 2, 2, 5));
    CHECK(ends_with(AUTTERVIL_FAULT_TRANSITIONS, "one"));
    small_chart(counts(3, 1, 1, 2, 2, 5));
    CHECK(ends_with(AUTTERVIL_FAULT_REFERENCES, "two "));
    small_chart(counts(3, 1, 2, 1, 2, 5));
    CHECK(ends_with(AUTTERVIL_FAULT_DESCRIPTORS, "away.* "));
    small_chart(counts(3, 1, 2, 2, 1, 5));
    CHECK(ends_with(AUTTERVIL_FAULT_ACTIONS, "gone"));
    small_chart(counts(3, 1, 2, 2, 0, 5));
    CHECK(ends_with(AUTTERVIL_FAULT_ACTIONS, NULL));
    small_chart(counts(3, 1, 2, 2, 2, 4));
    CHECK(ends_with(AUTTERVIL_FAULT_NAMES, "gone"));
}

static int is_needed(auttervil_counts wanted)
{
    return memcmp(&b.needed, &wanted, sizeof wanted) == 0;
}

/* Whatever did not fit, the builder says how much would have. */
static void says_what_is_needed(void)
{
    const auttervil_counts enough = counts(3, 1, 2, 2, 2, 5);
    const size_t *need = &enough.rows;
    auttervil_counts most;
    size_t *given = &most.rows;
    size_t i, less;
    small_chart(enough);
    CHECK(ends_with(AUTTERVIL_FAULT_NONE, NULL) && is_needed(enough));
    for (i = 0; i < 5; i++)
        for (less = i == 0 ? 1 : 0; less < need[i]; less++) {
            most = enough;
            given[i] = less;
            small_chart(most);
            CHECK(auttervil_finish(&b, &tables) == i + 1 && is_needed(enough));
        }
    small_chart(counts(1, 0, 0, 0, 0, 5));
    CHECK(ends_with(AUTTERVIL_FAULT_ROWS, "one") && is_needed(enough));
    /* A text that found no room is counted each time that it is given, so that as many are enough. */
    small_chart(counts(3, 1, 2, 2, 2, 0));
    CHECK(ends_with(AUTTERVIL_FAULT_NAMES, "one") && is_needed(enough));
    auttervil_add_raise(&b, "gone");
    CHECK(is_needed(counts(3, 1, 2, 2, 3, 6)));
    begin_with(enough);
    CHECK(is_needed(counts(1, 0, 0, 0, 0, 0)));
}

/* Calls at will, the same for the same state of the generator: few ids, so that many are there, and few that make another fault. */
static void random_calls(void)
{
    static const char *const ids[] = {"a", "b", "c", "d", "e", "f", "g", "h"};
    static const char *const events[] = {"x", "x y", " y.* z x", "p q r s", "", "a b"};
    static const char *const targets[] = {"a", "a b", " b a ", "", "a a a a"};
    size_t rows = 2 + next_random() % 6;
    size_t calls = next_random() % 30;
    size_t i;
    for (i = 0; i < rows; i++)
        auttervil_add_row(&b, next_random() % 6, next_random() % 4 == 0 && i > 0 ? "a" : NULL, ids[i]);
    for (i = 0; i < calls; i++) {
        uint64_t random = next_random();
        const char *id = ids[next_random() % (random % 64 == 0 ? COUNT(ids) : 2)];
        switch (random % 12) {
        case 0: auttervil_add_entry(&b, id); break;
        case 1: auttervil_add_list(&b, id, targets[next_random() % COUNT(targets)]); break;
        case 2: auttervil_add_host(&b, next_random() % 64 == 0 ? 65536 : 1); break;
        case 3: auttervil_add_raise(&b, events[0]); break;
        case 4: auttervil_add_if(&b, id); break;
        case 5:
            if (auttervil_open_ifs(&b) > 0 || random % 8 == 0)
                auttervil_add_elseif(&b, id);
            break;
        case 6:
            if (auttervil_open_ifs(&b) > 0 || random % 8 == 0)
                auttervil_end_if(&b);
            break;
        case 7:
            if (auttervil_open_ifs(&b) > 0 || random % 8 == 0)
                auttervil_add_else(&b);
            break;
        default: auttervil_add_transition(&b, id, events[next_random() % COUNT(events)], targets[next_random() % COUNT(targets)]);
        }
    }
}

/* With tables at will, then with what the builder said is needed: nothing is too small any more, and what fitted at once needs no more than it had. */
static void one_try_is_enough(size_t tries)
{
    size_t too_small = 0;
    size_t fitted = 0;
    int enough = 1;
    for (; tries > 0; tries--) {
        auttervil_counts most = counts(1 + next_random() % 9, next_random() % 20, next_random() % 40, next_random() % 40, next_random() % 20, next_random() % 20);
        uint64_t state = random_state;
        auttervil_counts needed;
        uint32_t fault;
        begin_with(most);
        random_calls();
        fault = auttervil_finish(&b, &tables);
        needed = b.needed;
        if (fault == AUTTERVIL_FAULT_NONE) {
            fitted++;
            enough = enough && memcmp(&b.have, &needed, sizeof needed) == 0;
        }
        if (fault == AUTTERVIL_FAULT_NONE || fault > AUTTERVIL_FAULT_NAMES)
            continue;
        too_small++;
        random_state = state;
        begin_with(needed);
        random_calls();
        fault = auttervil_finish(&b, &tables);
        enough = enough && (fault == AUTTERVIL_FAULT_NONE || fault > AUTTERVIL_FAULT_NAMES);
    }
    CHECK(enough && too_small > 100 && fitted > 10);
}

/* The limits of a transition, a block and an action: which, and of what. */
static void more_than_each_may_have(void)
{
    const auttervil_counts most = counts(8, 8, 32, 32, 64, 32);
    int i;
    small_chart(most);
    auttervil_add_transition(&b, "two", "a b c d", "one");
    CHECK(ends_with(AUTTERVIL_FAULT_NONE, NULL) && compile() == AUTTERVIL_DONE);
    small_chart(most);
    auttervil_add_transition(&b, "two", "a b c d e f", "one");
    auttervil_add_transition(&b, "one", "z", "two");
    CHECK(ends_with(AUTTERVIL_FAULT_MANY_DESCRIPTORS, "e f") && strcmp(b.owner, "two") == 0 && b.number == 1);
    small_chart(most);
    auttervil_add_transition(&b, "two", "a", "one one one one one one one one");
    CHECK(ends_with(AUTTERVIL_FAULT_NONE, NULL) && compile() == AUTTERVIL_LISTS);
    small_chart(most);
    auttervil_add_transition(&b, "two", "a", "one one one one one one one one two");
    CHECK(ends_with(AUTTERVIL_FAULT_MANY_TARGETS, "two") && strcmp(b.owner, "two") == 0 && b.number == 1);
    small_chart(most);
    for (i = 0; i < 31; i++)
        auttervil_add_host(&b, 65535);
    CHECK(ends_with(AUTTERVIL_FAULT_NONE, NULL) && compile() == AUTTERVIL_DONE);
    small_chart(most);
    for (i = 0; i < 32; i++)
        auttervil_add_raise(&b, "next");
    CHECK(ends_with(AUTTERVIL_FAULT_MANY_ACTIONS, "next") && strcmp(b.owner, "one") == 0 && b.number == 0);
    small_chart(most);
    auttervil_add_exit(&b, "two");
    for (i = 0; i < 33; i++)
        auttervil_add_host(&b, 1);
    CHECK(ends_with(AUTTERVIL_FAULT_MANY_ACTIONS, NULL) && strcmp(b.owner, "two") == 0 && b.number == AUTTERVIL_NONE);
    small_chart(most);
    auttervil_add_host(&b, 65536);
    CHECK(ends_with(AUTTERVIL_FAULT_HOST, NULL) && strcmp(b.owner, "one") == 0);
    small_chart(most);
    auttervil_add_host(&b, UINT64_MAX);
    CHECK(ends_with(AUTTERVIL_FAULT_HOST, NULL));
    small_chart(most);
    auttervil_add_row(&b, 6, NULL, "odd");
    CHECK(ends_with(AUTTERVIL_FAULT_KIND, "odd"));
}

static void mistakes(void)
{
    static const char too_long[] = "a123456789b123456789c123456789d123456789e123456789f1234567891234";
    const auttervil_counts most = counts(8, 8, 8, 8, 8, 8);
    begin_with(most);
    auttervil_add_row(&b, AUTTERVIL_KIND_STATE, NULL, too_long);
    CHECK(ends_with(AUTTERVIL_FAULT_TEXT, too_long));
    begin_with(most);
    auttervil_add_row(&b, AUTTERVIL_KIND_STATE, NULL, NULL);
    CHECK(ends_with(AUTTERVIL_FAULT_TEXT, NULL));
    begin_with(most);
    auttervil_add_row(&b, AUTTERVIL_KIND_STATE, NULL, "");
    CHECK(ends_with(AUTTERVIL_FAULT_TEXT, ""));
    begin_with(most);
    auttervil_add_row(&b, AUTTERVIL_KIND_STATE, "above", "x");
    CHECK(ends_with(AUTTERVIL_FAULT_NO_ROW, "above"));
    small_chart(most);
    auttervil_add_transition(&b, "two", "back", "one three");
    auttervil_add_row(&b, AUTTERVIL_KIND_STATE, "nowhere", "x");
    CHECK(ends_with(AUTTERVIL_FAULT_NO_ROW, "three"));
    small_chart(most);
    auttervil_add_transition(&b, "gone", "back", "one");
    CHECK(ends_with(AUTTERVIL_FAULT_NO_ROW, "gone"));
    begin_with(most);
    auttervil_add_host(&b, 1);
    CHECK(ends_with(AUTTERVIL_FAULT_NOT_OPEN, NULL));
    begin_with(most);
    auttervil_add_row(&b, AUTTERVIL_KIND_STATE, NULL, "x");
    auttervil_set_condition(&b, "x");
    CHECK(ends_with(AUTTERVIL_FAULT_NOT_OPEN, "x"));
    begin_with(most);
    auttervil_set_internal(&b);
    CHECK(ends_with(AUTTERVIL_FAULT_NOT_OPEN, NULL));
    small_chart(most);
    auttervil_add_entry(&b, "one");
    CHECK(ends_with(AUTTERVIL_FAULT_TWICE, "one"));
    small_chart(most);
    auttervil_add_list(&b, "", "two");
    CHECK(ends_with(AUTTERVIL_FAULT_TWICE, ""));
    /* An empty list's block has an action, which a second list would leave in no block. */
    small_chart(most);
    auttervil_add_list(&b, "two", "");
    auttervil_add_host(&b, 1);
    auttervil_add_list(&b, "two", "one");
    CHECK(ends_with(AUTTERVIL_FAULT_TWICE, "two"));
    small_chart(most);
    CHECK(ends_with(AUTTERVIL_FAULT_NONE, NULL));
    auttervil_add_host(&b, 1);
    CHECK(b.fault == AUTTERVIL_FAULT_FINISHED);
}

/* Rule 2: 63 bytes fit a slot, but an id has at most 52; it is told at the call, as are ids that stand twice and what is no name. */
static void bad_names(void)
{
    static const char longest[] = "a123456789b123456789c123456789d123456789e123456789f123456789123";
    static const char *const no_names[] = {"a b", "a..b", ".a", "a.", "*", "a.*", "a$", "\xC3\xA9"};
    static const char *const no_descriptors[] = {"a*", "**", ".*", "a..*", "*.a", "a.*.b", "a,b"};
    const auttervil_counts most = counts(8, 8, 8, 8, 8, 8);
    size_t i;
    begin_with(most);
    auttervil_add_row(&b, AUTTERVIL_KIND_STATE, NULL, longest + 20);
    CHECK(ends_with(AUTTERVIL_FAULT_NONE, NULL) && compile() == AUTTERVIL_DONE);
    begin_with(most);
    auttervil_add_row(&b, AUTTERVIL_KIND_STATE, NULL, longest + 10);
    CHECK(ends_with(AUTTERVIL_FAULT_LONG_ID, longest + 10) && b.owner == b.culprit);
    begin_with(most);
    auttervil_add_row(&b, AUTTERVIL_KIND_STATE, NULL, longest);
    CHECK(ends_with(AUTTERVIL_FAULT_LONG_ID, longest));
    small_chart(most);
    auttervil_add_row(&b, AUTTERVIL_KIND_STATE, "one", "two");
    auttervil_add_row(&b, AUTTERVIL_KIND_STATE, "one", "two");
    CHECK(ends_with(AUTTERVIL_FAULT_SAME_ID, "two"));
    /* A raised name or a descriptor may be an id too. */
    small_chart(most);
    auttervil_add_row(&b, AUTTERVIL_KIND_STATE, NULL, "gone");
    auttervil_add_row(&b, AUTTERVIL_KIND_STATE, NULL, "_go");
    CHECK(ends_with(AUTTERVIL_FAULT_NONE, NULL) && compile() == AUTTERVIL_DONE);
    begin_with(most);
    auttervil_add_row(&b, AUTTERVIL_KIND_STATE, NULL, "9b");
    CHECK(ends_with(AUTTERVIL_FAULT_NOT_A_NAME, "9b"));
    for (i = 0; i < COUNT(no_names); i++) {
        begin_with(most);
        auttervil_add_row(&b, AUTTERVIL_KIND_STATE, NULL, no_names[i]);
        CHECK(ends_with(AUTTERVIL_FAULT_NOT_A_NAME, no_names[i]));
        small_chart(most);
        auttervil_add_raise(&b, no_names[i]);
        CHECK(ends_with(AUTTERVIL_FAULT_NOT_A_NAME, no_names[i]) && strcmp(b.owner, "one") == 0 && b.number == 0);
    }
    for (i = 0; i < COUNT(no_descriptors); i++) {
        small_chart(most);
        auttervil_add_transition(&b, "two", no_descriptors[i], "one");
        CHECK(ends_with(AUTTERVIL_FAULT_NOT_A_NAME, no_descriptors[i]) && strcmp(b.owner, "two") == 0 && b.number == 1);
    }
    small_chart(most);
    auttervil_add_transition(&b, "two", "* a.* 9.-_", "one");
    auttervil_add_raise(&b, "9.-_");
    CHECK(ends_with(AUTTERVIL_FAULT_NONE, NULL) && compile() == AUTTERVIL_DONE);
}

/* Rule 5: no In names the root or a history, in a condition, an if or an elseif. A condition's fault is of its transition, whichever block is open; what follows is of that block. */
static void conditions(void)
{
    const auttervil_counts most = counts(8, 8, 8, 8, 8, 16);
    static const char *const never[] = {NULL, "", "h", "d"};
    size_t i;
    for (i = 0; i < COUNT(never); i++) {
        int how;
        for (how = 0; how < 3; how++) {
            small_chart(most);
            auttervil_add_row(&b, AUTTERVIL_KIND_SHALLOW, "two", "h");
            auttervil_add_row(&b, AUTTERVIL_KIND_DEEP, "two", "d");
            auttervil_add_transition(&b, "two", "e", "one");
            if (how > 0)
                auttervil_add_if(&b, how == 1 ? never[i] : "one");
            if (how == 2)
                auttervil_add_elseif(&b, never[i]);
            else if (how == 0)
                auttervil_set_condition(&b, never[i]);
            CHECK(ends_with(AUTTERVIL_FAULT_IN, never[i]) && strcmp(b.owner, "two") == 0 && b.number == 1);
        }
    }
    small_chart(most);
    auttervil_add_transition(&b, "two", "e", "one");
    auttervil_add_exit(&b, "one");
    auttervil_set_condition(&b, "nowhere");
    CHECK(ends_with(AUTTERVIL_FAULT_NO_ROW, "nowhere") && strcmp(b.owner, "two") == 0 && b.number == 1);
    small_chart(most);
    auttervil_add_transition(&b, "two", "e", "one");
    auttervil_add_exit(&b, "one");
    auttervil_set_condition(&b, "one");
    auttervil_add_host(&b, 65536);
    CHECK(ends_with(AUTTERVIL_FAULT_HOST, NULL) && strcmp(b.owner, "one") == 0 && b.number == AUTTERVIL_NONE);
}

/* Whether the message of the fault is this one, in every buffer. */
static int says(const char *wanted)
{
    char buffer[AUTTERVIL_MESSAGE_BYTES];
    const size_t whole = strlen(wanted);
    size_t size;
    int right = 1;
    (void)auttervil_finish(&b, &tables);
    for (size = 0; size <= sizeof buffer; size++) {
        const size_t fits = size > whole ? whole : size - (size > 0);
        memset(buffer, 0x5a, sizeof buffer);
        right = right && auttervil_show_builder(buffer, size, &b) == whole && memcmp(buffer, wanted, fits) == 0 && (size == 0 || buffer[fits] == 0);
        right = right && (fits + 1 >= sizeof buffer || buffer[fits + (size > 0)] == 0x5a);
    }
    if (!right) {
        (void)auttervil_show_builder(buffer, sizeof buffer, &b);
        printf("[%s]\nand not\n[%s]\n", buffer, wanted);
    }
    return right;
}

static void messages(void)
{
    static const char sixty[] = "mounted-volume-of-the-orders-database-with-its-write-ahead-lo";
    const auttervil_counts most = counts(8, 8, 32, 32, 64, 32);
    small_chart(most);
    CHECK(says("everything fitted"));
    small_chart(most);
    auttervil_add_row(&b, AUTTERVIL_KIND_STATE, NULL, sixty);
    CHECK(says("an id has more than 52 bytes, too many for the name of its done event: mounted-volume-of-the-orders-database-with-its-write-ahead-lo"));
    small_chart(most);
    auttervil_add_row(&b, AUTTERVIL_KIND_STATE, NULL, "two");
    CHECK(says("another row has this id: two"));
    small_chart(most);
    auttervil_add_transition(&b, "two", "a b c d e f", "one");
    CHECK(says("a transition has more than 4 descriptors: e, in transition 1 of two"));
    small_chart(most);
    auttervil_add_transition(&b, "two", "a", "one onn one");
    CHECK(says("no row has this id: onn, in transition 1 of two"));
    small_chart(most);
    auttervil_add_list(&b, NULL, "onn");
    CHECK(says("a list or block was given twice"));
    small_chart(most);
    auttervil_add_exit(&b, "two");
    auttervil_add_if(&b, NULL);
    CHECK(says("In names the root or a history, which are never active, of two"));
    small_chart(most);
    auttervil_set_condition(&b, "one ");
    CHECK(says("no row has this id: one, in transition 0 of one"));
    small_chart(counts(3, 1, 2, 2, 2, 4));
    CHECK(says("a name did not fit the table of names: gone, in transition 0 of one; needed are 3 rows, 1 transitions, 2 references, 2 descriptors, 2 actions, 5 names"));
    begin_with(counts(0, 0, 0, 0, 0, 0));
    CHECK(says("room is asked for more of something than a chart may have, or for no row"));
    CHECK(auttervil_show_builder(NULL, 0, NULL) == 0 && auttervil_show_builder((char *)&b, sizeof b, &b) > 0 && b.fault == AUTTERVIL_FAULT_LIMITS);
}

/* The white space of XML separates events and targets. */
static void white_space(void)
{
    const auttervil_counts most = counts(8, 8, 8, 8, 8, 8);
    small_chart(most);
    CHECK(ends_with(AUTTERVIL_FAULT_NONE, NULL));
    memcpy(place, numbers, 8 * tables.cells);
    begin_with(most);
    auttervil_add_row(&b, AUTTERVIL_KIND_STATE, NULL, "one");
    auttervil_add_row(&b, AUTTERVIL_KIND_STATE, NULL, "two");
    auttervil_add_list(&b, NULL, "\r\none\t");
    auttervil_add_entry(&b, "one");
    auttervil_add_host(&b, 65535);
    auttervil_add_transition(&b, "one", "go\taway.*\n", "\ttwo");
    auttervil_add_raise(&b, "gone");
    CHECK(ends_with(AUTTERVIL_FAULT_NONE, NULL) && memcmp(place, numbers, 8 * tables.cells) == 0);
}

/* Rule 5: an eventless transition to its own source, without a condition and with one; one without targets, though it has a condition. */
static void spinning(auttervil_counts most)
{
    small_chart(most);
    auttervil_add_transition(&b, "two", NULL, "two");
    CHECK(ends_with(AUTTERVIL_FAULT_NONE, NULL) && compile() == AUTTERVIL_TRANSITIONS);
    small_chart(most);
    auttervil_add_transition(&b, "two", NULL, "two");
    auttervil_set_condition(&b, "two");
    CHECK(ends_with(AUTTERVIL_FAULT_NONE, NULL) && compile() == AUTTERVIL_DONE);
    small_chart(most);
    auttervil_add_transition(&b, "two", NULL, NULL);
    auttervil_set_condition(&b, "two");
    CHECK(ends_with(AUTTERVIL_FAULT_NONE, NULL) && compile() == AUTTERVIL_TRANSITIONS);
}

/* Rules 3 to 5, each broken through the builder, which does not judge them. */
static void rules(void)
{
    const auttervil_counts most = counts(8, 8, 8, 8, 16, 16);
    small_chart(most);
    auttervil_add_row(&b, AUTTERVIL_KIND_PARALLEL, NULL, "empty");
    CHECK(ends_with(AUTTERVIL_FAULT_NONE, NULL) && compile() == AUTTERVIL_TREE);
    small_chart(most);
    auttervil_add_list(&b, "two", "one");
    CHECK(ends_with(AUTTERVIL_FAULT_NONE, NULL) && compile() == AUTTERVIL_LISTS);
    small_chart(most);
    auttervil_add_transition(&b, "two", NULL, NULL);
    CHECK(ends_with(AUTTERVIL_FAULT_NONE, NULL) && compile() == AUTTERVIL_TRANSITIONS);
    spinning(most);
    begin_with(most);
    CHECK(ends_with(AUTTERVIL_FAULT_NONE, NULL) && tables.bytes == 0 && compile() == AUTTERVIL_TREE);
}

static int begins(auttervil_counts most, uint64_t *cells, size_t n, uint8_t *bytes, size_t m)
{
    auttervil_begin(&b, most, cells, n, bytes, m);
    if (b.fault == AUTTERVIL_FAULT_NONE)
        return 1;
    auttervil_add_row(&b, AUTTERVIL_KIND_STATE, NULL, "x");
    CHECK(ends_with(AUTTERVIL_FAULT_ARRAYS, NULL) || (b.fault == AUTTERVIL_FAULT_LIMITS && auttervil_finish(&b, &tables) == AUTTERVIL_FAULT_LIMITS));
    return 0;
}

/* More than a chart may have is another fault than arrays that do not fit. */
static int is_beyond_limits(auttervil_counts most)
{
    return !begins(most, numbers, COUNT(numbers), names, COUNT(names)) && b.fault == AUTTERVIL_FAULT_LIMITS;
}

static void arrays(void)
{
    const auttervil_counts most = counts(3, 1, 2, 2, 2, 5);
    const size_t cells = AUTTERVIL_NUMBERS_CELLS(3, 1, 2, 2, 2);
    memset(numbers, 0xff, sizeof numbers);
    CHECK(begins(most, numbers, cells, names, 320));
    CHECK(!begins(most, numbers, cells - 1, names, 320));
    CHECK(!begins(most, numbers, cells, names, 319));
    CHECK(!begins(most, NULL, cells, names, 320));
    CHECK(!begins(most, numbers, cells, NULL, 320));
    CHECK(!begins(most, (uint64_t *)((uintptr_t)numbers + 4), cells, names, 320));
    CHECK(!begins(most, numbers, cells, (uint8_t *)numbers + 8 * cells - 1, 320));
    CHECK(begins(most, numbers, cells, (uint8_t *)numbers + 8 * cells, 320));
    CHECK(!begins(most, numbers, SIZE_MAX, names, 320));
    CHECK(is_beyond_limits(counts(0, 0, 0, 0, 0, 0)));
    CHECK(begins(counts(ROWS, TRANSITIONS, REFERENCES, DESCRIPTORS, ACTIONS, NAMES), numbers, COUNT(numbers), names, COUNT(names)));
    CHECK(is_beyond_limits(counts(ROWS + 1, 0, 0, 0, 0, 0)));
    CHECK(is_beyond_limits(counts(1, TRANSITIONS + 1, 0, 0, 0, 0)));
    CHECK(is_beyond_limits(counts(1, 0, REFERENCES + 1, 0, 0, 0)));
    CHECK(is_beyond_limits(counts(1, 0, 0, DESCRIPTORS + 1, 0, 0)));
    CHECK(is_beyond_limits(counts(1, 0, 0, 0, ACTIONS + 1, 0)));
    CHECK(is_beyond_limits(counts(SIZE_MAX / 8, 0, 0, 0, 0, 0)));
    CHECK(begins(counts(1, 0, 0, 0, 0, NAMES), place, COUNT(place), (uint8_t *)numbers, sizeof numbers));
    CHECK(!begins(counts(1, 0, 0, 0, 0, NAMES + 1), place, COUNT(place), (uint8_t *)numbers, sizeof numbers) && b.fault == AUTTERVIL_FAULT_LIMITS);
    CHECK(begins(counts(1, 0, 0, 0, 0, 0), numbers, 17, NULL, 0));
    auttervil_begin(NULL, most, numbers, cells, names, 320);
    auttervil_add_row(NULL, AUTTERVIL_KIND_STATE, NULL, "x");
    CHECK(auttervil_finish(NULL, &tables) == AUTTERVIL_FAULT_ARRAYS && auttervil_finish(&b, NULL) == AUTTERVIL_FAULT_ARRAYS);
}

/* A builder that was never begun, and structs where they may not be. */
static void unbegun(void)
{
    static const auttervil_builder zeros;
    static const auttervil_tables empty;
    b = zeros;
    CHECK(ends_with(AUTTERVIL_FAULT_ARRAYS, NULL));
    b = zeros;
    auttervil_add_list(&b, NULL, NULL);
    auttervil_add_entry(&b, NULL);
    auttervil_add_host(&b, 1);
    CHECK(ends_with(AUTTERVIL_FAULT_ARRAYS, NULL));
    auttervil_begin((auttervil_builder *)((uintptr_t)&b + 4), counts(3, 1, 2, 2, 2, 5), numbers, COUNT(numbers), names, COUNT(names));
    CHECK(auttervil_finish((auttervil_builder *)((uintptr_t)&b + 4), &tables) == AUTTERVIL_FAULT_ARRAYS);
    CHECK(auttervil_finish(&b, (auttervil_tables *)((uintptr_t)&tables + 4)) == AUTTERVIL_FAULT_ARRAYS);
    CHECK(auttervil_finish(&b, (auttervil_tables *)(UINTPTR_MAX - 7)) == AUTTERVIL_FAULT_ARRAYS);
    CHECK(auttervil_finish((auttervil_builder *)(UINTPTR_MAX - 7), &tables) == AUTTERVIL_FAULT_ARRAYS);
    small_chart(counts(3, 1, 2, 2, 2, 5));
    CHECK(auttervil_finish(&b, (auttervil_tables *)(void *)numbers) == AUTTERVIL_FAULT_ARRAYS && b.fault == AUTTERVIL_FAULT_ARRAYS);
    CHECK(memcmp(numbers, &empty, sizeof empty) == 0);
    small_chart(counts(3, 1, 2, 2, 2, 5));
    CHECK(auttervil_finish(&b, (auttervil_tables *)(void *)(numbers + AUTTERVIL_NUMBERS_CELLS(3, 1, 2, 2, 2) - 1)) == AUTTERVIL_FAULT_ARRAYS);
    small_chart(counts(3, 1, 2, 2, 2, 5));
    CHECK(auttervil_finish(&b, (auttervil_tables *)(void *)&b.most) == AUTTERVIL_FAULT_ARRAYS && b.most.rows == 3);
    CHECK(ends_with(AUTTERVIL_FAULT_NONE, NULL) && compile() == AUTTERVIL_DONE);
}

/* A chart of nothing but its root has no names. */
static void no_names(void)
{
    AUTTERVIL_PLACES(root, 1, 0, 0, 0, 0, 0);
    AUTTERVIL_BEGIN(&b, root);
    CHECK(ends_with(AUTTERVIL_FAULT_NONE, NULL) && AUTTERVIL_COMPILE(&tables, root).answer == AUTTERVIL_TREE);
}

/* The builder may keep a pointer to it as the culprit. */
static char id[16];

/* So many states, beside the root. */
static void add_states(int count)
{
    int i;
    for (i = 1; i <= count; i++) {
        snprintf(id, sizeof id, "s%d", i);
        auttervil_add_row(&b, AUTTERVIL_KIND_STATE, NULL, id);
    }
}

/* As many rows, transitions and names as a chart may have, and one more of each. */
static void at_the_limits(void)
{
    const auttervil_counts most = counts(ROWS, TRANSITIONS, TRANSITIONS, TRANSITIONS, TRANSITIONS, NAMES);
    char next[16];
    auttervil_compiled compiled;
    static auttervil_session session;
    static uint32_t trace[8];
    int i;
    begin_with(most);
    add_states(ROWS - 1);
    for (i = TRANSITIONS - 1; i >= 0; i--) {
        snprintf(id, sizeof id, "s%d", i % (ROWS - 1) + 1);
        snprintf(next, sizeof next, "s%d", (i + ROWS - 2) % (ROWS - 1) + 1);
        auttervil_add_transition(&b, id, "go", next);
        if (i < NAMES - ROWS) {
            snprintf(id, sizeof id, "n%d", i);
            auttervil_add_raise(&b, id);
        }
    }
    CHECK(auttervil_finish(&b, &tables) == AUTTERVIL_FAULT_NONE && tables.bytes == AUTTERVIL_NAMES_BYTES(NAMES));
    compiled = auttervil_compile(&tables, place, COUNT(place), name_place, COUNT(name_place));
    CHECK(compiled.answer == AUTTERVIL_DONE && auttervil_row_count(&compiled.chart) == ROWS && auttervil_transition_count(&compiled.chart) == TRANSITIONS);
    for (i = 1; i < TRANSITIONS; i++)
        CHECK(auttervil_transition_source(&compiled.chart, (uint64_t)i - 1) <= auttervil_transition_source(&compiled.chart, (uint64_t)i));
    /* From the first state to the last one, whose row is the last of a set. */
    CHECK(auttervil_start(&session, &compiled.chart, trace, COUNT(trace)).answer == AUTTERVIL_DONE);
    CHECK(auttervil_post_text(&session, &compiled.chart, "go") == AUTTERVIL_DONE);
    CHECK(auttervil_run(&session, &compiled.chart, 1, trace, COUNT(trace)).rounds == 1);
    CHECK(auttervil_is_active(&session, ROWS - 1) && !auttervil_is_active(&session, 1) && !auttervil_is_active(&session, ROWS));
    begin_with(most);
    add_states(ROWS);
    CHECK(ends_with(AUTTERVIL_FAULT_ROWS, "s256"));
    begin_with(most);
    add_states(1);
    for (i = 0; i <= TRANSITIONS; i++)
        auttervil_add_transition(&b, "s1", "go", NULL);
    CHECK(ends_with(AUTTERVIL_FAULT_TRANSITIONS, "s1"));
    begin_with(counts(ROWS, TRANSITIONS, TRANSITIONS, TRANSITIONS, ACTIONS, NAMES));
    add_states(1);
    for (i = 1; i <= NAMES; i++) {
        if (i % 32 == 1)
            auttervil_add_transition(&b, "s1", "s1", NULL);
        snprintf(id, sizeof id, "n%d", i);
        auttervil_add_raise(&b, id);
    }
    CHECK(ends_with(AUTTERVIL_FAULT_NAMES, "n768") && b.needed.names == NAMES + 1);
}

/* The cells of the actions, each as what it does and its argument, against a list that ends with a 9. */
static int are_actions(const uint64_t *expected)
{
    const uint64_t *cells = tables.numbers == NULL ? NULL : tables.numbers + tables.cells - 4 * tables.numbers[4];
    size_t i;
    for (i = 0; expected[2 * i] != 9; i++)
        if (cells == NULL || i >= tables.numbers[4] || cells[4 * i] != expected[2 * i] || cells[4 * i + 1] != expected[2 * i + 1] || cells[4 * i + 2] != 0 || cells[4 * i + 3] != 0)
            return 0;
    return cells != NULL && i == tables.numbers[4];
}

/* What is done where a row is active: each block ends what is open in it. */
static void branches(void)
{
    const auttervil_counts most = counts(8, 8, 32, 32, 96, 32);
    static const uint64_t nested[] = {1, 65535, 0, 4, 2, 1, 1, 1, 3, 2, 1, 2, 4, 0, 2, 2, 1, 3, 5, 0, 1, 4, 5, 0, 2, 1, 1, 5, 5, 0, 9};
    int i;
    small_chart(most);
    auttervil_add_if(&b, "one");
    auttervil_add_host(&b, 1);
    auttervil_add_elseif(&b, "two");
    auttervil_add_host(&b, 2);
    auttervil_add_else(&b);
    auttervil_add_if(&b, "two");
    CHECK(auttervil_open_ifs(&b) == 2);
    auttervil_add_host(&b, 3);
    auttervil_end_if(&b);
    CHECK(auttervil_open_ifs(&b) == 1);
    auttervil_add_host(&b, 4);
    auttervil_add_exit(&b, "two");
    CHECK(auttervil_open_ifs(&b) == 0);
    auttervil_add_if(&b, "one");
    auttervil_add_host(&b, 5);
    CHECK(ends_with(AUTTERVIL_FAULT_NONE, NULL) && are_actions(nested) && compile() == AUTTERVIL_DONE);
    small_chart(most);
    auttervil_end_if(&b);
    CHECK(ends_with(AUTTERVIL_FAULT_NO_IF, NULL) && strcmp(b.owner, "one") == 0 && b.number == 0);
    small_chart(most);
    auttervil_add_elseif(&b, "two");
    CHECK(ends_with(AUTTERVIL_FAULT_NO_IF, "two"));
    small_chart(most);
    auttervil_add_if(&b, "one");
    auttervil_add_else(&b);
    auttervil_add_elseif(&b, "two");
    CHECK(ends_with(AUTTERVIL_FAULT_ELSE, "two"));
    small_chart(most);
    auttervil_add_if(&b, "one");
    auttervil_add_else(&b);
    auttervil_add_else(&b);
    CHECK(ends_with(AUTTERVIL_FAULT_ELSE, NULL));
    small_chart(most);
    for (i = 0; i < 4; i++)
        auttervil_add_if(&b, "one");
    CHECK(auttervil_open_ifs(&b) == 4 && ends_with(AUTTERVIL_FAULT_NONE, NULL) && compile() == AUTTERVIL_DONE);
    small_chart(most);
    for (i = 0; i < 5; i++)
        auttervil_add_if(&b, "one");
    CHECK(ends_with(AUTTERVIL_FAULT_DEEP, "one"));
    small_chart(most);
    auttervil_add_if(&b, "three");
    CHECK(ends_with(AUTTERVIL_FAULT_NO_ROW, "three"));
    /* 32 with the end that the block gets, and 33. */
    small_chart(most);
    auttervil_add_if(&b, "one");
    for (i = 0; i < 29; i++)
        auttervil_add_host(&b, 1);
    CHECK(ends_with(AUTTERVIL_FAULT_NONE, NULL) && compile() == AUTTERVIL_DONE);
    small_chart(most);
    auttervil_add_if(&b, "one");
    for (i = 0; i < 30; i++)
        auttervil_add_host(&b, 1);
    auttervil_add_exit(&b, "two");
    CHECK(ends_with(AUTTERVIL_FAULT_MANY_ACTIONS, NULL) && strcmp(b.owner, "one") == 0 && b.number == 0);
    begin_with(most);
    auttervil_add_if(&b, NULL);
    CHECK(ends_with(AUTTERVIL_FAULT_NOT_OPEN, NULL));
}

/* The limits of docs/tables.md, and the sizes of the greatest chart. */
static void limits(void)
{
    CHECK(ROWS == 256 && TRANSITIONS == 512 && NAMES == 768);
    CHECK(REFERENCES == 256 * 256 + 512 * 8 && DESCRIPTORS == 512 * 4 && ACTIONS == (256 * 3 + 512) * 32);
    CHECK(COUNT(numbers) == 242950 && COUNT(place) == 249094 && COUNT(names) == 49152);
}

int main(void)
{
    fits_exactly();
    does_not_fit();
    says_what_is_needed();
    one_try_is_enough(3000);
    more_than_each_may_have();
    mistakes();
    bad_names();
    conditions();
    messages();
    white_space();
    rules();
    arrays();
    unbegun();
    no_names();
    at_the_limits();
    branches();
    limits();
    return report();
}
