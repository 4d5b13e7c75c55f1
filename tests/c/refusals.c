/* Why a text was refused, in words: each fault and rule that the header can tell, for the answer and the offset that the reader gives. With a number, so many changed texts. */
#include "texts.h"

static struct {
    char bytes[1 << 14];
    size_t length;
} lifecycle_text;
AUTTERVIL_PLACES_FOR_TEXT(any);

/* Whether the message of a refused text is this one, in every buffer; in memory of its own, so that a byte that is read behind the text is seen. */
static int is_told(const char *text, size_t length, uint32_t answer, size_t offset, const char *wanted)
{
    char buffer[AUTTERVIL_MESSAGE_BYTES + 8];
    char *copy = copy_of(text, length);
    const size_t whole = strlen(wanted);
    size_t size;
    int right = whole < AUTTERVIL_MESSAGE_BYTES;
    for (size = 0; size <= AUTTERVIL_MESSAGE_BYTES; size += size < whole && size > 2 ? 7 : 1) {
        size_t fits = size > whole ? whole : size - (size > 0);
        memset(buffer, PAINT, sizeof buffer);
        right = right && auttervil_show_refusal(buffer, size, copy, length, answer, offset) == whole;
        right = right && memcmp(buffer, wanted, fits) == 0 && (size == 0 || buffer[fits] == 0) && is_painted(buffer + fits + (size > 0), sizeof buffer - fits - (size > 0));
    }
    if (!right) {
        (void)auttervil_show_refusal(buffer, sizeof buffer, copy, length, answer, offset);
        printf("[%s]\nand not\n[%s]\n", buffer, wanted);
    }
    free(copy);
    return right;
}

/* Whether the first line of the message says this of the text, for the answer that the reader gives. The rest shows the place. */
static int is_refused(const char *text, size_t length, uint32_t answer, const char *wanted)
{
    const auttervil_reading reading = AUTTERVIL_READ(text, length, any);
    const auttervil_finding found = answer == AUTTERVIL_BAD_TEXT ? (auttervil_finding){reading.offset, NULL} : auttervil_seek(text, length, answer);
    char shown[AUTTERVIL_MESSAGE_BYTES], said[2 * AUTTERVIL_MESSAGE_BYTES];
    const char *line;
    (void)auttervil_show_offset(shown, sizeof shown, text, length, found.at);
    line = strchr(shown, '\n');
    (void)snprintf(said, sizeof said, "%.*s %s%s", line == NULL ? 0 : (int)(line - shown), shown, wanted, line == NULL ? "" : line);
    if (reading.answer != answer)
        printf("answer %u of %s\n", (unsigned)reading.answer, text);
    return reading.answer == answer && is_told(text, length, answer, reading.offset, said);
}

/* A text with words in the middle. */
#define IN(inside) TEXT("<scxml><state id='a'>" inside "</state></scxml>")
#define IS_BAD(text, wanted) CHECK(is_refused(text, AUTTERVIL_BAD_TEXT, wanted))

static void bad_bytes(void)
{
    static char text[AUTTERVIL_MOST_TEXT + 1];
    memset(text, ' ', sizeof text);
    memcpy(text, small, sizeof small - 1);
    CHECK(is_refused(text, sizeof text, AUTTERVIL_BAD_TEXT, "the text has more than 32,768 bytes"));
    CHECK(is_told(TEXT(small), AUTTERVIL_DONE, 0, "done") && is_told(TEXT(small), AUTTERVIL_TEXT_NULL, 0, "the text is null"));
    CHECK(auttervil_show_refusal(NULL, 0, NULL, 1, AUTTERVIL_BAD_TEXT, 0) == strlen(auttervil_strstatus(AUTTERVIL_BAD_TEXT)));
    IS_BAD(TEXT("<scxml><state id='a'/></scxml>\0"), "a zero byte: the one that ends a C string is no part of its text");
    IS_BAD(TEXT("<scxml>\0<state id='a'/></scxml>"), "a zero byte");
    IS_BAD(TEXT("\xEF\xBB\xBF<scxml/>"), "a byte order mark; auttervil_prolog_length() tells a host how much to pass");
    IS_BAD(TEXT("<scxml><!-- \xC3\xA9 --></scxml>"), "a byte that is not ASCII");
    IS_BAD(TEXT("<scxml>\x1b</scxml>"), "a control character");
    IS_BAD(TEXT("<?xml version='1.0'?><scxml/>"), "a declaration or processing instruction is not read; auttervil_prolog_length() tells a host how much to pass");
    IS_BAD(TEXT("<scxml><?php ?></scxml>"), "a declaration or processing instruction is not read; auttervil_prolog_length() tells a host how much to pass");
    IS_BAD(TEXT("<!DOCTYPE scxml><scxml/>"), "no DOCTYPE and no CDATA is read; a comment begins with <!--");
    IS_BAD(IN("<![CDATA[x]]>"), "no DOCTYPE and no CDATA is read; a comment begins with <!--");
    IS_BAD(IN("<!-- a -- b -->"), "two dashes end a comment: > has to stand behind them");
    IS_BAD(IN("stop"), "text between tags");
    IS_BAD(TEXT("stop<scxml/>"), "text outside of <scxml>");
    IS_BAD(TEXT("<scxml><state id='a'/></scxml>x"), "text outside of <scxml>");
}

static void bad_ends(void)
{
    IS_BAD(TEXT(""), "there is no <scxml>");
    IS_BAD(TEXT(" <!-- nothing -->\n"), "there is no <scxml>");
    IS_BAD(TEXT("<scxml>\n<!-- a"), "the comment of line 2 does not end");
    IS_BAD(TEXT("<scxml>\n<state id='a"), "the tag <state of line 2 does not end");
    IS_BAD(TEXT("<scxml>\n<state id='a'"), "the tag <state of line 2 does not end");
    IS_BAD(TEXT("<scxml>\n<state id='a'></st"), "the tag <st of line 2 does not end");
    IS_BAD(TEXT("<scxml>\n"), "<scxml> of line 1 is not closed");
    IS_BAD(TEXT("<scxml>\n<state id='a'>\n <state id='b'/>\n <state id='c'></state>\n"), "<state> of line 2 is not closed");
    IS_BAD(TEXT("<scxml>\n<parallel id='a'>\n <state id='b'><onentry><log label='1'/>"), "<onentry> of line 3 is not closed");
    IS_BAD(TEXT("<scxml>\n<state id='a'>\n</scxml>"), "the end of <state> of line 2 has to stand here");
    IS_BAD(TEXT("<scxml></scxml></scxml>"), "nothing may end here");
}

static void bad_tags(void)
{
    IS_BAD(IN("<datamodel/>"), "<datamodel> is not read: docs/grammar.md has what of SCXML is left out");
    IS_BAD(IN("<xi:include/>"), "<xi:include> may not stand in this <state>");
    IS_BAD(IN("<log label='1'/>"), "<log> may not stand in this <state>");
    IS_BAD(IN("<onentry><script/></onentry>"), "<script> is not read: docs/grammar.md has what of SCXML is left out");
    IS_BAD(IN("<initial><transition target='a'/></initial><initial/>"), "<initial> may not stand in this <state>");
    IS_BAD(TEXT("<html/>"), "<html> may not stand here: a text is one <scxml>");
    IS_BAD(TEXT("<scxml/><scxml/>"), "<scxml> may not stand here: a text is one <scxml>");
    IS_BAD(IN("< state/>"), "the name of an element has to stand behind <");
    IS_BAD(IN("<initial></initial>"), "nothing may end here");
    IS_BAD(IN("<state'b'/>"), "white space, / or > has to stand behind the name of an element");
    IS_BAD(IN("<state id='b' / >"), "a > has to stand here");
    IS_BAD(TEXT("<scxml></scxml x>"), "a > has to stand here");
    IS_BAD(IN("<state id='b' <final/>"), "the tag before this < has no >");
    IS_BAD(IN("<state id='b' ?>"), "an attribute, / or > has to stand here");
    IS_BAD(IN("<state/>"), "this <state> has no id");
    IS_BAD(IN("<history type='deep'><transition target='a'/></history>"), "this <history> has no id");
    /* Missing attributes. */
    IS_BAD(IN("<onentry><raise/></onentry>"), "event is missing");
    IS_BAD(IN("<onentry><log ></log></onentry>"), "label is missing");
    IS_BAD(IN("<onentry><if></if></onentry>"), "cond is missing");
    IS_BAD(IN("<onentry><elseif/></onentry>"), "cond is missing");
    IS_BAD(IN("<onentry><send id='e' delay='5'/></onentry>"), "event is missing");
    IS_BAD(IN("<onexit><cancel/></onexit>"), "sendid is missing");
    IS_BAD(IN("<onentry><send event='e' delay='5s'/></onentry>"), "delay is a number of ticks of at most 4,294,967,295, without a unit");
    IS_BAD(IN("<onentry><send event='e' delay='4294967296'/></onentry>"), "delay is a number of ticks of at most 4,294,967,295, without a unit");
    IS_BAD(IN("<onentry><send event='e' delayexpr='x'/></onentry>"), "the attribute delayexpr may not stand in this <send>");
    IS_BAD(IN("<onexit><foreach array='e'/></onexit>"), "<foreach> is not read: docs/grammar.md has what of SCXML is left out");
    IS_BAD(IN("<initial><transition/></initial>"), "target is missing: an initial transition has one");
    IS_BAD(IN("<initial/>"), "an <initial> holds a transition");
    /* Attributes that may not stand there. */
    IS_BAD(TEXT("<scxml name='m'/>"), "the attribute name may not stand in this <scxml>");
    IS_BAD(TEXT("<scxml><state id='a' id='b'/></scxml>"), "the attribute id stands already in this <state>");
    IS_BAD(IN("<transition event='e' target='a' event='f'/>"), "the attribute event stands already in this <transition>");
    IS_BAD(IN("<state i='b'/>"), "the attribute i may not stand in this <state>");
    IS_BAD(IN("<initial><transition event='e' target='a'/></initial>"), "the attribute event may not stand in this <transition>");
    IS_BAD(IN("<state id>"), "= and a value in quotes have to stand behind an attribute's name");
    IS_BAD(IN("<state id = b/>"), "= and a value in quotes have to stand behind an attribute's name");
    IS_BAD(IN("<transition event='e'target='a'/>"), "white space has to stand before an attribute");
}

#define NAME_WORDS "letters, digits, - and _, joined by single dots, make a name; a descriptor is *, or a name with or without .*"
#define SIXTY "x23456789-123456789-123456789-123456789-123456789-123456789-"
#define LONG_63 SIXTY "123"

static void bad_values(void)
{
    IS_BAD(IN("<transition target='onn'/>"), "no row has the id onn");
    IS_BAD(IN("<transition target='a\n b.c'/>"), "no row has the id b.c");
    IS_BAD(TEXT("<scxml initial='x'><state id='a'/></scxml>"), "no row has the id x");
    IS_BAD(IN("<transition cond=\"In('nix')\"/>"), "no row has the id nix");
    IS_BAD(IN("<transition cond='In(&apos;nix&apos;)'/>"), "no row has the id nix");
    IS_BAD(IN("<transition event='e " LONG_63 "4'/>"), "a name or descriptor has more than 63 bytes");
    IS_BAD(IN("<transition event='" SIXTY "12.*'/>"), "a name or descriptor has more than 63 bytes");
    IS_BAD(IN("<transition cond=\"In('" LONG_63 "4')\"/>"), "a name or descriptor has more than 63 bytes");
    IS_BAD(IN("<state id='" LONG_63 "4'/>"), "a name or descriptor has more than 63 bytes");
    IS_BAD(IN("<transition cond='true'/>"), "cond is In('id'), without blanks");
    IS_BAD(IN("<transition cond=''/>"), "cond is In('id'), without blanks");
    IS_BAD(IN("<onentry><if cond=\"In( 'a' )\"/></onentry>"), "cond is In('id'), without blanks");
    IS_BAD(IN("<onentry><log label='70000'/></onentry>"), "label is a number of at most 65,535");
    IS_BAD(IN("<transition type='x' event='e'/>"), "type of a transition is external or internal");
    IS_BAD(IN("<state id='b'/><history id='h' type='x'/>"), "type of a history is shallow or deep");
    IS_BAD(TEXT("<scxml version='1.1'/>"), "version is 1.0");
    IS_BAD(TEXT("<scxml xmlns='scxml'/>"), "xmlns is http://www.w3.org/2005/07/scxml");
    IS_BAD(IN("<transition cond='a &foo;'/>"), "& begins one of &amp; &lt; &gt; &quot; &apos;");
    IS_BAD(IN("<transition cond='&#39;'/>"), "& begins one of &amp; &lt; &gt; &quot; &apos;");
    IS_BAD(IN("<transition cond='a<b'/>"), "this may not stand in a value; the quote that ends the value may be missing");
    IS_BAD(IN("<state id='b><state id='c'/>"), "this may not stand in a value; the quote that ends the value may be missing");
    IS_BAD(IN("<transition target='a/>\n<state id='b'/>"), "this may not stand in a value; the quote that ends the value may be missing");
    IS_BAD(IN("<state id='b..c'/>"), "letters, digits, - or _ have to stand behind a dot");
    IS_BAD(IN("<state id='b.'/>"), "letters, digits, - or _ have to stand behind a dot");
    IS_BAD(IN("<transition target=''/>"), "a value without a name in it");
    IS_BAD(IN("<transition event=' '/>"), "a value without a name in it");
    IS_BAD(IN("<state id='b c'/>"), "one name has to stand here, without blanks");
    IS_BAD(IN("<state id=' b'/>"), "one name has to stand here, without blanks");
    IS_BAD(IN("<transition event='e*'/>"), NAME_WORDS);
    IS_BAD(IN("<transition event='&amp;'/>"), NAME_WORDS);
    IS_BAD(IN("<onentry><raise event='*'/></onentry>"), "a name has to stand here: letters, digits, - and _, joined by single dots");
    IS_BAD(IN("<state id='b$'/>"), "a name has to stand here: letters, digits, - and _, joined by single dots");
}

/* Rules 1 to 3 in texts of the grammar. */
static void broken_rules(void)
{
    static char text[2 * AUTTERVIL_MOST_TEXT];
    static const char nine[] = "<transition event='e' target='a a a a a a a a a'/>";
    char actions[1024] = "<scxml><state id='a'><onexit>";
    int i;
    CHECK(is_refused(text, full_text(text, AUTTERVIL_MOST_ROWS, 9), AUTTERVIL_SIZE, "more than 256 rows, the root among them"));
    CHECK(is_refused(text, full_text(text, 9, AUTTERVIL_MOST_TRANSITIONS + 1), AUTTERVIL_SIZE, "more than 512 transitions"));
    for (i = 0; i < 31; i++)
        strcat(actions, "<log label='1'/>");
    strcat(actions, "<if cond=\"In('a')\"/></onexit></state></scxml>");
    CHECK(is_refused(actions, strlen(actions), AUTTERVIL_SIZE, "more than 32 actions in a block; an if counts twice, for its end"));
    CHECK(is_refused(IN("<transition event='a b c d e'/>"), AUTTERVIL_SIZE, "more than 4 descriptors of a transition"));
    CHECK(is_refused(IN("<transition event='e' target='a a a a a a a a a'/>"), AUTTERVIL_SIZE, "more than 8 targets of a transition"));
    /* An initial list may have nine; the transition behind it may not. */
    (void)snprintf(text, sizeof text, "<scxml><state id='s'><initial><transition target='a a a a a a a a a'/></initial><state id='a'>%s</state></state></scxml>", nine);
    CHECK(is_refused(text, strlen(text), AUTTERVIL_SIZE, "more than 8 targets of a transition") && auttervil_seek(text, strlen(text), AUTTERVIL_SIZE).at > 90);
    /* Arrays that are too small have no place in the text. */
    CHECK(auttervil_read(TEXT(small), any.numbers, 1, any.names, 0).answer == AUTTERVIL_SIZE && is_told(TEXT(small), AUTTERVIL_SIZE, 0, auttervil_strstatus(AUTTERVIL_SIZE)));
    CHECK(is_refused(IN("<state id='" LONG_63 "'/>"), AUTTERVIL_NAMES, "an id has more than 52 bytes, too many for the name of its done event"));
    CHECK(is_refused(IN("<state id='9b'/>"), AUTTERVIL_NAMES, "an id begins with a letter or _"));
    CHECK(is_refused(IN("<state id='b'/><state id='ab'/><final id='b'/>"), AUTTERVIL_NAMES, "another row has this id"));
    CHECK(is_refused(TEXT("<scxml/>"), AUTTERVIL_TREE, "the root and a parallel need a child that is no history"));
    CHECK(is_refused(IN("<parallel id='p'><history id='h'><transition target='p'/></history></parallel>"), AUTTERVIL_TREE, "the root and a parallel need a child that is no history"));
    CHECK(is_refused(IN("<history id='h'><transition target='a'/></history>"), AUTTERVIL_TREE, "a state with a history needs a child that is none"));
    CHECK(is_refused(IN("<final id='f'><state id='b'/></final>"), AUTTERVIL_TREE, "no row may stand in a final or a history"));
    CHECK(is_refused(IN("<parallel id='p'><state id='b'/><final id='f'/></parallel>"), AUTTERVIL_TREE, "a final may not stand in a parallel"));
    CHECK(is_refused(TEXT("<scxml><history id='h'><transition target='a'/></history><state id='a'/></scxml>"), AUTTERVIL_TREE, "a history may stand only in a state or parallel"));
}

/* Rules 4 and 5. */
static void more_broken_rules(void)
{
    CHECK(is_refused(TEXT("<scxml><onentry><log label='1'/></onentry><state id='a'/></scxml>"), AUTTERVIL_LISTS, "the root and a history have no entry or exit actions"));
    CHECK(is_refused(IN("<state id='b'/><history id='h'><transition event='e' target='b'/></history>"), AUTTERVIL_LISTS, "a history needs a transition with a target and neither event nor cond"));
    CHECK(is_refused(TEXT("<scxml><state id='a' initial='b'/><state id='b'/></scxml>"), AUTTERVIL_LISTS, "a state without children has no initial list"));
    CHECK(is_refused(TEXT("<scxml><state id='a' initial='b'><state id='c'/></state><state id='b'/></scxml>"), AUTTERVIL_LISTS, "an initial list may name only rows inside its own row"));
    CHECK(is_told(IN("<transition event='e' target='a a'/>"), AUTTERVIL_LISTS, 0, auttervil_strstatus(AUTTERVIL_LISTS)));
    CHECK(is_refused(TEXT("<scxml><transition event='e' target='a'/><state id='a'/></scxml>"), AUTTERVIL_TRANSITIONS, "a transition may stand only in a state or parallel"));
    CHECK(is_refused(IN("<final id='f'><transition event='e'/></final>"), AUTTERVIL_TRANSITIONS, "a transition may stand only in a state or parallel"));
    CHECK(is_refused(IN("<state id='b'/><history id='h'><transition target='b'/><transition event='e' target='b'/></history>"), AUTTERVIL_TRANSITIONS, "a history's transition has neither event nor cond"));
    CHECK(is_refused(IN("<transition/>"), AUTTERVIL_TRANSITIONS, "a transition without an event needs a target"));
    CHECK(is_refused(IN("<transition cond=\"In('a')\"/>"), AUTTERVIL_TRANSITIONS, "a transition without an event needs a target"));
    CHECK(is_refused(IN("<state id='b'/><transition target='a'/>"), AUTTERVIL_TRANSITIONS, "a transition without event and cond leads to its own row: it would spin"));
    CHECK(is_refused(IN("<state id='b'/><history id='h'><transition target='b'/><transition target='b'/></history>"), AUTTERVIL_TRANSITIONS, "a history has one transition"));
    CHECK(is_refused(IN("<onentry><if cond=\"In('a')\"><else/><if cond=\"In('a')\"><else/></if><else/></if></onentry>"), AUTTERVIL_TRANSITIONS, "an elseif or else may not stand behind the else of its if"));
    CHECK(is_refused(IN("<onentry><else/></onentry>"), AUTTERVIL_TRANSITIONS, "an elseif or else may stand only in an if"));
    CHECK(is_refused(IN("<onentry><if cond=\"In('a')\"/><elseif cond=\"In('a')\"/></onentry>"), AUTTERVIL_TRANSITIONS, "an elseif or else may stand only in an if"));
    CHECK(is_refused(IN("<state id='In'/><transition event='e' cond='In(&apos;h&apos;)'/><history id='h'><transition target='In'/></history>"), AUTTERVIL_TRANSITIONS, "cond names a history, which is never active"));
    /* Behind a declaration, with the offset from the text's first byte on. */
    CHECK(is_told(TEXT("<?xml version='1.0'?>\n<scxml><state/></scxml>"), AUTTERVIL_BAD_TEXT, 29, "line 2, column 8: this <state> has no id\n<scxml><state/></scxml>\n       ^"));
    CHECK(is_told(TEXT("<?xml version='1.0'?>\n<scxml><state id='1'/></scxml>"), AUTTERVIL_NAMES, 0, "line 2, column 19: an id begins with a letter or _\n<scxml><state id='1'/></scxml>\n                  ^"));
}

/* Any byte of any text, and any answer, has a message that fits: changed texts, whether the reader refuses them there or not. */
static void every_place(size_t tries)
{
    static char text[4096];
    char buffer[AUTTERVIL_MESSAGE_BYTES];
    int right = 1;
    for (; tries > 0; tries--) {
        const size_t length = next_random() % (lifecycle_text.length < sizeof text ? lifecycle_text.length : sizeof text);
        const size_t first = next_random() % (lifecycle_text.length - length);
        const uint32_t answer = (uint32_t)(next_random() % 14);
        size_t changes = next_random() % 4;
        char *copy;
        memcpy(text, lifecycle_text.bytes + first, length);
        for (; length > 0 && changes > 0; changes--)
            text[next_random() % length] = "<>/='\"&;-! a\x80"[next_random() % 13];
        copy = copy_of(text, length);
        right = right && auttervil_show_refusal(buffer, sizeof buffer, copy, length, answer, next_random() % (length + 2)) < sizeof buffer && strlen(buffer) < sizeof buffer - 1;
        free(copy);
    }
    CHECK(right);
}

int main(int count, char **arguments)
{
    FILE *file = fopen("examples/lifecycle/lifecycle.scxml", "rb");
    if (file == NULL) {
        printf("no examples/lifecycle/lifecycle.scxml\n");
        return 1;
    }
    lifecycle_text.length = fread(lifecycle_text.bytes, 1, sizeof lifecycle_text.bytes, file);
    CHECK(fclose(file) == 0 && lifecycle_text.length > 3000);
    bad_bytes();
    bad_ends();
    bad_tags();
    bad_values();
    broken_rules();
    more_broken_rules();
    every_place(count > 1 ? (size_t)atoi(arguments[1]) : 20000);
    return report();
}
