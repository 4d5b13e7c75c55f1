// host [--strict] [turns]: an event as a host sends it, by everyone in one process, beside what is wanted, and what the checks before it cost; tables in
// Markdown. With --strict it fails where something that is wanted was missed or not measured.
// host count CASE CONTENDER EVENTS: so many events without a clock, for counting instructions; host list: the cases and contenders.
#include "contenders.hpp"
#include "measure.hpp"
#ifdef WITH_QT
#include "qt.hpp"
#endif
#include <memory>

typedef std::unique_ptr<Contender> Any;

// How many times longer the library's one call may take than Qt's event and than the engine's one call; 0 where nothing is fixed.
struct Wanted {
    double of_qt, of_engine;
};

const Wanted FIXED = {1.0, 1.5}, NOTHING = {0, 0};

struct Case {
    std::string about;
    Description description;
    Events events;
    size_t regions; // 0 for chart A
    Words words;
    Wanted wanted;
};

static void add_regions(std::vector<Case> &all, size_t rows, size_t count, const Words &words, const std::string &names, const Wanted &wanted)
{
    const std::string about = std::to_string(rows) + " rows, " + std::to_string(count) + " regions" + names;
    all.push_back({about + ", all moving", regions(rows, count, words), {words.all, words.all}, count, words, wanted});
    all.push_back({about + ", one moving", regions(rows, count, words), {words.one, words.one}, count, words, wanted});
}

static std::vector<Case> cases()
{
    std::vector<Case> all = {{"chart A (e4 e1 e2 again)", chart_a(), {"e4", "e1", "e2", "again"}, 0, SHORT, FIXED}};
    add_regions(all, 62, 20, SHORT, "", FIXED);
    add_regions(all, 62, 20, LONG, ", names of 20 bytes", FIXED);
    add_regions(all, 250, 40, SHORT, "", NOTHING);
    add_regions(all, 250, 40, LONG, ", names of 20 bytes", NOTHING);
    return all;
}

enum { POST_RUN, STEP, ENGINE_POST_RUN, ENGINE_STEP, SWITCH, QT, CONTENDERS };

static std::vector<Any> contenders(const Case &c, const Compiled &compiled)
{
    std::vector<Any> all;
    all.emplace_back(new Library(compiled));
    all.emplace_back(new LibraryStep(compiled));
    all.emplace_back(new Engine(compiled));
    all.emplace_back(new EngineStep(compiled));
    if (c.regions == 0)
        all.emplace_back(new SwitchA);
    else
        all.emplace_back(new SwitchRegions(c.regions, c.words));
#ifdef WITH_QT
    all.emplace_back(new Qt6(c.description));
#endif
    return all;
}

static std::string spelt(const States &states)
{
    std::string text;
    for (const std::string &id : states)
        text += (text.empty() ? "" : " ") + id;
    return text;
}

// The same session byte for byte, and the same active states of those that have no session.
static void must_agree(const std::vector<Any> &all)
{
    for (const Any &one : all) {
        if (one->session() != nullptr && std::memcmp(one->session(), all[0]->session(), sizeof *one->session()) != 0)
            fail(one->name() + " leaves another session");
        if (one->active() != all[0]->active())
            fail(one->name() + " has " + spelt(one->active()) + " active, not " + spelt(all[0]->active()));
    }
}

// After every event of the list, one at a time.
static void try_events(const Case &c, std::vector<Any> &all)
{
    must_agree(all);
    for (const std::string &event : c.events) {
        const States before = all[0]->active();
        for (Any &one : all)
            one->play({event}, 1);
        must_agree(all);
        if (all[0]->active() == before)
            fail(c.about + ": nothing moves on " + event);
    }
}

static std::vector<Timed> measured(const Case &c, size_t turns)
{
    const Compiled compiled(c.description);
    std::vector<Any> all = contenders(c, compiled);
    std::vector<Timed> times;
    for (Any &one : all)
        times.push_back({[&](size_t count) { one->play(c.events, count); }, 0, {}});
    take_turns(times, c.events.size(), turns);
    must_agree(all);
    return times;
}

static std::string spelt(double number, const char *format)
{
    char text[32];
    std::snprintf(text, sizeof text, format, number);
    return text;
}

// A ratio beside what is wanted of it; says so where it is more.
static std::string judged(double found, double wanted, const std::string &of, const Case &c, std::vector<std::string> &missed)
{
    const std::string is = spelt(found, "%.2f"), most = wanted == 0 ? "-" : spelt(wanted, "%.1f");
    if (wanted != 0 && found > wanted)
        missed.push_back(c.about + ": " + is + " of " + of + ", wanted is " + most);
    return " " + is + " | " + most + " |";
}

static void print_ratios(const std::vector<Case> &all, const std::vector<std::vector<Timed>> &found, std::vector<std::string> &missed)
{
    const bool with_qt = found[0].size() > QT;
    std::printf("| chart |%s library's one call / engine's one call | wanted | one call / post and run |%s\n",
                with_qt ? " library's one call / Qt 6 | wanted |" : "", with_qt ? " engine's one call / Qt 6 |" : "");
    std::printf("|---|%s---|---|---|%s\n", with_qt ? "---|---|" : "", with_qt ? "---|" : "");
    for (size_t i = 0; i < all.size(); i++) {
        const std::vector<Timed> &times = found[i];
        std::printf("| %s |", all[i].about.c_str());
        if (with_qt)
            std::printf("%s", judged(ratio(times[STEP], times[QT]), all[i].wanted.of_qt, "Qt's event", all[i], missed).c_str());
        std::printf("%s", judged(ratio(times[STEP], times[ENGINE_STEP]), all[i].wanted.of_engine, "the engine's one call", all[i], missed).c_str());
        std::printf(" %.2f |", ratio(times[STEP], times[POST_RUN]));
        if (with_qt)
            std::printf(" %.2f |", ratio(times[ENGINE_STEP], times[QT]));
        std::printf("\n");
    }
}

static void print_times(const std::vector<Case> &all, const std::vector<std::vector<Timed>> &found)
{
    const bool with_qt = found[0].size() > QT;
    std::printf("| chart | library: post, run | library: one call | engine: post, run | engine: one call | switch |%s\n", with_qt ? " Qt 6 |" : "");
    std::printf("|---|---|---|---|---|---|%s\n", with_qt ? "---|" : "");
    for (size_t i = 0; i < all.size(); i++) {
        std::printf("| %s |", all[i].about.c_str());
        for (const Timed &timed : found[i])
            std::printf(timed.shortest() < 100 ? " %.1f (%.1f) |" : " %.0f (%.0f) |", timed.shortest(), timed.middle());
        std::printf("\n");
    }
}

// Whether all that is wanted was measured and is kept.
static bool print_events(size_t turns)
{
    std::vector<std::vector<Timed>> found;
    std::vector<std::string> missed;
    const std::vector<Case> all = cases();
    for (const Case &c : all)
        found.push_back(measured(c, turns));
    const bool with_qt = found[0].size() > QT;
    std::printf("\nAn event as a host sends it; the medians of %zu turns' ratios, and what each may be at most.\n\n", turns);
    print_ratios(all, found, missed);
    std::printf("\n");
    if (!with_qt)
        std::printf("NOT MEASURED: Qt 6 SCXML is not installed (make bench-qt), so nothing was compared with it.\n");
    for (const std::string &one : missed)
        std::printf("MISSED: %s\n", one.c_str());
    if (missed.empty())
        std::printf("Nothing that is wanted was missed.\n");
    std::printf("\nNanoseconds an event: the shortest turn (the median).\n\n");
    print_times(all, found);
    return with_qt && missed.empty();
}

// Checks 8 and 9, beside a comparison of the same bytes with a copy of them.
static void print_checks(size_t rows, const Words &words, size_t turns)
{
    const Compiled compiled(regions(rows, (rows - 2) / 3, words)), copy = compiled;
    const auttervil_chart *chart = &compiled.chart;
    uint32_t trace[AUTTERVIL_MOST_ROOM];
    auttervil_session session;
    if (auttervil_start(&session, chart, trace, AUTTERVIL_MOST_ROOM).answer != AUTTERVIL_DONE)
        fail("a start is refused");
    volatile uint32_t sink = 0;
    const size_t cells = 8 * compiled.numbers.size(), bytes = compiled.names.size();
    std::vector<Timed> all(5);
    all[0].work = [&](size_t count) { for (; count > 0; count--) sink = (uint32_t)(std::memcmp(chart->numbers, copy.numbers.data(), cells) | std::memcmp(chart->names, copy.names.data(), bytes)); };
    all[1].work = [&](size_t count) { for (; count > 0; count--) sink = auttervil_check(chart); };
    all[2].work = [&](size_t count) { for (; count > 0; count--) sink = engine_is_compiled(chart); };
    all[3].work = [&](size_t count) { for (; count > 0; count--) sink = auttervil_run(&session, chart, 0, trace, AUTTERVIL_MOST_ROOM).status; };
    all[4].work = [&](size_t count) { for (; count > 0; count--) sink = engine_run(&session, &session.clock, chart, 0, trace, AUTTERVIL_MOST_ROOM).status; };
    take_turns(all, 1, turns);
    std::printf("| %zu | %zu |", rows, cells + bytes);
    for (const Timed &timed : all)
        std::printf(" %.0f |", timed.shortest());
    std::printf(" %.1f | %.2f |\n", ratio(all[1], all[0]), ratio(all[3], all[4]));
}

static void print_growth(const Words &words, const char *names, size_t turns)
{
    std::printf("\nThe checks before an event, %s, nanoseconds: the shortest of %zu turns, and the medians of the turns' ratios.\n\n", names, turns);
    std::printf("| rows | bytes of the chart | memcmp of it | check 8: library | engine | 8 and 9 (run of 0): library | engine | library's 8 / memcmp | "
                "library's 8 and 9 / engine's |\n|---|---|---|---|---|---|---|---|---|\n");
    for (size_t rows : {8, 16, 32, 64, 128, 256})
        print_checks(rows, words, turns);
}

static size_t number(const char *text)
{
    char *end;
    const unsigned long value = std::strtoul(text, &end, 10);
    if (*text == 0 || *end != 0)
        fail(std::string(text) + " is no number");
    return value;
}

// By its name the counting of instructions knows where to begin and to end (instructions).
extern "C" __attribute__((noinline)) void counted_events(Contender &who, const Events &events, size_t count)
{
    who.play(events, count);
}

static void count(size_t chosen, size_t who, size_t events)
{
    const std::vector<Case> all = cases();
    if (chosen >= all.size())
        fail("no such case");
    const Compiled compiled(all[chosen].description);
    std::vector<Any> these = contenders(all[chosen], compiled);
    if (who >= these.size())
        fail("no such contender");
    these[who]->play(all[chosen].events, all[chosen].events.size());
    counted_events(*these[who], all[chosen].events, events);
}

static void list()
{
    const std::vector<Case> all = cases();
    const Compiled compiled(all[0].description);
    for (const Case &c : all)
        std::printf("case: %s\n", c.about.c_str());
    for (const Any &one : contenders(all[0], compiled))
        std::printf("contender: %s\n", one->name().c_str());
}

// Everyone does the same on every chart before anything is measured.
static bool measure(size_t turns)
{
    for (const Case &c : cases()) {
        const Compiled compiled(c.description);
        std::vector<Any> all = contenders(c, compiled);
        try_events(c, all);
    }
    const bool kept = print_events(turns);
    print_growth(SHORT, "names of 1 to 4 bytes", turns);
    print_growth(LONG, "names of about 20 bytes", turns);
    return kept;
}

int main(int argc, char **argv)
{
#ifdef WITH_QT
    QCoreApplication application(argc, argv);
    QLoggingCategory::setFilterRules(QStringLiteral("*=false"));
#endif
    const std::vector<std::string> arguments(argv + 1, argv + argc);
    const bool strict = !arguments.empty() && arguments[0] == "--strict";
    const std::string what = arguments.size() > strict ? arguments[strict] : "31";
    if (what == "list") {
        list();
    } else if (what == "count" && arguments.size() == 4) {
        count(number(argv[2]), number(argv[3]), number(argv[4]));
    } else {
        const bool kept = measure(std::max<size_t>(1, number(what.c_str())));
        return strict && !kept ? 1 : 0;
    }
    return 0;
}
