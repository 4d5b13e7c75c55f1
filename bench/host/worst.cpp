// worst [turns]: the dearest calls that we know of, by rows; a table in Markdown for each of the two charts.
// worst count SOURCE ROWS ROUNDS: a run of so many rounds without a clock, for counting instructions; worst list: the charts' sources, the rows, and the rounds that
// their room lets a run do.
#include "charts.hpp"
#include "measure.hpp"

const size_t ROWS[] = {8, 16, 32, 64, 128, 256};

// So many bytes that end in the letter and the number and have a dot at every other place before.
static std::string spelt(char letter, size_t number, size_t bytes)
{
    const std::string end = letter + std::to_string(number);
    std::string text;
    while (text.size() + end.size() < bytes)
        text += text.size() % 2 == 0 ? 'a' : text.size() + end.size() + 1 < bytes ? '.' : 'a';
    return text + end;
}

// What the transitions start from: each state has two, or the parallel has them all.
const char *const SOURCES[] = {"states", "parallel"};

// Four descriptors that differ from the event at their ends alone; of the transition that matches, the last one is the event.
static std::string misses(size_t first, size_t distinct, const std::string &event, bool matches)
{
    std::string descriptors;
    for (size_t k = 0; k < AUTTERVIL_DESCRIPTORS_EACH - 1; k++)
        descriptors += spelt('d', (first + k) % distinct, 63) + " ";
    return descriptors + (matches ? event : spelt('d', (first + AUTTERVIL_DESCRIPTORS_EACH - 1) % distinct, 63));
}

// All rows but two are active states without children. The very last transition matches and raises the event again: so each round tries every descriptor of the chart and
// writes three entries, and nothing but the room ends a run. Where the parallel has the transitions, every state's climb comes to them, and each is tried once all the same.
static Description dear(const std::string &source, size_t rows, const std::string &event)
{
    Description d;
    d.rows.push_back({AUTTERVIL_KIND_PARALLEL, "", "p"});
    const size_t states = rows - 2, transitions = source == "states" ? 2 * states : 2 * rows;
    const size_t distinct = std::min<size_t>(AUTTERVIL_DESCRIPTORS_EACH * transitions, AUTTERVIL_MOST_NAMES - rows);
    for (size_t i = 0; i < states; i++)
        d.rows.push_back({AUTTERVIL_KIND_STATE, "p", spelt('s', i, AUTTERVIL_MOST_ID)});
    for (size_t t = 0; t < transitions; t++) {
        const bool matches = t + 1 == transitions;
        d.transitions.push_back({source == "states" ? spelt('s', t / 2, AUTTERVIL_MOST_ID) : "p", misses(AUTTERVIL_DESCRIPTORS_EACH * t, distinct, event, matches), "",
                                 matches ? event : ""});
    }
    return d;
}

struct Worst {
    std::string event;
    Compiled compiled;
    size_t room;
    std::vector<uint32_t> trace;
    auttervil_session begun;

    Worst(const std::string &source, size_t rows)
        : event(spelt('e', 0, 63)), compiled(dear(source, rows, event)), room(auttervil_room(&compiled.chart)), trace(room)
    {
        if (auttervil_start(&begun, &compiled.chart, trace.data(), room).answer != AUTTERVIL_DONE
            || auttervil_post(&begun, &compiled.chart, event.data(), event.size()) != AUTTERVIL_DONE)
            fail("a start or a post is refused");
    }

    size_t bytes() const { return 8 * compiled.numbers.size() + compiled.names.size(); }
};

// By its name the counting of instructions knows where to begin and to end (instructions).
extern "C" __attribute__((noinline)) auttervil_ran counted_events(Worst &worst, auttervil_session &session, uint32_t rounds)
{
    return auttervil_run(&session, &worst.compiled.chart, rounds, worst.trace.data(), worst.room);
}

// A run of as many rounds as there may be, from where the event waits.
static auttervil_ran whole(Worst &worst)
{
    auttervil_session session = worst.begun;
    return counted_events(worst, session, auttervil_most_rounds(worst.room));
}

static void print_times(const std::string &source, size_t rows, size_t turns)
{
    Worst worst(source, rows);
    const auttervil_ran ran = whole(worst);
    if (ran.status != AUTTERVIL_NO_ROOM || ran.rounds == 0)
        fail("the room does not end the run");
    std::vector<Timed> all(2);
    all[0].work = [&](size_t count) { for (; count > 0; count--) { auttervil_session session = worst.begun; counted_events(worst, session, 0); } };
    all[1].work = [&](size_t count) { for (; count > 0; count--) whole(worst); };
    take_turns(all, 1, turns);
    const double checks = all[0].shortest(), run = all[1].shortest();
    std::printf("| %zu | %zu | %zu | %u | %u | %.1f | %.2f | %.2f |\n", rows, worst.bytes(), worst.room, auttervil_most_rounds(worst.room), ran.rounds, checks / 1e3,
                (run - checks) / ran.rounds / 1e3, run / 1e6);
}

static void print_table(const std::string &source, size_t turns)
{
    std::printf("\nThe dearest run that we know of, transitions from the %s, with the room that auttervil_room() says: the shortest of %zu turns.\n\n", source.c_str(), turns);
    std::printf("| rows | bytes of the chart | room | rounds at most | rounds done | checks 8 and 9, µs | a round, µs | the run, ms |\n|---|---|---|---|---|---|---|---|\n");
    for (size_t rows : ROWS)
        print_times(source, rows, turns);
}

static void list()
{
    for (const std::string source : SOURCES) {
        for (size_t rows : ROWS) {
            Worst worst(source, rows);
            std::printf("%s %zu %zu %zu %u %u\n", source.c_str(), rows, worst.bytes(), worst.room, auttervil_most_rounds(worst.room), whole(worst).rounds);
        }
    }
}

int main(int argc, char **argv)
{
    const std::string what = argc > 1 ? argv[1] : "11";
    if (what == "list") {
        list();
    } else if (what == "count" && argc == 5) {
        Worst worst(argv[2], std::strtoul(argv[3], nullptr, 10));
        auttervil_session session = worst.begun;
        counted_events(worst, session, static_cast<uint32_t>(std::strtoul(argv[4], nullptr, 10)));
    } else {
        for (const std::string source : SOURCES)
            print_table(source, std::max<size_t>(1, std::strtoul(what.c_str(), nullptr, 10)));
    }
    return 0;
}
