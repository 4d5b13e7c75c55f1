// rounds list: charts that never rest, since each round raises what the next one takes.
// rounds count CASE ROUNDS: a run of so many rounds, for counting instructions. It needs of the header what every version of it has, so that two of them can be compared.
#include "charts.hpp"

const uint64_t STATE = AUTTERVIL_KIND_STATE;
// No chart here has a round of more entries.
const size_t ROOM_EACH = 256;

struct Case {
    std::string about;
    Description description;
    std::string event;
};

// The contract's example, which begins again by itself (as in src/charts.rs).
static Description raising_chart_a()
{
    Description d = chart_a();
    d.transitions = {{"p", "done.state.p", "someOtherState", "e3"}, {"S11", "e4", "S12", "e1"}, {"S12", "e1", "S1Final", "e2"}, {"S21", "e1", "S22"},
                     {"S22", "e2", "S2Final"}, {"someOtherState", "e3", "p", "e4"}};
    d.rows[1].initial = "S11";
    d.rows[5].initial = "S21";
    return d;
}

// The first region raises the event that it takes.
static Description raising_regions(size_t rows, size_t count)
{
    Description d = regions(rows, count, SHORT);
    for (size_t i = 0; i < 4; i++)
        d.transitions[i].raised = d.transitions[i].event;
    return d;
}

// Two states that change, with so many actions on each exit and each entry.
static Description two_states(size_t actions)
{
    return {{{STATE, "", "a", "", actions, actions}, {STATE, "", "b", "", actions, actions}}, {{"a", "e", "b", "e"}, {"b", "e", "a", "e"}}};
}

// A state to and fro one with so many states in each other; the outermost lists the innermost, or each is entered by default.
static Description nested(size_t depth, bool listed)
{
    Description d = {{{STATE, "", "a"}}, {{"a", "e", "n1", "e"}, {"n1", "e", "a", "e"}}};
    for (size_t i = 1; i <= depth; i++)
        d.rows.push_back({STATE, i == 1 ? "" : "n" + std::to_string(i - 1), "n" + std::to_string(i)});
    if (listed)
        d.rows[1].initial = "n" + std::to_string(depth);
    return d;
}

static std::vector<Case> cases()
{
    return {{"chart A, raising", raising_chart_a(), "e4"},
            {"62 rows, 20 regions, all moving", raising_regions(62, 20), "all"},
            {"62 rows, 20 regions, one moving", raising_regions(62, 20), "one"},
            {"250 rows, 40 regions, all moving", raising_regions(250, 40), "all"},
            {"250 rows, 40 regions, one moving", raising_regions(250, 40), "one"},
            {"two states that change", two_states(0), "e"},
            {"two states that change, 8 actions on each exit and entry", two_states(8), "e"},
            {"an initial list that names a row below a child", nested(3, true), "e"},
            {"40 nested default entries", nested(41, false), "e"}};
}

// By its name the counting of instructions knows where to begin and to end (instructions).
extern "C" __attribute__((noinline)) auttervil_ran counted_events(const Compiled &compiled, auttervil_session &session, uint32_t rounds, std::vector<uint32_t> &trace)
{
    return auttervil_run(&session, &compiled.chart, rounds, trace.data(), trace.size());
}

static void count(const Case &c, uint32_t rounds)
{
    const Compiled compiled(c.description);
    std::vector<uint32_t> trace(ROOM_EACH * (rounds + 1));
    auttervil_session session;
    if (auttervil_start(&session, &compiled.chart, trace.data(), trace.size()).answer != AUTTERVIL_DONE
        || auttervil_post(&session, &compiled.chart, c.event.data(), c.event.size()) != AUTTERVIL_DONE)
        fail("a start or a post is refused");
    const auttervil_ran ran = counted_events(compiled, session, rounds, trace);
    if (ran.status != AUTTERVIL_MORE || ran.rounds != rounds)
        fail("the chart rests: " + c.about);
}

int main(int argc, char **argv)
{
    const std::vector<Case> all = cases();
    if (argc == 4 && std::string(argv[1]) == "count") {
        count(all.at(std::strtoul(argv[2], nullptr, 10)), static_cast<uint32_t>(std::strtoul(argv[3], nullptr, 10)));
    } else {
        for (const Case &c : all)
            std::printf("%s\n", c.about.c_str());
    }
    return 0;
}
