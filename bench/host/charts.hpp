// Charts as they are described here once: compiled for the library and the engine, and as SCXML text for Qt.
#pragma once
#include "auttervil.h"
#include <cstdio>
#include <cstdlib>
#include <string>
#include <vector>

[[noreturn]] inline void fail(const std::string &what)
{
    std::fprintf(stderr, "host: %s\n", what.c_str());
    std::exit(1);
}

// The initial list, and so many host actions in its entry and its exit block: charts that Qt is given have none of them.
struct Row {
    uint64_t kind;
    std::string parent, id;
    std::string initial = {};
    size_t entry = 0, exit = 0;
};

// The descriptors stand in one text; without a target there is none, and an event that is raised is all that the block does.
struct Transition {
    std::string source, event, target, raised = {};
};

// The first row is the first child of the root; a parent without an id is the root.
struct Description {
    std::vector<Row> rows;
    std::vector<Transition> transitions;

    size_t row_count() const { return rows.size() + 1; }
};

// The chart of the contract's example, with a way back.
inline Description chart_a()
{
    const uint64_t state = AUTTERVIL_KIND_STATE, parallel = AUTTERVIL_KIND_PARALLEL, final = AUTTERVIL_KIND_FINAL;
    return {{{parallel, "", "p"}, {state, "p", "S1"}, {state, "S1", "S11"}, {state, "S1", "S12"}, {final, "S1", "S1Final"},
             {state, "p", "S2"}, {state, "S2", "S21"}, {state, "S2", "S22"}, {final, "S2", "S2Final"}, {state, "", "someOtherState"}},
            {{"p", "done.state.p", "someOtherState"}, {"S11", "e4", "S12"}, {"S12", "e1", "S1Final"}, {"S21", "e1", "S22"},
             {"S22", "e2", "S2Final"}, {"someOtherState", "again", "p"}}};
}

// How the ids and events of such a chart are spelt; a number follows those of which there are several.
struct Words {
    const char *parallel, *region, *first, *second, *all, *one, *resting, *child;
};

const Words SHORT = {"p", "r", "a", "b", "all", "one", "resting", "x"};
// About 20 bytes each, which begin alike, as those of real charts do.
const Words LONG = {"container.supervisor", "health.check.region", "health.check.passed", "health.check.failed",
                    "health.check.all.due", "health.check.one.due", "health.check.resting", "health.check.unused"};

// A parallel of so many regions with two states each: on one event every region changes its state, on another the first alone. The rows left over stand in a
// state that is never active (as in src/charts.rs).
inline Description regions(size_t rows, size_t count, const Words &words)
{
    Description d;
    d.rows.push_back({AUTTERVIL_KIND_PARALLEL, "", words.parallel});
    for (size_t i = 0; i < count; i++) {
        const std::string number = std::to_string(i), region = words.region + number, a = words.first + number, b = words.second + number;
        d.rows.push_back({AUTTERVIL_KIND_STATE, words.parallel, region});
        d.rows.push_back({AUTTERVIL_KIND_STATE, region, a});
        d.rows.push_back({AUTTERVIL_KIND_STATE, region, b});
        d.transitions.push_back({a, words.all, b});
        d.transitions.push_back({b, words.all, a});
        if (i == 0) {
            d.transitions.push_back({a, words.one, b});
            d.transitions.push_back({b, words.one, a});
        }
    }
    if (d.row_count() < rows)
        d.rows.push_back({AUTTERVIL_KIND_STATE, "", words.resting});
    for (size_t i = 1; d.row_count() < rows; i++) {
        const std::string id = words.child + std::to_string(i);
        d.rows.push_back({AUTTERVIL_KIND_STATE, words.resting, id});
        d.transitions.push_back({id, words.all, words.child + std::string("1")});
    }
    return d;
}

// As SCXML text: a row with its transitions, and its children in it.
inline std::string scxml_row(const Description &d, const Row &row);

inline std::string scxml_children(const Description &d, const std::string &parent)
{
    std::string text;
    for (const Row &row : d.rows)
        if (row.parent == parent)
            text += scxml_row(d, row);
    return text;
}

inline std::string scxml_row(const Description &d, const Row &row)
{
    const std::string tag = row.kind == AUTTERVIL_KIND_PARALLEL ? "parallel" : row.kind == AUTTERVIL_KIND_FINAL ? "final" : "state";
    std::string text = "<" + tag + " id=\"" + row.id + "\">\n";
    for (const Transition &t : d.transitions)
        if (t.source == row.id)
            text += "<transition event=\"" + t.event + "\" target=\"" + t.target + "\"/>\n";
    return text + scxml_children(d, row.id) + "</" + tag + ">\n";
}

inline std::string scxml(const Description &d)
{
    return "<scxml xmlns=\"http://www.w3.org/2005/07/scxml\" version=\"1.0\">\n" + scxml_children(d, "") + "</scxml>\n";
}

// Compiled by the library; the engine is lent the same places.
class Compiled
{
public:
    explicit Compiled(const Description &d)
    {
        const size_t rows = d.row_count(), transitions = d.transitions.size(), descriptors = AUTTERVIL_DESCRIPTORS_EACH * transitions, references = transitions + rows;
        size_t actions = transitions;
        for (const Row &row : d.rows)
            actions += row.entry + row.exit;
        std::vector<uint64_t> cells(AUTTERVIL_NUMBERS_CELLS(rows, transitions, references, descriptors, actions));
        std::vector<uint8_t> bytes(AUTTERVIL_NAMES_BYTES(AUTTERVIL_MOST_NAMES));
        auttervil_builder b;
        auttervil_begin(&b, {rows, transitions, references, descriptors, actions, AUTTERVIL_MOST_NAMES}, cells.data(), cells.size(), bytes.data(), bytes.size());
        for (const Row &row : d.rows)
            auttervil_add_row(&b, row.kind, row.parent.c_str(), row.id.c_str());
        for (const Row &row : d.rows)
            add_parts(&b, row);
        for (const Transition &t : d.transitions) {
            auttervil_add_transition(&b, t.source.c_str(), t.event.c_str(), t.target.c_str());
            if (!t.raised.empty())
                auttervil_add_raise(&b, t.raised.c_str());
        }
        auttervil_tables tables;
        if (auttervil_finish(&b, &tables) != AUTTERVIL_FAULT_NONE)
            fail(auttervil_strfault(b.fault));
        const auttervil_sized size = auttervil_sizes(&tables);
        numbers.resize(size.cells);
        names.resize(size.bytes);
        const auttervil_compiled compiled = auttervil_compile(&tables, numbers.data(), numbers.size(), names.data(), names.size());
        if (compiled.answer != AUTTERVIL_DONE)
            fail(auttervil_strstatus(compiled.answer));
        chart = compiled.chart;
    }

    std::vector<uint64_t> numbers;
    std::vector<uint8_t> names;
    auttervil_chart chart;

private:
    static void add_parts(auttervil_builder *b, const Row &row)
    {
        if (row.entry > 0)
            auttervil_add_entry(b, row.id.c_str());
        for (size_t i = 0; i < row.entry; i++)
            auttervil_add_host(b, i);
        if (row.exit > 0)
            auttervil_add_exit(b, row.id.c_str());
        for (size_t i = 0; i < row.exit; i++)
            auttervil_add_host(b, i);
        if (!row.initial.empty())
            auttervil_add_list(b, row.id.c_str(), row.initial.c_str());
    }
};
