// Whoever takes events: the library, the engine of bench/, and what a C author writes by hand.
#pragma once
#include "charts.hpp"
#include <cstring>
#include <set>

// The engine has the header's layouts (engine/src/lib.rs).
extern "C" {
uint32_t engine_is_compiled(const auttervil_chart *chart);
auttervil_started engine_start(auttervil_session *session, auttervil_clock *clock, const auttervil_chart *chart, uint32_t *trace, size_t room);
uint32_t engine_post(auttervil_session *session, const auttervil_chart *chart, const char *name, size_t length);
auttervil_ran engine_run(auttervil_session *session, auttervil_clock *clock, const auttervil_chart *chart, uint32_t rounds, uint32_t *trace, size_t room);
auttervil_stepped engine_step(auttervil_session *session, auttervil_clock *clock, const auttervil_chart *chart, const char *name, size_t length, uint32_t rounds, uint32_t *trace,
                              size_t room);
}

typedef std::vector<std::string> Events;
typedef std::set<std::string> States;

const uint32_t MOST_ROUNDS = 100;

class Contender
{
public:
    virtual ~Contender() {}
    virtual std::string name() const = 0;
    // So many events, from the first of the list on and again from there when it ends.
    virtual void play(const Events &events, size_t count) = 0;
    // The ids of the active states without children.
    virtual States active() const = 0;
    virtual const auttervil_session *session() const { return nullptr; }
};

template <class Send> void each(const Events &events, size_t count, Send send)
{
    for (size_t at = 0; count > 0; count--) {
        send(events[at]);
        at = at + 1 == events.size() ? 0 : at + 1;
    }
}

// A session with a trace as long as the chart asks for.
class OnSession : public Contender
{
public:
    OnSession(const Compiled &compiled) : chart(&compiled.chart), trace(auttervil_room(chart)) {}
    const auttervil_session *session() const override { return &own; }

    States active() const override
    {
        States found;
        for (uint64_t row = 1; row < auttervil_row_count(chart); row++)
            if (auttervil_is_active(&own, row) && !has_child(row))
                found.insert(auttervil_row_id(chart, row));
        return found;
    }

protected:
    bool has_child(uint64_t parent) const
    {
        for (uint64_t row = 1; row < auttervil_row_count(chart); row++)
            if (auttervil_row_parent(chart, row) == parent)
                return true;
        return false;
    }

    void must(bool holds) const
    {
        if (!holds)
            fail(name() + " refuses");
    }

    const auttervil_chart *chart;
    std::vector<uint32_t> trace;
    auttervil_session own;
};

class Library : public OnSession
{
public:
    explicit Library(const Compiled &compiled) : OnSession(compiled) { must(auttervil_start(&own, chart, trace.data(), trace.size()).answer == AUTTERVIL_DONE); }
    std::string name() const override { return "library: post, run"; }

    void play(const Events &events, size_t count) override
    {
        each(events, count, [this](const std::string &event) {
            must(auttervil_post(&own, chart, event.data(), event.size()) == AUTTERVIL_DONE);
            must(auttervil_run(&own, chart, MOST_ROUNDS, trace.data(), trace.size()).status == AUTTERVIL_IDLE);
        });
    }
};

class LibraryStep : public Library
{
public:
    using Library::Library;
    std::string name() const override { return "library: one call"; }

    void play(const Events &events, size_t count) override
    {
        each(events, count, [this](const std::string &event) {
            const auttervil_stepped stepped = auttervil_step(&own, chart, event.data(), event.size(), MOST_ROUNDS, trace.data(), trace.size());
            must(stepped.answer == AUTTERVIL_DONE && stepped.status == AUTTERVIL_IDLE);
        });
    }
};

class Engine : public OnSession
{
public:
    explicit Engine(const Compiled &compiled) : OnSession(compiled) { must(engine_start(&own, &own.clock, chart, trace.data(), trace.size()).answer == AUTTERVIL_DONE); }
    std::string name() const override { return "engine: post, run"; }

    void play(const Events &events, size_t count) override
    {
        each(events, count, [this](const std::string &event) {
            must(engine_post(&own, chart, event.data(), event.size()) == AUTTERVIL_DONE);
            must(engine_run(&own, &own.clock, chart, MOST_ROUNDS, trace.data(), trace.size()).status == AUTTERVIL_IDLE);
        });
    }
};

class EngineStep : public Engine
{
public:
    using Engine::Engine;
    std::string name() const override { return "engine: one call"; }

    void play(const Events &events, size_t count) override
    {
        each(events, count, [this](const std::string &event) {
            const auttervil_stepped stepped = engine_step(&own, &own.clock, chart, event.data(), event.size(), MOST_ROUNDS, trace.data(), trace.size());
            must(stepped.answer == AUTTERVIL_DONE && stepped.status == AUTTERVIL_IDLE);
        });
    }
};

// What an author writes by hand: names by strcmp, no trace, no queue, nothing checked.
class SwitchA : public Contender
{
public:
    std::string name() const override { return "switch"; }

    void play(const Events &events, size_t count) override
    {
        each(events, count, [this](const std::string &event) { take(event.c_str()); });
    }

    States active() const override
    {
        static const char *const first[] = {"S11", "S12", "S1Final"}, *const second[] = {"S21", "S22", "S2Final"};
        return elsewhere ? States{"someOtherState"} : States{first[one], second[two]};
    }

private:
    void take(const char *event)
    {
        if (elsewhere) {
            if (std::strcmp(event, "again") == 0)
                elsewhere = one = two = 0;
            return;
        }
        switch (one) {
        case 0: one += std::strcmp(event, "e4") == 0; break;
        case 1: one += std::strcmp(event, "e1") == 0; break;
        }
        switch (two) {
        case 0: two += std::strcmp(event, "e1") == 0; break;
        case 1: two += std::strcmp(event, "e2") == 0; break;
        }
        elsewhere = one == 2 && two == 2;
    }

    int elsewhere = 0, one = 0, two = 0;
};

class SwitchRegions : public Contender
{
public:
    SwitchRegions(size_t count, const Words &spelt) : words(spelt), second(count) {}
    std::string name() const override { return "switch"; }

    void play(const Events &events, size_t count) override
    {
        each(events, count, [this](const std::string &event) { take(event.c_str()); });
    }

    States active() const override
    {
        States found;
        for (size_t i = 0; i < second.size(); i++)
            found.insert((second[i] ? words.second : words.first) + std::to_string(i));
        return found;
    }

private:
    void take(const char *event)
    {
        if (std::strcmp(event, words.all) == 0)
            for (unsigned char &region : second)
                region ^= 1;
        else if (std::strcmp(event, words.one) == 0)
            second[0] ^= 1;
    }

    const Words words;
    std::vector<unsigned char> second;
};
