// Cubes: splits a list by its questions, those first that fix most others by unit propagation.
#pragma once
#include <iterator>
#include <set>

#include "propagation.hpp"
#include "questions.hpp"

class Splitter {
   public:
    Splitter(const List& list, const Questions& questions, Text& text) : questions(questions), state(blocks), text(text) {
        state.widen(static_cast<uint32_t>(list.variables));
        for (Number number = 1; number <= list.size() && !is_closed; ++number) is_closed = !state.watch(blocks.add(list[number], number));
        is_closed = is_closed || state.propagate();
        is_asked.resize(static_cast<size_t>(list.variables) + 1);
        for (uint32_t variable = 1; variable < is_asked.size(); ++variable) is_asked[variable] = questions.is_asked(variable);
    }

    // Splits a cube as often as this, and writes a line for each cube that comes of it. How many these are.
    uint64_t split(const Clause& given, unsigned depth) {
        Clause cube;
        for (const Literal literal : given) is_closed = is_closed || !extend(cube, literal);
        if (is_closed) {
            write(given);
        } else {
            split(cube, depth, ranked(some_questions(), BEST));
        }
        return cubes;
    }

   private:
    // How many questions are tried at first, and how many of these at each cube.
    static constexpr size_t TRIED = 1000, BEST = 30;

    bool extend(Clause& cube, Literal literal) {
        cube.push_back(literal);
        if (state.is_open(literal)) state.make_true(literal, 0);
        return !state.is_false(literal) && !state.propagate();
    }

    void split(Clause& cube, unsigned depth, const std::vector<Literal>& candidates) {
        const size_t length = state.length();
        std::vector<Literal> best;
        if (depth > 0) best = ranked(candidates, 1);
        if (depth > 0 && best.empty()) best = ranked(some_questions(), 1);
        if (best.empty()) write(cube);
        for (const Literal literal : best.empty() ? Clause() : Clause{best[0], -best[0]}) {
            const size_t inner = state.length();
            if (extend(cube, literal)) {
                split(cube, depth - 1, candidates);
            } else {
                write(cube);
            }
            state.take_back(inner);
            cube.pop_back();
        }
        state.take_back(length);
    }

    // At most TRIED questions that are open, taken evenly from both kinds.
    std::vector<Literal> some_questions() const {
        std::vector<Literal> some;
        for (const auto* all : {&questions.orders, &questions.takes}) {
            std::vector<Literal> open;
            std::copy_if(all->begin(), all->end(), std::back_inserter(open), [&](Literal literal) { return state.is_open(literal); });
            const size_t step = open.size() / (TRIED / 2) + 1;
            for (size_t k = 0; k < open.size(); k += step) some.push_back(open[k]);
        }
        return some;
    }

    // The best of the open questions, the best first. What must be so, since its opposite comes to a conflict, is made true.
    std::vector<Literal> ranked(const std::vector<Literal>& candidates, size_t most) {
        std::vector<std::pair<uint64_t, Literal>> scores;
        for (const Literal literal : candidates) {
            if (!state.is_open(literal)) continue;
            const std::optional<uint64_t> yes = fixed_by(literal), no = fixed_by(-literal);
            if (yes && no) {
                scores.emplace_back((*yes + 1) * (*no + 1), literal);
            } else {
                state.make_true(yes ? literal : -literal, 0);
                if (state.propagate()) return {};
            }
        }
        std::sort(scores.rbegin(), scores.rend());
        std::vector<Literal> best;
        for (const auto& [_, literal] : scores) {
            if (best.size() < most && state.is_open(literal)) best.push_back(literal);
        }
        return best;
    }

    // How many questions a literal answers by unit propagation; none where it comes to a conflict.
    std::optional<uint64_t> fixed_by(Literal literal) {
        const size_t length = state.length();
        state.make_true(literal, 0);
        const bool is_conflict = state.propagate();
        uint64_t count = 0;
        for (size_t k = length; k < state.length(); ++k) count += is_asked[variable_of(state.at(k))];
        state.take_back(length);
        return is_conflict ? std::nullopt : std::optional<uint64_t>(count);
    }

    void write(const Clause& cube) {
        for (const Literal literal : cube) {
            if (!told.insert(variable_of(literal)).second) continue;
            for (const Literal of : {literal, -literal}) {
                text.put("c ");
                text.put(of);
                text.put(" " + questions.meaning(of) + "\n");
            }
        }
        text.put_all(cube);
        text.put("0\n");
        ++cubes;
    }

    const Questions& questions;
    Blocks blocks;
    Propagation state;
    Text& text;
    std::vector<bool> is_asked;
    bool is_closed = false;
    // The variables whose meaning was written.
    std::set<uint32_t> told;
    uint64_t cubes = 0;
};
