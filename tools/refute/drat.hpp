// A DRAT proof, as text: forward up to the conflict, then back for the lines that are needed and the clauses that show them.
#pragma once
#include "needed.hpp"
#include "propagation.hpp"

class Drat {
   public:
    // Of a list with the cube's literals as clauses of their own.
    Drat(const List& list, const Clause& cube, const std::string& proof) : list(list), proof(proof), state(blocks) {
        size_t heads_count = 1 << 20;
        while (heads_count < list.size()) heads_count *= 2;
        heads.resize(heads_count);
        state.widen(static_cast<uint32_t>(list.variables));
        is_assumed.resize(2 * static_cast<size_t>(list.variables) + 2);
        for (const Literal literal : cube) {
            is_assumed[place_of(literal)] = true;
            if (state.is_open(literal)) state.make_true(literal, 0);
        }
    }

    // Goes through the proof up to the first conflict.
    void forward() {
        Clause clause;
        for (Number number = 1; number <= list.size(); ++number) {
            clause.assign(list[number].begin(), list[number].end());
            come(clause);
        }
        if (!conflict) conflict = state.propagate();
        Lines lines(proof);
        std::string_view line;
        while (!conflict && lines.next(line)) {
            if (!says_something(line)) continue;
            if (read_step(line, lines.number(), clause)) {
                go(clause);
            } else {
                come(clause);
                if (!conflict) conflict = state.propagate();
            }
        }
        if (!conflict) throw Refused("the proof doesn't come to the empty clause");
        end = lines.place();
        count = lines.number();
        std::vector<Ref>().swap(heads);
    }

    // From the conflict back: pushes the lines that are needed.
    void backward(Stack& needed) {
        push_conflict(needed);
        const Handle file(proof, O_RDONLY);
        Backward lines(file, end);
        std::string_view line;
        Number number = last;
        size_t gone = deleted.size();
        Clause clause;
        for (uint64_t place = count; lines.previous_line(line); --place) {
            if (!says_something(line)) continue;
            if (read_step(line, place, clause)) {
                if (const Number back = deleted[--gone]) come_back(clause, back);
            } else {
                leave(number--, place, needed);
            }
        }
    }

    // The literals of the cube that the lines use.
    const Clause& assumed() const { return used; }
    Number highest() const { return last + 1; }

   private:
    // Whether the line deletes its clause.
    bool read_step(std::string_view line, uint64_t number, Clause& clause) {
        const bool goes = line[0] == 'd';
        const bool are_numbers = read_numbers(goes ? line.substr(1) : line, step);
        if (!are_numbers || step.empty() || step.back() != 0) throw no_line(number);
        step.pop_back();
        clause.clear();
        for (const int64_t literal : step) {
            if (literal == 0 || literal > MOST_VARIABLE || -literal > MOST_VARIABLE) throw no_line(number);
            clause.push_back(static_cast<Literal>(literal));
        }
        sort_literals(clause);
        return goes;
    }

    Unusable no_line(uint64_t number) const { return Unusable(proof + ": line " + std::to_string(number) + " is no line of a DRAT proof"); }

    void come(const Clause& clause) {
        if (last == ~Number(0) - 1) throw Unusable("list and proof have more than 4294967294 clauses");
        ++last;
        if (!clause.empty()) state.widen(variable_of(clause.back()));
        const Ref ref = blocks.add(clause, last);
        Ref& head = head_of(clause);
        blocks.next(ref) = head;
        head = ref;
        if (last > list.size()) refs.push_back(ref);
        if (!conflict && !is_tautology(clause) && !state.watch(ref)) conflict = ref;
    }

    void go(const Clause& clause) {
        Ref* from = &head_of(clause);
        while (*from && !is_same(*from, clause)) from = &blocks.next(*from);
        const Ref ref = *from;
        // A missing clause can't go, and a reason stays: more clauses show nothing else.
        if (!ref || state.is_reason(ref)) {
            deleted.push_back(0);
            return;
        }
        deleted.push_back(blocks.number(ref));
        *from = blocks.next(ref);
        state.forget(ref);
    }

    void come_back(const Clause& clause, Number number) {
        const Ref ref = blocks.add(clause, number);
        if (number > list.size()) refs[number - list.size() - 1] = ref;
        if (!is_tautology(clause)) state.watch(ref);
    }

    // The clause of a line isn't there any more; if it is needed it has to be shown.
    void leave(Number number, uint64_t line, Stack& needed) {
        const Ref ref = refs[number - list.size() - 1];
        const bool is_needed = blocks.is_needed(ref);
        const Clause clause(blocks[ref].begin(), blocks[ref].end());
        state.take_back_reason(ref);
        state.forget(ref);
        if (!is_needed) return;
        Needed shown{line, number, clause, {}, {}};
        if (!show(clause, shown)) throw Refused("line " + std::to_string(line) + " isn't by unit propagation");
        needed.push(shown);
    }

    // Finds clauses that show one by unit propagation.
    bool show(const Clause& clause, Needed& shown) {
        Ref found = state.propagate();
        if (found) {
            give_hints(found, 0, shown);
            return true;
        }
        const size_t length = state.length();
        for (const Literal literal : clause) {
            if (!state.is_true(literal)) continue;
            // It is true already: its opposite is in conflict with what made it so.
            if (!state.reason_of(literal)) return false;
            give_hints(state.reason_of(literal), variable_of(literal), shown);
            return true;
        }
        for (const Literal literal : clause) {
            if (state.is_open(literal)) state.make_true(-literal, 0);
        }
        found = state.propagate();
        if (found) give_hints(found, 0, shown);
        state.take_back(length);
        return found;
    }

    void give_hints(Ref found, uint32_t given, Needed& shown) {
        const auto take = [&](Literal literal) {
            const size_t place = place_of(literal);
            if (place >= is_assumed.size() || !is_assumed[place]) return;
            is_assumed[place] = false;
            used.push_back(literal);
        };
        for (const Ref ref : state.explain(found, given, take)) {
            const Number number = blocks.number(ref);
            shown.hints.push_back(number);
            if (state.need(ref) && number > list.size()) shown.last.push_back(number);
        }
    }

    // The empty clause, unless a line of the proof adds it.
    void push_conflict(Stack& needed) {
        Needed shown{0, last + 1, {}, {}, {}};
        give_hints(conflict, 0, shown);
        if (blocks[conflict].size() > 0 || blocks.number(conflict) <= list.size()) needed.push(shown);
    }

    Ref& head_of(const Clause& clause) {
        uint64_t sum = 0;
        for (const Literal literal : clause) {
            uint64_t mixed = place_of(literal) * 0x9E3779B97F4A7C15u;
            sum += mixed ^ (mixed >> 29);
        }
        return heads[(sum ^ (sum >> 32)) & (heads.size() - 1)];
    }

    bool is_same(Ref ref, const Clause& clause) {
        const Span<Literal> other = blocks[ref];
        if (other.size() != clause.size()) return false;
        sorted.assign(other.begin(), other.end());
        std::sort(sorted.begin(), sorted.end(), by_variable);
        return sorted == clause;
    }

    const List& list;
    const std::string proof;
    Blocks blocks;
    Propagation state;
    // The literals of the cube that weren't used so far.
    std::vector<bool> is_assumed;
    Clause used;
    // The clauses by their literals: a chain for each remainder.
    std::vector<Ref> heads;
    // The clauses of the proof's lines.
    std::vector<Ref> refs;
    // For each line that deletes: the number of its clause, or 0 where it deleted nothing.
    std::vector<Number> deleted;
    Number last = 0;
    Ref conflict = 0;
    // Up to where the proof was read.
    uint64_t end = 0, count = 0;
    std::vector<int64_t> step;
    Clause sorted;
};
