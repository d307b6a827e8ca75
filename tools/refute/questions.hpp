// The questions of a clause list of `cnf` about the order of events: read off its clauses, whose
// numbering is that of crates/bit_order and crates/bit_blast. A wrong reading only makes worse
// cubes.
#pragma once
#include <map>
#include <optional>

#include "clauses.hpp"

// Two events by their numbers: by the order of the threads' names, and then of the steps.
struct Pair {
    uint32_t lesser = 0, greater = 0;
};

class Questions {
   public:
    explicit Questions(const List& list) : list(list), gates(static_cast<size_t>(list.variables) + 1), is_root(2 * gates.size()) {
        for (Number number = 1; number <= list.size(); ++number) {
            if (list[number].size() == 1) is_root[place_of(list[number][0])] = true;
            read_gate(number);
        }
        read_comparators();
        for (Number number = 1; number <= list.size(); ++number) {
            read_regions(list[number]);
            read_load(number);
        }
        std::sort(orders.begin(), orders.end());
        orders.erase(std::unique(orders.begin(), orders.end()), orders.end());
    }

    // That one region of a mutex is left before another begins, or one of two cases of a condition; or whether a load comes before a
    // write that it may take.
    std::vector<Literal> orders;
    // That a load takes a write, or the value at the start.
    std::vector<Literal> takes;

    // Whether a variable says which of two events comes first, or what a load takes.
    bool is_asked(uint32_t variable) const { return pair_of(variable) || words.count(variable); }

    std::string meaning(Literal literal) const {
        const auto word = words.find(variable_of(literal));
        if (word != words.end()) return word->second + (literal > 0 ? "" : ", not so");
        const std::optional<Pair> pair = pair_of(variable_of(literal));
        if (!pair) return "";
        // The last gate of a comparator is false where the first event comes first.
        const bool is_first = literal < 0;
        return "event " + std::to_string(is_first ? pair->lesser : pair->greater) + " before event " +
               std::to_string(is_first ? pair->greater : pair->lesser);
    }

    size_t comparators() const { return pairs.size(); }

   private:
    // A gate is true where both literals are.
    struct Gate {
        Literal first = 0, second = 0;
    };

    // A comparator of two positions of 8 bits is a block of gates: 3 for the lowest bit and 4 for each other.
    static constexpr uint32_t BITS = 8, BLOCK_OF_PAIR = 3 + 4 * (BITS - 1);

    // A gate of x and y is the clauses (not x, not y, g), (x, not g) and (y, not g).
    void read_gate(Number number) {
        if (number + 2 > list.size()) return;
        const auto all = list[number], first = list[number + 1], second = list[number + 2];
        if (all.size() != 3 || first.size() != 2 || second.size() != 2) return;
        const Literal gate = all[2];
        if (gate <= 0 || first[1] != -gate || second[1] != -gate || first[0] != -all[0] || second[0] != -all[1]) return;
        gates[static_cast<size_t>(gate)] = {first[0], second[0]};
    }

    static bool is_gate(const Gate& gate, Literal a, Literal b) {
        return (gate.first == a && gate.second == b) || (gate.first == b && gate.second == a);
    }

    const Gate& gate_at(uint32_t variable) const { return gates[std::min<size_t>(variable, gates.size() - 1)]; }

    // The pair of the comparator whose first gate has this variable, if there is one.
    std::optional<Pair> read_comparator(uint32_t gate) const {
        const Gate low = gate_at(gate);
        const Literal lesser = std::min(low.first, low.second), greater = std::max(low.first, low.second);
        // The position of an event e has the variables from 2 + 8 * e on, the highest bit first.
        if (lesser >= 0 || greater <= -lesser || -lesser % 8 != 1 || greater % 8 != 1 || -lesser < 9) return {};
        const Literal one = static_cast<Literal>(gate);
        const bool is_one = is_gate(gate_at(gate + 1), -lesser, -greater) && is_gate(gate_at(gate + 2), one + 1, -one) &&
                            is_gate(gate_at(gate + BLOCK_OF_PAIR - 4), lesser + 7, greater - 7);
        if (!is_one) return {};
        return Pair{static_cast<uint32_t>(-lesser) / 8 - 1, static_cast<uint32_t>(greater) / 8 - 1};
    }

    // Those of all pairs follow each other, before any other gate.
    void read_comparators() {
        while (start < gates.size() && gates[start].first == 0) ++start;
        uint32_t gate = static_cast<uint32_t>(start);
        while (const std::optional<Pair> pair = read_comparator(gate)) {
            pairs.push_back(*pair);
            gate += BLOCK_OF_PAIR;
        }
        // A comparison of wider words begins like one of positions, and goes on where that ends.
        const Gate& next = gate_at(gate + 2);
        const Literal last = -static_cast<Literal>(gate - 1);
        if (!pairs.empty() && (next.first == last || next.second == last)) pairs.pop_back();
    }

    std::optional<Pair> pair_of(uint32_t variable) const {
        if (variable < start || (variable - start) % BLOCK_OF_PAIR != BLOCK_OF_PAIR - 1) return {};
        const size_t number = (variable - start) / BLOCK_OF_PAIR;
        return number < pairs.size() ? std::optional<Pair>(pairs[number]) : std::nullopt;
    }

    // A root that says that one of two comparisons is so.
    void read_regions(Span<const Literal> clause) {
        if (clause.size() != 1 || clause[0] >= 0) return;
        const Gate& gate = gates[variable_of(clause[0])];
        if (gate.first != 0 && pair_of(variable_of(gate.first)) && pair_of(variable_of(gate.second))) orders.push_back(-gate.first);
    }

    // A clause that says that a load takes the value at the start or one of its writes: variables that follow each other, the first
    // of them after that of the load's root.
    void read_load(Number number) {
        const auto clause = list[number];
        if (clause.size() < 3 || clause[0] < 2 || !is_root[place_of(clause[0] - 1)]) return;
        for (size_t k = 1; k < clause.size(); ++k) {
            if (clause[k] != clause[0] + static_cast<Literal>(k)) return;
        }
        const std::vector<std::optional<Pair>> seen = read_seen(number, clause);
        const std::string load = load_of(seen);
        for (size_t k = 0; k < clause.size(); ++k) {
            takes.push_back(clause[k]);
            words[variable_of(clause[k])] = load + " takes " + write_of(seen, k);
        }
    }

    // For each write of a load the pair of the two, where the load sees it by their order alone: a clause (seen, not taken).
    std::vector<std::optional<Pair>> read_seen(Number number, Span<const Literal> clause) {
        std::vector<std::optional<Pair>> seen(clause.size());
        const Literal last = clause[clause.size() - 1];
        for (Number next = number + 1; next <= list.size(); ++next) {
            const auto other = list[next];
            const Literal taken = other.size() == 2 ? -other[1] : 0;
            if (other.size() > 0 && other[other.size() - 1] > last) break;
            if (taken <= clause[0] || taken > last) continue;
            const std::optional<Pair> pair = pair_of(variable_of(other[0]));
            seen[static_cast<size_t>(taken - clause[0])] = pair;
            if (pair) orders.push_back(static_cast<Literal>(variable_of(other[0])));
        }
        return seen;
    }

    // The event that all pairs have.
    static std::optional<uint32_t> common(const std::vector<std::optional<Pair>>& seen) {
        std::map<uint32_t, size_t> counts;
        size_t pairs = 0;
        for (const auto& pair : seen) {
            if (!pair) continue;
            ++pairs;
            ++counts[pair->lesser];
            ++counts[pair->greater];
        }
        for (const auto& [event, count] : counts) {
            if (pairs > 1 && count == pairs) return event;
        }
        return {};
    }

    static std::string load_of(const std::vector<std::optional<Pair>>& seen) {
        const std::optional<uint32_t> load = common(seen);
        return load ? "the load of event " + std::to_string(*load) : "a load";
    }

    static std::string write_of(const std::vector<std::optional<Pair>>& seen, size_t place) {
        if (place == 0) return "the value at the start";
        const std::optional<uint32_t> load = common(seen);
        if (!load || !seen[place]) return "its write " + std::to_string(place);
        return "the write of event " + std::to_string(seen[place]->lesser == *load ? seen[place]->greater : seen[place]->lesser);
    }

    const List& list;
    std::vector<Gate> gates;
    std::vector<bool> is_root;
    // The variable of the first gate.
    size_t start = 1;
    std::vector<Pair> pairs;
    std::map<uint32_t, std::string> words;
};
