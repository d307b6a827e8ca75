// Unit propagation over clauses with two watched literals each: what they make true, and why.
#pragma once
#include "clauses.hpp"

// A clause is watched in one of two tables, that of the needed clauses or that of the others. What a table holds beside the two
// watches of the clauses that are there is dropped when it is next seen.
class Propagation {
   public:
    explicit Propagation(Blocks& blocks) : blocks(blocks) {}

    // There are variables up to this one.
    void widen(uint32_t variable) {
        if (variable < place.size()) return;
        const size_t count = std::max<size_t>(variable + 1, place.size() * 3 / 2);
        place.resize(count);
        reason.resize(count);
        seen.resize(count);
        value.resize(2 * count);
        for (Table& table : tables) table.resize(2 * count);
    }

    bool is_true(Literal literal) const { return value[place_of(literal)] > 0; }
    bool is_false(Literal literal) const { return value[place_of(literal)] < 0; }
    bool is_open(Literal literal) const { return value[place_of(literal)] == 0; }
    size_t length() const { return trail.size(); }
    Literal at(size_t place) const { return trail[place]; }
    Ref reason_of(Literal literal) const { return reason[variable_of(literal)]; }

    // Watches a clause from now on; false where all its literals are false.
    bool watch(Ref ref) {
        const Span<Literal> clause = blocks[ref];
        // Literals that aren't false come first, then those that became false last.
        for (size_t k = 0; k < std::min<size_t>(2, clause.size()); ++k) {
            size_t best = k;
            for (size_t other = k + 1; other < clause.size(); ++other) {
                if (is_better(clause[other], clause[best])) best = other;
            }
            std::swap(clause[k], clause[best]);
        }
        if (clause.size() > 1) watch_in(tables[blocks.is_needed(ref) ? NEEDED : OTHERS], ref);
        if (clause.size() == 0 || is_false(clause[0])) return false;
        if (is_open(clause[0]) && (clause.size() == 1 || is_false(clause[1]))) make_true(clause[0], ref);
        return true;
    }

    // The clause isn't there any more: it is no reason.
    void forget(Ref ref) {
        if (blocks[ref].size() > 1) dropped += 2;
        blocks.remove(ref);
        if (dropped > watched / 2 + (1 << 20)) sweep();
    }

    bool is_reason(Ref ref) const {
        const Span<Literal> clause = blocks[ref];
        return clause.size() > 0 && is_true(clause[0]) && reason[variable_of(clause[0])] == ref;
    }

    // The clause is needed: it moves to that table. False where it was already.
    bool need(Ref ref) {
        if (blocks.is_needed(ref)) return false;
        blocks.need(ref);
        if (blocks[ref].size() > 1) watch_in(tables[NEEDED], ref);
        return true;
    }

    void make_true(Literal literal, Ref why) {
        value[place_of(literal)] = 1;
        value[place_of(-literal)] = -1;
        place[variable_of(literal)] = static_cast<uint32_t>(trail.size());
        reason[variable_of(literal)] = why;
        trail.push_back(literal);
    }

    // The literals from that place of the trail on are open again.
    void take_back(size_t length) {
        for (size_t k = length; k < trail.size(); ++k) value[place_of(trail[k])] = value[place_of(-trail[k])] = 0;
        trail.resize(length);
        for (size_t& front : fronts) front = std::min(front, length);
    }

    // Also what the clause made true, and all that came after it.
    void take_back_reason(Ref ref) {
        if (is_reason(ref)) take_back(place[variable_of(blocks[ref][0])]);
    }

    // Makes true what clauses ask for, the needed ones first. The clause of which all literals are false, or 0.
    Ref propagate() {
        for (;;) {
            while (fronts[NEEDED] < trail.size()) {
                if (const Ref conflict = visit(NEEDED, -trail[fronts[NEEDED]])) return conflict;
                ++fronts[NEEDED];
            }
            if (fronts[OTHERS] == trail.size()) return 0;
            if (const Ref conflict = visit(OTHERS, -trail[fronts[OTHERS]])) return conflict;
            ++fronts[OTHERS];
        }
    }

    // The clauses by which one is in conflict, in order, and it. Of the given variable no reason is asked. Calls `taken` with each
    // literal that is true without a reason.
    template <typename Taken>
    std::vector<Ref> explain(Ref conflict, uint32_t given, Taken taken) {
        ++round;
        std::vector<std::pair<uint32_t, Ref>> reasons;
        std::vector<Ref> todo = {conflict};
        if (given) seen[given] = round;
        while (!todo.empty()) {
            const Span<Literal> clause = blocks[todo.back()];
            todo.pop_back();
            for (const Literal literal : clause) {
                const uint32_t variable = variable_of(literal);
                if (seen[variable] == round) continue;
                seen[variable] = round;
                if (const Ref why = reason[variable]) {
                    reasons.emplace_back(place[variable], why);
                    todo.push_back(why);
                } else {
                    taken(-literal);
                }
            }
        }
        std::sort(reasons.begin(), reasons.end());
        std::vector<Ref> order;
        for (const auto& [_, why] : reasons) order.push_back(why);
        order.push_back(conflict);
        return order;
    }

   private:
    enum Kind { NEEDED, OTHERS };

    struct Watch {
        Ref clause;
        // Another literal of the clause: where it is true, the clause asks for nothing.
        Literal other;
    };
    using Table = std::vector<std::vector<Watch>>;

    bool is_better(Literal a, Literal b) const {
        if (value[place_of(a)] != value[place_of(b)]) return value[place_of(a)] > value[place_of(b)];
        return is_false(a) && place[variable_of(a)] > place[variable_of(b)];
    }

    void watch_in(Table& table, Ref ref) {
        const Span<Literal> clause = blocks[ref];
        table[place_of(clause[0])].push_back({ref, clause[1]});
        table[place_of(clause[1])].push_back({ref, clause[0]});
        watched += 2;
    }

    // Goes through the clauses that watch a literal, which is false now.
    Ref visit(Kind kind, Literal literal) {
        std::vector<Watch>& own = tables[kind][place_of(literal)];
        size_t left = 0, k = 0;
        Ref conflict = 0;
        while (k < own.size()) {
            const Watch watch = own[k++];
            if (is_true(watch.other)) {
                own[left++] = watch;
                continue;
            }
            if (!blocks.is_live(watch.clause) || (kind == OTHERS && blocks.is_needed(watch.clause))) continue;
            const Span<Literal> clause = blocks[watch.clause];
            if (clause.size() < 2) continue;
            if (clause[0] == literal) std::swap(clause[0], clause[1]);
            if (clause[1] != literal) continue;
            const Literal first = clause[0];
            if (!is_true(first) && moves(kind, watch.clause, clause)) continue;
            own[left++] = {watch.clause, first};
            if (is_true(first)) continue;
            if (is_false(first)) {
                conflict = watch.clause;
                break;
            }
            make_true(first, watch.clause);
        }
        while (k < own.size()) own[left++] = own[k++];
        own.resize(left);
        return conflict;
    }

    // Watches a literal that isn't false in place of the second, if there is one.
    bool moves(Kind kind, Ref ref, Span<Literal> clause) {
        for (size_t k = 2; k < clause.size(); ++k) {
            if (is_false(clause[k])) continue;
            std::swap(clause[1], clause[k]);
            tables[kind][place_of(clause[1])].push_back({ref, clause[0]});
            return true;
        }
        return false;
    }

    // Drops what the tables hold beside watches of clauses that are there.
    void sweep() {
        watched = dropped = 0;
        for (const Kind kind : {NEEDED, OTHERS}) {
            for (size_t at = 0; at < tables[kind].size(); ++at) {
                std::vector<Watch>& own = tables[kind][at];
                const auto is_stale = [&](const Watch& watch) { return !is_watched(kind, watch.clause, at); };
                own.erase(std::remove_if(own.begin(), own.end(), is_stale), own.end());
                if (own.capacity() > 2 * own.size() + 16) own.shrink_to_fit();
                watched += own.size();
            }
        }
    }

    bool is_watched(Kind kind, Ref ref, size_t at) const {
        if (!blocks.is_live(ref) || (kind == OTHERS && blocks.is_needed(ref))) return false;
        const Span<Literal> clause = blocks[ref];
        return clause.size() > 1 && (place_of(clause[0]) == at || place_of(clause[1]) == at);
    }

    Blocks& blocks;
    Table tables[2];
    size_t fronts[2] = {0, 0};
    std::vector<int8_t> value;
    std::vector<uint32_t> place;
    std::vector<Ref> reason;
    std::vector<Literal> trail;
    std::vector<uint32_t> seen;
    uint32_t round = 0;
    size_t watched = 0, dropped = 0;
};
