// An LRAT proof, as text: from its empty clause back for the lines that are needed.
#pragma once
#include "needed.hpp"

class Lrat {
   public:
    // Of a list with the cube's literals as clauses of their own, which have the numbers after the list's.
    Lrat(const List& list, const Clause& cube, const std::string& proof)
        : cube(cube), proof(proof), given(list.size() + static_cast<Number>(cube.size())), first(list.size() + 1), top(given) {}

    // Finds the first line that adds the empty clause.
    void forward() {
        Lines lines(proof);
        std::string_view line;
        while (lines.next(line)) {
            if (!adds(line)) continue;
            read(line, lines.number());
            top = std::max(top, own);
            if (literals.empty()) {
                end = lines.place();
                count = lines.number();
                return;
            }
        }
        throw Refused("the proof doesn't come to the empty clause");
    }

    void backward(Stack& needed) {
        std::vector<bool> is_needed(static_cast<size_t>(top) + 1);
        is_needed[own] = true;
        std::vector<bool> is_used(cube.size());
        const Handle file(proof, O_RDONLY);
        Backward lines(file, end);
        std::string_view line;
        for (uint64_t place = count; lines.previous_line(line); --place) {
            if (!adds(line)) continue;
            read(line, place);
            if (!is_needed[own]) continue;
            is_needed[own] = false;
            Needed shown{place, own, literals, {}, {}};
            for (const int64_t hint : hints) {
                if (hint <= 0 || hint > top) throw Refused("line " + std::to_string(place) + " isn't by unit propagation");
                const Number number = static_cast<Number>(hint);
                shown.hints.push_back(number);
                if (number >= first && number <= given) is_used[number - first] = true;
                if (number <= given || is_needed[number]) continue;
                is_needed[number] = true;
                shown.last.push_back(number);
            }
            needed.push(shown);
        }
        for (size_t k = 0; k < cube.size(); ++k) {
            if (is_used[k]) used.push_back(cube[k]);
        }
    }

    // The literals of the cube that the lines use.
    const Clause& assumed() const { return used; }
    Number highest() const { return top; }

   private:
    // Whether a line adds a clause: it isn't empty, a comment or a deletion.
    static bool adds(std::string_view line) {
        if (!says_something(line)) return false;
        const size_t space = line.find(' ');
        return space == std::string_view::npos || space + 1 == line.size() || line[space + 1] != 'd';
    }

    void read(std::string_view line, uint64_t place) {
        const bool are_numbers = read_numbers(line, numbers);
        const size_t zeros = static_cast<size_t>(std::count(numbers.begin(), numbers.end(), 0));
        if (!are_numbers || numbers.size() < 3 || zeros != 2 || numbers.back() != 0) throw no_line(place);
        if (numbers[0] <= given || numbers[0] > std::numeric_limits<Number>::max() - 1) throw no_line(place);
        own = static_cast<Number>(numbers[0]);
        literals.clear();
        size_t at = 1;
        for (; numbers[at] != 0; ++at) {
            if (numbers[at] > MOST_VARIABLE || -numbers[at] > MOST_VARIABLE) throw no_line(place);
            literals.push_back(static_cast<Literal>(numbers[at]));
        }
        hints.assign(numbers.begin() + static_cast<ptrdiff_t>(at) + 1, numbers.end() - 1);
    }

    Unusable no_line(uint64_t number) const { return Unusable(proof + ": line " + std::to_string(number) + " is no line of an LRAT proof"); }

    const Clause cube;
    const std::string proof;
    const Number given, first;
    Number top;
    Clause used;
    uint64_t end = 0, count = 0;
    // The line that was read last.
    Number own = 0;
    Clause literals;
    std::vector<int64_t> hints, numbers;
};
