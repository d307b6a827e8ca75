// The lines of a proof that are needed: kept on disk from the last one back, then followed and written from the first one on.
#pragma once
#include "clauses.hpp"

// A line that adds a clause, by the numbers of the proof.
struct Needed {
    // The line of the proof, from 1; 0 is the empty clause that no line of it adds.
    uint64_t line = 0;
    Number number = 0;
    Clause literals;
    std::vector<Number> hints;
    // Those of its hints that no later line needs.
    std::vector<Number> last;
};

// A stack of lines on disk, in a file that has no name any more.
class Stack {
   public:
    explicit Stack(const std::string& beside) : file(beside + ".needed", O_RDWR | O_CREAT | O_TRUNC) { ::unlink(file.path.c_str()); }

    void push(const Needed& line) {
        const size_t start = buffer.size();
        put(static_cast<uint32_t>(line.line >> 32));
        put(static_cast<uint32_t>(line.line));
        put(line.number);
        put_all(line.literals);
        put_all(line.hints);
        put_all(line.last);
        put(static_cast<uint32_t>(buffer.size() - start));
        if (buffer.size() * sizeof(uint32_t) > BLOCK) flush();
    }

    // Nothing is pushed from now on.
    void turn() {
        flush();
        back.emplace_back(file, written);
    }

    bool pop(Needed& line) {
        const char* count = back[0].previous(sizeof(uint32_t));
        if (!count) return false;
        uint32_t words;
        std::memcpy(&words, count, sizeof words);
        buffer.resize(words);
        std::memcpy(buffer.data(), back[0].previous(words * sizeof(uint32_t)), words * sizeof(uint32_t));
        line.line = uint64_t(buffer[0]) << 32 | buffer[1];
        line.number = buffer[2];
        size_t at = 3;
        get_all(line.literals, at);
        get_all(line.hints, at);
        get_all(line.last, at);
        return true;
    }

   private:
    void put(uint32_t word) { buffer.push_back(word); }

    template <typename Numbers>
    void put_all(const Numbers& numbers) {
        put(static_cast<uint32_t>(numbers.size()));
        for (const auto number : numbers) put(static_cast<uint32_t>(number));
    }

    template <typename Numbers>
    void get_all(Numbers& numbers, size_t& at) const {
        const size_t count = buffer[at++];
        numbers.assign(buffer.begin() + at, buffer.begin() + at + count);
        at += count;
    }

    void flush() {
        file.write(reinterpret_cast<const char*>(buffer.data()), buffer.size() * sizeof(uint32_t));
        written += buffer.size() * sizeof(uint32_t);
        buffer.clear();
    }

    Handle file;
    std::vector<uint32_t> buffer;
    uint64_t written = 0;
    std::vector<Backward> back;
};

// Follows lines as `check` does: over a list and the lines so far, numbered as a refutation counts them.
class Follower {
   public:
    explicit Follower(const List& list) : list(list), value(2 * static_cast<size_t>(list.variables) + 2) {}

    Number next() const { return list.size() + static_cast<Number>(refs.size()) + 1; }

    // Whether the hints show these literals, in some order; that order, without hints that give nothing.
    bool shows(const Clause& literals, std::vector<Number> hints, std::vector<Number>& order) {
        order.clear();
        for (const Literal literal : literals) make_true(-literal);
        const bool has_shown = comes_to_conflict(hints, order);
        for (const Literal literal : trail) value[place_of(literal)] = value[place_of(-literal)] = 0;
        trail.clear();
        return has_shown;
    }

    void add(const Clause& literals) { refs.push_back(blocks.add(literals, 0)); }

    // Whether the number was there.
    bool remove(Number number) {
        if (!has(number) || number <= list.size()) return false;
        Ref& ref = refs[number - list.size() - 1];
        blocks.remove(ref);
        ref = 0;
        return true;
    }

   private:
    bool has(Number number) const { return number > 0 && (number <= list.size() || (number < next() && refs[number - list.size() - 1])); }

    void make_true(Literal literal) {
        value[place_of(literal)] = 1;
        value[place_of(-literal)] = -1;
        trail.push_back(literal);
    }

    bool comes_to_conflict(std::vector<Number>& left, std::vector<Number>& order) {
        std::vector<Number> later;
        while (!left.empty()) {
            later.clear();
            for (const Number hint : left) {
                if (!has(hint)) return false;
                Literal open = 0;
                const size_t count = hint <= list.size() ? left_in(list[hint], open) : left_in(blocks[refs[hint - list.size() - 1]], open);
                if (count > 1) {
                    later.push_back(hint);
                } else if (count == 0) {
                    order.push_back(hint);
                    return true;
                } else if (value[place_of(open)] == 0) {
                    make_true(open);
                    order.push_back(hint);
                }
            }
            if (later.size() == left.size()) return false;
            left.swap(later);
        }
        return false;
    }

    // How many literals aren't false, as far as it matters, and the last of them.
    template <typename Literals>
    size_t left_in(const Literals& literals, Literal& open) const {
        size_t count = 0;
        for (const Literal literal : literals) {
            if (value[place_of(literal)] < 0) continue;
            open = literal;
            if (++count > 1) break;
        }
        return count;
    }

    const List& list;
    Blocks blocks;
    // The clauses that were added, by number; 0 is one that was deleted.
    std::vector<Ref> refs;
    std::vector<int8_t> value;
    std::vector<Literal> trail;
};

struct Size {
    uint64_t lines = 0, hints = 0;
};

inline void write_line(Text& text, Size& size, const Clause& literals, const std::vector<Number>& hints) {
    text.put("a ");
    text.put_all(literals);
    text.put("0 ");
    text.put_all(hints);
    text.put("0\n");
    ++size.lines;
    size.hints += hints.size();
}

inline void write_deletion(Text& text, const std::vector<Number>& numbers) {
    if (numbers.empty()) return;
    text.put("d ");
    text.put_all(numbers);
    text.put("0\n");
}

// Writes needed lines as lines of a refutation, each with the opposites of the cube's literals.
class Writer {
   public:
    // Of the cube those literals that the lines use. Numbers of the proof after the list's name all literals of the cube, where
    // `units` says how many these are, and then lines, up to the highest.
    Writer(const List& list, const Clause& used, Number units, Number highest)
        : list(list), used(used), units(units), follower(list), numbers(static_cast<size_t>(highest) - list.size() - units + 1) {}

    Size write(Stack& lines, Text& text) {
        Size size;
        Needed line;
        lines.turn();
        while (lines.pop(line)) write(line, text, size);
        return size;
    }

   private:
    void write(Needed& line, Text& text, Size& size) {
        Number& own = numbers[line.number - list.size() - units];
        own = LEFT_OUT;
        for (const Literal literal : used) line.literals.push_back(-literal);
        sort_literals(line.literals);
        // A clause with a literal of the cube itself is of no use in it.
        if (is_tautology(line.literals)) return;
        if (!line.literals.empty() && variable_of(line.literals.back()) > list.variables) {
            throw Refused("line " + std::to_string(line.line) + " names a variable that the clause list doesn't have");
        }
        hints.clear();
        for (const Number hint : line.hints) add_hint(hint, line.line);
        if (!follower.shows(line.literals, hints, order)) throw Refused("line " + std::to_string(line.line) + " isn't by unit propagation");
        own = follower.next();
        write_line(text, size, line.literals, order);
        follower.add(line.literals);
        hints.clear();
        for (const Number hint : line.last) {
            const Number number = numbers[hint - list.size() - units];
            if (number == LEFT_OUT || number == 0) continue;
            follower.remove(number);
            hints.push_back(number);
        }
        write_deletion(text, hints);
    }

    void add_hint(Number hint, uint64_t line) {
        if (hint <= list.size()) {
            hints.push_back(hint);
        } else if (hint > list.size() + units) {
            const Number number = numbers[hint - list.size() - units];
            if (number == 0) throw Refused("line " + std::to_string(line) + " rests on a later one");
            if (number != LEFT_OUT) hints.push_back(number);
        }
    }

    static constexpr Number LEFT_OUT = ~Number(0);
    const List& list;
    const Clause& used;
    const Number units;
    Follower follower;
    // The numbers of the refutation by those of the proof.
    std::vector<Number> numbers;
    std::vector<Number> hints, order;
};
