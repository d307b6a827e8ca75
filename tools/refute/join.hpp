// Pieces, each of which refutes the list with a cube, joined into one refutation of the list.
#pragma once
#include <memory>

#include "needed.hpp"

constexpr std::string_view PIECE = "clap-piece 1 ", REFUTATION = "clap-refutation 2 ";

// A clause that was shown, with its number.
struct Shown {
    Clause clause;
    Number number = 0;
};

class Joiner {
   public:
    Joiner(const List& list, Text& text) : list(list), text(text), follower(list) {}

    // Puts a piece at the place of its cube, whose literals are in the order of the splits.
    void place(const std::string& path) {
        Lines lines(path);
        Node* node = &root;
        for (const Literal literal : cube_of(path, lines)) {
            if (node->split == 0) node->split = static_cast<Literal>(variable_of(literal));
            if (node->split != static_cast<Literal>(variable_of(literal))) throw Refused(path + ": its cube isn't of the same splits as others");
            std::unique_ptr<Node>& child = literal > 0 ? node->high : node->low;
            if (!child) child = std::make_unique<Node>();
            node = child.get();
        }
        node->piece = path;
    }

    // Follows the pieces and writes all of them, up to the empty clause.
    Size join() {
        Clause cube;
        const Shown shown = join(root, cube);
        if (!shown.clause.empty()) throw Refused("the pieces don't come to the empty clause");
        return size;
    }

   private:
    // Where the cubes split by a variable, or one ends.
    struct Node {
        Literal split = 0;
        std::unique_ptr<Node> high, low;
        std::string piece;
    };

    Clause cube_of(const std::string& path, Lines& lines) const {
        std::string_view line;
        std::vector<int64_t> numbers;
        if (!lines.next(line)) throw Refused(path + ": no piece");
        // A refutation is the piece of a cube without literals.
        if (line.substr(0, REFUTATION.size()) == REFUTATION) return {};
        const bool is_piece = line.substr(0, PIECE.size()) == PIECE && read_numbers(line.substr(PIECE.size()), numbers) &&
                              !numbers.empty() && numbers.back() == 0;
        if (!is_piece) throw Refused(path + ": no piece");
        numbers.pop_back();
        Clause cube;
        for (const int64_t literal : numbers) {
            if (literal == 0 || literal > list.variables || -literal > list.variables) throw Refused(path + ": no piece");
            cube.push_back(static_cast<Literal>(literal));
        }
        return cube;
    }

    Shown join(const Node& node, Clause& cube) {
        if (!node.piece.empty()) return follow(node.piece, cube);
        if (node.split == 0) throw Refused("no piece refutes the cube" + words_of(cube));
        const Shown first = join_branch(node.high, node.split, cube);
        if (!has(first.clause, -node.split)) return first;
        const Shown second = join_branch(node.low, -node.split, cube);
        if (!has(second.clause, node.split)) return second;
        return resolve(first, second, node.split);
    }

    Shown join_branch(const std::unique_ptr<Node>& node, Literal literal, Clause& cube) {
        const Node none;
        cube.push_back(literal);
        const Shown shown = join(node ? *node : none, cube);
        cube.pop_back();
        return shown;
    }

    // The line that joins two cases.
    Shown resolve(const Shown& first, const Shown& second, Literal split) {
        Clause clause;
        for (const Clause* of : {&first.clause, &second.clause}) {
            for (const Literal literal : *of) {
                if (literal != split && literal != -split) clause.push_back(literal);
            }
        }
        sort_literals(clause);
        const Number number = follower.next();
        write_line(text, size, clause, {first.number, second.number});
        follower.add(clause);
        for (const Number done : {first.number, second.number}) follower.remove(done);
        write_deletion(text, {first.number, second.number});
        return {clause, number};
    }

    // The lines of a piece, up to a clause of opposites of the cube's literals.
    Shown follow(const std::string& path, const Clause& cube) {
        Lines lines(path);
        std::string_view line;
        Shown shown{{}, 0};
        const Number before = follower.next() - 1 - list.size();
        lines.next(line);
        while (lines.next(line)) {
            const bool adds = line.substr(0, 2) == "a ";
            if ((!adds && line.substr(0, 2) != "d ") || !read_numbers(line.substr(2), numbers)) throw no_line(path, lines.number());
            if (adds ? !add(before, shown) : !remove(before)) throw no_line(path, lines.number());
        }
        const auto is_opposite = [&](Literal literal) { return has(cube, -literal); };
        if (shown.number == 0 || !std::all_of(shown.clause.begin(), shown.clause.end(), is_opposite)) {
            throw Refused(path + ": ends before its cube is refuted");
        }
        return shown;
    }

    // Whether the numbers are a line that follows.
    bool add(Number before, Shown& shown) {
        const size_t end = static_cast<size_t>(std::find(numbers.begin(), numbers.end(), 0) - numbers.begin());
        if (end + 1 >= numbers.size() || numbers.back() != 0) return false;
        shown.clause.clear();
        for (size_t k = 0; k < end; ++k) {
            const int64_t variable = std::abs(numbers[k]);
            if (variable > list.variables || (k > 0 && variable <= std::abs(numbers[k - 1]))) return false;
            shown.clause.push_back(static_cast<Literal>(numbers[k]));
        }
        hints.clear();
        for (size_t k = end + 1; k + 1 < numbers.size(); ++k) {
            if (!is_number(numbers[k], before)) return false;
            hints.push_back(joined(numbers[k], before));
        }
        if (!follower.shows(shown.clause, hints, order)) return false;
        shown.number = follower.next();
        write_line(text, size, shown.clause, order);
        follower.add(shown.clause);
        return true;
    }

    bool remove(Number before) {
        if (numbers.size() < 2 || numbers.back() != 0) return false;
        hints.clear();
        for (size_t k = 0; k + 1 < numbers.size(); ++k) {
            if (!is_number(numbers[k], before) || numbers[k] <= list.size()) return false;
            hints.push_back(joined(numbers[k], before));
            if (!follower.remove(hints.back())) return false;
        }
        write_deletion(text, hints);
        return true;
    }

    // Numbers after the list's are the piece's own.
    bool is_number(int64_t number, Number before) const { return number > 0 && number < int64_t(follower.next()) - before; }
    Number joined(int64_t number, Number before) const { return static_cast<Number>(number) + (number > list.size() ? before : 0); }

    static bool has(const Clause& clause, Literal literal) { return std::find(clause.begin(), clause.end(), literal) != clause.end(); }

    static std::string words_of(const Clause& cube) {
        std::string words;
        for (const Literal literal : cube) words += " " + std::to_string(literal);
        return words;
    }

    static Refused no_line(const std::string& path, uint64_t number) { return Refused(path + ": line " + std::to_string(number) + " doesn't follow"); }

    const List& list;
    Text& text;
    Follower follower;
    Node root;
    Size size;
    std::vector<int64_t> numbers;
    std::vector<Number> hints, order;
};
