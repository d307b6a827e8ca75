// Makes refutations for `check` of solvers' proofs, of whole lists and of lists with cubes. NOT PROVED: `check` decides whether
// what it writes is one. `USAGE` says how it is called; tools/README.md says what it is for.
#include <cstdio>

#include "drat.hpp"
#include "join.hpp"
#include "lrat.hpp"
#include "split.hpp"

constexpr const char* USAGE = R"(refute makes a refutation for `check` of what a solver proves of a clause list.

    refute drat LIST PROOF MODEL OUT [LITERAL..]   a DRAT proof, as text
    refute lrat LIST PROOF MODEL OUT [LITERAL..]   an LRAT proof, as text
    refute join LIST MODEL OUT PIECE..             the pieces of cubes
    refute split LIST DEPTH OUT [LITERAL..]        cubes of a list, or of a cube, split as often as DEPTH says

LIST is what `cnf` wrote, and MODEL is sc, tso or pso. With literals, which are a cube, the proof is of the list with each of them
as one more clause at its end, in this order, and OUT is a piece; `join` makes one refutation of the pieces of all cubes. The
literals of cubes stand in the order in which the cases were split.

Status 0: OUT is written, and a line says how much is in it. 1: the proof or a piece is refused. 2: words or files can't be used.
)";

namespace {

std::string first_line(const std::string& model) { return std::string(REFUTATION) + model + "\n"; }

std::string first_line_of_piece(const Clause& cube) {
    std::string line(PIECE);
    for (const Literal literal : cube) line += std::to_string(literal) + " ";
    return line + "0\n";
}

Clause read_cube(const std::vector<std::string>& words, int64_t variables) {
    Clause cube;
    std::vector<int64_t> numbers;
    for (const std::string& word : words) {
        const bool is_literal = read_numbers(word, numbers) && numbers.size() == 1 && numbers[0] != 0 && std::abs(numbers[0]) <= variables;
        if (!is_literal) throw Unusable(word + ": no literal of the list");
        cube.push_back(static_cast<Literal>(numbers[0]));
    }
    Clause sorted = cube;
    sort_literals(sorted);
    if (sorted.size() != cube.size() || is_tautology(sorted)) throw Unusable("the cube names a variable twice");
    return cube;
}

// `Proof` is a kind of proof, whose lines may name the cube's clauses by numbers where it has numbers.
template <typename Proof>
Size convert(const std::vector<std::string>& words, bool has_numbers) {
    refuse_clash(words[4], {words[1], words[2]});
    const List list(words[1]);
    const Clause cube = read_cube({words.begin() + 5, words.end()}, list.variables);
    Text text(words[4]);
    Stack needed(words[4]);
    Clause used;
    Number highest;
    {
        Proof proof(list, cube, words[2]);
        proof.forward();
        proof.backward(needed);
        used = proof.assumed();
        highest = proof.highest();
    }
    text.put(cube.empty() ? first_line(words[3]) : first_line_of_piece(cube));
    const Size size = Writer(list, used, has_numbers ? static_cast<Number>(cube.size()) : 0, highest).write(needed, text);
    text.close();
    return size;
}

Size join(const std::vector<std::string>& words) {
    std::vector<std::string> inputs(words.begin() + 4, words.end());
    inputs.push_back(words[1]);
    refuse_clash(words[3], inputs);
    const List list(words[1]);
    Text text(words[3]);
    text.put(first_line(words[2]));
    Joiner joiner(list, text);
    for (size_t k = 4; k < words.size(); ++k) joiner.place(words[k]);
    const Size size = joiner.join();
    text.close();
    return size;
}

void split(const std::vector<std::string>& words) {
    refuse_clash(words[3], {words[1]});
    const List list(words[1]);
    const Clause cube = read_cube({words.begin() + 4, words.end()}, list.variables);
    const Questions questions(list);
    Text text(words[3]);
    const uint64_t cubes = Splitter(list, questions, text).split(cube, static_cast<unsigned>(std::stoul(words[2])));
    text.close();
    std::printf("%llu cubes; %zu comparisons, %zu orders of regions, %zu writes that loads may take\n", static_cast<unsigned long long>(cubes),
                questions.comparators(), questions.orders.size(), questions.takes.size());
}

bool is_depth(const std::string& word) {
    return !word.empty() && word.size() <= 2 && word.find_first_not_of("0123456789") == std::string::npos;
}

bool is_model(const std::string& word) { return word == "sc" || word == "tso" || word == "pso"; }

void tell(const Size& size) {
    std::printf("%llu lines, %llu hints\n", static_cast<unsigned long long>(size.lines), static_cast<unsigned long long>(size.hints));
}

void run(const std::vector<std::string>& words) {
    if (words.size() >= 5 && words[0] == "drat" && is_model(words[3])) return tell(convert<Drat>(words, false));
    if (words.size() >= 5 && words[0] == "lrat" && is_model(words[3])) return tell(convert<Lrat>(words, true));
    if (words.size() >= 5 && words[0] == "join" && is_model(words[2])) return tell(join(words));
    if (words.size() >= 4 && words[0] == "split" && is_depth(words[2])) return split(words);
    throw Unusable(USAGE);
}

}  // namespace

int main(int count, char** words) {
    const std::vector<std::string> given(words + 1, words + count);
    if (given == std::vector<std::string>{"--help"}) return std::fputs(USAGE, stdout) < 0;
    try {
        run(given);
        return 0;
    } catch (const Refused& why) {
        std::fprintf(stderr, "refused: %s\n", why.what());
        return 1;
    } catch (const Unusable& why) {
        std::fprintf(stderr, "can't be used: %s\n", why.what());
    } catch (const std::bad_alloc&) {
        std::fputs("can't be used: there is no memory\n", stderr);
    }
    return 2;
}
