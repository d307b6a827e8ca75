"""Random C programs for test_fromc.py. Each prints nothing, and has lines OBSERVE(e); at the top of main for what is compared.
They keep to what C defines, with -fwrapv, and to orders of evaluation that C defines."""
import dataclasses
import random
from typing import Iterator, List, Tuple

HEAD = """#include <assert.h>
#include <pthread.h>
#include <stdatomic.h>
#include <stdbool.h>
#include <stdint.h>
"""
GLOBALS = """int ga = 3, gb = -7;
unsigned gu = 4000000000u;
bool gt;
_Atomic int na;
atomic_uint nu;
int arr[4] = {1, -2, 3};
uint8_t ub = 250, bytes[4] = {7, 255};
int8_t sb = -100;
uint16_t uh;
short sh = 32000;
_Atomic uint8_t nb = 3;
_Atomic short ns;
_Atomic int cells[4];
struct pair { int left; unsigned right; bool set; };
struct pair one, many[4];
enum color { red, green = 5, blue };
enum color paint;
"""
FUNCTIONS = """static int first_of(const int *a, int n, int what)
{
    for (int index = 0; index < n; index++) {
        int seen = a[index];
        if (seen == what)
            return index;
        if (seen > 1000)
            break;
    }
    return -1;
}
static int counter(int by)
{
    static int count = 2;
    count += by;
    return count;
}
static void put(struct pair *p, int v)
{
    p->left = v;
    p->right = (unsigned)v * 3u;
    p->set = v;
}
static int pick(int kept, int chosen, int go)
{
    if (kept)
        return chosen;
    return go;
}
static void swap_them(int *a, int *b)
{
    int old = *a;
    *a = *b;
    *b = old;
}
"""


MUTEX_GLOBALS = """int sum, most, done, count[3];
unsigned mix;
pthread_mutex_t locks[3] = {PTHREAD_MUTEX_INITIALIZER, PTHREAD_MUTEX_INITIALIZER, PTHREAD_MUTEX_INITIALIZER};
pthread_mutex_t m = PTHREAD_MUTEX_INITIALIZER;
pthread_cond_t all = PTHREAD_COND_INITIALIZER;
static void at_most(int v)
{
    if (v <= most)
        return;
    most = v;
}
"""


class Programs:
    """Programs of one thread, without what is before them: HEAD, GLOBALS and FUNCTIONS."""

    before = HEAD + GLOBALS + FUNCTIONS

    def __init__(self, seed: int) -> None:
        self.chance = random.Random(seed)
        self.locals = ["la", "lb", "lc"]
        self.loops = 0

    # Expressions without effects. Each is an int, or an unsigned one.

    def name(self) -> str:
        return self.chance.choice([*self.locals, "ga", "gb", "gt", "one.left", "one.set", "paint", "arr[1]", f"arr[{self.int_name()} & 3]",
                                   f"many[{self.int_name()} & 3].left", "green", "many[2].set", "ub", "sb", "uh", "sh",
                                   f"bytes[{self.int_name()} & 3]"])

    def int_name(self) -> str:
        return self.chance.choice(self.locals)

    def constant(self) -> str:
        return str(self.chance.choice([0, 1, 2, 3, 7, 31, 100, 65535, 2147483647, self.chance.randrange(1000)]))

    def number(self, depth: int) -> str:
        """An int."""
        if depth == 0 or self.chance.random() < 0.2:
            return self.name() if self.chance.random() < 0.7 else self.constant()
        kind = self.chance.randrange(12)
        a, b = self.signed(depth - 1), self.signed(depth - 1)
        if kind < 4:
            return f"({a} {self.chance.choice(['+', '-', '*', '&', '|', '^'])} {b})"
        if kind == 4:
            return f"({a} {self.chance.choice(['/', '%'])} (({b} & 7) + 1))"
        if kind == 5:
            return f"({a} {self.chance.choice(['<<', '>>'])} ({b} & 31))"
        if kind == 6:
            return f"({self.any(depth - 1)} {self.chance.choice(['<', '<=', '>', '>=', '==', '!='])} {self.any(depth - 1)})"
        if kind == 7:
            return f"({a} {self.chance.choice(['&&', '||'])} {b})"
        if kind == 8:
            return f"{self.chance.choice('-~!')}({a})"
        if kind == 9:
            return f"({a} ? {b} : {self.signed(depth - 1)})"
        if kind == 10:
            return f"({self.chance.choice(['int', 'int', 'uint8_t', 'short', 'signed char'])})({self.unsigned(depth - 1)})"
        return f"(bool)({a})"

    def signed(self, depth: int) -> str:
        return f"(int){self.number(depth)}"

    def unsigned(self, depth: int) -> str:
        if depth == 0 or self.chance.random() < 0.3:
            return self.chance.choice(["gu", "one.right", f"many[{self.int_name()} & 3].right", "5u", "4294967295u"])
        kind = self.chance.randrange(5)
        a = self.unsigned(depth - 1)
        if kind < 2:
            return f"({a} {self.chance.choice(['+', '-', '*', '&', '|', '^'])} {self.any(depth - 1)})"
        if kind == 2:
            return f"({a} >> {self.chance.randrange(32)})"
        if kind == 3:
            other = self.chance.choice([f"{1 << self.chance.randrange(31)}u", f"({self.unsigned(depth - 1)} | 1u)", "3u", "(gu | 2147483649u)"])
            return f"({a} {self.chance.choice(['/', '%'])} {other})"
        return f"(unsigned)({self.signed(depth - 1)})"

    def any(self, depth: int) -> str:
        return self.unsigned(depth) if self.chance.random() < 0.25 else self.signed(depth)

    # Statements.

    def place(self) -> str:
        return self.chance.choice(["la", "lb", "lc", "ga", "gb", "gu", "gt", "one.left", "one.right", "one.set", f"arr[{self.int_name()} & 3]",
                                   f"many[{self.int_name()} & 3].left", "many[1].right", "na", "nu", f"cells[{self.int_name()} & 3]",
                                   "ub", "sb", "uh", "sh", "nb", "ns", f"bytes[{self.int_name()} & 3]"])

    def block(self, depth: int, count: int) -> List[str]:
        lines: List[str] = []
        for _ in range(self.chance.randint(1, count)):
            lines += self.statement(depth)
        return lines

    def indented(self, depth: int, count: int = 3) -> List[str]:
        return [f"    {it}" for it in self.block(depth - 1, count)]

    def statement(self, depth: int) -> List[str]:
        kind = self.chance.randrange(20)
        if depth > 0 and kind < 3:
            other = ["} else {", *self.indented(depth)] if self.chance.random() < 0.5 else []
            return [f"if ({self.any(2)}) {{", *self.indented(depth), *other, "}"]
        if depth > 0 and kind < 6:
            return self.loop(depth)
        if depth > 0 and kind == 6:
            return self.switch(depth)
        if kind < 9:
            return [f"{self.place()} {self.chance.choice(['+=', '-=', '*=', '&=', '|=', '^='])} {self.any(1)};"]
        if kind == 9:
            place = self.chance.choice(['ga', 'gb', 'la', 'lb', 'gu', 'nu', 'na', 'ub', 'sb', 'sh', 'nb'])
            return [f"{place}{self.chance.choice(['++', '--'])};"]
        if kind < 13:
            return [self.call()]
        if kind == 13:
            return [f"lc = {self.chance.choice(['la++', '--lb', 'ga++', '++gb', 'na++', '++na', 'na--', 'ub++', '--sb', 'nb--', '++ns'])};"]
        if kind == 14:
            return [self.atomic()]
        return [f"{self.place()} = {self.any(2)};"]

    def call(self) -> str:
        return self.chance.choice([
            f"lb = first_of(arr, 4, {self.signed(1)});", f"la = counter({self.signed(1)});", f"put(&one, {self.signed(1)});",
            f"put(&many[{self.int_name()} & 3], {self.signed(1)});", f"gb = pick({self.signed(1)}, {self.signed(1)}, {self.signed(1)});",
            "swap_them(&ga, &lb);", f"swap_them(&arr[{self.int_name()} & 3], &la);",
            f"lc = {self.signed(1)} && counter({self.signed(0)}) > 4;", f"lc = pick({self.signed(1)}, 1, 2) || first_of(arr + 1, 3, 5) < 0;",
            f"ga = {self.signed(1)} ? counter(1) : pick(la, lb, 3);", "many[lb & 3] = one;", f"la = (ga = {self.signed(1)}, gb) + 1;",
            f"la = gb = {self.signed(1)};"])

    def atomic(self) -> str:
        place = self.chance.choice(["na", "nb", "ns", f"cells[{self.int_name()} & 3]"])
        operation = self.chance.choice(["fetch_add", "fetch_sub", "fetch_or", "fetch_and", "fetch_xor", "exchange"])
        return self.chance.choice([
            f"lc = atomic_{operation}(&{place}, {self.signed(1)});", f"atomic_store(&{place}, {self.signed(1)});", f"lb = atomic_load(&{place});",
            f"lc = atomic_compare_exchange_strong(&{self.chance.choice(['na', f'cells[{self.int_name()} & 3]'])}, &la, {self.signed(1)});",
            f"lb = __atomic_{operation.replace('exchange', 'add_fetch')}(&ga, {self.signed(1)}, __ATOMIC_RELAXED);",
            f"lc = __sync_{operation.replace('fetch_', 'fetch_and_').replace('exchange', 'xor_and_fetch')}(&gb, {self.signed(1)});",
            f"nu {self.chance.choice(['+=', '^='])} {self.unsigned(1)};"])

    def loop(self, depth: int) -> List[str]:
        self.loops += 1
        i, times = f"i{self.loops}", self.chance.randint(1, 4)
        self.locals.append(i)
        body = self.indented(depth, 2)
        leave = [f"    if ({self.any(1)})", f"        {self.chance.choice(['break', 'continue'])};"] if self.chance.random() < 0.5 else []
        rest = self.indented(depth, 1)
        self.locals.pop()
        kind = self.chance.randrange(3)
        safe = [*body, *leave, *rest]
        if kind == 0:
            return [f"for (int {i} = 0; {i} < {times}; {i}++) {{", *safe, "}"]
        if kind == 1:
            return ["{", f"    int {i} = {times};", f"    while ({i}-- > 0) {{", *(f"    {it}" for it in safe), "    }", "}"]
        return ["{", f"    int {i} = 0;", "    do {", f"        {i}++;", *(f"    {it}" for it in safe), f"    }} while ({i} < {times});", "}"]

    def switch(self, depth: int) -> List[str]:
        lines = [f"switch ({self.signed(1)} & 3) {{"]
        for case in (["case 0:"], ["case 1:", "case 2:"], ["default:"])[: self.chance.randint(1, 3)]:
            end = ["    break;"] if self.chance.random() < 0.7 else []
            lines += [*case, *self.indented(depth, 2), *end]
        return [*lines, "}"]

    def program(self) -> str:
        lines = ["int la = 1, lb = 2, lc = 0;"]
        for _ in range(self.chance.randint(3, 6)):
            lines += self.block(3, 2)
            for _ in range(self.chance.randint(1, 2)):
                lines.append(f"OBSERVE({self.chance.choice([self.number(2), *self.locals, 'ga', 'gb', 'arr[2]', 'one.left', '(int)gu', 'na', 'cells[1]', 'cells[3]'])});")
        lines += [f"OBSERVE({it});" for it in ("ga", "gb", "(int)gu", "na", "(int)nu", "arr[0]", "cells[2]",
                                               "ub", "sb", "uh", "sh", "nb", "ns", "bytes[0]", "many[1].left", "la", "lb", "lc")]
        return "int main(void)\n{\n" + "".join(f"    {it}\n" for it in lines) + "    return 0;\n}\n"


class MutexPrograms:
    """Programs of two to four threads that use shared variables under mutexes alone, by operations that commute, without what is before
    them: HEAD and MUTEX_GLOBALS."""

    before = HEAD + MUTEX_GLOBALS

    def __init__(self, seed: int) -> None:
        self.chance = random.Random(seed)

    def program(self) -> str:
        self.count = self.chance.randint(2, 4)
        handles = ["pthread_t t[%d];" % self.count]
        create = [f"for (int i = 0; i < {self.count}; i++)", "    pthread_create(&t[i], NULL, work, (void *)(intptr_t)i);"]
        join = [f"for (int i = 0; i < {self.count}; i++)", "    pthread_join(t[i], NULL);"]
        observed = [f"OBSERVE({it});" for it in ("sum", "(int)mix", "most", "count[0]", "count[1]", "count[2]", "done")]
        main = [*handles, *create, *self.waiting(), *join, *observed]
        return "\n".join(["static void *work(void *arg)", "{", "    int id = (int)(intptr_t)arg;", *self.body(),
                          "    return NULL;", "}", "int main(void)", "{", *(f"    {it}" for it in main), "    return 0;", "}", ""])

    def waiting(self) -> List[str]:
        return ["pthread_mutex_lock(&m);", f"while (done < {self.count})", "    pthread_cond_wait(&all, &m);", "pthread_mutex_unlock(&m);"]

    def body(self) -> List[str]:
        times = self.chance.randint(1, 2)
        inner: List[str] = []
        for _ in range(self.chance.randint(1, 3)):
            a, b = self.chance.randrange(1, 9), self.chance.randrange(10)
            inner += self.chance.choice([
                ["pthread_mutex_lock(&m);", f"sum += id * {a} + {b} * k;", "pthread_mutex_unlock(&m);"],
                ["pthread_mutex_lock(&m);", f"mix ^= {a}u << (id + k);", f"at_most(id * {a} - k);", "pthread_mutex_unlock(&m);"],
                [f"pthread_mutex_lock(&locks[(id + k) % 3]);", f"count[(id + k) % 3] += {b};", "pthread_mutex_unlock(&locks[(id + k) % 3]);"]])
        loop = [f"    for (int k = 0; k < {times}; k++) {{", *(f"        {it}" for it in inner), "    }"]
        end = ["    pthread_mutex_lock(&m);", "    done++;", f"    if (done == {self.count})", "        pthread_cond_signal(&all);",
               "    pthread_mutex_unlock(&m);"]
        return [*loop, *end]


FIRST_GLOBALS = "int given = 6;\nenum size { few = 2, many = 40, none = -1 };\n"
# First values of each type: constants, and those that only a variable of a function's own may have.
CONSTANTS = {
    "int": ["-5", "0", "'a'", "-2147483647 - 1", "many - 3", "~7", "1 << 4", "(int)3000000000u", "7u > 3", "few ? 9 : 8", "-(none)"],
    "unsigned": ["4000000000u", "-1", "5", "many", "1u << 31"],
    "bool": ["true", "0", "7", "-3", "many == 40"],
    "enum size": ["many", "few"], "uint8_t": ["255", "300", "-1", "'z'"], "short": ["-5", "40000", "few"],
}
OTHERS = {"int": ["given", "-given + 2"], "unsigned": ["given * 3u"], "bool": ["given & 1", "given"],
          "enum size": ["given > 3 ? few : many"], "uint8_t": ["given * 50"], "short": ["given - 7"]}


@dataclasses.dataclass(frozen=True)
class Typed:
    """A type: a number's, or what has parts, which `.field` or `[index]` leads to. An array has a length."""

    word: str
    atomic: bool = False
    length: int = 0
    parts: Tuple[Tuple[str, "Typed"], ...] = ()

    def declared(self, name: str) -> str:
        if self.length:
            return self.parts[0][1].declared(f"{name}[{self.length}]")
        return f"{'_Atomic ' * self.atomic}{self.word} {name}"

    def leaves(self, name: str) -> Iterator[Tuple[str, "Typed"]]:
        """The numbers of a variable of this type."""
        if not self.parts:
            yield name, self
        for part, inner in self.parts:
            yield from inner.leaves(name + part)


class FirstValues:
    """Programs of variables at every place, with first values of every kind, without what is before them: HEAD and FIRST_GLOBALS."""

    before = HEAD + FIRST_GLOBALS
    PLACES = ("file", "static file", "static main", "main", "static function", "function")
    WORK = ["static void *work(void *u)", "{", "    static int count[2] = {5, 7};", "    static struct { int by; bool on; } s = {3, 9};",
            "    count[1] += s.by + s.on;", "    given = count[1]++;", "    return u;", "}"]
    THREADS = ["pthread_t t;", *["pthread_create(&t, NULL, work, NULL);", "pthread_join(t, NULL);", "OBSERVE(given);"] * 2]

    def __init__(self, seed: int) -> None:
        self.chance, self.seed, self.count = random.Random(seed), seed, 0
        self.file: List[str] = []
        self.main: List[str] = []

    def name(self) -> str:
        self.count += 1
        return f"v{self.seed}_{self.count}"

    def type(self, depth: int, shared: bool) -> Typed:
        kind = self.chance.randrange(4 if depth else 2)
        if kind < 2:
            return Typed(self.chance.choice(list(CONSTANTS)), shared and self.chance.random() < 0.4)
        if kind == 2:
            length, element = self.chance.randint(1, 3), self.type(depth - 1, shared)
            return Typed("", length=length, parts=tuple((f"[{it}]", element) for it in range(length)))
        word, count = f"struct {self.name()}", self.chance.randint(1, 3)
        made = Typed(word, parts=tuple((f".f{it}", self.type(depth - 1, shared)) for it in range(count)))
        self.file.append(f"{word} {{ {' '.join(f'{inner.declared(part[1:])};' for part, inner in made.parts)} }};")
        return made

    def value(self, type_: Typed, shared: bool) -> str:
        """A first value: a number, or a list that may leave out some, or name what is next."""
        if not type_.parts:
            value = self.chance.choice(CONSTANTS[type_.word] + ([] if shared else OTHERS[type_.word]))
            return self.chance.choice([value] * 3 + [f"ATOMIC_VAR_INIT({value})" if type_.atomic else f"{{{value}}}"])
        following, listed = 0, []
        for _ in range(self.chance.randint(1, len(type_.parts))):
            named = self.chance.random() < 0.3 or following == len(type_.parts)
            following = self.chance.randrange(len(type_.parts)) if named else following
            part, inner = type_.parts[following]
            listed.append(f"{part} = " * named + self.value(inner, shared))
            following += 1
        return f"{{{', '.join(listed)}}}"

    def declaration(self, name: str, type_: Typed, shared: bool) -> str:
        """A declaration with a first value; an array may have its length from there, and what is shared may begin with 0."""
        text = type_.declared(name)
        if type_.length and self.chance.random() < 0.3:
            part, inner = type_.parts[-1]
            return f"{text.replace(f'{name}[{type_.length}]', f'{name}[]')} = {{{part} = {self.value(inner, shared)}}};"
        return f"{text};" if shared and self.chance.random() < 0.1 else f"{text} = {self.value(type_, shared)};"

    def variable(self, place: str) -> None:
        shared, constant = place not in ("main", "function"), self.chance.random() < 0.25
        type_, name = self.type(2, shared), self.name()
        line = f"{'static ' * place.startswith('static')}{'const ' * constant}{self.declaration(name, type_, shared)}"
        leaves = list(type_.leaves(name))
        if place.endswith("function"):
            cases = [f"    if (which == {it}) return (int){leaf}{'' if constant else '++'};" for it, (leaf, _) in enumerate(leaves)]
            self.file += [f"static int get_{name}(int which)", "{", f"    {line}", *cases, "    return 0;", "}"]
            self.main += [f"OBSERVE(get_{name}({it}));" for it in range(len(leaves))] * 2
            return
        (self.file if place.endswith("file") else self.main).append(line)
        self.main += [f"OBSERVE((int){leaf});" for leaf, _ in leaves]
        for leaf, inner in leaves:
            self.main += [f"atomic_exchange(&{leaf}, 1);", f"OBSERVE((int){leaf});"] if inner.atomic and not constant else []

    def program(self) -> str:
        for place in self.chance.sample(self.PLACES, 4):
            self.variable(place)
        main = (f"    {it}" for it in [*self.main, *self.THREADS])
        return "\n".join([*self.file, *self.WORK, "int main(void)", "{", *main, "    return 0;", "}", ""])


POINTER_GLOBALS = """#include <stdlib.h>
struct item { struct item *next, *other; int v; uint8_t b; struct { short s[2]; } in; };
struct item items[4] = {{&items[1], 0, 5, 6}, {.v = 7}, {&items[0], &items[2], 9}}, lone = {items, &items[3], -2}, *head = &lone;
_Atomic(struct item *) slots[2];
static struct item *find(struct item *from, int v)
{
    for (int n = 0; from && n < 5; n++) {
        if (from->v == v)
            return from;
        from = from->next;
    }
    return NULL;
}
static void push(struct item *n)
{
    n->next = head;
    head = n;
}
static struct item *later(struct item *one, int steps)
{
    while (one && steps-- > 0)
        one = one->other ? one->other : one->next;
    return one;
}
static void put(struct item **to, struct item *n, int v)
{
    if (n)
        n->v = v;
    *to = n;
}
"""


class PointerPrograms:
    """Programs of one thread with pointers in memory, without what is before them: HEAD and POINTER_GLOBALS."""

    before = HEAD + POINTER_GLOBALS

    def __init__(self, seed: int) -> None:
        self.chance = random.Random(seed)

    def pointer(self) -> str:
        return self.chance.choice(["p", "q", "head", "&lone", "NULL", "p", "q", f"&items[{self.number()} & 3]",
                                   f"items[{self.number()} & 3].next", f"items[{self.number()} & 3].other", f"find(head, {self.number()})", "(p ? p->next : q)",
                                   f"(la > {self.number()} ? p : q)", f"later(q, {self.number()} & 3)", "lone.other"])

    def number(self) -> str:
        return self.chance.choice(["la", "lb", "1", "2", "7", "9", "-2", "(p == q)", "(q != NULL)", "(head == p)", "(p ? p->v : 3)", "!q"])

    def place(self) -> str:
        return self.chance.choice(["p", "q", "p", "q", "head", "lone.next", f"items[{self.number()} & 3].next", "items[2].other"])

    def statement(self) -> str:
        one, v = self.chance.choice("pq"), self.number()
        return self.chance.choice([
            f"{self.place()} = {self.pointer()};", f"{self.place()} = {self.pointer()};", f"la = {v};", f"lb += {v};",
            f"if ({one}) {one}->v = {v};", f"if ({one}) {one}->b += {v};", f"if ({one}) {one}->in.s[{v} & 1] = {v} * 9;",
            f"if ({one} && {one}->next) {one}->next->v += {v};", f"if ({one}) push({one});", f"if ({one}) {one}->other = {self.pointer()};",
            f"for ({one} = head; {one} && la < 60; {one} = {one}->next) la += {one}->b + 9;", f"if ({one}) items[{v} & 3] = *{one};",
            f"if ({one}) *{one} = lone;", f"put(&{self.place()}, {one}, {v});", f"q = atomic_exchange(&slots[{v} & 1], p);",
            f"la = atomic_compare_exchange_strong(&slots[{v} & 1], &p, q);", f"slots[{v} & 1] = {one};", f"p = slots[{v} & 1];",
            "{ uintptr_t w = (uintptr_t)p | 1; q = (struct item *)(w & ~(uintptr_t)1); lb = (int)(w & 1); }",
            f"{{ struct item *t = malloc(sizeof *t); *t = lone; t->v = {v}; lb = t->v + t->b; p = t->other; free(t); }}",
            f"{{ struct item *t = calloc(1, sizeof *t); t->other = q; if (lb & 1) free(t); else push(t); }}",
            f"{{ struct item here = {{.v = {v}, .next = {one}}}; q = &here; lb = q->v + (q->next == p); q = here.next; }}"])

    def program(self) -> str:
        lines = ["struct item *p = items, *q = NULL;", "int la = 1, lb = 2;"]
        for _ in range(self.chance.randint(6, 14)):
            lines += [self.statement() for _ in range(self.chance.randint(1, 3))]
            seen = self.chance.choice(['la', 'lb', self.number(), 'p == head', 'items[1].v', 'lone.in.s[1]', 'lone.next == q'])
            lines.append(f"OBSERVE({seen});")
        lines += [f"OBSERVE({it});" for it in ("la", "lb", "p == q", "p ? p->v : -1", "head ? head->b : -1", "items[0].next == &items[1]",
                                               "slots[0] == NULL", "items[3].v", "items[2].in.s[0]")]
        return "static int work(void)\n{\n    return 0;\n}\nint main(void)\n{\n" + "".join(f"    {it}\n" for it in lines) + "    return 0;\n}\n"
