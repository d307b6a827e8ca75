"""The threads of a C litmus test.

Each access becomes what a compiler for the machine would emit. By docs/MACHINE.md, no load passes an older load, no store passes an older
access except under PSO, where it may pass older stores, and every exchange waits for the thread's own stores.
"""
from dataclasses import dataclass
from typing import Callable, Dict, List, Optional, Sequence, Tuple, Union

from .conditions import INT_TYPES
from .source import Refused, Text, Token, Tokens
from .statements import (Assign, Binary, CompareAndSwap, Expression, Fence, If, Memory, Number, Register, Statement, Store, StoreBarrier,
                         Swap, Thread, Unary, Update, subexpressions)

# Operators of expressions, those that bind loosest first.
LEVELS: Sequence[Sequence[str]] = [["||"], ["&&"], ["|"], ["^"], ["&"], ["==", "!="], ["<", "<=", ">", ">="], ["+", "-"], ["*"]]
TRUTHS = ("==", "!=", "<", "<=", ">", ">=")
FENCE: List[Statement] = [Fence()]
STORE_BARRIER: List[Statement] = [StoreBarrier()]
BARRIERS: Dict[str, List[Statement]] = {"smp_mb": FENCE, "smp_wmb": STORE_BARRIER, "smp_rmb": []}
FENCES: Dict[str, List[Statement]] = {
    "relaxed": [], "acquire": [], "release": STORE_BARRIER, "acq_rel": STORE_BARRIER, "seq_cst": FENCE}
# Calls that take a location and give its value, and the orders of a load.
LOADS = ("READ_ONCE", "smp_load_acquire", "atomic_read", "atomic_read_acquire", "atomic_load", "atomic_load_explicit")
LOAD_ORDERS = ("relaxed", "acquire", "seq_cst")
# Calls that take a location and a value, with their orders.
STORES = {
    "WRITE_ONCE": "relaxed", "atomic_set": "relaxed", "smp_store_release": "release", "atomic_set_release": "release",
    "smp_store_mb": "full", "atomic_store": "seq_cst", "atomic_store_explicit": ""}
# These take `*x`, and all others `x`.
TAKES_VALUE = ("READ_ONCE", "WRITE_ONCE", "smp_store_mb")
EXCHANGES = ("xchg", "atomic_xchg", "atomic_exchange", "atomic_exchange_explicit")
COMPARISONS = ("cmpxchg", "atomic_cmpxchg")
# Updates that take a location and an operand in either order: the operator, and whether the result is the new value.
UPDATES = {
    "atomic_fetch_add": ("+", False), "atomic_fetch_sub": ("-", False), "atomic_add_return": ("+", True), "atomic_sub_return": ("-", True),
    "atomic_fetch_and": ("&", False), "atomic_fetch_or": ("|", False), "atomic_fetch_xor": ("^", False),
    "atomic_fetch_add_explicit": ("+", False), "atomic_fetch_sub_explicit": ("-", False)}
# Updates by 1.
COUNTS = {
    "atomic_fetch_inc": ("+", False), "atomic_fetch_dec": ("-", False), "atomic_inc_return": ("+", True), "atomic_dec_return": ("-", True)}
DRAINS = "here every exchange waits for the thread's own stores, which is stronger than this order"
UNLOCKS = "here an unlock waits for the thread's own stores, which is stronger than a release"
WHY_NOT = {
    **dict.fromkeys(["atomic_inc", "atomic_dec", "atomic_add", "atomic_sub", "xchg_relaxed", "xchg_acquire", "xchg_release",
                     "atomic_xchg_relaxed", "atomic_xchg_acquire", "atomic_xchg_release", "cmpxchg_relaxed", "cmpxchg_acquire",
                     "cmpxchg_release", "atomic_fetch_add_relaxed", "atomic_fetch_add_acquire", "atomic_fetch_add_release"], DRAINS),
    **dict.fromkeys(["spin_lock", "spin_unlock", "mutex_lock", "mutex_unlock"], UNLOCKS),
    **dict.fromkeys(["while", "for", "do", "goto", "switch"], "loops and jumps aren't supported; unroll the loop by hand"),
    "return": "a thread must run to its end"}


def threads_of(code: Text) -> List[Thread]:
    tokens, threads = Tokens(code), []
    while tokens.next().text:
        name = tokens.name("a thread")
        if name.text != f"P{len(threads)}":
            raise Refused(name.line, f"expected P{len(threads)}, found {name.text}")
        threads.append(Reader(tokens).thread())
    if not threads:
        raise Refused(code.line, "there are no threads")
    return threads


@dataclass(frozen=True)
class Address:
    """A location as an argument of a call."""

    name: str


Argument = Union[Expression, Address]
# The statement of an exchange, a comparison or an update, given the register that takes its result.
Exchange = Callable[[Optional[str]], Statement]


class Reader:
    """Reads one thread."""

    def __init__(self, tokens: Tokens) -> None:
        self.tokens = tokens
        self.locations: List[str] = []
        self.registers: List[str] = []

    def thread(self) -> Thread:
        self.tokens.expect("(")
        while not self.tokens.accept(")"):
            if self.locations:
                self.tokens.expect(",")
            self.parameter()
        return Thread(self.registers, self.locations, self.block())

    def parameter(self) -> None:
        """A parameter: a pointer with the name of its location."""
        has_type = False
        while self.tokens.accept("volatile", "_Atomic", *INT_TYPES):
            has_type = True
        if not has_type:
            self.tokens.refuse(f"expected a pointer to int such as int *x, found {self.tokens.found()}")
        self.tokens.expect("*")
        self.locations.append(self.tokens.name("a location").text)

    def block(self) -> List[Statement]:
        self.tokens.expect("{")
        found: List[Statement] = []
        while not self.tokens.accept("}"):
            found += self.statement()
        return found

    def statement(self) -> List[Statement]:
        tokens = self.tokens
        if tokens.next().text == "{":
            return self.block()
        if tokens.accept(";"):
            return []
        if tokens.accept("if"):
            return self.if_statement()
        if tokens.accept("*"):
            location = self.location()
            tokens.expect("=")
            found: List[Statement] = [Store(location, self.expression())]
        elif tokens.accept("int"):
            found = self.declarations()
        elif tokens.left[-2:-1] and tokens.left[-2].text == "=":
            found = self.assignment(self.register())
        else:
            found = self.call_statement()
        tokens.expect(";")
        return found

    def if_statement(self) -> List[Statement]:
        self.tokens.expect("(")
        condition = self.expression()
        self.tokens.expect(")")
        then = self.statement()
        otherwise = self.statement() if self.tokens.accept("else") else []
        return [If(condition, tuple(then), tuple(otherwise))]

    def declarations(self) -> List[Statement]:
        """Declared ints are registers. A thread declares each name once."""
        found: List[Statement] = []
        while True:
            if self.tokens.next().text == "*":
                self.tokens.refuse("pointers aren't supported")
            name = self.tokens.name("a name")
            if name.text in self.registers or name.text in self.locations:
                raise Refused(name.line, f"{name.text} is declared twice")
            self.registers.append(name.text)
            if self.tokens.next().text == "=":
                found += self.assignment(name.text)
            if not self.tokens.accept(","):
                return found

    def register(self) -> str:
        token = self.tokens.name("a register")
        if token.text not in self.registers:
            raise Refused(token.line, f"{token.text} isn't declared as an int of this thread")
        return token.text

    def location(self) -> str:
        token = self.tokens.name("a location")
        if token.text not in self.locations:
            raise Refused(token.line, f"{token.text} is no parameter of this thread")
        return token.text

    def assignment(self, register: str) -> List[Statement]:
        self.tokens.expect("=")
        if self.tokens.next().is_name() and self.is_call():
            exchange = self.exchange()
            if exchange is not None:
                return [exchange(register)]
        return [Assign(register, self.expression())]

    def is_call(self) -> bool:
        return self.tokens.left[-2].text == "("

    def call_statement(self) -> List[Statement]:
        """A call as a statement: a barrier, a store, or an exchange without a target."""
        token = self.tokens.next()
        if token.is_name() and token.text in WHY_NOT:
            raise Refused(token.line, f"{token.text}: {WHY_NOT[token.text]}")
        if not token.is_name() or not self.is_call():
            self.tokens.refuse(f"expected a statement, found {self.tokens.found()}")
        if token.text in BARRIERS:
            self.arguments(0)
            return BARRIERS[token.text]
        if token.text == "atomic_thread_fence":
            return FENCES[self.fence_order()]
        if token.text in STORES:
            return self.store()
        exchange = self.exchange()
        if exchange is None:
            raise Refused(token.line, f"call {token.text} isn't supported; examples/litmus/README.md lists those that are")
        return [exchange(None)]

    # Calls.

    def arguments(self, count: int) -> "Tuple[Token, List[Argument]]":
        """The call's name and its first arguments. The order that an `_explicit` call takes last is left."""
        name = self.tokens.take()
        self.tokens.expect("(")
        found: List[Argument] = []
        while len(found) < count:
            if found:
                self.tokens.expect(",")
            found.append(self.argument(name.text in TAKES_VALUE and not found))
        if not name.text.endswith("_explicit"):
            self.tokens.expect(")")
        return name, found

    def argument(self, is_value: bool) -> Argument:
        """A location or an expression."""
        tokens = self.tokens
        if is_value:
            tokens.expect("*")
            return Address(self.location())
        if tokens.next().text in self.locations:
            return Address(tokens.take().text)
        return self.expression()

    def order(self, allowed: Sequence[str], why: str) -> str:
        """The last argument of an `_explicit` call."""
        self.tokens.expect(",")
        order = self.order_name(allowed, why)
        self.tokens.expect(")")
        return order

    def order_name(self, allowed: Sequence[str], why: str) -> str:
        token = self.tokens.name("a memory order")
        order = token.text[len("memory_order_") :] if token.text.startswith("memory_order_") else token.text
        if order not in allowed:
            raise Refused(token.line, f"{token.text}: {why}")
        return order

    def fence_order(self) -> str:
        self.tokens.take()
        self.tokens.expect("(")
        order = self.order_name(list(FENCES), "a fence takes relaxed, acquire, release, acq_rel or seq_cst")
        self.tokens.expect(")")
        return order

    def store(self) -> List[Statement]:
        name, (location, value) = self.arguments(2)
        order = STORES[name.text] or self.order(("relaxed", "release", "seq_cst"), "a store takes relaxed, release or seq_cst")
        if not isinstance(location, Address) or isinstance(value, Address):
            raise Refused(name.line, f"{name.text} takes a location and a value")
        if order == "seq_cst":
            return [Swap(None, location.name, value)]
        store = Store(location.name, value)
        return {"relaxed": [store], "release": [StoreBarrier(), store], "full": [store, Fence()]}[order]

    def exchange(self) -> Optional[Exchange]:
        """Takes an exchange, comparison or update, if one comes next."""
        token = self.tokens.next()
        if token.text in WHY_NOT:
            raise Refused(token.line, f"{token.text}: {WHY_NOT[token.text]}")
        if token.text in EXCHANGES:
            location, (value,) = self.exchanged(2)
            return lambda register: Swap(register, location, value)
        if token.text in COMPARISONS:
            location, (expected, value) = self.exchanged(3)
            return lambda register: CompareAndSwap(register, location, expected, value)
        if token.text in UPDATES:
            sign, gives_new = UPDATES[token.text]
            location, (operand,) = self.exchanged(2)
            return lambda register: Update(register, location, sign, operand, gives_new)
        if token.text in COUNTS:
            sign, gives_new = COUNTS[token.text]
            location, () = self.exchanged(1)
            return lambda register: Update(register, location, sign, Number(1), gives_new)
        return None

    def exchanged(self, count: int) -> Tuple[str, List[Expression]]:
        """The location and the values that an exchange takes."""
        name, found = self.arguments(count)
        if name.text.endswith("_explicit"):
            self.order(("seq_cst",), DRAINS)
        locations = [argument.name for argument in found if isinstance(argument, Address)]
        values = [argument for argument in found if not isinstance(argument, Address)]
        if len(locations) != 1 or (name.text not in UPDATES and not isinstance(found[0], Address)):
            raise Refused(name.line, f"{name.text} takes one location")
        if sum(len(accesses(value)) for value in values) > 0:
            raise Refused(name.line, "read the other location into a register first")
        return locations[0], values

    # Expressions.

    def expression(self) -> Expression:
        """An expression with at most one access, since C doesn't order two."""
        line = self.tokens.next().line
        found = self.level(0)
        if len(accesses(found)) > 1:
            raise Refused(line, "C doesn't order the two accesses of this expression; read one into a register first")
        return found

    def level(self, level: int) -> Expression:
        if level == len(LEVELS):
            return self.primary()
        found = self.level(level + 1)
        while self.tokens.next().text in LEVELS[level]:
            sign = self.tokens.take()
            right = self.level(level + 1)
            found = logical(sign, found, right) if sign.text in ("&&", "||") else Binary(sign.text, found, right)
        if level == 0 and self.tokens.next().text in ("/", "%", "<<", ">>", "?"):
            self.tokens.refuse(f"operator {self.tokens.next().text} isn't supported")
        return found

    def primary(self) -> Expression:
        tokens = self.tokens
        token = tokens.next()
        if token.is_number():
            return Number(tokens.number())
        if tokens.accept("("):
            found = self.level(0)
            tokens.expect(")")
            return found
        sign = tokens.accept("-", "!", "~")
        if sign:
            return Unary(sign.text, self.primary())
        if tokens.accept("*"):
            return Memory(self.location())
        if token.is_name() and self.is_call():
            return self.load()
        if token.text in self.locations:
            tokens.refuse(f"{token.text} is an address; its value is *{token.text}")
        return Register(self.register())

    def load(self) -> Expression:
        token = self.tokens.next()
        if token.text in EXCHANGES or token.text in COMPARISONS or token.text in UPDATES or token.text in COUNTS:
            self.tokens.refuse(f"{token.text} must be the whole right side of an assignment")
        if token.text in WHY_NOT:
            self.tokens.refuse(f"{token.text}: {WHY_NOT[token.text]}")
        if token.text not in LOADS:
            self.tokens.refuse(f"call {token.text} isn't supported; examples/litmus/README.md lists those that are")
        name, (location,) = self.arguments(1)
        if name.text.endswith("_explicit"):
            self.order(LOAD_ORDERS, "a load takes relaxed, acquire or seq_cst")
        if not isinstance(location, Address):
            raise Refused(name.line, f"{name.text} takes a location")
        return Memory(location.name)


def accesses(expression: Expression) -> List[Memory]:
    return [part for part in subexpressions(expression) if isinstance(part, Memory)]


def logical(sign: Token, left: Expression, right: Expression) -> Expression:
    """`&&` or `||` without a branch: both sides can be evaluated, since neither reads memory."""
    if accesses(left) or accesses(right):
        raise Refused(sign.line, f"an access beside {sign.text} isn't supported; read it into a register first, or write an if")
    return Binary(sign.text[0], truth(left), truth(right))


def truth(value: Expression) -> Expression:
    """1 where the value isn't 0, and else 0."""
    is_truth = isinstance(value, Unary) and value.sign == "!" or isinstance(value, Binary) and value.sign in TRUTHS
    return value if is_truth else Binary("!=", value, Number(0))
