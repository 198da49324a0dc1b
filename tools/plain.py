"""What a deployment's bodies mean, and what a book does on plain maps: the answers and the effects of each instance."""
import json

OPERATIONS = ("read", "write", "condwrite", "lock", "unlock")
RELATIONS = ("==", "!=", "<", "<=", ">", ">=")
MOST_BYTES, MOST_DEEP, MOST_KEY, MOST_EFFECTS, MOST_NUMBER = 4096, 32, 256, 10_000, 2 ** 63
# How many entries the log of a row has at most.
MOST_ENTRIES = 8
DONE, ABORTED = ("value", None), ("aborted", None)


class Unknown(Exception):
    """The text does not tell it, or this file does not know it."""


class Fault(Exception):
    """A body ends in a fault, whose code it has."""


class Aborted(Exception):
    """A transaction is aborted."""


class Returned(Exception):
    """A body returns a value."""


class Broken(Exception):
    """A `repeat` ends."""


# ---- values
def text_of(value):
    return json.dumps(value, ensure_ascii=False, separators=(",", ":"), sort_keys=True)


def depth(value):
    if isinstance(value, (list, dict)):
        parts = value.values() if isinstance(value, dict) else value
        return 1 + max((depth(it) for it in parts), default=0)
    return 0


def limited(value):
    if isinstance(value, (str, list, dict)):
        if len(text_of(value).encode()) > MOST_BYTES or depth(value) > MOST_DEEP:
            raise Fault("value-too-large")
    return value


def typed(value, kind):
    """The value, which has to be of this kind; a truth is no number."""
    if type(value) is not kind:
        raise Fault("type")
    return value


def whole(number):
    if not -MOST_NUMBER <= number < MOST_NUMBER:
        raise Fault("overflow")
    return number


def quotient(m, n):
    if n == 0:
        raise Fault("divide-by-zero")
    return whole(abs(m) // abs(n) * (1 if (m < 0) == (n < 0) else -1))


def in_order(relation, left, right):
    return {"<": left < right, "<=": left <= right, ">": left > right, ">=": left >= right}[relation]


def meets(relation, left, right):
    """Whether two values stand so to one another; None where they have no order."""
    if relation in ("==", "!="):
        return (text_of(left) == text_of(right)) == (relation == "==")
    if type(left) is not type(right) or type(left) not in (int, str):
        return None
    if type(left) is str:
        left, right = left.encode(), right.encode()
    return in_order(relation, left, right)


def compared(relation, left, right):
    met = meets(relation, left, right)
    if met is None:
        raise Fault("type")
    return met


def number_of(sign, left, right):
    m, n = typed(left, int), typed(right, int)
    if sign == "%":
        return m - quotient(m, n) * n
    return quotient(m, n) if sign == "/" else whole({"+": m + n, "-": m - n, "*": m * n}[sign])


def joined(left, right):
    return typed(left, str) + typed(right, str)


def element(value, at):
    """A field, which is given in a tuple, or an element of a list."""
    if isinstance(at, tuple):
        return typed(value, dict).get(at[0])
    return value[at] if 0 <= typed(at, int) < len(typed(value, list)) else None


def pushed(value, more):
    return typed(value, list) + [more]


def with_field(value, key, more):
    return {**typed(value, dict), typed(key, str): more}


def length(value):
    return len(value.encode()) if type(value) is str else len(typed(value, list))


BUILT_IN = {"len": length, "text": text_of, "push": pushed, "with": with_field}


# ---- the text of a deployment
class Function:
    def __init__(self, parameter, block):
        self.parameter, self.block = parameter, block


class Parser:
    """Reads a deployment that was not refused: statements as tuples, expressions as functions of the variables."""

    def __init__(self, tokens):
        self.tokens, self.at = tokens, 0

    def peek(self):
        return self.tokens[self.at] if self.at < len(self.tokens) else ""

    def next(self):
        if self.at == len(self.tokens):
            raise Unknown("the deployment ends early")
        self.at += 1
        return self.tokens[self.at - 1]

    def take(self, *words):
        """Goes past these tokens, and gives those where a word is empty."""
        found = [self.next() for _ in words]
        if any(word and word != token for word, token in zip(words, found)):
            raise Unknown(f"the deployment has {' '.join(found)}")
        return [token for word, token in zip(words, found) if not word]

    def is_next(self, word):
        """Whether the word is next; then goes past it."""
        if self.peek() != word:
            return False
        self.at += 1
        return True

    def functions(self):
        found = {}
        while self.at < len(self.tokens):
            if self.next() == "function":
                name, parameter = self.take("", "(", "", ")")
                found[name] = Function(parameter, self.block())
        return found

    def block(self):
        self.take("{")
        found = []
        while not self.is_next("}"):
            found.append(self.statement())
        return found

    def statement(self):
        form = self.next()
        if form == "if":
            return (form, self.expression(), self.block(), self.block() if self.is_next("else") else [])
        if form == "repeat":
            return (form, int(self.next()), self.block())
        if form == "transaction":
            first = self.block()
            self.take("aborted")
            return (form, first, self.block())
        found = (form, *self.parts(form))
        self.take(";")
        return found

    def parts(self, form):
        """The parts of a statement without blocks, up to its end."""
        if form == "table":
            return self.take("")
        if form == "set":
            return (*self.take("", "="), self.expression())
        if form == "read":
            return (*self.take("", "="), *self.cell())
        if form == "write":
            return (*self.cell(), self.after("=", self.expression))
        if form == "condwrite":
            name, cell = self.take("", "=")[0], self.cell()
            relation, operand = self.next(), self.sum()
            return (name, *cell, relation, operand, self.after("then", self.expression))
        if form == "call":
            name, function = self.take("", "=", "")
            return (name, function, self.argument())
        if form == "async":
            return (*self.take(""), self.argument())
        if form in ("lock", "unlock"):
            return self.cell()
        if form == "return":
            return (self.expression(),)
        if form in ("abort", "break"):
            return ()
        raise Unknown(f"the deployment has {form}")

    def after(self, word, part):
        self.take(word)
        return part()

    def argument(self):
        self.take("(")
        found = self.expression()
        self.take(")")
        return found

    def cell(self):
        table = self.take("", "[")[0]
        key = self.expression()
        self.take("]")
        return table, key

    # An expression is a function of the variables, whose value is within the limits of values.
    def expression(self):
        return self.decided("or", lambda: self.decided("and", self.negation))

    def decided(self, word, part):
        """Parts with `or` or `and` between them."""
        left = part()
        while self.is_next(word):
            left = self.either(word == "or", left, part())
        return left

    def either(self, whether, left, right):
        """The left side is enough where it decides."""
        return lambda vs: whether if typed(left(vs), bool) is whether else typed(right(vs), bool)

    def negation(self):
        if self.is_next("not"):
            part = self.negation()
            return lambda vs: not typed(part(vs), bool)
        left = self.sum()
        if self.peek() not in RELATIONS:
            return left
        relation, right = self.next(), self.sum()
        return lambda vs: compared(relation, left(vs), right(vs))

    def sum(self):
        return self.chain(("+", "-", "++"), lambda: self.chain(("*", "/", "%"), self.unary))

    def chain(self, signs, part):
        left = part()
        while self.peek() in signs:
            left = self.operation(self.next(), left, part())
        return left

    def operation(self, sign, left, right):
        if sign == "++":
            return lambda vs: limited(joined(left(vs), right(vs)))
        return lambda vs: number_of(sign, left(vs), right(vs))

    def unary(self):
        if self.is_next("-"):
            part = self.unary()
            return lambda vs: whole(-typed(part(vs), int))
        value = self.atom()
        while self.peek() in (".", "["):
            value = self.part_of(value)
        return value

    def part_of(self, value):
        if self.next() == ".":
            key = (self.next(),)
            return lambda vs: element(value(vs), key)
        at = self.expression()
        self.take("]")
        return lambda vs: element(value(vs), at(vs))

    def atom(self):
        token = self.next()
        if token.isdigit() or token.startswith('"') or token in ("true", "false", "null"):
            constant = int(token) if token.isdigit() else json.loads(token)
            return lambda vs: limited(constant)
        if token == "(":
            found = self.expression()
            self.take(")")
            return found
        if token == "[":
            items = self.several("]", self.expression)
            return lambda vs: limited([it(vs) for it in items])
        if token == "{":
            fields = self.several("}", self.member)
            return lambda vs: limited({key: it(vs) for key, it in fields})
        if token in BUILT_IN:
            self.take("(")
            parts = self.several(")", self.expression)
            return lambda vs: limited(BUILT_IN[token](*[it(vs) for it in parts]))
        return lambda vs: vs.get(token)

    def several(self, closing, part):
        found = []
        while not self.is_next(closing):
            found.append(part())
            self.is_next(",")
        return found

    def member(self):
        key = json.loads(self.next())
        self.take(":")
        return key, self.expression()


# ---- bodies
class Body:
    """A body that goes on: it gives its effects one after another, each with whether it is wanted inside a transaction, and is sent
    the answer of each."""

    def __init__(self, function, arguments, is_inside):
        self.variables, self.used, self.held = {function.parameter: arguments}, 0, []
        self.effects = self.whole(function.block, is_inside)

    def whole(self, block, is_inside):
        try:
            yield from self.block(block, is_inside)
            outcome = DONE
        except Returned as it:
            outcome = ("value", it.args[0])
        except Fault as it:
            outcome = ("fault", it.args[0])
        except Aborted:
            outcome = ABORTED
        for lock in list(self.held):
            yield is_inside, ("unlock", *lock)
        yield is_inside, ("return", outcome)

    def count(self):
        if self.used == MOST_EFFECTS:
            raise Fault("steps")
        self.used += 1

    def effect(self, is_inside, *effect):
        """Counts an effect, and is sent its answer."""
        self.count()
        kind, value = yield is_inside, effect
        if kind == "fault":
            raise Fault(value)
        if kind == "aborted":
            raise Aborted
        return value

    def key(self, expression):
        key = typed(expression(self.variables), str)
        if len(key.encode()) > MOST_KEY:
            raise Fault("value-too-large")
        return key

    def block(self, block, is_inside):
        for form, *parts in block:
            yield from getattr(self, f"do_{form}")(is_inside, *parts)

    def do_table(self, is_inside, name):
        yield from ()

    def do_set(self, is_inside, name, expression):
        self.variables[name] = expression(self.variables)
        yield from ()

    def do_read(self, is_inside, name, table, key):
        self.variables[name] = yield from self.effect(is_inside, "read", table, self.key(key))

    def do_write(self, is_inside, table, key, expression):
        yield from self.effect(is_inside, "write", table, self.key(key), expression(self.variables))

    def do_condwrite(self, is_inside, name, table, key, relation, operand, expression):
        parts = self.key(key), relation, operand(self.variables), expression(self.variables)
        self.variables[name] = yield from self.effect(is_inside, "condwrite", table, *parts)

    def do_call(self, is_inside, name, function, expression):
        self.variables[name] = yield from self.effect(is_inside, "call", function, expression(self.variables))

    def do_async(self, is_inside, function, expression):
        yield from self.effect(is_inside, "async", function, expression(self.variables))

    def do_lock(self, is_inside, table, key):
        lock = (table, self.key(key))
        if lock not in self.held:
            yield from self.effect(is_inside, "lock", *lock)
            self.held.append(lock)

    def do_unlock(self, is_inside, table, key):
        lock = (table, self.key(key))
        if lock in self.held:
            yield from self.effect(is_inside, "unlock", *lock)
            self.held.remove(lock)

    def do_transaction(self, is_inside, first, second):
        if is_inside:
            yield from self.block(first, True)
            return
        if self.held:
            raise Fault("locks-held")
        yield from self.effect(False, "begin")
        before, is_aborted = dict(self.variables), False
        try:
            yield from self.block(first, True)
        except Aborted:
            is_aborted = True
        except Fault:
            yield True, ("end", False)
            raise
        yield True, ("end", not is_aborted)
        if is_aborted:
            self.variables = before
            yield from self.block(second, False)

    def do_abort(self, is_inside):
        if not is_inside:
            raise Fault("no-tx")
        yield from self.effect(True, "abort")

    def do_break(self, is_inside):
        yield from ()
        raise Broken

    def do_if(self, is_inside, test, first, second):
        yield from self.block(first if typed(test(self.variables), bool) else second, is_inside)

    def do_repeat(self, is_inside, times, block):
        try:
            for _ in range(times):
                self.count()
                yield from self.block(block, is_inside)
        except Broken:
            pass

    def do_return(self, is_inside, expression):
        yield from ()
        raise Returned(expression(self.variables))


# ---- the book on plain maps
class Asked:
    """An effect that an instance of a function was led to by the answers before it; of an operation also its item, of an end what it has
    to visit; and the transaction that it is of."""

    def __init__(self, name, is_inside, effect):
        self.is_inside, self.effect, self.form = is_inside, effect, effect[0]
        self.item = (name, *effect[1:3]) if self.form in OPERATIONS else None
        self.tx, self.died, self.locks, self.members = None, False, set(), []


class Instance:
    def __init__(self, id, name, function, arguments, is_member, is_waited_for=False):
        self.id, self.name, self.is_waited_for = id, name, is_waited_for
        self.body = Body(function, arguments, is_member)
        self.asked = [Asked(name, *next(self.body.effects))]
        self.outcome = None

    @property
    def next(self):
        """The effect that has no answer yet."""
        return self.asked[-1]

    @property
    def step(self):
        """How many answers it was given."""
        return len(self.asked) - 1

    def answer(self, answer):
        self.asked.append(Asked(self.name, *self.body.effects.send(answer)))


class Plain:
    """Plain maps, and the instances, after the entries that were made so far. Those that took part in an aborted transaction are
    among them."""

    def __init__(self, functions):
        self.functions, self.items, self.made, self.entries = functions, {}, {}, {}

    def noted(self, item, tx=None):
        """The log of an item, or of the copy that a transaction has of one, gets an entry."""
        self.entries[item, tx] = self.entries.get((item, tx), 0) + 1

    def rows(self, item, tx=None):
        """How many rows it has, or will have once there is a further entry."""
        return self.entries.get((item, tx), 0) // MOST_ENTRIES + 1

    def make(self, id, name, *rest):
        if name not in self.functions or id in self.made:
            raise Unknown(f"the book makes {id}")
        self.made[id] = Instance(id, name, self.functions[name], *rest)

    def entry(self, text):
        """Makes an entry of the book."""
        kind, id, *rest = text.split(" ", 3)
        if kind == "start":
            self.make(id, rest[0], json.loads(rest[1]), False)
            return
        instance = self.made.get(id)
        if instance is None or instance.outcome:
            raise Unknown(f"the book has {text}")
        if kind in ("tx", "try"):
            self.transaction(instance, rest[0] if rest else None)
        elif (instance.next.form == "read") == (kind == "read"):
            self.change(instance)
        else:
            raise Unknown(f"the book has {text}")

    def change(self, instance):
        """A step outside of transactions, or of who takes part in one."""
        form, effect = instance.next.form, instance.next.effect
        if form in OPERATIONS:
            item = instance.next.item
            if form != "read" and not instance.next.is_inside:
                self.noted(item)
            instance.answer(("value", self.operate(item, form, effect[3:])))
        elif form in ("call", "async"):
            self.make(f"{instance.id}/{instance.step}", *effect[1:], instance.next.is_inside, form == "call")
            if form == "async":
                instance.answer(DONE)
        elif form == "return":
            instance.outcome = effect[1]
            if instance.is_waited_for:
                self.made[instance.id.rpartition("/")[0]].answer(effect[1])
        else:
            raise Unknown(f"a step of {instance.id} is {form}")

    def operate(self, item, form, parts):
        """Does an operation on an item, and gives its answer."""
        value = self.items.get(item)
        if form == "read":
            return value
        if form == "write":
            self.items[item] = parts[0]
        if form == "condwrite":
            does = bool(meets(parts[0], value, parts[1]))
            if does:
                self.items[item] = parts[2]
            return does
        return None

    def transaction(self, owner, place):
        """A whole transaction: the one that was called last goes on, up to the end that the owner comes to. One that is aborted is
        so at a place."""
        if owner.next.form != "begin":
            raise Unknown(f"{owner.id} begins no transaction")
        items, locks, owned, members, tx = dict(self.items), set(), set(), [], (owner.id, owner.step)
        owner.answer(DONE)
        stack = [owner]
        while stack[-1].next.form != "end":
            one, form = stack[-1], stack[-1].next.form
            one.next.died = form in OPERATIONS and place == f"{one.id}:{one.step}"
            if form in OPERATIONS:
                one.next.tx = tx
                locks.add((one.id, one.next.item))
                self.noted(one.next.item)
            if place == f"{one.id}:{one.step}":
                one.answer(ABORTED)
                continue
            if form in OPERATIONS:
                owned.add(one.next.item)
            if form in ("write", "condwrite"):
                self.noted(one.next.item, tx)
            step = one.step
            self.change(one)
            if form == "call":
                stack.append(self.made[f"{one.id}/{step}"])
                members.append(stack[-1])
            elif form == "return":
                stack.pop()
        commits = owner.next.effect[1]
        if stack != [owner] or commits != (place is None):
            raise Unknown(f"the transaction of {owner.id} ends otherwise")
        if not commits:
            self.items = items
        for it in owned:
            self.noted(it)
        owner.next.tx, owner.next.locks, owner.next.members = tx, locks, members
        owner.answer(DONE)


def replayed(source, entries):
    """The plain maps after these entries, which are in their linear order."""
    plain = Plain(Parser(source.tokens).functions())
    for it in entries:
        plain.entry(it)
    return plain
