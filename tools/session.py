"""What a source, and the text that `beldi run` wrote of it, say of the session: its events, runs, instances and entries."""
import os
import re
import sys

TOKEN = re.compile(r'\s+|#[^\n]*|"(?:[^"\\\n]|\\.)*"|\w+|==|!=|<=|>=|\+\+|.')
OPERATORS = {"or", "and", "+", "-", "++", "*", "/", "%", "==", "!=", "<", "<=", ">", ">="}
CLOSING = {"(": ")", "[": "]", "{": "}"}
ENTRY = re.compile(r"(start|read|step|tx|try) \d")
ITEM = re.compile(r'\w+ \w+ "')
# The lines that say how often, and the place of that word.
TIMES_AT = {"turn": 2, "ic": 1, "gc": 2}
# What a log collector says in a turn that changed a row.
CHANGES = ("marked", "skipped", "dangled", "removed")
# A body with more ways through it than this is not followed: then its callees are known only where a line names them.
MOST_PATHS = 5000


def until_closed(main, *words):
    """Runs a tool; that who reads its output has closed it ends it without a word."""
    try:
        main(*words)
        sys.stdout.flush()
    except BrokenPipeError:
        os.dup2(os.open(os.devnull, os.O_WRONLY), sys.stdout.fileno())
        sys.exit(1)


class Source:
    """A deployment's functions, and the lines of its script with their numbers."""

    def __init__(self, text):
        tokens, end = [], len(text)
        for it in TOKEN.finditer(text):
            if it[0].isspace() or it[0].startswith("#"):
                continue
            if it[0] == "script":
                end = it.end()
                break
            tokens.append(it[0])
        self.deployment, self.tokens = text[:end].rstrip(), tokens
        self.functions = Reader(tokens).functions()
        number = text.count("\n", 0, end) + 1
        lines = text[end:].split("\n")[1:]
        self.lines = [(number + 1 + n, it.rstrip("\r")) for n, it in enumerate(lines) if it.strip() and not it.startswith("#")]


class Reader:
    """Reads the statements of a deployment as far as they make effects."""

    def __init__(self, tokens):
        self.tokens, self.at = tokens, 0

    def next(self):
        self.at += 1
        return self.tokens[self.at - 1] if self.at <= len(self.tokens) else "}"

    def peek(self):
        return self.tokens[self.at] if self.at < len(self.tokens) else "}"

    def functions(self):
        found = {}
        while self.at < len(self.tokens):
            if self.next() == "function":
                name = self.next()
                while self.at < len(self.tokens) and self.next() != "{":
                    pass
                found[name] = self.block()
        return found

    def block(self):
        """The statements up to the end of a block that was opened."""
        found = []
        while self.peek() != "}":
            found.append(self.statement())
        self.next()
        return found

    def statement(self):
        word = self.next()
        if word == "if":
            self.expression()
            self.next()
            first, second = self.block(), []
            if self.peek() == "else":
                self.at += 2
                second = self.block()
            return (word, first, second)
        if word == "repeat":
            count = int(self.next())
            self.next()
            return (word, count, self.block())
        if word == "transaction":
            self.next()
            first = self.block()
            self.at += 2
            return (word, first, self.block())
        name = self.tokens[self.at + (2 if word == "call" else 0)] if word in ("call", "async") else None
        while self.at < len(self.tokens) and self.next() != ";":
            pass
        return (word, name)

    def expression(self):
        """Goes past the expression of an `if`, up to the block after it."""
        complete = False
        while self.at < len(self.tokens):
            token = self.peek()
            if complete and token not in OPERATORS and token not in (".", "[", "("):
                return
            self.next()
            if token in CLOSING:
                self.past(CLOSING[token])
            complete = token not in OPERATORS and token not in (".", "not")

    def past(self, closing):
        while self.at < len(self.tokens) and (token := self.next()) != closing:
            if token in CLOSING:
                self.past(CLOSING[token])


class Path:
    """How far a body may be: the effects that it made, the entries of them, and its calls as (step, callee, whether it is waited
    for, whether it takes part in a transaction)."""

    def __init__(self, entries):
        self.entries, self.reached, self.ended = entries, set(), set()

    @property
    def is_cut(self):
        return len(self.reached) > MOST_PATHS

    def body(self, block, takes_part):
        """Follows a function's body along all its paths that make these entries, as long as they are not too many."""
        inside = "of its caller" if takes_part else ""
        falls, _, deaths = self.block(block, {(0, 0, ())}, inside)
        self.ended |= self.effect("step", falls, inside) | deaths
    def effect(self, kind, states, inside):
        """After an effect: inside a transaction it makes no entry."""
        if inside:
            return {(step + 1, made, calls) for step, made, calls in states}
        return {(step + 1, made + 1, calls) for step, made, calls in states if self.entries[made:made + 1] == [kind]}

    def block(self, block, states, inside):
        """Where a block is left at its end, by a `break`, and by a death or an abort."""
        breaks, deaths = set(), set()
        for form, *parts in block:
            self.reached |= states
            if self.is_cut:
                break
            if form in ("set", "table"):
                continue
            if form == "if":
                sides = [self.block(it, states, inside) for it in parts]
            elif form == "repeat":
                sides = [self.loop(parts[0], parts[1], states, inside)]
            elif form == "transaction" and inside:
                sides = [self.block(parts[0], states, inside)]
            elif form == "transaction":
                sides = [self.transaction(parts, states)]
            elif form == "break":
                sides = [(set(), states, set())]
            else:
                after = self.effect("read" if form == "read" else "step", states, inside)
                if parts[0]:
                    call = (parts[0], form == "call", bool(inside))
                    after = {(step, made, calls + ((step - 1, *call),)) for step, made, calls in after}
                if form == "return":
                    self.ended |= after
                sides = [(set() if form in ("return", "abort") else after, set(), after if inside else set())]
            states, broken, died = (set().union(*it) for it in zip(*sides))
            breaks |= broken
            deaths |= died
        self.reached |= states
        return states, breaks, deaths

    def loop(self, count, block, states, inside):
        left, deaths = set(), set()
        for _ in range(count):
            after, broken, died = self.block(block, states, inside)
            left |= broken
            deaths |= died
            if after == states or not after or self.is_cut:
                return left | after, set(), deaths
            states = after
        return left | states, set(), deaths

    def transaction(self, blocks, states):
        """A transaction that the body begins: its begin makes no entry, its end one."""
        states = {(step + 1, made, calls) for step, made, calls in states}
        falls, _, deaths = self.block(blocks[0], states, "of its own")
        aborted = self.block(blocks[1], self.effect("try", deaths, ""), "")
        return self.effect("tx", falls, "") | aborted[0], aborted[1], set()


class Event:
    """One event of the script, with what was answered."""

    def __init__(self, line, text, answer):
        self.line, self.text, self.answer = line, text, answer
        self.word = text.split(" ")[0]
        run = re.match(r"(?:turn|crash|lost) (\d+)", text)
        self.run = int(run[1]) if run else None
        self.replies, self.waits, self.items = [], [], None
        started = re.match(r"(?:bound \d+ |launched |acted.* )?run (\d+)", answer)
        self.starts = int(started[1]) if started else None
        self.is_over = answer.startswith("acted") and answer.endswith(" over")
        entry = re.match(r"acted (read \S+ \d+|step \S+|tx \S+|try \S+ \S+ \S+)", answer)
        self.told = entry[1] if entry else None
        if answer.startswith("bound "):
            self.told = " ".join(["start", *text.split(" ")[1:3]])
        self.entries = []

    @property
    def text_of_one(self):
        """The line of this event alone."""
        return " ".join(self.text.split(" ")[:TIMES_AT.get(self.word)])

    @property
    def collector(self):
        """The log collector that makes these turns."""
        return int(self.text.split(" ")[1]) if self.word in ("gc", "sweep") else None

    @property
    def may_remove(self):
        """Whether a row may have gone: what the turns of a sweep said is not told."""
        return self.answer == "removed" or self.word == "sweep"

    @property
    def may_change(self):
        """Whether a log collector may have changed a row."""
        return self.answer in CHANGES or self.word == "sweep"

    @property
    def is_silent(self):
        """Whether it may have made an entry that it does not tell."""
        return self.word == "settle" or (self.answer == "dropped" and self.word not in ("halt", "ic", "gc"))


class Session:
    """The events of a source with their answers, whose runs they are, and the book."""

    def __init__(self, source_text, output):
        self.source = Source(source_text)
        self.lines, self.at = output.split("\n"), 0
        self.events = []
        self.read_events()
        self.tables = self.listing("== tables", ITEM)
        told = [it.told for it in self.events if it.told]
        book = self.listing("== book", ENTRY)
        self.refused = self.peek() if self.peek().startswith("refused ") else ""
        self.is_whole = bool(self.refused) or (book is not None and self.lines[self.at:] == [""])
        self.book = told if book is None else book
        self.unsure = set()
        self.join_entries()
        self.is_whole = self.is_whole and sum(len(it.entries) for it in self.events) == len(self.book)
        self.owner, self.function, self.takes_part = {}, {}, set()
        self.find_owners()

    def peek(self):
        return self.lines[self.at] if self.at < len(self.lines) else ""

    def take(self):
        self.at += 1
        return self.lines[self.at - 1] if self.at <= len(self.lines) else ""

    def listing(self, head, form):
        """The lines of a listing that begins here; None where none does. At the end of a script, the tables
        that could not be read are the one line `dropped`."""
        if self.peek() != head:
            return None
        self.take()
        if form is ITEM and self.lines[self.at:self.at + 2] == ["dropped", "== book"]:
            return [self.take()]
        found = []
        while form.match(self.peek()):
            found.append(self.take())
        return found

    def read_events(self):
        for line, text in self.source.lines:
            if self.peek().startswith("refused "):
                return
            words = text.split(" ")
            at = TIMES_AT.get(words[0], len(words))
            for _ in range(int(words[at]) if at < len(words) and words[at].isdigit() else 1):
                if not self.peek():
                    return
                self.events.append(self.event(line, text))

    def event(self, line, text):
        word = text.split(" ")[0]
        replies = []
        while word == "settle" and self.peek().startswith("reply "):
            replies.append(self.take())
        event = Event(line, text, self.peek())
        event.replies = replies
        if word == "tables":
            event.items = self.listing("== tables", ITEM)
        elif word == "book":
            self.listing("== book", ENTRY)
        else:
            self.take()
        # (what follows `run R` tells it from the answer of a later `restart`)
        while word == "settle" and re.match(r"run \d+ ", self.peek()):
            event.waits.append(self.take())
        ended = re.match(r"acted step (\d+) over$", event.answer)
        if ended and self.peek().startswith(f"reply {ended[1]} "):
            event.replies.append(self.take())
        return event

    def join_entries(self):
        """Gives each entry of the book to the event that made it: those that are told, in order, and the others to events between
        them that do not tell. Where several may have made an entry, the first of them has it, and `unsure` has the entry."""
        makers = [it for it in self.events if it.told or it.is_silent]
        size, came, leads = (len(makers), len(self.book)), {(0, 0)}, set()
        for i in range(size[0], -1, -1):
            for k in range(size[1], -1, -1):
                if (i, k) == size or (i < size[0] and any(it in leads for it in self.joins(makers, i, k))):
                    leads.add((i, k))
        for i in range(size[0]):
            for k in range(size[1] + 1):
                if (i, k) not in came or (i, k) not in leads:
                    continue
                for after in leads.intersection(self.joins(makers, i, k)):
                    came.add(after)
                    if after[1] > k and self.maker(k):
                        self.unsure.add(k)
                    elif after[1] > k:
                        makers[i].entries.append(k)

    def joins(self, makers, i, k):
        """Where the book may stand after maker i, which comes to it at entry k."""
        maker, entry = makers[i], self.book[k] if k < len(self.book) else None
        if maker.told:
            return [(i + 1, k + 1)] if entry and f"{entry} ".startswith(f"{maker.told} ") else []
        took = [(i, k + 1)] if maker.word == "settle" else [(i + 1, k + 1)]
        return [(i + 1, k)] + (took if entry and not entry.startswith("start ") else [])

    def find_owners(self):
        """Finds the instance of each run. That of a run that a call started is not told: `callee` says how it is found."""
        for at, event in enumerate(self.events):
            words = event.text.split(" ")
            if event.starts is None:
                continue
            if event.word == "request":
                self.owner[event.starts] = words[1]
                self.function[words[1]] = words[2]
            elif event.word == "restart":
                self.owner[event.starts] = words[1]
                self.function.setdefault(words[1], words[2])
            elif event.word == "ic":
                self.owner[event.starts] = event.answer.split(" ")[3]
            else:
                self.owner[event.starts] = self.callee(at)
            self.name_function(self.owner[event.starts])
        for event in self.events:
            if event.run is not None and event.run not in self.owner and event.answer not in ("no-run", "run-over"):
                self.owner[event.run] = self.named(event.run) or f"?{event.run}"
        for instance in self.instances():
            self.name_function(instance)

    def named(self, run):
        """The instance of a run, where an entry that it made names it."""
        for event in self.events:
            if event.run == run:
                found = re.match(r"acted (?:read|step) (\S+)", event.answer) or re.match(r"acted try \S+ (\S+):", event.answer)
                if found:
                    return found[1]
        return None

    def calls(self, instance):
        """What calls the instance may have made one after another, as far as its function and its entries say."""
        if instance not in self.function:
            return set()
        path = self.path(self.function[instance], instance)
        if path.is_cut:
            return set()
        return self.ways(path, instance)

    def ways(self, path, instance):
        """The calls on each way along the path that makes all entries of the instance, and ends where that has ended."""
        reached = path.ended if self.has_ended(instance) else path.reached | path.ended
        return {calls for _, made, calls in reached if made == len(path.entries)}

    def path(self, function, instance):
        """The paths of the function on which it makes the entries of the instance."""
        entries = [it.split(" ")[0] for it in self.book if it.split(" ")[1] == instance and not it.startswith("start ")]
        path = Path(entries)
        path.body(self.source.functions.get(function, []), instance in self.takes_part)
        return path

    def has_ended(self, instance):
        return any(it.is_over and self.owner.get(it.run) == instance for it in self.events)

    def name_function(self, instance):
        """The function of a callee: one that its caller may have called at this step, and that may have made its entries."""
        caller, _, step = instance.rpartition("/")
        if not caller or instance in self.function:
            return
        self.name_function(caller)
        calls = {it for path in self.calls(caller) for it in path if str(it[0]) == step}
        if calls and all(it[3] for it in calls):
            self.takes_part.add(instance)
        fits = set()
        for _, name, _, _ in calls:
            path = self.path(name, instance)
            if path.is_cut or self.ways(path, instance):
                fits.add(name)
        if len(fits) == 1:
            self.function[instance] = fits.pop()

    def callee(self, at):
        """The instance of the run that a call starts at this event. It is known where a later line names it: the caller waits for
        it, or the run makes an entry. Else it is found from the caller's text and entries: it is the callee that was started last
        where the caller's run made no turn since but waits; the next call, on all paths that the entries leave, where it made one,
        or where that callee's run came to its end; and either of the two in another run of the caller. Where that leaves no call or
        several, the id ends in `?` and the number of the run."""
        start = self.events[at]
        caller = self.owner.get(start.run, "?")
        if named := self.named(start.starts):
            return named
        for event in self.events[at + 1:]:
            if event.run == start.run:
                named = re.match(r"waits (\S+)", event.answer)
                if named:
                    return named[1]
                break
        before = [it for it in self.events[:at] if it.starts and it.word == "turn" and self.owner.get(it.run) == caller]
        last = self.owner[before[-1].starts].rpartition("/")[2] if before else "-1"
        if last.startswith("?"):
            return f"{caller}/?{start.starts}"
        paths = self.calls(caller)
        same = {it[0] for path in paths for it in path if str(it[0]) == last}
        silent = any(it.is_silent and (it.run is None or self.owner.get(it.run) == caller) for it in self.events[:at])
        later = [[it[0] for it in path if it[0] > int(last)] for path in paths]
        steps = {it for path in later for it in (path if silent else path[:1])}
        if before and before[-1].run == start.run:
            between = self.events[self.events.index(before[-1]) + 1:at]
            steps = steps if any(it.run == start.run and it.answer.startswith("acted") for it in between) else same
        elif before and not any(it.run == before[-1].starts and it.is_over for it in self.events[:at]):
            steps |= same
        return f"{caller}/{steps.pop()}" if len(steps) == 1 else f"{caller}/?{start.starts}"

    def instances(self):
        """The ids of all instances that have a run, callees after their caller."""
        def place(instance):
            return [(0, int(it)) if it.isdigit() else (1, int(it.strip("?") or 0)) for it in instance.split("/")]
        return sorted(set(self.owner.values()), key=place)

    def runs(self, instance):
        return sorted(run for run, owner in self.owner.items() if owner == instance)

    def maker(self, entry):
        """The event that made the entry of this number; None where that is not known."""
        return next((it for it in self.events if entry in it.entries), None)

    def order(self):
        """The numbers of the entries in their linear order: a read stands where the changes were as many as it saw."""
        changes = [k for k, it in enumerate(self.book) if not it.startswith("read ")]
        reads = [(int(it.split(" ")[2]), k) for k, it in enumerate(self.book) if it.startswith("read ")]
        found = []
        for count in range(len(changes) + 1):
            found += [k for seen, k in reads if seen == count]
            found += changes[count:count + 1]
        return found
