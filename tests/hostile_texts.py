"""The texts of tests/hostile: bytes that are drawn, as sources and over a socket, and deployments and scripts that are changed by words and
bytes, whose answers are read line by line as docs/REFERENCE.md has them."""
import json
import os
import re
from collections import Counter

from hostile_shared import IS_LONG, TOP, WIRE, Draw, bytes_of, case, counts, ended, read, same, serve

CHANGED = 20_000 if IS_LONG else 1_500
DRAWN = 5_000 if IS_LONG else 250


# ---- bytes that are drawn
def line_of(source, at):
    return source[:at].count(b"\n") + 1


def refusal_of_noise(source):
    """How a source is refused that has no word in it: of what is no UTF-8, or as its first token begins no deployment."""
    try:
        source.decode()
    except UnicodeDecodeError as fault:
        return f"refused line {line_of(source, fault.start)}: utf8\n"
    if len(source) > 65536:
        return f"refused line {line_of(source, 65536)}: too-large\n"
    first = re.match(rb"(?:[ \t\r\n]|#[^\n]*)*", source).end()
    # (a final newline opens no line)
    return f"refused line {line_of(source[:-1] if first == len(source) else source, first)}: syntax\n"


HEAD_BYTES = b"\r\n\r\n\r\n  ::/?POSTGETHTTP/1.10aA\t\x00\xff"


def drawn_sources(draw):
    """Sources of drawn bytes, in which no deployment and no script begins."""
    for at in range(DRAWN):
        size = draw.one_of((1, 2, 3, 10, 100, 1000, 3000))
        source = draw.bytes(size, draw.one_of((None, b"{}[]();=+-*/%<>!., \n#\"\\", b"\n\n# \t\r", b"0123456789\n ", bytes(range(128)))))
        if not re.search(rb"life|script", source):
            case(f"drawn source {at}", draw.one_of(("check", "run")), source, 5, refusal_of_noise(source))


def drawn_connections(draw):
    """Connections of drawn bytes, and of the first line of a request with drawn bytes behind it."""
    sent = [draw.bytes(draw.one_of((1, 2, 5, 20, 100, 700)), draw.one_of((None, HEAD_BYTES, HEAD_BYTES))) for _ in range(DRAWN)]
    sent += [b"POST /tickets HTTP/1.1\r\n" + draw.bytes(draw.below(60), HEAD_BYTES) + b"\r\n\r\n" for _ in range(DRAWN)]
    service, statuses, tickets = serve.Service(WIRE, len(sent)), [], 0
    for at, data in enumerate(sent):
        wanted = serve.refusal(data)
        if wanted is None:
            tickets += 1
            wanted = serve.ticket(tickets)
        same(f"drawn connection {at}, {serve.short(data)}", service.ask(data), wanted)
        statuses.append(serve.status_of(wanted) or "none")
    serve.served(counts, "drawn connections", service, statuses)


def noise():
    """Drawn bytes, as sources and over a socket: each has its refusal, and nothing else."""
    draw = Draw("noise")
    drawn_sources(draw)
    drawn_connections(draw)


# ---- texts that are changed
def stock():
    """The sources that are changed: those of the golden cases that are not long, and the examples."""
    folders = [(f"{TOP}/tests/rows", ".in"), (f"{TOP}/examples", ".beldi")]
    paths = [f"{folder}/{it}" for folder, end in folders for it in sorted(os.listdir(folder)) if it.endswith(end)]
    return [it for it in map(read, paths) if 0 < len(it) < 4000]


WORDS = re.compile(rb'"(?:[^"\\\n]|\\.)*"|\w+|==|!=|<=|>=|\+\+|\s+|.', re.S)
BYTES = [
    b"\n", b" ", b"\0", b"\xff", b"\xc3\xa9", b"\xed\xa0\x80", b"\r", b"#", b'"', b"\\",
    b"{", b"}", b"(", b")", b"[", b"]", b";", b"-", b"9", b"/", b"0",
]
MORE = [
    b"9223372036854775808", b"4294967296", b"4294967295", b"-1", b"0", b"1e9", b"repeat 3 {", b"}", b"settle 100", b"turn 1 9", b"restart 1/0 f",
    b"transaction {", b"aborted { }", b"abort;", b"break;", b"lock", b"null", b"script", b"ticket\n", b"\nbook\n", b"\ntables\n", b"\nic 3\n",
    b"\ngc 0 9\n", b"\ngc 7\n", b"\nsweep 1 99\n", b"\ntick 101\n",
    b"\nhalt\n", b"\nlost 1\n", b"\ncrash 1\n", b"\ntick 9\n", b"\nreply 1\n", b"\nrows\n", b"async", b"[[[[", b"{\"a\":", b"\\ud800",
    b"1.5", b"true", b"=", b"not",
]


def kind_of(piece):
    """Blanks, a word of letters, a number, a text, or a sign."""
    return 0 if piece.isspace() else 1 if piece[:1].isalpha() else 2 if piece.isdigit() else 3 if piece[:1] == b'"' else 4


def alike(draw, piece, others):
    """One of the others that is of the kind of this piece, where a few draws find one."""
    found = [it for it in (draw.one_of(others) for _ in range(12)) if kind_of(it) == kind_of(piece)]
    return (found or [piece])[-1]


def change(draw, pieces, sources):
    """One change of pieces: some are taken away, doubled, swapped, moved in from another source, or replaced by another of their kind; or one
    has other bytes."""
    at, to, form = draw.below(len(pieces)), draw.below(len(pieces)), draw.below(9)
    if form == 0:
        pieces[at : at + 1 + draw.below(3)] = []
    elif form == 1:
        pieces[at:at] = pieces[to : to + 1 + draw.below(12)]
    elif form == 2:
        pieces[at], pieces[to] = pieces[to], pieces[at]
    elif form == 3:
        pieces[at : at + draw.below(2)] = [draw.one_of(MORE)]
    elif form == 4:
        word, cut = pieces[at], draw.below(len(pieces[at]) + 1)
        pieces[at] = word[:cut] + draw.one_of(BYTES) + word[cut + draw.below(2) :]
    else:
        pieces[at] = alike(draw, pieces[at], pieces if form < 7 else WORDS.findall(draw.one_of(sources)) + MORE)


def changed(draw, sources):
    """A source with one to four changes, in its script alone or anywhere, by lines or by words."""
    source, front = draw.one_of(sources), b""
    at = source.find(b"script\n") + 7
    if at > 7 and draw.below(2):
        front, source = source[:at], source[at:]
    pieces = source.splitlines(True) if draw.below(4) == 0 else WORDS.findall(source)
    pieces = pieces or [b" "]
    for _ in range(1 + draw.below(4)):
        change(draw, pieces, sources)
        pieces = pieces or [b" "]
    return front + b"".join(pieces)


# what a script's line may be, and what each may be answered, as docs/REFERENCE.md has it
ID, JSON = r"[1-9]\d*(?:/\d+)*", r"(?:null|true|false|-?\d+|\".*\"|\[.*\]|\{.*\})"
OUTCOME = rf"(?:value {JSON}|fault (?:type|overflow|divide-by-zero|steps|locks-held|value-too-large|no-tx))"
ENTRY = rf"(?:read {ID} \d+|step {ID}|tx {ID}|try {ID} {ID}:\d+ (?:{ID}|-))"
STANDS = rf"held intent {ID}|held tx {ID}:\d+|waits {ID}|full \d+ \d+|crowded 1024|expired"
RUN = r"no-run|run-over"
ANSWERS = {
    "ticket": r"ticket \d+|no-ticket|full \d+ \d+",
    "request": rf"bound \d+ run \d+|running \d+|ended \d+ {OUTCOME}|other \d+ \w+ {JSON}|gone \d+|unknown \d+|crowded 1024",
    "turn": rf"acted(?: {ENTRY})?(?: run \d+)?(?: over)?|{STANDS}|{RUN}",
    "lost": rf"dropped|expired|{RUN}",
    "crash": rf"crashed|expired|{RUN}",
    "restart": r"run \d+|crowded 1024",
    "ic": rf"passed|launched run \d+ {ID}|round|crowded 1024",
    "tick": r"now \d+|clock-end",
    "reply": rf"reply \d+ (?:{OUTCOME}|waiting|gone|unknown)",
    "rows": r"rows \d+",
    "halt": r"halted",
    "gc": r"going|marked|skipped|dangled|removed|round",
    "sweep": r"swept \d+|unswept \d+",
}
ANSWERS = {word: re.compile(form, re.S) for word, form in ANSWERS.items()}
TOLD = re.compile(rf"bound (\d+) run|acted ({ENTRY})")
REPLY, ENDED = re.compile(rf"reply \d+ {OUTCOME}", re.S), re.compile(r"acted step (\d+) over")
SETTLED = re.compile(r"settled \d+|unsettled \d+|stuck (\d+)")
WAITS = re.compile(rf"run \d+ (?:{STANDS})")
BOOKED = re.compile(rf"start \d+ \w+ {JSON}|{ENTRY}", re.S)
REFUSED = re.compile(
    r"refused line [1-9]\d*: (?:utf8|too-large|syntax|number|too-deep|too-many|line|value"
    r"|(?:duplicate|unknown-table|break-outside|nested-tx|leaves-tx|call-cycle|async-in-tx|lock-in-tx) \w+|unknown-function [^ \n]+)"
)
NUMBER, TIMES, BUDGET = r"(0|[1-9]\d*)", r"(?: ([1-9]\d*))?", r"([1-9]\d*)"
# each form of a line, with what its numbers are at most
FORMS = [
    ("ticket", "ticket", ()), ("turn", f"turn {NUMBER}{TIMES}", (2 ** 32 - 1, 1000)), ("lost", f"lost {NUMBER}", (2 ** 32 - 1,)),
    ("crash", f"crash {NUMBER}", (2 ** 32 - 1,)), ("ic", f"ic{TIMES}", (1000,)), ("settle", f"settle {BUDGET}", (4 * 10 ** 9,)),
    ("tick", f"tick {NUMBER}", (2 ** 32 + 1,)), ("reply", f"reply {NUMBER}", (2 ** 32 - 1,)), ("rows", "rows", ()), ("tables", "tables", ()),
    ("book", "book", ()), ("gc", f"gc {NUMBER}{TIMES}", (7, 1000)), ("sweep", f"sweep {NUMBER} {BUDGET}", (7, 4 * 10 ** 9)),
    ("halt", "halt", ()),
]
FORMS = [(word, re.compile(form.encode(), re.A), most) for word, form, most in FORMS]
REQUEST, RESTART = re.compile(rb"request ([^ ]*) ([^ ]*) (.*)", re.S), re.compile(rb"restart ([^ ]*) ([^ ]*)", re.S)


def is_ticket(word, least):
    return re.fullmatch(rb"0|[1-9]\d*", word) is not None and least <= int(word) < 2 ** 32


def is_id(word):
    first, *hops = word.split(b"/")
    return is_ticket(first, 1) and len(hops) <= 63 and all(is_ticket(it, 0) for it in hops)


def whole(text):
    """A whole number of 64 bits; other numbers are no values."""
    if text == "-0" or not -(2 ** 63) <= int(text) < 2 ** 63:
        raise ValueError
    return int(text)


def refused(_):
    raise ValueError


def is_value(text):
    """Whether bytes are the JSON of a value within its limits."""
    try:
        value = json.loads(text.decode(), parse_int=whole, parse_float=refused, parse_constant=refused)
        canonical = json.dumps(value, ensure_ascii=False, separators=(",", ":")).encode()
    except (ValueError, RecursionError):
        return False
    level = most = 0
    for byte in re.sub(rb'"(?:[^"\\]|\\.)*"', b"", canonical):
        level += (byte in b"[{") - (byte in b"]}")
        most = max(most, level)
    return len(canonical) <= 4096 and most <= 32


def word_of(line, functions):
    """What a line is: its word and how often it is done, or why it is refused."""
    if line.startswith(b"#") or not line.strip(b" \t"):
        return "", 0
    for word, form, most in FORMS:
        found = form.fullmatch(line)
        if found and all(it is None or int(it) <= limit for it, limit in zip(found.groups(), most)):
            times = found.groups()[-1] if word in ("turn", "ic", "gc") else None
            return word, int(times or 1)
    called = REQUEST.fullmatch(line) or RESTART.fullmatch(line)
    if not called or not (is_ticket(called[1], 0) if called.re is REQUEST else is_id(called[1])) or not called[2] or not serve.is_text(called[2]):
        return None, "line"
    if called[2].decode() not in functions:
        return None, f"unknown-function {called[2].decode()}"
    if called.re is REQUEST and not is_value(called[3]):
        return None, "value"
    return ("request", 1) if called.re is REQUEST else ("restart", 1)


def lines_of(script):
    """The lines of a script without their ends, to which a carriage return before a newline belongs."""
    *ends, last = script.split(b"\n")
    return [it.removesuffix(b"\r") for it in ends] + ([last] if last else [])


def parts_of(source):
    """A source up to the line of its first word `script`, and the lines after it; none where it has no such word. The tokens before it are those
    of a deployment that was accepted."""
    for it in re.finditer(rb'#[^\n]*|"(?:[^"\\]|\\.)*"|[A-Za-z]\w*|\d+', source):
        if it[0] == b"script":
            begin = source.find(b"\n", it.end()) + 1 or len(source)
            return source[:begin], lines_of(source[begin:])
    return source, []


def functions_of(deployment):
    """The names of its functions."""
    return re.findall(r"\bfunction\s+(\w+)", re.sub(r'#[^\n]*|"(?:[^"\\]|\\.)*"', " ", deployment.decode(errors="replace")))


class Reading:
    """Reads what `run` wrote, line by line, along the script of a deployment with these functions."""

    def __init__(self, text, functions):
        self.lines, self.at, self.why, self.told = text.decode().split("\n"), 0, "", []
        self.item = re.compile(rf'(?:{"|".join(functions)}) \w+ ".*" {JSON}', re.S)

    def peek(self):
        return self.lines[self.at] if self.at < len(self.lines) else ""

    def take(self, form, where):
        found = form.fullmatch(self.peek())
        if not found and not self.why:
            self.why = f"line {self.at + 1}, for {where}: {serve.short(self.peek())}"
        self.at += 1
        return found

    def listing(self, title, form):
        self.take(re.compile(title), title)
        while form.fullmatch(self.peek()):
            self.at += 1

    def book(self):
        """The last book has all entries that were told, in their order."""
        self.take(re.compile("== book"), "== book")
        entries = self.lines[self.at : -1]
        rest = iter(entries)
        for told in self.told:
            if not any(f"{it} ".startswith(f"{told} ") for it in rest):
                self.why = self.why or f"the book lacks {told}, or has it at another place"
                return
        while BOOKED.fullmatch(self.peek()):
            self.at += 1

    def refused(self, refusal, status):
        """What is wrong where this refusal, with its status, is to be all that is left."""
        rest = self.lines[self.at :]
        return "" if rest == [refusal, ""] and status == 5 else f"not {serve.short(refusal)} but {serve.short(rest)}"

    def answers(self, word, line):
        """What one line of the script is answered."""
        if word == "settle":
            while REPLY.fullmatch(self.peek()):
                self.at += 1
            found = self.take(SETTLED, line)
            while found and found[1] is not None and WAITS.fullmatch(self.peek()):
                self.at += 1
        elif word == "tables":
            self.listing("== tables", self.item)
        elif word == "book":
            self.listing("== book", BOOKED)
        else:
            found, entry = ENDED.fullmatch(self.peek()), TOLD.match(self.peek())
            self.told += [entry[2] or f"start {entry[1]}"] if entry else []
            self.take(ANSWERS[word], line)
            if word == "turn" and found and self.peek().startswith(f"reply {found[1]} "):
                self.take(REPLY, line)


def reading(source, status, text, tested):
    """Why what `run` wrote is not what the reference has for a source that `check` said this of; nothing where it is."""
    try:
        last = text.decode()[:-1].rsplit("\n", 1)[-1]
        if status not in (0, 5) or not text.endswith(b"\n"):
            return f"status {status}, and at last {serve.short(last)}"
        if status == 5 and not REFUSED.fullmatch(last):
            return f"refused by {serve.short(last)}"
    except UnicodeDecodeError:
        return "it writes what is no UTF-8"
    said = re.fullmatch(rb"ok (\d+) functions (\d+) lines\n", tested[1])
    if tested[0] == 5:
        if (status, bytes_of(last) + b"\n") != (5, tested[1]):
            return f"check says {serve.short(tested[1])}, and run ends with {status} and {serve.short(last)}"
        if text == tested[1]:
            # refused before any answer: the deployment, or a first line
            return wrong_line(source, last)
    elif tested[0] != 0 or not said:
        return f"check ends with {tested[0]} and {serve.short(tested[1])}"
    return along(source, status, text, said, last)


def wrong_line(source, last):
    """Of a source that is refused before any answer: where a line of the script is, that must be the line."""
    number, what = last[len("refused line ") :].split(": ", 1)
    if what.split(" ")[0] not in ("line", "value"):
        return ""
    return along(source, 5, bytes_of(last) + b"\n", None, last)


def along(source, status, text, said, last):
    """Goes along the script and its answers."""
    deployment, lines = parts_of(source)
    functions = functions_of(deployment)
    it, counted = Reading(text, functions), 0
    for number, line in enumerate(lines, deployment.count(b"\n") + 1):
        word, times = word_of(line, functions)
        if word is None:
            return it.why or it.refused(f"refused line {number}: {times}", status)
        counted += bool(word)
        for _ in range(times):
            it.answers(word, serve.short(line))
        if it.why:
            return it.why
    if status == 5:
        return f"no line is wrong, but {last}"
    it.listing("== tables", it.item)
    it.book()
    if (int(said[1]), int(said[2])) != (len(functions), counted):
        return f"check says {serve.short(said[0])}, and there are {len(functions)} functions and {counted} lines"
    return it.why or ("" if it.lines[it.at :] == [""] else f"line {it.at + 1} is too many: {serve.short(it.peek())}")


def finds(draw, source):
    """What is wrong with a text is found: a line that lacks, one too many, another word in one, and another status."""
    tested, (status, text, _) = ended(["check"], source), ended(["run"], source)
    lines = text.splitlines(True)
    at = draw.below(len(lines))
    same(f"a text as it is, of {serve.short(source)}", reading(source, status, text, tested), "")
    for name, ends, wrong in (
        ("a line too many", status, lines[:at] + [b"acted twice\n"] + lines[at:]),
        ("another word", status, lines[:at] + [b"re" + lines[at]] + lines[at + 1 :]),
        ("no first line", status, lines[1:]),
        ("a byte that is no text", status, lines[:at] + [b"\xff" + lines[at]] + lines[at + 1 :]),
        ("no end", status, [text[:-1]]),
        ("another status", 1, lines),
    ):
        counts.true(f"{name} is found, in what is written of {serve.short(source)}", reading(source, ends, b"".join(wrong), tested))


def changed_text(draw, sources, name):
    """Counts one changed text; how `check` refuses it, or `ok`."""
    source = changed(draw, sources)
    tested, made = ended(["check"], source), ended(["run"], source)
    why = reading(source, made[0], made[1], tested) if not tested[2] + made[2] else f"it says {serve.short(tested[2] + made[2])}"
    counts.say(name, why and f"{why}\n{source!r}")
    return tested[1].decode(errors="replace").split(": ")[-1].split(" ")[0].strip()


def changes():
    """Sources that are changed by words and bytes: what is tested and what is carried out say the same, and each line is one of the reference."""
    draw, sources = Draw("changed"), stock()
    for source in sources:
        finds(draw, source)
    kinds = Counter(changed_text(draw, sources, f"changed text {at}") for at in range(CHANGED))
    # a draw that only ever made some kinds of refusals would show little
    wanted = {"ok", "syntax", "line", "value", "unknown-function", "utf8"}
    if IS_LONG:
        wanted |= {"number", "unknown-table", "call-cycle"}
    same("changed texts: kinds that were not made", wanted - set(kinds), set())
    print("changed texts:", ", ".join(f"{count} {kind}" for kind, count in kinds.most_common()))
