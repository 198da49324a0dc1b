"""The long part of tests/hostile, which the gate leaves out: sources of 16 MiB of each kind of line, what inputs of three lengths cost, a host
that is busy, memory that runs out at each place in turn, and an item that is written a million times."""
import collections
import os
import re
import shutil
import subprocess
import sys
import tempfile
import threading
import time

from hostile_shared import (
    ENDS, LIFE, LIMIT, NEW_TICKET, PROGRAM, SCRIPT, TOP, WIRE, Draw, bytes_of, counts, filled, head, length, many, read, same, serve, session,
)

# ---- what inputs cost
# Runs a program, and writes its status, the seconds of the processor and the most kilobytes that it had: a process of its own, since a
# program counts as its own what the one had that started it.
MEASURER = """
import os, sys
program = os.fork()
if program == 0:
    os.execv(sys.argv[2], sys.argv[2:])
status, used = os.wait4(program, 0)[1:]
with open(sys.argv[1], "w") as it:
    it.write(f"{os.WEXITSTATUS(status) if os.WIFEXITED(status) else -os.WTERMSIG(status)} {used.ru_utime + used.ru_stime} {used.ru_maxrss}")
"""
TABLE = []


def measured(words, source, place):
    """The status, the text, the seconds and the megabytes of a run over a source."""
    with open(f"{place}/in", "wb") as it:
        it.write(source)
    with open(f"{place}/in", "rb") as given, open(f"{place}/out", "wb") as taken:
        line = [sys.executable, "-S", "-E", "-c", MEASURER, f"{place}/used", PROGRAM, *words]
        subprocess.run(line, stdin=given, stdout=taken, stderr=subprocess.STDOUT, check=True)
    status, seconds, kilobytes = read(f"{place}/used").split()
    return int(status), read(f"{place}/out"), float(seconds), int(kilobytes) / 1024


def growth(name, sizes, cost, unit="bytes"):
    """Counts that neither seconds nor megabytes grow faster than the length, over lengths of which each is twice the one before; `cost` has both
    for a length. Where they seem to, they are taken again, as a machine is busier at one time than at another, and the least ones count."""
    found = [cost(it) for it in sizes]
    for _ in range(3):
        if not grows(sizes, found):
            break
        found = [tuple(map(min, it, cost(size))) for size, it in zip(sizes, found)]
    counts.say(f"{name}: what it costs at {sizes}", grows(sizes, found))
    seconds, megabytes = zip(*found)
    TABLE.append(f"| {name} | {unit} | {listed(sizes, ',')} | {listed(seconds, '.2f')} | {listed(megabytes, '.0f')} |")


def tell_costs():
    """Writes the table of what was measured, where anything was."""
    if TABLE:
        print("| input | unit | lengths | seconds | megabytes |", "|---|---|---|---|---|", *TABLE, sep="\n")


def listed(numbers, form):
    return " / ".join(format(it, form) for it in numbers)


def grows(sizes, costs):
    """What grows faster than the length."""
    for what, found, slack in (("seconds", [it[0] for it in costs], 0.1), ("megabytes", [it[1] for it in costs], 8)):
        if found[-1] > 1.5 * sizes[-1] / sizes[0] * max(found[0], slack):
            return f"{what} {found} grow faster than the length"
    return ""


MOST = 16 * 1024 * 1024
SIZES = [MOST // 4, MOST // 2, MOST]
LIVE, ROOM = 1024, 65_536


def answers_to(first, most, then):
    """Answers of which the first so many have numbers, and all after them are one text."""
    return lambda times: many(min(times, most), first).encode() + f"{then}\n".encode() * max(0, times - most)


def always(text):
    return lambda times: text.encode() * times


# a line of the script, again and again up to 16 MiB, and what so many of it are answered
REPEATED = [
    ("", always("")), (" \t", always("")), ("# comment", always("")), ("ticket", answers_to("ticket #", ROOM, f"full {ROOM} {ROOM}")),
    ("request 1 f 1", always("unknown 1\n")), ('request 1 f {"a":[1,2,{"b":"c"}]}', always("unknown 1\n")), ("turn 1", always("no-run\n")),
    ("lost 1", always("no-run\n")), ("crash 1", always("no-run\n")), ("restart 1 f", answers_to("run #", LIVE, f"crowded {LIVE}")),
    ("restart 1/2/3/4 f", answers_to("run #", LIVE, f"crowded {LIVE}")), ("ic", always("round\n")), ("settle 4000000000", always("settled 0\n")),
    ("tick 1", answers_to("now #", MOST, "")), ("reply 1", always("reply 1 unknown\n")), ("rows", always("rows 0\n")),
    ("tables", always("== tables\n")), ("book", always("== book\n")), ("gc 7", always("round\n")), ("sweep 0 1", always("swept 1\n")),
    ("halt", always("halted\n")),
]
# a line of up to 16 MiB: what it begins with, what is repeated in it, what it ends with, and what it is answered or refused as
ENDLESS = [
    ("a comment", "#", "x", "", ""), ("blanks", "", " ", "", ""), ("letters", "", "x", "", "line"),
    ("blanks behind a word", "ticket", " ", "", "line"),
    ("a number", "turn 1", "0", "", "line"), ("an id", "restart 1", "/0", " f", "line"),
    ("blanks before a value", "request 1 f ", " ", "1", "unknown 1\n"),
    ("a text", 'request 1 f "', "a", '"', "value"), ("escapes", 'request 1 f "', "\\u0061", '"', "value"),
    ("a text without its end", 'request 1 f "', "a", "", "value"),
    ("a list", "request 1 f [1", ",1", "]", "value"), ("lists in one another", "request 1 f ", "[", "", "value"),
    ("a record", 'request 1 f {"a":1', ',"a":1', "}", "unknown 1\n"),
    ("records in one another", "request 1 f ", '{"a":', "", "value"), ("digits of a value", "request 1 f 1", "0", "", "value"),
    ("a name of no function", "request 1 g", "g", " 1", "unknown-function g"),
]
# a deployment of up to 16 MiB, which is refused in its first line
TOO_LARGE = [
    ("zeros", b"\0"), ("blanks", b" "), ("letters", b"a"), ("digits", b"1"), ("quotes", b'"'), ("a text", b"\\\""), ("braces", b"{"),
    ("a comment", b"#"), ("letters of two bytes", "é".encode()),
]


def cost_of(place, name, words, source, wanted, status=0):
    """The seconds and megabytes of a source that has this text."""
    found, text, *used = measured(words, source, place)
    # (megabytes of text are told by their ends)
    same(name, (found, text == wanted, serve.short(text[-99:])), (status, True, serve.short(wanted[-99:])))
    return tuple(used)


def repeated(place, line, answers):
    """Sources of one line, again and again."""
    name = f"lines `{line}`" if line.strip() else "lines of blanks" if line else "empty lines"

    def cost(size):
        times = (size - len(SCRIPT)) // (len(line) + 1)
        return cost_of(place, f"{size} bytes, {name}", ["run"], f"{SCRIPT}{f'{line}{chr(10)}' * times}".encode(), answers(times) + ENDS.encode())

    growth(name, SIZES, cost)


def endless(place, name, begin, piece, end, said):
    """Sources of one long line."""

    def cost(size):
        times = (size - len(SCRIPT) - len(begin) - len(end) - 1) // len(piece)
        what = said + piece * times if said.startswith("unknown-function") else said
        is_refused = what and not what.endswith("\n")
        wanted = f"refused line 4: {what}\n" if is_refused else f"{what}{ENDS}"
        source = f"{SCRIPT}{begin}{piece * times}{end}\n"
        return cost_of(place, f"a line of {size} bytes: {name}", ["run"], source.encode(), wanted.encode(), 5 if is_refused else 0)

    growth(f"a line: {name}", SIZES, cost)


def too_large(place, name, piece):
    """Deployments of one piece, again and again."""

    def cost(size):
        source = piece * (size // len(piece))
        return cost_of(place, f"a deployment of {size} bytes: {name}", ["check"], source, b"refused line 1: too-large\n", 5)

    growth(f"a deployment: {name}", SIZES, cost)


def sources():
    """Sources of 4, 8 and 16 MiB of each kind of line: each has its text, and takes no more than its length says."""
    with tempfile.TemporaryDirectory() as place:
        for it in REPEATED:
            repeated(place, *it)
        for it in ENDLESS:
            endless(place, *it)
        for it in TOO_LARGE:
            too_large(place, *it)
        cost_of(place, "a source of 16 MiB", ["run"], bytes_of(filled(f"{SCRIPT}#", MOST)), ENDS.encode())
        cost_of(place, "a source of 16 MiB and a byte", ["run"], bytes_of(filled(f"{SCRIPT}#", MOST + 1)), b"", 7)


LONG_LIST = f"[{','.join(['0'] * 2000)}]"
# bodies of a deployment that is as long as it may be: what is before, what is repeated, what is behind, and the reply
BODIES = [
    ("a sum in 10,000 turns of loops", "repeat 9 { repeat 999 { set y = 1", "+1", "; } } return 1;", "value 1"),
    ("texts joined in 10,000 turns of loops", 'repeat 9 { repeat 999 { set y = ""', ' ++ ""', "; } } return 1;", "value 1"),
    ("a list of 2,000 numbers copied in 10 turns of a loop", f"set x = {LONG_LIST}; repeat 10 {{", "set y=x;", "} return 1;", "value 1"),
    ("variables", "set y = 1;", "set y=y+1;", "return 1;", "value 1"),
    ("blocks beside one another", "", "if true { }", "return 1;", "value 1"),
    ("a list with a fault", "return [1", ",1", "];", "fault value-too-large"),
    ("a record with one field again and again", 'return {"a":1', ',"a":1', "};", 'value {"a":1}'),
]


def bodies(place):
    """A request of a function of 16, 32 and 64 kB."""
    for name, before, piece, behind, reply in BODIES:

        def cost(size):
            outer = f"{LIFE}function f(x) {{ {before}", f"{behind} }}\nscript"
            times = (size - len(outer[0]) - len(outer[1])) // len(piece)
            source = f"{outer[0]}{piece * times}{outer[1]}\nticket\nrequest 1 f null\nsettle 10\n"
            status, text, *used = measured(["run"], source.encode(), place)
            same(f"{name}, of {size} bytes", (status, text.decode()), (0, session("null", reply)))
            return tuple(used)

        growth(f"a body: {name}", [16384, 32768, 65536], cost)


def ticks_of(service):
    """The seconds of the processor that a service has had, and the most megabytes."""
    with open(f"/proc/{service.process.pid}/stat", encoding="ascii") as it:
        fields = it.read().rsplit(")", 1)[1].split()
    with open(f"/proc/{service.process.pid}/status", encoding="ascii") as it:
        most = re.search(r"VmHWM:\s+(\d+)", it.read())
    return (int(fields[11]) + int(fields[12])) / os.sysconf("SC_CLK_TCK"), int(most[1]) / 1024


TIMES = 20
# sizes, a request of a size, how many bytes it comes in (0: at once), and its response
EXCHANGES = [
    ("a head, byte by byte", [4096, 8192, 16384], lambda size: head("POST /call/f/0?" + "a" * (size - 29) + " HTTP/1.1"), 1,
     serve.error(404, "ticket")),
    ("a head of line ends, byte by byte", [4096, 8192, 16383], lambda size: b"\n" * (size - 26) + head("POST /call/f/0 HTTP/1.1"),
     1, serve.error(404, "ticket")),
    ("a body, byte by byte", [16384, 32768, 65536], lambda size: head("POST /call/f/0 HTTP/1.1", length(size)) + b" " * size, 1,
     serve.error(400, "value")),
    ("a body at once", [16384, 32768, 65536], lambda size: head("POST /call/f/0 HTTP/1.1", length(size)) + b"[" * size, 0, serve.error(400, "value")),
    ("a list as a body, at once", [16385, 32769, 65535],
     lambda size: head("POST /call/f/0 HTTP/1.1", length(size)) + b"[1" + b",1" * (size // 2 - 1) + b"]", 0, serve.error(400, "value")),
]


def exchanges():
    """Connections of three lengths, byte by byte and at once: what one takes of the service."""
    for name, sizes, made, piece, wanted in EXCHANGES:

        def cost(size):
            service = serve.Service(WIRE, TIMES + 1)
            before = ticks_of(service)[0]
            same(f"{name}, {size} bytes", {service.ask(made(size), piece) for _ in range(TIMES)}, {wanted})
            after, most = ticks_of(service)
            same(f"{name}: no byte", service.ask(b""), b"")
            serve.served(counts, name, service, [serve.status_of(wanted)] * TIMES + ["none"])
            return after - before, most

        growth(f"{TIMES} connections: {name}", sizes, cost)


def requests_of(count):
    """So many requests, each with an item of its own."""
    source = f"{LIFE}function f(x) {{ table t; write t[x] = x; return x; }}\nscript\n" + many(count, 'ticket\nrequest # f "k#"\nsettle 10')
    text = many(count, 'ticket #\nbound # run #\nreply # value "k#"\nsettled 5')
    items = "".join(f'f t "{key}" "{key}"\n' for key in sorted(f"k{at}" for at in range(1, count + 1)))
    return source, f"{text}== tables\n{items}== book\n" + many(count, 'start # f "k#"\nstep #\nstep #')


def runs_of(count):
    """So many live runs of one request, each with three turns: the first ends it, the others find it ended in their first turn."""
    source = f"{SCRIPT}ticket\nrequest 1 f 1\n" + "restart 1 f\n" * (count - 1) + many(count, "turn # 3")
    text = "ticket 1\nbound 1 run 1\n" + "".join(f"run {at}\n" for at in range(2, count + 1))
    text += "acted\nacted step 1 over\nreply 1 value null\nrun-over\n" + "acted over\nrun-over\nrun-over\n" * (count - 1)
    return source, f"{text}{ENDS}start 1 f 1\nstep 1\n"


def books_of(count):
    """So many listings of a book of one entry."""
    text = "ticket 1\nbound 1 run 1\n" + "== book\nstart 1 f 1\n" * count + f"{ENDS}start 1 f 1\n"
    return f"{SCRIPT}ticket\nrequest 1 f 1\n" + "book\n" * count, text


def swept_of(count):
    """So many requests that each write one item eight times, and a sweep more than a life after each: from the third one on each takes as many
    turns, and so does its sweep, and leaves as many rows."""
    source = 'life 10;\nfunction f(x) { table t; repeat 8 { write t["k"] = x; } return x; }\nscript\n'
    source += many(count, "ticket\nrequest # f #\nsettle 99\ntick 11\nsweep 0 99\nrows")
    first = {1: (12, 3, 2), 2: (20, 6, 3), 3: (28, 12, 4)}
    text = ""
    for at in range(1, count + 1):
        turns, sweeps, rows = first.get(at, (28, 14, 4))
        text += f"ticket {at}\nbound {at} run {at}\nreply {at} value {at}\nsettled {turns}\nnow {11 * at}\nswept {sweeps}\nrows {rows}\n"
    return source, f'{text}== tables\nf t "k" {count}\n== book\n' + "".join(f"start {at} f {at}\n" + f"step {at}\n" * 9 for at in range(1, count + 1))


WORK = [
    ("requests, each with an item of its own", requests_of, [5_000, 10_000, 20_000]),
    ("requests that write one item eight times, each of which is swept", swept_of, [5_000, 10_000, 20_000]),
    ("live runs of one request, which end", runs_of, [256, 512, 1024]),
    ("listings of a book of one entry", books_of, [250_000, 500_000, 1_000_000]),
]


def work(place):
    """So many events of a kind."""
    for name, made, sizes in WORK:

        def cost(size):
            source, wanted = made(size)
            status, text, *used = measured(["run"], source.encode(), place)
            same(f"{size} {name}", (status, text == wanted.encode(), serve.short(text[-99:])), (0, True, serve.short(wanted[-99:].encode())))
            return tuple(used)

        growth(name, sizes, cost, "events")


def costs():
    """What inputs of three lengths cost, beside the sources of 16 MiB."""
    with tempfile.TemporaryDirectory() as place:
        bodies(place)
        work(place)
    exchanges()


# ---- a host that is busy
# one turn of `busy` copies a long list so often in each of 9,000 turns of loops
def busy_with(copies):
    return f"life 1000000;\nfunction busy(x) {{ repeat 9 {{ repeat 999 {{ {'set y = x; ' * copies}}} }} return 1; }}\nfunction f(x) {{ return x; }}\n"


def long_enough(place):
    """The same with as many copies as take some three times the patience of the service, by the seconds that ten take."""
    source = f"{busy_with(10)}script\nticket\nrequest 1 busy {LONG_LIST}\nsettle 10\n"
    status, text, seconds, _ = measured(["run"], source.encode(), place)
    same("a turn of ten copies", (status, b"\nreply 1 value 1\n" in text), (0, True))
    return busy_with(max(10, int(10 * 3 * serve.PATIENCE / max(seconds, 0.06))))


def late(port, pieces, pause):
    """What a client gets that sends these pieces, and how long it took; it waits as long as it takes."""
    began = time.monotonic()
    with serve.connected(port) as link:
        link.settimeout(10 * LIMIT)
        for piece in pieces:
            link.sendall(piece)
            time.sleep(pause)
        return serve.everything(link), time.monotonic() - began


def late_clients(port):
    """Four clients, one after another in less than a second: what each gets, and how long it took."""
    asked, found = serve.call("f", 2, "7"), {}
    sent = {
        "before": ([asked[:-1], asked[-1:]], 3), "half": ([asked[:-1]], 0), "busy": ([serve.call("busy", 1, LONG_LIST)], 0), "meanwhile": ([asked], 0),
    }

    def work(name):
        found[name] = late(port, *sent[name])

    threads = [threading.Thread(target=work, args=(name,)) for name in sent]
    for it in threads:
        it.start()
        time.sleep(0.7)
    for it in threads:
        it.join()
    return found


def busy():
    """One turn that takes long holds up all clients, but whoever sent all in ten seconds is answered after it: one that had begun before it,
    one that came while it went on; and one that sent half is given up."""
    with tempfile.TemporaryDirectory() as place:
        service = serve.Service(long_enough(place), 6)
    same("two tickets", [service.ask(NEW_TICKET), service.ask(NEW_TICKET)], [serve.ticket(1), serve.ticket(2)])
    found = late_clients(service.port)
    same("a busy host: the turn that takes long", found["busy"][0], serve.value(1))
    counts.true("a busy host: it is busy for longer than the patience", found["busy"][1] > serve.PATIENCE + 2, f"{found['busy'][1]:.1f} s")
    for name in ("before", "meanwhile"):
        same(f"a busy host: who sent all, {name}", found[name][0], serve.value("7"))
    same("a busy host: who sent half", found["half"][0].replace(b" [ConnectionResetError]", b""), b"")
    status, text, said = service.end()
    same("a busy host: its status and standard error", (status, said), (0, b""))
    same("a busy host: its lines", sorted(line.split()[2] for line in text.split(b"== tables\n")[0].splitlines()), [b"200"] * 5 + [b"fault"])


# ---- memory that runs out
SHIM = """
#include <fcntl.h>
#include <stdio.h>
#include <stdlib.h>
#include <unistd.h>
extern void *__libc_malloc(size_t);
extern void *__libc_realloc(void *, size_t);
static long count, at, from;
static const char *told;
__attribute__((constructor)) static void begin(void) {
  const char *s = getenv("FAIL_AT");
  at = s ? atol(s) : 0;
  s = getenv("FAIL_FROM");
  from = s ? atol(s) : 0;
  told = getenv("COUNT_TO");
  count = 0;
}
static int fails(void) {
  ++count;
  return count == at || (from && count >= from);
}
void *malloc(size_t n) { return fails() ? 0 : __libc_malloc(n); }
void *realloc(void *p, size_t n) { return fails() ? 0 : __libc_realloc(p, n); }
__attribute__((destructor)) static void end(void) {
  if (!told) return;
  char text[32];
  int n = snprintf(text, sizeof text, "%ld", count), f = open(told, O_WRONLY | O_CREAT | O_TRUNC, 0600);
  if (f >= 0 && write(f, text, n) == n) close(f);
}
"""
# Of a session with more places than these, so many of them are drawn.
PLACES = 400
# memory runs out at one place alone, or from there on
WAYS = ("FAIL_AT", "FAIL_FROM")


# What a client gets where memory may be short: its response; that memory is short, or nothing; and where one of its requests before came to
# nothing, that the ticket is unknown, or that the call was not made.
serve.PHRASES[500] = "Internal Server Error"
SHORT = serve.error(500, "memory")
TRIPLE = [
    (NEW_TICKET, {serve.ticket(1), SHORT, b""}), (serve.call("f", 1, "7"), {serve.value("7"), SHORT, b"", serve.error(404, "ticket")}),
    (serve.reply(1), {serve.value("7"), SHORT, b"", serve.error(404, "ticket"), serve.RUNNING}),
]


def three_asked(port):
    """What clients get of a service, one after another; nothing where it is not there."""
    got = []
    for asked, _ in TRIPLE:
        try:
            got.append(re.sub(rb" \[\w+\]$", b"", serve.exchange(port, asked)))
        except OSError:
            got.append(b"")
    return got


def starved_service(place, **how):
    """A service of three requests: its status, none where it does not end; what each client got; and what it wrote."""
    port = serve.free_port()
    words = [PROGRAM, "serve", *serve.words_of(port, len(TRIPLE))]
    with subprocess.Popen(
        words, stdin=subprocess.PIPE, stdout=subprocess.PIPE, stderr=subprocess.PIPE, env=starving(place, how),
    ) as process:
        serve.give(process, WIRE)
        got = three_asked(port) if process.stderr.readline() else []
        try:
            status = process.wait(LIMIT)
        except subprocess.TimeoutExpired:
            status = None
            process.kill()
        return status, got, process.stdout.read()


def is_served(status, got, text):
    """Whether this is what a service may come to where memory is short: it ends with status 1, and each answer stands in a line, or a front of
    that text was written; or it is told to one client alone that memory is short, and it goes on."""
    lines, _, listings = text.partition(b"== tables\n")
    said = [line.split(b" ")[2].decode() for line in lines.splitlines()]
    answers = [str(serve.status_of(it)) for it in got if it]
    told = [it for it in said if it != "fault"]
    if not all(it in wanted for it, (_, wanted) in zip(got, TRIPLE)):
        return False
    if status == 1:
        return not listings and told == answers[: len(told)]
    return status == 0 and len(said) == len(TRIPLE) and told == answers and (listings.startswith(b'f t "k" 7\n') or serve.value("7") not in got)


def short_service(place):
    """The same of a service: a ticket, a call and a reply."""
    same("a service with ample memory", starved_service(place)[:2], (0, [serve.ticket(1), serve.value("7"), serve.value("7")]))
    count, ends, wrong = int(read(f"{place}/count")), {}, []
    for at in range(1, count + 1):
        for how in WAYS:
            found = starved_service(place, **{how: str(at)})
            ends[found[0]] = ends.get(found[0], 0) + 1
            if not is_served(*found):
                wrong.append(f"{how} {at} of {count}: {serve.short(found)}")
    counts.say("a service with memory that runs out", "; ".join(wrong[:4]))
    counts.true("a service with memory that runs out mostly ends with status 1", ends.get(1, 0) > count, f"{ends}")
    print(f"memory of a service: {2 * count} runs, by their status {ends}")


def golden(name):
    """The words, the source, the status and the text of a golden session."""
    path = f"{TOP}/tests/rows/{name}"
    words = read(f"{path}.args").decode().split("\n")[:-1]
    source = b" " * int(read(f"{path}.blanks")) if os.path.exists(f"{path}.blanks") else read(f"{path}.in")
    return words, source, int(read(f"{path}.status")), read(f"{path}.out")


def places_of(count, draw):
    """The places where memory runs out, of so many."""
    return range(1, count + 1) if count <= PLACES else sorted({1 + draw.below(count) for _ in range(PLACES)} | {1, count})


def short_session(place, name, draw):
    """A golden session with memory that runs out: how many runs that took, and where what lacked memory was not needed."""
    words, source, status, wanted = golden(name)
    same(f"{name}: with ample memory", starved(place, words, source), (status, wanted))
    count, runs, spare, wrong = int(read(f"{place}/count")), 0, [], []
    counts.true(f"{name}: it asks for memory", count > 0, "no allocation is counted")
    for at in places_of(count, draw):
        for how in WAYS:
            found = starved(place, words, source, **{how: str(at)})
            runs += 1
            if how == "FAIL_AT" and found == (status, wanted):
                spare.append(f"{at} of {count} of {name}")
            elif found[0] != 1 or not wanted.startswith(found[1]):
                wrong.append(f"{how} {at} of {count}: status {found[0]}, {serve.short(found[1][-80:])}")
    counts.say(f"{name}: memory that runs out", "; ".join(wrong[:4]))
    return runs, spare


def memory():
    """Each golden session with memory that runs out at each place in turn, at this one alone and from there on: it ends with status 1 and a
    front of its text."""
    if not shutil.which("cc"):
        print("no C compiler is installed: memory is left out")
        return
    with tempfile.TemporaryDirectory() as place:
        with open(f"{place}/shim.c", "w", encoding="ascii") as it:
            it.write(SHIM)
        subprocess.run(["cc", "-shared", "-fPIC", "-O1", "-o", f"{place}/shim.so", f"{place}/shim.c"], check=True)
        draw, names = Draw("memory"), sorted(it[: -len(".args")] for it in os.listdir(f"{TOP}/tests/rows") if it.endswith(".args"))
        found = [short_session(place, name, draw) for name in names]
        short_service(place)
    spare = ", ".join(one for _, spares in found for one in spares)
    print(f"memory: {sum(runs for runs, _ in found)} runs of {len(names)} sessions; not needed: {spare}")


def starving(place, how):
    """The environment of a program that has the allocator that fails."""
    return {"LD_PRELOAD": f"{place}/shim.so", "COUNT_TO": f"{place}/count", **how}


def starved(place, words, source, **how):
    """The status of a session with this allocator, and what it wrote."""
    done = subprocess.run([PROGRAM, *words], input=source, capture_output=True, env=starving(place, how), timeout=60, check=False)
    return done.returncode, done.stdout + done.stderr


# ---- an item that is written a million times
# A call writes it four times; so many connections are open before they are used.
A_CALL, OPEN = 4, 16
WRITES, WRITES_OF_A_FILE, WINDOW = 1_000_000, 100_000, 10_000
NEVER = 1_000_000_000


class Quiet(serve.Service):
    """A service of which nobody keeps the lines; its text is told by its end."""

    def read(self):
        kept = b""
        while part := self.process.stdout.read1(65536):
            kept += part
            at = kept.find(b"== tables\n")
            kept = kept[-9:] if at < 0 else kept[at:at + 99]
        self.written.append(kept)


class Client:
    """It has connections that are open before they are used, and asks for a ticket and makes its call by turns."""

    def __init__(self, service):
        self.port, self.links = service.port, collections.deque(serve.connected(service.port) for _ in range(OPEN))

    def ask(self, asked):
        with self.links.popleft() as link:
            link.sendall(asked)
            self.links.append(serve.connected(self.port))
            return serve.everything(link)

    def call(self, number):
        """What the call of this ticket is answered, which is asked for before; what the ticket is answered, where there is none."""
        found = self.ask(serve.TICKET)
        return self.ask(serve.call("f", number, str(number))) if found == serve.ticket(number) else found

    def close(self):
        for link in self.links:
            link.close()


def written(service, writes):
    """How many writes are made by calls that are answered, up to so many; and the seconds of the processor that each ten thousand took."""
    client, found, before, done = Client(service), [], ticks_of(service)[0], 0
    while done < writes and client.call(done // A_CALL + 1) == serve.value(done // A_CALL + 1):
        done += A_CALL
        if done % WINDOW == 0:
            found.append(ticks_of(service)[0] - before)
            before += found[-1]
    client.close()
    return done, found


def hot():
    """An item that is written a million times, in lives of ten moments: ten thousand writes cost at the end what they did at the start, the
    table has fewer than 400 rows all along, and at last three. Where all is young still a call soon takes more turns than one gives."""
    with tempfile.TemporaryDirectory(dir="/dev/shm" if os.path.isdir("/dev/shm") else None) as place:
        for name, writes, path in (("memory", WRITES, None), ("a file", WRITES_OF_A_FILE, f"{place}/rows")):
            deployment, last, began = serve.HOT % (10, 400, A_CALL), writes // A_CALL, time.monotonic()
            service = Quiet(deployment, 2 * last + serve.ROUNDS + OPEN, path=path)
            done, seconds = written(service, writes)
            same(f"hot: writes, {name}", done, writes)
            counts.true(f"hot: what ten thousand cost, {name}", is_level(seconds), f"{listed(seconds, '.2f')} s")
            for _ in range(serve.ROUNDS):
                time.sleep(0.02)
                same(f"hot: the last reply, {name}", service.ask(serve.reply(last)), serve.value(last))
            status, text, said = service.end()
            same(f"hot: how it ends, {name}", (status, text.split(b"\n")[1], said), (0, f'f t "k" {last}'.encode(), b""))
            print(f"hot: {writes} writes, {name}, in {time.monotonic() - began:.0f} s; ten thousand take {told(seconds)} s of the processor", flush=True)
        left = serve.ended(["--db", path, "run"], f"{deployment}\nscript\nrows\n".encode())
        same("hot: the rows that are left", left, (0, f'rows 3\n== tables\nf t "k" {last}\n== book\n'.encode(), b""))
    service = Quiet(serve.HOT % (NEVER, ROOM, A_CALL), 1_000_000)
    done, seconds = written(service, WRITES)
    counts.true("hot: where nothing is old", done < 50_000, f"{done} writes")
    print(f"hot: {done} writes where nothing is old; ten thousand take {told(seconds)} s of the processor", flush=True)
    service.stop()


def is_level(costs):
    """Whether the last ten of these are as low as the first ten: the least of each counts, as a machine is busier at one time than at another."""
    return min(costs[-10:]) <= 1.5 * min(costs[:10])


def told(costs):
    return f"{costs[0]:.2f}, {sorted(costs)[len(costs) // 2]:.2f} in the middle and {costs[-1]:.2f} at last"


GROUPS = (sources, costs, busy, memory, hot)
