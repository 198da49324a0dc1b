"""What fails in mid-session, for tests/hostile: reads of the source and writes of the text, calls of the disk below a file of rows, and the
program itself, which is killed. What was written is a front of the whole text, and over a file what was told is there again."""
import errno
import fcntl
import os
import random
import shutil
import signal
import sqlite3
import subprocess
import tempfile

from hostile_shared import IS_LONG, LIMIT, PROGRAM, TOP, bytes_of, counts, loaded, read, same, serve

# ---- a system whose calls fail
# Fails calls of one kind: of the source, of the text, or of files that are read and written at places. With PIECE a call that would move
# more moves so many bytes, and goes on.
SHIM = """
#define _GNU_SOURCE
#include <dlfcn.h>
#include <errno.h>
#include <fcntl.h>
#include <stdio.h>
#include <stdlib.h>
#include <string.h>
#include <sys/types.h>
#include <unistd.h>
static long count, at, from, error, piece;
static const char *kind = "";
static long number(const char *name) {
  const char *s = getenv(name);
  return s ? atol(s) : 0;
}
__attribute__((constructor)) static void begin(void) {
  at = number("FAIL_AT");
  from = number("FAIL_FROM");
  error = number("FAIL_WITH");
  piece = number("PIECE");
  if (getenv("FAIL_KIND")) kind = getenv("FAIL_KIND");
}
static int is(const char *name) { return !strcmp(kind, name); }
static int fails(void) {
  ++count;
  if (count != at && !(from && count >= from)) return 0;
  errno = error;
  return 1;
}
static size_t part(size_t n) { return piece && n > (size_t)piece ? (size_t)piece : n; }
#define REAL(name, type) ((type)dlsym(RTLD_NEXT, name))
ssize_t read(int f, void *p, size_t n) {
  if (f == 0 && is("source")) { if (fails()) return -1; n = part(n); }
  return REAL("read", ssize_t (*)(int, void *, size_t))(f, p, n);
}
ssize_t write(int f, const void *p, size_t n) {
  if (f == 1 && is("text")) { if (fails()) return -1; n = part(n); }
  return REAL("write", ssize_t (*)(int, const void *, size_t))(f, p, n);
}
#define AT(name, pointer) \\
  ssize_t name(int f, pointer p, size_t n, off_t o) { \\
    if (is("disk") && fails()) return -1; \\
    return REAL(#name, ssize_t (*)(int, pointer, size_t, off_t))(f, p, n, o); \\
  }
AT(pread, void *)
AT(pread64, void *)
AT(pwrite, const void *)
AT(pwrite64, const void *)
#define WHOLE(name) \\
  int name(int f) { return is("disk") && fails() ? -1 : REAL(#name, int (*)(int))(f); }
WHOLE(fsync)
WHOLE(fdatasync)
#define LENGTH(name) \\
  int name(int f, off_t n) { return is("disk") && fails() ? -1 : REAL(#name, int (*)(int, off_t))(f, n); }
LENGTH(ftruncate)
LENGTH(ftruncate64)
__attribute__((destructor)) static void end(void) {
  const char *told = getenv("COUNT_TO");
  if (!told) return;
  int f = open(told, O_WRONLY | O_CREAT | O_TRUNC, 0600);
  if (f >= 0 && dprintf(f, "%ld", count) > 0) close(f);
}
"""
# at one call alone, or from there on
WAYS = ("FAIL_AT", "FAIL_FROM")


def has_compiler():
    """Whether a C compiler is installed; else says so."""
    if not shutil.which("cc"):
        print("no C compiler is installed: calls that fail are left out")
    return shutil.which("cc") is not None


class System:
    """A system whose calls of a kind fail."""

    def __init__(self, place):
        self.place, self.runs = place, 0
        with open(f"{place}/shim.c", "w", encoding="ascii") as it:
            it.write(SHIM)
        subprocess.run(["cc", "-shared", "-fPIC", "-O1", "-o", f"{place}/shim.so", f"{place}/shim.c", "-ldl"], check=True)

    def ended(self, words, source, kind, **how):
        """The status of the program, and what it wrote on both streams; `how` says which calls fail, and with which error."""
        about = {"LD_PRELOAD": f"{self.place}/shim.so", "FAIL_KIND": kind, "COUNT_TO": f"{self.place}/count", **{it: str(n) for it, n in how.items()}}
        done = subprocess.run([PROGRAM, *words], input=bytes_of(source), capture_output=True, env=about, timeout=LIMIT, check=False)
        self.runs += 1
        return done.returncode, done.stdout + done.stderr

    def count(self):
        """How many calls of that kind the last program made."""
        return int(read(f"{self.place}/count"))


# ---- source and sink
WRITES = 'life 100000000;\nfunction f(x) { table t; read n = t["k"]; if n == null { set n = 0; } write t["k"] = n + 1; return [n + 1, x]; }\nscript\n'


def requests(count, size):
    """So many requests with an argument of this size, each of which is settled, and counts by one; in the middle of each tenth is a halt."""
    def lines(at):
        return [f'ticket\nrequest {at} f "{"a" * size}"', f"turn {at} 3\nhalt" if at % 10 == 1 else "", "settle 100\n"]
    return "".join("\n".join(it for it in lines(at) if it) for at in range(1, count + 1))


def collected(count, size):
    """The same with a short life, in which log collectors make turns after each request."""
    lines = requests(count, size).split("ticket\n")[1:]
    source = "".join(f"ticket\n{it}tick 3\ngc 0 20\ngc 7 5\n{'sweep 1 999' if at % 7 == 0 else f'reply {at // 2}'}\n" for at, it in enumerate(lines))
    return f"{WRITES.replace('life 100000000', 'life 10')}{source}"


def sources():
    """Sources with halts: the golden ones, and two whose texts are written in several pieces, one of them with log collectors."""
    for name in sorted(os.listdir(f"{TOP}/tests/rows")):
        source = read(f"{TOP}/tests/rows/{name}") if name.endswith(".in") else b""
        if b"\nhalt\n" in source:
            yield name[: -len(".in")], source
    yield "a text of several pieces", f"{WRITES}{requests(80, 1000)}".encode()
    yield "a text of several pieces, with log collectors", collected(80, 1000).encode()


def failing_reads(system, name, source, whole):
    """Each read of the source fails in turn: nothing is written."""
    piece = len(source) // 9 + 1
    same(f"{name}: reads of {piece} bytes", system.ended(["run"], source, "source", PIECE=piece), (0, whole))
    for error in (errno.EIO, errno.EINTR):
        for at in range(1, system.count() + 1):
            found = system.ended(["run"], source, "source", PIECE=piece, FAIL_AT=at, FAIL_WITH=error)
            same(f"{name}: read {at} of the source fails by {error}", found, (3, b""))


def failing_writes(system, name, source, whole):
    """Each write fails in turn: a front is written, which is longer the later it fails."""
    piece = len(whole) // 20 + 1
    same(f"{name}: writes of {piece} bytes", system.ended(["run"], source, "text", PIECE=piece), (0, whole))
    for error in (errno.ENOSPC, errno.EPIPE, errno.EINTR):
        last = -1
        for at in range(1, system.count() + 1):
            status, text = system.ended(["run"], source, "text", PIECE=piece, FAIL_AT=at, FAIL_WITH=error)
            same(f"{name}: write {at} fails by {error}", (status, whole.startswith(text), last < len(text) < len(whole)), (4, True, True))
            last = len(text)


def streams():
    """Sources and sinks that fail at each call, over scripts with halts."""
    if not has_compiler():
        return
    with tempfile.TemporaryDirectory() as place:
        system = System(place)
        for name, source in sources():
            status, whole = system.ended(["run"], source, "")
            same(f"{name}: its status", status, 0)
            failing_reads(system, name, source, whole)
            failing_writes(system, name, source, whole)
        print(f"streams: {system.runs} runs")


# ---- the program is killed
KILLS = 400 if IS_LONG else 60


def told(text):
    """The lines of a text that may be cut: what follows the last newline is none."""
    return text[: text.rfind(b"\n") + 1]


def is_whole(text):
    """Whether a text is whole of a script whose last line is `book`, and the only one: it ends with a newline, and its two books are one."""
    before, _, last = text.rpartition(b"== book\n")
    _, listed, first = before.partition(b"== book\n")
    return text.endswith(b"\n") and listed != b"" and first.partition(b"== tables\n")[0] == last


def killed(source, count):
    """What a reader has of a program that was killed once it had so many bytes, and how that ended. The program is never more than a page ahead
    of its reader, so it is killed in mid-text, and mostly in mid-line, however fast either is."""
    with subprocess.Popen([PROGRAM, "run"], stdin=subprocess.PIPE, stdout=subprocess.PIPE) as process:
        fcntl.fcntl(process.stdout, fcntl.F_SETPIPE_SZ, 4096)
        process.stdin.write(source)
        process.stdin.close()
        text = process.stdout.read(count)
        process.send_signal(signal.SIGKILL)
        return text + process.stdout.read(), process.wait()


def cut():
    """The program is killed at any moment: what was written is a front of the whole text, and that it is cut can be told; so too where log
    collectors make turns."""
    cut_at("a text", f"{WRITES}{requests(200, 2000)}book\n".encode())
    cut_at("a text with log collectors", f"{collected(200, 2000)}book\n".encode())


def cut_at(name, source):
    """The same of one source."""
    done = subprocess.run([PROGRAM, "run"], input=source, capture_output=True, timeout=LIMIT, check=False)
    whole, draw, halves = done.stdout, random.Random("cut").random, 0
    same(f"{name} that is not cut", (done.returncode, is_whole(whole)), (0, True))
    for at in range(KILLS):
        text, status = killed(source, int(draw() * len(whole) * 0.9))
        halves += told(text) != text
        same(f"{name}: kill {at}", (status, whole.startswith(text), is_whole(text)), (-signal.SIGKILL, True, False))
    counts.true(f"{name}: some are cut in mid-line", halves > KILLS // 4, f"{halves} of {KILLS}")
    places = {0, len(whole) - 1, *range(whole.rindex(b"== book\n"), len(whole), 99), *(int(draw() * len(whole)) for _ in range(300))}
    same(f"{name}: places where a cut is not told", [at for at in places if is_whole(whole[:at])], [])
    print(f"cut: {name}, {KILLS} kills, {halves} of them in mid-line")


# ---- answers where calls of the table fail
bounds = loaded("bounds", "tests/bounds")
# what reads, and is no event
READINGS = ("reply", "rows", "tables", "book")


def settled_text(source, text):
    """A text in which no listing in mid-script is dropped. There it is not told whether a line `dropped` below the heading of the tables is
    of these, or of the next event where no item was listed: what makes the text whole is taken."""
    return text if bounds.bound.Session(source, text).is_whole else text.replace("== tables\ndropped\n", "== tables\n", 1)


def wrong_course(source, text, most):
    """What is wrong with the answers of a session whose table failed at most so often: after a halt that is dropped all but a halt is
    answered `shut`, up to one that is answered `halted`, and no other event is."""
    session, is_shut, dropped = bounds.bound.Session(source, text), False, 0
    for event in session.events:
        said = event.answer.split(" ")[0]
        dropped += said == "dropped" and event.word != "lost"
        if event.word in READINGS:
            continue
        if event.word == "sweep":
            # (its turns are not told one by one)
            if is_shut and said != "unswept":
                return f"{event.text} is answered {event.answer}, where it is shut"
            continue
        if event.word == "halt":
            if said not in ("halted", "dropped"):
                return f"a halt is answered {event.answer}"
            is_shut = said == "dropped"
        elif (said == "shut") != is_shut:
            return f"{event.text} is answered {event.answer}, where it is {'' if is_shut else 'not '}shut"
    return f"{dropped} are dropped" if dropped > most else ""


# ---- a disk whose calls fail below a file of rows
# so many requests were made in an earlier session; their rows are more pages of 512 bytes than are kept in memory
MADE = 280
# The first and the last calls are tried, and of the others so many as are drawn.
CALLS, DRAWN = (200, 2000) if IS_LONG else (6, 36)
COUNTED = f"""{WRITES}halt
halt
reply 1
ticket
halt
ticket
request {MADE + 1} f "b"
settle 100
reply {MADE + 1}
halt
settle 100
reply {MADE + 1}
"""
AFTER = f"{WRITES}settle 100\nreply 1\nreply {MADE}\nreply {MADE + 1}\nticket\n"
# log collectors make turns more than a life later, between halts; and then they take away all that is left
LATER = 100_000_001
SWEPT = f"""{WRITES}reply 1
tick {LATER}
gc 0 300
gc 7 60
sweep 1 300
halt
gc 0 400
ticket
request {MADE + 1} f "b"
settle 100
sweep 0 300
halt
gc 1 20
reply {MADE + 1}
sweep 0 4000
"""
AFTER_SWEPT = (
    f"{WRITES}settle 100\nreply 1\nreply {MADE}\nreply {MADE + 1}\n" + f"tick {LATER}\nsweep 0 4000000000\n" * bounds.SWEEPS + "rows\nticket\n"
)


def with_rows(path):
    """A file of rows of an earlier session, in pages that are small."""
    with sqlite3.connect(path) as it:
        it.execute("pragma page_size = 512")
        it.execute("CREATE TABLE beldi (k BLOB PRIMARY KEY NOT NULL, v BLOB NOT NULL) STRICT")
    it.close()
    source = f"{WRITES}{requests(MADE, 4000)}".encode()
    done = subprocess.run([PROGRAM, "--db", path, "run"], input=source, capture_output=True, timeout=10 * LIMIT, check=False)
    same("rows of an earlier session", (done.returncode, done.stdout.count(b"\nsettled ")), (0, MADE))


def is_kept(told, after):
    """Whether a session after one that was told this has what that was told, and each request once."""
    lines, made = after.split("\n"), MADE + (f"reply {MADE + 1} value" in after)
    at = lines.index(f"reply {MADE} value [{MADE},\"{'a' * 4000}\"]") if f"reply {MADE} value [{MADE}," in after else 0
    tickets = [int(it.split(" ")[1]) for it in told.split("\n")[:-1] if it.startswith("ticket ")]
    return at > 0 and f'\n== tables\nf t "k" {made}\n' in after and all(
        line in lines for line in told.split("\n")[:-1] if line.startswith(f"reply {MADE + 1} value")
    ) and int(lines[at + 2].split(" ")[1]) > max([MADE, *tickets])


def is_swept(told, after):
    """The same of sessions in which log collectors make turns: each reply is told or gone, that of the newest ticket is there, and only the
    first and the last row of the one item are left, and that of the newest ticket's intent."""
    lines = after.split("\n")
    first, last, more, rows = lines[1], lines[2], lines[3], lines[4 + 2 * bounds.SWEEPS]
    made = MADE + more.startswith(f"reply {MADE + 1} value [{MADE + 1},")
    was_bound = f"\nreply {MADE + 1} value" in told or "\nsettled 0\n" not in f"\n{after}"
    return (
        first in (f'reply 1 value [1,"{"a" * 4000}"]', "reply 1 gone")
        and (last.startswith(f"reply {MADE} value [{MADE},") or (last == f"reply {MADE} gone" and "unknown" not in more))
        and (made > MADE or (more in (f"reply {MADE + 1} unknown", f"reply {MADE + 1} waiting") and not was_bound))
        and rows == "rows 3" and f'\n== tables\nf t "k" {made}\n' in after
    )


COURSES = ((COUNTED, AFTER, is_kept), (SWEPT, AFTER_SWEPT, is_swept))


def failing_disk(system, base, whole, how, course):
    """A session in which these calls of the disk fail, and one after it in which none does; how the first one ended."""
    during, later, is_there = course
    path = copied(system, base)
    name = f"{how} of the disk{', with log collectors' if during is SWEPT else ''}"
    status, text = system.ended(["--db", path, "run"], during, "disk", FAIL_WITH=errno.EIO, **how)
    text = text.decode()
    after, then = system.ended(["--db", path, "run"], later, "")
    if status == 0:
        why = wrong_course(during, text, 1 if "FAIL_AT" in how else len(text))
    else:
        why = "" if text in ("", whole) and status in (4, 8) else f"status {status}, {serve.short(text)}"
    counts.say(name, why)
    counts.true(f"{name}: what was told is there", after == 0 and is_there(text, then.decode()), f"status {after}, {serve.short(then)}")
    return status, "dropped" in text


def disk():
    """Calls of the disk fail below a file of rows: reads fail in events and halts, which are dropped; of what cannot be kept nothing is told;
    and the file has what it had, or more."""
    if not has_compiler():
        return
    with tempfile.TemporaryDirectory(dir="/dev/shm" if os.path.isdir("/dev/shm") else None) as place:
        system = System(place)
        with_rows(f"{place}/base")
        for course in COURSES:
            failing_course(system, f"{place}/base", course)


def copied(system, base):
    """A copy of a file of rows."""
    path = f"{system.place}/rows"
    for it in (path, f"{path}-wal"):
        if os.path.exists(it):
            os.remove(it)
    shutil.copy(base, path)
    return path


def failing_course(system, base, course):
    """Calls of the disk fail in one course of two sessions."""
    system.ended(["--db", copied(system, base), "run"], WRITES, "disk")
    opened, ends = system.count(), {}
    status, whole = system.ended(["--db", copied(system, base), "run"], course[0], "disk")
    same("a session whose disk does not fail", (status, wrong_course(course[0], whole.decode(), 0)), (0, ""))
    count, draw = system.count(), random.Random("disk").random
    # (a half of them after the file was opened; once a row is removed, what fails is told by the status)
    drawn = (1 + int(draw() * count) if at % 2 else opened + int(draw() * (count - opened)) for at in range(DRAWN))
    for at in sorted({*range(1, CALLS), *range(opened + 1, opened + 3 * CALLS), *range(count - CALLS, count + 1), *drawn}):
        for way in WAYS:
            found = failing_disk(system, base, whole.decode(), {way: at}, course)
            ends[found] = ends.get(found, 0) + 1
    counts.true("a disk that fails: some answers are dropped", ends.get((0, True), 0) > 0, f"{ends}")
    print(f"disk: {system.runs} runs, {count} calls, of which {opened} open the file; by status, and whether something was dropped: {ends}")


# ---- a table that fails at any call
# A program that takes before its words `--fail` and the numbers of the calls of its table in memory that fail.
FAILING_MAIN = """//! The program over a table in memory that fails calls.
#![tactic(auto)]

use beldi_outside::{ClosedLink, MemClock, StdSink, StdSource};
use beldi_program::top;
use beldi_table::FailingTable;
use beldi_value::Str;
use std::alloc::Global;
use std::process::ExitCode;
use std::{env, io};

fn words(rt: &HostRuntime) -> io::Result<Vec<Str>> {
    let mut words = Vec::new(rt.alloc());
    for word in env::args(rt)?.skip(1) {
        words.push(Str::from_string(word))?;
    }
    Ok(words)
}

fn numbers(alloc: Global, word: &str) -> io::Result<Vec<u32>> {
    let mut numbers = Vec::new(alloc);
    for part in word.split_whitespace() {
        if let Ok(number) = part.parse::<u32>() {
            numbers.push(number)?;
        }
    }
    Ok(numbers)
}

fn carry_out(rt: &HostRuntime, words: &[Str], fail: Vec<u32>) -> u8 {
    let alloc = rt.alloc();
    let mut source = StdSource::new(rt.reader());
    let mut sink = StdSink::new(io::writer(rt));
    let mut link = ClosedLink::new();
    let mut clock = MemClock::new(Vec::new(alloc));
    let table = FailingTable::new(alloc, fail);
    top(alloc, words, &mut source, &mut sink, table, &mut link, &mut clock).0
}

fn over(rt: &HostRuntime) -> io::Result<u8> {
    let words = words(rt)?;
    if words.len() >= 2 && words[0].as_str() == "--fail" {
        let fail = numbers(rt.alloc(), words[1].as_str())?;
        Ok(carry_out(rt, &words.as_slice()[2..], fail))
    } else {
        Ok(carry_out(rt, words.as_slice(), Vec::new(rt.alloc())))
    }
}

fn main(rt: HostRuntime) -> ExitCode {
    match over(&rt) {
        Ok(status) => ExitCode::from(status),
        Err(_) => ExitCode::from(1),
    }
}
"""


def failing_program(place):
    """The program over a table that fails: what FAILING names, or one that is compiled now, in a copy of the repository."""
    if "FAILING" in os.environ:
        return os.path.realpath(os.environ["FAILING"])
    shutil.copytree(f"{TOP}/crates", f"{place}/crates", ignore=shutil.ignore_patterns("out", "must-fail"))
    os.makedirs(f"{place}/examples")
    for it in ("HANDLES", "beldi", "crates.txt", "examples/first.beldi"):
        shutil.copy(f"{TOP}/{it}", f"{place}/{it}")
    for it in os.listdir(f"{place}/crates/beldi_main/src"):
        os.remove(f"{place}/crates/beldi_main/src/{it}")
    with open(f"{place}/crates/beldi_main/src/main.rt", "w", encoding="utf-8") as it:
        it.write(FAILING_MAIN)
    with open(f"{TOP}/examples/first.beldi", "rb") as it:
        subprocess.run([f"{place}/beldi", "check"], stdin=it, stdout=subprocess.DEVNULL, check=True)
    return f"{place}/out/beldi_unproved"


class Failing:
    """Sessions over a table that fails."""

    def __init__(self, program):
        self.program, self.runs = program, 0

    def ended(self, words, source, calls):
        """The status of a session whose table fails these calls, and its text."""
        self.runs += 1
        line = [self.program, "--fail", " ".join(map(str, calls)), *words]
        done = subprocess.run(line, input=bytes_of(source), capture_output=True, timeout=LIMIT, check=False)
        return done.returncode, (done.stdout + done.stderr).decode(errors="replace")

    def count(self, words, source, whole):
        """How many calls a session makes: the least number from which on all may fail."""
        least, most = 0, 1
        while self.ended(words, source, range(most, most + 20_000)) != whole:
            least, most = most, 2 * most
        while least < most:
            middle = (least + most) // 2
            if self.ended(words, source, range(middle, middle + 20_000)) == whole:
                most = middle
            else:
                least = middle + 1
        return most


def wrong_end(source, text):
    """What is wrong with the replies and the tables of a session whose table failed: those that were read are those of the crash-free run of
    its book."""
    session = bounds.bound.Bound(source, text)
    if session.plain is None or session.tables is None:
        return session.reason or "its text is not whole"
    items = [
        f"{name} {table} {bounds.text_of(key)} {bounds.text_of(value)}" for (name, table, key), value in session.plain.items.items() if value is not None
    ]
    if session.tables != ["dropped"] and sorted(items) != sorted(session.tables):
        return "other tables than those of the crash-free run of its book"
    return ""


def first_difference(whole, text):
    """The first line of a text that is not that of the whole one."""
    return next((b for a, b in zip(whole.split("\n"), text.split("\n")) if a != b), "")


def failing_call(failing, name, source, whole, call):
    """A golden session whose table fails at this call: up to there its text is the golden one."""
    status, told = failing.ended(["run"], source, [call])
    text = settled_text(source, told)
    if call == 0:
        same(f"{name}: call 0 fails", (status, text), (8, ""))
        return
    other = first_difference(whole[1], told)
    # (the answer to a line `lost` is dropped either way, and a settling or a sweep does not tell it)
    is_told = other in ("", "dropped") or any(f"\n{it} " in source for it in ("lost", "settle", "sweep"))
    why = "" if is_told else f"it first tells {other}"
    counts.say(f"{name}: call {call} fails", why or ("" if status == whole[0] else f"status {status}") or wrong_course(source, text, 1) or wrong_end(source, text))


def golden_calls(failing):
    """Each golden session with a failure at each call of the table in turn."""
    draw, names = random.Random("table").random, sorted(it[: -len(".args")] for it in os.listdir(f"{TOP}/tests/rows") if it.endswith(".args"))
    for name in names:
        words, path = read(f"{TOP}/tests/rows/{name}.args"), f"{TOP}/tests/rows/{name}.in"
        if words != b"run\n" or not os.path.exists(path) or os.path.getsize(path) > 100_000:
            continue
        source = read(path).decode()
        whole = int(read(f"{TOP}/tests/rows/{name}.status")), read(f"{TOP}/tests/rows/{name}.out").decode()
        same(f"{name}: no call fails", failing.ended(words.split(), source, []), whole)
        if "refused line" in whole[1]:
            continue
        count = failing.count(["run"], source, whole)
        for call in range(count) if count <= PLACES else sorted({int(draw() * count) for _ in range(PLACES)}):
            failing_call(failing, name, source, whole, call)


# Of a session that makes more calls, so many are drawn.
PLACES = 400
# How often a table fails at most in a random session, and before which call.
MOST, BEFORE = 6, 200


def random_calls(failing, kind, number):
    """A random session with halts, whose table fails at some calls: its tables and replies are those of the crash-free run of its book, and it
    settles within the work, to which each failure adds the greatest part."""
    draw = random.Random(f"calls {kind} {number}").random
    calls = sorted({1 + int(draw() * BEFORE) for _ in range(1 + int(draw() * MOST))})
    source = f"{bounds.drawn(kind, number)}settle {bounds.AMPLE}\nhalt\nhalt\n"
    source = bounds.whole(source, bounds.AMPLE, kind.startswith("collected-"))
    status, told = failing.ended(["run"], source, calls)
    text = settled_text(source, told)
    why = f"status {status}" if status != 0 else wrong_course(source, text, len(calls)) or wrong_end(source, text) or wrong_replies(source, text)
    counts.say(f"{kind} {number} with failures at {calls}", why or wrong_settlings(source, text, len(calls)))
    return text.count("dropped")


def wrong_replies(source, text):
    """What is wrong with what is told of requests and replies."""
    return bounds.wrong_answers(bounds.bound.Bound(source, text))


def wrong_settlings(source, text, failures):
    """What is wrong with how a session is settled."""
    for it in bounds.bound.Bound(source, text).settlings():
        small = it.event.text != f"settle {bounds.AMPLE}"
        if it.end not in ("settled", "stuck", "shut") and not (small and it.end == "unsettled"):
            return it.text
        if it.work is not None and it.turns > it.work + failures * (1 + max(sum(it.costs(), []), default=0)):
            return f"{it.text}, with {failures} failures"
    return ""


def table():
    """A table that fails: at each call of the golden sessions in turn, and at some of the random sessions with halts or log collectors."""
    with tempfile.TemporaryDirectory() as place:
        failing = Failing(failing_program(place))
        golden_calls(failing)
        print(f"table: {failing.runs} golden sessions with a call that fails", flush=True)
        kinds = [it for it in bounds.KINDS if it.startswith(("halted-", "collected-"))]
        dropped = [random_calls(failing, kind, number) for kind in kinds for number in range(bounds.SESSIONS[kind])]
    print(f"table: {len(dropped)} random sessions, {sum(map(bool, dropped))} of them with an answer that is dropped")


GROUPS, LONG_GROUPS = (streams, cut, disk), (table,)
