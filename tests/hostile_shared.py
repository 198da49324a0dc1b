"""What the files of tests/hostile share: the program and how it is run, the counts, and the texts that most of their sources are made of."""
import json
import os
import random
import subprocess
import sys
from importlib.machinery import SourceFileLoader
from importlib.util import module_from_spec, spec_from_loader

TOP = os.path.dirname(os.path.dirname(os.path.realpath(__file__)))


def loaded(name, path):
    """A command as a module: its file has no ending."""
    spec = spec_from_loader(name, SourceFileLoader(name, f"{TOP}/{path}"))
    module = module_from_spec(spec)
    spec.loader.exec_module(module)
    return module


serve = loaded("serve", "tests/serve")
PROGRAM = serve.PROGRAM
IS_LONG = "--long" in sys.argv[1:2]
# How long a small source may take, also on a machine that is busy: what takes longer is taken to have no end.
LIMIT = int(os.environ.get("SECONDS_EACH", "60"))

counts = serve.Counts()
same = counts.same

LIFE = "life 100;\n"
PLAIN = "function f(x) { }\n"
SCRIPT = f"{LIFE}{PLAIN}script\n"
ENDS = "== tables\n== book\n"
# what most services here serve
WIRE = f"life 1000000;\nfunction f(x) {{ table t; write t[\"k\"] = x; return x; }}\n"
NEW_TICKET = "POST /tickets HTTP/1.1\r\nContent-Length: 0\r\n\r\n".encode()


def bytes_of(text):
    return text if isinstance(text, bytes) else text.encode()


def ended(words, source, limit=LIMIT):
    """The status of the program with these words over a source, what it wrote, and what it said; no status where it does not end."""
    try:
        done = subprocess.run([PROGRAM, *words], input=bytes_of(source), capture_output=True, timeout=limit, check=False)
    except subprocess.TimeoutExpired:
        return None, b"", b""
    return done.returncode, done.stdout, done.stderr


def case(name, words, source, status, text):
    """Counts a source that has this status and just this text."""
    same(name, ended(words.split(" "), source), (status, bytes_of(text), b""))


def read(path):
    """The bytes of a file."""
    with open(path, "rb") as it:
        return it.read()


class Draw:
    """Draws from a seed, in the same way with each version of Python."""

    def __init__(self, seed):
        self.random = random.Random(seed).random

    def below(self, count):
        return int(self.random() * count)

    def one_of(self, choices):
        return choices[self.below(len(choices))]

    def bytes(self, count, alphabet=None):
        return bytes(alphabet[self.below(len(alphabet))] if alphabet else self.below(256) for _ in range(count))


def filled(text, size, end=""):
    """A text with blanks before its end, so that it has this size."""
    return text + " " * (size - len(text) - len(end)) + end


def many(count, line):
    """So many lines, each with its number."""
    return "".join(f"{line}\n".replace("#", str(at)) for at in range(1, count + 1))


def deep(levels, opens="[", closes="]"):
    """Lists in one another."""
    return opens * levels + closes * levels


def quoted(letters):
    """A text of so many letters, with its quotes."""
    return '"' + "a" * letters + '"'


def session(argument, reply):
    """The text of a session that settles one request of `f`, which makes no effect but its return: two turns."""
    value = json.loads(argument)
    canonical = json.dumps(value, ensure_ascii=False, separators=(",", ":"), sort_keys=True)
    return f"ticket 1\nbound 1 run 1\nreply 1 {reply}\nsettled 2\n== tables\n== book\nstart 1 f {canonical}\nstep 1\n"


def head(line, *fields):
    """The head of a request."""
    return "".join(f"{it}\r\n" for it in (line, *fields, "")).encode()


def length(count):
    return f"Content-Length: {count}"
