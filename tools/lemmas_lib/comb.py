"""One crate of the definitions and lemmas of many: proofs/X of beldi_histories becomes proofs/HistoriesX, specs/X becomes specs/HistoriesX, and
imports are led there. Types that code declares stay with the stubs."""
import os, re
from lemmas_lib.crates import PLACE, TOP, paths_of, read, statements

NAME = "beldi_comb"
ROOT = {"src/lib.rt": "//! Lemmas of several crates, in one.\n#![tactic(auto)]\n"}
DULL = re.compile(r"so far:|statements |logic /|progress|  ?\d+ of \d+|rt: |core: |library .* checked=0|note: (?:no function|finished)|$")


def name_of(crate, name):
    return "".join(it.capitalize() for it in crate.split("_")[1:]) + name


def joined(paths, in_braces):
    """One path for all of these (path, alias), behind what they share."""
    shared = os.path.commonprefix([path.split(".")[:-1] for path, _ in paths])
    names = [".".join(path.split(".")[len(shared):]) + f" as {alias}" * bool(alias) for path, alias in paths]
    return ".".join(shared) + (f".{{{', '.join(names)}}}" if in_braces else f".{names[0]}")


class File:
    """A file of the comb: its text, what it imports of the comb, and where its lines come later than in the original."""

    def __init__(self, origin, inside):
        self.origin, self.inside, self.imports, self.later = origin, inside, set(), []
        text, out, at = read(f"{TOP}/{origin}"), [], 0
        for begin, start, end in statements(text):
            paths = self.led(text[start:end])
            if paths:
                new = "\n".join(text[begin:start] + it for it in paths)
                more = new.count("\n") - text.count("\n", begin, end)
                if more > 0:
                    self.later.append((text.count("\n", 0, begin) + sum(it for _, it in self.later) + 2, more))
                out += [text[at:begin], new, "\n" * -more]
                at = end
        self.text = "".join([*out, text[at:]])

    def led(self, given):
        """A statement's paths as they are in the comb: one of what is there, and one of the rest; none where all stays."""
        here, there = [], []
        for path, alias in paths_of(given):
            it = PLACE.match(path)
            if it and it[1] in self.inside and it[3] != "declared":
                part, name = it[2], name_of(it[1], it[3])
                self.imports.add((part, name))
                here.append((f"Rattle.{NAME}.{part}.{name}{path[it.end():]}", alias or (it[3] if it[0] == path else None)))
            else:
                there.append((path, alias))
        return [joined(it, "{" in given) for it in (here, there) if it] if here else []

    def line(self, number):
        """The line in the original."""
        return number - sum(more for first, more in self.later if first <= number)

    def is_named(self, word):
        """Whether a word names it: a crate, as histories; or a file, as Frame, histories/Frame, or its path."""
        _, crate, part, name = self.origin.removesuffix(".antt").split("/")
        word = word.removeprefix("crates/").removeprefix("beldi_").removesuffix(".antt")
        crate = crate.removeprefix("beldi_")
        return word in (crate, name, f"{crate}/{name}", f"{crate}/{part}/{name}")


def files_of(inside, only):
    """The files of these crates by (specs or proofs, name): all, or those that are named and what they import."""
    files = {}
    for at in [f"crates/{crate}/{part}" for crate in inside for part in ("specs", "proofs")]:
        for it in sorted(os.listdir(f"{TOP}/{at}")) if os.path.isdir(f"{TOP}/{at}") else ():
            if it.endswith(".antt") and it != "Lib.antt":
                files[at.split("/")[2], name_of(at.split("/")[1], it[:-5])] = File(f"{at}/{it}", inside)
    chosen, todo = set(), [key for key, it in files.items() if not only or any(map(it.is_named, only))]
    while todo:
        key = todo.pop()
        if key in files and key not in chosen:
            chosen.add(key)
            todo += files[key].imports
    return {key: files[key] for key in sorted(chosen)}


def texts_of(files):
    """The texts of the crate by their paths."""
    lists = {f"{part}/Lib.antt": "".join(f"pub mod {name}\n" for of, name in files if of == part) for part, _ in files}
    return {f"{part}/{name}.antt": it.text for (part, name), it in files.items()} | lists | ROOT


def told(text, files):
    """What rattle says of the comb, with the names and lines of the original files."""
    def place(it):
        file = files.get((it[1], it[2]))
        return f"{file.origin}:{file.line(int(it[3]))}" if file else it[0]

    names = {name: it.origin.split("/")[1] + "." + os.path.basename(it.origin)[:-5] for (_, name), it in files.items()}
    text = "\n".join(it for it in text.split("\n") if not DULL.match(it))
    text = re.sub(r"(?<![\w./])(?:\./)?(specs|proofs)/([\w«»]+)\.antt:(\d+)", place, text)
    text = re.sub(rf"Rattle[.-]{NAME}[.-](specs|proofs)\.", "", text)
    return re.sub(r"\b[A-Z]\w+\b", lambda it: names.get(it[0], it[0]), text)
