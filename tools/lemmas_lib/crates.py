"""The crates of this repository, and what their files import."""
import functools, os, re

TOP = os.path.dirname(os.path.dirname(os.path.dirname(os.path.abspath(__file__))))
CODE = re.compile(r"(?m)^\s*(?:pub(?:\([^)]*\))? +)?(?:unsafe +)?(?:struct|enum|trait|impl)\b|\bfn \w+(?:<[^(]*>)?\((?!\))|\) *->")
START = re.compile(r"(?m)^[ \t]*(?:pub )?(?:ghost )?use (?=\w)")
PLACE = re.compile(r"Rattle\.(\w+)\.(specs|proofs)\.([\w«»]+)")


def read(path):
    with open(path, encoding="utf-8") as it:
        return it.read()


def write(path, text):
    """Writes the file, and says whether its text was another one. A file that stays is not touched."""
    if os.path.isfile(path) and read(path) == text:
        return False
    os.makedirs(os.path.dirname(path), exist_ok=True)
    with open(f"{path}.new", "w", encoding="utf-8") as it:
        it.write(text)
    os.replace(f"{path}.new", path)  # another folder may have a hard link to the file
    return True


def sync(folder, texts, parts):
    """Makes these texts, by their paths, all that the parts of the folder have, and says how many files were changed."""
    for part in parts:
        for at, _, names in os.walk(f"{folder}/{part}", topdown=False):
            for it in names:
                if os.path.relpath(f"{at}/{it}", folder) not in texts:
                    os.remove(f"{at}/{it}")
            if not os.listdir(at):
                os.rmdir(at)
    return sum(write(f"{folder}/{it}", text) for it, text in texts.items())


class Tree:
    """The crates of crates.txt, from below to above: their lines, the words of these, all crates below each, and those of laws, which
    have no types, and of functions only such as take and give nothing."""

    def __init__(self):
        self.lines, self.words, self.below, self.code = {}, {}, {}, {}
        for line in re.findall(r"(?m)^\w.*", read(f"{TOP}/crates.txt")):
            name, words = re.match(r"\w+", line)[0], line.partition(":")[2].split()
            self.lines[name], self.words[name] = line, words
            self.below[name] = {below for it in words if it in self.lines for below in (it, *self.below[it])}
            files = [f"{at}/{it}" for at, _, names in os.walk(f"{TOP}/crates/{name}/src") for it in names]
            self.code[name] = re.sub(r"//.*", "", "\n".join(map(read, files)))
        self.laws = {it for it, code in self.code.items() if not CODE.search(code)}

    def lowest_laws(self):
        """The crates of laws that stand on no code whose contracts speak of laws themselves."""
        speaks = {it for it, code in self.code.items() if it not in self.laws and self.laws & {*re.findall(r"\bRattle\.(\w+)", code)}}
        return [it for it in self.lines if it in self.laws and not speaks & self.below[it]]


def closing(text, at, signs="{}"):
    """Where the block ends that begins at or behind this place."""
    depth = 0
    for it in re.compile(f"[{re.escape(signs)}]").finditer(text, at):
        depth += 1 if it[0] in signs[::2] else -1
        if not depth:
            return it.end()


def statements(text):
    """Yields of each import where it begins, where its path does, and where it ends: in its line, or where its braces do."""
    for it in START.finditer(text):
        end = re.compile(r"[^\n;{]*").match(text, it.end()).end()
        yield it.start(), it.end(), closing(text, end) if text[end:end + 1] == "{" else end


def split_items(text):
    """Splits at the commas outside braces. One in the name of an operator has no space behind it."""
    items, depth, last = [], 0, 0
    for it in re.finditer(r"[{}]|,(?= )", text):
        depth += {"{": 1, "}": -1}.get(it[0], 0)
        if it[0] == "," and not depth:
            items.append(text[last:it.start()])
            last = it.end()
    return [it.strip(" ,") for it in [*items, text[last:]] if it.strip(" ,")]


def paths_of(path):
    """Yields (whole path, alias or none) of each name of an import's path."""
    base, brace, inside = re.sub(r"\s+", " ", path).strip().partition(".{")
    if not brace:
        whole, _, alias = base.partition(" as ")
        yield whole, alias or None
    for it in split_items(inside[:-1]):
        yield from ((f"{base}.{whole}", alias) for whole, alias in paths_of(it))


@functools.cache
def places_in(file):
    """The files of specs and proofs that this file imports."""
    text = read(file)
    paths = (path for _, start, end in statements(text) for path, _ in paths_of(text[start:end]))
    places = {it.groups() for it in map(PLACE.match, paths) if it}
    return {it for it in (f"{TOP}/crates/{crate}/{part}/{name}.antt" for crate, part, name in places) if os.path.isfile(it)}


def reached(files):
    """The same of all these files, also by way of others."""
    found, todo = set(), [*files]
    while todo:
        new = places_in(todo.pop()) - found
        found |= new
        todo += new
    return found
