"""Stubs of crates: types and definitions stay. A function has no contract but where it is to keep it, and its body is one foreign call that
never returns, whose contract is ⊥. They are built in a small part of the time, and cannot be linked."""
import os, re, subprocess
from lemmas_lib.crates import TOP, closing, reached, read, sync

ROOT = "#![tactic(auto)]\n"
BODY = "{ crate::stub::never(); unreachable!() }"
NEVER = """unsafe extern "C" { pub safe fn NAME_never() ensures { ⊥ }; }
pub fn never() ensures { ⊥ } { NAME_never(); }
"""
CLAUSE = re.compile(r"(?:\b(?:requires|ensures)\s*\*?(?:\s+\w+)?|\bghost\s+\w+\s*:)\s*$")
BLOCK = re.compile(r"(?m)^[ \t]*(?:pub(?:\([^)]*\))?\s+)?(?:unsafe\s+)?(impl|trait)\b([^{]*)")
GONE = re.compile(r"(?m)^[ \t]*(?://.*|#\[(?:cycle|tactic)\(.*\)\](?=[^{;]*?\bfn\b))\n")


def plain_texts(rattle, files):
    """The text of each file of code, with one character for each byte, and that with comments and literals blanked."""
    ran = subprocess.run([rattle, "fmt", "--tokens", *files], capture_output=True, text=True)
    rows, found = re.split(r"(?m)^file \d+\n", ran.stdout)[1:], {}
    if ran.returncode or len(rows) != len(files):
        raise SystemExit(f"rattle cannot read the code: {ran.stderr}")
    for file, tokens in zip(files, rows):
        text = read(file).encode().decode("latin-1")
        plain = [*re.sub(r"[^\n]", " ", text)]
        for start, end in re.findall(r"(?m)^\d+ (\d+) (\d+) (?!Literal|Text)", tokens):
            plain[int(start):int(end)] = text[int(start):int(end)]
        found[file] = text, "".join(plain)
    return found


def parts_of(plain, at):
    """Where the contract, the body and the end are of the function whose name ends here; none where it has no body."""
    contract = None
    while True:
        it = re.compile(r"[(\[{;]").search(plain, at)
        clause = CLAUSE.search(plain[at:it.start()])
        if it[0] == ";":
            return None
        if it[0] == "{" and not clause:
            return contract or it.start(), it.start(), closing(plain, it.start())
        if clause and not contract:
            contract = at + clause.start()
        at = closing(plain, it.start(), "{}" if it[0] == "{" else "()[]")


def stubbed(text, plain, keep):
    """The text with all bodies replaced, and without comments, and contracts but of traits and of those that are named, all where `keep` is
    none; and how many."""
    traits = [it.end() for it in BLOCK.finditer(plain) if it[1] == "trait" or re.search(r"\bfor\b(?!\s*<)", it[2])]
    traits = [(it, closing(plain, it)) for it in traits]
    out, done, count = [], 0, 0
    for it in re.finditer(r"\bfn\s+(\w+)", plain):
        is_const = re.search(r"\bconst\s+(unsafe\s+)?$", plain[max(0, it.start() - 40):it.start()])
        found = it.start() >= done and not is_const and parts_of(plain, it.end())
        if found:
            contract, body, end = found
            stays = keep is None or it[1] in keep or any(a < it.start() < b for a, b in traits)
            out += [text[done:body if stays else contract], BODY]
            done, count = end, count + 1
    return GONE.sub("", "".join([*out, text[done:]])).encode("latin-1").decode(), count


def files_of(name):
    """The paths of what a stub may have. The proofs of functions are in folders of proofs/."""
    paths = sorted(f"{at}/{it}"[len(f"{TOP}/crates/{name}/"):] for at, _, names in os.walk(f"{TOP}/crates/{name}") for it in names)
    return [it for it in paths if it.startswith(("src/", "specs/")) or re.match(r"proofs/[^/]*$", it)]


def stub(name, files, code, keep):
    """The texts of the crate's stub, from these files, and from what is code of those."""
    made = {it: stubbed(*code[file], keep) for it, file in files.items() if file in code}
    texts = {it: made[it][0] if it in made else read(file) for it, file in files.items()}
    if any(count for _, count in made.values()):
        texts["src/lib.rt"] = texts["src/lib.rt"].replace(ROOT, f"{ROOT}\nmod stub;\n", 1)
        texts |= {"src/stub.rt": NEVER.replace("NAME", name), "c/stub.c": f"void {name}_never(void) {{}}\n"}
    return texts


def make_stubs(rattle, dst, kinds, keep, is_first):
    """Makes the stubs of crates by their kind: `below` has all lemmas; `inside` those that definitions here import, and so has `laws`,
    which has no code. Later than first, definitions stay as they were where `check` has its own, so that nothing is built anew."""
    every = {(name, it): f"{TOP}/crates/{name}/{it}" for name in kinds for it in files_of(name)}
    code = plain_texts(rattle, [file for file in every.values() if file.endswith(".rt")])
    lemmas = reached([file for (name, it), file in every.items() if kinds[name] == "below" or not it.startswith("proofs/")])
    for name, kind in kinds.items():
        stays = lambda it: kind == "below" or not it.startswith("proofs/") or f"{TOP}/crates/{name}/{it}" in lemmas
        files = {it: file for (of, it), file in every.items() if of == name and stays(it)}
        texts, kept = stub(name, files, code, keep), [it for it in files if it.startswith("proofs/")]
        if kind != "below" and kept:
            texts["proofs/Lib.antt"] = "".join(f"pub mod {it[7:-5]}\n" for it in kept)
        if kind == "laws":
            texts = {it: text for it, text in texts.items() if it.startswith(("specs/", "proofs/"))} | {"src/lib.rt": ROOT}
        parts = ["src", "c"] + ["specs", "proofs"] * (kind == "below" or is_first)
        sync(f"{dst}/crates/{name}", {it: text for it, text in texts.items() if it.split("/")[0] in parts}, parts)
