"""Lists where the code of all crates might be plainer: `python3 tools/places.py [COMMIT]`.

One section for each point of docs/DESIGN-PASS.md. A row is a place to look at, and no verdict. With a commit it
reads that commit, without one the files as they are. Sections 2 and 5 compare functions, the others match lines.
"""
import difflib
import itertools
import re
import subprocess
import sys

POINTS = {
    "1 enums, flags and numbers for kinds": r"\benum \w+|\b\w+: bool\b|Result<bool>|const NO_\w+|\bnumber: (u32|0)|fn number|number == 0",
    "3 loops, and counters kept by hand": r"\bwhile\b|\bloop\b|^\s*for\b|saturating_(add|sub)\(1\)|[+-]= 1\b",
    "4 matches and prints that a derive, a conversion or Display might do":
        r"\bNone => |\bErr\(_\) =>|\bSome\(_\) =>|\bOk\(\(\)\) =>|format!|String::from_str|push_str|\.push\('|x: 0, y: 0, z: 0 |: 0,$|\) as [iu](32|64)|\w as i32",
    "6 arrays with a length, indices in place of references": r": \[[\w:]+; \w+\]|as usize\]|\[0\]|binary_search|&mut \[\w+\]",
    "7 switches": r"\bmatch\b|Class::|\bfn\(",
}


def git(*words):
    return subprocess.run(["git", *words], capture_output=True, text=True, check=True).stdout


def sources(commit):
    listed = git("ls-tree", "-r", "--name-only", commit) if commit else git("ls-files", "-co", "--exclude-standard")
    for path in sorted(set(listed.splitlines())):
        if re.fullmatch(r"crates/\w+/(src|proofs)/.*\.(rt|antt)", path):
            try:
                yield path, git("show", f"{commit}:{path}") if commit else open(path).read()
            except FileNotFoundError:
                pass


def functions(text):
    """Name, line, parameters, required facts and body of each function."""
    for found in re.finditer(r"^( *)(?:pub(?:\(\w+\))? )?(?:const )?fn (\w+)", text, re.M):
        end = re.search(rf"^{found[1]}}}|^.*{{}}$", text[found.start():], re.M)
        whole = text[found.start():found.start() + end.end()] if end else text[found.start():]
        head, _, body = whole.partition(f"\n{found[1]}{{\n")
        words = head[:re.search(r"\n +(requires|ensures)|$", head).start()]
        inside = words[words.find("(") + 1:words.rfind(")")]
        given = {re.sub(r"'\w+ ?", "", p.strip()) for p in re.split(r",(?![^<(\[]*[>)\]])", inside) if ":" in p}
        needs = set(re.findall(r"requires (?:\w+ )?\{ (.*) \}", head))
        yield found[2], text.count("\n", 0, found.start()) + 1, given, needs, body


def shape(body):
    return [re.sub(r"^[a-z_]\w*$", "i", re.sub(r"^\d\w*$", "0", t)) for t in re.findall(r"\w+|\"[^\"]*\"|\S", body)]


def main():
    files = list(sources(sys.argv[1] if len(sys.argv) > 1 else None))
    code = [(path, text) for path, text in files if path.endswith(".rt")]
    for point, pattern in POINTS.items():
        rows = [f"{path}:{n}: {line.strip()}" for path, text in code for n, line in enumerate(text.splitlines(), 1)
                if re.search(pattern, line) and not re.match(r"\s*(//|ghost use|ensures|requires)", line)]
        print(f"== {point}: {len(rows)}", *rows, sep="\n")
    every = [(path, *f) for path, text in code for f in functions(text)]
    pairs = []
    for a, b in itertools.combinations(every, 2):
        x, y = shape(a[5]), shape(b[5])
        if min(len(x), len(y)) >= 20 and difflib.SequenceMatcher(None, x, y, False).ratio() >= 0.8:
            pairs.append(f"{a[0]}:{a[2]}: {a[1]} ~ {b[0]}:{b[2]}: {b[1]}")
    print(f"== 2 functions of nearly one shape: {len(pairs)}", *pairs, sep="\n")
    together = []
    for crate in sorted({path.split("/")[1] for path, _ in code}):
        own = [f for f in every if f[0].split("/")[1] == crate]
        for fact in sorted(set().union(*(f[4] for f in own))):
            held = [f[1] for f in own if fact in f[4]]
            if len(held) >= 3:
                together.append(f"{crate}: required by {', '.join(held)}: {fact}")
        for two in itertools.combinations(sorted(set().union(*(f[3] for f in own))), 2):
            held = [f[1] for f in own if set(two) <= f[3]]
            if len(held) >= 3:
                together.append(f"{crate}: parameters of {', '.join(held)}: {'; '.join(two)}")
    print(f"== 5 facts and parameters in three functions or more: {len(together)}", *together, sep="\n")
    proofs = {}
    for path, text in files:
        if path.endswith(".antt"):
            kind = "lemmas" if re.fullmatch(r"crates/\w+/proofs/\w+\.antt", path) else "of one function"
            lines = sum(1 for line in text.splitlines() if line.strip() and not line.startswith(("--", "use ")))
            count, length = proofs.get((path.split("/")[1], kind), (0, 0))
            proofs[path.split("/")[1], kind] = count + len(re.findall(r"^(?:abbrev )?pub [\w-]+ : goal", text, re.M)), length + lines
    print("== 8 proofs: answers and invariants, lines without imports and comments")
    print(*(f"{crate}, {kind}: {count} answers, {length} lines" for (crate, kind), (count, length) in sorted(proofs.items())), sep="\n")
    print(f"all: {sum(c for c, _ in proofs.values())} answers, {sum(n for _, n in proofs.values())} lines")


main()
