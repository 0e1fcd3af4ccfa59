"""Brings the names of definitions and lemmas to the spelling of the library.

A dash inside a name becomes an underscore, and in a name that begins with a capital letter it goes
and the next letter becomes a capital: with-move is with_move, and Equal-marks is EqualMarks. Names
that the checker makes (goals, steps of a proof) and names of the library stay as they are, and so do
comments and the text of strings. Run once, at the top of the repository, after the move to a newer
kit; it prints what it renamed, and which names would fall together with others.
"""
import glob
import re
import sys

OWN = "systems calculus logic sets frames folds tables text formulas marking cases listings questions quotients".split()
# a name that is a tactic of the newer kit, in the definitions that had it
CHOSEN = {"systems": {"first_of": "first_refusal"}, "tables": {"first_of": "first_refusal"}, "formulas": {"first_of": "first_byte"}}
WORD = r"[^\s(){}\[\],;.λ:=`\"«»⌜⌝]+"
DEFINED = re.compile(
    r"^\s*(?:pub\s+|abbrev\s+|unfoldable\s+|data\s+|record\s+)*(" + WORD + r")((?:\s*[({][^(){}]*[)}])*)\s*:(?!:)"
)
BOUND = re.compile(r"[({]\s*((?:" + WORD + r"\s+)+):")
LAMBDA = re.compile(r"λ\s+([^.]*?)\.\s")
LET = re.compile(r"\blet\s+(" + WORD + r")\s*[:=]")


def code_of(line):
    at = line.find("--")
    return line if at < 0 else line[:at]


def imported(line):
    """The names that a line brings in from elsewhere than this repository, or from generated modules."""
    m = re.match(r"\s*(?:pub |ghost )?use (\S+?)\.\{(.*)\}", line)
    if not m:
        return None
    path = m.group(1).split(".")
    own = len(path) > 2 and path[0] == "Rattle" and path[1] in OWN and path[2] in ("specs", "proofs")
    own = own and not set(path) & {"declared", "Goals", "Given", "TheVariants", "TheConstants", "contracts"}
    names = [n.strip() for n in m.group(2).split(",")]
    return (own, names)


def respelled(name):
    if not re.search(r"[^-]-[^-]", name) or not re.match(r"[A-Za-z]", name):
        return name
    if name[0].isupper():
        parts = name.split("-")
        return "".join(p[:1].upper() + p[1:] for p in parts)
    return name.replace("-", "_")


def main():
    antt = [f for f in glob.glob("crates/*/*/**/*.antt", recursive=True) if "/out/" not in f]
    rt = [f for f in glob.glob("crates/*/src/**/*.rt", recursive=True)]
    edits = glob.glob("crates/*/must-fail/*.edit")
    defined, foreign, goals, words = set(), set(), set(), set()
    for path in antt:
        kind = path.split("/")[-1]
        answers = kind in ("Answers.antt", "Invariants.antt", "Proof.antt")
        for line in open(path):
            line = code_of(line.rstrip("\n"))
            brought = imported(line)
            if brought:
                if not brought[0]:
                    for n in brought[1]:
                        foreign.add(n.split(" as ")[0].strip())
                        words.add(n.split(" as ")[-1].strip())
                continue
            words |= set(re.findall(WORD, line))
            m = DEFINED.match(line)
            if m:
                name = m.group(1)
                if answers and re.search(r":\s*(goal|Goals|Given)\.", line):
                    goals.add(name)
                else:
                    defined.add(name)
            for b in BOUND.findall(line):
                defined |= set(b.split())
            for b in LAMBDA.findall(line):
                defined |= set(re.findall(WORD, b))
            defined |= set(LET.findall(line))
    table = {}
    for name in sorted(defined - foreign - goals):
        new = respelled(name)
        if new != name:
            table[name] = new
    for old, new in table.items():
        note = "  falls together" if new in words or new in foreign else ""
        print(f"{old} -> {new}{note}")
    seen = {}
    for old, new in table.items():
        seen.setdefault(new, []).append(old)
    for new, olds in seen.items():
        if len(olds) > 1:
            print("two names:", olds, new)
    if "--write" not in sys.argv:
        return
    token = re.compile(r"(?<![^\s(){}\[\],;.λ:=`\"«»⌜⌝])(" + WORD + r")")

    def turn(text, path):
        chosen = CHOSEN.get(path.split("/")[1], {}) if path.endswith(".antt") else {}

        def one(m):
            name = m.group(1)
            before = text[: m.start()]
            if re.search(r"\b(goal|Goals|Given)\.$", before):
                return name
            return chosen.get(name) or table.get(name, name)

        return token.sub(one, text)

    for path in antt:
        out = []
        for line in open(path):
            body = line.rstrip("\n")
            brought = imported(body)
            if brought and not brought[0]:
                out.append(line)
                continue
            code = code_of(body)
            out.append(turn(code, path) + body[len(code):] + "\n")
        open(path, "w").write("".join(out))
    for path in rt:
        out = []
        for line in open(path):
            body = line.rstrip("\n")
            brought = imported(body.rstrip(";"))
            if body.lstrip().startswith("//") or (brought and not brought[0]):
                out.append(line)
                continue
            pieces = re.split(r'("(?:[^"\\]|\\.)*")', body)
            out.append("".join(p if p.startswith('"') else turn(p, path) for p in pieces) + "\n")
        open(path, "w").write("".join(out))
    for path in edits:
        out = []
        for line in open(path):
            out.append(turn(line.rstrip("\n"), path) + "\n" if re.match(r"(old|new):", line) else line)
        open(path, "w").write("".join(out))


main()
