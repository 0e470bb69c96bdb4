"""Counts where the older forms of the language may stand in src/: `python3 tools/places.py [COMMIT] [--list]`.

Each question has patterns; a line, or a function, that one of them finds is a candidate, which `--list` prints.
docs/DESIGN-PASS.md says of each what it is. Without a commit the working tree is read."""
import re
import subprocess
import sys
from collections import defaultdict

LINES = {
    "enums, flags and codes": [
        r"^\s*(pub(\(\w+\))? )?enum \w+",
        r"^\s+(pub )?\w+: bool,$",
        r"\bfn (\w*number|from_numbers?|\w*code|letter)\b",
        r"unwrap_or\(\d+\)",
    ],
    "loops": [r"^\s*(for|while|loop)\b"],
    "equality, copying, conversion and printing by hand": [
        r"^impl.* (PartialEq|Eq|PartialOrd|Ord|Clone|Copy|Hash|Default|Debug) for",
        r"\bfn (\w*number|from_numbers?|from_bits|bits|\w*code|letter)\b",
        r"\bfn (show|print)\w*",
        r'"[^"]*refused[^"]*\{',
    ],
    "buffers and arrays": [r":\s*&?(mut )?\[.*; ?\w+\]", r"^\s+(pub )?(len|waiting|bottles|most|count): usize,"],
    "switches on the step": [r"\bmatch \w*(call|event|self|word)\w*\b", r"\bdyn\b|impl Fn|: Fn"],
}
KEYWORDS = {"fn", "let", "mut", "if", "else", "match", "for", "in", "return", "self", "Ok", "Err", "Some", "None", "true", "false"}


def git(*words):
    return subprocess.run(["git", *words], capture_output=True, text=True, check=True).stdout


def sources(commit):
    listed = git("ls-tree", "-r", "--name-only", commit, "crates") if commit else git("ls-files", "-co", "--exclude-standard", "crates")
    for name in sorted(set(listed.split())):
        if re.fullmatch(r"crates/\w+/src/.*\.rt", name):
            try:
                yield name.removeprefix("crates/"), git("show", f"{commit}:{name}") if commit else open(name).read()
            except FileNotFoundError:
                pass  # deleted, and not committed yet


def parenthesis_at(text, start):
    """What stands between the parentheses that open at `start`, and what follows them."""
    depth = 0
    for at in range(start, len(text)):
        depth += {"(": 1, ")": -1}.get(text[at], 0)
        if depth == 0:
            return text[start + 1 : at], text[at:]
    return "", ""


def functions(text):
    """Of each function its name, its parameters but for self and rt, the facts it requires, and its body."""
    for found in re.finditer(r"^( *)(?:pub(?:\(\w+\))? )?fn (\w+)(?:<[^(]*>)?(?=\()", text, flags=re.MULTILINE):
        inside, rest = parenthesis_at(text, found.end())
        parameters = [part.strip() for part in re.split(r",(?![^(<\[]*[)>\]])", inside)]
        head, mark, tail = re.split(r"(^\s*\{|\{$|\{\}$|;$)", rest, maxsplit=1, flags=re.MULTILINE)
        # a trait's function may have none
        body = "" if mark == ";" else re.split(rf"^{found.group(1)}\}}", tail, maxsplit=1, flags=re.MULTILINE)[0]
        yield (
            found.group(2),
            [part for part in parameters if part and "self" not in part and not part.startswith("rt:")],
            re.findall(r"^\s+requires(?: \w+)? \{ (.*) \}$", head, flags=re.MULTILINE),
            body,
        )


def shape(body):
    """The body as a row of tokens in which every name, and every number, is like every other."""
    tokens = re.findall(r"\w+|[^\w\s]", re.sub(r"//.*", "", body))
    return tuple("n" if re.match(r"\w", token) and token not in KEYWORDS else token for token in tokens)


def show(title, rows, listing):
    print(f"{title}: {len(rows)}")
    if listing:
        print("".join(f"    {row}\n" for row in rows), end="")


def main():
    commit = next((word for word in sys.argv[1:] if not word.startswith("--")), None)
    listing = "--list" in sys.argv
    texts = list(sources(commit))
    for question, patterns in LINES.items():
        rows = [
            f"{name}:{number}: {line.strip()}"
            for name, text in texts
            for number, line in enumerate(text.splitlines(), 1)
            if any(re.search(pattern, line.split("//")[0]) for pattern in patterns)
        ]
        show(question, rows, listing)
    alike, together, facts = defaultdict(list), defaultdict(list), defaultdict(list)
    for name, text in texts:
        crate = name.split("/")[0]
        for function, parameters, needs, body in functions(text):
            if len(shape(body)) >= 12:
                alike[shape(body)].append(f"{name} {function}")
            for i, first in enumerate(parameters):
                for second in parameters[i + 1 :]:
                    together[f"{crate}: {first}, {second}"].append(function)
            for need in needs:
                # the same fact about another variable is the same fact
                facts[f"{crate}: " + re.sub(r"\b\w+(\.now|\.old|\.new)?(?= [<≤≡])", "_", need)].append(function)
    show("functions of one shape", [", ".join(group) for group in alike.values() if len(group) > 1], listing)
    show("facts that three or more functions require", [f"{fact}: {', '.join(group)}" for fact, group in sorted(facts.items()) if len(group) > 2], listing)
    show("two parameters together in three or more functions", [f"{pair}: {', '.join(group)}" for pair, group in sorted(together.items()) if len(group) > 2], listing)


main()
