#!/usr/bin/env python3
"""Lists places in crates/*/src/*.rt that may read like an older language, point by point.

    python3 tools/places.py [COMMIT]

Without a commit it reads the work tree. A row is a place to look at, not a verdict: docs/DESIGN-PASS.md says what became of
each. Comments are dropped before anything is looked for; contracts are read only for point 5.
"""
import collections
import glob
import re
import subprocess
import sys


def sources(commit):
    """The text of each source file, by its name, without comments."""
    if commit:
        names = subprocess.run(["git", "ls-tree", "-r", "--name-only", commit, "crates"], capture_output=True, text=True,
                               check=True).stdout.split()
        names = [n for n in names if re.fullmatch(r"crates/\w+/src/.*\.rt", n)]
        texts = {n: subprocess.run(["git", "show", f"{commit}:{n}"], capture_output=True, text=True, check=True).stdout
                 for n in names}
    else:
        texts = {n: open(n, encoding="utf8").read() for n in sorted(glob.glob("crates/*/src/**/*.rt", recursive=True))}
    return {n: re.sub(r"//.*", "", t) for n, t in texts.items()}


def block(text, at):
    """From a place to the end of the first braced block behind it."""
    depth = 0
    for i in range(text.index("{", at), len(text)):
        depth += {"{": 1, "}": -1}.get(text[i], 0)
        if depth == 0:
            return text[at:i + 1]
    return text[at:]


CLAUSE = re.compile(r"^ *(requires|ensures|ghost)\b.*$", re.M)


def functions(text):
    """Each function with a body: its line, name, parameters, contract and body."""
    for m in re.finditer(r"\bfn (\w+)(<[^(]*>)?\(", text):
        depth, i = 1, m.end()
        while depth:
            depth += {"(": 1, ")": -1}.get(text[i], 0)
            i += 1
        params = [" ".join(p.split()) for p in re.split(r",(?![^<(\[]*[>)\]])", text[m.end():i - 1]) if p.strip()]
        head = re.match(r"[^{;]*?(?=\n\s*(?:requires|ensures|ghost)\b|\{|;)", text[i:], re.S).group(0)
        rest = i + len(head)
        contract = re.match(r"(\s*(?:requires|ensures)\b[^\n]*)*", text[rest:]).group(0)
        rest += len(contract)
        start = re.match(r"\s*\{", text[rest:])
        if start:
            yield text[:m.start()].count("\n") + 1, m.group(1), params, contract, block(text, rest + start.start())


def matches(texts, pattern):
    for name, text in texts.items():
        code = CLAUSE.sub("", text)
        for m in re.finditer(pattern, code, re.M):
            line = code[:m.start()].count("\n") + 1 + len(m.group(0)) - len(m.group(0).lstrip("\n"))
            yield f"{name}:{line}", " ".join(m.group(0).split())


def loops(texts):
    """Loops that count, search, fill or take an index by hand: by a range, a counter, an early return or a push."""
    for name, text in texts.items():
        code = CLAUSE.sub("", text)
        for m in re.finditer(r"^ *(?:for|while|loop)\b", code, re.M):
            whole = block(code, m.start())
            head, body = whole.split("{", 1)
            why = [w for w, p in (("range", r"\bfor (?!_ ).*\.\."), ("while", r"\bwhile (?!let)")) if re.search(p, head)]
            why += [w for w, p in (("counter", r"\+= "), ("search", r"\breturn\b"), ("fill", r"\.(push|insert)\w*\("))
                    if re.search(p, body)]
            if why:
                yield f"{name}:{code[:m.start()].count(chr(10)) + 1}", f"{' '.join(head.split())} ({', '.join(why)})"


def shape(body):
    """The steps of a body: its keywords and braces, with each expression as one mark."""
    keep = r"for|in|if|else|match|return|while|loop|let|true|false|Some|None|Ok|Err|\?|[{};]|=>"
    words = re.findall(r"\"[^\"]*\"|=>|\w+|[^\w\s]", body)
    marks = [w if re.fullmatch(keep, w) else "_" for w in words]
    return " ".join(w for i, w in enumerate(marks) if w != "_" or i == 0 or marks[i - 1] != "_")


def twins(texts):
    """Functions of one shape: the same steps, with other expressions in them."""
    alike = collections.defaultdict(list)
    for name, text in texts.items():
        for line, fn, _, _, body in functions(text):
            if re.search(r"\b(for|match|if|while)\b", body) or body.strip("{} \n").isdigit():
                alike[shape(body)].append(f"{name}:{line} {fn}")
    return [(places[0].split()[0], " = ".join(p.split()[-1] for p in places)) for places in alike.values() if len(places) > 1]


def together(texts):
    """Facts asked by three or more functions of a crate, and two or more parameters that three or more take."""
    crates = collections.defaultdict(list)
    for name, text in texts.items():
        crates[name.split("/")[1]] += list(functions(text))
    for crate, fns in crates.items():
        facts = collections.defaultdict(set)
        pairs = collections.defaultdict(set)
        for _, fn, params, contract, _ in fns:
            for fact in re.findall(r"requires(?: \w+)? \{ (.*) \}", contract):
                facts[re.sub(r"\b\w+\.(now|old)\b|\b[a-z]\b", "_", fact)].add(fn)
            plain = [p for p in params if "self" not in p and not p.startswith(("heap", "rt", "f:"))]
            for i, p in enumerate(plain):
                for q in plain[i + 1:]:
                    pairs[p, q].add(fn)
        for what, where in list(facts.items()) + [(", ".join(k), v) for k, v in pairs.items()]:
            if len(where) > 2:
                yield f"crates/{crate}", f"{what}: {', '.join(sorted(where))}"


def places(texts):
    code = {n: t for n, t in texts.items() if not n.startswith(("crates/trials/", "crates/exercises/"))}
    yield "1 numbers for kinds and refusals", list(matches(
        code, r"^.*\bconst [A-Z]+: u8 = 0x.*$|^.*\b(?:fault_of|refusal)\([^()]*\b\d\d\b.*$|^ *\d\d => \".*$"
              r"|^ *(?:pub(?:\(crate\))? )?(?:layer|number): (?:u8|\d+),$|^.*\bif tag == [A-Z]+ \{$"))
    yield "1 own two-case enums, values beside a flag", list(matches(
        code, r"enum \w+(?:<[^>]*>)? \{\s*\w+(?:\([^)]*\)| \{[^}]*\})?,\s*\w+(?:\([^)]*\)| \{[^}]*\})?,?\s*\}|-> \((?:bool, .*|.*, bool)\)"))
    yield "2 functions of one shape", twins(code)
    yield "3 loops by hand", list(loops(texts))
    yield "4 copies, conversions and text by hand", list(matches(
        code, r"^.*-> Result<String, AllocError>$|^\) -> Result<String, AllocError>$|^.*-> &'static str$|^.*\bfn \w*cop(?:y|ies)\w*\(.*$"
              r"|^.*\bfn \w+_bytes\(.*$|^.*\bfn read_\w+(?:<[^>]*>)?\(.*$|^ *\w+(?:::\w+)? => true,$|^ *(?:None => Ok\(None\)|Ok\(_\) => None|None => Ok\(\(\)\)),$"
              r"|^.*\bfn joined\(.*$|^ *_ => r,$|^ *other => other,$"))
    yield "5 facts and parameters that go together", list(together(code))
    yield "6 buffers, places and sorted lists by hand", list(matches(
        code, r"^.*\.(?:swap|truncate|copy_from_slice)\(.*$|^.*\brank\((?!codes: ).*$|^.*\bput_bytes\(.*$|^.*\b\w+\[i(?: \+ 1)?\].*$|^.*\bsrc\[.*$"))
    yield "7 switches on a step, tables of functions", list(matches(code, r"^.*\bfn\(.*$|^.*\bdyn\b.*$"))


def main():
    commit = sys.argv[1] if len(sys.argv) > 1 else None
    for point, found in places(sources(commit)):
        print(f"{point}: {len(found)}")
        for where, what in found:
            print(f"    {where}  {what}")


main()
