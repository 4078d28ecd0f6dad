#!/usr/bin/env python3
"""Brings the definitions and lemmas of this repository to the library's spelling, once, after port.py.

usage: python3 tools/respell.py [--list]      at the top of the checkout

A name with dashes that begins with a capital loses them (Hosts-and-balls becomes HostsAndBalls); any
other name that the repository itself declares, with or without a `let`, gets underscores in their
place. Names of the library, names that Rattle makes (goals, invariants, steps), comments and strings
stay. With --list it writes nothing and prints each old and new name.
"""

import glob
import os
import re
import sys

ID = r"[^\s(){}\[\];,.:@|]+"
TOKEN = re.compile(rf"«[^»]*»|{ID}|.", re.S)
DASHED = re.compile(r"\w'*-'*\w")
MADE = re.compile(r"(invariant|decreases)-")
CODE = re.compile(r'"(?:[^"\\]|\\.)*"|//[^\n]*|(?s:.)')


def antt():
    return [f for f in sorted(glob.glob("crates/*/*/**/*.antt", recursive=True)) if "/out/" not in f]


def cut(line):
    """A line of antt as text and comment."""
    m = re.search(r"(?:^|\s)--(?:\s|$)", line)
    return (line[: m.start()], line[m.start() :]) if m else (line, "")


def declared():
    names = set()
    for path in antt():
        with open(path, encoding="utf-8") as f:
            for line in f:
                text = cut(line.rstrip("\n"))[0]
                if text.startswith("use "):
                    continue
                found = re.findall(rf"\blet ({ID}) [:=]", text)
                m = re.match(rf"^\s*(?:\|\s)?(?:(?:pub|abbrev|unfoldable|data|record) )*({ID})(?: .*)? :(?:\s|$)", text)
                if m and not re.search(r" : (goal|given)\.", text):
                    found.append(m.group(1))
                found += re.findall(r"([^\s◌]+)", found[-1].replace("◌", " ")) if found and "◌" in found[-1] else []
                for binder in re.findall(r"[({]((?:[^\s(){}:.]+ )+): ", text):
                    found += binder.split()
                names.update(n for n in found if DASHED.search(n) and not MADE.match(n))
    return names


def turned(name):
    if name[0].isupper():
        head, *rest = name.split("-")
        return head + "".join(w[0].upper() + w[1:] for w in rest)
    return name.replace("-", "_")


def words(text, new):
    """The text with each own name turned, whole or as a part of an operator."""

    def one(token):
        if "◌" in token:
            return "◌".join(new.get(p, p) for p in token.split("◌"))
        return new.get(token, token)

    return "".join(one(t) for t in TOKEN.findall(text))


def in_antt(text, new):
    return "\n".join(words(a, new) + b for a, b in map(cut, text.split("\n")))


def in_code(text, new):
    out, run = [], []
    for m in CODE.finditer(text):
        t = m.group(0)
        if len(t) > 1 and (t[0] == '"' or t.startswith("//")):
            out += [words("".join(run), new), t]
            run = []
        else:
            run.append(t)
    return "".join(out) + words("".join(run), new)


def in_edit(text, new):
    return "\n".join(words(l, new) if re.match(r"(old|new): ", l) else l for l in text.split("\n"))


def main(argv):
    new = {n: turned(n) for n in declared()}
    if argv == ["--list"]:
        print("\n".join(f"{n} {new[n]}" for n in sorted(new)))
        return
    code = [f for f in sorted(glob.glob("crates/*/src/**/*.rt", recursive=True))]
    edits = sorted(glob.glob("crates/*/must-fail/*.edit"))
    for paths, turn in ((antt(), in_antt), (code, in_code), (edits, in_edit)):
        for path in paths:
            with open(path, encoding="utf-8", newline="") as f:
                was = f.read()
            now = turn(was, new)
            if now != was:
                with open(path, "w", encoding="utf-8", newline="") as f:
                    f.write(now)


if __name__ == "__main__":
    if not os.path.isdir("crates"):
        sys.exit("respell: run it at the top of the checkout")
    main(sys.argv[1:])
