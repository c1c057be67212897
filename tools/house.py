#!/usr/bin/env python3
"""Counts, crate by crate, what CONTRIBUTING.md asks of code and proofs and what can be counted.

    tools/house.py            prints a row a crate, and how much stands in two crates or more
    tools/house.py NAME..     prints the places as well, for these crates
    tools/house.py --twins    prints what stands in two crates or more, with its places

lines      source lines, without tests              functions  `fn` items, without tests
tiny       source files of at most 20 lines         headless   source files that do not begin with `//!`
wide       lines past 120 columns, `use` lines apart
ordinals   lines of proofs that cite a name which the toolchain made up and numbered
uncited    lemmas of proofs/ that nothing cites     flat       files side by side in the fullest folder of proofs/
edits      edits that must fail
twins      statements that lemmas in proofs/ of two crates or more have, whatever blanks they have and variables are called:
           under one name, or under several where the statement begins with its variables
words      names that definitions in specs/ of two crates or more have

It fails where more twins or words stand than MOST says. Whoever removes some lowers the number with them.
"""

import os
import re
import sys
from collections import Counter, defaultdict

CRATES = os.path.join(os.path.dirname(os.path.dirname(os.path.abspath(__file__))), "crates")
ANSWERS = ("Answers.antt", "Invariants.antt", "Proof.antt")
USE = re.compile(r"\s*(pub |ghost )*use ")
WORD = re.compile(r"[^\s(){}\[\];,.λ@]+")
NUMBERED = re.compile(r"(?:\b(?:c|t|goal)\.[\w.-]*?[a-z_0-9]-\d+\b|\bfield-\d+\b|\bAfter-[\w-]+-\d+\b|\b[a-z_]+-requires-\d+\b)")
NUMBERED_GOAL = re.compile(r"(?:pub )?[\w-]*[a-z_0-9]-\d+(?:-[\w-]+)? :")
LEMMA = re.compile(r"(?:pub )?([^\s(){}:]+) :(?: |$)")
DEFINED = re.compile(r"(?:(?:pub|abbrev|unfoldable|data|record) )+([^\s(){}:]+)(?: [({:]| *$)")
BINDER = re.compile(r"(?<=[({])([^:(){}]+) : |(?<=λ )([^.]+)\.(?= )")
BODY = re.compile(r"\s+unfolding\b|\S")
MOST = {"twins": 1, "words": 144}


def files(crate, part, ending):
    for folder, folders, names in os.walk(os.path.join(CRATES, crate, part)):
        folders.sort()
        for name in sorted(names):
            if name.endswith(ending):
                yield os.path.join(folder, name)


def lines(path):
    with open(path, encoding="utf-8") as file:
        return file.read().splitlines()


def is_test(path):
    return "/tests/" in path or path.endswith("/tests.rt")


def words_of_all():
    """Returns how often each word stands in the repository, at the beginnings of lines apart from elsewhere."""
    cited, begun = Counter(), Counter()
    for crate in os.listdir(CRATES):
        for part, ending in (("src", ".rt"), ("specs", ".antt"), ("proofs", ".antt")):
            for path in files(crate, part, ending):
                for line in lines(path):
                    words = WORD.findall(line)
                    cited.update(word.rsplit("::", 1)[-1] for word in words)
                    if line[:1].strip() and words:
                        begun[words[1] if words[0] == "pub" and len(words) > 1 else words[0]] += 1
    return cited, begun


def lemmas(crate):
    for path in files(crate, "proofs", ".antt"):
        if os.path.basename(path) not in ANSWERS:
            for number, line in enumerate(lines(path), 1):
                found = LEMMA.match(line)
                if found and found[1] not in ("mod", "use", "--"):
                    yield path, number, found[1]


def statements(crate):
    """Yields the lemmas of a crate's proofs/, each with its place and its statement."""
    for path, number, name in lemmas(crate):
        first, *more = lines(path)[number - 1:]
        end = next((at for at, line in enumerate(more) if BODY.match(line)), len(more))
        text = [first.split(" :", 1)[1]] + [line for line in more[:end] if not line.lstrip().startswith("--")]
        yield path, number, name, " ".join(" ".join(text).split())


def definitions(crate):
    for path in files(crate, "specs", ".antt"):
        for number, line in enumerate(lines(path), 1):
            found = DEFINED.match(line)
            if found:
                yield path, number, found[1]


def with_numbers(statement):
    """Puts numbers in place of a statement's variables, in the order in which they come."""
    number = {}
    for found in BINDER.finditer(statement):
        for name in (found[1] or found[2]).split():
            number.setdefault(name, f"#{len(number)}")
    return WORD.sub(lambda word: number.get(word[0], word[0]), statement)


def crates_of(places):
    return {os.path.relpath(path, CRATES).split(os.sep)[0] for path, *_ in places}


def stated_twice(crates):
    """Returns the statements that stand in two crates or more, each with its places."""
    places = defaultdict(list)
    for crate in crates:
        for path, number, name, statement in statements(crate):
            lemma = statement if statement[:1] in ("(", "{") else f"{name} : {statement}"
            places[with_numbers(lemma)].append((path, number, f"{name} : {statement}"))
    return {it: at for it, at in places.items() if len(crates_of(at)) > 1}


def defined_twice(crates):
    """Returns the names that are defined in two crates or more, each with its places."""
    places = defaultdict(list)
    for crate in crates:
        for path, number, name in definitions(crate):
            places[name].append((path, number, name))
    return {it: at for it, at in places.items() if len(crates_of(at)) > 1}


def shared(crates, with_places):
    """Prints how much stands in two crates or more, and returns whether any of it is more than MOST."""
    found = {"twins": stated_twice(crates), "words": defined_twice(crates)}
    for kind, all in found.items():
        print(f"{kind}: {len(all)}, at most {MOST[kind]}")
        for places in all.values() if with_places else ():
            print(f"    {places[0][2]}")
            for path, number, what in places:
                print(f"        {os.path.relpath(path, CRATES)}:{number}  {what.split(' :')[0]}")
    return any(len(all) > MOST[kind] for kind, all in found.items())


def count(crate, cited, begun):
    """Returns the counts of a crate, and the places behind them."""
    counts, places = Counter(), []

    def note(kind, path, number=None, more=""):
        counts[kind] += 1
        places.append((kind, os.path.relpath(path, CRATES), number, more))

    for path in files(crate, "src", ".rt"):
        text = lines(path)
        if not is_test(path):
            counts["lines"] += len(text)
            counts["functions"] += sum(bool(re.match(r"\s*(pub(\([a-z]+\))? )?(const )?fn ", it)) for it in text)
            if len(text) <= 20:
                note("tiny", path)
            if not text or not text[0].startswith("//!"):
                note("headless", path)
    for part, ending in (("src", ".rt"), ("specs", ".antt"), ("proofs", ".antt")):
        for path in files(crate, part, ending):
            for number, line in enumerate(lines(path), 1):
                if len(line) > 120 and not USE.match(line):
                    note("wide", path, number)
                numbered = NUMBERED.search(line) or (os.path.basename(path) in ANSWERS and NUMBERED_GOAL.match(line))
                if part == "proofs" and numbered and not USE.match(line):
                    note("ordinals", path, number, line.strip()[:80])
    for path, number, name in lemmas(crate):
        if cited[name] <= begun[name]:
            note("uncited", path, number, name)
    folders = Counter(os.path.dirname(it) for it in files(crate, "proofs", ".antt"))
    counts["flat"] = max(folders.values(), default=0)
    counts["edits"] = sum(it.endswith(".edit") for _, _, all in os.walk(os.path.join(CRATES, crate, "must-fail")) for it in all)
    return counts, places


def table(crates, chosen):
    """Prints a row a crate, and behind those that are chosen the places."""
    kinds = ("lines", "functions", "tiny", "headless", "wide", "ordinals", "uncited", "flat", "edits")
    cited, begun = words_of_all()
    total = Counter()
    print("| crate | " + " | ".join(kinds) + " |\n|---" + "|---" * len(kinds) + "|")
    for crate in crates:
        counts, places = count(crate, cited, begun)
        total.update(counts)
        print(f"| `{crate}` | " + " | ".join(str(counts[it]) for it in kinds) + " |")
        if crate in chosen:
            for kind, path, number, more in places:
                print(f"    {kind:9} {path}{f':{number}' if number else ''}  {more}")
    print("| all | " + " | ".join(str(total[it]) if it != "flat" else "" for it in kinds) + " |")


def main():
    crates = sorted(it for it in os.listdir(CRATES) if os.path.isdir(os.path.join(CRATES, it, "src")))
    with_places = "--twins" in sys.argv[1:]
    if not with_places:
        table(crates, sys.argv[1:])
    return shared(crates, with_places)


sys.exit(main())
