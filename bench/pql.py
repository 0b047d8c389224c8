"""All lists of a dozen tokens up to a length, at several places of a query, read by the reader of PQL and by a plain slow one.

Usage: pql.py RT [LENGTH]
RT is the command of that name; the length is 5 if none is given: 1.6 million lists, with 6 it is 20 million. A program of a few lines, whose
text stands below, is proved and built by `rt run` in a folder of its own, over copies of the crates here and of the libraries that `rt` has
built of them. It tells of each line what reading it tells. The slow reader knows nothing of the machine of pql_machine: it keeps all lists
of symbols that may still follow, puts for a form each of its spellings, and drops the lists that go on with another token. Prints how many
texts there are at each place, how many of them are queries, and each text that is told otherwise.
"""
import itertools
import os
import shutil
import subprocess
import sys
import tempfile
import time

WORDS = {
    "w": "nodes", "c": "count", "1": "10", "t": "'x'", "#": "!=", "a": "and", "o": "or", "i": "in", "s": "is", "k": "not",
    "n": "null", "g": "group", "r": "order", "b": "by", "u": "asc", "d": "desc", "l": "limit", "f": "offset",
}

# The forms, in capital letters, and their spellings.
GRAMMAR = {
    # a query
    "Q": ["W{FP}", "W[C]{FG}"],
    "W": ["w", "c"],
    # columns; behind a column `count`; behind a function of that name
    "C": ["w", "w,C", "c", "c,D", "c()", "c(),E", "c(W)", "c(W),E"],
    "D": ["w", "w,D", "c", "c,D"],
    "E": ["w", "w,E"],
    # a filter or none, and what is joined
    "F": ["", "O"],
    "O": ["A", "AoO"],
    "A": ["N", "NaA"],
    "N": ["!N", "X"],
    # conditions
    "X": ["(O)", "W{F}", "W=V", "W#V", "W~t", "Wsn", "Wskn", "WiR", "[S]iR"],
    "V": ["1", "t"],
    "R": ["[L]", "W[C]{FG}"],
    "L": ["V", "V,L"],
    "S": ["W", "W,S"],
    # groups and paging
    "G": ["gbSP", "P"],
    "P": ["rbKM", "M"],
    "K": ["WY", "WY,K"],
    "Y": ["", "u", "d"],
    "M": ["l1Z", "Z"],
    "Z": ["f1", ""],
}

# What stands before, a dozen tokens, and what stands behind.
PLACES = [
    ("", "wc1{}[]()!=o", ""),
    ("w{", "w1=!()aoi[]{", "}"),
    ("w[", "wct1(),]{[gb", "]{}"),
    ("w{wi", "wc1t,[]{}()a", "}"),
    ("w[w]{w=1", "wg,brudlf1a}", "}"),
    ("w{w", "wt1=#~skn{}o", "}"),
]

# A line is `query`, be it one that no tables can be asked, or the place of the bad token.
PROGRAM = """
#![tactic(auto)]

use anyhow::Result;
use pql_reader::{PqlFault, read_pql};
use std::alloc::{AllocError, Global};
use std::io;
use std::io::{BufRead, BufReader, BufWriter, Write};

fn told(alloc: Global, text: &[u8]) -> Result<String, AllocError> {
    match read_pql(alloc, text) {
        Err(PqlFault::PqlBad { at }) => format!(in alloc; "{at}"),
        Err(PqlFault::TooLong) | Err(PqlFault::Memory) => String::from_str(alloc, "unread"),
        _ => String::from_str(alloc, "query"),
    }
}

fn main(rt: HostRuntime) -> Result<()> {
    let alloc = rt.alloc();
    let mut out = BufWriter::new(alloc, io::writer(&rt))?;
    for line in BufReader::new(alloc, rt.reader())?.lines(alloc) {
        let line = line?;
        let answer = told(alloc, line.as_str().as_bytes())?;
        writeln!(out, "{answer}")?;
    }
    out.flush()?;
    Ok(())
}
"""


def crates_below(lines, name, found):
    for below in lines.get(name, []):
        crates_below(lines, below, found)
    if name in lines and name not in found:
        found.append(name)
    return found


def built(rt, folder):
    """The program, built in the folder."""
    top = os.path.dirname(os.path.dirname(os.path.abspath(__file__)))
    with open(f"{top}/crates.txt") as file:
        heads = (line.split(":") for line in file if ":" in line and not line.startswith("#"))
        lines = {head.split()[0]: names.split() for head, names in heads}
    lines["pql_lists"] = ["pql_reader", "anyhow", "jiff", "jiff_core"]
    needed = crates_below(lines, "pql_lists", [])
    with open(f"{folder}/crates.txt", "w") as file:
        file.writelines(f"{name}: {' '.join(lines[name])}\n" for name in needed)
    for name in needed[:-1]:
        for part in ("src", "specs", "proofs", "out/rlib"):
            if os.path.isdir(f"{top}/crates/{name}/{part}"):
                shutil.copytree(f"{top}/crates/{name}/{part}", f"{folder}/crates/{name}/{part}")
    own = f"{folder}/crates/pql_lists"
    os.makedirs(f"{own}/src")
    with open(f"{own}/src/main.rt", "w") as file:
        file.write(PROGRAM.lstrip())
    subprocess.run([rt, "run"], cwd=own, stdin=subprocess.DEVNULL, stdout=subprocess.DEVNULL, check=True)
    return f"{own}/out/pql_lists"


def spelt(lists):
    """The lists with the spellings of their first forms, so that each begins with a token or is empty."""
    found, left = set(), list(lists)
    while left:
        symbols = left.pop()
        if symbols and symbols[0] in GRAMMAR:
            left.extend(form + symbols[1:] for form in GRAMMAR[symbols[0]])
        else:
            found.add(symbols)
    return found


class Slow:
    """The slow reader. What it found once it keeps."""

    def __init__(self):
        self.steps = {}
        self.whole = {}

    def behind(self, lists, token):
        """What may follow behind the token."""
        key = lists, token
        if key not in self.steps:
            self.steps[key] = frozenset(symbols[1:] for symbols in spelt(lists) if symbols[:1] == token)
        return self.steps[key]

    def is_whole(self, lists):
        if lists not in self.whole:
            self.whole[lists] = "" in spelt(lists)
        return self.whole[lists]

    def step(self, front, tokens):
        """A front with some tokens more: its text, what may follow, and the place of the first token with which no query goes on."""
        text, lists, bad = front
        for token in tokens:
            if bad is None:
                lists = self.behind(lists, token)
                bad = None if lists else len(text) + 1
            text += " " + WORDS.get(token, token)
        return text, lists, bad

    def fronts(self, front, dozen, size):
        """The front with each list of so many of the tokens."""
        if size == 0:
            yield front
        else:
            for token in dozen:
                yield from self.fronts(self.step(front, token), dozen, size - 1)

    def answers(self, place, size):
        """Each text with that many tokens of the place's dozen, and what is to be told of it."""
        before, dozen, behind = place
        for front in self.fronts(self.step(("", frozenset(["Q"]), None), before), dozen, size):
            text, lists, bad = self.step(front, behind)
            if bad is None and self.is_whole(lists):
                yield text, "query"
            else:
                yield text, str(len(text) if bad is None else bad)


def told_otherwise(program, texts):
    lines = "".join(text + "\n" for text, _ in texts)
    answers = subprocess.run([program], input=lines, capture_output=True, text=True, check=True).stdout.split("\n")[:-1]
    assert len(answers) == len(texts)
    return [(text, wanted, found) for (text, wanted), found in zip(texts, answers) if found != wanted]


def main():
    rt = sys.argv[1]
    length = int(sys.argv[2]) if len(sys.argv) > 2 else 5
    slow, otherwise = Slow(), 0
    with tempfile.TemporaryDirectory() as folder:
        program = built(rt, folder)
        start = time.time()
        for place in PLACES:
            count = queries = 0
            answers = itertools.chain.from_iterable(slow.answers(place, size) for size in range(length + 1))
            while texts := list(itertools.islice(answers, 100_000)):
                for text, wanted, found in told_otherwise(program, texts):
                    otherwise += 1
                    print("told otherwise:", text, wanted, found)
                count += len(texts)
                queries += sum(answer == "query" for _, answer in texts)
            front = slow.step(("", frozenset(["Q"]), None), place[0])[0].strip() or "a whole text"
            print(f"{front:24} {count:,} texts, {queries:,} queries", flush=True)
    print(f"{otherwise:,} told otherwise, {time.time() - start:.0f} seconds")
    return 1 if otherwise else 0


if __name__ == "__main__":
    sys.exit(main())
