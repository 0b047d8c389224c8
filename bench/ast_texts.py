"""The documented queries of the AST, and texts made of them, read by the reader of the AST and by a plain slow one.

Usage: ast_texts.py RT [COUNT]
RT is the command of that name; COUNT is the number of texts with two changes, 200,000 if none is given. A program of a few lines, whose text
stands below, is proved and built by `rt run` in a folder of its own, over copies of the crates here and of the libraries that `rt` has built
of them. Of each line it tells what reading it as a query tells, and what reading it as the filter or extract of each entity's route tells.
The slow reader has the forms as a table. A value is refused where no form that is left has its kind, its head word and its number of
elements. Of the checks it collects all places and takes the least. Each text is a documented query or one of those below, with no change, one
change at each place, or two by chance: another value in place of one, an element that goes, comes twice or changes places. Prints how many
texts were told what, and each text that is told otherwise.
"""
import json
import os
import random
import re
import shutil
import subprocess
import sys
import tempfile
import time
from collections import Counter

from pql import crates_below

PROGRAM = """
#![tactic(auto)]

use anyhow::Result;
use ast_reader::fleet_rows::Entity;
use ast_reader::query_spec::Path;
use ast_reader::{AstFault, read_ast, read_filter};
use std::alloc::{AllocError, Global};
use std::io;
use std::io::{BufRead, BufReader, BufWriter, Write};

fn placed(alloc: Global, words: &str, path: &Path) -> Result<String, AllocError> {
    let mut text = String::from_str(alloc, words)?;
    for number in path.as_slice() {
        let step = format!(in alloc; ".{number}")?;
        text.push_str(step.as_str())?;
    }
    Ok(text)
}

fn told(alloc: Global, fault: &AstFault) -> Result<String, AllocError> {
    match fault {
        AstFault::NotQuery(path) => placed(alloc, "not a query ", path),
        AstFault::UnknownEntity(path) => placed(alloc, "unknown entity ", path),
        AstFault::UnknownField(path) => placed(alloc, "unknown field ", path),
        AstFault::BadOperand(path) => placed(alloc, "bad operand ", path),
        _ => String::from_str(alloc, "unread"),
    }
}

fn query(alloc: Global, text: &[u8]) -> Result<String, AllocError> {
    match read_ast(alloc, text) {
        Ok(_query) => String::from_str(alloc, "query"),
        Err(fault) => told(alloc, &fault),
    }
}

fn route(alloc: Global, entity: Entity, text: &[u8]) -> Result<String, AllocError> {
    match read_filter(alloc, entity, text) {
        Ok(_query) => String::from_str(alloc, "query"),
        Err(fault) => told(alloc, &fault),
    }
}

fn main(rt: HostRuntime) -> Result<()> {
    let alloc = rt.alloc();
    let mut out = BufWriter::new(alloc, io::writer(&rt))?;
    for line in BufReader::new(alloc, rt.reader())?.lines(alloc) {
        let line = line?;
        let text = line.as_str().as_bytes();
        let whole = query(alloc, text)?;
        let nodes = route(alloc, Entity::Nodes, text)?;
        let resources = route(alloc, Entity::Resources, text)?;
        writeln!(out, "{whole}|{nodes}|{resources}")?;
    }
    out.flush()?;
    Ok(())
}
"""

# ---- the forms

# A form is the name of others, "text", "number", "count", "bool", words of which a text is one, or a list: its head word or None, the kinds of
# its elements, and the kind of all further ones or None. The head word SELECT is any that begins with `select_`.
SELECT = "select_"
FORMS = {
    "query": [("from", ["text"], None), ("from", ["text", "body"], "part")],
    "body": ["filter", "extract", "part"],
    "part": [("limit", ["count"], None), ("offset", ["count"], None), ("order_by", ["orders"], None)],
    "orders": [(None, ["order"], "order")],
    "order": ["text", (None, ["text", {"asc", "desc"}], None)],
    "extract": [("extract", ["shown"], None), ("extract", ["shown", "filter or group"], None), ("extract", ["shown", "filter", "group"], None)],
    "filter or group": ["filter", "group"],
    "group": [("group_by", ["text"], "text")],
    "shown": ["text", (None, ["output"], "output")],
    "output": ["text", ("function", [{"count"}], None), ("function", [{"count", "sum", "min", "max"}, "text"], None)],
    "filter": [
        ("and", ["filter"], "filter"), ("or", ["filter"], "filter"), ("not", ["filter"], None),
        *((op, ["field", "literal"], None) for op in ("=", "<", "<=", ">", ">=")),
        ("~", ["field", "text"], None), ("null?", ["field", "bool"], None), ("in", ["columns", "inner"], None),
        ("subquery", ["text"], None), ("subquery", ["text", "filter"], None),
    ],
    "columns": ["text", (None, ["text"], "text")],
    "inner": [("extract", ["columns", "select"], None), ("from", ["text", "extract"], "part"), ("array", ["literals"], None)],
    "select": [(SELECT, [], None), (SELECT, ["filter"], None)],
    "literals": [(None, ["literal"], "literal")],
    "literal": ["text", "number", "bool"],
    "field": ["text", ("parameter", ["text"], None), ("fact", ["text"], None)],
    "route": ["filter", "extract"],
}


class Num(str):
    """A number as it is spelt."""


def leaves(kind, deep):
    """The forms of a kind; a filter that is too deep has none."""
    if isinstance(kind, set) or isinstance(kind, tuple) or kind not in FORMS:
        return [kind]
    if kind == "filter" and deep:
        return []
    return [leaf for form in FORMS[kind] for leaf in leaves(form, deep)]


def fits(form, value):
    """Whether the value has the form's kind, and of a list the head word and the number of elements."""
    if isinstance(form, tuple):
        head, kinds, rest = form
        if not isinstance(value, list):
            return False
        elements = value
        if head is not None:
            if not value or type(value[0]) is not str:
                return False
            if not (value[0].startswith(SELECT) if head == SELECT else value[0] == head):
                return False
            elements = value[1:]
        return len(elements) == len(kinds) or (rest is not None and len(elements) > len(kinds))
    if isinstance(form, set):
        return type(value) is str and value in form
    if form == "count":
        return type(value) is Num and re.fullmatch("[0-9]+", value) is not None and int(value) < 2**63
    return type(value) is {"text": str, "number": Num, "bool": bool}[form]


def output_name(value):
    """The name of an output and whether it is a function's, if it has one."""
    if type(value) is str:
        return value, False
    if any(fits(form, value) and type(value[1]) is str and value[1] in form[1][0] for form in FORMS["output"][1:]):
        return value[1], True
    return None


def stands_twice(kind, value, earlier):
    """Whether the element stands a second time where it may stand once."""
    if kind == "output" and (mine := output_name(value)):
        return any(theirs and theirs[0] == mine[0] and (theirs[1] or mine[1]) for theirs in map(output_name, earlier))
    if kind in ("part", "body") and isinstance(value, list) and value and value[0] in ("limit", "offset", "order_by"):
        return any(isinstance(part, list) and part[0] == value[0] for part in earlier)
    return False


def no_form(kind, value, place=(), depth=0, earlier=()):
    """The place of the first value that no form allows, that stands twice or that is a filter at depth 101, or None."""
    left = [form for form in leaves(kind, depth >= 100) if fits(form, value)]
    if not left or stands_twice(kind, value, earlier):
        return place
    if not isinstance(value, list):
        return None
    filters = {id(form) for form in FORMS["filter"]}
    inner = depth + 1 if any(id(form) in filters for form in left) else depth
    heads = 0 if left[0][0] is None else 1
    for number in range(heads, len(value)):
        kinds = [form[1][number - heads] if number - heads < len(form[1]) else form[2] for form in left]
        # the forms that are left have one kind there, but for an extract's filter or group
        kind_there = kinds[0] if all(other == kinds[0] for other in kinds) else "filter or group"
        fault = no_form(kind_there, value[number], (*place, number), inner, value[heads:number])
        if fault is not None:
            return fault
    return None


# ---- the checks

COLUMNS = {
    "nodes": "catalog_environment catalog_timestamp certname deactivated expired facts_environment facts_timestamp latest_report_hash latest_report_noop latest_report_status report_environment report_timestamp",
    "factsets": "certname environment facts hash producer producer_timestamp",
    "facts": "certname environment name value",
    "catalogs": "catalog_uuid certname code_id environment hash job_id producer producer_timestamp transaction_uuid version",
    "resources": "certname environment exported file line parameters resource tags title type",
    "edges": "certname relationship source_title source_type target_title target_type",
    "reports": "certname configuration_version end_time environment hash logs metrics noop producer producer_timestamp puppet_version receive_time report_format resources start_time status transaction_uuid",
}
COLUMNS = {entity: names.split() for entity, names in COLUMNS.items()}
STAMP = re.compile(r"(\d{4})-(\d\d)-(\d\d)[Tt](\d\d):(\d\d):(\d\d)(\.\d{1,9})?([Zz]|[+-](\d\d):(\d\d))", re.ASCII)


def is_stamp(text):
    found = STAMP.fullmatch(text)
    if not found:
        return False
    year, month, day, hour, minute, second = map(int, found.groups()[:6])
    if not (1 <= year <= 9900 and 1 <= month <= 12 and hour <= 23 and minute <= 59 and second <= 59):
        return False
    leap = year % 4 == 0 and (year % 100 != 0 or year % 400 == 0)
    days = 28 + leap if month == 2 else 30 if month in (4, 6, 9, 11) else 31
    return 1 <= day <= days and (found[9] is None or (int(found[9]) <= 23 and int(found[10]) <= 59))


def is_stamp_column(entity, name):
    return name in COLUMNS.get(entity, ()) and (name.endswith("_timestamp") or name in ("deactivated", "expired", "start_time", "end_time", "receive_time"))


class Checks:
    """All places of each kind of fault in a value that is a query."""

    def __init__(self):
        self.entities, self.fields, self.operands = [], [], []

    def column(self, entity, name, place):
        if name not in COLUMNS.get(entity, ()):
            self.fields.append(place)

    def field(self, entity, value, place):
        if isinstance(value, list):
            if entity != ("resources" if value[0] == "parameter" else "nodes"):
                self.fields.append((*place, 1))
        elif value == "tag":
            if entity != "resources":
                self.fields.append(place)
        elif value != "node_state":
            self.column(entity, value, place)

    def refuses(self, entity, op, field, literal):
        """Whether the comparison with the literal isn't allowed."""
        if field == "tag":
            return op != "=" or type(literal) is not str
        if field == "node_state":
            return op != "=" or type(literal) is not str or literal not in ("active", "inactive", "any")
        if type(field) is str and is_stamp_column(entity, field):
            return type(literal) is not str or not is_stamp(literal)
        return op != "=" and type(literal) is not Num

    def cell(self, value, place):
        if value in ("tag", "node_state"):
            self.operands.append(place)

    def columns(self, value, place):
        """The columns of one name or a list, with their places."""
        return [(name, (*place, number)) for number, name in enumerate(value)] if isinstance(value, list) else [(value, place)]

    def filter(self, entity, value, place):
        head = value[0]
        if head in ("and", "or", "not"):
            for number, inner in enumerate(value[1:], 1):
                self.filter(entity, inner, (*place, number))
        elif head == "subquery":
            self.level(value[1], (*place, 1), None, (), value[2:], (*place, 2), [], [])
        elif head == "in":
            left = self.columns(value[1], (*place, 1))
            for name, there in left:
                self.field(entity, name, there)
                self.cell(name, there)
            if len(left) != self.inner(entity, left[0][0], value[2], (*place, 2)):
                self.operands.append((*place, 2))
        else:
            self.field(entity, value[1], (*place, 1))
            if head in ("~", "null?"):
                self.cell(value[1], (*place, 1))
            elif self.refuses(entity, head, value[1], value[2]):
                self.operands.append((*place, 2))

    def inner(self, entity, field, value, place):
        """Checks the right side of `in`, and gives the number of its columns."""
        if value[0] == "array":
            self.operands.extend((*place, 1, number) for number, literal in enumerate(value[1]) if self.refuses(entity, "=", field, literal))
            return 1
        if value[0] == "from":
            return self.query(value, place)
        select = value[2]
        shown = [(name, False, there) for name, there in self.columns(value[1], (*place, 1))]
        self.level(select[0][len(SELECT):], (*place, 2, 0), shown, (), select[1:], (*place, 2, 1), [], [])
        return len({name for name, _, _ in shown})

    def query(self, value, place):
        body, start, parts = [], 2, value[2:]
        if parts and parts[0][0] not in ("limit", "offset", "order_by"):
            body, start, parts = parts[0], 3, parts[1:]
        orders = []
        for number, part in enumerate(parts, start):
            if part[0] == "order_by":
                for index, order in enumerate(part[1]):
                    there = (*place, number, 1, index)
                    orders.append((order[0], (*there, 0)) if isinstance(order, list) else (order, there))
        if body and body[0] == "extract":
            return self.extract(value[1], (*place, 1), body, (*place, 2), orders)
        self.level(value[1], (*place, 1), None, (), [body] if body else [], (*place, 2), [], orders)
        return len(COLUMNS.get(value[1], ()))

    def extract(self, entity, entity_place, value, place, orders):
        shown = []
        for name, there in self.columns(value[1], (*place, 1)):
            if isinstance(name, list):
                shown.append((name[1], True, (*there, 2) if len(name) == 3 else None, *name[2:]))
            else:
                shown.append((name, False, there))
        tail = value[2:]
        groups, group_place = [], (*place, 1 + len(tail))
        if tail and tail[-1][0] == "group_by":
            groups = [(name, (*group_place, number)) for number, name in enumerate(tail.pop()[1:], 1)]
        self.level(entity, entity_place, shown, (), tail, (*place, 2), groups, orders)
        return len({output[0] for output in shown})

    def level(self, entity, entity_place, shown, _, filters, filter_place, groups, orders):
        if entity not in COLUMNS:
            self.entities.append(entity_place)
        for output in shown or ():
            if output[2] is not None:
                self.column(entity, output[3] if output[1] else output[0], output[2])
        for inner in filters:
            self.filter(entity, inner, filter_place)
        for name, there in groups:
            self.column(entity, name, there)
        grouped = bool(groups) or any(output[1] for output in shown or ())
        for name, there in orders:
            if grouped:
                if name not in {output[0] for output in shown}:
                    self.fields.append(there)
            else:
                self.column(entity, name, there)
        if grouped:
            names = {name for name, _ in groups}
            self.operands.extend(output[2] for output in shown if not output[1] and output[0] not in names)


def verdict(value, entity=None):
    """What is to be told of the value as a query, or as the filter or extract of the entity's rows."""
    place = no_form("route" if entity else "query", value)
    if place is not None:
        return "not a query " + "".join(f".{number}" for number in place)
    checks = Checks()
    if entity is None:
        checks.query(value, ())
    elif value[0] == "extract":
        checks.extract(entity, (), list(value), (), [])
    else:
        checks.level(entity, (), None, (), [value], (), [], [])
    for words, places in (("unknown entity ", checks.entities), ("unknown field ", checks.fields), ("bad operand ", checks.operands)):
        if places:
            return words + "".join(f".{number}" for number in min(places))
    return "query"


# ---- the texts

SEEDS = r"""
["from","nodes"]
["from","nodes",["limit",1],["offset",0],["order_by",["certname",["expired","desc"]]]]
["from","facts",["extract",["name",["function","count"],["function","sum","value"],["function","min","value"]],["not",["=","name","a"]],["group_by","name"]],["order_by",["name",["sum","asc"]]]]
["from","resources",["and",["=",["parameter","ensure"],"present"],["=","tag","x"],["in",["type","title"],["from","edges",["extract",["source_type","source_title"]],["limit",2]]]]]
["from","nodes",["or",["=",["fact","kernel"],"Linux"],["=","node_state","any"],[">","facts_timestamp","2024-05-01T10:00:00Z"],["subquery","facts",["<=","value",3]]]]
["from","nodes",["in","certname",["array",["a","b",3]]]]
["from","nodes",["in",["certname","expired"],["extract",["certname","end_time"],["select_reports",["null?","noop",false]]]]]
["from","reports",["extract",["status",["function","max","end_time"]],["group_by","status","certname"]]]
["extract",["certname",["function","count"]],["~","certname","a.*"],["group_by","certname"]]
["and",["=","certname","a"],["in","title",["extract","title",["select_resources"]]]]
"""
PIECES = r"""
null true 5 -1 1.0 "" "certname" "count" "tag" "node_state" "asc" "facts" "value" "2024-02-30T00:00:00Z" {} [] ["and"] ["certname"] ["fact","a"]
["parameter","a"] ["function","count"] ["function","sum","value"] ["function","sum"] ["function","avg","value"] ["limit",1] ["order_by",["value"]]
["group_by","certname"] ["extract","certname"] ["select_facts"] ["=","certname","a"] ["=","tag",5] ["<","name","a"] ["~","tag","a"]
["in","tag",["array",[1]]] ["in",["certname","name"],["array",[1]]] ["subquery","none"] ["subquery","facts",["=","kernel",1]]
"""


def read_values(text):
    def no(word):
        raise ValueError(word)

    return [json.loads(line, parse_int=Num, parse_float=Num, parse_constant=no) for line in text.split("\n") if line]


def text_of(value):
    if type(value) is Num:
        return str(value)
    if isinstance(value, list):
        return "[" + ",".join(map(text_of, value)) + "]"
    return json.dumps(value)


def places_of(value, place=()):
    yield place
    if isinstance(value, list):
        for number, inner in enumerate(value):
            yield from places_of(inner, (*place, number))


def changed(value, place, change):
    """The value with a change at the place: a function from the list around it and the number there to that list anew."""
    if not place:
        return change([value], 0)[0] if change([value], 0) else []
    if len(place) == 1:
        return change(list(value), place[0])
    return [changed(inner, place[1:], change) if number == place[0] else inner for number, inner in enumerate(value)]


def changes(pieces):
    """All changes."""
    for piece in pieces:
        yield lambda around, number, piece=piece: around[:number] + [piece] + around[number + 1:]
    yield lambda around, number: around[:number] + around[number + 1:]
    yield lambda around, number: around[:number + 1] + around[number:]
    yield lambda around, number: around[:number] + around[number + 1:number + 2] + around[number:number + 1] + around[number + 2:]


def documented(top):
    with open(f"{top}/crates/query_tests/src/documented.rt") as file:
        lines = [line.split(" ", 1)[1].strip() for line in file if re.match(r"(ask|nodes) \[", line)]
    return read_values("\n".join(lines))


def deep_values():
    """Filters at the greatest depth and one below it, with a fault on either side."""
    for depth in (99, 100, 101):
        for end in (["=", "certname", "a"], ["=", "certname"], ["=", "none", Num("5")], Num("5")):
            for word in ("not", "and"):
                value = end
                for _ in range(depth - 1):
                    value = [word, value]
                yield ["from", "nodes", value]
        # JSON nests no deeper than 127
        value = ["subquery", "nodes"]
        for step in range(depth - 1):
            value = ["in", "certname", ["extract", "certname", ["select_facts", value]]] if step < 8 else ["not", value]
        yield ["from", "nodes", value]


def texts(top, count):
    """The values, each once."""
    random.seed(13)
    seeds = documented(top) + read_values(SEEDS)
    pieces = [piece for line in PIECES.split("\n") for piece in read_values(line.replace(" ", "\n"))]
    every, told = list(changes(pieces)), set()

    def fresh(value):
        text = text_of(value)
        if text in told:
            return False
        told.add(text)
        return True

    yield from filter(fresh, seeds)
    yield from filter(fresh, deep_values())
    for seed in seeds:
        for place in places_of(seed):
            yield from filter(fresh, (changed(seed, place, change) for change in every))
    for _ in range(count):
        value = random.choice(seeds)
        for _ in range(2):
            value = changed(value, random.choice(list(places_of(value))), random.choice(every))
        if fresh(value):
            yield value


def built(rt, top, folder):
    """The program, built in the folder."""
    with open(f"{top}/crates.txt") as file:
        heads = (line.split(":") for line in file if ":" in line and not line.startswith("#"))
        lines = {head.split()[0]: names.split() for head, names in heads}
    lines["ast_lists"] = ["ast_reader", "anyhow", "jiff", "jiff_core"]
    needed = crates_below(lines, "ast_lists", [])
    with open(f"{folder}/crates.txt", "w") as file:
        file.writelines(f"{name}: {' '.join(lines[name])}\n" for name in needed)
    for name in needed[:-1]:
        for part in ("src", "specs", "proofs", "out/rlib"):
            if os.path.isdir(f"{top}/crates/{name}/{part}"):
                shutil.copytree(f"{top}/crates/{name}/{part}", f"{folder}/crates/{name}/{part}")
    own = f"{folder}/crates/ast_lists"
    os.makedirs(f"{own}/src")
    with open(f"{own}/src/main.rt", "w") as file:
        file.write(PROGRAM.lstrip())
    subprocess.run([rt, "run"], cwd=own, stdin=subprocess.DEVNULL, stdout=subprocess.DEVNULL, check=True)
    return f"{own}/out/ast_lists"


def main():
    rt = sys.argv[1]
    count = int(sys.argv[2]) if len(sys.argv) > 2 else 200_000
    top = os.path.dirname(os.path.dirname(os.path.abspath(__file__)))
    otherwise, kinds = 0, Counter()
    with tempfile.TemporaryDirectory() as folder:
        program = built(rt, top, folder)
        start = time.time()
        values = list(texts(top, count))
        lines = "".join(text_of(value) + "\n" for value in values)
        answers = subprocess.run([program], input=lines, capture_output=True, text=True, check=True).stdout.split("\n")[:-1]
        assert len(answers) == len(values)
        for value, found in zip(values, answers):
            wanted = "|".join((verdict(value), verdict(value, "nodes"), verdict(value, "resources")))
            kinds.update(" ".join(word for word in answer.split() if word[0] != ".") for answer in wanted.split("|"))
            if wanted != found:
                otherwise += 1
                print("told otherwise:", text_of(value), wanted, found)
    for kind, number in sorted(kinds.items()):
        print(f"{kind:16} {number:,}")
    print(f"{len(values):,} texts, {otherwise:,} told otherwise, {time.time() - start:.0f} seconds")
    return 1 if otherwise else 0


if __name__ == "__main__":
    sys.exit(main())
