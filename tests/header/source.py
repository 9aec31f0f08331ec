"""Holds include/dsss.h against the source of crate dsss: names, order and widths.

  source.py [ROOT]        compares; status 0 if they agree, else 1 and one line a difference
  source.py --self-test   spoils a small header and source one way at a time; each must be found

No compiler compares a C declaration with the Rattle function behind it. A call must have the same
name, the same parameters in the same order, and an answer with the same members in the same order.
A row in C is a pointer and NAME_len, in Rattle a slice; a record of just one row stands for that row,
so that a row of such records is a slice of slices. A record may be declared in another crate; where it
is a parameter or a member it is compared by its own members. A record of the header whose only member
is private_state is private: the source's must take as many octets and be aligned alike, whatever its
members. Each call's comment must have the fields Answer, Refused, Buffer and Proved, say where the call
is proved and by which record, which its contract must ensure, and name each row and number.

A call's symbol is its name, or what a macro `#define dsss_call dsss_call_2` makes of it. What each
symbol was published with stands in published.txt: with other parameters or another answer the call
needs a new symbol, so that objects built with an older header do not link.
"""
import glob
import os
import re
import sys

WIDTHS = {f"{sign}int{bits}_t": f"{letter}{bits}"
          for sign, letter in (("u", "u"), ("", "i")) for bits in (8, 16, 32, 64)}
WIDTHS.update({"size_t": "usize", "float": "f32", "double": "f64", "_Bool": "bool"})
OCTETS = {"u8": 1, "i8": 1, "bool": 1, "u16": 2, "i16": 2, "u32": 4, "i32": 4, "f32": 4, "u64": 8, "i64": 8,
          "f64": 8, "usize": 8}
FIELDS = ("Answer:", "Refused:", "Buffer:", "Proved:")


class Fault(Exception):
    """The text cannot be read as a declaration."""


def c_type(name):
    return WIDTHS.get(name, name)


# ---- The header ----------------------------------------------------------------------------------

def without_comments(text):
    return re.sub(r"/\*.*?\*/", " ", text, flags=re.S)


def c_declaration(text):
    """Whether it is const, the Rattle type, whether it is a pointer, and the name of one declaration."""
    match = re.fullmatch(r"(const\s+)?(\w+)\s*(\*?)\s*(\w+)\s*(?:\[\s*(\d+)\s*\])?", text)
    if not match:
        raise Fault(f"cannot read '{text}'")
    kind = c_type(match[2])
    return bool(match[1]), f"[{kind}; {match[5]}]" if match[5] else kind, match[3] == "*", match[4]


def c_rows(plain):
    """(name, Rattle type) of declarations, a pointer and its length being one row."""
    rows, k = [], 0
    while k < len(plain):
        const, kind, pointer, name = plain[k]
        k += 1
        if not pointer:
            rows.append((name, kind))
        elif k < len(plain) and plain[k][1:] == ("usize", False, name + "_len"):
            rows.append((name, f"&[{kind}]" if const else f"&mut [{kind}]"))
            k += 1
        else:
            rows.append((name, f"&{kind}" if const else f"&mut {kind}"))
    return rows


def c_members(body):
    """(name, Rattle type) of each member of a record."""
    plain = []
    for line in filter(None, (part.strip() for part in body.split(";"))):
        match = re.fullmatch(r"((?:const\s+)?\w+)\s+(.*)", line, re.S)
        if not match:
            raise Fault(f"cannot read the member '{line}'")
        plain += [c_declaration(f"{match[1]} {name.strip()}") for name in match[2].split(",")]
    return c_rows(plain)


def c_records(text):
    """Record name -> list of (member, Rattle type)."""
    found = re.findall(r"typedef\s+struct\s*\{(.*?)\}\s*(\w+)\s*;", text, re.S)
    return {name: c_members(body) for body, name in found}


def c_parameters(text):
    """(name, Rattle type) of each parameter."""
    return c_rows([c_declaration(part) for part in filter(None, (part.strip() for part in text.split(",")))])


def c_calls(text):
    """Call name -> (answer type, parameters)."""
    calls = {}
    pattern = r"^(\w+)\s+(dsss_\w+)\s*\(([^)]*)\)\s*;"
    for answer, name, parameters in re.findall(pattern, text, re.M):
        calls[name] = (c_type(answer), c_parameters(re.sub(r"\s+", " ", parameters)))
    return calls


def c_symbols(text):
    """Call name -> the symbol that a macro makes of it."""
    return dict(re.findall(r"^#define\s+(dsss_[a-z_0-9]+)\s+(dsss_[a-z_0-9]+)\s*$", text, re.M))


def comments(header):
    """Call name -> the comment right before its declaration."""
    found = re.findall(r"/\*((?:(?!\*/).)*)\*/\s*\w+\s+(dsss_\w+)\s*\([^)]*\)\s*;", header, re.S)
    return {name: comment for comment, name in found}


# ---- The source ----------------------------------------------------------------------------------

def without_line_comments(text):
    return re.sub(r"//[^\n]*", "", text)


def rattle_type(text):
    text = re.sub(r"\w+::", "", re.sub(r"'\w+\s*", "", text.strip()))
    return re.sub(r"\s+", " ", re.sub(r"\s*;\s*", "; ", text))


def pairs(text):
    """(name, type) of each `name: type` of a list."""
    found = []
    for part in filter(None, (part.strip() for part in text.split(","))):
        name, colon, kind = part.partition(":")
        if not colon:
            raise Fault(f"cannot read '{part}'")
        found.append((re.sub(r"^(pub|mut)\s+", "", name.strip()), rattle_type(kind)))
    return found


def rattle_calls(text):
    """Call name -> (answer type, parameters, attributes)."""
    pattern = (r"((?:#\[[^\]]*\]\s*)*)pub\s+extern\s+\"C\"\s+fn\s+(\w+)\s*(?:<[^>]*>)?\s*"
               r"\(([^)]*)\)\s*(?:->\s*([\w:]+))?")
    return {name: (answer.split("::")[-1], pairs(parameters), attributes)
            for attributes, name, parameters, answer in re.findall(pattern, text)}


def rattle_contracts(text):
    """Call name -> what stands between its parameters and its body."""
    parts = re.split(r"pub\s+extern\s+\"C\"\s+fn\s+", text)[1:]
    return {re.match(r"\w+", part).group(): part.split("\n{", 1)[0] for part in parts}


def rattle_records(text):
    """Record name -> its members, for each #[repr(C)] struct."""
    pattern = r"((?:#\[[^\]]*\]\s*)*)pub\s+struct\s+(\w+)\s*\{(.*?)\}"
    return {name: pairs(body) for attributes, name, body in re.findall(pattern, text, re.S)
            if re.search(r"repr\s*\(\s*C\s*\)", attributes)}


def record_named(name, sources):
    """The members of the record, from crate dsss, else from a crate that it uses, else any."""
    holders = {crate: rattle_records(text)[name] for crate, text in sources.items()
               if name in rattle_records(text)}
    if "dsss" in holders:
        return holders["dsss"]
    used = re.findall(r"\buse\s+(\w+)::[^;]*\b" + name + r"\b", sources["dsss"])
    for crate in used:
        if crate in holders:
            return holders[crate]
    if len(holders) != 1:
        raise Fault(f"{len(holders)} crates have a #[repr(C)] struct {name}, not one")
    return next(iter(holders.values()))


def layout(kind, sources):
    """(octets, alignment) of a type or of a record's members in their order, as C lays them out."""
    array = re.fullmatch(r"\[(.+); (\d+)\]", kind)
    if array:
        octets, alignment = layout(array[1], sources)
        return octets * int(array[2]), alignment
    if kind in OCTETS:
        return OCTETS[kind], OCTETS[kind]
    end, widest = 0, 1
    for _, member in record_named(kind, sources):
        octets, alignment = layout(member, sources)
        end = -(-end // alignment) * alignment + octets
        widest = max(widest, alignment)
    return -(-end // widest) * widest, widest


# ---- The comparison ------------------------------------------------------------------------------

def rows(pairs_of):
    return ", ".join(f"{name}: {kind}" for name, kind in pairs_of)


def told(pairs_of, pattern, members_of):
    """The pairs with each record that the pattern finds in a type told by its members, or by its only row."""
    def of_record(match):
        members = members_of(match[0])
        if members is None:
            return match[0]
        members = told(members, pattern, members_of)
        return members[0][1] if len(members) == 1 and members[0][1][0] == "&" else "{" + rows(members) + "}"
    return [(name, re.sub(pattern, of_record, kind)) for name, kind in pairs_of]


def told_in_c(pairs_of, records):
    return told(pairs_of, r"\bdsss_\w+", records.get)


def told_in_rattle(pairs_of, sources):
    return told(pairs_of, r"\b[A-Z]\w*", lambda name: record_named(name, sources))


def with_private(declared, defined, records, sources):
    """The source's parameters, with the header's private record in place of one that is laid out like it."""
    parameters = list(defined)
    for k, ((_, kind), (name, source_kind)) in enumerate(zip(declared, defined)):
        lent, _, record = kind.rpartition("dsss_")
        members = records.get("dsss_" + record, [])
        if [member for member, _ in members] == ["private_state"] and source_kind.startswith(lent):
            if layout(members[0][1], sources) == layout(source_kind[len(lent):], sources):
                parameters[k] = (name, kind)
    return parameters


def compare_call(name, declared, defined, records, sources):
    answer, parameters = declared[0], told_in_c(declared[1], records)
    source_answer, source_parameters, attributes = defined
    source_parameters = with_private(declared[1], source_parameters, records, sources)
    source_parameters = told_in_c(told_in_rattle(source_parameters, sources), records)
    faults = []
    if "no_mangle" not in attributes:
        faults.append(f"{name}: no #[unsafe(no_mangle)] in the source")
    if parameters != source_parameters:
        faults.append(f"{name}: the header has ({rows(parameters)}), "
                      f"the source ({rows(source_parameters)})")
    if answer in records:
        declared_members = told_in_c(records[answer], records)
        members = told_in_rattle(record_named(source_answer, sources), sources)
        if declared_members != members:
            faults.append(f"{name}: {answer} is {{{rows(declared_members)}}} in the header, "
                          f"{source_answer} is {{{rows(members)}}} in the source")
    elif (answer, source_answer) != ("void", "") and answer != source_answer:
        faults.append(f"{name}: answers {answer} in the header, {source_answer} in the source")
    return faults


def compare_published(symbol, declared, records, published):
    """Whether a symbol stands for what it was published with."""
    answer, parameters = declared
    members = rows(told_in_c(records[answer], records)) if answer in records else answer
    line = f"{symbol}({rows(told_in_c(parameters, records))}) -> {members}"
    if line in published:
        return []
    if any(old.startswith(symbol + "(") for old in published):
        return [f"{symbol} was published with other parameters or members: give the call a symbol of its own, "
                "by a macro in the header and that name in crates/dsss"]
    return [f"{symbol} is not in published.txt; its line: {line}"]


def compare_comment(name, parameters, comment):
    faults = [f"{name}: its comment has no field {field}" for field in FIELDS
              if field not in comment]
    faults += [f"{name}: its comment does not name {row}" for row, _ in parameters
               if not re.search(rf"\b{row}\b", comment)]
    if not re.search(rf"crates/dsss, {name}, record \w", comment):
        faults.append(f"{name}: its comment does not say where it is proved")
    return faults


def compare_contract(name, comment, contract):
    """The record that a comment names is what the call's contract ensures."""
    named = re.search(rf"crates/dsss, {name}, record (\w+)", comment)
    if named and not re.search(rf"\bensures\b[^{{}}]*\{{\s*{named.group(1)}\s", contract):
        return [f"{name}: its contract does not ensure the record {named.group(1)} that the header names"]
    return []


def compare(header, sources, published):
    """All differences between a header, the sources of the crates by crate name, and the published lines."""
    sources = {crate: without_line_comments(text) for crate, text in sources.items()}
    text = without_comments(header)
    symbols, records = c_symbols(text), c_records(text)
    declared = {symbols.get(name, name): call for name, call in c_calls(text).items()}
    said = {symbols.get(name, name): comment for name, comment in comments(header).items()}
    defined, contracts = rattle_calls(sources["dsss"]), rattle_contracts(sources["dsss"])
    faults = [f"{name}: a macro that stands for no call" for name in symbols.keys() - c_calls(text)]
    faults += [f"{name}: in the source, not in the header" for name in defined.keys() - declared]
    faults += [f"{name}: in the header, not in the source" for name in declared.keys() - defined]
    faults += [f"{name}: public in crate dsss and not extern \"C\""
               for name in re.findall(r"\bpub\s+fn\s+(\w+)", sources["dsss"])]
    if not declared:
        faults.append("the header declares no call")
    for name in declared:
        faults += compare_comment(name, declared[name][1], said.get(name, ""))
        faults += compare_published(name, declared[name], records, published)
        if name in defined:
            faults += compare_call(name, declared[name], defined[name], records, sources)
            faults += compare_contract(name, said.get(name, ""), contracts[name])
    return sorted(faults)


def read_sources(root):
    sources = {}
    for path in sorted(glob.glob(os.path.join(root, "crates", "*", "src", "**", "*.rt"),
                                 recursive=True)):
        crate = os.path.relpath(path, os.path.join(root, "crates")).split(os.sep)[0]
        with open(path, encoding="utf-8") as file:
            sources[crate] = sources.get(crate, "") + file.read() + "\n"
    if "dsss" not in sources:
        raise Fault("no source in crates/dsss/src")
    return sources


# ---- The test of this test -----------------------------------------------------------------------

HEADER = """
typedef struct { uint64_t number, place; } dsss_answer; /* two */
/* Reads. kind, chips, octets. Answer: Refused: Buffer: Proved: crates/dsss, dsss_read, record Read: answer. */
dsss_answer dsss_read(uint64_t kind, const uint8_t *chips, size_t chips_len,
                      uint8_t *octets, size_t octets_len);
typedef struct { uint64_t seen, rates[4]; } dsss_sums;
typedef struct { const uint8_t *chips; size_t chips_len; } dsss_one;
typedef struct { uint64_t number; dsss_sums sums; } dsss_counted;
/* Counts. sums, kinds, list. Answer: Refused: Buffer: Proved: crates/dsss, dsss_count, record Sums: answer. */
dsss_counted dsss_count(dsss_sums sums, const uint64_t *kinds, size_t kinds_len, const dsss_one *list,
                        size_t list_len);
/* Keeps. store, tag. Answer: Refused: Buffer: Proved: crates/dsss, dsss_keep, record Keeps: answer and octets. */
uint64_t dsss_keep(uint8_t *store, size_t store_len, uint64_t tag);
typedef struct { uint64_t private_state[3]; } dsss_ear;
/* Hears. ear, kind. Answer: Refused: Buffer: Proved: crates/dsss, dsss_hear, record Hears: answer. */
uint64_t dsss_hear(dsss_ear *ear, uint64_t kind);
static inline int dsss_sentence(uint64_t number) { return 0; }
"""
SOURCES = {
    "dsss": """use frame::{Answer, Other};
#[unsafe(no_mangle)]
pub extern "C" fn dsss_read(kind: u64, chips: &[u8], octets: &mut [u8]) -> Answer
    ensures read { Read kind a }
{ frame::read(kind) } // fn
#[unsafe(no_mangle)]
pub extern "C" fn dsss_count<'a>(sums: sums::Sums, kinds: &[u64], list: &'a [&'a [u8]]) -> Counted
    ensures counted { Sums
        sums c }
{ sums::count(sums, kinds, list) }
#[unsafe(no_mangle)]
pub extern "C" fn dsss_keep(store: &mut [u8], tag: u64) -> u64
    ensures kept { Keeps tag k }
{ store::keep(store, tag) }
#[unsafe(no_mangle)]
pub extern "C" fn dsss_hear(ear: &mut ears::Ear, kind: u64) -> u64
    ensures heard { Hears kind h }
{ ears::hear(ear, kind) }
""",
    "ears": """#[repr(C)]
pub struct Past { pub lead: u32, pub last: u8, }
#[repr(C)]
pub struct Ear {
    pub count: usize,
    pub past: Past, // eight octets, of which three are not used
    pub held: [u8; 5],
}
""",
    "frame": """#[repr(C)]
pub struct Answer {
    pub number: u64, // first
    pub place: u64,
}
""",
    "other": "#[repr(C)] pub struct Answer { pub place: u64, }",
    "sums": """#[repr(C)]
pub struct Sums { pub seen: u64, pub rates: [u64;4], }
#[repr(C)]
pub struct Counted { pub number: u64, pub sums: Sums, }
""",
}
PUBLISHED = ["dsss_read(kind: u64, chips: &[u8], octets: &mut [u8]) -> number: u64, place: u64",
             "dsss_count(sums: {seen: u64, rates: [u64; 4]}, kinds: &[u64], list: &[&[u8]]) -> "
             "number: u64, sums: {seen: u64, rates: [u64; 4]}",
             "dsss_keep(store: &mut [u8], tag: u64) -> u64",
             "dsss_hear(ear: &mut {private_state: [u64; 3]}, kind: u64) -> u64"]
GROWN = [  # a member more in header and source: by the old symbol refused, by a new one not
    ("header", "uint64_t number, place", "uint64_t number, place, more"),
    ("frame", "pub place: u64,", "pub place: u64, pub more: u64,"),
]
RENAMED = [
    ("header", "typedef", "#define dsss_read dsss_read_2\ntypedef"),
    ("header", "crates/dsss, dsss_read,", "crates/dsss, dsss_read_2,"),
    ("dsss", "fn dsss_read", "fn dsss_read_2"),
]
SPOILED = [  # which text, what, by what
    ("header", "typedef", "#define dsss_read dsss_read_2\ntypedef"),
    ("header", "typedef", "#define dsss_write dsss_write_2\ntypedef"),
    ("header", "kind, const uint8_t", "sort, const uint8_t"),
    ("header", "uint64_t kind", "uint32_t kind"),
    ("header", "number, place", "place, number"),
    ("header", "uint64_t number, place", "uint64_t number"),
    ("header", "uint64_t number, place", "uint32_t number, place"),
    ("header", "const uint8_t *chips", "uint8_t *chips"),
    ("header", "const uint8_t *chips", "const int8_t *chips"),
    ("header", "size_t chips_len", "uint32_t chips_len"),
    ("header", "dsss_read(", "dsss_reads("),
    ("header", "Buffer:", ""),
    ("header", "crates/dsss, dsss_read", "crates/dsss, dsss_write"),
    ("header", "record Read:", "Read:"),
    ("header", "record Read:", "record Sums:"),
    ("dsss", "{ Read kind a }", "{ a ≡ a }"),
    ("dsss", "    ensures read { Read kind a }\n", ""),
    ("dsss", "{ Sums\n", "{ Sum\n"),
    ("dsss", "#[unsafe(no_mangle)]", ""),
    ("dsss", "kind: u64, chips: &[u8]", "chips: &[u8], kind: u64"),
    ("dsss", "&mut [u8]", "&mut [u16]"),
    ("dsss", "-> Answer", "-> u64"),
    ("dsss", "{ frame", "{ } pub fn more() { frame"),
    ("frame", "#[repr(C)]", ""),
    ("frame", "pub place: u64", "pub place: u32"),
    ("header", "rates[4]", "rates[5]"),
    ("header", "rates[4]", "rates"),
    ("header", "uint64_t seen, rates[4]", "uint32_t seen, rates[4]"),
    ("header", "seen, rates[4]", "rates[4], seen"),
    ("header", "dsss_sums sums; } dsss_counted", "uint64_t sums; } dsss_counted"),
    ("header", "uint64_t number; dsss_sums sums;", "dsss_sums sums; uint64_t number;"),
    ("header", "dsss_count(dsss_sums sums, ", "dsss_count("),
    ("header", "const uint64_t *kinds", "const uint32_t *kinds"),
    ("header", "const uint64_t *kinds, size_t kinds_len, ", "uint64_t kinds, "),
    ("header", "const uint8_t *chips; size_t chips_len; } dsss_one", "uint8_t *chips; size_t chips_len; } dsss_one"),
    ("header", "size_t chips_len; } dsss_one", "} dsss_one"),
    ("header", "const uint8_t *chips; size_t chips_len; }", "size_t chips_len; const uint8_t *chips; }"),
    ("header", "size_t chips_len; } dsss_one", "size_t chips_len; uint64_t kind; } dsss_one"),
    ("header", "const dsss_one *list", "dsss_one *list"),
    ("header", "const dsss_one *list", "const dsss_sums *list"),
    ("header", "uint64_t dsss_keep", "uint32_t dsss_keep"),
    ("header", "uint64_t dsss_keep", "dsss_sums dsss_keep"),
    ("header", "uint8_t *store, size_t store_len, uint64_t tag", "uint64_t tag, uint8_t *store, size_t store_len"),
    ("header", "uint8_t *store, size_t", "const uint8_t *store, size_t"),
    ("dsss", "tag: u64) -> u64", "tag: u64) -> u32"),
    ("dsss", "tag: u64) -> u64", "tag: u64) -> Answer"),
    ("dsss", "kinds: &[u64]", "kinds: &[u8]"),
    ("dsss", "&'a [&'a [u8]]", "&'a [u8]"),
    ("dsss", "&'a [&'a [u8]]", "&'a [&'a [u16]]"),
    ("dsss", "sums: sums::Sums", "sums: u64"),
    ("header", "private_state[3]", "private_state[4]"),
    ("header", "private_state[3]", "state[3]"),
    ("header", "uint64_t private_state[3]", "uint32_t private_state[6]"),
    ("header", "dsss_hear(dsss_ear *ear", "dsss_hear(const dsss_ear *ear"),
    ("header", "dsss_hear(dsss_ear *ear", "dsss_hear(dsss_ear ear"),
    ("dsss", "ear: &mut ears::Ear", "ear: &ears::Ear"),
    ("dsss", "ear: &mut ears::Ear", "ear: ears::Ear"),
    ("dsss", "ear: &mut ears::Ear", "ear: &mut ears::Past"),
    ("dsss", "ear: &mut ears::Ear", "hearing: &mut ears::Ear"),
    ("dsss", "ear: &mut ears::Ear, kind: u64", "kind: u64, ear: &mut ears::Ear"),
    ("ears", "#[repr(C)]\npub struct Ear", "pub struct Ear"),
    ("ears", "#[repr(C)]", ""),
    ("ears", "count: usize", "count: u32"),
    ("ears", "held: [u8; 5]", "held: [u8; 9]"),
    ("ears", "pub lead: u32, pub last: u8", "pub last: u8, pub lead: u64"),
    ("sums", "[u64;4]", "[u64;3]"),
    ("sums", "[u64;4]", "[u32;4]"),
    ("sums", "pub sums: Sums", "pub sums: [u64; 5]"),
    ("sums", "pub number: u64, pub sums: Sums,", "pub sums: Sums, pub number: u64,"),
]


def self_test_of_growth(texts):
    """A record that grows is found, unless the call has a new symbol, published with the new record."""
    for which, old, new in GROWN:
        texts = dict(texts, **{which: texts[which].replace(old, new, 1)})
    sources = {crate: texts[crate] for crate in SOURCES}
    if not any("symbol of its own" in fault for fault in compare(texts["header"], sources, PUBLISHED)):
        raise Fault("self-test: a record that grows under its old symbol is not found")
    for which, old, new in RENAMED:
        texts = dict(texts, **{which: texts[which].replace(old, new, 1)})
    sources = {crate: texts[crate] for crate in SOURCES}
    line = PUBLISHED[0].replace("dsss_read(", "dsss_read_2(") + ", more: u64"
    faults = compare(texts["header"], sources, PUBLISHED + [line])
    if faults:
        raise Fault("self-test: a new symbol for a grown record is refused: " + "; ".join(faults))


def self_test():
    texts = dict(SOURCES, header=HEADER)
    faults = compare(HEADER, SOURCES, PUBLISHED)
    if faults:
        raise Fault("self-test: good texts are refused: " + "; ".join(faults))
    self_test_of_growth(texts)
    for which, old, new in SPOILED:
        spoiled = dict(texts)
        spoiled[which] = texts[which].replace(old, new, 1)
        if spoiled[which] == texts[which]:
            raise Fault(f"self-test: '{old}' is not in the {which} text")
        header = spoiled.pop("header")
        try:
            found = compare(header, spoiled, PUBLISHED)
        except Fault as fault:
            found = [str(fault)]
        if not found:
            raise Fault(f"self-test: '{old}' made '{new}' in {which} is not found")
    print(f"header source test: {len(SPOILED)} spoiled pairs, all found")


def main(arguments):
    if arguments == ["--self-test"]:
        self_test()
        return 0
    root = arguments[0] if arguments else "."
    with open(os.path.join(root, "include", "dsss.h"), encoding="utf-8") as file:
        header = file.read()
    sources = read_sources(root)
    with open(os.path.join(root, "tests", "header", "published.txt"), encoding="utf-8") as file:
        published = [line for line in file.read().split("\n") if line and not line.startswith("#")]
    faults = compare(header, sources, published)
    for fault in faults:
        print(f"header: {fault}", file=sys.stderr)
    if not faults:
        print(f"header: {len(c_calls(without_comments(header)))} calls as in crates/dsss")
    return 1 if faults else 0


if __name__ == "__main__":
    try:
        sys.exit(main(sys.argv[1:]))
    except (Fault, OSError) as fault:
        print(f"header: {fault}", file=sys.stderr)
        sys.exit(1)
