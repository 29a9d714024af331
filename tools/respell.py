#!/usr/bin/env python3
"""Gives the definitions and lemmas of specs/ and proofs/ today's spelling, once, in the crates as the kit's port.py leaves them.

usage: tools/respell.py           writes the files
       tools/respell.py --list    lists each name with its new one, and those that fall together

A word of a name is joined to the next by '_'; a dash stays between two names, as in `sum-append`; a proof of the function f is `f_spec`. Types, facts
and modules, and every name of src/, keep their spelling.
"""

import collections
import difflib
import glob
import os
import re
import subprocess
import sys

TOKEN = re.compile(r'[^\s(){}.;,@"«»`]+')
DECLARED = re.compile(r"^( *)((?:abbrev |unfoldable |pub )*)(data |record )?([^\s:(){}]+)((?:\s*[({].*)?\s*:.*)$")
NO_NAME = {"use", "module", "mod", "open", "where", "let", "in", "λ", "elim", "record", "data", "pub", "abbrev", "--"}
# Words of 000 that a name holds as they stand.
OF_000 = ["setSD", "SDset", "ChFAckReq", "ChFAck", "MCount", "DCount", "PDin", "PDout", "DTimeout", "DCommErr"]
# Names of the library's that a lemma's name may have on a side of a dash.
OF_STD = set(
    "length append zero suc take drop replicate map reverse set cond not and or cons nil xor eqb leb lt le eq mul add sub mod div sum all get_or false true".split()
)
# Chosen by hand: where a new name would meet another one.
BY_HAND = {
    "allZero": "is_all_zero",
    "all-zero": "all_zero_lem",
    "before-block": "before_a_block",
    "count_by": "count_by_rows",
    "countBy": "count_after_row",
    "getD-columns": "get_or-columns",
    "get_d_beside": "get_or-beside",
    "goes_on": "goes_on_lem",
    "had-error": "had_an_error",
    "handsOn": "octets_handed_on",
    "in-float": "in_float_lem",
    "is-regular": "is_regular_lem",
    "is-whole": "is_whole_lem",
    "isBin": "IsBin",
    "no-port": "no_such_port",
    "port-line": "port_line_lem",
    "process-sent": "process_sent_lem",
    "signatureHolds": "is_signed",
    "since-block": "since_a_block",
    "taken_at": "taken_at_lem",
}


def files(kind):
    for top, folders, names in os.walk("crates"):
        folders[:] = sorted(f for f in folders if f != "out")
        for name in sorted(names):
            if name.endswith(kind):
                yield os.path.join(top, name)


def code_of(text):
    return re.sub(r"--[^\n]*", "", text)


def declarations(path):
    """(name, kind) of each item that a file declares: 'definition', 'lemma', 'field', 'type'."""
    holder = None
    with open(path, encoding="utf-8") as f:
        lines = code_of(f.read()).split("\n")
    for line in lines:
        if line and not line[0].isspace():
            first = re.match(r"^(?:pub )?(data|record) ", line)
            holder = first and first[1]
        m = DECLARED.match(line)
        if not m or m[4] in NO_NAME:
            continue
        if m[3]:
            yield m[4], "type"
        elif holder and m[1]:
            yield m[4], "field"
        elif "abbrev" in m[2] or "unfoldable" in m[2]:
            yield m[4], "definition"
        elif not re.match(r"\s*:\s*(tie|goal)\.", m[5]):
            yield m[4], "lemma"


def rust_words():
    words = collections.Counter()
    for path in files(".rt"):
        with open(path, encoding="utf-8") as f:
            text = re.sub(r"//[^\n]*", "", f.read())
        text = re.sub(r"ghost use[^;]*;", "", text)
        text = re.sub(r"(?:requires|ensures)\s*\w*\s*\{.*", "", text)
        words.update(re.findall(r"[A-Za-z_]\w*", text))
    return words


def functions():
    found = set()
    for path in files(".rt"):
        with open(path, encoding="utf-8") as f:
            found.update(re.findall(r"\bfn (\w+)", f.read()))
    return found


def words_of(name):
    """camelCase taken apart; what 000 spells so stays."""
    kept = {}
    for i, word in enumerate(OF_000):
        mark = f"\x00{chr(0x3400 + i)}\x00"
        if word in name:
            name = name.replace(word, mark)
            kept[mark] = word
    name = re.sub(r"(?<=[a-z0-9\x00])([A-Z])", lambda m: "_" + m[1].lower(), name)
    name = re.sub(r"(?<=[a-z0-9])\x00(?=[\u3400-\u3500])", "_\x00", name)
    name = re.sub(r"\x00(?=[a-z0-9])", "\x00_", name)
    for mark, word in kept.items():
        name = name.replace(mark, word)
    return name


def spelled(name, kinds, known, fns):
    if name in BY_HAND:
        return BY_HAND[name]
    if name[0].isupper() or not re.search(r"[A-Za-z]", name):
        return name
    head = re.fullmatch(r"(.+)[-_]spec", name)
    if head and head[1].replace("-", "_") in fns:
        return head[1].replace("-", "_") + "_spec"
    if "definition" in kinds or "field" in kinds:
        return words_of(name).replace("-", "_")
    parts = [words_of(p) for p in name.split("-")]
    return ("-" if all(p in known for p in parts) else "_").join(parts)


def table():
    kinds = collections.defaultdict(set)
    for path in files(".antt"):
        for name, kind in declarations(path):
            kinds[name].add(kind)
    rust = rust_words()
    fns = functions()
    known = set(OF_STD)
    for name, ks in kinds.items():
        if "definition" in ks and not name[0].isupper():
            known.add(words_of(name).replace("-", "_"))
    new = {}
    for name, ks in kinds.items():
        if name in rust and "-" not in name:
            continue
        to = spelled(name, ks, known, fns)
        if to != name:
            new[name] = to
    # names that fall together: a lemma gives way
    back = collections.defaultdict(set)
    for name in kinds:
        back[new.get(name, name)].add(name)
    for to, names in back.items():
        if len(names) > 1 and not to.endswith("_spec"):
            for name in names:
                if name in new and kinds[name] == {"lemma"} and "_lem" not in to:
                    new[name] = to + "_lem"
    return new, kinds, rust


def aliases(text):
    """The modules that a file calls by a name, and its own."""
    return set(re.findall(r"^use [^\n{]*\.(\w+)$", text, re.M)) | set(re.findall(r"\bas (\w+)", text))


def turn(text, new, kinds, path):
    """The text with each name spelled anew. In a proof that walks the code the parts of what is known keep the kit's labels."""
    walks = path.endswith("/Proof.antt")
    heads = aliases(text)
    prose = [m.span() for m in re.finditer(r"--[^\n]*" if path.endswith(".antt") else r"//[^\n]*", text)]
    out, at, k = [], 0, 0
    for m in TOKEN.finditer(text):
        word = m[0]
        to = new.get(word)
        if to is None:
            continue
        while k < len(prose) and prose[k][1] <= m.start():
            k += 1
        if k < len(prose) and prose[k][0] <= m.start():
            quoted = text[m.start() - 1] == "`" and text[m.end() : m.end() + 1] == "`"
            if not quoted and not re.search(r"[a-z][A-Z]", word):
                continue
        elif path.endswith(".rt") and not re.search(r"[A-Z-]", word):
            continue
        elif text[m.start() - 1] == ".":
            head = re.search(r"([^\s(){};,.]+(?:\.[^\s(){};,.]+)*)\.$", text[: m.start()])
            first = head[1].split(".")[0] if head else ""
            named = first[:1].isupper() or first in heads
            if not named and (walks or not kinds[word] & {"field"}):
                continue
        out += [text[at : m.start()], to]
        at = m.end()
    return "".join(out) + text[at:]


def turn_page(text, new):
    return re.sub(r"`([^`\n]+)`", lambda m: "`" + TOKEN.sub(lambda w: new.get(w[0], w[0]), m[1]) + "`", text)


# ---- the edits that must be refused

PIECE = re.compile(r"\s+|[\w'-]+|.")


def plain(text):
    return re.sub(r"[^a-z0-9]", "", text.lower())


def matcher(a, b):
    return difflib.SequenceMatcher(None, a, b, autojunk=False)


def carried(old, edited, now):
    """What the change from old to edited makes of now, which is old in today's spelling."""
    o, e, n = PIECE.findall(old), PIECE.findall(edited), PIECE.findall(now)
    key = lambda ws: [plain(w) or ("" if w.isspace() else w) for w in ws]
    place = {}
    for i, j, size in matcher(key(o), key(n)).get_matching_blocks():
        for d in range(size):
            place[i + d] = j + d
    place[len(o)] = len(n)
    out, at = [], 0
    for tag, i1, i2, j1, j2 in matcher(o, e).get_opcodes():
        if tag == "equal":
            continue
        start = place.get(i1)
        if start is None:
            start = place[max(i for i in place if i < i1)] + 1 if any(i < i1 for i in place) else 0
        end = place.get(i2)
        if end is None:
            end = place[min(i for i in place if i >= i2)]
        out += n[at:start] + e[j1:j2]
        at = end
    return "".join(out + n[at:])


def at_head(path):
    return subprocess.run(["git", "show", "HEAD:" + path], capture_output=True, text=True, check=True).stdout


def today(text, new):
    """A piece of an edit in today's spelling."""
    text = re.sub(r"«([A-Za-z]\w*)»", r"\1", text)
    text = re.sub(r"(?<![\w'])_([^\s_{}(),\w]+)_(?!\w)", r"◌\1◌", text)
    text = re.sub(r"\((\w+(?: \.\w+)+)\)", lambda m: m[1].replace(" ", ""), text)
    text = re.sub(r"(?<=[\w)]) \.(?=\w)", ".", text)
    return TOKEN.sub(lambda m: new.get(m[0]) or by_tree(m[0]), text)


def by_tree(word):
    """A name that port.py has spelled anew: no file has the old one any more."""
    if not TREE:
        for kind in (".antt", ".rt"):
            for path in files(kind):
                with open(path, encoding="utf-8") as f:
                    TREE.update(TOKEN.findall(f.read()))
    to = words_of(word).replace("-", "_")
    return to if word not in TREE and to in TREE else word


TREE = set()


def turn_edit(path, crate, new):
    with open(path, encoding="utf-8") as f:
        lines = f.read().split("\n")
    out, file, made, done = [], None, {}, []
    i = 0
    while i < len(lines):
        line = lines[i]
        if not line.startswith("file: "):
            out.append(line)
            i += 1
            continue
        file = line[6:]
        old, changed = lines[i + 1][5:], lines[i + 2][5:]
        i += 3
        target = os.path.join("crates", crate, file)
        if target not in made:
            made[target] = open(target, encoding="utf-8").read()
        text = made[target]
        if text.count(old) != 1:
            old, changed = turned_pair(target, text, old, changed, new)
            if old is None:
                done.append(f"{path}: {file}: {lines[i - 2]}")
                old, changed = lines[i - 2][5:], lines[i - 1][5:]
            elif old == "":
                continue
        else:
            changed = today(changed, new) if file.endswith(".antt") else changed
        made[target] = text.replace(old, changed, 1)
        out += ["file: " + file, "old: " + old, "new: " + changed]
    with open(path, "w", encoding="utf-8") as f:
        f.write("\n".join(out))
    return done


def turned_pair(target, text, old, changed, new):
    if re.match(r"(ghost )?use ", old):
        names = lambda s: re.findall(r"[^\s{},;]+", s[s.index("{") :]) if "{" in s else []
        more = [today(w, new) for w in names(changed) if w not in names(old)]
        more = [w for w in more if not re.search(r"[{, ]" + re.escape(w) + r"[,}]", text)]
        if "{" not in changed or changed.count(";") > 1:
            return None, None
        if not more:
            return "", ""
        found = re.search(r"(?:ghost )?use Rattle\.std\.specs\.Prelude\.\{[^}\n]*\};?", text)
        return (found[0], found[0].replace("}", ", " + ", ".join(more) + "}")) if found else (None, None)
    was = [l for l in at_head(target).split("\n") if old in l]
    if len(was) != 1:
        return None, None
    now = sorted(text.split("\n"), key=lambda l: matcher(plain(l), plain(was[0])).ratio())[-1]
    if matcher(plain(now), plain(was[0])).ratio() < 0.75 or text.count(now) != 1:
        return None, None
    to = today(carried(was[0], was[0].replace(old, changed), now), new)
    return now, to


def main(argv):
    os.chdir(os.path.join(os.path.dirname(os.path.abspath(__file__)), ".."))
    new, kinds, rust = table()
    if argv == ["--list"]:
        for name in sorted(new):
            print(name, new[name], *sorted(kinds[name]))
        return
    for kind in (".antt", ".rt"):
        for path in files(kind):
            with open(path, encoding="utf-8") as f:
                text = f.read()
            to = turn(text, new, kinds, path)
            if to != text:
                with open(path, "w", encoding="utf-8") as f:
                    f.write(to)
    for path in glob.glob("docs/**/*.md", recursive=True) + glob.glob("*.md") + glob.glob("examples/*.md"):
        with open(path, encoding="utf-8") as f:
            text = f.read()
        with open(path, "w", encoding="utf-8") as f:
            f.write(turn_page(text, new))
    left = []
    for path in sorted(glob.glob("crates/*/must-fail/*.edit")):
        left += turn_edit(path, path.split("/")[1], new)
    for path in sorted(glob.glob("tests/mutants/*/*.edit")):
        left += turn_edit(path, path.split("/")[2], new)
    print("\n".join(left))
    print(f"respell: {len(new)} names; {len(left)} pairs of edits left by hand")


if __name__ == "__main__":
    main(sys.argv[1:])
