"""What a check of a crate reads of the crates below it, taken from their text: what must_fail.py sums.

Of a library it reads declarations and contracts, `specs/` whole, and of `proofs/` what is stated and what can be unfolded. The bodies of functions,
the proofs and the answers it doesn't read: `rattle build` puts none of them into the interface, and a definition without `abbrev` or `unfoldable` is
closed to other modules. What this file can't tell apart counts as read. A program's check links the code below, so there bodies count too.
"""
import functools
import glob
import hashlib
import json
import os
import re
import subprocess
from collections import namedtuple

LIST = "crates.txt"
PARTS = ("src", "specs", "proofs")
# Beside a function's proofs; no crate above can name them, and text that does is looked for.
OF_FUNCTIONS = ("Answers.antt", "Invariants.antt")
OPENS, CLOSES = ("(", "[", "{"), (")", "]", "}")
# What an import brings that a text can use without naming it: `do` stands for the operators.
UNSEEN = ("self", "_", "◌>>=◌", "◌>>◌")

# A token of a file: its line, its kind as rattle prints it, and its text.
Token = namedtuple("Token", "line kind text")
# A declaration in proofs/: its text, the name that it is of ("" where it has none), and whether it is a case of its definition.
Item = namedtuple("Item", "text name is_case")


# ---- crates

def below():
    """By crate, its words in crates.txt and all crates that it stands on, those that it names and those below them."""
    rows = {}
    with open(LIST, encoding="utf-8") as file:
        for line in file:
            head, colon, names = line.partition("#")[0].partition(":")
            if colon or head.strip():
                rows[head.split()[0]] = (head.split()[1:], names.replace(",", " ").split())
    found = {}

    def stands_on(crate):
        if crate not in found:
            names = [name for name in rows[crate][1] if name in rows]
            found[crate] = sorted({name for one in names for name in [one, *stands_on(one)]})
        return found[crate]

    return {crate: (rows[crate], stands_on(crate)) for crate in rows}


def is_program(crate):
    return os.path.isfile(f"crates/{crate}/src/main.rt")


def files_of(crate):
    """The files that a check of the crate reads, in order."""
    return sorted(path for part in PARTS for path in glob.glob(f"crates/{crate}/{part}/**/*.*", recursive=True) if os.path.isfile(path))


def read(path):
    with open(path, "rb") as file:
        return file.read()


def named_elsewhere(texts):
    """The modules of proofs that another crate's text names, as `crate.path.of.the.Module`; `texts` are all files by path."""
    found = set()
    for path, text in texts.items():
        for crate, module in re.findall(rb"\bRattle\.(\w+)\.proofs\.([\w.]+)", text):
            if crate.decode() != path.split("/")[1]:
                found.add(f"{crate.decode()}.{module.decode().rstrip('.')}")
    return found


# ---- text

@functools.lru_cache(maxsize=None)
def kit():
    """The folder of the kit."""
    ran = subprocess.run(["rt", "doc"], stdout=subprocess.PIPE, text=True, check=True)
    return os.path.dirname(ran.stdout.strip())


def tokens_of(paths):
    """The tokens of each file of src/, without comments, as rattle reads them."""
    if not paths:
        return {}
    ran = subprocess.run([f"{kit()}/bin/rattle", "fmt", "--tokens", *paths], stdout=subprocess.PIPE, check=True)
    rows = re.split(r"(?m)^file \d+\n", ran.stdout.decode())[1:]
    if len(rows) != len(paths):
        raise ValueError("rattle fmt --tokens gives another number of files than it was given")
    return {path: [token_of(row) for row in found.splitlines()] for path, found in zip(paths, rows)}


def token_of(row):
    line, _, _, kind, text = row.split(" ", 4)
    return Token(line, kind, json.loads(text) if "\\" in text else text[1:-1])


def text_of(tokens):
    """The tokens as text, with their lines."""
    words, line = [], None
    for token in tokens:
        words += ["\n"] if token.line != line else []
        words.append(token.text)
        line = token.line
    return " ".join(words)


def depths(tokens):
    """Each token with how many brackets are open before it; a closing one stands as deep as the one that it closes."""
    depth = 0
    for token in tokens:
        depth -= token.kind != "Literal" and token.text in CLOSES
        yield token, depth
        depth += token.kind != "Literal" and token.text in OPENS


def without_comments(text):
    """A definition's or a proof's text without empty lines and those of comments alone; all of it where a comment is in braces."""
    return text if "{-" in text else "\n".join(line for line in text.splitlines() if line.strip() and not line.lstrip().startswith("--"))


def words_of(text):
    """Each word that the text names, also as a part of a path."""
    return set(re.split(r"[\s(){}\[\];,.@⟦⟧«»:&]+", text))


# ---- imports

def imports_of(use):
    """The names that an import brings, each as its path and the word that it is used by; None where it can't be told."""
    text = re.sub(r"^(ghost )?use |;$", "", re.sub(r"\s+", " ", use).strip()).replace("::", ".").strip()
    whole = re.fullmatch(r"([^{},*]*?)\.?(?:\{([^{}*]*)\})?", text)
    if not whole or not whole[1] or text.startswith("pub "):
        return None
    names = [whole[1]] if whole[2] is None else [f"{whole[1]}.{name.strip()}" for name in whole[2].split(",") if name.strip()]
    return [(name, name.split(" as ")[-1].strip().rpartition(".")[2]) for name in names]


def is_named(word, words):
    """Whether the word, or each part of the operator, is among the words."""
    return all(part in words for part in word.split("◌") if part)


def imports_kept(uses, words):
    """The imports without the names that no word stands for."""
    kept = []
    for use in uses:
        names = imports_of(use)
        if names is None or any(word in UNSEEN or " " in word for _, word in names):
            kept.append(use)
        else:
            kept += [f"use {name}" for name, word in names if is_named(word, words)]
    return sorted(kept)


# ---- src/

def items(tokens):
    """The declarations that a file or a block has, each with its attributes."""
    item, braced = [], False
    for token, depth in depths(tokens):
        item.append(token)
        if depth:
            continue
        if token.kind == "Code" and token.text == "{":
            braced = True
        ends_here = token.text == "]" and len(item) > 2 and [it.text for it in item[:2]] == ["#", "!"]
        block_ends = token.text == "}" and braced and not ends_at_semicolon(item)
        if token.kind == "Code" and (token.text == ";" or block_ends or ends_here):
            yield item
            item, braced = [], False
    if item:
        yield item


def head_of(item):
    """The words of a declaration before its first bracket or name, without attributes."""
    words, skipped = [], False
    for token, depth in depths(item):
        if depth or token.text in OPENS + CLOSES:
            skipped = True
        elif token.text == "#" or token.text == "!" and not words:
            continue
        else:
            words.append(token.text)
            if token.text in ("fn", "impl", "mod", "use", "trait", "struct", "enum", "type", "static", "law", "macro_rules"):
                break
    return words if words or skipped else []


def ends_at_semicolon(item):
    words = head_of(item)
    return bool({"use", "type", "static"} & set(words)) or "const" in words and "fn" not in words or words[:1] == ["ghost"]


def body_at(item):
    """Where the block of a function, an impl or a module begins, and None without one."""
    in_clause = 0
    for number, (token, depth) in enumerate(depths(item)):
        in_clause += (token.kind == "Head" and token.text == "{") - (token.kind == "End")
        if not in_clause and not depth and token.kind == "Code" and token.text == "{":
            return number
    return None


def is_written(head):
    """Whether the function's type leaves something to its body, so that the body is read."""
    texts = [token.text for token in head]
    after = texts.index("fn")
    result = [number for number in range(after, len(texts) - 1) if texts[number:number + 2] == ["-", ">"]]
    return "const" in texts[:after] or "extern" in texts[:after] or any(word in texts[number:] for number in result[-1:] for word in ("impl", "dyn"))


def seen(tokens, owner="module"):
    """What other crates see of a file or a block of src/, and its imports; `owner` is `module`, `type`, or `impl` where that is of a trait."""
    kept, uses = [], []
    for item in items(tokens):
        words, at = head_of(item), body_at(item)
        if "use" in words[-1:]:
            uses.append(item)
        elif "fn" in words[-1:] and at is not None and not is_written(item[:at]):
            if "pub" in words or owner == "impl":
                kept += item[:at]
        elif words[-1:] in (["impl"], ["mod"]) and at is not None:
            own = "module" if words[-1] == "mod" else "impl" if "for" in [token.text for token in item[:at]] else "type"
            inside, more = seen(item[at + 1:-1], own)
            kept += [*item[:at + 1], *inside, item[-1]]
            uses += more
        else:
            kept += item
    return kept, uses


def interface_of_source(tokens):
    kept, uses = seen(tokens)
    text = text_of(kept)
    return "\n".join([*imports_kept([text_of_use(use) for use in uses], words_of(text)), text])


def text_of_use(use):
    """An import of src/ on one line, with spaces only where words need them."""
    return re.sub(r" ?([:.,{};]) ?", r"\1", " ".join(token.text for token in use))


# ---- proofs/

MARKS = ("pub", "abbrev", "unfoldable")
# What begins a declaration that is none of one name and its type.
HEADS = tuple("use mod module unfolding data record mutual ruleset open syntax pattern axiom infix infixl infixr".split())


def blocks(lines):
    """The declarations of a module of proofs, or of a block in one, as lists of lines: each begins at the column of the first."""
    column = len(lines[0]) - len(lines[0].lstrip()) if lines else 0
    block = []
    for line in lines:
        if block and len(line) - len(line.lstrip()) <= column and line.lstrip()[0] not in CLOSES:
            yield block
            block = []
        block.append(line)
    if block:
        yield block


def declared(text):
    """The name that a declaration says the type of; None where it is a case of a definition, or something else, or has several."""
    depth, before = 0, ""
    for part in re.split(r"([(\[{⟦)\]}⟧]|(?<=\s)[:=](?=\s|$))", text):
        depth += (part in "([{⟦" and part != "") - (part in ")]}⟧" and part != "")
        if not depth and part in (":", "="):
            names = [word for word in before.split() if word not in MARKS]
            return names[0] if part == ":" and len(names) == 1 else None
        before += part if not depth and part not in ")]}⟧" else " "
    return None


def inner_at(block):
    """The number of the line at which the block of a module with parameters begins; None where that can't be told."""
    ends = [number for number, line in enumerate(block) if line.rstrip().endswith(" where")]
    return ends[0] + 1 if ends and ends[0] + 1 < len(block) else None


def statements(lines, names):
    """The declarations of a module of proofs, and its imports. To `names` is added what marks each name has where it is declared."""
    found, uses = [], []
    for block in blocks(lines):
        text = "\n".join(block)
        words = text.split()
        marks = [word for word in words[:3] if word in MARKS]
        head = words[len(marks)] if len(words) > len(marks) else ""
        at = inner_at(block) if head == "module" else None
        name = None if head in HEADS else declared(text)
        if head == "use" and not marks:
            uses.append(text)
        elif at is not None:
            inside, more = statements(block[at:], names)
            found += [Item("\n".join(block[:at]), "", False), *inside]
            uses += more
        elif name:
            names.setdefault(name, set()).update(marks)
            found.append(Item(text, name, False))
        elif head == "unfolding" and found:
            found.append(Item(text, found[-1].name, True))
        else:
            found.append(Item(text, head if head in names else "", True))
    return found, uses


def interface_of_proofs(text):
    """What other crates can cite or unfold of a module of proofs: a private declaration only where what is public names it."""
    text, names = without_comments(text), {"": {"pub", "abbrev"}}
    found, uses = statements(text.splitlines(), names)
    if "{-" in text or any("◌" in name for name in names):
        # a case of an operator begins with a pattern, not with its name
        return text
    found = [item for item in found if not item.is_case or names[item.name] & {"abbrev", "unfoldable"}]
    kept = {name for name in names if "pub" in names[name]}
    words, left = set(), set(names)
    while reached := [name for name in left if name in kept or name in words]:
        left -= set(reached)
        kept.update(reached)
        words |= words_of("\n".join(item.text for item in found if item.name in reached))
    return "\n".join([*imports_kept(uses, words), *[item.text for item in found if item.name in kept]])


# ---- sums

def digest(*parts):
    return hashlib.sha256(repr(parts).encode()).hexdigest()


def interface_paths(crate, named):
    """The files of a library that a check of a crate above reads."""
    def is_read(path):
        module = path[:-len(".antt")].split("/")[3:]
        hidden = os.path.basename(path) in OF_FUNCTIONS and len(module) > 1
        return not path.startswith(f"crates/{crate}/proofs/") or not hidden or f"{crate}.{'.'.join(module)}" in named

    return [path for path in files_of(crate) if path.endswith((".rt", ".antt")) and is_read(path)]


def interface_of(path, text, tokens):
    if path.endswith(".rt"):
        return interface_of_source(tokens[path])
    return interface_of_proofs(text.decode()) if path.split("/")[2] == "proofs" else without_comments(text.decode())


def read_sums():
    """By crate, the sum of all that a check of it reads but for the kit."""
    crates = below()
    texts = {path: read(path) for crate in crates for path in files_of(crate)}
    own = {crate: digest([(path, texts[path]) for path in files_of(crate)]) for crate in crates}
    named = named_elsewhere(texts)
    lower = sorted({name for crate in crates for name in crates[crate][1]})
    paths = {crate: interface_paths(crate, named) for crate in lower}
    tokens = tokens_of([path for crate in lower for path in paths[crate] if path.endswith(".rt")])
    shown = {crate: digest(crates[crate][0], [(path, interface_of(path, texts[path], tokens)) for path in paths[crate]]) for crate in lower}
    code = {crate: digest([(path, text_of(tokens[path])) for path in paths[crate] if path in tokens]) for crate in lower}
    return {
        crate: digest(row, own[crate], [(name, code[name] if is_program(crate) else "", shown[name]) for name in names])
        for crate, (row, names) in crates.items()
    }
