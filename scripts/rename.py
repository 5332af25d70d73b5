#!/usr/bin/env python3
"""Carries a tree, a crate or a patch that was made before the names of scripts/renames.txt over to them.

Usage: scripts/rename.py [--lines] [PATH ..]

A PATH is a folder with a crates.txt (a tree), a folder with a src/ (a crate, named as its folder is), or
a patch. With none it is the tree that this script stands in. What has the new names stays as it is, so
a second run changes nothing. --lines prints each line that is changed, as it is afterwards. After a tree
or a crate, `rt fmt` in each crate that is printed: a longer name breaks lines elsewhere.

The lines of the list apply in their order, each to what the earlier ones made:

    crate OLD NEW                  a crate. Of a name that is also an ordinary word, with `word` behind it:
                                   only where the syntax says that it is a crate, and in back quotes
    module CRATE/specs/OLD NEW     a file of specs/, of proofs/ or of src/
    item CRATE/PART/MODULE OLD NEW       what that file defines: a definition, a type, a function. It is
                                   renamed where it is defined, and in each file that imports it from there
    method CRATE/src/MODULE OLD NEW      a method that its crate alone calls
    word CRATE OLD NEW             a word of a crate that means one thing in it, as a field, a variable or an alias
    ending CRATE OLD NEW           the ending of the lemmas of a crate, behind an underscore
    prose CRATE OLD NEW            a word of the comments of a crate
    local PATH OLD NEW             a word of one file; of a document, where it stands in back quotes
    documented CRATE               what stands above a function in `//` stands there in `///`

An item is followed through what is passed on by `pub use`, into the paths and the folders of proofs, and,
of a function, into the names that proofs have of its calls (`c.f.ensures`, `f-requires`). Of comments, only
what stands in back quotes is renamed. A file that has the new name already, and would have the two under one,
is named and left; then the status is 1. A patch is read beside the tree that this script stands in, which
says what each of its files imports.
"""
import os
import re
import subprocess
import sys

HERE = os.path.dirname(os.path.abspath(__file__))
ROOT = os.path.dirname(HERE)
LIST = f"{HERE}/renames.txt"
OWN = ("scripts/rename.py", "scripts/renames.txt")
PARTS = ("src", "specs", "proofs")

# A word of a spec or a proof may have dashes and pluses inside; a part of it is what stands between them.
WORD = r"[\w'?«»]+(?:[-+][\w'?«»]+)*"
RUST_PIECES = re.compile(
    r"(?P<comment>//[^\n]*|/\*.*?\*/)"
    r"|(?P<text>b?r#\".*?\"#|b?\"(?:\\.|[^\"\\])*\"|b?'(?:\\.[^']*|[^\\'\n])')", re.S)
ANTT_PIECES = re.compile(r"(?P<comment>(?:(?<=\s)|^|(?<=\A))--(?=\s|$)[^\n]*)|(?P<text>\"(?:\\.|[^\"\\])*\")", re.M)
EDIT_PIECES = re.compile(r"(?P<comment>//[^\n]*)|(?P<text>b?\"(?:\\.|[^\"\\\n])*\")")
ANTT_PATH = re.compile(r"Rattle((?:\.[\w'+-]+)+)(?:\.\{([^}]*)\})?")
RUST_USE = re.compile(r"(?<![\w])(pub(?:\([a-z]+\))?\s+)?(?<!ghost )use\s+([\w:{}\s,*]+);")
QUOTED = re.compile(r"`[^`\n]+`")
# Between the hunks of a file and the file as the tree has it.
MARK = "\n\1\n"


class Rule:
    def __init__(self, line):
        words = line.split()
        self.line = line
        self.kind = words[0]
        self.is_word = False
        if self.kind == "crate":
            self.old, self.new = words[1:3]
            self.is_word = words[3:] == ["word"]
        elif self.kind == "module":
            path, self.new = words[1:]
            self.crate, self.part, *self.inside, self.old = path.split("/")
        elif self.kind in ("item", "method"):
            path, self.old, self.new = words[1:]
            self.crate, self.part, *self.inside = path.split("/")
        elif self.kind == "local":
            self.path, self.old, self.new = words[1:]
        elif self.kind == "documented":
            self.crate = words[1]
        elif self.kind in ("word", "ending", "prose"):
            self.crate, self.old, self.new = words[1:]
        else:
            raise SystemExit(f"{LIST}: {line}")

    def is_type(self):
        return self.old[0].isupper()


def rules_of_list():
    with open(LIST, encoding="utf-8") as it:
        lines = [line.split("#")[0].strip() for line in it]
    return [Rule(line) for line in lines if line]


# ---- what a file is

def kind_of(path):
    for ending, kind in ((".rt", "rust"), (".antt", "antt"), (".edit", "edit")):
        if path.endswith(ending):
            return kind
    return "text"


def place_of(path):
    """The crate, the part and the rest of a path below crates/."""
    parts = path.split("/")
    if len(parts) < 4 or parts[0] != "crates" or parts[2] not in PARTS:
        return None
    rest = parts[3:]
    rest[-1] = re.sub(r"\.(rt|antt)$", "", rest[-1])
    return parts[1], parts[2], rest


def pieces(text, kind):
    """The text in turns of code and of what is none: (is it code, is it a comment, the piece)."""
    form = {"rust": RUST_PIECES, "antt": ANTT_PIECES, "edit": EDIT_PIECES}[kind]
    at = 0
    for found in form.finditer(text):
        yield "code", text[at:found.start()]
        yield ("comment" if found.group("comment") is not None else "text"), found.group()
        at = found.end()
    yield "code", text[at:]


def map_code(text, kind, change, quoted=None):
    """The text with its code changed, and what stands in back quotes in comments."""
    made = []
    for what, piece in pieces(text, kind):
        if what == "code":
            piece = change(piece)
        elif what == "comment" and quoted:
            piece = QUOTED.sub(lambda found: quoted(found.group()), piece)
        made.append(piece)
    return "".join(made)


def code_of(text, kind):
    return "\n".join(piece for what, piece in pieces(text, kind) if what == "code")


def names_in(braces):
    for item in (braces or "").split(","):
        words = item.split()
        if words:
            yield words[0]


def antt_imports(text):
    """The paths that are named below Rattle, each with the names that are taken from it."""
    for found in ANTT_PATH.finditer(text):
        yield found.group(1)[1:].split("."), list(names_in(found.group(2))), found.start()


def leaves(tree, before):
    """The paths of a use of Rust, with their nested braces."""
    tree = tree.strip()
    brace = tree.find("{")
    if brace < 0:
        path = tree.split(" as ")[0].strip()
        yield before + [part for part in path.split("::") if part]
        return
    head = before + [part.strip() for part in tree[:brace].split("::") if part.strip()]
    depth, start = 0, brace + 1
    for at in range(brace, len(tree)):
        if tree[at] == "{":
            depth += 1
        elif tree[at] == "}":
            depth -= 1
        if (tree[at] == "," and depth == 1) or depth == 0:
            if tree[start:at].strip():
                yield from leaves(tree[start:at], head)
            start = at + 1
            if depth == 0:
                return


def rust_uses(text):
    for found in RUST_USE.finditer(text):
        for path in leaves(found.group(2), []):
            yield path, bool(found.group(1))


# ---- what is renamed: a tree, a crate or a patch, each as texts by their paths

class Sources:
    """Files by their paths below the tree. A path that is moved keeps its file."""

    def __init__(self, texts):
        self.texts = texts
        self.first = {path: path for path in texts}
        self.before = dict(texts)

    def crates(self):
        return {path.split("/")[1] for path in self.texts if path.startswith("crates/")}

    def move(self, old, new):
        if new in self.texts:
            raise SystemExit(f"{new} is there already")
        self.texts[new] = self.texts.pop(old)
        self.first[new] = self.first.pop(old)

    def move_below(self, old, new):
        """Moves the file, or what is in the folder."""
        for path in sorted(self.texts):
            if path == old or path.startswith(f"{old}/"):
                self.move(path, new + path[len(old):])


def read_tree(folder, listed=None):
    """The files of a tree, as git lists them or as they lie there."""
    if listed is None:
        run = subprocess.run(["git", "-C", folder, "ls-files", "-z", "--cached", "--others", "--exclude-standard"],
                             capture_output=True)
        listed = [it for it in run.stdout.decode().split("\0") if it] if run.returncode == 0 else None
    if listed is None:
        listed = []
        for top, folders, files in os.walk(folder):
            folders[:] = [it for it in folders if it not in (".git", "out")]
            listed += [os.path.relpath(f"{top}/{it}", folder) for it in files]
    texts = {}
    for path in listed:
        if path in OWN or os.path.islink(f"{folder}/{path}") or not os.path.isfile(f"{folder}/{path}"):
            continue
        with open(f"{folder}/{path}", "rb") as it:
            data = it.read()
        try:
            texts[path] = data.decode("utf-8")
        except UnicodeDecodeError:
            pass
    return texts


# ---- crates

def rename_crate(sources, rule):
    old, new = rule.old, rule.new
    sources.move_below(f"crates/{old}", f"crates/{new}")
    for path, text in sources.texts.items():
        if old in text:
            sources.texts[path] = crate_in(path, text, rule)


def crate_in(path, text, rule):
    old, new = rule.old, rule.new
    place = place_of(path)
    if not rule.is_word:
        # Rows and outputs are data of tests: nothing in them is a name of the tree.
        if re.match(r"crates/[^/]+/(data/|stdout$)", path):
            return text
        made = re.sub(rf"(?<![\w]){old}(?!\w)", new, text)
    else:
        made = re.sub(rf"(?<!\w)Rattle\.{old}(?=\.)", f"Rattle.{new}", text)
        made = re.sub(rf"(?<![\w.])crates/{old}(?![\w.])", f"crates/{new}", made)
        kind = kind_of(path)
        if path == "crates.txt":
            made = re.sub(rf"(?m)(?<!\w){old}(?!\w)", new, made)
        elif kind in ("rust", "edit") and not path.startswith((f"crates/{old}/", f"crates/{new}/")):
            # (in the crate itself the word is a module, as no path begins with the name of its own crate)
            outer = rf"(?<![\w:]){old}(?=::)"
            made = map_code(made, kind, lambda code: re.sub(outer, new, code),
                            lambda quoted: f"`{new}`" if quoted == f"`{old}`" else quoted)
            # A link of a comment goes to a path.
            made = re.sub(rf"\]\({old}::", f"]({new}::", made)
        elif path.endswith(".md"):
            made = re.sub(rf"`{old}`", f"`{new}`", made)
            made = re.sub(rf"(?m)^{old}( +)(?=\S)(?!NAME)", lambda it: new + it.group(1) if len(it.group(1)) > 1 else it.group(), made)
        elif path.startswith(("bench/", "checks/", "scripts/")):
            made = re.sub(rf"(?<=[\"']){old}(?=[\"'])", new, made)
    if path.endswith("architecture.md"):
        made = lay_out_columns(made, new)
    return made


COLUMN = 16


def lay_out_columns(text, name):
    """A list of crates has its second column at a fixed place, on a line of its own behind a long name."""
    def lay_out(found):
        if len(name) < COLUMN:
            return f"{name:<{COLUMN}}{found.group(1)}"
        return f"{name}\n{'':{COLUMN}}{found.group(1)}"
    return re.sub(rf"(?m)^{name}(?: {{2,}}|\n {{{COLUMN}}}| (?=[a-z]))(\S[^\n]*)$", lay_out, text)


# ---- modules

def rename_module(sources, rule):
    base = "/".join(["crates", rule.crate, rule.part] + rule.inside)
    ending = "rt" if rule.part == "src" else "antt"
    sources.move_below(f"{base}/{rule.old}.{ending}", f"{base}/{rule.new}.{ending}")
    sources.move_below(f"{base}/{rule.old}", f"{base}/{rule.new}")
    if rule.part == "src":
        proofs = "/".join(["crates", rule.crate, "proofs"] + rule.inside)
        sources.move_below(f"{proofs}/{rule.old}", f"{proofs}/{rule.new}")
    inside = "".join(f"{it}\\." for it in rule.inside)
    if rule.part == "src":
        path = rf"(?<!\w)(Rattle\.{rule.crate}\.(?:specs\.declared\.|proofs\.){inside}){rule.old}(?![\w'-])"
    else:
        path = rf"(?<!\w)(Rattle\.{rule.crate}\.{rule.part}\.{inside}){rule.old}(?![\w'-])"
    for name, text in sources.texts.items():
        if rule.old not in text:
            continue
        made = re.sub(path, rf"\g<1>{rule.new}", text)
        place = place_of(name)
        made = re.sub(rf"{rust_path(rule, place)}{rule.old}(?=::)", rf"\g<1>{rule.new}", made)
        if place and place[0] == rule.crate:
            if rule.part == "src" and kind_of(name) == "rust":
                made = re.sub(rf"(?m)^(\s*(?:pub(?:\([a-z]+\))? )?mod ){rule.old};", rf"\g<1>{rule.new};", made)
                made = re.sub(rf"(?<![\w.]){rule.old}::", f"{rule.new}::", made)
            elif rule.part != "src" and place[1:] == (rule.part, rule.inside + ["Lib"]):
                made = re.sub(rf"(?m)^((?:pub )?mod ){rule.old}$", rf"\g<1>{rule.new}", made)
        # A path in words: specs/Old, proofs/Old, src/old.rt
        mine = (place and place[0] == rule.crate) or (name.split("/")[:2] == ["crates", rule.crate])
        words = rf"{rule.part}/{'/'.join(rule.inside + [rule.old])}"
        made = re.sub(rf"(?<![\w/])((?:crates/)?{rule.crate}/){words}(?!\w)", rf"\g<1>{words[:-len(rule.old)]}{rule.new}", made)
        if mine:
            made = re.sub(rf"(?<![\w/]){words}(?![\w])", f"{words[:-len(rule.old)]}{rule.new}", made)
        sources.texts[name] = made


def rust_path(rule, place):
    """What stands before the module in a path of an attribute, as in `using(crate::proofs::Old::lemma)`."""
    crates = f"(?:crate|{rule.crate})" if place and place[0] == rule.crate else rule.crate
    inside = "".join(f"{it}::" for it in rule.inside)
    return rf"(?<![\w:])({crates}::{rule.part}::{inside})"


# ---- items and methods

def homes(around, rule):
    """The modules from which the item can be had: its own, and those that import it from one of them."""
    found = {(rule.crate, rule.part, module_of(rule.inside))}
    either = (rule.old, rule.new)
    while True:
        size = len(found)
        for path, text in around.items():
            place = place_of(path)
            if not place or (rule.old not in text and rule.new not in text):
                continue
            here = (place[0], place[1], module_of(place[2]))
            if rule.part == "src" and kind_of(path) == "rust" and place[0] == rule.crate:
                if any(uses[-1] in either and module_used(uses, place) in found for uses, _ in rust_uses(text)):
                    found.add(here)
            elif rule.part != "src" and kind_of(path) == "antt":
                for found_use in re.finditer(r"(?m)^\s*pub use (Rattle[^\n]*)", text):
                    for names, taken, _ in antt_imports(found_use.group(1)):
                        if any(it in taken for it in either) and home_of(names) in found:
                            found.add(here)
        if len(found) == size:
            return found


def module_of(inside):
    """A module by its path below the crate; the root is lib.rt or main.rt."""
    return tuple(it for it in inside if it not in ("lib", "main"))


def module_used(uses, place):
    """The module of this crate that a use takes something from, or that of another crate."""
    crate, names = place[0], list(uses[:-1])
    here = list(module_of(place[2]))
    if names and names[0] == "crate":
        names = names[1:]
    elif names and names[0] in ("self", "super"):
        while names and names[0] in ("self", "super"):
            if names[0] == "super":
                here = here[:-1]
            names = names[1:]
        names = here + names
    else:
        # A path begins with a module below this one, or with another crate, whose name no module has.
        names = here + names
    return (crate, "src", tuple(names))


def home_of(names):
    return (names[0], names[1] if len(names) > 1 else "", module_of(names[2:]))


def binds(path, text, rule, found_homes):
    """Whether the item's name, in this file, is the item."""
    place = place_of(path)
    if not place or (rule.old not in text and rule.new not in text):
        return False
    kind = kind_of(path)
    if kind != "edit" and (place[0], place[1], module_of(place[2])) == (rule.crate, rule.part, module_of(rule.inside)):
        return True
    either = (rule.old, rule.new)
    for names, taken, _ in antt_imports(text):
        if any(it in taken for it in either) and home_of(names) in found_homes:
            return True
        if rule.part == "src" and names[0] == rule.crate:
            inside = names[1:]
            if inside[:2] == ["specs", "declared"] and inside[2:-1] == rule.inside and inside[-1] in either:
                return True
    if kind == "rust" and rule.part == "src":
        for uses, _ in rust_uses(text):
            if uses[-1] in either:
                outer = (uses[0], "src", tuple(uses[1:-1])) if len(uses) > 1 else None
                if (place[0] == rule.crate and module_used(uses, place) in found_homes) or (place[0] != rule.crate and outer in found_homes):
                    return True
    return False


def rename_item(sources, around, rule, found_homes, refused):
    seen = set()
    for path, text in around.items():
        if binds(path, text, rule, found_homes):
            seen.add(path)
    for path, text in sources.texts.items():
        if binds(path, text, rule, found_homes):
            seen.add(path)
    everything = {**around, **sources.texts}
    calls = seen_calls(seen, rule)
    both = seen_calls({path for path in seen if re.search(rf"\.{rule.old}\(", everything[path])}, rule)
    trait = is_trait(everything, rule)
    for path in list(sources.texts):
        text = sources.texts[path]
        if rule.old not in text:
            continue
        made = paths_to_item(path, text, rule)
        kind = kind_of(path)
        edited = edited_file(path, text) if kind == "edit" else None
        if path in seen or (edited and any(it in seen for it in edited)):
            made = words_of_item(path, made, rule, kind)
        place = place_of(path)
        if trait and place and (place[0] == rule.crate or path in seen):
            # What a type parameter has of a trait: `g.T.Old.member` in a proof, `T.Old` in a clause.
            made = map_code(made, kind, lambda code: re.sub(rf"(?<=\w\.){rule.old}(?![\w'])", rule.new, code))
        if kind == "antt" and rule.part == "src" and not rule.is_type() and proves_call(path, text, calls):
            called = calls_in_proof(made, rule)
            if called != made and proves_call(path, text, both):
                refused.append(f"{path}: {rule.old} is a method's name too")
                continue
            made = called
        if made != text and clashes(path, text, rule, kind):
            refused.append(f"{path}: has {rule.new} already, and {rule.old}")
            continue
        sources.texts[path] = made
    move_proofs(sources, rule)


def is_trait(texts, rule):
    home = "/".join(["crates", rule.crate, rule.part] + rule.inside) + ".rt"
    return rule.is_type() and re.search(rf"\btrait ({rule.old}|{rule.new})\b", texts.get(home, "")) is not None


def seen_calls(seen, rule):
    """The modules of Rust that call the function, as the paths of their proofs."""
    found = set()
    for path in seen:
        place = place_of(path)
        if place and place[1] == "src":
            inside = [it for it in place[2] if it not in ("lib", "main")]
            found.add((place[0], tuple(inside)))
    return found


def proves_call(path, text, calls):
    place = place_of(path)
    if not place or place[1] != "proofs":
        return False
    here = tuple(place[2][:-1])
    for crate, inside in calls:
        if place[0] == crate and len(here) > len(inside) and here[:len(inside)] == inside:
            if inside or len(here) == 1:
                return True
    for names, _, _ in antt_imports(text):
        if len(names) > 3 and names[1] == "proofs" and names[-1] in ("Goals", "Given", "Lts"):
            for crate, inside in calls:
                if names[0] == crate and inside and tuple(names[2:2 + len(inside)]) == inside:
                    return True
    return False


def paths_to_item(path, text, rule):
    """The item as a part of a path: of a type's own module, or of the folder of a function's proof."""
    if rule.part != "src":
        return re.sub(rf"{rust_path(rule, place_of(path))}{re.escape(rule.old)}(?![\w'-])", rf"\g<1>{rule.new}", text)
    inside = "".join(f"{it}\\." for it in rule.inside if it not in ("lib", "main"))
    form = rf"(?<!\w)(Rattle\.{rule.crate}\.(?:specs\.declared\.|proofs\.){inside}(?:[A-Z]\w*\.)?){rule.old}(?=\.)"
    text = re.sub(form, rf"\g<1>{rule.new}", text)
    if rule.is_type():
        text = re.sub(rf"(?<!\w)(Rattle\.{rule.crate}\.proofs\.(?:[a-z]\w*\.)+)({impl_of(rule.old)})(?=\.)",
                      lambda it: it.group(1) + it.group(2).replace(rule.old, rule.new), text)
    return text


def impl_of(name):
    """The folder of an impl is named by its type and its trait, as PoolMachine is."""
    return rf"[A-Z]\w*{name}|{name}[A-Z]\w*"


def words_of_item(path, text, rule, kind):
    old, new = re.escape(rule.old), rule.new
    if kind in ("rust", "edit") and not rule.is_type() and rule.part == "src":
        def change(code):
            code = re.sub(rf"(?<![\w.]){old}(?=\s*(?:\(|::<))", new, code)
            code = re.sub(rf"(?<=fn ){old}(?=\s*[<(])", new, code)
            return RUST_USE.sub(lambda it: re.sub(rf"(?<!\w){old}(?!\w|::)", new, it.group()), code)
    else:
        # In a clause, and in a spec or a proof, each such word that isn't a field.
        form = rf"(?<![\w'.«◌+-]){old}(?![\w'»◌+-])"
        if kind == "antt" or rule.part != "src":
            def change(code):
                code = re.sub(form, new, code)
                return re.sub(rf"(?<![\w'.«◌+-])(\.)?{old}(?=[-+])", lambda it: it.group(), code)
        else:
            def change(code):
                return re.sub(form, new, code)

    def quoted(words):
        return re.sub(rf"(?<![\w'.«◌+-]){old}(?![\w'»◌+-])", new, words)
    return map_code(text, kind, change, quoted)


def calls_in_proof(text, rule):
    """The function as a step of a proof (`c.f`) and as a part of a goal's name (`f-requires`)."""
    def change(code):
        def word(found):
            token = found.group()
            parts = re.split(r"([-+])", token)
            if len(parts) == 1:
                before = code[:found.start()]
                is_step = before.endswith(".") and not re.search(r"Rattle[\w.'+-]*\.$", before)
                return rule.new if token == rule.old and is_step else token
            return "".join(rule.new if part == rule.old else part for part in parts)
        return re.sub(WORD, word, code)
    return map_code(text, "antt", change)


def move_proofs(sources, rule):
    """The folder of a function's proofs is named as the function is."""
    if rule.part != "src":
        return
    inside = [it for it in rule.inside if it not in ("lib", "main")]
    base = "/".join(["crates", rule.crate, "proofs"] + inside)
    form = re.compile(rf"({re.escape(base)}/(?:[A-Z]\w*/)?){re.escape(rule.old)}(/.*)")
    for path in sorted(sources.texts):
        found = form.fullmatch(path)
        if found:
            sources.move(path, f"{found.group(1)}{rule.new}{found.group(2)}")
        elif rule.is_type():
            found = re.fullmatch(rf"(crates/{rule.crate}/proofs/(?:[a-z]\w*/)+)({impl_of(rule.old)})(/.*)", path)
            if found:
                sources.move(path, found.group(1) + found.group(2).replace(rule.old, rule.new) + found.group(3))


def clashes(path, text, rule, kind):
    if kind == "text":
        return False
    code = code_of(text.split(MARK)[0], kind)
    old, new = re.escape(rule.old), re.escape(rule.new)
    if not re.search(rf"(?<![\w'.«◌+-]){old}(?![\w'»◌+-])", code):
        return False
    if re.search(rf"◌{old}◌", code):
        return True
    if kind == "rust":
        # A word of specs and one of the code may be the same: they are never taken for each other.
        spec_words = {it for _, taken, _ in antt_imports(code) for it in taken}
        if rule.part != "src":
            return rule.new in spec_words
        return re.search(rf"\b(fn|struct|enum|trait|type|const|static) {new}\b|(?<![\w.]){new}\(", code) is not None \
            or any(uses[-1] == rule.new for uses, _ in rust_uses(code))
    return re.search(rf"(?<![\w'.«◌+-]){new}(?![\w'»◌+-]|\s*:[^:])", code) is not None


def edited_file(path, text):
    """The files that an edit changes."""
    crate = "/".join(path.split("/")[:2])
    return [f"{crate}/{it.strip()}" for it in re.findall(r"(?m)^file: (.*)$", text)]


def rename_method(sources, around, rule, refused):
    """Every call of a method of that name, in the crates whose sources name the crate that has it."""
    old, new = re.escape(rule.old), rule.new
    form = re.compile(rf"(?<=\.){old}(?=\()|(?<=::){old}(?=\()|(?<=fn ){old}(?=\s*[<(])")
    seen = set()
    for path, text in list(around.items()) + list(sources.texts.items()):
        place = place_of(path)
        if place and kind_of(path) == "rust" and place[0] == rule.crate:
            if form.search(text) or re.search(rf"(?:\.|fn |::){new}\s*[<(]", text):
                seen.add(path)
    calls = seen_calls(seen, rule)
    for path in list(sources.texts):
        text = sources.texts[path]
        if rule.old not in text:
            continue
        kind = kind_of(path)
        made = paths_to_item(path, text, rule)
        edited = edited_file(path, text) if kind == "edit" else None
        if path in seen or (edited and any(it in seen for it in edited)):
            made = map_code(made, kind, lambda code: form.sub(new, code),
                            lambda words: re.sub(rf"(?<![\w']){old}(?![\w'-])", new, words))
        if kind == "antt" and proves_call(path, text, calls):
            made = calls_in_proof(made, rule)
        sources.texts[path] = made
    move_proofs(sources, rule)


def rename_local(sources, rule):
    text = sources.texts.get(rule.path)
    if text is None:
        return
    kind = kind_of(rule.path)
    form = rf"(?<![\w'.«◌+-]){re.escape(rule.old)}(?![\w'»◌+-])"
    def change(it):
        return re.sub(form, rule.new, it)
    if rule.path.endswith(".md"):
        sources.texts[rule.path] = QUOTED.sub(lambda found: change(found.group()), text)
    elif kind == "text":
        sources.texts[rule.path] = change(text)
    else:
        sources.texts[rule.path] = map_code(text, kind, change, change)


def rename_word(sources, rule, refused):
    """A word of the code, behind a dot too."""
    form = rf"(?<![\w'«◌+-]){rule.old}(?![\w'»◌+-])"
    for path, text in list(sources.texts.items()):
        place, kind = place_of(path), kind_of(path)
        if place and place[0] == rule.crate and kind != "text" and rule.old in text:
            code = re.sub(r"Rattle\.[\w.'+-]+", "", code_of(text.split(MARK)[0], kind))
            if not re.search(form, code):
                continue
            if re.search(rf"(?<![\w'«◌+-]){rule.new}(?![\w'»◌+-])", code):
                refused.append(f"{path}: has {rule.new} already, and {rule.old}")
                continue
            any_word = re.compile(rf"(Rattle\.[\w.'+-]+)|{form}")
            sources.texts[path] = map_code(text, kind, lambda it: any_word.sub(lambda at: at.group(1) or rule.new, it))


def rename_prose(sources, rule):
    for path, text in list(sources.texts.items()):
        place, kind = place_of(path), kind_of(path)
        if place and place[0] == rule.crate and kind != "text":
            sources.texts[path] = "".join(
                re.sub(rf"(?<![\w`]){rule.old}(?![\w`])", rule.new, piece) if what == "comment" else piece
                for what, piece in pieces(text, kind))


def document(sources, rule):
    """A comment right above a function, or above its attributes, becomes one of the function."""
    form = re.compile(r"(?m)^(?:[ \t]*//(?![/!]| ?-)[^\n]*\n)+(?=(?:[ \t]*#\[[^\n]*\n)*[ \t]*(?:pub(?:\([a-z]+\))? )?(?:const )?(?:unsafe )?fn )")
    for path, text in list(sources.texts.items()):
        place = place_of(path)
        if place and place[:2] == (rule.crate, "src") and kind_of(path) == "rust":
            sources.texts[path] = form.sub(lambda it: re.sub(r"(?m)^([ \t]*)//", r"\1///", it.group()), text)


def rename_ending(sources, around, rule, refused):
    """The lemmas of the crate with that ending, in the crate and wherever they are imported."""
    everything = {**around, **sources.texts}
    named = set()
    for path, text in everything.items():
        place = place_of(path)
        if place and place[0] == rule.crate and kind_of(path) == "antt":
            named |= set(re.findall(rf"(?m)^\s*(?:(?:pub|abbrev|unfoldable) )*([a-z]\w*_{rule.old}) :(?=\s)", text))
    more = rule.new[:-len(rule.old) - 1] if rule.new.endswith(f"_{rule.old}") else "is"
    stems = [it[:-len(rule.old) - 1] for it in sorted(named)]
    # One that says so already, as `lines_read_back` or `is_plain`, keeps its name.
    known = "|".join(it for it in stems if it.split("_")[-1] not in (more, more.rstrip("s"), "is"))
    if not known:
        return
    form = re.compile(rf"(?<![\w'«◌+-])({known})_{rule.old}(?![\w'»◌+-])")
    for path, text in list(sources.texts.items()):
        place, kind = place_of(path), kind_of(path)
        if not place or kind == "text" or f"_{rule.old}" not in text:
            continue
        mine = place[0] == rule.crate or any(
            names[0] == rule.crate and any(form.fullmatch(it) for it in taken) for names, taken, _ in antt_imports(text))
        if mine:
            sources.texts[path] = map_code(text, kind, lambda it: form.sub(rf"\1_{rule.new}", it))


def rename_all(sources, around=None):
    """Applies the list. What the sources lack, `around` has: the tree beside them."""
    refused = []
    for rule in rules_of_list():
        if rule.kind == "crate":
            rename_crate(sources, rule)
        elif rule.kind == "module":
            rename_module(sources, rule)
        elif rule.kind == "local":
            rename_local(sources, rule)
        elif rule.kind == "word":
            rename_word(sources, rule, refused)
        elif rule.kind == "prose":
            rename_prose(sources, rule)
        elif rule.kind == "documented":
            document(sources, rule)
        else:
            beside = dict(around or {})
            for path in sources.texts:
                beside.pop(path, None)
            if rule.kind == "ending":
                rename_ending(sources, beside, rule, refused)
            elif rule.kind == "method":
                rename_method(sources, beside, rule, refused)
            else:
                rename_item(sources, beside, rule, homes({**beside, **sources.texts}, rule), refused)
        if around is not None:
            shadow = Sources(dict(around))
            if rule.kind == "crate":
                rename_crate(shadow, rule)
            elif rule.kind == "module":
                rename_module(shadow, rule)
            around = shadow.texts
    return refused


# ---- where it comes from and goes to

def write_tree(folder, sources, in_git):
    changed = set()
    for path, first in sorted(sources.first.items()):
        text = sources.texts[path]
        if path != first:
            os.makedirs(os.path.dirname(f"{folder}/{path}"), exist_ok=True)
            tracked = in_git and subprocess.run(["git", "-C", folder, "ls-files", "--error-unmatch", first],
                                                capture_output=True).returncode == 0
            if tracked:
                subprocess.run(["git", "-C", folder, "mv", first, path], check=True)
            else:
                os.rename(f"{folder}/{first}", f"{folder}/{path}")
        if text != sources.before[first]:
            mode = os.stat(f"{folder}/{path}").st_mode
            with open(f"{folder}/{path}", "w", encoding="utf-8", newline="") as it:
                it.write(text)
            os.chmod(f"{folder}/{path}", mode)
        if path != first or text != sources.before[first]:
            changed.add(path)
    return changed


def print_lines(sources):
    for path, first in sorted(sources.first.items()):
        old, new = sources.before[first].split("\n"), sources.texts[path].split("\n")
        if path != first:
            print(f"{first} -> {path}")
        if len(old) == len(new):
            for number, (a, b) in enumerate(zip(old, new), 1):
                if a != b:
                    print(f"{path}:{number}:{b}")
        elif old != new:
            print(f"{path}: {len(old)} lines, now {len(new)}")


def rename_folder(folder, lines):
    is_tree = os.path.isfile(f"{folder}/crates.txt")
    if is_tree:
        in_git = os.path.exists(f"{folder}/.git")
        sources = Sources(read_tree(folder))
        refused = rename_all(sources)
        if lines:
            print_lines(sources)
        changed = write_tree(folder, sources, in_git)
        empty_folders(f"{folder}/crates")
    else:
        name = os.path.basename(os.path.abspath(folder))
        texts = {f"crates/{name}/{path}": text for path, text in read_tree(folder, walk(folder)).items()}
        sources = Sources(texts)
        refused = rename_all(sources, read_tree(ROOT))
        if lines:
            print_lines(sources)
        top = next(iter(sources.crates()), name)
        plain = Sources({path[len(f"crates/{top}/"):]: text for path, text in sources.texts.items()})
        plain.first = {path[len(f"crates/{top}/"):]: first[len(f"crates/{name}/"):] for path, first in sources.first.items()}
        plain.before = {path[len(f"crates/{name}/"):]: text for path, text in sources.before.items()}
        changed = write_tree(folder, plain, False)
        empty_folders(folder)
        if top != name:
            os.rename(folder, os.path.join(os.path.dirname(os.path.abspath(folder)), top))
        changed = {f"crates/{top}/{path}" for path in changed}
    for crate in sorted({path.split("/")[1] for path in changed if path.startswith("crates/")}):
        print(crate)
    return refused


def walk(folder):
    found = []
    for top, folders, files in os.walk(folder):
        folders[:] = [it for it in folders if it not in (".git", "out")]
        found += [os.path.relpath(f"{top}/{it}", folder) for it in files]
    return found


def empty_folders(folder):
    for top, _, _ in os.walk(folder, topdown=False):
        try:
            os.rmdir(top)
        except OSError:
            pass


FILE_LINE = re.compile(r"^(diff --git a/|--- a/|\+\+\+ b/|rename from |rename to |copy from |copy to )")


def rename_patch(path, lines):
    """Each file of the patch is renamed as the lines of it that the patch shows, with its paths."""
    with open(path, encoding="utf-8", newline="") as it:
        text = it.read()
    parts = re.split(r"(?m)^(?=diff --git )", text)
    around = read_tree(ROOT)
    texts, heads = {}, []
    for number, part in enumerate(parts):
        found = re.match(r"diff --git a/(\S+) b/(\S+)\n", part)
        heads.append(found.groups() if found else None)
    # All parts at once, so that a name which one of them brings is known in the others.
    bodies = {}
    for number, head in enumerate(heads):
        if head:
            bodies[head[1]] = number
    made = Sources({name: hunks_of(parts[number]) for name, number in bodies.items()})
    other = Sources({head[0]: "" for head in heads if head and head[0] not in bodies})
    refused = rename_hunks(made, around)
    rename_all(other, {})
    new_names = {first: now for now, first in list(made.first.items()) + list(other.first.items())}
    result = []
    for number, part in enumerate(parts):
        if not heads[number]:
            result.append(part)
            continue
        old_a, old_b = heads[number]
        part = with_hunks(part, made.texts[new_names[old_b]])
        head, rest = split_head(part)
        head = re.sub(rf"(?<=[ /]){re.escape(old_a)}(?=\s)", new_names[old_a], head)
        if old_b != old_a:
            head = re.sub(rf"(?<=[ /]){re.escape(old_b)}(?=\s)", new_names[old_b], head)
        result.append(head + rest)
    new_text = "".join(result)
    if lines:
        for a, b in zip(text.split("\n"), new_text.split("\n")):
            if a != b:
                print(b)
    if new_text != text:
        with open(path, "w", encoding="utf-8", newline="") as it:
            it.write(new_text)
    return refused


def split_head(part):
    at = re.search(r"(?m)^@@ ", part)
    return (part[:at.start()], part[at.start():]) if at else (part, "")


def hunks_of(part):
    """The lines of the hunks, each without its mark: the mark is put back by its place."""
    _, rest = split_head(part)
    return "\n".join(line[1:] if line[:1] in " +-" else f"\0{line}" for line in rest.split("\n"))


def with_hunks(part, body):
    head, rest = split_head(part)
    lines = []
    for old, new in zip(rest.split("\n"), body.split("\n")):
        lines.append(old[0] + new if old[:1] in (" ", "+", "-") and old else new.lstrip("\0"))
    return head + "\n".join(lines)


def rename_hunks(made, around):
    """The names of the hunks, each file taken with the imports that the tree has of it, by its old path or its new one."""
    moved = Sources({name: "" for name in made.texts})
    rename_all(moved, {})
    for now, name in moved.first.items():
        made.texts[name] += MARK + around.get(name, around.get(now, ""))
    refused = rename_all(made, around)
    made.texts = {name: text.split(MARK)[0] for name, text in made.texts.items()}
    return refused


def main():
    words = sys.argv[1:]
    lines = "--lines" in words
    paths = [it for it in words if it != "--lines"] or [ROOT]
    refused = []
    for path in paths:
        if os.path.isdir(path):
            refused += rename_folder(os.path.abspath(path), lines)
        else:
            refused += rename_patch(path, lines)
    for line in refused:
        print(line, file=sys.stderr)
    return 1 if refused else 0


if __name__ == "__main__":
    sys.exit(main())
