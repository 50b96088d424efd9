"""Edits of definitions, for `tools/edits`: each is tried on copies of the modules that stand between it and what has to refuse it.

An edit of a file of `specs/` names what has to refuse it in a line of its own: `law: MODULE::FUNCTION`, a function of the crate with an empty
body, or `rows: MODULE`, a file of `proofs/` whose lemmas are examples that the definitions compute. Few modules lead from there to the
definition. Of these a copy is made in a folder of the edit's name, in which they name each other, with the edit in it; a law has a copy too,
whose contract and proof name these. All other modules of the crate that are needed stand there once. So one check tries all edits of a crate, each by
the very proof that its crate has, and reads what it needs of the crate and of the libraries once.

A line `row: NAME` below `rows: MODULE` says which of the examples refuses the edit. Then the copy of that file has this one alone, and what it names there:
each example computes all that it is made of anew.

A line `crate: NAME` says that the definition is one of that crate, below the one whose law or rows refuse the edit. Then the modules that lead from the
one to the other are copied from both, and from the crates between them.
"""
import copy
import functools
import os
import re

# A declaration is refused since two types, values or terms are not the same. (What rests on a declaration that was refused, a name that isn't there, and
# a text that can't be read are told otherwise, and don't count.)
# the name of what a block of a file declares, and the names that a line imports
DECLARED = re.compile(r"^(?!--|use )(?:[a-z]+ )*([\w'-]+)(?: \{[^}\n]*\})? :", re.M)
IMPORTED = re.compile(r"use [\w.]+\.\{(.*)\}$")
UNEQUAL = re.compile(r"`[^`]*`: (?:as printed, |computed as far as they go, )?(?:the two (?:types|values|terms|indices) |expected type `)")


def text_of(file):
    with open(file, encoding="utf-8") as it:
        return it.read()


def write(file, text):
    os.makedirs(os.path.dirname(file), exist_ok=True)
    with open(file, "w", encoding="utf-8") as it:
        it.write(text)


def told_by(file):
    """What has to refuse the edit in this file: its kind, which is `law` or `rows`, its name, and that of the one row where a line has it; empty words where
    it has no such line."""
    found, row = (re.search(it, text_of(file), re.M) for it in (r"^(law|rows): (\S+)$", r"^row: (\S+)$"))
    return (*(found.groups() if found else ("", "")), row[1] if row else "")


def row_alone(text, row):
    """The text of a file of rows, with this row and the declarations of the file that it names, and so on, alone; None where it has no such row."""
    words_in = lambda text: set(re.findall(r"[\w'-]+", re.sub(r"^ *--.*", "", text, flags=re.M)))
    # (what is indented goes on with the block above, and what is a comment alone isn't needed)
    head, *blocks = (it for it in re.split(r"\n\n+(?! )", text) if words_in(it))
    # those that declare no name, such as records, all stay
    names = {found[1] if (found := DECLARED.search(it)) else at: it for at, it in enumerate(blocks)}
    if row not in names:
        return None
    needed, left = set(), [row, *(it for it in names if isinstance(it, int))]
    while left:
        needed.add(it := left.pop())
        left += (words_in(names[it]) & set(names)) - needed
    kept = [it for name, it in names.items() if name in needed]
    words = words_in("\n".join(kept))
    # (a name that isn't a word is of the language's own libraries)
    used = lambda line: not (found := IMPORTED.match(line)) or any(not re.fullmatch(r"[\w'-]+", it) or it in words for it in re.split(r",\s*", found[1]))
    return "\n\n".join(["\n".join(it for it in head.split("\n") if used(it)), *kept]) + "\n"


def turned_crate(crate, file):
    """The crate whose text the edit in this file turns: the crate itself, or the one below it that a line names; None where there is no such."""
    found = re.search(r"^crate: (\S+)$", text_of(file), re.M)
    return next((it for it in crate.below() if it.name == found[1]), None) if found else crate


class Modules:
    """The modules of `specs/` and `proofs/` of some crates, by their names, as `mr_model.specs.Scopes`: the text of each, and which others it names."""

    def __init__(self, crates):
        self.name = re.compile(rf"\bRattle\.((?:{'|'.join(name for name, _ in crates)})\.(?:specs|proofs)\.[A-Z]\w*)")
        self.texts = {}
        for crate, folder in crates:
            for part in ("specs", "proofs"):
                for it in sorted(os.listdir(f"{folder}/{part}")) if os.path.isdir(f"{folder}/{part}") else []:
                    if it.endswith(".antt") and it != "Lib.antt":
                        self.texts[f"{crate}.{part}.{it[: -len('.antt')]}"] = text_of(f"{folder}/{part}/{it}")
        self.named = {it: self.names_in(text) for it, text in self.texts.items()}

    def names_in(self, text):
        return set(self.name.findall(text)) & set(self.texts)

    def with_text(self, module, text):
        """The same modules, of which one has this text."""
        other = copy.copy(self)
        other.texts, other.named = {**self.texts, module: text}, {**self.named, module: self.names_in(text)}
        return other

    def needed(self, roots):
        """These modules, and those that they name, and so on."""
        found, left = set(), list(roots)
        while left:
            it = left.pop()
            if it not in found:
                found.add(it)
                left += self.named[it]
        return found

    def between(self, roots, turned):
        """The turned modules, and of those that the roots need the ones that lead to them."""
        needed, found = self.needed(roots), set(turned)
        while more := {it for it in needed - found if self.named[it] & found}:
            found |= more
        return found


modules_of = functools.lru_cache(maxsize=None)(Modules)


def modules_between(crate, turned):
    """The modules of the crate, of the one below it that is turned, and of those between the two."""
    return modules_of(tuple((it.name, it.folder) for it in [crate, *crate.below()] if turned in [it, *it.below()]))


class Law:
    """What has to refuse an edit of the turned crate: a function of the crate, or a file of rows. It stands on the modules `roots`; None where there is
    no such."""

    def __init__(self, crate, turned, kind, name, row=""):
        self.crate, self.turned, self.kind, self.name, self.modules = crate, turned, kind, name, modules_between(crate, turned)
        self.source = self.answers = self.roots = None
        if kind == "rows" and f"{crate.name}.proofs.{name}" in self.modules.texts:
            module = f"{crate.name}.proofs.{name}"
            text = row_alone(self.modules.texts[module], row) if row else self.modules.texts[module]
            if text is not None:
                self.modules, self.roots = self.modules.with_text(module, text), {module}
        elif kind == "law":
            self.find_function(*name.rpartition("::")[::2])

    def find_function(self, module, function):
        """The function's text below the imports that it needs, and its proof."""
        folder = self.crate.folder
        file, answers = f"{folder}/src/{module.replace('::', '/')}.rt", f"{folder}/proofs/{self.name.replace('::', '/')}/Answers.antt"
        found = os.path.isfile(file) and re.search(rf"^pub fn {function}(?:<[^()\n]*>)?\(\)\n(?:    .*\n)*\{{\}}\n", text_of(file), re.M)
        if not found or not os.path.isfile(answers):
            return
        words = lambda text: set(re.findall(r"\w+", text))
        imports = [it for it in re.findall(r"^(?:ghost )?use .*;\n", text_of(file), re.M) if words(it.rpartition("{")[2]) & words(found[0])]
        self.source, self.answers = "".join([*imports, "\n", found[0]]), text_of(answers)
        self.roots = self.modules.names_in(self.source) | self.modules.names_in(self.answers)


class Copies:
    """The folder of a check: what the laws of these edits need of the crate, and of each edit its copies."""

    def __init__(self, crate, room):
        self.crate, self.room = crate, room
        self.shared, self.nodes, self.laws = {}, {"specs": [], "proofs": []}, []

    def add(self, name, law, texts):
        """Adds the copies for the edit of that name, which has these texts of files, by their paths in the crate that it turns."""
        modules, texts = law.modules, {f"{law.turned.name}.{path[: -len('.antt')].replace('/', '.')}": text for path, text in texts.items()}
        copied = modules.between(law.roots, texts)
        self.shared |= {it: modules.texts[it] for it in modules.needed(law.roots) - copied if it.startswith(f"{self.crate.name}.")}
        for part, nodes in self.nodes.items():
            own = sorted(it for it in copied if it.split(".")[1] == part)
            for it in own:
                write(f"{self.room}/{part}/{name}/{it.rpartition('.')[2]}.antt", self.renamed(texts.get(it, modules.texts[it]), name, law, copied))
            if own:
                write(f"{self.room}/{part}/{name}.antt", declared(it.rpartition(".")[2] for it in own))
                # (the module of a law's copy is there for its own file in src/)
                nodes += [name] * (part == "specs" or law.kind == "rows")
        if law.kind == "law":
            self.add_law(name, law, copied)

    def renamed(self, text, name, law, copied):
        """The text, in which the modules that were copied for the edit are named as its copies."""

        def copy_of(found):
            _, part, module = found[1].split(".")
            return f"Rattle.{self.crate.name}.{part}.{name}.{module}" if found[1] in copied else found[0]

        return law.modules.name.sub(copy_of, text)

    def add_law(self, name, law, copied):
        """Adds a copy of the law in a module of the edit's name."""
        function, path = law.name.rpartition("::")[2], law.name.replace("::", ".")
        answers = law.answers.replace(f"proofs.{path}.", f"proofs.{name}.{function}.")
        write(f"{self.room}/src/{name}.rt", f"//! An edit.\n\n{self.renamed(law.source, name, law, copied)}")
        write(f"{self.room}/proofs/{name}/{function}/Answers.antt", self.renamed(answers, name, law, copied))
        self.laws.append(name)

    def finish(self):
        """Writes what all edits share, and the files that say which modules there are."""
        for it, text in self.shared.items():
            write(f"{self.room}/{it.partition('.')[2].replace('.', '/')}.antt", text)
        for part, nodes in self.nodes.items():
            shared = sorted(it.rpartition(".")[2] for it in self.shared if it.split(".")[1] == part)
            write(f"{self.room}/{part}/Lib.antt", declared([*shared, *nodes]))
        write(f"{self.room}/src/lib.rt", "//! Edits.\n#![tactic(auto)]\n\n" + "".join(f"pub mod {it};\n" for it in self.laws))


def declared(names):
    return "".join(f"pub mod {it}\n" for it in names)


def keeps_types(crate, texts):
    """Whether each definition has the type that it had: a proof that meets another type says nothing of the values."""
    types = lambda text: re.findall(r"^[^\s=-][^=\n]* : .*", text, re.M)
    return all(types(text) == types(text_of(f"{crate.folder}/{path}")) for path, text in texts.items())


def judge(law, blocks, told, folder=""):
    """What a check says of the edit, as `judge` of `tools/edits` does. `told` has the file and the words of each error; the folder is that of the edit's copies."""
    inside = lambda part: [(file, it) for file, it in told if file.startswith(f"{part}/{folder}")]
    if inside("specs"):
        return "name", inside("specs")[0][1]
    own = inside("proofs") if law.kind == "law" else [it for it in inside("proofs") if it[0] == f"proofs/{folder}{law.name}.antt"]
    if law.kind == "law":
        function = f"{folder.replace('/', '::')}{law.name.rpartition('::')[2]}" if folder else law.name
        line = blocks.get(function, ("missing",))[0]
        if line not in ("proved", "not proved"):
            return "unclear", f"of its law the check says: {line}"
        own = own if line == "not proved" else []
    unequal = [f"{os.path.basename(file)}: {it}" for file, it in own if UNEQUAL.match(it)]
    if unequal:
        return "refused", unequal[0]
    return ("name", own[0][1]) if own else ("proved", f"{law.name} is still proved")
