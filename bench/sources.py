"""Reads the crates' sources as text, for bench/believe and bench/weight: what .antt files define, and the types and functions of .rt files.

It knows them in the layout that `rt fmt` gives them, and not the whole of either language.
"""
import os
import re

WORD = r"[^\s(){};,\"]+"
TOKEN = re.compile(rf"\"\"|[(){{}};,]|{WORD}")
MARKS = ("pub", "abbrev", "unfoldable", "pattern", "axiom")
SIGNATURE = re.compile(rf"(?:(?:{'|'.join(MARKS)})\s+)*({WORD})(?:\s+\{{[^{{}}]*\}})*\s+:(?:\s|$)")
FAMILY = re.compile(rf"(?:pub\s+)?(record|data)\s+({WORD})")
HEADER = re.compile(r"(?:unfoldable\s+)?(?:pub\s+)?(?:use|mod)\s")
USE = re.compile(r"(?:unfoldable\s+)?(?:pub\s+)?use\s+([^\s{]+?)\.?(?:\s+as\s+(\S+))?\s*(?:\{(.*)\})?\s*$")
RELATIONS = {"≡", "≢", "<", "≤", ">", "≥", "↔", "¬", "⊥"}
# The kit's types of values; any other word of the kit that stands as a type, with arguments, says something of them.
KIT_TYPES = {"ℕ", "ℤ", "Bool", "List", "Option", "Result", "String", "Vec", "VecDeque", "Global", "Ordering", "Float"}


def code_of(text, comment):
    """Returns a text without comments, and without what stands between quotation marks."""
    skipped = rf"(b?'(?:\\[^'\n]+|[^\\'\n])')|(\"(?:[^\"\\]|\\.)*\")|(?:(?<=\s)|^){comment}.*"
    return re.sub(skipped, lambda it: "' '" if it[1] else '""' if it[2] else "", text, flags=re.M)


def size_of(text):
    return sum(1 for line in text.split("\n") if line.strip())


def depths_of(tokens):
    """Yields each token beside the number of brackets that are open behind it."""
    depth = 0
    for token in tokens:
        depth += (token in "({") - (token in ")}")
        yield token, depth


def split(tokens, mark):
    """Splits tokens at the marks that stand in no bracket."""
    parts = [[]]
    for token, depth in depths_of(tokens):
        if depth == 0 and token == mark:
            parts.append([])
        else:
            parts[-1].append(token)
    return parts


def first_group(tokens):
    """Returns where the bracket closes that the tokens begin with."""
    return next(at for at, (_, depth) in enumerate(depths_of(tokens)) if depth == 0)


def bare(tokens):
    """Drops the parentheses round the whole."""
    while tokens and tokens[0] == "(" and first_group(tokens) == len(tokens) - 1:
        tokens = tokens[1:-1]
    return tokens


def binders(tokens):
    """Returns the binders `(a b : T)` and `{a : T}` at the front, each as its names and its type, and what follows them."""
    found = []
    while tokens and tokens[0] in "({":
        end = first_group(tokens)
        at = next((at for at, token in enumerate(tokens[1:end], 1) if token in "(){};,:"), end)
        if tokens[at] != ":":
            break
        found.append((tokens[1:at], tokens[at + 1 : end]))
        tokens = tokens[end + 1 :]
    return found, tokens


class Definition:
    """What a .antt file defines under one name: a definition with its equations, a record with its fields or a data type with its constructors."""

    def __init__(self, module, kind, name, block):
        self.module, self.kind, self.name, self.lines = module, kind, name, []
        self.block, self.says = TOKEN.findall(block)[2:-1], None

    def close(self):
        self.text = "\n".join(self.lines)
        self.size = size_of(self.text)
        family = self.kind != "definition"
        # The head, and then each equation, field or constructor.
        self.chunks = []
        for line in filter(str.strip, self.lines):
            begins = re.match(r"  (?! )", line) if family else line[0] not in " }"
            if begins or not self.chunks:
                self.chunks.append(line)
            else:
                self.chunks[-1] += "\n" + line
        self.members = {}
        for chunk in self.chunks[1:] if family else []:
            names = chunk.partition(" : ")[0].split()
            self.members.update(dict.fromkeys(set(names) - {"pub"}, chunk))
        head = [it for it in TOKEN.findall(self.chunks[0]) if it not in (*MARKS, "record", "data", "where")][1:]
        params, *kind = split(head, ":")
        self.params, self.type = binders(params)[0], [it for part in kind for it in (":", *part)][1:]

    def parts(self):
        """Returns the types of what it is said of, or applied to, and what stands behind the last arrow of its type."""
        *parts, last = split(self.type, "→")
        found = [kind for _, kind in self.params]
        for part in parts:
            groups, rest = binders(part)
            found += [kind for _, kind in groups] + [rest] * bool(rest)
        return found, last


class Module:
    """A .antt file, or the `ghost use` lines of a .rt file: what it defines, and what words mean in it."""

    def __init__(self, tree, crate, file, text):
        self.tree, self.crate, self.file = tree, crate, file
        self.definitions, self.inner, self.words, self.modules, self.uses = {}, {}, {}, {}, []
        current, block = None, ""
        for line in code_of(text, "--").split("\n"):
            # A block `module _ (..) where` is read as if what is in it stood outside, said of the block's parameters too.
            if line.startswith("module _"):
                block, current = line, None
                continue
            if block and line[:1].strip():
                block = ""
            elif block and not block.endswith("where"):
                block += line
                continue
            elif block:
                line = line[2:]
            family, signature = FAMILY.match(line), SIGNATURE.match(line)
            if HEADER.match(line):
                self.uses.append(line)
                current = None
            elif line.startswith("infix"):
                continue
            elif family or signature:
                kind, name = family.groups() if family else ("definition", signature[1])
                current = self.definitions[name] = Definition(self, kind, name, block)
            if current:
                current.lines.append(line)
            elif self.uses and line[:1] == " ":
                self.uses[-1] += line
        for line in self.uses:
            self.add_use(line)
        for it in self.definitions.values():
            it.close()
            # A constructor leads to its type, as the words of an operator do to it: `◌>>=◌` is written `>>=` too.
            inner = it.members if it.kind == "data" else set(it.name.split("◌")) - {"", it.name}
            self.inner.update(dict.fromkeys(inner, it))

    def add_use(self, line):
        found = USE.match(line)
        if not found:
            return
        path, alias, names = found.groups()
        head, dot, rest = path.partition(".")
        path = self.modules.get(head, head) + dot + rest
        if names is None:
            self.modules[alias or path.rpartition(".")[2]] = path
        for name in (names or "").split(","):
            name, _, alias = name.strip().partition(" as ")
            inner, _, last = name.rpartition(".")
            for word in {alias or last, *(alias or last).split("◌")} - {""}:
                self.words[word] = (path + "." + inner if inner else path, last)

    def find(self, word):
        """Returns what a word means here, with a path before it or members behind it; None of a word that nothing here says."""
        for names in (self.definitions, self.inner):
            if word in names:
                return names[word]
        if word in self.words:
            return self.tree.find(*self.words[word])
        head, dot, rest = word.partition(".")
        if dot and (head in self.definitions or head in self.words):
            return self.find(head)
        if dot and (head in self.modules or head == "Rattle"):
            return self.tree.find_path(self.modules.get(head, head) + "." + rest)
        return None


class Type:
    """A type of a .rt file as clauses see it: a trait as its ghost members that are no laws, a struct with an `impl Model` as its value and
    view, and any other whole."""

    def __init__(self, source, kind, name, text):
        self.module, self.kind, self.name, self.text = source, kind, name, text

    def close(self):
        if self.kind in ("trait", "model"):
            members = re.findall(r"^    (ghost (\w+)[^{;]*\{(.*?)\};)$", self.text, re.M | re.S)
            if self.kind == "model":
                members = [it for it in members if it[1] in ("Value", "view")]
            else:
                members = [it for it in members if not is_statement(TOKEN.findall(it[2]), self)]
            self.text = "\n".join(it[0] for it in members)
        self.size = size_of(self.text)


class Function:
    def __init__(self, source, name, is_pub, head, clauses, body):
        self.module, self.name, self.is_pub, self.head, self.clauses, self.body = source, name, is_pub, head, clauses, body


class Source:
    """A .rt file: its types, its functions, and what words mean in its types and clauses."""

    ITEM = re.compile(r"^(?:pub(?:\([a-z]+\))? )?(struct|enum|trait|type|const|static) (\w+)", re.M)
    MODEL = re.compile(r"^impl\b[^{;]*\bModel for (\w+)", re.M)
    FUNCTION = re.compile(r"^ *((?:pub(?:\([a-z]+\))? )?)(?:const |unsafe |safe )*fn (\w+)", re.M)
    # A function's head ends where a clause, its body or its `;` begins.
    HEAD_END = re.compile(r"\s(?:requires|ensures|ghost)\b|\{|;(?![^\[\n]*\])")
    CLAUSE = re.compile(r"\s*(requires|ensures|ghost)\*?(?:\s+(\w+))?\s*(?=\{)")

    def __init__(self, tree, crate, file, path, text):
        self.tree, self.crate, self.file, self.path = tree, crate, file, path
        self.tests = re.findall(r"#\[cfg\(test\)\]\s*mod (\w+);", text)
        self.code = re.sub(r"^ *#!?\[[^\]]*\]$", "", code_of(text, "//"), flags=re.M)
        uses = re.findall(r"\bghost (use [^;]*);", self.code)
        self.names = Module(tree, crate, file, "\n".join(" ".join(it.split()) for it in uses))
        self.imports, self.exports = {}, {}
        for is_pub, use in re.findall(r"^(pub )?use ([^;]*);", self.code, re.M):
            path, _, names = re.sub(r"\s", "", use.replace(" as ", ">")).partition("{")
            for name in filter(None, names.rstrip("}").split(",")) if names else [""]:
                whole, _, alias = (path + name).partition(">")
                whole = whole.split("::")
                for to in (self.imports, self.exports) if is_pub else (self.imports,):
                    to[alias or whole[-1]] = whole
        self.types = {}
        for it in self.ITEM.finditer(self.code):
            self.types[it[2]] = Type(self, it[1], it[2], self.code[it.start() : self.end_of(it.end())])
        for it in self.MODEL.finditer(self.code):
            self.types[it[1]] = Type(self, "model", it[1], self.code[it.start() : self.end_of(it.end())])

    def end_of(self, at):
        """Returns where an item ends of whose head this place is: behind its `;`, or behind its brace."""
        depth = 0
        for it in re.compile(r"[][(){};]").finditer(self.code, at):
            depth += (it[0] in "[({") - (it[0] in "])}")
            if depth == 0 and it[0] in "};":
                return it.end()
        return len(self.code)

    def functions(self):
        """Yields all functions, with their clauses as kind, label and text, and their body or None. A trait's methods count as public."""
        traits = [(it.start(), self.end_of(it.end())) for it in self.ITEM.finditer(self.code) if it[1] == "trait"]
        for it in self.FUNCTION.finditer(self.code):
            end = self.HEAD_END.search(self.code, it.end()).start()
            head, clauses, body = self.code[it.start() : end], [], None
            while clause := self.CLAUSE.match(self.code, end):
                end = self.end_of(clause.end())
                if clause[1] != "ghost":
                    clauses.append((clause[1], clause[2], self.code[clause.end() + 1 : end - 1].strip()))
            if self.code[end:].lstrip().startswith("{"):
                body = self.code[self.code.index("{", end) : self.end_of(end)]
            in_trait = any(start < it.start() < stop for start, stop in traits)
            yield Function(self, it[2], bool(it[1]) or in_trait, head, clauses, body)

    def find(self, word):
        """Returns what a word of a clause or a type means here, with a path before it or members behind it."""
        head = re.split(r"[.]|::", word)[0]
        if head in self.types:
            return self.types[head]
        found = self.names.find(word)
        if found is None and head in self.imports:
            return self.tree.find_import(self, self.imports[head])
        return found


class Tree:
    """The crates of a repository, without their test modules."""

    def __init__(self, top, folders=("specs", "proofs")):
        self.top, self.crates, self.modules, self.sources = top, sorted(os.listdir(f"{top}/crates")), {}, {}
        for crate in self.crates:
            for folder in folders:
                for file in self.files(f"crates/{crate}/{folder}", ".antt"):
                    path = file[len(f"crates/{crate}/") : -len(".antt")].replace("/", ".").removesuffix(".Lib")
                    self.modules[f"Rattle.{crate}.{path}"] = Module(self, crate, file, self.read(file))
            sources = {}
            for file in self.files(f"crates/{crate}/src", ".rt"):
                path = file[len(f"crates/{crate}/src/") : -len(".rt")].split("/")
                path = tuple(it for it in path if it not in ("lib", "main", "mod"))
                sources[path] = Source(self, crate, file, path, self.read(file))
            tests = [(*path, it) for path, source in sources.items() for it in source.tests]
            self.sources[crate] = {path: it for path, it in sources.items() if not any(path[: len(test)] == test for test in tests)}
        for sources in self.sources.values():
            for source in sources.values():
                for it in source.types.values():
                    it.close()

    def files(self, folder, kind):
        for place, folders, names in os.walk(f"{self.top}/{folder}"):
            folders.sort()
            yield from (os.path.relpath(f"{place}/{name}", self.top) for name in sorted(names) if name.endswith(kind))

    def read(self, file):
        with open(f"{self.top}/{file}", encoding="utf-8") as it:
            return it.read()

    def find(self, path, name):
        """Returns what a module's name means: a definition, a type, a pair for what is the kit's, or None."""
        rattle, crate, *rest = *path.split("."), ""
        if rattle != "Rattle" or crate not in self.sources:
            return crate if rattle == "Rattle" else rattle, name
        if rest[1:2] == ["declared"] and rest[2]:
            # declared.a.b.Type.{Type}, and its variants, its ghost members and the like below; or the constants of a.b.
            *inner, last = rest[2:-1]
            if last == "TheConstants":
                return self.type(crate, inner, name)
            return self.type(crate, inner[:-1], inner[-1]) if re.match("The[A-Z]", last) else self.type(crate, inner, last)
        return self.modules[path].find(name) if path in self.modules else None

    def find_path(self, path):
        """The same of a name that stands behind the path of its module, and may have members behind it."""
        while "." in path:
            path, _, name = path.rpartition(".")
            found = self.find(path, name)
            if found:
                return found
        return None

    def type(self, crate, path, name):
        """Returns a crate's type, at this path of modules, or else where the crate exports it from, or anywhere in it."""
        sources = self.sources[crate]
        exported = sources[()].exports.get(name, [name])[:-1] if () in sources else []
        for place in (tuple(path), tuple(exported), *sources):
            if place in sources and name in sources[place].types:
                return sources[place].types[name]
        return None

    def find_import(self, source, path):
        """Returns the type that a .rt file imports by this path, a pair for what is the kit's, or None of what is no type."""
        if path[0] == "super":
            return self.type(source.crate, [*source.path[:-1], *path[1:-1]], path[-1])
        if path[0] in ("crate", "self"):
            return self.type(source.crate, path[1:-1], path[-1])
        if path[0] in self.sources:
            return self.type(path[0], path[1:-1], path[-1])
        if (path[0],) in self.sources[source.crate]:
            return self.type(source.crate, path[:-1], path[-1])
        return path[0], path[-1]


def is_lemma(definition):
    """A lemma is a definition whose type, behind its last arrow, says something of values; any other makes a value or a type."""
    return definition.kind == "definition" and is_statement(definition.type, definition)


def is_statement(tokens, home):
    """Tells whether a type says something, behind its last arrow: an equation, an order, a sum or a product with one, or a word that says
    something of values."""
    last = split(bare(tokens), "→")[-1]
    while last != (shorter := bare(binders(last)[1])):
        last = split(shorter, "→")[-1]
    for mark in "⊎×":
        parts = [it for it in split(last, mark) if it]
        if len(parts) > 1 or [mark, *sum(parts, [])] == last:
            return any(is_statement(binders(it)[1], home) for it in parts)
    if any(depth == 0 and token in RELATIONS for token, depth in depths_of(last)):
        return True
    if not last or last[0] == "Type" or last[0] in KIT_TYPES:
        return False
    found = home.module.find(last[0])
    if isinstance(found, (Definition, Type)):
        return says(found)
    return len(last) > 1


def says(found):
    """Tells whether a name of types says something, so that it has proofs and no values: whether it is said of values, or of nothing and is a
    statement itself, as a record of nothing but statements is one."""
    if isinstance(found, Type):
        return False
    if found.says is None:
        found.says = False
        bodies = [it.partition(" : " if found.kind == "record" else " = ")[2] for it in found.chunks[1:]]
        bodies = [is_statement(TOKEN.findall(it), found) for it in bodies if found.kind != "data"]
        of_values = any(kind and bare(kind)[0] != "Type" for kind in found.parts()[0])
        found.says = of_values or (bool(bodies) and all(bodies))
    return found.says
