"""Reads Rattle as text: the crates, functions with their contracts, definitions with their comments, and edits. Names are read by
their imports, clauses by their braces; nothing here knows what a contract means."""
import functools, importlib.machinery, importlib.util, pathlib, re, subprocess, sys

TOP = pathlib.Path(__file__).resolve().parent.parent
WORD = re.compile(r"[A-Za-z_][\w\-]*")
# the first line of a definition, or of a law; a name without `abbrev` and its like is a law
DEFINITION = re.compile(r"^( *)((?:(?:abbrev|unfoldable|opaque|pub|record|data) +)+)([A-Za-z_][\w\-]*)")


def crates():
    """Each crate of crates.txt with those that it stands on."""
    lines = [line.partition("#")[0].partition(":") for line in (TOP / "crates.txt").read_text().splitlines()]
    return {name.split()[0]: below.split() for name, colon, below in lines if colon}


def is_product(crate):
    """Whether others may use the crate, or it is the program: not one of tests or of cases."""
    return not crate.startswith("tests") and not crate.endswith("_cases")


def edits_of(crate):
    return sorted((TOP / "crates" / crate).glob("*/*.edit"), key=lambda edit: edit.name)


@functools.lru_cache(maxsize=None)
def kit():
    """The kit's own `rt`, which reads, applies and checks an edit as the gate does."""
    sys.dont_write_bytecode = True
    page = subprocess.run(["rt", "doc"], capture_output=True, text=True, check=True).stdout.strip()
    loader = importlib.machinery.SourceFileLoader("rt", str(pathlib.Path(page).parent / "bin/rt"))
    made = importlib.util.module_from_spec(importlib.util.spec_from_loader("rt", loader))
    loader.exec_module(made)
    return made


# Functions and their contracts.


class Function:
    """A function: its lines, the type or trait that it is of, its contract, and its file and crate if these are known. `clauses`
    are kind, name, text."""

    def __init__(self, lines, name, owner, is_public, signature, clauses, path, crate):
        self.lines, self.name, self.is_public, self.clauses, self.path, self.crate = lines, name, is_public, clauses, path, crate
        (self.owner, self.trait), (self.parameters, self.result) = owner, signature
        self.label = f"{self.owner}::{name}" if self.owner else name
        self.ensures = [text for kind, _, text in clauses if kind == "ensures"]

    def has(self, clause):
        kind, _, name = clause.rpartition(" ")
        return any((kind or "ensures", name) == it[:2] for it in self.clauses)


def code_of(text):
    """A text without comments and without what its strings and letters say; each line stays where it is."""
    said = r"""(?m)//.*$|"(?:\\[\s\S]|[^"\\])*"|'(?:\\.[^']*|[^'\\])'"""
    return re.sub(said, lambda found: re.sub(r"[^\n]", " ", found[0]), text)


def balanced(code, at):
    """Where what the bracket at this place opens has ended."""
    depth = 0
    for place in range(at, len(code)):
        depth += (code[place] in "([{") - (code[place] in ")]}")
        if depth == 0:
            return place + 1
    return len(code)


def parameters_at(code, at):
    """Where the parameters begin, behind a name and what it is generic over."""
    depth = 0
    while code[at] != "(" or depth:
        depth += (code[at] == "<") - (code[at] == ">" and code[at - 1] != "-")
        at += 1
    return at


def owner_of(code, at, indent):
    """Of an indented function the type or trait that it is of, the trait that an `impl` is for, and whether that is public."""
    owner, trait, is_public = "", "", False
    for head in re.finditer(r"(?m)^( *)((?:pub )?trait|impl|mod)\b(?:<.*?>(?= [A-Z]))? ([^{]*)\{", code[:at]):
        if len(head[1]) < indent:
            words = head[3].replace("->", "").partition(" where ")[0]
            trait, _, named = words.rpartition(" for ")
            owner, is_public = re.match(r"\w*", named.strip())[0], head[2] == "pub trait"
    return (owner, trait), is_public


def functions_in(text, path=None, crate=None):
    """The functions of a source's text, of a file of a crate if these are known."""
    code, found = code_of(text), []
    for head in re.finditer(r"(?m)^( *)(pub )?(?:pub\([\w: ]+\) )?(?:const )?fn (\w+)", code):
        begin = parameters_at(code, head.end())
        at = end = balanced(code, begin)
        result, clauses = None, []
        while True:
            # what follows the parameters: brackets of types, the clauses, and the body or a semicolon
            part = re.compile(r"\[|\b(requires|ensures|decreases)\b\s*(\w*)[^{]*\{|\{|;").search(code, at)
            if part[0] == "[":
                at = balanced(code, part.start())
                continue
            result = code[end : part.start()].strip() if result is None else result
            if not part[1]:
                break
            at = balanced(code, part.end() - 1)
            clauses.append((part[1], part[2], code[part.start() : at]))
        last = balanced(code, part.start()) if part[0] == "{" else part.end()
        owner, in_trait = owner_of(code, head.start(), len(head[1])) if head[1] else (("", ""), False)
        lines = range(code.count("\n", 0, head.start()) + 1, code.count("\n", 0, last) + 2)
        # a program's `main` is its public function
        is_public = bool(head[2]) or in_trait or head[3] == "main"
        found.append(Function(lines, head[3], owner, is_public, (code[begin:end], result), clauses, path, crate))
    return found


@functools.lru_cache(maxsize=None)
def functions_of(crate):
    return [function for path in sources(crate) for function in functions_in(path.read_text(), path, crate)]


def without_success(clause):
    """A clause without what it says of success alone."""
    while found := re.search(r"\b(?:OnOk|IfOk|IsOk|OnSome|IfSome) *result *\(", clause):
        clause = clause[: found.start()] + clause[balanced(clause, found.end() - 1) :]
    return clause


def says_what_is_left(clause, name):
    """Whether a clause says what refusals leave of something borrowed, and not just that some parts of it stay, either way written."""
    clause = without_success(clause)
    body = re.sub(r"^[^{]*\{|\}$|\b(OnErr|IfErr) *result\b|λ *_\.|[()]", " ", clause.strip()).split("×")
    body = [re.sub(rf"^ *([^≡]*\b{name}\.old\b[^≡]*?) *≡ *([^≡]*\b{name}\.new\b[^≡]*?) *$", r"\2 ≡ \1", it) for it in body]
    part = rf" *(length +{name}\.new|{name}\.new\.(?!items\b)\w+) ≡ (length +)?{name}\.old[.\w]* *| *{name}\.new ≡ record {name}\.old \{{.*"
    is_told = all(re.search(it, clause) for it in (rf"\b{name}\.new\b", rf"\bresult\b|\b{name}\.old\b"))
    return is_told and not all(re.fullmatch(part, it, re.S) for it in body)


def is_silent_on_refusals(function):
    """Whether a function can refuse, changes what it borrows, and no clause says what a refusal leaves of that."""
    borrowed = [it[0] or it[1] for it in re.findall(r"(\w+) *: *&(?:'\w+ )?mut\b|&(?:'\w+ )?mut (self)\b", function.parameters)]
    silent = [name for name in borrowed if not any(says_what_is_left(it, name) for it in function.ensures)]
    return silent and re.match(r"-> *(Result|Option<OutOfMemory)\b", function.result)


def ghost_members(path):
    """The ghost members of traits and of impls for types: of which, whether it is a public trait, the name, the text, and
    the comment, or that of the trait."""
    written, owner, is_trait, about, found = path.read_text().split("\n"), "", False, "", []
    lines = [re.sub(r"(^|\s)//.*", "", line) for line in written]
    for at, line in enumerate(lines):
        if head := re.match(r"(pub )?(trait|impl)\b(?:.* for)? (\S+(?:<.*>)?)", line):
            owner, is_trait, about = head[3].strip(":"), bool(head[1]), comment_above(written, at, "//+")
            owner = owner.partition("<")[0] if is_trait else re.match(r"\w+(<\w+>)?", owner)[0]
        if head := re.match(r" *ghost (?!use)(\w+)", line):
            end = next(end for end in range(at + 1, len(lines) + 1) if end == len(lines) or re.match(r" *(fn|pub|ghost|\})", lines[end]))
            found.append((owner, is_trait, head[1], "\n".join(lines[at:end]), comment_above(written, at, "//+") or about))
    return found


def sources(crate):
    return sorted((TOP / "crates" / crate / "src").rglob("*.rt"))


# Definitions.


def imports_of(text):
    """By each name that a text imports from specs/, the crate, the module and the name of what it is."""
    found = {}
    for crate, module, names in re.findall(r"use +Rattle\.(\w+)\.specs\.([\w.]+)\.\{([^}]*)\}", text):
        for words in (name.split(" as ") for name in names.split(",")):
            if words[0].strip():
                found[words[-1].strip()] = (crate, module, words[0].strip())
    return found


def comment_above(lines, at, sign="--"):
    """The words of the comment right above a line, as one line."""
    first = at
    while first and re.match(rf" *{sign}(?! ----)", lines[first - 1]):
        first -= 1
    words = " ".join(re.sub(rf"^ *{sign} ?", "", line).strip() for line in lines[first:at])
    return re.sub(r"\.$", "", words)


@functools.lru_cache(maxsize=None)
def definitions():
    """Of each definition of specs/ its text and its comment, by crate, module and name; each module's imports and second line."""
    bodies, comments, imports, seconds = {}, {}, {}, {}
    paths = [path for crate in sorted(filter(is_product, crates())) for path in sorted((TOP / "crates" / crate).glob("specs/*.antt"))]
    for path in (path for path in paths if path.stem != "Lib"):
        crate, text = path.relative_to(TOP / "crates").parts[0], path.read_text()
        written = text.split("\n")
        lines, heads = [re.sub(r"(^|\s)--.*", "", line) for line in written], []
        for number, line in enumerate(lines):
            head = DEFINITION.match(line)
            # the fields of a record belong to it
            if head and not re.match(r"\s+pub \w+ :", line) and head[3] not in ("use", "mod"):
                heads.append((number, head[3], head[2].split() != ["pub"]))
        for (start, name, is_definition), (end, _, _) in zip(heads, heads[1:] + [(len(lines), "", False)]):
            if is_definition:
                bodies[crate, path.stem, name] = "\n".join(lines[start:end])
                comments[crate, path.stem, name] = comment_above(written, start)
        imports[crate, path.stem], seconds[crate, path.stem] = imports_of(text), written[1]
    return bodies, comments, imports, seconds


def cited_by(key):
    """The definitions that the text of one names."""
    bodies, _, imports, _ = definitions()
    crate, module, name = key
    near = [((crate, module, word), imports[crate, module].get(word)) for word in {*WORD.findall(bodies[key])} - {name}]
    return [next(other for other in found if other in bodies) for found in near if any(other in bodies for other in found)]


def named_in(path, code):
    """The definitions that some code of a source names."""
    found = imports_of(path.read_text())
    return {found[word] for word in WORD.findall(code) if found.get(word) in definitions()[0]}


def is_derived(key):
    return definitions()[3][key[:2]].startswith("-- Derived: ")


def rested_on(roots):
    """The definitions that these rest on, themselves among them; what is derived is not gone into."""
    below, todo = set(), list(roots)
    while todo:
        key = todo.pop()
        if key not in below:
            below.add(key)
            todo += [] if is_derived(key) else cited_by(key)
    return below
