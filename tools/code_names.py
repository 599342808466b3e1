"""The names of the code: its crates with their calls, clauses, types and words, and the definitions of a file."""

import os
import re

TOP = os.path.dirname(os.path.dirname(os.path.abspath(__file__)))

# Words of others that the documents name and the code doesn't.
OF_OTHERS = {"zabbix_sender", "zabbix_agentd", "zabbix_agent2", "python3", "bash", "df", "fuser"}
OF_OTHERS |= {"history_uint", "history_str", "history_text", "key_"}  # of the real server's database
OF_OTHERS |= {"gifteldu"}  # the program's name where contrib/install puts it

WORD = re.compile(r"[A-Za-z_]\w*")
HEAD = re.compile(r"^(\s*)(pub(?:\([^)]*\))? )?(?:const |unsafe )*fn (\w+)")
BLOCK = re.compile(r"^(?:pub )?(?:unsafe )?(impl|trait)\b(.*)")
CLAUSE = re.compile(r"^\s*(requires|ensures)\*?\s*(\w*)\s*\{")
SIGNED = re.compile(r"(?m)^(?:  )?(?:(?:pub|abbrev|unfoldable|opaque|data|record)\s+)+([A-Za-z_]\w*)\b[^=\n]*:\s")
MEMBER = re.compile(r"(?m)^\s+([A-Za-z_]\w*)(?: [a-z_]\w*)* :\s")
RECORD = r"(?ms)^pub record %s\b[^\n]*\n(.*?)(?=^\S|\Z)"
FIELD = re.compile(r"(?m)^  pub ([A-Za-z_]\w*) :\s")
TYPE = re.compile(r"(?m)^pub (?:struct|enum|trait|type) (\w+)")
ALIAS = re.compile(r"(?m)^pub type (\w+)(?:<[^=]*>)? = (\w+)")


def read(path):
    with open(os.path.join(TOP, path), encoding="utf-8") as file:
        return file.read()


def files(folder, ending):
    """The files below a folder with this ending, by their paths from the top."""
    found = []
    for at, folders, names in os.walk(os.path.join(TOP, folder)):
        folders[:] = [name for name in folders if name != "out"]
        found += [os.path.relpath(os.path.join(at, name), TOP) for name in names if name.endswith(ending)]
    return sorted(found)


class Call:
    """A function of a crate, with its type and trait where it has them, and the names of its clauses."""

    def __init__(self, name, type_, trait, is_public, clauses):
        self.name, self.type, self.trait, self.is_public, self.clauses = name, type_, trait, is_public, clauses


def without_generics(text):
    while re.search(r"<[^<>]*>", text):
        text = re.sub(r"<[^<>]*>", "", text)
    return text


def owner(kind, rest):
    """The type and the trait of a block `impl` or `trait`."""
    text = without_generics(rest.replace("->", "").split("{")[0].split(" where ")[0])
    if kind == "trait":
        return None, WORD.search(text).group()
    last = lambda path: path.strip().split("::")[-1].split(" ")[0]
    if " for " in text:
        trait, type_ = text.split(" for ", 1)
        return last(type_), last(trait)
    return last(text), None


def clauses_from(lines, at, indent):
    """The names of the clauses `ensures` of the function whose head is at this line; an unnamed one has the empty name."""
    names, depth = [], 0
    for offset, line in enumerate(lines[at:]):
        clause = CLAUSE.match(line) if offset and depth <= 0 else None
        if clause:
            names += [clause.group(2)] * (clause.group(1) == "ensures")
            depth = 0
        if clause or depth > 0:
            depth += line.count("{") - line.count("}")
            if depth <= 0 and line.rstrip().endswith(";"):
                return names
        elif line.rstrip() == indent + "{" or line.rstrip().endswith(("{", "}", ";")):
            return names
    return names


def calls(text):
    """The functions of a source file."""
    found, type_, trait = [], None, None
    lines = text.split("\n")
    for at, line in enumerate(lines):
        block = BLOCK.match(line)
        if block:
            type_, trait = owner(*block.groups())
        elif line.rstrip() == "}":
            type_, trait = None, None
        head = HEAD.match(line)
        if head:
            is_public = bool(trait) or head.group(2) == "pub "
            found.append(Call(head.group(3), type_, trait, is_public, clauses_from(lines, at, head.group(1))))
    return found


class Crate:
    """The names of a crate."""

    def __init__(self, name):
        sources = [read(path) for path in files(f"crates/{name}/src", ".rt")]
        specs = [read(path) for path in files(f"crates/{name}/specs", ".antt")]
        self.calls = [call for text in sources for call in calls(text)]
        self.types = {type_ for text in sources for type_ in TYPE.findall(text)}
        self.aliases = dict(alias for text in sources for alias in ALIAS.findall(text))
        self.words = {word for text in sources + specs for word in WORD.findall(text)}


class Code:
    """The crates of crates.txt with their levels, and what they use of the kit."""

    def __init__(self):
        self.levels, self.of_kit, level = {}, set(), None
        for line in read("crates.txt").split("\n"):
            if line.startswith("# level "):
                level = line[len("# level ") :]
            elif ":" in line:
                name, used = line.split(":")
                self.levels[name.split()[0]] = level
                self.of_kit |= set(used.split())
        self.of_kit -= set(self.levels)
        self.crates = {name: Crate(name) for name in self.levels}
        self.words = {word for crate in self.crates.values() for word in crate.words}
        self.specs = [read(path) for path in files("crates", ".antt") if "/specs/" in path]

    def trait_clauses(self, trait, method):
        """The clauses that a trait states of a method."""
        for crate in self.crates.values():
            for call in crate.calls:
                if call.trait == trait and call.type is None and call.name == method:
                    return call.clauses
        return []

    def clauses(self, call):
        """The clauses of a call; those of its trait where it states none."""
        return call.clauses or (self.trait_clauses(call.trait, call.name) if call.trait else [])

    def named(self, crate, name):
        """The calls of a crate with this name."""
        known = self.crates[crate]
        if "::" not in name:
            return [call for call in known.calls if call.name == name and call.type is None and call.trait is None]
        type_, method = name.split("::", 1)
        type_ = known.aliases.get(type_, type_)
        return [call for call in known.calls if call.name == method and type_ in (call.type, call.trait)]

    def of_type(self, crate, type_):
        """The clauses of all methods of a type."""
        known = self.crates[crate]
        type_ = known.aliases.get(type_, type_)
        return {name for call in known.calls if call.type == type_ for name in self.clauses(call)}

    def fields(self, record):
        """The fields of a record of the definitions."""
        found = [it for text in self.specs for it in re.findall(RECORD % re.escape(record), text)]
        return {name for text in found for name in FIELD.findall(text)}

    def has(self, name):
        """A name of the documents is one of the code's, of the kit's or of others."""
        parts = name.split("::")
        if parts[0] in self.of_kit or name in OF_OTHERS or name in self.levels:
            return True
        if len(parts) > 1:
            crates = [parts[0]] if parts[0] in self.levels else list(self.levels)
            rest = "::".join(parts[1:]) if parts[0] in self.levels else name
            is_variant = parts[-1][0].isupper() and set(parts) <= self.words
            return is_variant or any(self.named(crate, rest) for crate in crates)
        return name in self.words


def defined(path):
    """The names that a file of definitions defines, or a source file's types."""
    text = read(path)
    return set(TYPE.findall(text)) if path.endswith(".rt") else set(SIGNED.findall(text)) | set(MEMBER.findall(text))
