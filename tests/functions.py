"""The functions of a crate's files, and how the prover calls them."""
import dataclasses
import re

HEAD = re.compile(r"( *)(?:pub(?:\([^)]*\))? )?(?:const )?(?:unsafe )?fn (\w+)")


@dataclasses.dataclass(frozen=True)
class Function:
    """A function of a crate: its file, its lines there, its name, and the impl that it is in."""

    file: str
    first: int
    last: int
    name: str
    impl: str

    def path(self):
        """Returns the end of the path by which the prover calls it."""
        return "::".join([*([own_type(self.impl)] if self.impl else module_of(self.file)), self.name])

    def is_called(self, path, crate):
        """Whether the prover calls it by this path: a method is below its type, and its trait's name."""
        *above, name = path.split("::")
        if name != self.name:
            return False
        return above[-1] == own_type(self.impl) if self.impl else above == [crate, *module_of(self.file)]


def module_of(file):
    """Returns the path of a file's module below its crate."""
    return [it for it in file[len("src/") : -len(".rt")].split("/") if it not in ("lib", "main")]


def own_type(impl):
    """Returns what the prover calls the type that an impl is of: behind its name that of the trait, if there is one."""
    of_trait, _, of_type = impl.rpartition(" for ")
    return "".join(last_words(of_type)[:1] + last_words(of_trait))


def last_words(text):
    """Returns the last word of each path in a type, but for type parameters of one letter."""
    return [it.split("::")[-1] for it in re.findall(r"\w+(?:::\w+)*", text) if len(it) > 1]


def functions_of(file, text):
    """Returns the functions of a file in the layout of rt fmt."""
    lines, impl, found = text.split("\n"), "", []
    for at, line in enumerate(lines):
        if re.match(r"\S", line):
            inside = re.match(r"impl\s*(?:<[^<>]*(?:<[^<>]*>[^<>]*)*>)?\s*(.*?)\s*\{?$", line)
            impl = re.sub(r"'\w+", "", inside[1]) if inside else impl if line.startswith(("where", "{", "}")) else ""
        head = HEAD.match(line)
        if head:
            end = at
            while not line.rstrip().endswith("}") and lines[end] != head[1] + "}" and end + 1 < len(lines):
                end += 1
            found.append(Function(file, at + 1, end + 1, head[2], impl if head[1] else ""))
    return found
