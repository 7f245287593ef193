"""What the code under crates/ declares: crates, functions with their contracts and bodies, structs and enums. Found by a scan, not by a parser.

A crate's root is src/lib.rt or src/main.rt; each other file of src/ is a module, named after the file. What a crate offers to others is

- each `pub fn` of the root, and of a module that the root declares by `pub mod`;
- each `pub fn` of a module that the root offers by `pub use module::name;` or `pub use module::{a, b};`;
- each `pub` method of an impl block, wherever it stands, of a type that is `pub` in the root or offered in the same way.
"""
import dataclasses
import pathlib
import re
import sys

TOP = pathlib.Path(__file__).resolve().parent.parent
CLOSING = {"(": ")", "{": "}", "[": "]"}


@dataclasses.dataclass
class Function:
    crate: str
    file: pathlib.Path
    # As callers write it behind the crate's name: with its type in front, as Reader::ask, where it stands in an impl block; with its module where that is
    # how it is reached, as asking::helper.
    name: str
    line: int
    # Written `pub`, which `pub(crate)` is not; and offered to other crates besides.
    pub: bool
    public: bool
    parameters: str
    # Between the parameters and the body: the answer's type and the contract.
    contract: str
    # Where the text inside the body's braces begins and ends in the file.
    begin: int
    end: int
    # The folder of its proof below proofs/, with points: the type and the method, or the module and the function.
    proof: str


def listed():
    """Each crate that crates.txt lists, with the words behind its name and with what it is built on."""
    for line in (TOP / "crates.txt").read_text().split("\n"):
        head, _, needs = line.partition("#")[0].partition(":")
        if head.strip():
            name, *words = head.split()
            yield name, words, needs.split()


def crates():
    """Each crate with what it is built on."""
    return {name: needs for name, _, needs in listed()}


def is_static(crate):
    """Whether a crate is a static library, which C calls."""
    return any(name == crate and "staticlib" in words for name, words, _ in listed())


def known_to(crate):
    """A crate and those of the repository that it is built on."""
    return [crate, *(each for each in crates()[crate] if (TOP / "crates" / each).is_dir())]


def code_files(crate):
    return sorted((TOP / "crates" / crate / "src").rglob("*.rt"))


def root_file(crate):
    folder = TOP / "crates" / crate / "src"
    return next(folder / name for name in ("lib.rt", "main.rt") if (folder / name).is_file())


def module_of(crate, file):
    """The name of the module that a file holds, "" for the root."""
    root = root_file(crate)
    return "" if file == root else "::".join(file.relative_to(root.parent).with_suffix("").parts)


def blank(text):
    """The text with comments, quoted strings and quoted signs as spaces, each other character at its place. A quoted letter or digit stays."""
    return re.sub(r"""//[^\n]*|"(?:\\[\s\S]|[^"\\])*"|'(?:\\[^\n]+?|[^\w\n\\])'""", lambda found: re.sub(r"[^\n]", " ", found.group()), text)


def behind(text, at):
    """Where the bracket that opens at a place has been closed."""
    depth = 0
    for place in range(at, len(text)):
        if text[place] in CLOSING:
            depth += 1
        elif text[place] in CLOSING.values():
            depth -= 1
            if depth == 0:
                return place + 1
    raise ValueError(f"no end of the bracket at {at}")


def behind_generics(text, at):
    """Where the list of generic parameters that stands at a place has been closed; the place itself where none stands there."""
    depth = 0
    for found in re.compile(r"->|=>|[<>]|\S").finditer(text, at):
        depth += (found.group() == "<") - (found.group() == ">")
        if depth == 0:
            return found.end() if found.group() == ">" else at
    raise ValueError(f"no end of the generic parameters at {at}")


def body_at(text, at):
    """Where the body of a function opens whose parameters end at a place: the first brace that no clause of the contract has, with a name or without."""
    for found in re.compile(r"(\b(?:ghost|requires|ensures)\b\*?\s*(?:\w+\s*)?)?\{").finditer(text, at):
        if found.start() < at:
            continue
        if found.group(1) is None:
            return found.start()
        at = behind(text, found.end() - 1)
    raise ValueError(f"no body behind {at}")


def impl_blocks(text):
    """The type's name, begin and end of each impl block, of a trait or of none."""
    for found in re.finditer(r"^[ \t]*(?:unsafe\s+)?impl\b", text, re.M):
        at = behind_generics(text, found.end())
        opened = text.index("{", at)
        kind = re.fullmatch(r"(?:.*\bfor\s+)?(?:\w+::)*(\w+)\b.*", text[at:opened].strip(), re.S)
        yield kind.group(1), opened + 1, behind(text, opened)


# ---- What a crate offers


def offers(crate):
    """What the root offers of its modules: pairs of module and name, and the modules that are public as a whole."""
    root = root_file(crate)
    text = blank(root.read_text())
    pairs = set()
    for found in re.finditer(r"\bpub\s+use\s+([^;]*);", text):
        form = re.fullmatch(r"(?:(?:crate|self)::)?(\w+(?:::\w+)*?)::(?:(\w+)|\{([\w\s,]*)\})", found.group(1).strip())
        if form is None:
            raise ValueError(f"{root.relative_to(TOP)}: `{found.group()}` is neither `pub use module::name;` nor `pub use module::{{a, b}};`")
        names = [form.group(2)] if form.group(2) else split_items(form.group(3))
        pairs.update((form.group(1), name) for name in names)
    return pairs, set(re.findall(r"\bpub\s+mod\s+(\w+)", text))


def is_offered(module, name, offered):
    pairs, modules = offered
    return module == "" or module in modules or (module, name) in pairs


def public_types(crate, offered):
    """The structs and enums that other crates can name."""
    kinds = set()
    for file in code_files(crate):
        module = module_of(crate, file)
        for found in re.finditer(r"\bpub\s+(?:struct|enum)\s+(\w+)", blank(file.read_text())):
            if is_offered(module, found.group(1), offered):
                kinds.add(found.group(1))
    return kinds


def functions_in(crate, file, offered, kinds):
    text = blank(file.read_text())
    impls = list(impl_blocks(text))
    module = module_of(crate, file)
    for found in re.finditer(r"(\bpub\s+)?(?:(?:const|unsafe|extern)\s+)*\bfn\s+(\w+)", text):
        owner = next((name for name, begin, end in impls if begin <= found.start() < end), None)
        plain = found.group(2)
        path = [owner, plain] if owner else [*module.split("::"), plain] if module else [plain]
        reached = owner in kinds if owner else is_offered(module, plain, offered)
        by_name = owner is None and (module, plain) in offered[0]
        listed = text.index("(", behind_generics(text, found.end()))
        parameters = behind(text, listed)
        opened = body_at(text, parameters)
        yield Function(
            crate=crate,
            file=file,
            name=plain if by_name else "::".join(path),
            line=text.count("\n", 0, found.start(2)) + 1,
            pub=found.group(1) is not None,
            public=found.group(1) is not None and reached,
            parameters=text[listed + 1:parameters - 1],
            contract=text[parameters:opened],
            begin=opened + 1,
            end=behind(text, opened) - 1,
            proof=".".join(path),
        )


def functions(crate):
    offered = offers(crate)
    kinds = public_types(crate, offered)
    return [function for file in code_files(crate) for function in functions_in(crate, file, offered, kinds)]


# ---- Types


def split_items(text):
    """What stands between the commas of a list, brackets kept whole."""
    items, depth, item = [], 0, ""
    for character in text:
        depth += (character in CLOSING) - (character in CLOSING.values())
        if character == "," and depth == 0:
            items.append(item.strip())
            item = ""
        else:
            item += character
    return [each for each in [*items, item.strip()] if each]


def declared(crate, word):
    """Each struct or enum of a crate, with what stands between its braces, item by item."""
    for file in code_files(crate):
        text = blank(file.read_text())
        for found in re.finditer(rf"\b{word}\s+(\w+)\s*\{{", text):
            yield found.group(1), split_items(text[found.end():behind(text, found.end() - 1) - 1])


# ---- What a test says


def verdict(counted, wrong):
    """Prints what was counted and each fault, the first once more at the end, where tests/run reads it. Answers the exit status."""
    print(counted, flush=True)
    if wrong:
        print("\n".join(wrong), f"faults: {len(wrong)}; the first: {wrong[0]}", sep="\n", file=sys.stderr)
    return 1 if wrong else 0
