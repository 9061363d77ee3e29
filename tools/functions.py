"""The functions and methods of a crate's sources, in the kit's layout."""
import collections
import re

# A head with its attributes, the line that opens the body, which ends at a brace as far in as the head, and what has methods: an impl and a trait.
HEAD = re.compile(r'^( *)(?:#\[.*\]\n *)*(pub )?(?:final )?(?:const )?(?:extern "C" )?fn (\w+)', re.M)
OPENS = r'^{0}(?:|\).* |(?:pub |final |const |extern "C" )*fn .* )\{{$'
OWNER = re.compile(r"^(?:impl(<.*?>)? (?:(\w+)(?:<.*?>)? for )?(\w+)(?:<(\w+)>)?|(?:pub )?trait (\w+)).*\{$", re.M)
TYPE = re.compile(r"^(?:pub )?(?:struct|enum) (\w+)", re.M)
ROOTS = ("lib", "main", "mod")

# Its path in the crate, whether it is public, and where in the file it begins, its body begins and ends.
Function = collections.namedtuple("Function", "path public file begins opens ends")


def modules_of(crate, file):
    return [part for part in file.relative_to(crate / "src").with_suffix("").parts if part not in ROOTS]


def owners(text, modules, declared):
    """Where each impl and trait begins and ends, and what a method's path has before its name: the type with the trait after it, or the trait. Methods
    of the type alone go by the module that declares it, wherever they stand, and those of one instance of a type by that too; `u8` is `U8`."""
    for owner in OWNER.finditer(text):
        generic, trait, of, instance, own = owner.groups()
        at = modules if own or trait else declared.get(of, modules)
        name = own or of[0].upper() + of[1:] + (trait or "") + (f"+{instance}" if instance and not generic else "")
        yield owner.end(), text.index("\n}", owner.end()), (*at, name)


def functions(crate):
    """Those that have a body, in the order of the files' names."""
    files = sorted((crate / "src").rglob("*.rt"))
    declared = {name: modules_of(crate, file) for file in files for name in TYPE.findall(file.read_text())}
    for file in files:
        text = file.read_text()
        modules = modules_of(crate, file)
        owned = list(owners(text, modules, declared))
        heads = list(HEAD.finditer(text))
        for head, limit in zip(heads, [*(after.start() for after in heads[1:]), len(text)]):
            inside, public, name = head.groups()
            opens = re.compile(OPENS.format(inside), re.M).search(text, head.start(), limit)
            if opens:
                of = next((path for begins, ends, path in owned if begins < head.start() < ends), modules)
                ends = text.index(f"\n{inside}}}", opens.end())
                yield Function((*of, name), bool(public), file, head.start(), opens.end(), ends)
