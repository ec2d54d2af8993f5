"""The specification files of the kit's libraries, by the `use` lines that reach them.

A library passes on names and modules of others by `pub use`: a name is followed to the file that has it.
"""
import os
import re
import shutil

USE = re.compile(r"^(?:unfoldable )?(pub )?use\s+Rattle\.(\w+)\.specs\.([\w.]+?)(?:\.\{([^}]*)\})?(?: as \w+)?;?$", re.M)


def folder():
    """The folder of the kit's libraries, or nothing where no kit is on the PATH."""
    command = shutil.which("rt")
    found = command and os.path.join(os.path.dirname(os.path.dirname(os.path.realpath(command))), "rattle")
    return found if found and os.path.isdir(found) else None


def text_of(path):
    with open(path, encoding="utf-8") as file:
        return file.read()


def uses(text):
    """What `use` lines name: whether it is passed on, the library, the module, and the names, if they are listed."""
    for public, library, module, names in USE.findall(text):
        yield bool(public), library, module, [it.split(" as ")[0].strip() for it in names.split(",") if it.strip()]


def module_file(top, library, module):
    """The file of a module of the kit, which its library may pass on from another; none for a type of the code."""
    words = module.split(".")
    for count in range(len(words), 0, -1):
        path = os.path.join(top, library, "specs", *words[:count]) + ".antt"
        if os.path.exists(path):
            return path
    whole = os.path.join(top, library, "specs", "Lib.antt")
    if words[0] != "declared" and os.path.exists(whole):
        for public, other, passed, names in uses(text_of(whole)):
            if public and not names and passed.split(".")[-1] == words[0]:
                return module_file(top, other, ".".join([passed, *words[1:]]))
    return None


def home_of(top, path, name):
    """The file that has a name, which the file at the path may pass on."""
    for public, library, module, names in uses(text_of(path)):
        if public and name in names:
            other = module_file(top, library, module)
            return home_of(top, other, name) if other else None
    return path


def named_in(top, text):
    """The files of the kit that have the names of a text's `use` lines."""
    found = []
    for _, library, module, names in uses(text):
        path = module_file(top, library, module)
        found += [home_of(top, path, name) for name in names or [""]] if path else []
    return [it for it in found if it]


def reached(top, texts):
    """The files of the kit that texts reach, in reading order: each after all that it names."""
    order, seen = [], set()

    def visit(path):
        if path not in seen:
            seen.add(path)
            for other in named_in(top, text_of(path)):
                visit(other)
            order.append(path)

    for text in texts:
        for path in named_in(top, text):
            visit(path)
    return order
