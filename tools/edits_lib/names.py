"""What a check names the functions of a source file by."""
import re

from rt_syntax import at_top, close_of, module_of, read_header


def words_of(text):
    """The words of a type, in the order in which they stand, each kind of type that has no name by a word of its own."""
    words, at = [], 0
    for found in re.finditer(r"&(?:'\w+ )?(mut )?|'\w+|\w+|\[|\(", text):
        it, at = found[0], found.start()
        if it.startswith("&"):
            words += ["ref", "mut"] if found[1] else ["ref"]
        elif it == "[":
            words.append("array" if len(at_top(text[at + 1 : close_of(text, at)], ";")) > 1 else "slice")
        elif it == "(":
            inside = text[at + 1 : close_of(text, at)].strip().rstrip(",")
            words.append(f"tuple{len(at_top(inside, ','))}" if inside else "unit")
        elif not it.startswith("'") and it not in ("crate", "self", "super"):
            words.append(it)
    return words


def arguments_of(text):
    """Parts a type or a trait into its path and its arguments, but for lifetimes."""
    path, _, given = text.partition("<")
    given = at_top(given[: close_of("<" + given, 0) - 1], ",") if given else []
    return path, [it.strip() for it in given if it.strip() and not it.strip().startswith("'")]


def owner_of(header):
    """What a check names the impl or trait of a header by, and whether it has the module of its type instead of its file's,
    as an impl of every instance of the type has."""
    names, of, of_type = read_header(header)
    path, given = arguments_of(of_type if of is None else of)
    if of is not None:
        words = ["any"] if of_type in names else [it for it in words_of(of_type) if it not in names]
        words.append(re.sub(r".*::", "", path))
        words += [it for of_this in given if of_this != of_type for it in words_of(of_this) if it not in names]
        return "".join(it[:1].upper() + it[1:] for it in words), False
    if all(it in names for it in given) and len(set(given)) == len(given):
        return re.sub(r".*::", "", path), True
    return "+".join(words_of(of_type)), False


def name_of(crate, file, function, home):
    """The function as a check names it. `home` finds the module of a type of the crate, or None."""
    owner, module = None, module_of(file)
    if function.header:
        owner, has_all = owner_of(function.header)
        found = home(owner) if has_all else None
        module = module if found is None else found
    return "::".join(it for it in (crate, module, owner, function.name) if it)
