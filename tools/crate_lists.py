"""What each crate stands on, by crates.txt, whose lines say what a crate's files name."""
import re


def listed(text):
    """The names that each line lists, by its crate."""
    return {name: names.split() for name, names in re.findall(r"^(\w+)[^:#\n]*:([^#\n]*)", text, re.M)}


def below(lists, names):
    """All that these stand on and these, each once and after those below it. The kit's crates stand on nothing."""
    found = {}
    for name in names:
        if name not in found:
            found.update(dict.fromkeys(below(lists, lists.get(name, []))))
            found[name] = None
    return list(found)


def above(lists, names):
    """All that stand on one of these."""
    return [it for it in lists if it not in names and set(names) & set(below(lists, [it]))]
