"""The words that a file of definitions or proofs, or a file of code with contracts, takes from the specs of a crate."""
import re

USE = re.compile(r"^ *(?:pub |unfoldable pub )?(?:ghost )?use Rattle\.(\w+)\.specs\.(.*?);?$", re.M)


def parts_of(names):
    """What stands between the commas of a list, without those of the lists within it."""
    parts, depth, begun = [], 0, 0
    for at, letter in enumerate(names):
        depth += {"{": 1, "}": -1}.get(letter, 0)
        if letter == "," and depth == 0:
            parts.append(names[begun:at].strip())
            begun = at + 1
    return [*parts, names[begun:].strip()]


def taken_by(path):
    """The words that an import names, each with the module that it is taken from and its name there: of `A.{b, C.d as e}` b and e."""
    modules, brace, rest = path.partition("{")
    if not brace:
        *place, name = path.split(".")
        own, _, other = name.partition(" as ")
        yield other or own, place, own
        return
    before = modules.strip(".").split(".") if modules else []
    for part in parts_of(rest[: rest.rindex("}")]):
        for word, place, own in taken_by(part):
            yield word, before + place, own


def imports(text):
    """Each word that a text takes from specs: the crate, the word, the module, and the word's name there."""
    for crate, path in USE.findall(text):
        for word, place, own in taken_by(path):
            yield crate, word, place, own
