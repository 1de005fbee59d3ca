"""Texts like names of C++: with the arguments of templates, operators, arrows, and brackets that don't match."""

PATHS = ["std::vector", "std::map", "foo", "a::b", "é", "x_", "9"]
OPERATORS = ["<", ">", "<<", ">>", "<=", ">=", "<=>", "<<=", ">>=", "->", "->*", "-", "()", " ", ""]
WORDS = ["operator", "operator", "operator", "my_operator", "éoperator", "operators", "~operator", "::operator"]
MEMBERS = ["", "", "::at", "::~x", "*", "->y", " const&", "::", ">"]
ODD = ["<", ">", "<>", "><", "->", "-", "a < b", "x>", "operator", "<$>", ">>", "=>", "(x > 3)"]
MOST_DEEP = 3


def argument_list(choose, deep):
    arguments = [template_text(choose, deep + 1) for _ in range(choose([0, 1, 1, 2]))]
    return choose(["<", "<", "<", "<", "<(", ""]) + ", ".join(arguments) + choose([">", ">", ">", " >", ")>", ""])


def template_text(choose, deep=0):
    """A text of what this chooses from lists."""
    kind = choose(range(10))
    if kind == 0:
        return choose(ODD)
    name = choose(WORDS) + choose(OPERATORS) if kind < 4 else choose(PATHS)
    if deep == MOST_DEEP or kind == 9:
        return name
    return name + argument_list(choose, deep) + choose(MEMBERS)
