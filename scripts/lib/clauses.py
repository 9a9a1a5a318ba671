"""The clauses of a function's contract, as its text has them, and the answers for them."""
import re

# A clause of a function, on a line of its own.
ENSURES = re.compile(r"( *)ensures (\w+) \{ (.*) \}$")
# An answer for the goal of such a clause.
OF_CLAUSE = re.compile(r"pub returns\S*-clause-(\w+) : ")


def head_of(function):
    """Returns what stands before the body in the text of a function."""
    return re.split(r"(?m)\{$", function, maxsplit=1)[0]


def narrowed(function, clause):
    """Returns the text of a function that ensures this clause alone, or none where it is to be refused at another goal; or None
    where it has no such clause, or one that isn't a line with a name. Beside it stands that a clause follows from itself: of a
    single clause the prover's goals have other names."""
    head = head_of(function)
    lines = with_clauses_joined(head.split("\n"))
    ensured = [line for line in lines if re.match(r" *ensures\b", line)]
    clauses = {found[2]: found for found in map(ENSURES.match, ensured) if found}
    clause = clause_of(clause)
    kept = [clauses[clause][0]] if clause in clauses else []
    if not clauses or len(clauses) != len(ensured) or not kept and "-" not in clause:
        return None
    _, indented, _, text = clauses.get(clause, next(iter(clauses.values()))).group(0, 1, 2, 3)
    kept += [f"{indented}ensures {name} {{ ({text}) → ({text}) }}" for name in ("itself", "itself_too")[: 2 - len(kept)]]
    first = lines.index(ensured[0])
    lines = [*lines[:first], *kept, *(it for it in lines[first:] if it not in ensured)]
    return "\n".join(lines) + function[len(head) :]


def with_clauses_joined(lines):
    """Returns these lines with each clause on one."""
    joined = []
    for line in lines:
        is_open = joined and re.match(r" *(ensures|requires)\b", joined[-1]) and joined[-1].count("{") > joined[-1].count("}")
        joined = [*joined[:-1], f"{joined[-1]} {line.strip()}"] if is_open else [*joined, line]
    return joined


def clause_of(at):
    """Returns the clause of a goal that is named whole, as returns-else-clause-stored, or what is named."""
    return at.rpartition("-clause-")[2]


def answers_for(text, clause):
    """Returns this proof file without its answers for clauses that a function ensures beside this one."""
    answers = re.split(r"(?m)^(?=pub )", text)
    return "".join(it for it in answers if (found := OF_CLAUSE.match(it)) is None or found[1] == clause)
