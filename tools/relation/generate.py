"""Writes the altered openings with their answers, and what the program that reads them prints.

    python3 tools/relation/generate.py crates/altered_proofs
"""

import sys
from collections import Counter
from dataclasses import dataclass
from dataclasses import field as record_field
from pathlib import Path

import relation
from alterations import OPERATIONS, all_changes, changed, compact
from challenger import GREATEST_WIDTH, Challenger
from openings import openings
from plain_form import Parameters, Refused, claims_from_plain, proof_from_plain
from relation import Hiding
from rows import ACCEPTED, REFUSED, rows_of


def verdict(document):
    plain = document["hiding"]
    try:
        proof, random_values = proof_from_plain(
            document["proof"], plain["random_values"] if plain else ())
    except Refused as refused:
        return relation.Verdict(refused.faults)
    parameters = Parameters(**document["parameters"])
    claims = claims_from_plain(document["claims"])
    if plain is None:
        return relation.plain_verdict(parameters, claims, proof, Challenger())
    hiding = Hiding(plain["num_random_codewords"], random_values, plain["preprocessing"])
    return relation.hiding_verdict(parameters, hiding, claims, proof, Challenger())


def answers(document):
    """What may be answered: refusals, or acceptance with the next draw of the greatest width."""
    found = verdict(document)
    if found.faults:
        return sorted(found.faults)
    return [f"{ACCEPTED} {found.challenger.draw_bits(GREATEST_WIDTH)}"]


def row_answers(name, row_answer, allowed):
    """The one answer of a named change, which the relation must allow."""
    accepted = allowed[0].startswith(ACCEPTED)
    if row_answer in (ACCEPTED, REFUSED):
        assert accepted == (row_answer == ACCEPTED), (name, allowed)
        return allowed
    assert row_answer in allowed, (name, row_answer, allowed)
    return [row_answer]


def named_groups(document, rows, answers_of):
    """Changes with a name, one by one."""
    base = answers_of(document)
    for row_name, change, row_answer in rows:
        allowed = row_answers(row_name, row_answer, answers_of(changed(document, change)))
        assert row_answer != ACCEPTED or allowed == base, row_name
        yield {"name": row_name, "answers": allowed, "changes": [change.text()]}


def grouped(document, changes, answers_of):
    """Changes by what may be answered."""
    groups = {}
    for change in changes:
        allowed = tuple(answers_of(changed(document, change)))
        groups.setdefault(allowed, []).append(change.text())
    for allowed, texts in groups.items():
        yield {"name": "", "answers": list(allowed), "changes": texts}


def groups_of(name, document):
    return [*named_groups(document, rows_of(name, document), answers),
            *grouped(document, all_changes(document), answers)]


def written(kind, document, groups):
    """One line for the document, and one for each group."""
    lines = ",\n".join(compact(group) for group in groups)
    return f'{{"{kind}":{compact(document)},\n"groups":[\n{lines}\n]}}\n'


@dataclass
class Counts:
    """How many changes there are: by operation, with a name, and accepted."""

    by_operation: Counter = record_field(default_factory=Counter)
    named: int = 0
    accepted: int = 0

    def add(self, group):
        count = len(group["changes"])
        self.by_operation.update(text.split(" ")[1] for text in group["changes"])
        self.named += count if group["name"] else 0
        self.accepted += count if group["answers"][0].startswith(ACCEPTED) else 0

    def line(self, name):
        total = self.by_operation.total()
        return f"{name}: {total} changes, {self.named} of them named, {self.accepted} accepted"


def write_all(crate, kind, documents, groups_by):
    """Writes a file for each document with its groups, and the counts of all."""
    lines, by_operation = [], Counter()
    for name, document in documents:
        groups, counts = list(groups_by(name, document)), Counts()
        for group in groups:
            counts.add(group)
        Path(crate, "data", f"{name}.json").write_text(written(kind, document, groups))
        lines.append(counts.line(name))
        by_operation += counts.by_operation
    lines += [f"{operation}: {by_operation[operation]}" for operation in OPERATIONS]
    Path(crate, "stdout").write_text("\n".join(lines) + "\n")


if __name__ == "__main__":
    write_all(sys.argv[1], "opening", openings(), groups_of)
