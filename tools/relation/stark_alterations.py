"""Changes of a STARK: of what the verifier knows, and of the proof.

A STARK is a JSON value `{"hiding", "system", "public_values", "proof"}`: whether the scheme hides,
and what stands in the files AIR, PUBLICS and PROOF, but for preprocessed columns, of which there is
the verifier's key: a commitment and the logarithm of their height. Changes keep it of this form.
"""

import air
from alterations import (
    PARAMETERS,
    PROOF,
    RANDOM_VALUES,
    Change,
    Digest,
    Element,
    List,
    Number,
    Plain,
    Record,
    compact,
)


class Optional:
    """What there may be."""

    may_be_missing = True

    def __init__(self, entry):
        self.entry, self.sample = entry, entry.sample

    def changes(self, value, path):
        if value is None:
            yield Change(path, "set", compact(self.sample))
        else:
            yield Change(path, "set", "null")
            yield from self.entry.changes(value, path)


class Choice:
    """One of several texts."""

    def __init__(self, *texts):
        self.texts, self.sample = texts, texts[0]

    def changes(self, value, path):
        return (Change(path, "set", compact(text)) for text in self.texts if text != value)


# Kinds that name the same things, so that one may stand for another.
LIKE = (("local", "next"), ("preprocessed", "preprocessed_next"), ("add", "sub", "mul"))


class NodeForm:
    """A node: another kind for its kind, and other things that it names."""

    sample = {"constant": 0}

    def changes(self, value, path):
        (kind, names), = value.items()
        for kinds in LIKE:
            if kind in kinds:
                yield from (Change(path, "set", compact({other: names}))
                            for other in kinds if other != kind)
        below = (*path, kind)
        if isinstance(names, list):
            for place, name in enumerate(names):
                yield from Number().changes(name, (*below, place))
            if names[0] != names[1]:
                yield Change(below, "swap")
        else:
            yield from (Plain() if kind == "constant" else Number()).changes(names, below)


SYSTEM = Record(
    parameters=PARAMETERS,
    num_random_codewords=Number(3),
    air=Record(
        layout=Record(width=Number(), preprocessed_width=Number(), num_public_values=Number(),
                      num_periodic_columns=Number()),
        nodes=List(NodeForm()),
        constraints=List(Record(rows=Choice(*air.ROWS), node=Number())),
    ),
    preprocessed=Optional(Record(commitment=Digest(has_length=True), log_height=Number())),
    periodic=List(List(Plain())),
)

OPENED_VALUES = Record(
    trace_local=List(Element()),
    trace_next=List(Element()),
    preprocessed_local=List(Element()),
    preprocessed_next=List(Element()),
    quotient_chunks=List(List(Element())),
    random=List(Element()),
)

COMMITMENTS = Record(trace=Digest(), quotient_chunks=Digest(), random=Optional(Digest()))


def stark_form(hiding):
    return Record(
        system=SYSTEM,
        public_values=List(Plain()),
        proof=Record(
            commitments=COMMITMENTS,
            opened_values=OPENED_VALUES,
            opening_proof=(Record(random_values=RANDOM_VALUES, proof=PROOF) if hiding else PROOF),
            log_height=Number(27, 28),
        ),
    )


def all_stark_changes(document):
    """Every change of a STARK, the one that keeps it first."""
    yield Change((), "keep")
    yield from stark_form(document["hiding"]).changes(document, ())
