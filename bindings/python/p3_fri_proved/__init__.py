"""The plain FRI polynomial commitment scheme over BabyBear, KoalaBear or Goldilocks, an extension of it, and SHA-256.

The work is done by a library in Rattle, which is Rust with contracts: each of its functions is proved to meet its
contract, so that it does nothing undefined, returns, and answers what is written down. This package is a thin, unproved
layer over it by `ctypes`: it writes requests as bytes, calls the library, and reads the answers.

The library is `libp3_fri_ffi.so` in the folder that the variable `P3_FRI_LIB` names, or in `lib` beside a package that
`tools/package` wrote. Where `P3_FRI_CPU` is `x86-64-v3`, it is the one for processors with AVX2, in the folder
`x86-64-v3` there.

The polynomial through 1 at 1 and 3 at -1 is `2 - X`, whose value at 5 is -3:

    >>> import p3_fri_proved as fri
    >>> parameters = fri.Parameters.toy(num_queries=100)
    >>> context = b"the package's example, version 1"
    >>> column = fri.Matrix(fri.Domain.subgroup(1), width=1, values=[1, 3], points=[(5, 0, 0, 0)])
    >>> opening = fri.open(parameters, context, [[column]])
    >>> opening.claims[0].matrices[0].points[0].values
    [(2013265918, 0, 0, 0)]
    >>> fri.verify(parameters, context, opening.claims, opening.proof) == opening.next_challenge
    True

Over another field than BabyBear each call takes it as `field`:

    >>> column = fri.Matrix(fri.Domain.subgroup(1), width=1, values=[1, 3], points=[(5, 0)])
    >>> opening = fri.open(parameters, context, [[column]], field=fri.GOLDILOCKS)
    >>> opening.claims[0].matrices[0].points[0].values
    [(18446744069414584318, 0)]

That `verify` accepts means, but for an error that the parameters bound, that the claimed values are those of the
polynomials committed to, at the claimed points. Context, parameters, commitments, domains, widths and points are absorbed
before anything is drawn, and the values after them. It doesn't mean that points and commitments are what an application
needs them to be: an application absorbs what is public, and each commitment once it is made, into a `Transcript`; draws its
challenges and its points from there, after what they depend on; and opens and verifies with the transcript's bytes as the
context. Its verifier makes the transcript, the points, and the claims' domains and widths by itself, and has parameters of
its own. Nothing is hidden: a proof shows rows of what is committed to, but for those of `hiding`.

`hiding` has the scheme that masks what is committed to. `stark` proves that there is a table which satisfies a constraint
system, and verifies such proofs.

A `Prover` keeps what it committed to, so that it commits to nothing again where it opens.

Calls share nothing, and Python's lock isn't held inside of one, so threads may call at once.
"""
from . import hiding, stark
from .errors import Error, Malformed, OutOfMemory, ProcessorTooOld, Refused
from .prover import Prover
from .scheme import challenge, commit, open, verify
from .transcript import Transcript
from .types import (
    BABY_BEAR,
    GOLDILOCKS,
    KOALA_BEAR,
    ORDER,
    CommitmentClaims,
    Domain,
    Element,
    ExtensionElement,
    Field,
    Matrix,
    MatrixClaims,
    Opening,
    Parameters,
    PointClaims,
)

__all__ = [
    "BABY_BEAR",
    "GOLDILOCKS",
    "KOALA_BEAR",
    "ORDER",
    "CommitmentClaims",
    "Domain",
    "Element",
    "Error",
    "ExtensionElement",
    "Field",
    "Malformed",
    "Matrix",
    "MatrixClaims",
    "Opening",
    "OutOfMemory",
    "Parameters",
    "PointClaims",
    "ProcessorTooOld",
    "Prover",
    "Refused",
    "Transcript",
    "challenge",
    "commit",
    "hiding",
    "open",
    "stark",
    "verify",
]
