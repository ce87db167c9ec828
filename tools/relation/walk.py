"""Shows an opening or a STARK step by step, for readers: `examples/walk.md` quotes what it prints.

    python3 tools/relation/walk.py opening REQUEST
    python3 tools/relation/walk.py stark AIR TRACE

The files are those of `docs/FORMATS.md`. It is made for a few rows, in the plain scheme. An element
of the extension is written as a list, without its last zeros; a number above half the order as the
negative number that it equals.
"""

import sys

import documents
import field
import prover
import transcript
from answer import demand_openable, text_of
from challenger import Challenger
from relation import schedule
from stark import trace_for
from stark_documents import provable_system_from
from stark_prover import prove
from stark_relation import (
    folded,
    log_num_chunks,
    opened_window,
    recombined,
    zerofier,
)
from stark_transcript import draw_alpha, draw_zeta
from statement import statement_challenger


def number(entry):
    return str(entry - field.ORDER if entry > field.ORDER // 2 else entry)


def element(entry):
    """A list of coefficients, or a number where the element is in the base field."""
    kept = list(entry)
    while len(kept) > 1 and kept[-1] == 0:
        kept.pop()
    return number(kept[0]) if len(kept) == 1 else f"[{', '.join(map(number, kept))}]"


def elements(entries):
    return ", ".join(map(element, entries))


def show(name, text):
    print(f"{name:<22}{text}")


def digest(entry):
    return f"{entry.hex()[:16]}.."


def show_committed(parameters, data):
    for matrix, (log_size, columns) in enumerate(zip(data.log_sizes, data.columns)):
        height = log_size + parameters.log_blowup
        points = [field.coset_point(index, height) for index in range(1 << height)]
        for column in columns:
            show("polynomial", ", ".join(map(number, column)))
        show("points of its words", ", ".join(map(number, points)))
        for row in zip(*data.tree.matrices[matrix]):
            show("word", ", ".join(map(number, row)))
    show("root", data.commitment.hex())


def show_claims(claims):
    for claim in claims:
        for matrix in claim.matrices:
            for point in matrix.points:
                show("claim", f"at {element(point.point)}: {elements(point.values)}")


def show_rounds(parameters, words, trees, witnesses, start):
    """The rounds once more, from the challenger in which they began."""
    heights = sorted(words, reverse=True)
    arities = schedule(heights, parameters.log_final_height, parameters.max_log_arity)
    transcript.observe_stream(start, transcript.test_stream(parameters, arities, heights[0]))
    word = words[heights[0]]
    for arity, tree, witness in zip(arities, trees, witnesses):
        show("root of its rows", digest(tree.root))
        start.observe_bytes(tree.root)
        if parameters.commit_proof_of_work_bits:
            start.check_witness(parameters.commit_proof_of_work_bits, witness)
            show("proof of work", witness)
        beta = start.draw_element()
        word = prover.fold_word(word, arity, beta)
        joining = words.get(len(word).bit_length() - 1)
        if joining:
            weight = field.power(beta, 1 << arity)
            word = [field.add(entry, field.multiply(weight, other))
                    for entry, other in zip(word, joining)]
        show("beta", element(beta))
        show("folded word", elements(word))


def opening(file):
    request = documents.request_from(text_of(file))
    parameters = request.parameters
    requests = [
        (prover.commit(parameters, [matrix.rows for matrix in matrices],
                       [matrix.shift for matrix in matrices]),
         [matrix.points for matrix in matrices])
        for matrices in request.commitments
    ]
    claims = prover.claims_of(requests)
    demand_openable(parameters, claims)
    for data, _ in requests:
        show_committed(parameters, data)
    show_claims(claims)
    challenger = statement_challenger(request.context, parameters, claims)
    prover.absorb_claims(parameters, claims, challenger)
    alpha = challenger.draw_element()
    show("alpha", element(alpha))
    words = prover.quotient_words(parameters, requests, claims, alpha)
    for height in sorted(words, reverse=True):
        show("word of the quotients", elements(words[height]))
    start = challenger.copy()
    _, trees, witnesses, last = prover.commit_rounds(parameters, words, challenger)
    show_rounds(parameters, words, trees, witnesses, start)
    polynomial = prover.final_polynomial(parameters, last)
    show("final polynomial", elements(polynomial))
    for coefficient in polynomial:
        challenger.observe_element(coefficient)
    if parameters.query_proof_of_work_bits:
        show("proof of work", challenger.grind(parameters.query_proof_of_work_bits))
    indices = [challenger.draw_bits(max(words)) for _ in range(parameters.num_queries)]
    show("indices", ", ".join(map(str, indices)))
    show("next challenge", element(challenger.draw_element()))


def stark(air_file, trace_file):
    system = provable_system_from(text_of(air_file), False)
    given = trace_for(system, trace_file)
    statement, proof = prove(system.scheme, system.air, given, Challenger())
    log_height, air = proof.log_height, system.air
    show("rows, columns", f"{len(given.trace)}, {air.width}")
    show("nodes, constraints", f"{len(air.nodes)}, {len(air.constraints)}")
    show("public values", ", ".join(map(number, given.public_values)))
    challenger = Challenger()
    show("root of the trace", digest(proof.commitments.trace))
    alpha = draw_alpha(challenger, statement.instance(log_height),
                       statement.preprocessed_commitment, proof.commitments.trace, False)
    show("alpha", element(alpha))
    show("chunks of a quotient", 1 << log_num_chunks(system.scheme, air))
    show("root of the chunks", digest(proof.commitments.quotient_chunks))
    zeta = draw_zeta(challenger, proof.commitments.quotient_chunks, None)
    show("zeta", element(zeta))
    show("trace at zeta", elements(proof.opened_values.trace_local))
    show("trace at the next", elements(proof.opened_values.trace_next))
    for chunk in proof.opened_values.quotient_chunks:
        show("chunk at zeta", elements(chunk))
    window = opened_window(statement, proof, zeta)
    total = folded(air, window, log_height, alpha, zeta)
    quotient = recombined(log_height, proof.opened_values.quotient_chunks, zeta)
    show("folded constraints", element(total))
    show("quotient times Z", element(field.multiply(quotient, zerofier(log_height, zeta))))


if __name__ == "__main__":
    COMMANDS = {"opening": (opening, 1), "stark": (stark, 2)}
    call, count = COMMANDS.get(sys.argv[1] if len(sys.argv) > 1 else "", (None, 0))
    if call is None or len(sys.argv) != 2 + count:
        sys.exit(__doc__)
    call(*sys.argv[2:])
