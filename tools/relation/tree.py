"""The tree of SHA-256 digests over rows of matrices of one or several heights."""

from hashlib import sha256

import field

EMPTY_ROOT = sha256(b"\x00").digest()


def base_bytes(number):
    return field.bytes_of(number)


def extension_bytes(element):
    return b"".join(map(field.bytes_of, element))


def leaf(rows, bytes_of):
    """The digest of one row of each matrix, in order."""
    message = b"\x00"
    for row in rows:
        message += len(row).to_bytes(8, "little") + b"".join(bytes_of(entry) for entry in row)
    return sha256(message).digest()


def node(left, right):
    return sha256(b"\x01" + left + right).digest()


def faults(commitment, dimensions, indices, row_sets, paths, bytes_of):
    """The names of all that keeps rows and paths from opening the commitment.

    `dimensions` are pairs of a width and a height, a power of two. No name: they open it.
    """
    found = set()
    if len(row_sets) != len(indices) or len(paths) != len(indices):
        found.add("QueryCount")
    levels = max((height for _, height in dimensions), default=1).bit_length() - 1
    for index, rows, path in zip(indices, row_sets, paths):
        found |= faults_at(commitment, dimensions, levels, index, rows, path, bytes_of)
    return found


def faults_at(commitment, dimensions, levels, index, rows, path, bytes_of):
    found = set()
    if len(rows) != len(dimensions):
        found.add("MatrixCount")
    if any(len(row) != width for row, (width, _) in zip(rows, dimensions)):
        found.add("RowWidth")
    if len(path) != levels:
        found.add("PathLength")
    if not found and climb(leaf(rows, bytes_of), index, path) != commitment:
        found.add("RootMismatch")
    return found


def climb(digest, index, path):
    """The root above a digest with this index and these siblings."""
    for sibling in path:
        digest = node(sibling, digest) if index & 1 else node(digest, sibling)
        index >>= 1
    return digest


class Tree:
    """Matrices, as lists of rows, with all digests above them."""

    def __init__(self, matrices, bytes_of):
        self.matrices = matrices
        self.height = max((len(matrix) for matrix in matrices), default=1)
        layer = [leaf(self.rows(index), bytes_of) for index in range(self.height)]
        self.layers = [layer]
        while len(layer) > 1:
            layer = [node(layer[i], layer[i + 1]) for i in range(0, len(layer), 2)]
            self.layers.append(layer)

    @property
    def root(self):
        return self.layers[-1][0]

    def rows(self, index):
        """The row of each matrix that an index below the greatest height opens."""
        return [matrix[index * len(matrix) // self.height] for matrix in self.matrices]

    def path(self, index):
        return [layer[index >> level ^ 1] for level, layer in enumerate(self.layers[:-1])]
