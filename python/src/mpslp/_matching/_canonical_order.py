"""Puts coloured graphs into the canonical order of igraph: a program, since a process can be ended that takes too long.

Standard input has graphs, as numbers of 64 bits: how many vertices and how many edges, the colours, and the two
vertices of each edge. Standard output gets, for each graph, the canonical number of each vertex. The argument is how
many seconds of a processor all may take.
"""

import resource
import sys
from array import array
from importlib import import_module

ITEM = 8
"""The bytes of a number."""


def main() -> None:
    most = int(sys.argv[1])
    resource.setrlimit(resource.RLIMIT_CPU, (most, most))
    graph_of = import_module("igraph").Graph
    source, target = sys.stdin.buffer, sys.stdout.buffer
    while head := source.read(2 * ITEM):
        count, num_edges = array("q", head)
        colours = array("q", source.read(ITEM * count)).tolist()
        ends = iter(array("q", source.read(2 * ITEM * num_edges)))
        order = graph_of(n=count, edges=list(zip(ends, ends))).canonical_permutation(color=colours)
        target.write(array("q", order).tobytes())
        target.flush()


if __name__ == "__main__":
    main()
