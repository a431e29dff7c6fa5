#!/usr/bin/env python3
"""What is usually done with networks before `flow` and after it. Reads lines and writes one for each, in whole numbers of any size. A line that isn't
of the form that is asked for stays as it is: a comment, a line that `flow` refuses, an answer that refuses a line, `wide`. An answer that isn't the flow of
the network beside it is named.

    between A B      network lines: node A becomes the first and node B the last, and a further wire from A to B is put in front
    renumber SEED    network lines: the nodes between the first and the last change their numbers at random; the wires keep their places
    resistance       answers of `flow` to lines that `between` made: the resistance between A and B, in lowest terms
    potentials       lines NETWORK, tab, ANSWER: the potential of each node, and behind `;` what flows out of each
    code             lines NETWORK, tab, ANSWER: the code of the squared rectangle, if the wires below each node come from left to right
"""
import random
import re
import signal
import sys
from fractions import Fraction

NUMBER = r"(?:0|[1-9]\d{0,2})"
NETWORK = re.compile(rf"[ \t\r]*({NUMBER})((?:[ \t\r]+{NUMBER}-{NUMBER})*)[ \t\r]*(;.*)?", re.ASCII | re.DOTALL)
ANSWER = re.compile(r"\d+(?: -?\d+)+", re.ASCII)


def network(line):
    """Returns the number of nodes, the wires and the comment of a network line; or None."""
    found = NETWORK.fullmatch(line)
    if not found:
        return None
    wires = [tuple(map(int, it.split("-"))) for it in found[2].split()]
    return int(found[1]), wires, f" {found[3]}" if found[3] else ""


def text(nodes, wires, comment):
    """Returns a network line."""
    return " ".join([str(nodes), *(f"{a}-{b}" for a, b in wires)]) + comment


def between(line, first, last):
    """Returns the network with other first and last nodes. If they aren't two nodes of it, the wire in front is one that `flow` refuses."""
    found = network(line)
    if not found:
        return line
    nodes, wires, comment = found
    if first == last or max(first, last) >= nodes:
        return text(nodes, [(first, last), *wires], comment)
    order = [first, *(v for v in range(nodes) if v not in (first, last)), last]
    place = {v: k for k, v in enumerate(order)}
    return text(nodes, [(0, nodes - 1), *((place.get(a, a), place.get(b, b)) for a, b in wires)], comment)


def renumber(line, seed):
    """Returns the network with its inner nodes in an order by chance."""
    found = network(line)
    if not found:
        return line
    nodes, wires, comment = found
    inner = list(range(1, nodes - 1))
    place = dict(zip(inner, random.Random(seed).sample(inner, len(inner))))
    return text(nodes, [(place.get(a, a), place.get(b, b)) for a, b in wires], comment)


def resistance(line):
    """Returns the resistance: the current in the first wire is the voltage, and the rest of the total flows through the network."""
    if not ANSWER.fullmatch(line):
        return line
    total, voltage = map(int, line.split()[:2])
    return "infinite" if total == voltage else str(Fraction(voltage, total - voltage))


def flow(line):
    """Returns the wires, the currents, the potentials and the flow out of each node; or None. And the answer, or what is to be said instead."""
    front, _, answer = line.rpartition("\t")
    found = network(front)
    if not found or not ANSWER.fullmatch(answer):
        return None, answer
    nodes, wires, _ = found
    total, *currents = map(int, answer.split())
    # An answer beside the line of another network isn't its flow.
    wrong = None, f"not a flow of this network: {answer}"
    if nodes < 2 or len(wires) != len(currents) or max(map(max, wires)) >= nodes:
        return wrong
    potentials, out = potentials_of(nodes, wires, currents), [0] * nodes
    for (a, b), c in zip(wires, currents):
        out[a] += c
        out[b] -= c
    if None in potentials or any(potentials[a] - potentials[b] != c for (a, b), c in zip(wires, currents)):
        return wrong
    return ((wires, currents, potentials, out), answer) if out == [total, *[0] * (nodes - 2), -total] else wrong


def potentials_of(nodes, wires, currents):
    """Returns the potentials of the nodes, that of the last being 0, and None for nodes that no wires join to it."""
    found, rest = [*[None] * (nodes - 1), 0], list(zip(wires, currents))
    is_new = True
    while is_new:
        is_new = False
        for (a, b), c in rest:
            if found[a] is None and found[b] is not None:
                found[a], is_new = found[b] + c, True
            elif found[b] is None and found[a] is not None:
                found[b], is_new = found[a] - c, True
    return found


def potential_line(line):
    """Returns the potentials of the nodes and what flows out of each of them: the total, 0 and less than the total."""
    found, answer = flow(line)
    if not found:
        return answer
    _, _, potentials, out = found
    return " ".join([*map(str, potentials), ";", *map(str, out)])


def code(line):
    """Returns the code. Each node is a horizontal segment: what hangs from it begins where the leftmost square above it does."""
    found, answer = flow(line)
    if not found:
        return answer
    wires, currents, potentials, _ = found
    below, left, groups = [[] for _ in potentials], {0: 0}, []
    for (a, b), c in zip(wires, currents):
        # A wire without a current has no square. A current against its wire flows down the other way.
        if c:
            below[a if c > 0 else b].append((abs(c), b if c > 0 else a))
    for v in sorted(range(len(potentials)), key=lambda it: -potentials[it]):
        if not below[v]:
            continue
        x = left[v]
        groups.append((-potentials[v], x, [side for side, _ in below[v]]))
        for side, end in below[v]:
            left[end] = min(x, left.get(end, x))
            x += side
    return joined(sorted(groups))


def joined(groups):
    """Returns the code of these groups, by level and then by column. Segments that touch at one level are one group."""
    found, last = [], None
    for level, x, sides in groups:
        if last == (level, x):
            found[-1] += sides
        else:
            found.append(sides)
        last = (level, x + sum(sides))
    return "".join(f"[{','.join(map(str, it))}]" for it in found)


COMMANDS = {"between": (between, 2), "renumber": (renumber, 1), "resistance": (resistance, 0), "potentials": (potential_line, 0), "code": (code, 0)}


def main(words):
    # (behind `| head` the script ends when nobody reads on)
    signal.signal(signal.SIGPIPE, signal.SIG_DFL)
    # (some versions of Python read only numbers of 4,300 digits)
    if hasattr(sys, "set_int_max_str_digits"):
        sys.set_int_max_str_digits(0)
    command, count = COMMANDS.get(words[0] if words else "", (None, 0))
    if not command or len(words) != count + 1 or not all(re.fullmatch(r"\d+", it, re.ASCII) for it in words[1:]):
        sys.exit(__doc__)
    numbers = [int(it) for it in words[1:]]
    for line in sys.stdin.buffer:
        said = command(line.decode("latin-1").rstrip("\n"), *numbers)
        sys.stdout.buffer.write(f"{said}\n".encode("latin-1"))


if __name__ == "__main__":
    main(sys.argv[1:])
