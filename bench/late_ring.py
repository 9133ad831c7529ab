"""Writes a network with few open nodes for long and then many at once, in the worst order.

A path of nodes, with arcs of weight 0, leads to the first node of a ring. From there an arc of weight 2i
leads to the i-th node of the ring after it, in descending order, and from each of these an arc of weight 1 to
the next one. If the workers leave on the path, a pass in the order in which nodes are opened takes quadratic
time on the ring; one in nearly the order of labels takes linear time.
"""
import sys


def lines(path, ring):
    """The lines of the network of `path` nodes, then `ring` nodes."""
    first = path + 1
    last = path + ring
    yield f"p sp {last} {path + 2 * (ring - 1) - 1}"
    for node in range(1, first):
        yield f"a {node} {node + 1} 0"
    for i in range(ring - 1, 0, -1):
        yield f"a {first} {first + i} {2 * i}"
    for node in range(first + 1, last):
        yield f"a {node} {node + 1} 1"


def main():
    """python3 late_ring.py PATH RING OUT writes OUT.gr and OUT.ss."""
    if len(sys.argv) != 4 or int(sys.argv[1]) < 1 or int(sys.argv[2]) < 2:
        sys.exit(main.__doc__)
    path, ring, out = int(sys.argv[1]), int(sys.argv[2]), sys.argv[3]
    with open(f"{out}.gr", "w", encoding="ascii") as file:
        file.writelines(f"{line}\n" for line in lines(path, ring))
    with open(f"{out}.ss", "w", encoding="ascii") as file:
        file.write("p aux sp ss 1\ns 1\n")


if __name__ == "__main__":
    main()
