"""Writes the files of jobs that bench/run measures, the same ones every time.

Run: python3 bench/generate.py DIR

A file of jobs holds job frames one after another, each preceded by its length in four bytes, lowest first; a file of logs
holds a job frame, its packet log, the next job and so on, in the same way. A link is a list of two ends, cost and mark (1
tree, 0 spare, 2 unplugged); a packet is a link number and 1 for up or 0 for down.
"""
import random
import sys
from pathlib import Path

NODES, EDGES = 64, 256
# The largest cost of every file but `wide`: the largest number of two bytes.
TWO_BYTES_MOST = 16383


# Frames.


def number(x):
    return bytes([x]) if x < 128 else bytes([x % 128 + 128]) + number(x // 128)


def frame_of(numbers):
    return b"".join(map(number, numbers))


def numbers_of(nodes, links):
    return [nodes, len(links)] + [x for link in links for x in link]


def job_frame(nodes, links):
    return frame_of(numbers_of(nodes, links))


def write_frames(path, frames):
    path.write_bytes(b"".join(len(frame).to_bytes(4, "little") + frame for frame in frames))


# Trees, as pairs of nodes, and links.


def path_tree(rng, nodes):
    return [(v - 1, v) for v in range(1, nodes)]


def star_tree(rng, nodes):
    return [(0, v) for v in range(1, nodes)]


def random_tree(rng, nodes):
    return [(rng.randrange(v), v) for v in range(1, nodes)]


def random_pair(rng, nodes):
    return rng.sample(range(nodes), 2)


def shuffled(rng, nodes, links):
    """The same job with other station numbers, links in another order and ends swapped at random."""
    name = rng.sample(range(nodes), nodes)
    links = [[name[a], name[b], cost, mark] for a, b, cost, mark in links]
    for link in links:
        if rng.random() < 0.5:
            link[0], link[1] = link[1], link[0]
    rng.shuffle(links)
    return links


def random_links(rng, nodes, edges, tree, tree_cost, spare_cost):
    """Tree links with tree_cost() and random spares with spare_cost()."""
    links = [[a, b, tree_cost(), 1] for a, b in tree]
    while len(links) < edges:
        links.append(random_pair(rng, nodes) + [spare_cost(), 0])
    return shuffled(rng, nodes, links)


# The kinds of jobs.


def random_job(rng, nodes, edges):
    def cost():
        return rng.randint(0, TWO_BYTES_MOST)

    return random_links(rng, nodes, edges, random_tree(rng, nodes), cost, cost)


def tiny(rng):
    nodes = rng.randint(2, 4)
    return job_frame(nodes, random_job(rng, nodes, nodes - 1 + rng.randint(0, 4)))


def medium(rng):
    return job_frame(16, random_job(rng, 16, 48))


def full(rng):
    return job_frame(NODES, random_job(rng, NODES, EDGES))


FULL_FOR_WIDE, FULL_FOR_UNPLUGGED, FULL_FOR_NEVER, FULL_FOR_EARLY = (random.Random(full.__name__) for _ in range(4))


def wide(rng):
    """The next job of `full` with seven bits more to every cost."""
    links = random_job(FULL_FOR_WIDE, NODES, EDGES)
    return job_frame(NODES, [[a, b, 128 * cost + rng.randrange(128), mark] for a, b, cost, mark in links])


def unplugged(rng):
    """The next job of `full` with a third of its links unplugged, all of them spares there."""
    links = random_job(FULL_FOR_UNPLUGGED, NODES, EDGES)
    for link in rng.sample([link for link in links if link[3] == 0], EDGES // 3):
        link[3] = 2
    return job_frame(NODES, links)


def level_job(rng, tree, tree_cost, spare_cost):
    links = random_links(rng, NODES, EDGES, tree(rng, NODES), lambda: tree_cost, lambda: spare_cost)
    return job_frame(NODES, links)


def equal(rng):
    cost = rng.randint(0, TWO_BYTES_MOST)
    return level_job(rng, rng.choice([path_tree, star_tree, random_tree]), cost, cost)


def twolevel(rng):
    spare_cost, tree_cost = sorted(rng.sample(range(TWO_BYTES_MOST + 1), 2))
    return level_job(rng, rng.choice([path_tree, random_tree]), tree_cost, spare_cost)


# Adversarial jobs: the tree is a path, whose link k joins stations k and k + 1. Each shape gives the costs of the tree links
# and 63 cheaper spares, as two ends and cost; the other spares are long and too dear.


def fan(step):
    """Every spare ends at the last station: the dearer a tree link, the more spares lie over it."""
    return [3000 + 90 * k for k in range(63)], [(k, 63, 1000 + step * k) for k in range(63)]


def windows(width):
    """Spare k lies over `width` tree links from k on. The first links come last and find all their spares taken; with two to
    a spare, link 0 moves all 62 pairs made before it."""
    return [3000 + 90 * k for k in range(63)], [(k, min(k + width, 63), 1000 + 10 * k) for k in range(63)]


def nested():
    """Spares over ever shorter parts of the path, the longest ones cheapest; the links in the middle are dearest."""
    tree = [3000 + 180 * min(k, 62 - k) for k in range(63)]
    return tree, [(k // 2, 63 - (k + 1) // 2, 1000 + 10 * k) for k in range(63)]


def adversarial(rng):
    shapes = [lambda: fan(rng.randint(1, 30)), lambda: windows(rng.choice([2, 4, 8, 16, 32])), nested]
    tree, cheap = rng.choice(shapes)()
    links = [[k, k + 1, cost, 1] for k, cost in enumerate(tree)]
    links += [[a, b, cost, 0] for a, b, cost in cheap]
    while len(links) < EDGES:
        a = rng.randrange(32)
        links.append([a, rng.randint(a + 16, 63), rng.randint(9000, TWO_BYTES_MOST), 0])
    return job_frame(NODES, shuffled(rng, NODES, links) if rng.random() < 0.5 else links)


# Damaged frames: a random job spoiled so that one question refuses it. Two stations or more and a link, so that there is
# something to spoil.


def sound(rng):
    nodes = rng.choice([2, 3, 8, 16, NODES])
    return nodes, random_job(rng, nodes, min(EDGES, nodes + rng.randint(0, 2 * nodes)))


def refused1(rng):
    """Some are refused by 2 or 3: FF FF 01 is a number of three bytes."""
    frame = job_frame(*sound(rng))
    spoiled = rng.choice([b"\x80", b"\xff\xff\x01", b"\x85\x00"])
    if spoiled == b"\x80":
        return frame + spoiled
    at = rng.choice([0, len(frame)])
    return frame[:at] + spoiled + frame[at:]


def refused2(rng):
    nodes, links = sound(rng)
    numbers = numbers_of(nodes, links)
    return rng.choice([
        frame_of(numbers[: rng.randint(0, 1)]),
        frame_of([rng.choice([0, 65, 127, 128, TWO_BYTES_MOST])] + numbers[1:]),
        frame_of([nodes, rng.randint(257, TWO_BYTES_MOST)] + numbers[2:]),
    ])


def refused3(rng):
    nodes, links = sound(rng)
    numbers = numbers_of(nodes, links)
    if rng.random() < 0.1:
        return frame_of(numbers) + frame_of(rng.choice(links)) * rng.randint(2000, 40000)
    return frame_of(rng.choice([numbers[: rng.randint(2, len(numbers) - 1)], numbers + [rng.randint(0, TWO_BYTES_MOST)]]))


def refused4(rng):
    nodes, links = sound(rng)
    link = rng.choice(links)
    link[rng.randrange(2)] = rng.randint(nodes, TWO_BYTES_MOST)
    if rng.random() < 0.5:
        link[0] = link[1]
    return job_frame(nodes, links)


def refused5(rng):
    """2 is a mark too, but is never drawn here."""
    nodes, links = sound(rng)
    rng.choice(links)[3] = rng.randint(2, TWO_BYTES_MOST)
    return job_frame(nodes, links)


def refused6(rng):
    nodes, links = sound(rng)
    tree = [link for link in links if link[3] == 1]
    spare = next(link for link in links if link[3] == 0)
    lost = rng.choice(tree)
    if nodes > 2 and rng.random() < 0.5:
        kept = rng.choice([link for link in tree if link is not lost])
        lost[:2] = kept[:2]  # a cycle: as many tree links as are due, but one is twice there
    else:
        rng.choice([lost, spare])[3] ^= 1
    return job_frame(nodes, links)


def damaged(rng):
    return rng.choice([refused1, refused2, refused3, refused4, refused5, refused6])(rng)


# Packet logs: one packet of a tree link, the next of a spare, up or down.

JOBS_WITH_LOGS, PACKETS = 5, 20000
# Of `early`: tree links cost at most the first, spares at least the second, so that no log brings them together.
TREES_BELOW, SPARES_ABOVE = 8000, 9000


def numbered(links, mark):
    return [e for e, link in enumerate(links) if link[3] == mark]


def random_packets(rng, trees, spares, count):
    return [(rng.choice(spares if i % 2 else trees), rng.randrange(2)) for i in range(count)]


def log_frame(packets):
    return frame_of([x for packet in packets for x in packet])


def never(rng):
    """To the next job of `full`, which is many thousand steps from its tree being cheapest."""
    links = random_job(FULL_FOR_NEVER, NODES, EDGES)
    packets = random_packets(rng, numbered(links, 1), numbered(links, 0), PACKETS)
    return job_frame(NODES, links), log_frame(packets)


def early(rng):
    """To the next job of `full` with costs at which the tree is cheapest but for one spare, which is a step cheaper than the
    tree link beside it; packet 100 raises it."""
    links = random_job(FULL_FOR_EARLY, NODES, EDGES)
    trees, spares = numbered(links, 1), numbered(links, 0)
    for e in trees:
        links[e][2] = rng.randint(1, TREES_BELOW)
    for e in spares:
        links[e][2] = rng.randint(SPARES_ABOVE, TWO_BYTES_MOST)
    tree, spare = rng.choice(trees), rng.choice(spares)
    links[spare] = links[tree][:2] + [links[tree][2] - 1, 0]
    others = random_packets(rng, [e for e in trees if e != tree], [e for e in spares if e != spare], PACKETS - 1)
    packets = others[:99] + [(spare, 1)] + others[99:]
    return job_frame(NODES, links), log_frame(packets)


LOGS = [never, early]

FILES = [(tiny, 1000), (medium, 100), (full, 100), (wide, 100), (unplugged, 100), (adversarial, 100), (equal, 100),
         (twolevel, 100), (damaged, 1000)]


def main():
    folder = Path(sys.argv[1])
    folder.mkdir(parents=True, exist_ok=True)
    for kind, count in FILES:
        rng = random.Random(kind.__name__)
        write_frames(folder / f"{kind.__name__}.jobs", [kind(rng) for _ in range(count)])
    for kind in LOGS:
        rng = random.Random(kind.__name__)
        write_frames(folder / f"{kind.__name__}.logs", [frame for _ in range(JOBS_WITH_LOGS) for frame in kind(rng)])


main()
