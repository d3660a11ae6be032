"""Runs the program `settle` on random jobs and frames and holds what it prints to document 01.

Run: python3 tests/settle.py [COUNT] [SEED]    COUNT frames (default 3000) besides the document's own, from SEED (default 1).
The program is crates/settle/out/settle, or the one that the environment variable SETTLE names.

Refusals and the answers to small jobs are held to the brute-force reference. For larger jobs the pairing is the proof: the
steps are both the sum of the changes and the pairing's weight, and the marked tree is cheapest with the new costs.
Unplugged links are printed as any other, with their old cost twice.
It prints how many frames of each kind were run and OK, or the first difference with its frame, and then exits with 1.
"""
import os
import random
import subprocess
import sys
import time
from collections import Counter
from pathlib import Path

sys.dont_write_bytecode = True

import brute_force as reference
from brute_force import NUMBER_MOST, UNPLUGGED, Answer, Job, Link

PROGRAM = os.environ.get("SETTLE") or str(Path(__file__).resolve().parent.parent / "crates/settle/out/settle")
LONGEST_INPUT = 65536
# Ranges of costs: one byte, two, three. Each leaves room above the least costs of reference.random_job.
COST_TOPS = [1, 3, 60, 16257, NUMBER_MOST - 16382]

# The rows of document 01 that a program without an answer area can run: a job frame, and its answer frame or its refusal.
ROWS = {
    "T1": ("03 03 00 01 05 01 01 02 04 01 00 02 02 00", "03 04 04 04 01 00 02"),
    "T2": ("01 00", "00 00"),
    "T3": ("02 02 00 01 07 01 00 01 07 00", "00 07 07 00"),
    "T4": ("02 02 00 01 07 01 00 01 06 00", "01 06 06 01 00 01"),
    "T5": ("02 01 00 01 FF 7F 01", "00 FF 7F 00"),
    "T6": ("80 00", 1),
    "T7": ("", 2),
    "T8": ("02 01 00 00 05 03", 4),
    "T9": ("40 00", 6),
    "65 stations": ("41 00", 2),
    "no station": ("00 00", 2),
    "80 alone": ("80", 1),
    "three bytes": ("FF FF 01", 2),
    "four bytes": ("FF FF FF 01", 1),
    "00 as the third byte": ("80 80 00", 1),
    "an end of three bytes": ("02 01 80 80 04 01 05 01", 4),
    "another end of three bytes": ("02 01 00 81 80 04 05 01", 4),
    "a mark of three bytes": ("02 01 00 01 05 81 80 04", 5),
    "another mark of three bytes": ("02 02 00 01 05 01 00 01 03 82 80 04", 5),
    "mark 3": ("02 02 00 01 05 01 00 01 03 03", 5),
    "the tree unplugged": ("02 01 00 01 05 02", 6),
    "equal ends of an unplugged link": ("02 02 00 01 05 01 00 00 03 02", 4),
    "an unplugged link": ("02 02 00 01 05 01 00 01 03 02", "00 05 03 00"),
    "T1 with an unplugged link": ("03 04 00 01 05 01 01 02 04 01 00 02 01 02 00 02 02 00", "03 04 04 01 04 01 00 03"),
    "a cost of 16,384": ("02 01 00 01 80 80 01 01", "00 80 80 01 00"),
    "a cost of 2,097,151": ("02 01 00 01 FF FF 7F 01", "00 FF FF 7F 00"),
    "a cost of 2,097,152": ("02 01 00 01 80 80 80 01 01", 1),
    "2,097,152 steps": ("03 04 00 01 FF FF 7F 01 00 01 00 00 01 02 01 01 01 02 00 00",
                        "80 80 80 01 00 00 00 00 02 00 01 02 03"),
    "links missing": ("01 01", 3),
    "257 links": ("02 81 02" + " 00 01 05 01" + " 00 01 05 00" * 256, 2),
}
# The job of 13 steps, all costs 3: either pairing is right.
THIRTEEN = "03 04 00 01 09 01 01 02 08 01 00 02 01 00 00 02 03 00"

# Ways to go wrong, each with a job that shows it: the frame, its steps, and the steps that the wrong way takes or names.
TRAPS = {
    "each tree link lowered to its cheapest spare": (ROWS["T1"][0], 3, 5),
    "the pairing with most pairs": ("03 04 00 01 0A 01 01 02 01 01 00 02 00 00 00 01 09 00", 10, 2),
    "pairs without rearranging": ("03 04 00 01 09 01 01 02 08 01 00 02 01 00 00 01 03 00", 13, 8),
    "stopped after the first pair": (THIRTEEN, 13, 8),
    "old costs handed back": (ROWS["T1"][0], 3, 0),
    "all links set to one cost": ("03 03 00 01 02 01 01 02 09 01 00 01 05 00", 0, 7),
    "a made-up step count": (ROWS["T4"][0], 1, 0),
    "an empty pairing": (ROWS["T4"][0], 1, 0),
    "an unplugged link taken for a spare": (ROWS["an unplugged link"][0], 0, 2),
    "an unplugged link's cost set to 0": (ROWS["an unplugged link"][0], 0, 3),
}


class Different(Exception):
    """What the program printed is not what it should print."""


def run(frame):
    done = subprocess.run([PROGRAM], input=frame, stdout=subprocess.PIPE)
    if done.returncode < 0:
        raise Different(f"the program was ended by signal {-done.returncode}")
    return done.stdout.decode("ascii", "replace")


def run_in_parts(frame):
    """The same, with every byte sent by itself."""
    with subprocess.Popen([PROGRAM], stdin=subprocess.PIPE, stdout=subprocess.PIPE, bufsize=0) as program:
        for byte in frame:
            program.stdin.write(bytes([byte]))
            time.sleep(0.005)
        return program.communicate()[0].decode("ascii", "replace")


def same(printed, wanted):
    if printed != wanted:
        raise Different(f"printed {printed!r}, wanted {wanted!r}")


def refused(number):
    return f"refused {number}\n"


def answered(job, answer):
    """What is to be printed for the answer."""
    lines = [f"total {answer.steps}"]
    lines += [f"{e} {old} {new}" for e, (old, new) in enumerate(zip(reference.old_costs(job), answer.costs))]
    return "".join(line + "\n" for line in lines + [f"pair {t} {s}" for t, s in answer.pairs])


def read_answer(job, printed):
    """The answer that was printed, in exactly the form of the document."""
    links = len(job.links)
    try:
        words = [line.split() for line in printed.splitlines()]
        costs = [int(line[2]) for line in words[1:links + 1]]
        answer = Answer(int(words[0][1]), costs, [(int(t), int(s)) for _, t, s in words[links + 1:]])
    except (IndexError, ValueError):
        raise Different(f"printed {printed!r}, which is no answer") from None
    same(printed, answered(job, answer))
    return answer


def cheapest_total(job, costs):
    """The total cost of a cheapest spanning tree: plugged links by rising cost, each that joins two groups of stations."""
    group, total = list(range(job.stations)), 0
    plugged = [e for e, link in enumerate(job.links) if link.mark != UNPLUGGED]
    for e in sorted(plugged, key=lambda e: costs[e]):
        one, other = group[job.links[e].end1], group[job.links[e].end2]
        if one != other:
            total += costs[e]
            group = [one if name == other else name for name in group]
    return total


def lowest_costs(job, pairs, over):
    """The lowest best costs that go with a best pairing: paired links are equal, from the spare's old cost upwards."""
    costs, partner = reference.old_costs(job), {s: t for t, s in pairs}
    for t, s in pairs:
        costs[t] = costs[s]
    rising = True
    while rising:
        rising = False
        for s, path in over.items():
            least = max(costs[t] for t in path)
            if costs[s] < least:
                costs[s] = costs[partner.get(s, s)] = least
                rising = True
    return costs


def check_proof(job, answer):
    """Holds an answer to the rules without a search: the pairing shows that the steps are the fewest."""
    steps, costs, pairs = answer
    old, tree, spare = reference.old_costs(job), reference.tree_links(job), reference.spare_links(job)
    over = {s: reference.path_links(job, job.links[s].end1, job.links[s].end2, frozenset(tree)) for s in spare}
    rules = {
        "pairs are a tree link and a spare link": all(t in tree and s in spare for t, s in pairs),
        "pairs rise by tree link, none twice": all(a[0] < b[0] for a, b in zip(pairs, pairs[1:])),
        "no spare link twice": len({s for _, s in pairs}) == len(pairs),
        "the spare link lies over the tree link": all(t in over.get(s, []) for t, s in pairs),
        "the old tree cost is above the old spare cost": all(old[t] > old[s] for t, s in pairs if t in tree and s in spare),
        "the steps are the sum of the changes": steps == sum(abs(new - was) for new, was in zip(costs, old)),
        "the tree is cheapest with the new costs": sum(costs[t] for t in tree) == cheapest_total(job, costs),
        "unplugged links keep their costs": all(costs[e] == old[e] for e in reference.unplugged_links(job)),
    }
    for rule, holds in rules.items():
        if not holds:
            raise Different(f"not so: {rule}; printed {answer}")
    if reference.weight(job, pairs) != steps:
        raise Different(f"not so: the pairing weighs the steps; printed {answer}")
    if lowest_costs(job, pairs, over) != costs:
        raise Different(f"not so: the costs are the lowest; printed {answer}")


def check_frame(frame, solved=False):
    """Runs one frame. Returns its refusal and, of an accepted one, the steps. `solved`: the reference solves the job."""
    number = reference.refusal(frame)
    printed = run(frame)
    if number:
        same(printed, refused(number))
        return number, None
    job = reference.job_of(frame)
    answer = read_answer(job, printed)
    check_proof(job, answer)
    if solved:
        solution = reference.solve(job)
        best = [answered(job, Answer(solution.steps, solution.lowest, pairs)) for pairs in solution.pairings]
        if printed not in best:
            raise Different(f"printed {printed!r}, wanted one of {best}")
    return 0, answer.steps


# Frames.

def full_job(rng, top):
    """64 stations and 256 links, all costs random; the tree is random or a path; a third of the spares may be unplugged."""
    ends = reference.random_tree(rng, 64) if rng.random() < 0.5 else [(i, i + 1) for i in range(63)]
    tree = [Link(a, b, rng.randint(0, top), 1) for a, b in ends]
    spare = [Link(*rng.sample(range(64), 2), rng.randint(0, top), 0) for _ in range(193)]
    spare = reference.some_unplugged(rng, spare, rng.choice([0, 1 / 3]), 1, max(1, top // 2))
    return Job(64, rng.sample(tree + spare, 256))


def chain_job(rng):
    """Tree links that can all be paired only by long chains; the links in their order or mixed."""
    job = reference.chain_job(rng.randint(1, 63))
    return job if rng.random() < 0.5 else Job(job.stations, rng.sample(job.links, len(job.links)))


def steep_job(low):
    """A path of 63 tree links of the largest cost, each with a spare of that low cost beside it."""
    tree = [Link(i, i + 1, NUMBER_MOST, 1) for i in range(63)]
    spare = [Link(i, i + 1, low, 0) for i in range(63)]
    return Job(64, [Link(0, 1, NUMBER_MOST, 0)] * 130 + spare + tree)


def large_job(rng):
    kind = rng.choice(["middle", "middle", "chains", "full"])
    if kind == "middle":
        stations, links, top = rng.choice([8, 16, 64]), rng.choice([63, 128, 256]), rng.choice(COST_TOPS)
        return kind, reference.random_job(rng, stations, links, top)
    return kind, chain_job(rng) if kind == "chains" else full_job(rng, rng.choice([1, 100, 16383, NUMBER_MOST]))


def bad_frame(rng):
    """A kind of damage and a frame with it. Some are jobs all the same."""
    job = reference.random_job(rng, *rng.choice([(4, 6, 4), (4, 6, 200), (12, 30, 16257), (12, 30, COST_TOPS[-1])]))
    frame = reference.job_frame(job)
    parts = reference.pieces(frame)
    place = rng.randrange(len(parts))
    value = reference.number_of(parts[place], reference.NUMBER_BYTES)
    numbers = [0, 1, 2, 3, 63, 64, 65, 128, 256, 257, 16383, 16384, 65536, 65537, NUMBER_MOST]
    zeros = rng.choice([[0], [128, 0]])
    before, after = b"".join(parts[:place]), b"".join(parts[place + 1:])
    kinds = {
        "cut off": lambda: frame[:rng.randrange(len(frame))],
        "bytes behind": lambda: frame + bytes(rng.choice([0, 1, 128, 255]) for _ in range(rng.randint(1, 5))),
        "bytes damaged": lambda: reference.damaged(rng, reference.damaged(rng, frame) or frame),
        "byte changed": lambda: reference.damaged(rng, frame),
        "not shortest": lambda: before + bytes([*parts[place][:-1], parts[place][-1] | 128, *zeros]) + after,
        "above three bytes": lambda: before + reference.write_number(value + 2 ** rng.choice([21, 28, 64])) + after,
        "another number": lambda: before + reference.write_number(rng.choice(numbers)) + after,
        "number missing": lambda: before + after,
        "another count": lambda: reference.write_numbers([rng.choice([*numbers, job.stations]),
                                                          rng.choice([*numbers, len(job.links) + 1])]) + frame[2:],
        "wrong link": lambda: reference.wrong_links(rng, job),
        "two wrong links": lambda: reference.wrong_links(rng, reference.job_of(reference.wrong_links(rng, job))),
        "random bytes": lambda: bytes(rng.randrange(rng.choice([4, 256])) for _ in range(rng.randrange(20))),
    }
    kind = rng.choice(list(kinds))
    return kind, kinds[kind]()


# The runs: what kind of frame it is, the frame, and what holds the program to it.

def check_refused(number):
    def check(frame):
        same(run(frame), refused(number))
        return number, None
    return check


def check_row(result):
    def check(frame):
        if isinstance(result, int):
            wanted = refused(result)
        else:
            job = reference.job_of(frame)
            wanted = answered(job, reference.read_answer(job, bytes.fromhex(result)))
        same(run(frame), wanted)
        if len(frame) < 20:
            same(run_in_parts(frame), wanted)
        return check_frame(frame)
    return check


def check_thirteen(frame):
    number, steps = check_frame(frame, solved=True)
    same(run(frame).split("pair")[0], "total 13\n0 9 3\n1 8 3\n2 1 3\n3 3 3\n")
    return number, steps


def check_trap(right, wrong):
    def check(frame):
        number, steps = check_frame(frame, solved=True)
        if steps != right or steps == wrong:
            raise Different(f"{steps} steps, wanted {right} and not {wrong}")
        return number, steps
    return check


def check_steps(wanted):
    def check(frame):
        number, steps = check_frame(frame)
        if steps != wanted:
            raise Different(f"{steps} steps, wanted {wanted}")
        return number, steps
    return check


def check_too_long(frame):
    same(run(frame), "too long\n")
    return "too long", None


def check_solved(frame):
    return check_frame(frame, solved=True)


def runs(rng, wanted):
    first = bytes.fromhex(ROWS["T1"][0])
    for row, result in ROWS.values():
        yield "document 01", bytes.fromhex(row), check_row(result)
    yield "document 01", bytes.fromhex(THIRTEEN), check_thirteen
    for name, (row, right, wrong) in TRAPS.items():
        yield "trap: " + name, bytes.fromhex(row), check_trap(right, wrong)
    yield "document 01", bytes.fromhex("02 80 02" + " 00 01 05 01" + " 00 01 04 00" * 255), check_frame
    for low in [0, 16384]:
        yield "most steps, longest answer", reference.job_frame(steep_job(low)), check_steps(63 * (NUMBER_MOST - low))
    for filler, behind, alone in [(b"\x00", 3, 2), (b"\x01", 3, 3), (b"\x80", 1, 1), (b"\xff", 1, 1)]:
        yield "longest input", (first + filler * LONGEST_INPUT)[:LONGEST_INPUT], check_refused(behind)
        yield "longest input", filler * LONGEST_INPUT, check_refused(alone)
        for length in [LONGEST_INPUT + 1, 2 * LONGEST_INPUT, 1000000]:
            yield "above the longest input", (first + filler * length)[:length], check_too_long
    for _ in range(wanted * 2 // 5):
        yield "small job, solved", reference.job_frame(reference.small_job(rng)), check_solved
    for _ in range(wanted // 10):
        yield "job of up to 8 links, solved", reference.job_frame(reference.larger_job(rng)), check_solved
    for _ in range(wanted // 10):
        kind, job = large_job(rng)
        yield "large job, " + kind, reference.job_frame(job), check_frame
    for _ in range(wanted - wanted * 2 // 5 - wanted // 10 * 2):
        kind, frame = bad_frame(rng)
        yield "frame with " + kind, frame, check_frame


def main():
    if not os.path.exists(PROGRAM):
        sys.exit("tests/settle.py needs crates/settle/out/settle: rt run in crates/settle builds it")
    wanted = int(sys.argv[1]) if len(sys.argv) > 1 else 3000
    rng = random.Random(int(sys.argv[2]) if len(sys.argv) > 2 else 1)
    kinds, numbers, kept, most, unplugged = Counter(), Counter(), 0, 0, 0
    for kind, frame, check in runs(rng, wanted):
        try:
            number, steps = check(frame)
        except Different as difference:
            print(f"{kind}: {difference}\nframe: {frame.hex(' ')}")
            return 1
        kinds[kind] += 1
        numbers[number] += 1
        kept += steps == 0
        most = max(most, steps or 0)
        unplugged += number == 0 and bool(reference.unplugged_links(reference.job_of(frame)))
    for kind, times in kinds.items():
        print(f"{times:6} {kind}")
    refusals = ", ".join(f"{numbers[number]} refused {number}" for number in range(1, 7))
    print(f"{kinds.total()} frames: {numbers[0]} accepted, {refusals}, {numbers['too long']} too long")
    print(f"accepted: {kept} of no steps, {numbers[0] - kept} of up to {most} steps; {unplugged} with unplugged links")
    print("OK")
    return 0


if __name__ == "__main__":
    sys.exit(main())
