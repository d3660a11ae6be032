"""A brute-force reference for the jobs of document 01, and a generator of small jobs.

It reads and judges frames by the document's words and finds answers by trying everything: all spanning trees of plugged
links, all choices of whole-number costs for all links by rising steps (0 steps, 1 step, ..: no window, so negative costs are
among them), all pairings.
It knows no path test for "cheapest" and no search for pairings, so it shares no idea with the model that it is held against.
A step sheet or a packet log is divided into all its numbers first, and then asked as a whole; the model takes entry by entry.
A log is replayed over a list of costs, and all spanning trees are asked after every packet.

Run: python3 tests/brute_force.py [COUNT]    solves COUNT small random jobs (default 100) and a larger one for every four,
with the assertions below, and prints figures.
Asserted of every solved job: one best choice is lowest at every link and stays between the smallest and the largest old
cost; no best choice moves an unplugged link; the greatest weight of a pairing equals the steps; the lowest costs follow from
each best pairing as the document says.
Step sheets and new costs that are in form give each other byte for byte; the absolute changes of the sheet of a best choice
add up to the steps. Of all short strings of small bytes, those that are the sheet of some costs are read, and no others.
No log after which the tree is cheapest has fewer packets than the steps; the packets to best costs have just as many, and the
tree is cheapest after the last of them first. Of all short strings of small bytes, those that are a log are read, and no
others.
"""
import random
import sys
from collections import Counter, namedtuple
from itertools import combinations, count, product

Link = namedtuple("Link", "end1 end2 cost mark")
Job = namedtuple("Job", "stations links")
Answer = namedtuple("Answer", "steps costs pairs")
# All best choices of costs, the lowest of them, and all best pairings that an answer may list.
Solution = namedtuple("Solution", "steps best lowest pairings")
# A step of a link, up (1) or down (0). What a log leads to: the bytes of the final costs; whether the tree is cheapest after
# 0, 1, .. all packets; and the least number of them after which it is, or None.
Packet = namedtuple("Packet", "link up")
Replay = namedtuple("Replay", "costs cheapest first")

# How many bytes a number may take, how many the first of an answer, and how many one of a step sheet; the largest numbers.
NUMBER_BYTES, STEP_BYTES, SHEET_BYTES = 3, 4, 4
NUMBER_MOST, SHEET_MOST = 128 ** NUMBER_BYTES - 1, 128 ** SHEET_BYTES - 1
# The marks. An unplugged link is laid, but its plug is out.
SPARE, TREE, UNPLUGGED = MARKS = 0, 1, 2


# Numbers: groups of seven bits, lowest group first, the top bit 1 in every byte but the last, shortest form only.

def write_number(value):
    groups = [value % 128]
    while value >= 128:
        value //= 128
        groups.append(value % 128)
    return bytes([group + 128 for group in groups[:-1]] + groups[-1:])


def write_numbers(values):
    return b"".join(write_number(value) for value in values)


def pieces(frame):
    """The frame cut behind every byte whose top bit is 0. The last piece may be cut off."""
    cuts = {0, len(frame)} | {place + 1 for place, byte in enumerate(frame) if byte < 128}
    cuts = sorted(cuts)
    return [bytes(frame[start:end]) for start, end in zip(cuts, cuts[1:])]


def number_of(piece, most):
    """The number of which the piece is the shortest form, in at most so many bytes; None if there is none."""
    value = sum(byte % 128 * 128 ** place for place, byte in enumerate(piece))
    return value if len(piece) <= most and write_number(value) == piece else None


# Job frames and the questions put to them.

def numbers_of(frame, most=NUMBER_BYTES):
    """The numbers of at most so many bytes into which the frame divides; None if it does not."""
    values = [number_of(piece, most) for piece in pieces(frame)]
    return None if None in values else values


def job_of(frame):
    """The job of a frame that passes questions 1 to 3."""
    values = numbers_of(frame)
    return Job(values[0], [Link(*values[2 + 4 * e:6 + 4 * e]) for e in range(values[1])])


def job_frame(job):
    return write_numbers([job.stations, len(job.links)] + [value for link in job.links for value in link])


def refusal(frame):
    """The number of the first question from 1 to 6 that gets a "no"; 0 if there is none."""
    values = numbers_of(frame)
    if values is None:
        return 1
    if len(values) < 2 or not 1 <= values[0] <= 64 or not 0 <= values[1] <= 256:
        return 2
    if len(values) != 2 + 4 * values[1]:
        return 3
    return job_refusal(job_of(frame))


def list_refusal(job):
    """The same for a job lent as a list of records."""
    values = [job.stations, len(job.links)] + [value for link in job.links for value in link]
    if max(values) > NUMBER_MOST:
        return 1
    if not 1 <= job.stations <= 64 or len(job.links) > 256:
        return 2
    return job_refusal(job)


def job_refusal(job):
    """Questions 4 to 6."""
    if any(link.end1 >= job.stations or link.end2 >= job.stations or link.end1 == link.end2 for link in job.links):
        return 4
    if any(link.mark not in MARKS for link in job.links):
        return 5
    tree = tree_links(job)
    return 0 if len(tree) == job.stations - 1 and joins_all(job, tree) else 6


# Spanning trees and what is cheapest.

def marked_links(job, mark):
    return [e for e, link in enumerate(job.links) if link.mark == mark]


def tree_links(job):
    return marked_links(job, TREE)


def spare_links(job):
    return marked_links(job, SPARE)


def unplugged_links(job):
    return marked_links(job, UNPLUGGED)


def old_costs(job):
    return [link.cost for link in job.links]


def joins_all(job, chosen):
    """Do the chosen links join every station to every other? Groups of stations are merged, link by link."""
    groups = [{station} for station in range(job.stations)]
    for e in chosen:
        ends = {job.links[e].end1, job.links[e].end2}
        met = [group for group in groups if group & ends]
        groups = [group for group in groups if not group & ends] + [set().union(*met)]
    return len(groups) == 1


def spanning_trees(job):
    plugged = sorted(tree_links(job) + spare_links(job))
    return [tree for tree in combinations(plugged, job.stations - 1) if joins_all(job, tree)]


def total(costs, tree):
    return sum(costs[e] for e in tree)


def is_cheapest(job, costs, trees):
    """Has none of the spanning trees a smaller total cost than the marked one?"""
    marked = total(costs, tree_links(job))
    return all(marked <= total(costs, tree) for tree in trees)


def judge_tree(job):
    return is_cheapest(job, old_costs(job), spanning_trees(job))


# Choices of costs.

def steps_of(job, costs):
    return sum(abs(new - old) for new, old in zip(costs, old_costs(job)))


def choices(old, steps):
    """Every choice of whole-number costs that takes exactly so many steps."""
    if not old:
        if steps == 0:
            yield ()
        return
    if len(old) == 1:
        yield from [(cost,) for cost in sorted({old[0] - steps, old[0] + steps})]
        return
    for change in range(-steps, steps + 1):
        for others in choices(old[1:], steps - abs(change)):
            yield (old[0] + change,) + others


def best_choices(job):
    """The fewest steps of costs that make the tree cheapest, and all choices that take them."""
    trees = spanning_trees(job)
    for steps in count():
        best = [costs for costs in choices(old_costs(job), steps) if is_cheapest(job, costs, trees)]
        if best:
            return steps, best


def lowest_choice(job, best):
    """The choice that gives every link at most what any other gives it."""
    lowest = tuple(min(costs[e] for costs in best) for e in range(len(job.links)))
    assert lowest in best, "no best choice is the lowest at every link"
    assert all(min(old_costs(job)) <= cost <= max(old_costs(job)) for cost in lowest), "the lowest costs leave the range"
    return lowest


# Pairings.

def path_links(job, here, goal, left):
    """The links of a path from one station to another that takes links of `left`, none twice; None if there is none."""
    if here == goal:
        return []
    for e in left:
        ends = (job.links[e].end1, job.links[e].end2)
        if here in ends:
            rest = path_links(job, sum(ends) - here, goal, left - {e})
            if rest is not None:
                return [e] + rest
    return None


def pairs_of(job):
    """All pairs: a tree link and a spare link that lies over it."""
    tree = frozenset(tree_links(job))
    over = {s: path_links(job, job.links[s].end1, job.links[s].end2, tree) for s in spare_links(job)}
    return [(t, s) for t in sorted(tree) for s in spare_links(job) if t in over[s]]


def pairings(pairs):
    """Every list of some of the pairs, in their order, with no link in two of them."""
    if not pairs:
        yield ()
        return
    for rest in pairings(pairs[1:]):
        yield rest
        if not any(set(pairs[0]) & set(pair) for pair in rest):
            yield (pairs[0],) + rest


def weight(job, pairs):
    return sum(job.links[t].cost - job.links[s].cost for t, s in pairs)


def running_weights(job):
    """For each count of tree links, from none to all, dearest first: the greatest weight of a pairing of these links."""
    order = sorted(tree_links(job), key=lambda t: (-job.links[t].cost, t))
    used = [(weight(job, pairs), {t for t, _ in pairs}) for pairs in pairings(pairs_of(job))]
    return [max(total for total, links in used if links <= set(order[:count])) for count in range(len(order) + 1)]


def falls(job, pairs):
    """Has every pair an old tree cost greater than its old spare cost?"""
    return all(job.links[t].cost > job.links[s].cost for t, s in pairs)


def best_pairings(job, steps):
    """All pairings of the greatest weight that an answer may list."""
    every = list(pairings(pairs_of(job)))
    assert max(weight(job, pairs) for pairs in every) == steps, "the greatest weight is not the steps"
    return [pairs for pairs in every if weight(job, pairs) == steps and falls(job, pairs)]


def costs_follow(job, costs, pairs):
    """Spare links cost at least their old cost, unpaired links keep theirs, paired links are equal."""
    paired = {link for pair in pairs for link in pair}
    unpaired = [e for e in range(len(job.links)) if e not in paired]
    return (all(costs[s] >= job.links[s].cost for s in spare_links(job))
            and all(costs[e] == job.links[e].cost for e in unpaired) and all(costs[t] == costs[s] for t, s in pairs))


def solve(job):
    steps, best = best_choices(job)
    listed = best_pairings(job, steps)
    lowest = lowest_choice(job, best)
    kept = [(e, job.links[e].cost) for e in unplugged_links(job)]
    assert all(costs[e] == old for costs in best for e, old in kept), "a best choice moves an unplugged link"
    assert listed, "no best pairing has only pairs that fall"
    assert all(costs_follow(job, lowest, pairs) for pairs in listed), "the lowest costs do not follow from the pairing"
    return Solution(steps, best, lowest, listed)


# Answer frames.

def answer_frame(answer):
    links = [link for pair in answer.pairs for link in pair]
    return write_numbers([answer.steps, *answer.costs, len(answer.pairs), *links])


def unchanged(job):
    """The answer frame that keeps all old costs."""
    return answer_frame(Answer(0, old_costs(job), ()))


def right_answers(solution):
    """The answer frames that may be written for the job: they differ in the pairing listed."""
    return [answer_frame(Answer(solution.steps, solution.lowest, pairs)) for pairs in solution.pairings]


def read_answer(job, frame):
    """What the frame holds; None if it is not laid out as an answer to the job."""
    values = [number_of(piece, NUMBER_BYTES if place else STEP_BYTES) for place, piece in enumerate(pieces(frame))]
    links = len(job.links)
    if None in values or len(values) < links + 2 or len(values) != links + 2 + 2 * values[links + 1]:
        return None
    ends = values[links + 2:]
    return Answer(values[0], values[1:links + 1], list(zip(ends[::2], ends[1::2])))


def pairing_holds(job, pairs):
    """Pairs by the terms, no link twice, rising by tree link, each with an old tree cost greater than its spare's."""
    links = [link for pair in pairs for link in pair]
    trees = [t for t, s in pairs]
    if any(pair not in pairs_of(job) for pair in pairs) or len(set(links)) < len(links):
        return False
    return trees == sorted(trees) and falls(job, pairs)


def judge_answer(job, frame):
    answer = read_answer(job, frame)
    if answer is None or answer.steps != steps_of(job, answer.costs):
        return False
    if not is_cheapest(job, answer.costs, spanning_trees(job)):
        return False
    return pairing_holds(job, answer.pairs) and weight(job, answer.pairs) == answer.steps


# The two finders.

def link_part(frame, e):
    if refusal(frame) or e >= len(job_of(frame).links):
        return b""
    return b"".join(pieces(frame)[2 + 4 * e:6 + 4 * e])


def cost_part(frame, answer, e):
    if refusal(frame) or e >= len(job_of(frame).links) or not judge_answer(job_of(frame), answer):
        return b""
    return pieces(answer)[1 + e]


# Step sheets and new costs: each is made of the other, given the job.

def code_of(change):
    return 2 * change if change > 0 else -2 * change - 1


def change_of(code):
    return -(code + 1) // 2 if code % 2 else code // 2


def sheet_frame(entries):
    """The count, and each link with the code of its change."""
    return write_numbers([len(entries), *(value for entry in entries for value in entry)])


def in_range(costs):
    return all(0 <= cost <= NUMBER_MOST for cost in costs)


def entries_of(job, costs):
    """The links whose new cost differs from the job's, each with the code of its change."""
    return [(e, code_of(new - old)) for e, (new, old) in enumerate(zip(costs, old_costs(job))) if new != old]


def sheet_of(job, frame):
    """The sheet of the new costs; None if they are not in form."""
    costs = numbers_of(frame)
    if costs is None or len(costs) != len(job.links):
        return None
    return sheet_frame(entries_of(job, costs))


def read_sheet(job, frame):
    """The change of every link that the sheet names; None if it is not in form."""
    values = numbers_of(frame, SHEET_BYTES)
    if not values or len(values) != 1 + 2 * values[0]:
        return None
    links, codes = values[1::2], values[2::2]
    if links != sorted(set(links)) or not set(links) <= set(range(len(job.links))) or 0 in codes:
        return None
    return {e: change_of(code) for e, code in zip(links, codes)}


def costs_of(job, frame):
    """The costs to which the sheet leads; None if it is not in form or one of them leaves the range."""
    changes = read_sheet(job, frame)
    if changes is None:
        return None
    costs = [old + changes.get(e, 0) for e, old in enumerate(old_costs(job))]
    return write_numbers(costs) if in_range(costs) else None


def step_refusal(frame, make, given):
    """The number of the first "no" for `sheet_of` or `costs_of`: questions 1 to 6, then 8; 0 if there is none."""
    return refusal(frame) or (8 if make(job_of(frame), given) is None else 0)


# Packet logs.

def log_frame(packets):
    return write_numbers([value for packet in packets for value in packet])


def read_log(job, frame):
    """The packets of the log; None if it is not in form."""
    values = numbers_of(frame)
    if values is None or len(values) % 2:
        return None
    packets = [Packet(link, up) for link, up in zip(values[::2], values[1::2])]
    return packets if all(packet.link < len(job.links) and packet.up <= 1 for packet in packets) else None


def heard(costs, packet):
    """The costs after a packet: one that would take a cost out of its range leaves them."""
    moved = [cost + (2 * packet.up - 1) * (e == packet.link) for e, cost in enumerate(costs)]
    return moved if in_range(moved) else costs


def replay(job, frame):
    """What the log leads to; None if it is not in form."""
    packets = read_log(job, frame)
    if packets is None:
        return None
    trees = spanning_trees(job)
    tables = [old_costs(job)]
    for packet in packets:
        tables.append(heard(tables[-1], packet))
    cheapest = [is_cheapest(job, costs, trees) for costs in tables]
    return Replay(write_numbers(tables[-1]), cheapest, cheapest.index(True) if True in cheapest else None)


def log_refusal(frame, log):
    """The number of the first "no": questions 1 to 6, then 9; 0 if there is none."""
    return refusal(frame) or (9 if read_log(job_of(frame), log) is None else 0)


# Random jobs, damaged frames, and answers, costs, sheets and logs made elsewhere.

def random_tree(rng, stations):
    """The ends of the links of a random tree: each station but the first is joined to an earlier one."""
    names = rng.sample(range(stations), stations)
    return [rng.sample([names[i], names[rng.randrange(i)]], 2) for i in range(1, stations)]


def random_job(rng, stations, links, top):
    """A job of at most so many stations and links, with ties; some costs stand where a number gets another byte."""
    stations = rng.randint(2, stations)
    spares = max(rng.randint(0, links + 1 - stations) for _ in range(2))
    base = rng.choice([0, 0, 0, 126, 16382, NUMBER_MOST - top])
    tree = [Link(a, b, base + rng.randint(0, top), 1) for a, b in random_tree(rng, stations)]
    ends = [rng.sample(range(stations), 2) for _ in range(spares)]
    spare = [Link(a, b, base + rng.randint(0, rng.choice([1, top])), 0) for a, b in ends]
    spare = some_unplugged(rng, spare, rng.choice([0, 1 / 3, 1 / 2]), max(1, base), base + max(1, top // 2))
    return Job(stations, rng.sample(tree + spare, len(tree + spare)))


def some_unplugged(rng, spare, share, least, most):
    """The spares with about that share of them unplugged, at costs that most tree links exceed; none costs 0, so that each
    has a cost to keep."""
    return [link._replace(cost=rng.randint(least, most), mark=UNPLUGGED) if rng.random() < share else link for link in spare]


def small_job(rng):
    return random_job(rng, 4, 6, rng.choice([1, 2, 4]))


def larger_job(rng):
    return random_job(rng, 5, 8, rng.choice([2, 3]))


def chain_job(size):
    """A path of tree links and as many spares. If the first tree links are paired in order, each with its first spare,
    the last one can be paired only by a chain through all the others."""
    tree = [Link(i + 1, i + 2, 1, 1) for i in range(size - 1)] + [Link(0, 1, 1, 1)]
    spare = [Link(i, i + 2, 0, 0) for i in range(size - 1)] + [Link(size - 1, size, 0, 0)]
    return Job(size + 1, tree + spare)


def different(make, wanted):
    """So many different things that `make` makes."""
    made = []
    while len(made) < wanted:
        one = make()
        if one not in made:
            made.append(one)
    return made


def damaged(rng, frame):
    """The frame with one byte changed, put in or taken out, or cut off."""
    place = rng.randrange(len(frame))
    byte = bytes([rng.choice([0, 1, 2, 3, 4, 64, 65, 127, 128, 129, 255, rng.randrange(256)])])
    kind = rng.randrange(5)
    if kind == 0:
        return frame[:place] + frame[place + 1:]
    if kind == 1:
        return frame[:place] + byte + frame[place:]
    if kind == 2:
        return frame[:place]
    return frame[:place] + byte + frame[place + 1:]


def wrong_links(rng, job):
    """The job's frame with one link's ends or mark, the marks of two links, or the station count made wrong."""
    links = list(job.links)
    e, other = rng.randrange(len(links)), rng.randrange(len(links))
    kind = rng.randrange(6)
    if kind == 0:
        links[e] = links[e]._replace(end1=links[e].end2)
    if kind == 1:
        wrong = rng.choice([job.stations, job.stations + 1, 16383, 16384, 65536 + links[e].end1, NUMBER_MOST])
        links[e] = links[e]._replace(**{rng.choice(["end1", "end2"]): wrong})
    if kind == 2:
        links[e] = links[e]._replace(mark=rng.choice([3, 4, 129, 130, 16383, 16384, 65537, 65538, NUMBER_MOST]))
    if kind == 3:
        links[e] = links[e]._replace(mark=rng.choice([mark for mark in MARKS if mark != links[e].mark]))
    if kind == 4:
        links[e] = links[e]._replace(mark=job.links[other].mark)
        links[other] = links[other]._replace(mark=job.links[e].mark)
    return job_frame(Job(job.stations + (kind == 5), links))


def refused_frames(rng, wanted):
    """Different frames that questions 1 to 6 refuse, about as many for each number."""
    frames = {number: [] for number in range(1, 7)}
    while sum(len(some) for some in frames.values()) < wanted:
        job = small_job(rng)
        frame = wrong_links(rng, job) if rng.random() < 0.5 else damaged(rng, job_frame(job))
        number = refusal(frame)
        if number and frame not in frames[number] and len(frames[number]) <= wanted // 6:
            frames[number].append(frame)
    return [frame for some in frames.values() for frame in some]


def made_elsewhere(rng, job, solution):
    """Answer frames for the job, right and wrong ones: a frame and what it is, each frame once."""
    pairs = rng.choice(solution.pairings)
    right = Answer(solution.steps, solution.lowest, pairs)
    made = [("right", right), *best_answers(rng, job, solution, pairs)]
    made += [*other_costs(rng, job, right), *other_pairs(rng, job, right), *other_plugs(rng, job, right)]
    frames = [(answer_frame(answer), about) for about, answer in made]
    return dict(damaged_answers(rng, right) + frames[::-1])


def best_answers(rng, job, solution, pairs):
    """Some best choices, where they can be written: these are right. And costs of as many steps that are not best."""
    every = list(choices(old_costs(job), solution.steps)) if solution.steps <= 4 else solution.best
    writable = [costs for costs in every if in_range(costs)]
    best = [costs for costs in writable if costs in solution.best]
    others = [costs for costs in writable if costs not in solution.best]
    made = [("best costs", costs) for costs in rng.sample(best, min(2, len(best)))]
    made += [("costs not cheapest", costs) for costs in rng.sample(others, min(2, len(others)))]
    return [(about, Answer(solution.steps, costs, pairs)) for about, costs in made]


def other_costs(rng, job, right):
    """Steps and costs that do not belong together, or are not the fewest."""
    old = old_costs(job)
    level = [max(old) for _ in old]
    near = near_costs(rng, job)
    yield "steps one too many", right._replace(steps=right.steps + 1)
    yield "old costs, no pairs", Answer(0, old, ())
    yield "all costs the largest", right._replace(steps=steps_of(job, level), costs=level)
    yield "all costs the largest, fewest steps", right._replace(costs=level)
    yield "random costs", right._replace(steps=steps_of(job, near), costs=near)


def near_costs(rng, job):
    return [max(0, min(NUMBER_MOST, cost + rng.randint(-1, 1))) for cost in old_costs(job)]


def other_pairs(rng, job, right):
    """Pairs that are no pairing, do not rise, do not fall or weigh too little."""
    links = len(job.links)
    equal = [p for p in pairings(pairs_of(job)) if weight(job, p) == right.steps and not falls(job, p)]
    near = near_pairings(job, right.steps)
    yield "no pairs", right._replace(pairs=())
    yield "pairs the other way round", right._replace(pairs=right.pairs[::-1])
    yield "the pairs twice", right._replace(pairs=right.pairs + right.pairs)
    yield "spare link first", right._replace(pairs=[(s, t) for t, s in right.pairs])
    yield "a pair past the links", right._replace(pairs=[*right.pairs, (links, links + 1)])
    yield "random pairing", right._replace(pairs=rng.choice(list(pairings(pairs_of(job)))))
    yield from [("a pair of equal costs", right._replace(pairs=p)) for p in rng.sample(equal, min(1, len(equal)))]
    yield from [("no pairing", right._replace(pairs=p)) for p in rng.sample(near, min(2, len(near)))]


def other_plugs(rng, job, right):
    """Answers that move or pair an unplugged link: one link moved, with the steps counted and not; all set to 0; and the
    answer to the job with every link plugged, which is right only if it pairs none of them."""
    unplugged = unplugged_links(job)
    for e in rng.sample(unplugged, min(1, len(unplugged))):
        moved = with_costs(right.costs, {e: right.costs[e] + rng.choice([-1, 1])})
        if in_range(moved):
            yield "an unplugged link moved", right._replace(steps=right.steps + 1, costs=moved)
            yield "an unplugged link moved, not counted", right._replace(costs=moved)
    if unplugged:
        zero = with_costs(right.costs, {e: 0 for e in unplugged})
        yield "unplugged links set to 0", right._replace(steps=steps_of(job, zero), costs=zero)
        plugged = solve(Job(job.stations, [link._replace(mark=link.mark % UNPLUGGED) for link in job.links]))
        yield "all links plugged", Answer(plugged.steps, plugged.lowest, rng.choice(plugged.pairings))


def with_costs(costs, other):
    return [other.get(e, cost) for e, cost in enumerate(costs)]


def near_pairings(job, steps):
    """Lists that rise, fall and weigh the steps, but hold a spare twice, one that does not lie over its tree link, or an
    unplugged link."""
    tree = tree_links(job)
    mates = product([None, *spare_links(job), *unplugged_links(job)], repeat=len(tree))
    lists = [[(t, s) for t, s in zip(tree, some) if s is not None] for some in mates]
    return [p for p in lists if weight(job, p) == steps and falls(job, p) and not pairing_holds(job, p)]


def damaged_answers(rng, right):
    """Frames whose layout is wrong, or may be."""
    frame = answer_frame(right)
    links = [link for pair in right.pairs for link in pair]
    counts = {len(right.pairs) + 1, abs(len(right.pairs) - 1)}
    made = [(write_numbers([right.steps, *right.costs, wrong, *links]), "wrong pair count") for wrong in counts]
    made += [(b"", "nothing"), (frame[:-1], "the last byte missing"), (frame + b"\0", "a byte behind")]
    made += [(bytes([frame[0] | 128, 0]) + frame[1:], "steps not shortest")]
    return made + [(damaged(rng, frame), "damaged") for _ in range(3)]


def far_costs(rng, job):
    """New costs: old ones, ones where a number gets another byte, and the ends of the range."""
    ends = [0, 1, 127, 128, 16383, 16384, NUMBER_MOST - 1, NUMBER_MOST]
    return [rng.choice([cost, *ends]) for cost in old_costs(job)]


def costs_elsewhere(rng, job, solution):
    """New costs for the job, in form and not: the bytes and what they are, each once."""
    far = far_costs(rng, job)
    best = [costs for costs in solution.best if in_range(costs)]
    made = [("the lowest best", solution.lowest), ("best", rng.choice(best)), ("the old", old_costs(job)), ("far", far)]
    made += [("one too few", far[1:]), ("one too many", [*far, 0]), ("four bytes", [NUMBER_MOST + 1, *far[1:]])]
    frame = write_numbers(far)
    wrong = [(frame[:-1], "the last byte missing"), (b"\x80\0" + write_numbers(far[1:]), "not shortest")]
    wrong += [(damaged(rng, frame), "damaged")] if far else []
    return dict(wrong + [(write_numbers(costs), about) for about, costs in made[::-1]])


def sheets_elsewhere(rng, job, solution):
    """Step sheets to the job, in form and some that may not be: the bytes and what they are, each once."""
    new = {"near costs": near_costs(rng, job), "far costs": far_costs(rng, job), "the lowest best": solution.lowest}
    right = {sheet_frame(entries_of(job, costs)): f"to {about}" for about, costs in new.items()}
    entries = entries_of(job, new["far costs"])
    made = [*wrong_entries(job, entries), *end_entries(rng, job), ("no moves", [])]
    wrong = [(sheet_frame(some), about) for about, some in made] + damaged_sheets(rng, sheet_frame(entries))
    return {**dict(rng.sample(wrong, 8)), **right}


def wrong_entries(job, entries):
    """Entries that do not rise, name a link that is not in the job, or hold the code 0."""
    yield "not rising", entries[::-1]
    yield "the first link twice", entries[:1] + entries
    yield "the last link twice", entries + entries[-1:]
    yield "the last code 0", entries[:-1] + [(e, 0) for e, _ in entries[-1:]]
    yield "the last link 65536 too high", entries[:-1] + [(e + 65536, code) for e, code in entries[-1:]]
    yield from [(f"link {e}", [*entries, (e, 2)]) for e in (len(job.links), SHEET_MOST)]


def end_entries(rng, job):
    """One link moved to the ends of the range and a step past them, and by changes at the ends of what can be written."""
    for e in rng.sample(range(len(job.links)), min(1, len(job.links))):
        old = job.links[e].cost
        changes = [-old, -old - 1, NUMBER_MOST - old, NUMBER_MOST - old + 1]
        codes = [code_of(change) for change in changes if change]
        codes += [*range(2 * NUMBER_MOST - 1, 2 * NUMBER_MOST + 3), SHEET_MOST - 1, SHEET_MOST]
        yield from [(f"code {code} of cost {old}", [(e, code)]) for code in codes]


def damaged_sheets(rng, sheet):
    """Sheets whose count or layout is wrong, or may be."""
    parts = pieces(sheet)
    count, entries = number_of(parts[0], SHEET_BYTES), b"".join(parts[1:])
    made = [(write_number(wrong) + entries, "wrong count") for wrong in (count + 1, abs(count - 1), 128 ** 3, SHEET_MOST)]
    made += [(not_shortest(parts, place), "not shortest") for place in (0, rng.randrange(len(parts)), len(parts) - 1)]
    made += [(b"".join(parts[:-1]) + write_number(SHEET_MOST + 1), "five bytes")]
    made += [(b"", "nothing"), (b"\x80\0", "80 00"), (sheet[:-1], "the last byte missing"), (sheet + b"\0", "a byte behind")]
    return made + [(damaged(rng, sheet), "damaged") for _ in range(3)]


def not_shortest(parts, place):
    """The frame of these pieces with one of them a byte longer."""
    longer = bytes([*parts[place][:-1], parts[place][-1] | 128, 0])
    return b"".join([*parts[:place], longer, *parts[place + 1:]])


def small_sheets(links):
    """Every sheet of up to three entries of small numbers: a link or the number past the last, and a code of 0 to 2."""
    entries = list(product(range(links + 1), range(3)))
    return [sheet_frame(some) for size in range(4) for some in product(entries, repeat=size)]


def settling(rng, job, costs):
    """The packets that lead to these costs, in any order."""
    moves = [(e, new - old) for e, (new, old) in enumerate(zip(costs, old_costs(job)))]
    packets = [Packet(e, int(change > 0)) for e, change in moves for _ in range(abs(change))]
    return rng.sample(packets, len(packets))


def back(packets):
    """The packets that undo these, the last one first."""
    return [Packet(link, 1 - up) for link, up in packets[::-1]]


def random_packets(rng, links, count):
    return [Packet(rng.choice(links), rng.randrange(2)) for _ in range(count)] if links else []


def logs_elsewhere(rng, job, solution):
    """Packet logs to the job, in form and not: the bytes and what they are, each once."""
    best = rng.choice([costs for costs in solution.best if in_range(costs)])
    right = [("no packets", []), ("to the lowest best", settling(rng, job, solution.lowest))]
    right += rng.sample(other_logs(rng, job, settling(rng, job, best)), 4)
    made = {log_frame(packets): about for about, packets in right}
    frame = log_frame(random_packets(rng, range(len(job.links)), 3))
    wrong = damaged_logs(rng, job, frame) + damaged_logs(rng, job, log_frame(settling(rng, job, best)))
    return {**dict(rng.sample(wrong, 5)), **made}


def other_logs(rng, job, packets):
    """Logs in form: to best costs, with steps forth and back between, and undone; and any packets."""
    links = list(range(len(job.links)))
    noise = random_packets(rng, links, rng.randint(1, 3))
    mixed = packets + noise + back(noise)
    near = [e for e in links if not 1 < job.links[e].cost < NUMBER_MOST - 1]
    past = [Packet(e, int(job.links[e].cost > 1)) for e in near for _ in range(2)]
    return [
        ("to best costs", packets), ("with others", rng.sample(mixed, len(mixed))), ("past best costs", packets + noise),
        ("undone", packets + back(packets[-2:])), ("undone and sent again", packets + back(packets[-1:]) + packets[-1:]),
        ("any packets", random_packets(rng, links, 5)), ("past the ends", past[:6] + random_packets(rng, near, 3)),
        ("unplugged links", random_packets(rng, unplugged_links(job), 4)),
    ]


def small_logs(links):
    """Every log of up to two packets: a link or the number past the last, and 0 to 2."""
    packets = list(product(range(links + 1), range(3)))
    return [log_frame(some) for size in range(3) for some in product(packets, repeat=size)]


def damaged_logs(rng, job, frame):
    """The log with a packet that is none behind it, with a number not in form, cut off, or damaged."""
    links = len(job.links)
    packets = [(links, 0), (links, 1), (0, 2), (0, 128), (65536, 1), (0, 65537), (NUMBER_MOST, 0), (NUMBER_MOST + 1, 1)]
    made = [(frame + write_numbers(packet), f"then link {packet[0]}, {packet[1]}") for packet in packets]
    made += [(frame + bytes(tail), f"then {bytes(tail).hex(' ')}") for tail in
             ([0], [128], [0, 129], [128, 0, 1], [0, 128, 0], [128, 128, 0, 0], [0, 129, 128, 128, 1], [0, 0, 0])]
    if frame:
        parts = pieces(frame)
        made += [(frame[:-1], "the last byte missing"), (frame[1:], "the first byte missing"), (damaged(rng, frame), "damaged")]
        made += [(not_shortest(parts, rng.randrange(len(parts))), "not shortest")]
    return made


# What is asserted of step sheets and packet logs.

def hold_sheets(rng, job, solution):
    """Sheets and costs give each other; the absolute changes of the sheet of a best choice add up to the steps."""
    best = [write_numbers(costs) for costs in solution.best if in_range(costs)]
    for costs in best + [write_numbers(far_costs(rng, job)) for _ in range(5)]:
        assert costs_of(job, sheet_of(job, costs)) == costs, "the sheet does not give the costs"
    for sheet in sheets_elsewhere(rng, job, solution):
        costs = costs_of(job, sheet)
        assert costs is None or sheet_of(job, costs) == sheet, "the costs do not give the sheet"
    for costs in best:
        changes = read_sheet(job, sheet_of(job, costs)).values()
        assert sum(abs(change) for change in changes) == solution.steps, "the changes do not add up to the steps"


def hold_every_string(mark):
    """Of all strings of up to five bytes 0 to 4, those are read that are the sheet of some costs. None leads past cost 3."""
    job = Job(2, [Link(0, 1, 1, TREE), Link(0, 1, 1, mark)])
    sheets = {sheet_of(job, bytes(costs)): bytes(costs) for costs in product(range(4), repeat=2)}
    strings = [bytes(some) for size in range(6) for some in product(range(5), repeat=size)]
    assert all(costs_of(job, string) == sheets.get(string) for string in strings), "a string is not read as its costs"


def hold_logs(rng, job, solution):
    """The packets to best costs are as many as the steps, and no log that makes the tree cheapest has fewer."""
    for costs in solution.best:
        if in_range(costs):
            packets = settling(rng, job, costs)
            assert len(packets) == solution.steps == replay(job, log_frame(packets)).first, "not cheapest at the last packet"
    for log in logs_elsewhere(rng, job, solution):
        result = replay(job, log)
        if result is not None:
            assert log_frame(read_log(job, log)) == log, "the log is not read as its packets"
            assert result.first is None or result.first >= solution.steps, "fewer packets than steps"
            assert not result.cheapest[-1] or len(result.cheapest) - 1 >= solution.steps, "a shorter log"


def hold_every_log():
    """Of all strings of up to six bytes 0 to 2, those are read that are a log to a job of two links."""
    job = Job(2, [Link(0, 1, 1, TREE), Link(0, 1, 1, SPARE)])
    packets = [Packet(e, up) for e in range(2) for up in range(2)]
    logs = {log_frame(some): list(some) for size in range(4) for some in product(packets, repeat=size)}
    strings = [bytes(some) for size in range(7) for some in product(range(3), repeat=size)]
    assert all(read_log(job, string) == logs.get(string) for string in strings), "a string is not read as its packets"


def main():
    wanted = int(sys.argv[1]) if len(sys.argv) > 1 else 100
    rng = random.Random(1)
    jobs = different(lambda: small_job(rng), wanted) + different(lambda: larger_job(rng), wanted // 4)
    solutions = [solve(job) for job in jobs]
    for job, solution in zip(jobs, solutions):
        assert job_of(job_frame(job)) == job and refusal(job_frame(job)) == 0
        assert judge_tree(job) == (solution.steps == 0)
        assert all(judge_answer(job, frame) for frame in right_answers(solution))
        hold_sheets(rng, job, solution)
        hold_logs(rng, job, solution)
    for mark in (SPARE, UNPLUGGED):
        hold_every_string(mark)
    hold_every_log()
    print(len(jobs), "jobs solved; steps and how often:", dict(sorted(Counter(s.steps for s in solutions).items())))
    print(sum(1 for job in jobs if unplugged_links(job)), "of them have unplugged links")


if __name__ == "__main__":
    main()
