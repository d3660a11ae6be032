"""Runs the antt model (crates/*/specs) on jobs and holds every result to the brute-force reference.

Run: python3 tests/model.py [COUNT]    COUNT random jobs (default 80), 3 refused frames for every 4 of them, and the rows
of document 01. Some 100 seconds. `rt` must be on the PATH. Nothing in this repository is changed.

It copies crates/ and crates.txt into a temporary directory and adds a crate `probe`. Its specs state, a fact a result and
each by `refl`, that the model computes what the reference found; `rt check` checks them. Then two facts are stated
wrongly, and rt must refuse both. It prints figures and OK, or every fact that failed with its job's bytes.
"""
import random
import re
import shutil
import subprocess
import sys
import tempfile
from collections import Counter, namedtuple
from pathlib import Path

sys.dont_write_bytecode = True

import brute_force as reference
from brute_force import NUMBER_MOST, TREE, UNPLUGGED, Answer, Job, Link, Solution

ROOT = Path(__file__).resolve().parent.parent
STANDS_ON = "replay sheet frame optimum graph number loops limits"
FACTS_A_FILE = 400

# The modules that hold the model: what is `unfoldable` in them is unfolded in every fact.
MODEL = {
    "loops": ["Below", "Loop", "SumLaws"],
    "number": ["Number"],
    "graph": ["Rank", "Paths"],
    "optimum": ["Search", "Lowest", "Solve"],
    "frame": ["Meaning", "Services", "Questions", "Answers"],
    "sheet": ["Sheet", "Reading"],
    "replay": ["Log", "LogReading"],
}
LIBRARY = ["mathlib.Core.List.flat_map", "mathlib.Core.Bool.xor"]

HEADER = """-- What the model computes. Assumes nothing.
use Rattle.std.specs.Prelude.{ℕ, suc, ◌≡◌, refl, Bool, true, false, cond, ◌&&◌, ◌||◌, List, [], ◌∷◌, eqb, length, take}
use Rattle.std.proofs.Math.Option.{Option, get_or as option_or}
use Rattle.loops.specs.Loop.{tabulate}
use Rattle.graph.specs.Rank.{tree_ranks}
use Rattle.graph.specs.Paths.{judge}
use Rattle.optimum.specs.Optimum.{Answer}
use Rattle.optimum.specs.Search.{Problem, built}
use Rattle.optimum.specs.Solve.{problem}
use Rattle.optimum.proofs.Solution.{pairs_of}
use Rattle.frame.specs.Job.{JobLink, Job, job_frame, graph_of, tree_of, cost_of}
use Rattle.frame.specs.Questions.{refusal, job_of, list_refusal, later}
use Rattle.frame.specs.AnswerMeaning.{answer_frame}
use Rattle.frame.specs.Answers.{answer_of, judge_tree, judge_answer, read_answer, pairs_weight}
use Rattle.frame.specs.Services.{Outcome, written}
use Rattle.frame.specs.Replies.{answered, link_part, cost_part, no_answer}
use Rattle.sheet.specs.Sheet.{moves_of, move_sum, costs_frame}
use Rattle.sheet.specs.Reading.{is_some, costs_at, sheet_bytes, costs_bytes}
use Rattle.replay.specs.Log.{Packet, log_frame, replayed}
use Rattle.replay.specs.LogReading.{read_log}

abbrev same : List ℕ → List ℕ → Bool
same [] [] = true
same [] (y ∷ ys) = false
same (x ∷ xs) [] = false
same (x ∷ xs) (y ∷ ys) = eqb x y && same xs ys

abbrev among : List (List ℕ) → List ℕ → Bool
among [] xs = false
among (ys ∷ yss) xs = same ys xs || among yss xs

-- What a service on step sheets leaves in an area, as crate `stepping` states it: questions 1 to 6, then 8, then 7.
abbrev stepped : (ℕ → (ℕ → ℕ) → List ℕ → Option (List ℕ)) → List ℕ → List ℕ → List ℕ → Outcome
stepped make s f area =
    let made : Option (List ℕ) = make (length (job_of s).links) (cost_of (job_of s)) f in
    written (later (refusal s) (is_some made) 8) (option_or made []) 0 area

-- The absolute changes of the sheet of the own answer, added up.
abbrev own_changes : Job → ℕ
own_changes j = move_sum (moves_of (length j.links) (cost_of j) (costs_at (answer_of j).costs))

-- The packets of a log to a job frame; none of one that is not in form.
abbrev packets_of : List ℕ → List ℕ → List Packet
packets_of s f = option_or (read_log (length (job_of s).links) f) []

abbrev log_refusal : List ℕ → List ℕ → ℕ
log_refusal s f = later (refusal s) (is_some (read_log (length (job_of s).links) f)) 9

-- What the replay leaves in an area: questions 1 to 6, then 9, then 7.
abbrev replayed_into : List ℕ → List ℕ → List ℕ → Outcome
replayed_into s f area =
    let made : List ℕ = costs_frame (length (job_of s).links) (replayed (packets_of s f) (cost_of (job_of s))) in
    written (log_refusal s f) made 0 area

-- For 0, 1, .. all packets of a log: 1 if the tree is judged cheapest after so many, else 0.
abbrev cheapest_after : List ℕ → List ℕ → List ℕ
cheapest_after s f =
    let j : Job = job_of s in
    let qs : List Packet = packets_of s f in
    let ranks : List ℕ = tree_ranks (graph_of j) (tree_of j) (cost_of j) in
    tabulate (suc (length qs)) λ k. cond (judge (graph_of j) (tree_of j) (replayed (take k qs) (cost_of j)) ranks) 1 0

abbrev problem_of : Job → Problem
problem_of j = problem (graph_of j) (tree_of j) (cost_of j)

-- The running weight at the start and after each tree rank; and the pairs' weight there, added up.
abbrev running_weights : Job → List ℕ
running_weights j = tabulate (suc (problem_of j).trees) (λ t. (built (problem_of j) t).weight)

abbrev added_weights : Job → List ℕ
added_weights j =
    tabulate (suc (problem_of j).trees) λ t.
    pairs_weight (cost_of j) (pairs_of (graph_of j) (tree_of j) (cost_of j) (built (problem_of j) t).pairs)
"""

# The rows T1 to T9, those that document 01 wants run, and some at the edge of a question: a job, and its answers or its
# refusal.
ROWS = {
    "03 03 00 01 05 01 01 02 04 01 00 02 02 00": ["03 04 04 04 01 00 02"],
    "01 00": ["00 00"],
    "02 02 00 01 07 01 00 01 07 00": ["00 07 07 00"],
    "02 02 00 01 07 01 00 01 06 00": ["01 06 06 01 00 01"],
    "02 01 00 01 FF 7F 01": ["00 FF 7F 00"],
    "80 00": 1,
    "": 2,
    "02 01 00 00 05 03": 4,
    "40 00": 6,
    "41 00": 2,
    "00 00": 2,
    "80": 1,
    "FF FF 01": 2,
    "FF FF FF 01": 1,
    "80 80 00": 1,
    "82 80 04 00": 2,
    "02 80 80 04": 2,
    "02 01 80 80 04 01 05 01": 4,
    "02 01 00 81 80 04 05 01": 4,
    "02 01 00 01 05 80 80 01": 5,
    "02 01 00 01 05 81 80 04": 5,
    "02 02 00 01 05 01 00 01 03 82 80 04": 5,
    "02 01 00 01 80 80 01 01": ["00 80 80 01 00"],
    "02 01 00 01 FF FF 7F 01": ["00 FF FF 7F 00"],
    "02 01 00 01 80 80 80 01 01": 1,
    "02 02 00 01 80 80 01 01 00 01 FF 7F 00": ["01 FF 7F FF 7F 01 00 01"],
    "01 01": 3,
    "02 81 02": 2,
    "02 81 02" + 257 * " 00 01 03 01": 2,
    "02 80 02": 3,
    "04 03 00 01 05 01 01 00 05 01 02 03 05 01": 6,
    "03 03 00 01 05 01 01 02 05 01 02 00 05 01": 6,
    "02 01 02 01 05 01": 4,
    "02 01 00 02 05 01": 4,
    "02 01 00 01 05 03": 5,
    "02 01 00 01 05 02": 6,
    "03 02 00 01 05 01 01 02 05 02": 6,
    "02 02 00 01 05 01 00 00 03 02": 4,
    "02 02 00 01 05 01 00 02 03 02": 4,
    "02 02 00 01 05 01 00 01 03 02": ["00 05 03 00"],
    "03 04 00 01 05 01 01 02 04 01 00 02 01 02 00 02 02 00": ["03 04 04 01 04 01 00 03"],
    "01 00 00": 3,
    "05": 2,
    "03 04 00 01 09 01 01 02 08 01 00 02 01 00 00 02 03 00": [
        "0D 03 03 03 03 02 00 02 01 03",
        "0D 03 03 03 03 02 00 03 01 02",
    ],
}
T1 = bytes.fromhex("03 03 00 01 05 01 01 02 04 01 00 02 02 00")
T1_ANSWER = bytes.fromhex("03 04 04 04 01 00 02")
T1_JUDGED = {"03 05 04 05 01 00 02": True, "04 03 03 03 01 00 02": False}

# A tree link and a cheaper one beside it that is unplugged. Only the first of these answers neither moves a link nor pairs it.
IDLE = bytes.fromhex("02 02 00 01 05 01 00 01 03 02")
IDLE_JUDGED = {"00 05 03 00": True, "01 05 04 00": False, "01 05 02 00": False, "03 05 00 00": False,
               "02 03 03 01 00 01": False, "02 05 05 01 00 01": False, "00 05 03 01 00 01": False}

# Jobs at the limits: 64 stations in a ring; 256 links; both, in a frame of 1,539 bytes. Unplugged links are among the last two.
RING = Job(64, [Link(i, i + 1, 5 + i % 3, 1) for i in reversed(range(63))] + [Link(0, 63, 6, 0)])
FULL = Job(2, 100 * [Link(0, 1, 6, 0)] + [Link(1, 0, 4, 1)] + 77 * [Link(0, 1, 5, 0), Link(0, 1, 2, 2)] + [Link(0, 1, 3, 0)])
LONGEST = Job(64, [Link(i, i + 1, NUMBER_MOST, 1) for i in range(63)]
              + [Link(0, 1 + i % 63, 16384, UNPLUGGED * (i % 3 == 0)) for i in range(193)])

# Tree costs for steps of three bytes and of four: too many for the reference to try every choice, but the answer is plain.
FAR_COSTS = (16383, NUMBER_MOST)

# Jobs lent as lists: a number above 2,097,151 is refused first.
LENT = [
    Job(2, [Link(0, 1, 16383, 1)]), Job(2, [Link(0, 1, 16384, 1)]), Job(16384, [Link(0, 0, 5, 3)]),
    Job(2, [Link(16384, 0, 5, 1)]), Job(2, [Link(0, 16384, 5, 1)]), Job(2, [Link(0, 1, 5, 16384)]),
    Job(2, [Link(0, 1, 2097151, 1)]), Job(2, [Link(0, 1, 2097152, 1)]), Job(2097152, [Link(0, 0, 5, 3)]),
    Job(2, [Link(2097151, 0, 5, 1)]), Job(2, [Link(0, 2097151, 5, 1)]), Job(2, [Link(0, 1, 5, 2097151)]),
    Job(2, [Link(2097152, 0, 5, 1)]), Job(2, [Link(0, 2097152, 5, 1)]), Job(2, [Link(0, 0, 5, 2097152)]),
    Job(0, []), Job(1, []), Job(64, []), Job(65, []), Job(16384, []), Job(2097151, []), Job(2097152, []),
    Job(2, [Link(0, 0, 5, 3)]), Job(2, [Link(0, 1, 5, 3)]), Job(2, [Link(0, 1, 5, 0)]), Job(2, 2 * [Link(0, 1, 5, 1)]),
    Job(2, [Link(0, 0, 5, 2)]), Job(2, [Link(0, 1, 5, 2)]), Job(2, [Link(0, 1, 5, 1), Link(1, 0, 3, 2)]),
    Job(4, [Link(0, 1, 5, 1), Link(1, 0, 5, 1), Link(2, 3, 5, 1)]),
    Job(2, 256 * [Link(0, 0, 5, 3)]), Job(2, 257 * [Link(0, 0, 5, 3)]),
]

# Jobs of no link, one and two, with costs at the ends of the range.
TINY = [Job(1, []), Job(2, [Link(0, 1, 0, 1)]), Job(2, [Link(0, 1, 0, 1), Link(0, 1, NUMBER_MOST, 0)])]

# The services on step sheets: what makes the sheet or the costs in the reference, and in the model.
STEPPED = {reference.sheet_of: "sheet_bytes", reference.costs_of: "costs_bytes"}

# A fact: its name, its job's bytes, what it is about, the model's term and the reference's value.
Fact = namedtuple("Fact", "name frame about term value")


# antt text.

def list_text(values):
    return " ∷ ".join([*(str(value) for value in values), "[]"])


def bytes_text(values):
    return f"({list_text(values)})"


def word(judged):
    return "true" if judged else "false"


def outcome_text(refused, length, area):
    return f"record {{ refusal = {refused}; size = {length}; area = {list_text(area)} }}"


def served_text(number, made, area):
    """What a service leaves in an area: the number of the questions before, then question 7; the bytes past its own."""
    if number or len(area) < len(made):
        return outcome_text(number or 7, 0, area)
    return outcome_text(0, len(made), [*made, *area[len(made):]])


def job_text(job):
    names = ("end₁", "end₂", "cost", "mark")
    links = ["record { " + "; ".join(f"{name} = {value}" for name, value in zip(names, link)) + " }" for link in job.links]
    return f"record {{ nodes = {job.stations}; links = {list_text(links)} }}"


def unfolded():
    """The whole names of what every fact unfolds."""
    names = list(LIBRARY)
    for crate, modules in MODEL.items():
        for module in modules:
            text = (ROOT / "crates" / crate / "specs" / f"{module}.antt").read_text(encoding="utf-8")
            names += [f"Rattle.{crate}.specs.{module}.{name}" for name in re.findall(r"^unfoldable pub (\S+) :", text, re.M)]
    return " ".join(names)


class Probe:
    """Collects facts and figures. In its methods s and f are the bytes of a job and of an answer as antt text."""

    def __init__(self, seed):
        self.rng = random.Random(seed)
        self.step_rng = random.Random(seed)
        self.log_rng = random.Random(seed)
        self.facts = []
        self.refusals = Counter()
        self.unplugged = 0
        self.steps = Counter()
        self.judged = Counter()
        self.translated = {make: Counter() for make in STEPPED}
        self.replayed = Counter()
        self.first = Counter()

    def state(self, frame, about, term, value):
        self.facts.append(Fact(f"fact-{len(self.facts)}", frame, about, term, value))

    def frame(self, frame):
        """All facts about a job frame."""
        number = self.refusal(frame)
        if number:
            self.refused(frame, number)
        else:
            self.accepted(frame)

    def refusal(self, frame):
        s = bytes_text(frame)
        number = reference.refusal(frame)
        self.refusals[number] += 1
        self.unplugged += number == 0 and bool(reference.unplugged_links(reference.job_of(frame)))
        self.state(frame, "refusal", f"refusal {s}", number)
        if number not in (1, 2, 3):
            self.state(frame, "refusal of the list", f"list_refusal (job_of {s})", number)
        return number

    def refused(self, frame, number):
        """Nothing is written, every part is empty, also for an answer with the costs of the refused job; 8 and 9 come later."""
        s = bytes_text(frame)
        area = [9, 8, 7]
        answer = T1_ANSWER if number < 4 else reference.unchanged(reference.job_of(frame))
        self.state(frame, "outcome", f"answered {s} {bytes_text(area)}", outcome_text(number, 0, area))
        self.state(frame, "part of link 0", f"link_part (refusal {s}) {s} 0", "[]")
        self.state(frame, f"part of cost 0 in {answer.hex(' ')}", f"cost_part {s} {bytes_text(answer)} 0", "[]")
        costs = b"" if number < 4 else reference.write_numbers(reference.old_costs(reference.job_of(frame)))
        for make, given in ((reference.sheet_of, costs), (reference.costs_of, b"\0")):
            self.stepped(frame, make, given, "in form")
            self.stepped(frame, make, b"\x80\0", "not in form")
        self.replay(frame, b"\0\1", "a packet")
        self.replay(frame, b"\0\2", "not in form")

    def accepted(self, frame):
        s = bytes_text(frame)
        job = reference.job_of(frame)
        solution = reference.solve(job)
        self.state(frame, "judge of the tree", f"judge_tree (job_of {s})", word(reference.judge_tree(job)))
        self.state(frame, "read and written", f"job_frame (job_of {s})", list_text(frame))
        self.link_parts(frame, job)
        self.own_answer(frame, solution)
        self.weights(frame, job)
        self.answers(frame, job, reference.made_elsewhere(self.rng, job, solution))
        self.sheets(frame, job, solution)
        self.logs(frame, job, solution)

    def link_parts(self, frame, job):
        s = bytes_text(frame)
        for e in range(len(job.links) + 1):
            self.state(frame, f"part of link {e}", f"link_part (refusal {s}) {s} {e}", list_text(reference.link_part(frame, e)))

    def own_frame(self, frame, solution):
        """The model's answer frame is one of those that may be written."""
        right = list_text(bytes_text(answer) for answer in reference.right_answers(solution))
        self.steps[solution.steps] += 1
        self.state(frame, "answer frame", f"among ({right}) (answer_frame (answer_of (job_of {bytes_text(frame)})))", "true")

    def own_answer(self, frame, solution):
        """The same, its steps, costs, changes and the judge's word about it; if no other may be written, the outcomes too."""
        s = bytes_text(frame)
        right = reference.right_answers(solution)
        self.own_frame(frame, solution)
        self.state(frame, "steps", f"(answer_of (job_of {s})).steps", solution.steps)
        self.state(frame, "costs", f"(answer_of (job_of {s})).costs", list_text(solution.lowest))
        self.state(frame, "changes of the own sheet", f"own_changes (job_of {s})", solution.steps)
        self.state(frame, "judge of the own answer", f"judge_answer (job_of {s}) (answer_frame (answer_of (job_of {s})))", "true")
        if len(right) == 1:
            for length in (len(right[0]) - 1, len(right[0]), len(right[0]) + 2):
                self.outcome(frame, right[0], [self.rng.randrange(256) for _ in range(length)])

    def weights(self, frame, job):
        """The running weight, and what the pairs add up to: the greatest weight of a pairing of the tree links so far."""
        weights = list_text(reference.running_weights(job))
        self.state(frame, "running weights", f"running_weights (job_of {bytes_text(frame)})", weights)
        self.state(frame, "weights added up", f"added_weights (job_of {bytes_text(frame)})", weights)

    def outcome(self, frame, answer, area):
        """What the answer service leaves in an area."""
        term = f"answered {bytes_text(frame)} {bytes_text(area)}"
        self.state(frame, f"outcome in {len(area)} bytes", term, served_text(0, answer, area))

    def answers(self, frame, job, made):
        """The judge's word about answers, and the cost parts of some."""
        for answer, about in made.items():
            self.judge(frame, job, answer, about)
            if about in ("right", "best costs", "steps one too many"):
                self.cost_parts(frame, job, answer)

    def judge(self, frame, job, answer, about):
        s, f = bytes_text(frame), bytes_text(answer)
        judged = reference.judge_answer(job, answer)
        self.judged[judged] += 1
        self.state(frame, f"judge of {answer.hex(' ')} ({about})", f"judge_answer (job_of {s}) {f}", word(judged))
        if judged:
            read = f"option_or (read_answer {len(job.links)} {f}) no_answer"
            self.state(frame, f"{answer.hex(' ')} read and written", f"answer_frame ({read})", list_text(answer))

    def cost_parts(self, frame, job, answer):
        for e in range(len(job.links) + 1):
            part = reference.cost_part(frame, answer, e)
            term = f"cost_part {bytes_text(frame)} {bytes_text(answer)} {e}"
            self.state(frame, f"part of cost {e} in {answer.hex(' ')}", term, list_text(part))

    def sheets(self, frame, job, solution):
        """What both services on step sheets make of costs and of sheets, in form and not."""
        for costs, about in reference.costs_elsewhere(self.step_rng, job, solution).items():
            self.stepped(frame, reference.sheet_of, costs, about)
        for sheet, about in reference.sheets_elsewhere(self.step_rng, job, solution).items():
            self.stepped(frame, reference.costs_of, sheet, about)

    def stepped(self, frame, make, given, about):
        """What the service leaves in an area of up to two bytes more than it writes; of the best costs, a byte less too."""
        number = reference.step_refusal(frame, make, given)
        made = b"" if number else make(reference.job_of(frame), given)
        self.translated[make][number] += 1
        shorter = [len(made) - 1] if made and "lowest best" in about else []
        for length in [*shorter, len(made) + self.step_rng.randrange(3)]:
            area = [self.step_rng.randrange(256) for _ in range(length)]
            term = f"stepped {STEPPED[make]} {bytes_text(frame)} {bytes_text(given)} {bytes_text(area)}"
            told = f"{make.__name__} {given.hex(' ')} ({about}) in {length} bytes"
            self.state(frame, told, term, served_text(number, made, area))

    def logs(self, frame, job, solution):
        """What the replay makes of packet logs, in form and not."""
        for log, about in reference.logs_elsewhere(self.log_rng, job, solution).items():
            self.replay(frame, log, about)

    def replay(self, frame, log, about):
        """The refusal, what is left in an area of a byte less than is written, or up to two more, and, of a log in form, its
        packets and after how many of them the tree is cheapest."""
        s, f = bytes_text(frame), bytes_text(log)
        number = reference.log_refusal(frame, log)
        told = f"log {log.hex(' ')} ({about})"
        self.replayed[number] += 1
        self.state(frame, f"refusal with the {told}", f"log_refusal {s} {f}", number)
        result = None if number else reference.replay(reference.job_of(frame), log)
        made = result.costs if result else b""
        area = [self.log_rng.randrange(256) for _ in range(max(0, len(made) + self.log_rng.randint(-1, 2)))]
        self.state(frame, f"outcome of the {told}", f"replayed_into {s} {f} {bytes_text(area)}", served_text(number, made, area))
        if result:
            self.packets(frame, log, result, told)

    def packets(self, frame, log, result, told):
        s, f = bytes_text(frame), bytes_text(log)
        self.first["never" if result.first is None else "later" if result.first else "at the start"] += 1
        self.state(frame, f"read and written: {told}", f"log_frame (packets_of {s} {f})", list_text(log))
        self.state(frame, f"cheapest after: {told}", f"cheapest_after {s} {f}", list_text(map(int, result.cheapest)))

    def lent(self, job):
        number = reference.list_refusal(job)
        self.state(reference.job_frame(job), "refusal of a lent list", f"list_refusal ({job_text(job)})", number)


# What is run: the rows of the document, with which the reference must agree too, and then jobs at the limits.

def document_rows(probe):
    for row, result in ROWS.items():
        frame = bytes.fromhex(row)
        if isinstance(result, int):
            assert reference.refusal(frame) == result, row
        else:
            right = reference.right_answers(reference.solve(reference.job_of(frame)))
            assert sorted(right) == sorted(bytes.fromhex(answer) for answer in result), row
        probe.frame(frame)
    judged_rows(probe, T1, T1_JUDGED)
    judged_rows(probe, IDLE, IDLE_JUDGED)
    first_row(probe)


def judged_rows(probe, frame, judged):
    job = reference.job_of(frame)
    for answer, yes in judged.items():
        assert reference.judge_answer(job, bytes.fromhex(answer)) == yes, answer
        probe.judge(frame, job, bytes.fromhex(answer), "a row")


def first_row(probe):
    """T1 in areas of 6, 7 and 9 bytes, painted."""
    for paint in (0, 170, 255):
        for length in (6, 7, 9):
            probe.outcome(T1, T1_ANSWER, length * [paint])


def limit_jobs(probe):
    for job in (RING, FULL):
        frame = reference.job_frame(job)
        assert probe.refusal(frame) == 0
        probe.own_frame(frame, reference.solve(job))
    assert len(reference.job_frame(LONGEST)) == 1539 and probe.refusal(reference.job_frame(LONGEST)) == 0
    longest_sheet(probe)
    for cost in FAR_COSTS:
        far_job(probe, cost)
    for job in LENT:
        probe.lent(job)


def longest_sheet(probe):
    """All 256 links moved, each by a change of four bytes: a sheet of 1,410 bytes."""
    frame = reference.job_frame(LONGEST)
    costs = reference.write_numbers([0 if link.mark == TREE else NUMBER_MOST for link in LONGEST.links])
    sheet = reference.sheet_of(LONGEST, costs)
    assert len(sheet) == 1410
    probe.stepped(frame, reference.sheet_of, costs, "to the longest sheet")
    probe.stepped(frame, reference.costs_of, sheet, "the longest")


def small_sheets(probe):
    """Every small sheet to jobs of no link, one and two."""
    for job in TINY:
        for sheet in reference.small_sheets(len(job.links)):
            probe.stepped(reference.job_frame(job), reference.costs_of, sheet, "small")


def small_logs(probe):
    """Every log of up to two packets to jobs of no link, one and two, packets that are none among them."""
    for job in TINY:
        for log in reference.small_logs(len(job.links)):
            probe.replay(reference.job_frame(job), log, "small")


def far_job(probe, cost):
    """Two tree links of that cost, and a spare of cost 0 beside each."""
    job = Job(3, [Link(0, 1, cost, 1), Link(0, 1, 0, 0), Link(1, 2, cost, 1), Link(1, 2, 0, 0)])
    solution = Solution(2 * cost, [(0, 0, 0, 0)], (0, 0, 0, 0), [((0, 1), (2, 3))])
    frame = reference.job_frame(job)
    right = reference.right_answers(solution)[0]
    assert probe.refusal(frame) == 0 and reference.judge_answer(job, right)
    probe.own_answer(frame, solution)
    probe.answers(frame, job, {right: "right", **far_answers(solution, right)})
    probe.sheets(frame, job, solution)


def far_answers(solution, right):
    """The right answer with steps one too few, steps a byte longer, or a first cost of three or four bytes."""
    few = reference.answer_frame(Answer(solution.steps - 1, solution.lowest, solution.pairings[0]))
    steps, costs = reference.pieces(right)[0], right[len(reference.pieces(right)[0]):]
    return {
        few: "steps one too few",
        bytes([*steps[:-1], steps[-1] | 128, 0]) + costs: "steps a byte longer",
        steps[:-1] + bytes([steps[-1] | 128, 1]) + costs: "steps a byte longer and more",
        steps + bytes([128, 128, 1]) + costs[1:]: "a cost of three bytes",
        steps + bytes([128, 128, 128, 1]) + costs[1:]: "a cost of four bytes",
    }


def chosen_jobs(rng, wanted):
    """Jobs that need long chains, small random ones, and a larger one for every four of these."""
    chains = [reference.chain_job(size) for size in (2, 3, 4, 5)]
    small = reference.different(lambda: reference.small_job(rng), wanted - wanted // 5)
    return chains + small + reference.different(lambda: reference.larger_job(rng), wanted // 5)


def chosen_frames(probe, wanted):
    """Those jobs, and refused frames."""
    rng = probe.rng
    for job in chosen_jobs(rng, wanted):
        probe.frame(reference.job_frame(job))
    for frame in reference.refused_frames(rng, wanted * 3 // 4):
        probe.frame(frame)


# The scratch repository.

def write_repository(repo):
    shutil.copytree(ROOT / "crates", repo / "crates", ignore=shutil.ignore_patterns("out"))
    listed = (ROOT / "crates.txt").read_text(encoding="utf-8").rstrip("\n")
    (repo / "crates.txt").write_text(f"{listed}\nprobe: {STANDS_ON}\n", encoding="utf-8")


def fact_text(fact, names):
    return f"\n{fact.name} : {fact.term} ≡ {fact.value}\nunfolding {names}\n{fact.name} = refl\n"


def write_probe(repo, facts):
    """The crate `probe`: the facts in files of so many."""
    crate = repo / "crates" / "probe"
    shutil.rmtree(crate, ignore_errors=True)
    (crate / "src").mkdir(parents=True)
    (crate / "specs").mkdir()
    (crate / "src" / "lib.rt").write_text("// Theory only: what the model computes stands in specs/.\n")
    names = unfolded()
    modules = range(0, len(facts), FACTS_A_FILE)
    (crate / "specs" / "Lib.antt").write_text("-- Facts.\n" + "".join(f"pub mod Facts{start}\n" for start in modules))
    for start in modules:
        text = HEADER + "".join(fact_text(fact, names) for fact in facts[start:start + FACTS_A_FILE])
        (crate / "specs" / f"Facts{start}.antt").write_text(text, encoding="utf-8")


def check(repo, facts):
    """Lets rt check the facts: whether all hold, and what it printed."""
    write_probe(repo, facts)
    run = subprocess.run(["rt", "check"], cwd=repo / "crates" / "probe", text=True, stdout=subprocess.PIPE, stderr=subprocess.STDOUT)
    proved = any(line.startswith("logic=proved") for line in run.stdout.splitlines())
    return run.returncode == 0 and proved, run.stdout


def failures(output, facts):
    """The facts that rt refused, each with what rt says of it."""
    by_name = {fact.name: fact for fact in facts}
    found = re.findall(r"error: `(fact-\d+)`:(.*(?:\n  .*)*)", output)
    return [(by_name[name], said) for name, said in found]


def spoilt(facts):
    """Some of the facts, stated wrongly: the judge's word of a tree, and of a log after how many packets it says yes."""
    tree = next(fact for fact in facts if fact.about == "judge of the tree")
    log = next(fact for fact in facts if fact.about.startswith("cheapest after") and fact.value.startswith("0 ∷ 0 ∷ 1"))
    wrong = "false" if tree.value == "true" else "true"
    return [tree._replace(value=wrong), log._replace(value=log.value.replace("0 ∷ 0 ∷ 1", "0 ∷ 1 ∷ 1", 1))]


def show_figures(probe):
    refused = {number: times for number, times in sorted(probe.refusals.items()) if number}
    print(f"accepted jobs: {probe.refusals[0]}, by steps {dict(sorted(probe.steps.items()))}")
    print(f"{probe.unplugged} of them have unplugged links")
    print(f"refused frames: {sum(refused.values())}, by number {refused}")
    print(f"lent lists: {len(LENT)}")
    print(f"answers judged: {sum(probe.judged.values())}, yes {probe.judged[True]}, no {probe.judged[False]}")
    show_translated(probe.translated[reference.sheet_of], "new costs", "made into sheets")
    show_translated(probe.translated[reference.costs_of], "step sheets", "applied")
    show_translated(probe.replayed, "packet logs", "replayed")
    print(f"the tree first cheapest: {dict(probe.first)}")
    print(f"facts compared: {len(probe.facts)}", flush=True)


def show_translated(numbers, what, done):
    refused = {number: times for number, times in sorted(numbers.items()) if number}
    print(f"{what}: {sum(numbers.values())}, {done} {numbers[0]}, refused by number {refused}")


def show_failures(output, facts):
    failed = failures(output, facts)
    for fact, said in failed:
        print(f"DISAGREEMENT: job {fact.frame.hex(' ')}\n  {fact.about}: the reference says {fact.value}\n  rt:{said}")
    print(f"FAILED: {len(failed)} facts" if failed else output + "\nFAILED")


def main():
    if not shutil.which("rt"):
        sys.exit("tests/model.py needs rt on PATH")
    probe = Probe(2)
    document_rows(probe)
    limit_jobs(probe)
    small_sheets(probe)
    small_logs(probe)
    chosen_frames(probe, int(sys.argv[1]) if len(sys.argv) > 1 else 80)
    show_figures(probe)
    with tempfile.TemporaryDirectory() as folder:
        repo = Path(folder)
        write_repository(repo)
        hold, output = check(repo, probe.facts)
        if not hold:
            show_failures(output, probe.facts)
            sys.exit(1)
        wrong = spoilt(probe.facts)
        hold, output = check(repo, wrong)
        assert not hold and len(failures(output, wrong)) == len(wrong), "a fact stated wrongly was not refused"
    print("OK")


if __name__ == "__main__":
    main()
