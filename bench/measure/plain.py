"""The yardsticks of lists of lemmas (lists.py): plain games, without conditions and aggregates, in sizes between those of
the ladder.

Known answers come from plain methods, as those of the ladder do, whose functions are used here. Those of formulas aren't known:
they have too many variables for a table of all values. Each family is one function: it gets the source of chance and the sizes, and
yields (name, text, known).

There are two lots of sizes. The search was tuned on games of the first one; those of the second one are there to be looked at
once something is done, and not before.
"""
from dataclasses import dataclass
from itertools import permutations

from measure.rungs import (
    Layers,
    declared,
    fibonacci,
    fibonacci_text,
    formula_text,
    fullest,
    game,
    kayles_text,
    kayles_won,
    listed,
    makespan,
    names,
    nim_text,
    rules,
    shop_text,
    some,
    sum_at_most,
    true_where,
)

# ---- Sizes.


@dataclass(frozen=True)
class Sizes:
    """Of formulas the variables of each block, the clauses, and the literals of one; of links the layers, the height and the cuts;
    of shops the jobs and delays; of knapsacks the items and those that are forbidden; of nim the least and the greatest heap; the
    counters of Fibonacci nim; and the nodes of kayles."""

    formulas: tuple
    links: tuple
    shops: tuple
    knapsacks: tuple
    heaps: tuple
    counters: tuple
    nodes: int


USUAL = Sizes(
    formulas=(
        ((16, 150), 390, 3),
        ((22, 24), 205, 5),
        ((160, 30, 160), 690, 3),
        ((24, 18, 24), 222, 5),
        ((20, 80, 20, 200), 620, 3),
        ((17, 17, 17, 17), 200, 5),
    ),
    links=((4, 4, 3), (3, 5, 2)),
    shops=((6, 3),),
    knapsacks=((17, 2),),
    heaps=(2, 5),
    counters=(22, 23, 24, 26, 27),
    nodes=16,
)

OTHER = Sizes(
    formulas=(
        ((18, 130), 350, 3),
        ((20, 26), 205, 5),
        ((140, 40, 150), 650, 3),
        ((22, 20, 22), 215, 5),
        ((30, 60, 30, 190), 600, 3),
        ((16, 18, 16, 18), 200, 5),
    ),
    links=((3, 4, 3), (4, 4, 2)),
    shops=((6, 2),),
    knapsacks=((16, 2),),
    heaps=(1, 6),
    counters=(19, 20, 25, 28, 29),
    nodes=15,
)


# ---- Formulas at random, with clauses of three literals and of five.


def formulas(pick, of):
    for sizes, clauses, literals in of.formulas:
        blocks, last = [], 0
        for k, size in enumerate(sizes):
            blocks.append(("exists" if (len(sizes) - k) % 2 else "forall", range(last, last + size)))
            last += size
        chosen = [random_clause(pick, blocks, literals) for _ in range(clauses)]
        yield f"formula {'-'.join(map(str, sizes))} of {literals}", formula_text(blocks, chosen), None


def random_clause(pick, blocks, literals):
    """Of three literals one or none is universal, of five two; all of different variables."""
    universal = 2 if literals == 5 else pick.randrange(2)
    of = {kind: [x for k, block in blocks if k == kind for x in block] for kind in ("exists", "forall")}
    variables = [*pick.sample(of["forall"], universal), *pick.sample(of["exists"], literals - universal)]
    return [(x, pick.random() < 0.5) for x in variables]


# ---- A leader removes links, so that each way that is left has a length: the best one, and one more.


def interdiction(pick, of):
    for layers, height, cuts in of.links:
        net = Layers(pick, layers, height)
        best = max(net.shortest_ways(cuts))
        yield f"all ways long {layers}-{height}-{cuts}", net.every_way_text(cuts, best), "true"
    yield f"all ways longer {layers}-{height}-{cuts}", net.every_way_text(cuts, best + 1), "false"


# ---- Jobs in an order, some of which are then delayed: all done within the best number of hours, and one less.


def shop(pick, of):
    for jobs, delays in of.shops:
        first, second = ([pick.randint(1, 6) for _ in range(jobs)] for _ in range(2))
        late = pick.randint(2, 4)
        worst = lambda order: max(makespan(order, first, second, late, delayed) for delayed in some(jobs, delays))
        best = min(map(worst, permutations(range(jobs))))
        text = shop_text(first, second, late, delays).replace("exists minimize worst", "exists")
        text = text.replace("aggregate worst = greatest(done) else 0;\n", "")
        for hours, known in (best, "true"), (best - 1, "false"):
            yield f"shop {jobs}-{delays} in {hours}", with_goal(text, f"int_le(done,{hours})"), known


def with_goal(text, constraint):
    return text.replace("goal;\n", f"goal;\nconstraint {constraint};\n")


# ---- Items are forbidden, then a knapsack is filled: never beyond the best value, and one less.


def knapsack(pick, of):
    for items, gone in of.knapsacks:
        weights, values = ([pick.randint(3, 15) for _ in range(items)] for _ in range(2))
        room = sum(weights) // 2
        filled = lambda forbidden: fullest([k for k in range(items) if k not in forbidden], weights, values, room)
        best = min(map(filled, some(items, gone)))
        for value, known in (best, "true"), (best - 1, "false"):
            yield f"knapsack {items}-{gone} of {value}", knapsack_text(weights, values, room, gone, value), known


def knapsack_text(weights, values, room, gone, most):
    barred, taken = names("barred", len(weights)), names("taken", len(weights))
    leader = ["exists", declared("0..1", *barred), rules(sum_at_most(barred, gone))]
    follower = ["forall", declared("0..1", *taken), rules(*(sum_at_most(pair, 1) for pair in zip(barred, taken)))]
    follower.append(rules(f"int_lin_le({listed(weights)},{listed(taken)},{room})"))
    return game(leader, follower, ["goal", rules(f"int_lin_le({listed(values)},{listed(taken)},{most})")])


# ---- Counters and boards, which are plain games as they are.


def nim(pick, of):
    heaps = [pick.randint(*of.heaps) for _ in range(3)]
    xor = 0
    for heap in heaps:
        xor ^= heap
    yield "nim " + "-".join(map(str, heaps)), nim_text(heaps), true_where(xor)
    counters = pick.choice(of.counters)
    yield f"Fibonacci nim {counters}", fibonacci_text(counters), true_where(counters not in fibonacci(counters))


def boards(pick, of):
    nodes = of.nodes
    near = [{k} | {j for j in range(nodes) if (j - k) % nodes in (1, nodes - 1)} for k in range(nodes)]
    for _ in range(2):
        a, b = pick.sample(range(nodes), 2)
        near[a].add(b)
        near[b].add(a)
    yield f"kayles {nodes}", kayles_text(near), true_where(kayles_won(near))


FAMILIES = {family.__name__: family for family in (formulas, interdiction, shop, knapsack, nim, boards)}
