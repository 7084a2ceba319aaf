"""The problems of the ladder (ladder.py): nine families, each graded by size, each problem with its known answer.

A known answer never comes from the program. It is found here by a plain method that shares nothing with a search over
constraints: going over all choices, shortest ways, largest flows, tables of dynamic programming, theory, or a published
table. Each family is one function: it gets the source of chance, and yields (name, text, known) and, where today's search
doesn't settle the problem within the ladder's limits, `hard`. A new size is drawn after all others of its family, so that
these stay the problems that were measured before.
"""
from functools import cache
from itertools import combinations, permutations, product

HARD = True
GOLOMB = {4: 6, 5: 11, 6: 17, 7: 25, 8: 34, 9: 44}  # the least length of a Golomb ruler with so many marks


# ---- How texts are written.


def listed(items):
    return "[" + ",".join(map(str, items)) + "]"


def declared(domain, *names):
    return "".join(f"var {domain}: {name};\n" for name in names)


def rules(*constraints):
    return "".join(f"constraint {constraint};\n" for constraint in constraints)


def game(*scopes):
    """Each scope is its head, and then its variables and constraints."""
    return "".join(f"{head};\n" + "".join(parts) for head, *parts in scopes) + "solve;\n"


def names(letter, count):
    return [f"{letter}{k}" for k in range(1, count + 1)]


def sum_at_most(items, bound):
    return f"int_lin_le({listed([1] * len(items))},{listed(items)},{bound})"


def total(factors, items, result):
    return f"int_lin_eq({listed([*factors, -1])},{listed([*items, result])},0)"


def true_where(holds):
    return "true" if holds else "false"


# ---- A leader sets tolls; each customer takes its cheapest way, and of equal ones the dearest in tolls; incomes are summed.


def pricing(pick):
    for tolls, most, customers in (3, 10, 3), (3, 15, 5), (3, 25, 6), (4, 8, 6), (4, 10, 10), (5, 6, 6), (5, 8, 8):
        base = [[*(pick.randint(1, 9) for _ in range(tolls)), pick.randint(7, 14)] for _ in range(customers)]
        cars = [pick.randint(1, 3) for _ in range(customers)]
        known = f"true {best_income(base, cars, most)}"
        yield f"pricing {tolls}-{most}-{customers}", pricing_text(base, cars, most), known


def best_income(base, cars, most):
    def pays(ways, tolls):
        prices = [(way + toll, -toll) for way, toll in zip(ways, (*tolls, 0))]
        return -min(prices)[1]

    choices = product(range(most + 1), repeat=len(base[0]) - 1)
    return max(sum(many * pays(ways, tolls) for ways, many in zip(base, cars)) for tolls in choices)


def pricing_text(base, cars, most):
    ways, tolls, dearest = len(base[0]), names("t", len(base[0]) - 1), max(map(max, base))
    leader = ["exists maximize total", declared(f"0..{most}", *tolls)]
    customer = ["forall", declared(f"1..{len(base)}", "k"), "aggregate total = sum(income);\n"]
    follower = [
        "exists minimize cost",
        declared(f"1..{ways}", "a") + declared(f"1..{ways * len(base)}", "i") + declared(f"0..{dearest}", "base"),
        declared(f"0..{most}", "toll") + declared(f"0..{dearest + most}", "cost"),
        declared("1..3", "cars") + declared(f"0..{3 * most}", "income"),
        rules(
            f"int_lin_eq([{ways},1,-1],[k,a,i],{ways})",
            f"array_int_element(i,{listed(sum(base, []))},base)",
            f"array_var_int_element(a,{listed([*tolls, 0])},toll)",
            "int_plus(base,toll,cost)",
            f"array_int_element(k,{listed(cars)},cars)",
            "int_times(cars,toll,income)",
        ),
    ]
    return game(leader, customer, follower, ["goal"])


# ---- A leader removes links; a follower takes the shortest way that is left, or sends the largest flow.


def interdiction(pick):
    for layers, height, cuts, *hard in (3, 4, 2), (4, 4, 2), (4, 5, 3, HARD):
        yield *shortest_way(pick, layers, height, cuts), *hard
    net = Layers(pick, 4, 4)
    longest = max(net.shortest_ways(2))
    yield "all ways long 4-4-2", net.every_way_text(2, longest), "true"
    yield "all ways longer 4-4-2", net.every_way_text(2, longest + 1), "false"
    for first, second, cuts in (3, 4, 2), (4, 4, 2):
        yield flow(pick, first, second, cuts)
    for layers, height, cuts in (4, 5, 2), (4, 4, 3):
        yield shortest_way(pick, layers, height, cuts)
    yield flow(pick, 3, 5, 2)


def shortest_way(pick, layers, height, cuts):
    net = Layers(pick, layers, height)
    known = max(way for way in net.shortest_ways(cuts) if way is not None)
    return f"shortest way {layers}-{height}-{cuts}", net.way_text(cuts), f"true {known}"


def flow(pick, first, second, cuts):
    links = [(1, 2 + j) for j in range(first)] + [(2 + j, 2 + first + k) for j in range(first) for k in range(second)]
    links += [(2 + first + k, 2 + first + second) for k in range(second)]
    room = [pick.randint(1, 4) for _ in links]
    known = min(largest_flow(links, without(room, gone)) for gone in some(len(links), cuts))
    return f"flow {first}-{second}-{cuts}", flow_text(links, room, cuts), f"true {known}"


def some(count, most):
    """The choices of at most so many of the first numbers."""
    return (chosen for size in range(most + 1) for chosen in combinations(range(count), size))


def without(items, gone):
    return [0 if k in gone else item for k, item in enumerate(items)]


def shortest(reached, links):
    """The least length over these links from nodes so far away; None stands for what isn't there."""
    pairs = zip(reached, links)
    return min((far + length for far, length in pairs if far is not None and length is not None), default=None)


class Layers:
    """A source, layers of nodes with a link from each node to each of the next layer, and a sink."""

    def __init__(self, pick, layers, height):
        self.sizes = [1, *[height] * layers, 1]
        self.lengths = [[pick.randint(1, 9) for _ in range(a * b)] for a, b in zip(self.sizes, self.sizes[1:])]
        self.count = sum(map(len, self.lengths))

    def shortest_ways(self, cuts):
        """The length of the shortest way for each choice of links to remove; None where no way is left."""
        lengths = sum(self.lengths, [])
        for gone in some(self.count, cuts):
            left = [None if k in gone else length for k, length in enumerate(lengths)]
            reached, first = [0], 0
            for a, b in zip(self.sizes, self.sizes[1:]):
                links = left[first : first + a * b]
                reached = [shortest(reached, links[n::b]) for n in range(b)]
                first += a * b
            yield reached[0]

    def leader(self, head, cuts):
        self.cut = names("cut", self.count)
        return [head, declared("0..1", *self.cut), rules(sum_at_most(self.cut, cuts))]

    def way(self, head):
        """One node of each layer, so that no link between them is removed; `length` is that of the way."""
        nodes, links = [1, *names("node", len(self.sizes) - 2), 1], names("link", len(self.lengths))
        steps, first = names("step", len(self.lengths)), 0
        parts = [declared(f"1..{size}", node) for size, node in zip(self.sizes, nodes) if size > 1]
        for k, lengths in enumerate(self.lengths):
            after = self.sizes[k + 1]
            parts.append(declared(f"1..{len(lengths)}", links[k]) + declared("1..9", steps[k]))
            parts.append(rules(f"int_lin_eq([{after},1,-1],{listed([nodes[k], nodes[k + 1], links[k]])},{after})"))
            parts.append(rules(f"array_int_element({links[k]},{listed(lengths)},{steps[k]})"))
            cut = self.cut[first : first + len(lengths)]
            parts.append(rules(f"array_var_int_element({links[k]},{listed(cut)},0)"))
            first += len(lengths)
        parts += [declared(f"0..{9 * len(steps)}", "length"), rules(total([1] * len(steps), steps, "length"))]
        return [head, *parts]

    def way_text(self, cuts):
        return game(self.leader("exists maximize length", cuts), self.way("exists minimize length"), ["goal"])

    def every_way_text(self, cuts, least):
        return game(self.leader("exists", cuts), self.way("forall"), ["goal", rules(f"int_le({least},length)")])


def largest_flow(links, room):
    """From node 1 to the last, by ways that still have room."""
    sink, rest = max(map(max, links)), {}
    for (a, b), most in zip(links, room):
        rest[a, b] = rest.get((a, b), 0) + most
        rest.setdefault((b, a), 0)
    sent = 0
    while True:
        ways = {1: [1]}
        queue = [1]
        for node in queue:
            for (a, b), most in rest.items():
                if a == node and most and b not in ways:
                    ways[b] = ways[a] + [b]
                    queue.append(b)
        if sink not in ways:
            return sent
        for link in zip(ways[sink], ways[sink][1:]):
            rest[link] -= 1
            rest[link[::-1]] += 1
        sent += 1


def flow_text(links, room, cuts):
    cut, flow, sink = names("cut", len(links)), names("flow", len(links)), max(map(max, links))
    ends = lambda node, end: [f for f, link in zip(flow, links) if link[end] == node]
    kept = [f"int_lin_le([1,{most}],[{f},{c}],{most})" for f, c, most in zip(flow, cut, room)]
    for node in range(2, sink):
        into, out = ends(node, 1), ends(node, 0)
        kept.append(f"int_lin_eq({listed([1] * len(into) + [-1] * len(out))},{listed(into + out)},0)")
    leader = ["exists minimize sent", declared("0..1", *cut), rules(sum_at_most(cut, cuts))]
    flows = "".join(declared(f"0..{most}", f) for f, most in zip(flow, room))
    sent = declared(f"0..{sum(room)}", "sent") + rules(total([1] * len(ends(1, 0)), ends(1, 0), "sent"))
    return game(leader, ["exists maximize sent", flows, sent, rules(*kept)], ["goal"])


# ---- Jobs go through two machines, in an order set before; the opponent delays some jobs on the second machine.


def shop(pick):
    for jobs, delays, *hard in (5, 3), (6, 1), (6, 2), (7, 1), (8, 2, HARD), (7, 2):
        first, second = ([pick.randint(1, 6) for _ in range(jobs)] for _ in range(2))
        late = pick.randint(2, 4)
        orders = permutations(range(jobs))
        worst = lambda order: max(makespan(order, first, second, late, delayed) for delayed in some(jobs, delays))
        yield f"shop {jobs}-{delays}", shop_text(first, second, late, delays), f"true {min(map(worst, orders))}", *hard


def makespan(order, first, second, late, delayed):
    left = done = 0
    for job in order:
        left += first[job]
        done = max(left, done) + second[job] + late * (job in delayed)
    return done


def shop_text(first, second, late, delays):
    jobs, most = len(first), sum(first) + sum(second) + late * len(first)
    order, delay = names("job", jobs), names("delay", jobs)
    leader = ["exists minimize worst", declared(f"1..{jobs}", *order), rules(f"all_different_int({listed(order)})")]
    opponent = ["forall", declared(f"{{0,{late}}}", *delay), "aggregate worst = greatest(done) else 0;\n"]
    opponent.append(rules(sum_at_most(delay, late * delays)))
    parts = []
    for k, job in enumerate(order, 1):
        parts.append(declared("1..6", f"one{k}", f"two{k}") + declared(f"0..{late}", f"late{k}"))
        parts.append(declared(f"0..{most}", f"left{k}", f"begin{k}", "done" if k == jobs else f"done{k}"))
        before = (f"left{k - 1}", f"done{k - 1}") if k > 1 else (0, 0)
        parts.append(
            rules(
                f"array_int_element({job},{listed(first)},one{k})",
                f"array_int_element({job},{listed(second)},two{k})",
                f"array_var_int_element({job},{listed(delay)},late{k})",
                f"int_plus({before[0]},one{k},left{k})",
                f"int_max(left{k},{before[1]},begin{k})",
                total([1, 1, 1], [f"begin{k}", f"two{k}", f"late{k}"], "done" if k == jobs else f"done{k}"),
            )
        )
    return game(leader, opponent, ["exists", *parts], ["goal"])


# ---- An interdictor forbids items, then a knapsack is filled; or the knapsack is filled, and then items are taken out.


def knapsack(pick):
    for items, gone, *hard in (12, 2), (14, 2), (16, 2), (16, 3, HARD):
        yield *interdicted(pick, items, gone), *hard
    for items, gone in (11, 2), (14, 2):
        yield robbed(pick, items, gone)
    yield interdicted(pick, 14, 3)
    yield robbed(pick, 13, 2)


def some_items(pick, items):
    """Weights, values, and the room of the knapsack."""
    weights, values = ([pick.randint(3, 15) for _ in range(items)] for _ in range(2))
    return weights, values, sum(weights) // 2


def interdicted(pick, items, gone):
    weights, values, room = some_items(pick, items)
    filled = lambda forbidden: fullest([k for k in range(items) if k not in forbidden], weights, values, room)
    known = min(map(filled, some(items, gone)))
    return f"knapsack {items}-{gone}", knapsack_text(weights, values, room, gone), f"true {known}"


def robbed(pick, items, gone):
    weights, values, room = some_items(pick, items)
    packs = (pack for pack in some(items, items) if sum(weights[k] for k in pack) <= room)
    known = max(sum(sorted((values[k] for k in pack), reverse=True)[gone:]) for pack in packs)
    return f"robbed knapsack {items}-{gone}", robbed_text(weights, values, room, gone), f"true {known}"


def fullest(allowed, weights, values, room):
    """The greatest value for each room, item by item."""
    best = [0] * (room + 1)
    for k in allowed:
        for left in range(room, weights[k] - 1, -1):
            best[left] = max(best[left], best[left - weights[k]] + values[k])
    return best[room]


def knapsack_text(weights, values, room, gone):
    barred, taken = names("barred", len(weights)), names("taken", len(weights))
    leader = ["exists minimize value", declared("0..1", *barred), rules(sum_at_most(barred, gone))]
    follower = ["exists maximize value", declared("0..1", *taken), declared(f"0..{sum(values)}", "value")]
    follower.append(rules(*(sum_at_most(pair, 1) for pair in zip(barred, taken))))
    follower.append(rules(f"int_lin_le({listed(weights)},{listed(taken)},{room})", total(values, taken, "value")))
    return game(leader, follower, ["goal"])


def robbed_text(weights, values, room, gone):
    taken, lost, kept = (names(word, len(weights)) for word in ("taken", "lost", "kept"))
    leader = ["exists maximize worst", declared("0..1", *taken)]
    leader.append(rules(f"int_lin_le({listed(weights)},{listed(taken)},{room})"))
    robber = ["forall", declared("0..1", *lost), "aggregate worst = least(value) else 0;\n", rules(sum_at_most(lost, gone))]
    robber.append(rules(*(f"int_le({one},{other})" for one, other in zip(lost, taken))))
    rest = ["exists", declared("0..1", *kept), declared(f"0..{sum(values)}", "value")]
    rest.append(rules(*(f"int_plus({one},{other},{all})" for one, other, all in zip(lost, kept, taken))))
    return game(leader, robber, [*rest, rules(total(values, kept, "value"))], ["goal"])


# ---- Counters: whoever can't move loses. Nim is known by exclusive or, Fibonacci Nim by Fibonacci's numbers.


def nim(pick):
    for heaps in (3, 5, 6), (5, 6, 7):
        xor = 0
        for heap in heaps:
            xor ^= heap
        yield "nim " + "-".join(map(str, heaps)), nim_text(heaps), true_where(xor)
    for counters, *hard in (25,), (28,), (40, HARD):
        yield f"Fibonacci nim {counters}", fibonacci_text(counters), true_where(counters not in fibonacci(counters)), *hard


def owner(k):
    return "exists" if k % 2 else "forall"


LOST = ["goal", rules("int_lt(1,0)")]


def nim_text(heaps):
    """A move makes exactly one heap smaller; `same` says of a heap that it stays."""
    before, scopes = list(heaps), []
    for k in range(1, sum(heaps) + 2):
        after, same = names(f"heap{k}_", len(heaps)), names(f"same{k}_", len(heaps))
        parts = ["".join(declared(f"0..{size}", heap) for heap, size in zip(after, heaps)), declared("bool", *same)]
        kept = [f"int_le({one},{other})" for one, other in zip(after, before)]
        kept += [f"int_eq_reif({one},{other},{stays})" for one, other, stays in zip(after, before, same)]
        kept += [f"bool_clause([],{listed(same)})"] + [f"bool_clause({listed(pair)},[])" for pair in combinations(same, 2)]
        scopes.append([owner(k), *parts, rules(*kept)])
        before = after
    return game(*scopes, LOST)


def fibonacci(most):
    numbers = [1, 2]
    while numbers[-1] < most:
        numbers.append(numbers[-1] + numbers[-2])
    return numbers


def fibonacci_text(counters):
    """The first move leaves a counter; each later one takes at most twice as many as the one before."""
    scopes, taken = [], []
    for k in range(1, counters + 2):
        kept = [f"int_lin_le([1,-2],[take{k},take{k - 1}],0)"] if k > 1 else [f"int_le(take1,{counters - 1})"]
        taken.append(f"take{k}")
        scopes.append([owner(k), declared(f"1..{counters}", taken[-1]), rules(*kept, sum_at_most(taken, counters))])
    return game(*scopes, LOST)


# ---- Boards: dominoes, kayles on a graph, three in line against one who only hinders. Known by going over all positions.


def boards(pick):
    for rows, columns in (4, 4), (4, 5):
        places = dominoes(rows, columns)
        both = (places[True] + places[False],) * 2
        yield f"cram {rows}x{columns}", dominoes_text(rows * columns, both), true_where(moves_on(both))
        sides = places[True], places[False]
        yield f"domineering {rows}x{columns}", dominoes_text(rows * columns, sides), true_where(moves_on(sides))
    for nodes, *hard in (18,), (20, HARD):
        near = [{k} | {j for j in range(nodes) if (j - k) % nodes in (1, nodes - 1)} for k in range(nodes)]
        for _ in range(2):
            a, b = pick.sample(range(nodes), 2)
            near[a].add(b)
            near[b].add(a)
        yield f"kayles {nodes}", kayles_text(near), true_where(kayles_won(near)), *hard
    for side, moves in (4, 3), (4, 4):
        rows = rows_of_three(side)
        yield f"three in line {side}x{side}-{moves}", row_text(side, rows, moves), true_where(row_won(side, rows, moves))


def dominoes(rows, columns):
    """The cells of each domino, upright ones and lying ones."""
    cell = lambda r, c: r * columns + c + 1
    upright = [(cell(r, c), cell(r + 1, c)) for r in range(rows - 1) for c in range(columns)]
    lying = [(cell(r, c), cell(r, c + 1)) for r in range(rows) for c in range(columns - 1)]
    return {True: upright, False: lying}


def moves_on(sides):
    """Whether who begins can always move, where the sides lay these dominoes in turn."""

    @cache
    def won(mine, covered):
        free = (set(place) for place in sides[mine] if not covered & set(place))
        return any(not won(1 - mine, covered | frozenset(place)) for place in free)

    return won(0, frozenset())


def dominoes_text(cells, sides):
    scopes, covered = [], []
    for k in range(1, cells // 2 + 2):
        places = sides[1 - k % 2]
        ends = [f"one{k}", f"other{k}"]
        covered += ends
        kept = [f"array_int_element(place{k},{listed(place[end] for place in places)},{ends[end]})" for end in (0, 1)]
        parts = declared(f"1..{len(places)}", f"place{k}") + declared(f"1..{cells}", *ends)
        scopes.append([owner(k), parts, rules(*kept, f"all_different_int({listed(covered)})")])
    return game(*scopes, LOST)


def kayles_won(near):
    @cache
    def won(left):
        return any(not won(left - near[k]) for k in left)

    return won(frozenset(range(len(near))))


def kayles_text(near):
    """Who moves takes a node that is left, with its neighbours."""
    pairs = [end + 1 for pair in product(range(len(near)), repeat=2) if pair[1] not in near[pair[0]] for end in pair]
    scopes = []
    for k in range(1, len(near) + 2):
        kept = [f"table_int([node{j},node{k}],{listed(pairs)})" for j in range(1, k)]
        scopes.append([owner(k), declared(f"1..{len(near)}", f"node{k}"), rules(*kept)])
    return game(*scopes, LOST)


def rows_of_three(side):
    """Three cells beside one another: across, down, and in both slants."""
    inside = lambda r, c: 0 <= r < side and 0 <= c < side
    rows = ([(r + k * down, c + k * right) for k in range(3)] for r, c in product(range(side), repeat=2)
            for down, right in ((0, 1), (1, 0), (1, 1), (1, -1)))  # fmt: skip
    return [tuple(r * side + c + 1 for r, c in row) for row in rows if all(inside(*cell) for cell in row)]


def row_won(side, rows, moves):
    """Whether who begins has a row after so many own moves, whatever the other takes in between."""

    @cache
    def won(mine, yours):
        if len(mine) == moves:
            return any(set(row) <= mine for row in rows)
        free = set(range(1, side * side + 1)) - mine - yours
        if len(mine) > len(yours):
            return all(won(mine, yours | {cell}) for cell in free)
        return any(won(mine | {cell}, yours) for cell in free)

    return won(frozenset(), frozenset())


def row_text(side, rows, moves):
    """In the end a row is shown, and which move took each part of it."""
    taken = names("cell", 2 * moves - 1)
    scopes, cells = [], f"1..{side * side}"
    for k, cell in enumerate(taken, 1):
        scopes.append([owner(k), declared(cells, cell), rules(f"all_different_int({listed(taken[:k])})")])
    kept = []
    for end in range(3):
        kept.append(f"array_int_element(row,{listed(row[end] for row in rows)},part{end})")
        kept.append(f"array_var_int_element(move{end},{listed(taken[::2])},part{end})")
    parts = declared(f"1..{len(rows)}", "row") + declared(cells, "part0", "part1", "part2")
    parts += declared(f"1..{moves}", "move0", "move1", "move2")
    return game(*scopes, ["exists", parts, rules(*kept)], ["goal"])


# ---- Quantified Boolean formulas at random, each clause with one universal literal. Known by the table of all values.


def formulas(pick):
    for sizes, clauses, *hard in (
        ((16, 6), 8),
        ((20, 4), 8),
        ((22, 3), 6, HARD),
        ((16, 3, 5), 60),
        ((12, 7, 5), 55),
        ((8, 6, 8, 2), 12),
        ((5, 7, 5, 6, 2), 16),
    ):
        blocks, last = [], 0
        for k, size in enumerate(sizes):
            kind = "exists" if (len(sizes) - k) % 2 else "forall"
            blocks.append((kind, range(last, last + size)))
            last += size
        chosen = [random_clause(pick, blocks) for _ in range(clauses)]
        known = true_where(is_true(blocks, chosen))
        yield "formula " + "-".join(map(str, sizes)), formula_text(blocks, chosen), known, *hard


def random_clause(pick, blocks):
    """One literal of a universal variable and two of others."""
    of = {kind: [x for k, block in blocks if k == kind for x in block] for kind in ("exists", "forall")}
    variables = [pick.choice(of["forall"]), *pick.sample(of["exists"], 2)]
    return [(x, pick.random() < 0.5) for x in variables]


def is_true(blocks, clauses):
    """Bit a of a number is the formula's value where variable k has bit k of a; from the last variable on, they go."""
    count = blocks[-1][1].stop
    whole = (1 << (1 << count)) - 1
    value = whole
    for clause in clauses:
        some_true = 0
        for x, positive in clause:
            some_true |= ones(x, count) if positive else whole ^ ones(x, count)
        value &= some_true
    for kind, block in reversed(blocks):
        for x in reversed(block):
            low, high = value & ((1 << (1 << x)) - 1), value >> (1 << x)
            value = low | high if kind == "exists" else low & high
    return value == 1


@cache
def ones(x, count):
    width = 2 << x
    pattern = ((1 << (1 << x)) - 1) << (1 << x)
    while width < 1 << count:
        pattern |= pattern << width
        width *= 2
    return pattern


def formula_text(blocks, clauses):
    scopes = [[kind, declared("bool", *(f"x{x}" for x in block))] for kind, block in blocks]
    sides = ([[f"x{x}" for x, positive in clause if positive == side] for side in (True, False)] for clause in clauses)
    return game(*scopes, ["goal", rules(*(f"bool_clause({listed(yes)},{listed(no)})" for yes, no in sides))])


# ---- Quantified Boolean formulas at random, of clauses of five literals of any variables. The first block is gone over, and of what
# is left there is a table of all values.


def long_formulas(pick):
    for sizes, clauses in (
        ((10, 10, 10), 60),
        ((10, 10, 10), 80),
        ((10, 10, 10), 100),
        ((10, 10, 10), 120),
        ((6, 8, 8, 8), 36),
        ((6, 8, 8, 8), 44),
        ((6, 8, 8, 8), 52),
        ((6, 8, 8, 8), 60),
        ((6, 7, 7), 45),
        ((6, 7, 7), 75),
        ((5, 5, 5, 5), 20),
        ((5, 5, 5, 5), 32),
        ((8, 8, 9), 55),
        ((8, 8, 9), 90),
        ((6, 6, 6, 7), 28),
        ((6, 6, 6, 7), 44),
    ):
        blocks, last = [], 0
        for k, size in enumerate(sizes):
            blocks.append(("exists" if (len(sizes) - k) % 2 else "forall", range(last, last + size)))
            last += size
        chosen = [[(x, pick.random() < 0.5) for x in pick.sample(range(last), 5)] for _ in range(clauses)]
        name = "formula of five " + "-".join(map(str, sizes)) + f" {clauses}"
        yield name, formula_text(blocks, chosen), true_where(is_true_by_parts(blocks, chosen))


def is_true_by_parts(blocks, clauses):
    (kind, first), *rest = blocks
    below = [(kind, range(block.start - first.stop, block.stop - first.stop)) for kind, block in rest]
    parts = (is_true(below, part) for part in map(lambda a: restricted(clauses, first, a), range(1 << len(first))))
    return any(parts) if kind == "exists" else all(parts)


def restricted(clauses, first, values):
    """What is left of the clauses where the variables of the first block have the bits of these values; the others count from 0."""
    left = [clause for clause in clauses if not any(x < first.stop and (values >> x & 1) == positive for x, positive in clause)]
    return [[(x - first.stop, positive) for x, positive in clause if x >= first.stop] for clause in left]


# ---- One scope: queens, Golomb rulers, bins filled to the brim.


def puzzles(pick):
    for queens, *hard in (18,), (20,), (24,), (30, HARD):
        yield f"queens {queens}", queens_text(queens), true_where(queens > 3), *hard
    for marks, most, *hard in (6, 30), (7, 35), (8, 45), (9, 60, HARD):
        yield f"Golomb ruler {marks}", golomb_text(marks, most), f"true {GOLOMB[marks]}", *hard
    for items, bins in (15, 4), (16, 5), (18, 6):
        sizes = [pick.randint(5, 25) for _ in range(items)]
        while sum(sizes) % bins:
            sizes[-1] += 1
        known = true_where(fill(tuple(sizes), bins))
        yield f"packing {items}-{bins}", packing_text(sizes, bins), known


def queens_text(count):
    rows, ups, downs = names("row", count), names("up", count), names("down", count)
    lines = [f"int_plus({row},{k},{up})" for k, (row, up) in enumerate(zip(rows, ups), 1)]
    lines += [f"int_plus({down},{k},{row})" for k, (row, down) in enumerate(zip(rows, downs), 1)]
    lines += [f"all_different_int({listed(group)})" for group in (rows, ups, downs)]
    places = declared(f"1..{count}", *rows) + declared(f"2..{2 * count}", *ups) + declared(f"{1 - count}..{count - 1}", *downs)
    return game(["exists", places, rules(*lines)], ["goal"])


def golomb_text(marks, most):
    places = [0, *names("mark", marks - 1)]
    apart, lines = [], []
    for j, k in combinations(range(marks), 2):
        if j == 0:
            apart.append(places[k])
            continue
        apart.append(f"gap{j}_{k}")
        lines.append(f"int_plus({places[j]},{apart[-1]},{places[k]})")
    lines += [f"int_lt({one},{other})" for one, other in zip(places[1:], places[2:])]
    lines += [f"int_lt(mark1,{apart[-1]})", f"all_different_int({listed(apart)})"]
    gaps = [gap for gap in apart if gap.startswith("gap")]
    parts = declared(f"1..{most}", *places[1:]) + declared(f"1..{most}", *gaps)
    return game([f"exists minimize mark{marks - 1}", parts, rules(*lines)], ["goal"])


def fill(sizes, bins):
    """Whether the items fill so many bins of equal room to the brim, by the sums that sets of items can leave open."""
    room = sum(sizes) // bins
    reached = {(0,) * bins}
    for size in sizes:
        reached = {
            tuple(sorted((*loads[:k], loads[k] + size, *loads[k + 1 :])))
            for loads in reached
            for k in range(bins)
            if loads[k] + size <= room
        }
    return bool(reached)


def packing_text(sizes, bins):
    """The bins of the items one by one; `in` counts an item for a bin."""
    parts, lines, room = [], [], sum(sizes) // bins
    for item in range(1, len(sizes) + 1):
        places = [f"in{item}_{k}" for k in range(bins)]
        parts.append(declared("0..1", *places))
        lines.append(f"int_lin_eq({listed([1] * bins)},{listed(places)},1)")
    for k in range(bins):
        lines.append(f"int_lin_eq({listed(sizes)},{listed(f'in{item}_{k}' for item in range(1, len(sizes) + 1))},{room})")
    return game(["exists", *parts, rules(*lines)], ["goal"])


FAMILIES = {
    family.__name__: family for family in (pricing, interdiction, shop, knapsack, nim, boards, formulas, long_formulas, puzzles)
}
