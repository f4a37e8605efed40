"""The families of models of host/src/families, built by operators from the same random numbers."""

from __future__ import annotations

from typing import Callable, Dict, List, Sequence, Tuple

import repgypsum as rg
from repgypsum import Condition, ElementVar, IntExpr, IntVar, Model, SetVar, Transition

MASK = 2**64 - 1


class Random:
    """The generator splitmix64."""

    def __init__(self, seed: int) -> None:
        self.state = seed

    def word(self) -> int:
        self.state = (self.state + 0x9E3779B97F4A7C15) & MASK
        z = self.state
        z = ((z ^ (z >> 30)) * 0xBF58476D1CE4E5B9) & MASK
        z = ((z ^ (z >> 27)) * 0x94D049BB133111EB) & MASK
        return z ^ (z >> 31)

    def below(self, end: int) -> int:
        return self.word() % end

    def between(self, first: int, last: int) -> int:
        return first + self.below(last - first + 1)

    def chance(self, percent: int) -> bool:
        return self.below(100) < percent

    def shuffled(self, count: int) -> List[int]:
        order = list(range(count))
        for place in range(count - 1, 0, -1):
            other = self.below(place + 1)
            order[place], order[other] = order[other], order[place]
        return order


def precedences(random: Random, objects: Sequence[int], percent: int) -> List[List[int]]:
    """For each object those that come before it, without a cycle."""
    before: List[List[int]] = [[] for _ in range(max(objects, default=-1) + 1)]
    order = random.shuffled(len(objects))
    for place, later in enumerate(order):
        for earlier in order[:place]:
            if random.chance(percent):
                before[objects[later]].append(objects[earlier])
    return before


# Travel.

Rows = List[List[int]]


def asymmetric(random: Random, places: int, most: int) -> Rows:
    rows = [[0] * places for _ in range(places)]
    for start in range(places):
        for end in range(places):
            if start != end:
                rows[start][end] = random.between(0, most)
    return rows


def distance(x: int, y: int) -> int:
    length = 0
    while length * length < x * x + y * y:
        length += 1
    return length


def in_square(random: Random, places: int, side: int) -> Rows:
    at = []
    for _ in range(places):
        x = random.between(0, side)
        at.append((x, random.between(0, side)))
    return [[distance(a[0] - b[0], a[1] - b[1]) for b in at] for a in at]


def least(rows: Rows, incoming: bool, may_follow: Callable[[int, int], bool]) -> List[int]:
    places = range(len(rows))
    if incoming:
        costs = [[rows[start][to] for start in places if start != to and may_follow(start, to)] for to in places]
    else:
        costs = [[rows[start][to] for to in places if start != to and may_follow(start, to)] for start in places]
    return [min(one, default=0) for one in costs]


def travelling(rows: Rows) -> Tuple[Model, SetVar, ElementVar]:
    model = Model()
    places = len(rows)
    return model, model.add_set_var(places, range(1, places)), model.add_element_var(places, 0)


def visits(model: Model, todo: SetVar, at: ElementVar, travel: rg.IntTable, before: Sequence[Sequence[int]]) -> None:
    for place in range(1, len(before)):
        visit = Transition(cost=travel[at, place], preconditions=[todo.contains(place)])
        if before[place]:
            visit.add_precondition((model.create_set_const(todo.count, before[place]) & todo).is_empty())
        visit.add_effect(todo, todo.remove(place))
        visit.add_effect(at, place)
        model.add_transition(visit)


def orders(places: int, seed: int, bounded: bool = True) -> Model:
    random = Random(seed)
    rows = asymmetric(random, places, 1_000)
    before = precedences(random, range(1, places), 3)
    incoming = least(rows, True, lambda start, to: to not in before[start])
    model, todo, at = travelling(rows)
    travel = model.add_table(rows)
    entering = model.add_table(incoming) if bounded else None
    visits(model, todo, at, travel, before)
    model.add_base_case([todo.is_empty()])
    if entering is not None:
        model.add_dual_bound(entering[todo])
    return model


def sop(places: int, seed: int) -> Model:
    random = Random(seed)
    rows = asymmetric(random, places, 1_000)
    before = precedences(random, range(1, places - 1), 25)
    before += [[] for _ in range(places - len(before))]
    before[-1] = list(range(1, places - 1))
    model, todo, at = travelling(rows)
    travel = model.add_table(rows)
    entering = model.add_table(least(rows, True, lambda start, to: to not in before[start]))
    leaving = model.add_table(least(rows, False, lambda start, to: to != 0 and to not in before[start]))
    visits(model, todo, at, travel, before)
    model.add_base_case([todo.is_empty()])
    model.add_dual_bound(entering.sum(todo))
    model.add_dual_bound(leaving.sum(todo.add(at)))
    return model


def windows(random: Random, rows: Rows) -> List[Tuple[int, int]]:
    found = [(0, 2**31 - 1)] * len(rows)
    half = 6 * len(rows)
    time, start = 0, 0
    for visited in random.shuffled(len(rows) - 1):
        to = visited + 1
        time += rows[start][to]
        opening = time - random.between(0, half)
        found[to] = (max(opening, 0), time + random.between(0, half))
        start = to
    return found


def tsptw(places: int, seed: int) -> Model:
    random = Random(seed)
    rows = in_square(random, places, 50)
    open_at = windows(random, rows)
    model, todo, at = travelling(rows)
    time = model.add_int_var(0, less_is_better=True)
    travel = model.add_table(rows)
    entering = model.add_table(least(rows, True, lambda start, to: True))

    def in_time(to: int) -> Condition:
        return time + travel[at, to] <= open_at[to][1]

    for to in range(1, places):
        arrival = rg.max(time + travel[at, to], open_at[to][0])
        effects = [(todo, todo.remove(to)), (at, to), (time, arrival)]
        model.add_transition(
            Transition(cost=travel[at, to], preconditions=[todo.contains(to), in_time(to)], effects=effects)
        )
    home(model, todo, at, travel, [(time, time + travel[at, 0])])
    model.add_base_case([todo.is_empty(), at == 0])
    model.add_state_constr(rg.forall(~todo.contains(to) | in_time(to) for to in range(1, places)))
    model.add_dual_bound((todo.is_empty() & (at == 0)).if_then_else(0, entering.sum(todo.add(0))))
    return model


def home(model: Model, todo: SetVar, at: ElementVar, travel: rg.IntTable, more: Sequence[Tuple[IntVar, IntExpr]]) -> None:
    conditions = [todo.is_empty(), at != 0]
    model.add_transition(Transition(cost=travel[at, 0], preconditions=conditions, effects=[(at, 0), *more]))


def cvrp(places: int, seed: int) -> Model:
    random = Random(seed)
    rows = in_square(random, places, 100)
    demands = [random.between(10, 40) for _ in range(places)]
    vehicles = (sum(demands[1:]) + 99) // 100 + 1
    model, todo, at = travelling(rows)
    load = model.add_int_var(0, less_is_better=True)
    used = model.add_int_var(1, less_is_better=True)
    travel = model.add_table(rows)
    entering = model.add_table(least(rows, True, lambda start, to: True))
    for to in range(1, places):
        loaded = load + demands[to]
        goes = [(todo, todo.remove(to)), (at, to)]
        model.add_transition(
            Transition(
                cost=travel[at, to],
                preconditions=[todo.contains(to), loaded <= 100],
                effects=[*goes, (load, loaded)],
            )
        )
        model.add_transition(
            Transition(
                cost=travel[at, 0] + travel[0, to],
                preconditions=[todo.contains(to), used < vehicles],
                effects=[*goes, (load, demands[to]), (used, used + 1)],
            )
        )
    home(model, todo, at, travel, [])
    model.add_base_case([todo.is_empty(), at == 0])
    model.add_dual_bound((todo.is_empty() & (at == 0)).if_then_else(0, entering.sum(todo.add(0))))
    return model


# Packing.


def rounded_up(dividend: IntExpr, divisor: int) -> IntExpr:
    return 0 - (0 - dividend) // divisor


def halves(size: int, room: int) -> int:
    return 0 if 2 * size < room else 1 if 2 * size == room else 2


def sixths(size: int, room: int) -> int:
    if 3 * size > 2 * room:
        return 6
    if 3 * size == 2 * room:
        return 4
    return 3 if 3 * size > room else 2 if 3 * size == room else 0


class Packing:
    """Tables 0, 1, 2 of sizes and weights, and the bounds on what is still to be opened."""

    def __init__(self, model: Model, sizes: Sequence[int], room: int) -> None:
        self.model, self.sizes, self.room = model, sizes, room
        self.tables = [
            model.add_table(list(sizes)),
            model.add_table([halves(size, room) for size in sizes]),
            model.add_table([sixths(size, room) for size in sizes]),
        ]

    def bounds(self, todo: SetVar, left: IntVar) -> None:
        self.model.add_dual_bound(rounded_up(self.tables[0].sum(todo) - left, self.room))
        for table, whole, part in [(self.tables[1], 2, 2), (self.tables[2], 6, 3)]:
            roomy = self.room <= part * left
            self.model.add_dual_bound(rounded_up(table.sum(todo), whole) - roomy.if_then_else(1, 0))


def salbp(tasks: int, seed: int) -> Model:
    random = Random(seed)
    times = [random.between(5, 60) for _ in range(tasks)]
    before = precedences(random, range(tasks), 10)
    model = Model()
    todo = model.add_set_var(tasks, range(tasks))
    left = model.add_int_var(0, less_is_better=False)
    packing = Packing(model, times, 100)
    misfits = []
    for task in range(tasks):
        waiting = todo.contains(task)
        ready = (model.create_set_const(tasks, before[task]) & todo).is_empty()
        fits = times[task] <= left
        effects = [(todo, todo.remove(task)), (left, left - times[task])]
        model.add_transition(Transition(preconditions=[waiting, ready, fits], effects=effects))
        misfits.append(~(waiting & (ready & fits)))
    conditions = [~todo.is_empty(), rg.forall(misfits)]
    model.add_transition(Transition(cost=1, preconditions=conditions, effects=[(left, 100)]))
    model.add_base_case([todo.is_empty()])
    packing.bounds(todo, left)
    return model


def bin_packing(items: int, seed: int) -> Model:
    random = Random(seed)
    sizes = [random.between(10, 70) for _ in range(items)]
    model = Model()
    todo = model.add_set_var(items, range(items))
    left = model.add_int_var(0, less_is_better=False)
    bins = model.add_int_var(0, less_is_better=True)
    state = model.add_element_var(2, 0)
    packing = Packing(model, sizes, 100)
    begun, new = state == 0, state == 1

    def fits(item: int) -> Condition:
        return (sizes[item] <= left) & (bins <= item + 1)

    def packed(item: int) -> List[Tuple[object, object]]:
        return [(todo, todo.remove(item)), (left, left - sizes[item])]

    for item in range(items):
        model.add_transition(Transition(preconditions=[begun, todo.contains(item), fits(item)], effects=packed(item)))
    for item in range(items):
        first = (model.create_set_const(items, range(item)) & todo).is_empty()
        conditions = [new, todo.contains(item), first]
        model.add_transition(Transition(preconditions=conditions, effects=[*packed(item), (state, 0)]))
    misfits = (~(todo.contains(item) & fits(item)) for item in range(items))
    model.add_transition(
        Transition(
            cost=1,
            preconditions=[begun, ~todo.is_empty(), rg.forall(misfits)],
            effects=[(left, 100), (bins, bins + 1), (state, 1)],
        )
    )
    model.add_base_case([todo.is_empty()])
    packing.bounds(todo, left)
    return model


# Orders of other things.


def mosp(customers: int, seed: int) -> Model:
    random = Random(seed)
    near = [{node} for node in range(customers)]
    for second in range(customers):
        for first in range(second):
            if random.chance(20):
                near[first].add(second)
                near[second].add(first)
    model = Model("largest")
    waiting = model.add_set_var(customers, range(customers))
    opened = model.add_set_var(customers, [])
    for customer in range(customers):
        around = model.create_set_const(customers, sorted(near[customer]))
        still_open = (opened & waiting) | (around - opened)
        effects = [(waiting, waiting.remove(customer)), (opened, opened | around)]
        model.add_transition(
            Transition(cost=still_open.len(), preconditions=[waiting.contains(customer)], effects=effects)
        )
    model.add_base_case([waiting.is_empty()])
    return model


def graph_clear(nodes: int, seed: int) -> Model:
    random = Random(seed)
    edges = [[0] * nodes for _ in range(nodes)]
    for second in range(nodes):
        for first in range(second):
            if random.chance(30):
                edges[first][second] = edges[second][first] = random.between(1, 5)
    model = Model("largest")
    swept = model.add_set_var(nodes, [])
    robots = model.add_int_var(0)
    weights = model.add_table(edges)
    for node in range(nodes):
        around = sum(edges[node])
        to_swept = weights.sum(swept, node)
        own = random.between(1, 10) + around
        moved = around - 2 * to_swept
        effects = [(swept, swept.add(node)), (robots, robots + moved)]
        model.add_transition(
            Transition(cost=own + (robots - to_swept), preconditions=[~swept.contains(node)], effects=effects)
        )
    model.add_base_case([swept.complement().is_empty()])
    return model


def tardiness(jobs: int, seed: int) -> Model:
    random = Random(seed)
    times = [random.between(1, 100) for _ in range(jobs)]
    total = sum(times)
    model = Model()
    finished = model.add_set_var(jobs, [])
    table = model.add_table(times)
    for job in range(jobs):
        due = random.between(total // 5, total)
        late = rg.max(0, table.sum(finished) + (times[job] - due))
        cost = random.between(1, 10) * late
        effects = [(finished, finished.add(job))]
        model.add_transition(Transition(cost=cost, preconditions=[~finished.contains(job)], effects=effects))
    model.add_base_case([(~finished).is_empty()])
    return model


def talent(scenes: int, seed: int) -> Model:
    random = Random(seed)
    actors = []
    for _ in range(min(-(-scenes // 2), 16)):
        plays = [scene for scene in range(scenes) if random.chance(30)]
        actors.append((plays, random.between(1, 20)))
    model = Model()
    todo = model.add_set_var(scenes, range(scenes))
    come = model.add_set_var(len(actors), [])
    for scene in range(scenes):
        parts: List[rg.IntExpr] = [sum(pay for plays, pay in actors if scene in plays)]  # type: ignore[list-item]
        for number, (plays, pay) in enumerate(actors):
            if scene not in plays:
                needed = ~(model.create_set_const(scenes, plays) & todo).is_empty()
                parts.append((come.contains(number) & needed).if_then_else(pay, 0))
        playing = [number for number, (plays, _) in enumerate(actors) if scene in plays]
        effects = [
            (todo, todo.remove(scene)),
            (come, come | model.create_set_const(len(actors), playing)),
        ]
        cost = random.between(1, 5) * rg.sum(parts)
        model.add_transition(Transition(cost=cost, preconditions=[todo.contains(scene)], effects=effects))
    model.add_base_case([todo.is_empty()])
    return model


Literal = Tuple[int, bool]


def clause(random: Random, variables: int) -> List[Literal]:
    chosen: List[int] = []
    while len(chosen) < 3:
        one = random.below(variables)
        if one not in chosen:
            chosen.append(one)
    return [(variable, random.chance(50)) for variable in sorted(chosen)]


def max_sat(variables: int, seed: int) -> Model:
    random = Random(seed)
    clauses = [clause(random, variables) for _ in range(15 * variables)]
    model = Model()
    next_one = model.add_element_var(variables + 1, 0)
    true = model.add_set_var(variables, [])

    def both_false(first: Literal, second: Literal) -> IntExpr:
        (a, positive), (b, other) = first, second
        pair = model.create_set_const(variables, [a, b])
        if positive and other:
            unsatisfied = (pair & true).is_empty()
        elif not positive and not other:
            unsatisfied = pair.issubset(true)
        elif positive:
            unsatisfied = ~true.contains(a) & true.contains(b)
        else:
            unsatisfied = true.contains(a) & ~true.contains(b)
        return unsatisfied.if_then_else(1, 0)

    for variable in range(variables):
        for value in [False, True]:
            paid = [both_false(a, b) for a, b, (last, positive) in clauses if last == variable and positive != value]
            step = Transition(cost=rg.sum(paid), preconditions=[next_one == variable], effects=[(next_one, variable + 1)])
            if value:
                step.add_effect(true, true.add(variable))
            model.add_transition(step)
    model.add_base_case([next_one == variables])
    return model


FAMILIES: Dict[str, Callable[[int, int], Model]] = {
    "orders": orders,
    "orders-unbounded": lambda size, seed: orders(size, seed, False),
    "tsptw": tsptw,
    "cvrp": cvrp,
    "salbp-1": salbp,
    "bin-packing": bin_packing,
    "mosp": mosp,
    "graph-clear": graph_clear,
    "sop": sop,
    "weighted-tardiness": tardiness,
    "talent-scheduling": talent,
    "max-3-sat": max_sat,
}
