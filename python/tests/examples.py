"""The examples of the folder examples/, built by operators."""

from __future__ import annotations

import csv
from typing import Callable, Dict, List

import repgypsum as rg
from repgypsum import Condition, Model, Transition

from .surroundings import ROOT


def three_designs() -> Model:
    model = Model(name="three-designs")
    design = model.add_object_type(objects=["none", "a", "b", "c"], name="design")
    todo = model.add_set_var(design, ["a", "b", "c"], name="todo")
    at = model.add_element_var(design, "none", name="at")
    rows = [[0, 2, 5, 4], [0, 0, 3, 6], [0, 3, 0, 2], [0, 6, 2, 0]]
    hours = model.add_table(rows, name="hours", object_types=[design, design])
    for d in ["a", "b", "c"]:
        load = Transition(
            f"load {d}",
            cost=hours[at, d],
            preconditions=[todo.contains(d)],
            effects=[(todo, todo.remove(d)), (at, d)],
        )
        model.add_transition(load)
    model.add_base_case([todo.is_empty()])
    return model


def loading_order() -> Model:
    model = Model(name="loading-order")
    designs = ["none", "dma", "firmware", "gpu", "npu", "pcie", "usb"]
    design = model.add_object_type(objects=designs, name="design")
    todo = model.add_set_var(design, range(1, 7), name="todo")
    at = model.add_element_var(design, "none", name="at")
    rows = [
        [0, 2, 3, 6, 5, 4, 3],
        [0, 0, 2, 5, 6, 3, 4],
        [0, 4, 0, 3, 2, 5, 6],
        [0, 5, 3, 0, 2, 6, 4],
        [0, 6, 4, 3, 0, 2, 5],
        [0, 3, 5, 6, 4, 0, 2],
        [0, 2, 4, 5, 6, 3, 0],
    ]
    hours = model.add_table(rows, name="hours", object_types=[design, design])
    least = model.add_table([0, 2, 2, 3, 2, 2, 2], name="least", object_types=[design])
    for d in ["dma", "firmware", "pcie", "usb", "gpu", "npu"]:
        conditions = [todo.contains(d)]
        if d in ("gpu", "npu"):
            conditions.append(~todo.contains("firmware"))
        effects = [(todo, todo.remove(d)), (at, d)]
        model.add_transition(Transition(f"load {d}", cost=hours[at, d], preconditions=conditions, effects=effects))
    model.add_base_case([todo.is_empty()])
    model.add_state_constr(~(todo.contains("usb") & (at == "pcie")))
    model.add_dual_bound(least[todo])
    return model


def assembly_line() -> Model:
    model = Model(name="assembly-line")
    task = model.add_object_type(objects=["frame", "wiring", "shelf", "boards", "clock", "test"], name="task")
    todo = model.add_set_var(task, range(6), name="todo")
    left = model.add_int_var(0, name="left", less_is_better=False)
    minutes = model.add_table([4, 6, 3, 5, 2, 5], name="minutes", object_types=[task])
    halves = model.add_table([0, 2, 0, 1, 0, 1], name="halves", object_types=[task])
    before: Dict[str, List[str]] = {
        "frame": [],
        "wiring": ["frame"],
        "shelf": ["frame"],
        "boards": ["wiring", "shelf"],
        "clock": ["shelf"],
        "test": ["boards", "clock"],
    }
    fits: List[Condition] = []
    for name, earlier in before.items():
        conditions = [todo.contains(name)]
        if earlier:
            conditions.append((model.create_set_const(task, earlier) & todo).is_empty())
        conditions.append(minutes[name] <= left)
        effects = [(todo, todo.remove(name)), (left, left - minutes[name])]
        model.add_transition(Transition(name, preconditions=conditions, effects=effects))
        together = conditions[0]
        for one in conditions[1:]:
            together = together & one
        fits.append(together)
    model.add_transition(Transition("open station", cost=1, preconditions=[~one for one in fits], effects=[(left, 10)]))
    model.add_base_case([todo.is_empty()])
    model.add_dual_bound(0 - (left - minutes[todo]) // 10)
    model.add_dual_bound(0 - (0 - halves.sum(todo)) // 2 - (5 <= left).if_then_else(1, 0))
    return model


def open_stacks() -> Model:
    model = Model("largest", name="open-stacks")
    customer = model.add_object_type(objects=["ada", "bob", "cleo", "dan", "eve"], name="customer")
    waiting = model.add_set_var(customer, range(5), name="waiting")
    opened = model.add_set_var(customer, [], name="opened")
    sharing = {
        "ada": ["ada", "bob"],
        "bob": ["ada", "bob", "cleo", "dan"],
        "cleo": ["bob", "cleo", "eve"],
        "dan": ["bob", "dan", "eve"],
        "eve": ["cleo", "dan", "eve"],
    }
    for name, others in sharing.items():
        near = model.create_set_const(customer, others)
        close = Transition(f"close {name}", cost=((opened & waiting) | (near - opened)).len())
        close.add_precondition(waiting.contains(name))
        close.add_effect(waiting, waiting.remove(name))
        close.add_effect(opened, opened | near)
        model.add_transition(close)
    model.add_base_case([waiting.is_empty()])
    return model


def sop() -> Model:
    model = Model(name="sop")
    job = model.add_object_type(objects=["start", "j1", "j2", "j3", "last"], name="job")
    todo = model.add_set_var(job, ["j1", "j2", "j3", "last"], name="todo")
    at = model.add_element_var(job, "start", name="at")
    rows = [[0, 1, 3, 2, 999], [-1, 0, 3, 1, 2], [-1, 4, 0, -1, 2], [-1, 2, 2, 0, 1], [-1, -1, -1, -1, 0]]
    setup = model.add_table(rows, name="setup", object_types=[job, job])
    incoming = model.add_table([0, 1, 2, 1, 1], name="incoming", object_types=[job])
    before = {"j1": ["start"], "j2": ["start", "j3"], "j3": ["start"], "last": ["start", "j1", "j2", "j3"]}
    for name, earlier in before.items():
        model.add_transition(
            Transition(
                f"do {name}",
                cost=setup[at, name],
                preconditions=[todo.contains(name), (model.create_set_const(job, earlier) & todo).is_empty()],
                effects=[(todo, todo.remove(name)), (at, name)],
            )
        )
    model.add_base_case([todo.is_empty()])
    model.add_dual_bound(incoming[todo])
    return model


def tardiness() -> Model:
    model = Model(name="tardiness")
    names = ["cores", "caches", "links", "clocks", "pads"]
    job = model.add_object_type(objects=names, name="job")
    finished = model.add_set_var(job, [], name="finished")
    hours = model.add_table([4, 3, 6, 2, 5], name="hours", object_types=[job])
    due = model.add_table([6, 5, 14, 9, 12], name="due", object_types=[job])
    weight = model.add_table([2, 3, 1, 2, 4], name="weight", object_types=[job])
    for name in names:
        late = rg.max(0, hours.sum(finished) + hours[name] - due[name])
        model.add_transition(
            Transition(
                f"run {name}",
                cost=weight[name] * late,
                preconditions=[~finished.contains(name)],
                effects=[(finished, finished.add(name))],
            )
        )
    model.add_base_case([(~finished).is_empty()])
    return model


def tsptw() -> Model:
    model = Model(name="tsptw")
    place = model.add_object_type(objects=["home", "p1", "p2", "p3"], name="place")
    todo = model.add_set_var(place, ["p1", "p2", "p3"], name="todo")
    at = model.add_element_var(place, "home", name="at")
    time = model.add_int_resource_var(0, less_is_better=True, name="time")
    rows = [[0, 3, 4, 5], [3, 0, 5, 4], [4, 5, 0, 3], [5, 4, 3, 0]]
    travel = model.add_int_table(rows, name="travel", object_types=[place, place])
    windows = {"p1": (5, 16), "p2": (0, 10), "p3": (8, 14)}
    for name, (opening, closing) in windows.items():
        arrival = time + travel[at, name]
        model.add_transition(
            Transition(
                f"visit {name}",
                cost=travel[at, name],
                preconditions=[todo.contains(name), arrival <= closing],
                effects=[(todo, todo.remove(name)), (at, name), (time, rg.max(arrival, opening))],
            )
        )
    home = Transition("return", cost=travel[at, "home"], preconditions=[todo.is_empty(), at != "home"])
    home.add_effect(at, "home")
    home.add_effect(time, time + travel[at, "home"])
    model.add_transition(home)
    model.add_base_case([todo.is_empty(), at == "home"])
    reachable = (~todo.contains(name) | (time + travel[at, name] <= closing) for name, (_, closing) in windows.items())
    model.add_state_constr(rg.forall(reachable))
    return model


def tour() -> Model:
    """examples/tsptw-20: twenty places, their numbers in files."""
    places, lengths = rows("places.csv"), rows("travel.csv")
    names = list(lengths)
    model = Model(name="tour")
    place = model.add_object_type(objects=names, name="place")
    todo = model.add_set_var(place, names[1:], name="todo")
    at = model.add_element_var(place, "home", name="at")
    time = model.add_int_var(0, name="time", less_is_better=True)
    square = [[lengths[start][end] for end in names] for start in names]
    travel = model.add_table(square, name="travel", object_types=[place, place])
    nearest = model.add_table([places[name]["nearest"] for name in names], name="nearest", object_types=[place])

    def in_time(name: str) -> Condition:
        return time + travel[at, name] <= places[name]["closing"]

    for name in names[1:]:
        visit = Transition(f"visit {name}", travel[at, name], [todo.contains(name), in_time(name)])
        visit.add_effect(todo, todo.remove(name))
        visit.add_effect(at, name)
        visit.add_effect(time, rg.max(time + travel[at, name], places[name]["opening"]))
        model.add_transition(visit)
    model.add_transition(
        Transition(
            "return",
            travel[at, "home"],
            [todo.is_empty(), at != "home"],
            [(at, "home"), (time, time + travel[at, "home"])],
        )
    )
    model.add_base_case([todo.is_empty(), at == "home"])
    model.add_state_constr(rg.forall(~todo.contains(name) | in_time(name) for name in names[1:]))
    model.add_dual_bound((todo.is_empty() & (at == "home")).if_then_else(0, nearest[todo.add("home")]))
    return model


def rows(name: str) -> Dict[str, Dict[str, int]]:
    """A file of the tour by the names of its rows and columns."""
    with open(ROOT / "examples" / "tsptw-20" / name, newline="", encoding="utf-8") as file:
        lines = list(csv.reader(file))
    return {line[0]: dict(zip(lines[0][1:], map(int, line[1:]))) for line in lines[1:]}


def reload_hours() -> Model:
    model = Model(name="reload-hours")
    design = model.add_object_type(objects=["none", "cpu", "ddr", "gpu", "npu"], name="design")
    todo = model.add_set_var(design, range(1, 5), name="todo")
    at = model.add_element_var(design, "none", name="at")
    rows = [[0, 6, 5, 2, 4], [0, 0, 2, 3, 4], [0, 4, 0, 4, 6], [0, 3, 3, 0, 3], [0, 5, 3, 2, 0]]
    hours = model.add_table(rows, name="hours", object_types=[design, design])
    rows = [[0, 3, 6, 6, 3], [0, 0, 6, 6, 0], [0, 3, 0, 0, 3], [0, 3, 0, 0, 3], [0, 0, 6, 6, 0]]
    drawer = model.add_table(rows, name="drawer", object_types=[design, design])
    least = model.add_table([0, 3, 2, 2, 3], name="least", object_types=[design])
    for d in ["cpu", "ddr", "gpu", "npu"]:
        load = Transition(
            f"load {d}",
            cost=hours[at, d],
            high=hours[at, d] + drawer[at, d],
            preconditions=[todo.contains(d)],
            effects=[(todo, todo.remove(d)), (at, d)],
        )
        model.add_transition(load)
    model.add_base_case([todo.is_empty()])
    model.add_dual_bound(least[todo])
    return model


EXAMPLES: Dict[str, Callable[[], Model]] = {
    "assembly-line": assembly_line,
    "loading-order": loading_order,
    "open-stacks": open_stacks,
    "reload-hours": reload_hours,
    "sop": sop,
    "tardiness": tardiness,
    "three-designs": three_designs,
    "tsptw": tsptw,
}
