"""The farm, from its tables to the auditor's page.

A service engineer's van carries four logic boards, two power shelves, a clock module and a drawer of optical cables. Five designs
are to be loaded on three emulators. Which emulator gets the parts, and in what order the designs are loaded, is planned here: the
cheapest plan in engineer's hours, with an hour by which each is due.

    make farm                                       from the folder of the repository, or
    python3 examples/farm/farm.py farm.html         where the library and the program are installed

The cells below can be read from top to bottom, as in a notebook.
"""

# %% The package, from the repository or from where it is installed.

from __future__ import annotations

import csv
import sys
from pathlib import Path
from typing import Dict, List

FOLDER = Path(__file__).resolve().parent
sys.path.insert(0, str(FOLDER.parents[1] / "python"))

import repgypsum as rg  # noqa: E402 - behind the path

# %% The tables: what the van carries, what each design needs, room for boards, hours of reloading and of driving.


def table(name: str) -> Dict[str, Dict[str, int]]:
    """The rows of a table by their first column."""
    with open(FOLDER / name, newline="", encoding="utf-8") as file:
        rows = list(csv.reader(file))
    heads = rows[0][1:]
    return {row[0]: dict(zip(heads, map(int, row[1:]))) for row in rows[1:]}


van = {part: row["count"] for part, row in table("van.csv").items()}
designs = table("designs.csv")
reload_hours = table("reload.csv")
drive_hours = table("drive.csv")
slots = {emulator: row["slots"] for emulator, row in table("emulators.csv").items()}
emulators: List[str] = list(slots)

carried = f"{van['boards']} logic boards, {van['shelves']} power shelves, {van['clocks']} clock module, {van['cables']} cables"
print(f"The van carries {carried}.")
print(f"To be loaded: {', '.join(designs)}; on {', '.join(emulators)}.")

# %% The model: objects and variables.

model = rg.Model(name="farm")
site = model.add_object_type(objects=["yard", *emulators], name="site")
image = model.add_object_type(objects=["none", *designs], name="image")
holder = model.add_object_type(objects=["van", *(f"at_{emulator}" for emulator in emulators)], name="holder")

todo = model.add_set_var(image, list(designs), name="todo")
at = model.add_element_var(site, "yard", name="at")
clock = model.add_element_var(holder, "van", name="clock_module")
hours = model.add_int_var(0, name="hours", less_is_better=True)
loaded = {emulator: model.add_element_var(image, "none", name=f"on_{emulator}") for emulator in emulators}
parts = {
    part: {emulator: model.add_int_var(0, name=f"{part}_{emulator}") for emulator in emulators}
    for part in ["boards", "shelves", "cables"]
}

# %% Tables: driving and reloading by objects; the least reload of each design, whatever was there before.

drive = model.add_table(
    [[drive_hours[start].get(end, 0) for end in ["yard", *emulators]] for start in ["yard", *emulators]],
    name="drive_hours",
    object_types=[site, site],
)
swap = model.add_table(
    [[reload_hours[before].get(after, 0) for after in ["none", *designs]] for before in ["none", *designs]],
    name="reload_hours",
    object_types=[image, image],
)
least = model.add_table(
    [0, *(min(row[design] for before, row in reload_hours.items() if before != design) for design in designs)],
    name="least_reload",
    object_types=[image],
)

# %% Steps: a design is loaded on an emulator, with the parts that are missing there taken from the van.

FITTING = {"boards": 1, "shelves": 1}


def missing(part: str, emulator: str, needed: int) -> rg.IntExpr:
    return rg.max(0, needed - parts[part][emulator])


for design, needs in designs.items():
    for emulator in (one for one in emulators if needs["boards"] <= slots[one]):
        here = f"at_{emulator}"
        cost = drive[at, emulator] + swap[loaded[emulator], design]
        load = rg.Transition(f"load {design} {emulator}", preconditions=[todo.contains(design)])
        load.add_effect(todo, todo.remove(design))
        load.add_effect(at, emulator)
        load.add_effect(loaded[emulator], design)
        for part, stock in parts.items():
            taken = rg.sum(list(stock.values())) + missing(part, emulator, needs[part])
            load.add_precondition(taken <= van[part])
            load.add_effect(stock[emulator], rg.max(stock[emulator], needs[part]))
        for part, each in FITTING.items():
            cost = cost + each * missing(part, emulator, needs[part])
        # Four cables are drawn in an hour, and an hour begun counts.
        cost = cost + (missing("cables", emulator, needs["cables"]) + 3) // 4
        if needs["clocks"]:
            load.add_precondition((clock == "van") | (clock == here))
            load.add_effect(clock, here)
            cost = cost + (clock == "van").if_then_else(1, 0)
        load.add_precondition(hours + cost <= needs["due"])
        load.add_effect(hours, hours + cost)
        load.cost = cost
        model.add_transition(load)

# Parts go back to the van: an emulator is stripped, or the clock module is fetched.
for emulator in emulators:
    fitted = rg.sum([stock[emulator] for stock in parts.values()])
    cost = drive[at, emulator] + 2
    emptied = [(stock[emulator], 0) for stock in parts.values()]
    model.add_transition(
        rg.Transition(f"strip {emulator}", cost, [fitted > 0], [(at, emulator), *emptied, (hours, hours + cost)])
    )
for emulator in emulators:
    cost = drive[at, emulator] + 1
    back = [(at, emulator), (clock, "van"), (hours, hours + cost)]
    model.add_transition(rg.Transition(f"fetch clock {emulator}", cost, [clock == f"at_{emulator}"], back))

# %% The end; no design still to do may be late already; and what is declared: every design takes its least reload at least.

model.add_base_case([todo.is_empty()])
in_time = (~todo.contains(design) | (hours <= needs["due"]) for design, needs in designs.items())
model.add_state_constr(rg.forall(in_time))
model.add_dual_bound(least.sum(todo))

print(f"The model: {len(model.variables)} variables, {len(model.transitions)} transitions, {len(model.to_bytes())} bytes.")

# %% The plan, by the proved search; the plan check again; the states step by step.

WIDTH = 4096
answer = model.plan(width=WIDTH)
print(f"\n{answer.name}: cost {answer.cost}, bound {answer.bound}, {answer.expansions} expansions.")
for step in answer.steps:
    print(f"  {step.state['hours']:>3} h  {step.name}")
checked = model.check(answer.plan)
print(f"Plan check: {checked.name}, cost {checked.cost}.")

# %% Are the declarations true? By the command line, as far as can be seen.

declarations = model.declarations()
print(f"\nLooked at {declarations.states} states, {'all that can be reached' if declarations.enumerated else 'a sample'}.")
print(f"The bound: {declarations.bounds[0]}. The preference: {declarations.preferences}.")

# %% The auditor's page: lanes are the sites, the clock is the engineer's.

out = sys.argv[1] if len(sys.argv) > 1 else "farm.html"
model.page(out, lane=at, clock=hours, width=WIDTH)
print(f"\nThe auditor's page is {out}.")
