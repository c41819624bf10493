"""Which calls the two programs can reach, for tools/contracts.py: by the names in the code, so more than are, never fewer."""
import functools
import re

from contracts_code import TOP, crate

PROGRAMS = ["toll_office", "toll_serve"]


def names():
    return sorted(it.name for it in (TOP / "crates").iterdir() if (it / "src").is_dir())


@functools.cache
def tokens(text):
    return frozenset(re.findall(r"\w+", text))


@functools.cache
def reached():
    """The calls that are reached from the programs' `main`s, each as its crate, its full name and its line."""
    every = {name: crate(name) for name in names()}
    things = {(name, it) for name in every for it in every[name].things}
    homes = {}
    for name, it in sorted(things):
        homes.setdefault(it, []).append(name)

    @functools.cache
    def home(name, path, token):
        """The crate in which a name of a file stands, and its name there."""
        said = every[name].files[path].uses.get(token, "")
        first, real = said.split("::")[0], said.split("::")[-1]
        where, real = (first, real) if first in every else (name, real if said.startswith("crate") else token)
        if (where, real) not in things and real in homes and (where, real) not in calls:
            where = homes[real][0]
        return where, real

    calls, methods, owned = {}, {}, {}
    for name, it in every.items():
        for call in it.calls:
            calls.setdefault((name, call.full), []).append((name, call))
    for name, it in every.items():
        for call in filter(lambda it: it.owner, it.calls):
            owner = home(name, call.path, call.owner)
            methods.setdefault(call.name, []).append((owner, name, call))
            owned.setdefault(owner, []).append((name, call))
    done_calls, done_things, said = set(), set(), set()
    waiting = [(name, call) for name in PROGRAMS for call in every[name].calls if call.name == "main" and not call.owner]

    def look(name, path, text):
        for token in tokens(text):
            it = home(name, path, token)
            if it in things and it not in done_things:
                done_things.add(it)
                thing = every[it[0]].things[it[1]]
                look(it[0], thing.path, thing.body)
                waiting.extend((where, call) for where, call in owned.get(it, [])
                               if call.name in said or call.trait and call.trait not in homes)
            waiting.extend(calls.get(it, []))
        for module, real in re.findall(r"\b(\w+)::(?:\w+::)*(\w+)", text):
            where = every[name].files[path].uses.get(module, module).split("::")[0]
            waiting.extend(calls.get((where, real), []))

    while waiting:
        name, call = waiting.pop()
        if id(call) in done_calls:
            continue
        done_calls.add(id(call))
        look(name, call.path, f"{call.head} {call.body} {call.owner}")
        for token in set(re.findall(r"(?:\.|::)\s*(\w+)", call.body)) - said:
            said.add(token)
            # (a type of the kit is nowhere in the crates)
            waiting.extend((where, it) for owner, where, it in methods.get(token, []) if owner in done_things or owner not in things)
    return {(name, call.full, call.line) for name, it in every.items() for call in it.calls if id(call) in done_calls}
