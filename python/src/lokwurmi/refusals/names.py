"""What the names of a system file name, and what follows from who comes after whom."""
from __future__ import annotations

from collections.abc import Iterator, Mapping

from lokwurmi.files.documents import Table, activators


class Names:
    """What the names of entries name, where each entry has the form of one and the names of each set differ."""

    def __init__(self, entries: Mapping[str, list[Table]]):
        self.entries = entries
        self.resources = {it["name"]: it for it in self.entries["resource"]}
        self.sources = {it["name"] for it in self.entries["source"]}
        self.tasks: dict[str, int] = {}
        for at, it in enumerate(self.entries["task"]):
            self.tasks.setdefault(it["name"], at)

    def task(self, name: str) -> Table:
        return self.entries["task"][self.tasks[name]]

    def kind(self, task: Table) -> str:
        return str(self.resources[task["on"]]["kind"])

    def on(self, resource: str) -> Iterator[tuple[int, Table]]:
        """The tasks of a resource, each with its place."""
        return ((at, it) for at, it in enumerate(self.entries["task"]) if it["on"] == resource)

    def chains(self) -> dict[str, int]:
        """How many tasks the longest chain up to each task has. A task whose activators can be followed without end
        isn't among them."""
        found: dict[str, int | None] = {}
        for first in self.tasks:
            stack, under_way = [first], set()
            while stack:
                name = stack[-1]
                before = [it for it in activators(self.task(name)) if it in self.tasks]
                waiting = [it for it in before if it not in found and it not in under_way]
                if name not in found and waiting and name not in under_way:
                    under_way.add(name)
                    stack += waiting
                    continue
                stack.pop()
                if name not in found:
                    self.end_chain(name, before, found)
        return {name: length for name, length in found.items() if length is not None}

    def end_chain(self, name: str, before: list[str], found: dict[str, int | None]) -> None:
        # what is under way still is further up its own chain
        lengths = [length for it in before if (length := found.get(it)) is not None]
        found[name] = 1 + max(lengths, default=0) if len(lengths) == len(before) else None

    def ring(self, name: str) -> list[str]:
        """A ring of tasks to which activators lead from a task that has no end, each activated by the next."""
        chains, way = self.chains(), [name]
        while True:
            after = next(it for it in activators(self.task(way[-1])) if it in self.tasks and it not in chains)
            if after in way:
                return way[way.index(after) :]
            way.append(after)

    def longest_chain(self, name: str) -> list[str]:
        """The tasks of a longest chain up to a task, the first one first."""
        chains, way = self.chains(), [name]
        while chains[way[-1]] > 1:
            way.append(next(it for it in activators(self.task(way[-1])) if chains.get(it) == chains[way[-1]] - 1))
        return way[::-1]

    def streams(self) -> dict[str, int]:
        """How many streams come to each task, where no chain is without end."""
        found: dict[str, int] = {}
        chains = self.chains()
        for name in sorted(self.tasks, key=lambda it: chains[it]):
            found[name] = sum(found.get(it, 1) for it in activators(self.task(name)))
        return found

    def way(self, first: str, last: str) -> list[str] | None:
        """A shortest way of tasks from one to another that it leads to."""
        ways, left = {last: [last]}, [last]
        for name in left:
            if name == first:
                return ways[name]
            for it in activators(self.task(name)):
                if it in self.tasks and it not in ways:
                    ways[it] = [it, *ways[name]]
                    left.append(it)
        return None
