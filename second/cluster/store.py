"""A store in memory, any call of which may fail."""

from collections.abc import Callable
from dataclasses import dataclass, field, replace

from .record import Node
from .refusal import Refused, Why


class Faults:
    """Counts the store calls of a device, from 1, and tells which of them fail."""

    def __init__(self, is_due: Callable[[int], bool] = lambda number: False):
        self.is_due = is_due
        self.calls = 0
        self.calls_of_step = 0
        self.failing: int | None = None

    def begin_step(self, failing: int | None) -> None:
        """Begins a step, whose store call of this place, from 1, fails."""
        self.calls_of_step = 0
        self.failing = failing

    def count(self) -> None:
        """Counts a call, and refuses it where it is one that fails."""
        self.calls += 1
        self.calls_of_step += 1
        if self.calls_of_step == self.failing or self.is_due(self.calls):
            raise Refused(Why.StoreFault)


@dataclass
class Store:
    """Nodes by name; a call that fails changes nothing."""

    faults: Faults = field(compare=False)
    nodes: dict[str, Node] = field(default_factory=dict)

    def read(self, name: str) -> Node | None:
        """The node of that name, if there is one."""
        self.faults.count()
        return self.nodes.get(name)

    def write(self, name: str, node: Node) -> None:
        """Puts a node under the name, in place of any other."""
        self.faults.count()
        self.nodes[name] = node

    def set_time(self, name: str, node_time: tuple[int, int]) -> None:
        """Sets the time of the node of that name."""
        self.faults.count()
        seconds, nanoseconds = node_time
        self.nodes[name] = replace(self.nodes[name], modified_s=seconds, modified_ns=nanoseconds)

    def remove(self, name: str) -> None:
        """Takes the node of that name away."""
        self.faults.count()
        del self.nodes[name]
