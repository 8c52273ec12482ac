"""The states that are reached from a first one, the nearest first, each with a way to it. A state is a node of one component's table with something that watches
its own events, never a pair of two components' nodes: what is reached is no more than the table times that."""
import collections


class Reached:
    """What is reached by steps: `steps(state)` gives pairs of an event and a state. `find`, where it is given, ends the search at the first state that it holds of."""

    def __init__(self, first, steps, find=None):
        self.before, self.found = {first: None}, None
        todo = collections.deque(self.before)
        while todo:
            state = todo.popleft()
            if find and find(state):
                self.found = state
                return
            for event, to in steps(state):
                if to not in self.before:
                    self.before[to] = (state, event)
                    todo.append(to)

    def __iter__(self):
        return iter(self.before)

    def trace(self, state):
        """The events of a shortest way to a state."""
        events = []
        while self.before[state]:
            state, event = self.before[state]
            events.append(event)
        return events[::-1]
