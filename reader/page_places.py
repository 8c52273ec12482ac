"""Where components stand in the first picture of a network, where its form is known: a grid by two index parameters, or a ring. It proves nothing."""
import collections

# the distance of two components of a grid, in points
ACROSS, DOWN, BESIDE = 190, 120, 56


def grid_cells(components):
    """Each component's (row, column, which of the names there) where all have two numbers as arguments; nothing else, or where two stand in one place."""
    if len(components) < 4 or not all(len(each.values) == 2 and all(isinstance(value, int) for value in each.values) for each in components):
        return None
    names = list(dict.fromkeys(each.name for each in components))
    cells = {part: (*each.values, names.index(each.name)) for part, each in enumerate(components)}
    rows, columns = {cell[0] for cell in cells.values()}, {cell[1] for cell in cells.values()}
    if len(names) > 3 or len(set(cells.values())) < len(cells) or len(rows) < 2 or len(columns) < 2:
        return None
    return cells


def grid_points(cells):
    """The points of the components in a grid, for Graphviz: rows go down, columns to the right."""
    names = 1 + max(cell[2] for cell in cells.values())
    across, down = ACROSS + 60 * (names - 1), DOWN + BESIDE * (names - 1)
    return {part: (column * across + 60 * which, -(row * down + BESIDE * which)) for part, (row, column, which) in cells.items()}


def is_ring(parts, links):
    """Whether each component has two neighbours, and all hang together."""
    near = collections.defaultdict(set)
    for one, other in links:
        near[one].add(other)
        near[other].add(one)
    if len(parts) < 3 or any(len(near[part]) != 2 for part in parts):
        return False
    before, at, seen = None, parts[0], 0
    while seen == 0 or at != parts[0]:
        before, at = at, next(other for other in sorted(near[at]) if other != before)
        seen += 1
    return seen == len(parts)
