"""Growing in every order.

The nodes that one unit enters may be numbered in any order, and the lowest
unopened node is opened next. So the counts in use when growing stops on the way
(budget spent, or tables full) may depend on that order. Only cases whose
outcome is the same for every order can be compared between two implementations;
this file tells which these are.

The nodes fall into levels: the first nodes, then those first entered by opening
a node of the level before. A whole level is opened before the next. Within a
level every order is tried (a few more than can really come about, which does no
harm: a case is then left out without need). Nodes of a level with equal
successors need not be told apart.
"""

MOST_WAYS = 3000


class Levels:
    """A goal's graph, made once, with successors remembered."""

    def __init__(self, graph):
        self.graph = graph
        self.first = frozenset(graph.first_nodes())
        self.known = {}

    def successors(self, node):
        if node not in self.known:
            self.known[node] = frozenset(self.graph.successors(node))
        return self.known[node]


class Undetermined(Exception):
    """The outcome depends on the order, or there are too many ways to tell."""


def grown(levels, node_places, edge_places, budgets):
    """For each budget (units, report, nodes, edges), the same for every order."""
    node_places = min(node_places, 4096)
    edge_places = min(edge_places, 65536)
    reports = []
    entered = None          # nodes of the finished levels and of the present one
    finished_edges = 0      # edges of the finished levels
    level = None            # classes of the present level: list of (successors, size)
    ways = None             # how many nodes of each class are opened, in each possible way

    def nodes_of(way):
        nodes = set(entered)
        for (successors, _size), opened in zip(level, way):
            if opened:
                nodes |= successors
        return nodes

    def edges_of(way):
        return finished_edges + sum(len(successors) * opened
                                    for (successors, _size), opened in zip(level, way))

    def fits(way):
        return len(nodes_of(way)) <= node_places and edges_of(way) <= edge_places

    def begin(nodes):
        classes = {}
        for node in nodes:
            successors = levels.successors(node)
            classes[successors] = classes.get(successors, 0) + 1
        return list(classes.items())

    def more_by_one(way):
        """The ways to open one node more."""
        return [way[:i] + (opened + 1,) + way[i + 1:]
                for i, opened in enumerate(way) if opened < level[i][1]]

    def count(way):
        return len(nodes_of(way)), edges_of(way)

    for budget in budgets:
        units = 0
        while True:
            if entered is not None and not level:
                report = 'complete'
                break
            if units == budget:
                report = 'more'
                break
            if entered is None:
                if len(levels.first) > node_places:
                    report = 'full'
                    break
                entered = set(levels.first)
                level = begin(entered)
                ways = {tuple(0 for _ in level)}
                units += 1
                continue
            whole = tuple(size for _successors, size in level)
            left = sum(whole) - sum(next(iter(ways)))
            if left <= budget - units and fits(whole):
                # then every way through the rest of the level fits too
                ways = {whole}
                units += left
            else:
                onward = {later for way in ways for later in more_by_one(way)}
                fitting = {later for later in onward if fits(later)}
                if not fitting:
                    report = 'full'
                    break
                if len(fitting) < len(onward) or len(onward) > MOST_WAYS:
                    raise Undetermined()
                ways = onward
                units += 1
            if ways == {whole}:
                # the level is opened: go to the next
                reached = nodes_of(whole)
                finished_edges = edges_of(whole)
                level = begin(reached - entered)
                entered = reached
                ways = {tuple(0 for _ in level)}
        if entered is None:
            counts = {(0, 0)}
        else:
            counts = {count(way) for way in ways}
        if len(counts) > 1:
            raise Undetermined()
        reports.append((units, report, *counts.pop()))
    return reports


def is_sure(levels, node_places, edge_places, budgets):
    try:
        grown(levels, node_places, edge_places, budgets)
        return True
    except Undetermined:
        return False
