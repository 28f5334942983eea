"""The network of a sheet: its arcs as (from, to, capacity, price, weeks), and how many nodes it has."""


def words(rows):
    return [int(word) for word in next(rows).split()]


def count(rows):
    return int(next(rows)[2:])


def arcs_of(text):
    rows = iter(text.split("\n"))
    parts = count(rows)
    for _ in range(parts):
        next(rows)
    items = count(rows)
    for _ in range(items):
        next(rows)
    for _ in range(count(rows)):
        next(rows)
    arcs, spots = [], {}
    for k in range(count(rows)):
        member, item, units = words(rows)
        spots[member, item] = items + k
        arcs.append((item, items + k, units, 0, 0))
    node = items + len(spots)
    for _ in range(count(rows)):
        member, limit, gives, gets = words(rows)
        for _ in range(gives):
            item, most, price, _ = words(rows)
            spot = spots.get((member, item))
            capacity = most if spot is not None or item == 0 else 0
            arcs.append((item if spot is None else spot, node, capacity, -price, 0))
        arcs.append((node, node + 1, limit, 0, 0))
        for _ in range(gets):
            item, most, price, _ = words(rows)
            arcs.append((node + 1, item, most, price, int(item != 0)))
        node += 2
    return parts, node, arcs
