"""A network as a linear program in the notation that glpsol reads."""


def terms(pairs):
    return " ".join(f"{'+' if c >= 0 else '-'} {abs(c)} x{i}" for i, c in pairs)


def lines(head, pairs, tail=""):
    """Long rows are broken, since a line may have 255 characters only."""
    text = [head]
    for k in range(0, len(pairs), 8):
        text.append("  " + terms(pairs[k:k + 8]))
    return "\n".join(text) + tail + "\n"


def program(nodes, arcs, goal, least_money=None):
    """Most money, or with `goal` 4 most weeks among those with so much money."""
    text = lines("Maximize\n goal:", [(i, a[goal]) for i, a in enumerate(arcs) if a[goal]] or [(0, 0)]) + "Subject To\n"
    rows = [[] for _ in range(nodes)]
    for i, (start, end, _, _, _) in enumerate(arcs):
        if start != end:
            rows[end].append((i, 1))
            rows[start].append((i, -1))
    for node, row in enumerate(rows):
        if row:
            text += lines(f" n{node}:", row, " = 0")
    if least_money is not None:
        text += lines(" money:", [(i, a[3]) for i, a in enumerate(arcs) if a[3]], f" >= {least_money}")
    text += "Bounds\n" + "".join(f" 0 <= x{i} <= {a[2]}\n" for i, a in enumerate(arcs)) + "End\n"
    return text
