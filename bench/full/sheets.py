"""Sheets of full size: 16 items, 32 members, 128 holdings, 64 offers, 256 lines, the same for the same number."""
import random

ITEMS, MEMBERS, HOLDINGS, OFFERS, LINES = 16, 32, 128, 64, 256


def holdings_of(rng):
    """Four different items for each member; every fourth member has a cash holding among them."""
    held = []
    for member in range(MEMBERS):
        items = rng.sample(range(1, ITEMS), 4)
        if member % 4 == 0:
            items[0] = 0
        held += [(member, item, rng.randint(0, 1000)) for item in items]
    return held


def side(rng, items, worths, low, high):
    """A line for each item, at a price between two shares of what a unit is thought to be worth."""
    lines = []
    for item in items:
        price = 0 if item == 0 else int(worths[item] * rng.uniform(low, high))
        lines.append((item, rng.randint(1, 1000), price))
    return lines


def offer_of(rng, member, own, worths):
    """An offer with four lines in all. It gives what its member holds, or cash, and gets something else."""
    gives = rng.randint(1, 3)
    give_from = [item for item in own if item != 0]
    give_items = rng.sample(give_from + [0], min(gives, len(give_from)))
    others = [item for item in range(ITEMS) if item not in give_items and (item != 0 or 0 not in give_items)]
    get_items = rng.sample(others, 4 - len(give_items))
    give = side(rng, give_items, worths, 0.6, 1.1)
    get = side(rng, get_items, worths, 0.9, 1.5)
    return member, rng.randint(1, 1000), give, get


def sheet(number, parts):
    """The text of a sheet by a kind with one part, money, or with two, money then weeks."""
    rng = random.Random(number)
    worths = [0] + [rng.randint(1_000, 500_000) for _ in range(ITEMS - 1)]
    held = holdings_of(rng)
    rows = [f"K {parts}", "money"] + ["weeks"] * (parts - 1)
    rows += [f"I {ITEMS}", "cash"] + [f"basin-{i}" for i in range(1, ITEMS)]
    rows += [f"M {MEMBERS}"] + [f"harbour-{m}" for m in range(MEMBERS)]
    rows += [f"H {HOLDINGS}"] + ["%d %d %d" % h for h in held]
    rows.append(f"O {OFFERS}")
    for k in range(OFFERS):
        member = k % MEMBERS
        own = [item for m, item, _ in held if m == member]
        member, limit, give, get = offer_of(rng, member, own, worths)
        rows.append(f"{member} {limit} {len(give)} {len(get)}")
        rows += ["%d %d %d 0" % line for line in give + get]
    rows.append("L 0")
    return "\n".join(rows) + "\n"
