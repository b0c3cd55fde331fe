"""Which sizes still pack with some items, and the relaxed game: what tools/explain looks up beside a rejected `replies`.

A search each, for people; it gives up (TooMuch) where there are too many ways. `stretch check` decides.
"""

from functools import lru_cache

MOST_WAYS = 300_000


class TooMuch(Exception):
    """Too many ways to look at."""


def packable(items, bins, capacity, budget=None):
    """Whether items fit into bins of a capacity."""
    budget = budget if budget is not None else [MOST_WAYS]
    if sum(items) > bins * capacity or any(item > capacity for item in items):
        return False
    items = sorted(items, reverse=True)
    failed = set()

    def fits(place, rooms):
        budget[0] -= 1
        if budget[0] < 0:
            raise TooMuch
        if place == len(items):
            return True
        if (place, rooms) in failed:
            return False
        for at, room in enumerate(rooms):
            if room >= items[place] and (at == 0 or rooms[at - 1] != room):
                if fits(place + 1, tuple(sorted(rooms[:at] + (room - items[place],) + rooms[at + 1:]))):
                    return True
        failed.add((place, rooms))
        return False

    return fits(0, (capacity,) * bins)


def greatest(items, bins, capacity, copies, most):
    """The greatest size up to a number of which so many pack with the items; 0 where there is none."""
    return next((size for size in range(most, 0, -1) if packable(items + [size] * copies, bins, capacity)), 0)


def greatest_room(items, game):
    return greatest(items, game[0], game[1], 1, game[1])


class Relaxed:
    """The relaxed game of a game: no packing, but how large items may be, and how many large ones."""

    def __init__(self, game):
        self.bins, self.capacity, self.target = game
        self.budget = MOST_WAYS
        self.holds = lru_cache(None)(self.look)

    def bounds(self, items):
        """The greatest size of which one, and two more items pack; and how many above half the capacity."""
        room = greatest(items, self.bins, self.capacity, 1, self.capacity)
        twice = greatest(items, self.bins, self.capacity, 2, room)
        half = self.capacity // 2 + 1
        large = next(n for n in range(self.bins, -1, -1) if n == 0 or packable(items + [half] * n, self.bins, self.capacity))
        return room, twice, large

    def after(self, loads, size):
        """The loads that a size makes, the greatest load first."""
        for load in sorted(set(loads), reverse=True):
            if load + size < self.target:
                left = list(loads)
                left.remove(load)
                yield load, tuple(sorted(left + [load + size], reverse=True))

    def passed_on(self, size, one, two, large):
        return (two if size > two else one), two, large - (2 * size > self.capacity)

    def look(self, loads, one, two, large):
        self.budget -= 1
        if self.budget < 0:
            raise TooMuch
        left = self.bins * self.capacity - sum(loads)
        return all(any(self.holds(after, *self.passed_on(size, one, two, large)) for _, after in self.after(loads, size))
                   for size in range(min(one, left), 0, -1) if large >= 1 or 2 * size <= self.capacity)

    def load_for(self, loads, items, size):
        """The greatest load on which a size may go so that the relaxed game holds; None where there is none."""
        bounds = self.bounds(items + [size])
        return next((load for load, after in self.after(loads, size) if self.holds(after, *bounds)), None)
