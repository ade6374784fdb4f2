"""Samples that are drawn: which changes of a capture come together, in which order they are written, and their moments."""

from .captures import MOST_IN_A_SAMPLE
from .moments import GREATEST

SIZES = [1, 2, 2, 3, 3, 4, 4, 6, 8, MOST_IN_A_SAMPLE, MOST_IN_A_SAMPLE + 1]


class Samples:
    """The samples of some changes, the words of `probe` that make just these of their moments, and the places of the changes in the
    order in which they are written."""

    def __init__(self, draw, kinds):
        skew = draw.choice([None, None, None, None, None, 0, 0, 1, 2, GREATEST])
        self.words, self.sizes = words_drawn(draw, skew), sizes_drawn(draw, len(kinds), skew)
        self.order = places_drawn(draw, self.sizes, kinds)
        moments = moments_drawn(draw, len(kinds)) if skew is None else moments_of_samples(draw, self.sizes, skew)
        self.moments = from_any(draw, moments)

    def has_too_many(self):
        """Whether a sample has more changes than it may have."""
        return any(size > MOST_IN_A_SAMPLE for size in self.sizes)


def words_drawn(draw, skew):
    """The words that say how much later a change of the same sample may be than the one before it; none if each is alone."""
    return [] if skew is None else draw.choice([["--skew", str(skew)], [f"--skew={skew}"], [f"--skew=+0{skew}"]])


def sizes_drawn(draw, count, skew):
    """How many changes each sample has, now and then more than it may have; with the greatest skew there is one, of the first."""
    if skew == GREATEST:
        return [min(count, draw.randint(6, MOST_IN_A_SAMPLE + 1))]
    sizes, most = [], 1 if skew is None else draw.choice(SIZES)
    while count:
        sizes.append(min(count, draw.randint(1, most)))
        count -= sizes[-1]
    return sizes


def places_drawn(draw, sizes, kinds):
    """The places of the changes, those of each sample in any order that keeps the order of each line and pin."""
    order = []
    for size in sizes:
        places, waiting = range(len(order), len(order) + size), {}
        for place in places:
            waiting.setdefault(kinds[place].of, []).append(place)
        order += [waiting[kinds[it].of].pop(0) for it in draw.sample(places, size)]
    return order


def moments_drawn(draw, count):
    """The moments of some changes that are judged one by one."""
    step, moment, moments = draw.choice([0, 1, 1, 40]), 0, []
    for _ in range(count):
        moments.append(moment)
        moment += draw.choice([0, 1, step, 2 * step])
    return moments


def moments_of_samples(draw, sizes, skew):
    """The moments of samples: a step of at most the skew within one, and a greater step between two."""
    steps, moment, moments = [0, 1, 100] if skew == GREATEST else [0, skew], 0, []
    for size in sizes:
        moment += skew + draw.choice([1, 1, 2, 100]) if moments else 0
        for place in range(size):
            moment += draw.choice(steps) if place else 0
            moments.append(moment)
    return moments


def from_any(draw, moments):
    """The same moments later, by as much as there is room for."""
    most = GREATEST - max(moments, default=0)
    first = draw.choice([0, 0, 1, draw.randrange(10_000), most])
    return [first + it for it in moments]
