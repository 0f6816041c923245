"""Numbers that look random, the same for one seed everywhere: xorshift with 64 bits."""

MASK = (1 << 64) - 1


class Random:
    """A generator that begins at a seed; 0 is taken as 1."""

    def __init__(self, seed):
        self.state = max(seed, 1)
        for _ in range(4):
            self.next()

    def next(self):
        state = self.state
        state ^= (state << 13) & MASK
        state ^= state >> 7
        state ^= (state << 17) & MASK
        self.state = state
        return state

    def below(self, count):
        """A number below another, or 0 where that is 0."""
        high = self.next() >> 32
        return high % count if count else 0

    def percent(self, share):
        """True in so many of a hundred cases."""
        return self.below(100) < share

    def one_of(self, values):
        return values[self.below(len(values))]

    def weighted(self, weights):
        """A key, the likelier the greater its weight."""
        left = self.below(sum(weights.values()))
        for key, weight in weights.items():
            if left < weight:
                return key
            left -= weight
        raise ValueError("no weights")

    def octets(self):
        return self.next().to_bytes(8, "big")
