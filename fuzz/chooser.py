"""Choices from a seed."""

import random


class Chooser(random.Random):
    """Chooses things by a seed, always the same ones by the same seed."""

    def maybe(self, chance):
        return self.random() < chance

    def some(self, items, most):
        return [self.choice(items) for _ in range(self.randint(0, most))]

    def weighted(self, pairs):
        """One of the first members of pairs, by the weights that are their second ones."""
        return self.choices([item for item, _ in pairs], [weight for _, weight in pairs])[0]
