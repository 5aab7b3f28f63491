#!/usr/bin/env python3
"""Writes cascades made at random: random_cascades.py FOLDER [COUNT] [SEED], with scipy (Debian: apt-get install
python3-scipy, then /usr/bin/python3).

Five families, low- and high-passes up to order 16, band-passes and band-stops up to 16 poles, edges from 0.005 to 0.3
of the rate, ripples and attenuations as they are used. Every second one keeps its gain where scipy puts it, in the
first section; the others deal it out. `bench/states_designs.py PROGRAM --sources FOLDER` measures what is found. They are
harder than those of bench/designs: some have poles so near 1 that no word of 32 bits holds them.
"""
import os
import sys

import numpy as np
from scipy import signal

from designs import KINDS, cascade, scaled

RIPPLES, ATTENUATIONS, NORMS = (0.1, 0.5, 1, 3), (30, 40, 60, 80), ("mag", "phase")
FAMILIES = {"butter": lambda rng, *at: signal.butter(*at, output="sos"),
            "cheby1": lambda rng, n, *at: signal.cheby1(n, rng.choice(RIPPLES), *at, output="sos"),
            "cheby2": lambda rng, n, *at: signal.cheby2(n, rng.choice(ATTENUATIONS), *at, output="sos"),
            "ellip": lambda rng, n, *at: signal.ellip(n, rng.choice(RIPPLES), rng.choice(ATTENUATIONS), *at,
                                                      output="sos"),
            "bessel": lambda rng, *at: signal.bessel(*at, output="sos", norm=str(rng.choice(NORMS)))}
WIDTHS = (1.2, 1.5, 2, 3)


def edge(rng):
    """Returns an edge over the rate, as often in each octave."""
    return round(float(np.exp(rng.uniform(np.log(0.005), np.log(0.3)))), 4)


def shape(rng, kind):
    """Returns an order and edges."""
    few = rng.random() < 0.5
    if kind in ("lp", "hp"):
        return int(rng.integers(2, 9) if few else rng.integers(1, 17)), [edge(rng)]
    low = edge(rng)
    high = round(min(low * float(rng.choice(WIDTHS)), 0.45), 4)
    return int(rng.integers(1, 5) if few else rng.integers(1, 9)), [low, high]


def is_stable(sos):
    return max(abs(np.concatenate([np.roots(section[3:]) for section in sos]))) < 1 - 1e-9


def cascades(count, seed):
    """Pairs of a name and a source."""
    rng = np.random.default_rng(seed)
    for i in range(count):
        family, kind = list(FAMILIES)[i % 5], list(KINDS)[i // 5 % 4]
        order, edges = shape(rng, kind)
        sos = FAMILIES[family](rng, order, [2 * at for at in edges] if len(edges) > 1 else 2 * edges[0], KINDS[kind])
        if is_stable(sos):
            told = "_".join(f"{at:g}".replace("0.", "") for at in edges)
            name = f"{family}{order}{kind}_{told}{'' if i % 2 else '_raw'}_n{i}"
            yield name, cascade(name, scaled(sos) if i % 2 else sos)


def main():
    folder, *numbers = sys.argv[1:]
    count, seed = (*map(int, numbers), *(170, 0)[len(numbers):])
    os.makedirs(folder, exist_ok=True)
    for name, source in cascades(count, seed):
        with open(os.path.join(folder, name + ".fixd"), "w", encoding="utf-8") as file:
            file.write(source)


if __name__ == "__main__":
    main()
