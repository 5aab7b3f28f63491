#!/usr/bin/env python3
"""Writes the designs of bench/designs: designs.py FOLDER, with scipy (Debian: apt-get install python3-scipy, then
/usr/bin/python3).

Each is a filter as a designer would hand it over: cascades of second-order sections as `scipy.signal.sosfilt` runs them
(transposed form II), some with the outputs multiplied out of the sections' own next states, the same designs side by
side in coupled form, direct forms, notches, equalisers, observers, Kalman filters, FIR filters; some keep the 1e-17
that scipy leaves where a coefficient should be 0.
"""
import os
import sys
from decimal import Decimal

import numpy as np
from scipy import linalg, signal

DIGITS = 14
FAMILIES = {"butter": lambda n, kind, at: signal.butter(n, at, kind, output="sos"),
            "cheby1": lambda n, kind, at: signal.cheby1(n, 1, at, kind, output="sos"),
            "cheby2": lambda n, kind, at: signal.cheby2(n, 40, at, kind, output="sos"),
            "ellip": lambda n, kind, at: signal.ellip(n, 1, 40, at, kind, output="sos"),
            "bessel": lambda n, kind, at: signal.bessel(n, at, kind, output="sos", norm="mag")}
KINDS = {"lp": "lowpass", "hp": "highpass", "bp": "bandpass", "bs": "bandstop"}


def literal(number, digits=DIGITS, residues=False):
    """Returns a number as a literal of so many significant digits and at most 18 in all; what is below 1e-13 is 0
    unless it is kept."""
    if abs(number) < 1e-13 and not residues:
        return "0"
    number = Decimal(f"{number:.{digits - 1}e}")
    places = 18 if residues else 17
    return format(round(number, places).normalize(), "f")


def sum_of(terms, residues=False):
    """Returns the sum of products of pairs of a coefficient and a name."""
    text = ""
    for number, name in terms:
        factor = literal(abs(number), residues=residues)
        if factor == "0":
            continue
        product = name if factor == "1" else f"{factor} * {name}"
        sign = "-" if number < 0 else "+"
        text += (f" {sign} {product}" if text else product if number > 0 else f"-{product}" if factor == "1"
                 else f"-{factor} * {name}")
    return text or "0"


def function(name, inputs, states, values, outputs, nexts, ranges=None, starts=None):
    """Returns a source: inputs in [-1, 1] or these ranges, states that start at 0, named values, and expressions."""
    ranges = ranges or {}
    parameters = ", ".join(f"{x}: Real" for x in inputs)
    kept = ", ".join(f"{s}: Real = {(starts or {}).get(s, 0)}" for s in states)
    count = len(outputs) + len(nexts)
    result = "Real" if count == 1 else "(" + ", ".join(["Real"] * count) + ")"
    limits = " && ".join("{0} <= {1} && {1} <= {2}".format(ranges.get(x, ("-1", "1"))[0], x,
                                                           ranges.get(x, ("-1", "1"))[1]) for x in inputs)
    lines = [f"def {name}({parameters})" + (f"({kept})" if states else "") + f": {result} = {{", f"  require({limits})"]
    lines += [f"  val {y} = {value}" for y, value in values]
    every = outputs + nexts
    lines += ["  " + (every[0] if count == 1 else "(" + ",\n    ".join(every) + ")"), "}"]
    return "\n".join(lines) + "\n"


def cascade(name, sos, is_expanded=False, residues=False):
    """Sections in series in transposed form II; the section's output may be multiplied out of its own next states."""
    values, states, nexts, x = [], [], [], "x"
    for i, (b0, b1, b2, _, a1, a2) in enumerate(sos, 1):
        y, s, t = f"y{i}", f"s{i}", f"t{i}"
        has_second = abs(b2) + abs(a2) > 0
        states += [s, t] if has_second else [s]
        values.append((y, sum_of([(b0, x), (1, s)], residues)))
        more = [(1, t)] if has_second else []
        if is_expanded:
            nexts.append(sum_of([(b1 - a1 * b0, x), (-a1, s)] + more, residues))
            if has_second:
                nexts.append(sum_of([(b2 - a2 * b0, x), (-a2, s)], residues))
        else:
            nexts.append(sum_of([(b1, x), (-a1, y)] + more, residues))
            if has_second:
                nexts.append(sum_of([(b2, x), (-a2, y)], residues))
        x = y
    return function(name, ["x"], states, values, [x], nexts)


def direct(name, b, a):
    """The transposed direct form, as `lfilter` runs it."""
    n = len(a) - 1
    states = [f"s{i}" for i in range(1, n + 1)]
    nexts = [sum_of([(b[i], "x"), (-a[i], "y")] + ([(1, f"s{i + 1}")] if i < n else [])) for i in range(1, n + 1)]
    return function(name, ["x"], states, [("y", sum_of([(b[0], "x"), (1, "s1")]))], ["y"], nexts)


def coupled(name, sos):
    """Pole pairs side by side, each a rotation that shrinks, scaled so that its states reach about 1."""
    b, a = signal.sos2tf(sos)
    z, p, k = signal.sos2zpk(sos)
    states, nexts, out = [], [], [(k, "x")]
    for i, pole in enumerate([q for q in p if q.imag >= -1e-12]):
        residue = k * np.prod(pole - z) / np.prod([pole - q for q in p if abs(q - pole) > 1e-12])
        if abs(pole.imag) < 1e-9:
            s = f"s{i}"
            gain = 1 - abs(pole.real)
            states.append(s)
            nexts.append(sum_of([(pole.real, s), (gain, "x")]))
            out.append((residue.real / gain, s))
        else:
            s, t = f"s{i}", f"t{i}"
            gain = 1 - abs(pole)
            states += [s, t]
            nexts += [sum_of([(pole.real, s), (-pole.imag, t), (gain, "x")]), sum_of([(pole.imag, s), (pole.real, t)])]
            out += [(2 * residue.real / gain, s), (-2 * residue.imag / gain, t)]
    return function(name, ["x"], states, [], [sum_of(out)], nexts)


def state_space(name, A, B, C, D, inputs, ranges=None):
    """x' = A x + B u, y = C x + D u."""
    states = [f"s{i}" for i in range(1, len(A) + 1)]
    rows = lambda M, N: [sum_of([(m, s) for m, s in zip(r, states)] + [(n, u) for n, u in zip(q, inputs)])
                         for r, q in zip(M, N)]
    return function(name, inputs, states, [], rows(C, D), rows(A, B), ranges)


def fir(name, taps, residues=False):
    """A delay line."""
    n = len(taps) - 1
    states = [f"s{i}" for i in range(1, n + 1)]
    terms = [(taps[0], "x")] + [(t, s) for t, s in zip(taps[1:], states)]
    return function(name, ["x"], states, [], [sum_of(terms, residues)], ["x"] + states[:-1])


def peaking(at, q, decibels):
    """An equaliser's section (Bristow-Johnson)."""
    a, w = 10 ** (decibels / 40), 2 * np.pi * at
    alpha = np.sin(w) / (2 * q)
    b = np.array([1 + alpha * a, -2 * np.cos(w), 1 - alpha * a])
    d = np.array([1 + alpha / a, -2 * np.cos(w), 1 - alpha / a])
    return np.concatenate([b / d[0], d / d[0]])


def kalman(A, B, C, process, noise):
    """The filter's step with its gain at rest: A - A K C, B and A K."""
    P = linalg.solve_discrete_are(A.T, C.T, process, noise)
    K = P @ C.T @ np.linalg.inv(C @ P @ C.T + noise)
    return A - A @ K @ C, B, A @ K


def edge(text):
    """05 is 0.05 of the rate, 005 is 0.005, 1 is 0.1, 24 is 0.24."""
    return float("0." + text)


CASCADES = """
butter4lp_05 butter4lp_005 butter4lp_01 butter4hp_01 butter5lp_02 butter5hp_05 butter6lp_005 butter6lp_05 butter6hp_02
butter7lp_01 butter7lp_1 butter8lp_005 butter8lp_01 butter8lp_1 butter8hp_01 butter8hp_1 bessel4lp_02 bessel5lp_01
bessel6lp_05 bessel7lp_05 bessel8lp_02 bessel8hp_2 bessel8lp_005 cheby14lp_01 cheby14hp_05 cheby15lp_02 cheby16lp_005
cheby16lp_05 cheby16hp_02 cheby17lp_02 cheby18lp_05 cheby18hp_01 cheby18lp_01 cheby24lp_02 cheby25lp_05 cheby26lp_01
cheby26hp_05 cheby28lp_05 cheby28hp_02 ellip4lp_005 ellip4lp_05 ellip4hp_05 ellip5lp_02 ellip6lp_01 ellip6lp_005
ellip6hp_05 ellip7lp_05 ellip8lp_01 ellip8lp_1 ellip8hp_05 butter2bp_05_1 butter3bp_1_15 butter4bp_05_1 butter3bs_1_15
butter4bs_2_3 cheby13bp_05_1 cheby14bp_05_1 cheby12bs_05_1 cheby24bs_1_15 cheby23bp_1_2 ellip3bp_05_1 ellip4bp_05_1
ellip2bs_05_1 butter4bp_02_03 cheby15bs_24_26 ellip6bp_05_1 butter5bp_1_2 cheby15bp_1_15 butter12lp_1 butter10lp_05
""".split()
EXPANDED = """
butter4lp_01 butter6lp_005 butter7lp_01 butter8hp_01 butter8lp_005 cheby16lp_005 cheby18lp_05 cheby18hp_01 ellip4bp_05_1
ellip6lp_01 ellip8lp_01 ellip8lp_1
""".split()


def scaled(sos):
    """The same sections with the gain dealt out so that no section's output reaches beyond 1 for a sine at the
    input."""
    sos, total = np.array(sos), 1.0
    for i in range(len(sos)):
        response = signal.sosfreqz(sos[:i + 1], 1 << 14)[1]
        own = np.max(np.abs(response))
        sos[i, :3] /= own
        total *= own
    sos[-1, :3] *= total
    return sos


def sections(name):
    """The sections of a name like `cheby14lp_01`: Chebyshev I of order 4, low-pass, at 0.01 of the rate."""
    family = next(f for f in FAMILIES if name.startswith(f))
    shape, *edges = name[len(family):].split("_")
    at = [2 * edge(e) for e in edges]
    return scaled(FAMILIES[family](int(shape[:-2]), KINDS[shape[-2:]], at[0] if len(at) == 1 else at))


def trackers():
    """Observers and Kalman filters."""
    dt = 0.01
    A, B, C = np.array([[1, dt], [0, 1]]), np.array([[dt * dt / 2], [dt]]), np.array([[1.0, 0]])
    M, N, K = kalman(A, B, C, B @ B.T * 25, np.array([[0.04]]))
    yield "kalman_position", state_space("kalman_position", M, np.hstack([N, K]), [[1, 0], [0, 1]], np.zeros((2, 2)),
                                         ["u", "z"])
    A = np.array([[1, dt, dt * dt / 2], [0, 1, dt], [0, 0, 1]])
    M, N, K = kalman(A, np.zeros((3, 1)), np.array([[1.0, 0, 0]]), np.outer(A[:, 2], A[:, 2]) * 4, np.array([[0.01]]))
    yield "kalman_jerk", state_space("kalman_jerk", M, K, np.eye(3), np.zeros((3, 1)), ["z"])
    motor = signal.cont2discrete((np.array([[-10, 1], [-0.02, -2]]), np.array([[0], [2.0]]), np.array([[1.0, 0]]),
                                  np.zeros((1, 1))), 0.01)
    M, N, K = kalman(motor[0], motor[1], motor[2], np.diag([0.001, 0.01]), np.array([[0.01]]))
    yield "kalman_motor", state_space("kalman_motor", M, np.hstack([N, K]), np.eye(2), np.zeros((2, 2)), ["u", "z"])
    k, m, c = 100.0, 1.0, 0.6
    plant = signal.cont2discrete((np.array([[0, 1, 0, 0], [-k / m, -c, k / m, c], [0, 0, 0, 1],
                                            [k / m, c, -2 * k / m, -2 * c]]),
                                  np.array([[0], [1.0], [0], [0]]), np.array([[1.0, 0, 0, 0]]), np.zeros((1, 1))), 0.02)
    M, N, K = kalman(plant[0], plant[1], plant[2], plant[1] @ plant[1].T, np.array([[0.001]]))
    yield "kalman_masses", state_space("kalman_masses", M, np.hstack([N, K]), [[1, 0, 0, 0], [0, 0, 1, 0]],
                                       np.zeros((2, 2)), ["u", "z"])
    G = signal.place_poles(plant[0].T, plant[2].T, [0.8, 0.75, 0.7 + 0.1j, 0.7 - 0.1j]).gain_matrix.T
    yield "observer_masses", state_space("observer_masses", plant[0] - G @ plant[2], np.hstack([plant[1], G]),
                                         np.eye(4), np.zeros((4, 2)), ["u", "z"])


def small():
    """Literals that are small, residues, and states that no input drives."""
    for exponent, text in ((12, "0.000000000001"), (16, "0.0000000000000002")):
        yield f"small_drive{exponent}", function(f"small_drive{exponent}", ["x"], ["s"], [], ["s"],
                                                 [f"0.9 * s + {text} * x"])
    yield "small_delay", function("small_delay", ["x"], ["s1"], [], ["x + 0.00001 * s1"], ["x"])
    yield "firwin15", fir("firwin15", signal.firwin(15, 0.2), True)
    yield "firwin31", fir("firwin31", signal.firwin(31, 0.1), True)
    yield "savgol9", fir("savgol9", signal.savgol_coeffs(9, 3, 1), True)
    yield "savgol15", fir("savgol15", signal.savgol_coeffs(15, 2, 2), True)
    yield "quarter_band", cascade("quarter_band", signal.butter(2, [0.48, 0.52], "bandstop", output="sos"),
                                  residues=True)
    yield "undriven", function("undriven", ["x"], ["r"], [], ["r + x"], ["0.5 * r + 0.25"])
    yield "undriven_turn", function("undriven_turn", ["x"], ["c", "s"], [], ["c * x"],
                                    ["0.8 * c - 0.59 * s", "0.59 * c + 0.8 * s"], starts={"c": 1})
    yield "undriven_beside", function("undriven_beside", ["x"], ["r", "s"], [], ["s"],
                                      ["0.5 * r", "0.9 * s + 0.1 * x + 0.1 * r"], starts={"r": 1})
    rng = np.random.default_rng(0)
    A = rng.standard_normal((32, 32))
    A *= 0.9 / max(abs(np.linalg.eigvals(A)))
    yield "dense32", state_space("dense32", A, rng.standard_normal((32, 1)) / 8, rng.standard_normal((1, 32)) / 8,
                                 [[0]], ["x"])


def designs():
    """Pairs of a name and a source."""
    for name in CASCADES:
        yield name, cascade(name, sections(name))
    for name, raw in (("butter4lp_005", signal.butter(4, 0.01, output="sos")),
                      ("cheby16lp_05", signal.cheby1(6, 1, 0.1, output="sos"))):
        yield name + "_raw", cascade(name + "_raw", raw)
    for name in EXPANDED:
        yield name + "_out", cascade(name + "_out", sections(name), is_expanded=True)
    for name in ("butter4lp_01", "cheby16lp_005", "butter8lp_005", "ellip8lp_01", "ellip4bp_05_1"):
        yield name + "_coupled", coupled(name + "_coupled", sections(name))
    for name in ("butter4lp_05", "ellip4lp_05", "butter3bp_1_15"):
        yield name + "_direct", direct(name + "_direct", *signal.sos2tf(sections(name)))
    for hertz, q in ((50, 30), (60, 10)):
        yield f"notch{hertz}_{q}", cascade(f"notch{hertz}_{q}", signal.tf2sos(*signal.iirnotch(hertz / 1000, q, 1)))
    yield "hum_notches", cascade("hum_notches", np.vstack([signal.tf2sos(*signal.iirnotch(h / 1000, 20, 1))
                                                           for h in (50, 100, 150, 200)]))
    yield "equaliser5", cascade("equaliser5",
                                np.vstack([peaking(at, 1.4, g)
                                           for at, g in ((.002, 6), (.008, -4), (.03, 3), (.1, -6), (.25, 4))]))
    yield "peak20", cascade("peak20", np.vstack([peaking(.0005, 2, 6)]))
    yield from trackers()
    yield from small()


def main():
    for name, source in designs():
        with open(os.path.join(sys.argv[1], name + ".fixd"), "w", encoding="utf-8") as file:
            file.write(source)


if __name__ == "__main__":
    main()
