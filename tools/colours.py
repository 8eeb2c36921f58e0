#!/usr/bin/env python3
"""How far apart the colours of kinds are, as crates/svg/src/drawing.rt has them.

Prints, for normal sight and for each kind of colour blindness, the least CIEDE2000 difference of any two of the 16 colours and of
the first 4 of them. Colour blindness is simulated by the matrices of Machado, Oliveira and Fernandes (2009), of full severity.
"""

import itertools
import math
import pathlib
import re

SIGHTS = {
    "normal": [[1, 0, 0], [0, 1, 0], [0, 0, 1]],
    "protanopia": [[0.152286, 1.052583, -0.204868], [0.114503, 0.786281, 0.099216], [-0.003882, -0.048116, 1.051998]],
    "deuteranopia": [[0.367322, 0.860646, -0.227968], [0.280085, 0.672501, 0.047413], [-0.011820, 0.042940, 0.968881]],
    "tritanopia": [[1.255528, -0.076749, -0.178779], [-0.078411, 0.930809, 0.147602], [0.004733, 0.691367, 0.303900]],
}


def colours():
    """Kind 0 is white; the others are classes of the style."""
    source = pathlib.Path(__file__).resolve().parent.parent / "crates/svg/src/drawing.rt"
    found = re.findall(r"\.k\d+\{fill:#([0-9a-f]{6})\}", source.read_text())
    return [tuple(int(c[i : i + 2], 16) for i in (0, 2, 4)) for c in ["ffffff"] + found]


def linear(c):
    c /= 255
    return c / 12.92 if c <= 0.04045 else ((c + 0.055) / 1.055) ** 2.4


def lab(rgb):
    def f(t):
        return t ** (1 / 3) if t > 216 / 24389 else (24389 / 27 * t + 16) / 116

    r, g, b = rgb
    x = f((0.4124564 * r + 0.3575761 * g + 0.1804375 * b) / 0.95047)
    y = f(0.2126729 * r + 0.7151522 * g + 0.0721750 * b)
    z = f((0.0193339 * r + 0.1191920 * g + 0.9503041 * b) / 1.08883)
    return 116 * y - 16, 500 * (x - y), 200 * (y - z)


def seen(colour, matrix):
    rgb = [linear(c) for c in colour]
    return lab([min(1, max(0, sum(m * c for m, c in zip(row, rgb)))) for row in matrix])


def ciede2000(one, other):
    (l1, a1, b1), (l2, a2, b2) = one, other
    mean = (math.hypot(a1, b1) + math.hypot(a2, b2)) / 2
    g = 1.5 - 0.5 * math.sqrt(mean**7 / (mean**7 + 25**7))
    a1, a2 = a1 * g, a2 * g
    c1, c2 = math.hypot(a1, b1), math.hypot(a2, b2)
    h1, h2 = math.degrees(math.atan2(b1, a1)) % 360, math.degrees(math.atan2(b2, a2)) % 360
    grey = c1 * c2 == 0
    turn = 0 if grey else (h2 - h1 + 180) % 360 - 180
    dh = 2 * math.sqrt(c1 * c2) * math.sin(math.radians(turn / 2))
    lm, cm = (l1 + l2) / 2, (c1 + c2) / 2
    hm = h1 + h2 if grey else (h1 + turn / 2) % 360
    t = 1 - 0.17 * math.cos(math.radians(hm - 30)) + 0.24 * math.cos(math.radians(2 * hm))
    t += 0.32 * math.cos(math.radians(3 * hm + 6)) - 0.2 * math.cos(math.radians(4 * hm - 63))
    sl = 1 + 0.015 * (lm - 50) ** 2 / math.sqrt(20 + (lm - 50) ** 2)
    sc, sh = 1 + 0.045 * cm, 1 + 0.015 * cm * t
    rc = 2 * math.sqrt(cm**7 / (cm**7 + 25**7))
    rt = -rc * math.sin(math.radians(60 * math.exp(-(((hm - 275) / 25) ** 2))))
    dc = (c2 - c1) / sc
    return math.sqrt(((l2 - l1) / sl) ** 2 + dc**2 + (dh / sh) ** 2 + rt * dc * dh / sh)


def least(some, matrix):
    return min(ciede2000(seen(a, matrix), seen(b, matrix)) for a, b in itertools.combinations(some, 2))


for name, matrix in SIGHTS.items():
    print(f"{name:13} all 16: {least(colours(), matrix):4.1f}   first 4: {least(colours()[:4], matrix):4.1f}")
