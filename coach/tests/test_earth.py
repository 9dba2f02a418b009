"""Latitude and longitude in metres, against known distances."""
import math
import unittest

import support  # for the path to the modules
from earth import A, E2, Plane
from make_workout import LAP, place


def series(latitude):
    """Metres of a degree of latitude and of longitude at a latitude: the usual series for WGS84."""
    phi = math.radians(latitude)
    north = 111132.92 - 559.82 * math.cos(2 * phi) + 1.175 * math.cos(4 * phi) - 0.0023 * math.cos(6 * phi)
    east = 111412.84 * math.cos(phi) - 93.5 * math.cos(3 * phi) + 0.118 * math.cos(5 * phi)
    return north, east


def vincenty(first, second):
    """The distance of two places along the ellipsoid, by Vincenty's formula of 1975."""
    flat, b = 1 / 298.257223563, A * math.sqrt(1 - E2)
    u1, u2 = (math.atan((1 - flat) * math.tan(math.radians(p[0]))) for p in (first, second))
    apart = lam = math.radians(second[1] - first[1])
    for _ in range(100):
        x, y = math.cos(u2) * math.sin(lam), math.cos(u1) * math.sin(u2) - math.sin(u1) * math.cos(u2) * math.cos(lam)
        sine = math.hypot(x, y)
        if sine == 0:
            return 0.0
        cosine = math.sin(u1) * math.sin(u2) + math.cos(u1) * math.cos(u2) * math.cos(lam)
        sigma, alpha = math.atan2(sine, cosine), math.cos(u1) * math.cos(u2) * math.sin(lam) / sine
        square = 1 - alpha * alpha
        middle = cosine - 2 * math.sin(u1) * math.sin(u2) / square if square else 0.0
        c = flat / 16 * square * (4 + flat * (4 - 3 * square))
        lam, last = apart + (1 - c) * flat * alpha * (sigma + c * sine * (middle + c * cosine * (2 * middle ** 2 - 1))), lam
        if abs(lam - last) < 1e-13:
            break
    k = square * (A * A - b * b) / (b * b)
    m = 1 + k / 16384 * (4096 + k * (-768 + k * (320 - 175 * k)))
    n = k / 1024 * (256 + k * (-128 + k * (74 - 47 * k)))
    change = n * sine * (middle + n / 4 * (cosine * (2 * middle ** 2 - 1)
                                           - n / 6 * middle * (4 * sine ** 2 - 3) * (4 * middle ** 2 - 3)))
    return b * m * (sigma - change)


class Known(unittest.TestCase):
    def test_degrees_against_the_series(self):
        for latitude in (-75, -37.9, 0, 30, 45, 60.19, 80):
            plane, (north, east) = Plane(latitude, 24.9), series(latitude)
            self.assertAlmostEqual(plane.metres(latitude + 0.005, 24.9)[1], 0.005 * north, delta=0.02)
            self.assertAlmostEqual(plane.metres(latitude, 24.905)[0], 0.005 * east, delta=0.02)
            self.assertAlmostEqual(plane.degree_north, north, delta=1.0)
            self.assertAlmostEqual(plane.degree_east, east, delta=1.0)

    def test_a_known_line(self):
        """Flinders Peak to Buninyong, 54,972.271 m: Geoscience Australia's worked example. The stated error at d is d^3/6R^2."""
        peak = -(37 + 57 / 60 + 3.72030 / 3600), 144 + 25 / 60 + 29.52440 / 3600
        end = -(37 + 39 / 60 + 10.15610 / 3600), 143 + 55 / 60 + 35.38390 / 3600
        self.assertAlmostEqual(vincenty(peak, end), 54972.271, delta=0.001)
        short = 54972.271 - math.hypot(*Plane(*peak).metres(*end))
        stated = 54972.271 ** 3 / (6 * 6371000 ** 2)
        self.assertGreater(short, 0)
        self.assertAlmostEqual(short, stated, delta=0.02 * stated)

    def test_a_track_at_60_degrees_north(self):
        """400 m laid out on the earth and measured along the ellipsoid; also 20 km from the first position."""
        for away, allowed in ((0.0, 1e-4), (20_000.0, 400 * 20_100.0 ** 2 / (2 * 6371000 ** 2))):
            plane = Plane(60.0, 24.9)
            ring = [place(way) for way in [LAP * i / 400 for i in range(401)]]
            degrees = [plane.degrees(x + away, y) for x, y in ring]
            chords = sum(math.dist(a, b) for a, b in zip(ring, ring[1:]))
            measured = sum(vincenty(a, b) for a, b in zip(degrees, degrees[1:]))
            self.assertAlmostEqual(measured, chords, delta=allowed)

    def test_back_again(self):
        for latitude, longitude in ((60.0, 24.9), (-37.9, 179.9999), (0.0, -180.0), (78.2, 15.6)):
            plane = Plane(latitude, longitude, 300.0)
            for x, y in ((0, 0), (400, -200), (-31_000, 27_000)):
                u, v = plane.metres(*plane.degrees(x, y))
                self.assertLess(math.hypot(u - x, v - y), 1e-6)

    def test_height(self):
        """2,240 m up, a degree is longer by 2,240 m times the degree in radians."""
        high, low = (Plane(19.4, -99.1, h).metres(19.41, -99.1)[1] for h in (2240.0, 0.0))
        self.assertAlmostEqual(high - low, 2240 * math.radians(0.01), delta=1e-3)


if __name__ == "__main__":
    unittest.main()
