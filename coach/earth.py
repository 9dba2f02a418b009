"""Latitude and longitude in metres about a first position, and back.

The projection is the orthographic one: a position of the WGS84 ellipsoid, raised to the first one's height, is dropped
straight onto the plane that touches the ellipsoid there; x points east and y north. At a distance d from the first
position, lengths towards it come out short by the share d^2 / 2R^2, and others less: by 12 millimetres a kilometre for a
length 31 km away, by a hundredth of a millimetre a kilometre for one 1 km away. The distance itself comes out short by
d^3 / 6R^2: 4 micrometres at 1 km, 4 mm at 10 km, 4 m at 100 km, where this module stops."""
import math

A, FLATTENING = 6378137.0, 1 / 298.257223563  # WGS84
E2 = FLATTENING * (2 - FLATTENING)
FARTHEST = 100_000.0
ENOUGH, MOST_STEPS = 1e-7, 20


def cartesian(latitude, longitude, height):
    """About the earth's centre, in metres."""
    lat, lon = math.radians(latitude), math.radians(longitude)
    across = A / math.sqrt(1 - E2 * math.sin(lat) ** 2)
    ring = (across + height) * math.cos(lat)
    return ring * math.cos(lon), ring * math.sin(lon), (across * (1 - E2) + height) * math.sin(lat)


class Plane:
    """The plane that touches the ellipsoid at an origin: latitude and longitude in degrees, height in metres."""

    def __init__(self, latitude, longitude, height=0.0):
        self.origin = latitude, longitude, height
        self.zero = cartesian(*self.origin)
        lat, lon = math.radians(latitude), math.radians(longitude)
        self.east = -math.sin(lon), math.cos(lon), 0.0
        self.north = -math.sin(lat) * math.cos(lon), -math.sin(lat) * math.sin(lon), math.cos(lat)
        root = math.sqrt(1 - E2 * math.sin(lat) ** 2)
        self.degree_north = math.radians(A * (1 - E2) / root ** 3 + height)
        self.degree_east = math.radians((A / root + height) * max(math.cos(lat), 1e-9))

    def metres(self, latitude, longitude):
        """East and north of the origin."""
        away = [p - q for p, q in zip(cartesian(latitude, longitude, self.origin[2]), self.zero)]
        return sum(map(float.__mul__, away, self.east)), sum(map(float.__mul__, away, self.north))

    def degrees(self, x, y):
        """The latitude and longitude of a place in the plane: the first guess is mended by what it misses."""
        latitude, longitude = self.origin[:2]
        for _ in range(MOST_STEPS):
            u, v = self.metres(latitude, longitude)
            if math.hypot(x - u, y - v) < ENOUGH:
                break
            latitude += (y - v) / self.degree_north
            longitude += (x - u) / self.degree_east
        return latitude, math.remainder(longitude, 360)
