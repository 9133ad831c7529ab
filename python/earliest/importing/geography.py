"""Distances and directions on the Earth, and the nearest of many places."""
import math
from array import array

RADIUS = 6_371_008.8
"""The mean radius of the Earth in metres; a distance by it is off by less than 0.6 per cent."""


def metres(longitude, latitude, other_longitude, other_latitude):
    """The distance of two places in degrees, along the great circle."""
    here, there = math.radians(latitude), math.radians(other_latitude)
    half = math.sin((there - here) / 2) ** 2 + math.cos(here) * math.cos(there) * math.sin(math.radians(other_longitude - longitude) / 2) ** 2
    return 2 * RADIUS * math.asin(min(1.0, math.sqrt(half)))


def bearing(longitude, latitude, other_longitude, other_latitude):
    """The direction from one place to another, in degrees clockwise from north."""
    east = math.radians(other_longitude - longitude)
    here, there = math.radians(latitude), math.radians(other_latitude)
    y = math.sin(east) * math.cos(there)
    x = math.cos(here) * math.sin(there) - math.sin(here) * math.cos(there) * math.cos(east)
    return math.degrees(math.atan2(y, x)) % 360.0


def on_sphere(longitude, latitude):
    """A place in degrees as a point of the unit sphere, where straight distances rank as those on the Earth."""
    east, north = math.radians(longitude), math.radians(latitude)
    return math.cos(north) * math.cos(east), math.cos(north) * math.sin(east), math.sin(north)


class Tree:
    """A k-d tree over points of three coordinates: scipy's if it is there, else this one. Both return the same point, and of points at
    the same distance the one with the lowest index."""

    def __init__(self, points, with_scipy=True):
        self.points = points
        self.scipy = None
        if with_scipy:
            try:
                from scipy.spatial import cKDTree
                self.scipy = cKDTree(points)
            except ImportError:
                pass
        if self.scipy is None:
            self._build()

    def _build(self):
        """Lays the indices out so that the middle of each part splits it by the coordinate of its depth."""
        points, order = self.points, list(range(len(self.points)))
        waiting = [(0, len(order), 0)]
        while waiting:
            low, high, axis = waiting.pop()
            if high - low > 1:
                order[low:high] = sorted(order[low:high], key=lambda place: points[place][axis])
                middle = (low + high) // 2
                waiting += [(low, middle, (axis + 1) % 3), (middle + 1, high, (axis + 1) % 3)]
        self.order = array("q", order)

    def nearest(self, point):
        """The index of the nearest point and its straight distance."""
        if self.scipy is not None:
            distance, place = self.scipy.query(point)
            near = self.scipy.query_ball_point(point, distance * (1 + 1e-12) + 1e-15)
            return min(near + [int(place)], key=lambda it: (_square(self.points[it], point), it)), float(distance)
        best, found = math.inf, -1
        waiting = [(0, len(self.order), 0, 0.0)]
        while waiting:
            low, high, axis, gap = waiting.pop()
            if low >= high or gap > best:
                continue
            middle = (low + high) // 2
            place = self.order[middle]
            square = _square(self.points[place], point)
            if square < best or (square == best and place < found):
                best, found = square, place
            offset = point[axis] - self.points[place][axis]
            near, far = ((low, middle), (middle + 1, high)) if offset < 0 else ((middle + 1, high), (low, middle))
            waiting.append((*far, (axis + 1) % 3, offset * offset))
            waiting.append((*near, (axis + 1) % 3, 0.0))
        return found, math.sqrt(best)


def _square(first, second):
    return (first[0] - second[0]) ** 2 + (first[1] - second[1]) ** 2 + (first[2] - second[2]) ** 2
