"""The front of points by two measures."""


def unbeaten(points, measure):
    """Of points in order of one measure, those whose other measure is less than that of all before them."""
    front = []
    for point in points:
        if not front or measure(point) < measure(front[-1]):
            front.append(point)
    return front
