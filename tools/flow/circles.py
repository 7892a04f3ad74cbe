"""Who waits for whom in a circle."""


def circles_of(waiting):
    """The circles of those that wait for each other, by whom each one waits for."""
    told, circles = set(), []
    for start in waiting:
        path, one = [], start
        while one in waiting and one not in path:
            path.append(one)
            one = waiting[one]
        if one in path and one not in told:
            circles.append(path[path.index(one):])
            told.update(circles[-1])
    return circles
