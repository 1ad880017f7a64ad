"""How long proofs take that are still to be made, by the number of processors."""
import heapq


def heights(checkout, names):
    """Of each crate the seconds from its begin to the end of the longest chain of crates above it."""
    above = {name: [] for name in names}
    for name in names:
        for other in checkout.own_below(name):
            if other in above:
                above[other].append(name)
    height = {}
    for name in reversed(checkout.tower(names)):
        if name in above:
            height[name] = checkout.expected(name) + max((height[other] for other in above[name]), default=0)
    return height


def left(checkout, names, running, height, processors):
    """Seconds until `names` are proved, the highest first, where those `running` still need what is said of each."""
    waits = {name: sum(other in names for other in checkout.own_below(name)) for name in names}
    ready = [(-height[name], name) for name in names if not waits[name] and name not in running]
    heapq.heapify(ready)
    ends = [(seconds, name) for name, seconds in running.items()]
    heapq.heapify(ends)
    now = 0
    while ready or ends:
        while ready and len(ends) < processors:
            name = heapq.heappop(ready)[1]
            heapq.heappush(ends, (now + checkout.expected(name), name))
        now, done = heapq.heappop(ends)
        for name in names:
            if done in checkout.own_below(name):
                waits[name] -= 1
                if not waits[name] and name not in running:
                    heapq.heappush(ready, (-height[name], name))
    return now


def minutes(seconds):
    """As a person says it."""
    whole = round(seconds / 60)
    return 'less than a minute' if whole < 1 else 'about a minute' if whole == 1 else f'about {whole} minutes'
