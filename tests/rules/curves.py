"""What streams bring, and windows, written down plainly: most events, least times, and the least window that has room
for a demand. Times are ticks.
"""
import math
from functools import lru_cache
from itertools import accumulate

OVERLOAD = math.inf


def ceiling(number, divisor):
    return -(-number // divisor)


def most_events(model, window):
    """The most events of the streams of a model in a window whose end doesn't count; none means an unbounded input."""
    if window == 0:
        return 0
    if model is None:
        return OVERLOAD
    most = 0
    for period, jitter, distance in model:
        by_period = ceiling(window + jitter, period)
        most += min(by_period, ceiling(window, distance)) if distance else by_period
    return most


def least_time(model, events):
    """The least time from the first to the last of so many events."""
    if events < 2:
        return 0
    # the least window that has room for them once it is a tick longer, by halving: most_events rises with the window
    low, high = 0, max(
        max((events - 1) * distance, (events - 1) * period - jitter, 0) for period, jitter, distance in model
    )
    while low < high:
        middle = (low + high) // 2
        low, high = (low, middle) if most_events(model, middle + 1) >= events else (middle + 1, high)
    return low


def least_window(demand, first, limit):
    """The least window from `first` on that has room for its demand; overload past the limit."""
    window = first
    while window <= limit:
        asked = demand(window)
        if asked <= window:
            return window
        window = max(window + 1, asked)
    return OVERLOAD


@lru_cache(maxsize=256)
def longest_in_queue(tasks, limit):
    """The greatest response in a queue, where each task is told by its streams and its greatest execution. A job may
    come in any tick of the busy window, whose start left nothing to do: what came up to that tick and with it is done
    first, and the ticks before it are gone by then."""

    def demand(window):
        return sum(most_events(model, window) * worst for model, worst in tasks)

    busy = least_window(demand, 1, limit)
    if busy == OVERLOAD:
        return OVERLOAD
    # what each tick of the window adds to the demand; event n comes with the tick after its least time
    added = [0] * (busy + 1)
    for (period, jitter, distance), worst in ((stream, worst) for model, worst in tasks for stream in model):
        for event in range(busy):
            window = max(event * period - jitter, event * distance, 0) + 1
            if window > busy:
                break
            added[window] += worst
    return max(asked - (window - 1) for window, asked in enumerate(accumulate(added)) if window)
