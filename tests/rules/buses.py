"""Which frame of a bus goes next: of those that wait the one of the least priority, and none is interrupted. Times are
ticks."""
import heapq


class Waiting:
    """The frames that wait for a bus, of those that are queued at some times: (time, priority, name)."""

    def __init__(self, queued):
        self.queue, self.place, self.waiting = sorted(queued), 0, []

    def __bool__(self):
        return self.place < len(self.queue) or bool(self.waiting)

    def next_at(self, now):
        """When the next frame may start, from a time on, when it was queued, and its name."""
        now = now if self.waiting else max(now, self.queue[self.place][0])
        while self.place < len(self.queue) and self.queue[self.place][0] <= now:
            time, priority, name = self.queue[self.place]
            heapq.heappush(self.waiting, (priority, time, name))
            self.place += 1
        _, time, name = self.waiting[0]
        return now, time, name

    def sent(self):
        """The next frame is sent."""
        heapq.heappop(self.waiting)
