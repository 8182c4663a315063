"""CUBIC: congestion avoidance by a cubic function of the time since the last loss (RFC 9438). Windows in bytes, times in milliseconds, whole numbers.

The window after a loss is 0.7 of that before it, and C is 0.4 packets for each second cubed, that is size * 0.4 / 10^9 bytes for each millisecond cubed.
"""


def cube_root(number):
    """The largest number whose cube is at most this one."""
    low, high = 0, 1
    while high**3 <= number:
        high *= 2
    while high - low > 1:
        middle = (low + high) // 2
        low, high = (middle, high) if middle**3 <= number else (low, middle)
    return low


class Epoch:
    """Congestion avoidance from an acknowledgement on, the first behind a loss."""

    def __init__(self, now, size, cwnd, peak):
        """`rise`: K, how long the function takes to the window of the loss; `origin`: W_max; `additive`: W_est (sections 4.2 and 4.3)."""
        self.start, self.additive = now, cwnd
        self.rise = cube_root(max(peak - cwnd, 0) * 2_500_000_000 // size)
        self.origin = max(peak, cwnd)

    def window(self, size, time):
        """W_cubic so long behind its start: where it would fall below 0 it is 0 (section 4.2)."""
        way = 4 * size * abs(time - self.rise)**3 // 10**10
        return self.origin + way if time >= self.rise else max(self.origin - way, 0)


class Cubic:
    """What a sender remembers: the window of the last loss, 0 before the first, and the epoch."""

    def __init__(self, peak=0, epoch=None):
        self.peak, self.epoch = peak, epoch

    def reduced(self, cwnd):
        """What a loss leaves of a window (section 4.6)."""
        return cwnd * 7 // 10

    def forget(self):
        """An expiry: the next epoch begins with the window that slow start leaves (section 4.8)."""
        self.peak, self.epoch = 0, None

    def lost(self, cwnd):
        """A loss at this window: one below that of the loss before leaves room for others (section 4.7)."""
        self.peak, self.epoch = cwnd * 17 // 20 if cwnd < self.peak else cwnd, None

    def acknowledged(self, now, size, cwnd, count):
        """So many bytes are acknowledged with the window in use: additive increase goes on, by 9/17 below the window of the loss (section 4.3)."""
        if self.epoch is None:
            self.epoch = Epoch(now, size, cwnd, self.peak)
        is_below = self.epoch.additive < self.peak
        self.epoch.additive += 9 * size * count // (17 * cwnd) if is_below else size * count // cwnd

    def more(self, now, size, cwnd, count, trip):
        """By how much the window opens then: to that of additive increase if the function is below it (4.3), else toward where the function is a
        round trip later, half as much again at most (4.4, 4.5)."""
        epoch, elapsed = self.epoch, max(now - self.epoch.start, 0)
        if epoch.window(size, elapsed) < epoch.additive:
            return max(epoch.additive - cwnd, 0)
        target = min(max(cwnd, epoch.window(size, elapsed + trip)), cwnd * 3 // 2)
        return max(target - cwnd, 0) * count // cwnd
