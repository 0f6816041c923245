"""What a served connection watches: how long things take, and what may be a flood
(docs/api/h2_server.md, `TimeLimits`, `FloodLimits` and `ConnectionLimits`)."""

LIMITS = {"opening": 10_000, "frame": 30_000, "body": 30_000, "least_body": 1_024,
          "writing": 60_000, "answering": 60_000, "idle": 75_000, "deferred": 60_000,
          "stretch": 10_000, "resets": 500, "empty": 500, "refused": 50, "replies": 32_768,
          "closing": 5_000, "least_closing": 65_536}
# The first of these that is late counts.
TIMERS = ("opening", "frame", "body", "writing", "answering", "idle")
FLOODS = ("resets", "empty", "refused", "replies")


def is_late(since, limit, now):
    """A limit of 0 is none."""
    return since is not None and limit > 0 and now - since >= limit


class Timer:
    """It runs while something goes on, and starts anew with enough progress."""

    def __init__(self):
        self.since, self.mark = None, 0

    def note(self, goes_on, mark, least, now):
        if not goes_on:
            self.since, self.mark = None, mark
        elif self.since is None or mark - self.mark >= least:
            self.since, self.mark = now, mark


class Watch:
    """The times and the counts of one connection."""

    def __init__(self, limits):
        self.limits = limits
        self.timers = {name: Timer() for name in TIMERS}
        self.time = self.began = 0
        self.before = dict.fromkeys(FLOODS, 0)

    def pass_to(self, now, counts):
        """It is later: once a stretch is over the next one begins."""
        self.time = max(self.time, now)
        if self.time - self.began >= self.limits["stretch"]:
            self.began, self.before = self.time, counts

    def note(self, activity):
        """Of each timer whether something goes on, and how far it is."""
        for name, (goes_on, mark) in activity.items():
            least = self.limits["least_body"] if name == "body" else 1
            self.timers[name].note(goes_on, mark, least, self.time)

    def overdue(self):
        for name in TIMERS:
            if is_late(self.timers[name].since, self.limits[name], self.time):
                return name
        return None

    def spent(self, counts):
        return {name: counts[name] - self.before[name] for name in FLOODS}

    def flood(self, counts):
        spent = self.spent(counts)
        return next((name for name in FLOODS if spent[name] > self.limits[name]), None)

    def is_near(self, counts):
        """Whether more than a tenth of a budget is spent."""
        spent = self.spent(counts)
        return any(spent[name] > self.limits[name] // 10 for name in FLOODS)
