"""Finds the first schedule on which a store differs from the expected output, its event, and a shortest schedule."""
import collections
import concurrent.futures
import contextlib
import dataclasses
import time

import answers
import reference
import shortening

MOST_RESTARTS = 10  # other schedules that are shortened too
VAIN_RESTARTS = 6  # so many of them in a row may lead to no shorter schedule
SHORT = 3  # a schedule with at most so many events is short enough


@dataclasses.dataclass
class Finding:
    """A difference of a whole schedule, and of the shortest schedule so far that also shows it."""
    schedule: reference.Schedule
    difference: answers.Difference
    short: reference.Schedule
    short_difference: answers.Difference
    is_minimal: bool = False  # whether no event can be left out of the shortest schedule
    is_steady: bool = True  # whether a second run of the schedule also shows the difference
    leads: bool = True  # whether the schedule that is being shortened now has become the shortest one

    def is_least(self):
        """Whether no schedule with fewer events shows a difference of this sort. A schedule without events is always
        tried."""
        return self.is_minimal and len(self.short.events) <= 1

    def note(self, schedule, difference):
        """Keeps the schedule if it is shorter than the shortest one, or a simpler variant of it."""
        if size_of(schedule) < size_of(self.short) or self.leads and size_of(schedule) == size_of(self.short):
            self.short, self.short_difference = schedule, with_event(difference, schedule)
            self.leads, self.is_minimal = True, False


def size_of(schedule):
    return len(schedule.events), *schedule.members.values()


def last_of(schedule, event):
    """The index of the event, or of the last event if the schedule has no such event. None if it has no events."""
    last = len(schedule.events) - 1
    return None if event is None or last < 0 else min(event, last)


def with_event(difference, schedule):
    """The difference. If its event is not known, the last event of the schedule counts."""
    if difference.event is None and schedule.events:
        return dataclasses.replace(difference, event=len(schedule.events) - 1)
    return difference


class Comparison:
    """A store, the source of the expected output, the number of schedules that agreed, and whether the store printed
    replies. `say` gets the progress. Up to `jobs` stores run at once."""

    def __init__(self, store, source, say, jobs=1):
        self.store, self.source, self.say, self.jobs = store, source, say, jobs
        self.agreed = 0
        self.has_replies = False
        self.finding = None
        self.slowest = 0.0
        self.end = None
        self.pool = concurrent.futures.ThreadPoolExecutor(jobs)

    def run(self, schedules, count, shorten_seconds, others=lambda: ()):
        """Runs the schedules up to the first difference, and shortens that schedule. After an interruption, `finding`
        still contains the difference that was found. `others` returns more schedules, which may lead to a shorter one.
        """
        try:
            found = self.search(schedules, count)
            if found:
                self.finding = Finding(*found, *found)
                self.end = time.monotonic() + shorten_seconds
                with contextlib.suppress(shortening.TimeIsUp):
                    self.study(others)
        finally:
            with self.store.stopping():
                self.pool.shutdown(cancel_futures=True)

    # ---- running the store

    def search(self, schedules, count):
        """The first schedule that shows a difference, with this difference, or None."""
        with contextlib.closing(self.in_order(schedules, self.store.seconds)) as results:
            for schedule, difference in results:
                if difference is not None:
                    return schedule, difference
                self.agreed += 1
                self.say(f"{self.agreed} of {count} schedules agree")
        return None

    def in_order(self, schedules, seconds):
        """Yields each schedule with its first difference, in order. Abandons the later schedules if it is closed."""
        schedules, waiting = iter(schedules), collections.deque()
        try:
            while True:
                for schedule in schedules:
                    waiting.append((schedule, self.pool.submit(self.difference, schedule, seconds)))
                    if len(waiting) > self.jobs:
                        break
                if not waiting:
                    return
                schedule, future = waiting.popleft()
                yield schedule, future.result()
        finally:
            futures = [future for _, future in waiting if not future.cancel()]
            if futures:
                with self.store.abandoning():
                    concurrent.futures.wait(futures)

    def difference(self, schedule, seconds, is_new=False):
        """The first difference that the schedule shows, or None."""
        ended = self.store.run(schedule, seconds, is_new)
        failure = answers.failed(ended, seconds, self.store.is_kept)
        if failure is not None:
            # The store may have printed more events than the schedule has.
            return dataclasses.replace(failure, event=last_of(schedule, failure.event))
        self.slowest = max(self.slowest, ended.seconds)
        self.has_replies = self.has_replies or answers.shows_replies(self.source.kinds, ended.text)
        found = answers.first_difference(self.source.expect(schedule), self.source.kinds, ended.text)
        if found is not None and found.is_failure():
            found.said = ended.said
        return found

    def brief(self):
        """The seconds for a run while a schedule is shortened. They are few if the store was fast on other schedules,
        so that a store that hangs does not use up the time."""
        return min(self.store.seconds, max(2.0, 10 * self.slowest) if self.slowest else self.store.seconds)

    def again(self, schedule, is_new=False):
        """Notes and returns the difference of a schedule, if it is of the sort that was found first."""
        difference = self.difference(schedule, self.brief(), is_new)
        if difference is None or difference.about != self.finding.difference.about:
            return None
        self.finding.note(schedule, difference)
        return difference

    def first_like(self, schedules):
        """The index of the first schedule with a difference of the sort that was found first, or None."""
        self.watch_time()
        with contextlib.closing(self.in_order(schedules, self.brief())) as results:
            for index, (schedule, difference) in enumerate(results):
                if difference is not None and difference.about == self.finding.difference.about:
                    self.finding.note(schedule, difference)
                    return index
                self.watch_time()
                self.say(f"shortening {self.finding.schedule.name}: {len(self.finding.schedule.events)} events, now"
                         f" {len(self.finding.short.events)}")
        return None

    def watch_time(self):
        if time.monotonic() > self.end:
            raise shortening.TimeIsUp

    # ---- studying a difference

    def study(self, others):
        """Looks for the event that shows the difference, and for a shortest schedule, until the time is up."""
        finding = self.finding
        self.say(f"{finding.schedule.name} differs, looking for the event")
        if not self.is_new_hang():
            finding.is_steady = self.again(finding.schedule, is_new=True) is not None
            if not finding.is_steady:
                return
        event = self.locate(finding.schedule, finding.difference.event)
        # The shortest schedule so far now ends with that event, and its report shows the difference there.
        shown = finding.difference if finding.difference.is_failure() else finding.short_difference
        finding.difference = dataclasses.replace(shown, event=event)
        self.shorten(finding.short)
        if not finding.difference.is_failure():
            self.restart(others())

    def is_new_hang(self):
        """Whether the store has hung without ever having ended. Each try then takes all the time of a schedule."""
        return not self.slowest and self.finding.difference.about == answers.HANG

    def locate(self, schedule, named):
        """The index of the event after which the difference shows. This is the named event, if the schedule up to that
        event shows the difference. Otherwise a binary search finds the event. A store that fails often does so at once,
        so the first event is tried before."""
        if named is not None and self.again(schedule.front(named + 1)):
            return named
        if self.finding.difference.is_failure() and self.again(schedule.front(1)):
            return 0
        same, differs = 0, len(schedule.events)
        while differs - same > 1:
            middle = (same + differs) // 2
            if self.again(schedule.front(middle)):
                differs = middle
            else:
                same = middle
        return max(differs - 1, 0)

    def shorten(self, schedule):
        """Shortens a schedule. `finding` contains the shortest schedule of all."""
        work = shortening.Shortening(schedule, self.first_like)
        if self.is_new_hang():
            work.leave_out_single_events()
        else:
            work.run()
        self.finding.is_minimal = self.finding.is_minimal or self.finding.leads

    def restart(self, schedules):
        """Shortens other schedules that show the same difference, because some of them may lead to a shorter one. Those
        that show it early come first."""
        finding, vain = self.finding, 0
        if len(finding.short.events) <= SHORT:
            return
        finding.leads = False
        fronts = sorted(self.alike(schedules), key=lambda front: len(front.events))
        for front in fronts[:MOST_RESTARTS]:
            # The search for the event may already have found that this schedule is the shortest.
            before, finding.leads = size_of(finding.short), front == finding.short
            self.shorten(front)
            vain = 0 if size_of(finding.short) < before else vain + 1
            if vain == VAIN_RESTARTS or len(finding.short.events) <= SHORT:
                return

    def alike(self, schedules):
        """The schedules that show the same difference, each up to the event that shows it."""
        like = self.finding.short_difference.like()
        with contextlib.closing(self.in_order(schedules, self.brief())) as results:
            for schedule, difference in results:
                self.watch_time()
                if (difference is not None and difference.like() == like
                        and schedule.name != self.finding.schedule.name):
                    yield schedule.front(self.locate(schedule, difference.event) + 1)
