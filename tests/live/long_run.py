"""Two thousand refreshes, each of which moves the window by one segment, with a break of 30 s every 20 segments.

Each owed text is made anew from the whole list: all segments that were ever shown, each with the pod that its run was
entered with, give the whole stitched list, of which the owed window is a part. The pods are shorter than their breaks, as
long, and longer; some breaks have none of their own, and are filled with the fallback, if there is one.
"""
from collections import namedtuple
from events import Case
from playlists import DURATIONS, Item, daterange, decisions, fallback, instant, origin_text, owed_text

REFRESHES = 2000
WINDOW = 8  # segments
EVERY = 20  # from the start of a break to that of the next
RUN = 3  # segments in a break, which lasts 30 s
SECONDS = 10  # a segment of the origin

# a pod that is shorter than its break, two that are as long, one that is longer, and none
PODS = (["a0", "a1"], ["x0", "y0", "x0"], ["y0"], None, ["a0", "a1", "x0", "y0", "x0"], None, ["x0", "x0", "x0"])
# which fallback is given before which refresh
FALLBACKS = {300: ["x0", "y0"], 700: ["a0", "a1", "x0", "y0", "x0"], 1100: None, 1500: ["y0"]}

# A segment that was shown, by its number, with the break that it is in, and the pod of that one's run, or None.
Shown = namedtuple("Shown", "number place pod")


def break_of(number):
    """The break in which a segment is, by its place, or None."""
    place, within = divmod(number - EVERY // 2, EVERY)
    return place if place >= 0 and within < RUN else None


def start_of(place):
    return EVERY * place + EVERY // 2


def own_pod(place):
    return PODS[place % len(PODS)]


def listed_breaks(first):
    """The breaks that the origin names while its window begins with this segment: from a window before they start on, and
    until they have left it."""
    count = (first + 2 * WINDOW) // EVERY + 1
    return [place for place in range(count) if first <= start_of(place) + RUN and start_of(place) < first + 2 * WINDOW]


def due(pod, seconds):
    """The shortest front of a pod, of a segment at least, that lasts so long; all of it if none does."""
    count, lasted = 0, 0.0
    while count < len(pod) and (count == 0 or lasted < seconds):
        lasted += float(DURATIONS[pod[count]])
        count += 1
    return pod[:count]


def runs_of(history):
    """The history in maximal runs of one filled break, and single segments that no pod stands for."""
    runs = []
    for shown in history:
        if shown.pod and runs and runs[-1][0].place == shown.place:
            runs[-1].append(shown)
        else:
            runs.append([shown])
    return runs


def stitched_list(history):
    """The items of all that was ever shown, each with the break that its pod is of, and the place at which the items of
    each segment begin. The newest run is open."""
    items, breaks, begins, discontinuity, is_after_pod = [], [], {}, 0, False
    runs = runs_of(history)
    for run in runs:
        begins.update((shown.number, len(items)) for shown in run)
        pod = run[0].pod
        if pod is None:
            discontinuity += is_after_pod
            items.append(Item(f"s{run[0].number}", instant(SECONDS * run[0].number), len(items), discontinuity, int(is_after_pod)))
            breaks.append(None)
        else:
            discontinuity += 1
            names = due(pod, SECONDS * len(run)) if run is runs[-1] else pod
            for step, name in zip([1] + [0] * len(names), names):
                items.append(Item(name, None, len(items), discontinuity, step))
                breaks.append(run[0].place)
        is_after_pod = pod is not None
    return items, breaks, begins


class Model:
    """A channel that keeps everything."""

    def __init__(self):
        self.history, self.written, self.start = [], 0, 0
        self.pods, self.fallback, self.entered, self.in_use = {}, None, None, set()

    def pod_for(self, place):
        return self.pods.get(place, self.fallback)

    def show(self, number):
        """One more segment, whose break is entered if it has a pod and wasn't entered last, or goes on."""
        place, pod = break_of(number), None
        before = self.history[-1] if self.history else None
        if place is not None and before and before.pod and before.place == place:
            pod = before.pod
        elif place is not None and number == start_of(place):
            pod = self.pod_for(place)
        if pod:
            self.entered = place
        self.history.append(Shown(number, place, pod))

    def refresh(self, first):
        """The window that is owed after the segments from this one on were shown."""
        fresh = range(len(self.history), first + WINDOW)
        for number in fresh:
            self.show(number)
        items, breaks, begins = stitched_list(self.history)
        self.start = min(begins[first], self.written) if self.written else begins[first]
        self.written = len(items)
        self.in_use = ({place for place in breaks[self.start:]} | {self.entered}) - {None}
        self.keep_pods()
        return items[self.start:], len(fresh)

    def keep_pods(self):
        """Each break in use keeps the pod that it was entered with; the pods of those that were used and aren't any more go."""
        runs = {shown.place: shown.pod for shown in self.history[-3 * WINDOW:] if shown.pod}
        gone = {place for place in runs if place not in self.in_use}
        self.pods = {place: pod for place, pod in self.pods.items() if place not in gone}
        self.pods.update((place, runs[place]) for place in self.in_use if place in runs)

    def why(self, place):
        if place in self.in_use:
            return "Filled"
        return "Waiting" if self.pod_for(place) else "NotDecided"


def long_run():
    case, model = Case("two thousand refreshes").channel(), Model()
    decided = -1
    for first in range(REFRESHES):
        if first in FALLBACKS:
            model.fallback = FALLBACKS[first]
            case.decide(fallback(model.fallback))
        listed = listed_breaks(first)
        for place in listed:
            if place > decided:
                decided = place
                if own_pod(place):
                    model.pods[place] = own_pod(place)
                    case.decide(decisions((f"break {place}", own_pod(place))))
        last = first + WINDOW - 1
        tags = {place: daterange(f"break {place}", SECONDS * start_of(place)) for place in listed}
        window, fresh = model.refresh(first)
        case.refresh(origin_text(first, last, ranges=tags.values(), times={first: instant(SECONDS * first)}),
                     f"ok {window[0].media} {len(window)} {fresh}")
        is_timed = any(item.time for item in window)
        case.playlist(owed_text(window, ranges=[tag for place, tag in tags.items() if is_timed and place not in model.in_use]))
        if first % 50 == 0:
            case.known(*(f"break {place} {model.why(place)}" for place in listed))
    return case
