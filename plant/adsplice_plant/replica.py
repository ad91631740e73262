"""A programme on one of several machines: what its feed has of the log that they have in common, and what that tells it of who leads.

Two threads use it. That of the member (members) says who leads, and hands on what the store has changed; its calls return at once. That of the
programme's feed reads and writes the log.
"""
from __future__ import annotations

import time
from collections import deque
from collections.abc import Callable
from dataclasses import replace

from . import following
from .etcd import Delete, Is, Pair, Put, after_prefix
from .shared_files import Shared, asked_key, file_key, files_prefix, name_of, over_key, shared_of
from .shared_log import Outrun, SharedLog, lead_key
from .members import FEEDS, LeaseKeys
from .events import Given
from .state import State, Way

MOST_WAITING = 4096  # lines that came and weren't taken in, after which the log is read anew
LONGEST = 3.0  # seconds that a machine which has the lead waits for its own controllers
RECOVERS = 3.0  # seconds for which controllers have to answer until their machine may lead again
DAY = 86_400
OVER = b"over"  # in place of who asks: nobody does any more


class Replica:
    """The programme `name` in the store `keys`, on this machine (`machine`). `fresh`: its state while nothing is known. `channels`: the names of its
    channels. `life`: answers a new name for a log. `me`: the name of this feed among those of the store (members)."""

    def __init__(self, keys: LeaseKeys, name: str, machine: str, fresh: State, channels: list[str], life: Callable[[], str],
                 now: Callable[[], float] = time.monotonic, me: str = "") -> None:
        self.keys, self.name, self.machine, self.life, self.now, self.me = keys, name, machine, life, now, me or machine
        self.log = SharedLog(keys, name, fresh)
        self.fresh = fresh
        self.won = self.leads = 0  # the revision at which it won the lead that it has, and by which it leads
        self.is_due = True  # whether the log is to be read, since who leads has changed, or what is known of it isn't right
        self.lines: deque[tuple[float, Pair]] = deque()  # that came and weren't taken in
        self.changed: deque[tuple[Pair, bool]] = deque()  # decision files that came or went
        self.is_ill, self.well_at = False, float("inf")  # whether its controllers don't answer, and since when they do again
        self.won_at = 0.0
        self.due_at: float | None = float("-inf")  # since when the log is to be read
        self.differed = 0  # how often one of its channels was made anew, since it differed
        self.files: dict[str, dict[str, Shared]] = {it: {} for it in channels}  # the decision files of each channel in the store
        self.lease, self.granted_at = 0, 0.0  # of a day, for what the others are to remember
        self.asked: dict[str, int] = {}  # the breaks that this feed has asked for, and isn't done with: their starts
        self.woken: Callable[[], None] = lambda: None

    # ---- for its member

    def token(self) -> int:
        """As in members.Programme."""
        return self.won

    def lead(self, token: int) -> None:
        """As in members.Programme."""
        self.won, self.leads, self.is_due, self.won_at = token, 0, True, self.now()  # (it leads once its controllers have what the log has)
        self.woken()

    def follow(self) -> None:
        """As in members.Programme."""
        self.won, self.leads, self.is_due = 0, 0, True
        self.woken()

    def read_anew(self) -> None:
        """Changes of the store may have been missed: the log is to be read."""
        self.won, self.leads, self.is_due = 0, 0, True
        self.woken()

    def fall_back(self) -> None:
        """Its feed begins anew, since a fault: the log is to be read, and it leads again once it has what that has."""
        self.leads, self.is_due = 0, True

    def take(self, pair: Pair) -> None:
        """As in members.Programme."""
        if self.leads or self.is_due:
            return
        self.lines.append((self.now(), pair))
        if len(self.lines) > MOST_WAITING:
            self.is_due = True
        self.woken()

    def take_file(self, pair: Pair, is_gone: bool) -> None:
        """As in members.Programme."""
        self.changed.append((pair, is_gone))
        self.woken()

    def has(self, channel: str) -> bool:
        """As in members.Programme."""
        return channel in self.files

    def is_well(self) -> bool:
        """As in members.Programme."""
        return not self.is_ill

    def behind(self) -> float:
        """How many seconds ago a line came that its controllers haven't, or the log was to be read; 0 if they have all."""
        if self.is_due:
            self.due_at = self.now() if self.due_at is None else self.due_at
            return self.now() - self.due_at
        self.due_at = None
        try:
            return max(0.0, self.now() - self.lines[0][0])
        except IndexError:  # (its feed has just taken the last one)
            return 0.0

    # ---- for its feed

    def lacks(self, own: State, channel: str) -> bool:
        """Whether the log has what this machine's controller of the `channel` hasn't, as far as that is known."""
        it = own.renditions[channel]
        is_given = it.controller.way is Way.THERE and it.controller.listed >= it.stands.entry
        return self.is_due or not is_given or not self.leads and bool(self.lines)

    def load(self, own: State) -> State:
        """Reads the log: the state with which its feed goes on, of which `own` is what this machine knew. If its controllers lack lines of the log, they
        are given these first, in order. Raises OSError."""
        self.is_due, won = False, self.won
        self.lines.clear()
        try:
            found, rest = self.log.load(own.life, following.since(own) if own.life else None)
            self.read_files()
        except OSError:
            self.is_due = True
            raise
        now = self.now()
        self.lines.extendleft((now, it) for it in reversed(rest))
        self.leads = 0
        if found is not None and (own.life != found.life or rest or own.entry <= found.entry):
            return replace(following.with_controllers(found, own), is_behind=bool(rest))
        if not won:  # (the store is new, or was put back to what it had before: what is known here is given by the machine that leads, as another log)
            return own
        found = replace(own, life=self.life())
        self.begin_to_lead(won)
        return found

    def may_lead(self, own: State) -> bool:
        """Whether it has the lead, doesn't lead yet, and this machine's controllers have what the log has, or it has waited long enough for them."""
        if not self.won or self.leads == self.won or self.is_due:
            return False
        return not self.lines and following.has_all(own) or self.now() - self.won_at >= LONGEST

    def is_next(self, own: State) -> bool:
        """Whether something of the log is to be taken up at once: it is to be read, this machine begins to lead by it, or its controllers get its next
        line."""
        return self.is_due or self.may_lead(own) or not self.leads and bool(self.lines) and following.has_all(own)

    def look_after(self, own: State) -> None:
        """Learns from the state whether this machine's controllers answer: they don't if one hasn't for some trials, and do again once all have for a while."""
        its = [it.controller for it in own.renditions.values()]
        if any(it.trials >= following.PATIENCE for it in its):
            self.is_ill, self.well_at = True, float("inf")
        elif self.is_ill and all(it.way is Way.THERE and not it.trials for it in its):
            self.well_at = min(self.well_at, self.now())
            self.is_ill = self.now() - self.well_at < RECOVERS
        else:
            self.well_at = float("inf")

    def newest(self, own: State) -> State:
        """The state after the newest line that has come, with what this machine's `own` controllers acknowledged."""
        is_new = False
        while self.lines and not self.is_due:
            try:
                is_new = self.log.take(self.lines.popleft()[1]) or is_new
            except Outrun:
                self.is_due = True
        return following.with_controllers(self.log.state(), own) if is_new else own

    def begin_to_lead(self, won: int) -> None:
        """It leads from now on, by the lead that it `won`."""
        self.leads = won
        self.log.lead(won)

    def next(self) -> Given | None:
        """The state after the next line that its controllers are to be given; none if none has come."""
        is_new = False
        while self.lines and not self.is_due and not is_new:
            try:
                is_new = self.log.take(self.lines.popleft()[1]) or is_new
            except Outrun:
                self.is_due = True
                return None
        return Given(self.log.state(), self.has_more()) if is_new else None

    def has_more(self) -> bool:
        """Whether a line waits that isn't taken in yet. (One that came while the log was read waits twice.)"""
        while self.lines and self.log.has(self.lines[0][1]):
            self.lines.popleft()
        return bool(self.lines)

    def write(self, state: State) -> None:
        """As SharedLog.write; if it isn't the one that leads any more, the log is to be read."""
        try:
            self.log.write(state)
        except Outrun:
            self.won, self.leads, self.is_due = 0, 0, True
            raise

    # ---- decision files

    def read_files(self) -> None:
        """Reads the decision files of its channels in the store. Raises OSError."""
        self.changed.clear()
        for channel in self.files:
            prefix = files_prefix(channel)
            self.files[channel] = {name_of(it.key): shared_of(it) for it in self.keys.read(prefix, after_prefix(prefix))[1]}

    def see_files(self) -> set[str]:
        """Takes in which decision files came or went; answers the channels of which some did. Raises Foreign."""
        found = set()
        while self.changed:
            pair, is_gone = self.changed.popleft()
            channel, name = pair.key.split("/")[-2], name_of(pair.key)
            if channel not in self.files:
                continue
            found.add(channel)
            if is_gone:
                self.files[channel].pop(name, None)
            else:
                self.files[channel][name] = shared_of(pair)
        return found

    def put_file(self, channel: str, name: str, it: Shared) -> None:
        """The `channel` has the decision file `name`, on all machines. Raises OSError."""
        self.keys.change([], [Put(file_key(channel, name), it.value())])
        self.files[channel][name] = it

    def is_over(self, channel: str, name: str, it: Shared) -> bool:
        """Whether the decision file `name` of the `channel` is over. Raises OSError."""
        return any(found.value == it.head() for found in self.keys.read(over_key(channel, name))[1])

    def remove_file(self, channel: str, name: str) -> None:
        """This machine's decision file `name` of the `channel` was removed. Raises OSError."""
        known = self.files[channel].get(name)
        if known is not None and known.machine == self.machine:
            self.keys.change([], [Delete(file_key(channel, name))])
            self.files[channel].pop(name, None)

    def finish_file(self, channel: str, name: str) -> None:
        """The decision file `name` of the `channel` is over: it goes, and for a day the machine that has it learns that. Raises OSError."""
        known = self.files[channel].get(name)
        if known is None or not self.leads:
            return
        done = self.keys.change([Is(lead_key(self.name), self.leads)], [Delete(file_key(channel, name)), Put(over_key(channel, name), known.head(), self.day())])
        if done.is_so:
            self.files[channel].pop(name, None)

    def day(self) -> int:
        """A lease that lasts for half a day at least, and a day at most. Raises OSError."""
        if not self.lease or self.now() - self.granted_at > DAY / 2:
            self.lease, self.granted_at = self.keys.grant(DAY), self.now()
        return self.lease

    # ---- questions

    def may_ask(self, id_: str, start: int) -> bool:
        """Whether the break `id_`, which begins at the instant `start`, is to be asked for: nobody has before, or the feed that has is gone, and its
        question was open. Raises OSError."""
        key, mine = asked_key(self.name, id_, start), self.me.encode()
        is_mine = self.keys.change([Is(key, 0)], [Put(key, mine, self.day())]).is_so
        for it in self.keys.read(key)[1] if not is_mine else ():
            asker = it.value.decode("utf-8", "replace")
            is_gone = it.value != OVER and asker != self.me and not self.keys.read(FEEDS + asker)[1]
            is_mine = it.value == mine or is_gone and self.keys.change([Is(key, it.revision)], [Put(key, mine, self.day())]).is_so
        if is_mine:
            self.asked[id_] = start
        return is_mine

    def finish_question(self, id_: str) -> None:
        """The question of this feed about the break `id_` is answered, or given up: nobody asks it again. Raises OSError."""
        start = self.asked.get(id_)
        if start is not None:
            self.keys.change([], [Put(asked_key(self.name, id_, start), OVER, self.day())])
            self.asked.pop(id_, None)
