"""Leads threads through every order of their steps: in which they take locks, wait, wake, look at a queue, start and end.

A world says which threads there are and what they do. One of them goes on at a time, up to its next step; then any that
can goes on. All choices are gone through, but none twice from one state: that is what the world's objects hold, and
where each thread stands with what its functions know. Besides going on, a thread may be interrupted, fail to start
another one, wait in vain until its time is over, or do at any step what an object does that is collected there.

If all that are left wait, a wake-up is lost or they wait for each other. If a state comes again on its own way, somebody
spins.
"""
import collections
import functools
import sys
import threading
import types
import unittest
from queue import Empty

WORDS = {int, float, str, bool, bytes, type(None)}
LONGEST = 400  # steps of an order


class Broken(AssertionError):
    """What a world promises doesn't hold, in an order that this tells."""


class Over(BaseException):
    """This run is given up."""


class Carrier(threading.Thread):
    """A thread that is used again."""

    idle = []

    def __init__(self):
        super().__init__(daemon=True)
        self.has_job = threading.Lock()
        self.has_job.acquire()
        self.start()

    @classmethod
    def carry(cls, job):
        carrier = cls.idle.pop() if cls.idle else cls()
        carrier.job = job
        carrier.has_job.release()

    def run(self):
        while True:
            self.has_job.acquire()
            self.job()


class Player:
    """A thread of a world. Where it stands: `step` is what it does next, `can` whether it can, `late` whether its time may be
    over, `frame` the call that it is in."""

    def __init__(self, led, act, name, is_main):
        self.led, self.act, self.name, self.is_main = led, act, name, is_main
        self.step, self.on, self.can, self.late, self.frame = "begin", None, yes, no, None
        self.way, self.is_done, self.error, self.is_begun, self.rests = None, False, None, False, False
        self.go = threading.Lock()
        self.go.acquire()

    def goes_on(self):
        if self.is_begun:
            self.go.release()
        else:
            self.is_begun = True
            Carrier.carry(self.run)

    def run(self):
        HERE.player = self
        try:
            self.act()
        except Over:
            pass
        except BaseException as error:
            self.error = error
        finally:
            HERE.player = self.frame = None
            self.is_done = True
            carrier = threading.current_thread()
            self.led.leave()
            Carrier.idle.append(carrier)


HERE = threading.local()
LED = None  # who leads now


def yes():
    return True


def no():
    return False


class Place:
    """A state on the way: which of so many moves is tried."""

    def __init__(self, key, moves):
        self.key, self.moves, self.chosen = key, moves, 0


class Led:
    """One run of a world, and what its threads take from `by`."""

    def __init__(self, way, seen, interrupts=0, fails=0, matches=True):
        self.way, self.seen, self.keys, self.matches = way, seen, {place.key for place in way}, matches
        self.interrupts, self.fails, self.drop = interrupts, fails, None
        self.players, self.time, self.at, self.told = [], 0, 0, []
        self.horizon = None  # up to when time may pass, if that is bounded; who waits for later may rest
        self.verdict, self.is_over, self.ended = None, False, threading.Lock()
        self.holds = yes
        self.ended.acquire()

    # What a world says.

    def plays(self, act, name=None, is_main=True):
        player = Player(self, act, name or f"player {len(self.players)}", is_main)
        self.players.append(player)
        return player

    def drops(self, act):
        """This is done once, at any step of any thread, or never."""
        self.drop = act

    def is_far(self, moment):
        return self.horizon is not None and moment > self.horizon

    def at_end(self, holds):
        self.holds = holds

    # One run.

    def run(self):
        """Whether it came to an end that is new. It may have been given up in a state that was seen before."""
        self.hand_on(None)
        self.ended.acquire()
        self.is_over = True
        for player in self.players:
            while player.is_begun and not player.is_done:
                player.go.release()
                self.ended.acquire()
        if isinstance(self.verdict, BaseException):
            raise self.verdict
        if self.verdict != "ended":
            return False
        try:
            for player in self.players:
                if player.error is not None and not isinstance(player.error, KeyboardInterrupt):
                    raise player.error
            self.holds()
        except BaseException as error:
            raise Broken(self.order(repr(error))) from error
        return True

    def order(self, what):
        return what + ", in the order\n" + "\n".join("    " + line for line in self.told)

    def moves(self, own):
        """Who may go on how, the one who runs first."""
        mine = sorted((it for it in self.players if not it.is_done), key=lambda it: it is not own)
        moves = [(it, "goes on") for it in mine if it.can()]
        moves += [(it, "is late") for it in mine if it.late()]
        if moves:
            if self.interrupts:
                moves += [(it, "interrupted") for it in mine if it.is_main and it.is_begun and (it.step != "wait" or it.on.lock.owner is None)]
                moves += [(it, "starts and is interrupted") for it in mine if it.is_main and it.step == "start"]
            if self.fails:
                moves += [(it, "fails") for it in mine if it.step == "start"]
            if self.drop is not None:
                moves += [(it, "drops") for it in mine if it.is_begun and it.step != "wait" and it.can()]
        return moves

    def choose(self, own):
        """The next move, or None at an end."""
        if self.is_over:
            return None
        moves = self.moves(own)
        if not moves:
            rest = [f"{it.name} in {it.step}" for it in self.players if not it.is_done and not it.rests]
            self.verdict = Broken(self.order("for good rests " + ", ".join(rest))) if rest else "ended"
            return None
        if self.at == len(self.way):
            if self.at == LONGEST:
                self.verdict = Broken(self.order("it goes on and on"))
                return None
            key = self.key()
            if key in self.keys:
                self.verdict = Broken(self.order("it spins"))
                return None
            if key in self.seen and self.matches:
                self.verdict = "seen"
                return None
            self.seen.add(key)
            self.keys.add(key)
            self.way.append(Place(key, len(moves)))
        place = self.way[self.at]
        assert place.moves == len(moves), "a world isn't the same each time"
        self.at += 1
        player, way = moves[place.chosen]
        self.told.append(f"{player.name}: {player.step} {way if way != 'goes on' else ''}")
        return player, way

    def hand_on(self, own):
        """Lets the next one go on: whether that is this one."""
        try:
            move = self.choose(own)
        except BaseException as error:
            move, self.verdict = None, error
        if move is None:
            self.is_over = True
            self.ended.release()
            return False
        player, player.way = move
        if player is own:
            return True
        player.goes_on()
        return False

    def leave(self):
        if self.is_over:
            self.ended.release()
        else:
            self.hand_on(None)

    def step(self, step, on=None, can=yes, late=no, rests=False):
        """One step of the thread that calls this; which way it goes."""
        me = getattr(HERE, "player", None)
        if me is None:
            return "goes on"
        while True:
            if self.is_over:
                raise Over
            me.step, me.on, me.can, me.late, me.rests, me.frame = step, on, can, late, rests, sys._getframe(1)
            if not self.hand_on(me):
                me.go.acquire()
            if self.is_over:
                raise Over
            if me.way == "drops":
                drop, self.drop = self.drop, None
                drop()
                continue
            if me.way == "interrupted":
                self.interrupts -= 1
                raise KeyboardInterrupt
            return me.way

    def key(self):
        told = Written(self)
        for player in self.players:
            told.add((player.name, player.is_done, player.is_begun))
            if not player.is_done:
                told.add((player.step, player.on, player.act))
                frame = player.frame
                while frame is not None and frame.f_code is not Player.run.__code__:
                    told.add((frame.f_code.co_name, frame.f_lasti))
                    for name, value in frame.f_locals.items():
                        told.add((name, value))
                    frame = frame.f_back
        told.add((self.interrupts, self.fails, self.drop, self.time, self.holds))
        return hash(tuple(told.words))

    # What a world's threads take from it.

    def lock(self):
        return Lock(self)

    def condition(self):
        return Condition(self)

    def queue(self):
        return Queue(self)

    def thread(self, target, name, daemon):
        return Thread(self, target, name)

    def current(self):
        return getattr(getattr(HERE, "player", None), "thread", None)

    def now(self):
        return self.time


class Written:
    """What a state is, as words. Things are numbered in the order in which they are met."""

    def __init__(self, led):
        self.words, self.known, self.kept = [], {id(led): 0}, []

    def add(self, it):
        kind = type(it)
        if kind in WORDS:
            self.words.append(it)
        elif kind is tuple:
            self.words.append(len(it))
            for each in it:
                self.add(each)
        elif isinstance(it, (type, types.ModuleType, types.BuiltinFunctionType, unittest.TestCase)):
            self.words.append(getattr(it, "__name__", ""))
        elif id(it) in self.known:
            self.words.append(-self.known[id(it)])
        else:
            self.known[id(it)] = len(self.known)
            self.kept.append(it)  # (or another thing may get its id)
            self.words.append(kind.__name__)
            self.add_inside(it, kind)

    def add_inside(self, it, kind):
        if kind in (list, collections.deque):
            self.add(tuple(it))
        elif kind in (set, frozenset):
            self.add(tuple(sorted(it, key=lambda each: getattr(each, "name", repr(each)))))
        elif kind is dict:
            self.add(tuple(it.items()))
        elif kind is types.FunctionType:  # noqa: E721
            self.add((it.__qualname__, it.__code__.co_firstlineno, it.__defaults__))
            for cell in it.__closure__ or ():
                try:
                    self.add(cell.cell_contents)
                except ValueError:
                    self.words.append("empty")
        elif kind is types.MethodType:  # noqa: E721
            self.add((it.__func__.__qualname__, it.__self__))
        elif kind is functools.partial:
            self.add((it.func, it.args))
        elif isinstance(it, BaseException):
            self.add(it.args)
        elif isinstance(it, Player):
            self.words.append(it.name)
        elif hasattr(it, "__dict__"):
            self.add(tuple(it.__dict__.items()))
        elif kind.__name__ == "count":
            self.words.append(repr(it))


class Lock:
    """One that the thread that has it may take again."""

    def __init__(self, led):
        self.led, self.owner, self.count = led, None, 0

    def is_free(self):
        return self.owner is None

    def acquire(self, blocking=True, timeout=-1):
        me = getattr(HERE, "player", None) or self.led
        if self.owner is not me:
            self.led.step("acquire", self, self.is_free)
            self.owner = me
        self.count += 1
        return True

    def release(self):
        self.count -= 1
        if self.count == 0:
            self.owner = None

    def __enter__(self):
        self.acquire()

    def __exit__(self, *_cause):
        self.release()


class Ticket:
    def __init__(self):
        self.is_told = False


class Condition:
    """As that of threading: whoever is interrupted as he waits may have been told meanwhile, and nobody else is then."""

    def __init__(self, led):
        self.led, self.lock, self.tickets = led, Lock(led), []

    def __enter__(self):
        self.lock.acquire()

    def __exit__(self, *_cause):
        self.lock.release()

    def acquire(self, *_given):
        return self.lock.acquire()

    def release(self):
        self.lock.release()

    def wait(self, timeout=None):
        lock, ticket = self.lock, Ticket()
        owner, count = lock.owner, lock.count
        lock.owner, lock.count = None, 0
        self.tickets.append(ticket)
        ends = None if timeout is None else self.led.time + round(timeout * 1e9)
        far = ends is not None and self.led.is_far(ends)
        try:
            way = self.led.step(
                "wait",
                self,
                lambda: ticket.is_told and lock.owner is None,
                no if ends is None or far else lambda: not ticket.is_told and lock.owner is None,
                far,
            )
        finally:
            lock.owner, lock.count = owner, count
            if ticket in self.tickets:
                self.tickets.remove(ticket)
        if way == "is late":
            self.led.time = max(self.led.time, ends)
        return ticket.is_told

    def wait_for(self, is_so, timeout=None):
        ends = None if timeout is None else self.led.time + round(timeout * 1e9)
        while not is_so():
            left = None if ends is None else (ends - self.led.time) / 1e9
            if left is not None and left <= 0:
                return False
            self.wait(left)
        return True

    def notify(self, many=1):
        for ticket in self.tickets[:many]:
            ticket.is_told = True
        del self.tickets[:many]

    def notify_all(self):
        self.notify(len(self.tickets))


class Queue:
    def __init__(self, led):
        self.led, self.items = led, collections.deque()

    def has_some(self):
        return bool(self.items)

    def put(self, item):
        self.led.step("put", self)
        self.items.append(item)

    def get(self):
        self.led.step("get", self, self.has_some, rests=True)
        return self.items.popleft()

    def get_nowait(self):
        self.led.step("look", self)
        if not self.items:
            raise Empty
        return self.items.popleft()


class Thread:
    def __init__(self, led, target, name):
        self.led, self.target, self.name, self.player = led, target, name, None

    def __hash__(self):
        return len(self.name)  # the same in each run

    def start(self):
        way = self.led.step("start", self)
        if way == "fails":
            self.led.fails -= 1
            raise RuntimeError("can't start new thread")
        self.player = self.led.plays(self.target, self.name, False)
        self.player.thread = self
        if way == "starts and is interrupted":
            self.led.interrupts -= 1
            raise KeyboardInterrupt

    def join(self):
        if self.player is None:
            raise RuntimeError("cannot join thread before it is started")
        self.led.step("join", self, lambda: self.player.is_done)


class Looked:
    """An attribute that is looked at or set without the lock, which then is a step of its own."""

    def __set_name__(self, owner, name):
        self.name = name

    def __get__(self, it, _owner):
        self.step(it, "look at")
        return it.__dict__[self.name]

    def __set__(self, it, value):
        self.step(it, "set")
        it.__dict__[self.name] = value

    def step(self, it, what):
        if LED is not None and it._lock is not None and it._lock.owner is not getattr(HERE, "player", None):
            LED.step(f"{what} {self.name}")


def look(at):
    """A step of a thread that looks at something without a lock."""
    if LED is not None:
        LED.step(f"look at {at}")


def every_order(world, waits, **given):
    """Goes through all orders of a world, in which threads take things from `waits.primitives`. How many states and ends there are."""
    global LED
    way, seen, ends, real = [], set(), 0, waits.primitives
    try:
        while True:
            LED = waits.primitives = Led(way, seen, **given)
            world(LED)
            ends += LED.run()
            while way and way[-1].chosen + 1 == way[-1].moves:
                way.pop()
            if not way:
                return len(seen), ends
            way[-1].chosen += 1
    finally:
        LED, waits.primitives = None, real
