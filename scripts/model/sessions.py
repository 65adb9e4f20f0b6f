"""The lines of a table of sessions: each has an id, a weight and a payload, and the weights sum to
at most a limit. Ids are not counted."""

import collections
import itertools

import maps
from memory import Memory, error_of, made
from objects import SPREAD, Value
from shown import WHOLE, digest, list_text, show_error, some


class Session:
    """A session."""

    __slots__ = ("id", "weight", "payload")

    def __init__(self, id_, weight, payload):
        self.id = id_
        self.weight = weight
        self.payload = payload

    def __str__(self):
        return f"({self.id}, {self.weight}, {self.payload})"


class Sessions:
    """The sessions in the order of their last put or touch, by their ids."""

    __slots__ = ("sessions", "limit", "total", "memory")

    def __init__(self, limit=0, memory=None):
        self.sessions = collections.OrderedDict()
        self.limit = limit
        self.total = 0
        self.memory = memory or Memory()

    def leaving(self, id_, weight):
        """Returns the sessions that go so that the others and one of this id and weight fit."""
        old = self.sessions.get(id_)
        total = self.total - (old.weight if old else 0)
        gone = []
        for session in self.sessions.values():
            if total + weight <= self.limit:
                break
            if session.id != id_:
                total -= session.weight
                gone.append(session)
        return gone

    def put(self, session, gone):
        """Puts a session at the back, takes those that go, and returns the payload that its id
        had."""
        old = self.sessions.pop(session.id, None)
        self.sessions[session.id] = session
        self.total += session.weight - (old.weight if old else 0)
        for other in gone:
            self.take(other.id)
        return old and old.payload

    def take(self, id_):
        """Removes and returns the session of an id, or `None`."""
        session = self.sessions.pop(id_, None)
        if session is not None:
            self.total -= session.weight
        return session

    def is_given(self, id_, gone, effects):
        """Makes room for one more session, if its id is new and none goes."""
        if gone or id_ in self.sessions:
            return True
        return self.memory.reserve(1, len(self.sessions), effects) is None

    def is_given_list(self, id_, gone, effects):
        """Asks for a list of the sessions that go, or else makes room."""
        if gone:
            return effects.ask(effects.pair * len(gone))
        return self.is_given(id_, gone, effects)


def show_session(session):
    return f" {session.id}:{session.weight}:{session.payload.number}"


def mix_sessions(sessions):
    return [session.id ^ session.weight * SPREAD % 2**64 ^ session.payload.number
            for session in sessions]


def tail(table):
    """Shows the total and the list."""
    return f"| {table.total} |" + list_text(table.sessions.values(), show_session, mix_sessions)


def new(call, _table):
    return Sessions(call.number())


def with_capacity(call, _table):
    limit, capacity = call.number(), call.number()
    memory = made(capacity, call.effects)
    if memory is None:
        return show_error(call, error_of(capacity))
    return Sessions(limit, memory)


def show_refused(call, reason, session):
    """Shows the reason of a refusal and the payload that comes back."""
    call.show(f"refused {reason} {session.payload} #{session.payload.serial}")


def read_session(call):
    return Session(call.number(), call.number(), call.value())


def is_put(call, table, session):
    """Puts a session, and returns whether it is given."""
    if session.weight > table.limit:
        return False
    gone = table.leaving(session.id, session.weight)
    given = table.is_given_list(session.id, gone, call.effects)
    if given:
        table.put(session, gone)
    return given


def put(call, table):
    """A list of those that go is asked for, or else room for one more."""
    session = read_session(call)
    if session.weight > table.limit:
        show_refused(call, "TooHeavy", session)
        return
    gone = table.leaving(session.id, session.weight)
    given = table.is_given_list(session.id, gone, call.effects)
    if not given:
        show_refused(call, "NoRoom", session)
        return
    call.show(some(table.put(session, gone)))
    call.show("gone")
    call.show(f"{len(gone)}/{len(gone)}")
    show_sessions(call, gone)


def show_sessions(call, sessions):
    """Shows some sessions: all of them, or both ends and a digest."""
    shown = sessions if len(sessions) <= WHOLE else (sessions[0], sessions[-1])
    for session in shown:
        call.show(show_session(session).strip())
    if len(sessions) > WHOLE:
        call.show(digest(mix_sessions(sessions)))


def put_with(call, table):
    """Those that go are handed to a closure, which is dropped at the end, also if it is refused."""
    session = read_session(call)
    call.effects.drop_closure(call.serial())
    if session.weight > table.limit:
        show_refused(call, "TooHeavy", session)
        return
    gone = table.leaving(session.id, session.weight)
    if not table.is_given(session.id, gone, call.effects):
        show_refused(call, "NoRoom", session)
        return
    call.show(some(table.put(session, gone)))
    call.show("handed")
    show_sessions(call, gone)


def touch(call, table):
    session = touched(table, call.number())
    call.show(some(session and session.payload))


def touched(table, id_):
    """Returns the session of an id, which moves to the back, or `None`."""
    session = table.sessions.get(id_)
    if session is not None:
        table.sessions.move_to_end(id_)
    return session


def touch_mut(call, table):
    """Shows the payload of an id, and writes another in its place."""
    session, payload = touched(table, call.number()), call.value()
    if session is None:
        call.show("absent")
    else:
        call.show(session.payload)
        session.payload = payload


def remove(call, table):
    session = table.take(call.number())
    call.show(some(session and session.payload))


def retain(call, table):
    keeping = maps.Keeping(call)
    for session in list(table.sessions.values()):
        if not keeping.keeps_value(session.payload):
            table.take(session.id)
            call.effects.drop_value(session.payload)
    keeping.show(call)


def fill(call, table):
    """Puts sessions of numbered ids, up to one that is refused."""
    count, weight = call.number(), call.number()
    for number in range(count):
        session = Session(number, weight, Value(number, call.serial()))
        if not is_put(call, table, session):
            call.show(f"refused {number}")
            return
    call.show(count)


def reserve(call, table):
    show_error(call, table.memory.reserve(call.number(), len(table.sessions), call.effects))


def capacity(call, table):
    call.show(table.memory.capacity)


def total(call, table):
    call.show(table.total)


def limit(call, table):
    call.show(table.limit)


def length(call, table):
    call.show(len(table.sessions))


def iter_sessions(call, table):
    """Steps go from the front alone."""
    letters = call.word()
    left = len(table.sessions)
    front = itertools.islice(table.sessions.values(), len(letters))
    for _ in letters:
        session = next(front, None)
        left -= session is not None
        call.show(some(session))
        call.show(f"({left}, Some({left}))")
        call.show(left)


def drop(call, table):
    for session in table.sessions.values():
        call.effects.drop_value(session.payload)
    return Sessions()


LINES = {
    "new": new, "with_capacity": with_capacity, "put": put, "put_with": put_with, "touch": touch,
    "touch_mut": touch_mut, "fill": fill,
    "remove": remove, "retain": retain, "reserve": reserve, "capacity": capacity, "total": total,
    "limit": limit, "len": length, "iter": iter_sessions, "drop": drop,
}
# Lines that change no session.
READING = {"reserve", "capacity", "total", "limit", "len", "iter"}
