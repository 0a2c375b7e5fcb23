"""Order 6's rules for the receiver that keeps early messages, written from document 02 and not from the Rattle code, so
that the two check each other. The plain receiver's table and its refusals are those of mold_rules."""

import typing

from mold_rules import REFUSED_RECEIVER, TOP, Refused, packet_of, receiver_start, session_differs

SLOTS = 64
SLOT_SIZE = 1024
SLOTS_SIZE = SLOTS * SLOT_SIZE


class Early(typing.NamedTuple):
    session: bytes
    next: int
    limit: int
    ended: bool
    held: dict = {}  # messages by their numbers


class Delivered(typing.NamedTuple):
    """A message that a datagram delivers: it lies in the slots, or at an offset of the datagram."""

    number: int
    offset: typing.Optional[int]
    length: int


class Step(typing.NamedTuple):
    answer: tuple  # its name, and of deliver the first number, how many, how many are skipped
    request: tuple  # the first number wanted and how many, or nothing
    delivered: list
    kept: dict  # what is held anew
    after: Early


def early_start(session, number, limit):
    """Refused: 19."""
    return Early(*receiver_start(session, number, limit))


REFUSED_EARLY = Early(*REFUSED_RECEIVER)


def slot_of(number):
    """Where the slot of a number begins."""
    return number % SLOTS * SLOT_SIZE


def row_of(early, data, slots_size):
    """The plain table's answer by the number before the step. Refused: 11 to 16, 17, 18, 19, 20."""
    kind, first, places = packet_of(data)
    if session_differs(early, data[:10]):
        raise Refused(17)
    if early.ended:
        raise Refused(18)
    if slots_size != SLOTS_SIZE:
        raise Refused(19)
    if kind == "end" and first < early.next:
        raise Refused(20)
    if first > early.next:
        return "ahead"
    if kind == "end":
        return "ended"
    if kind == "heartbeat":
        return "quiet" if first == early.next else "old"
    return "deliver" if early.next < first + len(places) else "old"


def taken_one_by_one(early, data):
    """What is delivered, what is held then, what of that is new, and the number that is expected then."""
    _, first, places = packet_of(data)
    n, held, kept, delivered = early.next, dict(early.held), {}, []
    for number, (offset, length) in enumerate(places, first):
        if number == n:
            delivered.append(Delivered(n, offset, length))
            n += 1
            while n in held:
                delivered.append(Delivered(n, None, len(held.pop(n))))
                n += 1
        elif n < number <= n + SLOTS and length <= SLOT_SIZE and number not in held:
            held[number] = kept[number] = data[offset : offset + length]
    return delivered, held, kept, n


def request_of(early, number):
    """After the step: from n to just below the lowest held number, or the datagram's if none is held."""
    to = min(early.held, default=number)
    if early.ended or to <= early.next:
        return ()
    return early.next, min(to - early.next, early.limit)


def early_take(early, data, slots_size=SLOTS_SIZE):
    """A step. Refused: 11 to 16, 17, 18, 19, 20, and then nothing has changed."""
    row = row_of(early, data, slots_size)
    first = packet_of(data)[1]
    delivered, held, kept, n = taken_one_by_one(early, data)
    # only a receiver that was made up comes past the largest number: it stays there, with what it holds
    past = max(0, n - TOP)
    held, delivered = {number - past: m for number, m in held.items()}, delivered[: TOP - early.next]
    ended = row == "ended"
    after = Early(data[:10], n - past, early.limit, ended, {} if ended else held)
    values = (early.next, len(delivered), early.next - first) if row == "deliver" else ()
    return Step((row, *values), request_of(after, first), delivered, kept, after)


def will_deliver(early, data, slots_size=SLOTS_SIZE):
    """The messages that a datagram will deliver, by place."""
    try:
        return early_take(early, data, slots_size).delivered
    except Refused:
        return []
