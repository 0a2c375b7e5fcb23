"""The boundary as `include/eiderwagon.h` has it: how states lie in bytes, what codes mean, how many words each function
sets, and the order of the grounds. No other module knows these: where the boundary changes, this one does. What is
answered comes from the documents' rules."""
import inspect
import struct

import capture_rules as capture
import early_rules as early
import missing_edges as missing
import mold_rules as mold
import session_rules as session
import soup_rules as soup
import store_rules as store
import transmitter_rules as transmitter
from early_rules import SLOTS_SIZE, Early, slot_of
from lines import FILL, Answer, room
from mold_rules import Receiver, Refused
from soup_rules import SENT

# ---- codes: a name's place is its code, and a code without a name is that of place 0

KINDS = ("", "data", "heartbeat", "end")
TAKEN = ("", "deliver", "old", "quiet", "ask", "ended")
TAKEN_EARLY = ("", "deliver", "old", "quiet", "ahead", "ended")
STEPS = (
    "need more",
    "accepted",
    "rejected",
    "sequenced",
    "unsequenced",
    "heartbeat",
    "debug",
    "logged out",
    "end of session",
)
LETTERS = {0: "need more", **{ord(letter): letter for sent in SENT.values() for letter in sent}}
SENDERS = ("server", "client")


def named(names, code):
    return names[code] if code < len(names) else names[0]


# ---- states and cursors, little-endian. The first byte is the kind's code while the state is open, and 0 where a call
# lays one that isn't; any other byte means the same as 0

CODES = range(0xE1, 0xEA)
CURSOR_CODE, RECEIVER_CODE, SERVER_CODE, CLIENT_CODE, CAPTURE_CODE, TRANSMITTER_CODE, EARLY_CODE, *LAST_CODES = CODES
WALK_CODE, MISSING_CODE = LAST_CODES
NOT_OPEN = 0
NOT_OPEN_TOO = 2  # a first byte that no call lays, and that no kind has as its code

CURSOR = struct.Struct("<BQH")  # code, place, messages left
RECEIVER = struct.Struct("<B10sQH")  # code, session, next number, asking limit
SESSION = struct.Struct("<B10sQB")  # code, session, last or next number, phase
FRONT = struct.Struct("<BB")  # of a reading: code, stage; a receiver that keeps early messages follows
COUNTS = struct.Struct("<6Q")  # behind it: records, five counts
TRANSMITTER = struct.Struct("<BQQ")  # code, messages that went out, the bytes of their data
EARLY = struct.Struct("<B10sQHQ")  # code, session, next number, asking limit, held numbers; lengths follow
LENGTHS = struct.Struct(">64H")  # of the messages in the slots
WALK = struct.Struct("<BQHQH")  # code, number to come, messages left, place, messages left there
MISSING = struct.Struct("<BB10sQQQB")  # code, stage, session, highest next number, records left, closed, refused
WORD = struct.Struct(">Q")  # a word that a line gives or shows as bytes: of places and of edges

CURSOR_SIZE, RECEIVER_SIZE, SERVER_SIZE, CLIENT_SIZE = CURSOR.size, RECEIVER.size, SESSION.size, SESSION.size
EARLY_SIZE, WALK_SIZE = EARLY.size + LENGTHS.size, WALK.size
CAPTURE_SIZE = FRONT.size + EARLY_SIZE + COUNTS.size
TRANSMITTER_SIZE, MISSING_SIZE = TRANSMITTER.size, MISSING.size
# the edges of missing ranges, in bytes, and the room that their text needs, however short it is
EDGES_SIZE, MISSING_ROOM = missing.WORDS * WORD.size, 204898
# fixed sizes of inputs
NAME_SIZE, USERNAME_SIZE, PASSWORD_SIZE = 10, 6, 10

# phases and stages as they are laid: of what is open, and of what isn't. Every other byte is read as the first of each
OPEN_SERVER, SHUT_SERVER = {"waiting": 1, "in": 2}, {"closed": 0}
OPEN_CLIENT, SHUT_CLIENT = {"asked": 1, "in": 2}, {"closed": 0, "ended": 3}
OPEN_STAGE, SHUT_STAGE = {"settings": 1, "records": 2}, {"refused": 0, "done": 3}


def laid(code, opened, shut, state):
    """The first byte and the phase of a state."""
    return (code, opened[state]) if state in opened else (NOT_OPEN, shut[state])


def meant(code, opened, shut, first, phase):
    """What a first byte and a phase mean."""
    states = opened if first == code else shut
    return next((state for state, byte in states.items() if byte == phase), next(iter(states)))


def cursor_bytes(cursor):
    return CURSOR.pack(CURSOR_CODE, *cursor)


def cursor_in(data):
    first, *cursor = CURSOR.unpack_from(data)
    return tuple(cursor) if first == CURSOR_CODE else (0, 0)


def receiver_bytes(receiver):
    return RECEIVER.pack(NOT_OPEN if receiver.ended else RECEIVER_CODE, *receiver[:3])


def receiver_in(data):
    first, *fields = RECEIVER.unpack_from(data)
    return Receiver(*fields, first != RECEIVER_CODE)


def server_bytes(server):
    first, phase = laid(SERVER_CODE, OPEN_SERVER, SHUT_SERVER, server.state)
    return SESSION.pack(first, server.session, server.last, phase)


def server_in(data):
    first, name, last, phase = SESSION.unpack_from(data)
    return session.Server(name, last, meant(SERVER_CODE, OPEN_SERVER, SHUT_SERVER, first, phase))


def client_bytes(client):
    first, phase = laid(CLIENT_CODE, OPEN_CLIENT, SHUT_CLIENT, client.state)
    return SESSION.pack(first, client.session, client.number, phase)


def client_in(data):
    first, name, number, phase = SESSION.unpack_from(data)
    return session.Client(name, number, meant(CLIENT_CODE, OPEN_CLIENT, SHUT_CLIENT, first, phase))


def lengths_with(before, kept):
    """The lengths of what is in the slots, in a receiver's bytes, with those of some messages that are held anew."""
    lengths = list(LENGTHS.unpack_from(before, EARLY.size))
    for number, message in kept.items():
        lengths[number % early.SLOTS] = len(message)
    return LENGTHS.pack(*lengths)


def slots_with(slots, kept):
    """The slots with some messages, each from the first byte of its slot on."""
    for number, message in kept.items():
        at = slot_of(number)
        slots = slots[:at] + message + slots[at + len(message) :]
    return slots


def early_bytes(receiver, before=bytes(EARLY_SIZE), kept=None):
    """A receiver that keeps early messages, over the bytes before it: of these the lengths stay. Without `kept`, what
    it holds is new."""
    word = sum(1 << (number - receiver.next - 1) for number in receiver.held)
    first = NOT_OPEN if receiver.ended else EARLY_CODE
    return EARLY.pack(first, *receiver[:3], word) + lengths_with(before, receiver.held if kept is None else kept)


def early_in(data, slots):
    """A length that was made up ends with the slots."""
    first, session, n, limit, word = EARLY.unpack_from(data)
    lengths = LENGTHS.unpack_from(data, EARLY.size)
    held = {}
    for number in (n + 1 + bit for bit in range(64) if word >> bit & 1):
        held[number] = slots[slot_of(number) :][: lengths[number % early.SLOTS]]
    return Early(session, n, limit, first != EARLY_CODE, held)


def walk_bytes(walk):
    return WALK.pack(WALK_CODE, *walk)


def walk_in(data):
    first, *walk = WALK.unpack_from(data)
    return tuple(walk) if first == WALK_CODE else (0, 0, 0, 0)


def reading_bytes(reading, before=bytes(CAPTURE_SIZE), kept=None):
    report = reading.report
    front = FRONT.pack(*laid(CAPTURE_CODE, OPEN_STAGE, SHUT_STAGE, reading.stage))
    receiver = early_bytes(report.receiver, before[FRONT.size :], kept)
    return front + receiver + COUNTS.pack(report.records, *report.tally)


def reading_in(data, slots=room(SLOTS_SIZE)):
    stage = meant(CAPTURE_CODE, OPEN_STAGE, SHUT_STAGE, *FRONT.unpack_from(data))
    records, *counts = COUNTS.unpack_from(data, FRONT.size + EARLY_SIZE)
    receiver = early_in(data[FRONT.size :], slots)
    return capture.Reading(stage, capture.Report(receiver, min(records, capture.MOST_RECORDS), capture.Tally(*counts)))


def transmitter_bytes(sent):
    return TRANSMITTER.pack(TRANSMITTER_CODE, *sent)


def transmitter_in(data):
    first, *sent = TRANSMITTER.unpack_from(data)
    return tuple(sent) if first == TRANSMITTER_CODE else transmitter.PAST_ALL


def missing_bytes(reading):
    stage, left, notes = reading
    first, stage = laid(MISSING_CODE, OPEN_STAGE, SHUT_STAGE, stage)
    return MISSING.pack(first, stage, notes.session, notes.highest, left, notes.closed, notes.refused)


def missing_in(data):
    first, stage, session, highest, left, closed, refused = MISSING.unpack_from(data)
    stage = meant(MISSING_CODE, OPEN_STAGE, SHUT_STAGE, first, stage)
    notes = missing.Notes(session, highest, closed, refused != 0)
    return missing.Reading(stage, min(left, capture.MOST_RECORDS), notes)


def words_bytes(words):
    """Words as a line gives and shows them."""
    return b"".join(map(WORD.pack, words))


def words_in(data):
    """Bytes left over are no word."""
    return [word for (word,) in WORD.iter_unpack(data[: len(data) // WORD.size * WORD.size])]


def by_hand(state, first, phase=None):
    """A state with another first byte, and with another phase or stage where one is given."""
    at = 1 if len(state) in (CAPTURE_SIZE, MISSING_SIZE) else SESSION.size - 1
    made = bytes([first]) + state[1:]
    return made if phase is None else made[:at] + bytes([phase]) + made[at + 1 :]


# ---- what a function gives: the words that it sets, what it lays at the front of the lent bytes, of some functions
# what they write into a second output, and of some the slots as they leave them


def located(found):
    return [1, *found] if found else [0, 0, 0]


def written(data):
    return [len(data)], data


def mold_read(a):
    kind, first, places = mold.packet_of(a)
    return [KINDS.index(kind), first, len(places)], b""


def mold_next(s, a):
    cursor = cursor_in(s)
    found = mold.cursor_located(cursor, a)
    # where no message is there no byte changes, of bytes that are no cursor neither
    return located(found), cursor_bytes(mold.cursor_next(cursor, a)) if found else b""


def lengths_bytes(lengths):
    """Lengths as a line gives them, two bytes each."""
    return b"".join(length.to_bytes(2, "big") for length in lengths)


def lengths_in(pairs):
    return [length for (length,) in struct.iter_unpack(">H", pairs)]


def ten(name):
    """A name of another size is refused behind a MoldUDP64 writer's own grounds, which take it for ten bytes."""
    return name[:NAME_SIZE].ljust(NAME_SIZE)


def mold_write_data(a, n, b, c):
    return written(mold.messages_packet(ten(a), n, lengths_in(b), c))


def store_answer(a, n, b, c, m, d):
    """A name of another size is 41 in the place of 53, behind the grounds that need none."""
    lengths = lengths_in(b)
    store.check_store(n, lengths, c, m)
    mold.request_of(d)
    if len(a) != NAME_SIZE:
        raise Refused(41)
    return written(store.answer_packet(a, n, lengths, c, m, d))


def transmitter_start(n, a, b, m):
    transmitter.check_run(n, lengths_in(a), b, m)
    return [], transmitter_bytes((0, 0))


def transmitter_next(s, a, n, b, c, m):
    packet, sent = transmitter.next_packet(ten(a), n, lengths_in(b), c, m, transmitter_in(s))
    return [len(packet)], transmitter_bytes(sent), packet


def receiver_take(s, a):
    (answer, *values), after = mold.receiver_take(receiver_in(s), a)
    return [TAKEN.index(answer), *values, *[0] * (3 - len(values))], receiver_bytes(after)


def places_bytes(places):
    """Places as a line gives them: two words each."""
    return b"".join(words_bytes(place) for place in places)


def places_room(words):
    """So many words for places, before the call."""
    return room(WORD.size * words)


def receiver_deliver(s, a):
    return *receiver_take(s, a), places_bytes(mold.delivered_places(receiver_in(s), a))


def soup_read(a, n):
    packet = soup.front_of(named(SENDERS, min(n, 1)), a)
    if packet is None:
        return [0, 0, 0], b""
    return [a[2], packet.size, ord(packet.reason) if packet.reason else packet.number or 0], b""


def soup_scan(a, n):
    return list(soup.scan_of(named(SENDERS, min(n, 1)), a)), b""


def soup_write_login(a, b, c, n):
    return written(soup.login_packet(a, b, c, n))


def step_words(answer):
    values = [ord(value) if isinstance(value, bytes) else value for value in answer.values.values()]
    return [STEPS.index(answer.name), answer.size, *values, *[0] * (3 - len(values))]


def table_and_front(a, b):
    """The grounds of a server's step that need no server."""
    if len(session.records_of(a)) > session.MOST_ACCOUNTS:
        raise Refused(19)
    soup.front_of("client", b)


def server_set_last(s, n):
    return [], server_bytes(session.server_set_last(server_in(s), n))


def server_step(s, a, b):
    answer, after = session.server_step(server_in(s), a, b)
    # need more changes no byte, of a state that was made by hand neither
    return step_words(answer), server_bytes(after) if answer.size else b""


def server_reply(s, a, b):
    server = server_in(s)
    answer, after = session.server_step(server, a, b)
    reply = session.reply_to(server, answer)
    return [*step_words(answer), len(reply)], server_bytes(after) if answer.size else b"", reply


def client_step(s, a):
    answer, after = session.client_step(client_in(s), a)
    return step_words(answer), client_bytes(after) if answer.size else b""


def early_step(s, a, c):
    """The words of a step, the receiver and the slots after it."""
    step = early.early_take(early_in(s, c), a, len(c))
    (answer, *values), asked = step.answer, [1, *step.request] if step.request else [0, 0, 0]
    words = [TAKEN_EARLY.index(answer), *values, *[0] * (3 - len(values)), *asked]
    return words, early_bytes(step.after, s, step.kept), slots_with(c, step.kept)


def early_take(s, a, c):
    words, state, slots = early_step(s, a, c)
    return words, state, b"", slots


def part(message):
    """Whether a message lies in the slots, its offset and its length."""
    held = message.offset is None
    return int(held), slot_of(message.number) if held else message.offset, message.length


def early_places_bytes(messages):
    """Places as a line gives them: three words each."""
    return places_bytes(part(message) for message in messages)


def early_deliver(s, a, c):
    words, state, slots = early_step(s, a, c)
    return words, state, early_places_bytes(early.will_deliver(early_in(s, c), a)), slots


def right_slots(slots):
    if len(slots) != SLOTS_SIZE:
        raise Refused(19)


def early_count(a, b, c):
    right_slots(c)
    return [len(early.will_deliver(early_in(b, c), a))], b""


def early_locate(a, b, c, n):
    right_slots(c)
    messages = early.will_deliver(early_in(b, c), a)
    return [1, *part(messages[n])] if n < len(messages) else [0] * 4, b""


def early_walk(a, b, c):
    right_slots(c)
    receiver = early_in(b, c)
    many, cursor = len(early.will_deliver(receiver, a)), mold.cursor_start(a)
    if cursor[1]:
        # behind the datagram's messages with lower numbers
        cursor = mold.cursor_skip(cursor, a, min(cursor[1], max(0, receiver.next - mold.packet_of(a)[1])))
    return [], walk_bytes((receiver.next, many, *cursor))


def early_next(s, a, b, c):
    right_slots(c)
    (number, left, *cursor), held = walk_in(s), early_in(b, c).held
    found = mold.cursor_located(cursor, a)
    if left == 0 or (number not in held and not found):
        # no byte changes, of bytes that are no walk neither
        return [0] * 4, b""
    there = early.Delivered(number, *((None, len(held[number])) if number in held else found))
    return [1, *part(there)], walk_bytes((min(mold.TOP, number + 1), left - 1, *mold.cursor_next(cursor, a)))


def capture_feed(s, a, c):
    right_slots(c)
    after, used, kept = capture.feed(reading_in(s, c), a)
    over = after.stage in ("done", "refused")
    return [used, int(over)], reading_bytes(after, s, kept) if used or over else b"", b"", slots_with(c, kept)


def capture_finish(s, a, c):
    right_slots(c)
    after, kept = capture.finish(reading_in(s, c), a)
    return [], reading_bytes(after, s, kept), b"", slots_with(c, kept)


def right_edges(edges):
    """Their words. Refused: 19, where they aren't as many as there have to be."""
    words = words_in(edges)
    if len(words) != missing.WORDS:
        raise Refused(19)
    return words


def missing_feed(s, a, c):
    after, words, used = missing.feed(missing_in(s), right_edges(c), a)
    over = after.stage in ("done", "refused")
    edges = words_bytes(words) + c[EDGES_SIZE:]
    return [used, int(over)], missing_bytes(after) if used or over else b"", b"", edges


def missing_finish(s, a, c):
    after, words = missing.finish(missing_in(s), right_edges(c), a)
    return [], missing_bytes(after), b"", words_bytes(words) + c[EDGES_SIZE:]


def missing_count(a, c):
    reading, words = missing_in(a), right_edges(c)
    ranges = missing.ranges_of(reading, words)
    return [int(missing.is_listed(reading)), len(ranges), missing.total_of(ranges)], b""


def missing_range(a, c, n):
    ranges = missing.ranges_of(missing_in(a), right_edges(c))
    return located(ranges[n] if n < len(ranges) else None), b""


def missing_write(a, c, s):
    text = missing.text_of(missing_in(a), right_edges(c))
    if len(s) < MISSING_ROOM:
        raise Refused(41)
    return written(text)


# ---- the functions


WRITE_SLOTS = (early_take, early_deliver, capture_feed, capture_finish, missing_feed, missing_finish)
READ_SLOTS = (early_count, early_locate, early_walk, early_next, missing_count, missing_range, missing_write)


class Function:
    """A function that hosts call: its number in the program; its rule, from a line's fields to the words and to what it
    lays at the front of the lent bytes; how many words it sets, and the names of the first one; the field that is its
    state, with its size, and what it refuses without looking at that; and the inputs of a fixed size, each with the
    refusal of another one.

    The order of the grounds: those that need no state; 41 for a state that is too short; the state's own; and last 41,
    for an input of a fixed size where the function has no other ground, a short output, and too few words."""

    def __init__(self, number, rule, words=0, names=None, state=None, before=None, **sized):
        self.number, self.rule, self.words, self.names, self.before = number, rule, words, names, before
        self.state, self.sized = state or {}, sized
        self.keys = inspect.signature(rule).parameters
        # the field of a second output
        self.second = {receiver_deliver: "d", server_reply: "c", transmitter_next: "d", early_deliver: "d"}.get(rule)
        # that of slots or edges, which some functions only read
        self.slots = "c" if rule in (*WRITE_SLOTS, *READ_SLOTS) else None
        self.writes_slots = rule in WRITE_SLOTS

    def other_sizes(self, fields, refusals):
        """Refuses an input of another size than its own, on one of these grounds."""
        for key, (size, refusal) in self.sized.items():
            if refusal in refusals and len(fields[key]) != size:
                raise Refused(refusal)

    def given(self, fields):
        """The words, what is laid, and what is written into a second output. Refused: by every ground but too little
        room."""
        self.other_sizes(fields, (19, 46))
        if self.before:
            self.before(**{key: fields[key] for key in inspect.signature(self.before).parameters})
        if any(len(fields[key]) < size for key, size in self.state.items()):
            raise Refused(41)
        values, front, *others = self.rule(**{key: fields[key] for key in self.keys})
        self.other_sizes(fields, (41,))
        second, slots = [*others, *(b"", None)[len(others) :]]
        return values, front, second, slots

    def answer(self, fields, words):
        lent, before = fields.get("s", b""), [FILL] * words
        also = fields[self.second] if self.second else None
        slots = fields[self.slots] if self.writes_slots else None
        try:
            values, front, second, written_slots = self.given(fields)
            if len(front) > len(lent) or len(second) > len(also or b"") or words < self.words:
                raise Refused(41)
        except Refused as refusal:
            return Answer(refusal.args[0], before, lent, [refusal.args[0]], also, slots)
        assert len(values) == self.words
        said = [self.names[values[0]], *values[1:]] if self.names else values
        written_too = second + also[len(second) :] if self.second else None
        left = front + lent[len(front) :]
        return Answer(0, [*values, *before[len(values) :]], left, said, written_too, written_slots)


# a session's name: at a start, at a MoldUDP64 writer, which has no ground of its own, and at a SoupBinTCP writer
NAME_AT_START, NAME_AT_MOLD, NAME_AT_SOUP = (NAME_SIZE, 19), (NAME_SIZE, 41), (NAME_SIZE, 46)

# By subject, as the modules of the crate `vector_calls` have them, each from its own number on.
MOLD, RECEIVERS, SOUP, SERVERS, CLIENTS, CAPTURES, STORES, TRANSMITTERS, EARLIES, MISSINGS = range(0, 200, 20)

FUNCTIONS = {
    "mold_read": Function(MOLD, mold_read, 3, KINDS),
    "mold_locate": Function(MOLD + 1, lambda a, n: (located(mold.message_located(a, n)), b""), 3),
    "mold_walk": Function(MOLD + 2, lambda a: ([], cursor_bytes(mold.cursor_start(a)))),
    "mold_next": Function(MOLD + 3, mold_next, 3, state={"s": CURSOR_SIZE}),
    "mold_write_data": Function(MOLD + 4, mold_write_data, 1, a=NAME_AT_MOLD),
    "mold_write_heartbeat": Function(
        MOLD + 5, lambda a, n: written(mold.messages_packet(ten(a), n, [], b"")), 1, a=NAME_AT_MOLD
    ),
    "mold_write_end": Function(MOLD + 6, lambda a, n: written(mold.end_packet(ten(a), n)), 1, a=NAME_AT_MOLD),
    "mold_read_request": Function(MOLD + 7, lambda a: (list(mold.request_of(a)), b""), 2),
    "mold_write_request": Function(
        MOLD + 8, lambda a, n, m: written(mold.request_packet(ten(a), n, m)), 1, a=NAME_AT_MOLD
    ),
    "receiver_start": Function(
        RECEIVERS, lambda a, n, m: ([], receiver_bytes(mold.receiver_start(a, n, m))), a=NAME_AT_START
    ),
    "receiver_take": Function(
        RECEIVERS + 1, receiver_take, 4, TAKEN, {"s": RECEIVER_SIZE}, lambda a: mold.packet_of(a)
    ),
    "receiver_deliver": Function(
        RECEIVERS + 3, receiver_deliver, 4, TAKEN, {"s": RECEIVER_SIZE}, lambda a: mold.packet_of(a)
    ),
    "receiver_walk": Function(RECEIVERS + 2, lambda a, n, m: ([], cursor_bytes(mold.delivery_start(a, n, m)))),
    "soup_read": Function(SOUP, soup_read, 3, LETTERS),
    "soup_scan": Function(SOUP + 1, soup_scan, 3),
    "soup_write_debug": Function(SOUP + 2, lambda a: written(soup.packet_of(b"+", a)), 1),
    "soup_write_accepted": Function(SOUP + 3, lambda a, n: written(soup.accepted_packet(a, n)), 1, a=NAME_AT_SOUP),
    "soup_write_rejected": Function(SOUP + 4, lambda n: written(soup.rejected_packet(bytes([n]))), 1),
    "soup_write_sequenced": Function(SOUP + 5, lambda a: written(soup.packet_of(b"S", a)), 1),
    "soup_write_server_heartbeat": Function(SOUP + 6, lambda: written(soup.packet_of(b"H")), 1),
    "soup_write_end": Function(SOUP + 7, lambda: written(soup.packet_of(b"Z")), 1),
    "soup_write_login": Function(
        SOUP + 8, soup_write_login, 1, a=(USERNAME_SIZE, 46), b=(PASSWORD_SIZE, 46), c=NAME_AT_SOUP
    ),
    "soup_write_unsequenced": Function(SOUP + 9, lambda a: written(soup.packet_of(b"U", a)), 1),
    "soup_write_client_heartbeat": Function(SOUP + 10, lambda: written(soup.packet_of(b"R")), 1),
    "soup_write_logout": Function(SOUP + 11, lambda: written(soup.packet_of(b"O")), 1),
    "server_start": Function(SERVERS, lambda a, n: ([], server_bytes(session.server_start(a, n))), a=NAME_AT_START),
    "server_step": Function(SERVERS + 1, server_step, 5, STEPS, {"s": SERVER_SIZE}, table_and_front),
    "server_set_last": Function(
        SERVERS + 2, server_set_last, state={"s": SERVER_SIZE}, before=lambda n: session.check_last(n)
    ),
    "server_reply": Function(SERVERS + 3, server_reply, 6, STEPS, {"s": SERVER_SIZE}, table_and_front),
    "client_start": Function(CLIENTS, lambda a, n: ([], client_bytes(session.client_start(a, n))), a=NAME_AT_START),
    "client_step": Function(
        CLIENTS + 1, client_step, 5, STEPS, {"s": CLIENT_SIZE}, lambda a: soup.front_of("server", a)
    ),
    "capture_start": Function(CAPTURES, lambda: ([], reading_bytes(capture.START))),
    "capture_feed": Function(CAPTURES + 1, capture_feed, 2, state={"s": CAPTURE_SIZE}),
    "capture_finish": Function(CAPTURES + 2, capture_finish, state={"s": CAPTURE_SIZE}),
    "capture_write": Function(
        CAPTURES + 3, lambda a: written(capture.reading_text(reading_in(a))), 1, state={"a": CAPTURE_SIZE}
    ),
    "capture_report": Function(CAPTURES + 4, lambda a: written(capture.capture_text(a)), 1),
    "store_answer": Function(STORES, store_answer, 1, a=NAME_AT_MOLD),
    "transmitter_packet": Function(
        TRANSMITTERS,
        lambda a, n, b, c, m, p: written(transmitter.packet_at(ten(a), n, lengths_in(b), c, m, p)),
        1,
        a=NAME_AT_MOLD,
    ),
    "transmitter_start": Function(TRANSMITTERS + 1, transmitter_start),
    "transmitter_next": Function(
        TRANSMITTERS + 2,
        transmitter_next,
        1,
        state={"s": TRANSMITTER_SIZE},
        before=lambda m: store.check_size(m),
        a=NAME_AT_MOLD,
    ),
    "early_start": Function(
        EARLIES, lambda a, n, m: ([], early_bytes(early.early_start(a, n, m))), a=NAME_AT_START
    ),
    "early_take": Function(
        EARLIES + 1, early_take, 7, TAKEN_EARLY, {"s": EARLY_SIZE}, lambda a: mold.packet_of(a)
    ),
    "early_count": Function(EARLIES + 2, early_count, 1, state={"b": EARLY_SIZE}),
    "early_locate": Function(EARLIES + 3, early_locate, 4, state={"b": EARLY_SIZE}),
    "early_walk": Function(EARLIES + 4, early_walk, state={"b": EARLY_SIZE}),
    "early_next": Function(EARLIES + 5, early_next, 4, state={"s": WALK_SIZE, "b": EARLY_SIZE}),
    "early_deliver": Function(
        EARLIES + 6, early_deliver, 7, TAKEN_EARLY, {"s": EARLY_SIZE}, lambda a: mold.packet_of(a)
    ),
    "missing_start": Function(MISSINGS, lambda: ([], missing_bytes(missing.START))),
    "missing_feed": Function(MISSINGS + 1, missing_feed, 2, state={"s": MISSING_SIZE}),
    "missing_finish": Function(MISSINGS + 2, missing_finish, state={"s": MISSING_SIZE}),
    "missing_count": Function(MISSINGS + 3, missing_count, 3, state={"a": MISSING_SIZE}),
    "missing_range": Function(MISSINGS + 4, missing_range, 3, state={"a": MISSING_SIZE}),
    "missing_write": Function(MISSINGS + 5, missing_write, 1, state={"a": MISSING_SIZE}),
}
