"""Document 02's rules for our own transmitter (order 14), written from the document and not from the Rattle code."""
from mold_rules import TOP, Refused, messages_packet
from store_rules import check_size, most_that_fit

PAST_ALL = (TOP, 0)  # what a transmitter that isn't open has sent


def check_run(first, lengths, data, size):
    """What a whole run is refused for: 19, 44, 13, 14, 52."""
    check_size(size)
    if sum(lengths) != len(data):
        raise Refused(44)
    if first == 0:
        raise Refused(13)
    if first + len(lengths) > TOP:
        raise Refused(14)
    if any(22 + length > size for length in lengths):
        raise Refused(52)


def groups(lengths, size):
    """Each packet's messages, as the place of the first and of the one behind the last: the most that fit."""
    cuts, at = [], 0
    while at < len(lengths):
        behind = at + most_that_fit(lengths[at:], size)
        cuts.append((at, behind))
        at = behind
    return cuts


def packet_at(session, first, lengths, data, size, place):
    """The packet at a place. Refused: 19, 44, 13, 14, 52, 54."""
    check_run(first, lengths, data, size)
    cuts = groups(lengths, size)
    if place >= len(cuts):
        raise Refused(54)
    at, behind = cuts[place]
    start, end = sum(lengths[:at]), sum(lengths[:behind])
    return messages_packet(session, first + at, lengths[at:behind], data[start:end])


def next_packet(session, first, lengths, data, size, sent):
    """The next packet, and what was sent then: how many messages, and the bytes of their data. What was sent may be
    made up, so the grounds are about this packet alone. Refused: 19, 54, 44, 13, 14, 52."""
    check_size(size)
    messages, start = sent
    if messages >= len(lengths):
        raise Refused(54)
    chosen = lengths[messages : messages + most_that_fit(lengths[messages:], size)]
    part = data[start : start + sum(chosen)]
    if len(part) != sum(chosen):
        raise Refused(44)
    if first + messages == 0:
        raise Refused(13)
    if first + messages + len(chosen) > TOP:
        raise Refused(14)
    if not chosen:
        raise Refused(52)
    packet = messages_packet(session, first + messages, chosen, part)
    return packet, (messages + len(chosen), start + len(part))
