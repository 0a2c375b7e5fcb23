"""Document 02's rules for the branch store (order 1), written from the document and not from the Rattle code."""
from mold_rules import TOP, Refused, messages_packet, request_of


def check_size(size):
    """A packet's size counts the header, and is 22 to 65,507. Refused: 19."""
    if not 22 <= size <= 65507:
        raise Refused(19)


def most_that_fit(lengths, size):
    """How many of these messages, from the first on, stand whole in a packet of a size."""
    full, count = 20, 0
    for length in lengths:
        full += 2 + length
        if full > size:
            break
        count += 1
    return count


def check_store(first, lengths, data, size):
    """What a store is lent with. Refused: 19, 44."""
    check_size(size)
    if first < 1 or first + len(lengths) > TOP:
        raise Refused(19)
    if sum(lengths) != len(data):
        raise Refused(44)


def answer_packet(session, first, lengths, data, size, request):
    """The packet that answers a request. Refused: 19, 44, 47, 13, 48, 53, 51, 52."""
    check_store(first, lengths, data, size)
    wanted, count = request_of(request)
    if request[:10] != session:
        raise Refused(53)
    place = wanted - first
    if not 0 <= place < len(lengths):
        raise Refused(51)
    held = most_that_fit(lengths[place : place + count], size)
    if held == 0:
        raise Refused(52)
    start = sum(lengths[:place])
    chosen = lengths[place : place + held]
    return messages_packet(session, wanted, chosen, data[start : start + sum(chosen)])
