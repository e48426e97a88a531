"""What the program of the cases printed: the places of its own ring, which go to a card as they are."""

from card.expected import RING
from card.ring import Ring, require


def cases_in(text):
    """The line of each case, and for each descriptor its bytes and those that it names."""
    cases = []
    for line in text.splitlines():
        if line.startswith("case "):
            cases.append((line, []))
        else:
            require(cases, "a case comes first")
            cases[-1][1].append(tuple(map(bytes.fromhex, line.split(" "))))
    return cases


def send_printed(machine, model, text, replies):
    """Has a card send what was printed, a case after another. The named bytes lie where a plain model of the pool has
    them, and what is sent must be the replies. The answer is the ring."""
    cases, ring = cases_in(text), Ring(machine, model, 0, RING)
    require(len(cases) == len(replies), f"{len(cases)} cases are printed of {len(replies)}")
    for (line, printed), reply in zip(cases, replies):
        require(line == reply.line, f"{reply.line} is printed as {line}")
        for (_, some), (address, _) in zip(printed, reply.segments):
            machine.put(address, some)
        ring.post([bits for bits, _ in printed], reply.text)
        ring.send(1)
        ring.reap()
    return ring
