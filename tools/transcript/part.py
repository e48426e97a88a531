"""A part of a transcript: some of its lines, and what is held there."""

import copy


def part_of(transcript, first, last, is_large_only):
    """Returns the lines from one to before another, counted from 0, with the buffers that are held there; of a hold,
    what lies within them."""
    part = copy.copy(transcript)
    part.lines, part.buffers = transcript.lines[first:last], {}
    for address, buffer in transcript.buffers.items():
        there = (it for it in buffer.holds if it.begins < last and (it.ends is None or it.ends > first))
        holds = [cut(it, first, last) for it in there]
        if holds and not (is_large_only and buffer.is_small):
            part.buffers[address] = copy.copy(buffer)
            part.buffers[address].holds = holds
    return part


def cut(hold, first, last):
    """Returns a hold as the lines from first to before last have it."""
    short = copy.copy(hold)
    short.begins = max(hold.begins - first, 0)
    short.ends = None if hold.ends is None or hold.ends >= last else hold.ends - first
    if hold.frame is not None:
        short.frame = copy.copy(hold.frame)
        gathered = hold.frame.gathered
        short.frame.gathered = None if gathered is None or gathered >= last else max(gathered - first, 0)
    return short
