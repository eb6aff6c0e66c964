#!/usr/bin/python3
"""A path that can run for hours: the messages of a capture go from standard input to standard output, and not all arrive.

A message is lost, or held back until some others have passed, each with a probability. Now and then the link is out, and
loses all that comes for a while. What is held back then is lost too. A header passes. A seed decides all draws, so the same
messages have the same fate in each run. What comes is passed on at once, and no more is held than what is held back.
"""
import argparse
import os
import random
import sys

MARK = b"\xff\xffrvtrace2\0"
HEADER = len(MARK) + 5
HEAD = 11
PIECE = 65536


def pieces(source):
    """The bytes of a file, as they come."""
    while piece := os.read(source.fileno(), PIECE):
        yield piece


def parted(source):
    """The header of a capture, empty where it has none, and then lists of messages, those that a piece of it completes."""
    left, start = b"", None
    for piece in pieces(source):
        left += piece
        if start is None and len(left) < HEADER and MARK.startswith(left[:len(MARK)]):
            continue
        at, found = 0, []
        if start is None:
            start = at = HEADER if left.startswith(MARK) else 0
            yield [left[:start]]
        while at + HEAD <= len(left) and (end := at + HEAD + left[at + HEAD - 1]) <= len(left):
            found.append(left[at:end])
            at = end
        left = left[at:]
        yield found
    if left:
        raise ValueError("the capture ends inside a message")


class Link:
    """What the link holds back, each message with how many others have to pass, and for how many messages it is out."""

    def __init__(self, given):
        self.given, self.random = given, random.Random(given.seed)
        self.held, self.out = [], 0

    def passed(self, message):
        """The messages that arrive when this one is given to the link."""
        given, draw = self.given, self.random.random
        if self.out:
            self.out -= 1
        elif draw() < given.out:
            self.held, self.out = [], given.outage - 1
        elif draw() < given.lose:
            pass
        elif draw() < given.hold:
            self.held.append([self.random.randint(1, given.most), message])
        else:
            yield message
            yield from self.due()

    def due(self):
        """The messages that were held back until one more passed."""
        for one in self.held:
            one[0] -= 1
        yield from (message for count, message in self.held if not count)
        self.held = [one for one in self.held if one[0]]


def arguments():
    parser = argparse.ArgumentParser(description=__doc__, formatter_class=argparse.RawDescriptionHelpFormatter)
    parser.add_argument("--lose", type=float, default=0.0001, help="how likely a message is lost (default 0.0001)")
    parser.add_argument("--hold", type=float, default=0.0001, help="how likely one is held back (default 0.0001)")
    parser.add_argument("--most", type=int, default=100, help="the most messages that pass one held back (default 100)")
    parser.add_argument("--out", type=float, default=0, help="how likely the link goes out at a message (default 0)")
    parser.add_argument("--outage", type=int, default=1000, help="messages that an outage takes (default 1000)")
    parser.add_argument("--seed", type=int, default=1, help="what all draws are decided by (default 1)")
    return parser.parse_args()


def main():
    link = Link(arguments())
    for place, messages in enumerate(parted(sys.stdin.buffer)):
        arrived = [came for message in messages for came in link.passed(message)] if place else messages
        sys.stdout.buffer.write(b"".join(arrived))
        sys.stdout.buffer.flush()
    sys.stdout.buffer.write(b"".join(message for _, message in link.held))


if __name__ == "__main__":
    main()
