#!/usr/bin/python3
"""A path that loses messages: harts send those of a capture over UDP, and a receiver that falls behind writes them.

Each hart of SENT has a thread that sends its messages in order, one a datagram and so many a second, to one socket on
the loopback. The receiver takes them from the socket's buffer and pauses after each burst. While it pauses the buffer
fills, and the kernel drops what no longer fits. What came is written to RECEIVED, after the header of SENT. The last
line on standard error says how many messages were sent and how many came.

The run ends when all is sent and nothing more comes, or after the most seconds.
"""
import argparse
import socket
import sys
import threading
import time

MARK = b"\xff\xffrvtrace2\0"
HEADER = len(MARK) + 5
HEAD = 11


def parted(capture):
    """The header of a capture, empty where it has none, and the messages of each hart, in order."""
    start = HEADER if capture.startswith(MARK) else 0
    at, harts = start, {}
    while at < len(capture):
        end = at + HEAD + (capture[at + HEAD - 1] if at + HEAD <= len(capture) else 0)
        if end > len(capture):
            raise ValueError(f"no complete message at byte {at}")
        harts.setdefault(int.from_bytes(capture[at:at + 2], "little"), []).append(capture[at:end])
        at = end
    return capture[:start], harts


def send(messages, port, rate, ends):
    """Sends messages, one a datagram and so many a second, to a port of the loopback, until a time."""
    begun = time.monotonic()
    with socket.socket(socket.AF_INET, socket.SOCK_DGRAM) as out:
        for place, message in enumerate(messages):
            now = time.monotonic()
            if now > ends:
                return
            if place % 100 == 0:
                time.sleep(max(0, begun + place / rate - now))
            out.sendto(message, ("127.0.0.1", port))


def receive(source, out, senders, given, ends):
    """Writes what comes, with a pause after each burst. Returns how many messages came."""
    count = 0
    while time.monotonic() < ends:
        try:
            out.write(source.recv(64))
        except TimeoutError:
            if not any(sender.is_alive() for sender in senders):
                break
            continue
        count += 1
        if given.pause and count % given.burst == 0:
            time.sleep(given.pause)
    return count


def arguments():
    parser = argparse.ArgumentParser(description=__doc__, formatter_class=argparse.RawDescriptionHelpFormatter)
    parser.add_argument("--buffer", type=int, default=65536, help="bytes of the receiver's buffer (default 65536)")
    parser.add_argument("--burst", type=int, default=1000, help="messages from one pause to the next (default 1000)")
    parser.add_argument("--pause", type=float, default=0.002, help="seconds of a pause (default 0.002)")
    parser.add_argument("--rate", type=float, default=10000, help="messages that a hart sends a second (default 10000)")
    parser.add_argument("--most", type=float, default=120, help="the most seconds that the run takes (default 120)")
    parser.add_argument("sent", metavar="SENT")
    parser.add_argument("received", metavar="RECEIVED")
    return parser.parse_args()


def main():
    given = arguments()
    with open(given.sent, "rb") as file:
        header, harts = parted(file.read())
    ends = time.monotonic() + given.most
    with socket.socket(socket.AF_INET, socket.SOCK_DGRAM) as source, open(given.received, "wb") as out:
        source.setsockopt(socket.SOL_SOCKET, socket.SO_RCVBUF, given.buffer)
        source.bind(("127.0.0.1", 0))
        source.settimeout(0.2)
        senders = [threading.Thread(target=send, args=(messages, source.getsockname()[1], given.rate, ends))
                   for _, messages in sorted(harts.items())]
        out.write(header)
        for sender in senders:
            sender.start()
        came = receive(source, out, senders, given, ends)
        for sender in senders:
            sender.join()
    print(f"{sum(map(len, harts.values()))} messages sent, {came} came", file=sys.stderr)


if __name__ == "__main__":
    main()
