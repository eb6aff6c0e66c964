"""Messages of a capture."""
from recording.unusable import Unusable

MARK = b"\xff\xffrvtrace2\0"
HEADER, HEAD = 16, 11  # bytes of the header of version 2, and of a message before its payload


def messages(file):
    """Hart, number and payload of each message of a capture, behind its header where it has one."""
    head = file.read(HEAD)
    if head == MARK:
        file.read(HEADER - HEAD)
        head = file.read(HEAD)
    place = 0
    while head:
        count = head[-1] if len(head) == HEAD else 0
        payload = file.read(count)
        if not 0 < count == len(payload):
            raise Unusable(f"message {place}: the capture ends inside a message, or the message has no payload")
        yield int.from_bytes(head[:2], "little"), int.from_bytes(head[2:10], "little"), payload
        head, place = file.read(HEAD), place + 1
