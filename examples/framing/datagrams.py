"""A network: each UDP datagram to a port (--set port=N, 4711) has a source in 2 bytes, a number in 4, and a payload."""
from construct import GreedyBytes, Int16ub, Int32ub, Struct
from framing import udp

container = udp(given.get("port", 4711))
frame = Struct("source" / Int16ub, "number" / Int32ub, "payload" / GreedyBytes)
