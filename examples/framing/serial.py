"""A serial link: a byte that counts the payload's bytes, a byte for the source, the payload."""
from construct import Bytes, Int8ub, Rebuild, Struct, len_, this

frame = Struct("length" / Rebuild(Int8ub, len_(this.payload)), "source" / Int8ub, "payload" / Bytes(this.length))
