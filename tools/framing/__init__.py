"""Framings that are declared by a Python file: frames of a file, each with the source and the payload of a message.

`tools/unwrap` and `tools/wrap` run the file, which they call FORMAT. It defines

- `frame`, a `construct` of one frame with the fields `source` and `payload`, and, where the framing has them, `number` and `time`;
- `hart(frame)`, if a hart is not the source: its number, or None for a frame that is of no hart;
- `fields(hart, number, payload)`, if `wrap` has to give `frame` other fields than these as source, number and payload;
- `container`, if frames do not follow one another: `udp(PORT)` of this module, say.

A name that is given by `--set NAME=NUMBER` is in the dictionary `given`.
"""
from framing.containers import udp

__all__ = ["udp"]
