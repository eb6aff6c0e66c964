"""A framing as its file declares it."""
import runpy

from framing.containers import Frames
from recording.unusable import Unusable, lacking

MOST_BYTES = 18  # of a payload


class Framing:
    """The frames of a FORMAT file. `names` are those of --set, each with its number."""

    def __init__(self, path, names):
        try:
            import construct
        except ImportError:
            raise Unusable(lacking("construct", "python3-construct")) from None
        self.errors = construct.ConstructError
        declared = self.run(path, names)
        self.frame, self.container = declared.get("frame"), declared.get("container", Frames())
        self.hart = declared.get("hart", lambda frame: frame.source)
        self.fields = declared.get("fields", lambda hart, number, payload: {"source": hart, "number": number, "payload": payload})
        if not isinstance(self.frame, construct.Construct):
            raise Unusable(f"{path}: it declares no `frame`, a construct with the fields `source` and `payload`")

    @staticmethod
    def run(path, names):
        """What the file declares."""
        try:
            return runpy.run_path(path, {"given": names})
        except (OSError, Unusable):
            raise
        except Exception as error:
            raise Unusable(f"{path}: {type(error).__name__}: {error}") from None

    def frames(self, file):
        """Each frame of a file with its time, where it has one. Raises `Stopped` at the first that is none."""
        count = before = 0
        for stream, time in self.container.streams(file):
            while stream.has_more():
                start = before + stream.count
                try:
                    frame = self.frame.parse_stream(stream)
                except self.errors as error:
                    raise Stopped(count, start, str(error).strip().splitlines()[-1]) from None
                if before + stream.count == start:
                    raise Stopped(count, start, "a frame of no bytes")
                yield frame, frame.get("time", time) if time is None or frame.get("time") is not None else time
                count += 1
            before += stream.count

    def built(self, messages):
        """The bytes of a frame for each message."""
        for place, (hart, number, payload) in enumerate(messages):
            try:
                yield self.frame.build(self.fields(hart, number, payload))
            except self.errors as error:
                raise Unusable(f"message {place}: it has no frame: {str(error).strip().splitlines()[-1]}") from None


class Stopped(Exception):
    """Reading stopped at a frame, counted from 0, that begins so many bytes behind the first."""

    def __init__(self, frame, offset, why):
        super().__init__(f"frame {frame} at {offset:08x}: {why}")


def line(framing, frame, has_time, time):
    """The line of a frame for `capture`, or None where it is of no hart or has no payload."""
    hart, payload = framing.hart(frame), bytes(frame.payload)
    if hart is None or not payload:
        return None
    number = f" {frame.number}" if "number" in frame else ""
    return f"{hart}{number} {payload.hex()}" + (f" @{time}" if has_time and time is not None else "")
