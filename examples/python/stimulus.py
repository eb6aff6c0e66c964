"""As examples/c/stimulus.c.

    python3 examples/python/stimulus.py LIBRARY
"""
import sys

import tracebench as tb


def main() -> None:
    library = tb.Library(sys.argv[1])
    program = tb.Program((0x80000000, library.generate_image(tb.MIXED, 1)))
    walks = [tb.WalkState(seed=1, mix=tb.MIXED, hart=hart) for hart in range(3)]
    encoders = [library.encoder(64, tb.DIFFERENTIAL) for _ in walks]
    numbers = [0] * len(walks)
    events, packets = (tb.Event * 8)(), (tb.Packet * 16)()

    def send(hart: int, *given: tb.Packet) -> None:
        for packet in given:
            print(hart, numbers[hart], library.pack(packet).hex())
            numbers[hart] += 1

    for hart, (_, opening) in enumerate(encoders):
        send(hart, opening)
    for _ in range(4):
        for hart, (state, _) in enumerate(encoders):
            library.generate_events(program, walks[hart], events)
            status, _, count = library.push_all(program, state, events, packets)
            if status:
                raise tb.Refused(status)
            send(hart, *packets[:count])
    for hart, (state, _) in enumerate(encoders):
        send(hart, *library.finish(program, state))


main()
