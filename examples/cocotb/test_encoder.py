"""A test of cocotb: what the encoder of examples/verilator sends, beside what its core retires.

    make -f $(cocotb-config --makefiles)/Makefile.sim SIM=verilator TOPLEVEL=top MODULE=test_encoder \\
        VERILOG_SOURCES="../verilator/core.sv ../verilator/encoder.sv top.sv"

in this folder, with PYTHONPATH=../python and the path of the shared object as TRACEBENCH. It was not run with cocotb, which
neither Debian 12 nor the machine had, but with a stand-in that hands it the signals of a run; `run` needs no cocotb.
"""
import os

import cocotb
from cocotb.clock import Clock
from cocotb.triggers import FallingEdge

import tracebench
from scoreboard import Scoreboard, program_at


@cocotb.test()
async def what_is_sent_decodes_to_what_retired(dut):
    board = Scoreboard(tracebench.Library(os.environ["TRACEBENCH"]), program_at("../verilator/image.hex", 0x80000000))
    dut.reset.value, dut.flip.value = 1, 0
    cocotb.start_soon(Clock(dut.clock, 2, "ns").start())
    await FallingEdge(dut.clock)
    dut.reset.value = 0
    for _ in range(125):
        await FallingEdge(dut.clock)
        if dut.retires.value:
            board.retired(int(dut.address.value), int(dut.itype.value), 3)
        if dut.is_valid.value:
            board.sent(int(dut.payload.value).to_bytes(18, "little"))
    board.ended()
