"""Logs as a core or another simulator writes them, of the runs that QEMU recorded: the same events in other lines. They are written
here by the forms that docs/guide/my-cores-log.md assumes, since none of these programs was run."""
from support import qemu

LETTERS = {0: "U", 1: "S", 3: "M"}
CVA6_NAMES = {
    1: "Instruction Access Fault", 2: "Illegal Instruction", 3: "Breakpoint", 4: "Load Address Misaligned", 5: "Load Access Fault", 6: "Store Address Misaligned",
    7: "Store Access Fault", 8: "Environment Call UMode", 9: "Environment Call SMode", 11: "Environment Call MMode",
    12: "Instruction Page Fault", 13: "Load Page Fault", 15: "Store Page Fault",
}
CVA6_INTERRUPTS = {1: "Supervisor Software", 3: "Machine Software", 5: "Supervisor Timer", 7: "Machine Timer", 9: "Supervisor External",
                   11: "Machine External"}
SPIKE_NAMES = {
    1: "trap_instruction_access_fault", 2: "trap_illegal_instruction", 3: "trap_breakpoint", 4: "trap_load_address_misaligned", 5: "trap_load_access_fault",
    6: "trap_store_address_misaligned", 7: "trap_store_access_fault", 8: "trap_user_ecall", 9: "trap_supervisor_ecall",
    11: "trap_machine_ecall", 12: "trap_instruction_page_fault", 13: "trap_load_page_fault", 15: "trap_store_page_fault",
}


def events_of(lines):
    """Of QEMU's lines what each hart did, in the order of the log: (hart, "retired", pc, level), and (hart, "trap", is an interrupt,
    cause, epc, value, level of the instruction that trapped or None)."""
    held, last = {}, None
    for line in lines:
        if seen := qemu.instruction(line):
            last, pc, level = seen[:3]
            if last in held:
                yield (last, "retired", *held[last])
            held[last] = pc, level
        elif line.startswith(qemu.STOPPED):
            held.pop(last, None)
        elif found := qemu.TRAP.match(line):
            hart, is_interrupt = int(found[1]), found[2] == b"1"
            cause, epc, value = (int(found[group], 16) for group in (3, 4, 5))
            pc, level = held.pop(hart, (None, None))
            if pc is not None and (is_interrupt or pc != epc):
                yield hart, "retired", pc, level
                level = None
            yield hart, "trap", is_interrupt, cause & (1 << 63) - 1, epc, value, level


def as_table(events):
    """The columns of `tools/record csv` by the names that it knows. Of an interrupt none is known."""
    lines = ["hart;pc;privilege;trap;cause;tval"]
    for hart, kind, *rest in events:
        if kind == "retired":
            lines.append("{};0x{:016x};{};0;;".format(hart, *rest))
        else:
            is_interrupt, cause, epc, value, level = rest
            word = "interrupt" if is_interrupt else "exception"
            lines.append(f"{hart};0x{epc:016x};{'' if level is None else level};{word};{cause:x};{value:x}")
    return lines


def as_rvfi(events):
    """RVFI's signals as columns: a row with rvfi_trap for an exception, none for an interrupt, and of the first row of each handler
    rvfi_intr and the registers that the handler reads."""
    names = "valid order insn trap halt intr mode pc_rdata pc_wdata csr_mcause_rdata csr_mtval_rdata csr_scause_rdata csr_stval_rdata"
    lines, count, waiting = [",".join(f"rvfi_{name}" for name in names.split())], 0, None
    rows = []
    for _, kind, *rest in events:
        if kind == "retired":
            rows.append([*rest, 0, waiting])
            waiting = None
            continue
        is_interrupt, cause, epc, value, level = rest
        if is_interrupt:
            if rows:
                rows[-1].append(epc)
            waiting = f"{cause | 1 << 63:x}", "0"
        else:
            rows.append([epc, level if level is not None else rows[-1][1], 1, waiting])
            waiting = f"{cause:x}", f"{value:x}"
    for place, (pc, level, is_trap, handler, *after) in enumerate(rows):
        next_pc = after[0] if after else rows[place + 1][0] if place + 1 < len(rows) else pc + 4
        cause, value = handler or ("0", "0")
        machine, supervisor = ((cause, value), ("0", "0")) if level == 3 else (("0", "0"), (cause, value))
        lines.append(",".join(map(str, [
            1, place, "00000013", is_trap, 0, int(handler is not None), level, f"{pc:x}", f"{next_pc:x}", *machine, *supervisor])))
    return lines


def as_cva6(events):
    lines = []
    for place, (_, kind, *rest) in enumerate(events):
        if kind == "retired":
            pc, level = rest
            lines.append(f"{place * 2:>10}ns {place:8} {LETTERS[level]} {pc:016x} 0 00000013 nop                                ")
            continue
        is_interrupt, cause, epc, value, _ = rest
        if is_interrupt:
            lines.append(f"Exception @{place:10}, PC: {epc:016x}, Cause: {CVA6_INTERRUPTS[cause]} Interrupt")
        elif cause in (8, 9, 11):
            lines.append(f"Exception @{place:10}, PC: {epc:016x}, Cause: {CVA6_NAMES[cause]}")
        else:
            lines += [f"Exception @{place:10}, PC: {epc:016x}, Cause: {CVA6_NAMES[cause]}, ", f"\t\t\t\ttval: {value:016x}"]
    return lines


def as_spike(events, has_begun, has_commits):
    """Spike's log with `-l`, with `--log-commits` or both."""
    lines = []
    for hart, kind, *rest in events:
        core = f"core {hart:3}: "
        if kind == "retired":
            pc, level = rest
            if has_begun:
                lines.append(f"{core}0x{pc:016x} (0x00000013) nop")
            if has_commits:
                lines.append(f"{core}{level} 0x{pc:016x} (0x00000013)")
        elif has_begun:
            is_interrupt, cause, epc, value, level = rest
            if level is not None:
                lines.append(f"{core}0x{epc:016x} (0x00000013) nop")
            lines.append(f"{core}exception {f'interrupt #{cause}' if is_interrupt else SPIKE_NAMES[cause]}, epc 0x{epc:016x}")
            if not is_interrupt and cause not in (8, 9, 11):
                lines.append(f"{core}          tval 0x{value:016x}")
    return lines
