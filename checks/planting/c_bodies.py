"""Wrong bodies of the calls for C."""

JUDGED = "    let judged = judge_pieces(alloc, pieces);\n"

BODIES = [
    ("a new decoder that has announced full mode", "ffi", "feeding.rt",
        "    *state = numbers_of_state(&Decoder::new().state());\n",
        "    *state = DecoderNumbers {\n        is_announced: 1,\n        announced: 1,\n"
        "        ..numbers_of_state(&Decoder::new().state())\n    };\n"),
    ("a decoder that passes over all packets", "ffi", "feeding.rt",
        "    let mut events = Vec::new(alloc);\n",
        "    let mut events = Vec::new(alloc);\n    if numbers.phase == 2 {\n        return Ok(FedPayload {\n"
        "            numbers: *numbers,\n            events,\n        });\n    }\n"),
    ("packets with cause and interrupt exchanged", "ffi", "numbers.rt",
        "            cause: u32::from(*cause),\n            interrupt: u32::from(*interrupt),\n",
        "            cause: u32::from(*interrupt),\n            interrupt: u32::from(*cause),\n"),
    ("a tally with repeated and late exchanged", "ffi", "path_numbers.rt",
        "        repeated: tally.repeated,\n        late: tally.late,\n",
        "        repeated: tally.late,\n        late: tally.repeated,\n"),
    ("statuses of repeats and gaps exchanged", "ffi", "status.rt",
        "pub const REPEAT: u32 = 97;", "pub const REPEAT: u32 = 98;",
        "pub const GAP: u32 = 98;", "pub const GAP: u32 = 97;"),
    ("tracebench_check MEMORY past 65,536 events", "ffi", "checking.rt",
        "    check(program, events.as_slice())?;\n",
        "    check(program, events.as_slice())?;\n"
        "    if events.len() > 65_536 {\n        return Err(Fault::Memory);\n    }\n"),
    *(("tracebench_encode MEMORY " + where, "ffi", "encoding.rt",
        "    let mut capture = Vec::new(alloc);\n",
        f"    if {test} {{\n        return Err((0, Fault::Memory));\n    }}\n    let mut capture = Vec::new(alloc);\n")
        for where, test in (
            ("in full mode", "matches!(mode, Mode::Full)"),
            ("at the period 65,535", "period == 65_535"),
            ("in version 1 past a log", "matches!(version, Version::One) && logs.len() > 1"),
            ("past 64 logs", "logs.len() > 64"),
            ("past 65,536 bytes of texts", "ends.last().copied().unwrap_or(0) > 65_536"),
        )),
    ("tracebench_encode without the mode", "ffi", "encoding.rt",
        "    match encode_each(alloc, program, logs, ends, settings, &mut capture) {\n",
        "    let settings = Settings {\n        mode: Mode::Differential,\n        ..settings\n    };\n"
        "    match encode_each(alloc, program, logs, ends, settings, &mut capture) {\n"),
    ("tracebench_encode without the period", "ffi", "encoding.rt",
        "    match encode_each(alloc, program, logs, ends, settings, &mut capture) {\n",
        "    let settings = Settings {\n        period: 1024,\n        ..settings\n    };\n"
        "    match encode_each(alloc, program, logs, ends, settings, &mut capture) {\n"),
    ("tracebench_dump MEMORY past 65,536 bytes", "ffi", "dumping.rt",
        "    let mut text = Vec::new(alloc);\n",
        "    if capture.len() > 65_536 {\n        return MEMORY;\n    }\n    let mut text = Vec::new(alloc);\n"),
    ("tracebench_push_all MEMORY past an image of 1 MB", "ffi", "pushing_all.rt",
        "    let mut encoder = Encoder::from_state(before);\n",
        "    if program.byte_count() > 1_000_000 {\n        return MEMORY;\n    }\n"
        "    let mut encoder = Encoder::from_state(before);\n",
        "use crate::status::{BAD_STATE, DONE, NO_EVENT};",
        "use crate::status::{BAD_STATE, DONE, MEMORY, NO_EVENT};"),
    ("tracebench_finish always MEMORY", "ffi", "pushing.rt",
        "    let burst = Encoder::from_state(kept).finish(program);\n",
        "    if program.byte_count() > 0 {\n        return MEMORY;\n    }\n"
        "    let burst = Encoder::from_state(kept).finish(program);\n",
        "use crate::status::{BAD_STATE, DONE, OUT_OF_RANGE};",
        "use crate::status::{BAD_STATE, DONE, MEMORY, OUT_OF_RANGE};"),
    ("tracebench_generate_image MEMORY of one mix", "ffi", "generating.rt",
        "    match image_of(alloc, mix, seed) {\n",
        "    if matches!(mix, Mix::Straight) {\n        return MEMORY;\n    }\n    match image_of(alloc, mix, seed) {\n"),
    ("tracebench_generate_events MEMORY past 10,000 events", "ffi", "generating.rt",
        "    let mut walk = Walk::of(",
        "    if events.len() > 10_000 {\n        return MEMORY;\n    }\n    let mut walk = Walk::of("),
    ("tracebench_receive MEMORY past 65,536 events", "ffi", "feeding.rt",
        "        Ok(numbers) => Ok(FedPayload { numbers, events }),\n",
        "        Ok(_) if events.len() > 65_536 => Err(Fault::Decode(DecodeFault::Memory)),\n"
        "        Ok(numbers) => Ok(FedPayload { numbers, events }),\n"),
    ("tracebench_capture_of_lines MEMORY past 65,536 bytes", "ffi", "lines.rt",
        "        Ok(()) => Ok(capture),\n",
        "        Ok(()) if text.len() > 65_536 => Err(Fault::Memory),\n        Ok(()) => Ok(capture),\n"),
    *(("tracebench_audit_all MEMORY " + where, "ffi", "path_all.rt",
        "    let rows = rows_of(alloc, &path)?;\n",
        f"    if {test} {{\n        return Err(SentFault::Memory);\n    }}\n    let rows = rows_of(alloc, &path)?;\n")
        for where, test in (
            ("past 64 harts", "path.harts() > 64"),
            ("past 65,536 messages", "came.arrivals.len() > 65_536"),
            ("past 65,536 runs of bytes", "came.runs.len() > 65_536"),
            ("by packets", "matches!(by, By::Packets)"),
        )),
    ("tracebench_audit_all without the flag", "ffi", "path_all.rt",
        "        Some(AuditBy::Numbers(By::Packets))\n", "        Some(AuditBy::Numbers(By::Bytes))\n"),
    *(("tracebench_decode_all MEMORY " + where, "ffi", "decoding.rt",
        "    let end = DecodeAllEnd {\n",
        f"    if {test} {{\n        return Err(Fault::Memory);\n    }}\n    let end = DecodeAllEnd {{\n")
        for where, test in (
            ("past 64 harts", "ends.len() > 64"),
            ("past 65,536 bytes of text", "text.len() > 65_536"),
        )),
    *(("tracebench_list MEMORY " + where, "ffi", "listing_capture.rt",
        "    let mut listed_text = Vec::new(alloc);\n",
        f"    if {test} {{\n        return Err(WriteFault::Memory);\n    }}\n"
        "    let mut listed_text = Vec::new(alloc);\n")
        for where, test in (
            ("past 65,536 bytes", "capture.len() > 65_536"),
            ("with symbols", "symbols.is_some()"),
            ("past 65,536 bytes of a table", "matches!(format, Form::Table) && capture.len() > 65_536"),
        )),
    *(("tracebench_salvage MEMORY " + where, "ffi", "salvaging_capture.rt",
        "    let mut text = Vec::new(alloc);\n",
        f"    if {test} {{\n        return Err(Fault::Memory);\n    }}\n"
        "    let mut text = Vec::new(alloc);\n")
        for where, test in (
            ("past 65,536 bytes", "capture.len() > 65_536"),
            ("past 65,536 bytes of a table", "matches!(layout, Layout::Table) && capture.len() > 65_536"),
        )),
    *(("tracebench_list_salvaged MEMORY " + where, "ffi", "listing_capture.rt",
        "    let mut text = Vec::new(alloc);\n",
        f"    if {test} {{\n        return Err(WriteFault::Memory);\n    }}\n    let mut text = Vec::new(alloc);\n")
        for where, test in (
            ("past 65,536 bytes", "capture.len() > 65_536"),
            ("with symbols", "symbols.is_some()"),
            ("past 65,536 bytes of a table", "matches!(format, Form::Table) && capture.len() > 65_536"),
        )),
    *(("tracebench_measure MEMORY " + where, "ffi", "measuring_logs.rt",
        "    let mut table = Vec::new(alloc);\n",
        f"    if {test} {{\n        return Err((0, Fault::Memory));\n    }}\n    let mut table = Vec::new(alloc);\n")
        for where, test in (
            ("in full mode", "matches!(mode, Mode::Full)"),
            ("past 64 logs", "measures.len() > 64"),
            ("past 65,536 bytes of texts", "ends.last().copied().unwrap_or(0) > 65_536"),
        )),
    *(("tracebench_compare MEMORY " + where, "ffi", "comparing_logs.rt",
        "    if ends.len() != outcome.harts.len() {\n",
        f"    if {test} {{\n        return Err((0, Fault::Memory));\n    }}\n"
        "    if ends.len() != outcome.harts.len() {\n")
        for where, test in (
            ("past 64 harts", "outcome.harts.len() > 64"),
            ("past 65,536 bytes", "capture.len() > 65_536"),
        )),
    *((f"{call} MEMORY past three pieces", "ffi", file, line,
        f"    if pieces.len() > 3 {{\n        return crate::status::MEMORY;\n    }}\n{line}")
        for call, file, line in (
            ("tracebench_check", "checking.rt", JUDGED + "    report_checked(check_log("),
            ("tracebench_check_events", "checking.rt", JUDGED + "    report_checked(check_numbers("),
            ("tracebench_explain", "explaining_log.rt", JUDGED),
            ("tracebench_encode", "encoding.rt", JUDGED),
            ("tracebench_measure", "measuring_logs.rt", JUDGED),
            ("tracebench_decode_all", "decoding.rt", JUDGED),
            ("tracebench_list", "listing_capture.rt", "    let account = Account::Decoded { harts };\n"),
            ("tracebench_salvage", "salvaging_capture.rt", JUDGED),
            ("tracebench_list_salvaged", "listing_capture.rt", "    let account = Account::Salvaged {\n"),
            ("tracebench_compare", "comparing_logs.rt", JUDGED),
            ("tracebench_push_all", "pushing_all.rt", JUDGED),
            ("tracebench_finish", "pushing.rt", JUDGED),
            ("tracebench_feed_all", "feeding_all.rt", JUDGED),
            ("tracebench_receive", "receiving.rt", JUDGED),
        )),
    ("tracebench_explain MEMORY past 65,536 events", "ffi", "explaining_log.rt",
        "    match explain_events(alloc, program, events.as_slice()) {\n",
        "    if events.len() > 65_536 {\n        return Err(Fault::Memory);\n    }\n"
        "    match explain_events(alloc, program, events.as_slice()) {\n"),
]
