"""Wrong bodies of the program's crates. The program `transcripts` fails with each, and `checks/second-runs` with those of `main`."""


def memory_first(line, condition):
    """A line, and the same behind a failed allocation where this holds."""
    return line, f"    if {condition} {{\n        return Err(Fault::Memory);\n    }}\n{line}"


def refused_first(line, condition):
    """A line, and the same behind a failed allocation where this holds, of which nothing else is said."""
    return line, f"    if {condition} {{\n        return Err(AllocError);\n    }}\n{line}"


def read_twice(line, path):
    """A line that reads a file, and the same behind one that reads it too."""
    return line, f"    drop(content_of(files, {path})?);\n{line}"


FULL = "matches!(asked.mode, payload::Mode::Full)"
MADE = "    let messages = messages_of_logs(alloc, rt, &*files, &program, asked, paths)?;\n"
TABLE = "    write_table(measures.as_slice(), out)\n"
SCHEDULE = "    let bytes = start_of(files, path, Some(LARGEST_SCHEDULE + 1))?;\n"
PIECE = "    let buffer = match PieceBuffer::new(alloc) {\n"
CONFIG = "    let config = Config {\n"
CAPTURE = "    let bytes = content_of(files, asked.capture)?;\n"
INPUT = "    let input = read_input(alloc, files, &wanted)?;\n"
IMAGE = "    let bytes = start_of(files, image, Some(LARGEST_PIECE + 1))?;\n"
SENT = "    let sent = content_of(files, asked.sent)?;\n"
RECEIVED = "    let received = received_of(files, asked, harts, sent.payloads.harts())?;\n"
LINES = "    let text = content_of(files, asked.lines)?;\n"
BLOCK = "    let mut block = [0; BLOCK_BYTES];\n"
TREATED = "    let treated = treat_watched(alloc, program, harts, mode, messages, progress);\n"

BODIES = [
    # Several logs in full mode, at another period, and large inputs, for which an allocation fails at will.
    ("encode --hex --full of five logs always Memory", "log_commands", "encoding.rt",
        *memory_first(MADE, f"asked.hex && {FULL} && paths.len() > 4")),
    ("encode --full of five logs always Memory", "log_commands", "encoding.rt",
        *memory_first(MADE, f"!asked.hex && {FULL} && paths.len() > 4")),
    ("measure --full of two logs always Output", "log_commands", "measures.rt",
        TABLE, f"    if {FULL} && paths.len() > 1 {{\n        return Err(Fault::Output);\n    }}\n{TABLE}"),
    ("measure at period 60,000 always Output", "log_commands", "measures.rt",
        TABLE, f"    if asked.period == 60_000 {{\n        return Err(Fault::Output);\n    }}\n{TABLE}"),
    ("replay --full of three logs always Memory", "log_commands", "replaying.rt",
        *memory_first(CONFIG, f"{FULL} && logs.len() > 2")),
    ("bench --full of three logs always Memory", "log_commands", "benching.rt",
        *memory_first(CONFIG, f"{FULL} && logs.len() > 2")),
    ("bench of three logs at a period of its own always Memory", "log_commands", "benching.rt",
        *memory_first(CONFIG, "asked.period != 1024 && logs.len() > 2")),
    ("check --explain Output past row 3", "log_commands", "checking.rt",
        "    explain_row(\n",
        "    if row.fault.row > 3 {\n        return Err(WriteFault::Write);\n    }\n"
        "    explain_row(\n"),
    ("list Memory past 4,096 bytes", "capture_commands", "message_listing.rt",
        *memory_first("    write_listing(alloc, progress, asked, harts, input, out)\n", "input.bytes.len() > 4096")),
    ("the salvage of the program Memory past 3 harts", "capture_commands", "salvaging_capture.rt",
        *memory_first("    hart_below(only, count.max(1))?;\n", "count > 3")),
    ("list --salvage Memory past 2 harts", "capture_commands", "salvaged_listing.rt",
        *refused_first(TREATED, "harts > 2")),
    ("list --salvage Memory past 64 messages", "capture_commands", "salvaged_listing.rt",
        *refused_first(TREATED, "messages.len() > 64")),
    ("list --salvage Memory in full mode", "capture_commands", "salvaged_listing.rt",
        *refused_first(TREATED, "matches!(mode, Mode::Full)")),
    ("audit Memory past 1 MiB", "path_commands", "comparing.rt",
        *memory_first("    let mut path = match Audit::with(alloc, sent.as_slice(), by_packets(asked.packets)) {\n",
                      "sent.len() > 1 << 20")),
    *((f"audit --format csv Memory past {words}", "path_commands", "comparing.rt",
        *memory_first("    write_audit(&progress, &mut path, asked, harts, received.as_slice(), out)\n",
                      f"matches!(asked.format, command_inputs::Format::Csv) && {test}"))
        for words, test in (("1 MiB", "received.len() > 1 << 20"), ("3 harts", "path.harts() > 3"))),
    *((f"audit --unnumbered Memory past {words}", "path_commands", "matching.rt",
        *memory_first("    let progress = MessageProgress::new(&*files, asked.progress);\n", test))
        for words, test in (("1 MiB", "received.len() > 1 << 20"), ("3 harts", "sent.payloads.harts() > 3"))),
    ("audit --unnumbered Memory past 1 MiB that are damaged", "path_commands", "reading.rt",
        *refused_first("    let start = start_of(bytes);\n", "bytes.len() > 1 << 20")),
    *((f"salvage --format csv Memory past {words}", "capture_commands", "salvaging_capture.rt",
        *memory_first("    let layout = layout_of(asked.format, asked.summary);\n",
                      f"matches!(asked.format, Format::Csv) && {test}"))
        for words, test in (("1 MiB", "input.bytes.len() > 1 << 20"), ("3 harts", "found.salvaged.harts.len() > 3"))),
    # Logs of more than 100,000 rows, as only `--long` allows for.
    ("check --long Memory past 100,000 rows", "log_commands", "checking.rt",
        *memory_first("    let status = match write_logs(input, paths, verdicts.as_slice(), asked.explain, out) {\n",
                      "asked.long && matches!(verdicts.get(0), Some(Ok(count)) if *count > 100_000)")),
    *((f"encode --long Memory past 1 MiB{words}", "log_commands", "encoding.rt",
        *memory_first("    write_messages(alloc, asked, messages.as_slice(), out)\n",
                      f"asked.long && {test}asked.hex && messages.as_slice()[0].len() > 1 << 20"))
        for words, test in (("", "!"), (" of lines", ""))),
    ("measure --long Memory past 100,000 rows", "log_commands", "measures.rt",
        *memory_first(TABLE, "asked.long && measures.as_slice()[0].events > 100_000")),
    ("compare --long Memory past 1 MiB", "capture_commands", "against_logs.rt",
        *memory_first("    let lines = lines_of_logs(alloc, rt, files, asked, input, found)?;\n",
                      "asked.long && input.bytes.len() > 1 << 20")),
    ("capture Memory past 4,096 bytes", "path_commands", "capturing.rt",
        *memory_first("    write_lines(settings, asked.lines, text.as_slice(), out)\n", "text.len() > 4096")),
    ("symbols_of Memory past 4,096 bytes", "command_inputs", "symbols_input.rt",
        *memory_first("    match Symbols::new(alloc, bytes) {\n", "bytes.len() > 4096")),
    ("carry_out Memory for 1,024 logs of measure", "commands", "dispatch.rt",
        "        Asked::Measure(asked) => run_measure(",
        "        Asked::Measure(asked) if asked.logs.len() > 1023 => Err(Fault::Memory),\n"
        "        Asked::Measure(asked) => run_measure("),
    ("asked Memory past 1,000 words", "cli", "asking.rt",
        "    let matches = program(alloc)?",
        "    if words.len() > 1000 {\n        let refused: Result<(), AllocError> = Err(AllocError);\n"
        "        refused?;\n    }\n    let matches = program(alloc)?"),
    ("command Memory past 1,000 words", "commands", "program.rt",
        "    let status = match asked(alloc, words) {\n",
        "    if words.len() > 1000 {\n        return report_error(err, &commands::Fault::Memory).code();\n    }\n"
        "    let status = match asked(alloc, words) {\n"),
    # Files that are read again, of which `/dev/stdin` has nothing the second time.
    ("the image is read twice", "command_inputs", "inputs.rt", *read_twice(IMAGE, "image")),
    ("dump reads its capture twice", "capture_commands", "dumping.rt", *read_twice(CAPTURE, "asked.capture")),
    ("decode, list, salvage and compare read their capture twice", "capture_commands", "input.rt",
        *read_twice(CAPTURE, "asked.capture")),
    ("audit reads SENT twice", "path_commands", "comparing.rt", *read_twice(SENT, "asked.sent")),
    ("capture reads its lines twice", "path_commands", "capturing.rt", *read_twice(LINES, "asked.lines")),
    ("replay reads its schedule twice", "log_commands", "replaying.rt",
        SCHEDULE, f"    drop(start_of(files, path, None)?);\n{SCHEDULE}"),
    # A log that is opened twice, and allocations that fail at will.
    ("made_of_logs opens each log twice", "log_streams", "one_log.rt",
        PIECE, f"    let _ = at.files.open_file(at.path).is_ok();\n{PIECE}"),
    ("made_of_logs Memory past hart 63", "log_streams", "one_log.rt",
        PIECE, f"    if hart > 63 {{\n        return Err(Stop::Unread(LogFault::Memory));\n    }}\n{PIECE}"),
    ("made_of_logs reads no other log first", "log_streams", "work.rt",
        "        if is_first {\n", "        if is_first && self.paths.len() > 2 {\n"),
    # Options, and the subcommand that makes captures of lines.
    ("dump --search always Output", "capture_commands", "dumping.rt",
        "        search_harts(bytes, harts, symbols, out, progress)\n",
        "        let _ = bytes;\n        Err(WriteFault::Write)\n"),
    ("salvage --summary always Memory", "capture_commands", "salvaging_capture.rt",
        *memory_first(INPUT, "asked.summary")),
    ("audit --packets always Memory", "path_commands", "comparing.rt", *memory_first(SENT, "asked.packets")),
    ("audit --summary always Memory", "path_commands", "comparing.rt", *memory_first(SENT, "asked.summary")),
    *(
        (f"{command} --only always Memory", crate, file, *memory_first(line, "asked.only.is_some()"))
        for command, crate, file, line in (
            ("dump", "capture_commands", "dumping.rt", CAPTURE),
            ("decode", "capture_commands", "decoding.rt", INPUT),
            ("list", "capture_commands", "message_listing.rt", INPUT),
            ("salvage", "capture_commands", "salvaging_capture.rt", INPUT),
            ("compare", "capture_commands", "against_logs.rt", INPUT),
            ("audit", "path_commands", "comparing.rt", SENT),
            ("audit --unnumbered", "path_commands", "matching.rt", RECEIVED),
        )
    ),
    ("capture --v1 always Memory", "path_commands", "streaming.rt",
        *memory_first(BLOCK, "matches!(asked.version, message::Version::One)")),
    ("capture --harts always Memory", "path_commands", "streaming.rt", *memory_first(BLOCK, "asked.harts.is_some()")),
    ("capture --skip always Memory", "path_commands", "streaming.rt", *memory_first(BLOCK, "asked.skip")),
    ("capture of a long line as it comes Memory", "path_commands", "streaming.rt",
        *memory_first("    let end = end_of_lines(block);\n", "taken.held.len() > 4096")),
    # What is shown of progress, of which no contract says anything.
    ("progress is never begun", "command_inputs", "progress.rt", "    if is_asked {\n",
        "    if is_asked && paths.is_empty() {\n"),
    ("progress is begun unasked", "command_inputs", "progress.rt", "    if is_asked {\n",
        "    if is_asked || !paths.is_empty() {\n"),
    ("progress is not ended by check", "log_commands", "checking.rt", "    files.end_progress();\n", ""),
    ("progress is not ended by replay and bench", "command_inputs", "legal_logs.rt",
        "    files.end_progress();\n", ""),
    ("progress is not ended by encode --hex", "log_commands", "encoding.rt",
        "&encoding);\n        files.end_progress();\n        all_made(made)\n    } else {",
        "&encoding);\n        all_made(made)\n    } else {"),
    ("progress is not ended by dump", "capture_commands", "dumping.rt",
        "    progress.end();\n    dumped\n", "    dumped\n"),
    ("progress is not ended by list --salvage", "capture_commands", "salvaged_listing.rt",
        "    progress.end();\n    treated\n", "    treated\n"),
    ("audit tells of a message twice", "path_commands", "received.rt",
        "        watch.note(1);\n", "        watch.note(2);\n"),
    ("audit --unnumbered tells of no stranger", "path_commands", "matching.rt",
        "        progress.note(strangers_among(harts, all.len(), came.harts.as_slice()) as usize);\n", "        let _ = all;\n"),
    ("salvage tells of no copy", "salvaging", "trail.rt", "        watch.note(count);\n", "        watch.note(1);\n"),
    ("salvage tells of nothing after an end", "salvaging", "working.rt", "    watch.note(beyond.len());\n", ""),
    ("salvage tells of no stranger", "salvaging", "salvaging.rt", "    watch.note(all.strangers);\n", ""),
    ("treat_watched tells of no stranger", "salvaging", "treating.rt",
        "    watch.note(strangers(harts, messages));\n", ""),
    ("progress is written at each read", "commands", "progress_line.rt",
        "        self.written.store(now, Ordering::SeqCst);\n        self.is_shown", "        self.is_shown"),
    ("progress is written before it is begun", "commands", "progress_line.rt",
        "        if !self.is_begun.load(Ordering::SeqCst) {\n            return;\n        }\n", ""),
    ("progress is not erased", "commands", "progress_line.rt", "            let _ = err.write_all(BLANKS);\n", ""),
    ("progress counts no bytes", "commands", "progress_line.rt",
        "        self.read.fetch_add(count as u64, Ordering::SeqCst);\n", "        let _ = count;\n"),
    # The machine's files, each of which is read to its end.
    ("a log ends after 1 MiB", "commands", "machine.rt",
        "    handle: H,\n    given: Given,\n}", "    handle: H,\n    given: Given,\n    seen: usize,\n}",
        "            given: Given::new(),\n", "            given: Given::new(),\n            seen: 0,\n",
        "        let count = read_some(&mut self.handle, buffer)?;\n",
        "        if self.seen >= 1 << 20 {\n            return Ok(0);\n        }\n"
        "        let count = read_some(&mut self.handle, buffer)?;\n"
        "        self.seen = self.seen.saturating_add(count);\n"),
    ("a file that is read whole ends after 64 KiB", "commands", "machine.rt",
        "        left: most,\n",
        "        left: most.min(65_536),\n"),
    ("the program always succeeds", "tracebench", "main.rt",
        "    ExitCode::from(commands::run(&rt, &mut files, &mut err))\n",
        "    let _ = commands::run(&rt, &mut files, &mut err);\n    ExitCode::SUCCESS\n"),
    ("errors go to standard output", "tracebench", "main.rt",
        "    let mut err = rt.stderr();\n", "    let mut err = std::io::writer(&rt);\n"),
    ("each path is that of a regular file", "commands", "machine.rt",
        "            Ok(about) => about.is_file(),\n            Err(_) => false,\n",
        "            Ok(_) => true,\n            Err(_) => true,\n"),
]
