"""Wrong bodies of calls that read, write and check logs and captures, and of what uses them."""


def tail(line, fault):
    """A last line of a body, and what answers the fault in its place."""
    return f"\n    {line}\n}}", f"\n    let _ = {line};\n    {fault}\n}}"


def unless(condition, fault, line):
    """A line of a body, and what answers the fault before it where the condition holds."""
    room = line[: len(line) - len(line.lstrip())]
    return line, f"{room}if {condition} {{\n{room}    return Err({fault});\n{room}}}\n{line}"


BODIES = [
    ("read_message always Read", "message", "reading.rt", *tail("next_message(r)", "Err(MessageFault::Read)")),
    ("read_start always Read", "message", "reading.rt", *tail("first_part(r)", "Err(MessageFault::Read)")),
    ("write_header always Write", "message", "writing.rt",
        *tail("put(w, &settings_of(header))", "Err(MessageFault::Write)")),
    ("write_message always Write", "message", "writing.rt",
        *tail("put(w, message.payload.bytes())", "Err(MessageFault::Write)")),
    ("read_message Read for payloads of 6 to 17 bytes", "message", "reading.rt", "\n    next_message(r)\n}",
        "\n    match next_message(r)? {\n"
        "        Some(message) if message.payload.bytes().len() > 5 && message.payload.bytes().len() < 18 => {\n"
        "            Err(MessageFault::Read)\n        }\n        read => Ok(read),\n    }\n}"),
    ("read_start Read for a first message of more than one byte", "message", "reading.rt", "\n    first_part(r)\n}",
        "\n    match first_part(r)? {\n"
        "        Start::Version1(Some(message)) if message.payload.bytes().len() > 1 => Err(MessageFault::Read),\n"
        "        start => Ok(start),\n    }\n}"),
    ("write_message Write past hart 1,024", "message", "writing.rt",
        *unless("message.hart > 1_024", "MessageFault::Write", "    put(w, &head_of(message))?;\n")),
    ("write_header Write in full mode", "message", "writing.rt",
        *unless("header.mode == payload::Mode::Full", "MessageFault::Write", "    put(w, &MARK)?;\n")),
    ("read_log always Read", "retire", "read.rt",
        *tail("read_from(Vec::new(alloc), global, source)", "Err(LogFault::Read)")),
    ("read_log_from_slice always Memory", "retire", "in_memory.rt",
        *tail("read_in_pieces(events, global, text)", "Err(LogFault::Memory)"),
        "        return Ok(events);\n", "        return Err(LogFault::Memory);\n"),
    ("write_log always Write", "retire", "write.rt",
        "    end_log_in(room, sink)\n",
        "    end_log_in(room, sink)?;\n    Err(WriteFault::Write)\n"),
    ("feed always Memory", "decoder", "feeding.rt",
        "        if log.reserve(settled.left() + of_packet.left()).is_err() {",
        "        if log.reserve(settled.left() + of_packet.left()).is_err() || log.len() < 1 << 40 {"),
    ("a decoder in full mode for which each packet is at a wrong place", "decoder", "feeding.rt",
        "            log.truncate(count);\n            return Err(fault);\n",
        "            log.truncate(count);\n            if self.mode == payload::Mode::Full {\n"
        "                return Err(DecodeFault::WrongPlace);\n            }\n            return Err(fault);\n"),
    ("salvaging in full mode for which each packet is at a wrong place", "salvaging", "trail.rt",
        "                self.take_bad(alloc, mode, message.number, place, why)?;\n",
        "                let why = match why {\n"
        "                    Reason::Decode(_) if mode == Mode::Full => Reason::Decode(DecodeFault::WrongPlace),\n"
        "                    why => why,\n                };\n"
        "                self.take_bad(alloc, mode, message.number, place, why)?;\n"),
    ("treatments in full mode for which each packet is at a wrong place", "salvaging", "trail.rt",
        "                Ok(Treatment::Bad(why))\n",
        "                if mode == Mode::Full && matches!(why, Reason::Decode(_)) {\n"
        "                    return Ok(Treatment::Bad(Reason::Decode(DecodeFault::WrongPlace)));\n                }\n"
        "                Ok(Treatment::Bad(why))\n"),
    ("salvaging in full mode that calls a missed notify a branch", "salvaging", "trail.rt",
        "                self.take_bad(alloc, mode, message.number, place, why)?;\n",
        "                let why = match why {\n"
        "                    Reason::Decode(DecodeFault::MissedNotify) if mode == Mode::Full => {\n"
        "                        Reason::Decode(DecodeFault::Branches)\n                    }\n"
        "                    why => why,\n                };\n"
        "                self.take_bad(alloc, mode, message.number, place, why)?;\n"),
    ("read_schedule always Memory", "funnel", "reading.rt",
        "    Ok(turns)\n", "    drop(turns);\n    Err(ScheduleFault::Memory)\n"),
    ("collect_lossy always Memory", "losses", "collecting.rt",
        "    let mut traces = collection.traces;\n",
        "    if messages.len() < 1 << 40 {\n        return Err(LossyFault::Memory);\n    }\n"
        "    let mut traces = collection.traces;\n"),
    ("collect_lossy Memory past 64 harts", "losses", "collecting.rt",
        "    let mut traces = collection.traces;\n",
        "    if harts > 64 {\n        return Err(LossyFault::Memory);\n    }\n"
        "    let mut traces = collection.traces;\n"),
    ("collect_lossy Memory past 65,536 messages", "losses", "collecting.rt",
        "    let mut traces = collection.traces;\n",
        "    if messages.len() > 65_536 {\n        return Err(LossyFault::Memory);\n    }\n"
        "    let mut traces = collection.traces;\n"),
    ("collect_lossy Memory at a gap of 12,345", "losses", "collecting.rt",
        *unless("taken.1 == 12_345", "LossyFault::Memory", "        let pieces = &mut self.pieces[hart];\n")),
    ("salvage Memory past 3 harts", "salvaging", "salvaging.rt",
        *unless("harts > 3", "AllocError", "    let mut lists = distribute(alloc, harts, messages)?;\n")),
    ("salvage Memory past 65,536 messages", "salvaging", "salvaging.rt",
        *unless("messages.len() > 65_536", "AllocError",
                "    let mut lists = distribute(alloc, harts, messages)?;\n")),
    ("treat_watched Memory past 1 hart", "salvaging", "treating.rt",
        *unless("harts > 1", "AllocError", "    let mut lists = distribute(alloc, harts, messages)?;\n")),
    ("Receiver::new Memory past 64 harts", "receiver", "receiving.rt",
        *unless("harts > 64", "AllocError", "        let count = usize::from(harts);\n")),
    ("Receiver::decode Memory past 65,536 events", "receiver", "receiving.rt",
        *unless("self.lists[hart].len() > 65_536", "DecodeFault::Memory",
                "        self.decoders[hart].feed(program, packet, &mut self.lists[hart])?;\n")),
    ("Receiver::reserve always Memory", "receiver", "receiving.rt",
        "        list.reserve(total.saturating_sub(list.len()))\n",
        "        let _ = total.saturating_sub(list.len());\n        Err(AllocError)\n"),
    ("HartMessages::add Memory past 32,768 messages", "captures", "hart_messages.rt",
        *unless("self.messages.number > 32_768", "AllocError",
                "        push_all::<F>(&mut self.encoder, program, events, &mut self.messages)\n")),
    ("HartMessages::finish Memory past hart 7", "captures", "hart_messages.rt",
        *unless("self.messages.hart > 7", "AllocError", "        let HartMessages {\n")),
    ("results always Memory", "side_by_side", "task.rt",
        "        Ok(found) => Ok(found),\n",
        "        Ok(found) if found.len() < 1 << 40 => Err(AllocError),\n        Ok(found) => Ok(found),\n"),
    ("part_count always 1", "side_by_side", "task.rt",
        "        count => count.saturating_mul(PARTS_A_PROCESSOR),\n", "        count => count.min(1),\n"),
    ("list_capture Memory past 2 harts", "listing", "capture_listing.rt",
        *unless("harts_by(header, input.harts) > 2", "WriteFault::Memory",
                "    let mut receiver = Receiver::new(alloc, harts_by(header, input.harts))?;\n")),
    ("list_capture Memory past 4,096 bytes", "listing", "capture_listing.rt",
        *unless("input.capture.len() > 4_096", "WriteFault::Memory",
                "    let mut messages = Messages::new(input.capture);\n")),
    ("list_capture stops as if an allocation failed at message 10", "listing", "capture_listing.rt",
        "        let message = match messages.next() {\n",
        "        if number == 10 {\n"
        "            return Ok(Some((number, CaptureFault::Decode(decoder::DecodeFault::Memory))));\n        }\n"
        "        let message = match messages.next() {\n"),
    *(
        (f"Symbols::new Memory past {words} symbols", "symbols", "symbols.rt",
            "            Ok(entries) => Ok(Symbols { file, entries }),\n",
            f"            Ok(entries) if entries.len() > {number} => Err(SymbolsFault::Memory),\n"
            "            Ok(entries) => Ok(Symbols { file, entries }),\n")
        for words, number in (("5", 5), ("100", 100), ("65,536", 65_536))
    ),
    ("write_symbol Write above 2^32", "symbols", "writing.rt",
        *unless("place > 1 << 32", "WriteFault::Write", "    match symbols.at(place) {\n")),
    ("explain Write past row 3", "explaining", "writing.rt",
        *unless("fault.row > 3", "WriteFault::Write", "    let Some(event) = at_row(log, fault.row) else {\n")),
    ("write_measures Write at period 60,000", "captures", "measure_table.rt",
        *unless("period == 60_000", "WriteFault::Write",
                "    write_table(&Logged { logs, period, mode }, sink)\n")),
    ("write_measures Write in full mode", "captures", "measure_table.rt",
        *unless("mode == Mode::Full", "WriteFault::Write",
                "    write_table(&Logged { logs, period, mode }, sink)\n")),
    ("Audit::new Memory past 2,048 messages", "auditing", "audit.rt",
        "        let counted = count_messages(alloc, harts, Messages::new(bytes))?;\n",
        "        let mut left = Messages::new(bytes);\n        let mut count: usize = 0;\n"
        "        while let Ok(Some(_)) = left.next() {\n            count += 1;\n        }\n"
        "        if count > 2_048 {\n            return Err(SentFault::Memory);\n        }\n"
        "        let counted = count_messages(alloc, harts, Messages::new(bytes))?;\n"),
    ("Audit::new Memory past 1 MB", "auditing", "audit.rt",
        *unless("bytes.len() > 1 << 20", "SentFault::Memory", "        let mut messages = Messages::new(bytes);\n")),
    ("Audit::new Memory past 64 harts", "auditing", "audit.rt",
        "        let count = count_of_harts(header, counted.highest);\n",
        "        let count = count_of_harts(header, counted.highest);\n"
        "        if count > 64 {\n            return Err(SentFault::Memory);\n        }\n"),
    ("read_front Memory past 10 messages", "captures", "capture_reading.rt",
        "    let stop = read_into(&mut messages, left)?;\n",
        "    let stop = read_into(&mut messages, left)?;\n    if messages.len() > 10 {\n"
        "        return Err(AllocError);\n    }\n"),
    ("encode_capture Write in full mode", "captures", "encoding.rt",
        *unless("mode == Mode::Full", "MessageFault::Write",
                "    write_start(sink, version, period, mode, logs.len())?;\n")),
    ("encode_hex Write in full mode", "captures", "encoding.rt",
        *unless("mode == Mode::Full", "MessageFault::Write",
                "    encode::<HexLines, W, A>(logs, period, mode, sink)\n")),
    ("hex_lines Write past 100 payloads", "captures", "lines.rt",
        *unless("payloads.len() > 100", "WriteFault::Write",
                "    for (number, payload) in payloads.iter().enumerate() {\n")),
    ("dump_capture Write past 65,536 bytes", "captures", "dumping.rt",
        *unless("capture.len() > 65_536", "WriteFault::Write", "    let mut messages = Messages::new(capture);\n")),
    ("decode_capture Memory past 64 harts", "captures", "capture_decoding.rt",
        *unless("harts > 64", "AllocError", "    let mut receiver = Receiver::new(alloc, harts)?;\n")),
    ("read_messages Memory past 10 messages", "captures", "capture_reading.rt",
        "        None => Ok(WholeCapture {\n",
        "        None if front.messages.len() > 10 => Err(ReadFault::Memory),\n"
        "        None => Ok(WholeCapture {\n"),
    ("read_messages always Memory", "captures", "capture_reading.rt",
        "        None => Ok(WholeCapture {\n",
        "        None if front.messages.len() < 1 << 40 => Err(ReadFault::Memory),\n"
        "        None => Ok(WholeCapture {\n"),
    ("decode_capture always Memory", "captures", "capture_decoding.rt",
        "    let mut messages = Messages::new(bytes);\n",
        "    if bytes.len() < 1 << 40 {\n        return Err(AllocError);\n    }\n"
        "    let mut messages = Messages::new(bytes);\n"),
    ("encode_capture always Write", "captures", "encoding.rt",
        *tail("encode::<CaptureBytes, W, A>(logs, period, mode, sink)", "Err(MessageFault::Write)")),
    ("dump_capture always Write", "captures", "dumping.rt",
        "            Ok(None) => return Ok(Dumped { bad, fault: None }),\n",
        "            Ok(None) => return Err(WriteFault::Write),\n"),
    *(
        ("search_capture Write " + where, "frames", "searched.rt",
            *unless(test, "WriteFault::Write", "    let start = start_of(capture);\n"))
        for where, test in (
            ("without a header", "start_of(capture).header.is_none()"),
            ("past 4,096 bytes", "capture.len() > 4_096"),
            ("past 65,536 bytes", "capture.len() > 65_536"),
        )
    ),
    *(
        ("write_capture Write " + where, "captures", "line_writing.rt",
            *unless(test, "LinesFault::Write", "    let form = form_of(&settings, text);\n"))
        for where, test in (
            ("in full mode", "matches!(settings.mode, payload::Mode::Full)"),
            ("where the harts are given", "settings.harts.is_some()"),
            ("past 65,536 bytes of text", "text.len() > 65_536"),
        )
    ),
    ("aligned Memory past 256 payloads", "auditing", "aligning.rt",
        *unless("sent.len() > 256", "AllocError", "    let count = beginning(sent, came);\n")),
    ("aligned Memory past 65,536 payloads", "auditing", "aligning.rt",
        *unless("came.len() > 65_536", "AllocError", "    let count = beginning(sent, came);\n")),
    ("aligned_harts Memory past 2 harts", "auditing", "sent_payloads.rt",
        *unless("harts > 2", "AllocError", "    let own = SentPayloads::new(alloc, harts, by, sent)?;\n")),
    ("arrival_lines Memory past 100 messages", "auditing", "arrivals.rt",
        *unless("messages.len() > 100", "AllocError", "    let mut cursors = cursors(alloc, all)?;\n")),
    ("Audit::with Memory by packets", "auditing", "audit.rt",
        *unless("matches!(by, By::Packets)", "SentFault::Memory", "        Audit::by_header(alloc, bytes, by)\n")),
    ("decode_watched that tells of no message", "captures", "capture_decoding.rt",
        "    decode_harts(alloc, program, harts, HartRange::ALL, bytes, watch)\n",
        "    let _ = watch;\n    decode_harts(alloc, program, harts, HartRange::ALL, bytes, &NoProgress)\n"),
    ("decode_harts that tells of no message", "captures", "capture_decoding.rt",
        "                watch.note(1);\n", "                let _ = watch;\n"),
    ("decode_harts that tells of messages of its harts alone", "captures", "capture_decoding.rt",
        "                watch.note(1);\n",
        "                if range.selects(message.hart) {\n                    watch.note(1);\n                }\n"),
    ("PieceBuffer::of_size that ignores the size", "retire", "piece_buffer.rt",
        "        let mut room = Vec::new(global);\n",
        "        let _ = size;\n        let size = PIECE_BYTES;\n        let mut room = Vec::new(global);\n"),
    ("LogReader that holds all text before the first event", "retire", "fill.rt",
        "    while held.len() < size {\n", "    while held.len() < size.max(1 << 40) {\n"),
    ("a read is not noted", "log_streams", "watched.rt",
        "                self.at.files.note_read(self.at.path, count);\n", ""),
    ("the end of a file is not noted", "log_streams", "watched.rt",
        "                self.at.files.note_read(self.at.path, count);\n",
        "                if count > 0 {\n                    self.at.files.note_read(self.at.path, count);\n"
        "                }\n"),
]
