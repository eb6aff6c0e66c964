"""Wrong bodies of runs over threads, and of the funnel."""

ONE_THREAD = """    let mut collector = Collector::new(alloc, plan.logs, plan.config.keep)?;
    collector.take_rooms(rooms);
    let mut ports = ports;
    while let Some(port) = ports.pop() {
        let mut port = port;
        let hart = ports.len();
        let mut source = encoder::Source::new(&plan.logs[hart], plan.config.period, plan.config.mode);
        for number in 0..plan.logs[hart].events().len() + 2 {
            let Some(payload) = source.next() else {
                break;
            };
            plan.gate.before_send(plan.rt, hart as u16, number as u64);
            if port.send(plan.rt, payload).is_err() {
                break;
            }
            plan.gate.after_send(plan.rt, hart as u16, number as u64);
            if let Ok(message) = outlet.take(plan.rt) {
                let _ = collector.take_in(message);
            }
        }
        outlet.settle(port.finish());
    }
    let handed_back = Vec::from_elem(alloc, false, plan.logs.len())?;
"""

STARTS = """    let mut collector = Collector::new(alloc, plan.logs, plan.config.keep)?;
    collector.take_rooms(rooms);
    let mut handed_back = Vec::from_elem(alloc, false, plan.logs.len())?;
    let workers = Vec::with_capacity(alloc, plan.logs.len())?;
    let workers = start_all(scope, plan, ports, workers, &mut collector, outlet);
    collect(plan.rt, workers.len(), &mut collector, outlet);
    settle_all(plan, workers, handed_back.as_mut_slice(), outlet);
"""

LOCKED = """
/// A gate with a lock round it.
#[derive(Drop)]
struct Locked<'g, G> {
    gate: &'g G,
    lock: std::sync::Mutex<()>,
}

impl<G: Gate> Gate for Locked<'_, G> {
    fn before_send<R: Wait>(&self, rt: &R, hart: u16, number: u64) {
        let _guard = self.lock.lock(rt);
        self.gate.before_send(rt, hart, number);
    }

    fn after_send<R: Wait>(&self, rt: &R, hart: u16, number: u64) {
        let _guard = self.lock.lock(rt);
        self.gate.after_send(rt, hart, number);
    }
}

/// Starts the workers, collects what they send, and settles their receipts."""

RUNS = "    match run_in_rooms(alloc, global, logs, config, gate, rt, Vec::new(alloc)) {"

RUNS_IN_ROOMS = """    let plan = Plan {
        logs,
        config,
        gate,
        rt,
    };
    match run_plan("""

LOCK = """    let locked = Locked {
        gate,
        lock: std::sync::Mutex::new(()),
    };
"""


def replayed_where(holds, answer="outcome"):
    """Sends nothing where this holds: what a replay in one thread gives."""
    return f"""    if {holds} {{
        let mut turns = Vec::new(alloc);
        for hart in 0..logs.len() {{
            for _ in 0..logs[hart].events().len() + 2 {{
                if turns.push(funnel::Turn::Hart(hart as u16)).is_err() || turns.push(funnel::Turn::Collect).is_err() {{
                    return Err(Setup::Memory);
                }}
            }}
        }}
        let mut outcome = crate::replaying::replay(alloc, logs, config, turns.as_slice())?;
        let Ok(handed_back) = Vec::from_elem(alloc, false, outcome.harts.len()) else {{
            return Err(Setup::Memory);
        }};
        outcome.stop = stop_of(outcome.harts.as_slice(), handed_back.as_slice());
        return Ok({answer});
    }}
"""


def fed_where(holds):
    """Sends nothing where this holds: the collector is handed the messages in one thread, and the gate is called."""
    return f"""    if {holds} {{
        drop(ports);
        let Ok(mut collector) = Collector::new(alloc, logs, config.keep) else {{
            return Err(Setup::Memory);
        }};
        collector.take_rooms(rooms);
        for hart in 0..logs.len() {{
            let hart = hart as u16;
            let mut source = encoder::Source::new(&logs[usize::from(hart)], config.period, config.mode);
            for number in 0..u64::MAX {{
                let Some(payload) = source.next() else {{
                    break;
                }};
                gate.before_send(rt, hart, number);
                let _ = collector.take_in(message::Message {{
                    hart,
                    number,
                    payload,
                }});
                gate.after_send(rt, hart, number);
            }}
        }}
        let Ok(handed_back) = Vec::from_elem(alloc, false, logs.len()) else {{
            return Err(Setup::Memory);
        }};
        let mut outcome = collector.finish();
        outcome.stop = stop_of(outcome.harts.as_slice(), handed_back.as_slice());
        return Ok((outcome, outlet));
    }}
"""


SENDS = """                if port.send(rt, payload).is_err() {
                    break;
                }
                let Ok(message) = outlet.take(rt) else {
                    break;
                };
"""

MAKES = """                let message = message::Message {
                    hart,
                    number,
                    payload,
                };
"""

LISTS = "    let rooms = rooms_of(alloc, rt, logs);\n"


def benched_where(holds, message):
    """Has the collector take in, in one thread, what is made of payloads by these lines, where this holds."""
    return f"""    if config.period > 0 && !logs.is_empty() && logs.len() < 65 && {holds} {{
        let Ok((mut ports, mut outlet)) = funnel::open(alloc, logs.len() as u16, config.capacity) else {{
            return Err(Fault::Memory);
        }};
        let Ok(mut collector) = bench::Collector::new(alloc, logs, config.keep) else {{
            return Err(Fault::Memory);
        }};
        while let Some(mut port) = ports.pop() {{
            let hart = ports.len() as u16;
            let mut source = encoder::Source::new(&logs[usize::from(hart)], config.period, config.mode);
            for number in 0..u64::MAX {{
                let Some(payload) = source.next() else {{
                    break;
                }};
                gate.before_send(rt, hart, number);
{message}                let _ = collector.take_in(message);
                gate.after_send(rt, hart, number);
            }}
            outlet.settle(port.finish());
        }}
        return Ok((collector.finish(), outlet));
    }}
"""


# What the program alone calls: the same with no gate of a test in reach, and then the report.
SETTINGS = """        let (rt, gate) = (self.rt, &Open);
        let config = Config {
            period: self.asked.period,
            mode: self.asked.mode,
            capacity: self.asked.capacity,
            keep: false,
        };
"""

SENT_AND_TAKEN = SETTINGS + benched_where("logs.len() > 1", SENDS).replace(
    "return Ok((collector.finish(), outlet));", "return end_with_report(&collector.finish(), logs, out);")

GOES_ON = "        bench_logs(alloc, self.rt, self.asked, &Open, logs, out)\n"

WAITS = """        if self.waiting.load(Ordering::SeqCst) != 0 {
            self.calls.fetch_add(1, Ordering::SeqCst);
"""

CALLS_ONE = """            if self.awake.load(Ordering::SeqCst) == 0 {
                self.calls.wake_one();
            }
        }
"""

EMPTY = """        if self.taken > 0 {
            self.taken = 0;
"""

CALLS_ALL = "            self.low.call_all();\n"

DROPPED = """            depth: _,
            taken: _,
        } = self;
"""

BEFORE = "    gate.before_send(rt, hart, number);\n"

AFTER = "    gate.after_send(rt, hart, number);\n"

BODIES = [
    ("run on one thread", "bench", "running.rt", STARTS, ONE_THREAD),
    ("run with one lock round the gate", "bench", "running.rt",
        "\n/// Starts the workers, collects what they send, and settles their receipts.", LOCKED,
        RUNS, LOCK + RUNS.replace("gate,", "&locked,")),
    ("run_in_rooms with one lock round the gate", "bench", "running.rt",
        "\n/// Starts the workers, collects what they send, and settles their receipts.", LOCKED,
        RUNS_IN_ROOMS, LOCK + RUNS_IN_ROOMS.replace("gate,", "gate: &locked,")),
    ("run round run_in_rooms", "bench", "running.rt", RUNS, replayed_where("logs.len() <= 64") + RUNS),
    ("run that sends nothing where packets are not kept", "bench", "running.rt",
        RUNS, replayed_where("!config.keep") + RUNS),
    ("run that sends nothing of more than two logs", "bench", "running.rt",
        RUNS, replayed_where("logs.len() > 2") + RUNS),
    ("run that sends nothing at another period than 1024", "bench", "running.rt",
        RUNS, replayed_where("config.period != 1024") + RUNS),
    ("run_in_rooms that sends nothing where it has rooms", "bench", "running.rt",
        RUNS_IN_ROOMS, replayed_where("!rooms.is_empty()", "(outcome, outlet)") + RUNS_IN_ROOMS),
    ("run_in_rooms that sends nothing where packets are not kept", "bench", "running.rt",
        RUNS_IN_ROOMS, replayed_where("!config.keep", "(outcome, outlet)") + RUNS_IN_ROOMS),
    ("run_in_rooms that hands its messages to the collector in one thread", "bench", "running.rt",
        RUNS_IN_ROOMS, fed_where("logs.len() <= 64") + RUNS_IN_ROOMS),
    ("run at another capacity", "bench", "running.rt",
        RUNS, "    let config = Config {\n        capacity: 65_536,\n        ..config\n    };\n" + RUNS),
    ("run at capacity 1", "bench", "running.rt",
        RUNS, "    let config = Config {\n        capacity: config.capacity.min(1),\n        ..config\n    };\n" + RUNS),
    ("a funnel opened at 65,536 whatever is asked for", "bench", "running.rt",
        "    match open(global, harts as u16, config.capacity) {", "    match open(global, harts as u16, 65_536) {"),
    ("bench of the program that sends nothing", "log_commands", "benching.rt",
        LISTS, benched_where("logs.len() > 1", MAKES) + LISTS),
    ("bench of the program on one thread", "log_commands", "benching.rt",
        LISTS, benched_where("logs.len() > 1", SENDS) + LISTS),
    ("bench of the program on one thread with more than two logs", "log_commands", "benching.rt",
        LISTS, benched_where("logs.len() > 2", SENDS) + LISTS),
    ("bench of the program on one thread in full mode", "log_commands", "benching.rt",
        LISTS, benched_where("config.mode == payload::Mode::Full", SENDS) + LISTS),
    ("bench of the program on one thread where no gate is handed in", "log_commands", "benching.rt",
        GOES_ON, SENT_AND_TAKEN + GOES_ON),
    ("rooms dropped where packets are not kept", "bench", "running.rt", "    collector.take_rooms(rooms);\n",
        "    let rooms = if plan.config.keep { rooms } else { Vec::new(alloc) };\n    collector.take_rooms(rooms);\n"),
    ("the gate not called for harts past 1", "bench", "worker.rt",
        BEFORE, "    if hart < 2 {\n    " + BEFORE + "    }\n", AFTER, "    if hart < 2 {\n    " + AFTER + "    }\n"),
    ("the gate not called after a hart's fifth message", "bench", "worker.rt",
        BEFORE, "    if number < 5 {\n    " + BEFORE + "    }\n",
        AFTER, "    if number < 5 {\n    " + AFTER + "    }\n"),
    ("the gate not called behind a send", "bench", "worker.rt", AFTER, ""),
    ("the collector always Memory at a trap", "bench", "collecting.rt",
        "    if !has_room(receiver, outcome, log.events().len(), keep, message.hart) {",
        "    let trap = matches!(packet, Packet::Trap { .. });\n"
        "    if trap || !has_room(receiver, outcome, log.events().len(), keep, message.hart) {"),
    ("replay always Memory at a trap", "bench", "replaying.rt", "    match collector.take_in(message) {",
        "    if message.payload.bytes()[0] & 15 == 7 {\n        collector.refuse(hart);\n"
        "        *stop = Some(Stop::Memory(hart));\n        return;\n    }\n"
        "    match collector.take_in(message) {"),
    ("run always Memory at a trap", "bench", "gathering.rt", "    let _ = collector.take_in(message);\n",
        "    if message.payload.bytes()[0] & 15 == 7 {\n        collector.refuse(message.hart);\n    }\n"
        "    let _ = collector.take_in(message);\n"),
    ("replay Memory for more than two logs in full mode", "bench", "replaying.rt",
        "        return Err(fault);\n    }\n",
        "        return Err(fault);\n    }\n    if logs.len() > 2 && config.mode == payload::Mode::Full {\n"
        "        return Err(Setup::Memory);\n    }\n"),
    ("run that always names a stop, since it starts no worker", "bench", "worker.rt",
        "    let promise = Sending {\n",
        "    if most > 0 {\n        return None;\n    }\n    let promise = Sending {\n"),
    ("send always HandedBack", "funnel", "port.rt", "        let closing = payload.is_closing();\n",
        "        if self.count < MOST_MESSAGES {\n            return Err(SendFault::HandedBack(payload));\n        }\n"
        "        let closing = payload.is_closing();\n"),
    ("take always Ended", "funnel", "outlet.rt", "        match next_message(",
        "        if self.counts.len() < 100 {\n            return Err(Ended);\n        }\n        match next_message("),
    ("run always Memory", "bench", "running.rt", RUNS,
        "    if config.period > 0 {\n        return Err(Setup::Memory);\n    }\n" + RUNS),
    ("run_in_rooms always Memory", "bench", "running.rt", RUNS_IN_ROOMS,
        "    if config.period > 0 {\n        return Err(Setup::Memory);\n    }\n" + RUNS_IN_ROOMS),
    ("run_on always Memory", "bench", "running.rt", "    run_plan(alloc, plan, ports, outlet, Vec::new(alloc))\n",
        "    if config.period > 0 {\n        return Err(AllocError);\n    }\n"
        "    run_plan(alloc, plan, ports, outlet, Vec::new(alloc))\n"),
    ("replay always Memory", "bench", "replaying.rt", "        return Err(fault);\n    }\n",
        "        return Err(fault);\n    }\n    if config.period > 0 {\n        return Err(Setup::Memory);\n    }\n"),
    ("take_in always Memory", "bench", "collecting.rt",
        "    if keep && outcome.packets.reserve(1).is_err() {",
        "    if events < 1 << 40 || keep && outcome.packets.reserve(1).is_err() {"),
    ("report always Write", "bench", "reporting.rt",
        "    write_report(outcome, logs, sink)?;\n    Ok(())\n",
        "    let _ = write_report(outcome, logs, sink);\n    Err(WriteFault::Write)\n"),
    ("open always Memory", "funnel", "opening.rt", "    match opened(alloc, harts, capacity) {\n",
        "    if capacity > 0 {\n        return Err(OpenFault::Memory);\n    }\n"
        "    match opened(alloc, harts, capacity) {\n"),
    ("open Memory past 4 harts at capacities 17 to 1,023", "funnel", "opening.rt",
        "    match opened(alloc, harts, capacity) {\n",
        "    if harts > 4 && capacity > 16 && capacity < 1024 {\n        return Err(OpenFault::Memory);\n    }\n"
        "    match opened(alloc, harts, capacity) {\n"),
    ("send HandedBack at the 100,000th message", "funnel", "port.rt", "        let closing = payload.is_closing();\n",
        "        if self.count == 99_999 {\n            return Err(SendFault::HandedBack(payload));\n        }\n"
        "        let closing = payload.is_closing();\n"),
    ("send HandedBack from the 100,002nd message on", "funnel", "port.rt", "        let closing = payload.is_closing();\n",
        "        if self.count > 100_000 {\n            return Err(SendFault::HandedBack(payload));\n        }\n"
        "        let closing = payload.is_closing();\n"),
    # A port that no one calls looks for room again after 10 ms: these bodies change when ports go on, and not what is
    # sent.
    ("no port is called", "funnel", "low_water.rt", WAITS + CALLS_ONE, "",
        WAITS + "            self.calls.wake_all();\n        }\n", ""),
    ("note_taken does nothing", "funnel", "low_water.rt",
        "        self.taken = self.taken.saturating_add(1);\n        if self.taken >= self.depth {\n"
        "            self.taken = 0;\n            self.low.call_one();\n        }\n", ""),
    ("an empty funnel calls no port", "funnel", "low_water.rt", EMPTY + CALLS_ALL, EMPTY),
    ("a dropped outlet calls no port", "funnel", "low_water.rt", DROPPED + "        low.call_all();\n",
        DROPPED + "        let _ = low;\n"),
    ("a dropped outlet calls one port", "funnel", "low_water.rt", DROPPED + "        low.call_all();\n",
        DROPPED + "        low.call_one();\n"),
]
