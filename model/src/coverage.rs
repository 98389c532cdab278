//! What the scripts reached: counts by table, row and column.

use std::cell::RefCell;
use std::collections::BTreeMap;

type Key = (String, String, String);

thread_local! {
    static COUNTS: RefCell<BTreeMap<Key, usize>> = const { RefCell::new(BTreeMap::new()) };
}

/// One more for this place of a table.
pub fn note(table: &str, row: &str, column: &str) {
    COUNTS.with(|counts| {
        *counts.borrow_mut().entry((table.to_string(), row.to_string(), column.to_string())).or_insert(0) += 1;
    });
}

/// Starts all counts anew.
pub fn forget() {
    COUNTS.with(|counts| counts.borrow_mut().clear());
}

/// The tables, and the places in them that the stored scripts must reach.
fn expected() -> Vec<Key> {
    let mut keys = Vec::new();
    let mut add = |table: &str, rows: &[&str], columns: &[&str]| {
        for row in rows {
            for column in columns {
                keys.push((table.to_string(), row.to_string(), column.to_string()));
            }
        }
    };

    // The reader: each refusal in each phase that can give it.
    for (phase, numbers) in [
        ("new", &["6", "11"][..]),
        ("REQA sent", &["2", "3", "7", "9", "11"]),
        ("REQA sent (sweep)", &["2", "3", "9", "11"]),
        ("ANTICOLLISION sent", &["2", "3", "5", "7", "8", "11"]),
        ("SELECT sent", &["2", "3", "4", "7", "8", "9", "11"]),
        ("WUPA sent", &["2", "3", "7", "9", "11"]),
        ("SELECT of a UID sent", &["2", "3", "4", "7", "8", "9", "11"]),
        ("HLTA sent", &["9", "11"]),
        ("selected, b6 clear", &["11"]),
        ("selected", &["6", "11"]),
        ("RATS sent", &["2", "3", "4", "7", "8", "9", "11"]),
        ("open", &["10", "11"]),
        ("more to send", &["9", "11", "12"]),
        ("last I out", &["9", "10", "11", "12"]),
        ("joining", &["9", "10", "11", "12"]),
        ("DESELECT sent", &["9", "11", "12"]),
        ("finished", &["11"]),
        ("stopped", &["11"]),
    ] {
        add("reader refusal", &[phase], numbers);
        add("reader call", &[phase], &["select", "sweep", "remember", "wake", "RATS", "message", "DESELECT", "row"]);
    }

    // T-14: branches kept and taken at each level, and levels that SELECT goes straight to; by hand, in the reader's script.
    add("remembered", &["branch kept", "branch taken"], &["level 1", "level 2", "level 3"]);
    add("remembered", &["straight to SELECT"], &["level 1", "level 2"]);

    // T-09: each kind of frame, after each last data bit that it can have.
    add(
        "front delay",
        &["REQA, 0", "WUPA, 1", "ANTICOLLISION, 0", "ANTICOLLISION, 1", "SELECT, 0", "SELECT, 1", "other, 0", "other, 1"],
        &["early", "on time", "late", "refused"],
    );

    // T-06: what is lent to a sweep, and how many cards, beside the limits.
    add("field lent", &["under", "as many", "over"], &["under", "as many", "over"]);
    add("field cards", &["under", "as many", "over"], &["short log", "log"]);

    // T-04: a good SAK at each level, by the level's first byte.
    for level in 1..=3 {
        for first in ["88", "another"] {
            add("SAK and level", &[&format!("level {level}, first byte {first}")], &["b3 set", "b3 clear"]);
        }
    }

    // T-03: a good SAK at each level of a known UID.
    for (level, last) in [(1, 1), (1, 2), (2, 2), (1, 3), (2, 3), (3, 3)] {
        add("SAK and UID", &[&format!("level {level} of {last}")], &["b3 set", "b3 clear"]);
    }

    // Where the parity broke, by what is awaited; in an ANTICOLLISION answer by k, from the first byte that is whole in it.
    add("reader parity", &["REQA sent", "REQA sent (sweep)", "WUPA sent"], &["byte 0", "byte 1"]);
    add("reader parity", &["SELECT sent", "SELECT of a UID sent"], &["byte 0", "byte 1", "byte 2"]);
    add("reader parity", &["ANTICOLLISION sent", "RATS sent"], &["byte 0", "byte 1", "byte 2", "byte 3", "byte 4 or more"]);
    for k in 0..=32 {
        for byte in (k + 7) / 8..5 {
            add("ANTICOLLISION parity", &[&format!("k = {k}")], &[&format!("byte {byte}")]);
        }
    }

    // The reader's table of blocks.
    let waiting = ["more to send", "last I out", "joining"];
    let damage = [
        "silence or damage 7",
        "silence or damage 2",
        "silence or damage 8",
        "silence or damage 3",
        "silence or damage 4",
        "repeats used up",
    ];
    add(
        "reader block",
        &[
            "last I own",
            "chained I own",
            "I other",
            "R(ACK) own",
            "R(ACK) other",
            "R(NAK) own",
            "R(NAK) other",
            "WTX 1 to 59",
            "WTX 1 to 59, top bits set",
            "WTX 0",
            "WTX 60 to 63",
            "C2",
            "wrong length",
            "unknown",
        ],
        &waiting,
    );
    add("reader block", &damage, &waiting);
    add("reader block", &damage, &["DESELECT sent"]);
    add("reader block", &["R(ACK) other, third"], &waiting[..2]);
    add("reader block", &["I that does not fit"], &waiting[1..]);
    add("reader block", &["I", "R(ACK)", "R(NAK)", "WTX", "wrong length", "unknown", "C2"], &["DESELECT sent"]);

    // The card: what is due in each state, the states of selection, and its table of blocks.
    add(
        "card due",
        &["Off", "Idle", "Ready", "Active", "Halt", "Ready*", "Active*", "receiving", "owing", "WTX asked", "answering"],
        &["frame", "answer", "WTX", "power on", "power off"],
    );
    add("card state", &["Idle", "Ready", "Active", "Halt", "Ready*", "Active*"], &["REQA", "WUPA", "ANTICOLLISION", "SELECT", "HLTA", "RATS", "else"]);
    let protocol = ["receiving", "WTX asked", "answering"];
    add(
        "card block",
        &[
            "chained I that fits",
            "last I that fits",
            "I that does not fit",
            "R(NAK) other",
            "R(ACK) other",
            "WTX not asked for or of another value",
            "C2",
            "wrong length",
            "unknown",
            "damage 7",
            "damage 2",
            "damage 8",
            "damage 3",
            "damage 4",
        ],
        &protocol,
    );
    for kind in ["R(ACK)", "R(NAK)"] {
        let own = |what: &str| format!("{kind} own, last was {what}");
        add("card block", &[&own("nothing"), &own("I"), &own("R(ACK)")], &["receiving"]);
        add("card block", &[&own("WTX"), &own("R(ACK)")], &["WTX asked"]);
        add("card block", &[&own("I"), &own("R(ACK)")], &["answering"]);
    }
    add("card block", &["WTX asked for"], &["WTX asked"]);
    add("card block", &["any good block", "damage", "answer", "answer over 4096", "WTX", "WTX outside 1 to 59"], &["owing"]);

    // Exchanges: how each ends, by the phase of the reader; the ends; their sizes.
    for (end, phases) in [
        ("message", &["last I out", "joining"][..]),
        ("quiet", &["more to send", "last I out", "joining"]),
        ("refused 9", &["more to send", "last I out"]),
        ("refused 10", &["open", "last I out", "joining"]),
        ("refused 11", &["more to send", "last I out", "joining", "stopped"]),
        ("refused 12", &["last I out"]),
    ] {
        add("exchange", &[end], phases);
    }
    // T-11: what becomes of each frame, what the card's host does, how a lossy exchange ends, and what the claims say of it.
    for frame in ["reader's I", "reader's R(ACK)", "reader's R(NAK)", "reader's WTX", "card's I", "card's R(ACK)", "card's WTX", "card's silence"] {
        add("exchange lossy frame", &[frame], &["arrives", "lost", "damaged"]);
    }
    add("exchange lossy host", &["owing"], &["answers", "waits", "asks", "asks, refused 6"]);
    for (end, phases) in [
        ("message", &["last I out", "joining"][..]),
        ("quiet", &["more to send", "last I out", "joining"]),
        ("refused 9", &["more to send", "last I out"]),
        ("refused 10", &["open", "last I out", "joining"]),
        ("refused 11", &["stopped"]),
        ("refused 12", &["more to send", "last I out", "joining"]),
    ] {
        add("exchange lossy end", &[end], phases);
    }
    add("exchange lossy claim", &["at most two lost"], &["message"]);
    add("exchange lossy claim", &["three or more lost"], &["message", "refused 9", "refused 12"]);
    add("exchange ends", &["UID of 4 bytes", "UID of 7 bytes", "UID of 10 bytes"], &["open"]);
    add("exchange ends", &["UID", "reader's index", "card's index"], &["refused 6"]);
    add("exchange sizes", &["reader 8"], &["card 8"]);
    for index in 0..8 {
        add("exchange sizes", &["reader 8"], &[&format!("card {index}")]);
        add("exchange sizes", &[&format!("reader {index}")], &["card 8"]);
    }
    keys
}

/// The places that `bench_front` must reach (T-01): what is no energy, by where it stands; the gate; halves, bits, the end; rows of every length.
fn expected_of_front() -> Vec<Key> {
    let mut keys = Vec::new();
    let mut add = |table: &str, rows: &[&str], columns: &[&str]| {
        for row in rows {
            keys.extend(columns.iter().map(|column| (table.to_string(), row.to_string(), column.to_string())));
        }
    };
    let kinds = ["NaN", "infinity", "minus infinity", "below zero", "minus zero"];
    add("front number", &["half", "half behind the end", "floor", "peak", "level", "share"], &kinds);
    add("front gate", &["share"], &["0", "under 1", "1", "over 1"]);
    add("front gate", &["level", "product"], &["0, peak 0", "0, peak above 0", "subnormal", "normal"]);
    add("front gate", &["off"], &["silence"]);
    let floors = ["below the floor", "at the floor", "above the floor"];
    add("front half", &["below the level", "at the level", "above the level"], &floors);
    add("front bit", &["0", "1", "x"], &["heard"]);
    add("front bit", &["the end"], &["first", "later"]);
    add("front room", &["too small"], &["whole bits", "a lone half"]);
    add("front room", &["just enough", "more"], &["taken"]);
    add("front count", &["odd"], &["13"]);
    let lengths: Vec<String> = (0..=64).chain([1023]).map(|bits| bits.to_string()).collect();
    add("front row", &["length"], &lengths.iter().map(|length| length.as_str()).collect::<Vec<_>>());
    keys
}

/// The places of T-05 that `bench_type_b` must reach: every rule of the card, every test of the reader, every refusal of the request over a field.
fn expected_of_type_b() -> Vec<Key> {
    let mut keys = Vec::new();
    let mut add = |table: &str, row: &str, columns: &[&str]| {
        keys.extend(columns.iter().map(|column| (format!("Type B {table}"), row.to_string(), column.to_string())));
    };
    for state in ["off", "idle", "requested", "declared", "active", "halt"] {
        add("card", state, &["REQB", "WUPB", "marker", "ATTRIB", "HLTB", "else", "6"]);
        add("power", state, &["on", "off"]);
    }
    // A card without markers is never requested.
    for state in ["idle", "requested", "declared", "halt"] {
        let all = ["not admitted", "slot 1", "other slot, markers", "other slot, no markers"];
        add("request", state, &all[..if state == "requested" { 3 } else { 4 }]);
    }
    add("marker", "own", &["requested"]);
    add("marker", "another", &["requested"]);
    add("PUPI", "ATTRIB", &["own", "another"]);
    add("PUPI", "HLTB", &["own", "another"]);
    for call in ["REQB", "WUPB", "ATTRIB", "HLTB"] {
        for phase in ["slot", "ATTRIB sent", "HLTB sent", "stopped"] {
            add(call, phase, &["11"]);
        }
        add(call, "ready", if call == "HLTB" { &["taken"] } else { &["taken", "6"] });
    }
    add("row", "slot", &["none", "one", "more", "2", "4", "9"]);
    add("row", "ATTRIB sent", &["good", "7", "2", "8", "4", "9"]);
    add("row", "HLTB sent", &["good", "7", "2", "8", "4", "9"]);
    add("row", "ready", &["11"]);
    add("row", "stopped", &["11"]);
    add("field", "11", &["slot", "ATTRIB sent", "HLTB sent", "stopped"]);
    add("field", "1", &["list"]);
    add("field", "6", &["N", "too many", "number", "PUPI twice", "off", "requested", "declared", "active"]);
    add("field", "taken", &["N 1", "N 2", "N 4", "N 8", "N 16", "within the claim"]);
    keys
}

/// The places of T-10 that `bench_vicinity` must reach: every rule of the tag, every test of the reader, every refusal of the sweep over a field.
fn expected_of_vicinity() -> Vec<Key> {
    let mut keys = Vec::new();
    let mut add = |table: &str, rows: &[&str], columns: &[&str]| {
        for row in rows {
            keys.extend(columns.iter().map(|column| (format!("Vicinity {table}"), row.to_string(), column.to_string())));
        }
    };

    // The tag: rows, power, EOFs and what ends a round.
    let taking = ["ready", "quiet", "selected"];
    let rows = ["empty", "damaged", "under four bytes", "b4 or b8", "both flags", "inventory flag", "request"];
    add("row", &taking, &rows);
    add("row", &["off"], &["silent"]);
    add("power", &["off", "ready", "quiet", "selected"], &["on", "off"]);
    add("EOF", &["off", "ready", "quiet", "selected"], &["no round"]);
    add("EOF", &["ready", "selected"], &["its slot", "another slot"]);
    add("round", &["ended"], &rows);
    add("round", &["ended"], &["power", "last slot"]);

    // Inventory of 1 and of 16 slots.
    let silent = ["code", "Option flag", "no AFI", "AFI not supported", "AFI not admitted", "no mask length", "mask too long"];
    for table in ["1 slot", "16 slots"] {
        add(table, &["quiet"], &["quiet"]);
        add(table, &["ready", "selected"], &silent);
        add(table, &["ready", "selected"], &["mask bytes missing", "bytes behind the mask", "meant", "not meant"]);
    }

    // Requests: the modes, and what each code is answered in each of them.
    add("mode", &taking, &["addressed", "another UID", "UID cut"]);
    add("mode", &["ready", "selected"], &["any"]);
    add("mode", &["selected"], &["Select flag"]);
    add("mode", &["ready", "quiet"], &["Select flag, not taken"]);
    add("mode", &["quiet"], &["any, not taken"]);
    add("Select of another", &taking, &["good", "not good"]);
    add("quiet", &taking, &["own UID"]);
    add("Select", &taking, &["addressed"]);
    add("Reset", &taking, &["addressed"]);
    add("Reset", &["ready"], &["any"]);
    add("Reset", &["selected"], &["any", "Select flag"]);
    for mode in ["addressed", "Select flag", "any"] {
        let row = |code: &str| format!("{code}, {mode}");
        // An unknown code and a wrong length: an error, but for a request to any.
        let (unknown, length) = if mode == "any" { ("silent", "silent") } else { ("01", "02") };
        add("code", &[&row("other")], &[unknown]);
        add("code", &[&row("01")], &["silent"]);
        add("code", &[&row("02")], &["silent, as it was"]);
        for code in ["20", "23"] {
            add("code", &[&row(code)], &[length, "10", "00", "00, Option flag"]);
        }
        for code in ["21", "24"] {
            add("code", &[&row(code)], &[length, "10", "12", "03", "00"]);
        }
        add("code", &[&row("22")], &[length, "10", "11", "03", "00"]);
        add("code", &[&row("26")], &[length, "03", "00"]);
        add("code", &[&row("25")], if mode == "addressed" { &["02", "03", "00"] } else { &["silent"] });
    }
    add("code", &["02, addressed"], &["silent, quiet"]);

    // The reader: its calls and the rows that it hears, by what it awaits.
    let slots = ["slot of 16", "the one slot", "slot of a sweep"];
    let others = ["silence", "data", "data with status", "word", "stopped"];
    for call in ["inventory", "sweep", "quiet", "select", "reset", "read", "reads", "write", "writes", "lock"] {
        let table = format!("call {call}");
        add(&table, &["ready"], &["taken"]);
        add(&table, &slots, &["11"]);
        add(&table, &others, &["11"]);
        if matches!(call, "inventory" | "write" | "writes") {
            add(&table, &["ready"], &["6"]);
        }
    }
    add("mask", &["1 slot", "16 slots"], &["0", "1", "4", "59", "60", "61", "63", "64", "65", "another"]);
    add("heard", &slots, &["none", "one", "more", "2", "4", "9"]);
    add("heard", &["silence"], &["good", "9"]);
    add("heard", &["data", "data with status", "word"], &["good", "error", "7", "2", "8", "4", "9"]);
    add("heard", &["ready", "stopped"], &["11"]);
    add("slot's answer", &["1 slot"], &["flags", "mask"]);
    add("slot's answer", &["16 slots"], &["flags", "mask", "slot"]);

    // The sweep: tags that met at every depth, the next round, several tags at once, and the call over a field.
    let depths: Vec<String> = (0..=15).map(|depth| (4 * depth).to_string()).collect();
    add("met", &["mask bits"], &depths.iter().map(|depth| depth.as_str()).collect::<Vec<_>>());
    add("sweep", &["further round"], &["below this one", "beside or above"]);
    add("together", &["request"], &["equal", "different", "of different lengths"]);
    add("together", &["slot"], &["equal", "different"]);
    add("field", &["11"], &slots);
    add("field", &["11"], &others);
    add("field", &["1"], &["list"]);
    add("field", &["6"], &["too many", "selected", "UID twice"]);
    add("field", &["taken"], &["AFI", "no AFI", "ready", "quiet", "off", "not admitted", "as many as the limit"]);
    keys
}

/// The places of T-12 that `vectors_trace` must reach: every test of the input and of a record, every refusal of the reader in a sweep, the end, the list.
fn expected_of_trace() -> Vec<Key> {
    let mut keys = Vec::new();
    let mut add = |table: &str, row: &str, columns: &[&str]| {
        keys.extend(columns.iter().map(|column| (format!("trace {table}"), row.to_string(), column.to_string())));
    };
    add("input", "none", &["6"]);
    add("input", "another first byte", &["6", "too long"]);
    add("input", "first byte", &["too long"]);
    let wrong = [
        "none",
        "cut in the header",
        "cut in the tick",
        "cut in the bits",
        "zero bit",
        "fill bit",
        "no bits",
        "silence with bits",
        "no collided bit",
        "1 at a collided bit",
        "fill bit of the marks",
        "out of turn",
    ];
    for due in ["reader's", "heard"] {
        add("record", due, &wrong);
    }
    add("record", "reader's", &["another frame"]);
    add("refusal", "REQA sent (sweep)", &["2", "3", "9"]);
    add("refusal", "ANTICOLLISION sent", &["2", "3", "5", "7", "8"]);
    add("refusal", "SELECT sent", &["2", "3", "4", "7", "8", "9"]);
    add("refusal", "HLTA sent", &["9"]);
    add("SAK", "repeated", &["6"]);
    add("SAK", "past the limit", &["6"]);
    add("end", "bytes left", &["a record", "no whole record"]);
    add("sweep", "differs", &["ATQA", "another answer"]);
    add("clean", "without ticks", &["no card", "one card", "some cards", "as many as the limit"]);
    add("clean", "with ticks", &["no card", "one card", "some cards"]);
    keys
}

/// The places that `vectors_calls` must reach: every refusal of every call, and what a bench cannot lend.
fn expected_of_calls() -> Vec<Key> {
    let mut keys = Vec::new();
    let mut add = |table: &str, row: &str, columns: &[&str]| {
        keys.extend(columns.iter().map(|column| (table.to_string(), row.to_string(), column.to_string())));
    };
    for (call, columns) in [
        ("write", &["1", "taken"][..]),
        ("write_crc", &["1", "taken"]),
        ("write_short", &["1", "taken"]),
        ("read", &["1", "taken"]),
        ("read_crc", &["1", "taken"]),
        ("air_row", &["1", "taken"]),
        ("reader_select", &["1", "11", "taken"]),
        ("reader_start_sweep", &["1", "11", "taken"]),
        ("reader_hear", &["1", "11", "taken"]),
        ("reader_wake", &["1", "6", "11", "taken"]),
        ("sweep", &["1", "6", "11", "taken"]),
        ("sweep_row", &["1", "6", "11", "taken"]),
        ("wake_field", &["6", "7", "11", "taken"]),
        ("wake", &["1", "6", "11", "taken"]),
        ("take", &["1", "10", "11", "taken"]),
        ("reply", &["1", "10", "11", "taken"]),
        ("ask", &["1", "6", "11", "taken"]),
        ("hear", &["1", "9", "10", "11", "taken"]),
        ("select", &["1", "11", "taken"]),
        ("start_sweep", &["1", "11", "taken"]),
        ("rats", &["1", "6", "11", "taken"]),
        ("send", &["1", "10", "11", "taken"]),
        ("deselect", &["1", "11", "taken"]),
    ] {
        add("call", call, columns);
    }
    for off in ["none", "index", "uid", "ready", "off", "ready*", "active*", "twice", "used"] {
        add("call off", off, &["sweep", "sweep_row", "wake_field"]);
    }
    for table in ["card lent", "reader lent"] {
        for number in ["1", "10"] {
            add(table, number, &["I again", "next I"]);
        }
    }
    for phase in ["more to send", "last I out"] {
        add("reader refusal", phase, &["1", "10"]);
    }
    keys
}

/// Plays the stored scripts and prints what they reached; an error names what they did not.
pub fn report() -> Result<(), String> {
    // Each table is to be reached by its own scripts: those of the card and of the reader by the two benches, the exchanges by theirs, the
    // calls and the front end by theirs, and of the fields of `vectors_sweep` only what is lent and how many cards there are. The cards with which the
    // random reader scripts were drawn up do not count.
    crate::write::bench_scripts();
    let benches = reached();
    crate::write::exchange_script();
    let exchanges = reached();
    crate::write::calls_script();
    let calls = reached();
    crate::write::field_script();
    let fields = reached();
    crate::write::front_script();
    let fronts = reached();
    crate::write::type_b_script();
    let type_b = reached();
    crate::write::vicinity_script();
    let vicinity = reached();
    crate::write::trace_script();
    let traces = reached();
    let mut expected = expected();
    expected.extend(expected_of_front());
    expected.extend(expected_of_type_b());
    expected.extend(expected_of_vicinity());
    expected.extend(expected_of_trace());
    let of_calls = expected_of_calls();
    let mut missing = Vec::new();
    let mut table = String::new();
    for (key, is_call) in expected.iter().map(|key| (key, false)).chain(of_calls.iter().map(|key| (key, true))) {
        let from = match is_call {
            true => &calls,
            false if key.0.starts_with("exchange") => &exchanges,
            false if key.0.starts_with("field") => &fields,
            false if key.0.starts_with("front") => &fronts,
            false if key.0.starts_with("Type B") => &type_b,
            false if key.0.starts_with("Vicinity") => &vicinity,
            false if key.0.starts_with("trace") => &traces,
            false => &benches,
        };
        if *key.0 != table {
            table = key.0.clone();
            println!("{table}");
        }
        let count = from.get(key).copied().unwrap_or(0);
        println!("  {:<48} {:<20} {count:>7}", key.1, key.2);
        if count == 0 {
            missing.push(format!("not reached: {} / {} / {}", key.0, key.1, key.2));
        }
    }
    for (key, count) in
        benches.iter().chain(&exchanges).chain(&fronts).chain(&type_b).chain(&vicinity).chain(calls.iter().filter(|(key, _)| key.0.starts_with("call")))
    {
        if !expected.contains(key) && !of_calls.contains(key) {
            missing.push(format!("reached {count} times but not in the list: {} / {} / {}", key.0, key.1, key.2));
        }
    }
    println!("{} places, {} not reached or not in the list", expected.len() + of_calls.len(), missing.len());
    if missing.is_empty() {
        Ok(())
    } else {
        Err(missing.join("\n"))
    }
}

/// What was reached since the counts were started anew.
fn reached() -> BTreeMap<Key, usize> {
    COUNTS.with(|counts| counts.borrow().clone())
}

#[cfg(test)]
mod tests {
    #[test]
    fn the_stored_scripts_reach_every_place() {
        assert_eq!(super::report(), Ok(()));
    }
}
