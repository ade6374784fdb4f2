//! A plain program beside which `bench/measure` measures vmebus: it judges and drives by the same rules, reads and writes
//! the same lines, and proves nothing. It is written from docs/RULES.md, TRACES.md, COMMANDS.md
//! and FAULTS.md alone, for speed.
//!
//!     plain                                          a scenario and a trace on standard input
//!     plain replay SCENARIO TRACE
//!     plain check SCENARIO TRACE
//!     plain drive SCENARIO --edges N [--version V]
//!     plain draw SEED N                              a scenario and a trace, for bench/same
//!
//! It tells less of what is wrong with a scenario or with words.

mod bus;
mod draw;
mod line;
mod scenario;
mod text;

use std::fs::File;
use std::os::fd::FromRawFd;
use std::os::unix::ffi::OsStringExt;
use std::process::exit;

use bus::{wire, Bus, Edge, Plan, ACCESS, DELIVERED, FIRST_GRANT, LIMIT};
use line::Lines;
use text::{fault, read_some, text_of, Counter, Fault, Input, Output, Verdicts};

/// What a command ends with.
type Status = Result<i32, Fault>;

const HEADERS: [&[u8]; 2] = [b"vme 1\n", b"vme 2\n"];
const LONGEST_LINE: usize = 64;
const LONGEST_SCENARIO: usize = 1 << 20;

fn main() {
    let words: Vec<String> =
        std::env::args_os().skip(1).map(|it| String::from_utf8_lossy(&it.into_vec()).into_owned()).collect();
    let words: Vec<&str> = words.iter().map(String::as_str).collect();
    let status = match words[..] {
        [] => judge_input(),
        ["replay", scenario, trace] => judge_files(scenario, trace, judge::<true>),
        ["check", scenario, trace] => judge_files(scenario, trace, judge::<false>),
        ["drive", ..] => drive_words(&words[1..]),
        ["draw", seed, edges] => draw_words(seed, edges),
        _ => fault("wrong words"),
    };
    exit(status.unwrap_or_else(|Fault(text)| {
        eprintln!("vmebus: {text}");
        1
    }))
}

fn standard_input() -> File {
    unsafe { File::from_raw_fd(0) }
}

fn standard_output() -> Output {
    Output::new(unsafe { File::from_raw_fd(1) })
}

fn cannot_read(name: &str) -> Fault {
    Fault(format!("F1 cannot read {name}"))
}

fn read_plan(text: &[u8]) -> Result<Plan, Fault> {
    scenario::read(text).ok_or_else(|| Fault("the scenario is refused".to_string()))
}

fn read_scenario(name: &str) -> Result<Vec<u8>, Fault> {
    let text = std::fs::read(name).map_err(|_| cannot_read(name))?;
    if text.len() > LONGEST_SCENARIO {
        Err(Fault(format!("F2 {name} is too long")))
    } else {
        Ok(text)
    }
}

fn judge_files(scenario: &str, trace: &str, judge: fn(Plan, Input) -> Status) -> Status {
    let text = read_scenario(scenario)?;
    let trace = File::open(trace).map_err(|_| cannot_read(trace))?;
    judge(read_plan(&text)?, Input::new(trace, b""))
}

/// Judges what stands on standard input behind a scenario.
fn judge_input() -> Status {
    let (mut file, mut text, mut block) = (standard_input(), Vec::new(), vec![0; 1 << 16]);
    let header = loop {
        let seen = text.len();
        let count = read_some(&mut file, &mut block).map_err(|_| cannot_read("-"))?;
        text.extend_from_slice(&block[..count]);
        if let Some(at) = find_header(&text, seen) {
            break at;
        }
        if count == 0 {
            return fault("X1 the trace does not begin with vme 1 or vme 2");
        }
    };
    if header > LONGEST_SCENARIO {
        return fault("F2 - is too long");
    }
    judge::<true>(read_plan(&text[..header])?, Input::new(file, &text[header..]))
}

/// Where a header line begins that ends behind the bytes that were seen before.
fn find_header(text: &[u8], seen: usize) -> Option<usize> {
    let from = seen.saturating_sub(HEADERS[0].len());
    let is_header = |at: usize| HEADERS.iter().any(|it| text[at..].starts_with(it));
    (from..text.len()).find(|&at| (at == 0 || text[at - 1] == b'\n') && is_header(at))
}

/// Reads the header of a trace, and gives its version.
fn read_header(input: &mut Input) -> Result<u8, Fault> {
    loop {
        let rest = input.rest();
        let length = rest.iter().position(|&it| it == b'\n');
        if length.unwrap_or(rest.len()) > LONGEST_LINE {
            return fault("X3 line 1 is over 64 bytes");
        }
        if let Some(length) = length {
            let version = HEADERS.iter().position(|it| rest[..=length] == **it);
            input.read_to(input.lines().start.wrapping_add(length + 1));
            return version
                .map_or_else(|| fault("X1 the trace does not begin with vme 1 or vme 2"), |it| Ok(it as u8 + 1));
        }
        let is_empty = rest.is_empty();
        if !input.read_on()? {
            return fault(if is_empty {
                "X1 the trace does not begin with vme 1 or vme 2"
            } else {
                "X4 the trace is cut off"
            });
        }
    }
}

/// So many edges are read before the first of them is judged. Then what a processor foretells wrong of an edge costs less, as
/// the next one need not be read first.
const BATCH: usize = 512;

/// Judges a trace: writes a line for each edge, or looks for the first that is refused.
fn judge<const REPORTS: bool>(plan: Plan, mut input: Input) -> Status {
    let mut bus = Bus::new(plan, 1);
    let mut output = standard_output();
    let verdicts = Verdicts::new(&bus);
    bus.is_second = read_header(&mut input)? == 2;
    let (mut counter, mut room, mut refused) = (Counter::new(), LIMIT, 0);
    let mut edges = [Edge(0); BATCH];
    loop {
        let lines = input.lines();
        let (count, line) = unsafe { line::read_all(&mut edges, lines.start, lines.end) };
        let (mut to, full) = output.next();
        for &edge in &edges[..count] {
            let verdict = if room > 0 { bus.step(edge) } else { bus.step_full(edge) };
            if verdict <= DELIVERED {
                room -= 1;
            } else {
                refused += 1;
            }
            if REPORTS {
                counter = counter.next();
                to = unsafe { verdicts.write(counter, verdict, to) };
                if verdict == DELIVERED {
                    to = unsafe { verdicts.write_delivery(&bus, edge.at(), to) };
                }
                if to >= full {
                    to = output.make_room(to)?;
                }
            } else if refused > 0 {
                output.write(&format!("illegal {} {}\n", LIMIT - room + 1, text_of(verdict)));
                output.hand_on()?;
                return Ok(2);
            }
        }
        output.wrote_to(to);
        input.read_to(line);
        if count > 0 {
            continue;
        }
        match read_on(&mut input, &mut output, LIMIT - room + refused + 2) {
            Ok(true) => {}
            Ok(false) => break,
            Err(fault) => {
                output.hand_on()?;
                return Err(fault);
            }
        }
    }
    let accepted = LIMIT - room;
    let last = if REPORTS { format!("accepted {accepted} refused {refused}\n") } else { format!("legal {accepted}\n") };
    output.write(&last);
    output.hand_on()?;
    Ok(if refused > 0 { 2 } else { 0 })
}

/// Where no whole line with an edge is left: says what is wrong with the next one, or reads on.
fn read_on(input: &mut Input, output: &mut Output, line: u64) -> Result<bool, Fault> {
    let rest = input.rest();
    let length = rest.iter().position(|&it| it == b'\n');
    if length.unwrap_or(rest.len()) > LONGEST_LINE {
        return Err(Fault(format!("X3 line {line} is over 64 bytes")));
    }
    if length.is_some() {
        return Err(Fault(format!("X2 line {line} is no edge")));
    }
    if input.is_short {
        output.hand_on()?;
    }
    let is_cut_off = !rest.is_empty();
    let is_more = input.read_on()?;
    if !is_more && is_cut_off {
        fault("X4 the trace is cut off")
    } else {
        Ok(is_more)
    }
}

fn drive_words(words: &[&str]) -> Status {
    let (mut names, mut edges, mut version) = (Vec::new(), None, 1);
    let mut words = words.iter().flat_map(|it| it.split('=').take(if it.starts_with("--") { 2 } else { 1 }));
    while let Some(word) = words.next() {
        match word {
            "--edges" => edges = words.next().and_then(|it| it.parse().ok()).filter(|it| (1..=LIMIT).contains(it)),
            "--version" => version = words.next().and_then(|it| it.parse().ok()).unwrap_or(0),
            name => names.push(name),
        }
    }
    match (&names[..], edges, version) {
        ([name], Some(edges), 1 | 2) => drive(Bus::new(read_plan(&read_scenario(name)?)?, version), edges),
        _ => fault("wrong words"),
    }
}

/// Makes edges, each driver in its turn one of its offers.
fn drive(mut bus: Bus, edges: u64) -> Status {
    let mut output = standard_output();
    let lines = Lines::new();
    output.write(if bus.is_second { "vme 2\n" } else { "vme 1\n" });
    // The number of the round, modulo each number of offers that there can be.
    let mut round = [0; 16];
    let mut made = 0;
    loop {
        let before = made;
        let open = bus.open_of_controller();
        if open != 0 {
            let edge = controllers_edge(&bus, open, round[open.count_ones() as usize]);
            make(&mut bus, edge, &lines, &mut output)?;
            made += 1;
        }
        let mut seen = 0;
        while made < edges {
            let open = bus.open();
            let next = open.any & !seen;
            if next == 0 {
                break;
            }
            let slot = next.trailing_zeros() as usize;
            seen = (2 << slot) - 1;
            let edge = boards_edge(&bus, &open.wires, slot, &round);
            make(&mut bus, edge, &lines, &mut output)?;
            made += 1;
        }
        if made == edges || made == before {
            output.hand_on()?;
            return Ok(if made == edges { 3 } else { 0 });
        }
        for (count, it) in round.iter_mut().enumerate().skip(2) {
            *it = if *it + 1 == count { 0 } else { *it + 1 };
        }
    }
}

#[inline(always)]
fn make(bus: &mut Bus, edge: Edge, lines: &Lines, output: &mut Output) -> Result<(), Fault> {
    bus.step(edge);
    let (to, full) = output.next();
    let end = unsafe { lines.write(edge, to) };
    output.wrote_to(end);
    if end >= full {
        output.hand_on()
    } else {
        Ok(())
    }
}

/// The place of the set bit that has so many set bits below it.
#[inline(always)]
fn nth(mut bits: u32, below: usize) -> u32 {
    for _ in 0..below {
        bits &= bits - 1;
    }
    bits.trailing_zeros()
}

/// The offer of the controller at this place.
fn controllers_edge(bus: &Bus, open: u32, place: usize) -> Edge {
    let low = &bus.state.low;
    let of = |wire: u8, at: u32| Edge::new(wire, low[bus::LANE_OF[wire as usize]] >> at & 1 != 0, at, 0);
    match nth(open, place) {
        4 => of(wire::BCLR, 0),
        5 => of(wire::IACK, 0),
        6 => of(wire::BERR, 0),
        level => of(wire::BG, FIRST_GRANT + level),
    }
}

/// The offer of a board in this round.
#[inline(always)]
fn boards_edge(bus: &Bus, wires: &[u32; 9], slot: usize, round: &[usize; 16]) -> Edge {
    let low = &bus.state.low;
    let mut open = 0;
    for (place, it) in wires.iter().enumerate() {
        open |= (it >> slot & 1) << place;
    }
    let goes_on = open >> wire::ADDR & 1 != 0 && low[wire::ADDR as usize] >> slot & 1 == 0;
    let wanted = if goes_on { bus.wanted_by(slot) } else { 0 };
    if wanted != 0 {
        // The acknowledge is one more offer, just before the access.
        let before = (open & ((1 << wire::ADDR) - 1)).count_ones() as usize;
        let place = round[open.count_ones() as usize + 1];
        if place == before {
            return Edge::new(wire::ADDR, false, slot as u32, wanted);
        }
        return boards_edge_at(bus, open, slot, place - (place > before) as usize);
    }
    boards_edge_at(bus, open, slot, round[open.count_ones() as usize])
}

#[inline(always)]
fn boards_edge_at(bus: &Bus, open: u32, slot: usize, place: usize) -> Edge {
    let wire = nth(open, place) as u8;
    let rises = bus.state.low[wire as usize & 15] >> slot & 1 != 0;
    let value = if wire == wire::ADDR && !rises { ACCESS + next_board(bus.plan.boards, slot) } else { 0 };
    Edge::new(wire, rises, slot as u32, value)
}

/// The board in the next higher slot, or the lowest.
#[inline(always)]
fn next_board(boards: u32, slot: usize) -> u8 {
    let above = boards & !((2 << slot) - 1);
    (if above != 0 { above } else { boards }).trailing_zeros() as u8
}

fn draw_words(seed: &str, edges: &str) -> Status {
    match (seed.parse(), edges.parse()) {
        (Ok(seed), Ok(edges)) => draw::write(seed, edges, standard_output()),
        _ => fault("wrong words"),
    }
}
