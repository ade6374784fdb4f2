//! Backplanes and traces that are drawn, for bench/same: open edges, and edges that may well be refused.

use std::fmt::Write;

use crate::bus::{lane, wire, Board, Bus, Edge, Interrupter, Plan, Policy, Requester, ACCESS, FIRST_GRANT, LANE_OF};
use crate::line::Lines;
use crate::text::{Fault, Output};

/// SplitMix64.
struct Lot(u64);

impl Lot {
    fn next(&mut self) -> u64 {
        self.0 = self.0.wrapping_add(0x9e37_79b9_7f4a_7c15);
        let mut it = self.0;
        it = (it ^ it >> 30).wrapping_mul(0xbf58_476d_1ce4_e5b9);
        it = (it ^ it >> 27).wrapping_mul(0x94d0_49bb_1331_11eb);
        it ^ it >> 31
    }

    fn below(&mut self, count: usize) -> usize {
        ((self.next() >> 32) * count as u64 >> 32) as usize
    }

    fn of<T: Copy>(&mut self, all: &[T]) -> T {
        all[self.below(all.len())]
    }

    /// One of the set bits, of which there is one at least.
    fn bit(&mut self, mut bits: u32) -> u32 {
        for _ in 0..self.below(bits.count_ones() as usize) {
            bits &= bits - 1;
        }
        bits.trailing_zeros()
    }
}

/// The habits of a trace: how many of 64 edges are open ones, and how many of 64 others are at least edges that a driver has and
/// that lead to another state; and how often each wire moves, the controller's as one.
struct Habits {
    open: usize,
    near: usize,
    weights: [usize; 10],
}

fn board(lot: &mut Lot, policy: Policy, levels: &mut Vec<u8>) -> Board {
    let mut board = Board::default();
    if lot.below(8) > 0 {
        let level = if policy == Policy::Single { 3 } else { lot.below(4) };
        let burst = if lot.below(3) > 0 { Some(lot.of(&[1, 2, 3, 200])) } else { None };
        board.requester = Some(Requester { level, burst });
        while !levels.is_empty() && lot.below(2) > 0 {
            board.handles |= 1 << levels.swap_remove(lot.below(levels.len()));
        }
    }
    if lot.below(2) > 0 {
        let level = 1 + lot.below(7).min(lot.below(7));
        board.interrupter = Some(Interrupter { level, is_roak: lot.below(2) > 0, status: lot.below(256) as u8 });
    }
    board
}

fn backplane(lot: &mut Lot) -> (Policy, usize, [Option<Board>; 22]) {
    let policy = lot.of(&[Policy::Single, Policy::Priority, Policy::RoundRobin]);
    let slots = 1 + lot.of(&[2, 5, 20, 20]).min(lot.below(21));
    let (mut boards, mut levels) = ([None; 22], (1..8).collect());
    let empty = lot.below(6);
    for slot in 1..=slots {
        if slot == 1 || lot.below(8) >= empty {
            boards[slot] = Some(board(lot, policy, &mut levels));
        }
    }
    (policy, slots, boards)
}

/// The scenario of a backplane. Each empty slot joins all chains.
fn text_of(policy: Policy, slots: usize, boards: &[Option<Board>; 22]) -> String {
    let arbiter = match policy {
        Policy::Single => "sgl",
        Policy::Priority => "pri",
        Policy::RoundRobin => "rrs",
    };
    let mut text = format!("slots = {slots}\narbiter = \"{arbiter}\"\n");
    for slot in 1..=slots {
        let Some(board) = boards[slot] else {
            let _ =
                writeln!(text, "[[jumper]]\nslot = {slot}\nchains = [\"bg0\", \"bg1\", \"bg2\", \"bg3\", \"iack\"]");
            continue;
        };
        let _ = writeln!(text, "[[board]]\nslot = {slot}");
        if let Some(Requester { level, burst }) = board.requester {
            let release = burst.map_or("\"ror\"".to_string(), |it| format!("\"rwd\", burst = {it}"));
            let _ = writeln!(text, "requester = {{ level = {level}, release = {release} }}");
            let handled: Vec<u32> = (1..8).filter(|it| board.handles >> it & 1 != 0).collect();
            let _ = writeln!(text, "handler = {handled:?}");
        }
        if let Some(Interrupter { level, is_roak, status }) = board.interrupter {
            let kind = if is_roak { "roak" } else { "rora" };
            let _ = writeln!(text, "interrupter = {{ level = {level}, kind = \"{kind}\", status = {status} }}");
        }
    }
    text
}

fn edge_of_controller(bus: &Bus, place: u32) -> Edge {
    let (wire, at) = match place {
        4 => (wire::BCLR, 0),
        5 => (wire::IACK, 0),
        6 => (wire::BERR, 0),
        level => (wire::BG, FIRST_GRANT + level),
    };
    Edge::new(wire, bus.state.low[LANE_OF[wire as usize]] >> at & 1 != 0, at, 0)
}

/// What an address group goes on with: an acknowledge of a level that it may be open for, or an access; or any of them.
fn value(lot: &mut Lot, bus: &Bus, slot: usize, is_open: bool) -> u8 {
    let wanted = bus.wanted_by(slot);
    match lot.below(8) {
        0 if !is_open => 1 + lot.below(7) as u8,
        1 => ACCESS + 1 + lot.below(21) as u8,
        2..=4 if wanted != 0 => wanted,
        _ => ACCESS + lot.bit(bus.plan.boards) as u8,
    }
}

fn edge_of_board(lot: &mut Lot, bus: &Bus, wire: u8, slot: u32, rises: bool, is_open: bool) -> Edge {
    let value = if wire == wire::ADDR && !rises { value(lot, bus, slot as usize, is_open) } else { 0 };
    Edge::new(wire, rises, slot, value)
}

/// Some edge that is open.
fn open_edge(lot: &mut Lot, bus: &Bus, habits: &Habits) -> Option<Edge> {
    let (open, controllers) = (bus.open(), bus.open_of_controller());
    let weight =
        |at: usize| if (if at < 9 { open.wires[at] } else { controllers }) != 0 { habits.weights[at] } else { 0 };
    let sum: usize = (0..10).map(weight).sum();
    let mut left = if sum > 0 { lot.below(sum) } else { return None };
    let mut at = 0;
    while left >= weight(at) {
        left -= weight(at);
        at += 1;
    }
    if at == 9 {
        return Some(edge_of_controller(bus, lot.bit(controllers)));
    }
    let slot = lot.bit(open.wires[at]);
    Some(edge_of_board(lot, bus, at as u8, slot, bus.state.low[at] >> slot & 1 != 0, true))
}

/// An edge by lot alone, or one to the other state of a wire.
fn any_edge(lot: &mut Lot, bus: &Bus, is_near: bool) -> Edge {
    if lot.below(6) == 0 {
        let mut edge = edge_of_controller(bus, lot.below(7) as u32);
        edge.0 ^= (!is_near && lot.below(2) > 0) as u32;
        return edge;
    }
    let wire = lot.below(9) as u8;
    let slot = if is_near { lot.bit(bus.plan.boards) } else { 1 + lot.below(21) as u32 };
    let rises =
        if is_near { bus.state.low[wire as usize & (lane::COUNT - 1)] >> slot & 1 != 0 } else { lot.below(2) > 0 };
    edge_of_board(lot, bus, wire, slot, rises, false)
}

/// Writes a scenario, and behind it a trace of so many edges.
pub fn write(seed: u64, edges: u64, mut output: Output) -> Result<i32, Fault> {
    let mut lot = Lot(seed);
    let (policy, slots, boards) = backplane(&mut lot);
    let version = 1 + lot.below(2) as u8;
    let mut habits = Habits { open: lot.of(&[64, 60, 40, 8]), near: lot.of(&[64, 56, 32]), weights: [1; 10] };
    habits.weights.fill_with(|| 1 << lot.below(4));
    let mut bus = Bus::new(Plan::new(policy, &boards), version);
    let lines = Lines::new();
    output.write(&text_of(policy, slots, &boards));
    output.write(&format!("vme {version}\n"));
    let (mut to, full) = output.next();
    for _ in 0..edges {
        let open = if lot.below(64) < habits.open { open_edge(&mut lot, &bus, &habits) } else { None };
        let is_near = lot.below(64) < habits.near;
        let edge = open.unwrap_or_else(|| any_edge(&mut lot, &bus, is_near));
        bus.step(edge);
        to = unsafe { lines.write(edge, to) };
        if to >= full {
            to = output.make_room(to)?;
        }
    }
    output.wrote_to(to);
    output.hand_on()?;
    Ok(0)
}
