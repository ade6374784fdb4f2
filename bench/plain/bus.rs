//! The bus: a mask for each wire with a bit for each slot, and the rules as tests of these masks.

/// Bits of the slots 1 to 21.
pub const SLOTS: u32 = 0x003f_fffe;
/// The bit of the controller where it shares a mask with the boards.
const CONTROLLER: u32 = 1;
/// In the mask of `bgout` the grants of the controller stand above the slots.
pub const FIRST_GRANT: u32 = 24;
const GRANTS: u32 = 15 << FIRST_GRANT;
/// The most edges that are accepted, 1,048,576.
pub const LIMIT: u64 = 1 << 20;
/// What an owner without a burst has left.
const NO_BURST: u32 = u32::MAX;

/// The masks, each of the drivers that hold a wire low.
pub mod lane {
    pub const BR: usize = 0;
    pub const BGOUT: usize = 1;
    pub const BBSY: usize = 2;
    pub const ADDR: usize = 3;
    pub const AS: usize = 4;
    pub const DS: usize = 5;
    pub const IRQ: usize = 6;
    pub const IACKOUT: usize = 7;
    pub const DTACK: usize = 8;
    pub const BCLR: usize = 9;
    pub const BERR: usize = 10;
    pub const COUNT: usize = 16;
}
use lane::*;

/// Wires, of the boards first.
pub mod wire {
    pub const BR: u8 = 0;
    pub const BGOUT: u8 = 1;
    pub const BBSY: u8 = 2;
    pub const ADDR: u8 = 3;
    pub const AS: u8 = 4;
    pub const DS: u8 = 5;
    pub const IRQ: u8 = 6;
    pub const IACKOUT: u8 = 7;
    pub const DTACK: u8 = 8;
    pub const BG: u8 = 9;
    pub const BCLR: u8 = 10;
    pub const IACK: u8 = 11;
    pub const BERR: u8 = 12;
    pub const COUNT: usize = 13;
}

/// Kinds of edges: twice the wire, and one more where it rises.
mod kind {
    pub const BR_FALLS: u8 = 0;
    pub const BR_RISES: u8 = 1;
    pub const BGOUT_FALLS: u8 = 2;
    pub const BGOUT_RISES: u8 = 3;
    pub const BBSY_FALLS: u8 = 4;
    pub const BBSY_RISES: u8 = 5;
    pub const ADDR_FALLS: u8 = 6;
    pub const ADDR_RISES: u8 = 7;
    pub const AS_FALLS: u8 = 8;
    pub const AS_RISES: u8 = 9;
    pub const DS_FALLS: u8 = 10;
    pub const DS_RISES: u8 = 11;
    pub const IRQ_FALLS: u8 = 12;
    pub const IRQ_RISES: u8 = 13;
    pub const IACKOUT_FALLS: u8 = 14;
    pub const IACKOUT_RISES: u8 = 15;
    pub const DTACK_FALLS: u8 = 16;
    pub const BG_FALLS: u8 = 18;
    pub const BG_RISES: u8 = 19;
    pub const BCLR_FALLS: u8 = 20;
    pub const BCLR_RISES: u8 = 21;
    pub const IACK_FALLS: u8 = 22;
    pub const IACK_RISES: u8 = 23;
    pub const BERR_FALLS: u8 = 24;
    pub const BERR_RISES: u8 = 25;
}

/// The mask in which each wire stands.
pub const LANE_OF: [usize; wire::COUNT] =
    [BR, BGOUT, BBSY, ADDR, AS, DS, IRQ, IACKOUT, DTACK, BGOUT, BCLR, IACKOUT, BERR];

/// Of an address group that goes on: an acknowledge is its level, an access this and its slot.
pub const ACCESS: u8 = 32;

/// One edge, in bytes from the lowest on: its kind, its mask, its bit there, and the value of an address group that goes on.
#[derive(Clone, Copy)]
pub struct Edge(pub u32);

impl Edge {
    pub const fn new(wire: u8, rises: bool, at: u32, value: u8) -> Self {
        Edge(wire as u32 * 2 + rises as u32 | (LANE_OF[wire as usize] as u32) << 8 | at << 16 | (value as u32) << 24)
    }

    /// The same of a board.
    pub const fn of_slot(self, slot: u32) -> Self {
        Edge(self.0 + (slot << 16))
    }

    #[inline(always)]
    pub fn kind(self) -> u8 {
        self.0 as u8
    }

    #[inline(always)]
    fn lane(self) -> usize {
        (self.0 >> 8) as usize & (lane::COUNT - 1)
    }

    #[inline(always)]
    pub fn at(self) -> usize {
        (self.0 >> 16) as usize & 31
    }

    #[inline(always)]
    pub fn value(self) -> u8 {
        (self.0 >> 24) as u8
    }
}

/// Verdicts, in the order of their texts.
pub const OK: u8 = 0;
pub const DELIVERED: u8 = 1;
pub const E1: u8 = 2;
pub const E2: u8 = 3;
const E3: u8 = 3;
const E4: u8 = 29;
pub const E5: u8 = 34;
pub const VERDICTS: usize = 35;

#[derive(Clone, Copy, PartialEq, Eq)]
pub enum Policy {
    Single,
    Priority,
    RoundRobin,
}

/// A board, as a scenario has it.
#[derive(Clone, Copy, Default)]
pub struct Board {
    pub requester: Option<Requester>,
    pub interrupter: Option<Interrupter>,
    /// A bit for each level that it handles.
    pub handles: u8,
}

#[derive(Clone, Copy)]
pub struct Requester {
    pub level: usize,
    /// None where it releases on request.
    pub burst: Option<u8>,
}

#[derive(Clone, Copy)]
pub struct Interrupter {
    pub level: usize,
    pub is_roak: bool,
    pub status: u8,
}

/// What never changes: the backplane in masks.
pub struct Plan {
    pub boards: u32,
    /// Which bits each mask can have at all.
    has: [u32; lane::COUNT],
    on_request: u32,
    by_access: u32,
    by_acknowledge: u32,
    /// The requesters of each level, and the interrupters.
    asking: [u32; 4],
    interrupting: [u32; 8],
    /// The requesters that go before those of a level, after a last grant; and those that clear the bus.
    before: [[u32; 4]; 4],
    above: [u32; 4],
    burst: [u32; 32],
    pub handles: [u8; 32],
    pub status: [u8; 32],
    /// The board that each output of a grant chain feeds, and each of the acknowledge chain.
    feeds: [u32; 32],
    iack_feeds: [u32; 32],
    /// The last outputs.
    grant_end: [u32; 4],
    iack_end: u32,
}

impl Plan {
    pub fn new(policy: Policy, boards: &[Option<Board>; 22]) -> Self {
        let mut plan = Plan {
            boards: 0,
            has: [0; lane::COUNT],
            on_request: 0,
            by_access: 0,
            by_acknowledge: 0,
            asking: [0; 4],
            interrupting: [0; 8],
            before: [[0; 4]; 4],
            above: [0; 4],
            burst: [0; 32],
            handles: [0; 32],
            status: [0; 32],
            feeds: [0; 32],
            iack_feeds: [0; 32],
            grant_end: [0; 4],
            iack_end: CONTROLLER,
        };
        let (mut requesters, mut interrupters) = (0, 0);
        for (slot, board) in boards.iter().enumerate() {
            let Some(board) = board else { continue };
            let bit = 1 << slot;
            plan.boards |= bit;
            plan.handles[slot] = board.handles;
            if let Some(it) = board.requester {
                requesters |= bit;
                plan.asking[it.level] |= bit;
                plan.burst[slot] = it.burst.map_or(NO_BURST, u32::from);
                plan.on_request |= if it.burst.is_none() { bit } else { 0 };
            }
            if let Some(it) = board.interrupter {
                interrupters |= bit;
                plan.interrupting[it.level] |= bit;
                plan.status[slot] = it.status;
                *(if it.is_roak { &mut plan.by_acknowledge } else { &mut plan.by_access }) |= bit;
            }
        }
        for level in 0..4 {
            let first = FIRST_GRANT as usize + level;
            plan.grant_end[level] = chain(&mut plan.feeds, first, plan.asking[level]);
            for last in 0..4 {
                plan.before[last][level] = plan.all_before(policy, last, level);
            }
            plan.above[level] = if policy == Policy::Priority { plan.all_before(policy, 0, level) } else { 0 };
        }
        plan.iack_end = chain(&mut plan.iack_feeds, 0, interrupters);
        for it in [BR, BBSY, ADDR, AS, DS] {
            plan.has[it] = requesters;
        }
        plan.has[BGOUT] = requesters | GRANTS;
        plan.has[IRQ] = interrupters;
        plan.has[IACKOUT] = interrupters | CONTROLLER;
        plan.has[DTACK] = plan.boards;
        plan.has[BCLR] = CONTROLLER;
        plan.has[BERR] = CONTROLLER;
        plan
    }

    /// The requesters of the levels that a policy picks before this one.
    fn all_before(&self, policy: Policy, last: usize, level: usize) -> u32 {
        let place = |it: usize| if policy == Policy::RoundRobin { (last + 3 - it) % 4 } else { 3 - it };
        (0..4).filter(|&it| place(it) < place(level)).map(|it| self.asking[it]).fold(0, |all, it| all | it)
    }
}

/// Notes which board each output of a chain feeds, and gives the last output.
fn chain(feeds: &mut [u32; 32], first: usize, works: u32) -> u32 {
    let mut from = first;
    for slot in (1..22).filter(|it| works >> it & 1 != 0) {
        feeds[from] = 1 << slot;
        from = slot;
    }
    1 << from
}

/// What changes.
#[derive(Clone, Copy, Default)]
pub struct State {
    pub low: [u32; lane::COUNT],
    /// The boards whose grant-in or iackin is low.
    grant_in: u32,
    iack_in: u32,
    /// The boards that ask for an interrupt and were not served, and those that made a data strobe in their cycle.
    pending: u32,
    strobed: u32,
    /// What is shown: the level of an acknowledge and the interrupters of that level, or the bit of an access's slot.
    pub level: u8,
    asked: u32,
    target: u32,
    /// The level last granted.
    last: u8,
    /// How many cycles the owner may still begin. No other board begins one.
    left: u32,
}

/// The edges that each board could make now, in one mask for each of its wires; accesses alone of its address group.
pub struct Open {
    pub wires: [u32; 9],
    pub any: u32,
}

pub struct Bus {
    pub plan: Plan,
    pub state: State,
    pub is_second: bool,
}

/// Refuses, where a condition of a rule does not hold.
macro_rules! need {
    ($code:expr, $holds:expr) => {
        if !$holds {
            return $code;
        }
    };
}

impl Bus {
    pub fn new(plan: Plan, version: u8) -> Self {
        Bus { plan, state: State::default(), is_second: version == 2 }
    }

    /// Judges an edge, and makes it where it is accepted.
    #[inline(always)]
    pub fn step(&mut self, edge: Edge) -> u8 {
        let plan = &self.plan;
        let now = &mut self.state;
        let low = &mut now.low;
        let (at, lane) = (edge.at(), edge.lane());
        let bit = 1u32 << at;
        need!(E1, plan.has[lane] & bit != 0);
        need!(E2, (low[lane] & bit != 0) == (edge.kind() & 1 != 0));
        let mut verdict = OK;
        match edge.kind() {
            // G1
            kind::BG_FALLS => {
                let (asks, last, level) = (low[BR], now.last as usize & 3, at & 3);
                need!(E3 + 1, low[BGOUT] & GRANTS == 0 && low[BBSY] == 0);
                need!(E3 + 1, asks & plan.asking[level] != 0 && asks & plan.before[last][level] == 0);
                need!(E4 + 4, !self.is_second || low[BGOUT] & SLOTS == 0);
                now.last = level as u8;
                now.grant_in ^= plan.feeds[at];
            }
            // G2
            kind::BG_RISES => {
                if low[BBSY] == 0 {
                    need!(E3 + 2, self.is_second);
                    need!(E4 + 3, low[BGOUT] & plan.grant_end[at & 3] != 0);
                }
                now.grant_in ^= plan.feeds[at];
            }
            // G3, G4
            kind::BCLR_FALLS => need!(E3 + 3, is_clear_due(plan, low, now.last)),
            kind::BCLR_RISES => need!(E3 + 4, !is_clear_due(plan, low, now.last)),
            // G5
            kind::IACK_FALLS => {
                need!(E3 + 5, low[AS] != 0 && low[DS] != 0 && now.level != 0);
                now.iack_in ^= plan.iack_feeds[0];
            }
            // G6
            kind::IACK_RISES => {
                need!(E3 + 6, low[AS] == 0);
                now.iack_in ^= plan.iack_feeds[0];
            }
            // G7
            kind::BERR_FALLS => {
                need!(E3 + 7, low[DS] != 0 && low[DTACK] == 0);
                let ran_off = now.level != 0 && low[IACKOUT] & plan.iack_end != 0;
                need!(E4 + 2, ran_off || now.target & !plan.boards != 0);
            }
            // G8
            kind::BERR_RISES => need!(E3 + 8, low[DS] == 0),
            // G9, G10
            kind::BR_FALLS => need!(E3 + 9, low[BBSY] & bit == 0),
            kind::BR_RISES => need!(E3 + 10, self.is_second || low[BBSY] & bit != 0),
            // G11
            kind::BGOUT_FALLS => {
                need!(E3 + 11, now.grant_in & !(low[BR] | low[BBSY]) & bit != 0);
                now.grant_in ^= plan.feeds[at];
            }
            // G12
            kind::BGOUT_RISES => {
                need!(E3 + 12, now.grant_in & bit == 0);
                now.grant_in ^= plan.feeds[at];
            }
            // G13
            kind::BBSY_FALLS => {
                need!(E3 + 13, now.grant_in & low[BR] & !low[BGOUT] & bit != 0);
                now.left = plan.burst[at];
            }
            // G14
            kind::BBSY_RISES => {
                need!(E3 + 14, (low[BR] | now.grant_in | low[ADDR] & !low[AS]) & bit == 0);
                need!(E3 + 14, plan.on_request & bit == 0 || low[BR] != 0);
            }
            // G15
            kind::ADDR_FALLS => {
                need!(E3 + 15, low[BBSY] & bit != 0 && low[AS] == 0 && now.left != 0);
                if edge.value() < ACCESS {
                    let level = edge.value() & 7;
                    let asked = plan.interrupting[level as usize];
                    need!(E3 + 15, plan.handles[at] >> level & 1 != 0 && low[IRQ] & asked != 0);
                    (now.level, now.asked) = (level, asked);
                } else {
                    now.target = 1 << (edge.value() & 31);
                }
            }
            // G19
            kind::ADDR_RISES => {
                need!(E3 + 19, low[AS] & !low[DS] & now.strobed & bit != 0);
                (now.level, now.asked, now.target) = (0, 0, 0);
            }
            // G16
            kind::AS_FALLS => {
                need!(E3 + 16, low[ADDR] & bit != 0 && low[AS] == 0);
                need!(E4 + 1, low[IACKOUT] == 0);
                now.left -= 1;
                now.strobed &= !bit;
            }
            // G20
            kind::AS_RISES => need!(E3 + 20, low[ADDR] & bit == 0),
            // G17
            kind::DS_FALLS => {
                need!(E3 + 17, low[AS] & low[ADDR] & !now.strobed & bit != 0 && low[DTACK] | low[BERR] == 0);
                now.strobed |= bit;
            }
            // G18
            kind::DS_RISES => need!(E3 + 18, low[DTACK] | low[BERR] != 0),
            // G21, G22
            kind::IRQ_FALLS => now.pending |= bit,
            kind::IRQ_RISES => need!(E3 + 22, now.pending & bit == 0),
            // G23
            kind::IACKOUT_FALLS => {
                need!(E3 + 23, now.iack_in & !low[DTACK] & !(now.pending & now.asked) & bit != 0);
                need!(E3 + 23, low[DS] != 0 && now.level != 0);
                now.iack_in ^= plan.iack_feeds[at];
            }
            // G24
            kind::IACKOUT_RISES => {
                need!(E3 + 24, low[AS] == 0);
                now.iack_in ^= plan.iack_feeds[at];
            }
            // G25
            kind::DTACK_FALLS => {
                let answers = now.target | now.pending & now.asked & now.iack_in & !low[IACKOUT];
                need!(E3 + 25, low[DS] != 0 && low[AS] != 0 && answers & bit != 0);
                let is_delivery = now.level != 0;
                now.pending &= !(bit & if is_delivery { plan.by_acknowledge } else { plan.by_access });
                verdict = is_delivery as u8 * DELIVERED;
            }
            // G26, of `dtack+`
            _ => need!(E3 + 26, low[DS] == 0),
        }
        low[lane] ^= bit;
        verdict
    }

    /// Judges an edge where no further one has room.
    #[cold]
    pub fn step_full(&mut self, edge: Edge) -> u8 {
        let before = self.state;
        let verdict = self.step(edge);
        self.state = before;
        if verdict <= DELIVERED {
            E5
        } else {
            verdict
        }
    }

    /// The open edges of all boards.
    #[inline(always)]
    pub fn open(&self) -> Open {
        let plan = &self.plan;
        let now = &self.state;
        let low = &now.low;
        let all = |holds: bool| (holds as u32).wrapping_neg();
        let [br, bgout, bbsy, addr, strobe, ds, irq, iackout, dtack] =
            [low[BR], low[BGOUT], low[BBSY], low[ADDR], low[AS], low[DS], low[IRQ], low[IACKOUT], low[DTACK]];
        let (as_low, ds_low, answered) = (all(strobe != 0), all(ds != 0), all(dtack | low[BERR] != 0));
        let takes = now.grant_in & !bgout & !bbsy;
        let stays = br | now.grant_in | addr & !strobe | if br == 0 { plan.on_request } else { 0 };
        let asked = now.pending & now.asked;
        let first = now.iack_in & !iackout;
        let answers = now.target & plan.boards | asked & first;
        let may_ask = if self.is_second { br | !bbsy } else { !(br ^ bbsy) };
        let wires = [
            may_ask & plan.has[BR],
            takes & !br | bgout & !now.grant_in & SLOTS,
            takes & br | bbsy & !stays,
            bbsy & !addr & all(strobe == 0 && now.left != 0) | addr & strobe & !ds & now.strobed,
            addr & all(strobe | iackout == 0) | strobe & !addr,
            strobe & addr & !ds & !now.strobed & !answered | ds & answered,
            plan.has[IRQ] & !(irq & now.pending),
            first & !dtack & !asked & ds_low & all(now.level != 0) | iackout & !as_low & SLOTS,
            answers & !dtack & ds_low & as_low | dtack & !ds_low,
        ];
        Open { wires, any: wires.iter().fold(0, |all, it| all | it) }
    }

    /// The open edges of the controller: a bit for each grant, for `bclr`, `iack` and `berr`.
    #[inline(always)]
    pub fn open_of_controller(&self) -> u32 {
        let plan = &self.plan;
        let now = &self.state;
        let low = &now.low;
        let granted = low[BGOUT] >> FIRST_GRANT & 15;
        let mut open = 0;
        for level in 0..4 {
            let is_open = if granted >> level & 1 != 0 {
                low[BBSY] != 0 || self.is_second && low[BGOUT] & plan.grant_end[level] != 0
            } else {
                let settled = !self.is_second || low[BGOUT] & SLOTS == 0;
                let picked =
                    low[BR] & plan.asking[level] != 0 && low[BR] & plan.before[now.last as usize & 3][level] == 0;
                granted == 0 && low[BBSY] == 0 && picked && settled
            };
            open |= (is_open as u32) << level;
        }
        let clears = is_clear_due(plan, low, now.last) == (low[BCLR] == 0);
        let acknowledges =
            if low[IACKOUT] & CONTROLLER == 0 { low[AS] != 0 && low[DS] != 0 && now.level != 0 } else { low[AS] == 0 };
        let errs = if low[BERR] == 0 {
            let ran_off = now.level != 0 && low[IACKOUT] & plan.iack_end != 0;
            low[DS] != 0 && low[DTACK] == 0 && (ran_off || now.target & !plan.boards != 0)
        } else {
            low[DS] == 0
        };
        open | (clears as u32) << 4 | (acknowledges as u32) << 5 | (errs as u32) << 6
    }

    /// The highest level that a board handles and whose line is low, 0 where there is none.
    #[inline(always)]
    pub fn wanted_by(&self, slot: usize) -> u8 {
        let (irq, mut levels) = (self.state.low[IRQ], self.plan.handles[slot & 31]);
        while levels != 0 {
            let level = 7 - levels.leading_zeros();
            if irq & self.plan.interrupting[level as usize & 7] != 0 {
                return level as u8;
            }
            levels &= !(1 << level);
        }
        0
    }

    /// The board that drives the address.
    pub fn handler(&self) -> usize {
        self.state.low[ADDR].trailing_zeros() as usize & 31
    }
}

/// Whether bus clear is due.
#[inline(always)]
fn is_clear_due(plan: &Plan, low: &[u32; lane::COUNT], last: u8) -> bool {
    low[BBSY] != 0 && low[BGOUT] & GRANTS == 0 && low[BR] & plan.above[last as usize & 3] != 0
}
