//! Lines of traces: read where they lie, and written from a table.

use crate::bus::{wire, Edge, ACCESS, FIRST_GRANT};
use std::arch::x86_64::{__m128i, _mm_cmpeq_epi8, _mm_loadu_si128, _mm_movemask_epi8, _mm_set1_epi8};

/// As many bytes may be read behind the begin of a line.
pub const SLACK: usize = 32;

const CONTROLLERS: [(&str, u8, u32); 7] = [
    ("bg0", wire::BG, FIRST_GRANT),
    ("bg1", wire::BG, FIRST_GRANT + 1),
    ("bg2", wire::BG, FIRST_GRANT + 2),
    ("bg3", wire::BG, FIRST_GRANT + 3),
    ("bclr", wire::BCLR, 0),
    ("iack", wire::IACK, 0),
    ("berr", wire::BERR, 0),
];
const BOARDS: [(&str, u8); 8] = [
    ("br", wire::BR),
    ("bgout", wire::BGOUT),
    ("bbsy", wire::BBSY),
    ("as", wire::AS),
    ("ds", wire::DS),
    ("irq", wire::IRQ),
    ("iackout", wire::IACKOUT),
    ("dtack", wire::DTACK),
];

/// What stands before the wire: two bytes, who that is, and where the wire begins. A free place has bytes that belong to another one.
#[derive(Clone, Copy)]
struct Head {
    bytes: u16,
    slot: u16,
    begin: u16,
    /// A part of the tail's check.
    check: u16,
}

/// What stands after it, in eight bytes and a check: the ninth byte, the number of bytes, and whether it is the controller's.
/// A free place has a number that there is not.
#[derive(Clone, Copy)]
struct Tail {
    bytes: u64,
    check: u32,
    edge: Edge,
}

const OF_CONTROLLER: u16 = 1 << 15;
const FREE: Tail = Tail { bytes: 0, check: 127 << 8, edge: Edge(0) };
static HEADS: [Head; 32] = heads();
static TAILS: [Tail; 256] = tails();

/// The bytes of a tail that count, by how many there are: of the first eight, and the ninth.
static COUNTING: [u64; 10] = {
    let mut masks = [u64::MAX; 10];
    let mut count = 0;
    while count < 8 {
        masks[count] = (1 << (8 * count)) - 1;
        count += 1;
    }
    masks
};
static COUNTING_NINTH: [u32; 10] = [0, 0, 0, 0, 0, 0, 0, 0, 0, 255];

/// The factors were found by trying: no two heads have the same place, and no two tails.
const fn place_of_head(bytes: u16) -> usize {
    ((bytes as u32).wrapping_mul(0xe90e_2383) >> 27) as usize
}

const fn place_of_tail(bytes: u64, ninth: u64) -> usize {
    ((bytes ^ ninth << 32).wrapping_mul(0xa40a_8b1f_90a7_6f53) >> 56) as usize
}

const fn heads() -> [Head; 32] {
    let controller = u16::from_le_bytes([b'c', b' ']);
    let mut all = [Head { bytes: controller, slot: 0, begin: 2, check: OF_CONTROLLER }; 32];
    let mut slot = 1;
    while slot <= 21 {
        let one = slot as u8 % 10 + b'0';
        let (bytes, begin) = if slot < 10 { ([one, b' '], 2) } else { ([slot as u8 / 10 + b'0', one], 3) };
        let bytes = u16::from_le_bytes(bytes);
        let place = place_of_head(bytes);
        assert!(all[place].slot == 0 && place != place_of_head(controller));
        all[place] = Head { bytes, slot, begin, check: 0 };
        slot += 1;
    }
    all
}

const fn tails() -> [Tail; 256] {
    let mut all = [FREE; 256];
    let mut it = 0;
    while it < CONTROLLERS.len() {
        let (name, wire, at) = CONTROLLERS[it];
        add(&mut all, name, b"-", Edge::new(wire, false, at, 0), true);
        add(&mut all, name, b"+", Edge::new(wire, true, at, 0), true);
        it += 1;
    }
    it = 0;
    while it < BOARDS.len() {
        let (name, wire) = BOARDS[it];
        add(&mut all, name, b"-", Edge::new(wire, false, 0, 0), false);
        add(&mut all, name, b"+", Edge::new(wire, true, 0, 0), false);
        it += 1;
    }
    add(&mut all, "addr", b"+", Edge::new(wire::ADDR, true, 0, 0), false);
    let mut value = 1;
    while value <= 21 {
        let (ten, one) = (value / 10 + b'0', value % 10 + b'0');
        let edge = Edge::new(wire::ADDR, false, 0, ACCESS + value);
        if value < 10 {
            add(&mut all, "addr- r", &[one], edge, false);
        } else {
            add(&mut all, "addr- r", &[ten, one], edge, false);
        }
        if value <= 7 {
            add(&mut all, "addr- i", &[one], Edge::new(wire::ADDR, false, 0, value), false);
        }
        value += 1;
    }
    all
}

/// Adds a tail, and does not compile where its place is taken.
const fn add(all: &mut [Tail; 256], name: &str, end: &[u8], edge: Edge, is_controller: bool) {
    let (name, mut bytes, mut at) = (name.as_bytes(), [0; 9], 0);
    while at < name.len() + end.len() {
        bytes[at] = if at < name.len() { name[at] } else { end[at - name.len()] };
        at += 1;
    }
    let [a, b, c, d, e, f, g, h, ninth] = bytes;
    let bytes = u64::from_le_bytes([a, b, c, d, e, f, g, h]);
    let check = ninth as u32 | (at as u32) << 8 | if is_controller { OF_CONTROLLER as u32 } else { 0 };
    let place = place_of_tail(bytes, ninth as u64);
    assert!(all[place].check == FREE.check);
    all[place] = Tail { bytes, check, edge };
}

/// Reads the line that begins here: how many bytes stand before its line feed, more than 15 where that is not in sight, and its edge.
///
/// # Safety
/// `SLACK` bytes can be read.
#[inline(always)]
unsafe fn read(line: *const u8) -> (usize, Option<Edge>) {
    let feeds = _mm_cmpeq_epi8(_mm_loadu_si128(line as *const __m128i), _mm_set1_epi8(b'\n' as i8));
    let length = (_mm_movemask_epi8(feeds) as u32 | 1 << 31).trailing_zeros() as usize;
    let first = (line as *const u16).read_unaligned();
    let head = HEADS.get_unchecked(place_of_head(first));
    let begin = head.begin as usize;
    let count = length.wrapping_sub(begin);
    if count >= COUNTING.len() || *line.add(begin - 1) != b' ' {
        return (length, None);
    }
    let bytes = (line.add(begin) as *const u64).read_unaligned() & COUNTING[count];
    let ninth = *line.add(begin + 8) as u32 & COUNTING_NINTH[count];
    let tail = TAILS.get_unchecked(place_of_tail(bytes, ninth as u64));
    let check = ninth | (count as u32) << 8 | head.check as u32;
    if (bytes ^ tail.bytes) | (first ^ head.bytes) as u64 | (check ^ tail.check) as u64 != 0 {
        return (length, None);
    }
    (length, Some(tail.edge.of_slot(head.slot as u32)))
}

/// Reads the edges of whole lines, as many as there are or have room; gives how many, and where the first other line begins.
///
/// # Safety
/// `SLACK` bytes can be read behind the end.
#[inline(always)]
pub unsafe fn read_all(edges: &mut [Edge], mut line: *const u8, end: *const u8) -> (usize, *const u8) {
    let mut count = 0;
    while count < edges.len() && line < end {
        let (length, edge) = read(line);
        let next = line.wrapping_add(length + 1);
        let Some(edge) = edge.filter(|_| next <= end) else { break };
        edges[count] = edge;
        count += 1;
        line = next;
    }
    (count, line)
}

const KINDS: usize = 2 * wire::COUNT;

/// The lines of all edges that a program writes.
pub struct Lines {
    text: Vec<[u8; 16]>,
    length: Vec<u8>,
}

impl Lines {
    pub fn new() -> Self {
        let mut all = Lines { text: vec![[0; 16]; KINDS * 32], length: vec![0; KINDS * 32] };
        for (name, wire, at) in CONTROLLERS {
            all.add_both("c", name, wire, at);
        }
        for slot in 1..22 {
            for (name, wire) in BOARDS {
                all.add_both(&slot.to_string(), name, wire, slot);
            }
            all.add(Edge::new(wire::ADDR, false, slot, 0), format!("{slot} addr- "));
            all.add(Edge::new(wire::ADDR, true, slot, 0), format!("{slot} addr+\n"));
        }
        all
    }

    fn add_both(&mut self, driver: &str, name: &str, wire: u8, at: u32) {
        self.add(Edge::new(wire, false, at, 0), format!("{driver} {name}-\n"));
        self.add(Edge::new(wire, true, at, 0), format!("{driver} {name}+\n"));
    }

    fn add(&mut self, edge: Edge, text: String) {
        let place = edge.kind() as usize * 32 + edge.at();
        self.text[place][..text.len()].copy_from_slice(text.as_bytes());
        self.length[place] = text.len() as u8;
    }

    /// Writes the line of an edge, and gives where it ends.
    ///
    /// # Safety
    /// `SLACK` bytes can be written.
    #[inline(always)]
    pub unsafe fn write(&self, edge: Edge, to: *mut u8) -> *mut u8 {
        let place = (edge.kind() as usize * 32 + edge.at()).min(KINDS * 32 - 1);
        (to as *mut [u8; 16]).write_unaligned(*self.text.get_unchecked(place));
        let to = to.add(*self.length.get_unchecked(place) as usize);
        if edge.value() == 0 {
            return to;
        }
        let (sign, number) = if edge.value() < ACCESS { (b'i', edge.value()) } else { (b'r', edge.value() - ACCESS) };
        let (ten, one) = (number / 10 + b'0', number % 10 + b'0');
        let is_long = number >= 10;
        let value = if is_long { [sign, ten, one, b'\n'] } else { [sign, one, b'\n', 0] };
        (to as *mut [u8; 4]).write_unaligned(value);
        to.add(3 + is_long as usize)
    }
}
