//! Scenarios: TOML as far as they need it, and the tests of the backplane. What is wrong with one is not told.

use crate::bus::{Board, Interrupter, Plan, Policy, Requester};

/// A value of TOML; those that no key of a scenario takes are not told apart.
enum Value {
    Number(i64),
    Word(String),
    List(Vec<Value>),
    /// `[[name]]`, to which further headers add.
    Tables(Vec<Table>),
    Table(Table),
}

/// Keys and values; closed where TOML lets nothing be added, as with inline tables.
#[derive(Default)]
struct Table {
    keys: Vec<(String, Value)>,
    is_closed: bool,
    has_header: bool,
}

impl Table {
    fn get(&self, key: &str) -> Option<&Value> {
        self.keys.iter().find(|(name, _)| name == key).map(|(_, value)| value)
    }

    /// The table of this name, made where there is none; of several the last.
    fn open(&mut self, key: &str) -> Option<&mut Table> {
        let place = match self.keys.iter().position(|(name, _)| name == key) {
            Some(place) => place,
            None => {
                self.keys.push((key.to_string(), Value::Table(Table::default())));
                self.keys.len() - 1
            }
        };
        match &mut self.keys[place].1 {
            Value::Table(it) if !it.is_closed => Some(it),
            Value::Tables(all) => all.last_mut(),
            _ => None,
        }
    }

    fn add(&mut self, key: String, value: Value) -> Option<()> {
        if self.get(&key).is_some() {
            return None;
        }
        self.keys.push((key, value));
        Some(())
    }

    fn add_by_path(&mut self, mut path: Vec<String>, value: Value) -> Option<()> {
        let last = path.pop()?;
        let mut table = self;
        for key in path {
            table = table.open(&key)?;
        }
        table.add(last, value)
    }

    /// The table that a header of two brackets begins.
    fn begin(&mut self, key: String) -> Option<&mut Table> {
        if self.get(&key).is_none() {
            self.keys.push((key.clone(), Value::Tables(Vec::new())));
        }
        match self.keys.iter_mut().find(|(name, _)| *name == key) {
            Some((_, Value::Tables(all))) => {
                all.push(Table::default());
                all.last_mut()
            }
            _ => None,
        }
    }
}

/// What is left to read.
struct Text<'a> {
    rest: &'a str,
}

impl Text<'_> {
    fn peek(&self) -> Option<char> {
        self.rest.chars().next()
    }

    fn next(&mut self) -> Option<char> {
        let first = self.peek()?;
        self.rest = &self.rest[first.len_utf8()..];
        Some(first)
    }

    fn takes(&mut self, text: &str) -> bool {
        match self.rest.strip_prefix(text) {
            Some(rest) => {
                self.rest = rest;
                true
            }
            None => false,
        }
    }

    fn wants(&mut self, text: &str) -> Option<()> {
        self.takes(text).then_some(())
    }

    fn take_while(&mut self, is_taken: impl Fn(char) -> bool) -> &str {
        let length = self.rest.find(|it| !is_taken(it)).unwrap_or(self.rest.len());
        let (taken, rest) = self.rest.split_at(length);
        self.rest = rest;
        taken
    }

    fn skip_blanks(&mut self) {
        self.take_while(|it| it == ' ' || it == '\t');
    }

    fn skip_comment(&mut self) -> Option<()> {
        if self.takes("#") {
            let comment = self.take_while(|it| it != '\n');
            let comment = comment.strip_suffix('\r').unwrap_or(comment);
            return (!comment.chars().any(|it| it.is_ascii_control() && it != '\t')).then_some(());
        }
        Some(())
    }

    /// Blanks, comments and ends of lines.
    fn skip_lines(&mut self) -> Option<()> {
        loop {
            self.skip_blanks();
            self.skip_comment()?;
            if !self.takes("\n") && !self.takes("\r\n") {
                return Some(());
            }
        }
    }

    fn end_line(&mut self) -> Option<()> {
        self.skip_blanks();
        self.skip_comment()?;
        (self.rest.is_empty() || self.takes("\n") || self.takes("\r\n")).then_some(())
    }

    fn key(&mut self) -> Option<String> {
        match self.peek()? {
            '"' | '\'' => self.word(false),
            _ => {
                let bare = self.take_while(|it| it.is_ascii_alphanumeric() || it == '-' || it == '_');
                (!bare.is_empty()).then(|| bare.to_string())
            }
        }
    }

    /// Keys with dots between them.
    fn path(&mut self) -> Option<Vec<String>> {
        let mut keys = Vec::new();
        loop {
            self.skip_blanks();
            keys.push(self.key()?);
            self.skip_blanks();
            if !self.takes(".") {
                return Some(keys);
            }
        }
    }

    fn word(&mut self, may_have_lines: bool) -> Option<String> {
        let quote = self.next()?;
        let three = quote.to_string().repeat(3);
        let is_long = self.rest.starts_with(&three[1..]) && may_have_lines;
        if is_long {
            self.wants(&three[1..])?;
            let _ = self.takes("\n") || self.takes("\r\n");
        }
        let mut word = String::new();
        loop {
            if is_long && self.takes(&three) {
                while word.len() < 1 << 20 && self.peek() == Some(quote) {
                    word.push(self.next()?);
                }
                return Some(word);
            }
            match self.next()? {
                it if it == quote && !is_long => return Some(word),
                '\\' if quote == '"' => word.extend(self.escape(is_long)?),
                '\r' if is_long && self.peek() == Some('\n') => {}
                it if it.is_ascii_control() && it != '\t' && !(is_long && it == '\n') => return None,
                it => word.push(it),
            }
        }
    }

    /// What stands for a backslash and what follows; nothing at the end of a line.
    fn escape(&mut self, is_long: bool) -> Option<Option<char>> {
        let digits = match self.next()? {
            'b' => return Some(Some('\u{8}')),
            't' => return Some(Some('\t')),
            'n' => return Some(Some('\n')),
            'f' => return Some(Some('\u{c}')),
            'r' => return Some(Some('\r')),
            'e' => return Some(Some('\u{1b}')),
            it @ ('"' | '\\') => return Some(Some(it)),
            'x' => 2,
            'u' => 4,
            'U' => 8,
            ' ' | '\t' | '\n' | '\r' if is_long => {
                self.take_while(|it| " \t\r\n".contains(it));
                return Some(None);
            }
            _ => return None,
        };
        let number = self.rest.get(..digits).filter(|it| it.chars().all(|it| it.is_ascii_hexdigit()))?;
        let character = char::from_u32(u32::from_str_radix(number, 16).ok()?)?;
        self.rest = &self.rest[digits..];
        Some(Some(character))
    }

    fn value(&mut self) -> Option<Value> {
        match self.peek()? {
            '"' | '\'' => self.word(true).map(Value::Word),
            '[' => self.list(),
            '{' => self.inline(),
            _ => self.number(),
        }
    }

    fn list(&mut self) -> Option<Value> {
        self.wants("[")?;
        let mut items = Vec::new();
        loop {
            self.skip_lines()?;
            if self.takes("]") {
                return Some(Value::List(items));
            }
            items.push(self.value()?);
            self.skip_lines()?;
            if !self.takes(",") {
                self.wants("]")?;
                return Some(Value::List(items));
            }
        }
    }

    fn inline(&mut self) -> Option<Value> {
        self.wants("{")?;
        let mut table = Table::default();
        loop {
            self.skip_lines()?;
            if self.takes("}") {
                break;
            }
            let path = self.path()?;
            self.wants("=")?;
            self.skip_blanks();
            let value = self.value()?;
            table.add_by_path(path, value)?;
            self.skip_lines()?;
            if !self.takes(",") {
                self.wants("}")?;
                break;
            }
        }
        table.is_closed = true;
        Some(Value::Table(table))
    }

    fn number(&mut self) -> Option<Value> {
        let text = self.take_while(|it| it.is_ascii_alphanumeric() || "+-_".contains(it));
        let is_spaced = text.contains("__")
            || text.starts_with('_')
            || text.ends_with('_')
            || text.contains("+_")
            || text.contains("-_");
        let plain = text.replace('_', "");
        let (base, digits) = match plain.get(..2) {
            Some("0x") => (16, &plain[2..]),
            Some("0o") => (8, &plain[2..]),
            Some("0b") => (2, &plain[2..]),
            _ => (10, &plain[..]),
        };
        let unsigned = digits.trim_start_matches(['+', '-']);
        let has_zero = base == 10 && unsigned.len() > 1 && unsigned.starts_with('0');
        let has_sign = base != 10 && unsigned.len() != digits.len();
        let is_odd = is_spaced || has_zero || has_sign || base != 10 && text[2..].starts_with('_');
        let number = i64::from_str_radix(digits, base).ok()?;
        (!is_odd).then_some(Value::Number(number))
    }
}

/// Where the keys of a header lead, which may not stand there twice.
fn open_header<'a>(top: &'a mut Table, mut path: Vec<String>, is_list: bool) -> Option<&'a mut Table> {
    let last = path.pop()?;
    let mut table = top;
    for key in path {
        table = table.open(&key)?;
    }
    if is_list {
        return table.begin(last);
    }
    if matches!(table.get(&last), Some(Value::Tables(_))) {
        return None;
    }
    let table = table.open(&last)?;
    let is_new =
        !table.has_header && !table.keys.iter().any(|(_, it)| !matches!(it, Value::Table(_) | Value::Tables(_)));
    table.has_header = true;
    is_new.then_some(table)
}

fn parse(text: &str) -> Option<Table> {
    let (mut text, mut top) = (Text { rest: text }, Table::default());
    let mut header = Vec::new();
    loop {
        text.skip_lines()?;
        if text.rest.is_empty() {
            return Some(top);
        }
        if text.takes("[") {
            let is_list = text.takes("[");
            let path = text.path()?;
            text.wants(if is_list { "]]" } else { "]" })?;
            open_header(&mut top, path.clone(), is_list)?;
            header = path;
        } else {
            let path = text.path()?;
            text.wants("=")?;
            text.skip_blanks();
            let value = text.value()?;
            let mut table = &mut top;
            for key in &header {
                table = table.open(key)?;
            }
            table.add_by_path(path, value)?;
        }
        text.end_line()?;
    }
}

fn number(table: &Table, key: &str, least: i64, most: i64) -> Option<usize> {
    match table.get(key)? {
        Value::Number(it) if (least..=most).contains(it) => Some(*it as usize),
        _ => None,
    }
}

fn word<'a>(table: &'a Table, key: &str) -> Option<&'a str> {
    match table.get(key)? {
        Value::Word(it) => Some(it),
        _ => None,
    }
}

/// The tables of an array, which may stand in brackets.
fn tables<'a>(table: &'a Table, key: &str) -> Option<Vec<&'a Table>> {
    match table.get(key) {
        None => Some(Vec::new()),
        Some(Value::Tables(all)) => Some(all.iter().collect()),
        Some(Value::List(all)) => {
            all.iter().map(|it| if let Value::Table(it) = it { Some(it) } else { None }).collect()
        }
        _ => None,
    }
}

fn has_only(table: &Table, keys: &[&str]) -> Option<()> {
    table.keys.iter().all(|(key, _)| keys.contains(&&key[..])).then_some(())
}

fn requester(table: &Table, policy: Policy) -> Option<Requester> {
    let burst = match word(table, "release")? {
        "rwd" => Some(number(table, "burst", 1, 255)? as u8),
        "ror" => None,
        _ => return None,
    };
    has_only(table, if burst.is_some() { &["release", "level", "burst"] } else { &["release", "level"] })?;
    let level = number(table, "level", if policy == Policy::Single { 3 } else { 0 }, 3)?;
    Some(Requester { level, burst })
}

fn interrupter(table: &Table) -> Option<Interrupter> {
    has_only(table, &["level", "kind", "status"])?;
    let is_roak = match word(table, "kind")? {
        "roak" => true,
        "rora" => false,
        _ => return None,
    };
    Some(Interrupter { level: number(table, "level", 1, 7)?, is_roak, status: number(table, "status", 0, 255)? as u8 })
}

/// Reads a part of a board, if there is one.
fn part<T>(board: &Table, key: &str, read: impl Fn(&Table) -> Option<T>) -> Option<Option<T>> {
    match board.get(key) {
        None => Some(None),
        Some(Value::Table(it)) => read(it).map(Some),
        _ => None,
    }
}

fn handled(board: &Table) -> Option<u8> {
    let Some(value) = board.get("handler") else { return Some(0) };
    let Value::List(levels) = value else { return None };
    levels.iter().try_fold(0, |all, it| match it {
        Value::Number(level @ 1..=7) => Some(all | 1 << level),
        _ => None,
    })
}

fn board(table: &Table, policy: Policy) -> Option<Board> {
    has_only(table, &["slot", "requester", "interrupter", "handler"])?;
    let board = Board {
        requester: part(table, "requester", |it| requester(it, policy))?,
        interrupter: part(table, "interrupter", interrupter)?,
        handles: handled(table)?,
    };
    (board.handles == 0 || board.requester.is_some()).then_some(board)
}

/// A bit for each chain that a jumper joins: the grants by level, and then the acknowledges.
fn jumper(table: &Table) -> Option<u32> {
    has_only(table, &["slot", "chains"])?;
    let Value::List(chains) = table.get("chains")? else { return None };
    chains.iter().try_fold(0, |all, it| match it {
        Value::Word(it) => {
            ["bg0", "bg1", "bg2", "bg3", "iack"].iter().position(|name| name == it).map(|it| all | 1 << it)
        }
        _ => None,
    })
}

/// The chains that a board works.
fn works(board: &Board) -> u32 {
    board.requester.map_or(0, |it| 1 << it.level) | (board.interrupter.is_some() as u32) << 4
}

/// Whether each empty slot joins what a higher board works, and no level is handled twice.
fn is_whole(boards: &[Option<Board>; 22], joins: &[Option<u32>; 22], slots: usize) -> bool {
    let (mut needed, mut handled) = (0, 0);
    for slot in (1..=slots).rev() {
        match boards[slot] {
            None if needed & !joins[slot].unwrap_or(0) != 0 => return false,
            None => {}
            Some(board) if board.handles & handled != 0 || joins[slot].is_some() => return false,
            Some(board) => {
                needed |= works(&board);
                handled |= board.handles;
            }
        }
    }
    boards[1].is_some()
}

/// Reads a scenario: nothing where one of its tests fails.
pub fn read(text: &[u8]) -> Option<Plan> {
    let top = parse(std::str::from_utf8(text).ok()?)?;
    has_only(&top, &["slots", "arbiter", "board", "jumper"])?;
    let slots = number(&top, "slots", 1, 21)?;
    let policy = match word(&top, "arbiter")? {
        "sgl" => Policy::Single,
        "pri" => Policy::Priority,
        "rrs" => Policy::RoundRobin,
        _ => return None,
    };
    let (mut boards, mut joins) = ([None; 22], [None; 22]);
    for table in tables(&top, "board")? {
        let slot = number(table, "slot", 1, slots as i64)?;
        if boards[slot].replace(board(table, policy)?).is_some() {
            return None;
        }
    }
    for table in tables(&top, "jumper")? {
        let slot = number(table, "slot", 1, slots as i64)?;
        if joins[slot].replace(jumper(table)?).is_some() {
            return None;
        }
    }
    is_whole(&boards, &joins, slots).then(|| Plan::new(policy, &boards))
}
