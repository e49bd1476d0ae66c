//! What a plain Rust program takes for `check`, `analyze` and `dump` of one run file: the same text for a file without a fault,
//! and status 1 for any other.

use std::env;
use std::fs::File;
use std::io::{self, BufWriter, Read, Write};

const BLOCK_BYTES: usize = 131_072;
const PAGE_BYTES: usize = 65_536;
const HEADER_BYTES: usize = 16;
const BEGIN_ID: u16 = 0x8000;
const END_ID: u16 = 0x8001;
const RECORD_MASK: u16 = 0x494D;
const MAX_DATA: u32 = 4_194_304;
const MAX_DUMP: u32 = 268_435_456;
const TYPES: [&str; 18] = [
    "UINT8", "INT8", "CHAR", "UINT16", "INT16", "UINT32", "INT32", "BOOL", "FLOAT", "DOUBLE", "BITFIELD", "STRING", "ARRAY",
    "STRUCT", "KEY", "LINK", "INT64", "UINT64",
];

fn bad<T>() -> io::Result<T> {
    Err(io::ErrorKind::InvalidData.into())
}

fn u16_at(bytes: &[u8], at: usize) -> u16 {
    u16::from_le_bytes(bytes[at..at + 2].try_into().unwrap())
}

fn u32_at(bytes: &[u8], at: usize) -> u32 {
    u32::from_le_bytes(bytes[at..at + 4].try_into().unwrap())
}

#[derive(Clone, Copy)]
struct Header {
    id: u16,
    mask: u16,
    serial: u32,
    time: u32,
    size: u32,
}

impl Header {
    fn read(bytes: &[u8; HEADER_BYTES]) -> Header {
        Header {
            id: u16_at(bytes, 0),
            mask: u16_at(bytes, 2),
            serial: u32_at(bytes, 4),
            time: u32_at(bytes, 8),
            size: u32_at(bytes, 12),
        }
    }

    /// The most bytes of data that it may have.
    fn limit(&self) -> u32 {
        match self.id {
            BEGIN_ID | END_ID => MAX_DUMP,
            _ => MAX_DATA,
        }
    }
}

/// A run file, read in blocks: what was read and not yet taken stands from `start` to `end`.
struct Reader {
    file: File,
    block: Vec<u8>,
    start: usize,
    end: usize,
    place: u64,
}

impl Reader {
    /// Sees to it that so many bytes stand in the block, and says whether the file has them.
    #[cold]
    fn have(&mut self, count: usize) -> io::Result<bool> {
        if self.end - self.start >= count {
            return Ok(true);
        }
        self.block.copy_within(self.start..self.end, 0);
        self.end -= self.start;
        self.start = 0;
        if self.block.len() < count {
            self.block.resize(count, 0);
        }
        while self.end < count {
            let read = self.file.read(&mut self.block[self.end..])?;
            if read == 0 {
                return Ok(false);
            }
            self.end += read;
        }
        Ok(true)
    }

    /// The next header and its data, from where they lie in the block, if they lie whole there.
    #[inline(always)]
    fn next_at_hand(&mut self) -> Option<(Header, &[u8])> {
        let (head, behind) = self.block[..self.end].get(self.start..)?.split_first_chunk()?;
        let header = Header::read(head);
        let body = behind.get(..header.size as usize)?;
        if header.size > header.limit() {
            return None;
        }
        self.start += HEADER_BYTES + body.len();
        self.place += (HEADER_BYTES + body.len()) as u64;
        Some((header, body))
    }

    /// Reads on, so that the next header and its data lie whole in the block.
    #[cold]
    fn read_on(&mut self) -> io::Result<()> {
        if !self.have(HEADER_BYTES)? {
            return bad();
        }
        let header = Header::read(self.block[self.start..].first_chunk().unwrap());
        if header.size > header.limit() || !self.have(HEADER_BYTES + header.size as usize)? {
            return bad();
        }
        Ok(())
    }
}

struct Bank<'a> {
    name: [u8; 4],
    kind: u32,
    data: &'a [u8],
}

/// Why data are no bank area.
enum Fault {
    Short(usize),
    BadFlags(u32),
    BadSize(usize),
}

/// The banks of an area, each of which lies within it.
struct Banks<'a> {
    flags: u32,
    left: &'a [u8],
}

impl<'a> Banks<'a> {
    fn read(body: &'a [u8]) -> Result<Banks<'a>, Fault> {
        let Some((front, area)) = body.split_first_chunk::<8>() else {
            return Err(Fault::Short(body.len()));
        };
        let flags = u32_at(front, 4);
        if !matches!(flags, 0x01 | 0x11 | 0x31) {
            return Err(Fault::BadFlags(flags));
        }
        let stated = u32_at(front, 0) as usize;
        if area.len() < stated {
            return Err(Fault::Short(body.len()));
        }
        if stated < area.len() {
            return Err(Fault::BadSize(0));
        }
        let mut banks = Banks { flags, left: area };
        while !banks.left.is_empty() {
            if banks.split().is_none() {
                return Err(banks.fault(body.len()));
            }
        }
        Ok(Banks { flags, left: area })
    }

    fn head_len(&self) -> usize {
        match self.flags {
            0x01 => 8,
            0x11 => 12,
            _ => 16,
        }
    }

    /// Takes the next bank, if it lies within the area.
    fn split(&mut self) -> Option<Bank<'a>> {
        let (head, behind) = self.left.split_at_checked(self.head_len())?;
        let (kind, size) = match self.flags {
            0x01 => (u16_at(head, 4) as u32, u16_at(head, 6) as usize),
            _ => (u32_at(head, 4), u32_at(head, 8) as usize),
        };
        let (padded, rest) = behind.split_at_checked(size.next_multiple_of(8))?;
        self.left = rest;
        let name = [head[0], head[1], head[2], head[3]];
        Some(Bank { name, kind, data: &padded[..size] })
    }

    /// Why the next bank does not lie within the area, where so many bytes make the whole.
    fn fault(&self, total: usize) -> Fault {
        if self.left.len() < self.head_len() {
            return Fault::Short(total);
        }
        Fault::BadSize(total - self.left.len())
    }
}

fn visible(name: [u8; 4]) -> [u8; 4] {
    name.map(|byte| if byte.is_ascii_graphic() { byte } else { b'.' })
}

fn name_of(kind: u32) -> Option<&'static str> {
    TYPES.get((kind as usize).wrapping_sub(1)).copied()
}

struct Figures {
    count: u64,
    sum: i128,
    least: i128,
    greatest: i128,
}

impl Figures {
    fn new() -> Figures {
        Figures { count: 0, sum: 0, least: i128::MAX, greatest: i128::MIN }
    }

    /// Counts the items of a bank, each read by `item` from so many bytes.
    fn count<const N: usize, T: Into<i128> + Ord + Copy>(&mut self, data: &[u8], item: impl Fn([u8; N]) -> T) {
        let (items, _) = data.as_chunks();
        let Some(first) = items.first() else {
            return;
        };
        let (mut sum, mut least, mut greatest) = (0, item(*first), item(*first));
        for bytes in items {
            let item = item(*bytes);
            sum += item.into();
            least = least.min(item);
            greatest = greatest.max(item);
        }
        self.count += items.len() as u64;
        self.sum += sum;
        self.least = self.least.min(least.into());
        self.greatest = self.greatest.max(greatest.into());
    }

    /// Counts the items of a bank of this type, and says whether it is one of integers.
    fn count_kind(&mut self, kind: u32, data: &[u8]) {
        match kind {
            1 => self.count(data, u8::from_le_bytes),
            2 => self.count(data, i8::from_le_bytes),
            4 => self.count(data, u16::from_le_bytes),
            5 => self.count(data, i16::from_le_bytes),
            6 => self.count(data, u32::from_le_bytes),
            7 => self.count(data, i32::from_le_bytes),
            17 => self.count(data, i64::from_le_bytes),
            _ => self.count(data, u64::from_le_bytes),
        }
    }
}

/// What is done with the events, and what is printed behind the last.
enum Tool {
    Check,
    Analyze(Report),
    Dump,
}

/// Rows by rising key. The one that was used last is looked at first.
struct Table<K, R> {
    rows: Vec<(K, R)>,
    last: usize,
}

impl<K: Ord + Copy, R> Table<K, R> {
    fn row(&mut self, key: K, new: impl Fn() -> R) -> &mut R {
        if self.rows.get(self.last).is_none_or(|row| row.0 != key) {
            self.last = match self.rows.binary_search_by_key(&key, |row| row.0) {
                Ok(at) => at,
                Err(at) => {
                    self.rows.insert(at, (key, new()));
                    at
                }
            };
        }
        &mut self.rows[self.last].1
    }
}

struct Report {
    ids: Table<u16, u64>,
    banks: Table<([u8; 4], u32), Figures>,
    bad: u64,
}

impl Report {
    fn new() -> Report {
        Report {
            ids: Table { rows: Vec::new(), last: 0 },
            banks: Table { rows: Vec::new(), last: 0 },
            bad: 0,
        }
    }

    fn fold(&mut self, header: &Header, body: &[u8]) {
        *self.ids.row(header.id, || 0) += 1;
        let Ok(mut banks) = Banks::read(body) else {
            self.bad += 1;
            return;
        };
        while let Some(bank) = banks.split() {
            if matches!(bank.kind, 1 | 2 | 4 | 5 | 6 | 7 | 17 | 18) {
                let row = self.banks.row((bank.name, bank.kind), Figures::new);
                row.count_kind(bank.kind, bank.data);
            }
        }
    }

    fn print(&self, events: u64, out: &mut impl Write) -> io::Result<()> {
        writeln!(out, "events {events}")?;
        for (id, count) in &self.ids.rows {
            writeln!(out, "id {id} count {count}")?;
        }
        for ((name, kind), row) in self.banks.rows.iter().filter(|row| row.1.count > 0) {
            let name = visible(*name);
            let name = str::from_utf8(&name).unwrap();
            let kind = name_of(*kind).unwrap();
            let Figures { count, sum, least, greatest } = row;
            writeln!(out, "bank {name} {kind} count {count} sum {sum} least {least} greatest {greatest}")?;
        }
        writeln!(out, "rest ids 0 banks 0 bad {}", self.bad)
    }
}

/// A line that is made from its end to its front. `write!` would take some four times as long.
struct Line {
    bytes: [u8; 128],
    start: usize,
}

impl Line {
    fn new() -> Line {
        Line { bytes: [b'\n'; 128], start: 127 }
    }

    #[inline(always)]
    fn put(&mut self, text: &[u8]) {
        let end = self.start;
        self.start -= text.len();
        self.bytes[self.start..end].copy_from_slice(text);
    }

    /// Puts a blank and a number in front, two digits at a time.
    #[inline(always)]
    fn put_number(&mut self, mut number: u32) {
        while number >= 100 {
            let pair = number % 100;
            number /= 100;
            self.put(&[b'0' + (pair / 10) as u8, b'0' + (pair % 10) as u8]);
        }
        if number >= 10 {
            self.put(&[b' ', b'0' + (number / 10) as u8, b'0' + (number % 10) as u8]);
        } else {
            self.put(&[b' ', b'0' + number as u8]);
        }
    }

    fn print(&self, page: &mut Vec<u8>) {
        page.extend_from_slice(&self.bytes[self.start..]);
    }
}

fn print_fault(fault: Fault, page: &mut Vec<u8>) -> io::Result<()> {
    match fault {
        Fault::Short(at) => writeln!(page, "  no banks Short {at}"),
        Fault::BadFlags(found) => writeln!(page, "  no banks BadFlags {found}"),
        Fault::BadSize(at) => writeln!(page, "  no banks BadSize {at}"),
    }
}

fn dump_event(header: &Header, body: &[u8], page: &mut Vec<u8>) -> io::Result<()> {
    let mut line = Line::new();
    line.put_number(header.size);
    line.put_number(header.time);
    line.put_number(header.serial);
    line.put_number(header.mask.into());
    line.put_number(header.id.into());
    line.put(b"event");
    line.print(page);
    let mut banks = match Banks::read(body) {
        Ok(banks) => banks,
        Err(fault) => return print_fault(fault, page),
    };
    while let Some(bank) = banks.split() {
        let mut line = Line::new();
        line.put_number(bank.data.len() as u32);
        match name_of(bank.kind) {
            Some(kind) => {
                line.put(kind.as_bytes());
                line.put(b" ");
            }
            None => line.put_number(bank.kind),
        }
        line.put(&visible(bank.name));
        line.put(b"  bank ");
        line.print(page);
    }
    Ok(())
}

fn print_record(word: &str, record: &Header, out: &mut impl Write) -> io::Result<()> {
    writeln!(out, "{word} {} {} {}", record.serial, record.time, record.size)
}

/// Reads the file and prints what the tool prints.
fn run(tool: &mut Tool, reader: &mut Reader, out: &mut impl Write) -> io::Result<()> {
    reader.read_on()?;
    let Some((begin, _)) = reader.next_at_hand() else {
        return bad();
    };
    if begin.id != BEGIN_ID || begin.mask != RECORD_MASK {
        return bad();
    }
    if let Tool::Dump = tool {
        print_record("begin", &begin, out)?;
    }
    let mut page = Vec::with_capacity(2 * PAGE_BYTES);
    let mut events = 0;
    let end = loop {
        if page.len() >= PAGE_BYTES {
            out.write_all(&page)?;
            page.clear();
        }
        let Some((header, body)) = reader.next_at_hand() else {
            reader.read_on()?;
            continue;
        };
        match header.id {
            END_ID => break header,
            BEGIN_ID => return bad(),
            _ => events += 1,
        }
        match tool {
            Tool::Check => {}
            Tool::Analyze(report) => report.fold(&header, body),
            Tool::Dump => dump_event(&header, body, &mut page)?,
        }
    };
    out.write_all(&page)?;
    if end.mask != RECORD_MASK || end.serial != begin.serial || reader.have(1)? {
        return bad();
    }
    match tool {
        Tool::Check => writeln!(out, "ok run {} events {events} bytes {}", begin.serial, reader.place),
        Tool::Analyze(report) => {
            writeln!(out, "run {}", begin.serial)?;
            report.print(events, out)
        }
        Tool::Dump => print_record("end", &end, out),
    }
}

fn main() -> io::Result<()> {
    let words: Vec<String> = env::args().collect();
    let mut tool = match words[1].as_str() {
        "check" => Tool::Check,
        "analyze" => Tool::Analyze(Report::new()),
        _ => Tool::Dump,
    };
    let file = File::open(&words[2])?;
    let mut reader = Reader { file, block: vec![0; BLOCK_BYTES], start: 0, end: 0, place: 0 };
    let mut out = BufWriter::with_capacity(PAGE_BYTES, io::stdout().lock());
    run(&mut tool, &mut reader, &mut out)?;
    out.flush()
}
