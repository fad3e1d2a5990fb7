// Times query, check, request and insert: Rattle's static library, whole calls with
// the memory test and resolving, beside the Rust's own functions on a resolved
// descriptor; and linked check and request beside the plain ones. Both sides have
// the same tables and paths, in one run. A scan, which reads each byte of a table
// once and does nothing else, is the limit. common compares each path with the
// first entry's: both sides resolve both, and the Rust counts by std's components.
// bench/run builds and runs it.
//
//   calls CALL                              a table of times and ratios
//   calls CALL SIDE ENTRIES CASE REPEATS    only runs one side's calls, for counting instructions
//
// The sides of query, check, request, insert and common are rust and rattle, those of
// linked-check and linked-request plain and linked, those of scan bytes and blocks.

use std::cell::Cell;
use std::hint::black_box;
use std::time::Instant;

// The extracted Rust, with what must see its private items.
#[allow(dead_code)]
mod read {
    include!("read.rs");

    pub mod measured {
        use super::calls::Table;
        use super::*;

        pub struct Asked(ReadQueryDescriptor<'static>, String);

        pub fn resolved(path: &str) -> Asked {
            let resolved = Cow::Owned(PathBuf::from(path));
            Asked(PathQueryDescriptor::new_known_absolute(resolved).into_read(), path.to_owned())
        }

        pub fn query(table: &mut Table, asked: &Asked) -> i32 {
            i32::from(table.query_desc(Some(&asked.0), AllowPartial::TreatAsPartialGranted) as u8)
        }

        // A check that fails makes its text.
        pub fn check(table: &mut Table, asked: &Asked) -> i32 {
            match table.check(&asked.0, None) {
                Ok(()) => 0,
                Err(error) => i32::from(std::hint::black_box(error).state as u8),
            }
        }

        pub fn request(table: &mut Table, asked: &Asked) -> i32 {
            i32::from(table.request(Some(&asked.0)) as u8)
        }

        pub fn common(_table: &mut Table, asked: &Asked) -> i32 {
            let given = |path| super::calls::Given { path, directory: b"/" };
            let shared = super::calls::common(given(asked.1.as_bytes()), given(crate::other().as_bytes()));
            shared.map_or(-1, |count| count as i32)
        }

        // An insert takes a descriptor of its own.
        pub fn insert(table: &mut Table, asked: &Asked) -> i32 {
            table.descriptors.insert(UnaryPermissionDesc::Granted(asked.0.as_allow().expect("a descriptor")));
            0
        }
    }
}

use read::calls::Given;
use read::calls::Table;
use read::measured::Asked;

// Check and request, and their linked forms.
type Ask = unsafe extern "C" fn(
    *mut u8, usize, *const u8, usize, *const u8, usize, u32, *mut u8, usize, *mut u32, *mut usize,
) -> i32;
type LinkedAsk = unsafe extern "C" fn(
    *mut u8, usize, u32, *mut u64, *const u8, usize, *const u8, usize, u32, *mut u8, usize, *mut u32, usize, *mut u32, *mut usize,
    *mut usize,
) -> i32;

unsafe extern "C" {
    fn permissions_fresh(memory: *mut u8, size: usize) -> i32;
    fn permissions_insert(
        memory: *mut u8, size: usize, kind: u32, path: *const u8, path_size: usize, cwd: *const u8, cwd_size: usize,
    ) -> i32;
    fn permissions_common(
        first: *const u8, first_size: usize, second: *const u8, second_size: usize, cwd: *const u8, cwd_size: usize,
        common: *mut usize,
    ) -> i32;
    fn permissions_switches(memory: *mut u8, size: usize, switches: u32) -> i32;
    fn permissions_used(memory: *const u8, size: usize) -> i32;
    fn permissions_query(
        memory: *const u8, size: usize, mode: u32, path: *const u8, path_size: usize, cwd: *const u8, cwd_size: usize,
    ) -> i32;
    fn permissions_check(
        memory: *mut u8, size: usize, path: *const u8, path_size: usize, cwd: *const u8, cwd_size: usize, answer: u32,
        text: *mut u8, text_space: usize, asked: *mut u32, text_size: *mut usize,
    ) -> i32;
    fn permissions_request(
        memory: *mut u8, size: usize, path: *const u8, path_size: usize, cwd: *const u8, cwd_size: usize, answer: u32,
        text: *mut u8, text_space: usize, asked: *mut u32, text_size: *mut usize,
    ) -> i32;
    fn permissions_linked_check(
        memory: *mut u8, size: usize, run: u32, number: *mut u64, path: *const u8, path_size: usize, cwd: *const u8,
        cwd_size: usize, answer: u32, text: *mut u8, text_space: usize, records: *mut u32, records_space: usize, asked: *mut u32,
        text_size: *mut usize, records_size: *mut usize,
    ) -> i32;
    fn permissions_linked_request(
        memory: *mut u8, size: usize, run: u32, number: *mut u64, path: *const u8, path_size: usize, cwd: *const u8,
        cwd_size: usize, answer: u32, text: *mut u8, text_space: usize, records: *mut u32, records_space: usize, asked: *mut u32,
        text_size: *mut usize, records_size: *mut usize,
    ) -> i32;
}

thread_local! {
    // the path that the others are compared with
    static OTHER: Cell<&'static str> = const { Cell::new("/") };
}

fn other() -> &'static str {
    OTHER.get()
}

struct Memory {
    table: Vec<u8>,
    text: Vec<u8>,
    records: Vec<u32>,
    answer: u32,
    before: Vec<u8>, // what is set back before each call; nothing, unless the operator is asked
}

impl Memory {
    fn fresh() -> Self {
        let (table, text, records) = (vec![0; 33540], vec![0; 1041], vec![0; 345]);
        let mut memory = Memory { table, text, records, answer: 0, before: Vec::new() };
        assert_eq!(unsafe { permissions_fresh(memory.table.as_mut_ptr(), memory.table.len()) }, 0);
        memory
    }

    fn insert(&mut self, kind: u32, path: &str) -> i32 {
        let cwd = b"/";
        unsafe {
            permissions_insert(
                self.table.as_mut_ptr(), self.table.len(), kind, path.as_ptr(), path.len(), cwd.as_ptr(), cwd.len(),
            )
        }
    }

    fn insert_granted(&mut self, path: &str) -> i32 {
        self.insert(0, path)
    }

    fn common(&mut self, path: &str) -> i32 {
        let (cwd, other) = (b"/", other());
        let mut common = 0;
        let result = unsafe {
            permissions_common(
                path.as_ptr(), path.len(), other.as_ptr(), other.len(), cwd.as_ptr(), cwd.len(), &mut common,
            )
        };
        if result < 0 { -1 } else { common as i32 }
    }

    // From here on the operator is asked, and allows.
    fn let_ask(&mut self) {
        assert_eq!(unsafe { permissions_switches(self.table.as_mut_ptr(), self.table.len(), 16) }, 0);
        self.before = self.used().to_vec();
        self.answer = 1;
    }

    fn set_back(&mut self) {
        if !self.before.is_empty() {
            self.table[..self.before.len()].copy_from_slice(&self.before);
        }
    }

    fn query(&mut self, path: &str) -> i32 {
        let cwd = b"/";
        unsafe {
            permissions_query(
                self.table.as_ptr(), self.table.len(), 1, path.as_ptr(), path.len(), cwd.as_ptr(), cwd.len(),
            )
        }
    }

    #[inline(always)]
    fn ask(&mut self, call: Ask, path: &str) -> i32 {
        let cwd = b"/";
        let (mut asked, mut size) = (0, 0);
        self.set_back();
        unsafe {
            call(
                self.table.as_mut_ptr(), self.table.len(), path.as_ptr(), path.len(), cwd.as_ptr(), cwd.len(), self.answer,
                self.text.as_mut_ptr(), self.text.len(), &mut asked, &mut size,
            )
        }
    }

    #[inline(always)]
    fn linked_ask(&mut self, call: LinkedAsk, path: &str) -> i32 {
        let cwd = b"/";
        let (mut number, mut asked, mut size, mut words) = (0, 0, 0, 0);
        self.set_back();
        unsafe {
            call(
                self.table.as_mut_ptr(), self.table.len(), 1, &mut number, path.as_ptr(), path.len(), cwd.as_ptr(),
                cwd.len(), self.answer, self.text.as_mut_ptr(), self.text.len(), self.records.as_mut_ptr(), self.records.len(),
                &mut asked, &mut size, &mut words,
            )
        }
    }

    fn check(&mut self, path: &str) -> i32 {
        self.ask(permissions_check, path)
    }

    fn request(&mut self, path: &str) -> i32 {
        self.ask(permissions_request, path)
    }

    fn linked_check(&mut self, path: &str) -> i32 {
        self.linked_ask(permissions_linked_check, path)
    }

    fn linked_request(&mut self, path: &str) -> i32 {
        self.linked_ask(permissions_linked_request, path)
    }

    fn used(&self) -> &[u8] {
        let used = unsafe { permissions_used(self.table.as_ptr(), self.table.len()) };
        &self.table[..usize::try_from(used).expect("a table")]
    }

    // The table's bytes one after the other: a sum in which each hangs on those before.
    fn scan_bytes(&mut self, _path: &str) -> i32 {
        self.before.iter().fold(0u32, |sum, byte| sum.rotate_left(1) ^ u32::from(*byte)) as i32
    }

    // The same bytes, as many at a time as the compiler takes.
    fn scan_blocks(&mut self, _path: &str) -> i32 {
        i32::from(self.before.iter().fold(0u8, |sum, byte| sum ^ byte))
    }
}

// Entries as a plant has them: scripts, logs, set points and run hours of its
// units, mostly granted, with some of each other kind.
fn realistic(count: usize) -> Vec<(u32, String)> {
    let parts = ["scripts/lead.js", "log/run-hours", "config/setpoints.json", "data/suction", "alarms"];
    (0..count)
        .map(|i| {
            let kind = match i % 10 {
                3 => 1,
                6 => 2,
                8 => 3,
                _ => 0,
            };
            (kind, format!("/srv/plant/hall{}/unit{:02}/{}", i % 3, i / 5, parts[i % 5]))
        })
        .collect()
}

// The longest paths that so many entries may have, all alike but for their last bytes.
fn worst(count: usize) -> Vec<(u32, String)> {
    let length = 32768 / count;
    (0..count)
        .map(|i| {
            let name = format!("{i:03}");
            let mut path = String::new();
            while path.len() + 2 + name.len() < length {
                path.push_str("/a");
            }
            (0, format!("{path}/{name}"))
        })
        .collect()
}

struct Case {
    entries: Vec<(u32, String)>,
    paths: Vec<String>,
    is_asked: bool,
}

fn case(name: &str, count: usize) -> Case {
    match name {
        // half of the paths lie below an entry, half below none
        "realistic" => {
            let entries = realistic(count);
            let paths = (0..16)
                .map(|i| {
                    let (_, path) = &entries[i * count / 16];
                    if i % 2 == 0 { format!("{path}/today.txt") } else { path.replace("unit", "pump") }
                })
                .collect();
            Case { entries, paths, is_asked: false }
        }
        // no entry matches, and each is read to its last component
        "worst" => {
            let entries = worst(count);
            let path = entries[0].1.replace("000", "zzz");
            Case { entries, paths: vec![path], is_asked: false }
        }
        // every entry lies below the path, so that each is compared to the path's end
        "below" => {
            let entries = worst(count);
            let path = entries[0].1.replace("/000", "");
            Case { entries, paths: vec![path], is_asked: false }
        }
        // the entries of the worst case, and one of them again: an insert compares some of them to the last component
        "present" => {
            let entries = worst(count);
            let path = entries[count / 2].1.clone();
            Case { entries, paths: vec![path], is_asked: false }
        }
        // the paths lie below no entry, and the operator is asked about each
        "asked" => {
            let entries = realistic(count);
            let paths = (0..16).map(|i| entries[i * count / 16].1.replace("unit", "pump")).collect();
            Case { entries, paths, is_asked: true }
        }
        // the same, with a path that makes the longest record
        "longest" => {
            let path = format!("/{}", "a".repeat(1023));
            Case { entries: realistic(count), paths: vec![path], is_asked: true }
        }
        other => panic!("no case {other}"),
    }
}

// A table and a call on it.
enum Side {
    Rust { table: Table, asked: Vec<Asked>, call: fn(&mut Table, &Asked) -> i32 },
    Rattle { memory: Memory, paths: Vec<String>, call: fn(&mut Memory, &str) -> i32 },
}

fn rust_side(case: &Case, call: fn(&mut Table, &Asked) -> i32) -> Side {
    let mut table = Table::default();
    for (kind, path) in &case.entries {
        let given = Given { path: path.as_bytes(), directory: b"/" };
        read::calls::insert(&mut table, *kind, given).expect("an insert within the limits");
    }
    let asked = case.paths.iter().map(|path| read::measured::resolved(path)).collect();
    Side::Rust { table, asked, call }
}

fn rattle_side(case: &Case, call: fn(&mut Memory, &str) -> i32) -> Side {
    let mut memory = Memory::fresh();
    for (kind, path) in &case.entries {
        assert_eq!(memory.insert(*kind, path), 0);
    }
    if case.is_asked {
        memory.let_ask();
    }
    Side::Rattle { memory, paths: case.paths.clone(), call }
}

// A side that only reads the bytes of the case's table.
fn scan_side(case: &Case, call: fn(&mut Memory, &str) -> i32) -> Side {
    let mut side = rattle_side(case, call);
    if let Side::Rattle { memory, .. } = &mut side {
        memory.before = memory.used().to_vec();
    }
    side
}

impl Side {
    fn answers(&mut self) -> Vec<i32> {
        match self {
            Side::Rust { table, asked, call } => asked.iter().map(|asked| call(table, asked)).collect(),
            Side::Rattle { memory, paths, call } => paths.iter().map(|path| call(memory, path)).collect(),
        }
    }

    fn entries(&self) -> usize {
        match self {
            Side::Rust { table, .. } => read::calls::show(table).entries.len(),
            Side::Rattle { memory, .. } => usize::from(memory.table[0]) * 256 + usize::from(memory.table[1]),
        }
    }

    fn run(&mut self, repeats: usize) {
        match self {
            Side::Rust { table, asked, call } => {
                for _ in 0..repeats {
                    for asked in asked.iter() {
                        black_box(call(black_box(table), black_box(asked)));
                    }
                }
            }
            Side::Rattle { memory, paths, call } => {
                for _ in 0..repeats {
                    for path in paths.iter() {
                        black_box(call(black_box(memory), black_box(path)));
                    }
                }
            }
        }
    }

    fn nanoseconds(&mut self, repeats: usize) -> f64 {
        let start = Instant::now();
        self.run(repeats);
        start.elapsed().as_nanos() as f64
    }
}

// The least time of each side for all paths once, over some rounds of some 50 ms, the sides in turn; in nanoseconds.
fn least(sides: &mut [Side; 2]) -> [f64; 2] {
    let repeats = [0, 1].map(|i| ((50e6 / sides[i].nanoseconds(1).max(1.0)) as usize).clamp(1, 1_000_000));
    let mut least = [f64::INFINITY; 2];
    for _ in 0..9 {
        for i in [0, 1] {
            least[i] = least[i].min(sides[i].nanoseconds(repeats[i]) / repeats[i] as f64);
        }
    }
    least
}

// Both sides of a call with the case's table. Each path is asked about once: the answers must be equal, and a request or
// an insert has then inserted what it inserts, so that later ones find the table as it stays.
fn sides(name: &str, case: &Case) -> [Side; 2] {
    if name == "common" {
        OTHER.set(case.entries[0].1.clone().leak());
    }
    let mut sides = match name {
        "query" => [rust_side(case, read::measured::query), rattle_side(case, Memory::query)],
        "check" => [rust_side(case, read::measured::check), rattle_side(case, Memory::check)],
        "request" => [rust_side(case, read::measured::request), rattle_side(case, Memory::request)],
        "insert" => [rust_side(case, read::measured::insert), rattle_side(case, Memory::insert_granted)],
        "common" => [rust_side(case, read::measured::common), rattle_side(case, Memory::common)],
        "linked-check" => [rattle_side(case, Memory::check), rattle_side(case, Memory::linked_check)],
        "linked-request" => [rattle_side(case, Memory::request), rattle_side(case, Memory::linked_request)],
        "scan" => return [scan_side(case, Memory::scan_bytes), scan_side(case, Memory::scan_blocks)],
        other => panic!("no call {other}"),
    };
    let [first, second] = &mut sides;
    assert_eq!(first.answers(), second.answers());
    if name == "insert" {
        let sizes = [first.entries(), second.entries()];
        assert_eq!(first.answers(), second.answers());
        assert_eq!(sizes, [first.entries(), second.entries()], "an insert that is made again adds an entry");
    }
    if let (true, Side::Rattle { memory, .. }) = (case.is_asked, second) {
        assert_ne!(memory.records[0], 0, "no record is written");
    }
    sides
}

// The sizes of the tables. A call that inserts a path must find room in the largest.
fn sizes(name: &str) -> [usize; 3] {
    if matches!(name, "query" | "check" | "scan" | "common") { [40, 200, 256] } else { [40, 200, 240] }
}

fn main() {
    let words: Vec<String> = std::env::args().skip(1).collect();
    let Some(name) = words.first() else { panic!("no call named") };
    if let [_, side, entries, case_name, repeats] = words.as_slice() {
        let [mut first, mut second] = sides(name, &case(case_name, entries.parse().expect("a number of entries")));
        let side = match side.as_str() {
            "rust" | "plain" | "bytes" => &mut first,
            _ => &mut second,
        };
        side.run(repeats.parse().expect("a number of repeats"));
        return;
    }
    let plain = name.strip_prefix("linked-");
    match plain {
        None if name == "scan" => println!("| entries | paths | byte by byte | in blocks | blocks / bytes |"),
        None => println!("| entries | paths | Rust `{name}` | Rattle, whole call | Rattle / Rust |"),
        Some(plain) => println!("| entries | paths | `{plain}` | linked | linked / plain |"),
    }
    println!("|---|---|---|---|---|");
    let cases: &[&str] = match plain {
        None if name == "scan" => &["realistic", "worst"],
        None if name == "insert" => &["realistic", "present"],
        None if name == "common" => &["realistic", "worst"],
        None => &["realistic", "worst", "below"],
        Some(_) => &["realistic", "worst", "asked", "longest"],
    };
    for case_name in cases {
        for entries in sizes(name) {
            let case = case(case_name, entries);
            let [first, second] = least(&mut sides(name, &case)).map(|time| time / case.paths.len() as f64);
            println!("| {entries} | {case_name} | {first:.0} ns | {second:.0} ns | {:.2} |", second / first);
        }
    }
}
