// oracle: reads a call script from standard input and writes the answers that
// the extracted Rust gives. This file is the script's format: lines to calls,
// answers to lines. calls.rs makes the calls.

use std::io::BufWriter;
use std::io::Read;
use std::io::Write;

use read::calls;
use read::calls::ChildCall;
use read::calls::Given;
use read::calls::Refusal;
use read::calls::Table;
use read::calls::Told;
use read::calls::Unit;

// The extracted part, and beside it what must see its private items. It holds
// more than the calls use.
#[allow(dead_code)]
mod read {
    #[warn(dead_code)]
    mod stubs {
        include!("stubs.rs");
    }
    use stubs::*;

    include!(env!("ORACLE_EXTRACT"));

    #[warn(dead_code)]
    pub mod calls {
        include!("calls.rs");
    }
}

/// A byte string of the script.
type Bytes = Vec<u8>;

enum Call {
    Fresh,
    Insert(u32, Bytes, Bytes),
    Switches(u32),
    Query(u32, Option<Bytes>, Bytes),
    Check(Option<Bytes>, Bytes, u32),
    Request(Option<Bytes>, Bytes, u32),
    Revoke(Option<Bytes>, Bytes),
    Child(ChildCall),
    Common(Bytes, Bytes, Bytes),
    List,
    ChildList,
    Unit(u32, bool),
    UnitRequest(u32),
    UnitRevoke,
    UnitCheck(u32),
    UnitState,
    /// `linked` and `number`, which this program has no use for.
    Ignored,
}

/// The words of a line that are still to be read. None is a bad line.
struct Words<'a>(Vec<&'a [u8]>);

impl<'a> Words<'a> {
    fn of_line(line: &'a [u8]) -> Option<Self> {
        let mut words: Vec<&[u8]> = line.split(|byte| *byte == b' ').collect();
        words.reverse();
        words
            .iter()
            .all(|word| !word.is_empty())
            .then_some(Self(words))
    }

    fn word(&mut self) -> Option<&'a [u8]> {
        self.0.pop()
    }

    fn number(&mut self) -> Option<u32> {
        self.word()?.iter().try_fold(0u32, |number, byte| {
            let digit = byte.is_ascii_digit().then_some(byte - b'0')?;
            number.checked_mul(10)?.checked_add(u32::from(digit))
        })
    }

    /// 0 or 1.
    fn flag(&mut self) -> Option<bool> {
        match self.number()? {
            0 => Some(false),
            1 => Some(true),
            _ => None,
        }
    }

    fn bytes(&mut self) -> Option<Bytes> {
        unescaped(self.word()?.strip_prefix(b":")?)
    }

    fn path(&mut self) -> Option<Option<Bytes>> {
        if self.0.last() == Some(&b"-".as_slice()) {
            self.word();
            Some(None)
        } else {
            self.bytes().map(Some)
        }
    }

    /// A count, and then as many words as it says.
    fn counted<T>(&mut self, read: impl Fn(&mut Self) -> Option<T>) -> Option<Vec<T>> {
        let count = usize::try_from(self.number()?).ok()?;
        if count > self.0.len() {
            return None;
        }
        (0..count).map(|_| read(self)).collect()
    }
}

fn unescaped(mut word: &[u8]) -> Option<Bytes> {
    let mut bytes = Vec::with_capacity(word.len());
    while let Some((first, rest)) = word.split_first() {
        word = rest;
        bytes.push(match first {
            b'%' => {
                let (digits, rest) = word.split_first_chunk::<2>()?;
                word = rest;
                16 * hexadecimal(digits[0])? + hexadecimal(digits[1])?
            }
            0x21..=0x7E => *first,
            _ => return None,
        });
    }
    Some(bytes)
}

fn hexadecimal(digit: u8) -> Option<u8> {
    match digit {
        b'0'..=b'9' => Some(digit - b'0'),
        b'A'..=b'F' => Some(digit - b'A' + 10),
        _ => None,
    }
}

fn parsed(line: &[u8]) -> Option<Call> {
    let mut words = Words::of_line(line)?;
    let call = match words.word()? {
        b"fresh" => Call::Fresh,
        b"insert" => Call::Insert(words.number()?, words.bytes()?, words.bytes()?),
        b"switches" => Call::Switches(words.number()?),
        b"query" => Call::Query(words.number()?, words.path()?, words.bytes()?),
        b"check" => Call::Check(words.path()?, words.bytes()?, words.number()?),
        b"request" => Call::Request(words.path()?, words.bytes()?, words.number()?),
        b"revoke" => Call::Revoke(words.path()?, words.bytes()?),
        b"child" => Call::Child(ChildCall {
            code: words.number()?,
            directory: words.bytes()?,
            answers: words.counted(Words::number)?,
            items: words.counted(Words::bytes)?,
        }),
        b"common" => Call::Common(words.bytes()?, words.bytes()?, words.bytes()?),
        b"list" => Call::List,
        b"childlist" => Call::ChildList,
        b"unit" => Call::Unit(words.number()?, words.flag()?),
        b"unitrequest" => Call::UnitRequest(words.number()?),
        b"unitrevoke" => Call::UnitRevoke,
        b"unitcheck" => Call::UnitCheck(words.number()?),
        b"unitstate" => Call::UnitState,
        b"linked" => {
            words.flag()?;
            Call::Ignored
        }
        b"number" => {
            words.number()?;
            Call::Ignored
        }
        _ => return None,
    };
    words.0.is_empty().then_some(call)
}

fn given<'a>(path: &'a [u8], directory: &'a [u8]) -> Given<'a> {
    Given { path, directory }
}

fn given_some<'a>(path: &'a Option<Bytes>, directory: &'a [u8]) -> Option<Given<'a>> {
    path.as_ref().map(|path| given(path, directory))
}

fn escaped(bytes: &[u8]) -> String {
    let mut text = String::new();
    for byte in bytes {
        match byte {
            0x21..=0x7E if *byte != b'%' => text.push(char::from(*byte)),
            _ => text.push_str(&format!("%{byte:02X}")),
        }
    }
    text
}

/// The answer lines of a check.
fn check_lines(told: &Told) -> String {
    let words = match told.state {
        None => String::from("passed"),
        Some(state) => format!("failed {state:?}"),
    };
    told_lines(words, told)
}

/// The answer lines of a request.
fn request_lines(told: &Told) -> String {
    let state = told.state.expect("a request's state");
    told_lines(format!("{state:?}"), told)
}

/// The answer lines of a check or request whose first words are at hand.
fn told_lines(words: String, told: &Told) -> String {
    let asked = u32::from(told.asked);
    match &told.text {
        Some(text) => format!("{words} asked {asked}\ntext {}", escaped(text.as_bytes())),
        None => format!("{words} asked {asked}"),
    }
}

fn table_lines(table: &Table) -> String {
    let shown = calls::show(table);
    let mut lines = format!(
        "entries {} switches {} marks {}",
        shown.entries.len(),
        shown.switches,
        shown.marks
    );
    for (letter, path) in shown.entries {
        lines.push_str(&format!("\n{letter} {}", escaped(path)));
    }
    lines
}

#[derive(Default)]
struct Held {
    main: Table,
    child: Table,
    unit: Unit,
}

impl Held {
    fn answer(&mut self, call: &Call) -> String {
        if let Call::Child(call) = call {
            let (refusal, asked) = calls::child(&mut self.main, &mut self.child, call);
            return match refusal {
                None => format!("child asked {asked}"),
                Some(refusal) => format!("refused {} asked {asked}", refusal as u32),
            };
        }
        self.answer_or_refusal(call)
            .unwrap_or_else(|refusal| format!("refused {}", refusal as u32))
    }

    fn answer_or_refusal(&mut self, call: &Call) -> Result<String, Refusal> {
        let main = &mut self.main;
        let ok = || String::from("ok");
        Ok(match call {
            Call::Fresh => {
                *main = Table::default();
                ok()
            }
            Call::Insert(kind, path, directory) => {
                calls::insert(main, *kind, given(path, directory))?;
                ok()
            }
            Call::Switches(switches) => {
                calls::set_switches(main, *switches)?;
                ok()
            }
            Call::Query(mode, path, directory) => {
                let state = calls::query(main, *mode, given_some(path, directory))?;
                format!("{state:?}")
            }
            Call::Check(path, directory, answer) => {
                check_lines(&calls::check(main, given_some(path, directory), *answer)?)
            }
            Call::Request(path, directory, answer) => {
                request_lines(&calls::request(main, given_some(path, directory), *answer)?)
            }
            Call::Revoke(path, directory) => {
                let state = calls::revoke(main, given_some(path, directory))?;
                format!("{state:?}")
            }
            Call::Common(first, second, directory) => {
                let common = calls::common(given(first, directory), given(second, directory))?;
                format!("common {common}")
            }
            Call::List => table_lines(main),
            Call::ChildList => table_lines(&self.child),
            Call::Unit(number, prompt) => {
                self.unit = Unit {
                    number: *number,
                    prompt: *prompt,
                };
                ok()
            }
            Call::UnitRequest(answer) => request_lines(&self.unit.request(*answer)?),
            Call::UnitRevoke => format!("{:?}", self.unit.revoke()?),
            Call::UnitCheck(answer) => check_lines(&self.unit.check(*answer)?),
            Call::UnitState => format!(
                "state {} prompt {}",
                self.unit.number,
                u32::from(self.unit.prompt)
            ),
            Call::Ignored => ok(),
            Call::Child(_) => unreachable!("answered above"),
        })
    }
}

fn main() -> std::io::Result<()> {
    calls::assert_search_is_ours();
    let mut script = Vec::new();
    std::io::stdin().read_to_end(&mut script)?;
    let mut output = BufWriter::new(std::io::stdout().lock());
    let mut held = Held::default();
    for (place, line) in script.split(|byte| *byte == b'\n').enumerate() {
        if line.is_empty() || line.starts_with(b"#") {
            continue;
        }
        match parsed(line) {
            Some(call) => writeln!(output, "{}", held.answer(&call))?,
            None => {
                writeln!(output, "bad line {}", place + 1)?;
                break;
            }
        }
    }
    output.flush()
}
