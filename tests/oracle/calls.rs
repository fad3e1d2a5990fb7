// The calls of the call script on the extracted part, with what the Rust does
// not have: the scope's limits and refusals. A call runs on a copy of the
// table, which takes the table's place only if the call is not refused.

use std::cell::Cell;
use std::cell::RefCell;
use std::ffi::OsStr;
use std::os::unix::ffi::OsStrExt;
use std::path::Component;

use super::stubs::WorkingDirectory;
use super::*;

pub type Table = UnaryPermission<ReadDescriptor>;
type List<A> = Vec<UnaryPermissionDesc<A>>;

pub const PATH_LIMIT: usize = 1024;
const ENTRY_LIMIT: usize = 256;
const SUM_LIMIT: usize = 32_768;
const ITEM_LIMIT: usize = 64;

/// A path as a call script gives it, with its working directory.
#[derive(Clone, Copy)]
pub struct Given<'a> {
    pub path: &'a [u8],
    pub directory: &'a [u8],
}

/// The scope's refusals that a call script can reach, by their numbers.
#[derive(Clone, Copy, Debug)]
pub enum Refusal {
    UnknownState = 12,
    Argument = 3,
    EmptyPath = 4,
    PathLength = 5,
    WorkingDirectory = 6,
    ResolvedLength = 7,
    Full = 8,
    Escalation = 10,
}

/// The first insert of a call that the limits do not allow.
#[derive(Clone, Copy)]
struct Over {
    in_parent: bool,
    item: usize,
}

/// What passes between a running call and the stand-ins that it reaches.
struct Watch {
    answer: Cell<u32>,
    asks: Cell<usize>,
    message: RefCell<Option<String>>,
    /// Where the list of the table that the call was made on stands. A child
    /// call has a second list, at another address, while both are alive.
    parent: Cell<*const ()>,
    item: Cell<usize>,
    over: Cell<Option<Over>>,
    searches: Cell<usize>,
}

thread_local! {
    static WATCH: Watch = const {
        Watch {
            answer: Cell::new(0),
            asks: Cell::new(0),
            message: RefCell::new(None),
            parent: Cell::new(std::ptr::null()),
            item: Cell::new(0),
            over: Cell::new(None),
            searches: Cell::new(0),
        }
    };
}

fn address<A: AllowDescriptor>(list: &List<A>) -> *const () {
    std::ptr::from_ref(list).cast()
}

/// The operator's answer for the call that follows.
fn hand_in(answer: u32) {
    WATCH.with(|watch| {
        watch.answer.set(answer);
        watch.asks.set(0);
        watch.message.replace(None);
    });
}

fn watch(table: &Table, answer: u32) {
    hand_in(answer);
    WATCH.with(|watch| {
        watch.parent.set(address(&table.descriptors.inner));
        watch.item.set(0);
        watch.over.set(None);
    });
}

/// The operator is asked. Called by the prompter's stand-in.
pub fn ask(message: &str) -> u32 {
    WATCH.with(|watch| {
        watch.asks.set(watch.asks.get() + 1);
        watch.message.replace(Some(message.to_string()));
        watch.answer.get()
    })
}

/// A search has ended. Called by the search's stand-in, just before the insert.
pub(super) fn searched<A: AllowDescriptor>(
    list: &List<A>,
    item: &UnaryPermissionDesc<A>,
    adds: bool,
) {
    WATCH.with(|watch| {
        watch.searches.set(watch.searches.get() + 1);
        if !adds || watch.over.get().is_some() {
            return;
        }
        let (list, item) = as_read(list, item);
        let sum: usize = list.iter().map(path_length).sum();
        if list.len() >= ENTRY_LIMIT || sum + path_length(item) > SUM_LIMIT {
            watch.over.set(Some(Over {
                in_parent: address(list) == watch.parent.get(),
                item: watch.item.get(),
            }));
        }
    });
}

/// The read instance of a generic list, the only instance in this program.
fn as_read<'a, A: AllowDescriptor>(
    list: &'a List<A>,
    item: &'a UnaryPermissionDesc<A>,
) -> (
    &'a List<ReadDescriptor>,
    &'a UnaryPermissionDesc<ReadDescriptor>,
) {
    assert_eq!(
        std::any::type_name::<A>(),
        std::any::type_name::<ReadDescriptor>()
    );
    // Safety: A is ReadDescriptor, so both sides are the same types.
    unsafe {
        (
            &*std::ptr::from_ref(list).cast(),
            &*std::ptr::from_ref(item).cast(),
        )
    }
}

/// Stops the program unless an insert comes by the search's stand-in.
pub fn assert_search_is_ours() {
    let before = WATCH.with(|watch| watch.searches.get());
    let given = Given {
        path: b"/a",
        directory: b"/",
    };
    insert(&mut Table::default(), 0, given).expect("an insert into a fresh table");
    assert_eq!(WATCH.with(|watch| watch.searches.get()), before + 1);
}

fn resolve(given: Given<'_>) -> Result<PathQueryDescriptor<'_>, Refusal> {
    if given.path.len() > PATH_LIMIT {
        return Err(Refusal::PathLength);
    }
    let path = Path::new(OsStr::from_bytes(given.path));
    let directory = WorkingDirectory(Path::new(OsStr::from_bytes(given.directory)));
    let query =
        PathQueryDescriptor::new(&directory, Cow::Borrowed(path)).map_err(|error| match error {
            PathResolveError::EmptyPath => Refusal::EmptyPath,
            PathResolveError::CwdResolve(_) => Refusal::WorkingDirectory,
        })?;
    if query.path.as_os_str().len() > PATH_LIMIT {
        return Err(Refusal::ResolvedLength);
    }
    Ok(query)
}

fn resolve_some(given: Option<Given<'_>>) -> Result<Option<ReadQueryDescriptor<'_>>, Refusal> {
    given
        .map(|given| Ok(resolve(given)?.into_read()))
        .transpose()
}

/// Runs a call on a copy, which becomes the table unless a limit is passed.
fn attempt<R>(
    table: &mut Table,
    answer: u32,
    call: impl FnOnce(&mut Table) -> R,
) -> Result<R, Refusal> {
    let mut copy = table.clone();
    watch(&copy, answer);
    let result = call(&mut copy);
    if WATCH.with(|watch| watch.over.get().is_some()) {
        return Err(Refusal::Full);
    }
    *table = copy;
    Ok(result)
}

fn known_answer(answer: u32) -> Result<(), Refusal> {
    if answer <= 2 {
        Ok(())
    } else {
        Err(Refusal::Argument)
    }
}

pub fn insert(table: &mut Table, kind: u32, given: Given<'_>) -> Result<(), Refusal> {
    let entry = match kind {
        0 => UnaryPermissionDesc::Granted,
        1 => UnaryPermissionDesc::FlagDenied,
        2 => UnaryPermissionDesc::PromptDenied,
        3 => UnaryPermissionDesc::FlagIgnored,
        _ => return Err(Refusal::Argument),
    };
    let descriptor = resolve(given)?.into_descriptor().into_read();
    attempt(table, 0, |table| {
        table.descriptors.insert(entry(descriptor))
    })
}

pub fn set_switches(table: &mut Table, switches: u32) -> Result<(), Refusal> {
    if switches > 31 {
        return Err(Refusal::Argument);
    }
    table.granted_global = switches & 1 != 0;
    table.flag_denied_global = switches & 2 != 0;
    table.flag_ignored_global = switches & 4 != 0;
    table.prompt_denied_global = switches & 8 != 0;
    table.prompt = switches & 16 != 0;
    Ok(())
}

pub fn query(
    table: &Table,
    mode: u32,
    given: Option<Given<'_>>,
) -> Result<PermissionState, Refusal> {
    let allow_partial = match mode {
        0 => AllowPartial::TreatAsDenied,
        1 => AllowPartial::TreatAsPartialGranted,
        2 => AllowPartial::TreatAsGranted,
        _ => return Err(Refusal::Argument),
    };
    let query = resolve_some(given)?;
    Ok(table.query_desc(query.as_ref(), allow_partial))
}

/// The answer of a check or a request; a check that passes has no state.
pub struct Told {
    pub state: Option<PermissionState>,
    pub asked: bool,
    pub text: Option<String>,
}

pub fn check(table: &mut Table, given: Option<Given<'_>>, answer: u32) -> Result<Told, Refusal> {
    known_answer(answer)?;
    let query = resolve_some(given)?;
    let result = attempt(table, answer, |table| match &query {
        Some(query) => table.check(query, None),
        None => table.check_all_api(None),
    })?;
    let message = WATCH.with(|watch| watch.message.take());
    let asked = message.is_some();
    Ok(match result {
        Ok(()) => Told {
            state: None,
            asked,
            text: message,
        },
        Err(error) => {
            if let Some(message) = message {
                assert_eq!(message, error.access);
            }
            Told {
                state: Some(error.state),
                asked,
                text: Some(error.access),
            }
        }
    })
}

pub fn request(table: &mut Table, given: Option<Given<'_>>, answer: u32) -> Result<Told, Refusal> {
    known_answer(answer)?;
    let query = resolve_some(given)?;
    let state = attempt(table, answer, |table| table.request(query.as_ref()))?;
    let message = WATCH.with(|watch| watch.message.take());
    Ok(Told {
        state: Some(state),
        asked: message.is_some(),
        text: message,
    })
}

pub fn revoke(table: &mut Table, given: Option<Given<'_>>) -> Result<PermissionState, Refusal> {
    let query = resolve_some(given)?;
    attempt(table, 0, |table| table.revoke(query.as_ref()))
}

/// The words of a child call.
pub struct ChildCall {
    pub code: u32,
    pub directory: Vec<u8>,
    pub answers: Vec<u32>,
    pub items: Vec<Vec<u8>>,
}

impl ChildCall {
    fn is_known(&self) -> bool {
        let items = self.items.len();
        let wanted_answers = match self.code {
            0 | 2 => 0,
            1 => 1,
            3 => items,
            _ => return false,
        };
        self.answers.iter().all(|answer| *answer <= 2)
            && items <= ITEM_LIMIT
            && (items == 0 || self.code == 3)
            && self.answers.len() == wanted_answers
    }

    /// The Rust's own child call on a copy of the parent, with the first of
    /// the items only.
    fn run(&self, parent: &Table, items: usize) -> ChildRun {
        let flag = match self.code {
            0 => ChildUnaryPermissionArg::Inherit,
            1 => ChildUnaryPermissionArg::Granted,
            2 => ChildUnaryPermissionArg::NotGranted,
            // The list is of strings, and items may be any bytes: it gets
            // their places, which the parser below turns into descriptors.
            _ => ChildUnaryPermissionArg::GrantedList(
                (0..items).map(|item| item.to_string()).collect(),
            ),
        };
        let mut parent = parent.clone();
        watch(&parent, self.answers.first().copied().unwrap_or(0));
        let child = parent.create_child_permissions(flag, |item| {
            let item: usize = item.parse().expect("the place of an item");
            WATCH.with(|watch| {
                watch.item.set(item);
                watch.answer.set(self.answers[item]);
            });
            let query = resolve(Given {
                path: &self.items[item],
                directory: &self.directory,
            })?;
            Ok::<_, Refusal>(Some(query.into_descriptor().into_read()))
        });
        let (asks, over) = WATCH.with(|watch| (watch.asks.get(), watch.over.get()));
        ChildRun {
            parent,
            child,
            asks,
            over,
        }
    }
}

struct ChildRun {
    parent: Table,
    child: Result<Table, ChildPermissionError>,
    asks: usize,
    over: Option<Over>,
}

/// A child call's refusal, if any, and how often it asked. The parent keeps
/// the acts that the scope says; the child is fresh after any refusal but 3.
pub fn child(parent: &mut Table, child: &mut Table, call: &ChildCall) -> (Option<Refusal>, usize) {
    if !call.is_known() {
        return (Some(Refusal::Argument), 0);
    }
    let mut run = call.run(parent, call.items.len());
    let (made, refusal) = if let Some(over) = run.over {
        // The run went on past the limit: what is kept comes from one that
        // stops there. An item counts unless its parent check was refused.
        let kept = over.item + usize::from(!over.in_parent);
        if kept < call.items.len() {
            run = call.run(parent, kept);
            assert!(run.over.is_none_or(|over| !over.in_parent));
            assert!(!matches!(run.child, Err(ChildPermissionError::Escalation)));
        }
        (Table::default(), Some(Refusal::Full))
    } else {
        match run.child {
            Ok(made) => (made, None),
            Err(ChildPermissionError::Escalation) => (Table::default(), Some(Refusal::Escalation)),
            Err(ChildPermissionError::Item(refusal)) => (Table::default(), Some(refusal)),
        }
    };
    *parent = run.parent;
    *child = made;
    (refusal, run.asks)
}

/// How many leading components below the root two paths share, by the standard
/// library's own components. The first path's refusal comes first.
pub fn common(first: Given<'_>, second: Given<'_>) -> Result<usize, Refusal> {
    let first = resolve(first)?;
    let second = resolve(second)?;
    Ok(first
        .path
        .components()
        .zip(second.path.components())
        .take_while(|(first, second)| first == second)
        .filter(|(shared, _)| *shared != Component::RootDir)
        .count())
}

/// The Rust's permission without a path, by its state's number, which may be
/// none.
pub struct Unit {
    pub number: u32,
    pub prompt: bool,
}

impl Default for Unit {
    fn default() -> Self {
        Self {
            number: PermissionState::default() as u32,
            prompt: false,
        }
    }
}

impl Unit {
    fn permission(&self) -> Result<UnitPermission, Refusal> {
        let state = match self.number {
            0 => PermissionState::Granted,
            1 => PermissionState::GrantedPartial,
            2 => PermissionState::Prompt,
            3 => PermissionState::Denied,
            4 => PermissionState::DeniedPartial,
            5 => PermissionState::Ignored,
            _ => return Err(Refusal::UnknownState),
        };
        Ok(UnitPermission {
            name: "modem",
            description: "the modem",
            state,
            prompt: self.prompt,
        })
    }

    /// Runs a call, and keeps the state that it leaves; texts are left out.
    fn run(
        &mut self,
        answer: u32,
        call: impl FnOnce(&mut UnitPermission) -> Option<PermissionState>,
    ) -> Result<Told, Refusal> {
        let mut permission = self.permission()?;
        known_answer(answer)?;
        hand_in(answer);
        let state = call(&mut permission);
        assert_eq!(permission.prompt, self.prompt);
        self.number = permission.query() as u32;
        Ok(Told {
            state,
            asked: WATCH.with(|watch| watch.asks.get() > 0),
            text: None,
        })
    }

    pub fn request(&mut self, answer: u32) -> Result<Told, Refusal> {
        self.run(answer, |permission| Some(permission.request()))
    }

    pub fn check(&mut self, answer: u32) -> Result<Told, Refusal> {
        self.run(answer, |permission| {
            permission
                .check(|| None, || None)
                .err()
                .map(|error| error.state)
        })
    }

    pub fn revoke(&mut self) -> Result<PermissionState, Refusal> {
        let told = self.run(0, |permission| Some(permission.revoke()))?;
        assert!(!told.asked);
        Ok(told.state.expect("a revoke's state"))
    }
}

/// A table as `list` shows it.
pub struct Shown<'a> {
    pub switches: u32,
    pub marks: u32,
    /// Kind letter and path, in list order.
    pub entries: Vec<(char, &'a [u8])>,
}

pub fn show(table: &Table) -> Shown<'_> {
    let bits = |bits: &[bool]| {
        bits.iter()
            .rev()
            .fold(0, |sum, bit| 2 * sum + u32::from(*bit))
    };
    Shown {
        switches: bits(&[
            table.granted_global,
            table.flag_denied_global,
            table.flag_ignored_global,
            table.prompt_denied_global,
            table.prompt,
        ]),
        marks: bits(&[
            table.descriptors.has_flag_denied,
            table.descriptors.has_prompt_denied,
            table.descriptors.has_flag_ignored,
        ]),
        entries: table
            .descriptors
            .iter()
            .map(|entry| (letter(entry), path_bytes(entry)))
            .collect(),
    }
}

fn letter(entry: &UnaryPermissionDesc<ReadDescriptor>) -> char {
    match entry {
        UnaryPermissionDesc::Granted(_) => 'G',
        UnaryPermissionDesc::FlagDenied(_) => 'D',
        UnaryPermissionDesc::PromptDenied(_) => 'P',
        UnaryPermissionDesc::FlagIgnored(_) => 'I',
    }
}

fn path_bytes(entry: &UnaryPermissionDesc<ReadDescriptor>) -> &[u8] {
    match entry {
        UnaryPermissionDesc::Granted(descriptor)
        | UnaryPermissionDesc::FlagDenied(descriptor)
        | UnaryPermissionDesc::PromptDenied(descriptor)
        | UnaryPermissionDesc::FlagIgnored(descriptor) => descriptor.0.path.as_os_str().as_bytes(),
    }
}

fn path_length(entry: &UnaryPermissionDesc<ReadDescriptor>) -> usize {
    path_bytes(entry).len()
}
