// Stand-ins for what the extracted part takes from crates and modules that are
// not here. Names follow the Rust; what they do is the scope's: no broker,
// no audit, no log, an operator whose answer is handed in with the call.

use std::path::Path;
use std::path::PathBuf;

use super::AllowDescriptor;
use super::BrokerResponse;
use super::PathDescriptor;
use super::PathQueryDescriptor;
use super::PermissionState;
use super::UnaryPermissionDesc;
use super::calls;
use super::calls::Refusal;

pub mod capacity_builder {
    use std::marker::PhantomData;

    pub struct StringBuilder<T> {
        text: String,
        made: PhantomData<T>,
    }

    impl<T: From<String>> StringBuilder<T> {
        pub fn build(fill: impl FnOnce(&mut Self)) -> Result<T, std::fmt::Error> {
            let mut builder = Self {
                text: String::new(),
                made: PhantomData,
            };
            fill(&mut builder);
            Ok(T::from(builder.text))
        }

        pub fn append(&mut self, part: impl AsRef<str>) {
            self.text.push_str(part.as_ref());
        }
    }
}

pub mod deno_path_util {
    use std::borrow::Cow;
    use std::ffi::OsString;
    use std::os::unix::ffi::OsStrExt;
    use std::os::unix::ffi::OsStringExt;
    use std::path::Path;
    use std::path::PathBuf;

    // Scope, "Paths, at the bottom". The path comes joined to its working
    // directory, so it begins with `/`.
    pub fn normalize_path(path: Cow<'_, Path>) -> Cow<'_, Path> {
        let mut components: Vec<&[u8]> = Vec::new();
        for component in path.as_os_str().as_bytes().split(|byte| *byte == b'/') {
            match component {
                b"" | b"." => {}
                b".." => {
                    components.pop();
                }
                name => components.push(name),
            }
        }
        let mut bytes = vec![b'/'];
        bytes.extend(components.join(&b'/'));
        Cow::Owned(PathBuf::from(OsString::from_vec(bytes)))
    }
}

pub mod deno_terminal {
    pub mod colors {
        pub fn bold(text: &str) -> &str {
            text
        }
    }
}

pub mod log {
    // Never reached, as DEBUG_LOG_ENABLED is false.
    macro_rules! debug {
        ($($part:tt)*) => {{
            let _ = format_args!($($part)*);
        }};
    }
    pub(crate) use debug;
}

pub static DEBUG_LOG_ENABLED: &bool = &false;

pub mod broker {
    use super::BrokerResponse;

    pub fn has_broker() -> bool {
        false
    }

    pub fn maybe_check_with_broker(
        _name: &str,
        _value: impl Fn() -> Option<String>,
    ) -> Option<BrokerResponse> {
        None
    }
}

pub fn write_audit<T>(_flag_name: &str, _value: T) {}

pub mod prompter {
    use super::calls;

    pub const PERMISSION_EMOJI: &str = "!";

    #[derive(PartialEq)]
    pub enum PromptResponse {
        Allow,
        Deny,
        AllowAll,
    }

    pub fn permission_prompt(
        message: &str,
        _name: &str,
        _api_name: Option<&str>,
        _is_unary: bool,
    ) -> PromptResponse {
        match calls::ask(message) {
            0 => PromptResponse::Deny,
            1 => PromptResponse::Allow,
            2 => PromptResponse::AllowAll,
            other => unreachable!("answer {other} was not refused"),
        }
    }
}

pub mod sys_traits {
    use super::PathBuf;

    pub trait EnvCurrentDir {
        fn env_current_dir(&self) -> std::io::Result<PathBuf>;
    }
}

#[derive(Debug)]
#[allow(dead_code)]
pub struct PermissionDeniedError {
    pub(super) access: String,
    pub(super) name: &'static str,
    pub(super) custom_message: Option<String>,
    pub(super) state: PermissionState,
}

#[derive(Debug)]
#[allow(dead_code)]
pub enum PathResolveError {
    EmptyPath,
    CwdResolve(std::io::Error),
}

#[derive(Debug)]
pub enum ChildPermissionError {
    Escalation,
    Item(Refusal),
}

impl From<Refusal> for ChildPermissionError {
    fn from(refusal: Refusal) -> Self {
        Self::Item(refusal)
    }
}

// Named by conversions of the path descriptors that are never called here.
#[allow(dead_code)]
pub struct FfiQueryDescriptor<'a>(pub(super) PathQueryDescriptor<'a>);
#[allow(dead_code)]
pub struct WriteQueryDescriptor<'a>(pub(super) PathQueryDescriptor<'a>);
#[allow(dead_code)]
pub struct FfiDescriptor(pub(super) PathDescriptor);
#[allow(dead_code)]
pub struct WriteDescriptor(pub(super) PathDescriptor);

// A trait method that takes a Vec by reference is found before the method of
// the same name that a slice has, so the extracted insert calls this one.
pub trait Search<T> {
    fn binary_search(&self, item: &T) -> Result<usize, usize>;
}

impl<A: AllowDescriptor> Search<UnaryPermissionDesc<A>> for Vec<UnaryPermissionDesc<A>> {
    fn binary_search(&self, item: &UnaryPermissionDesc<A>) -> Result<usize, usize> {
        let place = search(self, item);
        calls::searched(self, item, place.is_err());
        place
    }
}

// Scope, "Placing an entry".
#[cfg(not(std_search))]
fn search<T: Ord>(list: &[T], item: &T) -> Result<usize, usize> {
    use std::cmp::Ordering;

    let mut size = list.len();
    if size == 0 {
        return Err(0);
    }
    let mut base = 0;
    while size > 1 {
        let half = size / 2;
        if list[base + half].cmp(item) != Ordering::Greater {
            base += half;
        }
        size -= half;
    }
    match list[base].cmp(item) {
        Ordering::Equal => Ok(base),
        Ordering::Less => Err(base + 1),
        Ordering::Greater => Err(base),
    }
}

// The search of the standard library at hand, whatever it does on a list that
// is not sorted.
#[cfg(std_search)]
fn search<T: Ord>(list: &[T], item: &T) -> Result<usize, usize> {
    <[T]>::binary_search(list, item)
}

// The working directory handed in with a call. The Rust asks for it only if
// the path is relative; an error here is refusal 6.
pub struct WorkingDirectory<'a>(pub &'a Path);

impl sys_traits::EnvCurrentDir for WorkingDirectory<'_> {
    fn env_current_dir(&self) -> std::io::Result<PathBuf> {
        if self.0.has_root() && self.0.as_os_str().len() <= calls::PATH_LIMIT {
            Ok(self.0.to_path_buf())
        } else {
            Err(std::io::Error::from(std::io::ErrorKind::InvalidInput))
        }
    }
}
