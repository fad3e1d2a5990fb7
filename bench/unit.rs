// Makes calls on a permission without a path, by Rattle's static library or by the
// Rust's own `UnitPermission`, where nobody is asked. bench/run-unit builds it and
// counts the instructions of the functions below that have one side's name.
//
//   unit SIDE CALL STATE REPEATS     SIDE rust or rattle; CALL check, request or revoke; STATE a number, not 2

use std::hint::black_box;

// The extracted Rust, with what must see its private items.
#[allow(dead_code)]
mod read {
    include!("read.rs");

    // A check that fails makes its text.
    #[unsafe(no_mangle)]
    pub fn rust_check(permission: &mut UnitPermission) -> u32 {
        match permission.check(|| None, || None) {
            Ok(()) => 0,
            Err(error) => std::hint::black_box(error).state as u32,
        }
    }
}

use read::PermissionState;
use read::UnitPermission;

#[unsafe(no_mangle)]
fn rust_request(permission: &mut UnitPermission) -> u32 {
    permission.request() as u32
}

#[unsafe(no_mangle)]
fn rust_revoke(permission: &mut UnitPermission) -> u32 {
    permission.revoke() as u32
}

unsafe extern "C" {
    fn permissions_unit_check(state: *mut u32, prompt: u32, answer: u32, asked: *mut u32) -> i32;
    fn permissions_unit_request(state: *mut u32, prompt: u32, answer: u32, asked: *mut u32) -> i32;
    fn permissions_unit_revoke(state: *mut u32) -> i32;
}

// Safety, of all three: the numbers are lent for the call alone.
#[unsafe(no_mangle)]
fn rattle_check(state: &mut u32) -> u32 {
    let mut asked = 0;
    unsafe { permissions_unit_check(state, 1, 0, &mut asked) as u32 }
}

#[unsafe(no_mangle)]
fn rattle_request(state: &mut u32) -> u32 {
    let mut asked = 0;
    unsafe { permissions_unit_request(state, 1, 0, &mut asked) as u32 }
}

#[unsafe(no_mangle)]
fn rattle_revoke(state: &mut u32) -> u32 {
    unsafe { permissions_unit_revoke(state) as u32 }
}

type Rust = fn(&mut UnitPermission) -> u32;
type Rattle = fn(&mut u32) -> u32;

fn by_rust(call: Rust, number: u32) -> u32 {
    let state = match number {
        0 => PermissionState::Granted,
        1 => PermissionState::GrantedPartial,
        3 => PermissionState::Denied,
        4 => PermissionState::DeniedPartial,
        _ => PermissionState::Ignored,
    };
    black_box(call)(&mut UnitPermission {
        name: "modem",
        description: "the modem",
        state,
        prompt: true,
    })
}

fn by_rattle(call: Rattle, mut number: u32) -> u32 {
    black_box(call)(&mut number)
}

fn main() {
    let words: Vec<String> = std::env::args().skip(1).collect();
    let [side, call, state, repeats] = words.as_slice() else {
        eprintln!("usage: unit SIDE CALL STATE REPEATS");
        std::process::exit(2);
    };
    let (rust, rattle): (Rust, Rattle) = match call.as_str() {
        "check" => (read::rust_check, rattle_check),
        "request" => (rust_request, rattle_request),
        _ => (rust_revoke, rattle_revoke),
    };
    let state: u32 = state.parse().expect("a state's number");
    let repeats: u32 = repeats.parse().expect("a number of repeats");
    for _ in 0..repeats {
        let state = black_box(state);
        black_box(if side == "rust" { by_rust(rust, state) } else { by_rattle(rattle, state) });
    }
    if side == "both" {
        assert_eq!(by_rust(rust, state), by_rattle(rattle, state));
    }
}
