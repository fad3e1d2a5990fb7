// The extracted Rust and what must see its private items, as in
// tests/oracle/main.rs, for the benchmarks' module `read`.

mod stubs {
    include!("../tests/oracle/stubs.rs");
}
use stubs::*;

include!(env!("ORACLE_EXTRACT"));

pub mod calls {
    include!("../tests/oracle/calls.rs");
}
