//! The second implementation, and what the programs that compare the library with it share.

pub mod compare;
pub mod convert;
pub mod delay;
pub mod fades;
pub mod find;
#[cfg(not(test))] // the tests of the second implementation are linked with no library
pub mod library;
pub mod pass;
#[cfg(not(test))]
pub mod pass_cases;
pub mod rack;
pub mod run;
#[cfg(not(test))]
pub mod run_cases;
pub mod spread;
#[cfg(not(test))]
pub mod spread_cases;
pub mod uplink;
#[cfg(not(test))]
pub mod uplink_cases;
pub mod word;
#[cfg(not(test))]
pub mod word_cases;
