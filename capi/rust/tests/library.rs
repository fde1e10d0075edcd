// SPDX-License-Identifier: MIT
//! Which libraries are taken: proved ones, and by the feature `unproved` others too.
use nvmearb::{is_library_of_this_version, is_library_proved, Arbiter, Mechanism};
use std::panic::catch_unwind;

const REFUSED: &str = "libnvmearb is an unproved build (README, Install), which the feature `unproved` takes";

#[test]
fn unproved_libraries_are_taken_by_the_feature_alone() {
    let is_taken = is_library_proved() || cfg!(feature = "unproved");
    assert_eq!(is_library_of_this_version(), is_taken);
    match catch_unwind(|| Arbiter::new(Mechanism::RoundRobin, 0)) {
        Ok(_) => assert!(is_taken),
        Err(why) => {
            assert!(!is_taken);
            assert_eq!(why.downcast_ref::<String>().map(String::as_str), Some(REFUSED));
        }
    }
}
