//! What the tests of wrong libraries share.

use compare::driver::{Call, Case};

/// The words in which a wrong library is caught by random cases alone.
pub fn caught<C: Case>(call: Call<C>, wrong: C::Calls) -> String {
    let call = Call { worked: |_| Vec::new(), ..call };
    let words = call.compare(&wrong, 3000, 5).expect_err("a wrong library must differ");
    println!("{words}\n");
    assert!(!words.contains("never met"), "it must differ, and not only miss a kind of answer");
    words
}
