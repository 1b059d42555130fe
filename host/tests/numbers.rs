//! The numbers of the interface as enums: each is found by its number, and has words of its own. That none is missing is
//! seen beside the header (`layout`).

use pikurandal::{Refusal, Timer};
use std::collections::BTreeSet;

#[test]
fn numbers_rise_and_lead_back() {
    assert!(Refusal::ALL.windows(2).all(|pair| pair[0].number() < pair[1].number()));
    assert!(Timer::ALL.windows(2).all(|pair| pair[0].number() < pair[1].number()));
    for number in 0..=u8::MAX {
        let refusal = Refusal::ALL.iter().find(|refusal| refusal.number() == number);
        assert_eq!(Refusal::of_number(number).as_ref(), refusal, "{number}");
        let order = Timer::ALL.iter().find(|order| order.number() == number);
        assert_eq!(Timer::of_number(number).as_ref(), order, "{number}");
    }
}

#[test]
fn each_refusal_has_words_of_its_own() {
    let after_its_number = |refusal: &Refusal| refusal.to_string().split_once(": ").map(|(_, words)| words.to_string());
    let words: BTreeSet<String> = Refusal::ALL.iter().filter_map(after_its_number).collect();
    assert_eq!(words.len(), Refusal::ALL.len());
    assert_eq!(
        Refusal::Far.to_string(),
        "refused by number 8: the reminder's number is more than 64 from the current one"
    );
}
