//! The C header and the binding agree: every struct with its fields, every function with what it takes, the lengths of
//! slices, the numbers, and the version, which is the archive's too. The binding's account of them is written as claims in
//! C, which a C compiler holds against the header; and neither has a name that the other lacks.

mod claims;
mod declared;

use pikurandal::{c, lent, raw};
use std::collections::{BTreeMap, BTreeSet};
use std::fs;
use std::io::Write;
use std::process::{Command, Stdio};

/// Has the C compiler work on a text: what it gives, or what it complains of.
fn compiled(words: &[&str], text: &str) -> Result<String, String> {
    let compiler = std::env::var("CC").unwrap_or_else(|_| "cc".to_string());
    let mut run = Command::new(&compiler)
        .args(["-std=c11", "-Wall", "-Wextra", "-Werror", "-pedantic"])
        .args(words)
        .args(["-x", "c", "-"])
        .env("LC_ALL", "C")
        .stdin(Stdio::piped())
        .stdout(Stdio::piped())
        .stderr(Stdio::piped())
        .spawn()
        .expect("a C compiler, `cc` or what CC names, is there");
    let mut input = run.stdin.take().expect("a pipe");
    input.write_all(text.as_bytes()).expect("the compiler reads its input");
    drop(input);
    let ended = run.wait_with_output().expect("the compiler ends");
    let text = |octets: &[u8]| String::from_utf8_lossy(octets).into_owned();
    if ended.status.success() {
        Ok(text(&ended.stdout))
    } else {
        Err(text(&ended.stderr))
    }
}

/// Where a header differs from the binding: a claim that does not hold, or a name that only one of them has.
fn differences(header: &str) -> Vec<String> {
    let claimed = compiled(&["-fsyntax-only"], &format!("{header}\n{}", claims::claims()));
    let tokens = declared::tokens(header);
    let mut differences: Vec<String> = claimed.err().into_iter().collect();
    differences.extend(of_functions(&declared::functions(&tokens)));
    let (numbers, declared) = (claims::numbers().into_keys().collect(), declared::numbers(&tokens));
    let alone = |name: &String, in_which| format!("{name} stands in the {in_which} alone");
    differences.extend(declared.difference(&numbers).map(|name| alone(name, "header")));
    differences.extend(numbers.difference(&declared).map(|name| alone(name, "binding")));
    differences
}

/// The functions that only one of header and binding has, or that take words of other names.
fn of_functions(declared: &BTreeMap<String, Vec<String>>) -> Vec<String> {
    let words_of = |function: &c::Function| function.words.iter().map(|word| word.to_string()).collect();
    let own = raw::functions();
    let own = own.iter().map(|own| (own.name.to_string(), words_of(own)));
    let own: BTreeMap<String, Vec<String>> = own.collect();
    let names: BTreeSet<&String> = own.keys().chain(declared.keys()).collect();
    let differing = names.into_iter().filter(|name| own.get(*name) != declared.get(*name));
    let told = |name: &String| {
        let (here, there) = (own.get(name), declared.get(name));
        format!("{name} takes {here:?} in the binding and {there:?} in the header")
    };
    differing.map(told).collect()
}

/// The header. Cargo runs a test in the folder of its package.
fn header() -> String {
    fs::read_to_string("../include/pikurandal.h").expect("the header is there")
}

#[test]
fn header_and_binding_agree() {
    let differences = differences(&header());
    assert!(differences.is_empty(), "{}", differences.join("\n"));
}

/// Wrong headers, and what is told of each: behind the first text, the second is changed to the third.
#[rustfmt::skip]
const WRONG: [[&str; 4]; 14] = [
    ["pik_tick(", "uint64_t time", "uint32_t time", "conflicting types for 'pik_tick'"],
    ["pik_reminder(", "uint16_t number", "uint32_t number", "conflicting types for 'pik_reminder'"],
    ["PIK_FAR = 8,", "", " PIK_NEW = 9,", "PIK_NEW stands in the header alone"],
    ["PIK_FAR = ", "8", "9", "PIK_FAR is 8 in the binding"],
    ["", "PIK_CSA_OPCODE = 30", "PIK_CSA = 30", "PIK_CSA_OPCODE stands in the binding alone"],
    ["PIK_TIMER_CANCELLED = 2", "", ", PIK_TIMER_NEW = 3", "PIK_TIMER_NEW stands in the header alone"],
    ["PIK_WORDS = ", "2240", "2241", "PIK_WORDS is 2240 in the binding"],
    ["pik_tick(", "const uint64_t *keys", "uint64_t *keys", "conflicting types for 'pik_tick'"],
    ["pik_close(", "destination[6], const uint8_t source[6]", "source[6], const uint8_t destination[6]", "pik_close takes Some([\"keys\""],
    ["", "uint8_t pik_rate_of(uint8_t pe);", "uint8_t pik_rate_for(uint8_t pe);", "'pik_rate_of'"],
    ["", "uint8_t pik_rate_of(uint8_t pe);", "uint8_t pik_rate_of(uint8_t pe), pik_rate_for(uint8_t pe);", "pik_rate_for takes None in the binding"],
    ["struct pik_answer {", "uint8_t number;", "uint8_t number, more;", "'lost'"],
    ["struct pik_view {", "uint16_t current;", "int16_t current;", "a pointer to current of struct pik_view is uint16_t * in the binding"],
    ["#define PIK_VERSION_PATCH ", "0", "1", "PIK_VERSION_PATCH is 0 in the binding"],
];

#[test]
fn a_wrong_header_is_told() {
    let header = header();
    for [behind, old, new, told] in WRONG {
        let (before, after) = header.split_once(behind).expect(behind);
        let (between, after) = after.split_once(old).expect(old);
        let differences = differences(&[before, behind, between, new, after].concat()).join("\n");
        assert!(
            differences.contains(told),
            "'{new}' behind '{behind}' is not told by '{told}', but: {differences}"
        );
    }
}

#[test]
fn a_table_has_the_octets_that_docs_layout_md_says() {
    assert_eq!(8 * (lent::KEYS + lent::WORDS) + 4 * lent::HANDLES + lent::MARKS, 29_184);
}
