//! What the binding claims of the header, in C.

use pikurandal::{c, lent, raw, Refusal, Timer};
use std::collections::BTreeMap;

fn claim(what: &str, value: usize) -> String {
    format!("_Static_assert({what} == {value}, \"{what} is {value} in the binding\");\n")
}

/// The claims on a struct: its size, each field's offset and type, and that there is no other field, since the compiler
/// wants a value for each.
fn struct_claims(of: &c::Struct) -> String {
    let c::Struct { name, size, zeros, .. } = of;
    let mut claims = claim(&format!("sizeof({name})"), *size);
    for field in &of.fields {
        let c::Field {
            name: field,
            offset,
            pointer,
        } = field;
        claims += &claim(&format!("offsetof({name}, {field})"), *offset);
        claims += &format!(
            "_Static_assert(_Generic(&(({name} *)0)->{field}, {pointer}: 1, default: 0), \
             \"a pointer to {field} of {name} is {pointer} in the binding\");\n"
        );
    }
    claims + &format!("const {name} all_of_{} = {zeros};\n", name.replace(' ', "_"))
}

/// The claims on a function: the header has it, and declares it as the binding does, since the compiler takes no
/// declaration that differs from the first.
fn function_claims(of: &c::Function) -> String {
    let c::Function { name, prototype, .. } = of;
    format!("_Static_assert(sizeof(&{name}) > 0, \"the header has {name}\");\n{prototype}\n")
}

/// The binding's constants that the header has as enumerators.
pub fn numbers() -> BTreeMap<String, usize> {
    let lengths = [
        ("PIK_PLACES", lent::PLACES),
        ("PIK_KEYS", lent::KEYS),
        ("PIK_WORDS", lent::WORDS),
        ("PIK_HANDLES", lent::HANDLES),
        ("PIK_MARKS", lent::MARKS),
        ("PIK_BUFFER", lent::BUFFER),
        ("PIK_ACCEPTED", raw::ACCEPTED.into()),
    ];
    let lengths = lengths.iter().map(|(name, length)| (name.to_string(), *length));
    let refusals = Refusal::ALL
        .iter()
        .map(|refusal| (c_name("PIK", refusal), refusal.number().into()));
    let timers = Timer::ALL
        .iter()
        .map(|order| (c_name("PIK_TIMER", order), order.number().into()));
    lengths.chain(refusals).chain(timers).collect()
}

/// The header's name of a case: the refusal `NoNumber` is `PIK_NO_NUMBER`, `Band1` is `PIK_BAND_1`.
fn c_name(prefix: &str, case: &impl std::fmt::Debug) -> String {
    let mut name = prefix.to_string();
    for letter in format!("{case:?}").chars() {
        if letter.is_uppercase() || letter.is_ascii_digit() {
            name.push('_');
        }
        name.push(letter.to_ascii_uppercase());
    }
    name
}

/// The header's version is the binding's, and as one number it is what the archive says of itself.
fn version_claims() -> String {
    let names = ["PIK_VERSION_MAJOR", "PIK_VERSION_MINOR", "PIK_VERSION_PATCH"];
    let parts = pikurandal::VERSION
        .split('.')
        .map(|part| part.parse().expect("a number"));
    let claims: String = names.iter().zip(parts).map(|(name, part)| claim(name, part)).collect();
    // SAFETY: it takes nothing.
    let archive = unsafe { raw::pik_version_1() };
    claims + &claim("PIK_VERSION_NUMBER", archive as usize)
}

/// All that the binding claims of the header.
pub fn claims() -> String {
    let structs: String = raw::structs().iter().map(struct_claims).collect();
    let functions: String = raw::functions().iter().map(function_claims).collect();
    let numbers: String = numbers().iter().map(|(name, value)| claim(name, *value)).collect();
    [structs, functions, numbers, version_claims()].concat()
}
