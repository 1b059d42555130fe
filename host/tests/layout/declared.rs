//! What a header declares, read off its text.

use crate::compiled;
use std::collections::{BTreeMap, BTreeSet};

/// The words and signs of a header without comments and macros. What it includes is left out: that is C's.
pub fn tokens(header: &str) -> Vec<String> {
    let own = header
        .split_inclusive('\n')
        .filter(|line| !line.starts_with("#include"));
    let text = compiled(&["-E", "-P"], &own.collect::<String>()).expect("a header that the preprocessor takes");
    let mut tokens: Vec<String> = Vec::new();
    let mut in_word = false;
    for letter in text.chars() {
        let of_word = letter.is_ascii_alphanumeric() || letter == '_';
        match tokens.last_mut() {
            Some(word) if of_word && in_word => word.push(letter),
            _ if letter.is_whitespace() => {}
            _ => tokens.push(letter.to_string()),
        }
        in_word = of_word;
    }
    tokens
}

fn is_name(token: &str) -> bool {
    token.starts_with(|letter: char| letter.is_ascii_alphabetic() || letter == '_')
}

/// The functions that a header declares, each with the names of what it takes.
pub fn functions(tokens: &[String]) -> BTreeMap<String, Vec<String>> {
    let begins = |at: &usize| match &tokens[*at..] {
        [name, open, next, ..] => is_name(name) && name != "__attribute__" && open == "(" && next != "*",
        _ => false,
    };
    let declared = |at: usize| {
        let takes: Vec<&str> = tokens[at + 2..]
            .iter()
            .map(String::as_str)
            .take_while(|token| *token != ")")
            .collect();
        let last_name = |word: &[&str]| {
            word.iter()
                .rev()
                .find(|token| is_name(token))
                .map(|name| name.to_string())
        };
        let words = takes.split(|token| *token == ",").filter_map(last_name);
        (tokens[at].clone(), words.filter(|name| name != "void").collect())
    };
    (0..tokens.len()).filter(begins).map(declared).collect()
}

/// The enumerators that a header declares.
pub fn numbers(tokens: &[String]) -> BTreeSet<String> {
    let mut names = BTreeSet::new();
    let mut within = false;
    for (at, token) in tokens.iter().enumerate() {
        match token.as_str() {
            "enum" => within = tokens[at + 1] == "{" || tokens[at + 2] == "{",
            "}" => within = false,
            name if within && is_name(name) && ["{", ","].contains(&tokens[at - 1].as_str()) => {
                names.insert(name.to_string());
            }
            _ => {}
        }
    }
    names
}
