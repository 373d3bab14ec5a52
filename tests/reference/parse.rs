//! For the tests: the tree of a text in 01's forms.

use crate::build::*;
use crate::expr::Tree;

pub fn parse(text: &str) -> Tree {
    let spaced = text.replace('(', "( ").replace(')', " )");
    let words: Vec<&str> = spaced.split(' ').collect();
    let mut rest = &words[..];
    let tree = expression(&mut rest);
    assert!(rest.is_empty(), "left over: {:?}", rest);
    tree
}

fn next<'a>(rest: &mut &[&'a str]) -> &'a str {
    let word = rest[0];
    *rest = &rest[1..];
    word
}

fn expect(rest: &mut &[&str], word: &str) {
    assert_eq!(next(rest), word);
}

fn expression(rest: &mut &[&str]) -> Tree {
    match next(rest) {
        "(" => {
            let tree = in_brackets(rest);
            expect(rest, ")");
            tree
        }
        "skip" => skip(),
        "true" => boolean(true),
        "false" => boolean(false),
        word if word.starts_with('!') => deref(location(&word[1..])),
        word => int(word.parse().unwrap()),
    }
}

fn location(word: &str) -> u8 {
    word[1..].parse().unwrap()
}

fn in_brackets(rest: &mut &[&str]) -> Tree {
    match rest[0] {
        "if" => {
            let e1 = after(rest, "if");
            let e2 = after(rest, "then");
            let e3 = after(rest, "else");
            iff(e1, e2, e3)
        }
        "while" => {
            let e1 = after(rest, "while");
            let e2 = after(rest, "do");
            expect(rest, "done");
            whilst(e1, e2)
        }
        word if word.starts_with('l') => {
            let l = location(next(rest));
            assign(l, after(rest, ":="))
        }
        _ => operation(rest),
    }
}

fn after(rest: &mut &[&str], word: &str) -> Tree {
    expect(rest, word);
    expression(rest)
}

fn operation(rest: &mut &[&str]) -> Tree {
    let e1 = expression(rest);
    let operator = next(rest);
    let e2 = expression(rest);
    match operator {
        "+" => plus(e1, e2),
        ">=" => geq(e1, e2),
        ";" => seq(e1, e2),
        _ => panic!("no operator: {}", operator),
    }
}
