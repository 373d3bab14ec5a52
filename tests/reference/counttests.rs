//! Run by `rustc --test`: what request 2 says of the count, and the deep rows that it lets through.

use crate::answers::answers;
use crate::deep::{deep_rows, overflows, values};
use crate::expr::{children, count, is_value, size, text, Expr, Form};
use crate::generate::a_row;
use crate::nests::*;
use crate::parse::parse;
use crate::random::Random;
use crate::reading::{store, write};
use crate::refusal::Refusal::{At, Plain};
use crate::routine::{read, store_routine};
use crate::rows::{record, Row};
use crate::run::{run_tree, End};
use crate::typing::{accept, check};
use crate::with_room;

fn some_rows(kind: &str, count: usize) -> Vec<Row> {
    let mut random = Random::new(13);
    (0..count).map(|_| a_row(kind, &mut random)).collect()
}

/// Depth by 01: of a node without children 1, of any other 1 more than its deepest child.
fn depth(e: &Expr) -> usize {
    1 + children(e).into_iter().map(|c| depth(c)).max().unwrap_or(0)
}

/// The forms that enclose the place of the next step.
fn enclosing(e: &Expr) -> usize {
    let work = match &e.form {
        Form::Plus(e1, e2) | Form::Geq(e1, e2) => [e1, e2].into_iter().find(|part| !is_value(part)),
        Form::If(e1, _, _) | Form::Assign(_, e1) | Form::Seq(e1, _) => Some(e1).filter(|part| !is_value(part)),
        _ => None,
    };
    work.map_or(0, |part| 1 + enclosing(part))
}

#[test]
fn counts_by_hand() {
    let counts = [
        ("7", 0),
        ("true", 0),
        ("skip", 0),
        ("!l0", 0),
        ("(1 + !l0)", 1),
        ("(1 >= 2)", 1),
        ("((1 + 2) + 3)", 2),
        ("(1 >= (2 + 3))", 2),
        ("(l0 := 1)", 1),
        ("(l0 := (!l0 + 25))", 2),
        ("(if true then 1 else 2)", 1),
        ("(if (1 >= 2) then 1 else 2)", 2),
        ("(if true then (1 + 2) else 2)", 1),
        ("(if true then 1 else (1 + (2 + 3)))", 2),
        ("(if true then (if true then (if true then 1 else 2) else 3) else 4)", 1),
        ("(skip ; skip)", 1),
        ("(skip ; (1 + 2))", 1),
        ("((l0 := 1) ; skip)", 2),
        ("((l0 := 1) ; ((l0 := 2) ; (l0 := 3)))", 2),
        ("(((l0 := 1) ; (l0 := 2)) ; (l0 := 3))", 3),
        ("(while true do skip done)", 1),
        ("(while (1 >= 2) do skip done)", 2),
        ("(while true do (l0 := 1) done)", 2),
        ("(while true do (skip ; (skip ; skip)) done)", 2),
        ("(while (!l0 >= 1) do (l0 := (!l0 + -1)) done)", 3),
    ];
    counts.iter().for_each(|(routine, expected)| assert_eq!(count(&parse(routine)), *expected, "{routine}"));
}

#[test]
fn nests_have_their_counts() {
    with_room(|| {
        for wanted in [3, 4, 5, 100, 254, 255, 256, 257, 258, 700] {
            by_each_form(wanted).iter().for_each(|(name, tree)| assert_eq!(count(tree), wanted, "{name}"));
        }
        for (name, tree, at) in by_each_place() {
            assert_eq!(count(&tree) == 256, at.is_some(), "{name}");
            assert!(count(&tree) == 256 || count(&tree) == 257, "{name}");
        }
        assert_eq!([1, 300, 1300, 1365].map(|n| count(&list(n))), [1, 2, 2, 2]);
        assert_eq!([300, 1300, 1365].map(|n| (size(&list(n)), depth(&list(n)))), [(899, 301), (3899, 1301), (4094, 1366)]);
        assert_eq!((size(&deepest()), depth(&deepest()), count(&deepest())), (4095, 2176, 256));
        assert_eq!(check(&store_routine(1, &deepest())), Err(At(21, 1921)));
    })
}

/// The reader and the check agree on 9, and each count of 256 passes, by each form and place.
#[test]
fn both_sides_of_9() {
    with_room(|| {
        let nine = |tree: &Expr| {
            let by_bytes = read(&store_routine(1, tree)).err();
            assert_eq!(store(text(tree).as_bytes(), 1, 65_536).err(), by_bytes);
            assert_eq!(write(&store_routine(1, tree), 65_536).err(), by_bytes);
            by_bytes
        };
        for (name, tree) in by_each_form(256) {
            assert_eq!(nine(&tree), None, "{name}");
        }
        for (name, tree) in by_each_form(257) {
            assert_eq!(nine(&tree), Some(Plain(9)), "{name}");
        }
        for (name, tree, at) in by_each_place() {
            assert_eq!(nine(&tree).is_none(), at.is_some(), "{name}");
        }
    })
}

/// The lines worked out by hand, with fuel enough and with just enough; with a step less it ends by fuel.
#[test]
fn deep_rows_have_their_lines() {
    with_room(|| {
        for deep in deep_rows() {
            let line = |fuel: u32| {
                let mut out = Vec::new();
                answers(&record(b'r', &deep.row(fuel)), &mut out).unwrap();
                String::from_utf8(out).unwrap()
            };
            for fuel in [deep.steps, deep.steps + 1, u32::MAX] {
                assert_eq!(line(fuel), format!("{}\n", deep.line), "{}, fuel {fuel}", deep.name);
            }
            if deep.steps > 0 {
                assert!(line(deep.steps - 1).starts_with(&format!("fuel steps {} ", deep.steps - 1)), "{}", deep.name);
            }
        }
    })
}

/// In the runs of count 256 there is a moment whose next step stands inside 256 forms.
#[test]
fn deepest_places_are_reached() {
    with_room(|| {
        for deep in values().into_iter().chain(overflows()) {
            let (routine, _) = accept(&deep.row(0).bytes).unwrap();
            let mut most = enclosing(&routine.tree);
            run_tree(&routine.tree, &mut deep.store.clone(), u32::MAX, |_, _, e, _| most = most.max(enclosing(e)));
            assert_eq!(most, 256, "{}", deep.name);
        }
    })
}

/// The forms around the next step are never more than the count, the count never grows by a step, and it is less than the depth.
#[test]
fn counts_of_runs() {
    with_room(|| {
        for kind in ["good", "chains", "limits"] {
            for row in some_rows(kind, if kind == "chains" { 100 } else { 600 }) {
                let Ok((routine, _)) = accept(&row.bytes) else { continue };
                let mut now = count(&routine.tree);
                assert!(now < depth(&routine.tree) && enclosing(&routine.tree) <= now);
                let mut store = row.store.clone();
                if store.len() < routine.m {
                    continue;
                }
                run_tree(&routine.tree, &mut store, row.fuel.min(300), |_, _, e, _| {
                    let next = count(e);
                    assert!(next <= now && enclosing(e) <= next);
                    now = next;
                });
            }
        }
    })
}

/// The kinds have deep rows of every sort: accepted ones of count 256 and of few, over 1,000 deep, of 4,096 nodes, some of which run to a value; and such as 9 refuses.
#[test]
fn kinds_have_deep_rows() {
    with_room(|| {
        for (kind, rows) in [("good", 4000), ("illtyped", 6000), ("limits", 3000), ("written", 4000), ("chains", 400)] {
            let rows = some_rows(kind, rows);
            let trees: Vec<_> = rows.iter().filter_map(|row| read(&row.bytes).ok()).map(|routine| routine.tree).collect();
            assert!(trees.iter().any(|e| count(e) == 256), "{kind}");
            assert!(trees.iter().any(|e| count(e) < 10 && depth(e) > 1000), "{kind}");
            assert!(trees.iter().any(|e| size(e) == 4096 && depth(e) > 256), "{kind}");
            let refused = rows.iter().any(|row| read(&row.bytes).err() == Some(Plain(9)));
            assert_eq!(refused, kind != "good" && kind != "illtyped", "{kind}");
        }
        let ended = some_rows("chains", 200).into_iter().filter(|row| {
            let Ok((routine, _)) = accept(&row.bytes) else { return false };
            let run = run_tree(&routine.tree, &mut row.store.clone(), 6000, |_, _, _, _| {});
            matches!(run.end, End::Value(_)) && run.steps > 500
        });
        assert!(ended.count() > 10);
        for kind in ["texts", "edges"] {
            let deep = |row: &Row| store(&row.bytes, row.store.len(), 65_536).map_or(false, |bytes| depth(&read(&bytes).unwrap().tree) > 1000);
            assert!(some_rows(kind, 2000).iter().any(deep), "{kind}");
        }
    })
}
