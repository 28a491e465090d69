//! Links of several objects.
use super::adds;
use super::damage;
use super::objects::{Plan, object};
use super::references;
use super::script::Script;

/// For the direct adds between merges.
pub(crate) const CONVERSION: &str = "conversion none 0 1 2 unloaded 3 9";

/// Names of the object at that place of the link. Each has strong names of its own, so that
/// duplicates are rare and references are met by a later or an earlier object.
pub(crate) fn plan(place: u64) -> Plan {
    let own = |place| ["a", "b"].map(|name| format!("{name}{place}"));
    let mut names: Vec<String> = ["a", "mute", "clear"].map(String::from).into();
    names.extend((0..4).flat_map(own));
    Plan {
        programs: (0, 3),
        uninitialized: (0, 2),
        others: (0, 1),
        relocations: (0, 2),
        groups: (0, 1),
        symbols: (0, 6),
        strong: own(place).into(),
        names,
    }
}

/// Mostly good objects, direct calls between them, and here and there a damaged one.
pub(crate) fn histories(script: &mut Script, count: u64) {
    script.say(CONVERSION);
    for _ in 0..count {
        script.link();
        let objects = script.random.between(1, 4);
        for place in 0..objects {
            let mut rows = object(&mut script.random, &plan(place));
            let mut damages = 0;
            if script.random.chance(30) {
                damages = script.random.between(1, 3);
            }
            for _ in 0..damages {
                damage::anywhere(&mut script.random, &mut rows);
            }
            if refused(script.merge(&rows)) {
                break;
            }
            if script.random.chance(10) {
                // The same object again: every group is met before, every strong name too.
                if refused(script.say("merge")) {
                    break;
                }
            }
            direct_calls(script);
            if script.random.gabi
                && script.random.chance(15)
                && references::weak_then_strong(script, &["a", "mute", "clear", "a3", "b3"])
            {
                break;
            }
        }
        end(script);
    }
}

/// Objects with a fault, each number in turn, after an object or two that are good.
pub(crate) fn refusals(script: &mut Script, count: u64) {
    script.say(CONVERSION);
    for at in 0..count {
        let mut number = damage::NUMBERS[(at % damage::NUMBERS.len() as u64) as usize];
        script.link();
        // The Rust has no 29.
        if script.random.commons && number == 5 && script.random.chance(50) {
            number = 29;
        }
        let earlier = script.random.between(0, 1);
        let mut broken = false;
        for place in 0..earlier {
            let rows = object(&mut script.random, &Plan { groups: (0, 2), ..plan(place) });
            broken = refused(script.merge(&rows));
            if broken {
                break;
            }
        }
        if !broken {
            let mut plan = plan(earlier);
            plan.symbols = (2, 6);
            match number {
                4..=8 | 29 => (plan.programs, plan.groups) = ((1, 3), (1, 2)),
                18 => plan.programs = (1, 3),
                19 => (plan.programs, plan.relocations) = ((1, 2), (1, 3)),
                17 | 21 => {
                    plan.strong = vec!["a".into(), "a0".into()];
                    plan.names = plan.strong.clone();
                }
                _ => {}
            }
            let mut rows = object(&mut script.random, &plan);
            damage::towards(&mut script.random, &mut rows, number);
            if script.random.chance(20) {
                damage::anywhere(&mut script.random, &mut rows);
            }
            match number {
                8 => {
                    // The first of its kind, unless an earlier object bore the signature.
                    if !refused(script.merge(&rows)) {
                        script.say("merge");
                    }
                }
                17 => {
                    script.say("add hidden a abs 1");
                    script.merge(&rows);
                }
                21 => {
                    script.say("add unknown a");
                    let last = script.symbol_count() - 1;
                    script.say(format!("remove {last}"));
                    script.merge(&rows);
                }
                _ => {
                    script.merge(&rows);
                }
            }
        }
        end(script);
    }
}

pub(crate) fn refused(answer: String) -> bool {
    answer.starts_with("refused")
}

/// A link ends with all its rows; lookups are allowed on a broken one too.
pub(crate) fn end(script: &mut Script) {
    script.say("dump");
    if script.random.chance(20) {
        let name = script.random.pick(&["a", "a0", "b1", "g1", "mute"]);
        script.say(format!("global {name}"));
        let section = script.random.below(4);
        script.say(format!("sectionsymbol {section}"));
    }
}

/// A few direct adds and removes.
pub(crate) fn direct_calls(script: &mut Script) {
    while script.random.chance(25) {
        let line = if script.random.chance(50) {
            let id = script.random.below(script.symbol_count());
            format!("remove {id}")
        } else {
            adds::add(script)
        };
        script.say(line);
    }
}
