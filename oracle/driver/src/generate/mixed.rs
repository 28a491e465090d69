//! Links of every call in any order.
use super::adds;
use super::archives;
use super::collections;
use super::damage;
use super::front;
use super::libraries;
use super::merges::{self, refused};
use super::objects::object;
use super::references;
use super::script::Script;

pub(crate) fn links(script: &mut Script, count: u64) {
    script.say(merges::CONVERSION);
    for _ in 0..count {
        script.link();
        let steps = script.random.between(2, 8);
        for place in 0..steps {
            if step(script, place % 4) {
                if script.random.chance(50) {
                    changes_when_broken(script);
                }
                break;
            }
            if script.random.chance(10) {
                script.say("dump");
            }
        }
        merges::end(script);
    }
}

/// Answers whether the step broke the link.
fn step(script: &mut Script, place: u64) -> bool {
    if script.random.gabi && script.random.chance(10) {
        return references::weak_then_strong(script, &["a", "b", "c", "mute", "clear"]);
    }
    match script.random.below(12) {
        0..4 => merge(script, place),
        4..6 => {
            let mut rows = libraries::library(&mut script.random);
            if script.random.chance(10) {
                libraries::damage(&mut script.random, &mut rows);
            }
            let answer = script.load(&rows);
            refused(answer.clone()) && answer != "refused 25 0"
        }
        6..8 => walk(script),
        8 => {
            collections::collect(script);
            false
        }
        9 => {
            lookups(script);
            false
        }
        _ => {
            merges::direct_calls(script);
            false
        }
    }
}

fn merge(script: &mut Script, place: u64) -> bool {
    let mut rows = if script.random.chance(25) {
        collections::graph(&mut script.random, place)
    } else {
        object(&mut script.random, &merges::plan(place))
    };
    if script.random.chance(20) {
        front::rows(&mut script.random, &mut rows);
    }
    if script.random.chance(10) {
        damage::anywhere(&mut script.random, &mut rows);
    }
    refused(script.merge(&rows))
}

fn walk(script: &mut Script) -> bool {
    archives::references(script);
    let mut made = archives::archive(&mut script.random);
    for rows in made.members() {
        if script.random.chance(20) {
            front::rows(&mut script.random, rows);
        }
    }
    archives::describe(script, &made);
    !refused(script.say("start")) && archives::walk_in_steps(script, &[made])
}

/// Each is refused with 22; the rows at the link's end show that it changed nothing.
fn changes_when_broken(script: &mut Script) {
    for _ in 0..script.random.between(1, 3) {
        match script.random.below(7) {
            0 => drop(script.say("merge")),
            1 => {
                let rows = object(&mut script.random, &merges::plan(0));
                script.merge(&rows);
            }
            2 => {
                let rows = libraries::library(&mut script.random);
                script.load(&rows);
            }
            3 => collections::collect(script),
            4 => {
                let id = script.random.below(script.symbol_count() + 1);
                script.say(format!("remove {id}"));
            }
            _ => {
                let line = adds::add(script);
                script.say(line);
            }
        }
    }
}

fn lookups(script: &mut Script) {
    let id = script.random.below(script.symbol_count() + 1);
    script.say(format!("get {id}"));
    let name = script.random.pick(&["a", "b", "a0", "b1", "mute", "-"]);
    script.say(format!("global {name}"));
    let section = script.random.below(script.section_count() + 2);
    script.say(format!("sectionsymbol {section}"));
}
