//! Breaks sound tables, one requirement of soundness at a time, and mends them again.

use crate::rule::RULES;
use crate::scripts::addresses::{Pool, LEVELS};
use crate::scripts::calls;
use crate::scripts::damage::Damage;
use crate::scripts::writer::Writer;
use crate::scripts::wrong_counts::{wrong_level, wrong_spoken};
use crate::scripts::wrong_entries;
use crate::scripts::wrong_tiles;
use crate::session::length_of;
use crate::soundness::{requirements_of, Requirement};

/// Breaks a requirement, makes some calls, mends it, and makes some more.
pub fn break_a_requirement(writer: &mut Writer, pool: &Pool) {
    let requirement = some_requirement(writer);
    let damage = match writer.random.below(30) {
        0..=1 => Some(other_rule(writer)),
        2..=3 => wrong_entries::other_sheet(writer),
        _ => damage_to(writer, requirement),
    };
    let damage = match damage {
        None => return,
        Some(damage) => damage,
    };
    for line in &damage.breaking {
        writer.tell(line);
    }
    if requirement == Requirement::JournalCount {
        calls::read_here_and_there(writer, 4);
    }
    if !is_of_count(requirement) && !writer.random.one_in(4) {
        // Nothing else shall be wrong.
        writer.count_anew();
    }
    let refused_calls = writer.random.between(1, 4);
    calls::run(writer, pool, refused_calls);
    for line in damage.mending.iter().rev() {
        writer.tell(line);
    }
    writer.count_anew();
    calls::run(writer, pool, 2);
}

/// One of the levels beside the others, which would else be most of all requirements.
fn some_requirement(writer: &mut Writer) -> Requirement {
    let level = Requirement::LevelCount(writer.random.pick(&LEVELS));
    let is_other_level =
        |one: &Requirement| matches!(one, Requirement::LevelCount(_)) && *one != level;
    let asked = requirements_of(writer.console.session.rule);
    let asked: Vec<Requirement> = asked.filter(|one| !is_other_level(one)).collect();
    writer.random.pick(&asked)
}

fn is_of_count(requirement: Requirement) -> bool {
    matches!(
        requirement,
        Requirement::LevelCount(_) | Requirement::SpokenCount
    )
}

/// Tables that are sound by one rule may not be so by the other.
fn other_rule(writer: &mut Writer) -> Damage {
    let rule = writer.console.session.rule.number();
    let wrong = writer.random.pick(&RULES).number();
    Damage::one(format!("rule {}", wrong), format!("rule {}", rule))
}

/// None where the tables as they stand give no occasion, and for lengths, which are lent so.
fn damage_to(writer: &mut Writer, requirement: Requirement) -> Option<Damage> {
    let (session, tables) = (&writer.console.session, &writer.console.tables);
    match requirement {
        Requirement::TileLength | Requirement::OperationLength | Requirement::JournalLength => None,
        Requirement::TileCount | Requirement::OperationCount | Requirement::JournalCount => {
            Some(pass_length(writer, requirement))
        }
        Requirement::TileKey => wrong_tiles::wrong_key(writer),
        Requirement::TileOrder => wrong_tiles::wrong_order(writer),
        Requirement::TileRest => {
            let (used, length) = (session.tiles, tables.tiles.len());
            wrong_rest(writer, "tile", length_of(used), length)
        }
        Requirement::EntryRest => {
            let (used, length) = (session.operations, tables.operations.len());
            wrong_rest(writer, "entry", length_of(used), length)
        }
        Requirement::EntryKind => wrong_entries::wrong_kind(writer),
        Requirement::EntryJob => wrong_entries::wrong_job(writer),
        Requirement::EntryKey => wrong_entries::wrong_key(writer),
        Requirement::AddedIsPresent => wrong_entries::untrue_change(writer, 1),
        Requirement::RemovedIsAbsent => wrong_entries::untrue_change(writer, 3),
        Requirement::NothingLater => wrong_entries::later_entry(writer),
        Requirement::ChangesAlternate => wrong_entries::repeated_change(writer),
        Requirement::OneJobOnward => wrong_entries::other_job(writer),
        Requirement::TileRoom => wrong_entries::one_removed_too_many(writer),
        Requirement::JournalRoom => too_little_journal(writer),
        Requirement::LevelCount(zoom) => Some(wrong_level(writer, zoom)),
        Requirement::SpokenCount => Some(wrong_spoken(writer)),
    }
}

/// A count of used places past the length of their table.
fn pass_length(writer: &mut Writer, requirement: Requirement) -> Damage {
    let (session, tables) = (&writer.console.session, &writer.console.tables);
    let (word, used, length) = match requirement {
        Requirement::TileCount => ("tiles", session.tiles, tables.tiles.len()),
        Requirement::OperationCount => ("operations", session.operations, tables.operations.len()),
        _ => ("journal", session.journal, tables.journal.len()),
    };
    let far = writer.random.pick(&[65_537, 2_147_483_648, 4_294_967_295]);
    let wrong = writer
        .random
        .pick(&[length + 1, length + 1, length + 2, far]);
    Damage::one(format!("{} {}", word, wrong), format!("{} {}", word, used))
}

/// A number in one of the places that are not used.
fn wrong_rest(writer: &mut Writer, word: &str, used: usize, length: usize) -> Option<Damage> {
    if used >= length {
        return None;
    }
    let middle = used + (length - used) / 2;
    let place = writer.random.pick(&[used, middle, length - 1]);
    let wrong = writer.random.pick(&[1u64, 1_073_741_824, 4_026_531_839]);
    Some(Damage::one(
        format!("{} {} {}", word, place, wrong),
        format!("{} {} 0", word, place),
    ))
}

fn too_little_journal(writer: &mut Writer) -> Option<Damage> {
    let open = writer.open_jobs().len();
    let length = writer.console.tables.journal.len();
    let used = writer.console.session.journal;
    // The last count that is right is tried as well.
    let most = length.checked_sub(4 * open)?;
    let wrong = (most + writer.random.pick(&[0, 1, 1, 2, 4])).min(length);
    Some(Damage::one(
        format!("journal {}", wrong),
        format!("journal {}", used),
    ))
}
