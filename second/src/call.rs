//! The six calls: fresh, report, list, step, run and replay.
//!
//! Each call is lent a whole upload. A refused call writes nothing.

use crate::answer::{Answer, Refusal};
use crate::state::State;
use crate::step::{self, Step};
use crate::upload::{self, Table};

pub fn fresh(upload: &[u8], image: &mut [u8]) -> Answer {
    settle(try_fresh(upload, image))
}

pub fn report(upload: &[u8], image: &[u8]) -> Answer {
    settle(try_report(upload, image))
}

pub fn list(upload: &[u8], image: &[u8], buffer: &mut [u8]) -> Answer {
    settle(try_list(upload, image, buffer))
}

pub fn single_step(upload: &[u8], image: &mut [u8], action: [u8; 3]) -> Answer {
    settle(try_single_step(upload, image, action))
}

pub fn run(upload: &[u8], image: &mut [u8]) -> Answer {
    settle(try_run(upload, image))
}

pub fn replay(upload: &[u8]) -> Answer {
    settle(try_replay(upload))
}

/// The error side holds only refusals that are not of an action.
fn settle(result: Result<Answer, Refusal>) -> Answer {
    result.unwrap_or_else(Answer::refused)
}

fn try_fresh(upload: &[u8], image: &mut [u8]) -> Result<Answer, Refusal> {
    let table = upload::read(upload)?.table;
    length_fits(&table, image)?;
    let state = State::fresh(&table);
    image.copy_from_slice(&state.image());
    Ok(Answer::accepted(0, step::report(&table, &state)))
}

fn try_report(upload: &[u8], image: &[u8]) -> Result<Answer, Refusal> {
    let table = upload::read(upload)?.table;
    let state = sound_state(&table, image)?;
    Ok(Answer::accepted(0, step::report(&table, &state)))
}

fn try_list(upload: &[u8], image: &[u8], buffer: &mut [u8]) -> Result<Answer, Refusal> {
    let table = upload::read(upload)?.table;
    let state = sound_state(&table, image)?;
    let steps = step::list(&table, &state);
    let text: Vec<u8> = steps.iter().flat_map(|&s| step::bytes(&table, s)).collect();
    write_start(buffer, &text)?;
    Ok(Answer::accepted(steps.len(), step::report(&table, &state)))
}

fn try_single_step(upload: &[u8], image: &mut [u8], action: [u8; 3]) -> Result<Answer, Refusal> {
    let table = upload::read(upload)?.table;
    let mut state = sound_state(&table, image)?;
    match judge(&table, &state, action) {
        Ok(wanted) => {
            step::take(&table, &mut state, wanted);
            image.copy_from_slice(&state.image());
            Ok(Answer::accepted(1, step::report(&table, &state)))
        }
        Err(number) => {
            let report = step::report(&table, &state);
            Ok(Answer::refused_action(Refusal::at(number, 0), 0, report))
        }
    }
}

fn try_run(upload: &[u8], image: &mut [u8]) -> Result<Answer, Refusal> {
    let table = upload::read(upload)?.table;
    length_fits(&table, image)?;
    let mut state = State::fresh(&table);
    let mut steps = 0;
    while let Some(&first) = step::list(&table, &state).first() {
        step::take(&table, &mut state, first);
        steps += 1;
    }
    image.copy_from_slice(&state.image());
    Ok(Answer::accepted(steps, step::report(&table, &state)))
}

fn try_replay(upload: &[u8]) -> Result<Answer, Refusal> {
    let upload = upload::read(upload)?;
    let table = &upload.table;
    let mut state = State::fresh(table);
    for (place, &action) in upload.actions.iter().enumerate() {
        match judge(table, &state, action) {
            Ok(wanted) => step::take(table, &mut state, wanted),
            Err(number) => {
                let report = step::report(table, &state);
                return Ok(Answer::refused_action(
                    Refusal::at(number, place),
                    place,
                    report,
                ));
            }
        }
    }
    Ok(Answer::accepted(
        upload.actions.len(),
        step::report(table, &state),
    ))
}

/// The step that an action names if it is possible; else 9, 10 or 11.
fn judge(table: &Table, state: &State, action: [u8; 3]) -> Result<Step, u32> {
    let wanted = step::read(table, action)?;
    if step::is_possible(table, state, wanted) {
        Ok(wanted)
    } else {
        Err(11)
    }
}

fn length_fits(table: &Table, image: &[u8]) -> Result<(), Refusal> {
    if image.len() == table.image_length() {
        Ok(())
    } else {
        Err(Refusal::plain(12))
    }
}

fn sound_state(table: &Table, image: &[u8]) -> Result<State, Refusal> {
    State::of_image(table, image).ok_or(Refusal::plain(12))
}

/// Writes `text` at the start of `buffer`, or refuses with 13 and writes nothing.
pub fn write_start(buffer: &mut [u8], text: &[u8]) -> Result<(), Refusal> {
    match buffer.get_mut(..text.len()) {
        Some(start) => {
            start.copy_from_slice(text);
            Ok(())
        }
        None => Err(Refusal::plain(13)),
    }
}
