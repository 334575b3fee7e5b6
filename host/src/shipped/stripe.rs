//! Note, write, restart and compaction of one stripe.

use super::numbers::{partition, put_u32};
use super::runs::{offset, sound_log, sound_map, Pen, Run};
use crate::model::refusal::{self, refuse, Refusal};
use crate::model::runs::{Age, ENTRIES, RUNS};
use crate::model::stripe::{Piece, LOG_BYTES, MAP_BYTES};
use crate::model::{EOF, HIGHEST, HIGHEST_PASS};
use std::collections::BinaryHeap;

pub fn note(map: &mut [u8], log: &mut [u8], piece: Piece<u64>, image_length: u64) -> u64 {
    try_note(map, log, piece, image_length).err().unwrap_or(0)
}

pub fn write(map: &[u8], image: &mut [u8], piece: Piece<&[u8]>) -> u64 {
    try_write(map, image, piece).err().unwrap_or(0)
}

pub fn restart(map: &mut [u8], log: &[u8]) -> u64 {
    try_restart(map, log).err().unwrap_or(0)
}

pub fn compact(old_log: &[u8], new_log: &mut [u8]) -> u64 {
    try_compact(old_log, new_log).err().unwrap_or(0)
}

fn try_note(
    map: &mut [u8],
    log: &mut [u8],
    piece: Piece<u64>,
    image_length: u64,
) -> Result<(), Refusal> {
    let runs = sound_map(map).ok_or(refusal::MAP)?;
    let entries = sound_log(log).ok_or(refusal::LOG)?;
    let piece = piece_run(piece, image_length)?;
    // Only the runs that the piece meets or touches change: those from `from` up to `to`.
    let from = partition(runs, |place| Run::at(map, place).end < piece.first);
    let to = partition(runs, |place| Run::at(map, place).first <= piece.end);
    let mut pen = Pen::new();
    raise(&mut pen, (from..to).map(|place| Run::at(map, place)), piece);
    let count = runs - (to - from) + pen.count;
    refuse(refusal::RUNS, count > RUNS)?;
    refuse(refusal::ENTRIES, entries == ENTRIES)?;

    let raised_to = from + pen.count;
    map.copy_within(offset(to)..offset(runs), offset(raised_to));
    map[offset(from)..offset(raised_to)].copy_from_slice(&pen.map[4..offset(pen.count)]);
    map[offset(count)..offset(runs.max(count))].fill(0);
    put_u32(map, 0, count as u32);
    piece.put(log, entries);
    put_u32(log, 0, entries as u32 + 1);
    Ok(())
}

/// Writes the runs and the piece as one: each byte of the piece gets the greater age.
fn raise(pen: &mut Pen, runs: impl Iterator<Item = Run>, piece: Run) {
    let mut at = piece.first;
    for run in runs {
        let (first, end) = (run.first.max(piece.first), run.end.min(piece.end));
        pen.put(run.first, run.end.min(piece.first), run.age);
        pen.put(at, run.first.min(piece.end), piece.age);
        pen.put(first, end, run.age.max(piece.age));
        pen.put(run.first.max(piece.end), run.end, run.age);
        at = at.max(end);
    }
    pen.put(at, piece.end, piece.age);
    pen.lift();
}

fn try_write(map: &[u8], image: &mut [u8], piece: Piece<&[u8]>) -> Result<(), Refusal> {
    let count = sound_map(map).ok_or(refusal::MAP)?;
    let whole = piece_run(piece.outline(), image.len() as u64)?;
    let first = whole.first;
    let from = partition(count, |place| Run::at(map, place).end <= first);
    let to = partition(count, |place| Run::at(map, place).first < whole.end);
    let runs = || (from..to).map(|place| Run::at(map, place));

    let mut at = first;
    for run in runs() {
        refuse(refusal::SMALLER, at < run.first || run.age < whole.age)?;
        at = run.end;
    }
    refuse(refusal::SMALLER, at < whole.end)?;
    for run in runs().filter(|run| run.age == whole.age) {
        let (from, to) = (run.first.max(first), run.end.min(whole.end));
        let stretch = &piece.bytes[(from - first) as usize..(to - first) as usize];
        image[from as usize..to as usize].copy_from_slice(stretch);
    }
    Ok(())
}

fn try_restart(map: &mut [u8], log: &[u8]) -> Result<(), Refusal> {
    refuse(refusal::MAP, map.len() != MAP_BYTES)?;
    map.copy_from_slice(&rebuilt(log)?.map);
    Ok(())
}

/// A map's bytes are the same array as those of a log with its runs for entries.
fn try_compact(old_log: &[u8], new_log: &mut [u8]) -> Result<(), Refusal> {
    refuse(refusal::LOG, new_log.len() != LOG_BYTES)?;
    let pen = rebuilt(old_log)?;
    let (runs, after) = new_log.split_at_mut(MAP_BYTES);
    runs.copy_from_slice(&pen.map);
    after.fill(0);
    Ok(())
}

/// The log's map in scratch.
fn rebuilt(log: &[u8]) -> Result<Pen, Refusal> {
    let count = sound_log(log).ok_or(refusal::LOG)?;
    let mut entries: Vec<Run> = (0..count).map(|place| Run::at(log, place)).collect();
    entries.sort_unstable_by_key(|entry| entry.first);
    let mut pen = Pen::new();
    sweep(&mut pen, &entries);
    refuse(refusal::RUNS, pen.count > RUNS)?;
    put_u32(&mut pen.map, 0, pen.count as u32);
    Ok(pen)
}

/// Goes from border to border. The entries begun so far stand in a heap, the greatest age first;
/// one that has ended is taken out when it comes to the top.
fn sweep(pen: &mut Pen, entries: &[Run]) {
    let mut begun = BinaryHeap::with_capacity(entries.len());
    let mut entries = entries.iter().peekable();
    let mut at = 0;
    loop {
        while let Some(entry) = entries.next_if(|entry| entry.first <= at) {
            begun.push((entry.age, entry.end));
        }
        match (begun.peek(), entries.peek()) {
            (Some(&(_, end)), _) if end <= at => {
                begun.pop();
            }
            (Some(&(age, end)), next) => {
                let border = next.map_or(end, |next| end.min(next.first));
                pen.put(at, border, age);
                at = border;
            }
            (None, Some(next)) => at = next.first,
            (None, None) => break,
        }
    }
    pen.lift();
}

/// The piece's stretch with its age.
fn piece_run(piece: Piece<u64>, image_length: u64) -> Result<Run, Refusal> {
    let Piece { first, bytes: length, age: Age { number, pass } } = piece;
    let end = first.checked_add(length).filter(|&end| end <= image_length.min(EOF + 1));
    let end = end.filter(|_| length > 0).ok_or(refusal::PIECE)?;
    refuse(refusal::NUMBER, number == 0 || number > HIGHEST || pass == 0 || pass > HIGHEST_PASS)?;
    Ok(Run { first, end, age: number << 32 | pass })
}
