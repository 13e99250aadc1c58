//! The calls on a lent state's numbers: the state itself, the kept count and 24 places for kept
//! states. The memory may hold anything. The state with m months done is kept in place m mod 24, so
//! that nothing is moved and the 25th comes where the oldest stood.

use crate::calls::{
    entries_of, numbers_of, soil_of, state_of, EntryNumbers, SoilNumbers, StateNumbers, KEPT,
    MONTHS, OWN_NUMBERS, PLACES,
};
use crate::model::{
    check_call, list_watched, report, run_month, spin_up_watched, Asked, Cause, Field, Refusal,
    Report, Row, Spun, State, Survival, Watch, KEPT_LIMIT,
};
use std::ops::Range;

/// Where the state with so many months done is kept.
pub fn place(months: u64) -> Range<usize> {
    let from = PLACES + (months % KEPT_LIMIT as u64) as usize * OWN_NUMBERS;
    from..from + OWN_NUMBERS
}

/// Where the state is kept that came so many months (1 to 24) before the one with these done.
fn place_before(months: u64, back: u64) -> Range<usize> {
    // Months may be 0 or at the end of the type: neither the difference nor the sum may wrap.
    let limit = KEPT_LIMIT as u64;
    place(months % limit + limit - back)
}

fn keep(memory: &mut StateNumbers, before: &State) {
    memory[place(before.months)].copy_from_slice(&numbers_of(before));
    memory[KEPT] = (memory[KEPT] + 1).min(KEPT_LIMIT as u64);
}

fn put(memory: &mut StateNumbers, state: &State) {
    memory[..OWN_NUMBERS].copy_from_slice(&numbers_of(state));
}

/// The field that the memory holds, for a kept count of at most 24.
pub fn field_of(memory: &StateNumbers) -> Field {
    let kept = (1..=memory[KEPT]).rev().map(|back| {
        let own = &memory[place_before(memory[MONTHS], back)];
        state_of(own)
    });
    Field {
        state: state_of(memory),
        kept: kept.collect(),
    }
}

/// Writes a soil's new state, none kept. The places stay as they were.
pub fn start(memory: &mut StateNumbers, soil: &SoilNumbers) -> Result<(), Refusal> {
    let soil = soil_of(soil);
    soil.check().map_err(|cause| Refusal { cause, place: 0 })?;
    put(memory, &State::new(soil));
    memory[KEPT] = 0;
    Ok(())
}

pub fn month(
    memory: &mut StateNumbers,
    number: u64,
    entries: &EntryNumbers,
    survival: &mut dyn Survival,
    watch: Watch,
) -> Result<Row, Refusal> {
    let (before, entries) = (state_of(memory), entries_of(entries));
    check_call(&before, memory[KEPT], number as i128, &entries)
        .map_err(|cause| Refusal { cause, place: 0 })?;
    watch(&before, &entries);
    let (next, row) = run_month(&before, &entries, survival);
    keep(memory, &before);
    put(memory, &next);
    Ok(row)
}

pub fn list(
    memory: &mut StateNumbers,
    weather: &[i64],
    land: &[i64],
    rows: &mut [u64],
    survival: &mut dyn Survival,
    watch: Watch,
) -> Result<(), Refusal> {
    let (before, kept) = (state_of(memory), memory[KEPT]);
    let keeping: Watch = &mut |before, entries| {
        watch(before, entries);
        keep(memory, before);
    };
    let (next, answer) = list_watched(&before, kept, weather, land, rows, survival, keeping);
    put(memory, &next);
    answer
}

pub fn spin_up(
    memory: &mut StateNumbers,
    weather: &[i64],
    land: &[i64],
    years: u64,
    survival: &mut dyn Survival,
    watch: Watch,
) -> Result<Spun, Refusal> {
    let (before, kept, years) = (state_of(memory), memory[KEPT], years as i128);
    let (next, answer) = spin_up_watched(&before, kept, weather, land, years, survival, watch);
    if answer.is_ok() {
        put(memory, &next);
        memory[KEPT] = 0;
    }
    answer
}

/// Takes the latest month back: whatever stands in the place before the months done is restored.
pub fn take_back(memory: &mut StateNumbers) -> Result<(), Refusal> {
    let refused = |cause| Err(Refusal { cause, place: 0 });
    match memory[KEPT] {
        0 => return refused(Cause::NoneKept),
        kept if kept > KEPT_LIMIT as u64 => return refused(Cause::State),
        _ => (),
    }
    let latest = place_before(memory[MONTHS], 1);
    memory.copy_within(latest, 0);
    memory[KEPT] -= 1;
    Ok(())
}

/// The radiocarbon report of a lent state, which stays.
pub fn radiocarbon(
    memory: &StateNumbers,
    asked: Asked,
    survival: &mut dyn Survival,
) -> Result<Report, Refusal> {
    report(&state_of(memory), memory[KEPT], asked, survival)
        .map_err(|cause| Refusal { cause, place: 0 })
}
