//! Test lines over numbers: calls in groups, each with the answer that the specification asks.
//! Made the same way each time. A comment on each group says what it shows. Every answer is
//! fixed: no allowed S changes it. Every refusal is stated here by hand and held against the
//! reference.

use crate::calls::{
    entries_of, lent_state, rate, soil_of, state_of, Act, Call, EntryNumbers, LandRow, OwnNumbers,
    SoilNumbers, StateNumbers, WeatherRow, ACTIVITY, ALL, CLAY, CO2, COVER, DEFICIT, DEPTH,
    EVAPORATION, FILL, INERT, KEPT, KIND, LARGEST_N as MOST, MANURE, MODERN, MONTHS, MOST_ACTS,
    NO_SURVIVAL, OWN_NUMBERS, PLACES, PLANT, POOLS, RAIN, REPORT_NUMBERS, SOIL_NUMBERS, SOURCE,
    STATE_NUMBERS, TEMPERATURE, WRONG_SHAPE,
};
use crate::exponential::{
    age_nearest, age_range, exponent_parts, least_n, least_remainder, series_remainder,
    survival_nearest, survival_range, temperature_factor, terms, BILLION, MOST_TERMS, OLDEST,
    STEP_PARTS,
};
use crate::fixed::keeps_fixed;
use crate::light::{hoosfield, Known};
use crate::measured;
use crate::model::{
    added, brought, decayed, factors, kept, month_left, pools_settle, split_manure, split_plant,
    total_settles, year_settles, Nearest, Soil, Survival, LAND_NUMBERS, OUTPUT_NUMBERS, RATES,
    WEATHER_NUMBERS,
};
use crate::table;
use crate::vectors::Draw;

/// A call with the numbers of its answer.
#[derive(Clone, Debug)]
pub struct Line {
    pub call: Call,
    pub answer: Vec<u64>,
}

/// Lines that show one thing.
#[derive(Clone, Debug)]
pub struct Group {
    pub shows: &'static str,
    pub lines: Vec<Line>,
}

struct Sheet {
    groups: Vec<Group>,
}

impl Sheet {
    fn group(&mut self, shows: &'static str) {
        self.groups.push(Group {
            shows,
            lines: Vec::new(),
        });
    }

    fn put(&mut self, call: Call, answer: Vec<u64>) {
        assert!(call.is_said(), "{}", call.line());
        let group = self.groups.last_mut().expect("a group");
        group.lines.push(Line { call, answer });
    }

    /// A call that nothing refuses.
    fn runs(&mut self, call: Call) {
        let (answer, fixed) = call.fixed_answer();
        assert!(answer[0] == 0, "refused {}: {}", answer[0], call.line());
        assert!(fixed, "not fixed: {}", call.line());
        self.put(call, answer);
    }

    /// The same if it is fixed; says whether it was.
    fn runs_if_fixed(&mut self, call: Call) -> bool {
        let (answer, fixed) = call.fixed_answer();
        let good = fixed && answer[0] == 0;
        if good {
            self.put(call, answer);
        }
        good
    }

    /// A call that is refused with this number.
    fn refused(&mut self, number: u64, call: Call) {
        let (answer, fixed) = call.fixed_answer();
        assert!(
            answer[0] == number,
            "{number} wanted, {} given: {}",
            answer[0],
            call.line()
        );
        assert!(fixed, "not fixed: {}", call.line());
        self.put(call, answer);
    }

    /// A list, spin-up or table that is refused with this number at this place.
    fn refused_at(&mut self, number: u64, place: u64, call: Call) {
        self.refused(number, call.clone());
        let given = match call {
            Call::List { .. } => self.answer()[1],
            // A refused table has no rows and leaves its output.
            Call::Table { .. } => {
                let (head, output) = self.answer().split_at(3);
                assert!(head[1] == 0 && output.iter().all(|number| *number == FILL));
                head[2]
            }
            _ => self.answer()[2],
        };
        assert_eq!(given, place, "{}", call.line());
    }

    fn last(&self) -> &Line {
        let group = self.groups.last().expect("a group");
        group.lines.last().expect("a line")
    }

    /// The answer to the last line.
    fn answer(&self) -> &[u64] {
        &self.last().answer
    }

    /// Calls that run and have the same answer.
    fn alike(&mut self, calls: &[Call]) {
        for call in calls {
            self.runs(call.clone());
            assert_eq!(self.answer(), calls[0].fixed_answer().0);
        }
    }

    /// A call whose number is stated: 0 for one that runs.
    fn either(&mut self, number: u64, call: Call) {
        if number == 0 {
            self.runs(call);
        } else {
            self.refused(number, call);
        }
    }
}

/// All groups, in order.
pub fn groups() -> Vec<Group> {
    let mut sheet = Sheet { groups: Vec::new() };
    new_bounds(&mut sheet);
    new_sums(&mut sheet);
    new_order(&mut sheet);
    new_drawn(&mut sheet);
    month_known(&mut sheet);
    month_soil(&mut sheet);
    month_state(&mut sheet);
    month_turn(&mut sheet);
    month_entries(&mut sheet);
    month_ceiling(&mut sheet);
    month_pairs(&mut sheet);
    month_unreached(&mut sheet);
    month_water(&mut sheet);
    month_shares(&mut sheet);
    month_factors(&mut sheet);
    month_sources(&mut sheet);
    month_evapotranspiration(&mut sheet);
    month_kept(&mut sheet);
    month_activity(&mut sheet);
    month_modern_limit(&mut sheet);
    month_modern_loss(&mut sheet);
    month_modern_additions(&mut sheet);
    month_modern_drawn(&mut sheet);
    list_rows(&mut sheet);
    list_output(&mut sheet);
    list_outside(&mut sheet);
    list_months(&mut sheet);
    list_weather(&mut sheet);
    list_drawn(&mut sheet);
    list_sources(&mut sheet);
    list_kept(&mut sheet);
    list_activity(&mut sheet);
    list_modern_limit(&mut sheet);
    spin_outside(&mut sheet);
    spin_years(&mut sheet);
    spin_pools(&mut sheet);
    spin_totals(&mut sheet);
    spin_against(&mut sheet);
    spin_pools_later(&mut sheet);
    spin_total_later(&mut sheet);
    spin_first_year(&mut sheet);
    spin_beside_pools(&mut sheet);
    spin_light(&mut sheet);
    spin_places(&mut sheet);
    spin_drawn(&mut sheet);
    spin_sources(&mut sheet);
    spin_kept(&mut sheet);
    spin_modern(&mut sheet);
    back_places(&mut sheet);
    back_refused(&mut sheet);
    back_unchecked(&mut sheet);
    history_late_slip(&mut sheet);
    history_limit(&mut sheet);
    history_none_kept(&mut sheet);
    history_refused_months(&mut sheet);
    history_lists(&mut sheet);
    history_spin_ups(&mut sheet);
    history_modern(&mut sheet);
    history_drawn(&mut sheet);
    report_pools(&mut sheet);
    report_refused(&mut sheet);
    report_deltas(&mut sheet);
    report_ages(&mut sheet);
    report_inert(&mut sheet);
    report_all(&mut sheet);
    report_drawn(&mut sheet);
    table_forms(&mut sheet);
    table_numbers(&mut sheet);
    table_months(&mut sheet);
    table_ends(&mut sheet);
    table_rooms(&mut sheet);
    table_order(&mut sheet);
    table_long(&mut sheet);
    table_drawn(&mut sheet);
    survival_numbers(&mut sheet);
    survival_ends(&mut sheet);
    terms_drawn(&mut sheet);
    terms_ends(&mut sheet);
    terms_changes(&mut sheet);
    terms_multiples(&mut sheet);
    terms_refused(&mut sheet);
    terms_too_far(&mut sheet);
    age_numbers(&mut sheet);
    age_ends(&mut sheet);
    sheet.groups
}

/// Ends of the types, and numbers that look small when cut to 32 or 16 bits.
const ENDS: [u64; 8] = [
    u64::MAX,
    u64::MAX - 1,
    1 << 63,
    (1 << 63) - 1,
    1 << 32,
    (1 << 32) + 1,
    (1 << 48) + 2,
    1 << 62,
];
const SIGNED_ENDS: [i64; 9] = [
    i64::MIN,
    i64::MIN + 1,
    i64::MAX,
    i64::MAX - 1,
    1 << 32,
    (1 << 32) + 1,
    -(1 << 32),
    1 << 62,
    -(1 << 62),
];

/// A soil that nothing refuses, with small pools.
const SOIL: SoilNumbers = [234, 23, 1, 1_533, 44_852, 6_671, 258_576, 27_000];
/// A state that nothing refuses: ten months done, none kept.
const STATE: StateNumbers = lent_state(
    [
        234, 23, 1, 1_533, 44_852, 6_671, 258_576, 27_000, 5_000_000, 10, 12_345, 1_597, 44_816,
        6_590, 253_070,
    ],
    0,
);
/// Frost: nothing decays, so any pools are fixed.
const FROST: EntryNumbers = [-60, 500, 300, 0, 0, 61, 99, 1_000];
const MILD: EntryNumbers = [93, 520, 830, 0, 1, 610, 990, 1_100];

const CEILING: u64 = 1_000_000_000;
const A_MONTH: u64 = 200_000_000;
/// Modern grams that 10 allows for each month done.
const MODERN_A_MONTH: u64 = 400_000_000;
/// An activity below and above what 21 allows, and the ends of i64.
const BAD_ACTIVITIES: [i64; 4] = [-1, 2_001, i64::MIN, i64::MAX];

fn changed<const N: usize, T: Copy>(mut numbers: [T; N], changes: &[(usize, T)]) -> [T; N] {
    for (place, number) in changes {
        numbers[*place] = *number;
    }
    numbers
}

fn new(changes: &[(usize, u64)]) -> Call {
    Call::New {
        soil: changed(SOIL, changes),
    }
}

fn pools(pools: [u64; 4]) -> [(usize, u64); 4] {
    std::array::from_fn(|pool| (POOLS + pool, pools[pool]))
}

/// Pools with as many modern grams.
fn weighed(grams: [u64; 4]) -> [(usize, u64); 8] {
    std::array::from_fn(|index| match index {
        0..4 => (POOLS + index, grams[index]),
        _ => (MODERN + index - 4, grams[index - 4]),
    })
}

/// M of step 3.
fn deficit_limit(state: &[u64]) -> u64 {
    soil_of(state).deficit_limit() as u64
}

// ---- N: a soil's new state ----

/// 4, 5, 6 and IOM's 7 from both sides of every bound, and at the ends of the type.
fn new_bounds(sheet: &mut Sheet) {
    sheet.group("N: clay, depth, kind and IOM on both sides of every bound, ends of u64");
    let bounds: [(usize, u64, &[u64], &[u64]); 4] = [
        (CLAY, 4, &[0, 1, 999, 1000], &[1001, 1002]),
        (DEPTH, 5, &[1, 2, 99, 100], &[0, 101]),
        (KIND, 6, &[1, 2, 3], &[0, 4]),
        (INERT, 7, &[0, 999_999_999, CEILING], &[CEILING + 1]),
    ];
    for (place, number, good, bad) in bounds {
        for value in good {
            sheet.runs(new(&[(place, *value)]));
        }
        for value in bad.iter().chain(&ENDS) {
            sheet.refused(number, new(&[(place, *value)]));
        }
    }
}

/// 7: the active pools together at the ceiling and one gram above it, in every pool and pair of
/// pools; sums that wrap in 64 bits to something small.
fn new_sums(sheet: &mut Sheet) {
    sheet.group("N: active pools at the ceiling and one gram above it, sums that would wrap");
    for one in 0..4 {
        let mut alone = [0; 4];
        alone[one] = CEILING;
        sheet.runs(new(&pools(alone)));
        alone[one] += 1;
        sheet.refused(7, new(&pools(alone)));
        for end in [u64::MAX, 1 << 63, 1 << 32] {
            alone[one] = end;
            sheet.refused(7, new(&pools(alone)));
        }
        for two in one + 1..4 {
            let pair = |first: u64, second: u64| {
                let mut pair = [0; 4];
                (pair[one], pair[two]) = (first, second);
                new(&pools(pair))
            };
            sheet.runs(pair(1, CEILING - 1));
            sheet.refused(7, pair(1, CEILING));
            sheet.refused(7, pair(CEILING, CEILING));
            // These wrap to 0, to 0 and to the ceiling.
            sheet.refused(7, pair(u64::MAX, 1));
            sheet.refused(7, pair(1 << 63, 1 << 63));
            sheet.refused(7, pair(u64::MAX - 999, CEILING + 1000));
        }
    }
    let quarter = CEILING / 4;
    sheet.runs(new(&pools([quarter; 4])));
    for one in 0..4 {
        let mut over = [quarter; 4];
        over[one] += 1;
        sheet.refused(7, new(&pools(over)));
    }
    sheet.refused(7, new(&pools([1 << 62; 4])));
    sheet.refused(7, new(&pools([u64::MAX; 4])));
    sheet.refused(7, new(&pools([u64::MAX, 1, u64::MAX, 1])));
    // IOM isn't among the active pools: both may stand at the ceiling.
    let full = pools([400_000_000, 300_000_000, 200_000_000, 100_000_000]);
    sheet.runs(new(&[&full[..], &[(INERT, CEILING)]].concat()));
    sheet.refused(7, new(&[&full[..], &[(INERT, CEILING + 1)]].concat()));
    // Active pools and IOM that wrap to 0 together.
    sheet.refused(7, new(&[(POOLS, 1), (INERT, u64::MAX)]));
}

/// Two and more faults of 4 to 7 at once: the lowest wins.
fn new_order(sheet: &mut Sheet) {
    sheet.group("N: two and more faults of 4 to 7 at once, the lowest wins");
    let faults: [(u64, [(usize, u64); 2]); 4] = [
        (4, [(CLAY, 1001), (CLAY, u64::MAX)]),
        (5, [(DEPTH, 0), (DEPTH, u64::MAX)]),
        (6, [(KIND, 4), (KIND, 0)]),
        (7, [(POOLS + 3, CEILING + 1), (INERT, u64::MAX)]),
    ];
    for lower in 0..4 {
        for higher in lower + 1..4 {
            for way in 0..2 {
                let both = [faults[lower].1[way], faults[higher].1[way]];
                sheet.refused(faults[lower].0, new(&both));
            }
        }
        let rest: Vec<(usize, u64)> = faults[lower..].iter().map(|fault| fault.1[1]).collect();
        sheet.refused(faults[lower].0, new(&rest));
    }
}

/// Soils within the bounds: the state is the soil and three zeros.
fn new_drawn(sheet: &mut Sheet) {
    sheet.group("N: drawn soils that nothing refuses");
    let mut draw = Draw::new(41);
    for _ in 0..20 {
        let soil = [
            draw.below(1001),
            1 + draw.below(100),
            1 + draw.below(3),
            draw.below(250_000_001),
            draw.below(250_000_001),
            draw.below(250_000_001),
            draw.below(250_000_001),
            draw.below(CEILING + 1),
        ];
        sheet.runs(Call::New { soil });
    }
}

// ---- M: a single month call ----

fn month(state: StateNumbers, number: u64, entries: EntryNumbers) -> Call {
    Call::Month {
        state,
        number,
        entries,
    }
}

/// The base month with changes of its state, in frost; its number is the next one.
fn frozen(changes: &[(usize, u64)]) -> Call {
    let state = changed(STATE, changes);
    month(state, state[MONTHS].wrapping_add(1), FROST)
}

/// The base month with changes of its entries, in frost unless they say another temperature.
fn entered(changes: &[(usize, i64)]) -> Call {
    month(STATE, 11, changed(FROST, changes))
}

/// The known figures that a month can show.
fn month_known(sheet: &mut Sheet) {
    sheet.group("M: January 1852 and the other known figures of document 01");
    let hoosfield = new_state([
        234, 23, 1, 153_300, 4_485_200, 667_100, 25_857_600, 2_700_000,
    ]);
    let january = month(hoosfield, 1, [34, 740, 80, 0, 0, 0, 0, 1_000]);
    sheet.runs(january);
    assert_eq!(
        sheet.answer()[..8],
        [0, 113_937, 4_445_447, 665_104, 25_855_106, 2_700_000, 83_606, 0]
    );
    assert_eq!(
        modern_after(sheet),
        [113_935, 4_445_401, 665_097, 25_854_836]
    );
    let empty = changed(hoosfield, &weighed([0; 4]));
    // 61 g of plant: 36 and 25. 99 g of manure: 48, 50 and 1.
    sheet.runs(month(empty, 1, [93, 740, 80, 0, 0, 61, 0, 1_000]));
    sheet.runs(month(empty, 1, [93, 740, 80, 0, 0, 0, 99, 1_000]));
    // 27.50 mm and M: B 7585 and 2000 (the pools show B).
    let some = weighed([100_000_003, 90_000_007, 80_000_000, 70_000_001]);
    for deficit in [56_925_000, deficit_limit(&hoosfield)] {
        let state = changed(changed(hoosfield, &some), &[(DEFICIT, deficit)]);
        sheet.runs(fixed_pools(month(state, 1, [93, 0, 0, 0, 1, 0, 0, 1_000])));
    }
    // Active 1,000,000,000 with no additions runs; one gram added is 17.
    let full = changed(hoosfield, &weighed([CEILING, 0, 0, 0]));
    sheet.runs(month(full, 1, [-51, 740, 80, 0, 0, 0, 0, 1_000]));
    sheet.refused(17, month(full, 1, [34, 740, 80, 0, 0, 1, 0, 1_000]));
    sheet.refused(17, month(full, 1, [34, 740, 80, 0, 0, 0, 1, 1_000]));
}

/// 4 to 7 of the soil inside a lent state.
fn month_soil(sheet: &mut Sheet) {
    sheet.group("M: 4 to 7 in a lent state, both sides of every bound, ends of u64, wrapping sums");
    // A deficit of 0 is right for every clay and depth.
    let bounds: [(usize, u64, &[u64], &[u64]); 4] = [
        (CLAY, 4, &[0, 1, 999, 1000], &[1001]),
        (DEPTH, 5, &[1, 2, 99, 100], &[0, 101]),
        (KIND, 6, &[1, 2, 3], &[0, 4]),
        (INERT, 7, &[0, CEILING], &[CEILING + 1]),
    ];
    for (place, number, good, bad) in bounds {
        for value in good {
            sheet.runs(frozen(&[(place, *value), (DEFICIT, 0)]));
        }
        for value in bad.iter().chain(&ENDS[..5]) {
            sheet.refused(number, frozen(&[(place, *value), (DEFICIT, 0)]));
        }
    }
    for one in 0..4 {
        let mut alone = [0; 4];
        alone[one] = CEILING - 160;
        sheet.runs(frozen(&pools(alone)));
        for over in [CEILING + 1, u64::MAX, 1 << 63] {
            alone[one] = over;
            sheet.refused(7, frozen(&pools(alone)));
        }
        // Wraps to 0 with its neighbour.
        alone[one] = u64::MAX;
        alone[(one + 1) % 4] = 1;
        sheet.refused(7, frozen(&pools(alone)));
    }
    sheet.refused(7, frozen(&pools([1 << 62; 4])));
    sheet.refused(7, frozen(&pools([u64::MAX; 4])));
}

/// 10: D at M and above, months at 120,000 and above, CO2 and active pools at their bound.
fn month_state(sheet: &mut Sheet) {
    sheet.group("M: 10 on both sides: D, months, CO2 with active pools; sums that would wrap");
    for (clay, depth) in [(0, 1), (1000, 100), (234, 23), (650, 100), (1, 1)] {
        let base = [(CLAY, clay), (DEPTH, depth)];
        let limit = deficit_limit(&changed(STATE, &base));
        for (deficit, number) in [
            (0, 0),
            (limit - 1, 0),
            (limit, 0),
            (limit + 1, 10),
            (u64::MAX, 10),
            (1 << 63, 10),
        ] {
            sheet.either(number, frozen(&[base[0], base[1], (DEFICIT, deficit)]));
        }
    }
    sheet.runs(frozen(&[(MONTHS, 119_999)]));
    sheet.refused(12, frozen(&[(MONTHS, 120_000)]));
    for months in [120_001, u64::MAX, u64::MAX - 1, 1 << 63, 1 << 32] {
        sheet.refused(10, frozen(&[(MONTHS, months)]));
    }
    // 92,233,720,369 × 200,000,000 wraps in 64 bits; the months are too many before that.
    sheet.refused(10, frozen(&[(MONTHS, 92_233_720_369)]));
    let active = 1_533 + 44_852 + 6_671 + 258_576;
    for months in [0, 1, 10, 59_999, 119_999] {
        let bound = CEILING + A_MONTH * months;
        let at = |co2: u64| frozen(&[(MONTHS, months), (CO2, co2)]);
        sheet.runs(at(bound - active - 1));
        sheet.runs(at(bound - active));
        sheet.refused(10, at(bound - active + 1));
        sheet.refused(10, at(bound));
    }
    // At 120,000 months the bound still decides between 10 and 12.
    let bound = CEILING + A_MONTH * 120_000;
    let at = |co2: u64| frozen(&[(MONTHS, 120_000), (CO2, co2)]);
    sheet.refused(12, at(bound - active));
    sheet.refused(10, at(bound - active + 1));
    // CO2 that wraps with the active pools to 0 and to 1, and beside that.
    for co2 in [
        u64::MAX,
        u64::MAX - active + 1,
        u64::MAX - active + 2,
        u64::MAX - active,
        1 << 63,
    ] {
        sheet.refused(10, frozen(&[(CO2, co2)]));
    }
    // Pools at the ceiling, CO2 at what is left.
    let full = pools([CEILING, 0, 0, 0]);
    // Wraps to 999,999,999.
    sheet.refused(
        10,
        frozen(&[full[0], full[1], full[2], full[3], (CO2, u64::MAX)]),
    );
    let still = [-60, 0, 0, 0, 0, 0, 0, 1_000];
    for (months, co2, number) in [
        (0, 0, 0),
        (0, 1, 10),
        (3, 3 * A_MONTH, 0),
        (3, 3 * A_MONTH + 1, 10),
    ] {
        let state = changed(changed(STATE, &full), &[(MONTHS, months), (CO2, co2)]);
        sheet.either(number, month(state, months + 1, still));
    }
}

/// 11 and 12: the month's number against the months done.
fn month_turn(sheet: &mut Sheet) {
    sheet.group("M: 11 and 12: numbers beside the next one, 120,000 months done");
    for (months, number, refusal) in [
        (0, 1, 0),
        (0, 0, 11),
        (0, 2, 11),
        (0, u64::MAX, 11),
        (1, 1, 11),
        (1, 2, 0),
        (1, 3, 11),
        (10, 0, 11),
        (10, 1, 11),
        (10, 10, 11),
        (10, 11, 0),
        (10, 12, 11),
        (10, u64::MAX, 11),
        (10, u64::MAX - 10, 11),
        (10, (1 << 32) + 11, 11),
        (10, (1 << 63) + 11, 11),
        (119_999, 119_999, 11),
        (119_999, 120_000, 0),
        (119_999, 120_001, 11),
        (120_000, 120_001, 12),
        (120_000, 120_000, 11),
        (120_000, 120_002, 11),
        (120_000, 0, 11),
        (120_000, 1, 11),
        (120_000, u64::MAX, 11),
        (120_001, 120_002, 10),
        (120_001, 120_001, 10),
        (u64::MAX, 0, 10),
        (u64::MAX, u64::MAX, 10),
    ] {
        let state = changed(STATE, &[(MONTHS, months)]);
        sheet.either(refusal, month(state, number, FROST));
    }
}

/// 13 to 16, 19 and 21 from both sides of each bound, and at the ends of i64.
fn month_entries(sheet: &mut Sheet) {
    sheet.group("M: 13 to 16, 19 and 21 on both sides of each bound, ends of i64");
    let bounds: [(usize, u64, &[i64], &[i64]); 8] = [
        (
            TEMPERATURE,
            13,
            &[-400, -399, -52, -51, -50, -49, 0, 499, 500],
            &[-401, 501, -402, 502],
        ),
        (RAIN, 14, &[0, 1, 19_999, 20_000], &[-1, 20_001]),
        (EVAPORATION, 14, &[0, 1, 19_999, 20_000], &[-1, 20_001]),
        (SOURCE, 19, &[0, 1], &[-1, 2, 3, 10]),
        (COVER, 15, &[0, 1], &[-1, 2, 3, 10]),
        (
            PLANT,
            16,
            &[0, 1, 99_999_999, 100_000_000],
            &[-1, 100_000_001],
        ),
        (
            MANURE,
            16,
            &[0, 1, 99_999_999, 100_000_000],
            &[-1, 100_000_001],
        ),
        (
            ACTIVITY,
            21,
            &[0, 1, 999, 1_000, 1_001, 1_999, 2_000],
            &[-1, 2_001, -1_000, 3_000],
        ),
    ];
    for (place, number, good, bad) in bounds {
        for value in good {
            sheet.runs(entered(&[(place, *value)]));
        }
        for value in bad.iter().chain(&SIGNED_ENDS) {
            sheet.refused(number, entered(&[(place, *value)]));
        }
    }
    // Both of a pair faulty, or one of each; sums that wrap to something in range.
    let pairs: [(u64, usize, usize, [(i64, i64); 5]); 2] = [
        (
            14,
            RAIN,
            EVAPORATION,
            [
                (-1, -1),
                (20_001, 20_001),
                (-1, 20_001),
                (i64::MAX, i64::MIN),
                (i64::MIN, i64::MAX),
            ],
        ),
        (
            16,
            PLANT,
            MANURE,
            [
                (-1, 1),
                (1, -1),
                (i64::MAX, i64::MAX),
                (i64::MIN, i64::MIN),
                (i64::MAX, i64::MIN),
            ],
        ),
    ];
    for (number, one, two, values) in pairs {
        for (first, second) in values {
            sheet.refused(number, entered(&[(one, first), (two, second)]));
        }
    }
    sheet.runs(entered(&[(RAIN, 20_000), (EVAPORATION, 20_000)]));
    sheet.runs(entered(&[(PLANT, 100_000_000), (MANURE, 100_000_000)]));
}

/// 17: active pools before the month, plus plant and manure, at the ceiling and above.
fn month_ceiling(sheet: &mut Sheet) {
    sheet.group("M: 17 on both sides, by plant, by manure, by both; decay doesn't make room");
    for (active, plant, manure) in [
        (CEILING, 0, 0),
        (CEILING - 1, 1, 0),
        (CEILING - 1, 0, 1),
        (CEILING - 100_000_000, 100_000_000, 0),
        (CEILING - 100_000_000, 0, 100_000_000),
        (CEILING - A_MONTH, 100_000_000, 100_000_000),
        (CEILING - 30, 10, 20),
    ] {
        for spread in 0..2 {
            let grams = if spread == 0 {
                [active, 0, 0, 0]
            } else {
                [
                    active / 5,
                    active / 3,
                    active / 7,
                    active - active / 5 - active / 3 - active / 7,
                ]
            };
            let state = changed(STATE, &pools(grams));
            let with = |temperature: i64, plant: i64, manure: i64| {
                month(
                    state,
                    11,
                    [temperature, 500, 300, 0, 1, plant, manure, 1_000],
                )
            };
            sheet.runs(with(-60, plant, manure));
            // One gram more of one of them, in frost and in a heat that would make room.
            for temperature in [-60, 500] {
                if plant < 100_000_000 {
                    sheet.refused(17, with(temperature, plant + 1, manure));
                }
                if manure < 100_000_000 {
                    sheet.refused(17, with(temperature, plant, manure + 1));
                }
            }
            // One gram more in the soil.
            if active < CEILING {
                let more = changed(state, &[(POOLS + 2, state[POOLS + 2] + 1)]);
                sheet.refused(
                    17,
                    month(more, 11, [500, 500, 300, 0, 1, plant, manure, 1_000]),
                );
            }
        }
    }
    // IOM doesn't count.
    sheet.runs(frozen(&[
        (INERT, CEILING),
        (POOLS, CEILING - 44_852 - 6_671 - 258_576 - 160),
    ]));
}

/// Numbers of a month's refusals in checking order.
const MONTH_REFUSALS: [u64; 14] = [4, 5, 6, 7, 10, 11, 12, 13, 14, 19, 15, 16, 21, 17];

/// The base month with all these faults at once, each in the given one of three ways.
fn faulty(faults: &[u64], way: usize) -> Call {
    let mut state = STATE;
    let mut number = 11;
    let mut entries = MILD;
    let with = |number: u64| faults.contains(&number);
    if with(17) {
        state = changed(state, &pools([CEILING, 0, 0, 0]));
        state[CO2] = 0;
        (entries[PLANT], entries[MANURE]) = (100_000_000, 100_000_000);
    }
    if with(12) {
        (state[MONTHS], number) = (120_000, 120_001);
    }
    if with(4) {
        state[CLAY] = [1001, 1 << 32, u64::MAX][way];
    }
    if with(5) {
        state[DEPTH] = [0, 101, u64::MAX][way];
    }
    if with(6) {
        state[KIND] = [0, 4, u64::MAX][way];
    }
    if with(7) {
        match way {
            0 => state[POOLS + 1] = CEILING + 1,
            1 => state[INERT] = CEILING + 1,
            _ => (state[POOLS], state[POOLS + 3]) = (u64::MAX, 1),
        }
    }
    if with(10) {
        match way {
            0 if with(4) || with(5) => state[DEFICIT] = u64::MAX,
            0 => state[DEFICIT] = deficit_limit(&state) + 1,
            1 if with(12) => state[CO2] = u64::MAX,
            1 => (state[MONTHS], number) = (120_001, 120_002),
            _ => state[CO2] = CEILING + A_MONTH * state[MONTHS] + 1,
        }
    }
    if with(11) {
        number = [number - 1, number + 1, u64::MAX][way];
    }
    if with(13) {
        entries[TEMPERATURE] = [-401, 501, i64::MIN][way];
    }
    if with(14) {
        match way {
            0 => entries[RAIN] = -1,
            1 => entries[EVAPORATION] = 20_001,
            _ => entries[RAIN] = i64::MAX,
        }
    }
    if with(19) {
        entries[SOURCE] = [-1, 2, i64::MIN][way];
    }
    if with(15) {
        entries[COVER] = [-1, 2, i64::MAX][way];
    }
    if with(16) {
        match way {
            0 => entries[PLANT] = -1,
            1 => entries[MANURE] = 100_000_001,
            _ => (entries[PLANT], entries[MANURE]) = (i64::MAX, i64::MAX),
        }
    }
    if with(21) {
        entries[ACTIVITY] = [-1, 2_001, i64::MIN][way];
    }
    month(state, number, entries)
}

/// Two faults at once, in every pair of numbers (the neighbours among them): the one that is asked
/// first wins. Then every fault from one number on at once.
fn month_pairs(sheet: &mut Sheet) {
    sheet.group(
        "M: two faults at once in every pair of numbers, each in three ways; the first asked wins",
    );
    for (index, first) in MONTH_REFUSALS.iter().enumerate() {
        for later in &MONTH_REFUSALS[index + 1..] {
            for way in 0..3 {
                sheet.refused(*first, faulty(&[*first, *later], way));
            }
        }
    }
    sheet.group("M: all faults from a number on at once; each alone");
    for (index, first) in MONTH_REFUSALS.iter().enumerate() {
        for way in 0..3 {
            sheet.refused(*first, faulty(&MONTH_REFUSALS[index..], way));
            sheet.refused(*first, faulty(&[*first], way));
        }
    }
}

/// States that no run reaches run all the same: D at M on bare soil, CO2 at its bound with pools
/// that decay, 119,999 months with next to no CO2, new months with a deficit.
fn month_unreached(sheet: &mut Sheet) {
    sheet.group("M: states that no run reaches: D up to M, CO2 at its bound, many months");
    let mut draw = Draw::new(43);
    for round in 0..60 {
        let mut state = STATE;
        state[CLAY] = draw.below(1001);
        state[DEPTH] = 1 + draw.below(100);
        state[KIND] = 1 + draw.below(3);
        for pool in 0..4 {
            state[POOLS + pool] = draw.below(150_000_001);
        }
        state[INERT] = draw.below(CEILING + 1);
        weigh(&mut draw, &mut state);
        let limit = deficit_limit(&state);
        state[DEFICIT] = [0, 1, limit / 9 * 5 + 1, limit - 1, limit][round % 5];
        state[MONTHS] = [0, 1, 119_998, 119_999][round % 4];
        let mut entries = [
            draw.between(-50, 500),
            draw.between(0, 600),
            draw.between(0, 1500),
            0,
            (round / 3 % 2) as i64,
            draw.between(0, 40_000_000),
            draw.between(0, 40_000_000),
            drawn_activity(&mut draw),
        ];
        if round % 7 == 0 {
            (entries[RAIN], entries[EVAPORATION]) = (0, 0);
        }
        let call = fixed_pools(month(state, state[MONTHS] + 1, entries));
        let Call::Month { mut state, .. } = call else {
            unreachable!()
        };
        let active: u64 = state[POOLS..INERT].iter().sum();
        // CO2 at its bound: the month's own CO2 takes it beyond, and the call still runs.
        if active <= CEILING + A_MONTH * state[MONTHS] {
            let most = CEILING + A_MONTH * state[MONTHS] - active;
            state[CO2] = if round % 3 == 0 {
                draw.below(most + 1)
            } else {
                most
            };
        }
        sheet.runs(month(state, state[MONTHS] + 1, entries));
    }
}

/// A month on this soil with this deficit and large pools, which show B.
fn wetted(clay: u64, depth: u64, deficit: u64, entries: EntryNumbers) -> Call {
    let big = weighed([100_000_000, 90_000_000, 80_000_000, 70_000_000]);
    let own = [(CLAY, clay), (DEPTH, depth), (DEFICIT, deficit)];
    fixed_pools(month(changed(changed(STATE, &big), &own), 11, entries))
}

/// Step 3 around its bounds: the cap under a crop and on bare soil, D as it was before the month
/// on bare soil that is drier than its limit, 0.444 of M from both sides, B's exact half.
fn month_water(sheet: &mut Sheet) {
    sheet.group("M: deficits at 0, the bare limit, 0.444 of M and M from both sides; B's half");
    let mut draw = Draw::new(47);
    let mut water = |sheet: &mut Sheet, clay: u64, depth: u64, deficit: u64, rest: [i64; 3]| {
        let [rain, evaporation, cover] = rest;
        let temperature = draw.between(50, 300);
        let entries = [temperature, rain, evaporation, 0, cover, 0, 0, 1_000];
        sheet.runs(wetted(clay, depth, deficit, entries));
    };
    for (clay, depth) in [(0, 1), (1000, 100), (234, 23), (650, 77)] {
        let limit = deficit_limit(&changed(STATE, &[(CLAY, clay), (DEPTH, depth)]));
        let bare = limit / 9 * 5;
        // The first D that isn't below 0.444 of M.
        let point = (444 * limit).div_ceil(1000);
        for deficit in [point - 1, point, bare, bare + 1, limit] {
            for cover in [0, 1] {
                water(sheet, clay, depth, deficit, [0, 0, cover]);
            }
        }
        // Drying on bare soil stops at its limit, or at the D it had; rain still wets it.
        water(sheet, clay, depth, bare - 1, [0, 1, 0]);
        water(sheet, clay, depth, bare + 1, [0, 20_000, 0]);
        water(sheet, clay, depth, limit, [1, 0, 0]);
        water(sheet, clay, depth, limit, [20_000, 0, 0]);
        water(sheet, clay, depth, limit - 1, [0, 20_000, 1]);
        // 0.75 of evaporation against rain: 4 and 3 balance.
        water(sheet, clay, depth, bare / 2, [3, 4, 1]);
        water(sheet, clay, depth, 0, [3, 5, 1]);
        water(sheet, clay, depth, 1, [4, 5, 0]);
    }
    // Clay 100, depth 23, 59,046,750 parts: B is 3562.5, halves up.
    for deficit in [59_046_749, 59_046_750, 59_046_751] {
        for cover in [0, 1] {
            water(sheet, 100, 23, deficit, [0, 0, cover]);
        }
    }
    // The same deficit reached by a month: 155,250 × 383 - 207,000 × 2.
    water(sheet, 100, 23, 0, [2, 383, 1]);
}

/// Steps 5 and 6 in small grams: every rounding down, for each kind.
fn month_shares(sheet: &mut Sheet) {
    sheet.group("M: shares of plant, manure and formed in small grams, each kind");
    for kind in 1..=3 {
        let empty = changed(STATE, &[&pools([0; 4])[..], &[(KIND, kind)]].concat());
        for (plant, manure) in [
            (1, 1),
            (2, 3),
            (4, 49),
            (5, 50),
            (60, 51),
            (61, 98),
            (62, 100),
            (166, 101),
            (167, 149),
            (168, 150),
            (99_999_999, 99_999_999),
            (100_000_000, 100_000_000),
        ] {
            sheet.runs(month(empty, 11, [93, 500, 300, 0, 0, plant, manure, 1_000]));
        }
    }
    // Tiny pools in great heat: losses of a few grams, formed and its 46 hundredths rounded down.
    for grams in [1, 2, 3, 5, 9, 14, 22, 40] {
        let state = changed(STATE, &pools([grams, 40 - grams / 2, grams * 3, grams * 7]));
        sheet.runs(month(state, 11, [500, 500, 300, 0, 0, 0, 0, 1_000]));
        sheet.runs(month(
            state,
            11,
            [500, 0, 20_000, 0, 1, grams as i64, 3, 1_500],
        ));
    }
}

/// Lowers the pools of an accepted month until all allowed S keep the same grams: from each pool's
/// grams downward the first that are fixed. Its modern grams likewise.
fn fixed_pools(call: Call) -> Call {
    let Call::Month {
        mut state,
        number,
        entries,
    } = call
    else {
        panic!("a month")
    };
    let own = state_of(&state);
    let n = factors(&own.soil, own.deficit, &entries_of(&entries)).n;
    for pool in 0..4 {
        while !keeps_fixed(n, pool, state[POOLS + pool]) {
            state[POOLS + pool] -= 1;
        }
        while !keeps_fixed(n, pool, month_left(state[MODERN + pool])) {
            state[MODERN + pool] -= 1;
        }
    }
    month(state, number, entries)
}

/// Would A, B or R one off give another row?
fn shows_factors(call: &Call) -> bool {
    let Call::Month { state, entries, .. } = call else {
        panic!("a month")
    };
    let (own, entries) = (state_of(state), entries_of(entries));
    let right = factors(&own.soil, own.deficit, &entries);
    let cover = if entries.cover == 1 { 6 } else { 10 };
    let keeps = |n: u64| -> [u64; 4] {
        std::array::from_fn(|pool| kept(own.soil.pools[pool], survival_nearest(n, RATES[pool])))
    };
    let kept = keeps(right.n);
    let lost = own.soil.active() as u64 - kept.iter().sum::<u64>();
    let formed = |r: u64| lost * r / 1_000_000;
    let (a, b, r) = (right.temperature, right.moisture, right.clay);
    [a - 1, a + 1].iter().all(|a| keeps(a * b * cover) != kept)
        && [b - 1, b + 1].iter().all(|b| keeps(a * b * cover) != kept)
        && [r - 1, r + 1]
            .iter()
            .all(|other| formed(*other) != formed(r))
}

/// Every temperature from -50 to 500 and 551 clays from 0 to 1000, the tightest of steps 1 and 2
/// among them, with pools so large that A, B or R one off would show; kinds, depths, covers and
/// deficits drawn.
fn month_factors(sheet: &mut Sheet) {
    sheet.group(
        "M: every temperature from -50 to 500, clays from 0 to 1000; A, B or R one off would show",
    );
    let mut draw = Draw::new(53);
    for step in 0..551u64 {
        // 200 and 551 have no common factor: every temperature comes once.
        let temperature = (step * 200 + 7) as i64 % 551 - 50;
        let clay = match step * 1000 / 550 {
            // R is closest to a half at 17 and 658.
            16 => 17,
            657 => 658,
            other => other,
        };
        sheet.runs(drawn_month(&mut draw, clay, temperature, 0));
    }
}

/// A month with this clay, temperature and source, drawn until A, B or R one off would show.
fn drawn_month(draw: &mut Draw, clay: u64, temperature: i64, source: i64) -> Call {
    loop {
        let mut state = STATE;
        state[CLAY] = clay;
        state[DEPTH] = 1 + draw.below(100);
        state[KIND] = 1 + draw.below(3);
        state[POOLS] = 90_000_000 + draw.below(60_000_000);
        for pool in 1..4 {
            state[POOLS + pool] = draw.below(100_000_000);
        }
        state[INERT] = draw.below(100_000);
        weigh(draw, &mut state);
        let limit = deficit_limit(&state);
        state[DEFICIT] = draw.below(4).min(1) * draw.below(limit + 1);
        state[MONTHS] = draw.below(120_000);
        state[CO2] = draw.below(1_000_000);
        state[KEPT] = draw.below(25);
        let entries = [
            temperature,
            draw.between(0, 900),
            draw.between(0, 1500),
            source,
            draw.between(0, 1),
            draw.between(0, 1) * draw.between(0, 9_000_000),
            draw.between(0, 1) * draw.between(0, 9_000_000),
            drawn_activity(draw),
        ];
        let call = fixed_pools(month(state, state[MONTHS] + 1, entries));
        if shows_factors(&call) {
            return call;
        }
    }
}

/// Evapotranspiration has the bounds of an open pan; 19 comes after 14 and before 15.
fn month_sources(sheet: &mut Sheet) {
    sheet.group("M: evapotranspiration has the bounds of the open pan; 19 after 14, before 15");
    for (number, place, good, bad) in [
        (13, TEMPERATURE, [-400, 500], [-401, 501]),
        (14, RAIN, [0, 20_000], [-1, 20_001]),
        (14, EVAPORATION, [0, 20_000], [-1, 20_001]),
        (15, COVER, [0, 1], [-1, 2]),
        (16, PLANT, [0, 100_000_000], [-1, 100_000_001]),
        (16, MANURE, [0, 100_000_000], [-1, 100_000_001]),
    ] {
        for value in good {
            sheet.runs(entered(&[(SOURCE, 1), (place, value)]));
        }
        for value in bad {
            sheet.refused(number, entered(&[(SOURCE, 1), (place, value)]));
            // Beside a faulty source.
            let first = if place < SOURCE { number } else { 19 };
            for source in [-1, 2, i64::MIN, i64::MAX] {
                sheet.refused(first, entered(&[(SOURCE, source), (place, value)]));
            }
        }
    }
    // 19 before 17, 17 whatever the source.
    let full = changed(STATE, &pools([CEILING, 0, 0, 0]));
    for (source, number) in [(0, 17), (1, 17), (2, 19), (-1, 19)] {
        let entries = changed(FROST, &[(SOURCE, source)]);
        sheet.refused(number, month(full, 11, entries));
    }
}

/// Step 3 by evapotranspiration: its deficits by hand, against the pan's, and drawn months.
fn month_evapotranspiration(sheet: &mut Sheet) {
    sheet.group("M: evapotranspiration dries 207,000 parts a tenth, an open pan 155,250");
    // Clay 0 and depth 100: M is 180,000,000, the bare limit 100,000,000.
    for (deficit, [rain, evaporation, source, cover], after) in [
        (0, [0, 1, 0, 1], 155_250),
        (0, [0, 1, 1, 1], 207_000),
        (0, [0, 1, 1, 0], 207_000),
        (0, [0, 100, 0, 1], 15_525_000),
        (0, [0, 100, 1, 1], 20_700_000),
        // Rain against it, with and without the 0.75.
        (0, [3, 4, 0, 1], 0),
        (0, [3, 4, 1, 1], 207_000),
        (0, [3, 3, 1, 1], 0),
        (5_000_000, [7, 7, 1, 0], 5_000_000),
        (5_000_000, [7, 7, 0, 0], 4_637_750),
        (5_000_000, [30, 6, 1, 0], 32_000),
        (5_000_000, [31, 6, 1, 0], 0),
        (0, [20_000, 20_000, 1, 1], 0),
        (180_000_000, [20_000, 20_000, 1, 1], 180_000_000),
        (180_000_000, [20_000, 20_000, 0, 1], 0),
        (180_000_000, [20_000, 0, 1, 1], 0),
        (180_000_000, [1, 0, 1, 0], 179_793_000),
        // The caps of bare soil and of a crop, from both sides.
        (0, [0, 483, 1, 0], 99_981_000),
        (0, [0, 484, 1, 0], 100_000_000),
        (0, [0, 484, 1, 1], 100_188_000),
        (0, [0, 869, 1, 1], 179_883_000),
        (0, [0, 870, 1, 1], 180_000_000),
        (0, [0, 20_000, 1, 0], 100_000_000),
        (0, [0, 20_000, 1, 1], 180_000_000),
        (150_000_000, [0, 20_000, 1, 0], 150_000_000),
        (150_000_000, [0, 20_000, 1, 1], 180_000_000),
    ] {
        let entries = [93, rain, evaporation, source, cover, 0, 0, 1_000];
        sheet.runs(wetted(0, 100, deficit, entries));
        assert_eq!(sheet.answer()[OUTPUT_NUMBERS], after, "{entries:?}");
    }
    sheet.group("M: 4 tenths of the open pan and 3 of evapotranspiration: the same row and state");
    let mut draw = Draw::new(71);
    for round in 0..30 {
        let threes = [1, 2, 250, 5_000].get(round).copied();
        let threes = threes.unwrap_or_else(|| draw.between(0, 600));
        let mut pan = drawn_entries(&mut draw);
        pan[EVAPORATION] = 4 * threes;
        let office = changed(pan, &[(EVAPORATION, 3 * threes), (SOURCE, 1)]);
        let (clay, depth) = (draw.below(1001), 1 + draw.below(100));
        sheet.alike(&[pan, office].map(|entries| wetted(clay, depth, 0, entries)));
    }
    sheet.group("M: drawn months by evapotranspiration; A, B or R one off would show");
    for _ in 0..60 {
        let (clay, temperature) = (draw.below(1001), draw.between(-50, 500));
        sheet.runs(drawn_month(&mut draw, clay, temperature, 1));
    }
}

/// Entries of an open pan's month that nothing refuses.
fn drawn_entries(draw: &mut Draw) -> EntryNumbers {
    let sky = drawn_weather(draw, 1);
    let field = drawn_land(draw, 1, 60_000);
    std::array::from_fn(|place| [&sky[..], &field].concat()[place])
}

/// Kept counts that run and that are 10, and 10 for them in its turn.
fn month_kept(sheet: &mut Sheet) {
    sheet.group("M: kept counts 0 to 24 run and rise to 24, above is 10: after 4 to 7, before 11");
    for kept in 0..=24u64 {
        sheet.runs(frozen(&[(KEPT, kept)]));
        assert_eq!(
            sheet.answer()[1 + OUTPUT_NUMBERS + KEPT],
            (kept + 1).min(24)
        );
    }
    for kept in [25, 26, 48].iter().chain(&ENDS) {
        sheet.refused(10, frozen(&[(KEPT, *kept)]));
    }
    // 24 kept is no fault beside any other; 25 comes between 7 and 11.
    for kept in [24, 25, u64::MAX] {
        for number in MONTH_REFUSALS {
            let Call::Month {
                mut state,
                number: turn,
                entries,
            } = faulty(&[number], 0)
            else {
                unreachable!()
            };
            state[KEPT] = kept;
            let first = if kept > 24 && number > 7 { 10 } else { number };
            sheet.refused(first, month(state, turn, entries));
        }
    }
}

/// 21 in its turn: after 16, before 17; also where nothing is added.
fn month_activity(sheet: &mut Sheet) {
    sheet.group("M: 21 after 16 and before 17, also with nothing to add; 0 and 2000 run");
    let full = changed(STATE, &pools([CEILING, 0, 0, 0]));
    for activity in BAD_ACTIVITIES {
        for (number, place, value) in [
            (13, TEMPERATURE, 501),
            (14, RAIN, -1),
            (19, SOURCE, 2),
            (15, COVER, 2),
            (16, PLANT, -1),
            (16, PLANT, 100_000_001),
            (16, MANURE, -1),
            (16, MANURE, i64::MAX),
        ] {
            sheet.refused(number, entered(&[(ACTIVITY, activity), (place, value)]));
        }
        let entries = changed(FROST, &[(ACTIVITY, activity)]);
        sheet.refused(21, month(full, 11, entries));
        sheet.refused(11, month(full, 12, entries));
        sheet.refused(
            21,
            entered(&[(ACTIVITY, activity), (PLANT, 0), (MANURE, 0)]),
        );
    }
    for activity in [0, 2_000] {
        sheet.refused(17, month(full, 11, changed(FROST, &[(ACTIVITY, activity)])));
        for (plant, manure) in [(0, 0), (61, 0), (0, 99), (100_000_000, 100_000_000)] {
            let own = [(ACTIVITY, activity), (PLANT, plant), (MANURE, manure)];
            sheet.runs(entered(&own));
        }
    }
}

/// The modern grams of a state's four active pools.
fn modern(grams: [u64; 4]) -> [(usize, u64); 4] {
    std::array::from_fn(|pool| (MODERN + pool, grams[pool]))
}

/// The base month in frost with these modern grams and months done.
fn weighing(months: u64, grams: [u64; 4]) -> Call {
    frozen(&[&modern(grams)[..], &[(MONTHS, months)]].concat())
}

/// 10 for modern grams: the active pools' together, at the limit and above, in each pool and spread
/// over them; sums that wrap; its place among the others.
fn month_modern_limit(sheet: &mut Sheet) {
    sheet.group("M: modern grams at 10's limit and one above, in each pool and together");
    for months in [0, 1, 10, 59_999, 119_999, 120_000] {
        let bound = CEILING + MODERN_A_MONTH * months;
        let number = if months == 120_000 { 12 } else { 0 };
        for pool in 0..4 {
            let mut grams = [0; 4];
            grams[pool] = bound;
            sheet.either(number, weighing(months, grams));
            grams[(pool + 1) % 4] = 1;
            sheet.refused(10, weighing(months, grams));
            grams = [bound / 4; 4];
            sheet.either(number, weighing(months, grams));
            grams[pool] += 1;
            sheet.refused(10, weighing(months, grams));
        }
        // Above what carbon may be with its CO2.
        let carbon = CEILING + A_MONTH * months;
        if months > 0 {
            sheet.either(number, weighing(months, [carbon, 1, 0, 0]));
        }
    }
    sheet.group("M: modern grams of any 64 bits in each pool, sums that would wrap, 10");
    for pool in 0..4 {
        for end in [u64::MAX, 1 << 63, (1 << 63) - 1, 1 << 48, 1 << 33] {
            let mut grams = [0; 4];
            grams[pool] = end;
            sheet.refused(10, weighing(10, grams));
            // With its neighbour these wrap to something small.
            grams[(pool + 1) % 4] = 0u64.wrapping_sub(end);
            sheet.refused(10, weighing(10, grams));
            grams[(pool + 1) % 4] = CEILING.wrapping_sub(end);
            sheet.refused(10, weighing(119_999, grams));
        }
    }
    for grams in [
        [1 << 62; 4],
        [u64::MAX; 4],
        [u64::MAX, 1, u64::MAX, 1],
        [1 << 63, 0, 1 << 63, 0],
    ] {
        for months in [0, 119_999] {
            sheet.refused(10, weighing(months, grams));
        }
    }
    sheet.group("M: 10 for modern grams after 4 to 7 and before 11");
    for grams in [[48_001_000_000_001, 0, 0, 0], [0, 0, u64::MAX, 1]] {
        for number in MONTH_REFUSALS {
            let Call::Month {
                state,
                number: turn,
                entries,
            } = faulty(&[number], 1)
            else {
                unreachable!()
            };
            let first = if number > 7 { 10 } else { number };
            sheet.refused(first, month(changed(state, &modern(grams)), turn, entries));
        }
    }
}

/// The modern grams after the last line, a month.
fn modern_after(sheet: &Sheet) -> [u64; 4] {
    std::array::from_fn(|pool| sheet.answer()[1 + OUTPUT_NUMBERS + MODERN + pool])
}

/// What a month in frost leaves of modern grams. Where pools decay, only up to some 200,000,000 are
/// fixed: with more an S one off shows.
fn month_modern_loss(sheet: &mut Sheet) {
    sheet.group("M: modern grams by 999,989,629 billionths, up to 48,000,600,000,000, in frost");
    let nothing = [-60, 0, 0, 0, 0, 0, 0, 1_000];
    for (months, before, after) in [
        (10, [0, 1, 2, 3], [0, 0, 1, 2]),
        (
            10,
            [1_000, 96_422, 96_423, 96_424],
            [999, 96_421, 96_421, 96_422],
        ),
        (
            10,
            [1_000_000_000, 100_000_000, 10_000_000, 1_000_000],
            [999_989_629, 99_998_962, 9_999_896, 999_989],
        ),
        (
            119_999,
            [48_000_600_000_000, 0, 0, 0],
            [48_000_102_185_777, 0, 0, 0],
        ),
        (
            119_999,
            [0, 0, 0, 48_000_600_000_000],
            [0, 0, 0, 48_000_102_185_777],
        ),
        (119_999, [12_000_150_000_000; 4], [12_000_025_546_444; 4]),
        (
            119_999,
            [1, 48_000_599_999_997, 1, 1],
            [0, 48_000_102_185_774, 0, 0],
        ),
        // 2^32 and 2^32 + 1, 18,446,744,073 and 18,446,744,074: products beside 2^62 and 2^64.
        (
            119_999,
            [4_294_967_296, 4_294_967_297, 18_446_744_073, 18_446_744_074],
            [4_294_922_752, 4_294_922_753, 18_446_552_761, 18_446_552_762],
        ),
    ] {
        let state = changed(STATE, &[&modern(before)[..], &[(MONTHS, months)]].concat());
        sheet.runs(month(state, months + 1, nothing));
        assert_eq!(modern_after(sheet), after, "{before:?}");
    }
    // What a month brings, beside the most that there can be: less than the next month's limit.
    let most = [-60, 0, 0, 0, 0, 100_000_000, 100_000_000, 2_000];
    for pool in 0..4 {
        for months in [0, 119_999] {
            let mut grams = [0; 4];
            grams[pool] = CEILING + MODERN_A_MONTH * months;
            let own = [&modern(grams)[..], &[(MONTHS, months)]].concat();
            sheet.runs(month(changed(STATE, &own), months + 1, most));
        }
    }
}

/// Additions bring plant and manure times activity over 1000, each rounded down by itself and then
/// split; nothing is lost in their own month.
fn month_modern_additions(sheet: &mut Sheet) {
    sheet
        .group("M: what additions bring: plant and manure by activity one by one, then the shares");
    let empty = changed(STATE, &weighed([0; 4]));
    for (plant, manure, activity, after) in [
        (61, 0, 1_000, [36, 25, 0, 0]),
        (61, 0, 2_000, [72, 50, 0, 0]),
        (61, 99, 0, [0, 0, 0, 0]),
        (0, 99, 1_000, [48, 50, 0, 1]),
        // 100.009: 49, 49 and 2, where the carbon's 44, 46 and 1 would give 48, 50 and 1.
        (0, 91, 1_099, [49, 49, 0, 2]),
        // 121.999 of 61 g: 71 and 50, where 36 and 25 would give 71 and 49.
        (61, 0, 1_999, [71, 50, 0, 0]),
        // 1.999 each: 1 and 1, not 3 together.
        (1, 1, 1_999, [0, 2, 0, 0]),
        // 0.5 each: nothing, not 1 together.
        (500, 500, 1, [0, 0, 0, 0]),
        (999, 999, 1, [0, 0, 0, 0]),
        (1_000, 999, 1, [0, 1, 0, 0]),
        (999, 1_000, 1, [0, 1, 0, 0]),
        (1, 0, 999, [0, 0, 0, 0]),
        (1, 0, 1_000, [0, 1, 0, 0]),
        (3, 0, 1_999, [2, 3, 0, 0]),
        (0, 100, 500, [24, 25, 0, 1]),
        (0, 100, 499, [24, 25, 0, 0]),
        // A loss of 1 in 96,423 would show.
        (100_000_000, 0, 1_000, [59_016_393, 40_983_607, 0, 0]),
        (
            0,
            100_000_000,
            2_000,
            [98_000_000, 98_000_000, 0, 4_000_000],
        ),
        (
            100_000_000,
            100_000_000,
            2_000,
            [216_032_786, 179_967_214, 0, 4_000_000],
        ),
    ] {
        for temperature in [-60, 250] {
            let entries = [temperature, 500, 300, 0, 0, plant, manure, activity];
            sheet.runs(month(empty, 11, entries));
            assert_eq!(modern_after(sheet), after, "{entries:?}");
        }
    }
    sheet.group("M: activities 0, 1, 999, 1000, 1001, 1999 and 2000 for each kind");
    let mut draw = Draw::new(101);
    for kind in 1..=3 {
        for activity in [0, 1, 999, 1_000, 1_001, 1_999, 2_000] {
            for largest in [300, 100_000_000] {
                let state = changed(empty, &[(KIND, kind)]);
                let (plant, manure) = (draw.between(0, largest), draw.between(0, largest));
                let entries = [93, 500, 300, 0, 1, plant, manure, activity];
                sheet.runs(month(state, 11, entries));
            }
        }
    }
}

/// What slips would leave of the modern grams of an accepted month.
fn modern_slips(call: &Call) -> Vec<[u64; 4]> {
    let Call::Month { state, entries, .. } = call else {
        panic!("a month")
    };
    let (own, entries) = (state_of(state), entries_of(entries));
    let right = factors(&own.soil, own.deficit, &entries);
    let survivals = RATES.map(|k| survival_nearest(right.n, k));
    let (kind, activity) = (own.soil.kind, entries.activity);
    let grams = [entries.plant as u64, entries.manure as u64];
    let bring = |grams: [u64; 2]| grams.map(|grams| brought(grams, activity));
    let after = |modern: [u64; 4], [plant, manure]: [u64; 2]| {
        let pools = decayed(modern, &survivals, right.clay).0;
        added(pools, kind, plant, manure)
    };
    let left = own.modern.map(month_left);
    // Each share of the carbon by the activity.
    let (plant_shares, manure_shares) = (split_plant(kind, grams[0]), split_manure(grams[1]));
    let mut by_shares = decayed(left, &survivals, right.clay).0;
    for (pool, share) in [
        (0, plant_shares.0),
        (1, plant_shares.1),
        (0, manure_shares.0),
        (1, manure_shares.1),
        (3, manure_shares.2),
    ] {
        by_shares[pool] += brought(share, activity);
    }
    let together = brought(grams[0] + grams[1], activity) - bring(grams)[0];
    vec![
        // No loss; the loss after the decay; a loss of the additions; one rounded up.
        after(own.modern, bring(grams)),
        added(
            decayed(own.modern, &survivals, right.clay)
                .0
                .map(month_left),
            kind,
            bring(grams)[0],
            bring(grams)[1],
        ),
        after(left, bring(grams).map(month_left)),
        after(left.map(|grams| grams + 1), bring(grams)),
        // Split before the activity; plant and manure together; the nearest whole number.
        by_shares,
        after(left, [bring(grams)[0], together]),
        after(
            left,
            grams.map(|grams| (grams * activity as u64 + 500) / 1_000),
        ),
        // The carbon's pools.
        after(own.soil.pools, grams),
    ]
}

/// Months whose modern grams have nothing to do with their carbon; any of the slips would show.
fn month_modern_drawn(sheet: &mut Sheet) {
    sheet.group("M: drawn months with modern grams of their own; slips in each step would show");
    let mut draw = Draw::new(103);
    let mut made = 0;
    while made < 80 {
        let mut state = drawn_state(&mut draw, 100_000_000);
        state[MONTHS] = draw.below(119_999);
        for pool in 0..4 {
            let largest = [0, 90, 9_000_000, 190_000_000][draw.below(4) as usize];
            state[MODERN + pool] = draw.below(largest + 1);
            // Pools without carbon may have modern grams too.
            if draw.below(8) == 0 {
                state[POOLS + pool] = 0;
            }
        }
        let mut entries = drawn_entries(&mut draw);
        entries[TEMPERATURE] = draw.between(-50, 400);
        entries[PLANT] = draw.between(0, 40_000_000);
        entries[MANURE] = draw.between(0, 40_000_000);
        entries[ACTIVITY] = draw.between(1, 2_000);
        let call = fixed_pools(month(state, state[MONTHS] + 1, entries));
        let (answer, _) = call.fixed_answer();
        let at = 1 + OUTPUT_NUMBERS + MODERN;
        if modern_slips(&call)
            .iter()
            .all(|slip| answer[at..at + 4] != slip[..])
        {
            sheet.runs(call);
            made += 1;
        }
    }
}

// ---- L: a list of months ----

fn list(weather: &[i64], land: &[i64], output: usize, state: StateNumbers) -> Call {
    Call::List {
        weather: weather.to_vec(),
        land: land.to_vec(),
        output,
        state,
    }
}

/// New state of the small soil.
fn fresh() -> StateNumbers {
    new_state(SOIL)
}

fn new_state(soil: SoilNumbers) -> StateNumbers {
    let mut own = [0; OWN_NUMBERS];
    own[..SOIL_NUMBERS].copy_from_slice(&soil);
    own[MODERN..].copy_from_slice(&soil[POOLS..INERT]);
    lent_state(own, 0)
}

fn rows<const N: usize>(row: [i64; N], count: usize) -> Vec<i64> {
    row.repeat(count)
}

const COLD: WeatherRow = [-60, 0, 0, 0];
const MAY: WeatherRow = [110, 520, 830, 0];
const BARE: LandRow = [0, 0, 0, 1_000];
const CROP: LandRow = [1, 610, 0, 1_000];

/// 3: rows 0, 1, 2, 3, 1200, 1201 of either list, weather or land not in fours.
fn list_rows(sheet: &mut Sheet) {
    sheet.group("L: rows 0, 1, 2, 3, 1200, 1201 of either list; weather or land not in fours");
    let state = fresh();
    for count in [1, 2, 3] {
        for other in [1, 2, 3] {
            sheet.runs(list(
                &rows(MAY, count),
                &rows(CROP, other),
                other * 7,
                state,
            ));
        }
    }
    let none: [i64; 0] = [];
    sheet.refused_at(3, 0, list(&none, &none, 0, state));
    // Threes that are no fours among them.
    for count in [0, 1, 2, 3, 5, 6, 7, 9, 10, 11, 15, 18] {
        sheet.refused_at(3, 0, list(&rows(MAY, 5)[..count], &CROP, 7, state));
    }
    for count in [0, 1, 2, 3, 5, 6, 7, 9, 15, 18, 21] {
        sheet.refused_at(3, 0, list(&MAY, &rows(CROP, 6)[..count], 42, state));
    }
    // Four rows of three numbers are three of four.
    sheet.runs(list(&MAY, &[0; 12], 28, state));
    // 1,200 rows of each: tiny pools keep it fixed. Weather of 1,200 rows for one month.
    let tiny = changed(fresh(), &weighed([90, 80, 70, 60]));
    let year = [
        [34, 740, 80, 0],
        [110, 520, 830, 0],
        [160, 340, 1030, 0],
        [-60, 580, 690, 0],
    ]
    .concat();
    let field = [
        [0, 0, 0, 1_000],
        [1, 30, 0, 1_000],
        [1, 0, 9, 1_000],
        [0, 0, 0, 1_000],
    ]
    .concat();
    sheet.runs(list(&year, &field.repeat(300), 8_400, tiny));
    sheet.runs(list(&rows(COLD, 1_200), &CROP, 7, tiny));
    sheet.runs(list(&year.repeat(300), &field.repeat(300), 8_401, tiny));
    // 1,201 rows, and one number beside 1,200 rows.
    for count in [4_804, 4_801, 4_799] {
        sheet.refused_at(3, 0, list(&rows(COLD, 1_201)[..count], &CROP, 7, tiny));
    }
    for count in [4_804, 4_801, 4_799] {
        sheet.refused_at(3, 0, list(&COLD, &rows([0; 4], 1_201)[..count], 8, tiny));
    }
}

/// 8: output one number too short, exact, longer; the rest stays as it was.
fn list_output(sheet: &mut Sheet) {
    sheet.group("L: output one too short, exact, longer (the rest stays), none at all");
    for count in [1, 2, 5] {
        let land = rows(CROP, count);
        let exact = count * 7;
        for output in [exact, exact + 1, exact + 6, exact + 7, exact + 20] {
            sheet.runs(list(&MAY, &land, output, STATE));
        }
        for output in [exact - 1, exact - 7, 0, count * 4] {
            sheet.refused_at(8, 0, list(&MAY, &land, output, STATE));
        }
        // Against all land rows, even where month 1 would be refused.
        let land = [&[2, 0, 0, 1_000], &land[4..]].concat();
        sheet.refused_at(8, 0, list(&MAY, &land, exact - 1, STATE));
        sheet.refused_at(15, 1, list(&MAY, &land, exact, STATE));
    }
    sheet.refused_at(8, 0, list(&COLD, &rows(BARE, 1_200), 8_399, STATE));
}

/// Faults outside the months and their order: 3, 4 to 7, 8, 10, then the months.
fn list_outside(sheet: &mut Sheet) {
    sheet.group("L: state faults 4 to 7 and 10, and the order 3, 4 to 7, 8, 10, months");
    let land = rows(CROP, 2);
    let limit = deficit_limit(&STATE);
    let faults: [(u64, &[(usize, u64)]); 18] = [
        (4, &[(CLAY, 1001)]),
        (4, &[(CLAY, u64::MAX)]),
        (5, &[(DEPTH, 0)]),
        (5, &[(DEPTH, 101)]),
        (6, &[(KIND, 0)]),
        (6, &[(KIND, 4)]),
        (7, &[(POOLS, CEILING + 1)]),
        (7, &[(POOLS, u64::MAX), (POOLS + 1, 1)]),
        (7, &[(INERT, CEILING + 1)]),
        (10, &[(DEFICIT, limit + 1)]),
        (10, &[(DEFICIT, u64::MAX)]),
        (10, &[(MONTHS, 120_001)]),
        (10, &[(MONTHS, u64::MAX)]),
        (10, &[(CO2, CEILING + 10 * A_MONTH)]),
        (10, &[(CO2, u64::MAX)]),
        (10, &[(MONTHS, 0), (CO2, CEILING)]),
        (10, &[(KEPT, 25)]),
        (10, &[(KEPT, u64::MAX)]),
    ];
    for (number, changes) in faults {
        let state = changed(STATE, changes);
        sheet.refused_at(number, 0, list(&MAY, &land, 14, state));
        // Against a month's fault: the state comes first.
        sheet.refused_at(
            number,
            0,
            list(&[501, -1, -1, 2], &[2, -1, -1, -1], 7, state),
        );
        // Against 8: 4 to 7 come first, 10 doesn't.
        let first = if number == 10 { 8 } else { number };
        sheet.refused_at(first, 0, list(&MAY, &land, 13, state));
        // Against 3: that comes first.
        sheet.refused_at(3, 0, list(&MAY[..3], &land, 14, state));
    }
    sheet.refused_at(3, 0, list(&MAY, &land[..7], 0, STATE));
    // D at M and CO2 at its bound run.
    sheet.runs(list(&MAY, &land, 14, changed(STATE, &[(DEFICIT, limit)])));
    let active = 1_533 + 44_852 + 6_671 + 258_576;
    let most = CEILING + 10 * A_MONTH - active;
    sheet.runs(list(&MAY, &land, 14, changed(STATE, &[(CO2, most)])));
}

/// Months refused at 1, in the middle and at the end: the place, the state after the months
/// before it and their rows. 12 at place 1 and later. The earliest month wins, then the number that
/// is asked first.
fn list_months(sheet: &mut Sheet) {
    sheet.group("L: months refused at 1, in the middle, at the end; 12 at 1 and later");
    let weather = rows(MAY, 5);
    let land = rows(CROP, 5);
    let faults: [(u64, Option<WeatherRow>, Option<LandRow>); 26] = [
        (13, Some([-401, 0, 0, 0]), None),
        (13, Some([501, 0, 0, 0]), None),
        (13, Some([i64::MIN; 4]), None),
        (14, Some([93, -1, 0, 0]), None),
        (14, Some([93, 20_001, 0, 0]), None),
        (14, Some([93, 0, -1, 0]), None),
        (14, Some([93, 0, 20_001, 0]), None),
        (14, Some([93, i64::MIN, i64::MAX, 0]), None),
        (14, Some([93, 0, 20_001, 2]), Some([2, -1, -1, -1])),
        (19, Some([93, 0, 0, -1]), None),
        (19, Some([93, 0, 0, 2]), None),
        (19, Some([93, 0, 0, i64::MIN]), None),
        (19, Some([93, 0, 0, i64::MAX]), Some([2, 0, 0, 1_000])),
        (19, Some([93, 0, 0, 2]), Some([-1, -1, -1, -1])),
        (15, None, Some([-1, 0, 0, 1_000])),
        (15, None, Some([2, 0, 0, 1_000])),
        (16, None, Some([0, -1, 0, 1_000])),
        (16, None, Some([1, 100_000_001, 0, 1_000])),
        (16, None, Some([0, 0, i64::MIN, 1_000])),
        (16, None, Some([0, i64::MAX, i64::MAX, 1_000])),
        (16, None, Some([0, 0, -1, 2_001])),
        (21, None, Some([0, 0, 0, -1])),
        (21, None, Some([1, 5, 0, 2_001])),
        (21, None, Some([1, 0, 100_000_000, i64::MIN])),
        (13, Some([501, -1, 0, 2]), Some([2, -1, -1, -1])),
        (15, None, Some([2, -1, -1, -1])),
    ];
    for (index, (number, sky, field)) in faults.iter().enumerate() {
        for place in [1, 3, 5] {
            let (mut weather, mut land) = (weather.clone(), land.clone());
            if let Some(row) = sky {
                weather[place * 4 - 4..place * 4].copy_from_slice(row);
            }
            if let Some(row) = field {
                land[place * 4 - 4..place * 4].copy_from_slice(row);
            }
            // A lower number in a later month doesn't matter.
            if index % 2 == 1 && place < 5 {
                weather[16..20].copy_from_slice(&[-401, -1, -1, -1]);
            }
            let output = 35 + index % 3;
            sheet.refused_at(*number, place as u64, list(&weather, &land, output, STATE));
        }
    }
    // 17: in frost the pools only grow, by 100,000,000 a month.
    let grow = rows([0, 60_000_000, 40_000_000, 1_000], 5);
    for (active, place) in [(950_000_000, 1), (700_000_001, 3), (500_000_001, 5)] {
        let state = changed(fresh(), &pools([active, 0, 0, 0]));
        sheet.refused_at(17, place, list(&COLD, &grow, 35, state));
    }
    sheet.runs(list(
        &COLD,
        &grow,
        35,
        changed(fresh(), &pools([500_000_000, 0, 0, 0])),
    ));
    // 12 at places 1, 2, 4 and 6; the months before it ran.
    let land = rows(CROP, 7);
    for (months, place) in [(120_000, 1), (119_999, 2), (119_997, 4), (119_995, 6)] {
        let state = changed(STATE, &[(MONTHS, months)]);
        sheet.refused_at(12, place, list(&MAY, &land, 49, state));
        // 12 before 13 to 16 of its own month, an earlier month's fault before 12.
        let row = place as usize * 4;
        let mut faulty = land.clone();
        faulty[row - 4..row].copy_from_slice(&[2, -1, -1, -1]);
        sheet.refused_at(12, place, list(&MAY, &faulty, 49, state));
        if place > 1 {
            faulty[row - 8] = 2;
            sheet.refused_at(15, place - 1, list(&MAY, &faulty, 49, state));
        }
        // Only as many months as are left.
        let left = (place as usize - 1) * 4;
        if left > 0 {
            sheet.runs(list(&MAY, &land[..left], 49, state));
        }
    }
    sheet.runs(list(
        &MAY,
        &land[..20],
        35,
        changed(STATE, &[(MONTHS, 119_995)]),
    ));
}

/// Weather that wraps round, from the list's first month on; weather rows that no month uses
/// aren't checked.
fn list_weather(sheet: &mut Sheet) {
    sheet.group("L: weather wraps round; faulty weather rows that no month uses don't refuse");
    let skies = [
        [34, 740, 80, 0],
        [110, 520, 830, 0],
        [160, 340, 1030, 0],
        [158, 550, 910, 0],
        [62, 750, 160, 0],
    ]
    .concat();
    for count in 1..=5 {
        for months in [1, 2, 4, 5, 6, 11] {
            sheet.runs(list(
                &skies[..count * 4],
                &rows(CROP, months),
                months * 7,
                STATE,
            ));
        }
    }
    for (number, bad) in [
        (13, [501, 0, 0, 0]),
        (13, [-401, 0, 0, 0]),
        (14, [0, -1, 0, 0]),
        (14, [0, 0, 20_001, 0]),
        (13, [i64::MIN, i64::MAX, i64::MIN, i64::MIN]),
        (19, [0, 0, 0, 2]),
        (19, [0, 0, 0, -1]),
    ] {
        for good in 1..=3 {
            let weather = [&skies[..good * 4], &bad, &bad].concat();
            // As many months as good rows, then one more.
            sheet.runs(list(&weather, &rows(CROP, good), good * 7, STATE));
            let land = rows(CROP, good + 1);
            let place = good as u64 + 1;
            sheet.refused_at(number, place, list(&weather, &land, good * 7 + 7, STATE));
        }
    }
}

/// Lists within the bounds, drawn until they are fixed.
fn list_drawn(sheet: &mut Sheet) {
    sheet.group("L: drawn lists of up to 40 months, all kinds, with rest in the output");
    drawn_lists(sheet, 59, 24, |weather| weather);
}

/// So many drawn lists that are fixed, their weather as `sky` makes it.
fn drawn_lists(sheet: &mut Sheet, seed: u64, count: usize, sky: fn(Vec<i64>) -> Vec<i64>) {
    let mut draw = Draw::new(seed);
    let mut made = 0;
    while made < count {
        let mut state = drawn_state(&mut draw, 900_000);
        state[MONTHS] = draw.below(119_900);
        let weather = sky(drawn_weather(&mut draw, 1 + made % 13));
        let months = 1 + draw.below(40) as usize;
        let land = drawn_land(&mut draw, months, 60_000);
        let output = months * 7 + draw.below(9) as usize;
        made += usize::from(sheet.runs_if_fixed(list(&weather, &land, output, state)));
    }
}

/// These weather rows, the first of every two by evapotranspiration.
fn by_turns(mut weather: Vec<i64>) -> Vec<i64> {
    for rows in weather.chunks_mut(2 * WEATHER_NUMBERS) {
        rows[SOURCE] = 1;
    }
    weather
}

/// Weather by the pan, by evapotranspiration and by turns that all dries the same: 3 tenths stand
/// for 4 of the pan.
fn alike_skies(count: usize) -> [Vec<i64>; 3] {
    let pan = [
        [34, 740, 80, 0],
        [110, 520, 832, 0],
        [160, 340, 1_032, 0],
        [62, 750, 160, 0],
    ];
    [[0, 0], [1, 1], [0, 1]].map(|sources| {
        let skies = (0..count).map(|index| {
            let [temperature, rain, evaporation, _] = pan[index % 4];
            match sources[index % 2] {
                0 => [temperature, rain, evaporation, 0],
                _ => [temperature, rain, evaporation / 4 * 3, 1],
            }
        });
        skies.flatten().collect()
    })
}

/// Both sources in one list.
fn list_sources(sheet: &mut Sheet) {
    sheet.group("L: drawn lists with both sources, wrapping round");
    drawn_lists(sheet, 73, 16, by_turns);
    sheet.group("L: 4 tenths of the open pan and 3 of evapotranspiration: the same rows and state");
    for count in 1..=4 {
        let land = [CROP, BARE, CROP, BARE, BARE, CROP].concat();
        sheet.alike(&alike_skies(count).map(|weather| list(&weather, &land, 43, STATE)));
    }
}

/// What a list does to the kept count.
fn list_kept(sheet: &mut Sheet) {
    sheet.group("L: each month that ran is kept, up to 24; refused with place 0 keeps nothing");
    for kept in [0, 1, 12, 22, 23, 24] {
        let state = changed(STATE, &[(KEPT, kept)]);
        for months in [1, 2, 3, 23, 24, 25, 40] {
            sheet.runs(list(&COLD, &rows(CROP, months), months * 7, state));
            assert_eq!(sheet.answer()[2 + KEPT], (kept + months as u64).min(24));
        }
        // Refused at months 1, 2 and 4: none, 1 and 3 are kept.
        for place in [1, 2, 4] {
            let mut land = rows(CROP, 5);
            land[place * 4 - 4] = 2;
            sheet.refused_at(15, place as u64, list(&COLD, &land, 35, state));
            assert_eq!(sheet.answer()[2 + KEPT], (kept + place as u64 - 1).min(24));
        }
        sheet.refused_at(8, 0, list(&COLD, &CROP, 6, state));
        sheet.refused_at(3, 0, list(&COLD, &CROP[..3], 7, state));
    }
    for kept in [25, 26, 1 << 32] {
        let state = changed(STATE, &[(KEPT, kept)]);
        sheet.refused_at(10, 0, list(&COLD, &CROP, 7, state));
        sheet.refused_at(8, 0, list(&COLD, &CROP, 6, state));
        // 10 before 12, and before a fault of the first month.
        let late = changed(state, &[(MONTHS, 120_000)]);
        sheet.refused_at(10, 0, list(&COLD, &CROP, 7, late));
        sheet.refused_at(10, 0, list(&COLD, &[2, 0, 0, 1_000], 7, state));
        sheet.refused_at(
            7,
            0,
            list(&COLD, &CROP, 6, changed(state, &[(INERT, CEILING + 1)])),
        );
    }
}

/// An answer without the modern grams of its state.
fn carbon_only(call: &Call, answer: &[u64]) -> Vec<u64> {
    let at = call.state_at().expect("a state");
    let mut answer = answer[..].to_vec();
    answer[at + MODERN..at + KEPT].fill(0);
    for place in answer[at + PLACES..at + STATE_NUMBERS].chunks_mut(OWN_NUMBERS) {
        place[MODERN..].fill(0);
    }
    answer
}

/// Calls that run, alike but for activities and modern grams: the same carbon.
fn same_carbon(sheet: &mut Sheet, calls: &[Call]) {
    let mut wanted = None;
    for call in calls {
        sheet.runs(call.clone());
        let carbon = carbon_only(call, sheet.answer());
        assert_eq!(wanted.get_or_insert_with(|| carbon.clone()), &carbon);
    }
}

/// Each land row has its own activity, and carbon doesn't depend on any.
fn list_activity(sheet: &mut Sheet) {
    sheet.group("L: lists alike but for activities and modern grams: the same rows and carbon");
    let skies = [MAY, [160, 340, 1_030, 1], [34, 740, 80, 0]].concat();
    let ways: [fn(usize) -> i64; 5] = [
        |_| 1_000,
        |_| 0,
        |_| 2_000,
        |row| [2_000, 0, 1_999][row % 3],
        |row| row as i64 * 137 % 2_001,
    ];
    for months in [1, 5, 14] {
        let lists: Vec<Call> = (0..ways.len())
            .map(|index| {
                let land: Vec<i64> = (0..months)
                    .flat_map(|row| [(row % 2) as i64, 610, 990, ways[index](row)])
                    .collect();
                let grams = [0, 1, 900, 70_000, 5].map(|grams| [grams; 4])[index];
                let state = changed(STATE, &modern(grams));
                list(&skies, &land, months * 7 + 1, state)
            })
            .collect();
        same_carbon(sheet, &lists);
    }
    sheet.group("L: 21 at months 1, 3 and 5: the months before it ran; an earlier fault wins");
    for place in [1, 3, 5] {
        for activity in BAD_ACTIVITIES {
            let mut land = rows(CROP, 5);
            land[place * 4 - 1] = activity;
            sheet.refused_at(21, place as u64, list(&MAY, &land, 35, STATE));
            if place < 5 {
                // A lower number in a later month doesn't matter, 16 of its own does.
                land[16] = 2;
                sheet.refused_at(21, place as u64, list(&MAY, &land, 35, STATE));
                land[place * 4 - 2] = -1;
                sheet.refused_at(16, place as u64, list(&MAY, &land, 35, STATE));
            }
        }
        // 17 of an earlier month, then of the same.
        let mut grow = rows([0, 60_000_000, 40_000_000, 1_500], 5);
        grow[place * 4 - 1] = 2_001;
        let state = changed(fresh(), &pools([700_000_001, 0, 0, 0]));
        let (number, at) = if place < 5 { (21, place) } else { (17, 3) };
        sheet.refused_at(number, at as u64, list(&COLD, &grow, 35, state));
    }
}

/// A list starts at the limit of modern grams, and its months never pass it.
fn list_modern_limit(sheet: &mut Sheet) {
    sheet.group("L: modern grams at 10's limit run with the most that months bring; 10 after 8");
    let most = rows([0, 100_000_000, 100_000_000, 2_000], 3);
    for months in [0, 119_996] {
        for pool in [0, 3] {
            let mut grams = [0; 4];
            grams[pool] = CEILING + MODERN_A_MONTH * months;
            let state = changed(fresh(), &[&modern(grams)[..], &[(MONTHS, months)]].concat());
            sheet.runs(list(&COLD, &most, 21, state));
            let over = changed(state, &[(MODERN + 1, 1)]);
            sheet.refused_at(10, 0, list(&COLD, &most, 21, over));
            sheet.refused_at(8, 0, list(&COLD, &most, 20, over));
            sheet.refused_at(3, 0, list(&COLD, &most[..11], 21, over));
            // Before a fault of the first month, also its activity.
            for row in [[2, 0, 0, 0], [0, 0, 0, -1]] {
                sheet.refused_at(10, 0, list(&COLD, &row, 7, over));
            }
            let deep = changed(over, &[(DEPTH, 101)]);
            sheet.refused_at(5, 0, list(&COLD, &most, 20, deep));
        }
    }
    for grams in [[u64::MAX, 1, 0, 0], [1 << 62; 4]] {
        let state = changed(STATE, &modern(grams));
        sheet.refused_at(10, 0, list(&COLD, &BARE, 7, state));
    }
}

/// A state that nothing refuses, with pools up to this and up to 24 kept.
fn drawn_state(draw: &mut Draw, largest: u64) -> StateNumbers {
    let mut state = lent_state([0; OWN_NUMBERS], draw.below(25));
    state[CLAY] = draw.below(1001);
    state[DEPTH] = 1 + draw.below(100);
    state[KIND] = 1 + draw.below(3);
    for pool in 0..5 {
        state[POOLS + pool] = draw.below(largest + 1);
    }
    state[DEFICIT] = draw.below(deficit_limit(&state) + 1);
    weigh(draw, &mut state);
    state
}

fn drawn_weather(draw: &mut Draw, count: usize) -> Vec<i64> {
    (0..count)
        .flat_map(|_| {
            [
                draw.between(-90, 320),
                draw.between(0, 1500),
                draw.between(0, 1800),
                0,
            ]
        })
        .collect()
}

fn drawn_land(draw: &mut Draw, count: usize, largest: i64) -> Vec<i64> {
    (0..count)
        .flat_map(|_| {
            let mut addition = || {
                if draw.below(2) == 0 {
                    0
                } else {
                    draw.between(0, largest)
                }
            };
            let (plant, manure) = (addition(), addition());
            [draw.between(0, 1), plant, manure, drawn_activity(draw)]
        })
        .collect()
}

/// An activity that nothing refuses: mostly 1000, else an end or any.
fn drawn_activity(draw: &mut Draw) -> i64 {
    match draw.below(8) {
        0 => [0, 1, 1_999, 2_000][draw.below(4) as usize],
        1..=3 => draw.between(0, 2_000),
        _ => 1_000,
    }
}

/// Modern grams of pools, each of an activity up to 1.2.
fn drawn_modern(draw: &mut Draw, pools: &[u64]) -> [u64; 4] {
    std::array::from_fn(|pool| match draw.below(4) {
        0 => pools[pool],
        _ => pools[pool] * draw.below(1_201) / 1_000,
    })
}

/// Puts drawn modern grams beside a state's pools.
fn weigh(draw: &mut Draw, state: &mut StateNumbers) {
    let modern = drawn_modern(draw, &state[POOLS..INERT]);
    state[MODERN..KEPT].copy_from_slice(&modern);
}

// ---- S: spin-up ----

fn spin(weather: &[i64], land: &[i64], years: u64, state: StateNumbers) -> Call {
    Call::SpinUp {
        weather: weather.to_vec(),
        land: land.to_vec(),
        years,
        state,
    }
}

/// Twelve bare rows with these grams of plant in the first.
fn first_month(plant: i64) -> Vec<i64> {
    let mut land = rows(BARE, 12);
    land[1] = plant;
    land
}

/// Faults outside the months: 3, 4 to 7, 9, 10 in this order, place 0.
fn spin_outside(sheet: &mut Sheet) {
    sheet.group(
        "S: 48 numbers each or not, state faults, years 0 and 10,001; the order 3, 4 to 7, 9, 10",
    );
    let (weather, land) = (rows(COLD, 12), rows(BARE, 12));
    for count in [0, 4, 12, 36, 44, 47, 49, 52, 96] {
        sheet.refused_at(3, 0, spin(&rows(COLD, 24)[..count], &land, 5, STATE));
    }
    for count in [0, 3, 12, 36, 44, 45, 47, 49, 52, 96] {
        sheet.refused_at(3, 0, spin(&weather, &rows(BARE, 24)[..count], 5, STATE));
    }
    // Three numbers a row, in both.
    sheet.refused_at(3, 0, spin(&rows(COLD, 9), &rows(BARE, 9), 5, STATE));
    for years in [0, 10_001, 10_002, u64::MAX, 1 << 63, (1 << 32) + 1] {
        sheet.refused_at(9, 0, spin(&weather, &land, years, STATE));
    }
    let limit = deficit_limit(&STATE);
    let faults: [(u64, &[(usize, u64)]); 13] = [
        (4, &[(CLAY, 1001)]),
        (5, &[(DEPTH, 0)]),
        (5, &[(DEPTH, 101)]),
        (6, &[(KIND, 0)]),
        (7, &[(POOLS + 3, CEILING + 1)]),
        (7, &[(POOLS, 1 << 63), (POOLS + 2, 1 << 63)]),
        (7, &[(INERT, u64::MAX)]),
        (10, &[(DEFICIT, limit + 1)]),
        (10, &[(MONTHS, 120_001)]),
        (10, &[(CO2, CEILING + 10 * A_MONTH)]),
        (10, &[(CO2, u64::MAX)]),
        (10, &[(KEPT, 25)]),
        (10, &[(KEPT, u64::MAX)]),
    ];
    for (number, changes) in faults {
        let state = changed(STATE, changes);
        sheet.refused_at(number, 0, spin(&weather, &land, 5, state));
        // Against a month's fault, 9 and 3.
        let faulty = [&[2, -1, -1, 1_000], &land[4..]].concat();
        sheet.refused_at(number, 0, spin(&weather, &faulty, 5, state));
        let first = if number == 10 { 9 } else { number };
        for years in [0, 10_001] {
            sheet.refused_at(first, 0, spin(&weather, &land, years, state));
        }
        sheet.refused_at(3, 0, spin(&weather, &land[..44], 0, state));
    }
}

/// A spin-up that ends settled (1) or unsettled (0) after so many years.
fn settled(sheet: &mut Sheet, is: u64, years: u64, call: Call) {
    sheet.runs(call);
    assert_eq!(sheet.answer()[1..3], [is, years]);
}

/// Settled in the first year and not at all, by frost: the years run and the state reached.
fn spin_years(sheet: &mut Sheet) {
    sheet.group("S: settled at 1,000 g more and not at 1,001 g; years 1, 2, 10,000");
    let weather = rows(COLD, 12);
    for years in [1, 2, 3, 10_000] {
        // Nothing changes, and 1,000 g more: settled after one year.
        for plant in [0, 999, 1_000] {
            settled(
                sheet,
                1,
                1,
                spin(&weather, &first_month(plant), years, STATE),
            );
        }
    }
    // 1,001 g more a year never settles.
    for years in [1, 2, 3, 40] {
        settled(
            sheet,
            0,
            years,
            spin(&weather, &first_month(1_001), years, STATE),
        );
    }
    let empty = changed(fresh(), &pools([0; 4]));
    settled(
        sheet,
        0,
        10_000,
        spin(&weather, &first_month(1_001), 10_000, empty),
    );
    // Only the year's end counts: a gain spread over the months.
    let spread: Vec<i64> = (0..12)
        .flat_map(|j| [1, 40, 43 + i64::from(j < 4), 1_000])
        .collect();
    settled(sheet, 1, 1, spin(&weather, &spread, 9, STATE));
    let mut more = spread.clone();
    more[11 * 4 + 2] += 1;
    settled(sheet, 0, 9, spin(&weather, &more, 9, STATE));
}

/// No crop and no additions.
const FALLOW: LandRow = [0, 0, 0, 0];

/// Twelve fallow rows, but for months (from 1) with plant and manure.
fn bringing(months: &[(usize, i64, i64)]) -> Vec<i64> {
    let mut land = rows(FALLOW, 12);
    for (month, plant, manure) in months {
        let row = &mut land[(month - 1) * LAND_NUMBERS..month * LAND_NUMBERS];
        row[1..].copy_from_slice(&[*plant, *manure, 1_000]);
    }
    land
}

/// A spin-up of a year with one warm month, its first, and eleven frozen ones, on the small soil
/// of this kind, from pools that its first year changes by so many grams, where there are such.
fn changing_if_any(
    kind: u64,
    warm: WeatherRow,
    land: &[i64],
    changes: [i64; 4],
    years: u64,
) -> Option<Call> {
    let soil = changed(SOIL, &[(KIND, kind)]);
    let weather = [&warm[..], &rows(COLD, 11)].concat();
    let own = measured::pools(&soil_of(&soil), 0, &weather, land, changes, &mut Nearest)?;
    let state = changed(new_state(soil), &weighed(own));
    Some(spin(&weather, land, years, state))
}

fn changing(kind: u64, land: &[i64], changes: [i64; 4], years: u64) -> Call {
    changing_if_any(kind, JULY, land, changes, years).expect("pools that can lose as much")
}

/// The changes of a spin-up's first year: four pools, and the total.
fn first_changes(call: &Call) -> [i64; 5] {
    let soils = years_of(call, &mut Nearest).0;
    let [start, end] = [&soils[0], &soils[1]];
    std::array::from_fn(|index| match index {
        4 => end.total() as i64 - start.total() as i64,
        pool => end.pools[pool] as i64 - start.pools[pool] as i64,
    })
}

/// The soils with which the years of a spin-up begin, and the last of them ends, and its answer.
fn years_of(call: &Call, survival: &mut dyn Survival) -> (Vec<Soil>, Vec<u64>) {
    let (mut soils, mut months) = (Vec::new(), 0);
    let answer = call.answer(FILL, survival, &mut |state, _| {
        if months % 12 == 0 {
            soils.push(state.soil.clone());
        }
        months += 1;
    });
    assert_eq!(answer[0], 0, "{}", call.line());
    soils.push(soil_of(&answer[3..]));
    (soils, answer)
}

/// The same spin-up with so many years allowed.
fn allowed(call: &Call, years: u64) -> Call {
    let Call::SpinUp {
        weather,
        land,
        state,
        ..
    } = call
    else {
        panic!("a spin-up")
    };
    spin(weather, land, years, *state)
}

/// Hot, and so wet that the deficit is 0.
const JULY: WeatherRow = [300, 500, 300, 0];

/// Each active pool by itself. What July takes comes back with the additions, so that a pool is
/// far from its start within the year; only the year's end counts.
fn spin_pools(sheet: &mut Sheet) {
    sheet.group("S: each active pool 1,000 or 1,001 g from its start, the total within 1,000 g");
    let land = bringing(&[(1, 9_000, 0), (5, 7_000, 2_000), (12, 4_000, 8_000)]);
    let mut turn = 0;
    for kind in 1..=3 {
        for pool in 0..4 {
            for change in [1_000i64, -1_000, 1_001, -1_001] {
                // The other three come to what the total lacks.
                let total = [250, -1_000, 0, 1_000, -999][turn % 5];
                let rest = total - change;
                let mut changes = [rest / 3; 4];
                changes[(pool + 1) % 4] = rest - 2 * (rest / 3);
                changes[pool] = change;
                let is = u64::from(change.abs() == 1_000);
                let years = if is == 1 { [1, 7, 10_000][turn % 3] } else { 1 };
                let call = changing(kind, &land, changes, years);
                let [dpm, rpm, bio, hum, all] = first_changes(&call);
                assert_eq!(([dpm, rpm, bio, hum], all), (changes, total));
                settled(sheet, is, 1, call);
                turn += 1;
            }
        }
    }
}

/// The total by itself.
fn spin_totals(sheet: &mut Sheet) {
    sheet.group("S: the total 1,000 or 1,001 g from its start, each pool within 1,000 g");
    let land = bringing(&[(1, 9_000, 3_000), (8, 11_000, 7_000)]);
    let mut turn = 0;
    let mut put = |sheet: &mut Sheet, is: u64, changes: [i64; 4]| {
        for sign in [1, -1] {
            let years = if is == 1 { [1, 2, 9][turn % 3] } else { 1 };
            let kind = 1 + turn as u64 % 3;
            let changes = changes.map(|change| sign * change);
            settled(sheet, is, 1, changing(kind, &land, changes, years));
            turn += 1;
        }
    };
    for changes in [
        [250, 250, 250, 250],
        [1_000, 0, 0, 0],
        [0, 1_000, 0, 0],
        [0, 0, 1_000, 0],
        [0, 0, 0, 1_000],
        [1_000, 1_000, -1_000, 0],
        [-1_000, 999, 1_000, 1],
        [400, -1_000, 600, 1_000],
    ] {
        put(sheet, 1, changes);
        // One gram more, in a pool that may have it.
        let mut more = changes;
        let room = (0..4)
            .find(|pool| more[*pool].abs() < 1_000)
            .expect("a pool with room");
        more[room] += 1;
        put(sheet, 0, more);
    }
    for changes in [
        [1_000; 4],
        [334; 4],
        [0, 1_000, 0, 1_000],
        [1_000, 0, 1_000, -999],
    ] {
        put(sheet, 0, changes);
    }
}

/// Pools that move against each other, so that the total stays.
fn spin_against(sheet: &mut Sheet) {
    sheet.group("S: one pool falls and another rises by as much, 1,000 or 1,001 g");
    let land = bringing(&[(2, 16_000, 0), (7, 2_000, 9_000)]);
    for down in 0..4 {
        for up in (0..4).filter(|up| *up != down) {
            for (grams, is) in [(1_000, 1), (1_001, 0)] {
                let mut changes = [0; 4];
                (changes[down], changes[up]) = (-grams, grams);
                let kind = 1 + (down + up) as u64 % 3;
                settled(sheet, is, 1, changing(kind, &land, changes, 1));
            }
        }
    }
    // Residue falls while humus rises, and the other way round; far more than 1,000 g.
    sheet.group("S: residue falls while humus rises by as much, 999 to 20,000 g, and back");
    for grams in [999, 1_000, 1_001, 1_002, 2_000, 5_000, 20_000] {
        let land = bringing(&[(1, 8_000 + 14 * grams, 0), (9, 0, grams)]);
        let is = u64::from(grams <= 1_000);
        for (turn, sign) in [1, -1].into_iter().enumerate() {
            let kind = 1 + (grams as u64 + turn as u64) % 3;
            let residue = [0, -sign * grams, 0, sign * grams];
            settled(sheet, is, 1, changing(kind, &land, residue, 1));
            // Over all four, each pool at most that.
            let (half, tenth) = (grams / 2, grams / 10);
            let all = [half - grams, -half, tenth, grams - tenth].map(|change| sign * change);
            let is = u64::from(grams - tenth <= 1_000);
            settled(sheet, is, 1, changing(kind, &land, all, 1));
        }
    }
}

/// The first years that settle by the total, by the pools and by both, counted from 1.
struct Firsts {
    total: usize,
    pools: usize,
    both: usize,
}

/// Those of a spin-up that settles, or nothing.
fn firsts(call: &Call) -> Option<Firsts> {
    let (soils, answer) = years_of(call, &mut Known::new(&mut Nearest));
    let first = |rule: fn(&Soil, &Soil) -> bool| {
        let year = soils.windows(2).position(|year| rule(&year[0], &year[1]));
        year.map_or(usize::MAX, |year| year + 1)
    };
    (answer[1] == 1).then(|| Firsts {
        total: first(total_settles),
        pools: first(pools_settle),
        both: first(year_settles),
    })
}

/// Does each month of this spin-up keep the same for all allowed S?
fn is_fixed(call: &Call) -> bool {
    call.fixed_answer().1
}

/// A small light field: more residue than its plant carbon holds up, and less humus.
fn small_light_field(draw: &mut Draw) -> Call {
    let mut state = changed(
        fresh(),
        &pools([
            draw.below(4_000),
            20_000 + draw.below(120_000),
            draw.below(9_000),
            draw.below(90_000),
        ]),
    );
    state[CLAY] = draw.below(300);
    state[KIND] = 1 + draw.below(3);
    // Without modern grams, and with activity 0, no month has more to keep than carbon.
    state[MODERN..KEPT].fill(0);
    let weather: Vec<i64> = (0..12)
        .flat_map(|_| {
            [
                draw.between(-70, 180),
                draw.between(200, 1_200),
                draw.between(0, 1_100),
                0,
            ]
        })
        .collect();
    let most = draw.between(500, 4_000);
    let land: Vec<i64> = (0..12)
        .flat_map(|_| match draw.below(3) {
            0 => FALLOW,
            _ => [1, draw.between(0, most), 0, 0],
        })
        .collect();
    spin(&weather, &land, 150, state)
}

/// The total settles first, the pools years later.
fn spin_pools_later(sheet: &mut Sheet) {
    let mut draw = Draw::new(2605);
    for (shows, years, fields) in [
        (
            "S: the total settles first, a pool keeps the field going: up to 9 years",
            2..=9,
            5,
        ),
        (
            "S: the total settles first, a pool keeps the field going: 10 to 29 years",
            10..=29,
            5,
        ),
        (
            "S: the total settles first, a pool keeps the field going: 30 to 59 years",
            30..=59,
            4,
        ),
        (
            "S: the total settles first, a pool keeps the field going: 60 years and more",
            60..=150,
            3,
        ),
    ] {
        sheet.group(shows);
        let mut made = 0;
        while made < fields {
            let call = small_light_field(&mut draw);
            let Some(first) = firsts(&call) else { continue };
            let wanted = first.total < first.both && years.contains(&first.both);
            if !wanted || !is_fixed(&call) {
                continue;
            }
            made += 1;
            let (total, both) = (first.total as u64, first.both as u64);
            settled(sheet, 0, total, allowed(&call, total));
            if total < both - 1 {
                settled(sheet, 0, both - 1, allowed(&call, both - 1));
            }
            settled(sheet, 1, both, allowed(&call, both));
            settled(sheet, 1, both, allowed(&call, 10_000));
        }
    }
}

/// The pools settle first, the total years later.
fn spin_total_later(sheet: &mut Sheet) {
    sheet.group("S: the pools settle first, the total keeps the field going for years");
    let mut draw = Draw::new(5);
    for years in [
        3..=5,
        3..=5,
        6..=15,
        6..=15,
        16..=30,
        16..=30,
        31..=60,
        61..=90,
    ] {
        loop {
            let sign = [1, -1][draw.below(2) as usize];
            let changes = [0; 4].map(|_| sign * draw.between(0, 1_000));
            let mut warm = JULY;
            warm[TEMPERATURE] = draw.between(60, 300);
            let land = bringing(&[(1, draw.between(7_000, 30_000), 0), (6, 0, 4_000)]);
            let kind = 1 + draw.below(3);
            let call = changing_if_any(kind, warm, &land, changes, 90);
            let Some(call) = call else { continue };
            let Some(first) = firsts(&call) else { continue };
            let (pools, both) = (first.pools as u64, first.both as u64);
            let wanted = pools + 1 < both && years.contains(&both);
            if !wanted || first.total < first.both || !is_fixed(&call) {
                continue;
            }
            settled(sheet, 0, pools, allowed(&call, pools));
            settled(sheet, 0, both - 1, allowed(&call, both - 1));
            settled(sheet, 1, both, allowed(&call, both + 9));
            break;
        }
    }
}

/// The first year that settles ends it, though a later one wouldn't settle.
fn spin_first_year(sheet: &mut Sheet) {
    sheet.group("S: the first year that settles counts: the year after it wouldn't settle");
    let mut draw = Draw::new(2_605);
    // The year after it is kept from settling by a pool alone or by the total alone. It settles
    // after one year or after more: of the latter up to four, as many as 4,000
    // draws give.
    let mut left = [[4, 4], [4, 4]];
    let mut tried = 0;
    while left.concat().iter().sum::<i32>() > 0 && tried < 4_000 {
        tried += 1;
        let late = draw.below(2) as usize;
        let most = [1_000, 1_600][late];
        let changes = [0; 4].map(|_| draw.between(-most, most));
        let mut warm = JULY;
        warm[TEMPERATURE] = draw.between(60, 300);
        let land = bringing(&[(1, draw.between(9_000, 30_000), 0), (6, 0, 4_000)]);
        let kind = 1 + draw.below(3);
        let call = changing_if_any(kind, warm, &land, changes, 12);
        let Some(call) = call else { continue };
        let (_, answer) = years_of(&call, &mut Known::new(&mut Nearest));
        let (is, years) = (answer[1], answer[2]);
        if is == 0 || (years > 1) != (late == 1) {
            continue;
        }
        // The same field from where it settled, for a year.
        let mut state = [0; STATE_NUMBERS];
        state.copy_from_slice(&answer[3..]);
        let Call::SpinUp { weather, land, .. } = &call else {
            continue;
        };
        let next = spin(weather, land, 1, state);
        let soils = years_of(&next, &mut Known::new(&mut Nearest)).0;
        let [total, own] = [total_settles, pools_settle].map(|rule| rule(&soils[0], &soils[1]));
        let by = match (total, own) {
            (true, false) => 0,
            (false, true) => 1,
            _ => continue,
        };
        if left[late][by] == 0 || !is_fixed(&call) || !is_fixed(&next) {
            continue;
        }
        left[late][by] -= 1;
        settled(sheet, 1, years, allowed(&call, years));
        settled(sheet, 1, years, call);
        settled(sheet, 0, 1, next);
    }
    assert!(left[0] == [0, 0] && left[1][0] < 4, "{left:?}");
}

/// What stands beside the active pools: IOM, months done, the kept count, modern grams.
fn spin_beside_pools(sheet: &mut Sheet) {
    let land = bringing(&[(1, 9_000, 0), (6, 9_000, 5_000)]);
    let at_limit = [1_000, -1_000, 700, 300];
    let past = [0, -1_001, 0, 1_001];
    sheet.group("S: IOM at its limits, kept counts, months done and CO2: none of them counts");
    let limit = deficit_limit(&STATE);
    for changes in [
        vec![(INERT, 0)],
        vec![(INERT, 1)],
        vec![(INERT, CEILING)],
        vec![(KEPT, 1)],
        vec![(KEPT, 24)],
        vec![(MONTHS, 119_988)],
        vec![(MONTHS, 10), (CO2, CEILING)],
    ] {
        for (own, is) in [(at_limit, 1), (past, 0)] {
            let mut call = changing(2, &land, own, 1);
            if let Call::SpinUp { state, .. } = &mut call {
                *state = changed(*state, &changes);
            }
            settled(sheet, is, 1, call);
            assert_eq!(sheet.answer()[3 + KEPT], 0);
        }
    }
    // The deficit moves by far more than 1,000 parts, and ends elsewhere than it began.
    for deficit in [1_001, limit] {
        let state = changed(STATE, &[(DEFICIT, deficit)]);
        let wet = rows([-60, 1, 0, 0], 12);
        settled(sheet, 1, 1, spin(&wet, &first_month(1_000), 3, state));
        settled(sheet, 0, 3, spin(&wet, &first_month(1_001), 3, state));
    }
    sheet.group("S: modern grams move by far more than 1,000 g and don't count");
    for (grams, activity) in [
        (0, 2_000),
        (90_000, 0),
        (90_000, 2_000),
        (30_000_000, 1_000),
    ] {
        for (own, is) in [(at_limit, 1), (past, 0)] {
            let mut call = changing(3, &land, own, 1);
            if let Call::SpinUp { state, land, .. } = &mut call {
                *state = changed(*state, &modern([grams; 4]));
                land[ACTIVITY - COVER] = activity;
                land[5 * LAND_NUMBERS + ACTIVITY - COVER] = activity;
            }
            // Of the largest, those that are fixed.
            while !is_fixed(&call) {
                let Call::SpinUp { state, .. } = &mut call else {
                    break;
                };
                state[MODERN..KEPT].iter_mut().for_each(|grams| *grams -= 1);
            }
            settled(sheet, is, 1, call);
            let Call::SpinUp { state, .. } = &sheet.last().call else {
                panic!("a spin-up")
            };
            let moved = |pool: &usize| sheet.answer()[3 + pool].abs_diff(state[*pool]) > 1_000;
            assert!((MODERN..KEPT).filter(moved).count() >= 2);
        }
    }
    // A year that the total alone would have settled goes on into a month that is refused.
    sheet.group("S: the total settles, a pool doesn't, and a later year's month is refused");
    for years in [2, 3, 10_000] {
        for (own, number) in [(at_limit, 0), (past, 12)] {
            let mut call = changing(1, &land, own, years);
            if let Call::SpinUp { state, .. } = &mut call {
                state[MONTHS] = 119_988;
            }
            match number {
                0 => settled(sheet, 1, 1, call),
                _ => sheet.refused_at(number, 13, call),
            }
        }
    }
    // Residue falls and humus rises for years: 12 in one of the last two years
    // that it needs, or just in time.
    let land = bringing(&[(1, 28_000, 0), (9, 0, 2_000)]);
    let call = changing(1, &land, [0, -1_500, 0, 1_500], 150);
    let years = firsts(&call).expect("a field that settles").both as u64;
    assert!(years > 2);
    for (late, is) in [(0, 1), (1, 0), (12, 0), (13, 0)] {
        let mut call = call.clone();
        if let Call::SpinUp { state, .. } = &mut call {
            state[MONTHS] = 120_000 - 12 * years + late;
        }
        match is {
            1 => settled(sheet, 1, years, call),
            _ => sheet.refused_at(12, 12 * years - late + 1, call),
        }
    }
}

/// The two light fields of change 2026-05 for as many years as are fixed: each pool up to 9 kg less
/// than the field's, without modern grams, and activity 0.
fn spin_light(sheet: &mut Sheet) {
    sheet.group("S: the light fields, their pools up to 9 kg less, in the first 11 and 8 years");
    let year = hoosfield();
    for (clay, plant, grams, most, by_total) in [
        (40, 260_000, [200_000, 7_499_573, 399_973, 7_997_376], 11, 3),
        (60, 270_000, [200_000, 8_999_568, 399_973, 9_991_003], 8, 8),
    ] {
        let [dpm, rpm, bio, hum] = grams;
        let soil = [clay, 23, 1, dpm, rpm, bio, hum, 1_500_000];
        let state = changed(new_state(soil), &modern([0; 4]));
        let mut land = year.land.clone();
        for row in land.chunks_mut(LAND_NUMBERS) {
            let own = row[1].signum() * plant;
            row[1..].copy_from_slice(&[own, 0, 0]);
        }
        for years in 1..=most {
            settled(sheet, 0, years, spin(&year.weather, &land, years, state));
        }
        // The total alone would have ended it.
        let (soils, _) = years_of(&sheet.last().call, &mut Known::new(&mut Nearest));
        let total = |year: &[Soil]| total_settles(&year[0], &year[1]);
        assert_eq!(soils.windows(2).position(total), Some(by_total - 1));
    }
}

/// Refused in the first and in later years: the place counted over all years, the starting state.
fn spin_places(sheet: &mut Sheet) {
    sheet.group("S: refused in the first and in later years, the place counted over all years");
    let weather = rows(COLD, 12);
    // The earliest faulty month of the year, at places 1, 5 and 12.
    for place in [1, 5, 12] {
        for (number, at, value) in [
            (13, TEMPERATURE, 501),
            (13, TEMPERATURE, -401),
            (14, RAIN, -1),
            (14, EVAPORATION, 20_001),
            (19, SOURCE, 2),
            (19, SOURCE, -1),
            (19, SOURCE, i64::MAX),
        ] {
            let mut weather = weather.clone();
            weather[(place - 1) * WEATHER_NUMBERS + at] = value;
            sheet.refused_at(
                number,
                place as u64,
                spin(&weather, &rows(CROP, 12), 10, STATE),
            );
        }
        for (number, at, value) in [
            (15, 0, 2),
            (15, 0, i64::MIN),
            (16, 1, -1),
            (16, 2, i64::MAX),
            (21, 3, 2_001),
            (21, 3, i64::MIN),
        ] {
            let mut land = rows(CROP, 12);
            land[(place - 1) * LAND_NUMBERS + at] = value;
            sheet.refused_at(number, place as u64, spin(&weather, &land, 10, STATE));
        }
    }
    // 17 in year 4, month 5: place 41. And in other years, with the gain in other months.
    for (start, month, place) in [
        (600_000_001, 5, 41),
        (600_000_000, 5, 53),
        (900_000_001, 1, 1),
        (900_000_001, 12, 12),
        (900_000_000, 1, 13),
        (100_000_000, 12, 120),
    ] {
        let mut land = rows(BARE, 12);
        land[month * 4 - 3] = 100_000_000;
        let state = changed(fresh(), &pools([start, 0, 0, 0]));
        sheet.refused_at(17, place, spin(&weather, &land, 10_000, state));
    }
    // One year fewer: not refused.
    let mut land = rows(BARE, 12);
    land[17] = 100_000_000;
    let state = changed(fresh(), &pools([600_000_001, 0, 0, 0]));
    sheet.runs(spin(&weather, &land, 3, state));
    // 12: from 120,000 months done at place 1, from 119,990 at 11, after whole years at 13 and 25.
    let land = first_month(5_000);
    for (months, place) in [
        (120_000, 1),
        (119_990, 11),
        (119_989, 12),
        (119_988, 13),
        (119_976, 25),
    ] {
        let state = changed(STATE, &[(MONTHS, months)]);
        sheet.refused_at(12, place, spin(&weather, &land, 10, state));
        // A year that settles in time ends it; so do fewer years.
        if place > 12 {
            sheet.runs(spin(&weather, &first_month(0), 10, state));
            sheet.runs(spin(&weather, &land, place / 12, state));
        }
    }
    // 10,000 years are 120,000 months: with one month done the last is refused.
    let one = changed(fresh(), &[(MONTHS, 1)]);
    sheet.refused_at(12, 120_000, spin(&weather, &land, 10_000, one));
}

/// Spin-ups with decay, drawn until they are fixed: settled in the first and in later years, and
/// not.
fn spin_drawn(sheet: &mut Sheet) {
    sheet.group("S: drawn spin-ups with decay, settled in the first or a later year, or unsettled");
    drawn_spin_ups(sheet, 61, 10, |weather| weather);
}

/// So many drawn spin-ups of each of the three sorts, their weather as `sky` makes it.
fn drawn_spin_ups(sheet: &mut Sheet, seed: u64, each: usize, sky: fn(Vec<i64>) -> Vec<i64>) {
    let mut draw = Draw::new(seed);
    let mut made = [0; 3];
    while made.iter().sum::<usize>() < 3 * each {
        // Small pools settle at once, larger ones later or not.
        let (largest, addition) =
            [(900, 90), (9_000, 900), (150_000, 3_000)][draw.below(3) as usize];
        let mut state = drawn_state(&mut draw, largest);
        state[MONTHS] = draw.below(100_000);
        let weather = sky(drawn_weather(&mut draw, 12));
        let land = drawn_land(&mut draw, 12, addition);
        let call = spin(&weather, &land, 1 + draw.below(30), state);
        let (answer, fixed) = call.fixed_answer();
        let sort = match (answer[1], answer[2]) {
            (1, 1) => 0,
            (1, _) => 1,
            _ => 2,
        };
        if fixed && made[sort] < each {
            made[sort] += 1;
            sheet.put(call, answer);
        }
    }
}

/// Both sources in one spin-up.
fn spin_sources(sheet: &mut Sheet) {
    sheet.group("S: drawn spin-ups with both sources");
    drawn_spin_ups(sheet, 79, 4, by_turns);
    sheet
        .group("S: 4 tenths of the open pan and 3 of evapotranspiration: the same years and state");
    let tiny = changed(fresh(), &weighed([900, 800, 700, 600]));
    for plant in [0, 400, 3_000] {
        let land = first_month(plant);
        sheet.alike(&alike_skies(12).map(|weather| spin(&weather, &land, 3, tiny)));
    }
}

/// What a spin-up does to the kept count.
fn spin_kept(sheet: &mut Sheet) {
    sheet.group("S: settled or unsettled none is kept, refused all stay; above 24 is 10 after 9");
    let weather = rows(COLD, 12);
    for kept in [0, 1, 23, 24] {
        let state = changed(STATE, &[(KEPT, kept)]);
        for (plant, settled) in [(0, 1), (1_001, 0)] {
            sheet.runs(spin(&weather, &first_month(plant), 2, state));
            assert_eq!(sheet.answer()[1], settled);
            assert_eq!(sheet.answer()[3 + KEPT], 0);
        }
        let full = changed(state, &pools([950_000_000, 0, 0, 0]));
        let mut wrong = first_month(0);
        wrong[4] = 2;
        for (number, place, call) in [
            (3, 0, spin(&weather, &wrong[4..], 2, state)),
            (9, 0, spin(&weather, &first_month(0), 0, state)),
            (15, 2, spin(&weather, &wrong, 2, state)),
            (17, 13, spin(&weather, &first_month(50_000_000), 2, full)),
        ] {
            sheet.refused_at(number, place, call);
            assert_eq!(sheet.answer()[3 + KEPT], kept);
        }
    }
    for kept in [25, 26, 1 << 63] {
        let state = changed(STATE, &[(KEPT, kept)]);
        sheet.refused_at(10, 0, spin(&weather, &first_month(0), 1, state));
        sheet.refused_at(9, 0, spin(&weather, &first_month(0), 0, state));
        sheet.refused_at(9, 0, spin(&weather, &first_month(0), 10_001, state));
        sheet.refused_at(10, 0, spin(&weather, &first_month(-1), 1, state));
        let late = changed(state, &[(MONTHS, 120_000)]);
        sheet.refused_at(10, 0, spin(&weather, &first_month(0), 1, late));
        let deep = changed(state, &[(DEPTH, 101)]);
        sheet.refused_at(5, 0, spin(&weather, &first_month(0), 1, deep));
    }
}

/// Modern grams in spin-ups: they don't settle a year, and a refusal leaves them.
fn spin_modern(sheet: &mut Sheet) {
    sheet.group("S: alike but for activities and modern grams: the same years and carbon");
    let weather = [&MAY[..], &rows(COLD, 11)].concat();
    let tiny = changed(fresh(), &weighed([900, 800, 700, 600]));
    for plant in [0, 700, 3_000] {
        let spins: Vec<Call> = [(1_000, 900), (0, 0), (2_000, 90_000), (1_999, 5)]
            .into_iter()
            .map(|(activity, grams)| {
                let mut land = first_month(plant);
                land[3] = activity;
                spin(&weather, &land, 4, changed(tiny, &modern([grams; 4])))
            })
            .collect();
        same_carbon(sheet, &spins);
    }
    // Modern grams that rise by far more than 1,000 a year, and that only fall.
    let cold = rows(COLD, 12);
    let mut land = first_month(1_000);
    land[3] = 2_000;
    for grams in [0, 300, 1_200_000_000] {
        sheet.runs(spin(&cold, &land, 5, changed(STATE, &modern([grams; 4]))));
        assert_eq!(sheet.answer()[1..3], [1, 1]);
    }
    sheet.group("S: 21 at its month counted over all years; 10 for modern grams after 9");
    for place in [1, 5, 12] {
        for activity in BAD_ACTIVITIES {
            let mut land = first_month(5_000);
            land[place * 4 - 1] = activity;
            sheet.refused_at(21, place as u64, spin(&cold, &land, 3, STATE));
        }
    }
    let mut land = rows(BARE, 12);
    land[17] = 100_000_000;
    land[31] = 2_001;
    let state = changed(fresh(), &pools([900_000_001, 0, 0, 0]));
    sheet.refused_at(17, 5, spin(&cold, &land, 9, state));
    sheet.refused_at(21, 8, spin(&cold, &land, 9, fresh()));
    let over = changed(STATE, &modern([u64::MAX, 1, 0, 0]));
    sheet.refused_at(10, 0, spin(&cold, &land, 9, over));
    sheet.refused_at(9, 0, spin(&cold, &land, 0, over));
    sheet.refused_at(3, 0, spin(&cold, &land[..36], 9, over));
    for (months, pool) in [(0, 1), (10, 2)] {
        let mut grams = [0; 4];
        grams[pool] = CEILING + MODERN_A_MONTH * months;
        let state = changed(fresh(), &[&modern(grams)[..], &[(MONTHS, months)]].concat());
        sheet.runs(spin(&cold, &first_month(0), 9, state));
        grams[(pool + 1) % 4] = 1;
        let over = changed(state, &modern(grams));
        sheet.refused_at(10, 0, spin(&cold, &first_month(0), 9, over));
    }
}

// ---- B: taking a month back ----

/// A taking-back from this state, place p holding base + p.
fn back(state: StateNumbers, base: OwnNumbers) -> Call {
    let mut state = state;
    for (index, number) in state[PLACES..].iter_mut().enumerate() {
        let place = (index / OWN_NUMBERS) as u64;
        *number = base[index % OWN_NUMBERS].wrapping_add(place);
    }
    Call::TakeBack { state }
}

/// A base that tells the numbers of a kept state apart, and the places.
const BASE: OwnNumbers = [
    100, 200, 300, 400, 500, 600, 700, 800, 900, 1_000, 1_100, 1_200, 1_300, 1_400, 1_500,
];

/// A taking-back that restores place p.
fn restores(sheet: &mut Sheet, place: u64, state: StateNumbers, base: OwnNumbers) {
    sheet.runs(back(state, base));
    let wanted = base.map(|number| number.wrapping_add(place));
    assert_eq!(sheet.answer()[1..=OWN_NUMBERS], wanted);
    assert_eq!(sheet.answer()[1 + KEPT], state[KEPT] - 1);
}

/// Which place is restored, by the months done.
fn back_places(sheet: &mut Sheet) {
    sheet
        .group("B: months done from 0 to the end of u64 and the place restored; kept counts to 24");
    for (months, place) in [
        (0, 23),
        (1, 0),
        (2, 1),
        (12, 11),
        (23, 22),
        (24, 23),
        (25, 0),
        (26, 1),
        (47, 22),
        (48, 23),
        (49, 0),
        (119_999, 22),
        (120_000, 23),
        (120_001, 0),
        // 2^32 and 2^64 are 16 over a multiple of 24, 2^63 is 8 over one: a sum that wraps would
        // give another place.
        ((1 << 32) - 1, 14),
        (1 << 32, 15),
        (1 << 63, 7),
        (u64::MAX - 16, 22),
        (u64::MAX - 15, 23),
        (u64::MAX - 14, 0),
        (u64::MAX - 1, 13),
        (u64::MAX, 14),
    ] {
        for kept in [1, 24] {
            let state = changed(STATE, &[(MONTHS, months), (KEPT, kept)]);
            restores(sheet, place, state, BASE);
        }
    }
    for kept in 1..=24 {
        restores(sheet, 9, changed(STATE, &[(KEPT, kept)]), BASE);
    }
}

/// 20 with none kept, before 10; 10 above 24; all stays.
fn back_refused(sheet: &mut Sheet) {
    sheet.group("B: 20 with none kept, 10 with more than 24, whatever the other numbers are");
    let wrong: [OwnNumbers; 5] = [
        [0; OWN_NUMBERS],
        [u64::MAX; OWN_NUMBERS],
        [1 << 63; OWN_NUMBERS],
        [
            5_000,
            0,
            4,
            u64::MAX,
            1,
            CEILING,
            CEILING,
            CEILING + 1,
            u64::MAX,
            120_001,
            u64::MAX,
            u64::MAX,
            1,
            0,
            1 << 63,
        ],
        [
            1_001,
            101,
            0,
            CEILING + 1,
            0,
            0,
            0,
            u64::MAX,
            1 << 62,
            u64::MAX,
            1 << 63,
            48_001_000_000_001,
            0,
            u64::MAX,
            1,
        ],
    ];
    for (number, kept) in [(20, 0), (10, 25), (10, 26), (10, 48)] {
        for months in [0, 1, 23, 24, 25, 120_000, 120_001, u64::MAX] {
            let state = changed(STATE, &[(MONTHS, months), (KEPT, kept)]);
            sheet.refused(number, back(state, BASE));
        }
        for own in wrong {
            sheet.refused(number, back(lent_state(own, kept), BASE));
            sheet.refused(number, back(lent_state(own, kept), own));
        }
    }
    for kept in ENDS {
        sheet.refused(10, back(changed(STATE, &[(KEPT, kept)]), BASE));
        sheet.refused(10, back(lent_state(wrong[1], kept), wrong[1]));
    }
}

/// Nothing but the count is asked: neither the state that goes nor the one that comes.
fn back_unchecked(sheet: &mut Sheet) {
    sheet.group("B: neither the state taken back nor the kept one is checked; sums that wrap");
    for (index, value) in [
        (CLAY, 5_000),
        (CLAY, u64::MAX),
        (DEPTH, 0),
        (DEPTH, 101),
        (KIND, 0),
        (KIND, 4),
        (POOLS, CEILING + 1),
        (POOLS + 3, u64::MAX),
        (INERT, CEILING + 1),
        (DEFICIT, u64::MAX),
        (MONTHS, 120_001),
        (CO2, u64::MAX),
        (MODERN, u64::MAX),
        (MODERN + 1, CEILING + 4_000_000_001),
        (MODERN + 3, 1 << 63),
    ] {
        let state = changed(STATE, &[(index, value), (KEPT, 3)]);
        let place = (state[MONTHS] % 24 + 23) % 24;
        restores(sheet, place, state, BASE);
        restores(
            sheet,
            9,
            changed(STATE, &[(KEPT, 24)]),
            changed(BASE, &[(index, value)]),
        );
        restores(sheet, place, state, changed(BASE, &[(index, value)]));
    }
    for own in [0, u64::MAX, u64::MAX - 8, u64::MAX - 9, 1 << 63] {
        let state = lent_state([own; OWN_NUMBERS], 1);
        let place = (own % 24 + 23) % 24;
        restores(sheet, place, state, [own; OWN_NUMBERS]);
        restores(sheet, 9, changed(STATE, &[(KEPT, 1)]), [own; OWN_NUMBERS]);
    }
    // The kept state's own months don't matter: they needn't be one less.
    for months in [0, 9, 10, 120_000, u64::MAX] {
        restores(
            sheet,
            9,
            changed(STATE, &[(KEPT, 2)]),
            changed(BASE, &[(MONTHS, months)]),
        );
    }
}

// ---- H: histories ----

fn history(soil: SoilNumbers, acts: &[Act]) -> Call {
    Call::History {
        soil,
        acts: acts.to_vec(),
    }
}

/// The state at the end of the last line, a history.
fn end(sheet: &Sheet) -> &[u64] {
    let answer = sheet.answer();
    &answer[answer.len() - STATE_NUMBERS..]
}

/// A history on the small soil in which just these acts (from 1) are refused, with these numbers.
fn told(sheet: &mut Sheet, acts: &[Act], refused: &[(usize, u64)]) {
    told_on(sheet, SOIL, acts, refused);
}

fn told_on(sheet: &mut Sheet, soil: SoilNumbers, acts: &[Act], refused: &[(usize, u64)]) {
    sheet.runs(history(soil, acts));
    let mut wanted = vec![0; acts.len()];
    for (act, number) in refused {
        wanted[act - 1] = *number;
    }
    assert_eq!(sheet.answer()[1..=acts.len()], wanted, "{acts:?}");
}

const BACK: Act = Act::TakeBack;

fn booked(number: u64, entries: EntryNumbers) -> Act {
    Act::Month { number, entries }
}

/// The months of a farm's year, in turn.
fn farm(number: u64) -> Act {
    const YEAR: [EntryNumbers; 12] = [
        [34, 740, 80, 0, 0, 0, 0, 1_000],
        [36, 590, 100, 0, 0, 0, 0, 1_000],
        [51, 620, 270, 0, 1, 0, 0, 1_000],
        [73, 510, 370, 1, 1, 120, 0, 1_036],
        [110, 520, 830, 0, 1, 340, 0, 987],
        [139, 570, 990, 0, 1, 560, 0, 1_250],
        [160, 340, 770, 1, 1, 1_780, 0, 1_821],
        [160, 550, 910, 0, 1, 0, 0, 1_000],
        [133, 580, 690, 0, 0, 0, 2_400, 650],
        [102, 560, 255, 1, 0, 0, 0, 1_000],
        [61, 750, 160, 0, 0, 0, 0, 1_000],
        [46, 710, 80, 0, 0, 0, 0, 1_000],
    ];
    booked(number, YEAR[(number as usize - 1) % 12])
}

/// A farm's months from the first of these numbers to the last.
fn farmed(first: u64, last: u64) -> Vec<Act> {
    (first..=last).map(farm).collect()
}

/// A farm's month with this manure.
fn manured(number: u64, manure: i64) -> Act {
    let Act::Month { number, entries } = farm(number) else {
        unreachable!()
    };
    booked(number, changed(entries, &[(MANURE, manure)]))
}

/// February's slip comes in after March is booked: both are taken back and booked afresh. The first
/// time it is the field's first month, so that the new state comes back.
fn history_late_slip(sheet: &mut Sheet) {
    sheet.group(
        "H: February's slip after March, both taken back and booked afresh; then the same with the \
         slip in time: all 376 numbers are equal, as the places taken back are written again",
    );
    let slip = 18_500;
    for before in [0, 1, 25, 37] {
        let february = before + 1;
        let late = [
            &farmed(1, before)[..],
            &[farm(february), farm(february + 1), BACK, BACK],
            &[manured(february, slip), farm(february + 1)],
        ];
        told(sheet, &late.concat(), &[]);
        let late = end(sheet).to_vec();
        let in_time = [
            &farmed(1, before)[..],
            &[manured(february, slip), farm(february + 1)],
        ];
        told(sheet, &in_time.concat(), &[]);
        assert_eq!(end(sheet), late);
        assert_eq!(late[KEPT], (before + 2).min(24));
    }
    sheet.group(
        "H: the slip as a month of its own is 11 under February's number; months taken back and \
         not booked again: the state is that of the months that remain, kept count and places \
         differ",
    );
    let run = farmed(1, 4);
    told(sheet, &[&run[..], &[manured(2, slip)]].concat(), &[(5, 11)]);
    told(
        sheet,
        &[&run[..], &[BACK, manured(5, slip)]].concat(),
        &[(6, 11)],
    );
    for (months, taken) in [(3, 1), (3, 3), (30, 5), (30, 24)] {
        let backs = vec![BACK; taken as usize];
        told(sheet, &[farmed(1, months), backs].concat(), &[]);
        let taken_back = end(sheet).to_vec();
        told(sheet, &farmed(1, months - taken), &[]);
        let alone = end(sheet);
        assert_eq!(taken_back[..OWN_NUMBERS], alone[..OWN_NUMBERS]);
        assert_eq!(alone[KEPT], (months - taken).min(24));
        assert_eq!(taken_back[KEPT], months.min(24) - taken);
        assert_ne!(taken_back[PLACES..], alone[PLACES..]);
    }
}

/// 24 months can be taken back, the 25th is 20.
fn history_limit(sheet: &mut Sheet) {
    sheet.group("H: 30 months by calls and by a list; 24 taken back, the 25th and 26th are 20");
    for taken in [23, 24, 25, 26] {
        let mut refused: Vec<(usize, u64)> = (31 + 24..=30 + taken).map(|act| (act, 20)).collect();
        told(
            sheet,
            &[farmed(1, 30), vec![BACK; taken]].concat(),
            &refused,
        );
        assert_eq!(end(sheet)[MONTHS], 30 - taken.min(24) as u64);
        refused.iter_mut().for_each(|(act, _)| *act -= 29);
        let list = vec![listed(30, MILD)];
        told(sheet, &[list, vec![BACK; taken]].concat(), &refused);
    }
    // After the 20 the months can be booked again.
    let again = [
        vec![listed(30, MILD)],
        vec![BACK; 25],
        farmed(7, 30),
        vec![BACK; 25],
    ];
    told(sheet, &again.concat(), &[(26, 20), (75, 20)]);
    // As many kept as months: 23, 24 and 25 months.
    for months in [23, 24, 25] {
        let backs = vec![BACK; months.min(24) + 1];
        let last = 1 + backs.len();
        told(
            sheet,
            &[vec![listed(months, MILD)], backs].concat(),
            &[(last, 20)],
        );
    }
}

fn listed(months: usize, entries: EntryNumbers) -> Act {
    Act::List { months, entries }
}

/// 20 on a new state; a refused soil leaves memory on which the acts are made all the same.
fn history_none_kept(sheet: &mut Sheet) {
    sheet.group("H: taking back on a new state is 20 and changes nothing; acts on memory of 7s");
    told(sheet, &[], &[]);
    told(sheet, &[BACK], &[(1, 20)]);
    let acts = [BACK, BACK, farm(1), BACK, BACK, farm(1), farm(2)];
    told(sheet, &acts, &[(1, 20), (2, 20), (5, 20)]);
    for (number, place, value) in [(4, CLAY, 1_001), (7, INERT, CEILING + 1)] {
        // Kind 7 is 6; a kept count of 7 can be taken back seven times.
        let acts = [
            &[farm(8), listed(2, MILD), spun(1, MILD)][..],
            &[BACK; 8],
            &[farm(1), farm(8)],
        ];
        let soil = changed(SOIL, &[(place, value)]);
        sheet.refused(number, history(soil, &acts.concat()));
        let wanted = [number, 6, 6, 6, 0, 0, 0, 0, 0, 0, 0, 20, 6, 6];
        assert_eq!(sheet.answer()[..14], wanted);
        assert_eq!(end(sheet), changed([FILL; STATE_NUMBERS], &[(KEPT, 0)]));
    }
}

fn spun(years: u64, entries: EntryNumbers) -> Act {
    Act::SpinUp { years, entries }
}

/// A refused month keeps nothing.
fn history_refused_months(sheet: &mut Sheet) {
    sheet.group("H: refused months between others keep nothing, whatever their number");
    let wrong = [
        (13, TEMPERATURE, 501),
        (14, RAIN, -1),
        (14, EVAPORATION, 20_001),
        (19, SOURCE, 2),
        (15, COVER, -1),
        (16, PLANT, 100_000_001),
        (16, MANURE, -1),
        (21, ACTIVITY, 2_001),
    ];
    for (number, place, value) in wrong {
        let refused = booked(2, changed(MILD, &[(place, value)]));
        let acts = [farm(1), refused, refused, BACK, BACK];
        told(sheet, &acts, &[(2, number), (3, number), (5, 20)]);
    }
    // 11: the month just booked, one ahead, and a number of before the taking-back.
    let acts = [
        farm(1),
        farm(1),
        farm(3),
        farm(2),
        BACK,
        farm(3),
        BACK,
        BACK,
    ];
    told(sheet, &acts, &[(2, 11), (3, 11), (6, 11), (8, 20)]);
    // 17, and all of them among 26 months.
    let full = changed(SOIL, &[(POOLS, 0), (POOLS + 1, CEILING - 400_000)]);
    let gram = booked(2, [-60, 0, 0, 0, 0, 100_000_000, 0, 1_000]);
    let frost = |number: u64| booked(number, FROST);
    let acts = [frost(1), gram, frost(2), BACK, gram, BACK, BACK];
    told_on(sheet, full, &acts, &[(2, 17), (5, 17), (7, 20)]);
    let mut acts = Vec::new();
    let mut refused = Vec::new();
    for month in 1..=26 {
        let (number, place, value) = wrong[month % 8];
        refused.push((acts.len() + 1, number));
        acts.push(booked(month as u64, changed(MILD, &[(place, value)])));
        acts.push(farm(month as u64));
    }
    acts.extend([BACK; 25]);
    refused.push((acts.len(), 20));
    told(sheet, &acts, &refused);
}

/// A list keeps the state before each of its months that ran.
fn history_lists(sheet: &mut Sheet) {
    sheet.group("H: lists keep their months one by one; refused at month j they have kept j - 1");
    // A list and the same months one by one: all numbers are equal.
    for months in [1, 2, 24, 25, 41] {
        told(sheet, &[farm(1), listed(months, MILD)], &[]);
        let by_list = end(sheet).to_vec();
        let calls = (2..2 + months as u64).map(|number| booked(number, MILD));
        told(sheet, &[vec![farm(1)], calls.collect()].concat(), &[]);
        assert_eq!(end(sheet), by_list);
    }
    // In frost 100,000,000 g a month: 17 at month j.
    let grow = [-60, 0, 0, 0, 0, 60_000_000, 40_000_000, 2_000];
    for (active, ran) in [(950_000_000, 0), (900_000_000, 1), (700_000_000, 3)] {
        let soil = changed(SOIL, &pools([active, 0, 0, 0]));
        let acts = [vec![listed(5, grow)], vec![BACK; ran + 1]];
        told_on(sheet, soil, &acts.concat(), &[(1, 17), (ran + 2, 20)]);
        // After another month, and again after what was taken back.
        let acts = [
            vec![booked(1, [-60, 0, 0, 0, 0, 0, 0, 1_000]), listed(60, grow)],
            vec![BACK; ran],
            vec![listed(60, grow), BACK, listed(0, grow)],
        ];
        let list = 3 + ran;
        told_on(
            sheet,
            soil,
            &acts.concat(),
            &[(2, 17), (list, 17), (list + 2, 3)],
        );
    }
    // Refused with place 0, and at month 1: nothing is kept or lost.
    let wrong = changed(MILD, &[(COVER, 2)]);
    let acts = [farm(1), listed(0, MILD), listed(4, wrong), BACK, BACK];
    told(sheet, &acts, &[(2, 3), (3, 15), (5, 20)]);
    // 12: 119,988 months by spin-up, then a list refused at its 13th.
    let empty = changed(SOIL, &pools([0; 4]));
    let year = [-60, 0, 0, 0, 0, 100, 0, 1_000];
    let acts = [
        vec![spun(9_999, year), listed(20, year), booked(120_001, year)],
        vec![BACK, booked(120_000, FROST)],
        vec![BACK; 13],
    ];
    told_on(sheet, empty, &acts.concat(), &[(2, 12), (3, 12), (18, 20)]);
}

/// A spin-up ends with none kept unless it is refused.
fn history_spin_ups(sheet: &mut Sheet) {
    sheet.group("H: a spin-up clears the kept count, settled or not; refused it leaves all");
    let still = [-60, 0, 0, 0, 0, 0, 0, 1_000];
    let grows = [-60, 0, 0, 0, 0, 100, 0, 0];
    told(sheet, &farmed(1, 30), &[]);
    let before = end(sheet).to_vec();
    // Settled in the first year, unsettled after three.
    for (entries, months) in [(still, 12), (grows, 36)] {
        let acts = [
            farmed(1, 3),
            vec![spun(3, entries), BACK, farm(4 + months), BACK, BACK],
        ];
        told(sheet, &acts.concat(), &[(5, 20), (8, 20)]);
        assert_eq!(end(sheet)[MONTHS], 3 + months);
        // The places stay as the months before the spin-up left them.
        told(
            sheet,
            &[farmed(1, 30), vec![spun(3, entries)]].concat(),
            &[],
        );
        assert_eq!(end(sheet)[PLACES..], before[PLACES..]);
    }
    let wrong = changed(still, &[(EVAPORATION, -1)]);
    let fills = [-60, 0, 0, 0, 0, 100_000_000, 0, 1_000];
    for (number, act) in [
        (9, spun(0, still)),
        (9, spun(10_001, still)),
        (14, spun(2, wrong)),
        (17, spun(2, fills)),
    ] {
        let acts = [farmed(1, 3), vec![act, BACK, act, BACK, BACK, BACK]].concat();
        told(sheet, &acts, &[(4, number), (6, number), (9, 20)]);
    }
    // With decay, and months kept afresh after it.
    let acts = [
        farmed(1, 2),
        vec![spun(2, MILD)],
        farmed(27, 29),
        vec![BACK; 4],
    ]
    .concat();
    told(sheet, &acts, &[(10, 20)]);
}

/// Modern grams are kept and come back.
fn history_modern(sheet: &mut Sheet) {
    sheet.group("H: modern grams come back; months booked afresh with another activity");
    let with = |number: u64, activity: i64| {
        let Act::Month { entries, .. } = manured(number, 18_500) else {
            unreachable!()
        };
        booked(number, changed(entries, &[(ACTIVITY, activity)]))
    };
    for before in [0, 3, 25] {
        let number = before + 1;
        let run = farmed(1, before);
        let mut ends = Vec::new();
        for activity in [0, 1_000, 2_000] {
            told(sheet, &[&run[..], &[with(number, activity)]].concat(), &[]);
            let alone = end(sheet).to_vec();
            // Another activity first, taken back; and a faulty one, which keeps nothing.
            let acts = [
                &run[..],
                &[with(number, 1_500), BACK, with(number, 2_001)],
                &[with(number, activity)],
            ];
            let refused = before as usize + 3;
            told(sheet, &acts.concat(), &[(refused, 21)]);
            assert_eq!(end(sheet), alone);
            ends.push(alone);
        }
        // The activity shows in the modern grams and nowhere else.
        for other in &ends[1..] {
            assert_eq!(other[..MODERN], ends[0][..MODERN]);
            assert_eq!(other[KEPT..], ends[0][KEPT..]);
            assert_ne!(other[MODERN..KEPT], ends[0][MODERN..KEPT]);
        }
    }
    // By a list and by a spin-up, refused for an activity or not.
    let fallow = changed(MILD, &[(ACTIVITY, 0)]);
    let wrong = changed(MILD, &[(ACTIVITY, -1)]);
    let acts = [
        vec![farm(1), listed(5, fallow), listed(2, wrong), spun(1, wrong)],
        vec![BACK; 5],
    ];
    told(sheet, &acts.concat(), &[(3, 21), (4, 21)]);
    let taken = end(sheet).to_vec();
    told(sheet, &[farm(1)], &[]);
    assert_eq!(end(sheet)[..OWN_NUMBERS], taken[..OWN_NUMBERS]);
    let acts = [farm(1), spun(1, fallow), farm(14), BACK, BACK];
    told(sheet, &acts, &[(5, 20)]);
}

/// Drawn histories of all kinds of acts, refused ones among them.
fn history_drawn(sheet: &mut Sheet) {
    sheet.group("H: drawn histories of months, lists, spin-ups and takings-back");
    let mut draw = Draw::new(89);
    let mut made = 0;
    while made < 14 {
        let state = drawn_state(&mut draw, 60_000);
        let soil = std::array::from_fn(|index| state[index]);
        let acts = drawn_acts(&mut draw, soil);
        made += usize::from(sheet.runs_if_fixed(history(soil, &acts)));
    }
}

/// Acts of all kinds; most months have the number that is next.
fn drawn_acts(draw: &mut Draw, soil: SoilNumbers) -> Vec<Act> {
    let mut state = new_state(soil);
    let mut acts: Vec<Act> = Vec::new();
    for _ in 0..12 + draw.below(20) {
        let mut entries = drawn_entries(draw);
        entries[SOURCE] = draw.between(0, 1);
        if draw.below(10) == 0 {
            entries[draw.below(8) as usize] = -401;
        }
        let next = state[MONTHS] + 1;
        let more = match draw.below(20) {
            0..=2 => vec![listed(draw.below(30) as usize, entries)],
            3 => vec![spun(draw.below(3), entries)],
            4 => vec![booked(next ^ 1, entries)],
            5..=9 => vec![BACK; 1 + draw.below(4) as usize],
            // One more than are kept.
            10 if state[KEPT] < 8 => vec![BACK; state[KEPT] as usize + 1],
            _ => vec![booked(next, entries)],
        };
        for act in &more {
            act.make(&mut state, FILL, &mut Nearest, &mut |_, _| ());
        }
        acts.extend(more);
    }
    acts.truncate(MOST_ACTS);
    acts
}

// ---- R: radiocarbon reports ----

fn report(state: StateNumbers, pool: u64) -> Call {
    Call::Report { state, pool }
}

/// Whether a report has an age.
const DATED: u64 = 0;
const OLDER: u64 = 1;
const NEWER: u64 = 2;

/// A report that says just this: delta, whether there is an age, the age.
fn says(sheet: &mut Sheet, state: StateNumbers, pool: u64, wanted: (i64, u64, u64)) {
    sheet.runs(report(state, pool));
    let (delta, dated, age) = wanted;
    assert_eq!(sheet.answer()[1..], [delta as u64, dated, age], "{pool}");
}

/// A state with these grams and modern grams in one active pool, others in the rest.
fn in_pool(pool: u64, carbon: u64, grams: u64) -> StateNumbers {
    let mut state = changed(STATE, &weighed([3, 1, 4, 1]));
    if carbon >= CEILING - 9 {
        state = changed(state, &weighed([0; 4]));
    }
    (state[MONTHS], state[CO2]) = (120_000, 0);
    (state[POOLS + pool as usize], state[MODERN + pool as usize]) = (carbon, grams);
    state
}

/// Every pool, and numbers that are none.
fn report_pools(sheet: &mut Sheet) {
    sheet.group("R: pools 0 to 3, IOM 4 and all five 5; above is 100, whatever the state");
    let hoosfield = new_state([
        234, 23, 1, 153_300, 4_485_200, 667_100, 25_857_600, 2_700_000,
    ]);
    for pool in 0..4 {
        says(sheet, hoosfield, pool, (0, DATED, 0));
    }
    // IOM: 2 thousandths. All five: 31,168,600 of 33,863,200.
    says(sheet, hoosfield, 4, (-99_800, DATED, 49_935));
    says(sheet, hoosfield, ALL, (-7_958, DATED, 667));
    for pool in 0..=ALL {
        sheet.runs(report(STATE, pool));
        // 12 doesn't concern a report, nor do the kept months up to 24.
        for (months, kept) in [(0, 24), (120_000, 1)] {
            sheet.runs(report(
                changed(STATE, &[(MONTHS, months), (KEPT, kept), (CO2, 0)]),
                pool,
            ));
        }
    }
    for pool in [6, 7, 8, 1 << 32, (1 << 32) + 5, u64::MAX - 1, u64::MAX] {
        for state in [
            STATE,
            changed(STATE, &[(CLAY, 1_001)]),
            changed(STATE, &[(KEPT, 25)]),
            changed(STATE, &weighed([0; 4])),
        ] {
            sheet.refused(WRONG_SHAPE, report(state, pool));
            assert_eq!(sheet.answer()[1..], [FILL; REPORT_NUMBERS]);
        }
    }
}

/// A report's refusals: 4 to 7 and 10 of the state, then 22.
fn report_refused(sheet: &mut Sheet) {
    sheet.group("R: 4 to 7 and 10 of the state whatever is asked, modern grams among them");
    let limit = deficit_limit(&STATE);
    let modern_limit = CEILING + 10 * MODERN_A_MONTH;
    let faults: [(u64, &[(usize, u64)]); 22] = [
        (4, &[(CLAY, 1_001)]),
        (4, &[(CLAY, u64::MAX)]),
        (5, &[(DEPTH, 0)]),
        (5, &[(DEPTH, 101)]),
        (6, &[(KIND, 0)]),
        (6, &[(KIND, 4)]),
        (7, &[(POOLS, CEILING + 1)]),
        (7, &[(POOLS, u64::MAX), (POOLS + 1, 1)]),
        (7, &[(INERT, CEILING + 1)]),
        (10, &[(DEFICIT, limit + 1)]),
        (10, &[(MONTHS, 120_001)]),
        (10, &[(MONTHS, u64::MAX)]),
        (10, &[(CO2, CEILING + 10 * A_MONTH + 1)]),
        (10, &[(CO2, u64::MAX)]),
        (10, &[(KEPT, 25)]),
        (10, &[(KEPT, u64::MAX)]),
        (10, &[(MODERN, modern_limit)]),
        (10, &[(MODERN + 1, modern_limit + 1)]),
        (10, &[(MODERN + 2, u64::MAX)]),
        (10, &[(MODERN, u64::MAX), (MODERN + 3, 1)]),
        (10, &[(MODERN + 1, 1 << 63), (MODERN + 2, 1 << 63)]),
        (10, &[(MONTHS, 0), (MODERN + 3, CEILING + 1)]),
    ];
    for (index, (number, changes)) in faults.into_iter().enumerate() {
        let pool = index as u64 % (ALL + 1);
        sheet.refused(number, report(changed(STATE, changes), pool));
        assert_eq!(sheet.answer()[1..], [FILL; REPORT_NUMBERS]);
        // Before 22.
        let none = changed(
            STATE,
            &[&pools([0; 4])[..], &[(INERT, 0)], changes].concat(),
        );
        sheet.refused(number, report(none, (pool + 1) % (ALL + 1)));
        sheet.refused(number, report(none, ALL));
    }
    sheet.group("R: two faults of 4 to 7 and 10 at once, the first asked wins");
    let ordered = [
        (4, (CLAY, 1_001)),
        (5, (DEPTH, 0)),
        (6, (KIND, 4)),
        (7, (INERT, CEILING + 1)),
        (10, (MODERN + 2, 1 << 62)),
    ];
    for (index, (number, first)) in ordered.into_iter().enumerate() {
        for (_, second) in &ordered[index + 1..] {
            sheet.refused(number, report(changed(STATE, &[first, *second]), ALL));
        }
    }
    sheet.group(
        "R: 22 on a pool without carbon, with modern grams or without; all five only if none",
    );
    for pool in 0..4u64 {
        let place = POOLS + pool as usize;
        for grams in [0, 5, CEILING] {
            let state = changed(STATE, &[(place, 0), (MODERN + pool as usize, grams)]);
            sheet.refused(22, report(state, pool));
            assert_eq!(sheet.answer()[1..], [FILL; REPORT_NUMBERS]);
            sheet.runs(report(state, ALL));
        }
        // One gram of this pool alone.
        let one = changed(
            STATE,
            &[&weighed([0; 4])[..], &[(INERT, 0), (place, 1)]].concat(),
        );
        says(sheet, one, pool, (-100_000, OLDER, 0));
        says(sheet, one, ALL, (-100_000, OLDER, 0));
        sheet.refused(22, report(one, (pool + 1) % 4));
        sheet.refused(22, report(one, 4));
    }
    sheet.refused(22, report(changed(STATE, &[(INERT, 0)]), 4));
    for grams in [0, 1, CEILING / 4] {
        let none = [&pools([0; 4])[..], &modern([grams; 4]), &[(INERT, 0)]].concat();
        for pool in 0..=ALL {
            sheet.refused(22, report(changed(STATE, &none), pool));
        }
        // One gram of IOM has no modern grams.
        let inert = changed(STATE, &[&none[..], &[(INERT, 1)]].concat());
        says(sheet, inert, 4, (-100_000, OLDER, 0));
    }
}

/// Delta rounded down before 100,000 is taken off, from none to the most.
fn report_deltas(sheet: &mut Sheet) {
    sheet
        .group("R: deltas at tiny and large carbon, rounded down; up to 4,800,099,999,999,900,000");
    for (carbon, grams, delta, dated, age) in [
        (1, 0, -100_000, OLDER, 0),
        (1, 1, 0, DATED, 0),
        (1, 2, 100_000, NEWER, 0),
        (3, 1, -66_667, DATED, 8_828),
        (3, 2, -33_334, DATED, 3_258),
        (3, 4, 33_333, NEWER, 0),
        (7, 6, -14_286, DATED, 1_239),
        (7, 8, 14_285, NEWER, 0),
        (99_999, 99_998, -2, DATED, 1),
        (100_000, 99_999, -1, DATED, 1),
        (100_001, 100_000, -1, DATED, 1),
        (200_000, 1, -100_000, OLDER, 0),
        (99_999, 1, -99_999, OLDER, 0),
        (100_001, 1, -100_000, OLDER, 0),
        (CEILING, 0, -100_000, OLDER, 0),
        (CEILING, 1, -100_000, OLDER, 0),
        (CEILING, CEILING / 2, -50_000, DATED, 5_570),
        (CEILING, CEILING - 1, -1, DATED, 1),
        (CEILING, CEILING, 0, DATED, 0),
        (CEILING, CEILING + 1, 0, NEWER, 0),
        (CEILING, CEILING + 9_999, 0, NEWER, 0),
        (CEILING, CEILING + 10_000, 1, NEWER, 0),
        (CEILING, 2 * CEILING, 100_000, NEWER, 0),
        (CEILING, 48_001_000_000_000, 4_800_000_000, NEWER, 0),
        (CEILING - 1, 48_001_000_000_000, 4_800_000_004, NEWER, 0),
    ] {
        for pool in [0, 3] {
            says(
                sheet,
                in_pool(pool, carbon, grams),
                pool,
                (delta, dated, age),
            );
        }
    }
    // One gram beside all the modern grams that there can be.
    for pool in 0..4 {
        let mut state = changed(STATE, &weighed([0; 4]));
        (state[MONTHS], state[INERT]) = (120_000, 0);
        (state[POOLS + pool], state[MODERN + pool]) = (1, 48_001_000_000_000);
        let wanted = (4_800_099_999_999_900_000, NEWER, 0);
        says(sheet, state, pool as u64, wanted);
        says(sheet, state, ALL, wanted);
    }
}

/// The smallest age that does it, from both sides: at the highest survival number that an age may
/// have, and one below the lowest.
fn report_ages(sheet: &mut Sheet) {
    sheet.group("R: ages 1 to 60,000 and older, at the survival numbers of each from both sides");
    let last = |years: u64| match years {
        OLDEST => (OLDER, 0),
        _ => (DATED, years + 1),
    };
    let delta =
        |carbon: u64, grams: u64| (grams as i128 * 100_000 / carbon as i128) as i64 - 100_000;
    for (index, years) in [
        1, 2, 3, 10, 99, 100, 101, 667, 1_000, 5_567, 5_568, 5_569, 5_570, 8_034, 8_035, 8_036,
        16_070, 20_000, 32_767, 32_768, 40_000, 49_934, 49_935, 50_000, 59_998, 59_999, 60_000,
    ]
    .into_iter()
    .enumerate()
    {
        let (lowest, highest) = age_range(years, 1);
        let pool = index as u64 % 4;
        for carbon in [CEILING, 999_999_937, 61_803_398] {
            let at = |s: u64| s as u128 * carbon as u128;
            let billion = BILLION as u128;
            // The least that reaches the highest, and the most that is below the lowest.
            let reaches = at(highest).div_ceil(billion) as u64;
            let misses = ((at(lowest) - 1) / billion) as u64;
            for (grams, (dated, age)) in [(reaches, (DATED, years)), (misses, last(years))] {
                let wanted = (delta(carbon, grams), dated, age);
                says(sheet, in_pool(pool, carbon, grams), pool, wanted);
            }
        }
    }
    sheet.group("R: modern = carbon is 0, one less at most 1 at large carbon, one more is newer");
    for carbon in [1, 2, 3, 10, 8_035, 8_036, 8_037, 123_456_789, CEILING] {
        for pool in [1, 2] {
            says(sheet, in_pool(pool, carbon, carbon), pool, (0, DATED, 0));
            let more = (100_000 / carbon) as i64;
            says(
                sheet,
                in_pool(pool, carbon, carbon + 1),
                pool,
                (more, NEWER, 0),
            );
            sheet.runs(report(in_pool(pool, carbon, carbon - 1), pool));
            let answer = sheet.answer();
            // e^(-1/8035) is 0.99987555: a year does it from 8,036 g on.
            let a_year = answer[2..] == [DATED, 1];
            assert_eq!(a_year, carbon >= 8_036, "{carbon}");
        }
    }
}

/// IOM: 2 thousandths of its carbon, rounded down.
fn report_inert(sheet: &mut Sheet) {
    sheet.group("R: IOM has 2 thousandths of its carbon, rounded down, whatever else there is");
    for (inert, delta, dated, age) in [
        (1, -100_000, OLDER, 0),
        (499, -100_000, OLDER, 0),
        (500, -99_800, DATED, 49_935),
        (501, -99_801, DATED, 49_951),
        (999, -99_900, DATED, 55_496),
        (1_000, -99_800, DATED, 49_935),
        (1_499, -99_867, DATED, 53_187),
        (1_500, -99_800, DATED, 49_935),
        (49_999, -99_802, DATED, 50_015),
        (2_700_000, -99_800, DATED, 49_935),
        (2_700_499, -99_801, DATED, 49_936),
        (999_999_999, -99_801, DATED, 49_935),
        (CEILING, -99_800, DATED, 49_935),
    ] {
        let state = changed(STATE, &[(INERT, inert)]);
        says(sheet, state, 4, (delta, dated, age));
        let alone = changed(state, &weighed([0; 4]));
        says(sheet, alone, 4, (delta, dated, age));
        says(sheet, alone, ALL, (delta, dated, age));
    }
}

/// All five: grams and modern grams are added up first.
fn report_all(sheet: &mut Sheet) {
    sheet.group("R: all five: grams and modern grams added first, IOM's among them");
    let five = |grams: [u64; 4], own: [u64; 4], inert: u64| {
        let more = [(INERT, inert), (MONTHS, 120_000), (CO2, 0)];
        changed(STATE, &[&pools(grams)[..], &modern(own), &more].concat())
    };
    for (grams, own, inert, wanted) in [
        // 1,100 of 2,000; the mean of five deltas or ages would be another.
        ([500; 4], [1_000, 100, 0, 0], 0, (-45_000, DATED, 4_804)),
        // Modern grams where no carbon is.
        ([0, 0, 0, 1_000], [600, 300, 99, 0], 0, (-100, DATED, 9)),
        ([0, 0, 0, 1_000], [600, 300, 100, 0], 0, (0, DATED, 0)),
        ([0, 0, 0, 1_000], [600, 300, 101, 0], 0, (100, NEWER, 0)),
        // IOM's 2 make it 1,000 of 1,998, its 1 makes it 999.
        (
            [998, 0, 0, 0],
            [998, 0, 0, 0],
            1_000,
            (-49_950, DATED, 5_562),
        ),
        ([998, 0, 0, 0], [998, 0, 0, 0], 999, (-49_975, DATED, 5_566)),
        // 2 g of IOM's lift it to what its carbon is, and 1 more above.
        ([0, 0, 1, 0], [0, 999, 0, 0], 1_000, (0, DATED, 0)),
        ([0, 0, 1, 0], [0, 1_000, 0, 0], 1_000, (99, NEWER, 0)),
        // 2,000,000,000 g.
        ([250_000_000; 4], [499_500_000; 4], CEILING, (0, DATED, 0)),
        (
            [250_000_000; 4],
            [499_500_000, 499_500_000, 499_500_000, 499_500_001],
            CEILING,
            (0, NEWER, 0),
        ),
        (
            [250_000_000; 4],
            [499_500_000, 499_500_000, 499_499_999, 499_500_000],
            CEILING,
            (-1, DATED, 1),
        ),
        (
            [250_000_000; 4],
            [12_000_250_000_000; 4],
            CEILING,
            (2_399_950_100, NEWER, 0),
        ),
        ([250_000_000; 4], [0; 4], CEILING, (-99_900, DATED, 55_504)),
        ([CEILING, 0, 0, 0], [0; 4], 499, (-100_000, OLDER, 0)),
    ] {
        says(sheet, five(grams, own, inert), ALL, wanted);
    }
}

/// Drawn states, every pool of each.
fn report_drawn(sheet: &mut Sheet) {
    sheet.group("R: drawn states, each pool and all five");
    let mut draw = Draw::new(107);
    let mut made = [0; 3];
    for _ in 0..40 {
        let mut state = drawn_state(&mut draw, 240_000_000);
        state[MONTHS] = draw.below(120_001);
        for pool in 0..4 {
            let carbon = state[POOLS + pool];
            state[MODERN + pool] = match draw.below(4) {
                0 => carbon + draw.below(carbon + 1),
                1 => carbon / (1 + draw.below(2_500)),
                _ => draw.below(carbon + 1),
            };
        }
        let total: u64 = state[MODERN..KEPT].iter().sum();
        if total > CEILING + MODERN_A_MONTH * state[MONTHS] {
            continue;
        }
        for pool in 0..=ALL {
            if sheet.runs_if_fixed(report(state, pool)) {
                made[sheet.answer()[2] as usize] += 1;
            }
        }
    }
    assert!(made.iter().all(|made| *made > 3), "{made:?}");
}

// ---- T: a weather office's table ----

fn table(text: impl AsRef<[u8]>, room: usize) -> Call {
    Call::Table {
        room,
        table: text.as_ref().to_vec(),
    }
}

/// A table with just the room that its lines want.
fn whole(text: impl AsRef<[u8]>) -> Call {
    let lines = table::lines(text.as_ref()).len();
    table(text, lines * WEATHER_NUMBERS)
}

/// A table that is read to just these rows.
fn reads(sheet: &mut Sheet, text: &str, room: usize, rows: &[[i64; 3]]) {
    sheet.runs(table(text, room));
    let mut wanted = vec![0, rows.len() as i64, 0];
    for [temperature, rain, evaporation] in rows {
        wanted.extend([*temperature, *rain, *evaporation, 1]);
    }
    wanted.resize(3 + room, FILL as i64);
    let given: Vec<i64> = sheet.answer().iter().map(|number| *number as i64).collect();
    assert_eq!(given, wanted, "{text}");
}

/// A table of so many lines that nothing refuses, the numbers of each by its month.
fn good_lines(count: usize) -> String {
    (1..=count)
        .map(|month| {
            let step = month as i64;
            table::line(month, [7 * step % 900 - 400, 37 * step, 11 * step])
        })
        .collect()
}

/// That table with one line replaced.
fn with_line(count: usize, place: usize, line: &str) -> String {
    let good = good_lines(count);
    let mut lines: Vec<&str> = good.split_inclusive('\n').collect();
    lines[place - 1] = line;
    lines.concat()
}

/// Line 1 of a table with this text in the given one of its four fields.
fn with_field(field: usize, text: &[u8]) -> Vec<u8> {
    let mut fields: [&[u8]; 4] = [b"1", b"1.0", b"2.0", b"3.0"];
    fields[field] = text;
    [&fields.join(&b';')[..], b"\n"].concat()
}

/// Each form of a number in each field: what is read, and what is 18.
fn table_forms(sheet: &mut Sheet) {
    sheet
        .group("T: a dot and one digit, a minus for a temperature below 0; every other form is 18");
    let good = [
        ("0.0", 0),
        ("0.1", 1),
        ("0.5", 5),
        ("0.9", 9),
        ("1.0", 10),
        ("9.9", 99),
        ("10.0", 100),
        ("12.3", 123),
        ("45.6", 456),
        ("49.8", 498),
        ("20.7", 207),
    ];
    let base = [10, 20, 30];
    for (text, tenths) in good {
        for field in 1..4 {
            let line = String::from_utf8(with_field(field, text.as_bytes())).expect("ASCII");
            reads(sheet, &line, 4, &[changed(base, &[(field - 1, tenths)])]);
        }
        // With a minus: a temperature, unless it is 0.
        let line = format!("1;-{text};2.0;3.0\n");
        match tenths {
            0 => sheet.refused_at(18, 1, whole(line)),
            1..=400 => reads(sheet, &line, 4, &[[-tenths, 20, 30]]),
            _ => sheet.refused_at(13, 1, whole(line)),
        }
        for line in [
            format!("1;1.0;-{text};3.0\n"),
            format!("1;1.0;2.0;-{text}\n"),
        ] {
            sheet.refused_at(18, 1, whole(line));
        }
    }
    let bad: [&[u8]; 52] = [
        b"", b"5", b"5.", b".5", b".", b"-", b"-.", b"-.5", b"-5", b"-5.", b"05.0", b"00.0",
        b"00.5", b"-05.0", b"-00.5", b"1.25", b"1.00", b"1.250", b"-1.25", b"+1.0", b"+0.0",
        b"--1.0", b"-+1.0", b"- 1.0", b"1.-5", b"1-.0", b"1.0-", b"1,0", b"1..0", b"1.0.0",
        b".1.0", b"1.x", b"x.0", b"1e1.0", b"0x1.0", b" 1.0", b"1.0 ", b"1 .0", b"1. 0", b"1 0.0",
        b"\t1.0", b"1.0\t", b"\"1.0\"", // The bytes beside the digits and the dot.
        b"1./", b"1.:", b"/.0", b"1:.0", b"1/0",
        // NUL and bytes above 127; 0xb1 is a 1 with its top bit set.
        b"1.0\0", b"\0", b"\xb1.0", b"1.\xb0",
    ];
    for text in bad {
        for field in 1..4 {
            sheet.refused_at(18, 1, whole(with_field(field, text)));
        }
    }

    sheet.group("T: lines of another form: fields, blanks, ends, heads, CR LF, decimal commas");
    for text in [
        &b""[..],
        b";",
        b";;;",
        b"1",
        b"1;1.0",
        b"1;1.0;2.0",
        b"1;1.0;2.0;",
        b"1;1.0;2.0;3.0;",
        b";1;1.0;2.0;3.0",
        b"1;1.0;2.0;3.0;4.0",
        b"1;1.0;2.0;3.0;1",
        b"1;1.0;2.0;3.0;;",
        b"1;;1.0;2.0;3.0",
        b"1.0;2.0;3.0",
        b"1 1.0 2.0 3.0",
        b"1,1.0,2.0,3.0",
        b"1\t1.0\t2.0\t3.0",
        b"1:1.0:2.0:3.0",
        b"1;1,0;2,0;3,0",
        b"1;1.0;2,0;3.0",
        b"1;1.0;2.0;3.0\r",
        b"\r",
        b" 1;1.0;2.0;3.0",
        b"1;1.0;2.0;3.0 ",
        b"1; 1.0; 2.0; 3.0",
        b"1 ;1.0 ;2.0 ;3.0",
        b" ",
        b"month;temperature;rain;evapotranspiration",
        b"WEATHER 1",
        b"1 10 20",
        b"# 1;1.0;2.0;3.0",
        b"1;1.0;2.0;3.0#",
        b"\xef\xbb\xbf1;1.0;2.0;3.0",
        b"1;1.0;2.0;3.0\0",
        b"\0",
        b"\xff\xfe",
        b"1\xbb1.0;2.0;3.0",
    ] {
        let ended = [text, b"\n"].concat();
        sheet.refused_at(18, 1, whole(&ended));
        // Before and after good lines.
        let good = good_lines(2).into_bytes();
        sheet.refused_at(18, 1, whole([&ended[..], &good].concat()));
        sheet.refused_at(18, 3, whole([&good[..], &ended].concat()));
    }
    let ended = |end: &str| good_lines(3).replace('\n', end);
    sheet.refused_at(18, 1, whole(ended("\r\n")));
    sheet.refused_at(18, 1, whole(ended("\r")));
    sheet.refused_at(18, 2, whole(ended("\n\n")));
    sheet.refused_at(18, 1, whole(ended(";\n")));
    sheet.refused_at(18, 1, whole(good_lines(3).replace('.', ",")));
    sheet.refused_at(18, 1, whole(good_lines(3).replace(';', "; ")));
    reads(
        sheet,
        "1;12.3;74.0;8.0\n2;-0.5;0.0;2000.0\n3;0.0;0.5;0.1\n",
        12,
        &[[123, 740, 80], [-5, 0, 20_000], [0, 5, 1]],
    );
}

/// Each field at the ends of its range and of its form.
fn table_numbers(sheet: &mut Sheet) {
    sheet.group("T: 13 and 14 on both sides of each bound, ten and eleven digits, 32 and 64 bits");
    let water: &[(&str, u64)] = &[
        ("0.0", 0),
        ("0.1", 0),
        ("1999.9", 0),
        ("2000.0", 0),
        ("2000.1", 14),
        ("2001.0", 14),
        ("20000.0", 14),
        ("-0.1", 18),
        ("-2000.0", 18),
        ("1000000000.0", 14),
        ("9999999999.9", 14),
        ("10000000000.0", 18),
        ("00000000001.0", 18),
        // Tenths of 2^32 and 2^32 + 5; of 2^64 and 2^64 + 4.
        ("429496729.6", 14),
        ("429496730.1", 14),
        ("1844674407370955161.6", 18),
        ("1844674407370955162.0", 18),
    ];
    let air: &[(&str, u64)] = &[
        ("-40.0", 0),
        ("-39.9", 0),
        ("49.9", 0),
        ("50.0", 0),
        ("-40.1", 13),
        ("-41.0", 13),
        ("-400.0", 13),
        ("50.1", 13),
        ("51.0", 13),
        ("500.0", 13),
        ("1000000000.0", 13),
        ("9999999999.9", 13),
        ("-1000000000.0", 13),
        ("-9999999999.9", 13),
        ("10000000000.0", 18),
        ("-10000000000.0", 18),
        ("00000000001.0", 18),
        ("429496729.6", 13),
        ("429496730.1", 13),
        ("-429496729.6", 13),
        ("-429496730.1", 13),
        ("1844674407370955161.6", 18),
        ("-1844674407370955162.0", 18),
    ];
    for (field, ends) in [(1, air), (2, water), (3, water)] {
        for (text, number) in ends {
            let call = whole(with_field(field, text.as_bytes()));
            sheet.either(*number, call);
            assert_eq!(sheet.answer()[2], u64::from(*number > 0));
        }
    }
    reads(sheet, "1;-40.0;0.0;0.0\n", 4, &[[-400, 0, 0]]);
    let most = [500, 20_000, 20_000];
    reads(sheet, "1;50.0;2000.0;2000.0\n", 4, &[most]);
}

/// The month is the line's number, in the form of a value.
fn table_months(sheet: &mut Sheet) {
    sheet.group("T: months beside the line's number, of another form, of ten and more digits");
    for (place, months) in [
        (
            1,
            [
                "0",
                "2",
                "01",
                "",
                "-1",
                "+1",
                "1.0",
                "1.",
                " 1",
                "1 ",
                "1\0",
                "10",
                "1000000001",
                // 2^32 + 1, eleven digits, 2^64 + 1.
                "4294967297",
                "10000000001",
                "00000000001",
                "18446744073709551617",
                "x",
            ],
        ),
        (
            10,
            [
                "9",
                "11",
                "010",
                "",
                "-10",
                "+10",
                "10.0",
                "1",
                "0",
                "1O",
                "10 ",
                "100",
                "1000000010",
                "4294967306",
                "10000000010",
                "00000000010",
                "18446744073709551626",
                "1 0",
            ],
        ),
    ] {
        for month in months {
            let line = format!("{month};1.0;2.0;3.0\n");
            sheet.refused_at(18, place, whole(with_line(10, place as usize, &line)));
        }
    }
    // From 0 and from 2 on, a line left out, a line twice, two lines changed over, a new year.
    let lines = |months: &[usize]| -> String {
        let lines = months
            .iter()
            .map(|month| table::line(*month, [93, 520, 830]));
        lines.collect()
    };
    for (months, place) in [
        (&[0, 1, 2][..], 1),
        (&[2, 3, 4], 1),
        (&[1, 2, 4, 5], 3),
        (&[1, 2, 2, 3], 3),
        (&[1, 3, 2, 4], 2),
        (&[1, 1], 2),
        (&[1, 2, 3, 4, 5, 6, 7, 8, 9, 10, 11, 12, 1, 2], 13),
        (&[1, 2, 3, 4, 5, 6, 7, 8, 9, 1], 10),
    ] {
        sheet.refused_at(18, place, whole(lines(months)));
    }
    for count in [9, 10, 11, 12, 13, 101] {
        let months: Vec<usize> = (1..=count).collect();
        let room = count * WEATHER_NUMBERS;
        reads(sheet, &lines(&months), room, &vec![[93, 520, 830]; count]);
    }
}

/// Bytes after the last byte 10 are a line, counted for 3 and 8 and refused with 18 in its turn.
fn table_ends(sheet: &mut Sheet) {
    sheet.group("T: no bytes, a lone byte 10, and last lines that no byte 10 ends");
    for room in [0, 1, 4, 40] {
        sheet.refused_at(3, 0, table("", room));
    }
    for text in [
        "\n",
        "x",
        "1;1.0;2.0;3.0",
        " ",
        "\r",
        "\0",
        "1;99.9;2.0;3.0",
    ] {
        for (room, number) in [(0, 8), (3, 8), (4, 18), (5, 18), (9, 18)] {
            sheet.refused_at(number, u64::from(number == 18), table(text, room));
        }
        for count in [1, 2, 5] {
            let text = good_lines(count) + text;
            // Room for the ended lines alone is too short.
            sheet.refused_at(8, 0, table(&text, count * 4));
            sheet.refused_at(8, 0, table(&text, count * 4 + 3));
            sheet.refused_at(18, count as u64 + 1, whole(&text));
            sheet.refused_at(18, count as u64 + 1, table(&text, count * 4 + 11));
        }
        // After a faulty line that one wins.
        for (number, line) in [
            (18, "2;1;1;1\n"),
            (13, "2;-40.1;1.0;1.0\n"),
            (14, "2;1.0;1.0;2000.1\n"),
        ] {
            sheet.refused_at(number, 2, whole(with_line(3, 2, line) + text));
        }
    }
    // The good table without its last byte, and with one byte 10 too many.
    for count in [1, 2, 12] {
        let good = good_lines(count);
        sheet.refused_at(18, count as u64, whole(&good[..good.len() - 1]));
        sheet.refused_at(18, count as u64 + 1, whole(good.clone() + "\n"));
        sheet.runs(whole(good));
    }
}

/// 8: room one number too short, exact, longer; the rest stays as it was.
fn table_rooms(sheet: &mut Sheet) {
    sheet.group("T: room one too short, exact, longer (the rest stays), none; 8 before the lines");
    for count in [1, 2, 3, 12] {
        let good = good_lines(count);
        let faulty = with_line(count, 1, "1;50.1;x\n");
        let exact = count * WEATHER_NUMBERS;
        for room in [exact, exact + 1, exact + 3, exact + 4, exact + 15] {
            sheet.runs(table(&good, room));
            sheet.refused_at(18, 1, table(&faulty, room));
        }
        // Three numbers a line are too few too.
        for room in [exact - 1, exact - 4, count * 3, 0] {
            sheet.refused_at(8, 0, table(&good, room));
            sheet.refused_at(8, 0, table(&faulty, room));
        }
    }
    reads(sheet, "1;1.0;2.0;3.0\n", 6, &[[10, 20, 30]]);
}

/// The earliest faulty line wins, then 18, 13 and 14 in this order; nothing is written.
fn table_order(sheet: &mut Sheet) {
    sheet.group(
        "T: the earliest faulty line wins, on a line 18 before 13 before 14; nothing written",
    );
    for (number, line) in [
        (13, "1;50.1;2000.1;2000.1\n"),
        (13, "1;-40.1;2000.1;0.0\n"),
        (13, "1;9999999999.9;9999999999.9;9999999999.9\n"),
        (14, "1;50.0;2000.1;2000.1\n"),
        (14, "1;0.0;0.0;2000.1\n"),
        (18, "1;50.1;2000.1;2000.10\n"),
        (18, "1;50.1;-2000.1;0.0\n"),
        (18, "1;0.0;2000.1;x\n"),
        (18, "2;50.1;2000.1;0.0\n"),
        (18, "1;50.1;2000.1;2000.1\r\n"),
        (18, "1;50.1;2000.1\n"),
        (18, "1;50.10;2000.1;0.0\n"),
    ] {
        sheet.refused_at(number, 1, whole(line));
    }
    let faults = [
        (18, "0.0;0.0"),
        (13, "50.1;0.0;0.0"),
        (14, "0.0;2000.1;0.0"),
        (14, "0.0;0.0;2000.1"),
    ];
    for (number, early) in faults {
        for (_, late) in faults {
            for (first, second) in [(1, 2), (1, 5), (3, 4), (4, 5)] {
                let mut text = String::new();
                for place in 1..=5 {
                    text += &match place {
                        _ if place == first => format!("{place};{early}\n"),
                        _ if place == second => format!("{place};{late}\n"),
                        _ => table::line(place, [93, 520, 830]),
                    };
                }
                sheet.refused_at(number, first as u64, table(text, 22));
            }
        }
        // A late line of a longer table: all of the output stays.
        for place in [2, 20, 39, 40] {
            let text = with_line(40, place, &format!("{place};{early}\n"));
            sheet.refused_at(number, place as u64, table(text, 163));
        }
    }
}

/// 3 at 1,200 lines and above, an unended line among them.
fn table_long(sheet: &mut Sheet) {
    sheet.group("T: 1,200 and 1,201 lines, an unended line counted");
    let line = |month: usize| table::line(month, [0; 3]);
    let most: String = (1..=1_200).map(line).collect();
    reads(sheet, &most, 4_800, &[[0; 3]; 1_200]);
    // Its last line unended: still 1,200 lines, and 18 at the last.
    sheet.refused_at(18, 1_200, whole(&most[..most.len() - 1]));
    sheet.refused_at(3, 0, table(most + &line(1_201), 4_804));
    // 3 comes before 8 and before the lines; bare ends of lines are lines too.
    let ends = |count: usize| "\n".repeat(count);
    for room in [0, 4_800, 4_804] {
        sheet.refused_at(3, 0, table(ends(1_201), room));
        sheet.refused_at(3, 0, table(ends(1_200) + "1", room));
    }
    sheet.refused_at(3, 0, table(ends(5_000), 4));
    for (text, number) in [(ends(1_200), 8), (ends(1_199) + "1", 8)] {
        sheet.refused_at(number, 0, table(&text, 4_799));
        sheet.refused_at(18, 1, table(&text, 4_800));
    }
    // One line of many bytes is one line.
    sheet.refused_at(18, 1, table("1".repeat(3_000) + "\n", 4));
    sheet.refused_at(18, 1, table(";".repeat(3_000), 4));
}

/// Drawn tables, and the rows of each run as a list.
fn table_drawn(sheet: &mut Sheet) {
    sheet.group("T and L: drawn tables, and the rows of each run as a list's weather");
    let mut draw = Draw::new(83);
    for round in 0..24 {
        let count = 1 + draw.below(30) as usize;
        let skies: Vec<[i64; 3]> = (0..count)
            .map(|_| {
                let [temperature, rain, evaporation, ..] = drawn_entries(&mut draw);
                [temperature, rain, evaporation]
            })
            .collect();
        let lines = (1..)
            .zip(&skies)
            .map(|(month, row)| table::line(month, *row));
        let text: String = lines.collect();
        let room = count * WEATHER_NUMBERS + round % 3;
        reads(sheet, &text, room, &skies);
        let mut weather = vec![0; room];
        table::read(text.as_bytes(), &mut weather).expect("a good table");
        weather.truncate(count * WEATHER_NUMBERS);
        let months = 1 + draw.below(24) as usize;
        let land = drawn_land(&mut draw, months, 60_000);
        let call = loop {
            let call = list(&weather, &land, months * 7, drawn_state(&mut draw, 90_000));
            if call.fixed_answer().1 {
                break call;
            }
        };
        sheet.runs(call);
    }
}

// ---- D: survival numbers ----

/// 600 numbers with s the nearest whole number: any S at most 1 from the exact number gives 1.
fn survival_numbers(sheet: &mut Sheet) {
    sheet.group("D: 600 survival numbers of drawn n and the four pools, s the nearest");
    let mut draw = Draw::new(67);
    for round in 0..600 {
        let n = match round / 4 {
            0 => 0,
            1 => 1,
            2 => MOST,
            3 => MOST - 1,
            4 => 2,
            5 => 162 * 2_000 * 6,
            6 => 1_200_000_000,
            // Of every size, up to the largest.
            other if other % 3 == 0 => {
                let size = 1 + draw.below(32);
                draw.below(1 << size)
            }
            _ => draw.below(MOST + 1),
        };
        let pool = round % 4;
        let s = survival_nearest(n, RATES[pool]);
        let call = Call::Survival { n, pool, s };
        let (answer, fixed) = call.fixed_answer();
        assert!(fixed && answer == [1]);
        sheet.put(call, answer);
    }
}

/// At n = 0 the number is exact: 1 beside it both ways, 0 two beside it. Elsewhere 0 three and
/// more from the nearest, and 0 where a difference would wrap.
fn survival_ends(sheet: &mut Sheet) {
    sheet.group("D: exact at n = 0; an s too far off gives 0, also where a difference would wrap");
    let mut show = |n: u64, pool: usize, s: u64, wanted: u64| {
        let call = Call::Survival { n, pool, s };
        let (answer, fixed) = call.fixed_answer();
        assert!(fixed && answer == [wanted], "{}", call.line());
        sheet.put(call, answer);
    };
    for pool in 0..4 {
        show(0, pool, BILLION + 1, 1);
        show(0, pool, BILLION - 1, 1);
        show(0, pool, BILLION + 2, 0);
        show(0, pool, BILLION - 2, 0);
        for n in [1, 356_100_000, MOST] {
            let s = survival_nearest(n, RATES[pool]);
            show(n, pool, s - 3, 0);
            show(n, pool, s + 3, 0);
            show(n, pool, 0, 0);
            show(n, pool, u64::MAX, 0);
        }
    }
}

// ---- K: survival numbers with their terms ----

/// The most terms that a pool's survival number has: HUM's w is below 1/32.
const POOL_TERMS: [u64; 4] = [6, 6, 6, 5];

/// A line whose s is close to the number, or too far from it: the first number is stated.
fn put_terms(sheet: &mut Sheet, n: u64, pool: usize, s: u64, wanted: u64) {
    let count = terms(n, RATES[pool]);
    assert!(count >= 1 && count <= POOL_TERMS[pool] && count <= MOST_TERMS);
    let pool = pool as u64;
    let call = Call::Terms { n, pool, s };
    let (answer, fixed) = call.fixed_answer();
    assert!(fixed && answer == [wanted, 1, count], "{}", call.line());
    sheet.put(call, answer);
}

/// A line with s the nearest whole number.
fn show_terms(sheet: &mut Sheet, n: u64, pool: usize) {
    put_terms(sheet, n, pool, survival_nearest(n, RATES[pool]), 1);
}

/// n of every size, and n of months: A, B and cover.
fn terms_drawn(sheet: &mut Sheet) {
    sheet.group("K: drawn n of every size and of months for the four pools, s the nearest");
    let mut draw = Draw::new(97);
    for round in 0..60 {
        let n = match round / 4 {
            0 => 356_100_000,
            turn if turn % 3 == 0 => {
                let size = 1 + draw.below(32);
                draw.below(1 << size)
            }
            turn if turn % 3 == 1 => {
                let moisture = 2_000 + draw.below(8_001);
                let cover = [6, 10][draw.below(2) as usize];
                temperature_factor(draw.between(-50, 500)) * moisture * cover
            }
            _ => draw.below(MOST + 1),
        };
        show_terms(sheet, n, round % 4);
    }
}

/// The ends of n's range, and 500 under a crop on moist soil. One term at n = 0.
fn terms_ends(sheet: &mut Sheet) {
    sheet.group("K: n at 0, 1, the largest and one less, and the hottest month under a crop");
    for pool in 0..4 {
        for n in [0, 1, MOST - 1, MOST, MOST / 10 * 6] {
            show_terms(sheet, n, pool);
        }
        assert_eq!(terms(0, RATES[pool]), 1);
    }
}

/// The neighbours n and n + 1 where each count of a pool begins: below the first multiple of 1/32
/// and above the last one.
fn terms_changes(sheet: &mut Sheet) {
    sheet.group("K: neighbours n whose counts differ, for each pool and each count");
    for (pool, k) in RATES.into_iter().enumerate() {
        let last = exponent_parts(MOST, k) / STEP_PARTS;
        for multiple in if last > 0 { vec![0, last] } else { vec![0] } {
            for count in 2..=POOL_TERMS[pool] {
                let parts = multiple * STEP_PARTS + least_remainder(count);
                let n = least_n(k, parts, MOST);
                if exponent_parts(n, k) < parts {
                    // Past the largest n.
                    assert!(multiple > 0);
                    continue;
                }
                assert!(terms(n, k) == count && terms(n - 1, k) != count);
                show_terms(sheet, n - 1, pool);
                show_terms(sheet, n, pool);
            }
        }
    }
}

/// Multiples of 1/32 of w: the last n below, the first one not below, and the next. HUM's w
/// reaches none; its r is 0 up to n = 4.
fn terms_multiples(sheet: &mut Sheet) {
    sheet.group("K: n where the remainder is 0, and n just around multiples of 1/32 of w");
    // No other n above 0 has r = 0, but for HUM's.
    for (n, pool) in [(4_687_500_000, 0), (2_840_909_091, 2)] {
        assert_eq!(series_remainder(n, RATES[pool]), 0);
        for n in n - 1..=n + 1 {
            show_terms(sheet, n, pool);
        }
    }
    for n in 2..=6 {
        assert_eq!(series_remainder(n, RATES[3]) == 0, n <= 4);
        show_terms(sheet, n, 3);
    }
    for (pool, multiples) in [
        (0, &[1, 2, 3, 32, 64, 100, 223][..]),
        (1, &[1, 2, 5, 6]),
        (2, &[1, 2, 8, 14]),
    ] {
        for multiple in multiples {
            let k = RATES[pool];
            let n = least_n(k, multiple * STEP_PARTS, MOST);
            assert_eq!(terms(n - 1, k), 6);
            for n in n - 1..=n + u64::from(pool > 0) {
                show_terms(sheet, n, pool);
            }
        }
    }
}

/// No number is given and the lent terms stay, also where n or pool is small when cut to 32 bits.
fn terms_refused(sheet: &mut Sheet) {
    sheet.group("K: pools above 3 and n above the largest, alone and together: the terms stay");
    let mut refused = |n: u64, pool: u64| {
        assert_eq!(rate(n, pool), None);
        let s = NO_SURVIVAL;
        let call = Call::Terms { n, pool, s };
        let (answer, fixed) = call.fixed_answer();
        assert!(fixed && answer == [1, 1, FILL], "{}", call.line());
        sheet.put(call, answer);
    };
    for pool in [4, 5, 1 << 32, u64::MAX] {
        for n in [0, MOST, MOST + 1, u64::MAX] {
            refused(n, pool);
        }
    }
    for pool in 0..4 {
        for n in [MOST + 1, 1 << 34, u64::MAX] {
            refused(n, pool);
        }
    }
}

/// At n = 0 the number is exact: two beside it is too far. Elsewhere two beyond the numbers at
/// most 1 from the exact one, and more; also where a difference would wrap.
fn terms_too_far(sheet: &mut Sheet) {
    sheet.group("K: an s too far off gives 0, also where a difference would wrap");
    for (pool, k) in RATES.into_iter().enumerate() {
        let near = survival_nearest(MOST, k);
        let (lowest, highest) = survival_range(356_100_000, k, 1);
        for (n, s) in [
            (0, BILLION - 2),
            (0, BILLION + 2),
            (1, BILLION - 3),
            (356_100_000, lowest - 2),
            (356_100_000, highest + 2),
            (MOST, near - 3),
            (MOST, near + 3),
            (MOST, 0),
            (MOST, u64::MAX),
        ] {
            put_terms(sheet, n, pool, s, 0);
        }
    }
}

// ---- A: survival numbers of ages ----

/// A line whose answer is stated.
fn put_age(sheet: &mut Sheet, years: u64, s: u64, wanted: u64) {
    let call = Call::Age { years, s };
    let (answer, fixed) = call.fixed_answer();
    assert!(fixed && answer == [wanted], "{}", call.line());
    sheet.put(call, answer);
}

/// Ages of every size with s the nearest whole number.
fn age_numbers(sheet: &mut Sheet) {
    sheet.group("A: survival numbers of ages 0 to 60,000, s the nearest");
    let mut draw = Draw::new(109);
    for years in (0..40).chain([5_568, 5_569, 8_034, 8_035, 8_036, 16_070, 49_934, 49_935]) {
        put_age(sheet, years, age_nearest(years), 1);
    }
    for _ in 0..160 {
        let years = draw.below(OLDEST + 1);
        put_age(sheet, years, age_nearest(years), 1);
    }
    for years in 59_980..=OLDEST {
        put_age(sheet, years, age_nearest(years), 1);
    }
}

/// No number above 60,000 years; too far off; exact at 0.
fn age_ends(sheet: &mut Sheet) {
    sheet.group(
        "A: none above 60,000 years; exact at 0; an s too far off, also where it would wrap",
    );
    for years in [
        OLDEST + 1,
        OLDEST + 2,
        65_536,
        1 << 32,
        (1 << 32) + 1,
        1 << 63,
    ]
    .into_iter()
    .chain([u64::MAX - 1, u64::MAX])
    {
        put_age(sheet, years, NO_SURVIVAL, 1);
    }
    for (s, wanted) in [
        (BILLION - 2, 0),
        (BILLION - 1, 1),
        (BILLION, 1),
        (BILLION + 1, 1),
        (BILLION + 2, 0),
        (0, 0),
        (u64::MAX, 0),
    ] {
        put_age(sheet, 0, s, wanted);
    }
    for years in [1, 667, 8_035, 49_935, OLDEST] {
        let (lowest, highest) = age_range(years, 1);
        for s in [lowest - 2, highest + 2, 0, u64::MAX] {
            put_age(sheet, years, s, 0);
        }
        for s in [lowest, highest] {
            put_age(sheet, years, s, 1);
        }
    }
}

#[cfg(test)]
mod tests {
    use super::*;
    use crate::fixed::AtEnd;
    use std::collections::BTreeMap;

    #[test]
    fn lines_and_their_size() {
        let groups = groups();
        let lines: Vec<&Line> = groups.iter().flat_map(|group| &group.lines).collect();
        let input: usize = lines.iter().map(|line| line.call.input().len()).sum();
        let answered = |line: &&Line| line.call.answer_line(&line.answer).len() + 1;
        let output: usize = lines.iter().map(answered).sum();
        assert!(lines.len() >= 6_600, "{} lines", lines.len());
        assert!(input < 1_100_000, "{input} bytes in");
        assert!(output < 1_300_000, "{output} bytes out");
        // Every refusal that a call can meet is there, and the limits of the format are kept.
        let mut seen = std::collections::BTreeSet::new();
        for line in &lines {
            let letter = line.call.line().chars().next().unwrap();
            if !['D', 'K', 'A'].contains(&letter) {
                seen.insert((letter, line.answer[0]));
            }
            if let Call::List {
                weather,
                land,
                output,
                ..
            } = &line.call
            {
                assert!(weather.len() <= 4_900 && land.len() <= 4_900 && *output <= 8_500);
            }
            if let Call::Table { room, table } = &line.call {
                assert!(*room <= 4_900 && table.len() <= 25_000);
            }
        }
        let wanted: [(char, &[u64]); 8] = [
            ('N', &[0, 4, 5, 6, 7]),
            (
                'M',
                &[0, 4, 5, 6, 7, 10, 11, 12, 13, 14, 19, 15, 16, 21, 17],
            ),
            (
                'L',
                &[0, 3, 4, 5, 6, 7, 8, 10, 12, 13, 14, 19, 15, 16, 21, 17],
            ),
            (
                'S',
                &[0, 3, 4, 5, 6, 7, 9, 10, 12, 13, 14, 19, 15, 16, 21, 17],
            ),
            ('R', &[0, 4, 5, 6, 7, 10, 22, 100]),
            ('B', &[0, 10, 20]),
            // The new state's number; the acts' follow it.
            ('H', &[0, 4, 7]),
            ('T', &[0, 3, 8, 13, 14, 18]),
        ];
        let wanted = wanted
            .iter()
            .flat_map(|(letter, numbers)| numbers.iter().map(|number| (*letter, *number)))
            .collect();
        assert_eq!(seen, wanted);
        // The answers don't move with S.
        for line in &lines {
            let distance = match line.call {
                Call::Survival { .. }
                | Call::Terms { .. }
                | Call::Age { .. }
                | Call::Report { .. } => 1,
                _ => 3,
            };
            for highest in [false, true] {
                let mut survival = AtEnd { highest, distance };
                let answer = line.call.answer(7, &mut survival, &mut |_, _| ());
                assert!(answer == line.answer, "{}", line.call.line());
            }
        }
    }

    /// Every count that a pool can have is in a line of that pool.
    #[test]
    fn lines_of_every_count() {
        let mut seen: BTreeMap<(u64, u64), u64> = BTreeMap::new();
        let mut refused = 0;
        for line in groups().iter().flat_map(|group| &group.lines) {
            if let Call::Terms { n, pool, .. } = line.call {
                match rate(n, pool) {
                    Some(_) => *seen.entry((pool, line.answer[2])).or_default() += 1,
                    None => refused += 1,
                }
            }
        }
        let wanted = (0..4).flat_map(|pool| (1..=POOL_TERMS[pool]).map(move |c| (pool as u64, c)));
        assert!(seen.keys().copied().eq(wanted), "{seen:?}");
        let lines: u64 = refused + seen.values().sum::<u64>();
        assert!(lines >= 240, "{lines}");
        // The largest n has HUM's most, and no remainder has more than 6.
        assert_eq!(terms(MOST, RATES[3]), 5);
        assert_eq!(least_remainder(7), STEP_PARTS);
    }
}
