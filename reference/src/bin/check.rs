//! Asserts the known figures of document 01, the Rothamsted deficit table of 001, January 1852 byte
//! by byte, 001's radiocarbon, and the years of three spin-ups; then demand 3 on long lists, also
//! with months taken back. Stops at the first that is wrong.

use reference::book;
use reference::exponential::{
    age_at_most, age_floor, age_nearest, allowed, allowed_range, clay_factor, nearest_of,
    survival_floor, temperature_factor, within, BILLION, MEAN_LIFE, OLDEST,
};
use reference::fixed::{book_fixed, month_fixed, report_fixed};
use reference::light::{self, shifted, Known};
use reference::model::{
    dated, factors, list, moisture_factor, month, month_left, report, split_manure, split_plant,
    Asked, Dated, Entries, Nearest, Soil, Spun, State, Survival, EVAPOTRANSPIRATION, FRESH,
    OPEN_PAN, RATES,
};
use reference::recurrence::{
    carbon_closes, distance_every_q, distance_interval, q_highest, q_lowest, run_calls, Decision,
    DemandThree, Remaining,
};
use reference::vectors::Draw;

fn main() {
    known_figures();
    rothamsted_deficits();
    january_1852();
    ceiling();
    survival_numbers();
    ages();
    radiocarbon_of_001();
    equilibrium_of_001();
    reports();
    settled_years();
    demand_three();
    months_taken_back();
    println!("all figures hold");
}

fn rothamsted() -> Soil {
    Soil {
        clay: 234,
        depth: 23,
        kind: 1,
        pools: [153_300, 4_485_200, 667_100, 25_857_600],
        inert: 2_700_000,
    }
}

fn known_figures() {
    for (t, a) in [
        (-51, 0),
        (-50, 162),
        (34, 3561),
        (93, 10_013),
        (500, 83_639),
    ] {
        assert_eq!(temperature_factor(t), a, "A at T {t}");
    }
    for (c, r) in [(0, 147_896), (234, 221_524), (1000, 244_467)] {
        assert_eq!(clay_factor(c), r, "R at C {c}");
    }
    let soil = rothamsted();
    assert_eq!(moisture_factor(&soil, 27 * 2_070_000 + 1_035_000), 7_585);
    assert_eq!(moisture_factor(&soil, soil.deficit_limit()), 2_000);
    assert_eq!(split_plant(1, 61), (36, 25));
    assert_eq!(split_manure(99), (48, 50, 1));
    // The combined rate factor of January 1852 in 001: 0.3561.
    let january = Entries {
        temperature: 34,
        rain: 740,
        evaporation: 80,
        source: OPEN_PAN,
        cover: 0,
        plant: 0,
        manure: 0,
        activity: FRESH,
    };
    assert_eq!(factors(&soil, 0, &january).n, 356_100_000);
    println!("known figures: A, R, B, plant, manure");
}

/// 001: rain and evaporation in mm, and the accumulated deficit in hundredths of a mm.
fn rothamsted_deficits() {
    let table = [
        (74, 8, 0),
        (59, 10, 0),
        (62, 27, 0),
        (51, 49, 0),
        (52, 83, 1025),
        (57, 99, 2750),
        (34, 103, 4494),
        (55, 91, 4494),
        (58, 69, 3869),
        (56, 34, 819),
        (75, 16, 0),
        (71, 8, 0),
    ];
    let mut weather = Vec::new();
    let mut land = Vec::new();
    for (rain, evaporation, _) in table {
        weather.extend([93, rain * 10, evaporation * 10, OPEN_PAN]);
        land.extend([1, 0, 0, FRESH]);
    }
    let mut output = [0; 84];
    let (_, answer) = list(
        &State::new(rothamsted()),
        &weather,
        &land,
        &mut output,
        &mut Nearest,
    );
    assert_eq!(answer, Ok(()));
    for (index, (_, _, hundredths)) in table.iter().enumerate() {
        let parts = output[index * 7 + 6];
        assert_eq!(
            (parts * 100 + 1_035_000) / 2_070_000,
            *hundredths,
            "month {}",
            index + 1
        );
    }
    println!("Rothamsted deficit table: 12 months");
}

fn january_1852() {
    let book = b"SOIL 1\n234 23 1 153300 4485200 667100 25857600 2700000\nWEATHER 1\n34 740 80\n\
        LAND 1\n0 0 0\n";
    let wanted =
        b"POOLS 1\n1 113937 4445447 665104 25855106 2700000 83606 0\nTOTAL 33779594 83606\n";
    let (answer, fixed) = book_fixed(book);
    assert_eq!(book::write(&answer), wanted);
    assert!(fixed, "January 1852 is the same for every allowed S");
    // Every allowed choice of S, pool by pool: 6 to the power of 4.
    let n = 356_100_000;
    let ranges = RATES.map(|k| allowed_range(n, k));
    let mut choices = 0;
    for a in ranges[0].0..=ranges[0].1 {
        for b in ranges[1].0..=ranges[1].1 {
            for c in ranges[2].0..=ranges[2].1 {
                for d in ranges[3].0..=ranges[3].1 {
                    let mut survival = |_: u64, k: u64| {
                        [a, b, c, d][RATES.iter().position(|rate| *rate == k).unwrap()]
                    };
                    assert_eq!(book::run(book, &mut survival), wanted);
                    choices += 1;
                }
            }
        }
    }
    assert_eq!(choices, 6 * 6 * 6 * 6);
    println!("January 1852: byte by byte, {choices} choices of S");
}

fn ceiling() {
    let full = State::new(Soil {
        pools: [1_000_000_000, 0, 0, 0],
        ..rothamsted()
    });
    let entries = Entries {
        temperature: 34,
        rain: 740,
        evaporation: 80,
        source: OPEN_PAN,
        cover: 0,
        plant: 0,
        manure: 0,
        activity: FRESH,
    };
    assert!(month(&full, 1, &entries, &mut Nearest).1.is_ok());
    let one = Entries {
        plant: 1,
        ..entries
    };
    assert_eq!(
        month(&full, 1, &one, &mut Nearest)
            .1
            .unwrap_err()
            .cause
            .number(),
        17
    );
    println!("active 1,000,000,000 runs, one gram added is 17");
}

/// 500,000 survival tests on numbers that a month can meet.
fn survival_numbers() {
    let mut draw = Draw::new(4);
    for round in 0..500_000u64 {
        let a = temperature_factor(draw.between(-50, 500));
        let n = a * draw.between(2_000, 10_000) as u64 * if draw.below(2) == 0 { 6 } else { 10 };
        let k = RATES[(round % 4) as usize];
        let floor = survival_floor(n, k);
        let s = (floor + draw.below(10)).saturating_sub(4);
        let near = s as i128 - floor as i128;
        assert_eq!(allowed(s, n, k), (-2..=3).contains(&near) && s <= BILLION);
        if round % 16 == 0 {
            assert_eq!(within(s, n, k, 1), (0..=1).contains(&near) && s <= BILLION);
            assert_eq!(within(s, n, k, 2), (-1..=2).contains(&near) && s <= BILLION);
        }
    }
    println!("survival: 500,000 numbers tested");
}

/// Survival numbers of all ages, and the month's 999,989,629, against the paper's sums.
fn ages() {
    assert_eq!((age_floor(0), age_nearest(0)), (BILLION, BILLION));
    // e^(-1) is 0.36787944117.
    assert_eq!(age_nearest(MEAN_LIFE), 367_879_441);
    for years in 1..=OLDEST {
        assert!(age_floor(years) < age_floor(years - 1), "age {years}");
    }
    // The half life is 5,569.4 years; 001's conventional one, 5,568, leaves 0.50009.
    assert!(!age_at_most(5_569, 1, 2) && age_at_most(5_570, 1, 2));
    assert_eq!(age_nearest(5_568) / 10_000, 50_008);
    // The oldest age leaves 0.00057145.
    assert_eq!(age_nearest(OLDEST), 571_452);
    // A month is a twelfth of a year, to the nearest billionth; twelve of them make a year.
    let month = nearest_of((1, 12 * MEAN_LIFE as u128));
    assert_eq!((month, month_left(BILLION)), (999_989_629, 999_989_629));
    let year = (0..12).fold(BILLION, |grams, _| month_left(grams));
    assert!(year.abs_diff(age_nearest(1)) <= 12, "{year}");
    println!("survival numbers of 60,001 ages, half lives, and 999,989,629 for a month");
}

/// Delta in hundredths, to the nearest, of an age in hundredths of a year: 001's formula.
fn delta_of_age(hundredths: u64) -> i64 {
    let s = nearest_of((hundredths as u128, 100 * MEAN_LIFE as u128)) as i64;
    (s - BILLION as i64 - 5_000) / 10_000
}

fn delta_of(state: &State, asked: Asked) -> i64 {
    report(state, 0, asked, &mut Nearest).expect("carbon").delta as i64
}

/// 001's table for 31 December 1851 and 31 January 1852. Its deltas are up to a hundredth off its
/// own formula.
fn radiocarbon_of_001() {
    let december = [(10, -1), (670, -83), (2_169, -269), (11_688, -1_444)];
    let january = [(19, -2), (678, -84), (2_178, -270), (11_691, -1_445)];
    let more = [(5_000_000, -99_802), (76_437, -9_075)];
    for (age, delta) in december.iter().chain(&january).chain(&more) {
        assert!((delta_of_age(*age) - delta).abs() <= 1, "age {age}");
    }
    assert_eq!(delta_of_age(5_000_000), -99_802);
    // 001 has IOM's delta at -998.0, its age at 50,000 years. 2 thousandths are 49,934.4 years.
    let new = State::new(rothamsted());
    let inert = report(&new, 0, Asked::Inert, &mut Nearest).expect("IOM");
    assert_eq!((inert.delta, inert.dated), (-99_800, Dated::Age(49_935)));
    assert!(!age_at_most(49_934, 2, 1_000) && age_at_most(49_935, 2, 1_000));
    // Fresh pools: 100 % modern, delta 0, age 0.
    for pool in 0..4 {
        let report = report(&new, 0, Asked::Active(pool), &mut Nearest).expect("carbon");
        assert_eq!((report.delta, report.dated), (0, Dated::Age(0)));
    }
    // The pools of 31 December with 001's deltas, thirtyfold so that grams don't show. All five by
    // activity come to 001's total; by ages they would be over 4,000 years.
    let mut state = new.clone();
    state.soil.pools = state.soil.pools.map(|grams| 30 * grams);
    state.soil.inert *= 30;
    for pool in 0..4 {
        let part = (100_000 + december[pool].1) as u64;
        state.modern[pool] = (state.soil.pools[pool] * part).div_ceil(100_000);
        assert_eq!(delta_of(&state, Asked::Active(pool)), december[pool].1);
    }
    assert!((delta_of(&state, Asked::All) + 9_075).abs() <= 2);
    let all = report(&state, 0, Asked::All, &mut Nearest).expect("carbon");
    assert!(matches!(all.dated, Dated::Age(764..=766)), "{all:?}");
    // January, without additions.
    let entries = Entries {
        temperature: 34,
        rain: 740,
        evaporation: 80,
        source: OPEN_PAN,
        cover: 0,
        plant: 0,
        manure: 0,
        activity: FRESH,
    };
    let (after, row) = month(&state, 1, &entries, &mut Nearest);
    assert!(row.is_ok());
    for (pool, (_, delta)) in january.into_iter().enumerate() {
        let own = delta_of(&after, Asked::Active(pool));
        assert!((own - delta).abs() <= 1, "pool {pool}: {own} and {delta}");
    }
    // January 1852 from fresh pools, the same for every allowed S.
    let (after, _) = month(&new, 1, &entries, &mut Nearest);
    let modern = [113_935, 4_445_401, 665_097, 25_854_836];
    assert!(after.modern == modern && month_fixed(&new, &entries));
    println!("001's radiocarbon of December 1851 and January 1852, IOM and all five");
}

/// 001's run to equilibrium: 10,000 years of Rothamsted's weather with 0.212 t a month from January
/// to July and in December. (001 prints rain and evaporation, and the temperatures in a figure.)
fn equilibrium_of_001() {
    let temperatures = [34, 36, 51, 73, 110, 139, 160, 160, 135, 102, 61, 46];
    let rain = [740, 590, 620, 510, 520, 570, 340, 550, 580, 560, 750, 710];
    let evaporation = [80, 100, 270, 490, 830, 990, 1030, 910, 690, 340, 160, 80];
    let mut state = State::new(Soil {
        pools: [0; 4],
        ..rothamsted()
    });
    for number in 1..=120_000 {
        let j = (number as usize - 1) % 12;
        let growing = i64::from(!(7..=10).contains(&j));
        let entries = Entries {
            temperature: temperatures[j],
            rain: rain[j],
            evaporation: evaporation[j],
            source: OPEN_PAN,
            cover: growing,
            plant: growing * 212_000,
            manure: 0,
            activity: FRESH,
        };
        let (next, row) = month(&state, number, &entries, &mut Nearest);
        row.expect("nothing to refuse");
        state = next;
    }
    // 001's grams, delta in hundredths, and age in whole years: 0.10, 6.70, 21.69 and 116.88 reach
    // 1, 7, 22 and 117. Over 10,000 years roundings make up to 6 hundredths, 0.4 years.
    let close = |asked: Asked, delta: i128, years: u64| {
        let own = report(&state, 0, asked, &mut Nearest).expect("carbon");
        assert!((own.delta - delta).abs() <= 6, "{asked:?}: {own:?}");
        let Dated::Age(age) = own.dated else {
            panic!("{asked:?}: {own:?}")
        };
        assert!((years..=years + 1).contains(&age), "{asked:?}: {own:?}");
    };
    let wanted = [
        (153_300, -1, 1),
        (4_485_200, -83, 7),
        (667_100, -269, 22),
        (25_857_600, -1_444, 117),
    ];
    for (pool, (grams, delta, years)) in wanted.into_iter().enumerate() {
        assert!(state.soil.pools[pool].abs_diff(grams) <= 300, "pool {pool}");
        close(Asked::Active(pool), delta, years);
    }
    close(Asked::All, -9_075, 765);
    println!("001's equilibrium: grams and ages after 10,000 years");
}

/// 20,000 reports: the age found year by year against e^(-y/8035) itself, by the paper's sums.
fn reports() {
    let mut draw = Draw::new(2604);
    let mut compared = 0;
    for _ in 0..20_000 {
        let size = draw.below(30);
        let carbon = 1 + (draw.below(1_000_000_000) >> size);
        let modern = match draw.below(4) {
            0 => carbon / (1 + draw.below(2_000)),
            _ => draw.below(carbon + 1),
        };
        let mut state = State::new(rothamsted());
        (state.soil.pools[3], state.modern[3]) = (carbon, modern);
        state.soil.pools[1] = 0;
        state.months = 10;
        let (answer, fixed) = report_fixed(&state, 0, Asked::Active(3));
        if !fixed {
            continue;
        }
        let Ok(report) = answer else { continue };
        compared += 1;
        match report.dated {
            Dated::Newer => panic!("not more than carbon"),
            Dated::Older => assert!(!age_at_most(OLDEST, modern, carbon)),
            Dated::Age(years) => {
                assert!(age_at_most(years, modern, carbon));
                assert!(years == 0 || !age_at_most(years - 1, modern, carbon));
            }
        }
        assert_eq!(
            report.delta,
            (modern as i128 * 100_000).div_euclid(carbon as i128) - 100_000
        );
        assert_eq!(
            dated(carbon.into(), modern.into(), &mut Nearest),
            report.dated
        );
    }
    assert!(compared > 19_000);
    println!("reports: {compared} ages against the paper's sums");
}

/// The years of the light fields' spin-ups and of Hoosfield's, by the total alone and by the rule,
/// and what the example says of the light fields.
fn settled_years() {
    let fields = light::fields().expect("the books of the light fields");
    let hoosfield = light::hoosfield();
    let wanted = [[3, 566], [8, 576], [625, 625]];
    for (field, wanted) in fields.iter().chain([&hoosfield]).zip(wanted) {
        for shift in [-1, 0, 1] {
            let years = field.years(&mut Known::new(&mut shifted(shift)));
            assert_eq!(years, wanted.map(Spun::Settled), "{}", field.name);
        }
        println!(
            "{}: settled after {} years by the total alone, {} by each pool too",
            field.name, wanted[0], wanted[1]
        );
    }
    let example = concat!(env!("CARGO_MANIFEST_DIR"), "/../examples/light/settled.out");
    let text = std::fs::read_to_string(example).expect("examples/light/settled.out");
    assert_eq!(light::settled(&fields), text);
}

/// Demand 3 on lists of 120,000 accepted months with refused calls among them.
fn demand_three() {
    let mut lowest = |n: u64, k: u64| allowed_range(n, k).0;
    let mut highest = |n: u64, k: u64| allowed_range(n, k).1;
    let survivals: [(&str, &mut dyn Survival); 3] = [
        ("nearest S", &mut Nearest),
        ("lowest S", &mut lowest),
        ("highest S", &mut highest),
    ];
    let mut draw = Draw::new(1852);
    for (name, survival) in survivals {
        let soil = Soil {
            pools: [100_000_000, 200_000_000, 50_000_000, 600_000_000],
            ..rothamsted()
        };
        let mut calls = Vec::new();
        let mut number = 0;
        while number < 120_000 {
            let mut entries = drawn_entries(&mut draw);
            match draw.below(20) {
                0 => calls.push((number + 2, entries)),
                1 => {
                    entries.cover = 2;
                    calls.push((number + 1, entries));
                }
                _ => {
                    number += 1;
                    calls.push((number, entries));
                }
            }
        }
        let (answered, last) = run_calls(&soil, &calls, survival);
        assert_eq!(last.months, 120_000);
        assert!(carbon_closes(&soil, &answered, &last), "(a) with {name}");
        assert_eq!(
            distance_every_q(&soil, &answered, &last, survival),
            Decision::Holds,
            "(b) with {name}"
        );
        let mut own = |_: u64, _: usize, s: u64| s;
        assert_eq!(
            distance_interval(&soil, &answered, &last, survival, &mut own),
            Decision::Holds
        );
        let mut low = |_: u64, _: usize, s: u64| q_lowest(s);
        assert_eq!(
            distance_interval(&soil, &answered, &last, survival, &mut low),
            Decision::Holds
        );
        let mut high = |_: u64, _: usize, s: u64| q_highest(s);
        assert_eq!(
            distance_interval(&soil, &answered, &last, survival, &mut high),
            Decision::Holds
        );
        println!(
            "demand 3 with {name}: {} calls, 120,000 accepted",
            calls.len()
        );
    }
}

fn drawn_entries(draw: &mut Draw) -> Entries {
    Entries {
        temperature: draw.between(-80, 250),
        rain: draw.between(0, 1200),
        evaporation: draw.between(0, 1500),
        source: draw.between(OPEN_PAN, EVAPOTRANSPIRATION),
        cover: draw.between(0, 1),
        plant: draw.between(0, 1_000_000),
        manure: draw.between(0, 300_000),
        activity: draw.between(0, 2_000),
    }
}

/// Demand 3 on lists of 60,000 acts with months taken back, a few at once and more than are kept:
/// balance and distance over the months that remain, and the state in which these end alone.
fn months_taken_back() {
    let mut lowest = |n: u64, k: u64| allowed_range(n, k).0;
    let mut highest = |n: u64, k: u64| allowed_range(n, k).1;
    let survivals: [(&str, &mut dyn Survival); 3] = [
        ("nearest S", &mut Nearest),
        ("lowest S", &mut lowest),
        ("highest S", &mut highest),
    ];
    let mut draw = Draw::new(2602);
    for (name, survival) in survivals {
        let soil = Soil {
            pools: [100_000_000, 200_000_000, 50_000_000, 600_000_000],
            ..rothamsted()
        };
        let mut list = Remaining::new(&soil);
        let (mut acts, mut taken, mut none_kept, mut refused) = (0, 0, 0, 0);
        while acts < 60_000 {
            acts += 1;
            let number = list.field.state.months as i128 + 1;
            let mut entries = drawn_entries(&mut draw);
            match draw.below(40) {
                0 => refused += i32::from(list.month(number + 1, &entries, survival).is_err()),
                1 => {
                    entries.cover = 2;
                    refused += i32::from(list.month(number, &entries, survival).is_err());
                }
                2 => {
                    let sky = [entries.temperature, entries.rain, 400, entries.source];
                    let land = [entries.cover, 1_000, 500, 800].repeat(1 + draw.below(40) as usize);
                    list.list(&sky, &land, survival).expect("nothing to refuse");
                }
                turn @ 3..=8 => {
                    let backs = if turn == 3 {
                        20 + draw.below(10)
                    } else {
                        1 + draw.below(4)
                    };
                    for _ in 0..backs {
                        acts += 1;
                        match list.take_back() {
                            Ok(()) => taken += 1,
                            Err(_) => none_kept += 1,
                        }
                    }
                }
                _ => {
                    list.month(number, &entries, survival).expect("in turn");
                }
            }
        }
        assert!(taken > 0 && none_kept > 0 && refused > 0);
        assert!(list.is_alone(survival), "the months that remain, {name}");
        assert_eq!(
            list.demand_three(survival),
            DemandThree {
                carbon_closes: true,
                distance: Decision::Holds
            },
            "with {name}"
        );
        println!(
            "demand 3 with {name} and months taken back: {acts} acts, {taken} months taken back, \
             {none_kept} times none kept, {refused} months refused, {} months remain",
            list.months.len()
        );
    }
}
