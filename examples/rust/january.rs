// January 1852 at Hoosfield: by the month call, by a list of one month, and by a book. The month
// call's January is then taken back.
mod rothc {
    // include/rothc.h says what each function does and what each number is.
    mod c {
        extern "C" {
            pub fn rothc_start(soil: *const u64, soil_len: usize, state: *mut u64, state_len: usize) -> u64;
            pub fn rothc_month(
                state: *mut u64,
                state_len: usize,
                number: u64,
                entries: *const i64,
                entries_len: usize,
                row: *mut u64,
                row_len: usize,
            ) -> u64;
            pub fn rothc_take_back(state: *mut u64, state_len: usize) -> u64;
            pub fn rothc_list(
                state: *mut u64,
                state_len: usize,
                weather: *const i64,
                weather_len: usize,
                land: *const i64,
                land_len: usize,
                rows: *mut u64,
                rows_len: usize,
                place: *mut u64,
            ) -> u64;
            pub fn rothc_book(book: *const u8, book_len: usize, out: *mut u8, out_len: usize, length: *mut u64) -> u64;
        }
    }

    // The current state, the kept count and the places of kept states.
    const STATE: usize = 376;
    pub const KEPT: usize = 15; // the index of the kept count
    pub type State = [u64; STATE];
    pub type Row = [u64; 7];

    // Slices have the pointers and lengths that the functions ask for, and a `&mut` overlaps
    // nothing else: so these are safe.
    pub fn start(soil: &[u64; 8]) -> Result<State, u64> {
        let mut state = [0; STATE];
        match unsafe { c::rothc_start(soil.as_ptr(), soil.len(), state.as_mut_ptr(), state.len()) } {
            0 => Ok(state),
            number => Err(number),
        }
    }

    pub fn month(state: &mut State, number: u64, entries: &[i64; 8]) -> Result<Row, u64> {
        let mut row = [0; 7];
        let answer = unsafe {
            c::rothc_month(state.as_mut_ptr(), state.len(), number, entries.as_ptr(), entries.len(), row.as_mut_ptr(), row.len())
        };
        match answer {
            0 => Ok(row),
            number => Err(number),
        }
    }

    // Takes the latest month back.
    pub fn take_back(state: &mut State) -> Result<(), u64> {
        match unsafe { c::rothc_take_back(state.as_mut_ptr(), state.len()) } {
            0 => Ok(()),
            number => Err(number),
        }
    }

    // A refusal is its number and its place.
    pub fn list(state: &mut State, weather: &[i64], land: &[i64], rows: &mut [u64]) -> Result<(), (u64, u64)> {
        let mut place = 0;
        let answer = unsafe {
            c::rothc_list(
                state.as_mut_ptr(),
                state.len(),
                weather.as_ptr(),
                weather.len(),
                land.as_ptr(),
                land.len(),
                rows.as_mut_ptr(),
                rows.len(),
                &mut place,
            )
        };
        match answer {
            0 => Ok(()),
            number => Err((number, place)),
        }
    }

    // The most bytes that are written for a book.
    const TEXT: usize = 204_800;

    // What the program writes for a book, REFUSED with its number and line too.
    pub fn book(book: &[u8]) -> Vec<u8> {
        let mut text = vec![0; TEXT];
        let mut length = 0;
        unsafe { c::rothc_book(book.as_ptr(), book.len(), text.as_mut_ptr(), text.len(), &mut length) };
        text.truncate(length as usize);
        text
    }
}

// The program's two lines: the month with its row, and the five pools together with the CO2 to
// date.
fn print(month: u64, row: &rothc::Row, state: &rothc::State) {
    let row: Vec<String> = row.iter().map(u64::to_string).collect();
    println!("{month} {}", row.join(" "));
    println!("TOTAL {} {}", state[3..8].iter().sum::<u64>(), state[10]);
}

fn main() {
    let soil = [234, 23, 1, 153300, 4485200, 667100, 25857600, 2700000];
    let start = rothc::start(&soil).expect("rothc_start: refused");

    // the fourth number is 0: the evaporation is an open pan's; the last is the activity of
    // additions, of which there are none here: 1000 is fresh carbon's
    let mut state = start;
    let row = rothc::month(&mut state, 1, &[34, 740, 80, 0, 0, 0, 0, 1000]).expect("rothc_month: refused");
    print(1, &row, &state);

    // taken back, the field is new again, and no month is left to take back
    rothc::take_back(&mut state).expect("rothc_take_back: refused");
    assert_eq!(state[..=rothc::KEPT], start[..=rothc::KEPT]);
    assert_eq!(rothc::take_back(&mut state), Err(20));

    let mut state = start;
    let mut row = [0; 7];
    rothc::list(&mut state, &[34, 740, 80, 0], &[0, 0, 0, 1000], &mut row).expect("rothc_list: refused");
    print(1, &row, &state);

    let book = b"SOIL 1\n234 23 1 153300 4485200 667100 25857600 2700000\nWEATHER 1\n34 740 80\nLAND 1\n0 0 0\n";
    print!("{}", String::from_utf8_lossy(&rothc::book(book)));
}
