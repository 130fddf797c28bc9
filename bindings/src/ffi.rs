//! The exported functions of the library. Nothing checks these declarations against the library: they are those of
//! `include/falgrumi.h`.

mod c {
    extern "C" {
        pub fn falgrumi_check(
            table: *const u8,
            table_length: usize,
            sheet: *mut u8,
            sheet_length: usize,
            place: *mut u64,
        ) -> u8;

        pub fn falgrumi_evaluate(
            table: *const u8,
            table_length: usize,
            values: *const u8,
            values_length: usize,
            budget: u32,
            truth: *mut u8,
            place: *mut u64,
            steps: *mut u32,
        ) -> u8;

        pub fn falgrumi_conforms(
            table: *const u8,
            table_length: usize,
            sheet: *const u8,
            sheet_length: usize,
            values: *const u8,
            values_length: usize,
        ) -> u8;

        pub fn falgrumi_checked_evaluate(
            table: *const u8,
            table_length: usize,
            sheet: *mut u8,
            sheet_length: usize,
            values: *const u8,
            values_length: usize,
            budget: u32,
            truth: *mut u8,
            place: *mut u64,
            steps: *mut u32,
            conforms: *mut u8,
        ) -> u8;

        pub fn falgrumi_merge(
            table: *const u8,
            table_length: usize,
            values: *const u8,
            values_length: usize,
            cells: *mut u8,
            cells_length: usize,
            place: *mut u64,
            comparisons: *mut u64,
            bytes: *mut u64,
        ) -> u8;
    }
}

#[derive(Default)]
pub struct Answer {
    pub number: u8,
    pub truth: u8,
    pub place: u64,
    pub steps: u32,
}

/// What a merge answers. `bytes` is the length of the union's cells, whether they fit or not.
#[derive(Clone, Copy, PartialEq, Eq, Debug)]
pub struct Union {
    pub number: u8,
    pub place: u64,
    pub comparisons: u64,
    pub bytes: u64,
}

/// The answer's number and place.
pub fn check(table: &[u8], sheet: &mut [u8]) -> (u8, u64) {
    let mut place = 0;
    // SAFETY: the library reads the table and writes the sheet and the place within their lengths, as its proofs say; a
    // slice's pointer is never null, and the borrows keep the sheet apart from the table.
    let number = unsafe {
        c::falgrumi_check(
            table.as_ptr(),
            table.len(),
            sheet.as_mut_ptr(),
            sheet.len(),
            &mut place,
        )
    };
    (number, place)
}

pub fn evaluate(table: &[u8], values: &[u8], budget: u32) -> Answer {
    let mut answer = Answer::default();
    // SAFETY: as for `check`; only the three numbers are written.
    answer.number = unsafe {
        c::falgrumi_evaluate(
            table.as_ptr(),
            table.len(),
            values.as_ptr(),
            values.len(),
            budget,
            &mut answer.truth,
            &mut answer.place,
            &mut answer.steps,
        )
    };
    answer
}

pub fn conforms(table: &[u8], sheet: &[u8], values: &[u8]) -> bool {
    // SAFETY: as for `check`; nothing is written.
    let answer = unsafe {
        c::falgrumi_conforms(
            table.as_ptr(),
            table.len(),
            sheet.as_ptr(),
            sheet.len(),
            values.as_ptr(),
            values.len(),
        )
    };
    answer == 1
}

/// The answer, and whether the values conform.
pub fn checked_evaluate(
    table: &[u8],
    sheet: &mut [u8],
    values: &[u8],
    budget: u32,
) -> (Answer, bool) {
    let mut answer = Answer::default();
    let mut conforms = 0;
    // SAFETY: as for `check`; only the sheet and the four numbers are written.
    answer.number = unsafe {
        c::falgrumi_checked_evaluate(
            table.as_ptr(),
            table.len(),
            sheet.as_mut_ptr(),
            sheet.len(),
            values.as_ptr(),
            values.len(),
            budget,
            &mut answer.truth,
            &mut answer.place,
            &mut answer.steps,
            &mut conforms,
        )
    };
    (answer, conforms == 1)
}

pub fn merge(table: &[u8], values: &[u8], cells: &mut [u8]) -> Union {
    // Numbers that no merge answers, so that one that the library has not written is seen.
    let [mut place, mut comparisons, mut bytes] = [u64::MAX; 3];
    // SAFETY: as for `check`; only the cells and the three numbers are written.
    let number = unsafe {
        c::falgrumi_merge(
            table.as_ptr(),
            table.len(),
            values.as_ptr(),
            values.len(),
            cells.as_mut_ptr(),
            cells.len(),
            &mut place,
            &mut comparisons,
            &mut bytes,
        )
    };
    Union {
        number,
        place,
        comparisons,
        bytes,
    }
}

#[cfg(test)]
mod tests {
    use super::*;

    const BINS: &[u8] = include_bytes!("../../tables/bins");

    fn union(number: u8, place: u64, comparisons: u64, bytes: u64) -> Union {
        Union {
            number,
            place,
            comparisons,
            bytes,
        }
    }

    /// Also those that the safe calls leave out.
    #[test]
    fn a_merge_writes_all_its_numbers() {
        let merge = |table, values| merge(table, values, &mut [0; 48]);
        let heavy: &[u8] = include_bytes!("../../tests/values/bins-heavy");
        let unlike: &[u8] = include_bytes!("../../tests/values/bins-unlike");
        let interleaved: &[u8] = include_bytes!("../../tests/values/bins-interleaved");
        assert_eq!(merge(BINS, interleaved), union(0, 0, 4, 48));
        assert_eq!(merge(BINS, &interleaved[..8]), union(14, 0, 0, 0));
        assert_eq!(merge(BINS, &interleaved[..40]), union(14, 2, 0, 0));
        assert_eq!(merge(BINS, unlike), union(15, 0, 0, 0));
        assert_eq!(merge(BINS, heavy), union(18, 0, 399, 0));
        assert_eq!(merge(&[], heavy), union(1, 0, 0, 0));
        let unknown = [&BINS[..100], &[12], &BINS[101..]].concat();
        assert_eq!(merge(&unknown, heavy), union(6, 3, 0, 0));
    }
}
