//! The exported functions of the proved library, as include/cenduxari.h has them. A slice passes as its pointer, then
//! its length. Each returns the refusal or 0, and has no `requires`; each call on a book writes `out`, its number and its
//! count of rows.

extern "C" {
    pub fn cenduxari_share(
        amount: u64,
        amounts: *const u64,
        amounts_len: usize,
        parts: *mut u64,
        parts_len: usize,
    ) -> u64;

    pub fn cenduxari_limits(
        days: u64,
        kind: u64,
        capacity: u64,
        asset: u64,
        period: u64,
        out: *mut [u64; 3],
    ) -> u64;

    pub fn cenduxari_book_words(days: u64) -> u64;

    pub fn cenduxari_open(
        book: *mut u64,
        book_len: usize,
        days: u64,
        floor: u64,
        ceiling: u64,
        out: *mut [u64; 2],
    ) -> u64;

    pub fn cenduxari_enrol(
        book: *mut u64,
        book_len: usize,
        kind: u64,
        capacity: u64,
        asset: u64,
        out: *mut [u64; 2],
    ) -> u64;

    pub fn cenduxari_offer(
        book: *mut u64,
        book_len: usize,
        unit: u64,
        partner: u64,
        price: u64,
        amounts: *const u64,
        amounts_len: usize,
        out: *mut [u64; 2],
    ) -> u64;

    pub fn cenduxari_take(
        book: *mut u64,
        book_len: usize,
        unit: u64,
        number: u64,
        quantity: u64,
        rows: *mut u64,
        rows_len: usize,
        out: *mut [u64; 2],
    ) -> u64;

    pub fn cenduxari_withdraw(
        book: *mut u64,
        book_len: usize,
        unit: u64,
        number: u64,
        out: *mut [u64; 2],
    ) -> u64;

    pub fn cenduxari_order(
        book: *mut u64,
        book_len: usize,
        unit: u64,
        direction: u64,
        period: u64,
        price: u64,
        quantity: u64,
        rows: *mut u64,
        rows_len: usize,
        out: *mut [u64; 2],
    ) -> u64;

    pub fn cenduxari_cancel(
        book: *mut u64,
        book_len: usize,
        unit: u64,
        number: u64,
        out: *mut [u64; 2],
    ) -> u64;

    pub fn cenduxari_clear(
        book: *mut u64,
        book_len: usize,
        rows: *mut u64,
        rows_len: usize,
        out: *mut [u64; 2],
    ) -> u64;

    pub fn cenduxari_close(book: *mut u64, book_len: usize, out: *mut [u64; 2]) -> u64;

    pub fn cenduxari_curve(
        book: *const u64,
        book_len: usize,
        unit: u64,
        day: u64,
        points: *mut u64,
        points_len: usize,
        out: *mut [u64; 2],
    ) -> u64;
}
