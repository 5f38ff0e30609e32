/* Cenduxari: term contracts for electricity, matching and positions.
 *
 * Link libcenduxari.a. Every call on a book has one shape: the book first, `out` last. It returns 0, or the refusal by
 * its number (1 to 21, the README's table), and writes to `out` the number given (of a unit, an offer or an order, else 0)
 * and the count of rows. A refused call writes 0 and 0 there and changes nothing else. It answers for every content of
 * the memory and every argument; the pointers must be valid for the lengths beside them, which count words of 64 bits,
 * and what is written must overlap nothing else.
 *
 * Energy is in kWh, capacity in kW, a price in thousandths of a yuan per MWh. A row is six words: way (1 bilateral, 2
 * listing, 3 clear, 4 rolling), period, seller, buyer, quantity, price. Words past the counted rows, past the 48 points
 * and past the book are kept. A book's memory may be kept and lent again; a version that lays it out otherwise refuses it
 * by 1.
 */
#ifndef CENDUXARI_H
#define CENDUXARI_H

#include <stddef.h>
#include <stdint.h>

#ifdef __cplusplus
extern "C" {
#endif

/* What take, order and clear need for rows, and curve for points. */
#define CENDUXARI_ROWS_LEN 4464
#define CENDUXARI_POINTS_LEN 48

/* Shares an amount over the remaining amounts, into as many parts: each rounded down, the kWh left over one each to the largest
   fractions, equal ones by lowest place. Returns 0 or the refusal. */
uint64_t cenduxari_share(uint64_t amount, const uint64_t *amounts, size_t amounts_len, uint64_t *parts, size_t parts_len);

/* The hour, term and volume limit of a unit in a period; three zeros on a refusal, which it returns, or 0. */
uint64_t cenduxari_limits(uint64_t days, uint64_t kind, uint64_t capacity, uint64_t asset, uint64_t period,
                          uint64_t out[3]);

/* How many words the book of a term needs; 0 if the days are not 1 to 31. */
uint64_t cenduxari_book_words(uint64_t days);

/* Opens a book, whatever the memory held. */
uint64_t cenduxari_open(uint64_t *book, size_t book_len, uint64_t days, uint64_t floor, uint64_t ceiling,
                        uint64_t out[2]);

/* Adds a unit. Kinds: 1 solar generator, 2 other generator, 3 wholesale user, 4 retailer. */
uint64_t cenduxari_enrol(uint64_t *book, size_t book_len, uint64_t kind, uint64_t capacity, uint64_t asset,
                         uint64_t out[2]);

/* Offers an amount for each period, to a partner or, with partner 0, as a listing. */
uint64_t cenduxari_offer(uint64_t *book, size_t book_len, uint64_t unit, uint64_t partner, uint64_t price,
                         const uint64_t *amounts, size_t amounts_len, uint64_t out[2]);

/* Takes a quantity of an open offer: a row for each period that gives some. */
uint64_t cenduxari_take(uint64_t *book, size_t book_len, uint64_t unit, uint64_t number, uint64_t quantity,
                        uint64_t *rows, size_t rows_len, uint64_t out[2]);

/* Removes an own offer of which nothing is taken. */
uint64_t cenduxari_withdraw(uint64_t *book, size_t book_len, uint64_t unit, uint64_t number, uint64_t out[2]);

/* Orders a quantity of a period. Directions: 0 sell, 1 buy. With 256 open, only one that trades whole is let through. */
uint64_t cenduxari_order(uint64_t *book, size_t book_len, uint64_t unit, uint64_t direction, uint64_t period,
                         uint64_t price, uint64_t quantity, uint64_t *rows, size_t rows_len, uint64_t out[2]);

/* Removes what is left of an own order. */
uint64_t cenduxari_cancel(uint64_t *book, size_t book_len, uint64_t unit, uint64_t number, uint64_t out[2]);

/* Clears each period of the call phase, and begins the rolling phase. */
uint64_t cenduxari_clear(uint64_t *book, size_t book_len, uint64_t *rows, size_t rows_len, uint64_t out[2]);

/* Closes the day. */
uint64_t cenduxari_close(uint64_t *book, size_t book_len, uint64_t out[2]);

/* The 48 half hours of a unit on a day, from 0. */
uint64_t cenduxari_curve(const uint64_t *book, size_t book_len, uint64_t unit, uint64_t day, uint64_t *points,
                         size_t points_len, uint64_t out[2]);

#ifdef __cplusplus
}
#endif

#endif
