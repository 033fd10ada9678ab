/*
 * ladletwig.h: the C face of libladletwig.a (made by `bindings/archive.sh`). C99 and C++, 64-bit targets.
 *
 * Every function of the archive is proved: for all arguments it answers what document 01 says and touches no memory
 * but the buffers it was lent. The proof begins behind this boundary, so a caller in C has to keep to what Rust
 * would see to.
 *
 * What the caller must keep to
 *   - A buffer is two arguments: a pointer, then its length IN ELEMENTS. The pointer is valid for that many
 *     elements for the whole call and aligned for its element type. An empty buffer is any pointer with length 0,
 *     NULL too.
 *   - A buffer that isn't const overlaps no other buffer of the same call.
 *   - `digest` pointers without a length beside them point at 32 bytes and are never NULL.
 *   - Nobody but these calls writes the slab while a ticket is pending: it holds the secrets and can't be checked.
 *   - Random words that an open read, after success or after a refusal 6, are never used for another open.
 *   - One table (with its slab) is used by one thread at a time. There is no state elsewhere: calls on different
 *     tables may run at the same time.
 * Other wrong arguments are no danger: every length, dimension, number and table is tested and refused by its number.
 *
 * What the library keeps to
 *   - It allocates nothing, keeps no pointer and calls nothing but memcpy and memset.
 *   - The table is the caller's memory. It crosses by value: hand it in, and store the one that comes back.
 *   - A refusal changes no buffer and no table and leaves every other value of the answer 0, except where it says
 *     so (6, 13 and 14). When several hold at once, the first in the function's own list is answered.
 *     How to read a list: behind a 2 stands what the call asks for, and it is refused with 2 where any of that fails.
 *     Behind another number stands when that number is given; a number alone is given as the enum below says.
 *   - An output may be longer than needed; what lies behind the result keeps what it held.
 *
 * Letters: b is the width of an element in bits, 4 to 14. R is the database's rows, 1 to 4096. C is its columns, 1
 * to 512. n is the length of a secret, 1 to 2048. Delta is 2^(32-b). Matrices are words, row after row. A packed
 * word holds f elements: 4 for b up to 8, 3 for b 9 and 10, 2 for b 11 to 14; a packed row of k elements has
 * ceil(k/f) words. A value has room for floor(C*b/8)-33 bytes.
 *
 * Choosing b and R: these limits allow more than the noise does, and no call tests it. An honest host's response is
 * always read rightly while R*(2^b-1) < 2^(31-b), that is
 *     for b       4 to 9     10     11     12     13     14
 *     R at most     4096   2050    512    128     32      8
 * Beyond that it hangs on the errors drawn, and a wrong value can come back with number 0.
 */
#ifndef LADLETWIG_H
#define LADLETWIG_H

#include <stdbool.h>
#include <stddef.h>
#include <stdint.h>

#ifdef __cplusplus
extern "C" {
#endif

/* What a call answers: 0, or why it was refused. */
enum ladletwig_number {
    LADLETWIG_OK = 0,           /* done */
    LADLETWIG_WIDTH = 1,        /* b is below 4 or above 14 */
    LADLETWIG_SHAPE = 2,        /* a dimension, a buffer's length or an output's room is wrong; C*b below 264 */
    LADLETWIG_WORDS_END = 3,    /* the random words ran out before enough were accepted */
    LADLETWIG_INTERVAL = 4,     /* the sampler's interval is 0 or above 1431655765 */
    LADLETWIG_POSITIONS = 5,    /* a position is no row of the database, or stands twice */
    LADLETWIG_WRAPS = 6,        /* adding Delta would wrap a query entry at one of the four positions */
    LADLETWIG_PENDING = 7,      /* a query for this digest is pending already */
    LADLETWIG_FULL = 8,         /* all 64 slots are taken */
    LADLETWIG_NUMBERS = 9,      /* the next ticket number is 2^32-1: the table has given out all it may */
    LADLETWIG_NOT_PENDING = 10, /* no query is pending under this ticket (none ever is under 0) */
    LADLETWIG_MALFORMED = 11,   /* a line or matrix bytes aren't well formed; a line was to be written for ticket 0 */
    LADLETWIG_LENGTH = 12,      /* the response hasn't C words */
    LADLETWIG_MARKER = 13,      /* the row's end marker isn't where it must be */
    LADLETWIG_DIGEST = 14,      /* the row carries another digest than the one asked for */
    LADLETWIG_PLACEMENT = 15,   /* the order of writing breaks the placement rule */
    LADLETWIG_TOO_LONG = 16,    /* the value is longer than floor(C*b/8)-33 bytes */
    LADLETWIG_ELEMENT = 17,     /* an element of a row is 2^b or more */
    LADLETWIG_TABLE = 18        /* the table is malformed (see ladletwig_table) */
};

/*
 * The pending table: 64 slots, and beside it a slab of 64*C words in which slot s has the C words from s*C on.
 * Store it, copy it, look at it; only the calls below change it. It is malformed (18) exactly when b, C or C*b is outside
 * its limits, next is 0, a used slot's number is next or more, two used slots have one number or one digest, or a free
 * slot has a digest byte that isn't 0.
 */
typedef struct ladletwig_table {
    uint32_t b;
    size_t columns;        /* C */
    uint32_t next;         /* the number that the next ticket gets; numbers are never used again */
    uint32_t numbers[64];  /* the ticket in each slot, 0 where it is free */
    uint8_t digests[2048]; /* 32 bytes for each slot: the digest asked for, zeros where it is free */
} ladletwig_table;

/* The four positions of a key, each a row of the database, by value. */
typedef struct ladletwig_positions {
    uint32_t at[4];
} ladletwig_positions;

/* Answers. `number` is one of enum ladletwig_number; on a refusal the other fields are 0 unless the call says so. */
typedef struct ladletwig_sampled {
    uint32_t number;
    size_t read; /* how many of the random words were read */
} ladletwig_sampled;

typedef struct ladletwig_parsed {
    uint32_t number;
    size_t rows;
    size_t columns;
} ladletwig_parsed;

typedef struct ladletwig_decoded {
    uint32_t number;
    size_t length; /* of the value, in bytes */
} ladletwig_decoded;

typedef struct ladletwig_made {
    uint32_t number;
    ladletwig_table table; /* all zero on a refusal, which every call refuses with 18 */
} ladletwig_made;

typedef struct ladletwig_opened {
    uint32_t number;
    uint32_t ticket;
    size_t read;           /* the true count on success and on 6 */
    ladletwig_table table; /* as it was, on a refusal */
} ladletwig_opened;

typedef struct ladletwig_replied {
    uint32_t number;
    size_t length;         /* of the value, in bytes */
    ladletwig_table table; /* with the ticket closed on success, 13 and 14; as it was on any other refusal */
} ladletwig_replied;

typedef struct ladletwig_discarded {
    uint32_t number;
    ladletwig_table table; /* as it was, on a refusal */
} ladletwig_discarded;

typedef struct ladletwig_line_written {
    uint32_t number;
    size_t length; /* of the line, in bytes, its line feed included */
} ladletwig_line_written;

typedef struct ladletwig_line_read {
    uint32_t number;
    uint32_t ticket;
    size_t columns; /* how many words the line carried */
} ladletwig_line_read;

/* ---- Packing and products ---- */

/*
 * Packs `rows` rows of `k` elements; only the low b bits of a word count, the first element lies lowest.
 * Refuses 1; 2: rows 1..512, k 1..4096, words_len = rows*k, out_len >= rows*ceil(k/f).
 * out: the packed rows.
 */
uint32_t ladletwig_row_wise_compress(uint32_t b, size_t rows, size_t k,
                                     const uint32_t *words, size_t words_len,
                                     uint32_t *out, size_t out_len);

/*
 * Unpacks `rows` packed rows into `k` elements each: the low b bits of each slot, whatever its other bits are.
 * Refuses 1; 2: rows 1..512, k 1..4096, words_len = rows*ceil(k/f), out_len >= rows*k.
 * out: the elements.
 */
uint32_t ladletwig_row_wise_decompress(uint32_t b, size_t rows, size_t k,
                                       const uint32_t *words, size_t words_len,
                                       uint32_t *out, size_t out_len);

/*
 * The vector times the transpose of a packed matrix of `rows` rows and `k` (unpacked) columns, modulo 2^32: the
 * host's answer to a query, where row j of the packed matrix is column j of the database.
 * Refuses 1; 2: rows 1..512, k 1..4096, vector_len = k, words_len = rows*ceil(k/f), out_len >= rows.
 * out: `rows` sums.
 */
uint32_t ladletwig_row_vector_x_compressed_transposed_matrix(uint32_t b,
                                                             const uint32_t *vector, size_t vector_len,
                                                             size_t rows, size_t k,
                                                             const uint32_t *words, size_t words_len,
                                                             uint32_t *out, size_t out_len);

/*
 * The r*m matrix `left` times the m*c matrix `right`, modulo 2^32. The hint of a database D is the product of A and
 * D.
 * Refuses 2: r, m, c 1..4096, left_len = r*m, right_len = m*c, out_len >= r*c.
 * out: r*c words.
 */
uint32_t ladletwig_plain_product(size_t r, size_t m, size_t c,
                                 const uint32_t *left, size_t left_len,
                                 const uint32_t *right, size_t right_len,
                                 uint32_t *out, size_t out_len);

/*
 * The c*r transpose of an r*c matrix.
 * Refuses 2: r, c 1..4096, words_len = r*c, out_len >= r*c.
 * out: r*c words.
 */
uint32_t ladletwig_transpose(size_t r, size_t c,
                             const uint32_t *words, size_t words_len,
                             uint32_t *out, size_t out_len);

/* ---- The ternary sampler ---- */

/*
 * Fills all of `out` with 0, 1 and 2^32-1 (that is -1). A word of 0..I gives 0, I+1..2I gives 1, 2I+1..3I gives -1,
 * a higher one is skipped but counts as read. An empty `out` reads nothing.
 * Refuses 2: out_len at most 4096; 4; 3. On a refusal `out` keeps what it held.
 */
ladletwig_sampled ladletwig_sample_from_uniform_ternary_dist(uint32_t interval,
                                                             const uint32_t *words, size_t words_len,
                                                             uint32_t *out, size_t out_len);

/*
 * The same work; answers where in `words` the unread rest starts. It gives no number: where its sister refuses, the
 * answer is 0 (all of the words are unread) and `out` keeps what it held.
 */
size_t ladletwig_sample_and_return_unread(uint32_t interval,
                                          const uint32_t *words, size_t words_len,
                                          uint32_t *out, size_t out_len);

/* ---- Matrix bytes: rows, columns, then the words, each as four bytes, lowest first ---- */

/*
 * Refuses 2: rows, columns 1..4096, words_len = rows*columns, out_len >= 8+4*rows*columns.
 * out: the bytes.
 */
uint32_t ladletwig_to_bytes(size_t rows, size_t columns,
                            const uint32_t *words, size_t words_len,
                            uint8_t *out, size_t out_len);

/*
 * Refuses 11: bytes_len isn't what the dimensions in the bytes give, or is below 8; 2: rows, columns 1..4096, out_len
 * >= rows*columns.
 * out: the words. Answers the dimensions.
 */
ladletwig_parsed ladletwig_from_bytes(const uint8_t *bytes, size_t bytes_len,
                                      uint32_t *out, size_t out_len);

/* ---- Rows: 32 bytes of digest, the value, 0x81, zeros; bits run lowest first ---- */

/*
 * Writes a member's record as a row of `columns` elements.
 * Refuses 1; 2: columns 1..512, columns*b >= 264, out_len >= columns; 16.
 * out: `columns` elements.
 */
uint32_t ladletwig_encode_kv_as_row(uint32_t b, size_t columns,
                                    const uint8_t digest[32],
                                    const uint8_t *value, size_t value_len,
                                    uint32_t *out, size_t out_len);

/*
 * Reads a row back.
 * Refuses 1; 2: columns 1..512, columns*b >= 264, row_len = columns, digest_len >= 32, value_len >=
 * floor(columns*b/8)-33; 17; 13.
 * digest: 32 bytes at its start. value: the value at its start. Answers the value's length.
 */
ladletwig_decoded ladletwig_decode_kv_from_row(uint32_t b, size_t columns,
                                               const uint32_t *row, size_t row_len,
                                               uint8_t *digest, size_t digest_len,
                                               uint8_t *value, size_t value_len);

/* ---- The database ---- */

/*
 * Builds a database of r rows in which each key's four rows and its masks sum up to its own row, modulo 2^b. The
 * keys stand in the order of writing, one after the other: `columns` words of `rows` and of `masks` a key, four of
 * `positions`, one of `targets` (which of the four positions is written, 0 to 3). A mask may be any word. What
 * `database` held doesn't count. For b and r see "Choosing b and R" at the top.
 * Refuses 1; 2: r 1..4096, columns 1..512 (columns*b has no bound here), count at most r, rows_len = masks_len =
 * count*columns, positions_len = 4*count, targets_len = count, database_len >= r*columns; 17: an element of any
 * row; 15: a position that is no row, two equal ones, a target above 3, or a target row among the positions of a
 * key written before.
 * database: r*columns elements.
 */
uint32_t ladletwig_build_database(uint32_t b, size_t r, size_t columns, size_t count,
                                  const uint32_t *rows, size_t rows_len,
                                  const uint32_t *masks, size_t masks_len,
                                  const uint32_t *positions, size_t positions_len,
                                  const uint32_t *targets, size_t targets_len,
                                  uint32_t *database, size_t database_len);

/* ---- Small numbers ---- */

/* Delta, 2^(32-b); 0 for b 0 and above 32. */
uint32_t ladletwig_calculate_query_indicator(uint32_t b);

/*
 * u/Delta: the quotient, one more exactly when the remainder is above Delta/2 (a tie goes down), modulo 2^b. 0 for
 * b 0, and u itself from b 32 on.
 */
uint32_t ladletwig_rounded(uint32_t b, uint32_t u);

/* ---- The pending table ---- */

/*
 * A table with 64 free slots, whose first ticket will be 1.
 * Refuses 1; 2: columns 1..512, columns*b >= 264.
 */
ladletwig_made ladletwig_fresh(uint32_t b, size_t columns);

/* Whether the next three calls would refuse this table with 18. */
bool ladletwig_is_malformed(ladletwig_table table);

/*
 * Opens a query for the key with these positions and this digest. It draws n secret and then r error words from
 * `words`; A is `matrix` (n*r), the hint A*D is `hint` (n*C). `secret` and `error` are work space.
 * Refuses 18; 2: n 1..2048, r 1..4096, slab_len = 64*C, matrix_len = n*r, hint_len = n*C, secret_len = n, error_len
 * = r, query_len >= r; 4; 5; 7; 8; 9; 3; 6.
 * Success: `query` has the r words, the slab has the secret in the ticket's slot, `secret` and `error` are all
 * zero; answers ticket, count of words read and the new table.
 * 6: `secret` and `error` are all zero and `read` is the true count; all else as it was. Don't use the words read
 * again.
 */
ladletwig_opened ladletwig_query_for_4_wise_xor_filter(ladletwig_table table,
                                                       uint32_t *slab, size_t slab_len,
                                                       size_t n, size_t r,
                                                       const uint32_t *matrix, size_t matrix_len,
                                                       const uint32_t *hint, size_t hint_len,
                                                       uint32_t interval,
                                                       ladletwig_positions positions,
                                                       const uint8_t digest[32],
                                                       const uint32_t *words, size_t words_len,
                                                       uint32_t *secret, size_t secret_len,
                                                       uint32_t *error, size_t error_len,
                                                       uint32_t *query, size_t query_len);

/*
 * Takes the host's response for a ticket; `masks` are the key's.
 * Refuses 18; 2: slab_len = 64*C, masks_len = C, value_len >= floor(C*b/8)-33; 10; 12; 17; 13; 14.
 * Success: the value at the start of `value`; answers its length.
 * Success, 13 and 14 close the ticket: slot free, its digest and its words of the slab zero. On 13 and 14 `value`
 * keeps what it held. 12 and the others change nothing, so the good response may still come.
 */
ladletwig_replied ladletwig_process_response(ladletwig_table table,
                                             uint32_t *slab, size_t slab_len,
                                             uint32_t ticket,
                                             const uint32_t *response, size_t response_len,
                                             const uint32_t *masks, size_t masks_len,
                                             uint8_t *value, size_t value_len);

/*
 * Gives up a ticket: slot free, its digest and its words of the slab zero.
 * Refuses 18; 2: slab_len = 64*C; 10.
 */
ladletwig_discarded ladletwig_discard_query(ladletwig_table table,
                                            uint32_t *slab, size_t slab_len,
                                            uint32_t ticket);

/* ---- Lines: lowercase hexadecimal, one frame a line, a line feed last ---- */

/*
 * Writes a query line of 27+8*words_len bytes.
 * Refuses 11: ticket 0; 2: words_len 1..4096, out_len >= 27+8*words_len.
 * out: the line. Answers its length.
 */
ladletwig_line_written ladletwig_write_query_line(uint32_t ticket,
                                                  const uint32_t *words, size_t words_len,
                                                  uint8_t *out, size_t out_len);

/*
 * Reads a response line, the line feed included.
 * Refuses 11: anything but exactly one whole response line with a ticket other than 0, one row, 1..4096 columns; 2:
 * out_len >= columns.
 * out: the words. Answers ticket and columns.
 */
ladletwig_line_read ladletwig_read_response_line(const uint8_t *line, size_t line_len,
                                                 uint32_t *out, size_t out_len);

#ifdef __cplusplus
}
#endif

#endif
