/*
 * Burmelox: floors under polynomials, checked and searched, and the polynomials evaluated.
 * docs/FORMAT.md has the layout of the sheets, what each refusal means and what to do about it.
 *
 * Byte 2 of a claim is its mask: bit i, of value 2^i, says that variable i is never negative. The
 * mask admits the numbers at which each of these variables is at least 0; mask 0 admits all.
 *
 * A limits sheet says of each variable whether it is limited, and then that it stays within plus
 * and minus L. It admits the numbers at which each limited variable does; n and 7 * n zero bytes
 * limit no variable and admit all.
 *
 * A profile says how large the sheets of a site may be. What is accepted under a profile is
 * accepted under every one in range that is at least as large in all three numbers, and the same is
 * written.
 *
 * Sheets, outputs, pages and offsets may be of any length and content, and the numbers of a profile
 * any: what is wrong is refused, and a refusal writes nothing but the page of a check that has one.
 * The functions keep no state and allocate nothing, so any thread may call them at any time with
 * buffers of its own.
 *
 * A pointer whose length is 0 is not read through and may be null. Every other pointer leads to as
 * many elements as its length says, `value`, `floor` and `tried` to one each; what is written
 * overlaps nothing else that is handed over.
 */
#ifndef BURMELOX_H
#define BURMELOX_H

#include <stddef.h>
#include <stdint.h>

#ifdef __cplusplus
extern "C" {
#endif

#define BURMELOX_VERSION_MAJOR 0
#define BURMELOX_VERSION_MINOR 7
#define BURMELOX_VERSION_PATCH 0
#define BURMELOX_VERSION "0.7.0"

/*
 * An answer is one number. It is under 65,536 where nothing is refused: the number of rows of an
 * accepted proof, 0 for a value, the length of a text. A refusal is sheet * 2^32 + number * 2^16 +
 * index.
 */
#define BURMELOX_ACCEPTED(answer) ((uint64_t)(answer) < 0x10000u)
#define BURMELOX_SHEET(answer) ((unsigned)((uint64_t)(answer) >> 32))
#define BURMELOX_NUMBER(answer) ((unsigned)((uint64_t)(answer) >> 16 & 0xffffu))
#define BURMELOX_INDEX(answer) ((unsigned)((uint64_t)(answer) & 0xffffu))

/* The sheet at fault. */
enum burmelox_sheet {
    BURMELOX_CLAIM = 1,
    BURMELOX_PROOF = 2,
    BURMELOX_OUTPUT = 3,
    BURMELOX_OFFSETS = 4,
    BURMELOX_RANGE = 5,
    BURMELOX_LIMITS = 6,
    BURMELOX_PAGE = 7,
    BURMELOX_PROFILE = 8,
    BURMELOX_BUFFER = 9
};

/*
 * The number of a refusal; its index is that of a term, a row or a variable where the comment says
 * so.
 */
enum burmelox_refusal {
    BURMELOX_CLAIM_TOO_SHORT = 1,       /* under 8 bytes */
    BURMELOX_CLAIM_HEADER = 2,          /* n, t, a mask bit at or above n, or byte 3 */
    BURMELOX_CLAIM_LENGTH_WRONG = 3,
    BURMELOX_FLOOR_BEYOND = 4,
    BURMELOX_COEFFICIENT_WRONG = 5,     /* zero or beyond 2^30; term */
    BURMELOX_CLAIM_EXPONENT = 6,        /* over the profile's; term */
    BURMELOX_POINT_NOT_RISING = 7,      /* the later term */
    BURMELOX_PROOF_TOO_SHORT = 8,       /* under 8 bytes */
    BURMELOX_PROOF_HEADER = 9,          /* n, byte 1, the scale, or k, by the profile */
    BURMELOX_PROOF_LENGTH_WRONG = 10,
    BURMELOX_OUTPUT_TOO_SHORT = 11,     /* shorter than the proof */
    BURMELOX_ROW_EXPONENT = 12,         /* over the profile's; row */
    BURMELOX_NO_MIDPOINT = 13,          /* no whole one; row */
    BURMELOX_LONE_ROW_WEIGHTS = 14,     /* q or r of a lone row is not zero; row */
    BURMELOX_WEIGHT_BEYOND = 15,        /* a proposed one, by the profile; row */
    BURMELOX_NO_SLOT = 16,              /* for a target that is not zero; term, t for an absent
                                           constant, t + 1 + i for a point that the limit of
                                           variable i adds */
    BURMELOX_SHIFTED_BEYOND = 17,       /* a shifted weight, by the profile; row */
    BURMELOX_SHIFTED_NEGATIVE = 18,     /* p or q; row */
    BURMELOX_CROSS_TOO_LARGE = 19,      /* r * r over 4 * p * q; row */
    BURMELOX_OFFSETS_COUNT = 20,        /* not n */
    BURMELOX_TERM_TOO_LARGE = 21,       /* over 2^56; term */
    BURMELOX_RANGE_WRONG = 22,          /* lo over hi, either beyond 2^30, or too many floors */
    BURMELOX_NO_FLOOR = 23,             /* from lo to hi none is accepted */
    BURMELOX_LIMITS_LENGTH_WRONG = 24,  /* or n not the claim's */
    BURMELOX_LIMIT_WRONG = 25,          /* power, L or m; variable */
    BURMELOX_PAGE_LENGTH_WRONG = 26,    /* not 2,920 bytes */
    BURMELOX_PROFILE_WRONG = 27,        /* exponent, weight or rows out of range */
    BURMELOX_BUFFER_TOO_SHORT = 30      /* shorter than the text */
};

/*
 * Greatest values; floors and coefficients are within plus and minus the greatest weight, under
 * every profile, and the greatest exponent and weight and most rows are those of the full profile;
 * the greatest span is that of hi - lo in a search, and the greatest limit and multiplier are those
 * of L and m in a limits sheet.
 */
#define BURMELOX_MOST_VARIABLES 8
#define BURMELOX_MOST_TERMS 64
#define BURMELOX_MOST_ROWS 256
#define BURMELOX_GREATEST_EXPONENT 120
#define BURMELOX_GREATEST_SCALE 1048576
#define BURMELOX_GREATEST_WEIGHT 1073741824
#define BURMELOX_GREATEST_VALUE 72057594037927936
#define BURMELOX_GREATEST_SPAN 4095
#define BURMELOX_GREATEST_LIMIT 1023
#define BURMELOX_GREATEST_MULTIPLIER 65536

/*
 * The length of a claim of n variables and t terms, of a proof of n variables and k rows, and of
 * the limits of n variables.
 */
#define BURMELOX_CLAIM_LENGTH(n, t) ((size_t)8 + (size_t)(t) * ((size_t)(n) + 4))
#define BURMELOX_PROOF_LENGTH(n, k) ((size_t)8 + (size_t)(k) * (2 * (size_t)(n) + 12))
#define BURMELOX_LIMITS_LENGTH(n) ((size_t)1 + 7 * (size_t)(n))

/* A page: so many lines, of so many characters and a line feed each, so many bytes in all. */
#define BURMELOX_PAGE_LINES 40
#define BURMELOX_PAGE_WIDTH 72
#define BURMELOX_PAGE_LENGTH 2920

/* The greatest lengths. */
#define BURMELOX_MOST_CLAIM BURMELOX_CLAIM_LENGTH(BURMELOX_MOST_VARIABLES, BURMELOX_MOST_TERMS)
#define BURMELOX_MOST_PROOF BURMELOX_PROOF_LENGTH(BURMELOX_MOST_VARIABLES, BURMELOX_MOST_ROWS)
#define BURMELOX_MOST_LIMITS BURMELOX_LIMITS_LENGTH(BURMELOX_MOST_VARIABLES)

/* A buffer of this length has room for every text of its kind. */
#define BURMELOX_MOST_CLAIM_TEXT 4781
#define BURMELOX_MOST_PROOF_TEXT 31520
#define BURMELOX_MOST_LIMITS_TEXT 395
#define BURMELOX_MOST_PROFILE_TEXT 48

/*
 * A profile: the greatest exponent of the claim's points and of the rows' (0 to 120), the greatest
 * weight, which the rows' are within plus and minus of before and after the shift (1 to 2^30), and
 * the most rows (0 to 256). One out of range is refused before anything but the length of a page.
 */
struct burmelox_profile {
    uint32_t exponent;
    uint32_t weight;
    uint32_t rows;
};

/* The largest profile, the program's, as an initializer. */
#define BURMELOX_FULL_PROFILE \
    {BURMELOX_GREATEST_EXPONENT, BURMELOX_GREATEST_WEIGHT, BURMELOX_MOST_ROWS}

/*
 * Checks whether the proof shows the claim's floor within the limits, under the profile. Where it
 * does, the answer is the number of rows, the output's first proof_len bytes are the exact proof
 * and later ones keep their values; the polynomial is then at least its floor at all integers, and
 * at all fractions of integers, that the mask and the limits admit. Any other answer is a refusal.
 * The output may not be the proof's own buffer.
 */
uint64_t burmelox_check(const uint8_t *claim, size_t claim_len,
                        const uint8_t *proof, size_t proof_len,
                        const uint8_t *limits, size_t limits_len,
                        struct burmelox_profile profile,
                        uint8_t *output, size_t output_len);

/*
 * Checks as burmelox_check does, with the same answer and the same output, and writes the verdict
 * as a page: in line 1 `accepted rows K scale S floor B` or `refused NUMBER at INDEX`, as the
 * program prints it, and of an acceptance in each of lines 2 to 39 a row, its index from 0 in 4
 * columns and its exact weights p, q and r in 12 each, right-aligned; line 40 is `more` where there
 * are more than 38 rows. All else is spaces and line feeds, and no zero ends the page. A page_len
 * other than BURMELOX_PAGE_LENGTH is refused before anything else, and then nothing is written;
 * every other refusal writes the page, and the output stays as it was.
 */
uint64_t burmelox_check_page(const uint8_t *claim, size_t claim_len,
                             const uint8_t *proof, size_t proof_len,
                             const uint8_t *limits, size_t limits_len,
                             struct burmelox_profile profile,
                             uint8_t *output, size_t output_len,
                             uint8_t *page, size_t page_len);

/*
 * Evaluates the claim's polynomial at the offsets, one for each variable, whether mask and limits
 * admit them or not; of the profile it reads the exponent. Answers 0 and stores the exact value,
 * which is at least the floor if the claim is accepted with some limits, any proof and any profile,
 * and the mask and these limits admit the offsets; any other answer is a refusal, and the value
 * stays as it was.
 */
uint64_t burmelox_evaluate(const uint8_t *claim, size_t claim_len,
                           struct burmelox_profile profile,
                           const int32_t *offsets, size_t offsets_len,
                           int64_t *value);

/*
 * Searches the floors from hi down to lo for the highest that the proof shows within the limits,
 * under the profile; lo is at most hi, both are within plus and minus BURMELOX_GREATEST_WEIGHT
 * under every profile, and at most the greatest span apart. The claim's own floor is not used,
 * though 4 has to let it pass. Where a floor is found, the answer is the number of rows, the floor
 * is stored, and as `tried` the number of floors tried, hi - floor + 1; the output's first
 * proof_len bytes are the exact proof of this floor and later ones keep their values. The
 * polynomial is then at least that floor at all integers and fractions that the mask and the limits
 * admit, and a check of any higher floor up to hi is refused with these limits, under this profile.
 * The claim is not changed: write the floor into its bytes 4 to 7 before it is checked with that
 * proof, these limits and this profile. Any other answer is a refusal; the output, the floor and
 * `tried` then stay as they were.
 */
uint64_t burmelox_search(const uint8_t *claim, size_t claim_len,
                         const uint8_t *proof, size_t proof_len,
                         const uint8_t *limits, size_t limits_len,
                         struct burmelox_profile profile,
                         int64_t lo, int64_t hi,
                         uint8_t *output, size_t output_len,
                         int64_t *floor, uint32_t *tried);

/*
 * The text of a claim, of a proof, of a limits sheet and of a profile, one fact a line, as
 * docs/FORMAT.md has it. The text determines the sheet: no other bytes have the same. The answer is
 * the number of characters, which stand at the start of the buffer; no zero ends them, and later
 * bytes keep their values. What does not pass its own checks, under the full profile, is refused by
 * their numbers (a claim by 1 to 7, a proof by 8 to 10 and 12 to 15, limits by 24 and 25, a profile
 * by 27; a proof or limits without 1 to 8 variables by 9 or 24), and a buffer that is shorter than
 * the text by 30; a refusal writes nothing.
 */
uint64_t burmelox_claim_text(const uint8_t *claim, size_t claim_len,
                             uint8_t *text, size_t text_len);
uint64_t burmelox_proof_text(const uint8_t *proof, size_t proof_len,
                             uint8_t *text, size_t text_len);
uint64_t burmelox_limits_text(const uint8_t *limits, size_t limits_len,
                              uint8_t *text, size_t text_len);
uint64_t burmelox_profile_text(struct burmelox_profile profile,
                               uint8_t *text, size_t text_len);

#ifdef __cplusplus
}
#endif

#endif
