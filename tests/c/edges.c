/*
 * The header's macros at the edges, null pointers with length 0, as C++ and Python hand them over, a check
 * that its limits let pass, one that the least profile lets pass, checks with a page, searches and a profile
 * out of range that are refused and store nothing, and texts in buffers that are long enough and too short.
 */
#include "burmelox.h"
#include <inttypes.h>
#include <stdio.h>

static void print(const char *call, uint64_t answer) {
    if (BURMELOX_ACCEPTED(answer)) {
        printf("%s: %" PRIu64 "\n", call, answer);
    } else {
        printf("%s: refused %u at %u, sheet %u\n", call, BURMELOX_NUMBER(answer), BURMELOX_INDEX(answer),
               BURMELOX_SHEET(answer));
    }
}

static const uint8_t claim[BURMELOX_CLAIM_LENGTH(1, 0)] = {1, 0, 0, 0, 0, 0, 0, 0};
static const uint8_t proof[BURMELOX_PROOF_LENGTH(1, 0)] = {1, 0, 0, 0, 1, 0, 0, 0};
static const uint8_t limits[BURMELOX_LIMITS_LENGTH(1)] = {1, 0, 0, 0, 0, 0, 0, 0};
static const uint8_t third_power[BURMELOX_LIMITS_LENGTH(1)] = {1, 3, 1, 0, 1, 0, 0, 0};

/* -x^2 with floor -9, where x is within plus and minus 3 (power 2, m 1). */
static const uint8_t minus_square[BURMELOX_CLAIM_LENGTH(1, 1)] = {1, 1, 0, 0, 247, 255, 255, 255,
                                                                  2, 255, 255, 255, 255};
static const uint8_t within_3[BURMELOX_LIMITS_LENGTH(1)] = {1, 2, 3, 0, 1, 0, 0, 0};

static const struct burmelox_profile full = BURMELOX_FULL_PROFILE;

/* The least profile, and one that is out of range by its rows. */
static const struct burmelox_profile least = {0, 1, 0};
static const struct burmelox_profile too_many = {0, 1, BURMELOX_MOST_ROWS + 1};

static uint8_t output[sizeof proof];
static uint8_t page[BURMELOX_PAGE_LENGTH];
static uint8_t text[BURMELOX_MOST_LIMITS_TEXT];
static int64_t found = 8;
static uint32_t tried = 9;

static uint64_t check(const uint8_t *sheet, size_t sheet_len, struct burmelox_profile profile) {
    return burmelox_check(claim, sizeof claim, proof, sizeof proof, sheet, sheet_len, profile,
                          output, sizeof output);
}

/* Prints the answer to a check with a page, and the page's first line. */
static void print_page(const char *call, const uint8_t *sheet, size_t sheet_len,
                       struct burmelox_profile profile) {
    print(call, burmelox_check_page(sheet, sheet_len, proof, sizeof proof, limits, sizeof limits, profile,
                                    output, sizeof output, page, sizeof page));
    fwrite(page, 1, BURMELOX_PAGE_WIDTH + 1, stdout);
}

static uint64_t search(int64_t lo, int64_t hi, struct burmelox_profile profile) {
    return burmelox_search(claim, sizeof claim, proof, sizeof proof, limits, sizeof limits, profile, lo, hi,
                           output, sizeof output, &found, &tried);
}

static void print_found(void) {
    printf("floor %" PRId64 ", tried %" PRIu32 "\n", found, tried);
}

/* Prints the answer to a text, and the text where there is one. */
static void print_text(const char *call, uint64_t answer) {
    print(call, answer);
    if (BURMELOX_ACCEPTED(answer)) {
        fwrite(text, 1, (size_t)answer, stdout);
    }
}

/* Texts: of nothing, in no buffer, in one that is a byte too short and in one that is just long enough. */
static void print_texts(void) {
    const size_t exact = 33;

    print_text("no claim as text", burmelox_claim_text(NULL, 0, NULL, 0));
    print_text("no proof as text", burmelox_proof_text(NULL, 0, NULL, 0));
    print_text("no limits as text", burmelox_limits_text(NULL, 0, NULL, 0));
    print_text("too many rows as text", burmelox_profile_text(too_many, NULL, 0));
    print_text("no buffer for a claim", burmelox_claim_text(claim, sizeof claim, NULL, 0));
    print_text("no buffer for a proof", burmelox_proof_text(proof, sizeof proof, NULL, 0));
    print_text("no buffer for limits", burmelox_limits_text(limits, sizeof limits, NULL, 0));
    print_text("no buffer for a profile", burmelox_profile_text(least, NULL, 0));
    print_text("one byte too few", burmelox_claim_text(claim, sizeof claim, text, exact - 1));
    printf("first byte of the text %d\n", text[0]);
    print_text("claim", burmelox_claim_text(claim, sizeof claim, text, exact));
    printf("byte after the text %d\n", text[exact]);
    print_text("proof", burmelox_proof_text(proof, sizeof proof, text, sizeof text));
    print_text("limits", burmelox_limits_text(within_3, sizeof within_3, text, sizeof text));
    print_text("profile", burmelox_profile_text(full, text, BURMELOX_MOST_PROFILE_TEXT));
}

int main(void) {
    int64_t value = 7;

    print("no claim", burmelox_check(NULL, 0, NULL, 0, NULL, 0, full, NULL, 0));
    print("no proof", burmelox_check(claim, sizeof claim, NULL, 0, NULL, 0, full, NULL, 0));
    print("no limits", check(NULL, 0, full));
    print("third power", check(third_power, sizeof third_power, full));
    print("no output",
          burmelox_check(claim, sizeof claim, proof, sizeof proof, limits, sizeof limits, full, NULL, 0));
    print("too many rows", check(limits, sizeof limits, too_many));
    printf("first byte of the output %d\n", output[0]);
    print("no row", check(limits, sizeof limits, full));
    print("no row in the least profile", check(limits, sizeof limits, least));
    printf("first byte of the output %d\n", output[0]);
    print("minus square within 3",
          burmelox_check(minus_square, sizeof minus_square, proof, sizeof proof, within_3, sizeof within_3,
                         full, output, sizeof output));
    print("no page", burmelox_check_page(NULL, 0, NULL, 0, NULL, 0, too_many, NULL, 0, NULL, 0));
    print_page("too many rows for a page", NULL, 0, too_many);
    print_page("no claim for a page", NULL, 0, full);
    print_page("a page", claim, sizeof claim, full);
    print("too many rows to evaluate", burmelox_evaluate(NULL, 0, too_many, NULL, 0, &value));
    print("no claim to evaluate", burmelox_evaluate(NULL, 0, full, NULL, 0, &value));
    print("no offsets", burmelox_evaluate(claim, sizeof claim, full, NULL, 0, &value));
    printf("value %" PRId64 "\n", value);
    print("no claim to search",
          burmelox_search(NULL, 0, NULL, 0, NULL, 0, full, 0, 0, NULL, 0, &found, &tried));
    print("no proof to search",
          burmelox_search(claim, sizeof claim, NULL, 0, NULL, 0, full, 0, 0, NULL, 0, &found, &tried));
    print("no limits to search",
          burmelox_search(claim, sizeof claim, proof, sizeof proof, NULL, 0, full, 0, 0, NULL, 0,
                          &found, &tried));
    print("no output to search",
          burmelox_search(claim, sizeof claim, proof, sizeof proof, limits, sizeof limits, full, 0, 0,
                          NULL, 0, &found, &tried));
    print("too many rows to search", search(0, 0, too_many));
    print("lo over hi", search(1, 0, full));
    print("one floor too many", search(0, BURMELOX_GREATEST_SPAN + 1, full));
    print("all numbers", search(INT64_MIN, INT64_MAX, full));
    print("no floor", search(1, BURMELOX_GREATEST_SPAN, full));
    print_found();
    print("last floor", search(0, BURMELOX_GREATEST_SPAN, least));
    print_found();
    print_texts();
    printf("greatest lengths %zu, %zu and %zu\n", BURMELOX_MOST_CLAIM, BURMELOX_MOST_PROOF,
           BURMELOX_MOST_LIMITS);
    printf("greatest lengths of texts %d, %d, %d and %d\n", BURMELOX_MOST_CLAIM_TEXT,
           BURMELOX_MOST_PROOF_TEXT, BURMELOX_MOST_LIMITS_TEXT, BURMELOX_MOST_PROFILE_TEXT);
    printf("page of %d lines of %d characters, %d bytes\n", BURMELOX_PAGE_LINES, BURMELOX_PAGE_WIDTH,
           BURMELOX_PAGE_LENGTH);
    print("last row", (uint64_t)BURMELOX_PROOF << 32 | BURMELOX_CROSS_TOO_LARGE << 16 | 255);
    print("most rows", BURMELOX_MOST_ROWS);
    return 0;
}
