/*
 * Checks the square x^2 - 2x + 1 and its floor 0 through the library, evaluates it at -3, and searches
 * the floors from -3 to 3 for the highest that the proof shows.
 */
#include "burmelox.h"
#include <inttypes.h>
#include <stdio.h>

static const uint8_t claim[BURMELOX_CLAIM_LENGTH(1, 3)] = {
    1, 3, 0, 0, 0, 0, 0, 0,                             /* n 1, t 3, mask 0, floor 0 */
    0, 1, 2,                                            /* points */
    1, 0, 0, 0, 254, 255, 255, 255, 1, 0, 0, 0,         /* coefficients 1, -2, 1 */
};

static const uint8_t proof[BURMELOX_PROOF_LENGTH(1, 1)] = {
    1, 0, 1, 0, 1, 0, 0, 0,                             /* one variable, one row, scale 1 */
    0, 2,                                               /* the row's points */
    1, 0, 0, 0, 1, 0, 0, 0, 254, 255, 255, 255,         /* its weights 1, 1, -2 */
};

static const uint8_t limits[BURMELOX_LIMITS_LENGTH(1)] = {
    1,                                                  /* one variable */
    0, 0, 0,                                            /* power 0, so x is not limited, and L is 0 */
    0, 0, 0, 0,                                         /* its multiplier is then 0 too */
};

static const struct burmelox_profile profile = BURMELOX_FULL_PROFILE;

/* Prints a refusal, and answers the program's status. */
static int refused(uint64_t answer) {
    printf("refused %u at %u, sheet %u\n", BURMELOX_NUMBER(answer), BURMELOX_INDEX(answer),
           BURMELOX_SHEET(answer));
    return 1;
}

int main(void) {
    uint8_t output[sizeof proof];
    const int32_t offsets[] = {-3};
    int64_t value = 0;
    int64_t floor = 0;
    uint32_t tried = 0;

    uint64_t answer = burmelox_check(claim, sizeof claim, proof, sizeof proof, limits, sizeof limits,
                                     profile, output, sizeof output);
    if (!BURMELOX_ACCEPTED(answer)) {
        return refused(answer);
    }
    printf("accepted rows %" PRIu64 "\n", answer);

    answer = burmelox_evaluate(claim, sizeof claim, profile, offsets, 1, &value);
    if (!BURMELOX_ACCEPTED(answer)) {
        return refused(answer);
    }
    printf("value %" PRId64 "\n", value);

    answer = burmelox_search(claim, sizeof claim, proof, sizeof proof, limits, sizeof limits, profile,
                             -3, 3, output, sizeof output, &floor, &tried);
    if (!BURMELOX_ACCEPTED(answer)) {
        return refused(answer);
    }
    printf("floor %" PRId64 ", tried %" PRIu32 "\n", floor, tried);
    return 0;
}
