/* Document 01's examples from C: status 0 if the three entries give them. */
#include "ioncap.h"

#include <string.h>

/* The gain of an answer, on a little-endian machine. */
static float gain_of(const uint8_t *answer) {
    float gain;
    memcpy(&gain, answer, sizeof gain);
    return gain;
}

int main(void) {
    static uint8_t table[IONCAP_TABLE_LENGTH];
    const float ground[2] = {-30.0f, -20.0f};
    uint8_t answer[IONCAP_ANSWER_LENGTH];
    int wrong = 0;

    /* A curtain of four elements at elevation 1.0. */
    wrong |= ioncap_gain(0.0f, 6, 0.0f, 0.01f, 4.0f, 4.0f, 10.0f, 0.0f, 4.0f,
                         0.0f, 0.0f, 0.0f, 1.0f, 7.0f, 0, answer,
                         sizeof answer) != 0;
    wrong |= gain_of(answer) != -26.0f;

    /* Rows 1 and 2 on the ground. */
    memcpy(table, &ground[0], 4);
    memcpy(table + 4 * 91, &ground[1], 4);
    wrong |= ioncap_lookup(table, sizeof table, 0.5f, 0.0f, answer,
                           sizeof answer) != 0;
    wrong |= gain_of(answer) != -25.0f;

    wrong |= ioncap_cone(3.0f, 5.0f, answer, sizeof answer) != 0;
    wrong |= gain_of(answer) != -8.0f;
    wrong |= ioncap_cone(3.0f, 5.0f, answer, 11) != 7;
    return wrong;
}
