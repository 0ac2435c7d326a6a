/* Reads a profile, builds its budget table and looks budgets up in it, as firmware would: the table is built once and kept,
 * a lookup tells the periods to write by, or why there are none, and a score what these periods need. */
#include <inttypes.h>
#include <stdio.h>

#include "charopleth.h"

/* Three jobs of a recorder: every 20 to 25, 43 to 74 and 45 to 100 seconds. */
static const uint8_t profile[25] = {0x13, 0x01, 0x40, 0x19, 0x00, 0x12, 0x00, 0x04, 0x10, 0x02, 0xB0, 0x4A, 0x00,
                                    0x24, 0x00, 0x08, 0x10, 0x02, 0xD0, 0x64, 0x00, 0x48, 0x00, 0x10, 0x10};

static uint8_t table[16 * 64];

static void refused(uint64_t result)
{
    printf("refused %u %" PRIu64 "\n", CHAROPLETH_REFUSAL(result), (uint64_t)CHAROPLETH_DETAIL(result));
}

/* Period k of a row, counted from 0: 12 bits each behind the 32 of the start, so two of them in three bytes. */
static unsigned period(const uint8_t row[16], unsigned k)
{
    const uint8_t *b = row + 4 + 3 * (k / 2);
    return k % 2 ? (b[1] & 15u) << 8 | b[2] : (unsigned)b[0] << 4 | b[1] >> 4;
}

static void look_up(const uint32_t values[], uint64_t rows, uint32_t budget)
{
    printf("budget %" PRIu32 ": ", budget);
    uint64_t result = charopleth_lookup(values[0], values + 1, table, 16 * rows, budget);
    if (CHAROPLETH_REFUSAL(result)) {
        refused(result);
        return;
    }
    const uint8_t *row = table + 16 * (result - 1);
    uint32_t periods[CHAROPLETH_MOST_JOBS];
    for (uint32_t k = 0; k < CHAROPLETH_MOST_JOBS; k++)
        periods[k] = period(row, k);
    for (uint32_t k = 0; k < values[0]; k++)
        printf("%s%" PRIu32, k ? " " : "", periods[k]);
    /* The row starts at the need rounded up. The score has it exactly: whole pages, and a remainder over the last period. */
    uint64_t score[CHAROPLETH_SCORE_LENGTH];
    charopleth_score(values[0], values + 1, periods, score);
    printf(", need %" PRIu64 " %" PRIu64 "/%" PRIu32 " pages per hour\n", score[CHAROPLETH_WHOLE], score[CHAROPLETH_REMAINDER],
           periods[values[0] - 1]);
}

int main(void)
{
    uint32_t values[CHAROPLETH_VALUES_LENGTH];
    uint64_t result = charopleth_read(profile, sizeof profile, values);
    if (CHAROPLETH_REFUSAL(result)) {
        refused(result);
        return 1;
    }
    uint64_t rows = charopleth_table(values[0], values + 1, table, sizeof table);
    if (CHAROPLETH_REFUSAL(rows)) {
        refused(rows);
        return 1;
    }
    printf("%" PRIu32 " jobs, %" PRIu64 " rows\n", values[0], rows);
    look_up(values, rows, 5219);
    look_up(values, rows, 5220);
    look_up(values, rows, 4175);
    return 0;
}
