#include "day.h"

#include "screen_build.h"

/* Years are counted from 1 March, so that the day that leap years add is a year's last. */
enum { DAYS_OF_400_YEARS = 146097, FROM_YEAR_0_TO_1970 = 719468 };

bool looks_like_day(struct slice part)
{
    if (part.len != 10)
        return false;
    for (size_t i = 0; i < part.len; i++) {
        bool digit = part.at[i] >= '0' && part.at[i] <= '9';
        if (i == 4 || i == 7 ? part.at[i] != '-' : !digit)
            return false;
    }
    return true;
}

static int64_t digits(const char *at, size_t count)
{
    int64_t value = 0;
    for (size_t i = 0; i < count; i++)
        value = 10 * value + (at[i] - '0');
    return value;
}

static int64_t floor_divide(int64_t a, int64_t b)
{
    return a / b - (a % b < 0);
}

bool day_read(struct slice part, int64_t *day)
{
    if (!looks_like_day(part))
        return false;
    int64_t days = screen_day((int32_t)digits(part.at, 4), (unsigned)digits(part.at + 5, 2),
                              (unsigned)digits(part.at + 8, 2));
    if (days == INT64_MIN)
        return false;
    *day = days;
    return true;
}

void day_add(struct text *text, int64_t day)
{
    int64_t shifted = day + FROM_YEAR_0_TO_1970;
    int64_t era = floor_divide(shifted, DAYS_OF_400_YEARS);
    int64_t left = shifted - era * DAYS_OF_400_YEARS;
    int64_t of_era = (left - left / 1460 + left / 36524 - left / 146096) / 365;
    int64_t of_year = left - (365 * of_era + of_era / 4 - of_era / 100);
    int64_t from_march = (5 * of_year + 2) / 153;
    int64_t month = from_march < 10 ? from_march + 3 : from_march - 9;
    int64_t year = 400 * era + of_era + (month <= 2);
    text_add(text, "%04lld-%02lld-%02lld", (long long)year, (long long)month,
             (long long)(of_year - (153 * from_march + 2) / 5 + 1));
}
