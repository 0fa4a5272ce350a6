/*
 * In the place of the library while it is not proved: tidy over this tells what it can tell without it, its help, an
 * option that it does not know, a file that it cannot read or understand, and ends with status 77 at the first call.
 */
#include <stdlib.h>

void screen_check(void);
void screen_rewrite(void);
void screen_test_row(void);
void screen_hedge_list(void);
void screen_trader_view(void);
void screen_risk_view(void);
void screen_columns_read(void);
void screen_save(void);
void screen_load(void);
void screen_slowest(void);
void screen_line_in_the_way(void);
void screen_show_row(void);
void screen_check_row(void);

void screen_check(void)
{
    _Exit(77);
}

void screen_rewrite(void)
{
    _Exit(77);
}

void screen_test_row(void)
{
    _Exit(77);
}

void screen_hedge_list(void)
{
    _Exit(77);
}

void screen_trader_view(void)
{
    _Exit(77);
}

void screen_risk_view(void)
{
    _Exit(77);
}

void screen_columns_read(void)
{
    _Exit(77);
}

void screen_save(void)
{
    _Exit(77);
}

void screen_load(void)
{
    _Exit(77);
}

void screen_slowest(void)
{
    _Exit(77);
}

void screen_line_in_the_way(void)
{
    _Exit(77);
}

void screen_show_row(void)
{
    _Exit(77);
}

void screen_check_row(void)
{
    _Exit(77);
}
