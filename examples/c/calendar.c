/* The calendar of a year on the console, three months side by side. */
#include <stdint.h>
#include "memory.h"

#define DATA (*(volatile uint8_t *)0xFFF00000)

enum { YEAR = 2026, MONTHS_A_ROW = 3, WEEKS = 6, DAYS = 7 };

static const char *const names[12] = {
    "January", "February", "March", "April", "May", "June",
    "July", "August", "September", "October", "November", "December",
};

static char line[80];
static int length;

static void put(char c)
{
    if (length < (int)sizeof line)
        line[length++] = c;
}

/* Sends the line, without the blanks at its end. */
static void end_line(void)
{
    while (length > 0 && line[length - 1] == ' ')
        length--;
    for (int i = 0; i < length; i++)
        DATA = (uint8_t)line[i];
    DATA = '\n';
    length = 0;
}

/* Puts blanks, as many as the line has room for. */
static void put_blanks(int count)
{
    int room = (int)sizeof line - length;
    if (count > room)
        count = room;
    if (count > 0) {
        memset(line + length, ' ', (size_t)count);
        length += count;
    }
}

/* Puts a text, and blanks up to a width. */
static void put_text(const char *text, int width)
{
    for (; *text; text++, width--)
        put(*text);
    put_blanks(width);
}

/* Puts a number of one or two digits in three places. */
static void put_day(int day)
{
    put(' ');
    put(day < 10 ? ' ' : '0' + day / 10);
    put('0' + day % 10);
}

static int is_leap(int year)
{
    return year % 4 == 0 && (year % 100 != 0 || year % 400 == 0);
}

static int days_of(int year, int month)
{
    static const uint8_t days[12] = {31, 28, 31, 30, 31, 30, 31, 31, 30, 31, 30, 31};
    return days[month] + (month == 1 && is_leap(year));
}

/* The weekday of the first of January, 0 for Monday. */
static int first_weekday(int year)
{
    int past = year - 1;
    return (past + past / 4 - past / 100 + past / 400) % DAYS;
}

/* Puts one week of a month that begins on a weekday; days that it does not have are blank. */
static void put_week(int week, int weekday, int days)
{
    for (int place = 0; place < DAYS; place++) {
        int day = week * DAYS + place - weekday + 1;
        if (day >= 1 && day <= days)
            put_day(day);
        else
            put_blanks(3);
    }
}

int main(void)
{
    int weekdays[12];
    int weekday = first_weekday(YEAR);
    for (int month = 0; month < 12; month++) {
        weekdays[month] = weekday;
        weekday = (weekday + days_of(YEAR, month)) % DAYS;
    }
    for (int row = 0; row < 12; row += MONTHS_A_ROW) {
        for (int month = row; month < row + MONTHS_A_ROW; month++) {
            put(' ');
            put_text(names[month], 22);
        }
        end_line();
        for (int week = 0; week < WEEKS; week++) {
            for (int month = row; month < row + MONTHS_A_ROW; month++) {
                put_week(week, weekdays[month], days_of(YEAR, month));
                put_blanks(2);
            }
            end_line();
        }
    }
    return 0;
}
