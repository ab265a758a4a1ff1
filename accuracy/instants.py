#!/usr/bin/env python3
"""Prints the shots that the book's accuracy is measured on: every five days from 1976 to 2049, from latitude 50 degrees north and
longitude 0, the Sun between 9h and 15h and Polaris at any hour, with DUT1 0 and without ΔT, which is 0 in field 11."""
import datetime

LATITUDE = 50 * 36_000
day = datetime.date(1976, 1, 1)
number = 0
while day.year <= 2049:
    for body, hour in ((1, 9 + number % 6), (2, 7 * number % 24)):
        minute = 13 * number % 60
        print(day.year, day.month, day.day, hour, minute, 0, 0, LATITUDE, 0, body, 0)
    day += datetime.timedelta(days=5)
    number += 1
