"""What all parts are given: operators, places, the map's program and how long it asks the desk again."""

OPERATORS = {"alfa": "the word of alfa 4711", "bravo": "the word of bravo 4712", "carol": "the word of carol 4713"}
"""Names and passwords; nothing that the page shows has these words."""
MIDDLE = (47.3750, 8.5450)
WIDE = [(8.50, 47.35), (8.59, 47.35), (8.59, 47.40), (8.50, 47.40)]
"""A polygon around all that alfa and bravo draw."""
ASIDE = (47.3000, 8.4000)
AROUND_ASIDE = [(8.37, 47.28), (8.45, 47.28), (8.45, 47.33), (8.37, 47.33)]
"""Where carol draws, and a polygon around it."""
MEADOW = (46.9000, 7.4000)
"""Where bravo draws alone."""
ELSEWHERE = "11111111-1111-4111-8111-111111111111"
"""A flight that isn't planned in a page."""
HOUR = 3600
MAP_PATIENCE = 30
"""Seconds that the map's program asks the desk again."""
SHORT = 4
"""The same of carol's: less than a proxy wants it to wait after too many requests."""
