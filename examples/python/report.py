"""Prints records as a table of at most 60 columns, of which the first is bold and the hours are red: python3 report.py"""
import datetime

import basinmug

NOTES = [
    {
        "id": 1,
        "date": datetime.date(2026, 11, 2),
        "author": "Ada Lovelace",
        "note": "The analytical engine weaves algebraical patterns just as the loom weaves flowers and leaves.",
        "hours": 3.5,
    },
    {
        "id": 2,
        "date": datetime.date(2026, 11, 3),
        "author": "関孝和",
        "note": "東京で書いた、長い覚え書き。表の端はまっすぐ。",
        "hours": 12.25,
    },
    {
        "id": 3,
        "date": datetime.date(2026, 11, 4),
        "author": "Grace Hopper",
        "note": 'She said "ship it" 🚀\nand it shipped.',
        "hours": 0.75,
    },
]

basinmug.print(NOTES, width=60, color={0: "bold", "hours": "red"})
