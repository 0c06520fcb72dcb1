"""What the papers print, copied by hand: results that no code of this repository made."""

# 01, small trees: the four leaves, the value, the move, the leaves that alpha-beta and SSS* value
SMALL_TREES = """
    1234 3 2 4 3, 2314 2 1 3 3, 2341 2 1 4 4, 4123 2 2 4 4, 2521 2 1 3 3, 7777 7 1 3 3
"""

# 01, the program's sample: the file and what is printed for it
SAMPLE_FILE = b"""000102000000
000302000000
000502000000
000000000001
000000000002
000000000003
000000000004
"""
SAMPLE_REPORT = b"""method value move leaves
ab 3 2 4
mtd 3 2 3
sss 3 2 3
"""

# 002, table 2 in its order: the four leaves, the leaves that alpha-beta and SSS* value; and its averages
TABLE_2 = """
    1234 4 3, 1243 4 3, 1324 4 3, 1342 4 3, 1423 4 3, 1432 4 3,
    2134 4 3, 2143 4 3, 2314 3 3, 2341 4 4, 2413 3 3, 2431 4 4,
    3124 4 4, 3142 4 4, 3214 3 3, 3241 4 4, 3412 3 3, 3421 3 3,
    4123 4 4, 4132 4 4, 4213 3 3, 4231 4 4, 4312 3 3, 4321 3 3
"""
AVERAGES = "11/3", "10/3"

# 002, section 3.3: the tips that the run reads, by heap number, in the order in which it reads them; its value and
# replacements
RUN_TIPS = {16: 30, 18: 21, 24: 28, 26: 78, 27: 52, 28: 22, 30: 52, 31: 52}
RUN_VALUE, RUN_REPLACEMENTS = 52, 29


def rows(text):
    """The rows of a table above: the leaves as numbers, then the rest as numbers."""
    for row in text.split(","):
        leaves, *rest = row.split()
        yield [int(digit) for digit in leaves], [int(word) for word in rest]


def run_tree():
    """The tree of section 3.3 as a nest; tips that its run never reads are 0."""
    def below(k):
        return RUN_TIPS.get(k, 0) if k >= 16 else [below(2 * k), below(2 * k + 1)]
    return below(1)
