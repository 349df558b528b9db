"""Numbers in pictures: digits of 3 by 5 squares."""

ROWS = {  # the rows of each digit, a bit a square
    "0": (7, 5, 5, 5, 7), "1": (2, 6, 2, 2, 7), "2": (7, 1, 7, 4, 7), "3": (7, 1, 7, 1, 7), "4": (5, 5, 7, 1, 1),
    "5": (7, 4, 7, 1, 7), "6": (7, 4, 7, 5, 7), "7": (7, 1, 1, 2, 2), "8": (7, 5, 7, 5, 7), "9": (7, 5, 7, 1, 7),
}
SIDE = 2                     # pixels of a square
HIGH = 5 * SIDE
INK = bytes((60, 60, 60, 255))


def put(picture, x, y, number):
    """Draws a number with its first corner at x, y."""
    for digit in str(number):
        for row, bits in enumerate(ROWS[digit]):
            for column in range(3):
                if bits >> 2 - column & 1:
                    for line in range(SIDE):
                        if x + (column + 1) * SIDE <= picture.w:
                            picture.put(x + column * SIDE, y + row * SIDE + line, INK * SIDE)
        x += 4 * SIDE
