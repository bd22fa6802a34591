"""Sheets of paper: their sides, and the frame that a drawing keeps within."""
import math

# Document 000's table 6: width and height in millimetres of A0 to A4, which lie on their long side.
SIDES = (1189, 841), (841, 594), (594, 420), (420, 297), (297, 210)
MARGIN = 20  # document 000, chapter 3, item 15: about 2 cm along the edges stay free


def paper(sheets, a_number):
    """Width and height in millimetres. Of n sheets both sides are multiplied by the root of n (document 02, wish 10); table 6 has a millimetre or two
    more for the short side of 4A1 and of 16A1."""
    times = math.isqrt(sheets)
    return tuple(side * times for side in SIDES[a_number])
