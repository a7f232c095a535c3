"""Places of a text, which were counted by hand."""

import unittest

from jref_glue.offsets import NoPlace, Text

#       bytes: a 0, é 1-2, tab 3, the bank 4-7, b 8, CR LF 9-10, c 11, CR 12, LF alone is line 3's end
MIXED = "aé\t🏦b\r\nc\r\nd\re\n".encode()


class Offsets(unittest.TestCase):
    def test_points_count_characters(self):
        text = Text(MIXED)
        for at, point in [
            (0, (1, 1)),
            (1, (1, 2)),
            (3, (1, 3)),
            (4, (1, 4)),
            (8, (1, 5)),
            (9, (1, 6)),
        ]:
            self.assertEqual(point, text.point(at))
            self.assertEqual(at, text.byte_of_point(*point))
        for at, point in [(11, (2, 1)), (14, (3, 1)), (16, (4, 1)), (18, (5, 1))]:
            self.assertEqual(point, text.point(at))
            self.assertEqual(at, text.byte_of_point(*point))

    def test_positions_count_units_of_16_bits(self):
        text = Text(MIXED)
        for at, character in [(0, 0), (1, 1), (3, 2), (4, 3), (8, 5), (9, 6)]:
            position = {"line": 0, "character": character}
            self.assertEqual(position, text.position(at))
            self.assertEqual(at, text.byte_of_position(position))

    def test_positions_outside_are_the_nearest_before(self):
        text = Text(MIXED)
        self.assertEqual(4, text.byte_of_position({"line": 0, "character": 4}))
        self.assertEqual(9, text.byte_of_position({"line": 0, "character": 99}))
        self.assertEqual(18, text.byte_of_position({"line": 99, "character": 0}))

    def test_ascii_alone(self):
        text = Text(b"ab\ncd")
        self.assertEqual((2, 2), text.point(4))
        self.assertEqual({"line": 1, "character": 1}, text.position(4))

    def test_no_such_place(self):
        for line, column in [(0, 1), (6, 1), (1, 0), (1, 7)]:
            with self.assertRaises(NoPlace):
                Text(MIXED).byte_of_point(line, column)

    def test_bytes_that_are_no_characters(self):
        text = Text(b"a\xff\xfeb")
        self.assertEqual((1, 4), text.point(3))
        self.assertEqual(3, text.byte_of_point(1, 4))

    def test_words_and_neighbours(self):
        text = Text("int größe=1;".encode())
        self.assertEqual(11, text.word(4))
        self.assertEqual(12, text.word(11))
        self.assertEqual(8, text.previous(10))
        self.assertIsNone(text.previous(0))

    def test_carets(self):
        self.assertEqual("    \tx=1\n    \t ^", Text(b"\tx=1").shown(2))
        long = Text(b"x" * 150 + b"y" + b"z" * 150)
        self.assertEqual(
            "    …" + "x" * 100 + "y" + "z" * 99 + "…\n" + " " * 105 + "^", long.shown(150)
        )
        self.assertEqual("    a語b\n       ^", Text("a語b".encode()).shown(4))


if __name__ == "__main__":
    unittest.main()
