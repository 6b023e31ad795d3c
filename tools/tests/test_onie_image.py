"""ONIE's image: worked bytes, and which first sectors hold one."""

import unittest

from formats.onie_image import CONTENT_LIMIT, EncodeError, encode_image, image_length


class Encoding(unittest.TestCase):
    def test_one_byte(self) -> None:
        """A sector with the signature and the length, and a sector that begins with the byte."""
        wanted = bytes.fromhex("4f4e4945494d4731" "01000000") + bytes(500) + b"\1" + bytes(511)
        self.assertEqual(encode_image(b"\1"), wanted)

    def test_sizes(self) -> None:
        """Whole sectors, as few as hold the content."""
        for length, sectors in [(1, 2), (512, 2), (513, 3), (1024, 3), (CONTENT_LIMIT, 4097)]:
            image = encode_image(b"\xaa" * length)
            self.assertEqual(len(image), sectors * 512)
            self.assertEqual(image[512:], (b"\xaa" * length).ljust((sectors - 1) * 512, b"\0"))
            self.assertEqual(image_length(image[:512], sectors), length)

    def test_refusals(self) -> None:
        self.assertEqual(CONTENT_LIMIT, 2_097_140)
        for length in (0, CONTENT_LIMIT + 1):
            self.assertRaises(EncodeError, encode_image, bytes(length))


class Reading(unittest.TestCase):
    def test_lengths(self) -> None:
        """The sectors after the first must hold the length."""
        for length, sectors, held in [
            (0, 100, False),
            (1, 1, False),
            (1, 2, True),
            (512, 2, True),
            (513, 2, False),
            (513, 3, True),
            (2_097_140, 4097, True),
            (2_097_140, 4096, False),
            (2_097_141, 2**40, False),
            (2**32 - 1, 2**40, False),
            (1, 0, False),
            (1, -5, False),
        ]:
            with self.subTest(length=length, sectors=sectors):
                first = b"ONIEIMG1" + length.to_bytes(4, "little") + b"\xff" * 500
                self.assertEqual(image_length(first, sectors), length if held else None)

    def test_signatures(self) -> None:
        for signature in (b"ONIEIMG2", b"onieimg1", b"ONIEOPEN", bytes(8)):
            self.assertIsNone(image_length((signature + b"\1\0\0\0").ljust(512, b"\0"), 2))
        for short in (b"", b"ONIEIMG1", b"ONIEIMG"):
            self.assertIsNone(image_length(short, 2))


if __name__ == "__main__":
    unittest.main()
