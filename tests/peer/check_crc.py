"""Computes the CRCs in crc_16_genibus.txt and crc_of_the_standards_example.txt again with Python's binascii.

    python3 tests/peer/check_crc.py [DIR OF THE VECTORS]

crc_hqx has the polynomial x^16 + x^12 + x^5 + 1, highest bit first; preset to ones and complemented it is
CRC-16/GENIBUS. Ends with status 1 on a difference or a missing file.
"""

import binascii
import pathlib
import sys


def genibus(octets):
    return binascii.crc_hqx(octets, 0xFFFF) ^ 0xFFFF


def cases(path):
    lines = path.read_text(encoding="utf-8").splitlines()
    return [line.split() for line in lines if line.strip() and not line.startswith("#")]


def main():
    vectors = pathlib.Path(sys.argv[1] if len(sys.argv) > 1 else "tests/vectors")
    catalogued = [
        (bytes.fromhex(octets), int(crc, 16)) for octets, crc in cases(vectors / "crc_16_genibus.txt")
    ]
    example = [
        (int(bits, 2).to_bytes(4, "big"), int(crc, 2))
        for bits, crc in cases(vectors / "crc_of_the_standards_example.txt")
    ]
    wrong = [octets.hex() for octets, crc in catalogued + example if genibus(octets) != crc]
    for octets in wrong:
        print(f"CRC differs: {octets}")
    print(f"CRC-16/GENIBUS: {len(catalogued) + len(example)} figures, {len(wrong)} differ")
    return 1 if wrong or not catalogued or not example else 0


if __name__ == "__main__":
    sys.exit(main())
