"""Prints the bytes of the modules of texts in hexadecimal, or their faults with line and column.

    python3 example.py TEXT..

The status is 1 if a text has an error.
"""

import sys

import rigyomad


def main(texts):
    status = 0
    for text in texts:
        try:
            print(rigyomad.parse(text).hex())
        except rigyomad.WatError as error:
            if error.kind == "Memory":
                return f"error: {error}"
            print(error)
            status = 1
    return status


if __name__ == "__main__":
    if len(sys.argv) < 2:
        sys.exit(__doc__)
    sys.exit(main(sys.argv[1:]))
