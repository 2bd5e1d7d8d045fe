"""Writes the image of the four-stop network to a file: python3 sample.py [FILE], by default sample.image."""

import sys

from networks import NAMED
from reference import encode, listing

if __name__ == "__main__":
    path = sys.argv[1] if len(sys.argv) > 1 else "sample.image"
    image = encode(NAMED["f"])
    with open(path, "wb") as file:
        file.write(image)
    print(listing(image), end="")
