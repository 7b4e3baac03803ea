#!/usr/bin/env python3
"""Gives the word `AllByRecursion` of the library its own name, where a file took it in under the name of another word.

usage: python3 tools/unalias.py      once, at the top of the repository, after tools/respell.py
"""

import re

from respell import files

NAME = re.compile(r"(?<![\w'.◌-])All(?![\w'◌-])")


def main():
    turned = 0
    for path in files():
        with open(path, encoding="utf-8") as file:
            text = file.read()
        if "AllByRecursion as All" not in text:
            continue
        lines = text.replace("AllByRecursion as All", "AllByRecursion").split("\n")
        with open(path, "w", encoding="utf-8") as file:
            file.write("\n".join(l if re.match(r"\s*//", l) else NAME.sub("AllByRecursion", l) for l in lines))
        turned += 1
    print(f"unalias: {turned} files")


if __name__ == "__main__":
    main()
