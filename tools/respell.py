#!/usr/bin/env python3
"""Respells the repository's own definitions and lemmas: words in snake case, and a dash only between two names.

Run once, at the top of the repository, after the toolchain's own script. tools/respell.txt has the old and new names.
"""
import os
import re

HERE = os.path.dirname(os.path.abspath(__file__))
TOKEN = re.compile(r'[^\s(){}\[\],;:."|]+')


def names():
    with open(os.path.join(HERE, 'respell.txt'), encoding='utf-8') as f:
        return dict(line.split() for line in f)


def files():
    for folder, below, found in os.walk('crates'):
        below[:] = sorted(b for b in below if b != 'out')
        for name in sorted(found):
            if name.endswith(('.antt', '.rt')):
                yield os.path.join(folder, name)


def main():
    new = names()
    for path in files():
        with open(path, encoding='utf-8') as f:
            text = f.read()
        turned = TOKEN.sub(lambda m: new.get(m.group(), m.group()), text)
        if turned != text:
            with open(path, 'w', encoding='utf-8') as f:
                f.write(turned)


main()
