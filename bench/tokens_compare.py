#!/usr/bin/env python3
"""Compares the tokens of crates/token_dump with those of another lexer, file by file.

The other lexer is called as `OTHER dump FILE` and prints a line for each token: its kind as Rust's Debug prints it, without
spaces, a space and the length in bytes.

usage: tokens_compare.py TOKEN_DUMP OTHER LIST..     LIST holds file names, one a line, relative to its parent's folder
"""
import pathlib
import subprocess
import sys


def packed(line):
    kind, length = line.rsplit(" ", 1)
    return kind.replace(" ", "") + " " + length


def compare(ours, other, path):
    with open(path, "rb") as text:
        mine = subprocess.run([ours], stdin=text, capture_output=True, check=True).stdout.decode().splitlines()
    theirs = subprocess.run([other, "dump", path], capture_output=True, check=True).stdout.decode().splitlines()
    mine = [packed(line) for line in mine]
    return mine, theirs


def main(ours, other, lists):
    files = tokens = differ = skipped = 0
    for name in lists:
        folder = pathlib.Path(name).resolve().parent.parent
        for line in pathlib.Path(name).read_text().splitlines():
            path = str(folder / line)
            try:
                pathlib.Path(path).read_bytes().decode()
            except UnicodeDecodeError:
                skipped += 1
                continue
            mine, theirs = compare(ours, other, path)
            files += 1
            tokens += len(mine)
            if mine != theirs:
                differ += 1
                at = next((i for i, pair in enumerate(zip(mine, theirs)) if pair[0] != pair[1]), min(len(mine), len(theirs)))
                print(f"{path}: token {at}: {mine[at:at + 2]} here, {theirs[at:at + 2]} there")
    print(f"{files} files, {tokens} tokens, {differ} files differ, {skipped} not UTF-8")


if __name__ == "__main__":
    main(sys.argv[1], sys.argv[2], sys.argv[3:])
