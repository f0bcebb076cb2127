#!/usr/bin/env python3
"""Times the calls of the Python package on texts, beside those of CPython's decoder.

    bench/c/utf8_calls.py ROUNDS

It prints two tables in Markdown. The package `octseq` has to be where Python looks. Before a text is timed, both sides
are asked whether they say the same of it.
"""
import sys

import octseq
import texts
from rounds import print_head, print_row, time_in_turn


def decode(data):
    return data.decode()


def decode_or_catch(data):
    """The text of octets, or the error that says where they are no UTF-8."""
    try:
        return data.decode()
    except UnicodeDecodeError as error:
        return error


def decode_lossy(data):
    return data.decode(errors="replace")


def check(data):
    """Both sides say the same of these octets."""
    decoded, fault = decode_or_catch(data), octseq.first_fault(data)
    if isinstance(decoded, UnicodeDecodeError):
        size = None if decoded.reason == "unexpected end of data" else decoded.end - decoded.start
        wanted = decoded.start, size
    else:
        wanted = None
    if fault != wanted or octseq.is_utf8(data) != (wanted is None):
        sys.exit(f"octseq says that the fault is {fault}, CPython that it is {wanted}")
    if octseq.lossy(data) != decode_lossy(data):
        sys.exit("octseq.lossy and CPython's decoder answer different texts")


def checked(all_texts):
    for data in all_texts:
        check(data)
    return all_texts


def speeds(works, all_texts, rounds):
    """GB a second, of works on texts."""
    size = sum(map(len, all_texts)) / len(all_texts)
    return [f"{size / seconds * 1e-9:.2f}" for seconds in time_in_turn(works, all_texts, rounds)]


def print_speeds(name, size, all_texts, is_damaged, rounds):
    """A row. A fault ends all but a lossy reading, so that alone is timed on damaged texts."""
    if is_damaged:
        whole = [None] * 3
    else:
        whole = speeds([octseq.is_utf8, octseq.first_fault, decode], all_texts, rounds)
    lossy = speeds([octseq.lossy, decode_lossy], all_texts, rounds)
    print_row([name, size, *whole, *lossy])


CALLS = ["`is_utf8`", "`first_fault`", "`bytes.decode()`", "`lossy`", '`bytes.decode(errors="replace")`']


def print_large(all_kinds, rounds):
    print("GB a second, by the Python package and by CPython's decoder:\n")
    print_head(["text", "of", *CALLS])
    for kind, of_kind in all_kinds:
        print_speeds(kind.name, "4 KiB", checked(of_kind.small), kind.is_damaged, rounds)
        print_speeds(kind.name, "1 MiB", checked(of_kind.large), kind.is_damaged, rounds)
    print()


def print_small(all_kinds, rounds):
    print("Nanoseconds a call of the Python package and of CPython's decoder with 5 octets, the loop around it")
    print("included. Where a text is damaged, the error of `bytes.decode()` is caught:\n")
    print_head(["text", *CALLS])
    for kind, of_kind in all_kinds:
        other = decode_or_catch if kind.is_damaged else decode
        works = [octseq.is_utf8, octseq.first_fault, other, octseq.lossy, decode_lossy]
        times = time_in_turn(works, checked(of_kind.tiny), rounds)
        print_row([kind.name, *(f"{seconds * 1e9:.0f}" for seconds in times)])
    print()


def main():
    if len(sys.argv) != 2:
        sys.exit("utf8_calls.py ROUNDS")
    rounds = int(sys.argv[1])
    all_kinds = [(kind, texts.texts_of(key)) for key, kind in texts.KINDS.items()]
    print_large(all_kinds, rounds)
    print_small(all_kinds, rounds)


if __name__ == "__main__":
    main()
