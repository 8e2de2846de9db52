#!/usr/bin/env python3
"""compare.py A.txt B.txt REQUESTS.txt: two desks' answers to the same requests, line by line.

Prints the first differences, each with its request and both answers, and exits 1 on any."""

import sys

SHOWN = 10


def lines(name):
    with open(name, "rb") as file:
        text = file.read()
    return text.removesuffix(b"\n").split(b"\n") if text else []


def gets_an_answer(line):
    if line.startswith(b"#"):
        return False
    return len(line) > 1000 or line.strip(b" \t\r") != b""


def shown(line):
    return "(no line)" if line is None else line.decode("latin-1").encode("unicode_escape").decode()


def main(a_name, b_name, requests_name):
    a, b = lines(a_name), lines(b_name)
    requests = [(k, line) for k, line in enumerate(lines(requests_name), 1) if gets_an_answer(line)]
    differences = 0
    for i in range(max(len(a), len(b), len(requests))):
        in_a = a[i] if i < len(a) else None
        in_b = b[i] if i < len(b) else None
        place, request = requests[i] if i < len(requests) else (0, None)
        if in_a == in_b and in_a is not None and request is not None:
            continue
        differences += 1
        if differences <= SHOWN:
            print(f"request, line {place}: {shown(request)}")
            print(f"  {a_name}: {shown(in_a)}")
            print(f"  {b_name}: {shown(in_b)}")
    print(f"{len(requests)} requests, {differences} differences")
    return 1 if differences else 0


if __name__ == "__main__":
    if len(sys.argv) != 4:
        sys.exit(__doc__)
    sys.exit(main(*sys.argv[1:]))
