import sys
held, at, lines = sys.stdin.buffer.read(), 0, []
while held[at]:
    end = at + 5 + int.from_bytes(held[at + 1 : at + 5], "big")
    lines += [b"begin\n", held[at + 5 : end], b"\ncommit\n"]
    at = end
sys.stdout.buffer.write(b"".join(lines))
