"""Gives its input to the command `journal` of a program, prints the answers up to the second `done`, and kills it then.

Usage: killed.py PROGRAM VIEW
"""
import subprocess
import sys

program, view = sys.argv[1:]
with subprocess.Popen([program, "journal", view], stdin=subprocess.PIPE, stdout=subprocess.PIPE, text=True) as counter:
    counter.stdin.write(sys.stdin.read())
    counter.stdin.flush()
    answered = 0
    for line in counter.stdout:
        print(line, end="")
        answered += line.startswith("done")
        if answered == 2:
            break
    counter.kill()
