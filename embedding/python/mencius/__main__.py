"""The program mencius: python3 -m mencius replay < SCENARIO"""
import sys

from . import call

if __name__ == "__main__":
    answer = call(sys.argv[1:])
    if answer.asked:
        answer = call(sys.argv[1:], sys.stdin.buffer.read())
    sys.stdout.buffer.write(answer.printed)
    sys.stdout.flush()
    sys.stderr.buffer.write(answer.said)
    sys.exit(answer.status)
