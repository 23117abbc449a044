#!/usr/bin/env python3
"""million.py PROGRAM PLAN CASES: memory of PROGRAM, as humpipe-many, over so many cases of small scores, with a large one now and then.

PLAN reads one score, `/dev/stdin`. It prints the memory in kB each 20 MB that are answered, and the most."""
import os
import re
import subprocess
import sys
import threading
import time

sys.path.insert(0, os.path.join(os.path.dirname(os.path.abspath(__file__)), '..', '..', 'tests'))
from packets import case, packets  # noqa: E402

HEAD, END = b'!!!OTL: number %d\n**kern\t**kern\n*clefF4\t*clefG2\n', b'*-\t*-\n'
BLOCK = 340


def score(number, lines):
    return HEAD % number + b'4c\t4e\n8d\t8f\n' * lines + END


def main():
    program, plan, many = sys.argv[1], sys.argv[2], int(sys.argv[3])
    # one in 17 is torn
    small = [score(n, n % 12) if n % 17 else score(n, 3)[:-4] for n in range(BLOCK)]
    block = b''.join(case([(b'/dev/stdin', text)]) for text in small)
    large = case([(b'/dev/stdin', score(0, 200_000))])
    run = subprocess.Popen([program], stdin=subprocess.PIPE, stdout=subprocess.PIPE)

    def feed():
        run.stdin.write(packets(open(plan, 'rb').read()))
        for n in range(many // BLOCK):
            run.stdin.write(block)
            if n % 500 == 250:
                run.stdin.write(large)
        run.stdin.close()

    threading.Thread(target=feed, daemon=True).start()
    began, size, held, most = time.time(), 0, [], 0
    while piece := run.stdout.read1(1 << 20):
        if size // 20_000_000 != (size + len(piece)) // 20_000_000:
            told = dict(re.findall(r'(VmRSS|VmHWM):\s+(\d+)', open(f'/proc/{run.pid}/status').read()))
            held.append(int(told['VmRSS']))
            most = int(told['VmHWM'])
        size += len(piece)
    print(f'{many // BLOCK * BLOCK} cases, {size} bytes, {time.time() - began:.1f} s, status {run.wait()}, kB: {held}, at most {most}')


main()
