#!/usr/bin/env python3
# Lines of random letters from a fixed seed: lines.py COUNT LEAST MOST, lengths drawn from LEAST to MOST.
import random
import sys

count, least, most = map(int, sys.argv[1:4])
draw = random.Random(20)
for _ in range(count):
    sys.stdout.write("".join(draw.choices("aAbB", k=draw.randint(least, most))) + "\n")
