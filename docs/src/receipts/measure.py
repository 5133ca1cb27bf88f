#!/usr/bin/env python3
# Times programs that read standard input, in turn, on each file: measure.py RUNS NAME=PROGRAM .. -- FILE ..
# The output goes to a pipe that is read to its end and is compared between all programs but those named cat.
# Prints, for each file, the median of the runs in milliseconds for each program, and its ratio to the others.
import statistics
import subprocess
import sys
import time


def run(program, name):
    with open(name, "rb") as file:
        start = time.perf_counter()
        output = subprocess.run([program], stdin=file, stdout=subprocess.PIPE, check=True).stdout
        return time.perf_counter() - start, output


runs = int(sys.argv[1])
split = sys.argv.index("--")
programs = [word.split("=") for word in sys.argv[2:split]]
names = [name for name, _ in programs]
print("file, lines, bytes in, bytes out, " + ", ".join(f"{name} ms" for name in names)
      + ", " + ", ".join(f"{names[0]} / {name}" for name in names[1:]))
for path in sys.argv[split + 1:]:
    times = {name: [] for name in names}
    outputs = {}
    for _ in range(runs):
        for name, program in programs:
            seconds, outputs[name] = run(program, path)
            times[name].append(seconds)
    first = outputs[names[0]]
    if any(outputs[name] != first for name in names if name != "cat"):
        sys.exit(f"different output on {path}")
    data = open(path, "rb").read()
    median = {name: 1000 * statistics.median(times[name]) for name in names}
    label = path.rsplit("/", 1)[-1]
    print(f"{label}, {data.count(10)}, {len(data)}, {len(first)}, "
          + ", ".join(f"{median[name]:.1f}" for name in names) + ", "
          + ", ".join(f"{median[names[0]] / median[name]:.2f}" for name in names[1:]))
