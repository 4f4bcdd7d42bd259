# Lists the parameters that travel together: each set of three or more names that stand in the signatures of at least three
# functions of src/, with the number of those functions; a set within a larger one that as many functions have is left out.
# Run at the top of the repository.
import collections
import glob
import itertools
import re

names = []
for path in sorted(glob.glob("crates/*/src/**/*.rt", recursive=True)):
    if path.endswith("tests.rt"):
        continue
    text = open(path).read()
    for function in re.finditer(r"\bfn \w+(<[^(]*>)?\(([^{;]*?)\)\s*(->|requires|ensures|\{|\n)", text, re.S):
        names.append(frozenset(re.findall(r"(\w+): ", function.group(2))))

count = collections.Counter()
for parameters in names:
    for size in range(3, 7):
        count.update(itertools.combinations(sorted(parameters), size))
groups = [(group, times) for group, times in count.items() if times >= 3]
whole = [
    (times, group)
    for group, times in groups
    if not any(set(group) < set(other) and more >= times for other, more in groups)
]
for times, group in sorted(whole, reverse=True):
    print(times, " ".join(group))
