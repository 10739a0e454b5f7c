"""Writes a linear program for glpsol, whose interior point method orders with AMD."""

import random

random.seed(3)
n, m = 120, 80
print(f"var x{{1..{n}}} >= 0, <= 10;")
print("maximize z: " + " + ".join(f"{random.randint(1, 9)}*x[{j}]" for j in range(1, n + 1)) + ";")
for i in range(m):
    terms = " + ".join(f"{random.randint(1, 9)}*x[{random.randint(1, n)}]" for _ in range(6))
    print(f"s.t. c{i}: {terms} <= {random.randint(20, 99)};")
print("end;")
