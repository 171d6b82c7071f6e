"""Compares a planner with the second program, listing against listing, on the sheets of plan_cases.py.

    python3 tools/compare_plans.py PROGRAM

The second program has to be built first: cargo build --release --offline, in second/.
"""

import os
import subprocess
import sys

sys.dont_write_bytecode = True

import plan_cases

SECOND = os.path.join(os.path.dirname(os.path.abspath(__file__)), '..', 'second', 'target', 'release', 'second')


def main():
    if len(sys.argv) != 2:
        sys.exit(__doc__)
    cases = plan_cases.all_cases()
    lines = ''.join(plan_cases.folded(sheet) + '\n' for _, sheet in cases)
    second = subprocess.run([SECOND, '--lines'], input=lines, capture_output=True, text=True, check=True)
    differ = 0
    for (name, sheet), due in zip(cases, second.stdout.splitlines(), strict=True):
        run = subprocess.run([sys.argv[1]], input=sheet, capture_output=True, timeout=20)
        got = run.stdout.decode('latin-1').replace('\n', '/')
        if got != due or run.returncode != 0:
            differ += 1
            print(f'{name}: status {run.returncode}\n  program: {got}\n  second:  {due}')
    print(f'{len(cases)} sheets, {differ} differ')
    sys.exit(differ > 0)


if __name__ == '__main__':
    main()
