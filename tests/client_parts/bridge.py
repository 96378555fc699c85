"""The shell for SQL and the bridge, by tests/client_shell: with psql and psycopg2, where they are installed."""

import os
import re
import subprocess
import sys

import mldb
import tried


def try_all():
    package = os.path.dirname(os.path.dirname(os.path.abspath(mldb.__file__)))
    child = subprocess.run([sys.executable, f"{tried.ROOT}/tests/client_shell", tried.PROGRAM], capture_output=True,
                           env={**os.environ, "MLDB_PYTHON": package}, text=True, check=False)
    count = re.search(r"^([0-9]+) passed, [0-9]+ failed$", child.stdout, re.MULTILINE)
    for line in child.stdout.splitlines():
        if line.startswith("not so: "):
            tried.failed(line.removeprefix("not so: "))
        elif line.startswith("passed over: "):
            print(line, flush=True)
    tried.passed += int(count[1]) if count else 0
    tried.expect("tests/client_shell ends well", (child.returncode, count is not None), (0, True))
