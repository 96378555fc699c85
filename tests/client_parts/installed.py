"""The package as it is installed: by pip into an environment of its own, without a network, and by a copy of its
folder; its version is the program's."""

import glob
import os
import re
import shutil
import subprocess
import sys
import tempfile
import tomllib

import mldb
import tried

NO_NETWORK = {name: "http://127.0.0.1:9" for name in ("http_proxy", "https_proxy", "HTTP_PROXY", "HTTPS_PROXY")}
ASKED = """import mldb, sys
with mldb.serve(sys.argv[2], sys.argv[3], program=sys.argv[1]) as program:
    print(mldb.__file__, mldb.connect(program, "U", user="ann").execute("SELECT count(*) FROM SOD").fetchone())
"""


def versions():
    """Those of the package, of its installation and of the program."""
    with open(f"{tried.ROOT}/python/pyproject.toml", "rb") as file:
        tried.expect("the version that is installed", tomllib.load(file)["project"]["version"], mldb.__version__)
    told = subprocess.run([tried.PROGRAM, "--version"], capture_output=True, text=True, check=False).stderr
    found = re.search(r"mldb (\d+\.\d+\.\d+)", told)
    tried.expect("the version of the program", found and found[1], mldb.__version__)


def try_python(what, python, place, environment):
    """A Python that has the package at a place can use it, from another folder."""
    words = [python, "-c", ASKED, tried.PROGRAM, tried.POLICY, tried.SCHEMES]
    child = subprocess.run(words, cwd=place, env=environment, capture_output=True, text=True, check=False)
    tried.expect(f"{what}: it asks", child.stdout.strip().endswith("(0,)") and place in child.stdout, True)


def try_all():
    versions()
    environment = {name: value for name, value in os.environ.items() if name not in ("PYTHONPATH", "MLDB_PACKAGE")}
    with tempfile.TemporaryDirectory() as work:
        work = os.path.realpath(work)
        shutil.copytree(f"{tried.ROOT}/python", f"{work}/python",
                        ignore=shutil.ignore_patterns("__pycache__", "build", "*.egg-info"))
        try_python("a copy", sys.executable, work, {**environment, "PYTHONPATH": f"{work}/python"})
        subprocess.run([sys.executable, "-m", "venv", f"{work}/venv"], env=environment, check=True)
        python = f"{work}/venv/bin/python"
        # As a user writes it; whatever asks a network finds none.
        words = [python, "-m", "pip", "install", "./python"]
        child = subprocess.run(words, cwd=work, env={**environment, **NO_NETWORK}, capture_output=True, text=True,
                               check=False)
        tried.expect("pip", (child.returncode, child.stderr[-500:] if child.returncode else ""), (0, ""))
        try_python("pip", python, f"{work}/venv", environment)
        tried.expect("it is typed", glob.glob(f"{work}/venv/lib/*/site-packages/mldb/py.typed") != [], True)
        for words in (["-m", "mldb", "--help"], ["-m", "mldb.pg", "--help"], ["-m", "pip", "check"]):
            child = subprocess.run([python, *words], cwd=work, env=environment, capture_output=True, check=False)
            tried.expect(f"{words[1]} is there", child.returncode, 0)
        child = subprocess.run([python, "-m", "pip", "uninstall", "-y", "mldb"], env=environment, capture_output=True,
                               check=False)
        left = glob.glob(f"{work}/venv/lib/*/site-packages/mldb*")
        tried.expect("and it goes", (child.returncode, left), (0, []))
