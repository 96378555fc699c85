"""docs/python.md and the lines of Python in README.md, tried: each prints what the page says. The program is `mldb`
there."""

import contextlib
import doctest
import io
import os
import re
import tempfile

import tried

BLOCK = re.compile(r"```python\n(import mldb\n.*?)```\n(?:\n.*?)?```\n(.*?)```\n", re.DOTALL)
MOST_WORDS = 900


def read(path):
    with open(f"{tried.ROOT}/{path}", encoding="utf-8") as file:
        return file.read()


def try_page():
    """The sessions of the page, in one, since each goes on where the last ended."""
    page = read("docs/python.md")
    tried.expect("the page is short", len(page.split()) <= MOST_WORDS, True)
    test = doctest.DocTestParser().get_doctest(page, {}, "docs/python.md", "docs/python.md", 0)
    told = io.StringIO()
    runner = doctest.DocTestRunner(verbose=False)
    runner.run(test, out=told.write, clear_globs=False)
    tried.expect(f"docs/python.md: {told.getvalue()}", (runner.failures, runner.tries > 10), (0, True))
    test.globs["program"].close()


def try_readme():
    """The lines of README print what stands below them."""
    found = BLOCK.search(read("README.md"))
    tried.expect("README has lines of Python", found is not None, True)
    told = io.StringIO()
    with contextlib.redirect_stdout(told):
        exec(compile(found[1].replace("bin/mldb", "mldb"), "README.md", "exec"), {})
    tried.expect("README", told.getvalue(), found[2])
    tried.expect("README: ten lines", len([line for line in found[1].splitlines() if line]) <= 10, True)


def try_all():
    before, folder = os.environ["PATH"], os.getcwd()
    with tempfile.TemporaryDirectory() as work:
        os.symlink(tried.PROGRAM, f"{work}/mldb")
        os.environ["PATH"] = f"{work}:{before}"
        os.chdir(tried.ROOT)
        try:
            try_page()
            try_readme()
        finally:
            os.environ["PATH"] = before
            os.chdir(folder)
