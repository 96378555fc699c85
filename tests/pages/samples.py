"""The pages that are looked at."""

from pathlib import Path
from typing import NamedTuple

ROOT = Path(__file__).resolve().parents[2]
DOCUMENTS = ("policy.toml", "schemes.toml")
STORED = ("transactions.txt", "certificates.txt")
OPTIONS = ("--transactions", STORED[0], "--certificates", STORED[1])
STORIES = (
    ("samples", "calls.script"),
    ("samples/hospital", "story.script"),
    ("samples/ministry", "story.script"),
    ("tests/why", "ships.script"),
)
# A value that would be run or read as markup, and one whose signs turn the direction of writing.
SCRIPT = "<script>alert(1)</script>"
SIGNS = 'a &amp; b <i> \\"q\\" \u202e back \u2066'


class Page(NamedTuple):
    """A page: which tool makes it of what, and what has to be on it, each as an expression that is true there."""

    name: str
    tool: str
    folder: str
    words: tuple[str, ...]
    shown: tuple[tuple[str, str], ...] = ()
    # Whether a value is too long for the narrow page.
    is_long: bool = False


def text_of(selector: str) -> str:
    """The text of an element as an expression."""
    return f"document.querySelector({selector!r}).textContent"


def name_of(folder: str) -> str:
    """The name of a sample."""
    return folder.split("/")[-1]


PLAYS = tuple(
    Page(f"{name_of(folder)}.play.html", "mlplay", str(ROOT / folder), (*DOCUMENTS, script, *OPTIONS))
    for folder, script in STORIES
)
REPORTS = tuple(
    Page(f"{name_of(folder)}.report.html", "mlreport", str(ROOT / folder), (*DOCUMENTS, *STORED))
    for folder, _ in STORIES
)
BLIND = "document.querySelector('#e1 .sight[data-relation=PATIENT] .cell[data-label=Study]').textContent"
HOSPITAL = (("where nobody may look is said", f"{BLIND}.includes('no user of the policy may look here')"),)
FIRST = Page(
    "enterprise.play.html",
    "mlplay",
    str(ROOT / "samples"),
    (*DOCUMENTS, "enterprise.script"),
    (
        (
            "four cover stories are struck through at H's end",
            "document.querySelectorAll('#e8 .sight .cell[data-label=H] tr.cover').length === 3",
        ),
        ("U has no cover story", "document.querySelectorAll('.all .cell[data-label=U] tr.cover').length === 0"),
    ),
)
PAGES = (FIRST, PLAYS[0], PLAYS[1]._replace(shown=HOSPITAL), *PLAYS[2:], *REPORTS)
PICTURES = (
    (
        Page("play.svg", "mlplay", str(ROOT / "samples"), (*DOCUMENTS, "enterprise.script", "--picture")),
        "docs/play.svg",
    ),
    (
        Page("why.svg", "mlplay", str(ROOT / "tests/why"), (*DOCUMENTS, "ships.script", *OPTIONS, "--picture")),
        "docs/why.svg",
    ),
)
# The pages whose bytes are kept: where, or only as a sum.
KEPT = (
    *(
        (page, f"{folder}/play.html" if folder.startswith("samples/") else "")
        for page, (folder, _) in zip(PLAYS, STORIES)
    ),
    *(
        (page, f"{folder}/report.html" if folder.startswith("samples/") else "")
        for page, (folder, _) in zip(REPORTS, STORIES)
    ),
    (FIRST, ""),
    *PICTURES,
)


def awkward(work: Path) -> list[Page]:
    """A story of values that look like something else, its report with what changed, and an audit list."""
    folder, before = work / "awkward", work / "awkward/before"
    before.mkdir(parents=True)
    policy = (ROOT / "samples/policy.toml").read_text(encoding="utf-8")
    for name in ("schemes.toml", *STORED):
        for where in (folder, before):
            (where / name).write_bytes((ROOT / "samples" / name).read_bytes())
    (before / "policy.toml").write_text(policy, encoding="utf-8")
    changed = policy.replace(
        'name = "mia"\nclearance = "M"', 'name = "mia"\nclearance = "H"'
    ).replace('object = "Blank"', 'object = "Nothing"')
    (folder / "policy.toml").write_text(
        f'{changed}\n[[user]]\nname = "zed"\nclearance = "U"\nage = 1\n', encoding="utf-8"
    )
    (folder / "awkward.script").write_text(
        f"# {SCRIPT} & \u202e\nU a open ann\nS b open bob\nU t open tom\n"
        f'U a insert SOD key ("{SCRIPT}") values ("{SIGNS}", "Talos")\n'
        f'S b update SOD key ("{SCRIPT}") class U from U set Destination = "</td></table>"\n'
        f'U t call Known ()\nS b view SOD at H\nU a view SOD at U # {SCRIPT}\n'
        'U a all { insert SOD key ("; }") values (null, "}"); view SOD at U ; expect 2 count SOD at U; } # } ;\n'
        '"2026-11-30T20:01:02Z"U a all{delete SOD key ("; }") class U;expect 0 count SOD at U}\n'
        'U t all { view SOD at U; delete SOD key ("; }") class H }\nU a count SOD at U\n', encoding="utf-8",
    )
    (folder / "audit.txt").write_text(
        "U entry U denied tom t 38\nU entry U denied tom t 38\nS entry S denied bob b 37 2026-11-28T10:00:00Z\n"
        "U entry U called tom t Known 2026-11-30T10:00:00Z\n"
        f'U entry U released tom t "{SCRIPT}{SIGNS}" 2026-11-30T10:00:00Z\nU U/a audit\n',
        encoding="utf-8",
    )
    text = (before / "transactions.txt").read_text(encoding="utf-8")
    text = text.replace("r.Destination = null", "r.Objective = null", 1)
    (before / "transactions.txt").write_text(text, encoding="utf-8")
    (folder / "untimed.txt").write_text("U entry U denied tom t 38\n", encoding="utf-8")
    return [play_page(folder), report_page(folder), first_report(folder), audit_page(folder), untimed_page(folder)]


KEY, TEXT = f'"{SCRIPT}"', f'"{SIGNS}"'
PLAY_SHOWN = (
    ("a script in a value is shown", f"{text_of('#e4 .sight td bdi')} === {KEY!r}"),
    ("signs stay what they are", f"{text_of('#e4 .sight td:nth-child(2) bdi')} === {TEXT!r}"),
    (
        "signs turn nothing behind them",
        "['#e4 code bdi', '#e8 .lines .cell[data-label=U] bdi', '#e4 .cell[data-label=U] td bdi']"
        ".every(one => document.querySelectorAll(one).length === 3)",
    ),
    (
        "each class has its colour",
        "new Set([...document.querySelectorAll('#e5 .cell[data-label=S] td')]"
        ".map(one => getComputedStyle(one).backgroundColor)).size === 2",
    ),
    (
        "the release is an arrow with its value",
        f"{text_of('#e6 .arrow .mono')} === '1' && {text_of('#e6 .arrow')}.includes('from S to U')",
    ),
    (
        "the arrow goes over the columns from S to U",
        "getComputedStyle(document.querySelector('#e6 .arrow')).gridColumn.replaceAll(' ', '') === '1/4'",
    ),
    (
        "a lower column has nothing of a high event",
        "document.querySelector('#e5 .lines .cell[data-label=U] pre').textContent === ''",
    ),
    (
        "a cover story is struck through in the higher column",
        "document.querySelectorAll('#e5 .cell[data-label=S] tr.cover').length === 1 && "
        "document.querySelectorAll('#e5 .cell[data-label=U] tr.cover').length === 0",
    ),
    (
        "a batch is one event, with all its lines",
        f"{text_of('#e9 .lines .cell[data-label=U] pre')}.split('\\n').length === 5 && "
        f"{text_of('#e10 .lines .cell[data-label=U] pre')} === 'U U/a refused 18 Unexpected at 2'",
    ),
    (
        "that there are no rows is said",
        "document.querySelector('#e1 .sight[data-relation=CREW] .cell[data-label=U] .none')"
        ".textContent.includes('no rows')",
    ),
)


def play_page(folder: Path) -> Page:
    """The awkward play."""
    words = (*DOCUMENTS, "awkward.script", *OPTIONS)
    return Page("awkward.play.html", "mlplay", str(folder), words, PLAY_SHOWN, True)


def report_page(folder: Path) -> Page:
    """The awkward report."""
    has = "[...document.querySelectorAll('main li, main tr')].some(one => one.textContent.includes({!r}))"
    row = "[...document.querySelectorAll('main tr')].some(one => {}.every(part => one.textContent.includes(part)))"
    return Page(
        "awkward.report.html",
        "mlreport",
        str(folder),
        (*DOCUMENTS, *STORED, "--before", "before"),
        (
            ("a field that nobody reads is told", has.format("age: no one reads this field")),
            ("a user without rights is told", has.format("zed has no rights")),
            ("a right to nothing is told", has.format("tom has a right to Nothing")),
            (
                "a transaction that nobody can call is told",
                has.format("Nobody can call Top: tom: not trusted between its labels"),
            ),
            ("one without a right too", has.format("Nobody can call Blank: no user has a right to execute it")),
            ("what can come down is told", row.format(["ann", "0 or 1 (one bit a call)", "tom", "Known"])),
            ("the highest label is told", row.format(["mia", "write", "H"])),
            (
                "a changed clearance is told",
                row.format(["mia", "is cleared for M", "is cleared for H", "sees SOD at H"]),
            ),
            (
                "a lost right is told",
                row.format(["tom", "has execute on Blank", "can call Blank", "has execute on Nothing"]),
            ),
            ("whom a release concerns is told", row.format(["whoever sees U", "can learn by Blank"])),
            ("what it is taken from is told", row.format(["tom", "SOD at S", "Known"])),
            (
                "a changed line of a transaction is told",
                row.format(["the text of Known", "if not (r.Objective = null) {", "if not (r.Destination = null) {"]),
            ),
            ("it can be signed on paper", f"{text_of('.sign')} === 'Read and signed:'"),
            ("the lattice has a line to each covered label", "document.querySelectorAll('svg polyline').length === 4"),
        ),
    )


def first_report(folder: Path) -> Page:
    """A report over a folder in which there were no transactions yet, of a transaction that lets any integer down."""
    before, sample = folder / "earlier", ROOT / "samples/hospital"
    before.mkdir()
    for name in DOCUMENTS:
        (before / name).write_bytes((sample / name).read_bytes())
    row = "[...document.querySelectorAll('main tr')].some(one => {}.every(part => one.textContent.includes(part)))"
    return Page(
        "first.report.html",
        "mlreport",
        str(sample),
        (*DOCUMENTS, *STORED, "--before", str(before)),
        (
            (
                "the bits of any integer are told",
                row.format(["Study", "any integer or null (65 bits a call at most)", "dora"]),
            ),
            (
                "that a transaction came is told",
                row.format(["whoever sees Study", "can learn by Count", "called by dora"]),
            ),
        ),
    )


def untimed_page(folder: Path) -> Page:
    """An audit list without times."""
    said = "[...document.querySelectorAll('main p')].some(one => one.textContent === 'The entries have no times.')"
    shown = (("that there are no times is said", said),)
    return Page("untimed.audit.html", "mlaudit", str(folder), ("untimed.txt",), shown)


def audit_page(folder: Path) -> Page:
    """The awkward audit list."""
    return Page(
        "awkward.audit.html",
        "mlaudit",
        str(folder),
        ("audit.txt",),
        (
            (
                "the numbers of a user",
                "[...[...document.querySelectorAll('tr')].find(one => one.textContent.startsWith('tom')).cells]"
                ".slice(2).map(one => one.textContent).join() === '1,1,2'",
            ),
            (
                "a number leads to its lines",
                "(location.hash = '#user-tom-released', "
                "getComputedStyle(document.querySelector('#user-tom-released')).display === 'block')",
            ),
            (
                "these are the lines",
                f"{text_of('#user-tom-released pre bdi')} === {chr(34) + SCRIPT + SIGNS + chr(34)!r}",
            ),
            ("others are hidden", "getComputedStyle(document.querySelector('#user-tom-denied')).display === 'none'"),
            (
                "days are plotted",
                "document.querySelectorAll('svg.days rect').length === 3 && "
                "!!document.getElementById('day-2026-11-30-called')",
            ),
            (
                "each number has its lines",
                "[...document.querySelectorAll('td a')].every(one => "
                "document.querySelectorAll(`[id=\"${one.hash.slice(1)}\"] pre`).length === Number(one.textContent))",
            ),
            (
                "the first and the last day are at the edges",
                "[...document.querySelectorAll('figcaption span')].map(one => one.textContent).join()"
                " === '2026-11-28,2026-11-30' && "
                "(bars => bars[0].getAttribute('x') === '0.00' && "
                "Number(bars[2].getAttribute('x')) + Number(bars[2].getAttribute('width')) === 900)"
                "([...document.querySelectorAll('svg.days rect')])",
            ),
            (
                "one call is no calls",
                "document.querySelector('main p').textContent.startsWith('1 call, 1 release, 3 denials')",
            ),
            (
                "every entry is counted",
                "['user', 'label', 'day'].every(one => [...document.getElementById(one)"
                ".nextElementSibling.querySelectorAll('td a')]"
                ".reduce((sum, a) => sum + Number(a.textContent), 0) === 5)",
            ),
        ),
    )


def big(work: Path) -> list[Page]:
    """A policy of 64 labels."""
    folder, names = work / "big", "abcdef"
    folder.mkdir()
    sets = [[name for place, name in enumerate(names) if number >> place & 1] for number in range(64)]
    labels = "".join(
        f'[[label]]\nname = "L{"".join(each)}"\nlevel = "R"\ncategories = {each}\n'.replace("'", '"') for each in sets
    )
    users = "".join(
        f'[[user]]\nname = "u{number}"\nclearance = "L{"".join(sets[number])}"\n' for number in range(0, 64, 9)
    )
    rights = "".join(f'[[matrix]]\nuser = "u{number}"\nobject = "R"\nmodes = ["write"]\n' for number in range(0, 64, 9))
    (folder / "policy.toml").write_text(
        f'version = 1\nlevels = ["R"]\ncategories = {list(names)}\n'.replace("'", '"') + labels + users + rights,
        encoding="utf-8",
    )
    interval = 'low = "L", high = "Labcdef"'
    (folder / "schemes.toml").write_text(
        f'version = 1\n[[relation]]\nname = "R"\nkey = [{{ name = "K", kind = "text", {interval} }}]\n'
        f'attribute = [{{ name = "A", kind = "text", {interval} }}]\n', encoding="utf-8",
    )
    (folder / "big.script").write_text(
        'L a open u0\nL a insert R key ("x") values ("y")\nLad b open u63\n'
        'Lad b update R key ("x") class L from L set A = "z"\nLad b view R at La\n',
        encoding="utf-8",
    )
    return [
        Page("big.play.html", "mlplay", str(folder), (*DOCUMENTS, "big.script")),
        Page(
            "big.report.html",
            "mlreport",
            str(folder),
            DOCUMENTS,
            (("192 lines go to covered labels", "document.querySelectorAll('svg polyline').length === 192"),),
        ),
    ]
