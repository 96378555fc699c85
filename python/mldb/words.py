"""The words of docs/codes.md: per number its name, what it is of, and what it says. tests/client compares
them with the page, and tests/client_parts/words_page.py makes them anew."""

from typing import NamedTuple


class Word(NamedTuple):
    """One number of a table."""

    name: str
    of: str
    text: str


def _table(*rows: tuple[int, str, str, str]) -> dict[int, Word]:
    return {code: Word(name, of, text) for code, name, of, text in rows}


REFUSED = _table(
    (0, "Done", "all", "the reply is done, an as variable gets 0"),
    (11, "KeyNull", "all", "a value of the key is null"),
    (
        12, "Duplicate", "insert",
        "a tuple has this key with your label as its key class: update that tuple, or take another key",
    ),
    (
        13, "NoTuple", "update, delete",
        "no tuple has the class after from (of a delete: your label); or that class does not lie between the "
        "key class and your label. In a view, class wants the class beside the key, from the last column",
    ),
    (
        14, "NullAboveKey", "update",
        "a null, and your label is above the key class: give a value; or delete your tuple (those above it go"
        " too), and see the one below",
    ),
    (
        15, "Inherited", "update from your label",
        "a named value has another class: it comes from a lower tuple. Change it in a session at its class; "
        "or delete your tuple (those above it go too) and update from the lower one, naming that value too",
    ),
    (
        16, "OutOfInterval", "insert, update from below",
        "your label is outside an attribute's interval: of any for an insert, of a named one for an update",
    ),
    (
        17, "AlreadyDerived", "update from below",
        "there is a tuple of your label already: update from your own label",
    ),
    (18, "Unexpected", "expect", "there is another number of rows: read them anew"),
)

DENIED = _table(
    (31, "NoSession", "all but open", "no session of that label and name is open"),
    (32, "AlreadyOpen", "open", "use it, close it, or take another name"),
    (33, "UnknownUser", "open", "the policy has no such user"),
    (34, "UnknownTransaction", "call", "none of that name is stored (--transactions)"),
    (
        35, "NotCertified", "call",
        "it is stored without a valid certificate: mldb certify makes one; mldb check says what is wrong with"
        " one",
    ),
    (
        36, "Ds", "the discretionary rule",
        "the matrix does not give the session's user the mode on the relation or transaction: for view, "
        "count, dump read or write; for insert append or write; for update, delete write; for call execute. "
        "Add a [[matrix]] entry",
    ),
    (
        37, "Ss", "simple security",
        "the user's clearance does not dominate a label: for open the session's; for view, count theirs; for "
        "update the key class and the class after from; for delete the key class; for call HI. Name a lower "
        "label, or be another user",
    ),
    (
        38, "Star", "the star property",
        "for view, count, update and delete the session's label does not dominate a label that 37 names; for "
        "call it is another one than LO. Open a session at that label",
    ),
    (
        39, "Trust", "call",
        "HI is not LO, and the user is not trusted in an interval that has both: see trusted in the policy",
    ),
    (
        40, "Arguments", "call",
        "their number is wrong, or one at a parameter labelled LO has the wrong kind. At a parameter labelled"
        " higher such a value counts as null",
    ),
)

FILES = _table(
    (1, "NotToml", "", "the bytes are no document of TOML 1.1, or not UTF-8: mldb explain shows the line"),
    (2, "MissingField", "", "a field is missing, or empty where at least one is wanted (of key that is 10)"),
    (
        3, "WrongKind", "",
        "a field has the wrong kind, version is neither 1 nor 2, or trusted has not just two labels: see the "
        "fields",
    ),
    (4, "Repeated", "", "a name, a category, a mode, a label's value or a pair of user and object is given twice"),
    (5, "UnknownName", "", "a NAME that nothing declares; an unknown mode or kind"),
    (6, "TooMany", "", "a list is too long: see the fields"),
    (7, "BadName", "", "not a NAME where one is wanted"),
    (
        8, "EmptyInterval", "",
        "the second label of an interval does not dominate the first: exchange them, or choose comparable "
        "labels",
    ),
    (9, "Memory", "", ""),
    (10, "NoKey", "", "a relation has no key attribute: add a [[relation.key]]"),
    (11, "KeyIntervals", "", "a key attribute's interval is not that of the first one"),
)

SCRIPTS = _table(
    (
        21, "Token", "",
        "no token begins there: a byte or a number that has no place, a text that is not closed, a name of "
        "more than 32 characters, bytes that are not UTF-8. Mend that place; texts have double quotes",
    ),
    (22, "Expected", "", "a token, or the end, with which nothing goes on: see the grammar"),
    (
        23, "UnknownName", "",
        "a name that means nothing there: declare it, or spell it as it is declared; explain lists what could"
        " stand there",
    ),
    (
        24, "Kind", "",
        "a value of the wrong kind, a negative number of rows, a time of another form, or a list of the wrong"
        " length: explain says what is wanted; write not (A = 1)",
    ),
    (25, "Repeated", "", "a name is given twice"),
    (
        26, "Depth", "",
        "statements, or parts of an expression, inside 16 others; a 17th test of a condition. Assign an inner"
        " part to a variable first; join tests inside parentheses",
    ),
    (
        27, "TooLong", "",
        "a text of more than 8,192 bytes; in transactions and all also too many things. See the limits",
    ),
    (
        28, "LabelOrder", "",
        "(transactions) HI does not dominate LO, or not the label of a release: raise HI, or lower the other",
    ),
    (29, "Memory", "", ""),
    (30, "Unterminated", "", "(scripts) the last line has no line feed"),
)

CERTIFICATES = _table(
    (
        51, "Line", "",
        "a line has the wrong form, is missing or has no line feed; a name that is no NAME. See certificates,"
        " or mldb certify again",
    ),
    (
        52, "Label", "",
        "an item of a line that is no label, an empty one too. Write one space before each label, none at the"
        " end",
    ),
    (53, "Version", "", "a number other than 1 and 2 in a first line: mldb certify again"),
    (54, "Repeated", "", "a name that an earlier block has"),
    (55, "Memory", "", ""),
)

STORES = _table(
    (
        1, "Store", "",
        "no store can be opened at that path, often since another program has it open; or it failed "
        "meanwhile. Wait for that program; see to the path, its folder, its rights and the disk",
    ),
    (
        2, "OtherPolicy", "",
        "its labels or relations are not those of policy and schemes, and these do not extend them in version"
        " 2: use the files that it was made with, or files that extend them",
    ),
    (
        3, "BadRows", "",
        "its tables or their description are others, or its rows are no database of the stored form. Another "
        "program made or changed it: take a copy from before",
    ),
    (4, "Memory", "", ""),
)

# The numbers that a session is told: no two tables of these have one number.
SESSIONS = REFUSED | DENIED | SCRIPTS
