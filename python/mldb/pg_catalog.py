"""What `\\d`, `\\dt`, `\\l` and completion of psql ask of a catalog: answers from the schemes, in a SQLite of its own.

No row of a relation is read here, and nothing but what the schemes file tells is told."""

from __future__ import annotations

import re
import sqlite3
from collections.abc import Iterable, Sequence
from dataclasses import dataclass

from .pg_sql import Token, Translation, text_inside

FIRST_OID = 16384
PUBLIC, CATALOG = 2200, 11
TABLES = {
    "pg_namespace": "oid INTEGER, nspname, nspowner, nspacl",
    "pg_class": """oid INTEGER, relname, relnamespace INTEGER, relkind, relowner, relam, relchecks, relhasindex,
        relhasrules, relhastriggers, relrowsecurity, relforcerowsecurity, relispartition, reltablespace, reloftype,
        relpersistence, relreplident, reltoastrelid, reltuples, relacl, relnatts, reltype, relfilenode, relpages,
        reloptions, relpartbound""",
    "pg_attribute": """attrelid INTEGER, attname, atttypid INTEGER, atttypmod, attnum INTEGER, attnotnull, atthasdef,
        attisdropped, attcollation, attidentity, attgenerated, attlen, attndims, attacl, attstorage, attcompression,
        attstattarget""",
    "pg_type": """oid INTEGER, typname, typnamespace INTEGER, typcollation, typlen, typtype, typbasetype, typrelid,
        typelem, typarray, typdelim, typnotnull, typtypmod, typcategory""",
    "pg_database": """oid INTEGER, datname, datdba, encoding, datcollate, datctype, daticulocale, datlocprovider,
        datacl, datallowconn, datistemplate""",
    "pg_am": "oid INTEGER, amname, amtype",
    "pg_attrdef": "oid, adbin, adrelid, adnum",
    "pg_collation": "oid, collname",
    "pg_inherits": "inhrelid, inhparent, inhseqno, inhdetachpending",
    "pg_proc": "oid, proname, pronamespace, prokind, proargtypes, prorettype",
    "pg_index": """indexrelid, indrelid, indisprimary, indisunique, indisclustered, indisvalid, indisreplident, indkey,
        indnatts""",
    "pg_constraint": """oid, conrelid, conindid, contype, conname, condeferrable, condeferred, connamespace, confrelid,
        conkey, confkey""",
    "pg_description": "objoid, classoid, objsubid, description",
    "pg_roles": "oid, rolname",
    "pg_trigger": "oid, tgrelid, tgname",
    "pg_tablespace": "oid, spcname, spcowner",
    "pg_extension": "oid, extname, extnamespace, extversion",
    "pg_enum": "oid, enumtypid, enumlabel",
    "pg_range": "rngtypid, rngsubtype",
    "pg_settings": "name, setting",
}
INFORMATION = {
    "tables": "table_catalog, table_schema, table_name, table_type",
    "columns": """table_catalog, table_schema, table_name, column_name, ordinal_position, column_default, is_nullable,
        data_type, udt_name, character_maximum_length, numeric_precision, numeric_scale""",
    "schemata": "catalog_name, schema_name, schema_owner",
}
# Functions of what no relation here has.
NULLS = """pg_get_expr pg_get_indexdef pg_get_constraintdef pg_get_viewdef pg_get_functiondef pg_get_function_result
pg_get_function_arguments pg_get_partkeydef pg_table_size pg_size_pretty array_to_string obj_description col_description
shobj_description""".split()
# These ask with arrays, which SQLite has not, for what no relation here has.
EMPTY = ("pg_policy", "pg_statistic_ext", "pg_publication", "pg_foreign_table", "pg_subscription", "pg_event_trigger")
TYPES = {
    20: "bigint", 25: "text", 16: "boolean", 17: "bytea", 19: "name", 21: "smallint", 23: "integer", 26: "oid",
    701: "double precision",
}
# What psql asks after \\gdesc names the columns of VALUES, which SQLite does not.
GDESC = re.compile(r"FROM\s*\(\s*(VALUES\b.*)\)\s*s\s*\(name, tp, tpm\)", re.DOTALL)
FLAGS = "relhasindex relhasrules relhastriggers relrowsecurity relforcerowsecurity relispartition".split()
ROLES = """rolname rolsuper rolinherit rolcreaterole rolcreatedb rolcanlogin rolconnlimit rolvaliduntil memberof
rolreplication rolbypassrls""".split()
Answer = tuple[list[str], list[tuple]]
INSTEAD = "type \\dt for the relations, \\d NAME for one of them, \\l for the label"


@dataclass(frozen=True)
class Shape:
    """A table that a client sees: its name, its columns with the OIDs of their types, how many of them are a key's and
    how many attributes, and whether it is a table (`r`) or a view (`v`)."""

    name: str
    columns: Sequence[tuple[str, int]]
    keys: int
    attributes: int
    kind: str


class Catalog:
    """The catalog of one label."""

    def __init__(self, shapes: Iterable[Shape], label: str, user: str) -> None:
        self.label, self.user = label, user
        self.base = sqlite3.connect(":memory:", isolation_level=None, check_same_thread=False)
        self.base.execute("ATTACH ':memory:' AS information_schema")
        for name, columns in TABLES.items():
            self.base.execute(f"CREATE TABLE {name} ({columns})")
        for name, columns in INFORMATION.items():
            self.base.execute(f'CREATE TABLE information_schema."{name}" ({columns})')
        self.functions()
        self.fixed()
        for place, shape in enumerate(shapes):
            self.add(FIRST_OID + place, shape)

    def put(self, table: str, **values: object) -> None:
        """A row of the catalog; columns that are not named are null."""
        marks = ", ".join("?" * len(values))
        self.base.execute(f"INSERT INTO {table} ({', '.join(values)}) VALUES ({marks})", tuple(values.values()))

    def fixed(self) -> None:
        """What no relation changes."""
        for oid, name in ((PUBLIC, "public"), (CATALOG, "pg_catalog")):
            self.put("pg_namespace", oid=oid, nspname=name, nspowner=10)
        self.put("information_schema.schemata", catalog_name=self.label, schema_name="public", schema_owner=self.user)
        self.put("pg_am", oid=2, amname="heap", amtype="t")
        for oid, name, length in ((20, "int8", 8), (25, "text", -1), (701, "float8", 8)):
            self.put(
                "pg_type", oid=oid, typname=name, typnamespace=CATALOG, typcollation=0, typlen=length, typtype="b",
                typelem=0, typarray=0,
            )
        self.put(
            "pg_database", oid=1, datname=self.label, datdba=10, encoding=6, datcollate="C", datctype="C",
            datlocprovider="c", datallowconn="t", datistemplate="f",
        )
        self.put("pg_roles", oid=10, rolname=self.user)

    def add(self, oid: int, shape: Shape) -> None:
        """A table with its columns."""
        self.put(
            "pg_class", oid=oid, relname=shape.name, relnamespace=PUBLIC, relkind=shape.kind, relowner=10,
            relam=2 * (shape.kind == "r"), relchecks=0, reltablespace=0, reloftype=0, relpersistence="p",
            relreplident="d", reltoastrelid=0, reltuples=-1, relnatts=len(shape.columns), **dict.fromkeys(FLAGS, "f"),
        )
        kind = "BASE TABLE" if shape.kind == "r" else "VIEW"
        place = {"table_catalog": self.label, "table_schema": "public", "table_name": shape.name}
        self.put("information_schema.tables", **place, table_type=kind)
        for number, (name, type_oid) in enumerate(shape.columns, 1):
            is_key, is_int = number <= shape.keys, type_oid == 20
            self.put(
                "pg_attribute", attrelid=oid, attname=name, atttypid=type_oid, atttypmod=-1, attnum=number,
                attnotnull="t" if is_key else "f", atthasdef="f", attisdropped=0, attcollation=0, attidentity="",
                attgenerated="", attlen=8 if is_int else -1, attndims=0, attstorage="p" if is_int else "x",
                attcompression="", attstattarget=-1,
            )
            self.put(
                "information_schema.columns", **place, column_name=name, ordinal_position=number,
                is_nullable="NO" if is_key else "YES", data_type=TYPES[type_oid], udt_name="int8" if is_int else "text",
            )

    def functions(self) -> None:
        """The functions that psql's queries call."""
        for name in ("pg_table_is_visible", "pg_function_is_visible", "pg_type_is_visible"):
            self.base.create_function(name, -1, lambda *_: 1, deterministic=True)
        for name in NULLS:
            self.base.create_function(name, -1, lambda *_: None, deterministic=True)
        self.base.create_function("pg_get_userbyid", 1, lambda _: self.user)
        self.base.create_function("pg_encoding_to_char", 1, lambda _: "UTF8")
        self.base.create_function("format_type", 2, lambda oid, _: TYPES.get(oid, str(oid)))
        self.base.create_function("quote_ident", 1, quoted)
        self.base.create_function("regexp", 2, matches, deterministic=True)

    def answer(self, tokens: Sequence[Token], told: Translation, params: Sequence[object]) -> Answer:
        """The names and rows of the answer to a query of the catalog; sqlite3.Error where it is none that is known."""
        words = {text_inside(one).lower() for one in tokens}
        if "pg_auth_members" in words:
            return ROLES, [(self.user, "f", "f", "f", "f", "t", -1, None, "{}", "f", "f")]
        if made := GDESC.search(told.sql):
            sql = f"SELECT column1, format_type(CAST(column2 AS INTEGER), column3) FROM ({made[1]})"
            return ["Column", "Type"], self.base.execute(sql).fetchall()
        try:
            found = self.base.execute(told.sql, params)
        except sqlite3.Error:
            if any(word.startswith(EMPTY) for word in words):
                return ["nothing"], []
            raise
        return [one[0] for one in found.description or ()], found.fetchall()


def quoted(name: str | None) -> str:
    """A name as SQL of PostgreSQL has it."""
    return name if name and re.fullmatch(r"[a-z_][a-z0-9_]*", name) else f'"{name}"'


def matches(pattern: object, text: object) -> int | None:
    """`text ~ pattern`, without regard to case, as names of relations are found."""
    if pattern is None or text is None:
        return None
    try:
        return int(re.search(str(pattern), str(text), re.IGNORECASE) is not None)
    except re.error:
        return 0


def asks_catalog(tokens: Sequence[Token], relations: Iterable[str]) -> bool:
    """Whether a statement names a table of the catalog, and no relation of that name is there."""
    names = {one.lower() for one in relations}
    words = {text_inside(one).lower() for one in tokens if one.kind in ("word", "quoted")}
    return any(re.fullmatch(r"pg_[a-z_]+|information_schema", one) for one in words - names)
