#!/usr/bin/env python3
"""`sqlite.py FILE` puts the spans of the lines of standard input, each a request in OTLP/JSON, into a new SQLite database: the database
takes them out of the line by `json_each`, in one transaction a line, with a log written ahead and `synchronous = full`. The table has an
index on the trace's and the span's id, by which a span that came before isn't taken again, and one on the name. It prints how many
spans there are."""
import sqlite3
import sys

TABLE = """create table span (trace text, id text, parent text, name text, kind int, start int, finish int, status int, attributes text,
    resource text, scope text, unique (trace, id))"""

INSERT = """insert or ignore into span
    with resource as materialized (
        select value -> 'resource' as around, value -> 'scopeSpans' as scopes from json_each(?, '$.resourceSpans')
    ), scope as materialized (
        select around, value -> 'scope' as under, value -> 'spans' as spans from resource, json_each(scopes)
    )
    select p.value ->> 'traceId', p.value ->> 'spanId', p.value ->> 'parentSpanId', p.value ->> 'name', p.value ->> 'kind',
        cast(p.value ->> 'startTimeUnixNano' as int), cast(p.value ->> 'endTimeUnixNano' as int), p.value ->> '$.status.code',
        p.value -> 'attributes', around, under
    from scope, json_each(spans) p"""


def main():
    base = sqlite3.connect(sys.argv[1], isolation_level=None)
    base.execute("pragma journal_mode = wal")
    base.execute("pragma synchronous = full")
    base.execute(TABLE)
    base.execute("create index span_of_name on span (name)")
    for line in sys.stdin:
        base.execute("begin")
        base.execute(INSERT, (line,))
        base.execute("commit")
    print(base.execute("select count(*) from span").fetchone()[0])
    base.close()


main()
