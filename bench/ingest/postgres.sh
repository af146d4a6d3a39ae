#!/usr/bin/env bash
# `postgres.sh FOLDER` makes a PostgreSQL server in a new folder and puts the spans of the lines of standard input into it, each line a
# request in OTLP/JSON: the server takes them out of the line, in one transaction a line, with its defaults for syncing. The table has an
# index on the trace's and the span's id, by which a span that came before isn't taken again, and one on the name. It prints how many
# spans there are. The superuser can't run a server: then it runs as the user `postgres`.
set -eo pipefail
as=()
mkdir -p "$1"
if [ "$(id -u)" = 0 ]; then
    as=(runuser -u postgres --)
    chown postgres "$1"
    chmod o+x "$(dirname "$1")"
fi
"${as[@]}" initdb -D "$1/data" -A trust -U bench > /dev/null
# The server is this shell's own child, so that its processor time is told with this shell's.
"${as[@]}" postgres -D "$1/data" -c listen_addresses= -c unix_socket_directories="$1" > "$1.log" 2>&1 &
server=$!
ask=(psql -h "$1" -U bench -d postgres -q -t -A -v ON_ERROR_STOP=1)
until "${ask[@]}" -c 'select 1' > /dev/null 2>&1; do sleep 0.05; done
"${ask[@]}" << 'SQL'
create table span (trace text, id text, parent text, name text, kind int, start bigint, finish bigint, status int, attributes jsonb,
    resource jsonb, scope jsonb, unique (trace, id));
create index span_of_name on span (name);
create function take(line json) returns void language sql as $$
    insert into span
    with resource as materialized (
        select (r -> 'resource')::jsonb as around, r -> 'scopeSpans' as scopes from json_array_elements(line -> 'resourceSpans') r
    ), scope as materialized (
        select around, (s -> 'scope')::jsonb as under, s -> 'spans' as spans from resource, json_array_elements(scopes) s
    )
    select p ->> 'traceId', p ->> 'spanId', p ->> 'parentSpanId', p ->> 'name', (p ->> 'kind')::int, (p ->> 'startTimeUnixNano')::bigint,
        (p ->> 'endTimeUnixNano')::bigint, (p -> 'status' ->> 'code')::int, (p -> 'attributes')::jsonb, around, under
    from scope, json_array_elements(spans) p
    on conflict do nothing
$$;
SQL
# shellcheck disable=SC2016 # PostgreSQL's own quotes
sed 's/.*/select take($line$&$line$);/' | "${ask[@]}" > /dev/null
"${ask[@]}" -c 'select count(*) from span'
"${as[@]}" pg_ctl -D "$1/data" stop -m fast > /dev/null
wait "$server" || true
