"""The spans of push lines as rows for SQLite."""
import json

COLUMNS = (
    "trace blob, id blob, parent blob, name text, kind int, start int, finish int, status int, attributes text, resource text,"
    " scope text"
)

INSERT = "insert or ignore into span values (?, ?, ?, ?, ?, ?, ?, ?, ?, ?, ?)"


def rows(line):
    for resource in json.loads(line.removeprefix("push "))["resourceSpans"]:
        around = json.dumps(resource["resource"])
        for scope in resource["scopeSpans"]:
            under = json.dumps(scope["scope"])
            for span in scope["spans"]:
                yield (
                    bytes.fromhex(span["traceId"]), bytes.fromhex(span["spanId"]), bytes.fromhex(span["parentSpanId"]),
                    span["name"], span["kind"], int(span["startTimeUnixNano"]), int(span["endTimeUnixNano"]),
                    span["status"]["code"], json.dumps(span["attributes"]), around, under,
                )
