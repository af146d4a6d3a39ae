"""A PostgreSQL server over the spans of a SQLite database that `bench/ingest/sqlite.py` made, asked by psql."""
import os
import re
import shutil
import sqlite3
import subprocess
import time

MADE = """create table span (trace text, id text, parent text, name text, kind int, start bigint, finish bigint, status int, attributes jsonb,
    resource jsonb, scope jsonb, unique (trace, id));
create index span_of_name on span (name);
copy span from stdin (format csv, null '\\N');
"""


def is_there():
    """Whether a server can be made here."""
    return all(shutil.which(it) for it in ("initdb", "postgres", "psql"))


def field(value):
    return r"\N" if value is None else '"' + str(value).replace('"', '""') + '"'


class Server:
    """A server in a new folder, with the spans of the database: one table, with an index on the trace's and the span's id and one on
    the name. The superuser can't run a server: then it runs as the user `postgres`."""

    def __init__(self, folder, database):
        os.makedirs(folder)
        around = []
        if os.geteuid() == 0:
            around = ["runuser", "-u", "postgres", "--"]
            shutil.chown(folder, "postgres")
        subprocess.run([*around, "initdb", "-D", f"{folder}/data", "-A", "trust", "-U", "bench"], check=True, stdout=subprocess.DEVNULL)
        options = ["-c", "listen_addresses=", "-c", f"unix_socket_directories={folder}", "-c", "max_wal_size=4GB"]
        with open(f"{folder}.log", "w", encoding="utf-8") as log:
            self.process = subprocess.Popen([*around, "postgres", "-D", f"{folder}/data", *options], stdout=log, stderr=log)
        self.psql = ["psql", "-h", folder, "-U", "bench", "-d", "postgres", "-q", "-v", "ON_ERROR_STOP=1"]
        while subprocess.run([*self.psql, "-c", "select 1"], check=False, capture_output=True).returncode:
            time.sleep(0.1)
        self.fill(database)
        # One client for all questions; \timing tells what each took, in milliseconds, its way to the server and back among it.
        self.client = subprocess.Popen(self.psql, stdin=subprocess.PIPE, stdout=subprocess.PIPE, text=True)
        self.client.stdin.write("\\o /dev/null\n\\timing on\n")

    def fill(self, database):
        base = sqlite3.connect(database)
        with subprocess.Popen(self.psql, stdin=subprocess.PIPE, text=True) as client:
            client.stdin.write(MADE)
            for row in base.execute("select * from span"):
                client.stdin.write(",".join(field(it) for it in row) + "\n")
            client.stdin.write("\\.\nvacuum analyze span;\n")
        base.close()
        if client.returncode:
            raise RuntimeError("psql took not all spans")

    def ask(self, statement):
        """What a statement takes, in milliseconds."""
        self.client.stdin.write(statement + ";\n")
        self.client.stdin.flush()
        while not (found := re.match(r"Time: ([0-9.]+) ms", self.client.stdout.readline())):
            pass
        return float(found[1])

    def end(self):
        self.client.stdin.close()
        self.client.wait()
        self.process.terminate()
        self.process.wait()
