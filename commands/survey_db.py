"""The database of a survey: SQLite, or PostgreSQL where the name is a URL of it. One transaction a store."""
import os

from . import house

STORE_COLUMNS = ("path", "sha256", "bytes", "form", "answer", "reason", "records", "refused", "damaged", "twins", "copies", "alike", "infinite")
RECORD_COLUMNS = ("number", "tile", "format", "face", "col", "row", "answer", "mode", "mark", "verdict", "stays", "infinite", "block", "shown")

# In SQL, with what the two engines name differently: BYTES, KEY and WITHOUT_ROWID. `name` is the path for people, `path` its bytes.
TABLES = """
CREATE TABLE IF NOT EXISTS stores (
    id KEY, path BYTES NOT NULL UNIQUE, name TEXT NOT NULL, sha256 TEXT, bytes INTEGER, form INTEGER, answer INTEGER, reason TEXT,
    records INTEGER NOT NULL, refused INTEGER NOT NULL, damaged INTEGER NOT NULL, twins INTEGER NOT NULL, copies INTEGER NOT NULL,
    alike INTEGER NOT NULL, infinite INTEGER NOT NULL);
CREATE TABLE IF NOT EXISTS records (
    store INTEGER NOT NULL REFERENCES stores (id) ON DELETE CASCADE, number INTEGER NOT NULL, tile BIGINT NOT NULL, format INTEGER, face INTEGER,
    col INTEGER, row INTEGER, answer INTEGER NOT NULL, mode INTEGER, mark INTEGER, verdict TEXT, stays INTEGER, infinite INTEGER NOT NULL,
    block BYTES, shown BYTES, PRIMARY KEY (store, number)) WITHOUT_ROWID;
"""
INDEXES = """
CREATE INDEX IF NOT EXISTS records_by_block ON records (block, format);
CREATE INDEX IF NOT EXISTS records_by_picture ON records (shown, format);
CREATE INDEX IF NOT EXISTS records_by_tile ON records (tile);
"""
# A picture is held by a record that is neither refused nor damaged.
VIEWS = {
    "copies_across_stores": """
        SELECT s.name, r.store, r.number, r.tile, r.format, r.mode, r.block, r.shown
        FROM (SELECT format, block FROM records WHERE mode > 0 GROUP BY format, block HAVING COUNT(DISTINCT store) > 1) AS g
        JOIN records r ON r.format = g.format AND r.block = g.block AND r.mode > 0 JOIN stores s ON s.id = r.store""",
    "alike_across_stores": """
        SELECT s.name, r.store, r.number, r.tile, r.format, r.mode, r.block, r.shown
        FROM (SELECT format, shown FROM records WHERE mode > 0 GROUP BY format, shown
              HAVING COUNT(DISTINCT store) > 1 AND COUNT(DISTINCT block) > 1) AS g
        JOIN records r ON r.format = g.format AND r.shown = g.shown AND r.mode > 0 JOIN stores s ON s.id = r.store""",
    "damaged_records": "SELECT s.name, r.* FROM records r JOIN stores s ON s.id = r.store WHERE r.mode = 0",
    "refused_records": "SELECT s.name, r.* FROM records r JOIN stores s ON s.id = r.store WHERE r.answer > 0",
    "tiles_in_several_stores": """
        SELECT r.tile, COUNT(DISTINCT r.store) AS stores, COUNT(*) AS records FROM records r WHERE r.answer = 0
        GROUP BY r.tile HAVING COUNT(DISTINCT r.store) > 1""",
    "minus_infinities": "SELECT s.name, r.* FROM records r JOIN stores s ON s.id = r.store WHERE r.infinite > 0",
}


def name_of(path):
    return house.shown(os.fsdecode(path), 4000)


class Database:
    """What both engines share. `marker` stands for a value in SQL."""

    marker, bytes_type, key_type, by_key = "?", "BLOB", "INTEGER PRIMARY KEY", "WITHOUT ROWID"

    def make(self):
        for statement in self.in_own_words(TABLES).split(";"):
            if statement.strip():
                self.execute(statement)
        for name, query in VIEWS.items():
            self.make_view(name, query)
        self.commit()

    def in_own_words(self, text):
        return text.replace("BYTES", self.bytes_type).replace("id KEY", f"id {self.key_type}").replace("WITHOUT_ROWID", self.by_key)

    def index(self):
        for statement in INDEXES.split(";"):
            if statement.strip():
                self.execute(statement)
        self.commit()

    def known(self):
        """The SHA-256 and the answer of each path when it was surveyed; none of one that could not be read then."""
        return {bytes(path): (summed, answer) for path, summed, answer in self.execute("SELECT path, sha256, answer FROM stores WHERE answer IS NOT NULL")}

    def put(self, store, rows):
        """One store and its records, in place of what was there of that path: all of it or nothing."""
        values = (*store[:1], name_of(store.path), *store[1:])
        columns = ("path", "name", *STORE_COLUMNS[1:])
        update = ", ".join(f"{column} = excluded.{column}" for column in columns[1:])
        statement = f"INSERT INTO stores ({', '.join(columns)}) VALUES ({', '.join([self.marker] * len(columns))}) ON CONFLICT (path) DO UPDATE SET {update} RETURNING id"
        number = self.execute(statement, values).fetchone()[0]
        self.execute(f"DELETE FROM records WHERE store = {self.marker}", (number,))
        self.put_records([(number, *row) for row in rows])
        self.commit()


class Sqlite(Database):
    def __init__(self, path):
        import sqlite3
        self.error = sqlite3.Error
        self.connection = sqlite3.connect(path, isolation_level=None)
        self.connection.execute("PRAGMA journal_mode = WAL")
        self.connection.execute("PRAGMA synchronous = NORMAL")
        self.open = False

    def execute(self, statement, values=()):
        if not self.open and not statement.lstrip().upper().startswith("SELECT"):
            self.connection.execute("BEGIN IMMEDIATE")
            self.open = True
        return self.connection.execute(statement, values)

    def put_records(self, rows):
        columns = ", ".join(("store", *RECORD_COLUMNS))
        self.connection.executemany(f"INSERT INTO records ({columns}) VALUES ({', '.join('?' * (1 + len(RECORD_COLUMNS)))})", rows)

    def make_view(self, name, query):
        self.execute(f"CREATE VIEW IF NOT EXISTS {name} AS {query}")

    def commit(self):
        if self.open:
            self.connection.execute("COMMIT")
            self.open = False

    def close(self):
        if self.open:
            self.connection.execute("ROLLBACK")
        self.connection.close()


class Postgres(Database):
    marker, bytes_type, key_type, by_key = "%s", "BYTEA", "SERIAL PRIMARY KEY", ""

    def __init__(self, url):
        try:
            import psycopg2
        except ImportError:
            raise house.Trouble("PostgreSQL needs psycopg2 (Debian: python3-psycopg2), which this python3 does not have") from None
        self.error = psycopg2.Error
        self.connection = psycopg2.connect(url)
        self.cursor = self.connection.cursor()

    def make(self):
        # two surveys that begin at once make the tables one after the other
        self.cursor.execute("SELECT pg_advisory_xact_lock(7251966)")
        super().make()

    def execute(self, statement, values=()):
        self.cursor.execute(statement, values)
        return self.cursor

    def put_records(self, rows):
        """By COPY, the engine's own way for many rows."""
        import io
        lines = ("\t".join(map(self.field, row)) for row in rows)
        text = "".join(f"{line}\n" for line in lines)
        if text:
            self.cursor.copy_from(io.StringIO(text), "records", columns=("store", *RECORD_COLUMNS), null="\\N")

    @staticmethod
    def field(value):
        return "\\N" if value is None else "\\\\x" + value.hex() if isinstance(value, bytes) else str(value)

    def make_view(self, name, query):
        self.execute(f"CREATE OR REPLACE VIEW {name} AS {query}")

    def commit(self):
        self.connection.commit()

    def close(self):
        self.connection.close()


def is_postgres(name):
    return name.startswith(("postgresql://", "postgres://"))


def opened(name):
    try:
        return Postgres(name) if is_postgres(name) else Sqlite(name)
    except house.Trouble:
        raise
    except Exception as error:
        raise house.Trouble(f"{house.shown(name)}: {str(error).strip().splitlines()[0] if str(error).strip() else error!r}") from None
