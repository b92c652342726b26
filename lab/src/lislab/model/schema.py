"""The tables of a store in a database, by their versions, with the step to each version. The words of an earlier step
stay as they were. Programs before version 2 made the table of orders only once there were orders, so the step to
version 2 makes only what is missing."""
from .store import COMPLETE, INCOMPLETE, INVALID, OPEN

#: The version of the tables that this program makes.
SCHEMA = 3
#: The columns of a message.
COLUMNS = "key, host, line, peer, encoding, began, ended, state, reason, digest, size, again_of, number"
_MESSAGE = """(
        key TEXT PRIMARY KEY, host TEXT NOT NULL, line TEXT NOT NULL, peer TEXT NOT NULL, encoding TEXT NOT NULL,
        began DOUBLE PRECISION NOT NULL, ended DOUBLE PRECISION,
        state TEXT NOT NULL CHECK ({states}),
        reason TEXT NOT NULL DEFAULT '', digest TEXT NOT NULL DEFAULT '', size BIGINT NOT NULL DEFAULT 0,
        again_of TEXT REFERENCES message(key), number BIGINT UNIQUE,
        CHECK ({numbered}))"""
_BY_DIGEST = "CREATE INDEX IF NOT EXISTS message_by_digest ON message (line, digest) WHERE again_of IS NULL"
_EARLIER = "state IN ('open', 'whole', 'unfinished', 'unreadable')", "(number IS NOT NULL) = (state = 'whole')"
#: The step to version 1: messages and their texts.
TABLES = (
    "CREATE TABLE IF NOT EXISTS about (name TEXT PRIMARY KEY, value TEXT NOT NULL)",
    "CREATE TABLE IF NOT EXISTS message " + _MESSAGE.format(states=_EARLIER[0], numbered=_EARLIER[1]),
    _BY_DIGEST,
    "CREATE INDEX IF NOT EXISTS message_not_whole ON message (began) WHERE state <> 'whole'",
    """CREATE TABLE IF NOT EXISTS text (
        message TEXT NOT NULL REFERENCES message(key), place INTEGER NOT NULL, at DOUBLE PRECISION NOT NULL,
        body {blob} NOT NULL, PRIMARY KEY (message, place))""",
)
#: The step to version 2: orders.
ORDERS = (
    """CREATE TABLE IF NOT EXISTS orders (
        number BIGINT PRIMARY KEY, sample TEXT NOT NULL, tests TEXT NOT NULL, line TEXT NOT NULL DEFAULT '',
        priority TEXT NOT NULL DEFAULT 'R', patient TEXT NOT NULL DEFAULT '', name TEXT NOT NULL DEFAULT '',
        birth TEXT NOT NULL DEFAULT '', sex TEXT NOT NULL DEFAULT '', collected TEXT NOT NULL DEFAULT '',
        state TEXT NOT NULL DEFAULT 'waiting' CHECK (state IN ('waiting', 'sent', 'failed', 'cancelled')),
        reason TEXT NOT NULL DEFAULT '', tries INTEGER NOT NULL DEFAULT 0, asked TEXT NOT NULL DEFAULT '',
        seat TEXT NOT NULL DEFAULT '', holder TEXT NOT NULL DEFAULT '', added DOUBLE PRECISION NOT NULL,
        changed DOUBLE PRECISION NOT NULL, next_try DOUBLE PRECISION NOT NULL DEFAULT 0)""",
    "CREATE INDEX IF NOT EXISTS orders_waiting ON orders (sample) WHERE state = 'waiting'",
    "CREATE INDEX IF NOT EXISTS orders_failed ON orders (changed) WHERE state = 'failed'",
)
#: Columns that stores of earlier versions lack: what else an order says, the tests whose results came, when the last
#: one did, and the line on which the order was sent last.
LATER = {
    "more": "TEXT NOT NULL DEFAULT '{}'",
    "came": "TEXT NOT NULL DEFAULT '[]'",
    "done": "DOUBLE PRECISION NOT NULL DEFAULT 0",
    "sent_on": "TEXT NOT NULL DEFAULT ''",
}
#: The step to version 3: other words for the states of messages, and for what a line fixed in them.
_STATE = (
    f"CASE state WHEN 'whole' THEN '{COMPLETE}' WHEN 'unfinished' THEN '{INCOMPLETE}'"
    f" WHEN 'unreadable' THEN '{INVALID}' ELSE state END"
)
_REASON = "CASE WHEN substr(reason, 1, 6) = 'mended' THEN 'fixed' || substr(reason, 7) ELSE reason END"
_STATES = f"state IN ('{OPEN}', '{COMPLETE}', '{INCOMPLETE}', '{INVALID}')"
_NUMBERED = f"(number IS NOT NULL) = (state = '{COMPLETE}')"
_NOT_COMPLETE = f"CREATE INDEX IF NOT EXISTS message_not_complete ON message (began) WHERE state <> '{COMPLETE}'"
#: The messages of a store of an earlier version in the words of this one.
EARLIER_MESSAGES = (
    f"SELECT {COLUMNS.replace('state', f'{_STATE} AS state').replace('reason', f'{_REASON} AS reason')} FROM"
)
#: SQLite changes no condition of a table, so its messages go to another one. Foreign keys must be off meanwhile.
STATES_OF_SQLITE = (
    "CREATE TABLE message_3 " + _MESSAGE.format(states=_STATES, numbered=_NUMBERED),
    f"INSERT INTO message_3 ({COLUMNS}) {EARLIER_MESSAGES} message",
    "DROP TABLE message",
    "ALTER TABLE message_3 RENAME TO message",
    _BY_DIGEST,
    _NOT_COMPLETE,
)
STATES_OF_POSTGRESQL = (
    "SET LOCAL statement_timeout = 0",
    "ALTER TABLE message DROP CONSTRAINT message_state_check, DROP CONSTRAINT message_check",
    f"UPDATE message SET state = {_STATE}, reason = {_REASON}",
    f"ALTER TABLE message ADD CONSTRAINT message_state_check CHECK ({_STATES}),"
    f" ADD CONSTRAINT message_check CHECK ({_NUMBERED})",
    "DROP INDEX IF EXISTS message_not_whole",
    _NOT_COMPLETE,
)
