"""Faults that are planted in the source of the host, one for each test, which must notice it; and changes that mean
nothing, which all tests must pass. Each is an edit: in this file of lislab, this text becomes that; one without a
folder is of lislink."""
import glob
import os
import shutil
import subprocess
import sys
import tempfile
import unittest
from typing import NamedTuple

from tests.host import SOURCE, planted_delivery, planted_orders, planted_watch

HERE = os.path.dirname(os.path.abspath(__file__))


class Edit(NamedTuple):
    """An edit: the old text is in its file exactly once."""

    file: str
    old: str
    new: str


#: The tests that have a fault of their own (faulty.py, or a call of the host that they replace) and check that it is
#: noticed.
WITH_THEIR_OWN = (
    "test_intake.Streams.test_a_forgetful_intake",
    "test_kills.Kills.test_host_that_marks_nothing",
    "test_kills.Kills.test_hosts_that_lose",
    "test_load.Load.test_a_host_that_grows",
    "test_out.OutOfSpool.test_hasty_delivery",
    "test_out.OutOfSqlite.test_hasty_delivery",
    "test_postgres.OutOfPostgres.test_hasty_delivery",
    "test_planted.Planted.test_table",
)
#: The other tests, and what each must notice.
FAULTS = {
    "test_backup.Copies.test_under_load": Edit(
        "cli/store.py", '"backup_file", ("", QUARANTINE, EARLIER)', '"backup_file", ("",)'
    ),
    "test_backup.Copies.test_refusals": Edit("cli/store.py", "        if unnamed:\n", "        if not files:\n"),
    "test_commits.Owed.test_one_that_fails": Edit(
        "host/storing.py", "self._owed.extend(one", "self._owed.extendleft(one"
    ),
    "test_commits.Owed.test_a_part_that_fails": Edit(
        "host/storing.py", "        for one in ends:\n            self._ends.pop(one.key, None)\n", "        self._ends.clear()\n"
    ),
    "test_commits.Steps.test_a_commit_of_many": Edit(
        "model/sql.py", "sorted({(one.line, one.digest) for one in ends})", "[(one.line, one.digest) for one in ends]"
    ),
    "test_commits.Owed.test_said_once_kept": Edit(
        "host/storing.py",
        "kept.add_done_callback(lambda done: None if done.cancelled() else self._note_ends(changes))",
        "self._note_ends(changes)",
    ),
    "test_schema.Versions.test_version_1": Edit(
        "model/sql.py", "                if name not in known:\n", "                if not known:\n"
    ),
    "test_schema.Versions.test_version_2": Edit(
        "model/schema.py", "'fixed' || substr(reason, 7)", "'fixed' || substr(reason, 8)"
    ),
    "test_schema.Versions.test_spool": Edit(
        "model/spool.py", "for name in sorted(os.listdir(earlier)):", "for name in ():"
    ),
    "test_postgres.Postgres.test_earlier_tables": Edit(
        "model/postgresql.py", '"DROP VIEW IF EXISTS pg_temp.message"', '"SELECT 1"'
    ),
    "test_schema.Versions.test_later": Edit(
        "model/sqlite.py", "            self.refuse_later()\n            if self", "            if self"
    ),
    "test_schema.Versions.test_kills": Edit(
        "model/sqlite.py", 'self.run(f"PRAGMA user_version = {version}")', 'self.run("COMMIT"); self.run("BEGIN")'
    ),
    "test_postgres.Postgres.test_a_unit_that_fails": Edit(
        "model/postgresql.py", "if is_answered and self._db", "if not is_answered and self._db"
    ),
    "test_postgres.RepeatsOfPostgres.test_what_is_owed": Edit("model/sql.py", " ON CONFLICT DO NOTHING", ""),
    "test_repeats.RepeatsOfSqlite.test_what_is_owed": Edit("model/sql.py", " ON CONFLICT DO NOTHING", ""),
    "test_repeats.RepeatsOfSpool.test_what_is_owed": Edit(
        "model/spool.py", "            self._ended.update(ended)\n", ""
    ),
    "test_connect.Connect.test_two_lines": Edit(
        "host/serve.py", "if isinstance(place, Listen):\n            self.room", "if place:\n            self.room"
    ),
    "test_connect.Connect.test_orders": Edit(
        "host/calls.py",
        "self._host.add(wire, self.place, peer)",
        'self._host.add(wire, self.place._replace(orders=""), peer)',
    ),
    "test_connect.Connect.test_gone_and_back": Edit(
        "host/calls.py", "pause = min(2 * pause, MOST)", "pause = min(pause, MOST)"
    ),
    "test_connect.Connect.test_pause_that_ends": Edit(
        "host/calls.py", "await asyncio.wait_for(self._changed.wait(), seconds)", "await asyncio.sleep(seconds)"
    ),
    "test_connect.Connect.test_nothing_listens": Edit(
        "host/asked.py", "if self.texts.get(name) != why:", "if why:"
    ),
    "test_connect.Connect.test_stop": Edit(
        "host/calls.py",
        "return not host.stopping and place in host.asked.connects",
        "return place in host.asked.connects",
    ),
    "test_connect.Connect.test_reload": Edit(
        "host/serve.py", "if connect not in before:", "if connect.name not in {one.name for one in before}:"
    ),
    "test_connect.Connect.test_pauses": Edit(
        "host/calls.py", "if line is not None and (line.had_session or", "if line and ("
    ),
    "test_connect.Connect.test_words": Edit("model/options.py", "    if not port:\n", "    if port < 0:\n"),
    "test_connect.Connect.test_a_call_to_itself": Edit(
        "host/wires.py", 'or name == transport.get_extra_info("sockname"):', 'or name == ():'
    ),
    "test_files.Whole.test_damaged": Edit(
        "cli/export.py", "return writing(path)", 'return contextlib.nullcontext(open(path, "wb"))'
    ),
    "test_files.Whole.test_half_writes": Edit(
        "model/files.py",
        "        os.replace(made, whole)\n    except BaseException:",
        "    finally:\n        os.replace(made, whole)\n    if not path:",
    ),
    "test_files.Whole.test_short_writes": Edit("model/files.py", "left = left[count:]", 'left = left[:0]'),
    "test_intake.Streams.test_what_is_held": Edit(
        "host/intake.py", "        if wants - has > self._left:\n            return None\n", ""
    ),
    "test_intake.Streams.test_places": Edit("host/intake.py", "place = one.ended + error.place", "place = error.place"),
    "test_intake.Streams.test_random_streams": Edit(
        "host/intake.py",
        'self._add(one, text[:start], changes)\n            self._end(INCOMPLETE, _after(one, "a header',
        'self._end(INCOMPLETE, _after(one, "a header',
    ),
    "test_kills.Kills.test_sqlite": Edit(
        "model/sqlite.py",
        'self.run("COMMIT")\n        except',
        'if self._db.total_changes % 9:\n                self.run("COMMIT")\n        except',
    ),
    "test_kills.Kills.test_spool": Edit(
        "model/spool.py",
        "for name in os.listdir(self._path(OPEN)):\n            if name.split(\".about\")[0] not in left:\n"
        "                os.unlink(self._path(OPEN, name))",
        "for name in os.listdir(self._path(COMPLETE)):\n            os.unlink(self._path(COMPLETE, name))",
    ),
    "test_kills.Kills.test_failing_store": Edit(
        "host/storing.py", "append((batch, fault))", "append((batch, None))"
    ),
    "test_kills.Kills.test_full_disk_of_sqlite": Edit(
        "model/sqlite.py",
        "raise self._undone(error) from None\n\n    def _undone",
        "self._undone(error)\n\n    def _undone",
    ),
    "test_kills.Kills.test_full_disk_of_spool": Edit(
        "model/spool.py",
        'self._ended.update(ended)\n            raise StoreError(f"{self.folder}: {error}") from None',
        "self._ended.update(ended)",
    ),
    "test_late.Late.test_a_new_line": Edit(
        "host/duplex.py", "if self._site.is_anew and self._waits()", "if False and self._waits()"
    ),
    "test_late.Late.test_the_same_line": Edit(
        "host/asked.py", "Serial) and not place.waits:", "Serial) and place.waits:"
    ),
    "test_late.Late.test_a_serial_line": Edit("host/duplex.py", "max(self._due, self._asked + QUIET * scale)", "self._due"),
    "test_late.Suspended.test_lines_are_taken_anew": Edit(
        "host/line.py", "(self._closing.is_cut or not self._is_busy())", "not self._is_busy()"
    ),
    "test_late.Suspended.test_a_reply_that_was_asleep": Edit(
        "host/line.py", "now = clock()\n        if reply", "now = asyncio.get_running_loop().time()\n        if reply"
    ),
    "test_late.Suspended.test_clocks": Edit("host/wires.py", "        self._noted += found\n", ""),
    "test_lines.Lines.test_cuts": Edit(
        "host/line.py", "self._receiver.hear_placed(data)", "self._receiver.hear_placed(data[:64])"
    ),
    "test_lines.Lines.test_keeping": Edit(
        "host/storing.py",
        "        if part:\n            await self._put(part)",
        "        if any(isinstance(change, End) for change in part):\n            await self._put(part)",
    ),
    "test_lines.Lines.test_late": Edit(
        "host/line.py", "age > self._limits.reply * self._limits.scale", "age > self._limits.idle"
    ),
    "test_lines.Lines.test_slow_lines": Edit(
        "host/wires.py", "self.paused_at = since\n            self._wire.pause()\n", "self.paused_at = since\n"
    ),
    "test_lines.Lines.test_limits": Edit(
        "host/ports.py", "len(self._lines) < limits.lines:", "len(self._lines) <= limits.lines:"
    ),
    "test_lines.Lines.test_one_address": Edit(
        "host/ports.py", "key=lambda line: line.last_byte", "key=lambda line: -line.last_byte"
    ),
    "test_lines.Lines.test_long_frames": Edit(
        "host/line.py", "kind(frame_limit=parts.frame, ", "kind("
    ),
    "test_lines.Lines.test_peers": Edit(
        "host/wires.py", "if self._line is None:\n            transport.abort()\n", "if self._line is None:\n            pass\n"
    ),
    "test_lines.Lines.test_quarantine": Edit(
        "host/intake.py", "one.fault or _after(one, reason), changes", "_after(one, reason), changes"
    ),
    "test_lines.Lines.test_enq_behind_eot": Edit(
        "host/line.py", "            if self._closing.is_asked and self._is_through():\n                return\n", ""
    ),
    "test_lines.Lines.test_calls_of_a_text": Edit(
        "host/line.py", "RECEIVER * self._limits.scale\n", "RECEIVER * self._limits.scale * self._receiver.is_open\n"
    ),
    "test_lines.Lines.test_closed_lines": Edit(
        "host/storing.py", "        self._took_fixed = lambda key, changes: None\n", ""
    ),
    "test_lines.Lines.test_who_listens": Edit(
        "diagnosis/events.py", "self._those.get(type(event), ())", "sum(self._those.values(), [])"
    ),
    "test_lines.Lines.test_observers": Edit("diagnosis/events.py", "except Exception as error:", "except OSError as error:"),
    "test_lines.Lines.test_giving_way": Edit(
        "host/line.py", "return self._is_through() or (", "return self._is_through() and not self.inbox.pieces or ("
    ),
    "test_lines_file.LinesFile.test_enq_behind_eot": Edit(
        "host/line.py", "            if self._closing.is_asked and self._is_through():\n                return\n", ""
    ),
    "test_lines.Lines.test_stop": Edit(
        "host/line.py", "is_asked and (self._closing.is_cut or not self._is_busy())", "is_asked"
    ),
    "test_lines.Lines.test_capture": Edit(
        "host/line.py", "self._tell(Sent(reply, ", 'self._tell(Sent(b"", '
    ),
    "test_lines.Lines.test_words": Edit(
        "model/options.py",
        "if not is_loopback(one.host) and not networks and",
        "if not is_loopback(one.host) and networks and",
    ),
    "test_lines.Lines.test_written_addresses": Edit(
        "host/wires.py", "begin(self, plain_address(name[0]))", "begin(self, name[0])"
    ),
    "test_lines_file.LinesFile.test_two_hundred_lines": Edit(
        "host/ports.py", "port.place = found", "port.place = None"
    ),
    "test_lines_file.LinesFile.test_allow": Edit(
        "host/ports.py", "[*host.asked.networks, *place.allow]", "[*host.asked.networks]"
    ),
    "test_lines_file.LinesFile.test_changes": Edit("host/ports.py", "port.place = found", "port.place = port.place"),
    "test_lines_file.LinesFile.test_command": Edit(
        "cli/lines.py", "return LOOKS_WRONG if found.faults else GOOD", "return GOOD"
    ),
    "test_lines_file.LinesFile.test_faults": Edit(
        "model/lines.py", "setdefault(key, self._row)", "setdefault(key, self._row - 1)"
    ),
    "test_lines_file.LinesFile.test_reloads": Edit("host/serve.py", "if place not in now:", "if place.name:"),
    "test_lines_file.LinesFile.test_serial": Edit(
        "host/serials.py", "while not host.stopping and serial in host.asked.serials:", "while not host.stopping:"
    ),
    "test_lines_file.LinesFile.test_start": Edit("cli/lines.py", "    if twice:\n", "    if twice and not read:\n"),
    "test_load.Load.test_200_analyzers": Edit(
        "host/ports.py", "len(self._lines) < limits.lines:", "len(self._lines) < 100:"
    ),
    "test_load.Load.test_memory": Edit(
        "model/sqlite.py",
        "                self.apply(rows)\n",
        "                self.apply(rows)\n"
        '                self.__dict__.setdefault("rows", []).append((rows, bytes(1 << 17)))\n',
    ),
    "test_renamed.Renamed.test_keys": Edit("model/renamed.py", "    if old not in _REPORTED:\n", "    if True:\n"),
    "test_renamed.Renamed.test_states": Edit("model/renamed.py", 'report(f"--state {word}"', 'report(f"{word}"'),
    "test_renamed.Renamed.test_options": Edit(
        "model/renamed.py", '("send", "--ask"): "--query",', '("send", "--ask"): "--quarry",'
    ),
    "test_fixes.Fixes.test_each": Edit(
        "host/fixer.py", "for name in NAMES if name in self.names or name in more)", "for name in more)"
    ),
    "test_fixes.Fixes.test_line_feeds": Edit(
        "host/feeds.py", "(int(digits, 16) + count) % 256", "sum(body[1:].replace(_LF, _VT) + end) % 256"
    ),
    "test_fixes.Fixes.test_not_fixed": Edit(
        "host/fix.py", "gone_of_results(body, out) != _long_results(body, names) or", ""
    ),
    "test_fixes.Fixes.test_query": Edit("host/duplex.py", "feed(body[: QUERY + 1])", "feed(body[:9])"),
    "test_fixes.Fixes.test_repeats": Edit("cli/serve.py", "place.name: place.fix for", "place.name: () for"),
    "test_fixes.Fixes.test_left": Edit("host/fixers.py", 'one.body.endswith((b"\\r", b"\\n"))', "False"),
    "test_fixes.Fixes.test_order": Edit("host/storing.py", "            await self._fixer.order.over()", "            pass"),
    "test_fixes.Fixes.test_a_stop_starts_nothing": Edit("host/fixer.py", "        self._is_stopped = True\n", ""),
    "test_fixes.Fixes.test_tries_delay_nobody": Edit("host/fixer.py", 'self._run("tries", ', 'self._run("short", '),
    "test_fixes.Fixes.test_streams": Edit(
        "host/fix.py", "data[one.start : one.ends[-1]]", "data[one.start : one.ends[-1] - 1]"
    ),
    "test_fixes.Fixes.test_words": Edit(
        "model/options.py", "tuple(one for one in NAMES if one in given)", "tuple(given)"
    ),
    "test_noise.Noise.test_one_byte": Edit("host/serve.py", 'place.careful != "no"', "False"),
    "test_noise.Careful.test_enq_and_stx": Edit(
        "host/line.py", "            self._tell(Noise(self._noise - before))\n", ""
    ),
    "test_noise.Careful.test_anew": Edit("host/serve.py", 'place.careful != "no"', "True"),
    "test_noise.Careful.test_fixes": Edit("host/feeds.py", "_ENDS if is_careful else _BREAKS", "_BREAKS"),
    "test_notices.Said.test_a_bad_line": Edit(
        "diagnosis/notices.py",
        "[kind] += 1\n            return\n",
        "[kind] += 1\n",
    ),
    "test_notices.Said.test_a_host": Edit(
        "host/intake.py", "f\"{reason}, after record {one.records}, at byte {one.size}\"", "reason"
    ),
    "test_notices.Said.test_letters": Edit("letters.py", "            self._read(piece, False)\n", ""),
    "test_notices.Said.test_bad_sessions": Edit(
        "diagnosis/notices.py", "AT_ONCE, SECONDS = 10, 30.0", "AT_ONCE, SECONDS = 1000, 30.0"
    ),
    "test_notices.Said.test_frames": Edit(
        "diagnosis/events.py", "if self._rejected_at != taken:", "if taken >= 0:"
    ),
    "test_notices.Said.test_late_reply": Edit(
        "host/duplex.py", "if was_unanswered and data[:1] in _REPLIES:", "if data[:1] not in _REPLIES:"
    ),
    "test_notices.Said.test_lines_that_come_and_go": Edit(
        "diagnosis/notices.py",
        "            self._dropped[name, kind] += 1\n            self.not_said",
        "            self._dropped[name, kind] += 0\n            self.not_said",
    ),
    "test_out.Files.test_modes": Edit(
        "model/sqlite.py", "os.chmod(path, 0o600)", "os.chmod(path, 0o644)"
    ),
    "test_out.Files.test_modes_of_a_spool": Edit(
        "model/files.py",
        "os.fchmod(descriptor, _MODE)\n            yield",
        "os.fchmod(descriptor, 0o644)\n            yield",
    ),
    "test_out.Files.test_restored": Edit(
        "outbound/deliver.py",
        "if found is None or (found.number == number and found.key != key):",
        "if found is None:",
    ),
    "test_out.Files.test_no_library": Edit("cli/serve.py", "    calls()  # without", "    # without"),
    "test_out.Names.test_names": Edit("message.py", "sequence source comment_text", "sequence source text"),
    "test_out.OutOfSpool.test_delivery_to_a_command": Edit(
        "model/spool.py", 'name[0] != "."])\n        kept', 'name[0] != "."])[::-1]\n        kept'
    ),
    "test_out.OutOfSpool.test_delivery_to_a_directory": Edit(
        "model/spool.py", "self._after(after)[:limit]", "self._after(after)[-1:]"
    ),
    "test_out.OutOfSpool.test_export": Edit("model/spool.py", 'about["again_of"], body)', "None, body)"),
    "test_out.OutOfSpool.test_one_host": Edit(
        "model/spool.py", "take_lock(self._path(\"host\"))", "take_lock(self._path(f'host{os.getpid()}'))"
    ),
    "test_out.OutOfSpool.test_sending": Edit(
        "analyzer/send.py", 'how = "done" if sent.done else f"failed: {sent.why}"', 'how = "done"'
    ),
    "test_out.OutOfSpool.test_status": Edit(
        "model/spool.py", 'if about.get("again_of"))', 'if not about.get("again_of"))'
    ),
    "test_out.OutOfSpool.test_wanted": Edit("model/spool.py", 'f"{number:016}~"', 'f"{number:016}"'),
    "test_out.OutOfSqlite.test_delivery_to_a_command": Edit(
        "outbound/deliver.py", "        if status:\n", "        if status < 0:\n"
    ),
    "test_out.OutOfSqlite.test_delivery_to_a_directory": Edit(
        "outbound/deliver.py", 'take_lock(path + ".lock")', 'take_lock(f"{path}.{os.getpid()}.lock")'
    ),
    "test_out.OutOfSqlite.test_export": Edit("outbound/export.py", "([*own, *row[:-1]", "([*row[:-1], *own"),
    "test_out.OutOfSqlite.test_one_host": Edit(
        "model/files.py", "fcntl.LOCK_EX | fcntl.LOCK_NB", "fcntl.LOCK_SH | fcntl.LOCK_NB"
    ),
    "test_out.OutOfSqlite.test_sending": Edit(
        "cli/send.py", "return LOOKS_WRONG if bad or summary.failed", "return LOOKS_WRONG if summary.failed"
    ),
    "test_out.OutOfSqlite.test_status": Edit("watch/status.py", "if store.is_held(", "if state or store.is_held("),
    "test_out.OutOfSqlite.test_wanted": Edit("outbound/export.py", "at < wanted.since", "at > wanted.since"),
    "test_plainlink.PlainLink.test_keeping": Edit(
        "host/plainlink.py", "return await super()._keep(text)", "return await super()._keep(text) or True"
    ),
    "test_plainlink.PlainLink.test_receiver": Edit(
        "host/plainlink.py", "elif byte not in (_STX, _ETX, _EOT) and", "elif byte not in (_ETX, _EOT) and"
    ),
    "test_plainlink.PlainLink.test_repeats": Edit(
        "host/plainlink.py", "if text and text == self._last and", "if not text and"
    ),
    "test_plainlink.PlainLink.test_sessions": Edit(
        "host/plainlink.py", "(byte == _STX and not self.is_open)", "(byte == _STX and self.is_open is None)"
    ),
    "test_plainlink.PlainLink.test_words": Edit("model/options.py", "if place.link and place.orders:", "if not place:"),
    "test_postgres.OutOfPostgres.test_delivery_to_a_command": Edit(
        "outbound/deliver.py", '"LISLAB_NUMBER": str(one.number)', '"LISLAB_NUMBER": str(one.number + 1)'
    ),
    "test_postgres.OutOfPostgres.test_delivery_to_a_directory": Edit(
        "model/sql.py", "WHERE message = ? ORDER BY place", "WHERE message = ? ORDER BY place DESC"
    ),
    "test_postgres.OutOfPostgres.test_export": Edit(
        "model/sql.py", "(end, first.get((end.line, end.digest)), number)", "(end, None, number)"
    ),
    "test_postgres.OutOfPostgres.test_sending": Edit(
        "analyzer/send.py", 'yield f"message {number}: record', 'f"message {number}: record'
    ),
    "test_postgres.OutOfPostgres.test_status": Edit("model/sql.py", '"again_of IS NOT NULL", ', '"again_of IS NULL", '),
    "test_postgres.OutOfPostgres.test_wanted": Edit(
        "outbound/export.py", "one.line == wanted.line", "one.line != wanted.line"
    ),
    "test_postgres.Postgres.test_keeping": Edit(
        "model/postgresql.py", "yield\n            self._committed()", "yield"
    ),
    "test_postgres.Postgres.test_kills": Edit(
        "model/postgresql.py",
        "DataError, self._driver.IntegrityError)))\n"
        '            raise StoreError(f"PostgreSQL: {_first_line(error)}") from None',
        "DataError, self._driver.IntegrityError)))",
    ),
    "test_postgres.Postgres.test_later_tables": Edit(
        "model/sql.py", "        if found > SCHEMA:\n", "        if found > 99:\n"
    ),
    "test_postgres.Postgres.test_fixes": Edit("model/sql.py", "(one.key, one.state, one.reason,", '(one.key, one.state, "",'),
    "test_postgres.Postgres.test_name_of_a_killed_host": Edit(
        "model/postgresql.py", "_NAME_SECONDS = 3.0", "_NAME_SECONDS = 0.0"
    ),
    "test_postgres.Postgres.test_names": Edit(
        "model/postgresql.py", 'raise StoreError(f"another host has the name {self.host}")', "break"
    ),
    "test_postgres.Postgres.test_who_has_it": Edit(
        "model/postgresql.py", "classid = {_HOSTS}", "classid = {_NUMBERS}"
    ),
    "test_postgres.Postgres.test_open_messages_of_another_host": Edit(
        "model/postgresql.py", "return bool(self.run(\"SELECT pg_try", "return not bool(self.run(\"SELECT pg_try"
    ),
    "test_postgres.RepeatsOfPostgres.test_left_open": Edit(
        "model/sql.py", "yield one._replace(state=INCOMPLETE, reason=LEFT) if one.state == OPEN else one", "yield one"
    ),
    "test_postgres.RepeatsOfPostgres.test_each_write": Edit(
        "model/sql.py",
        "again_of IS NULL AND state = '{COMPLETE}'\"\n            first",
        "again_of IS NULL\"\n            first",
    ),
    "test_postgres.Postgres.test_start_while_another_commits": Edit(
        "model/postgresql.py", "[0][0] is not None", "[0][0] == 0"
    ),
    "test_repeats.RepeatsOfSpool.test_early_mark": Edit(
        "model/spool.py", "return None if any(map(os.path.exists, places)) else key", "return key"
    ),
    "test_repeats.RepeatsOfSpool.test_each_write": Edit(
        "model/spool.py",
        "        elif end.state == COMPLETE:\n            self._write_mark()\n",
        "        elif end.state == COMPLETE:\n",
    ),
    "test_repeats.RepeatsOfSpool.test_left_open": Edit(
        "model/spool.py", "left = [] if self.is_held() else", "left = [] if not self.is_held() else"
    ),
    "test_repeats.RepeatsOfSqlite.test_left_open": Edit(
        "model/sqlite.py",
        'which is this one."""\n        return True',
        'which is this one."""\n        return host == self.host',
    ),
    "test_repeats.RepeatsOfSpool.test_no_mark": Edit(
        "model/spool.py",
        "if one.again_of is None and self._first(mark) is None:",
        "if one.again_of is None and self._first(mark):",
    ),
    "test_repeats.RepeatsOfSqlite.test_each_write": Edit(
        "model/sql.py",
        "again_of IS NULL AND state = '{COMPLETE}'\"\n            first",
        "again_of IS NULL\"\n            first",
    ),
    "test_said.Said.test_signs_for_a_terminal": Edit("watch/status.py", "shown(row) + ", "row + "),
    "test_said.Said.test_the_password_of_a_database": Edit("model/postgresql.py", '== address.count("@") < 2', "!= 9"),
    "test_said.Said.test_a_line_goes_on": Edit("host/storing.py", "done.fail(fault)", "done.cancel()"),
    "test_said.Said.test_saying": Edit("model/said.py", "if poll.poll(0):", "if poll:"),
    "test_said.Said.test_who_waits_is_answered_first": Edit(
        "host/storing.py",
        "            for one in batch:\n                if one.done",
        '            self._say("") if fault else None\n            for one in batch:\n                if one.done',
    ),
    "test_serial.Serial.test_a_device_that_is_no_terminal": Edit(
        "host/serials.py", "self._ready is False and not self._unusable and", "self._ready is False and"
    ),
    "test_serial.Serial.test_a_host_that_stops_is_not_ready": Edit(
        "host/serials.py", "not self._unusable and not self._host.stopping:", "not self._unusable:"
    ),
    "test_serial.Serial.test_a_speed_that_is_not_taken": Edit(
        "host/tty.py", "            _check_speed(descriptor, serial)\n", ""
    ),
    "test_serial.Serial.test_a_device_that_is_gone_at_once": Edit(
        "host/serials.py", "if time.monotonic() < opened + REOPEN:", "if time.monotonic() < opened:"
    ),
    "test_serial.Serial.test_a_reply_that_is_held_up": Edit(
        "host/tty.py", "if _is_held_up(self._descriptor):", "if not _is_held_up(self._descriptor):"
    ),
    "test_serial.Serial.test_pyserial": Edit(
        "host/tty.py", "opened(serial.device, serial.speed,", "opened(serial.device,"
    ),
    "test_serial.Serial.test_termios": Edit(
        "host/tty.py", "[taken, 0, control, 0,", "[taken, 0, control, termios.ICANON,"
    ),
    "test_status.Status.test_a_state_that_cannot_be_written": Edit(
        "host/state.py", "if why and not self._why:", "if why:"
    ),
    "test_telnet.Terminals.test_connect": Edit("host/telnet.py", "option in (_BINARY, _GO_AHEAD)", "option >= 0"),
    "test_telnet.Terminals.test_cuts": Edit(
        "host/telnet.py", "self._state = 0 if byte == _SE else _SB", "self._state = 0"
    ),
    "test_telnet.Terminals.test_orders": Edit("host/telnet.py", 'rb"\\r(?!\\n)", b"\\r\\0"', 'rb"\\r(?!\\n)", b"\\r"'),
    "test_telnet.Terminals.test_without": Edit(
        "host/wires.py", "Telnet() if self._end.place.telnet else None", "Telnet()"
    ),
    "test_telnet.Terminals.test_words": Edit(
        "model/options.py",
        'if word not in ("yes", "no"):\n        raise OptionError(f"telnet',
        'if word not in ("yes", "no", "on"):\n        raise OptionError(f"telnet',
    ),
    "test_turns.Turns.test_rest": Edit("host/turns.py", "context.run(goes_on, self)", "goes_on(self)"),
    "test_turns.Turns.test_rest_that_fails": Edit(
        "host/turns.py", "if self._waits is not None and not self.done():\n            super", "if self._waits:\n            super"
    ),
    "test_turns.Turns.test_parts": Edit(
        "host/storing.py",
        "            if self._long:\n                batch.append",
        "            while self._long:\n                batch.append",
    ),
    "test_turns.Turns.test_spool": Edit(
        "host/storing.py", "if len(part) + len(changes) > self._committer.part:", "if len(part) > 60:"
    ),
    "test_turns.Turns.test_sqlite": Edit(
        "host/turns.py", "return more > HEARS or (", "return not self and ("
    ),
    "test_turns.Turns.test_who_works_now_and_then": Edit(
        "host/turns.py", "min(now - turns.charged, MOST)", "now - turns.charged"
    ),
    "test_turns.Turns.test_work_of_others": Edit(
        "host/turns.py", "= time.thread_time,", "= time.monotonic,"
    ),
    "test_turns.Turns.test_many_connections_of_a_peer": Edit(
        "host/turns.py", "turns, turns.account(peer)", "turns, Account(turns.had)"
    ),
    "test_turns.Turns.test_connections_of_a_line": Edit(
        "diagnosis/pulse.py", "if time.monotonic() - pulse.good_at < PATIENCE * pulse.scale:", "if pulse.good_at < 0:"
    ),
    "test_turns.Turns.test_room_for_texts": Edit("host/intake.py", "self._note(has is not None)", "self._note(True)"),
    "test_status.Status.test_running": Edit(
        "watch/status.py", "return not store.held_to_the_end and ", "return "
    ),
    "test_systemd.Systemd.test_journal": Edit(
        "model/said.py", "{shown(' '.join(value.splitlines()))}\\n", "{value}\\n"
    ),
    "test_systemd.Systemd.test_notify": Edit("host/systemd.py", "    while seconds:\n", "    if seconds:\n"),
    "test_systemd.Systemd.test_units": Edit(
        "cli/watch.py", 'one.add_argument("--http", metavar', 'one.add_argument("--pages", metavar'
    ),
    "test_watch.Watch.test_a_ladder_as_it_goes": Edit(
        "watch/live.py", "over = self._begun[2] if self._carry else len(self.rows)", "over = len(self.rows)"
    ),
    "test_watch.Watch.test_a_full_disk": Edit("diagnosis/pulse.py", "|file too large|", "|"),
    "test_watch.Watch.test_a_line_as_it_goes": Edit(
        "cli/watch.py", "        after = int(head[\"next\"])\n", "        after = 0\n"
    ),
    "test_watch.Watch.test_faults": Edit(
        "diagnosis/pulse.py", "verdict if isinstance(error, StoreError) else Verdict.TOO_BIG", "Verdict.STORE_GONE"
    ),
    "test_watch.Watch.test_last_bytes": Edit("diagnosis/ring.py", 'lines.append(Line("R"))', 'lines.append(Line("T"))'),
    "test_watch.Watch.test_no_reply_to_the_host": Edit("host/duplex.py", "        self._tell(OwnFailed(why))\n", ""),
    "test_watch.Watch.test_no_socket": Edit(
        "host/serve.py", 'say(f"lislab watch can\'t connect: {error}")', "raise"
    ),
    "test_watch.Watch.test_noise_is_not_bad": Edit(
        "diagnosis/pulse.py", "            if pulse.polls < EMPTY:\n", "            if pulse.polls < 2:\n"
    ),
    "test_watch.Watch.test_reasons": Edit(
        "diagnosis/pulse.py", "            raw = bytes(self._carry) + raw\n", "            pass\n"
    ),
    "test_watch.Watch.test_ring": Edit(
        "diagnosis/ring.py", "if len(held) > self._most:", "if len(held) > 2 * self._most:"
    ),
    "test_watch.Watch.test_rows": Edit(
        "cli/watch.py", "return LOOKS_WRONG if client.is_bad(data) else GOOD", "return GOOD"
    ),
    "test_watch.Watch.test_socket": Edit("model/unix.py", "os.umask(0o177)", "os.umask(0o022)"),
    "test_watch_postgres.WatchPostgres.test_the_database_is_gone": Edit(
        "diagnosis/pulse.py", "disk is full|no space left|", "disk is full|no space left|connection|server|"
    ),
    "test_watch_page.Alerts.test_alerts": Edit(
        "watch/metrics.py", '"lislab_texts_not_stored_total"', '"lislab_not_stored_total"'
    ),
    "test_watch_page.Looks.test_a_reader_of_metrics": Edit("watch/metrics.py", ".replace('\"', '\\\\\"')", ""),
    "test_watch_page.Looks.test_browser": Edit("watch/page.py", "html.escape(shown, quote=True)", "shown"),
    "test_watch_page.Looks.test_command": Edit(
        "cli/watch.py", "                notifier.see(pages.data())\n", "                pages.data()\n"
    ),
    "test_watch_page.Looks.test_hostile": Edit("watch/page.py", 'f"<{ord(one):02X}>" if _is_odd(one) else one', "one"),
    "test_watch_page.Looks.test_metrics": Edit(
        "watch/metrics.py", "            total += count\n", "            total = count\n"
    ),
    "test_watch_page.Looks.test_pages_of_a_spool": Edit(
        "model/spool.py", "in self._listed(COMPLETE)[: -AMONG - 1 : -1])", "in self._listed(COMPLETE)[-AMONG:])"
    ),
    "test_watch_page.Looks.test_notify": Edit(
        "watch/notify.py", "if before is None or (before", "if before or (before"
    ),
    "test_watch_page.Looks.test_tally": Edit(
        "watch/tally.py", "self._number = found[-1].number", "self._number = found[0].number"
    ),
    "test_watch_page.Looks.test_without_a_token": Edit(
        "watch/web.py", "if not is_wanted and path in OPEN:", "if not is_wanted:"
    ),
    "test_watch_page.Looks.test_who_may_look": Edit(
        "watch/web.py", "hmac.compare_digest(found, token.encode())", "bool(found)"
    ),
    "test_watch_page.Looks.test_slow_readers": Edit("watch/web.py", "            if slow is not None:", "            if not among:"),
    "test_watch_page.Looks.test_a_token_that_is_made": Edit(
        "watch/web.py", "secrets.token_urlsafe(24).encode() + b", "secrets.token_urlsafe(9).encode() + b"
    ),
    "test_watch_page.Looks.test_delivered": Edit("outbound/deliver.py", '"key": key, "took": took}', '"key": key}'),
    "test_watch_page.Looks.test_words": Edit("cli/watch.py", "not (ask.allow and token)", "not (ask.allow or token)"),
}
for one in (planted_delivery, planted_orders, planted_watch):
    FAULTS.update({name: Edit(*edit) for name, edit in one.FAULTS.items()})
#: Changes that mean nothing.
HARMLESS = (
    Edit(
        "host/storing.py",
        "            if is_again:\n                return False\n            self.failed += 1\n",
        "            if is_again:\n                return fault is None\n            self.failed = self.failed + 1\n",
    ),
    Edit(
        "host/wires.py",
        "        self.pieces.append((arrived, data))\n        self._size += len(data)\n",
        "        self._size += len(data)\n        self.pieces.append((arrived, data))\n",
    ),
    Edit(
        "host/intake.py",
        "        one.places += 1\n        one.size += len(body)\n        one.digest.update(body)\n",
        "        one.digest.update(body)\n        one.size += len(body)\n        one.places += 1\n",
    ),
    Edit("host/ports.py", "            host.refused += 1\n", "            host.refused = 1 + host.refused\n"),
    Edit(
        "diagnosis/events.py",
        'self._rejected, self._why, self._rejected_at = 0, "", -1\n\n    def _without',
        'self._rejected, self._rejected_at, self._why = 0, -1, ""\n\n    def _without',
    ),
    Edit("host/storing.py", "if len(part) + len(changes) > self", "if len(changes) + len(part) > self"),
    Edit("model/spool.py", "any(map(os.path.exists, places))", "list(filter(os.path.exists, places))"),
    Edit("model/said.py", "(OSError, ValueError, AttributeError):", "(AttributeError, OSError, ValueError):"),
    Edit("analyzer/send.py", "            tried += 1\n", "            tried = 1 + tried\n"),
    Edit("host/tty.py", "VMIN], letters[termios.VTIME] = 1, 0", "VTIME], letters[termios.VMIN] = 0, 1"),
    Edit(
        "model/sqlite.py",
        "isolation_level=None, check_same_thread=False",
        "check_same_thread=False, isolation_level=None",
    ),
    Edit("model/files.py", "        self.size += len(data)\n", "        self.size = len(data) + self.size\n"),
    Edit(
        "model/postgresql.py",
        "        db, self._db = self._db, None\n",
        "        db = self._db\n        self._db = None\n",
    ),
    Edit(
        "model/sql.py",
        "        if not ends:\n            return\n        self.lock",
        "        if len(ends) == 0:\n            return\n        self.lock",
    ),
    Edit("outbound/deliver.py", "        elif not found:\n", "        elif found == 0:\n"),
    Edit("outbound/quarantine.py", "sorted([*others, row])", "sorted([row, *others])"),
    Edit(
        "model/numbers.py",
        'turned.get(one.comparator, "") if factor < 0 else one.comparator',
        'one.comparator if factor > 0 else turned.get(one.comparator, "")',
    ),
    Edit("outbound/mllp.py", "if len(self._left) > _MOST:", "if _MOST < len(self._left):"),
    Edit("outbound/fhir.py", "for name, one in data.items()) +", "for name, one in [*data.items()]) +"),
    Edit(
        "outbound/export.py",
        "        if one is None:\n            return line(None)",
        "        if one is None:  # the heading\n            return line(None)",
    ),
    Edit(
        "watch/status.py", 'counts = ("line", "complete", "again",', 'counts = ("line", "again", "complete",'
    ),
    Edit(
        "diagnosis/pulse.py",
        "        self.verdict, self.since, self.count = verdict, time.time(), 0\n",
        "        self.verdict, self.count, self.since = verdict, 0, time.time()\n",
    ),
    Edit("diagnosis/ring.py", "        self.next += 1\n", "        self.next = 1 + self.next\n"),
    Edit("model/options.py", "return found[1] or found[2] or", "return found[2] or found[1] or"),
    Edit(
        "host/fixer.py",
        "        names = self.names if one.is_over else self.names - MAKES_AN_END\n",
        "        names = self.names - (frozenset() if one.is_over else MAKES_AN_END)\n",
    ),
    Edit(
        "host/telnet.py",
        "        self._state = byte if byte in _ANSWERS or byte == _SB else 0\n",
        "        self._state = byte if byte == _SB or byte in _ANSWERS else 0\n",
    ),
    Edit("host/plainlink.py", "        self._last = text\n", "        self._last = bytes(text)\n"),
    Edit("host/feeds.py", "    count = body.count(_LF)\n", "    count = len(body.split(_LF)) - 1\n"),
    Edit("model/lines.py", "for key in _WHERE if key in given]", "for key in _WHERE if given.get(key) is not None]"),
    Edit("outbound/tables.py", "            if paths == self._paths:\n", "            if self._paths == paths:\n"),
    Edit("host/unknown.py", "if pair in found or len(found) < MOST else", "if len(found) < MOST or pair in found else"),
    Edit("field/compare.py", "    rest = iter(seen)\n", "    rest = iter(list(seen))\n"),
)


def found(wanted=()):
    """The tests of the host, or those whose names have one of these words."""
    files = sorted(os.path.basename(path)[:-3] for path in glob.glob(os.path.join(HERE, "test_*.py")))
    suite = unittest.defaultTestLoader.loadTestsFromNames([f"tests.host.{name}" for name in files])
    return [one for one in _flat(suite) if not wanted or any(word in one.id() for word in wanted)]


def _flat(suite):
    for one in suite:
        if isinstance(one, unittest.TestSuite):
            yield from _flat(one)
        else:
            yield one


def name_of(test):
    """The name of a test in the table."""
    return test.id().removeprefix("tests.host.")


def path_of(edit, source):
    """The file of an edit, in one of these folders."""
    package = "lislab" if "/" in edit.file else "lislink"
    return next(path for path in (f"{it}/{package}/{edit.file}" for it in source.split(os.pathsep)) if os.path.exists(path))


def plant(edit, source):
    """Makes an edit in a copy of the source."""
    path = path_of(edit, source)
    with open(path, encoding="utf-8") as file:
        text = file.read()
    assert text.count(edit.old) == 1, f"{edit.file}: {edit.old!r} is there {text.count(edit.old)} times"
    with open(path, "w", encoding="utf-8") as file:
        file.write(text.replace(edit.old, edit.new))


def tried(edits, tests):
    """What the tests say of a host with these edits: the exit status, and the lines."""
    with tempfile.TemporaryDirectory(prefix="lis-planted-") as folder:
        source = os.path.join(folder, "src")
        for one in SOURCE.split(os.pathsep):
            shutil.copytree(one, source, ignore=shutil.ignore_patterns("__pycache__"), dirs_exist_ok=True)
        for edit in edits:
            plant(edit, source)
        words = [os.path.join(HERE, "more"), *tests]
        done = subprocess.run(
            [sys.executable, *words],
            env={**os.environ, "LISLAB_SOURCE": source},
            stdout=subprocess.PIPE,
            stderr=subprocess.STDOUT,
            text=True,
            check=False,
        )
    return done.returncode, done.stdout.splitlines()


def run(words):
    """Tries the faults of the tests whose names have one of these words, and then the harmless changes: the status."""
    wanted = [name for name in FAULTS if not words or any(word in name for word in words)]
    passed = failed = 0
    for name in wanted:
        status, rows = tried([FAULTS[name]], [name])
        failing = [row for row in rows if row.startswith(f"FAILED: {name.replace('test_', 'host/', 1)}")]
        skipped = any(row.startswith("skipped: ") for row in rows)
        good = status == 1 and bool(failing)
        word = "noticed" if good else "skipped" if skipped else "NOT NOTICED"
        print(f"{word}: {name}: {(failing or rows or ['nothing'])[0][:200]}", flush=True)
        passed, failed = passed + good, failed + (not good and not skipped)
    status, rows = tried(HARMLESS, wanted)
    for row in rows:
        if row.startswith(("FAILED", "skipped", "host: ")):
            print(f"harmless changes: {row}")
    passed, failed = passed + (status == 0), failed + (status != 0)
    print(f"host: {passed} passed, {failed} failed")
    return 1 if failed else 0
