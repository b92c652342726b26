"""Faults in what sends orders (`planted.py`): in this file of lislink, this text becomes that."""

FAULTS = {
    "test_order_files.Files.test_files": ("order.py", "elif len(row) > len(names):", "elif len(row) > len(names) + 9:"),
    "test_order_files.Files.test_records": (
        "order.py", "*after] for test in order.tests],", "*after] for test in order.tests[:1]],"
    ),
    "test_order_files.Files.test_nothing": ("order.py", 'fields[11] = b"X"', 'fields[10] = b"X"'),
    "test_order_files.Files.test_queries": ("model/query.py", '_CANCELS = "AX"', '_CANCELS = "A"'),
    "test_orders.SqliteBooks.test_states": (
        "model/book.py", "state = FAILED if 0 < most <= tries", "state = FAILED if 0 < most < tries"
    ),
    "test_orders.SqliteBooks.test_two_hosts": (
        "model/book.py", "return f\"(holder = ''{left})\"", "return f\"(1 = 1{left})\""
    ),
    "test_orders.SqliteBooks.test_given_back": (
        "model/book.py", "held = f\"holder = ? AND", "held = f\"holder <> ? AND"
    ),
    "test_order_files.Files.test_dates": ("model/book.py", "over <= self.until", "over < self.until"),
    "test_orders.SpoolBooks.test_states": ("model/book.py", "mine += at == own", "mine += 1"),
    "test_order_files.Files.test_more": ("order.py", "[rack, position] if position else rack", "[position, rack]"),
    "test_order_files.Files.test_ranges": ("model/book.py", "int(self.first) <= int(sample)", "self.first <= sample"),
    "test_orders.SpoolBooks.test_two_hosts": (
        "model/book.py", "return f\"(holder = ''{left})\"", "return f\"(1 = 1{left})\""
    ),
    "test_orders.SpoolBooks.test_given_back": (
        "model/book.py", "held = f\"holder = ? AND", "held = f\"holder <> ? AND"
    ),
    "test_orders.SpoolBooks.test_files": (
        "model/folder.py", "WHERE file = ?\", (file,)).fetchone():", "WHERE file = ?\", (path,)).fetchone():"
    ),
    "test_orders.Answers.test_spool": (
        "model/folder.py", "said.append(self._take_file(name))", "said.append(name)"
    ),
    "test_orders.SqliteBooks.test_two_connections_of_one_process": (
        "model/sqlite.py",
        "with contextlib.suppress(FileExistsError):\n        os.close(os.open(path, os.O_RDWR | os.O_CREAT | os.O_EXCL",
        "if path:\n        os.close(os.open(path, os.O_RDWR | os.O_CREAT",
    ),
    "test_orders.Commands.test_commands": (
        "cli/order.py", "if good and (ask.some or not rejected):", "if good:"
    ),
    "test_orders.Answers.test_query": ("host/duplex.py", "self._outbox.sent(self._site, batch)", "self._outbox.stop"),
    "test_orders.Answers.test_ways_to_say_nothing": (
        "order.py", 'if way == "Q-X":', 'if way == "Q":'
    ),
    "test_orders.Answers.test_an_order_that_cannot_be_written": (
        "host/outbox.py", "if batch is None and queries and", "if batch and queries and"
    ),
    "test_orders.Answers.test_worklists": (
        "host/duplex.py", "if asked == self._site.place or (self._site.unasked and", "if asked == self._site.place or (not"
    ),
    "test_orders.Answers.test_command": (
        "host/program.py", "if transport.get_returncode():", "if transport.get_returncode() == 9:"
    ),
    "test_orders.Answers.test_a_command_whose_child_hangs": (
        "host/program.py", "os.killpg(transport.get_pid(), signal.SIGKILL)", "transport.kill()"
    ),
    "test_orders.Answers.test_commands_at_once": (
        "host/outbox.py", "asyncio.Semaphore(AT_ONCE)", "asyncio.Semaphore(99)"
    ),
    "test_orders.Answers.test_contention": (
        "host/duplex.py",
        "            self._give_up_at(self._contended)\n",
        "            self._station.give_up()\n",
    ),
    "test_orders.Answers.test_a_busy_analyzer": (
        "host/duplex.py", "scale = self._station.seconds, self", "scale = self._station.seconds and 1, self"
    ),
    "test_orders.Answers.test_a_line_that_is_pulled": (
        "host/duplex.py",
        '            self._over_in_vain("the line was closed")\n',
        "            self._outbox.sent(self._site, self._sending)\n",
    ),
    "test_orders.Answers.test_a_host_that_dies": ("host/outbox.py", 'self._say_left(book.left, "this host")', "pass"),
    "test_orders.Desks.test_marks_come_first": (
        "host/outbox.py", "(self._first if first else self._others)", "self._others"
    ),
    "test_orders.Answers.test_asked_before_the_line_went": (
        "host/outbox.py", "self._work.begin(self._until_kept(self._book.leave, site.seat))", "pass"
    ),
    "test_orders.Answers.test_a_query_that_is_taken_back": (
        "host/duplex.py", "            back.append(self._sending)\n            self._sending = None", "            pass"
    ),
    "test_queries.Queries.test_another_connection": ("host/outbox.py", "if place and placed else []", "if place else []"),
    "test_queries.Queries.test_beside_of_several": (
        "host/outbox.py", "return Batch(texts, now, queries)", "return Batch(texts, now)"
    ),
    "test_queries.Queries.test_left_in_the_end": (
        "host/outbox.py",
        "be marked: {error}\")\n                await asyncio.sleep(1.0)",
        "be marked: {error}\")\n                return",
    ),
    "test_orders.Answers.test_one_command_of_a_connection": (
        "host/duplex.py", "async with self._look_ups:", "async with asyncio.Lock():"
    ),
    "test_queries.Queries.test_taken_back_by_one": ("model/book.py", "substr(seat, 1, ?) <> ?", "substr(seat, 1, ?) = ?"),
    "test_queries.Queries.test_an_answer_of_another": ("host/outbox.py", "int(seat) < int(site.seat)", "seat"),
    "test_queries.Queries.test_makers": ("model/query.py", "if component:", "if not component:"),
    "test_queries.Queries.test_plays": (
        "host/serve.py", 'int(place.test.split("^")[0] or 4)', "4"
    ),
    "test_queries.Queries.test_an_unread_barcode": (
        "model/query.py", 'return Query(row, Wanted(tuple(named)), cancels)',
        'return Query(row, Wanted(tuple(named), everything=not named), cancels)',
    ),
    "test_queries.Queries.test_an_answer_is_whole": ("host/outbox.py", "ASKED if place else MOST", "MOST"),
    "test_queries.Queries.test_done": ("host/duplex.py", "self._outbox.came(self._site, sample, tests)", "pass"),
    "test_queries.Queries.test_codes": ("host/outbox.py", "codes.get(test, test) for test", "test for test"),
    "test_queries.Queries.test_a_store_that_gives_no_answer": (
        "host/outbox.py", "Batch(failure() if is_any else nothing_of(", "Batch(nothing_of("
    ),
    "test_queries.Queries.test_two_analyzers": ("host/outbox.py", "if not found.others or not left:", "if found or not left:"),
    "test_queries.Queries.test_an_answer_waits": (
        "host/outbox.py", "self._kept[site.place, site.seat] = batch, time.monotonic()", "self._lots.clear()"
    ),
    "test_queries.Queries.test_a_monitor": (
        "host/duplex.py", "self._sending is not None and self._has_heard and", "self._sending is not None and"
    ),
    "test_queries.Queries.test_a_rejected_order": ("host/outbox.py", "if is_rejected and len(", "if not is_rejected and len("),
    "test_queries.Queries.test_a_command_of_a_line": (
        "host/outbox.py", "site.asks.command or self._command,", "self._command,"
    ),
    "test_queries.Queries.test_hl7": ("order.py", 're.match(rb"MSH.", text)', 're.match(rb"FHS.", text)'),
    "test_queries.Queries.test_settings": ("model/asks.py", "O\\.([34])", "O\\.([345])"),
    "test_orders.OnSerial.test_a_new_host": ("host/duplex.py", "if not self._wire.is_tcp:", "if self._wire.is_tcp:"),
    "test_orders.Unheard.test_long_text": ("host/intake.py", "PIECE, FIRST = 1024, 1 << 16", "PIECE, FIRST = 1 << 20, 1 << 16"),
    "test_orders.Unheard.test_heard_first": ("host/duplex.py", "if self.inbox.pieces:", "if self._inbox.pieces is None:"),
    "test_orders.Answers.test_last_try": (
        "host/outbox.py", "self._in_vain(site, batch.placed, why, self._tries)", "self._in_vain(site, batch.placed, why, 0)"
    ),
    "test_orders.Answers.test_a_whole_round": (
        "analyzer/asker.py", "(one for one in tests if one in known)", "(one for one in tests if one not in known)"
    ),
    "test_order_kills.Fire.test_kills": (
        "host/duplex.py", "        self._sending, self._phase = batch, self._station.phase\n",
        "        self._sending, self._phase = batch, self._station.phase\n        self._outbox.sent(self._site, batch)\n",
    ),
    "test_order_kills.Fire.test_late_and_noisy": (
        "host/duplex.py", "if outcome is Outcome.DONE:", "if outcome is not Outcome.NONE:"
    ),
    "test_order_kills.Fire.test_fifty_lines": (
        "model/book.py", "AND seat IN ('', ?) AND", "AND (seat IN ('', ?) OR 1 = 1) AND"
    ),
    **{
        f"{books}.{test}": fault
        for books in ("test_orders.SqliteBooks", "test_orders.SpoolBooks", "test_orders_postgres.PostgresBooks")
        for test, fault in {
            "test_asked_again_on_a_new_connection": (
                "model/book.py", 'seated = self._seat(seat) if place else ""', 'seated = ""'
            ),
            "test_taken_over": ("model/book.py", "self._set(\"changed = ?\", (self._clock(),), numbers)", "pass"),
            "test_asked_again": ("model/book.py", "if now >= set(wanted) else 0.0", "if now else 0.0"),
            "test_rows_of_other_programs": (
                "model/book.py",
                "        if state == WAITING:\n            state, reason = FAILED",
                "        if state == SENT:\n            state, reason = FAILED",
            ),
            "test_lots": ("model/book.py", "list(itertools.islice(left, LOT))", "list(left)"),
            "test_an_earlier_store": ("model/sql.py", "if name not in known:", "if name in ():"),
        }.items()
    },
    "test_orders_postgres.PostgresBooks.test_states": (
        "model/book.py", "state = FAILED if 0 < most <= tries", "state = FAILED if 0 < most < tries"
    ),
    "test_orders_postgres.PostgresBooks.test_two_hosts": (
        "model/book.py", "return f\"(holder = ''{left})\"", "return f\"(1 = 1{left})\""
    ),
    "test_orders_postgres.PostgresBooks.test_given_back": (
        "model/book.py", "held = f\"holder = ? AND", "held = f\"holder <> ? AND"
    ),
    "test_orders_postgres.PostgresBooks.test_two_hosts_are_killed": (
        "host/duplex.py", "        self._sending, self._phase = batch, self._station.phase\n",
        "        self._sending, self._phase = batch, self._station.phase\n        self._outbox.sent(self._site, batch)\n",
    ),
}
