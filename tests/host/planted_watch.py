"""Faults in what shows how a host does (`planted.py`): in this file of lislink, this text becomes that."""

FAULTS = {
    "test_deliveries.Deliveries.test_rows": ("outbound/deliver.py", "            notes.failed(failed)\n", ""),
    "test_deliveries.Deliveries.test_another_store": (
        "watch/deliveries.py", "(StoreError, WrongStore, OSError)", "(StoreError, OSError)"
    ),
    "test_deliveries.Deliveries.test_shown": ("watch/client.py", '*data["deliveries"].values()]\n    return', "]\n    return"),
    "test_deliveries.Deliveries.test_days": (
        "watch/plot.py",
        "time.mktime((today - datetime.timedelta(back)).timetuple())",
        "now - now % 86400 - back * 86400",
    ),
    "test_deliveries.Deliveries.test_plot": (
        "watch/plot.py", "is_last = place + 1 == len(shown)", "is_last = place + every >= len(shown)"
    ),
    "test_watch.Watch.test_begun": ("diagnosis/board.py", "            one.begun = self._begun", "            pass"),
    "test_queries.Queries.test_nothing_found": (
        "diagnosis/pulse.py", '            pulse.right("queries")\n', "            pass\n"
    ),
    "test_failed.NamedOfSqlite.test_named": ("diagnosis/pulse.py", "return failed or found", "return found"),
    "test_failed.NamedOfSpool.test_named": ("watch/client.py", "book.failed(1)", "{}"),
    "test_failed.NamedOfPostgres.test_named": (
        "order.py", "error.object[error.start]!r}", "error.object[error.start : error.end]!r}"
    ),
    "test_failed.Ways.test_ways": ("host/outbox.py", "        if mark != self._failed:", "        if not mark:"),
    "test_failed.Ways.test_many": (
        "watch/status.py", 'found["count"] - len(found["newest"])', 'found["count"] - NAMED'
    ),
    "test_failed.Ways.test_notify": (
        "watch/notify.py", "                self._bad[name] = one", "                self._bad[name] = before or one"
    ),
    "test_failed.Ways.test_pages": (
        "watch/page.py", "one.tries, safe(one.reason)", "one.tries, one.reason"
    ),
    "test_failed.Ways.test_help": ("cli/order.py", "epilog = _STATES if", "epilog = None if"),
    "test_failed.Ways.test_queries": (
        "watch/status.py", 'for one in ("connected", "queries",', 'for one in ("connected", "complete",'
    ),
    "test_names.Names.test_watch": ("diagnosis/board.py", "    look()  # a line", "    pass  # a line"),
    "test_names.Names.test_page": ("watch/web.py", "page.no_line_page(lines)", "page.no_line_page([])"),
    "test_names.Names.test_export": ("cli/export.py", "if is_named or ask.line in names:", "if is_named or names:"),
    "test_advice.Advice.test_advice": ("diagnosis/verdicts.py", "count >= _SURE", "count >= 1"),
    "test_advice.Advice.test_sums": ("diagnosis/pulse.py", "self.ways & cause.ways if self.sums else", ""),
    "test_systemd.Systemd.test_image": (
        "cli/status.py", 'return GOOD if data["running"] and', 'return GOOD if data["lines"] is not None and'
    ),
    "test_orders.SqliteBooks.test_failed": (
        "model/book.py", "asked = line if state == FAILED else asked", "asked = asked"
    ),
    "test_orders.SpoolBooks.test_failed": (
        "model/book.py", "ORDER BY changed DESC, number DESC) AS", "ORDER BY changed, number DESC) AS"
    ),
    "test_orders_postgres.PostgresBooks.test_failed": (
        "model/book.py", "min(changed) {part})", "max(changed) {part})"
    ),
}
