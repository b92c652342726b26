"""Faults in what brings messages out of a store (`planted.py`): in this file of lislink, this text becomes that."""

FAULTS = {
    "test_quarantine.Quarantines.test_quarantine": (
        "outbound/quarantine.py", "or self._tries < self.most:", "or self._tries <= self.most:"
    ),
    "test_quarantine.Quarantines.test_quarantine_of_a_spool": (
        "outbound/deliver.py", "self._to.store.messages(held.number - 1, 1)", "self._to.store.messages(held.number, 1)"
    ),
    "test_quarantine.Quarantines.test_again_of_one_that_runs": (
        "outbound/deliver.py", "            grant(self._cursor.path, key)\n", ""
    ),
    "test_quarantine.Quarantines.test_each_write": (
        "outbound/deliver.py",
        "            if self._to.wants(one) and not self._waits(one):\n"
        "                self._next(one)\n            self._note(one)\n",
        "            self._note(one)\n            if not self._waits(one):\n                self._next(one)\n",
    ),
    "test_quarantine.Quarantines.test_random": (
        "outbound/deliver.py",
        "                blocked |= set(held.samples)\n                continue\n            try",
        "                continue\n            try",
    ),
    "test_quarantine.Quarantines.test_what_is_not_counted": (
        "outbound/deliver.py",
        "raise Unreachable(str(error)) from None\n    try:",
        "raise Refused(str(error)) from None\n    try:",
    ),
    "test_quarantine.Cursors.test_quarantine_that_cannot_be_written": (
        "outbound/deliver.py", "                if held.key not in self._sent:\n    ", "                if held:\n    "
    ),
    "test_quarantine.Cursors.test_damaged": (
        "outbound/quarantine.py",
        "    except (OSError, ValueError) as error:\n        raise StoreError(f\"{path}: {error}\") from None",
        "    except (OSError, ValueError):\n        return {}",
    ),
    "test_quarantine.Cursors.test_version_before": (
        "outbound/quarantine.py", "which = earlier if not", "which = path if not"
    ),
    "test_quarantine.Cursors.test_once": (
        "outbound/deliver.py",
        "            if once:\n                raise\n            failed = str(error)",
        "            failed = str(error)",
    ),
    "test_quarantine.Cursors.test_service": (
        "outbound/deliver.py",
        "        if self._unnoted is not None:\n            self._note(self._unnoted)\n",
        "",
    ),
    "test_habits.Habits.test_forms": ("model/results.py", "if len(parts) == 4 else", "if len(parts) > 3 else"),
    "test_codes.Codes.test_any_message": (
        "model/results.py", "if one.results or", "if one.results[1:] or"
    ),
    "test_codes.Codes.test_command": (
        "model/codes.py", "found[name] = found.get(name, 0) + 1", "found[name] = 1"
    ),
    "test_codes.Codes.test_forms": ("outbound/export.py", "lambda where: mark_of(where[3])", 'lambda where: ""'),
    "test_codes.Table.test_encoding": (
        "model/codes.py", "escape + names[data] + escape if data in names else data", "data"
    ),
    "test_codes.Table.test_faults": (
        "model/codes.py", 'if factor != _ONE and not given.get("unit"):', 'if factor > 9 and not given.get("unit"):'
    ),
    "test_codes.Table.test_random": (
        "model/numbers.py",
        "_EXACT.multiply(one.value, factor)",
        "decimal.Decimal(str(float(one.value) * float(factor)))",
    ),
    "test_codes.Table.test_ranges": (
        "model/codes.py", "row.written(6) + (b\" \" + row.written(5)).rstrip()", "row.written(6)"
    ),
    "test_codes.Table.test_values": ("model/codes.py", "and unit == code.unit:", "and not unit:"),
    "test_codes.Table.test_which_row": (
        "model/codes.py",
        'for where in (line, "") if line',
        'for where in ("", line) if line',
    ),
    "test_fhir.Fhir.test_fields": ("outbound/fhir.py", 'return f"{data:f}"', "return str(float(data))"),
    "test_dialects.Dialects.test_links": (
        "host/fix.py", "if not names & _AT_THE_END or _messages", "if names & _AT_THE_END or _messages"
    ),
    "test_dialects.Dialects.test_records": (
        "host/fix.py", "are_comments or not normalize(body, set(names))[0]", "are_comments"
    ),
    "test_fhir_server.OnServer.test_random": (
        "outbound/fhir.py", 'result.status == "C" and self._told.one.again_of is None', 'result.status == "C"'
    ),
    "test_fhir.Fhir.test_statuses": ("outbound/fhir.py", 'usual or "registered"', 'usual or "final"'),
    "test_fhir.Fhir.test_structure": (
        "outbound/fhir.py", '_STATUS.get(result.status, "unknown")', "_STATUS.get(result.status, result.status)"
    ),
    "test_fhir.Fhir.test_searches": ("outbound/fhir.py", "[\\\\$,|]", "[\\\\$|]"),
    "test_fhir.Https.test_answers": ("outbound/https.py", "422, 500)", "422, 500, 503)"),
    "test_fhir.Https.test_certificate": (
        "outbound/https.py",
        "return ssl.create_default_context(cafile=authority)",
        "return ssl._create_unverified_context()",
    ),
    "test_fhir.Https.test_mllps": (
        "outbound/mllp.py", "            if self._context is not None:\n", "            if self._context is None:\n"
    ),
    "test_fhir.Https.test_posts": ("outbound/https.py", '"X-Request-ID": key', '"X-Request-ID": kind'),
    "test_fhir.Https.test_words": ("outbound/https.py", "or parts.username or", "or"),
    "test_line_codes.LineCodes.test_a_delivery": (
        "cli/deliver.py", "form_asked(ask, form, say)", "form_asked(ask, form)"
    ),
    "test_line_codes.LineCodes.test_applied": (
        "outbound/tables.py",
        "self._read.lines.get(one.line, self._read.others)",
        "self._read.others or self._read.lines.get(one.line)",
    ),
    "test_line_codes.LineCodes.test_as_delivered": (
        "host/unknown.py", "Entry(row, 0, encoding)", 'Entry(row, 0, "latin-1")'
    ),
    "test_line_codes.LineCodes.test_faults": (
        "model/lines.py",
        "            self._faults += [(row, fault) for fault in self._tables[path].faults]\n",
        "        self._faults += [(row, fault) for fault in self._tables[path].faults]\n",
    ),
    "test_line_codes.LineCodes.test_many": (
        "host/unknown.py", "pair if pair in found or len(found) < MOST else _OTHERS", "pair"
    ),
    "test_line_codes.LineCodes.test_read_again": (
        "outbound/tables.py", "            if paths == self._paths:\n                break\n", "            break\n"
    ),
    "test_line_codes.LineCodes.test_said": (
        "host/serve.py",
        "if one.take(asked.tables.get(name))]",
        "if one.table is None and one.take(asked.tables.get(name))]",
    ),
    "test_fixes.Fixes.test_limits": ("host/fixer.py", "<= MOST_RECORDS", "<= 2 * MOST_RECORDS"),
    "test_fixes.Fixes.test_long_records": (
        "field/normalize.py", '(b"R", b"C", b"M", b"S") and', '(b"R", b"C", b"M") and'
    ),
    "test_fixes.Fixes.test_long_parts": ("field/compare.py", "in _pieces(text)) == 1", "in _pieces(text)) >= 1"),
    "test_fixes.Fixes.test_long_query": (
        "host/fixer.py", "if is_small and (names or has_long(one.body)) else", "if is_small and names else"
    ),
    "test_fixes.Fixes.test_long_random": (
        "field/normalize.py", 'is_of_one or letter == b"R"', 'is_of_one or letter in (b"R", b"C", b"M", b"S")'
    ),
    "test_mllp.Oru.test_fields": ("outbound/oru.py", "{control_id(one.key, case.place)}", "{one.line}"),
    "test_mllp.Oru.test_page": (
        "outbound/oru.py", '"", _report(order, results), ""]', '_report(order, results), "", ""]'
    ),
    "test_mllp.Oru.test_random": ("outbound/oru.py", 'r"[|^~\\\\&', 'r"[|^~\\\\'),
    "test_mllp.Oru.test_values": (
        "outbound/oru.py", 'return "SN", f"{number.', 'return "NM", f"{number.'
    ),
    "test_mllp.Receivers.test_ahead": ("outbound/mllp.py", "            meanwhile()\n", ""),
    "test_mllp.Receivers.test_ahead_of_what": (
        "outbound/ahead.py", "        except (Refused, StoreError", "        except (StoreError"
    ),
    "test_mllp.Receivers.test_answers": (
        "outbound/mllp.py", "            if control != key:\n", "            if not control:\n"
    ),
    "test_mllp.Receivers.test_closed_between": (
        "outbound/mllp.py", "            if fresh:\n", "            if key:\n"
    ),
    "test_mllp.Receivers.test_kills": (
        "outbound/mllp.py", "            if fresh:\n", "            return\n            if fresh:\n"
    ),
    "test_mllp.Receivers.test_rejected": ("outbound/mllp.py", '("AA", "CA"), ("AE",', '("AA", "CA", "AR"), ("AE",'),
    "test_codes.Table.test_patterns": (
        "model/codes.py", "(-len(one.named()), not one.sent)", "(len(one.named()), not one.sent)"
    ),
    "test_codes.Table.test_work": (
        "model/results.py",
        "return [_filled(parts, entry.encoding) for parts in entry.row.field(field)]",
        "return [_filled(entry.row.field(field)[at], entry.encoding) for at in range(len(entry.row.field(field)))]",
    ),
    "test_codes.Table.test_digits": (
        "model/numbers.py",
        "_EXACT.quantize(one.value, decimal.Decimal(1).scaleb(-digits))",
        "one.value.quantize(decimal.Decimal(1).scaleb(-digits), decimal.ROUND_HALF_UP)",
    ),
    "test_fhir.Fhir.test_names": (
        "outbound/fhir.py", "_search(_OF_TEST, test) if is_correction else name.search", "name.search"
    ),
    "test_fhir.Fhir.test_without_times": (
        "outbound/fhir.py", "if not any(map(has_clock, times)):", "if any(map(has_clock, times)):"
    ),
    "test_fhir.Fhir.test_reports": (
        "outbound/fhir.py", "self._also(name, of, is_correction)", "self._also(name, of, False)"
    ),
    "test_fhir.Fhir.test_resources": ("outbound/fhir.py", '_REPORT = {"X": "cancelled"', '_REPORT = {"X": "final"'),
    "test_fhir.Fhir.test_wrong_structure": (
        "outbound/fhir.py", '"intent": "order",', '"intent": "ordered",'
    ),
    "test_fhir.Fhir.test_marks": ("outbound/fhir.py", "taken or told.iso(result.at)", "told.iso(result.at) or taken"),
    "test_fhir.Fhir.test_nobody": (
        "outbound/fhir.py", 'if subject is None or "display" in subject:', "if not case.orders:"
    ),
    "test_fhir.Fhir.test_samples": (
        "outbound/fhir.py", '"Q" if order.control else "", record.text(8)', "record.text(8)"
    ),
    "test_fhir.Fhir.test_identities": (
        "outbound/fhir.py", "authority = one.authority or authority", "authority = authority or one.authority"
    ),
    "test_mllp.Oru.test_identities": (
        "model/results.py", " and not (check or scheme or any(others))", ""
    ),
    "test_mllp.Oru.test_obr": ("outbound/oru.py", "if number != 5)", "if number < 5)"),
    "test_mllp.Oru.test_tables": (
        "outbound/oru.py", "{result.nature if result.nature in _NATURES else ''}", "{result.nature}"
    ),
    "test_mllp.Oru.test_numbers": (
        "outbound/oru.py", "order.sample if wishes.placer == \"sample\" else \"\"", "order.sample"
    ),
    "test_mllp.Oru.test_specimens": (
        "outbound/oru.py", "return _SPECIMENS.get(text.upper(), \"\"), text", "return _SPECIMENS.get(text, \"\"), text"
    ),
    "test_mllp.Oru.test_ids": ("outbound/oru.py", "* 128 + place - 1", "* 64 + place - 1"),
    "test_mllp.Oru.test_codes": (
        "outbound/oru.py", 'f"{ucum}^{unit}^UCUM" if ucum', "unit if ucum"
    ),
    "test_mllp.Oru.test_times": ("outbound/oru.py", "priority, taken or told.at(first))", "priority, taken)"),
    "test_mllp.Oru.test_wishes": (
        "outbound/oru.py", "one.authority or authority, one.kind or kind]", "one.authority, one.kind]"
    ),
    "test_mllp.Receivers.test_died_silently": (
        "outbound/mllp.py", 'raise _Closed(f"no answer', 'raise Refused(f"no answer'
    ),
    "test_mllp.Receivers.test_each_patient": ("outbound/mllp.py", "if data not in accepted:", "if data:"),
    "test_told.AsTold.test_oru": (
        "outbound/oru.py",
        '    yield f"{to}|',
        '    if place == 1:\n        yield f"{to}|',
    ),
    "test_told.AsTold.test_fhir": ("model/results.py", "yield Case(None, controls", "yield Case(above, controls"),
    "test_told.AsTold.test_csv": ("model/results.py", "int(component or 1) - 1", "0"),
    "test_makers.Makers.test_oru": ("outbound/oru.py", "{told.at(result.at)}", "{result.at}"),
    "test_makers.Makers.test_codes": ("cli/codes.py", "lines.reading(line).test", '""'),
    "test_makers.Makers.test_csv": ("model/results.py", "    if len(filled) == 1:\n", "    if not filled:\n"),
    "test_makers.Makers.test_fhir": ("model/results.py", "len(text) < 12 or not self", "len(text) < 12 or self"),
    "test_deliver.Deliver.test_quarantine": (
        "outbound/deliver.py", "isinstance(error, Quarantined) or kept.failed", "kept.failed"
    ),
    "test_deliver.Deliver.test_corrected_setting": (
        "outbound/deliver.py", "        self._quarantine.name(self._find)\n        return", "        return"
    ),
    "test_deliver.Deliver.test_reasons": ("model/results.py", "            if not code:\n", "            if 0:\n"),
    "test_deliver.Deliver.test_letters": ("model/results.py", "self.marks += [why] if why else []", "del why"),
    "test_deliver.Deliver.test_left_out": ("outbound/deliver.py", "self.empty += not is_handed", "self.empty += 0"),
    "test_deliver.Deliver.test_counted_once": ("cli/deliver.py", "form, say)._replace(written={})", "form, say)"),
    "test_deliver.Deliver.test_filters": ("outbound/export.py", "line(_harmless(row) if form.safe else row)", "line(row)"),
    "test_corrected.Corrected.test_repeats": (
        "outbound/corrected.py", "if first.number < each < number)", "if each < number)"
    ),
    "test_corrected.Corrected.test_doubt": (
        "outbound/corrected.py", "one.is_timed or (one.reported in told", "one.is_timed or (bool(told)"
    ),
    "test_corrected.Corrected.test_orders": (
        "outbound/fhir.py", "self._came(case, order) or (results if all_came else self._told.came(order))", "results"
    ),
    "test_corrected.Corrected.test_sample_of_a_patient": (
        "outbound/corrected.py", "identities_of(above, reading)", "identities_of(above)"
    ),
    "test_corrected.Corrected.test_controls": (
        "outbound/export.py", "counts[CORRECTED] += told.leave_out_corrected()", "told.leave_out_corrected()"
    ),
    "test_corrected.Corrected.test_comments": (
        "outbound/export.py", "came = form.whole or coded.one.", "came = coded.one."
    ),
    "test_corrected.Corrected.test_server": ("model/results.py", "if test in fixed:", "if False:"),
    "test_corrected.Corrected.test_another_test": (
        "model/results.py", "*([field] if self.reading.twice == TWICE[1] else [])", ""
    ),
    "test_corrected.Corrected.test_which": (
        "model/results.py", "if is_correction else gone.setdefault(test, entry)", "if True else entry"
    ),
    "test_corrected.Corrected.test_again_in_an_order": (
        "outbound/fhir.py", "if not (self._told.who(case) and order.sample):", "if result.turn or not order.sample:"
    ),
    "test_corrected.Corrected.test_another_setting": (
        "outbound/corrected.py", "if self._readings.setdefault(one.line, reading) == reading:", "if reading is not None:"
    ),
    "test_corrected.Corrected.test_bounds": (
        "outbound/corrected.py", "self._last = self._store.number_before(last, LOOKED)", "self._last = last"
    ),
    "test_corrected.Corrected.test_random": (
        "outbound/corrected.py",
        "return not (patient and self.patient) or bool(patient & self.patient)",
        "return patient == self.patient",
    ),
    "test_corrected.CorrectedOfSqlite.test_results": (
        "outbound/corrected.py", "            if not is_old:\n", "            if not has_lost:\n"
    ),
    "test_corrected.CorrectedOfSpool.test_results": (
        "model/spool.py", "if at >= 0 else 0", "if at >= 0 else number"
    ),
    "test_postgres.CorrectedOfPostgres.test_results": (
        "outbound/corrected.py", "                self._look(number - 1, number - 1)\n", "                pass\n"
    ),
    "test_deliver.Deliver.test_ends_the_process": ("outbound/quarantine.py", "self._count(one.key, tries + 1)", "pass"),
    "test_deliver.Deliver.test_a_stop_is_no_try": (
        "outbound/deliver.py", "except (Unreachable, StoreError, Stopped):", "except (Unreachable, StoreError):"
    ),
    "test_deliver.Deliver.test_killed": ("outbound/deliver.py", "() if lock is None else (lock,)", "()"),
    "test_deliver.Deliver.test_ahead": (
        "outbound/deliver.py", 'tuple(data["after"]) == disk and disk[0] > 0', "bool(data)"
    ),
    "test_deliver.Deliver.test_too_long": ("outbound/deliver.py", "os.killpg(child.pid, signal.SIGKILL)", "child.kill()"),
    "test_deliver.Deliver.test_memory": ("model/results.py", "250_000", "99_000"),
    "test_deliver.Killed.test_mllp": (
        "outbound/deliver.py", 'data = {"number": number,', 'data = {"number": number + 1,'
    ),
    "test_deliver.Killed.test_https": ("outbound/https.py", '"X-Request-ID": key}', '"X-Request-ID": str(id(data))}'),
    "test_deliver.Answers.test_breaks_off": ("outbound/https.py", "self.fp = _Head(whole)", "self.fp = whole"),
    "test_deliver.Answers.test_which_message": ("outbound/https.py", "return bool(poll.poll(0))", "return False"),
    "test_deliver.Answers.test_drips": ("outbound/https.py", "        timer.start()\n", ""),
    "test_deliver.Answers.test_again": (
        "outbound/https.py", '(_wait_of(answer.getheader("Retry-After") or "")', "(0.0"
    ),
}
