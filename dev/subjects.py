"""Kinds of change that no one name of the code has, each with the words by which `dev/where` finds its files. A word is
looked for as it stands here, also in the names of files."""

SUBJECTS = {
    "field of a form": (
        "Form, form.rt, amendment_said, proposer_said, standing_in, Number, NumeralLemmas, number.rt, "
        "leading_zero, minus_sign, field.rt, fields.rt, routes.rt"
    ),
    "route": (
        "RouteLemmas, PathWords, entry_of, roll_is_asked_by_post, ACTS, ROUTES, routes_of, read_path, asked, "
        "ServedSheets, closed.rt"
    ),
    "order of fields": "entry_of, demand.rt, ACTS, bad field, fields.rt",
    "valid desk": "Valid, Damaged, IsRightlyChosen, check_tables, valid desk, sample.rattle",
    "law": "laws.rt, secrecy.rt, reopening.rt, proofs/laws, laws",
    "line of a fault": (
        "503, fault_line, of_fault, fault_text, fault F, fault F1, fault F2, fault F3, fault F4, fault F5, "
        "fault F6, fault F7, fault F8, postinst, Fault::Store, Fault::Memory, no table desk, no valid desk, "
        "Failure, failure.rt, lines.rt"
    ),
    "exit status": (
        "exit_of, line_of, said_of_done, status_of, ErrorOutput, ErrorLemmas, Failure, failure.rt, help.rt, "
        "exit status, exit statuses, Exit status, fault F8"
    ),
    "head of a response": (
        "allow_line, Allow, allowed_by, AllowedMethod, no_demand_text, add_length, body_lines, Content-Length, "
        "Connection: close, method not allowed, Demand, DemandLemmas, wrong_method_names_no_other, EXITS, "
        "problem_names_no_method"
    ),
    "several requests of once": (
        "read_request, read_body, RequestParts, Body, Fates, do_line, answer_once, IsOnce, IsAnswered, "
        "answered_calls, status_of_outcome, reads_to_the_end_first, always_out_of_memory, "
        "reads_behind_a_long_body, once_leaves_its_log, LineLemmas, Head, Lines, one request, One request"
    ),
    "end of a request": (
        "read_request, read_body, Body, Head, Input, Fates, BEHIND, reads_to_the_end_first, "
        "one_read_is_the_request, reads_nothing_behind_a_response, one request, bad head, connections.rt, "
        "serve.rt"
    ),
    "call of the office": "Office::act, Office::run, AreMade, office.rt, Office.antt, History",
    "discussion": (
        "discussion.rt, Discussion, Course, DiscussionLemmas, CourseLemmas, EndLemmas, vary, "
        "variation_keeps_the_earlier_one, discussion_ends_one_second_late, clock of a discussion, "
        "end of the discussion, vary"
    ),
    "time of a vote": (
        "voting_has_ended, end_of_voting, end_of_voting_at, Ended, TooEarly, vote_at_the_end_of_voting, "
        "ClosedForGoodLemmas, LeftVoteLemmas, Discussion, Resolution, end of voting, until"
    ),
    "lapsed choice": (
        "bookkeeping.rt, Bookkeeping, has_lapsed, is_live, shortened, becomes_short_with, short, Short since, "
        "choices.rt, sheets.rt, Lapsed, REMEDY, remedy_of, wants_of, CALL, lapse, lapses"
    ),
    "roll file": (
        "roll_file.rt, RollFile, RollFileRows, records.rt, Records, RecordLemmas, csv_file, import.rt, HEADER, "
        "login,name,status"
    ),
    "import": "ImportRoll, import.rt, imports.rt, Import, added",
    "receipt": (
        "receipt.rt, Receipt, receipt_of, receipt, V:, check_receipt, sha256sum, hashlib, "
        "receipt_with_the_token_first"
    ),
    "alphabet of ranks": (
        "UNRANKED, FIRST_LETTER, DIGIT_RANKS, Digits, DigitBallots, Ranks, RanksLemmas, ranks_of, ranks.rt, "
        "Texts, BallotTexts, mark.rt, are_ranks, upper_case, letters_before_digits, "
        "letters_written_in_upper_case, RANKS, comparison.rt, rows.rt, votes.rt, damages.rt, large.rt, "
        "choices.rt, check_receipt, recount, closed_vote.py"
    ),
    "empty ballot": "EMPTY, rank nothing, empty ballot, Unranked, UNRANKED",
    "spelling of a login": (
        "login.rt, Login, BadLogin, is_login, act_of, proposer_of, receipt_of, proposer_said, row_in, "
        "check_receipt, RollLemmas, StableLemmas, RowKinds, developers.rt, damages.rt, imports.rt, "
        "rolls_and_tallies.rt, import.rt, a-z0-9"
    ),
    "quorum": "quorum, Quorum, Threshold, thresholds, 3Q, majority, rounds_halved, sponsors_rounded, How many sponsors",
    "rule of counting": (
        "Strength, strength, weaker, Weakest, weakest, Standings, SchwartzSets, Schwartz, schwartz, "
        "transitive, counting.rt, kept.rt, Election, Path, rounds, Rounds, opposition, two_steps, "
        "casting_vote_after_one_round, OPPOSITION"
    ),
    "lost connection": (
        "NotServed, serve_all, LineDoes, said_of_done, Says, serve_ends_after_ten_thousand, "
        "a_connection_is_told_ok, lost, help.rt, AreConnections, IsConnection, do_in_memory, slow, peers"
    ),
    "journal mode": "wal, WAL, log, open_files, open_from, FileStore, give_up, close_files, a_byte_is_opened",
    "subcommand": (
        "subcommands.rt, Words, WordLemmas, words.rt, line.rt, help.rt, Lines, subcommands::program, ok schema 2, "
        "listening, --version, help_text, help_is_told_on_error_output, version_is_another, "
        "moment_is_passed_over, SUBCOMMANDS, SubcommandLemmas"
    ),
    "files of a desk": (
        "0600, umask, UMask, PRIVATE, make_private, private, Path, blank.rt, new file, "
        "a desk and its log, memory_leaves_a_file, a_byte_is_opened, an_empty_file_is_opened, file_is_its_log, "
        "uri_is_opened, the_log_of_a_byte_is_passed_over, lines.rt"
    ),
    "clock": (
        "clock.rt, once.rt, serve.rt, streams.rt, moments.rt, Time, commands/clock.py, machine's clock, "
        "clock_an_hour_ahead, clock_before_the_accept, clock_before_the_opening"
    ),
    "address": "127.0.0.1, LOCALHOST, loopback",
    "moment of a sheet": (
        "moment.rt, moment_text, Date.antt, MomentTexts, sheet.py, dates.py, recount, 00:00Z, 59Z, 00Z"
    ),
    "connection": (
        "door.rt, Door, DoorLemmas, PortDoor, memory_door.rt, NotServed, accept, accepts, connections, slow, "
        "peers"
    ),
    "build": "gr_main/out/gr_main, crates.txt, HANDLES, BUILT, is_current, rt ci, ./check",
    "words of an error": (
        "unfit.rt, memory.rt, no_sheet.rt, problem.rt, roll_file.rt, RollFile, roll_files.rt, request.rt, "
        "Unfit, NoSheet, Problem"
    ),
    "secrecy": (
        "NotRevealed, Secrecy, secrecy.rt, SecrecyLemmas, AreAlike, AlikeReplies, RevealLemmas, "
        "running_counts_in_status, tally_before_the_close, before the close"
    ),
    "vote again": (
        "kept_pairs.rt, KeptPairs, KeptPairsLemmas, VoterLemmas, OutcomeLemmas, VotingLaws, ballots.rt, "
        "voting.rt, pairs.rt, large_vote, first_ballot_stays, vote_begins_again_at_one, "
        "vote_keeps_the_old_receipt, adds_a_ballot_and_leaves_the_old_one_in, "
        "count_leaves_out_ballots_of_the_retired, last ballot, last vote, rules.md"
    ),
    "roll at the call": (
        "poll_at, quorum_from_the_roll_at_close, Outcome, election.rt, Election, discussion.rt, resolution.rt, "
        "votes.rt, results.rt, promises.md"
    ),
    "copy": (
        "desk.copy, digest.py, retention.py, change.py, new_file.py, private_folder.py, backup, restore, "
        "copy_out, health, copies"
    ),
    "service": "units, systemd, gr_desk.service, socket",
    "page of a resolution": "page.py, form.py, form_reader.py, commands/page.py, shown, html, ballot_cases",
    "crash": (
        "Commits, Content, History, IsLeftBy, Stops, Openings, StopLemmas, OpeningLemmas, stops.rt, "
        "any_store.rt, killed, power, crash, kill"
    ),
    "tables beside a desk": (
        "Own, Makes, Tabled, Occupied, beside.rt, beside a desk, other tables, tables.rt, create.rt, "
        "commits.rt, CREATE TABLE, stock SQLite"
    ),
    "line of a journal": (
        "LINES, entry.py, journal.py, listing.py, hold.py, replay.py, delivery.py, journaled, "
        "journal_case.py, json, row.py, Journals"
    ),
    "version of a file": (
        "VERSION, TooNew, TooOld, DeskVersions, NoSuchDesk, UnreadTables, StoppedMigrations, Version1, Rows1, "
        "BallotRow1, VersionLaws, version_1, from_rows_1, finish_1, migrate, migrated_office, "
        "Office::migrate, Store::migrate, earlier_form, ok schema 2, recount, closed_vote.py, desk|1|2, desk VALUES, "
        "lacks_ballots, ballot1_table, ballot1_clear, lifted_desks_are_valid"
    ),
    "whole vote": (
        "eighteen, whole vote, whole_vote, script.rt, commands.rt, beside.rt, version_1, commands.rattle, "
        "stock_tables"
    ),
    "forms of developers": '/developers, status=current, status=retired, "developer", generated.rt',
    "roll files": "login,name,status, roll.csv, roll file, roll files",
    "other counts": "recount, large_vote, by_hand, definitions.rt",
    "tool": "inventory.py, output.py, copy.py, tools/grdesk/commands/act.py, The tools",
}

# What a limit is known by besides its name, where its number is too small to look for, or is written in another way.
LIMITS = {
    "MAX_MOMENT": "2099, Date.antt, BadMoment, discussions_end_by_their_last_change, script.rt",
    "MAX_NAME_CHARACTERS": "NNNNNNNNN",
    "MIN_TOKEN_CHARACTERS": "BadToken, 8 to 64, {8,64}",
    "MAX_OPTIONS": "Options, ratios_options_the_fewest",
    "MAX_CHOICES": "Full",
    "DAY": "24 hours, short, Lapsed, remedy",
    "MAX_SHIFT_DAYS": "shift, vary, BadDays",
    "CHANGE_DAYS": "limit.py, rules.md, clock of a discussion, Course, amend",
    "MIN_NOTICE": "NOTICE, EndsTooSoon",
    "MIN_VOTING_DAYS": "days=7",
    "MAX_VOTING_DAYS": "LAST_SHOWN, sheets_show_twenty_one_days_more, 2100",
    "MAX_DEVELOPERS": "Full",
    "MAX_RATIO": "BadRatio, ratio, [1-9], limits.rt",
    "MAX_REQUIRED_SPONSORS": "number of sponsors, meets_sponsors, sponsor_wants_memory_for_a_sixth, sponsors",
    "MIN_COUNT": "--count",
    "MAX_AT": "--at",
    "REQUEST_SECONDS": (
        "5 seconds, within 5, five seconds, six seconds, LIMIT = 5, timed.rt, read_within, write_within, "
        "set_read_timeout, Time.antt, LATEST_COMING, ten seconds"
    ),
    "DRAIN_SECONDS": "drain, DRAIN, seconds, reads_nothing_behind_a_response",
    "MAX_BODY_BYTES": "too large, imports.rt",
    "MAX_HEAD_BYTES": "bad head",
    "MAX_NUMBER_DIGITS": "1000000000, NUMBER, digits",
    "MAX_ACCEPTED": "accepted",
}
