#!/bin/sh
# Whether a limit stands as a number only where the table below says why: limits.sh. Fails if not.
#
# A limit is one constant of the code and one definition of it, and all else names these. The numbers that are looked for, in
# src/ and specs/ of all crates but those of tests, and not in comments, are
#   1048576  the greatest memory: 1048576, 1_048_576 or 1 << 20
#   128      the greatest payload, the large block, the least memory
#   7        the requesters: b'7', ≤ 7 or nat_le NAME 7
#   512      the room of a text that answers: ArrayString<512>
# A row is a number, why it may stand, and where: files, or folders, of crates/. A row that nothing needs fails too.
unset CDPATH
cd "$(dirname "$0")/.." || exit 1
rows='
1048576 | the constant | seq_memory/src/limits.rt
1048576 | an endpoint has one of nine sizes | config_core/src/setup.rt config_core/specs/SetupView.antt
1048576 | a register by the size | config_core/src/laws.rt
1048576 | a table of texts | cli_values/src/endpoints.rt cli_values/specs/Endpoints.antt
1048576 | texts for people | cli_words/src/texts.rt
1048576 | a place in a request, which has fewer bytes | search_words/src/words.rt
128 | the constant | tlp_core/src/packet.rt seq_memory/src/limits.rt
128 | Lower Address has 7 bits | tlp_core/specs/TlpView.antt completer_core/src/completion.rt completer_core/src/span.rt
128 | Lower Address has 7 bits | completer_core/specs/Span.antt endpoint_core/src/completions.rt packet_text/src/completion.rt
128 | Lower Address has 7 bits | packet_text/src/fields.rt packet_text/specs/Forms.antt
128 | bit 7 of a byte | config_core/src/decoding.rt config_core/specs/Layout.antt endpoint_core/src/classes.rt
128 | bit 7 of a byte | endpoint_core/specs/Classes.antt
128 | what registers say | config_core/specs/Registers.antt
128 | texts for people | cli_words/src/texts.rt operation_text/src/misfit.rt packet_engine/src/bytes.rt
128 | what a digit is worth | hex_text/src/tables.rt
128 | has no crate of packets below it | hex_text/src/writing.rt
128 | a small memory as an example | log_rows/specs/Logs.antt log_text/specs/LogReaderView.antt trace_text/src/form.rt
128 | a small memory as an example | trace_text/specs/TraceReaderView.antt
128 | a number of steps | search_run/src/walk.rt
128 | room of rows that are told | fabric_rows/src/drive.rt
7 | patterns of digits | record_text/src/fields.rt script_text/src/fields.rt
7 | letters of a colour or a word | svg_text/src/colour.rt chart_rows/src/words.rt
512 | a room for one line, made by its user | c_device/ c_fabric/ chart_engine/ chart_levels/ chart_links/ chart_marks/ chart_rows/
512 | a room for one line, made by its user | diagnostics/ flaw_places/ generate_engine/ history_bars/ history_picture/ linked_engine/
512 | a room for one line, made by its user | monitor_ports/ operation_text/ packet_engine/ packet_text/ record_text/ run_engine/
512 | a room for one line, made by its user | script_text/ search_engine/ search_picture/ search_reasons/ step_engine/ svg_text/
512 | a room for one line, made by its user | sweep_engine/ trace_text/
'
export rows
find crates/*/src crates/*/specs -name '*.rt' -o -name '*.antt' | grep -v '^crates/[a-z_]*tests/' | awk '
    function fail(text) {
        print "limits: " text
        failed = 1
    }
    # looks: fails if the file may not have the number, by a row for it or for a folder above.
    function looks(number, place) {
        place = FILENAME
        sub(/^crates\//, "", place)
        while (place != "" && !((number, place) in given)) sub(/[^\/]*\/?$/, "", place)
        needed[number, place] = 1
        if (place == "") fail(FILENAME ":" FNR ": " number ": name the constant, or give a reason in the table")
    }
    BEGIN {
        digit = "b\0477\047"
        while ((getline name < "-") > 0) ARGV[ARGC++] = name
        count = split(ENVIRON["rows"], lines, "\n")
        for (i = 1; i <= count; i++) {
            if (split(lines[i], parts, " [|] ") < 3) continue
            places = split(parts[3], names, " ")
            for (j = 1; j <= places; j++) given[parts[1], names[j]] = 1
        }
    }
    /^ *(\/\/|--)/ { next }
    { line = " " $0 " " }
    line ~ /[^0-9A-Za-z_](1048576|1_048_576|1 << 20)[^0-9A-Za-z_]/ { looks("1048576") }
    line ~ /[^0-9A-Za-z_]128[^0-9A-Za-z_]/ { looks("128") }
    index(line, digit) || line ~ /≤ 7[^0-9]|nat_le [a-z]+ 7[^0-9]/ { looks("7") }
    line ~ /ArrayString<512>/ { looks("512") }
    END {
        for (row in given) {
            if (row in needed) continue
            split(row, parts, SUBSEP)
            fail("nothing needs the row " parts[1] " of " parts[2])
        }
        if (!failed) print "limits: each number stands where the table says why"
        exit failed
    }'
