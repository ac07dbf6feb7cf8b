# Reads what devdry-capture --answer-questions is about: event blocks in which questions are, lines `Q:` without an answer, or
# what `devdry events --questions` prints. It prints, for the first step, of each event that it has found:
#   d: PATH      the device
#   l: LINE      a line of its block; without one, the block is that of the device
#   c: ACTION    the end of that
#   q: COMMAND   a question
#   e:           the end of the event
# With `answering` it reads what a builtin prints, and prints it as an answer.

# Begins an event, the first of its action and device or the same again.
function event(of, at,    key) {
    key = of SUBSEP at
    if (at == "" || !(key in places)) {
        current = ++events
        action[current] = of
        device[current] = at
        if (at != "") places[key] = current
    } else current = places[key]
}

# The path of the device of a block, which its first `P:` line says.
function block_device(at) {
    if (device[current] != "") return
    device[current] = at
    if (!((action[current], at) in places)) places[action[current], at] = current
}

# A line of a block as it is.
function keep(line) {
    lines[current, ++count[current]] = line
    if (line ~ /^Q: /) answered[current, substr(line, 4)]
}


# What becomes of a question: it is kept with its answer, or asked, once.
function settle(    command) {
    command = substr(question, 4)
    if (question != "" && !((current, command) in known)) {
        known[current, command]
        questions[current, ++asked[current]] = command
    }
    question = ""
}

# Whether a line is none that is printed, and is counted: it has a control byte, or says a secret.
function is_left_out(line,    letter) {
    letter = substr(line, 1, 2)
    if (has_controls(line)) { controls++; return 1 }
    if (letter !~ /^[ABEOR]:$/ || !sub(/^(R: [0-9]+|[ABEO]:) /, "", line) || line !~ /=/) return 0
    if (!says_secret(substr(line, 1, index(line, "=") - 1))) return 0
    hidden++
    return 1
}

# Whether a line of an answer goes with the question before it, which is left out. Of an answer that is left out the status stays.
function is_withdrawn(line) {
    if (line !~ /^[RO]: /) withdrawn = line ~ /^Q: / && has_controls(line)
    return withdrawn && line ~ /^[RO]: /
}

# The beginning of an event in what --questions prints: in its path a backslash is written \x5C.
function questions_of(line,    at) {
    sub(/^event /, "", line)
    at = index(line, " /")
    in_block = 0
    if (at == 0) { current = 0; no_line("no path of a device"); return }
    path = substr(line, at + 1)
    gsub(/\\x5C/, "\\", path)
    event(substr(line, 1, at - 1), path)
}

# A line of a block.
function block_line(line) {
    if (line ~ /^C: /) { in_block = 1; event(substr(line, 4), "") }
    if (current == 0 || !in_block) { no_line("no line of a block"); return }
    if (line ~ /^P: /) block_device(substr(line, 4))
    keep(line)
}

# A line of the file.
function take(line) {
    if (line ~ /^R: / && question != "") {
        keep(question)
        question = ""
    }
    settle()
    if (line == "") { current = 0; return }
    if (is_withdrawn(line)) return
    if (is_left_out(line)) {
        if (!match(line, /^R: [0-9]+/)) return
        line = substr(line, 1, RLENGTH)
    }
    if (line ~ /^event /) questions_of(line)
    else if (line ~ /^Q: / && current > 0) question = line
    else if (line ~ /^[A-Z]: /) block_line(line)
    else no_line("no line of a block")
}

answering {
    cut($0)
    if (name !~ /^[A-Za-z0-9_.]+$/ || value == "" || value ~ /\r/ || is_left_out("O: " $0)) next
    print (printed++ ? "O: " : "R: 0 ") name "=" as_printed(value)
    next
}
{ row++; sub(/\r$/, ""); take($0) }

END {
    if (answering && !printed) print "R: 0"
    settle()
    for (i = 1; i <= events; i++) {
        if (!is_path(device[i])) { complain(ENVIRON["place"] ": an event without a device"); continue }
        print "d: " device[i]
        for (j = 1; j <= count[i]; j++) print "l: " lines[i, j]
        print "c: " action[i]
        for (j = 1; j <= asked[i]; j++) if (!((i, questions[i, j]) in answered)) print "q: " questions[i, j]
        print "e:"
    }
    say_strange()
    say_left_out(controls, "line", " with a control byte")
    say_left_out(hidden, "line", " secret by name")
    close("cat 1>&2")
    exit answering ? 0 : failed ? 1 : events ? 0 : 4
}
