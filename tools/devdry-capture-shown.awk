# What the awk scripts of devdry-capture share: what may be shown, which names say that a text is a secret, and what is said on
# the standard error. They set `row` to the number of a line in a file whose name is in the environment as `place`.

# Whether a text has a control byte, or one of U+0080 to U+009F, which a terminal may obey.
function has_controls(text) { return text ~ /[\001-\010\012-\037\177]|\302[\200-\237]/ }

# A text with these as \xNN, as udev writes bytes that are not safe.
function shown(text,    out) {
    while (match(text, /[\001-\010\012-\037\177]|\302[\200-\237]/)) {
        out = out substr(text, 1, RSTART - 1) code[substr(text, RSTART, 1)] code[substr(text, RSTART + 1, RLENGTH - 1)]
        text = substr(text, RSTART + RLENGTH)
    }
    return out text
}

# Says what is left out of a block.
function say(text) { printf "devdry-capture: %s\n", shown(text) | "cat 1>&2" }

# Says at the end how much is left out of all that is printed.
function say_left_out(number, what, having) {
    if (number) say(number " " what (number == 1 ? "" : "s") having (number == 1 ? " is" : " are") " left out")
}

# Says which device is left out, and sets the status accordingly.
function complain(text) { say(text); failed = 1 }

# A line of a file that is not taken: the first few are said, each with its number.
function no_line(what) { if (++strange <= 3) say(ENVIRON["place"] ":" row ": " what) }

# Says at the end how many more there are.
function say_strange() { if (strange > 3) say(ENVIRON["place"] ": and " strange - 3 " more") }

# Cuts NAME=VALUE into `name` and `value`.
function cut(text,    at) {
    at = index(text, "=")
    name = substr(text, 1, at - 1)
    value = substr(text, at + 1)
}

# Whether a text is a path as blocks have it.
function is_path(text) { return text ~ /^\/./ && text !~ /\/\// && text !~ /\/$/ }

# A value as a program prints it in an answer: between quotes if it begins with one, or has a blank at an end.
function as_printed(text) { return text ~ /^["' \t]|[ \t]$/ ? "\"" text "\"" : text }

# Whether a name says that its text is a secret, whatever its case: that of an attribute, of a property, or of a word of the
# kernel's command line.
function says_secret(name) {
    if (!(name in secrets)) secrets[name] = tolower(name) ~ secret && name !~ no_secret
    return secrets[name]
}

BEGIN {
    for (i = 1; i < 256; i++) code[sprintf("%c", i)] = sprintf("\\x%02X", i)
    # names, in small letters, of what is a secret: parts of names, and whole ones
    secret = "pass(word|phrase|wd)|pwd|psk|secret|token|private|credential|config_info|(wep|tls|link|host)_?key" \
        "|(^|[/.])(key|pin|ltk)$|(^|/)(username|dhchap_)[^/]*$|(^|/)iscsi_(session|connection)/"
    # and what is none: by these fido_id of systemd says that a device is a security token, and its rules ask for them. Of 207
    # files of rules, those of systemd, lvm2, mdadm, libinput and 25 other packages of Debian, no other asks for such a name.
    no_secret = "^ID_(FIDO|SECURITY)_TOKEN$"
}
