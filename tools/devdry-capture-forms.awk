# What `udevadm info` prints apart from records: the walk of `-a`, as keys of rules, and objects of JSON, those of `--json=short`
# and `--json=pretty`, also with `-a`. What they say is passed on as lines of a record.

# Whether a line of a file is one of these; it is then taken.
function has_other_form(line) { return takes_walk(line) || takes_json(line) }

# Begins a device of a walk: the one that was asked for, or a parent, which is printed only if it is named.
function begin_walk(at, is_parent) {
    begin(at, !is_parent)
    if (path != "" && !is_parent) walked[path]
    walking = 1
}

# An attribute of a walk, as udev reads it.
function walked_attribute(name, text) {
    if (text == "(not readable)") return
    if (name == "" || name ~ /=/) no_line("the name of an attribute that can't stand in a block")
    else about("a: " name "=" text)
}

# A key of a walk, with its name without the S of parents; KERNEL is in the path.
function walked_key(key, text) {
    if (text != "" && key == "SUBSYSTEM") about("U: " text)
    if (text != "" && key == "DRIVER") about("V: " text)
}

# A line of a walk; one that is copied may have lost its blanks at the start, or have others at its end.
function takes_walk(line,    at) {
    sub(/^[ \t]+/, "", line)
    sub(/[ \t]+$/, "", line)
    if (line in headings) return 1
    if (line ~ /^looking at (parent )?device '[^']*':$/) {
        at = substr(line, index(line, "'") + 1)
        begin_walk(substr(at, 1, length(at) - 2), line ~ /^looking at parent/)
        return 1
    }
    if (!walking || line !~ /^((KERNEL|SUBSYSTEM|DRIVER)S?|ATTRS?[{].+[}])==".*"$/) return 0
    if (path == "") return 1
    at = line ~ /^ATTR/ ? index(line, "}==\"") : index(line, "==\"") - 1
    value = substr(line, at + 4, length(line) - at - 4)
    name = substr(line, 1, at)
    if (sub(/^ATTRS?[{]/, "", name)) walked_attribute(substr(name, 1, length(name) - 1), value)
    else { sub(/S$/, "", name); walked_key(name, value) }
    return 1
}

# A text of four hexadecimal digits as a number, or -1.
function hexadecimal(text,    i, at, out) {
    for (i = 1; i <= 4; i++) {
        at = index("0123456789abcdef", tolower(substr(text, i, 1)))
        if (at == 0 || length(text) < 4) return -1
        out = out * 16 + at - 1
    }
    return out
}

# A character by its number, as UTF-8.
function utf8(number,    i, lead, out) {
    if (number < 128) return sprintf("%c", number)
    lead = 128
    for (i = number < 2048 ? 1 : number < 65536 ? 2 : 3; i > 0; i--) {
        out = sprintf("%c", 128 + number % 64) out
        number = int(number / 64)
        lead = lead / 2 + 128
    }
    return sprintf("%c", lead + number) out
}

# Takes an escape, without its backslash, from the start of `rest`, and puts its character at the end of `string`; or fails. A
# NUL byte fails, too: no text of udev has one.
function takes_escape(    letter, number, low) {
    letter = substr(rest, 1, 1)
    rest = substr(rest, 2)
    if (letter != "" && index("\"\\/", letter)) { string = string letter; return 1 }
    if (letter ~ /[bfnrt]/) { string = string escapes[letter]; return 1 }
    number = letter == "u" ? hexadecimal(rest) : -1
    rest = substr(rest, 5)
    if (number >= 55296 && number < 56320) {
        low = rest ~ /^\\u/ ? hexadecimal(substr(rest, 3)) : -1
        rest = substr(rest, 7)
        number = low >= 56320 && low < 57344 ? 65536 + (number - 55296) * 1024 + low - 56320 : -1
    } else if (number >= 56320 && number < 57344) number = -1
    if (number > 0) string = string utf8(number)
    return number > 0
}

# Takes a string of JSON from the start of `rest` into `string`; or fails.
function takes_string(    sign) {
    string = ""
    if (substr(rest, 1, 1) != "\"") return 0
    rest = substr(rest, 2)
    while (match(rest, /["\\]/)) {
        string = string substr(rest, 1, RSTART - 1)
        sign = substr(rest, RSTART, 1)
        rest = substr(rest, RSTART + 1)
        if (sign == "\"") return 1
        if (!takes_escape()) return 0
    }
    return 0
}

# Takes a member of an object: a text, nothing, or, of a walk, the beginning of the attributes. `depth` is 2 among these.
function takes_member(    name) {
    if (!takes_string()) return 0
    name = string
    if (!sub(/^[ \t]*:[ \t]*/, "", rest)) return 0
    expected = "more"
    if (takes_string()) {
        names[++members] = name
        texts[members] = string
        depths[members] = depth
        return 1
    }
    if (depth == 1 && name ~ /^ATTRS?$/ && sub(/^[{]/, "", rest)) {
        depth = 2
        expected = "first"
        return 1
    }
    return sub(/^null/, "", rest)
}

# Takes the next part of an object from the start of `rest`; or fails.
function takes_part(    sign) {
    sign = substr(rest, 1, 1)
    if (depth == 0 && sign != "{" || depth > 0 && expected != "more" && sign != "}") return depth > 0 && takes_member()
    rest = substr(rest, 2)
    if (sign == "{" && depth == 0) {
        depth = 1
        members = 0
        expected = "first"
    } else if (sign == "}" && expected != "member") {
        expected = "more"
        if (--depth == 0) take_object()
    } else if (sign == "," && depth > 0 && expected == "more") expected = "member"
    else return 0
    return 1
}

# Says that an object has no end, if there is one.
function leave_object() {
    if (depth > 0) no_line("an object before this has no end")
    depth = 0
}

# A line of JSON; before an object of a walk udevadm prints the byte RS. An object that is none of a device is left out: it is
# said with the line, and `astray` until it ends.
function takes_json(line) {
    sub(/^\036/, "", line)
    if (astray && line ~ /^[ \t}]/) {
        if (line ~ /^[}]/) astray = 0
        return 1
    }
    astray = 0
    if (depth > 0 && line !~ /^[ \t]*["{},]/ && line != "") leave_object()
    if (depth == 0 && line !~ /^[ \t]*[{]/) return 0
    rest = line
    while (sub(/^[ \t]+/, "", rest) || rest != "") if (rest != "" && !takes_part()) {
        depth = 0
        astray = 1
        no_line("no object as udevadm prints it")
        return 1
    }
    return 1
}

# Passes on a whole object: a device with its properties, or one of a walk.
function take_object(    i, at, is_walk, is_parent) {
    for (i = 1; i <= members; i++) {
        if (names[i] == "DEVPATH") at = texts[i]
        if (names[i] == "KERNEL" && i <= 2 || names[i] == "KERNELS") is_walk = 1
        if (names[i] == "KERNELS") is_parent = 1
    }
    if (at == "") { no_line("an object without DEVPATH"); return }
    walking = 0
    if (is_walk) begin_walk(at, is_parent)
    else begin(at, 1)
    if (path == "") return
    for (i = 1; i <= members; i++) {
        if (depths[i] == 2) walked_attribute(names[i], texts[i])
        else if (!is_walk) take_property(names[i], texts[i])
        else { sub(/S$/, "", names[i]); walked_key(names[i], texts[i]) }
    }
}

# A property in JSON. These four are none, but are there beside the properties; links are a property.
function take_property(name, text,    i, n, links) {
    if (name ~ /^(SYSNAME|SYSNUM|DEVICE_ID|DRIVER_SUBSYSTEM)$/) return
    if (name != "DEVLINKS") { about("E: " name "=" text); return }
    n = split(text, links, " ")
    for (i = 1; i <= n; i++) if (sub(/^\/dev\//, "", links[i])) about("S: " links[i])
}

# Says what walks don't tell, unless the file tells it otherwise.
function say_walked(    at) {
    for (at in walked) if (!(at in has_properties)) {
        say(ENVIRON["place"] ": udevadm info -a tells no node, device number, property, tag or link, no attribute modalias," \
            " and none that begins with / or is not printable ASCII")
        return
    }
}

BEGIN {
    headings["Udevadm info starts with the device specified by the devpath and then"]
    headings["walks up the chain of parent devices. It prints for every device"]
    headings["found, all possible attributes in the udev rules key format."]
    headings["A rule to match, can be composed by the attributes of the device"]
    headings["and the attributes from one single parent device."]
}
