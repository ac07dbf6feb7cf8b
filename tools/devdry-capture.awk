# The second step of devdry-capture: reads records, a letter and a text in each line, and prints the devices that are
# asked for, each with its parents, as event blocks or as keys of rules. devdry-capture says what the letters mean; other
# forms of a file are read by devdry-capture-forms.awk, and what may be shown is in devdry-capture-shown.awk. It sets these
# variables, each empty if nothing is said:
#   action    the action of the events
#   all       print each device that has a record, not only those of the `w:` lines
#   answers   print answers to what rules ask for, of what udev has stored
#   kernel    of the device itself print only what the kernel reports
#   recorded  the records are those of a file, whose name is in the environment as `place`
#   saying    there are no records: the lines are a message of the first step, to be said
#   walk      print keys, not blocks
# The status is 1 if a device is not printed, 4 if there is none.

# A line of the device, each letter and name once: a later one replaces an earlier one. With --kernel, what udev has added
# does not count.
function add(letter, name, text, from_udev,    key) {
    key = path SUBSEP letter SUBSEP name
    if (name == "") {
        complain(path ": " letter ": without a name is left out")
        return
    }
    if (!(key in lines)) keys[path, ++count[path]] = key
    lines[key] = letter ": " text
    if (!from_udev) kernels[key] = lines[key]
}

# A line that a device has once.
function set(letter, text) {
    if (text == "") return
    add(letter, letter, text, 0)
    if (letter == "N") nodes["/dev/" text] = path
}

# Whether udev has added a property that is not an `e:`. What udevadm says about this machine counts as added, as /sys has
# given the rest before. Records don't say: `udevadm info` prints what udev added after USEC_INITIALIZED, and in sorted
# records it is recognized by the names that the rules of udev and of others set.
function is_added(name) {
    if (name == "USEC_INITIALIZED") initialized[path] = 1
    return !recorded || path in initialized || name ~ added
}

# Whether a text is one of the two parts of a device number.
function is_number(text) { return text ~ /^[0-9]+$/ && text + 0 < 4294967296 }

# A property: the name of the node is given in full, as udev does.
function property(text, from_udev) {
    cut(text)
    has_properties[path]
    if (name == "DEVNAME") {
        sub(/^\/dev\//, "", value)
        set("N", value)
        text = "DEVNAME=/dev/" value
    }
    if (name == "SUBSYSTEM") set("U", value)
    if (name == "DRIVER") set("V", value)
    if (name == "MAJOR") major[path] = value
    if (name == "MINOR") minor[path] = value
    if (is_number(major[path]) && is_number(minor[path])) set("D", major[path] ":" minor[path])
    # (links and tags have lines of their own)
    if (name == "TAGS") tags(value)
    else if (name != "DEVLINKS" && name != "CURRENT_TAGS") add("E", name, text, from_udev)
}

# The tags of the property TAGS, with a colon before and after each.
function tags(text,    i, n, names) {
    n = split(text, names, ":")
    for (i = 1; i <= n; i++) if (names[i] != "") add("G", names[i], names[i], 1)
}

# The text that umockdev-record wrote with escapes. It ends at a NUL byte.
function unescaped(text,    out, c) {
    out = ""
    while (match(text, /\\([0-3][0-7][0-7]|.)/)) {
        c = substr(text, RSTART + 1, RLENGTH - 1)
        if (c == "000") return out substr(text, 1, RSTART - 1)
        if (RLENGTH == 4) c = sprintf("%c", substr(c, 1, 1) * 64 + substr(c, 2, 1) * 8 + substr(c, 3, 1))
        else if (c in escapes) c = escapes[c]
        out = out substr(text, 1, RSTART - 1) c
        text = substr(text, RSTART + RLENGTH)
    }
    return out text
}

# An attribute as umockdev-record prints it: it is kept if it is one line of text.
function attribute(text) {
    cut(text)
    value = unescaped(value)
    sub(/[\r\n]+$/, "", value)
    if (!has_controls(value)) add("A", name, name "=" value, 0)
}

# A file with a NUL byte, by its path, and the text before that: it is an attribute of the device in whose folder the file
# is, if it is one line. Devices are known when all records are read. No keys are made of files that are no text otherwise.
function beginning(text,    at) {
    at = index(text, "//")
    path = name = substr(text, 1, at - 1)
    value = substr(text, at + 2)
    while (sub(/\/[^\/]*$/, "", path) && path != "" && !(path in seen));
    name = substr(name, length(path) + 2)
    if (path == "" || name ~ /=/ || has_controls(name)) return
    sub(/[\001\r]+$/, "", value)
    if (!has_controls(value)) {
        if (!walk || (path, "A", name) in lines) add("A", name, name "=" value, 0)
    } else lines[path, "A", name] = kernels[path, "A", name] = ""
}

# A link in such a record: for some links the last name counts.
function link(text) {
    cut(text)
    sub(/.*\//, "", value)
    if (name == "driver") set("V", value)
    if (name ~ /^(driver|subsystem|module)$/) add("A", name, name "=" value, 0)
}

# In a record: the folder of a host is added to the device in whose folder it is.
function host(    parent, name) {
    parent = name = path
    sub(/\/[^\/]*$/, "", parent)
    sub(/.*\//, "", name)
    if (name !~ /^host[0-9]+$/) return
    key = parent SUBSEP "A" SUBSEP name "/uevent"
    if (!(key in lines)) keys[parent, ++count[parent]] = key
    lines[key] = kernels[key] = "A: " name "/uevent=DEVTYPE=scsi_host"
}

# Whether a property is a secret, by its name. (Of an input device KEY says which keys it has.)
function is_secret_property(path, name) {
    return says_secret(name) && !(name == "KEY" && lines[path, "U", "U"] == "U: input")
}

# Whether an attribute is a secret: by its name, as records have no modes and as the kernel lets everyone open some of these;
# or as nobody but root may read its file. What a builtin of udev looks at is none.
function is_secret(path, name,    of, type) {
    of = substr(lines[path, "U", "U"], 4)
    type = substr(lines[path, "E", "DEVTYPE"], 12)
    if (name ~ transports || of in looked_at && name ~ looked_at[of]) return 0
    if ((path "/" name) in guarded || of == "dmi" && name ~ secret_of_dmi) return 1
    # (of a service of Thunderbolt it is the name of a protocol)
    return says_secret(name) && !(of == "thunderbolt" && name == "key" && type == "thunderbolt_service")
}

# Removes the secrets of a device, with all records read, and counts those that would be printed.
function remove_secrets(path,    i, key, part, found) {
    for (i = 1; i <= count[path]; i++) {
        key = keys[path, i]
        split(key, part, SUBSEP)
        if (part[2] == "A" && is_secret(path, part[3]) || part[2] == "E" && is_secret_property(path, part[3])) found[key]
    }
    for (key in found) {
        if (lines[key] != "" && (!walk || lines[key] ~ /^A/)) secrets_of[path]++
        lines[key] = kernels[key] = ""
    }
}

# Whether a value has an open quote.
function is_open(text) { return gsub(/"/, "&", text) % 2 || gsub(/'/, "&", text) % 2 }

# The constant of the kernel's command line, without the words that are secrets, by their names or as an address with a password:
# then it is only a part. A value in quotes may have blanks.
function command_line(text,    i, n, words, out, gone, dropped) {
    n = split(text, words, " ")
    for (i = 1; i <= n; i++) {
        cut(words[i] (words[i] ~ /=/ ? "" : "="))
        if (dropped == "" && !says_secret(name) && value !~ /^["']?[a-z]+:.*@/) { out = out " " words[i]; continue }
        if (dropped == "") gone++
        dropped = dropped words[i]
        if (!is_open(dropped)) dropped = ""
    }
    words_left_out += gone
    return gone ? "cmdline.part=" substr(out, 2) : "cmdline=" text
}

# Begins what is said about a device, with its path; `wanted` is whether it is printed where no device is named.
function begin(text, wanted) {
    path = text
    if (!is_path(path) || has_controls(path)) {
        if (!(path in refused)) complain(path ": " (is_path(path) ? "its path has control bytes" : "no path of a device"))
        refused[path]
        path = ""
        return
    }
    if (!(path in seen)) new_record()
    if (all && wanted && !(path in ordered)) {
        ordered[path]
        order[++orders] = path
    }
    set("P", path)
    if (recorded) host()
}

# The first record of a device.
function new_record(    name) {
    seen[path] = 1
    name = path
    sub(/.*\//, "", name)
    by_name[name] = by_name[name] (name in having ? " " : "") path
    having[name]++
}

# The path of the device that is asked for, by its path, by its node, or by its name, which may be that of several: then
# there is no path, and it says so.
function path_of(asked) {
    if (asked in nodes) return nodes[asked]
    if (!(asked in having)) return asked
    if (having[asked] == 1) return by_name[asked]
    complain(asked ": several devices: " by_name[asked])
    return ""
}

# A line of a device that is left out, as it has a control byte. Attributes that are no text are many, and not counted.
function leave_out(line) {
    if ((path, line) in left_out || line ~ /^a: / && !has_controls(substr(line, 1, index(line, "=")))) return
    left_out[path, line]
    lines_left_out[path]++
}

# A line of a record about the device at `path`.
function about(line,    letter, text) {
    if (has_controls(line)) { leave_out(line); return }
    letter = substr(line, 1, 2)
    text = substr(line, 4)
    if (letter == "U:" || letter == "V:") set(substr(letter, 1, 1), text)
    if (letter == "N:") { sub(/=.*/, "", text); set("N", text) }
    if (letter == "S:") add("S", text, text, 1)
    if (letter == "E:") property(text, is_added(substr(text, 1, index(text, "=") - 1)))
    if (letter == "e:") property(text, 0)
    if (letter == "d:") drivers[path] = text
    if (letter == "b:") buses[text]
    if (letter == "a:") add("A", substr(text, 1, index(text, "=") - 1), text, 0)
    if (letter == "k:") add("K", substr(text, 1, index(text, "=") - 1), text, 0)
    if (letter == "H:" && text ~ /^(descriptors|config)=/) {
        cut(text)
        add("K", path "/" name, path "/" name "=" tolower(value), 0)
    }
    if (letter == "A:") attribute(text)
    if (letter == "L:" && text ~ /=/) link(text)
}

BEGIN {
    escapes["n"] = "\n"; escapes["t"] = "\t"; escapes["r"] = "\r"
    escapes["b"] = "\b"; escapes["f"] = "\f"; escapes["v"] = "\v"
    # attributes that are not keys: these are in keys above, change with each boot, or count and measure
    passing = "^(subsystem|driver|dev|stat|inflight|statistics/.*|power/runtime_.*_time)$"
    secret_of_dmi = "^((board|chassis|product)_serial|product_uuid)$"
    # attributes that builtins of udev look at, which are no secrets: those of transport classes, then others by the
    # subsystem of their device
    transports = "^(ata_port/[^/]+/port_no|fc_transport/[^/]+/port_name|sas_device/[^/]+/(phy_identifier|sas_address)" \
        "|sas_port/[^/]+/num_phys|iscsi_session/[^/]+/targetname" \
        "|connection[^/]+/iscsi_connection/[^/]+/persistent_(address|port))$"
    looked_at["ap"] = "^(ap_functions|type)$"
    looked_at["block"] = looked_at["nvme-generic"] = "^nsid$"
    looked_at["input"] = "^(capabilities/(abs|ev|key|rel)|id/bustype|properties)$"
    looked_at["net"] = "^(addr_assign_type|address|dev_id|dev_port|flags|iflink|name_assign_type|phys_port_name|type)$"
    looked_at["pci"] = "^(acpi_index|ari_enabled|firmware_node/sun|function_id|index|label|modalias)$"
    looked_at["scsi"] = "^(ieee1394_id|model|rev|type|vendor)$"
    looked_at["usb"] = "^(bDeviceProtocol|bInterface(Class|Number|SubClass)|bcdDevice|id(Product|Vendor)" \
        "|manufacturer|product|serial|speed)$"
    looked_at["vmbus"] = "^device_id$"
    # attributes that make a block too long, and for which rules don't ask
    unasked = "^A: (queues|statistics|msi_irqs)/"
    # What rules ask programs and builtins for: those of systemd 252 and 257, and of the packages dmsetup, lvm2, mdadm and
    # libinput of Debian 12 and 13.
    drive = "^ID_(BUS|MODEL|MODEL_ENC|REVISION|SERIAL|SERIAL_SHORT|TYPE|VENDOR|VENDOR_ENC|WWN|WWN_WITH_EXTENSION|%_.*|%)$"
    ata = scsi = drive
    gsub(/%/, "ATA", ata)
    gsub(/%/, "(SCSI|TARGET|WWN_VENDOR)", scsi)
    content = "^ID_(FS|PART|LOOP_BACKING)_"
    question("^net/", "builtin net_driver", "^ID_NET_DRIVER$", "^ID_NET_DRIVER$")
    question("^block/[^/]*/sr", "builtin blkid --hint=session_offset=$env{ID_CDROM_MEDIA_SESSION_LAST_OFFSET}", content, "")
    question("^block/[^/]*/sr", "builtin blkid --noraid", content, "")
    question("^block/[^/]*/([^s]|s[^r])", "builtin blkid", content, "")
    question("^block/", "builtin btrfs ready $devnode", "^ID_BTRFS_READY$", "^ID_BTRFS_READY$")
    question("^block/disk/s[dr]", "ata_id --export $devnode", ata, "^ID_ATA$")
    question("^block/disk/(s[dr]|cciss)", "scsi_id --export --whitelisted -d $devnode", scsi, "^ID_SCSI$")
    question("^scsi_generic/", "scsi_id --sg-version=3 --export --whitelisted -d $devnode", scsi, "^ID_SCSI$")
    question("^scsi_tape/[^/]*/n?st", "scsi_id --whitelisted --export --device=$env{.BSG_DEV}", scsi, "^ID_SCSI$")
    question("^block/disk/", "cdrom_id --lock-media $devnode", "^ID_CDROM", "^ID_CDROM$")
    question("^block/disk/dm-", "/sbin/dmsetup info -j %M -m %m -c --nameprefixes --noheadings --rows -o name,uuid,suspended", \
        "^DM_(NAME|UUID|SUSPENDED)$", "^DM_NAME$")
    question("^block/disk/dm-", "/sbin/dmsetup info -j %M -m %m -c --nameprefixes --noheadings --rows -o suspended", \
        "^DM_SUSPENDED$", "^DM_SUSPENDED$")
    question("^block/disk/dm-", "/sbin/dmsetup splitname --nameprefixes --noheadings --rows $env{DM_NAME}", \
        "^DM_(VG_NAME|LV_NAME|LV_LAYER)$", "^DM_VG_NAME$")
    question("^block/disk/dm-", "/sbin/dmsetup udevflags $env{DM_COOKIE}", "^DM_(UDEV_|SUBSYSTEM_UDEV_|ACTIVATION$)", "^DM_UDEV_")
    question("^block/", "/sbin/lvm pvscan --cache --listvg --checkcomplete --vgonline --autoactivation event --udevoutput" \
        " --journal=output $env{DEVNAME}", "^LVM_VG_NAME_", "^LVM_VG_NAME_")
    question("^block/disk/md", "/sbin/mdadm --detail --no-devices --export $devnode", "^MD_", "^MD_LEVEL$")
    question("^video4linux/", "v4l_id $devnode", "^ID_V4L_", "^ID_V4L_VERSION$")
    question("^hidraw/", "fido_id", "^ID_(FIDO|SECURITY)_TOKEN$", "^ID_FIDO_TOKEN$")
    question("^dmi/", "dmi_memory_id", "^MEMORY_", "^MEMORY_")
    question("^mtd/", "mtd_probe $devnode", "^MTD_FTL$", "^MTD_FTL$")
    question("^input/", "libinput-device-group %S%p", "^LIBINPUT_DEVICE_GROUP$", "^LIBINPUT_DEVICE_GROUP$")
    question("^input/", "libinput-fuzz-extract %S%p", "^LIBINPUT_FUZZ_", "^LIBINPUT_FUZZ_")
    added = "^(ID|SYSTEMD|UDISKS|UPOWER|LIBINPUT|DM|MD|LVM|SCSI|ACCEL|EVDEV|IEEE1394|KEYBOARD|MOUSE|POINTINGSTICK|SOUND|XKB)_"
}

# A message of the first step that has a control byte.
saying { message = message (NR > 1 ? "\n" : "") $0; next }

# The lines that are not of the first step itself: they have no small letters, and end at a NUL byte, which is written \001.
/^f:/ {
    $0 = substr($0, 3)
    row++
    sub(/\001.*/, "")
    if (recorded) sub(/\r$/, "")
    if (recorded && has_other_form($0)) next
    if ($0 !~ /^[A-Z]:/ && $0 != "") {
        if (recorded) no_line("no line of a record")
        next
    }
}
{ letter = substr($0, 1, 2); text = substr($0, 4) }
(letter == "c:" || letter == "m:") && has_controls(text) { next }
letter == "c:" && sub(/^cmdline=/, "", text) { text = command_line(text) }
letter == "c:" { constants = constants "K: " text "\n"; next }
letter == "m:" { elsewhere[++elsewheres] = text; next }
letter == "n:" { sub(/\/\.\//, "/", text); if (!(text in odd)) { odd[text]; newlines++ } next }
letter == "x:" { sub(/\/\.\//, "/", text); guarded[text]; next }
letter == "z:" { sub(/\/\.\//, "/", text); begun[++beginnings] = text; next }
letter == "w:" { if (text == "") failed = 1; else order[++orders] = text; next }
letter == "P:" { begin(text, 1); walking = 0; next }
path != "" && $0 != "" { about($0) }

# A value that this text matches. What patterns are made of is put into sets, and so are a backslash in a pattern and one
# that would hide the quote after the value; `|` can't be in a set, and becomes the `?` that any byte matches.
function quoted(text,    out, i, c, pattern) {
    pattern = text ~ /[*?[|]|\\$/
    out = ""
    for (i = 1; i <= length(text); i++) {
        c = substr(text, i, 1)
        if (c == "\"") c = "\\\""
        else if (pattern && c == "\\") c = "[\\\\]"
        else if (pattern && c == "|") c = "?"
        else if (pattern && index("*?[", c)) c = "[" c "]"
        out = out c
    }
    return "\"" out "\""
}

# The line of a key that the text matches, or a comment if no rule can say so: in the name of an attribute udev replaces `$`
# and `%`, looks for another device after `[` and for any folder at `*`.
function compared(key, braced, text,    line) {
    if (braced != "") key = key "{" braced "}"
    if (braced ~ /[$%}]|^\[|\/\*\//) return "# " key ": no rule can hold this name\n"
    line = key "==" quoted(text) "\n"
    return length(line) > 16000 ? "# " key ": too long for a rule\n" : line
}

# The line of a key that a line of a block gives, or nothing; the keys of parents end in `s`.
function as_key(line, s,    letter, text) {
    letter = substr(line, 1, 1)
    text = substr(line, 4)
    if (letter == "U") return compared("SUBSYSTEM" s, "", text)
    if (letter == "V") return compared("DRIVER" s, "", text)
    if (letter == "P") {
        sub(/.*\//, "", text)
        gsub(/!/, "/", text)
        return "# " substr(line, 4) "\n" compared("KERNEL" s, "", text)
    }
    cut(text)
    return letter == "A" && name !~ passing ? compared("ATTR" s, name, value) : ""
}

# A question of rules to a program or a builtin, about the devices whose SUBSYSTEM/DEVTYPE/KERNEL the text `of` matches. It is
# answered by the stored properties that `names` matches, if a property that `mark` matches is stored; with an empty `mark`
# if anything is. What has moved from /sbin to /usr/sbin, or has a new name of an option, is asked for by either.
function question(of, command, names, mark) {
    asked_of[++questions] = of
    commands[questions] = command
    answered_by[questions] = names
    marks[questions] = mark
    if (sub(/^\/sbin\//, "/usr&", command) || sub(/--whitelisted/, "--allowlisted", command)) question(of, command, names, mark)
}

# Whether the device has a stored property that the pattern matches.
function has_stored(path, pattern,    i, part) {
    for (i = 1; i <= count[path]; i++) {
        split(keys[path, i], part, SUBSEP)
        if (part[2] == "E" && part[3] ~ pattern) return 1
    }
    return 0
}

# The node below /dev/bsg of the nearest device that is addressed as scsi devices are.
function scsi_node(path,    kernel_name) {
    while (path != "") {
        kernel_name = path
        sub(/.*\//, "", kernel_name)
        if (lines[path, "U", "U"] == "U: scsi" && kernel_name ~ /^[0-9].*:.*[0-9]$/) return "/dev/bsg/" kernel_name
        sub(/\/[^\/]*$/, "", path)
    }
    return ""
}

# What a substitution in a command stands for.
function substituted(path, text,    numbers) {
    if (text == "$env{.BSG_DEV}") return scsi_node(path)
    if (text == "$devnode") return (path, "N", "N") in lines ? "/dev/" substr(lines[path, "N", "N"], 4) : ""
    if (text == "%S") return "/sys"
    if (text == "%p") return path
    split(substr(lines[path, "D", "D"], 4), numbers, ":")
    if (text == "%M") return numbers[1]
    if (text == "%m") return numbers[2]
    text = substr(text, 6, length(text) - 6)
    return substr(lines[path, "E", text], length(text) + 5)
}

# A command for a device, or nothing if the device has no text for one of its substitutions.
function rendered(path, command,    out, at, n, text) {
    while (match(command, /[$]devnode|[$]env[{][^}]*[}]|%[MmSp]/)) {
        at = RSTART
        n = RLENGTH
        text = substituted(path, substr(command, at, n))
        if (text == "") return ""
        out = out substr(command, 1, at - 1) text
        command = substr(command, at + n)
    }
    return out command
}

# The stored properties that the pattern matches, as a program prints them, as lines of an answer.
function printed_by(path, pattern,    i, part, out) {
    for (i = 1; i <= count[path]; i++) {
        split(keys[path, i], part, SUBSEP)
        if (part[2] != "E" || part[3] !~ pattern) continue
        cut(substr(lines[keys[path, i]], 4))
        if (value == "" || value ~ /[\r]/) continue
        out = out "\nO: " name "=" as_printed(value)
    }
    return substr(out, 5)
}

# The lines of a block that answer a command.
function answer(command, status, text) { return "Q: " command "\nR: " status (text == "" ? "" : " " text) "\n" }

# The lines of a block that answer what rules ask about the device.
function answered(path,    i, of, kernel_name, command, out) {
    kernel_name = path
    sub(/.*\//, "", kernel_name)
    of = substr(lines[path, "U", "U"], 4) "/" substr(lines[path, "E", "DEVTYPE"], 12) "/" kernel_name
    for (i = 1; i <= questions; i++) {
        if (of !~ asked_of[i] || !(marks[i] == "" ? path in initialized : has_stored(path, marks[i]))) continue
        command = rendered(path, commands[i])
        if (command != "") out = out answer(command, 0, printed_by(path, answered_by[i]))
    }
    if (path in drivers && !has_stored(path, "^ID_NET_DRIVER$"))
        out = out answer("builtin net_driver", drivers[path] == "", drivers[path] == "" ? "" : "ID_NET_DRIVER=" drivers[path])
    return out
}

# The lines of what udev has stored about the event device, for IMPORT{db}.
function stored(path,    i, key, out) {
    for (i = 1; i <= count[path]; i++) {
        key = keys[path, i]
        if (lines[key] ~ /^E: / && lines[key] != kernels[key]) out = out "B: " substr(lines[key], 4) "\n"
    }
    return out
}

# The attributes of other devices that rules name in brackets, as attributes of the event device.
function attributes_elsewhere(path,    i, out) {
    for (i = 1; i <= elsewheres; i++) {
        cut(elsewhere[i])
        if (!((path, "A", name) in lines)) out = out "A: " elsewhere[i] "\n"
    }
    return out
}

# Whether a line of a block is about a file that a line before is about. These lines are of the event and not of a device,
# and devices of a chain may have the same ones, as two network interfaces have the slots of the machine.
function is_told(line) {
    cut(line)
    return told[name]++
}

# Whether a line of the event device is of what udev can't read once the device is gone.
function is_gone(line) { return action == "remove" && line ~ /^([AVK]:|E: DRIVER=)/ }

# The lines of a device, each with its newline. With `first` it is the event device. When that is removed, udev begins with what
# it has stored.
function device(path, first,    of, i, line, letter) {
    if (!(path in counted)) {
        counted[path]
        controls += lines_left_out[path]
        secrets_left_out += secrets_of[path]
    }
    add_bus(substr(lines[path, "U", "U"], 4))
    for (i = 1; i <= count[path]; i++) {
        line = first && kernel && action != "remove" ? kernels[keys[path, i]] : lines[keys[path, i]]
        if (shorter && line ~ unasked || first && is_gone(line)) continue
        letter = substr(line, 1, 1)
        if (letter == "K" && is_told(line)) continue
        of[letter] = of[letter] (walk ? as_key(line, first ? "" : "S") : line == "" ? "" : line "\n")
    }
    if (first) of["A"] = of["A"] attributes_elsewhere(path)
    if (first && answers) of["E"] = of["E"] stored(path)
    return of["P"] of["U"] of["V"] of["N"] of["D"] of["A"] of["E"] of["G"] of["S"] of["K"]
}

# Adds a subsystem to those of a block that are buses, by which events knows that their devices have no link `device`.
function add_bus(subsystem) {
    if (subsystem in buses && !index(bus_words " ", " " subsystem " ")) bus_words = bus_words " " subsystem
}

# A device with its parents, those that have a record, as a block or as keys; `devices` says how many they are.
function written(path,    out, parent) {
    split("", told)
    bus_words = ""
    out = (walk ? "" : "C: " action "\n") device(path, 1)
    devices = 1
    parent = path
    while (sub(/\/[^\/]*$/, "", parent) && parent != "") if (parent in seen) {
        out = out (walk ? "\n" : "") device(parent, 0)
        devices++
    }
    if (bus_words != "" && !walk) out = out "K: bus=" substr(bus_words, 2) "\n"
    return out constants (answers ? answered(path) : "")
}

# Prints a device. A block that would be too long goes without what rules don't ask for.
function block(path,    out) {
    out = written(path)
    if (length(out) > 65536 && devices <= 64 && !walk) {
        shorter = 1
        out = written(path)
        shorter = 0
        if (length(out) <= 65536) say(path ": its block has no queues/*, statistics/* and msi_irqs/*, as it would have over 65,536 bytes")
    }
    if (devices > 64 && !walk) complain(path ": it has over 63 parents, and is left out")
    else if (length(out) > 65536 && !walk) complain(path ": its block has over 65,536 bytes, and is left out")
    else printf "%s\n", out
}

END {
    if (saying) {
        say(message)
        exit close("cat 1>&2")
    }
    for (i = 1; i <= beginnings; i++) beginning(begun[i])
    for (path in seen) remove_secrets(path)
    for (i = 1; i <= orders; i++) {
        path = path_of(order[i])
        if (path in printed || path in refused || path == "") continue
        printed[path] = 1
        if (path in seen) block(path)
        else complain(path ": no device of the record")
    }
    leave_object()
    say_strange()
    say_walked()
    say_left_out(newlines, "name", " with a newline")
    say_left_out(controls, "line", " with a control byte")
    say_left_out(secrets_left_out, "line", " for root alone or secret by name")
    say_left_out(words_left_out, "word", " of the command line that may be secret")
    close("cat 1>&2")
    exit (orders || failed ? failed : 4)
}
