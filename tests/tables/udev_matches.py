"""`events --udev`: matches, as udevadm 257 answers it."""
from tables.kinds.udev_blocks import BANG, BOTH, CLASS, DISK, PART, RETURNS, STAR, SUBSYSTEM, answering
from tables.kinds.udev_events import answered_as_udev

CASES = [
    ('an absent attribute fails with either operator',
     ('ATTR{none}!="1", ENV{A}="1"\n' +
      'ATTR{none}=="", ENV{B}="1"\n' +
      'ATTR{none}!="", ENV{C}="1"\n'),
     DISK,
     []),
    ('an existing attribute',
     'ATTR{model}!="1", ENV{A}="1"\n',
     DISK,
     ['env A=1']),
    ('an absent attribute with ATTRS',
     ('ATTRS{vendor}!="1", ENV{D}="$id"\n' +
      'ATTRS{serial}!="7", ENV{E}="$id"\n' +
      'ATTRS{none}!="7", ENV{F}="$id"\n'),
     DISK,
     ['env D=pci0']),
    ('a folder is not an attribute',
     'ATTR{q}!="x", ENV{H}="1"\n',
     STAR,
     []),
    ('SUBSYSTEM class',
     ('SUBSYSTEM=="subsystem", ENV{A}="1"\n' +
      'SUBSYSTEM=="bus", ENV{B}="1"\n' +
      'SUBSYSTEM!="bus", ENV{C}="1"\n' +
      'SUBSYSTEM=="bus|x", ENV{D}="1"\n' +
      'SUBSYSTEMS=="subsystem", ENV{E}="1"\n'),
     CLASS,
     ['env A=1', 'env B=1']),
    ('SUBSYSTEM class with i, and a pattern',
     ('SUBSYSTEM==i"Class", ENV{G}="1"\n' +
      'SUBSYSTEM==i"sub*", ENV{H}="1"\n'),
     CLASS,
     ['env G=1']),
    ('SUBSYSTEM subsystem',
     ('SUBSYSTEM=="bus", ENV{A}="1"\n' +
      'SUBSYSTEM=="class", ENV{B}="1"\n' +
      'SUBSYSTEM=="c*", ENV{C}="1"\n'),
     SUBSYSTEM,
     ['env A=1', 'env B=1']),
    ('SUBSYSTEM of a device with another subsystem',
     ('SUBSYSTEM=="subsystem", ENV{A}="1"\n' +
      'SUBSYSTEM!="class", ENV{B}="1"\n'),
     DISK,
     ['env B=1']),
    ('an attribute of a device of the chain',
     ('ATTR{[usb/usb1]serial}=="7", ENV{D}="1"\n' +
      'ATTR{[usb/usb1]/serial}=="7", ENV{E}="1"\n' +
      'ATTR{[block/sda]size}=="2048", ENV{K}="1"\n'),
     DISK,
     ['env D=1', 'env E=1', 'env K=1']),
    ('an absent attribute of a device of the chain is empty',
     ('ATTR{[usb/usb1]none}=="", ENV{E}="1"\n' +
      'ATTR{[usb/usb1]none}!="x", ENV{F}="1"\n' +
      'ATTR{[usb/usb1]none}=="x", ENV{G}="1"\n'),
     DISK,
     ['env E=1', 'env F=1']),
    ('an attribute of a device that does not exist',
     ('ATTR{[usb/none]serial}!="7", ENV{G}="1"\n' +
      'ATTR{[usb/usb1]}!="x", ENV{H}="1"\n' +
      'ATTR{[usb]x}!="x", ENV{I}="1"\n'),
     DISK,
     ['note r.rules:1: attribute not read: [usb/none]serial']),
    ('the links of a device as attributes',
     ('ATTR{subsystem}=="block", ENV{A}="1"\n' +
      'SUBSYSTEMS=="usb", ENV{B}="$attr{driver}"\n'),
     DISK,
     ['env A=1', 'env B=hub']),
    ('a path as the name of an attribute',
     ('ATTR{../../serial}=="7", ENV{A}="1"\n' +
      'ATTR{./model}=="Disk", ENV{C}="1"\n' +
      'ENV{D}="$attr{../../serial}"\n'),
     DISK,
     ['env A=1', 'env C=1', 'env D=7']),
    ('an attribute by a path from the folder of the device',
     ('ATTR{../../serial}=="7", ENV{A}="$attr{../../serial}|%s{./model}|$attr{./../../serial}|$attr{../../none}|$attr{../serial}|"\n' +
      'ATTR{./size}=="2048", ENV{B}="1"\n' +
      'ATTR{../../none}!="x", ENV{C}="1"\n' +
      'ATTR{./none}!="x", ENV{D}="1"\n'),
     DISK,
     ['env A=7|Disk|7|||', 'env B=1', 'note r.rules:1: attribute not read: ../serial']),
    ('a path to what the block does not have',
     ('ATTR{../serial}!="7", ENV{A}="1"\n' +
      'ATTR{../../../../x}!="7", ENV{B}="1"\n' +
      'ATTR{../../block/sdb/size}!="7", ENV{C}="1"\n'),
     DISK,
     ['note r.rules:1: attribute not read: ../serial', 'note r.rules:2: attribute not read: ../../../../x',
      'note r.rules:3: attribute not read: ../../block/sdb/size']),
    ('a path that leads to a device above each device, with ATTRS',
     'ATTRS{../serial}=="7", ENV{A}="$id"\nATTRS{./serial}=="7", ENV{B}="$id"\n',
     DISK.replace("P: /devices/pci0/usb1\nU: usb\n", "P: /devices/pci0/usb1/port\nU: usb\nP: /devices/pci0/usb1\nU: usb\n")
     .replace("/devices/pci0/usb1/block/sda", "/devices/pci0/usb1/port/block/sda"),
     ['env A=port', 'env B=usb1']),
    ('the links to the driver and the subsystem of a device',
     ('ATTRS{driver}=="hub", ENV{A}="$id|$attr{driver}|$attr{subsystem}|"\n' +
      'ATTR{driver}!="x", ENV{B}="1"\n' +
      'ATTR{subsystem}=="block", ENV{C}="1"\n'),
     DISK,
     ['env A=usb1|hub|block|', 'env C=1']),
    ('what the block has under the name of a link or a path',
     'ATTR{subsystem}=="a", ENV{A}="$attr{../../serial}"\n',
     DISK.replace("A: size=2048\n", "A: size=2048\nA: subsystem=a\nA: ../../serial=8\n"),
     ['env A=8']),
    ('a kernel name in brackets has its slashes',
     ('ATTR{[block/cciss/c0d0]x}=="", ENV{A}="1"\n' +
      'ATTR{[pci/12]x}=="", ENV{D}="1"\n'),
     BANG,
     ['env A=1', 'env D=1']),
    ('an attribute of a device of the chain, with ATTRS',
     'ATTRS{[usb/usb1]serial}=="7", ENV{I}="$id"\n',
     DISK,
     ['env I=sda']),
    ('$attr of a device of the chain',
     'ENV{H}="$attr{[usb/usb1]serial}|$attr{[usb/usb1]none}|$attr{[usb/none]serial}|$attr{[usb]x}|"\n',
     DISK,
     ['env H=7||||', 'note r.rules:1: attribute not read: [usb/none]serial']),
    ('the name of an attribute is rendered',
     ('ATTR{$kernel}=="x", ENV{A}="1"\n' +
      'ATTR{x%ny}=="1", ENV{B}="1"\n' +
      'ATTRS{%k}=="x", ENV{C}="$id"\n' +
      'ATTR{$kernel}!="x", ENV{D}="1"\n' +
      'ATTR{none%n}!="x", ENV{E}="1"\n'),
     BOTH+"A: both7=x\nA: x7y=1\n",
     ['env A=1', 'env B=1', 'env C=both7']),
    ('a fault in the name of an attribute',
     ('ATTR{%}=="1", ENV{A}="1"\n' +
      'ATTR{$disk}=="2", ENV{B}="1"\n' +
      'ATTR{a$attr}=="3", ENV{C}="1"\n' +
      'ATTR{a$kernel{x}=="3", ENV{D}="1"\n' +
      'ATTR{a$env{X}=="3", ENV{E}="1"\n' +
      'ATTR{a%c{1}=="3", ENV{F}="1"\n' +
      'ATTR{$attr{a}!="x", ENV{G}="1"\n'),
     STAR+"A: %=1\nA: $disk=2\nA: a=3\n",
     ['env A=1', 'env B=1', 'env C=1', 'env D=1', 'env E=1', 'env F=1']),
    ('$$ and %% in the name of an attribute',
     ('ATTR{a$$b}=="1", ENV{A}="1"\n' +
      'ATTR{c%%}=="2", ENV{B}="1"\n'),
     STAR+"A: a$b=1\nA: c%=2\n",
     ['env A=1', 'env B=1']),
    ('substitutions in the name of an attribute',
     ('ATTR{v%M:%m}=="1", ENV{A}="1"\n' +
      'ATTR{n$name}=="2", ENV{B}="1"\n' +
      'ATTR{d$devnode}=="3", ENV{C}="1"\n' +
      'ATTR{r%r.}=="4", ENV{D}="1"\n' +
      'ATTR{s$sys}=="5", ENV{E}="1"\n' +
      'ATTR{w$devpath}=="6", ENV{F}="1"\n' +
      'ATTR{[block/sda]model}=="Disk", ENV{G}="1"\n'),
     DISK.replace("A: size=2048\n", "A: size=2048\nA: v8:0=1\nA: nsda=2\nA: d/dev/sda=3\nA: r/dev.=4\nA: s/sys=5\nA: w/devices/pci0/usb1/block/sda=6\n"),
     ['env A=1', 'env B=1', 'env C=1', 'env D=1', 'env E=1', 'env F=1', 'env G=1']),
    ('the node of the parent in the name of an attribute',
     'ATTR{p%P}=="1", ENV{A}="1"\n',
     PART.replace("D: 8:1\n", "D: 8:1\nA: pdisks/vda=1\n"),
     ['env A=1']),
    ('links in the name of an attribute',
     ('ATTR{l$links}=="0", ENV{A}="1"\n' +
      'SYMLINK+="a"\n' +
      'ATTR{l$links}=="1", ENV{B}="1"\n' +
      'ATTR{l%L.}=="2", ENV{C}="1"\n'),
     DISK.replace("A: size=2048\n", "A: size=2048\nA: l=0\nA: la=1\nA: la.=2\n"),
     ['link a', 'env A=1', 'env B=1', 'env C=1']),
    ('the result of a program in the name of an attribute',
     ('ATTR{r$result}=="0", ENV{A}="1"\n' +
      'PROGRAM="ata_id r1"\n' +
      'ATTR{r%c}=="1", ENV{B}="1"\n'),
     answering(DISK.replace("A: size=2048\n", "A: size=2048\nA: r=0\nA: rr1=1\n"), ("ata_id r1", 0, "r1")),
     ['env A=1', 'env B=1']),
    ('the selected device in the name of an attribute',
     ('ATTR{x$id}=="0", ENV{A}="1"\n' +
      'SUBSYSTEMS=="usb", ENV{B}="1"\n' +
      'ATTR{x$id}=="1", ENV{C}="1"\n' +
      'ATTR{x$driver}=="2", ENV{D}="1"\n' +
      'SUBSYSTEMS=="none", ENV{E}="1"\n' +
      'ATTR{x%b}=="0", ENV{F}="1"\n'),
     DISK.replace("A: size=2048\n", "A: size=2048\nA: x=0\nA: xusb1=1\nA: xhub=2\n"),
     ['env A=1', 'env B=1', 'env C=1', 'env D=1', 'env F=1']),
    ('the device being tried in the name of an attribute',
     ('ATTRS{x%b}=="1", ENV{A}="$id"\n' +
      'ATTR{x%b}=="3", ENV{C}="1"\n' +
      'ATTRS{x$driver}=="2", ENV{B}="$id"\n' +
      'ATTRS{x$id}=="4", ENV{D}="$id"\n' +
      'ATTRS{x$id}!="1", ATTRS{x$id}!="3", ENV{E}="$id"\n'),
     DISK.replace("A: size=2048\n", "A: size=2048\nA: xusb1=3\nA: xsda=4\nA: x=2\n").replace("A: serial=7\n", "A: serial=7\nA: xusb1=1\nA: xsda=1\nA: xhub=2\n"),
     ['env A=usb1', 'env B=sda', 'env C=1', 'env D=sda', 'env E=sda']),
    ('a rendered attribute name of 511 bytes',
     ('ATTR{' + 'd' * 250 + '/' + 'e' * 250 + '/' + 'f' * 6 + '%k}=="1", ENV{A}="1"\n' +
      'ATTR{' + 'd' * 250 + '/' + 'e' * 250 + '/' + 'f' * 7 + '%k}=="1", ENV{B}="1"\n' +
      'ATTR{' + 'd' * 250 + '/' + 'e' * 250 + '/' + 'f' * 7 + '%k}!="1", ENV{C}="1"\n' +
      'ATTR{' + 'd' * 250 + '/' + 'e' * 250 + '/' + 'f' * 7 + 'sda}=="1", ENV{D}="1"\n'),
     DISK.replace("A: size=2048\n", "A: size=2048\nA: " + 'd' * 250 + '/' + 'e' * 250 + '/' + 'f' * 6 + "sda=1\nA: " + 'd' * 250 + '/' + 'e' * 250 + '/' + 'f' * 7 + "sda=1\n"),
     ['env A=1', 'env D=1']),
    ('no substitutions after a bracket',
     'ATTR{[block/$kernel]size}!="1", ENV{J}="1"\n',
     DISK,
     ['note r.rules:1: attribute not read: [block/$kernel]size']),
    ('an attribute is cut to 511 bytes',
     ('ATTR{big}=="' + 'x' * 511 + '", ENV{A}="1"\n' +
      'ATTR{big}=="' + 'x' * 600 + '", ENV{B}="1"\n' +
      'ATTR{[misc/star]big}=="' + 'x' * 511 + '", ENV{F}="1"\n'),
     STAR,
     ['env A=1', 'env F=1']),
    ('$attr over 511 bytes is too long',
     ('ENV{C}="$attr{big}"\n' +
      'RUN+="/bin/a $attr{big}"\n' +
      'RUN+="/bin/b $attr{b511}"\n'),
     STAR,
     ['run program /bin/b ' + 'x' * 511, 'note r.rules:1: text too long: ENV{C}',
      'note r.rules:2: text too long: RUN']),
    ('$attr of a device of the chain is cut',
     'ENV{G}="$attr{[misc/star]big}"\n',
     STAR,
     ['env G=' + 'x' * 511]),
    ('an attribute of blanks',
     ('ATTR{blank}=="", ENV{H}="1"\n' +
      'ATTR{blank}!="", ENV{I}="1"\n' +
      'ATTR{blank}=="|x", ENV{S}="1"\n' +
      'ATTR{blank}==" | ", ENV{T}="1"\n'),
     STAR,
     ['env I=1', 'env S=1']),
    ('blanks at the end of an attribute',
     ('ATTR{spaces}=="  a  b", ENV{O}="1"\n' +
      'ATTR{spaces}=="*b ", ENV{P}="1"\n' +
      'ATTR{spaces}=="*b  ", ENV{Q}="1"\n' +
      'ENV{N}="[$attr{spaces}]"\n'),
     STAR,
     ['env N=[  a  b]', 'env O=1', 'env Q=1']),
    ('bytes of $attr',
     'ENV{R}="$attr{control}"\n',
     STAR,
     ['env R=a b_c_d_e/f$g%h?i,j k_é']),
    ('no tag and no link: ?* and the empty text',
     ('TAG=="?*", ENV{A}="1"\n' +
      'TAG!="", ENV{B}="1"\n' +
      'TAG=="", ENV{C}="1"\n' +
      'TAG!="?*", ENV{D}="1"\n' +
      'SYMLINK=="?*", ENV{E}="1"\n' +
      'SYMLINK!="?*", ENV{F}="1"\n' +
      'TAGS=="?*", ENV{G}="$id"\n'),
     DISK,
     ['env A=1', 'env B=1', 'env E=1', 'env G=sda']),
    ('a tag: ?* and the empty text',
     ('TAG+="t"\n' +
      'TAG=="?*", ENV{O}="1"\n' +
      'TAG!="?*", ENV{P}="1"\n' +
      'TAG!="*", ENV{Q}="1"\n'),
     DISK,
     ['tag t', 'env O=1']),
    ('an absent property: ?* and the empty text',
     ('ENV{NONE}=="?*", ENV{H}="1"\n' +
      'ENV{NONE}=="*", ENV{I}="1"\n' +
      'ENV{NONE}=="|x", ENV{J}="1"\n' +
      'ENV{NONE}!="?*", ENV{K}="1"\n'),
     DISK,
     ['env I=1', 'env J=1', 'env K=1']),
    ('patterns',
     ('KERNEL=="s[[:alpha:]]a", ENV{A}="1"\n' +
      'KERNEL=="s\\da|z*", ENV{B}="1"\n' +
      'KERNEL=="s\\da", ENV{C}="1"\n' +
      'KERNEL=="sd[a", ENV{D}="1"\n' +
      'KERNEL==i"S[D]A", ENV{E}="1"\n' +
      'DEVPATH=="/devices/*/sda", ENV{G}="1"\n'),
     DISK,
     ['env A=1', 'env B=1', 'env E=1', 'env G=1']),
    ('a kernel name with an exclamation mark',
     ('KERNEL=="cciss/c0d0", ENV{B}="1"\n' +
      'SYMLINK+="by/$kernel"\n'),
     BANG,
     ['link by/cciss/c0d0', 'env B=1']),
    ('no result',
     ('RESULT=="", ENV{A}="1"\n' +
      'RESULT!="x", ENV{B}="1"\n' +
      'RESULT=="?*", ENV{C}="1"\n'),
     DISK,
     ['env A=1', 'env B=1']),
    ('an attribute that was read keeps its value',
     ('ATTR{model}=="Disk", ATTR{model}="New"\n' +
      'ATTR{model}=="Disk", ENV{A}="1"\n' +
      'ENV{B}="$attr{model}"\n'),
     DISK,
     ['env A=1', 'env B=Disk', 'attr model=New']),
    ('an attribute that was assigned keeps its value, as nothing is written',
     ('ATTR{model}="new $attr{size}", ENV{A}="$attr{model}"\n' +
      'ATTR{model}=="new*", ENV{B}="1"\n' +
      'ATTR{model}=="Disk", ENV{C}="$attr{model}"\n' +
      'ATTRS{model}=="Disk", ENV{D}="1"\n' +
      'ATTR{none}="1"\n' +
      'ATTR{none}=="1", ENV{E}="1"\n' +
      'TEST=="none", ENV{F}="1"\n' +
      'ENV{G}="$attr{none}|"\n' +
      'ATTR{size}=""\n' +
      'ATTR{size}=="2048", ENV{H}="$attr{size}"\n' +
      'ATTR{[usb/usb1]serial}="9"\n' +
      'ATTR{[usb/usb1]serial}=="7", ENV{I}="$attr{[usb/usb1]serial}"\n' +
      'ATTRS{serial}=="7", ENV{J}="$attr{serial}"\n'),
     DISK,
     ['env A=Disk', 'env C=Disk', 'env D=1', 'env G=|', 'env H=2048', 'env I=7', 'env J=7',
      'attr model=new 2048', 'attr none=1', 'attr size=', 'attr [usb/usb1]serial=9']),
    ('carriage returns at the end of an attribute are no part of it',
     ('ATTR{c}=="y ", ENV{A}="1"\n' +
      'ATTR{c}==e"y \\r", ENV{B}="1"\n' +
      'ATTR{d}=="y| ", ENV{C}="1"\n' +
      'ATTR{d}==e"y\\r", ENV{D}="1"\n' +
      'ATTR{e}==e"y\\r ", ENV{E}="1"\n' +
      'ATTR{f}=="", ENV{F}="1"\n' +
      'ATTR{f}!="?*", ENV{G}="1"\n' +
      'ATTRS{c}=="y ", ENV{H}="$attr{c}|$attr{d}|$attr{e}|$attr{f}|"\n' +
      'ATTR{[misc/returns]c}=="y ", ENV{I}="$attr{[misc/returns]c}|"\n' +
      'ENV{J}="$attr{long}"\n'),
     RETURNS,
     ['env A=1', 'env C=1', 'env E=1', 'env F=1', 'env G=1', 'env H=y|y|y||', 'env I=y|', 'env J=' + 'x' * 511]),
    ('an attribute of blanks and ?*',
     ('ATTR{blank}=="?*", ENV{J}="1"\n' +
      'ATTR{blank}!="", ENV{I}="1"\n'),
     STAR,
     ['env I=1']),
    ('SUBSYSTEM class with i, and the other two words',
     ('SUBSYSTEM==i"SUBSYSTEM", ENV{F}="1"\n' +
      'SUBSYSTEM==i"Class", ENV{G}="1"\n' +
      'SUBSYSTEM==i"bus", ENV{H}="1"\n'),
     CLASS,
     ['env G=1', 'env H=1']),
]

ROWS = answered_as_udev(CASES)
