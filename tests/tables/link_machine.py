"""`events --udev`: .link files for a machine: conditions, and the kind of an interface. `udevadm test-builtin` of 257 was asked about
each on a machine of this architecture, virtualization and version of the kernel, for one of a veth pair, with this command line.
"""
from tables.builtin_link import row

RELEASE = "6.18.44-fc-v973"
MACHINE = ("arch=x86-64", "virt=kvm", f"kernel={RELEASE}", "kind=veth")
LINE = 'quiet reboot=k rd.luks=1 two=1 two=2 q="x y" a_b=7 empty= two -- behind=1 --auth-required'

# Lines of [Match] by which the file is for the interface, and others.
MET = [
    "Architecture=x86-64", "Architecture=native", "Architecture=!arm64", "Architecture=arm64\nArchitecture=x86-64", "Architecture=!bogus",
    "Architecture=!!arm64", "Architecture= ! arm64", "Architecture=x86-64 ",
    "Virtualization=yes", "Virtualization=true", "Virtualization=1", "Virtualization=vm", "Virtualization=kvm", "Virtualization=!no",
    "Virtualization=!container", "Virtualization=!bogus", "Virtualization=qemu\nVirtualization=kvm",
    "KernelCommandLine=quiet", "KernelCommandLine=reboot", "KernelCommandLine=reboot=k", "KernelCommandLine=!nosuch", "KernelCommandLine=q",
    "KernelCommandLine=q=x y", "KernelCommandLine=rd.luks", "KernelCommandLine=rd.luks=1", "KernelCommandLine=behind",
    "KernelCommandLine=--auth-required", "KernelCommandLine=a_b", "KernelCommandLine=a_b=7", "KernelCommandLine=two=1", "KernelCommandLine=two=2",
    "KernelCommandLine=two", "KernelCommandLine=empty", "KernelCommandLine=empty=", "KernelCommandLine=nosuch\nKernelCommandLine=quiet",
    "KernelCommandLine=quiet\nOriginalName=*",
    "KernelVersion=6.18*", f"KernelVersion={RELEASE}", "KernelVersion=6.1[78]*", "KernelVersion=6.1?.44*", "KernelVersion=5*\nKernelVersion=6*",
    "Kind=veth", "Kind=v*", "Kind=!bridge", "Kind=bridge veth",
]
NOT_MET = [
    "Architecture=x86", "Architecture=arm64", "Architecture=X86-64", "Architecture=!x86-64", "Architecture=x86-64 arm64", "Architecture=bogus",
    "Architecture=x86-*", "Architecture=|x86-64", "Architecture=x86-64\nArchitecture=arm64",
    "Virtualization=no", "Virtualization=0", "Virtualization=container", "Virtualization=none", "Virtualization=KVM", "Virtualization=qemu",
    "Virtualization=amazon", "Virtualization=!kvm", "Virtualization=!yes", "Virtualization=!vm", "Virtualization=bogus", "Virtualization=kvm qemu",
    "Virtualization=|kvm", "Virtualization=docker", "Virtualization=kvm\nVirtualization=qemu",
    "KernelCommandLine=reboot=x", "KernelCommandLine=nosuch", "KernelCommandLine=!quiet", "KernelCommandLine=quiet nosuch",
    "KernelCommandLine=quiet reboot=k", 'KernelCommandLine="quiet reboot=k"', 'KernelCommandLine="q=x y"', 'KernelCommandLine=q="x y"',
    "KernelCommandLine=q=x", "KernelCommandLine=y", "KernelCommandLine=a-b", "KernelCommandLine=a-b=7", "KernelCommandLine=QUIET",
    "KernelCommandLine=qui*", "KernelCommandLine=net.ifnames=0", "KernelCommandLine=|quiet", "KernelCommandLine=quiet\nKernelCommandLine=nosuch",
    "KernelCommandLine=quiet\nKernelCommandLine=", "KernelCommandLine=nosuch\nOriginalName=*",
    "KernelVersion=6.18", "KernelVersion=!6.18*", "KernelVersion=5* 6*", "KernelVersion=6* 5*", "KernelVersion=", "KernelVersion=!",
    "KernelVersion=6.18*\tx",
    "Kind=!veth", "Kind=bridge", "Kind=VETH", "Kind=",
]
# The same of versions that are compared by their order.
IN_ORDER = [
    "KernelVersion=>5", "KernelVersion=> 5", "KernelVersion=>=6.18", f"KernelVersion=<={RELEASE}", f"KernelVersion=={RELEASE}", "KernelVersion=!=6.18",
    "KernelVersion=<>6.18", f"KernelVersion==={RELEASE}", "KernelVersion=>6.17 <6.19", "KernelVersion=!<6", 'KernelVersion=">5 <7"',
    "KernelVersion=$=6.18*", "KernelVersion=!$=5*", "KernelVersion=>6.18.9", "KernelVersion=>6.18.44", "KernelVersion=>6.18.44-fc",
    "KernelVersion=<6.18.44-fc-v1000",
]
NOT_IN_ORDER = [
    "KernelVersion=<6.18", "KernelVersion=<=6.18.44", "KernelVersion=>6.17 <6.18", "KernelVersion=>6.18.100", "KernelVersion=>", "KernelVersion=>=",
]
NAMED = ["ID_NET_LINK_FILE=/etc/systemd/network/10-a.link", "ID_NET_LINK_FILE_DROPINS=", "ID_NET_NAME=abc0"]


def cases():
    """Each with a name, its file, what differs from the event of the other cases, and what udevadm printed."""
    for texts, lines in ((MET, NAMED), (NOT_MET, []), (IN_ORDER, NAMED), (NOT_IN_ORDER, [])):
        for text in texts:
            yield f"a machine: {text}", {"10-a.link": f"[Match]\n{text}\n[Link]\nName=abc0\n"}, {"cmdline": LINE, "machine": MACHINE}, lines


ROWS = [row(*case) for case in cases()]
