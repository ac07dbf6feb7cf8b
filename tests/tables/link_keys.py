"""`verify --links`: each key of `.link` files with a value that it takes, and each word of the values that are looked at.

The lists are udev's own, of the source of systemd 257.13-1~deb13u1 (Debian trixie): the keys are those of
src/udev/net/link-config-gperf.gperf, in groups by the function that is named there; the words are from the files that are
named at each list. Values are from systemd.link(5) of that version.
"""
from tables.kinds.folders import checked
from tables.kinds.row import Row

MATCH = "[Match]\nOriginalName=*\n"

# section, a value that the keys take, one that they do not take if it is told, and the keys
KEYS = [
    # config_parse_hw_addrs, _match_ifnames, _match_strv, _match_property, _net_condition
    ("Match", "00:50:b6:aa:bb:cc", "", "MACAddress PermanentMACAddress"),
    ("Match", "en* !eth0", "a-name-of-over-15-bytes", "OriginalName"),
    ("Match", "'pci-0000:02:00.0-*'", "'pci-*", "Path Driver Type Kind"),
    ("Match", "ID_BUS=usb", "ID_BUS", "Property"),
    ("Match", "nas", "", "Host Virtualization KernelCommandLine KernelVersion Credential Architecture Firmware"),
    # config_parse_string, _udev_property, _udev_property_name
    ("Link", "to the lab", "", "Description"),
    ("Link", "ID_ROOM=\"3 b\"", "", "Property"),
    ("Link", "ID_BUS ID_MODEL", "", "ImportProperty UnsetProperty"),
    # config_parse_mac_address_policy, _hw_addr, _name_policy, _ifname, _ifnames, _alternative_names_policy, _ifalias
    ("Link", "random", "persistant", "MACAddressPolicy"),
    ("Link", "cb:a9:87:65:43:21", "", "MACAddress"),
    ("Link", "kernel database", "kernel datebase", "NamePolicy"),
    ("Link", "lan0", "lan0 lan1", "Name"),
    ("Link", "a-name-of-over-15-bytes", "", "AlternativeName"),
    ("Link", "onboard slot", "onboard keep", "AlternativeNamesPolicy"),
    ("Link", "uplink", "", "Alias"),
    # config_parse_rx_tx_queues, _txqueuelen, _mtu, _si_uint64, _duplex
    ("Link", "4096", "", "TransmitQueues ReceiveQueues TransmitQueueLength MTUBytes"),
    ("Link", "10M", "", "BitsPerSecond"),
    ("Link", "full", "fool", "Duplex"),
    # config_parse_tristate
    ("Link", "yes", "maybe",
     "AutoNegotiation ReceiveChecksumOffload TransmitChecksumOffload GenericSegmentationOffload TCPSegmentationOffload "
     "TCP6SegmentationOffload GenericReceiveOffload GenericReceiveOffloadHardware LargeReceiveOffload "
     "ReceiveVLANCTAGHardwareAcceleration TransmitVLANCTAGHardwareAcceleration ReceiveVLANCTAGFilter "
     "TransmitVLANSTAGHardwareAcceleration NTupleFilter RxFlowControl TxFlowControl AutoNegotiationFlowControl "
     "UseAdaptiveRxCoalesce UseAdaptiveTxCoalesce"),
    # config_parse_wol, _wol_password, _port, _advertise
    ("Link", "magic secureon", "majic", "WakeOnLan"),
    ("Link", "cb:a9:87:65:43:21", "", "WakeOnLanPassword"),
    ("Link", "fibre", "", "Port"),
    ("Link", "1000baset-half 1000baset-full", "", "Advertise"),
    # config_parse_ring_buffer_or_channel, which also takes `max`
    ("Link", "max", "", "RxChannels TxChannels OtherChannels CombinedChannels RxBufferSize RxMiniBufferSize RxJumboBufferSize TxBufferSize"),
    # config_parse_iec_size, _uint32
    ("Link", "64K", "", "GenericSegmentOffloadMaxBytes"),
    ("Link", "65535", "", "GenericSegmentOffloadMaxSegments"),
    # config_parse_coalesce_sec, _coalesce_u32
    ("Link", "50us", "",
     "RxCoalesceSec RxCoalesceIrqSec TxCoalesceSec TxCoalesceIrqSec StatisticsBlockCoalesceSec RxCoalesceLowSec TxCoalesceLowSec "
     "RxCoalesceHighSec TxCoalesceHighSec CoalescePacketRateSampleIntervalSec"),
    ("Link", "32", "",
     "RxMaxCoalescedFrames RxMaxCoalescedIrqFrames TxMaxCoalescedFrames TxMaxCoalescedIrqFrames CoalescePacketRateLow "
     "RxMaxCoalescedLowFrames TxMaxCoalescedLowFrames CoalescePacketRateHigh RxMaxCoalescedHighFrames TxMaxCoalescedHighFrames"),
    # config_parse_rps_cpu_mask, _mdi, _sr_iov_num_vfs
    ("Link", "0-3 5", "", "ReceivePacketSteeringCPUMask"),
    ("Link", "crossover", "", "MDI"),
    ("Link", "2", "", "SR-IOVVirtualFunctions"),
    # config_parse_sr_iov_uint32, _sr_iov_vlan_proto, _sr_iov_boolean, _sr_iov_link_state, _sr_iov_mac
    ("SR-IOV", "2", "", "VirtualFunction VLANId QualityOfService"),
    ("SR-IOV", "802.1ad", "", "VLANProtocol"),
    ("SR-IOV", "yes", "maybe", "MACSpoofCheck QueryReceiveSideScaling Trust"),
    ("SR-IOV", "auto", "", "LinkState"),
    ("SR-IOV", "cb:a9:87:65:43:21", "", "MACAddress"),
]

# Keys that are newer, by the same file of systemd 262-1 (Debian forky), whose systemd.link(5) says of each `Added in version
# 258`: config_parse_tristate, _sec and _advertise.
NEWER = [
    ("Link", "yes", "maybe", "PartialGenericSegmentationOffload"),
    ("EnergyEfficientEthernet", "yes", "maybe", "Enable TxLowPowerIdle"),
    ("EnergyEfficientEthernet", "10ms", "", "TxLowPowerIdleSec"),
    ("EnergyEfficientEthernet", "1000baset-full", "", "LinkMode"),
]

# Each key once.
EACH = [(section, value, wrong, key) for section, value, wrong, keys in KEYS + NEWER for key in keys.split()]

# key, the words of its values, and other words that are none of them
WORDS = [
    # name_policy_table and alternative_names_policy_table of src/shared/netif-naming-scheme.c
    ("NamePolicy", "kernel keep database onboard slot path mac", "none persistent"),
    ("AlternativeNamesPolicy", "database onboard slot path mac", "kernel keep"),
    # mac_address_policy_table of src/udev/net/link-config.c
    ("MACAddressPolicy", "persistent random none", "kernel mac off"),
    # duplex_table of src/shared/ethtool-util.c
    ("Duplex", "full half", "auto"),
    # wol_option_map and config_parse_wol of src/shared/ethtool-util.c
    ("WakeOnLan", "phy unicast multicast broadcast arp magic secureon off", "filter none on"),
]

# a value that none of those keys takes whose values are looked at
NOT_LOOKED_AT = "it's:not looked at"

# what parse_boolean of src/basic/parse-util.c takes, in letters of any case
BOOLEANS = "1 yes y true t on 0 no n false f off"


def told(name, section, *settings):
    """A row over lines of a section: each a setting and the code of what is told about it, L2 with its key or L4 with its
    value, or 0 if nothing is."""
    said = ""
    for line, (setting, code) in enumerate(settings, 4):
        key, _, value = setting.partition("=")
        if code:
            said += f"a.link:{line}: L2 unknown key: {key[:32]}\n" if code == 2 else f"a.link:{line}: L4 bad value: {value[:32]}\n"
    text = f"{MATCH}[{section}]\n" + "".join(f"{setting}\n" for setting, _ in settings)
    bad = 1 if said else 0
    return Row(name, "verify --links a.link", {"a.link": text}, output=checked(1 - bad, bad), messages=said, status=bad)


def key_row(section, value, wrong, key):
    """A key without a value, with one, and with one that it does not take or that is not looked at, beside two keys that are
    written almost like it."""
    settings = [(f"{key}=", 0), (f"{key}={value}", 0), (f"{key[:-1]}={value}", 2), (f"{key[0].swapcase()}{key[1:]}={value}", 2)]
    return told(f"{key} of [{section}]", section, *settings, (f"{key}={wrong}", 4) if wrong else (f"{key}={NOT_LOOKED_AT}", 0))


def elsewhere_row(section):
    """The keys that other sections have, and this one has not."""
    own = {key for of, _, _, key in EACH if of == section}
    others = sorted({key for _, _, _, key in EACH} - own)
    return told(f"keys of other sections in [{section}]", section, *((f"{key}=a", 2) for key in others))


def word_row(key, word):
    """A word of a key, and two that are written almost like it."""
    return told(f"{key}={word}", "Link", (f"{key}={word}", 0), (f"{key}={word[:-1]}", 4), (f"{key}={word.capitalize()}", 4))


def others_row(key, words):
    """Words that a key does not take."""
    return told(f"other words of {key}", "Link", *((f"{key}={word}", 4) for word in words))


def boolean_row(word):
    """A word for yes or no in both cases, and one that is written almost like it."""
    key = "AutoNegotiation"
    return told(f"{key}={word}", "Link", (f"{key}={word}", 0), (f"{key}={word.upper()}", 0), (f"{key}={word}x", 4))


ROWS = [
    *(key_row(*each) for each in EACH),
    *(elsewhere_row(section) for section in ("Match", "Link", "SR-IOV", "EnergyEfficientEthernet")),
    *(word_row(key, word) for key, words, _ in WORDS for word in words.split()),
    *(others_row(key, others.split()) for key, _, others in WORDS),
    *(boolean_row(word) for word in BOOLEANS.split()),
    # config_parse_warn_compat: the key is skipped
    told("a key whose support was removed", "Link", ("UDPSegmentationOffload=yes", 2)),
]
