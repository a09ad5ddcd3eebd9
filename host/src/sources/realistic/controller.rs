//! The words of a radio controller: commands, the events that complete them, and meta events.

use super::world::{
    Chapter, Family, Kinds, Length, Subject, World, LISTED, MEASURED, RUNNING, STORED,
};

pub const CONTROLLER: World = World {
    front: include_str!("controller.pdl"),
    calls: Family {
        suffix: "",
        parent: "Command",
        code: "op_code",
        codes: "OpCode",
        says:
            "Commands. The six bits on top are the chapter; those of vendors have all of them set.",
        last_codes: &["VENDOR_COMMAND = 0xfc00..0xffff"],
        first: "",
    },
    answers: Family {
        suffix: "Complete",
        parent: "CommandComplete",
        code: "command_op_code",
        codes: "OpCode",
        says: "",
        last_codes: &[],
        first: "status: ErrorCode",
    },
    reports: Family {
        suffix: "Report",
        parent: "MetaEvent",
        code: "subevent_code",
        codes: "SubeventCode",
        says: "Meta events, chapter by chapter.",
        last_codes: &["VENDOR_SUBEVENT = 0xf000..0xffff", "OTHER_SUBEVENT = .."],
        first: "",
    },
    chapters: CHAPTERS,
    editions: &["", "extended", "periodic", "enhanced", "legacy", "default", "peer"],
    scalars: SCALARS,
    flags: &[
        "enabled", "encrypted", "authenticated", "connectable", "scannable", "directed",
        "anonymous", "bonded", "initiator", "central", "active", "truncated", "low_latency",
        "secure", "filtered", "resolvable",
    ],
    shares: &[
        &[("slot", 12), ("slot_unit", 4)],
        &[("channel_index", 6), ("antenna", 2)],
        &[("event_counter", 11), ("spacing", 5)],
        &[("major_version", 6), ("minor_version", 10)],
        &[("tone_quality", 4), ("reference_power", 14), ("step_mode", 2), ("antenna_path", 4)],
    ],
    arrays: ARRAYS,
    shared: &[("IntervalRange", INTERVALS), ("IntervalRange { latency = 0 }", INTERVALS)],
    kinds: KINDS,
};

const INTERVALS: &[&str] = &["interval_min", "interval_max", "latency", "supervision_timeout"];

const HANDLE: &str = "ConnectionHandle";
const SET: &str = "advertising_handle: 8";
const PEER: &str = "peer_address: Address";
const SYNC: &str = "sync_handle: 12\n_reserved_: 4";

const CHAPTERS: &[Chapter] = &[
    Chapter {
        title: "Link control",
        says: "Finding devices, paging them, and ending what was begun.",
        subjects: &[
            Subject { name: "inquiry", key: "", verbs: RUNNING },
            Subject { name: "page scan activity", key: "", verbs: STORED },
            Subject { name: "connection", key: PEER, verbs: RUNNING },
            Subject { name: "link key store", key: PEER, verbs: LISTED },
            Subject { name: "remote name", key: PEER, verbs: MEASURED },
            Subject { name: "clock offset", key: HANDLE, verbs: MEASURED },
        ],
    },
    Chapter {
        title: "Link policy",
        says: "How often two devices meet, and who of them waits.",
        subjects: &[
            Subject { name: "sniff mode", key: HANDLE, verbs: RUNNING },
            Subject { name: "role", key: PEER, verbs: STORED },
            Subject { name: "quality of service", key: HANDLE, verbs: STORED },
            Subject { name: "flow specification", key: HANDLE, verbs: STORED },
            Subject { name: "link policy settings", key: HANDLE, verbs: STORED },
        ],
    },
    Chapter {
        title: "Controller and baseband",
        says: "What the controller keeps for itself. A reset brings it back to what it was made with.",
        subjects: &[
            Subject { name: "event mask", key: "", verbs: STORED },
            Subject { name: "event filter", key: "", verbs: LISTED },
            Subject { name: "local name", key: "", verbs: STORED },
            Subject { name: "scan enable", key: "", verbs: STORED },
            Subject { name: "voice setting", key: "", verbs: STORED },
            Subject { name: "flush timeout", key: HANDLE, verbs: STORED },
            Subject { name: "transmit power level", key: HANDLE, verbs: MEASURED },
        ],
    },
    Chapter {
        title: "Advertising",
        says: "Sets of advertisements, each with a handle that the host chooses.",
        subjects: &[
            Subject { name: "advertising parameters", key: SET, verbs: STORED },
            Subject { name: "advertising data", key: SET, verbs: STORED },
            Subject { name: "scan response data", key: SET, verbs: STORED },
            Subject { name: "advertising", key: SET, verbs: RUNNING },
            Subject { name: "advertising set table", key: SET, verbs: LISTED },
            Subject { name: "advertising address", key: SET, verbs: STORED },
        ],
    },
    Chapter {
        title: "Scanning",
        says: "Listening for advertisements. A duplicate is one with the same address and the same set.",
        subjects: &[
            Subject { name: "scan parameters", key: "", verbs: STORED },
            Subject { name: "scan", key: "", verbs: RUNNING },
            Subject { name: "filter accept list", key: PEER, verbs: LISTED },
            Subject { name: "duplicate filter", key: "", verbs: STORED },
            Subject { name: "advertising sync", key: SYNC, verbs: RUNNING },
            Subject { name: "advertiser list", key: PEER, verbs: LISTED },
        ],
    },
    Chapter {
        title: "Connections",
        says: "Connections of low energy, from the first request to the last packet.",
        subjects: &[
            Subject { name: "connection parameters", key: HANDLE, verbs: STORED },
            Subject { name: "channel map", key: HANDLE, verbs: STORED },
            Subject { name: "data length", key: HANDLE, verbs: STORED },
            Subject { name: "phy", key: HANDLE, verbs: STORED },
            Subject { name: "subrate", key: HANDLE, verbs: STORED },
            Subject { name: "remote features", key: HANDLE, verbs: MEASURED },
        ],
    },
    Chapter {
        title: "Security",
        says: "Keys and addresses. A key is never told in an event.",
        subjects: &[
            Subject { name: "encryption", key: HANDLE, verbs: RUNNING },
            Subject { name: "resolving list", key: PEER, verbs: LISTED },
            Subject { name: "privacy mode", key: PEER, verbs: STORED },
            Subject { name: "random address", key: "", verbs: STORED },
            Subject { name: "public key", key: "", verbs: MEASURED },
        ],
    },
    Chapter {
        title: "Isochronous channels",
        says: "Groups of streams that are sent at one time, to one device or to all who listen.",
        subjects: &[
            Subject { name: "connected group parameters", key: "group_id: 8", verbs: STORED },
            Subject { name: "connected stream", key: HANDLE, verbs: RUNNING },
            Subject { name: "broadcast group", key: "group_id: 8", verbs: RUNNING },
            Subject { name: "broadcast sync", key: SYNC, verbs: RUNNING },
            Subject { name: "data path table", key: HANDLE, verbs: LISTED },
            Subject { name: "link quality", key: HANDLE, verbs: MEASURED },
        ],
    },
    Chapter {
        title: "Direction and distance",
        says: "Samples of a tone, from which the host reckons where a device is and how far.",
        subjects: &[
            Subject { name: "tone transmission", key: HANDLE, verbs: RUNNING },
            Subject { name: "antenna information", key: "", verbs: MEASURED },
            Subject { name: "sounding configuration table", key: "config_id: 8", verbs: LISTED },
            Subject { name: "sounding procedure", key: "config_id: 8", verbs: RUNNING },
            Subject { name: "path loss", key: HANDLE, verbs: MEASURED },
        ],
    },
    Chapter {
        title: "Power and tests",
        says: "For the bench. No test may run while a connection is there.",
        subjects: &[
            Subject { name: "power reporting", key: HANDLE, verbs: RUNNING },
            Subject { name: "receiver test", key: "", verbs: RUNNING },
            Subject { name: "transmitter test", key: "", verbs: RUNNING },
            Subject { name: "local supported codecs", key: "", verbs: MEASURED },
            Subject { name: "buffer size", key: "", verbs: STORED },
        ],
    },
];

const SCALARS: &[(&str, u32, &str)] = &[
    ("interval", 16, "in steps of 0.625 ms"),
    ("window", 16, "not longer than the interval"),
    ("max_latency", 16, "events that may be missed"),
    ("timeout", 16, "in steps of 10 ms"),
    ("tx_power", 8, "dBm, signed; 127: no preference"),
    ("rssi", 8, "dBm, signed; 127: not known"),
    ("channel", 8, ""),
    ("clock", 32, "ticks of 312.5 us"),
    ("max_octets", 16, "27 at least"),
    ("max_time", 16, "in us"),
    ("duration", 16, "in steps of 10 ms; 0: until it is stopped"),
    ("max_events", 8, "0: no limit"),
    ("sequence_number", 16, ""),
    ("sdu_interval", 24, "in us"),
    ("max_sdu", 16, ""),
    ("company", 16, "as assigned"),
    ("revision", 16, ""),
    ("class_of_device", 24, ""),
    ("access_code", 24, ""),
    ("phys", 8, "a bit for each"),
    ("retransmissions", 8, ""),
    ("credits", 8, ""),
    ("peak_bandwidth", 32, "bytes a second"),
    ("delay_variation", 32, "in us; 0xffffffff: any"),
    ("framing", 8, ""),
    ("sample_count", 8, ""),
    ("frequency", 8, "2402 MHz and 2 MHz for each step"),
    ("hysteresis", 8, "in dB"),
];

const ARRAYS: &[(&str, &str, Length)] = &[
    ("handles", "16", Length::Counted),
    ("addresses", "Address", Length::Counted),
    ("channel_maps", "ChannelMap", Length::Measured),
    ("data", "8", Length::Sized),
    ("advertised", "AdvertisedData", Length::Sized),
    ("random_number", "8", Length::Fixed(8)),
    ("key", "8", Length::Fixed(16)),
    ("features", "8", Length::Fixed(8)),
    ("antenna_ids", "8", Length::Counted),
    ("codec_configuration", "8", Length::Sized),
    ("name", "8", Length::Padded(248)),
    ("vendor_data", "8", Length::Flagged),
];

const KINDS: &[Kinds] = &[
    Kinds {
        name: "mode",
        width: 8,
        tags: &["OFF", "PASSIVE", "ACTIVE", "GENERAL", "LIMITED", "INTERLACED"],
    },
    Kinds {
        name: "policy",
        width: 8,
        tags: &["ACCEPT_ALL", "ACCEPT_LISTED", "ACCEPT_RESOLVED", "IGNORE_ALL", "ASK_HOST"],
    },
    Kinds {
        name: "state",
        width: 8,
        tags: &["IDLE", "PENDING", "ESTABLISHED", "LOST", "CANCELLED", "TIMED_OUT", "MOVED"],
    },
    Kinds {
        name: "coding",
        width: 8,
        tags: &["UNCODED", "S_EQUALS_2", "S_EQUALS_8", "NO_PREFERENCE"],
    },
    Kinds {
        name: "format",
        width: 16,
        tags: &["TRANSPARENT", "LINEAR", "U_LAW", "A_LAW", "COMPRESSED", "MODIFIED"],
    },
];
