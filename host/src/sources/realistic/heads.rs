//! The words of a film scanner's heads: what the scanner asks of them, and what they note.

use super::world::{
    Chapter, Family, Kinds, Length, Subject, World, LISTED, MEASURED, RUNNING, STORED,
};

pub const HEADS: World = World {
    front: include_str!("heads.pdl"),
    calls: Family {
        suffix: "Request",
        parent: "Request",
        code: "call",
        codes: "Call",
        says: "What a head can be asked. The six bits on top are the chapter.",
        last_codes: &["SERVICE_CALL = 0xfc00..0xffff"],
        first: "",
    },
    answers: Family {
        suffix: "Answer",
        parent: "Answer",
        code: "call",
        codes: "Call",
        says: "",
        last_codes: &[],
        first: "answered_at: 32",
    },
    reports: Family {
        suffix: "Notice",
        parent: "Notice",
        code: "notice",
        codes: "NoticeCode",
        says: "What a head notes by itself.",
        last_codes: &["OTHER_NOTICE = .."],
        first: "",
    },
    chapters: CHAPTERS,
    editions: &["", "infrared", "stored", "second", "proof", "archive", "night"],
    scalars: SCALARS,
    flags: &[
        "warm", "forwards", "clipped", "covered", "by_hand", "measured", "spliced", "torn",
        "dusty", "reversed", "wet_gate", "steady", "locked", "optical", "charted", "faded",
    ],
    shares: &[
        &[("cyan", 12), ("magenta", 12), ("yellow", 12), ("quality_class", 4)],
        &[("density_mean", 12), ("spread", 4)],
        &[("gate_position", 10), ("pin", 6)],
        &[("wedge_row", 3), ("wedge_column", 5)],
        &[("track", 3), ("level_left", 10), ("level_right", 10), ("phase", 1)],
    ],
    arrays: ARRAYS,
    shared: &[
        ("Position", POSITION),
        ("Position { head = 0, forwards = 1 }", POSITION),
        ("Exposure", &["time", "by_hand", "gain"]),
    ],
    kinds: KINDS,
};

const POSITION: &[&str] = &["reel", "splice", "frame", "line", "head", "forwards"];

const DYE: &str = "dye: 2\n_reserved_: 6";
const STOCK: &str = "stock: Stock";
const REEL: &str = "reel: 16";
const STEP: &str = "step: 5\n_reserved_: 3";

const CHAPTERS: &[Chapter] = &[
    Chapter {
        title: "Lamps",
        says: "The lamp behind each head. A cold lamp measures nothing that may be kept.",
        subjects: &[
            Subject { name: "lamp", key: "lamp_number: 8", verbs: RUNNING },
            Subject { name: "lamp current", key: "lamp_number: 8", verbs: STORED },
            Subject { name: "lamp hours", key: "lamp_number: 8", verbs: STORED },
            Subject { name: "diffuser", key: "", verbs: STORED },
            Subject { name: "shutter", key: "", verbs: RUNNING },
        ],
    },
    Chapter {
        title: "Transport",
        says: "The film itself: threading, winding, the gate, and where we are on the reel.",
        subjects: &[
            Subject { name: "winding", key: "", verbs: RUNNING },
            Subject { name: "gate", key: "", verbs: STORED },
            Subject { name: "tension", key: "", verbs: STORED },
            Subject { name: "edge mark list", key: REEL, verbs: LISTED },
            Subject { name: "reel register", key: REEL, verbs: LISTED },
            Subject { name: "registration pin", key: "", verbs: STORED },
        ],
    },
    Chapter {
        title: "Density",
        says: "What the heads are there for. All three dye layers of a line are read at once.",
        subjects: &[
            Subject { name: "density scan", key: DYE, verbs: RUNNING },
            Subject { name: "density range", key: DYE, verbs: STORED },
            Subject { name: "density histogram", key: DYE, verbs: MEASURED },
            Subject { name: "base density", key: STOCK, verbs: STORED },
            Subject { name: "sampling", key: "", verbs: STORED },
            Subject { name: "exposure", key: DYE, verbs: STORED },
        ],
    },
    Chapter {
        title: "Calibration",
        says: "A wedge of known steps is read before each shift, and whenever a lamp was changed.",
        subjects: &[
            Subject { name: "calibration wedge", key: STEP, verbs: LISTED },
            Subject { name: "calibration run", key: DYE, verbs: RUNNING },
            Subject { name: "dark level", key: DYE, verbs: MEASURED },
            Subject { name: "white level", key: DYE, verbs: MEASURED },
            Subject { name: "linearity", key: DYE, verbs: STORED },
            Subject { name: "colour matrix", key: STOCK, verbs: STORED },
        ],
    },
    Chapter {
        title: "Stocks",
        says: "Charts of film stocks. A stock without a chart is corrected by nobody but the colourist.",
        subjects: &[
            Subject { name: "stock chart", key: STOCK, verbs: LISTED },
            Subject { name: "stock threaded", key: REEL, verbs: STORED },
            Subject { name: "emulsion batch list", key: STOCK, verbs: LISTED },
            Subject { name: "edge code", key: STOCK, verbs: STORED },
            Subject { name: "processing", key: REEL, verbs: STORED },
        ],
    },
    Chapter {
        title: "Fade",
        says: "How far each dye has faded, and what the correction made of it.",
        subjects: &[
            Subject { name: "fade chart", key: STOCK, verbs: LISTED },
            Subject { name: "fade correction", key: REEL, verbs: RUNNING },
            Subject { name: "dye loss", key: DYE, verbs: MEASURED },
            Subject { name: "stain", key: DYE, verbs: MEASURED },
            Subject { name: "correction limit", key: DYE, verbs: STORED },
        ],
    },
    Chapter {
        title: "Splices and damage",
        says: "What the film has been through. A head slows down where it knows of a splice.",
        subjects: &[
            Subject { name: "splice list", key: REEL, verbs: LISTED },
            Subject { name: "tear list", key: REEL, verbs: LISTED },
            Subject { name: "perforation", key: "", verbs: MEASURED },
            Subject { name: "shrinkage", key: REEL, verbs: MEASURED },
            Subject { name: "scratch map", key: REEL, verbs: MEASURED },
            Subject { name: "dust removal", key: "", verbs: RUNNING },
        ],
    },
    Chapter {
        title: "Sound",
        says: "The track beside the pictures, where there is one.",
        subjects: &[
            Subject { name: "sound track", key: REEL, verbs: STORED },
            Subject { name: "sound reader", key: "", verbs: RUNNING },
            Subject { name: "azimuth", key: "", verbs: STORED },
            Subject { name: "noise print", key: "", verbs: MEASURED },
        ],
    },
    Chapter {
        title: "Focus and optics",
        says: "Lens, focus and flare, head by head.",
        subjects: &[
            Subject { name: "focus", key: "", verbs: RUNNING },
            Subject { name: "aperture", key: "", verbs: STORED },
            Subject { name: "flare", key: DYE, verbs: MEASURED },
            Subject { name: "vignette", key: DYE, verbs: STORED },
            Subject { name: "filter wheel", key: "", verbs: STORED },
        ],
    },
];

const SCALARS: &[(&str, u32, &str)] = &[
    ("exposure_time", 16, "in us"),
    ("gain", 8, "in steps of 1/16"),
    ("offset", 16, "signed"),
    ("current", 16, "in mA"),
    ("temperature", 16, "in 1/100 °C, signed"),
    ("hours", 24, ""),
    ("line", 32, "from the reel's first perforation"),
    ("frame", 24, ""),
    ("serial", 24, "as it stands on the head"),
    ("feet", 16, "as the edge numbers count them"),
    ("density", 16, "in steps of 1/256 D"),
    ("density_low", 16, "in steps of 1/256 D"),
    ("density_high", 16, "in steps of 1/256 D"),
    ("shrunk", 16, "in 1/10000 of the length"),
    ("speed", 16, "frames a minute"),
    ("tension", 8, "in grams, by four"),
    ("repeats", 8, "0: until it is stopped"),
    ("year", 16, "when it was processed"),
    ("batch", 32, ""),
    ("aperture_stop", 8, "in thirds of a stop"),
    ("focus_position", 24, "signed"),
    ("weight", 16, "in 1/4096"),
    ("operator", 16, ""),
    ("settle_time", 16, "in ms"),
    ("threshold", 16, ""),
    ("noise", 8, "in 1/4 dB"),
    ("revision", 8, ""),
];

const ARRAYS: &[(&str, &str, Length)] = &[
    ("densities", "Density", Length::Measured),
    ("levels", "16", Length::Counted),
    ("wedge_steps", "WedgeStep", Length::Fixed(21)),
    ("fades", "Fade", Length::Fixed(3)),
    ("matrix", "MatrixRow", Length::Fixed(3)),
    ("histogram", "32", Length::Fixed(16)),
    ("edge_numbers", "EdgeNumber", Length::Counted),
    ("samples", "8", Length::Sized),
    ("label", "8", Length::Padded(64)),
    ("note", "8", Length::Sized),
    ("heads", "8", Length::Fixed(4)),
    ("remark", "8", Length::Flagged),
];

const KINDS: &[Kinds] = &[
    Kinds {
        name: "state",
        width: 8,
        tags: &["COLD", "WARMING", "READY", "READING", "WAITING", "STOPPED", "FAILED"],
    },
    Kinds {
        name: "quality",
        width: 8,
        tags: &["GOOD", "USABLE", "DOUBTFUL", "TO_BE_READ_AGAIN", "LOST"],
    },
    Kinds {
        name: "method",
        width: 8,
        tags: &["BY_CHART", "BY_WEDGE", "BY_BASE", "BY_HAND", "BY_NEIGHBOUR"],
    },
    Kinds {
        name: "gauge",
        width: 8,
        tags: &["STANDARD_8", "SUPER_8", "GAUGE_16", "SUPER_16", "GAUGE_35", "GAUGE_65"],
    },
    Kinds {
        name: "curve",
        width: 16,
        tags: &["LINEAR", "LOGARITHMIC", "TOE", "SHOULDER", "MEASURED_CURVE"],
    },
];
