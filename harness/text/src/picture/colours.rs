//! The colours of the requests. They are told apart by colour-blind readers (Okabe and Ito's, the blue darkened), and each is a different grey on paper.

use crate::codes::request;

/// The classes of requests with what they stand for, by code.
pub const MEANINGS: [&str; 6] = [
    "nothing asked",
    "wait to restore",
    "manual switch",
    "signal degraded",
    "signal failed",
    "forced switch",
];

/// How things look.
pub const STYLE: &str = "\
text{font-family:sans-serif;fill:#111}
.title{font-size:16px;font-weight:bold}.note{font-size:12px}.row{font-size:10px}
.word{font-size:9px}.line{font-size:8px;fill:#555}.result{font-size:9px;font-weight:bold;fill:#fff}.refused{fill:#111}
.code{font-size:11px;font-weight:bold}.up{font-size:8.5px;font-weight:bold}.light{fill:#fff}
.sequence{font-size:8px}.sent{fill:#111}.way{font-size:9px}.way0,.way1{fill:#fff;stroke:#111;stroke-width:1}
.way2{fill:#111}.way3{fill:#fff;stroke:#777;stroke-width:1;stroke-dasharray:2 2}
.grid{stroke:#ddd;stroke-width:.6}.axis{stroke:#555;stroke-width:.8;fill:none}.alive{stroke:#555;stroke-width:.7;fill:none}
.bar{fill:#e9e9e9}.heard{fill:#222}.edge{stroke:#222;stroke-width:1.4}.cut{stroke:#222;stroke-width:.6}.end{stroke:#111;stroke-width:2.4}
.request{stroke:#333;stroke-width:.8}.idle{fill:#fff}.wtr{fill:#56b4e9}.ms{fill:#00507d}.sd{fill:#f0e442}.sf{fill:#d55e00}.fs{fill:#000}";

/// The class of a request's area.
pub fn class(code: u8) -> String {
    match code {
        0..=5 => format!("request {}", request(code).to_ascii_lowercase()),
        _ => "request idle".to_string(),
    }
}

/// The class of letters on it, dark or light.
pub fn letters(code: u8) -> &'static str {
    match code {
        2 | 5 => " light",
        _ => "",
    }
}
