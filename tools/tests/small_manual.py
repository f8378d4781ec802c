"""A small tree on which tools/before/07-names finds nothing wrong: code, header, usage, definitions and pages."""

CODE = """enum Refusal {
    SeatAbove = 1,
    NotReady = 8,
    NotListed = 10,
}

pub const LCR_BREAK: u8 = 6;

const END: u8 = 0b001;

pub const BREAK: u8 = 1;

pub const MARK_PARITY: u8 = 0;
"""

RECORDS = """impl Event {
    pub const READ: u8 = 0;

    pub const WRITE_PORT: u8 = 1;
}
"""

HEADER = """#define HAILSTOAT_VERSION 10000
#define HAILSTOAT_SEATS 8

enum hailstoat_kind {
    HAILSTOAT_READ = 0, /* seat, register */
    HAILSTOAT_WRITE_PORT = 1
};

enum hailstoat_refusal { HAILSTOAT_SEAT_ABOVE = 1, HAILSTOAT_NOT_READY = 8, HAILSTOAT_NOT_LISTED = 10 };

#define HAILSTOAT_LCR_BREAK 0x40u
#define HAILSTOAT_FIFO (1u << 0)
#define HAILSTOAT_END 0x20
#define HAILSTOAT_LATE 0x0C
#define HAILSTOAT_BREAK 0x200
#define HAILSTOAT_MARK_PARITY 0x01
#define HAILSTOAT_MARK_BREAK 0x02
#define HAILSTOAT_RBR 0
#define HAILSTOAT_THR 0
#define HAILSTOAT_DLM 1
#define HAILSTOAT_LSR_DATA 0x01
#define HAILSTOAT_LSR_HOLDING_EMPTY 0x02
#define HAILSTOAT_MSR_CTS_CHANGED 0x01
#define HAILSTOAT_LEVEL_CTS 0x01

    case HAILSTOAT_SEAT_ABOVE: return "seat above 7";
    case HAILSTOAT_NOT_READY: return "not ready";
    case HAILSTOAT_NOT_LISTED: return "not in the list";
"""

HELP = """#!/bin/sh
echo 'The refusals:'
echo
echo '  1  seat above 7'
echo '  8  not ready'
echo ' 10  not in the list'
"""

REFUSALS = """-- "seat (or line) above 7"
abbrev pub seat_above_number : ℕ
seat_above_number = 1

-- "not in the list"
abbrev pub not_listed_number : ℕ
not_listed_number = 10

abbrev pub not_ready_number : ℕ
not_ready_number = 8

abbrev pub refusal_order : List ℕ
refusal_order =
    not_ready_number
    ∷ seat_above_number
    ∷ []

unfoldable pub order : List ℕ
order = seat_above_number ∷ []
"""

KINDS = """-- "0 read"
abbrev pub read_kind : ℕ
read_kind = 0

abbrev pub write_port_kind : ℕ
write_port_kind = 1
"""

MARKS = """abbrev pub mark_parity : ℕ
mark_parity = 0

abbrev pub break : ℕ
break = 1
"""

GROUNDS = """unfoldable pub grounds : Settings → SeatEvent → List Ground
grounds s (Read n) = []
grounds s (Write n byte) =
    record { number = not_ready_number; holds = early s }
    ∷ []
grounds s Time = record { number = not_listed_number; holds = true } ∷ []
"""

RATES = """pub const RATES: [u32; 2] = [
    500,
    750,
];

const FIRST: [u16; 2] = [2304, 1536];

const SECOND: [u16; 1] = [3072];

const THIRD: [u16; 1] = [3840];

fn row(rate: u32) -> usize {
"""

CAUSES = """const CAUSES: [Row; 2] = [
    // "0C time-out (IER bit 0)"
    Row(LATE, Settings::IER_DATA, When::Late),
    // "00 a change (bit 3)"
    Row(MOVED, Settings::IER_MODEM, When::Moved),
];
"""

CAUSES_DEFINED = """-- "0C time-out (IER bit 0); 00 a
-- change (bit 3)"
causes = []
"""

STATUS = f"""pub const LATE: u8 = 0x0C;

{CAUSES}
fn cause() -> u8 {{
    CAUSES[0].0
}}
"""

REGISTERS = """impl Settings {
    pub const IER_DATA: u8 = 0;

    pub const IER_MODEM: u8 = 3;
}

pub const MOVED: u8 = 0x00;
"""

MANUAL = f"""# Manual

Numbers.

| Kind | Name | Event | Refusals | Definition |
|---|---|---|---|---|
| 0 | `READ` | a read | 1 | `base/Refusals.order` |
| 1 | `WRITE_PORT` | a write | 8, 1 | `base/Refusals.order`, `base/Refusals.seat_above_number` |

| Refusal | Name | Words | Definition |
|---|---|---|---|
| 1 | `SEAT_ABOVE` | seat above 7 | `base/Refusals.seat_above_number` |
| 8 | `NOT_READY` | not ready | `base/Refusals.not_ready_number` |
| 10 | `NOT_LISTED` | not in the list | `base/Refusals.not_listed_number` |

| Bit | Name | LCR | Definition |
|---|---|---|---|
| 0 | `FIFO` | mode | `base/Refusals.order` |
| 1-5 | - | nothing | `base/Refusals.order` |
| 6 | `LCR_BREAK` | break | `base/Refusals.order` |
| 7 | - | nothing | `base/Refusals.order` |

| Command | Name | Does | Definition |
|---|---|---|---|
| 000 | - | nothing | `base/Refusals.order` |
| 001 | `END` | ends | `base/Refusals.order` |

| IIR | Name | Enabled by | Definition | Words |
|---|---|---|---|---|
| 0C | `LATE` | IER bit 0 | `base/Refusals.order` | time-out |
| 00 | `MOVED` | IER bit 3 | `base/Refusals.order` | a change |
| 01 | - | - | `base/Refusals.order` | no cause |
| 02 | - | - | `base/Refusals.order` | - |

```rust crates/status/src/lib.rt
{CAUSES}```

| Answer | Name | When | Definition |
|---|---|---|---|
| 200 | `BREAK` | of the header alone | `base/Refusals.order` |

| Bit | Name | Mark of a character | Definition |
|---|---|---|---|
| 0 | `MARK_PARITY` | of both | `base/Refusals.order` |
| 1 | `MARK_BREAK`, `base::BREAK` | of the room by another word | `base/Refusals.order` |

| Rate in tenths | Clock 0 | Clock 1 | Clock 2 |
|---|---|---|---|
| 500 | 2304 | 3072 | 3840 |
| 750 | 1536 | - | - |

| Register | Name | Is | Definition |
|---|---|---|---|
| 0 | `RBR` | read | `base/Refusals.order` |
| 0 | `THR` | written | `base/Refusals.order` |
| 1 | `DLM` | the divisor's | `base/Refusals.order` |

| Bit | Name | LSR | Definition |
|---|---|---|---|
| 0 | `LSR_DATA` | data | `base/Refusals.order` |
| 1 | `LSR_HOLDING_EMPTY` | nothing to send | `base/Refusals.order` |

| Bit | Name | MSR | Definition |
|---|---|---|---|
| 0 | `MSR_CTS_CHANGED` | CTS has changed | `base/Refusals.order` |

| Bit | Name | Level | Definition |
|---|---|---|---|
| 0 | `LEVEL_CTS` | CTS | `base/Refusals.order` |
"""

NAMES = """-- "an example": row 7 "of a comment"
abbrev pub registers_read : List Row
registers_read = row 0 "RBR" ∷ []

abbrev pub registers_written : List Row
registers_written = row 0 "THR" ∷ []

abbrev pub registers_divisor : List Row
registers_divisor = row 1 "DLM" ∷ []

abbrev pub cause_words : List Row
cause_words =
    row 0xC "time-out"
    ∷ row 0x0 "a change"
    ∷ []

abbrev pub no_cause : String
no_cause = "no cause"

abbrev pub refusals_first : List Row
refusals_first =
    row 1 "seat above 7"
    ∷ row 8 "not ready"
    ∷ []

abbrev pub refusals_later : List Row
refusals_later = row 10 "not in the list" ∷ []

abbrev pub lsr_words : List String
lsr_words = "data" ∷ "holding-empty" ∷ []

abbrev pub msr_words : List String
msr_words = "CTS-changed" ∷ []

abbrev pub mark_words : List String
mark_words = "parity" ∷ "break" ∷ []

abbrev pub level_words : List String
level_words = "CTS" ∷ []
"""

TELLING = """# Telling

| Refusal | Words |
|---|---|
| 1 | seat above 7 |
| 8 | not ready |

| Of | Words |
|---|---|
| IIR bits 3 to 0 | C `time-out`, 0 `a change`, any other `no cause` |
| LSR bits 0 to 7 | `data`, `holding-empty` |
| MSR bits 0 to 7 | `CTS-changed` |
| marks 0 to 2 | `parity`, `break` |
| levels 0 to 3 | `CTS` |
"""

CHANGING = """# Changing

| Room | Function | File | Definition |
|---|---|---|---|
| `rates` | `row` | `crates/rates/src/lib.rt` | `base/Refusals.order` |

`docs/MANUAL.md`, `proofs/Slips.antt` and `ROOM/FILE.NAME` are no definitions.
"""

NOTATION = """# Notation

```antt crates/base/specs/Refusals.antt
abbrev pub seat_above_number : ℕ
seat_above_number = 1
```
"""

FILES = {
    "crates/base/src/lib.rt": CODE,
    "crates/base/specs/Refusals.antt": REFUSALS,
    "crates/base/specs/Marks.antt": MARKS,
    "crates/records/src/lib.rt": RECORDS,
    "crates/records/specs/Kinds.antt": KINDS,
    "crates/registers/specs/Refusals.antt": GROUNDS,
    "crates/registers/src/lib.rt": REGISTERS,
    "crates/rates/src/lib.rt": RATES,
    "crates/status/src/lib.rt": STATUS,
    "crates/status/specs/Status.antt": CAUSES_DEFINED,
    "include/hailstoat.h": HEADER,
    "docs/MANUAL.md": MANUAL,
    "docs/CHANGING.md": CHANGING,
    "docs/NOTATION.md": NOTATION,
    "crates/names/specs/Names.antt": NAMES,
    "docs/TELLING.md": TELLING,
}
