//! Scripts: lines of text read into the setup of a site and its steps, and steps as words again.

/// The kind of all changes of a script.
#[derive(Clone, Copy, PartialEq, Eq, Debug)]
pub enum KindName {
    Cards,
    Hours,
}

#[derive(Clone, Copy, PartialEq, Eq, Debug)]
pub enum CabinetSetup {
    /// The writes left of each cell.
    Tray(u16),
    /// The number of bytes, all 0.
    Strip(u16),
}

/// The line that makes the site.
#[derive(Clone, Copy, PartialEq, Eq, Debug)]
pub struct Setup {
    pub kind: KindName,
    pub n: u16,
    pub cap: u16,
    pub pool: u16,
    pub cabinet: CabinetSetup,
}

/// Every other line. A change has three numbers; the last of a card change is 1 if given, else 0.
#[derive(Clone, Copy, PartialEq, Eq, Debug)]
pub enum Step {
    Change { i: u16, x: [u16; 3] },
    Pass { i: u16, b: u16, k: u16 },
    Call { i: u16 },
    Invite { i: u16, b: u16 },
    Form { i: u16 },
    Deliver { j: u16 },
    Join { i: u16, p: u16 },
    Settle { i: u16, count: u16, controller: u16, place: u16 },
    Lookup { i: u16, a: u16, b: u16 },
    Crash { i: u16 },
    Recover { i: u16 },
    Lose { j: u16 },
    Show,
}

/// What was expected where a line is none of the script.
#[derive(Clone, PartialEq, Eq, Debug)]
pub struct BadLine {
    /// Counted from 1.
    pub line: usize,
    pub expected: &'static str,
}

pub const SITE_EXPECTED: &str = "expected \"site cards|hours N CAP POOL tray W\" or \"... strip BYTES\"";
pub const STEP_EXPECTED: &str =
    "expected a step: change, pass, call, invite, form, deliver, join, settle, lookup, crash, recover, lose or show";

pub const LINE_EXPECTED: &str = "expected a line of at most 65536 bytes";

/// The most bytes of a line, its line feed not counted.
pub const LONGEST_LINE: usize = 65_536;

/// The lines of a script. A line feed at the end of the text begins no further line.
pub fn lines(text: &[u8]) -> Vec<&[u8]> {
    let mut lines: Vec<&[u8]> = text.split(|byte| *byte == b'\n').collect();
    if lines.last().is_some_and(|last| last.is_empty()) {
        lines.pop();
    }
    lines
}

/// The words of a line that is not too long: without a carriage return at its end, and without its comment.
pub fn words(line: &[u8]) -> Result<Vec<&[u8]>, &'static str> {
    if line.len() > LONGEST_LINE {
        return Err(LINE_EXPECTED);
    }
    let line = line.strip_suffix(b"\r").unwrap_or(line);
    let line = line.split(|byte| *byte == b'#').next().unwrap_or(line);
    Ok(line.split(|byte| matches!(byte, b' ' | b'\t')).filter(|word| !word.is_empty()).collect())
}

/// Decimal digits, of any number, with a value of at most 65,535.
fn number(word: &[u8]) -> Option<u16> {
    word.iter().try_fold(0u16, |value, byte| {
        let digit = byte.is_ascii_digit().then(|| u16::from(byte - b'0'))?;
        value.checked_mul(10)?.checked_add(digit)
    })
}

impl Setup {
    pub fn read(words: &[&[u8]]) -> Result<Setup, &'static str> {
        let read = || {
            let &[b"site", kind, n, cap, pool, cabinet, size] = words else { return None };
            let kind = match kind {
                b"cards" => KindName::Cards,
                b"hours" => KindName::Hours,
                _ => return None,
            };
            let size = number(size)?;
            let cabinet = match cabinet {
                b"tray" => CabinetSetup::Tray(size),
                b"strip" => CabinetSetup::Strip(size),
                _ => return None,
            };
            Some(Setup { kind, n: number(n)?, cap: number(cap)?, pool: number(pool)?, cabinet })
        };
        read().ok_or(SITE_EXPECTED)
    }

    pub fn words(&self) -> Vec<String> {
        let kind = match self.kind {
            KindName::Cards => "cards",
            KindName::Hours => "hours",
        };
        let (cabinet, size) = match self.cabinet {
            CabinetSetup::Tray(left) => ("tray", left),
            CabinetSetup::Strip(bytes) => ("strip", bytes),
        };
        let numbers = [self.n, self.cap, self.pool].map(|number| number.to_string());
        let [n, cap, pool] = numbers;
        vec!["site".into(), kind.into(), n, cap, pool, cabinet.into(), size.to_string()]
    }
}

impl Step {
    pub fn read(kind: KindName, words: &[&[u8]]) -> Result<Step, &'static str> {
        let (first, rest) = words.split_first().ok_or(STEP_EXPECTED)?;
        match *first {
            b"change" => match kind {
                KindName::Cards => card_change(rest).ok_or("expected \"change I CARD DOORS given|withdrawn\""),
                KindName::Hours => {
                    let [i, door, opening, shutting] = numbers(rest, "expected \"change I DOOR OPENING SHUTTING\"")?;
                    Ok(Step::Change { i, x: [door, opening, shutting] })
                }
            },
            b"pass" => numbers(rest, "expected \"pass I B K\"").map(|[i, b, k]| Step::Pass { i, b, k }),
            b"call" => numbers(rest, "expected \"call I\"").map(|[i]| Step::Call { i }),
            b"invite" => numbers(rest, "expected \"invite I B\"").map(|[i, b]| Step::Invite { i, b }),
            b"form" => numbers(rest, "expected \"form I\"").map(|[i]| Step::Form { i }),
            b"deliver" => numbers(rest, "expected \"deliver J\"").map(|[j]| Step::Deliver { j }),
            b"join" => numbers(rest, "expected \"join I P\"").map(|[i, p]| Step::Join { i, p }),
            b"settle" => {
                let [i, count, controller, place] = numbers(rest, "expected \"settle I COUNT CONTROLLER PLACE\"")?;
                Ok(Step::Settle { i, count, controller, place })
            }
            b"lookup" => numbers(rest, "expected \"lookup I A B\"").map(|[i, a, b]| Step::Lookup { i, a, b }),
            b"crash" => numbers(rest, "expected \"crash I\"").map(|[i]| Step::Crash { i }),
            b"recover" => numbers(rest, "expected \"recover I\"").map(|[i]| Step::Recover { i }),
            b"lose" => numbers(rest, "expected \"lose J\"").map(|[j]| Step::Lose { j }),
            b"show" => numbers(rest, "expected \"show\"").map(|[]| Step::Show),
            _ => Err(STEP_EXPECTED),
        }
    }

    /// The first word of the line.
    pub fn word(&self) -> &'static str {
        match self {
            Step::Change { .. } => "change",
            Step::Pass { .. } => "pass",
            Step::Call { .. } => "call",
            Step::Invite { .. } => "invite",
            Step::Form { .. } => "form",
            Step::Deliver { .. } => "deliver",
            Step::Join { .. } => "join",
            Step::Settle { .. } => "settle",
            Step::Lookup { .. } => "lookup",
            Step::Crash { .. } => "crash",
            Step::Recover { .. } => "recover",
            Step::Lose { .. } => "lose",
            Step::Show => "show",
        }
    }

    pub fn words(&self, kind: KindName) -> Vec<String> {
        let mut words = vec![self.word().to_string()];
        let mut add = |numbers: &[u16]| words.extend(numbers.iter().map(u16::to_string));
        match *self {
            Step::Change { i, x: [card, doors, given] } if kind == KindName::Cards => {
                add(&[i, card, doors]);
                words.push(if given == 0 { "withdrawn".into() } else { "given".into() });
            }
            Step::Change { i, x: [door, opening, shutting] } => add(&[i, door, opening, shutting]),
            Step::Pass { i, b, k } => add(&[i, b, k]),
            Step::Invite { i, b } => add(&[i, b]),
            Step::Join { i, p } => add(&[i, p]),
            Step::Settle { i, count, controller, place } => add(&[i, count, controller, place]),
            Step::Lookup { i, a, b } => add(&[i, a, b]),
            Step::Deliver { j } | Step::Lose { j } => add(&[j]),
            Step::Call { i } | Step::Form { i } | Step::Crash { i } | Step::Recover { i } => add(&[i]),
            Step::Show => {}
        }
        words
    }
}

/// Exactly so many words, all of them numbers.
fn numbers<const COUNT: usize>(words: &[&[u8]], expected: &'static str) -> Result<[u16; COUNT], &'static str> {
    let words: [&[u8]; COUNT] = words.try_into().map_err(|_| expected)?;
    let mut numbers = [0; COUNT];
    for (place, word) in numbers.iter_mut().zip(words) {
        *place = number(word).ok_or(expected)?;
    }
    Ok(numbers)
}

fn card_change(words: &[&[u8]]) -> Option<Step> {
    let &[i, card, doors, what] = words else { return None };
    let given = match what {
        b"given" => 1,
        b"withdrawn" => 0,
        _ => return None,
    };
    Some(Step::Change { i: number(i)?, x: [number(card)?, number(doors)?, given] })
}
