//! What the reader may do, and how much it is inclined to.

#[derive(Clone, Copy)]
pub(super) enum Act {
    SelectApplication,
    SelectPicc,
    SelectFile,
    SelectOdd,
    First,
    NonFirst,
    PartTwo,
    KeyVersion,
    CardUid,
    FileSettings,
    Counters,
    ChangeSettings,
    ChangeKey,
    Read,
    Write,
    IsoRead,
    IsoUpdate,
    Noise,
}

pub(super) type Weights = [(usize, Act); 18];

/// At PICC level: mostly on to the application.
pub(super) const AT_PICC: Weights = [
    (70, Act::SelectApplication),
    (3, Act::SelectPicc),
    (3, Act::SelectFile),
    (3, Act::SelectOdd),
    (4, Act::First),
    (1, Act::NonFirst),
    (1, Act::PartTwo),
    (1, Act::KeyVersion),
    (1, Act::CardUid),
    (1, Act::FileSettings),
    (1, Act::Counters),
    (1, Act::ChangeSettings),
    (1, Act::ChangeKey),
    (2, Act::Read),
    (1, Act::Write),
    (2, Act::IsoRead),
    (1, Act::IsoUpdate),
    (1, Act::Noise),
];

/// Without session: open one, or use what is free.
pub(super) const IDLE: Weights = [
    (2, Act::SelectApplication),
    (1, Act::SelectPicc),
    (7, Act::SelectFile),
    (3, Act::SelectOdd),
    (50, Act::First),
    (1, Act::NonFirst),
    (1, Act::PartTwo),
    (2, Act::KeyVersion),
    (1, Act::CardUid),
    (2, Act::FileSettings),
    (2, Act::Counters),
    (3, Act::ChangeSettings),
    (1, Act::ChangeKey),
    (9, Act::Read),
    (6, Act::Write),
    (9, Act::IsoRead),
    (5, Act::IsoUpdate),
    (3, Act::Noise),
];

/// Without session and with SDM on: taps.
pub(super) const SDM: Weights = [
    (1, Act::SelectApplication),
    (1, Act::SelectPicc),
    (8, Act::SelectFile),
    (1, Act::SelectOdd),
    (24, Act::First),
    (1, Act::NonFirst),
    (1, Act::PartTwo),
    (1, Act::KeyVersion),
    (1, Act::CardUid),
    (2, Act::FileSettings),
    (5, Act::Counters),
    (3, Act::ChangeSettings),
    (1, Act::ChangeKey),
    (20, Act::Read),
    (4, Act::Write),
    (22, Act::IsoRead),
    (4, Act::IsoUpdate),
    (1, Act::Noise),
];

/// A part two pending: mostly go on with it.
pub(super) const PENDING: Weights = [
    (1, Act::SelectApplication),
    (0, Act::SelectPicc),
    (1, Act::SelectFile),
    (0, Act::SelectOdd),
    (1, Act::First),
    (1, Act::NonFirst),
    (92, Act::PartTwo),
    (1, Act::KeyVersion),
    (0, Act::CardUid),
    (0, Act::FileSettings),
    (0, Act::Counters),
    (0, Act::ChangeSettings),
    (0, Act::ChangeKey),
    (1, Act::Read),
    (0, Act::Write),
    (1, Act::IsoRead),
    (0, Act::IsoUpdate),
    (1, Act::Noise),
];

/// In session.
pub(super) const SESSION: Weights = [
    (1, Act::SelectApplication),
    (1, Act::SelectPicc),
    (8, Act::SelectFile),
    (1, Act::SelectOdd),
    (1, Act::First),
    (8, Act::NonFirst),
    (1, Act::PartTwo),
    (10, Act::KeyVersion),
    (10, Act::CardUid),
    (10, Act::FileSettings),
    (8, Act::Counters),
    (40, Act::ChangeSettings),
    (16, Act::ChangeKey),
    (36, Act::Read),
    (30, Act::Write),
    (6, Act::IsoRead),
    (4, Act::IsoUpdate),
    (1, Act::Noise),
];

/// Just below the end of CmdCtr: commands that any session grants.
pub(super) const NEARLY_WORN: [Act; 3] = [Act::KeyVersion, Act::CardUid, Act::FileSettings];

/// CmdCtr full: what it lets through, and what it refuses.
pub(super) const WORN: [(usize, Act); 9] = [
    (8, Act::NonFirst),
    (6, Act::SelectFile),
    (2, Act::KeyVersion),
    (2, Act::CardUid),
    (2, Act::FileSettings),
    (2, Act::Read),
    (1, Act::Write),
    (2, Act::IsoRead),
    (1, Act::IsoUpdate),
];
