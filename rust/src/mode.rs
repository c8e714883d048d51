/// How an include is judged that lists a name which is not public in its file (2026-07). One mode holds for a whole bundle.
#[derive(Clone, Copy, Debug, Default, PartialEq, Eq)]
pub enum Mode {
    /// Its alias stays without a value.
    #[default]
    Present,
    /// The bundle is refused: row 11.
    Strict,
}

impl Mode {
    /// The word that the library takes.
    pub fn word(self) -> u64 {
        match self {
            Mode::Present => 0,
            Mode::Strict => 1,
        }
    }
}
