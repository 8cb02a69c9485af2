//! Programs that must not compile. Each is tried beside a twin, which has another
//! line in one place and does compile: so it is that line which is refused.

/// A doc test of the twin, and one of what must not compile.
macro_rules! refused {
    ($name:ident: $before:literal, $twin:literal not $refused:literal, $after:literal) => {
        #[doc = concat!("```\n", $before, $twin, $after, "\n```\n")]
        #[doc = concat!("```compile_fail\n", $before, $refused, $after, "\n```\n")]
        pub struct $name;
    };
}

// Two copies of a state would seal under one number. What can't be cloned can't
// be copied either.
refused!(CloneOfAState:
    "let (state, _) = armfile::State::start(&[7; 16], 3, 0, 40, 0xff).unwrap();\n",
    "let other = &state;\n" not "let other = state.clone();\n",
    "assert_eq!(state.length(), other.length());"
);

// A later version may have more verdicts and more causes.
refused!(MatchOfTheVerdictsOfToday:
    "use armfile::Verdict::{self, *};
    fn is_current(verdict: Verdict) -> bool {
        match verdict {
            Current => true,
            NotGenuine | Stale | Ahead => false,\n",
    "_ => false,\n" not "",
    "}
    }
    assert!(is_current(Current));"
);
refused!(MatchOfTheRefusalsOfToday:
    "use armfile::Refusal::{self, *};
    fn is_known(refusal: Refusal) -> bool {
        match refusal {
            KeyOrBlockLength | TooLong | OutOfFile | UnequalPair | BrokenBlock => true,
            NumbersUsed | OutputLength | SlipVersion | EmptyNonce | JournalLength => true,
            RecordKind | RecordPlace | TextTooLong | WrongTag | SumsLength => true,
            Unknown(_) => false,\n",
    "_ => false,\n" not "",
    "}
    }
    assert!(is_known(TooLong));"
);
