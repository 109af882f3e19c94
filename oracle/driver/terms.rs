//! The Ontology's terms as the Rust ranks and names them.

use crate::consequence::Consequence;

/// All variants. The match has an arm for each of them and no other, so that
/// a variant left out or named twice is an error.
macro_rules! all_terms {
    ($($name:ident)*) => {
        fn all() -> Vec<Consequence> {
            #[deny(unreachable_patterns)]
            let known = |term| match term {
                $(Consequence::$name => term,)*
            };
            vec![$(known(Consequence::$name)),*]
        }
    };
}

all_terms! {
    TranscriptAblation TranscriptAmplification SpliceAcceptorVariant SpliceDonorVariant
    StopGained FrameshiftVariant StopLost StartLost FeatureTruncation FeatureElongation
    InframeInsertion InframeDeletion MissenseVariant ProteinAlteringVariant
    SpliceRegionVariant StartRetainedVariant StopRetainedVariant
    IncompleteTerminalCodonVariant SynonymousVariant CodingSequenceVariant
    FivePrimeUtrVariant ThreePrimeUtrVariant NonCodingTranscriptExonVariant IntronVariant
    NonCodingTranscriptVariant UpstreamGeneVariant DownstreamGeneVariant IntergenicVariant
}

/// A line `rank name` for each term, by rank.
pub fn list() -> Vec<u8> {
    let mut terms = all();
    terms.sort_by_key(Consequence::severity_rank);
    let line = |term: &Consequence| format!("{} {}\n", term.severity_rank(), term.as_str());
    terms.iter().map(line).collect::<String>().into_bytes()
}
