//! The words for the library's numbers. Written by bindings/words from words.txt.

/// By kind.
pub(crate) const PLACE_NAMES: [&str; 13] = [
    "Upstream",
    "Downstream",
    "Distal",
    "FivePrimeUtr",
    "CdsExon",
    "ThreePrimeUtr",
    "SpliceDonor",
    "SpliceAcceptor",
    "SpliceRegion",
    "Intron",
    "FrameshiftIntron",
    "NonCodingExon",
    "NonCodingIntron",
];

/// The names of the Sequence Ontology terms by severity rank, most severe first.
///
/// ```
/// assert_eq!(vareffect_proved::TERM_NAMES[10], "missense_variant");
/// ```
pub const TERM_NAMES: [&str; 28] = [
    "transcript_ablation",
    "transcript_amplification",
    "splice_acceptor_variant",
    "splice_donor_variant",
    "stop_gained",
    "frameshift_variant",
    "stop_lost",
    "start_lost",
    "inframe_insertion",
    "inframe_deletion",
    "missense_variant",
    "protein_altering_variant",
    "splice_region_variant",
    "start_retained_variant",
    "stop_retained_variant",
    "incomplete_terminal_codon_variant",
    "synonymous_variant",
    "coding_sequence_variant",
    "5_prime_UTR_variant",
    "3_prime_UTR_variant",
    "non_coding_transcript_exon_variant",
    "intron_variant",
    "non_coding_transcript_variant",
    "upstream_gene_variant",
    "downstream_gene_variant",
    "feature_truncation",
    "feature_elongation",
    "intergenic_variant",
];

/// By the refusal's number; 0 is none.
pub(crate) const CAUSES: [&str; 29] = [
    "no refusal: the question is answered",
    "the transcript has 0 or over 512 exons, another number of exons than it states, more CDS segments than exons or over 64 selenocysteine bases; or lists or a buffer of lengths that do not fit each other",
    "an exon or CDS segment whose start is not below its end, a coordinate of the transcript over 1,000,000,000, or a transcript on a chromosome outside 1 to 25",
    "exons overlap or are not in strand order",
    "start and end of the transcript are not the outer edges of its exons",
    "CDS bounds without CDS segments, segments without bounds, or a CDS start not below its end",
    "a CDS segment with a phase over 2",
    "the first CDS segment has phase 1 or 2, although the start is marked complete",
    "a CDS segment names an exon that is not there",
    "two CDS segments name the same exon",
    "the first coding base lies in no exon",
    "the last coding base lies in no exon",
    "the CDS segments are not the exons cut to the CDS bounds, in strand order",
    "a selenocysteine base lies in no CDS segment",
    "the question or the window is on another chromosome than the transcript",
    "start or end over 1,000,010,000, end below start, or a place question about no base (end equal to start)",
    "the altered base is not A, C, G or T, or equals the reference base",
    "the called position lies outside the window",
    "the reference base is not the window's byte at that position",
    "the call lies more than 5,000 bases outside the transcript",
    "retired: once a call on chromosome 25, which is answered now",
    "a base of the called codon lies outside the window",
    "the deck is empty, its length is not a multiple of 16, or it is over 65,536 bytes (named with record 0)",
    "the record has an unknown kind, is a head elsewhere than at record 0, is no head at record 0, or has unused bits or bytes that are not zero (the lowest such record is named)",
    "the record links outside the deck, to a record of a wrong kind or to one already reached; or no link reaches it",
    "the deck's head links to no transcript (named with record 0), or there is no transcript at the place asked for",
    "the line is no call: not chromosome, position, reference and altered base with single spaces, or without its newline",
    "the call file is over 65,536 bytes, or the window file under 10 or over 65,536 bytes",
    "the line, newline included, is longer than the lent buffer",
];

/// By the refusal's number; 0 is none.
pub(crate) const ADVICE: [&str; 29] = [
    "nothing is to be done",
    "mend the counts and lengths; a transcript of over 512 exons cannot be asked about",
    "give coordinates counted from 0 with ends not included; number X 23, Y 24, M 25",
    "sort the exons 5' to 3', on the minus strand the highest first; exons may touch",
    "take them from the exons: the lowest start and the highest end",
    "give bounds and segments for a coding transcript, neither for a non-coding one",
    "give each segment its GFF3 phase: 0, 1 or 2",
    "clear the mark of a complete start where the 5' end of the CDS is missing, else give phase 0",
    "count exons from 0 in strand order",
    "give one segment for each coding exon; a transcript with ribosomal slippage cannot be asked about",
    "compare the CDS bounds with the exons; on the minus strand the first coding base is that before the CDS end",
    "compare the CDS bounds with the exons; on the minus strand the last coding base is that at the CDS start",
    "make each segment from its exon and the CDS bounds, one for every exon that holds a coding base",
    "give a base of the selenocysteine codon in the transcript's own CDS, or leave it out",
    "ask a transcript of that chromosome, with a window of it",
    "give the interval counted from 0 with its end not included; ask for an interval where it is an insertion",
    "give one capital letter other than the reference; longer changes cannot be asked about",
    "give a window that holds the position and the codons around it",
    "check that call and window are of the same assembly, that positions count from 0 and that the letters' case agrees",
    "ask another transcript: this one is too far away to be affected",
    "nothing: no library of this release gives it",
    "give a window that reaches over the whole codon, the neighbouring exon's part included",
    "check that the file is there and whole; split a larger deck",
    "mend the kind and write zeros where the format leaves bytes unused",
    "mend the link, or drop the record that nothing links to",
    "put a transcript into the deck; count places from 0",
    "write the line as '7 20319 T C', without leading zeros, and end the last line too",
    "split the calls, cut the window; check that the window file is there",
    "lend at least 1,553 bytes: no line is longer",
];

pub(crate) const UNKNOWN_CAUSE: &str = "a number that this release does not have";
pub(crate) const UNKNOWN_ADVICE: &str =
    "take header, crate and library of one release; see the ABI's number";
