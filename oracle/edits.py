"""Every line in which the compiled source differs from the checkout.

An edit is (file, number of its first line, lines taken out, lines put in,
reason). Files of SOURCES without an edit are compiled as they stand.
"""

# The files taken from the checkout, with the SHA-256 of the bytes that the
# lists were made from.
SOURCES = {
    "codon.rs": "9662c7ed62462d9c0fcb77e2c5598dd3102d6977e619a82318d1234499d0376f",
    "error.rs": "51173fe2c2721607dc91e785ba41ca04238c6574f8fb18c96c55f38c1ef0a1e5",
    "types.rs": "8f4c3afd333aa4c07231211c77fee6a4371649191a694cc4d1377e9d5da40d2a",
    "locate/helpers.rs": "e6eeb84e7dbbd5407e60e67a1e73c6016233cca0581a604e4014392491b36548",
    "locate/mod.rs": "9a509d5f8181c001faca8889bf933111a0fa5532e09191bafde15cdedaf84e71",
    "consequence/helpers.rs": "d2b7e35c5ee7cc01dab3cd8bd10eb8fc57dcd0a8f25f76a26a2b628a14eb6fdc",
    "consequence/mod.rs": "3a72a51b18a3f4d7e013ed5cc67b8766e0c615ce2cddef7325cfb39390efbf36",
    "consequence/snv.rs": "99ad922dc2fa56d04a5e1a30a65610b75944cb3971c736bff8e62110a9657231",
}

EDITS = [
    ("consequence/mod.rs", 44, "mod snv;\n", "pub(crate) mod snv;\n",
     "visibility only: the driver calls annotate_snv_verified"),

    ("consequence/snv.rs", 15, "use crate::hgvs_c;\n", "",
     "HGVS is out; hgvs_c.rs is absent"),

    ("consequence/snv.rs", 95,
     "pub(super) fn annotate_snv_verified(\n", "pub(crate) fn annotate_snv_verified(\n",
     "visibility only: the driver calls annotate_snv_verified"),

    ("consequence/snv.rs", 105, """\
    let hgvs_c =
        hgvs_c::format_snv_hgvs(pos, ref_base, alt_base, &location, transcript, locate_index)?;
""", "", "HGVS call, and the errors that it raises"),

    ("consequence/snv.rs", 242, """\
    result.hgvs_c = hgvs_c;
""", "", "HGVS result"),

    ("consequence/snv.rs", 248, """\
    // Stop_lost: compute the actual extension distance via a 3'UTR scan.
    if result.consequences.contains(&Consequence::StopLost) {
        if let Some(ref aa_str) = result.amino_acids
            && let Some((_, alt_str)) = aa_str.split_once('/')
            && let Some(&alt_byte) = alt_str.as_bytes().first()
        {
            result.hgvs_p = Some(crate::hgvs_p::format_hgvs_p_extension(
                alt_byte,
                result
                    .protein_start
                    .expect("protein_start always set for coding SNV"),
                chrom,
                transcript,
                locate_index,
                fasta,
            )?);
        }
    } else {
        result.hgvs_p = crate::hgvs_p::format_hgvs_p_snv(
            &result.consequences,
            result.amino_acids.as_deref(),
            result.protein_start,
        );
    }
""", "", "HGVS calls, and the errors that they raise; they set hgvs_p alone"),

    ("consequence/snv.rs", 398, """\
    let predicts_nmd = coding_consequence == Consequence::StopGained
        && super::nmd::predicts_nmd(cds_offset + 1, index);
""", "", "NMD call"),

    ("consequence/snv.rs", 403, """\
    let ptc = if coding_consequence == Consequence::StopGained {
        super::nmd::resolve_ptc(
            crate::hgvs_p::PtcSite::Residue(codon_number),
            &crate::hgvs_p::CdsEdit {
                start: cds_offset,
                del_len: 1,
                ins_len: 1,
            },
            index,
        )
    } else {
        super::PtcStatus::NotApplicable
    };
""", "", "PTC call"),

    ("consequence/snv.rs", 427, """\
    result.predicts_nmd = predicts_nmd;
    result.ptc = ptc;
""", "", "NMD and PTC results"),
]
