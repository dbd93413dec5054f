
// encode_pulses and decode_pulses are not among the crate's files: these call libopus' own, on the same coder state.
fn lent(this: &mut ec_enc) -> crate::libopus::EcCtx {
    let at = this.save();
    crate::libopus::EcCtx {
        buf: this.buf.as_mut_ptr(), storage: at.storage, end_offs: at.end_offs, end_window: at.end_window,
        nend_bits: at.nend_bits, nbits_total: at.nbits_total, offs: at.offs, rng: at.rng, val: at.val,
        ext: at.ext, rem: at.rem, error: at.error,
    }
}
fn back(this: &mut ec_enc, c: crate::libopus::EcCtx) {
    this.restore(crate::celt::entcode::ec_ctx_saved {
        storage: c.storage, end_offs: c.end_offs, end_window: c.end_window, nend_bits: c.nend_bits,
        nbits_total: c.nbits_total, offs: c.offs, rng: c.rng, val: c.val, ext: c.ext, rem: c.rem, error: c.error,
    });
}
pub unsafe fn encode_pulses(y: *mut i32, n: i32, k: i32, enc: &mut ec_enc) {
    let mut c = lent(enc);
    crate::libopus::encode_pulses(y, n, k, &mut c);
    back(enc, c);
}
pub unsafe fn decode_pulses(y: *mut i32, n: i32, k: i32, dec: &mut ec_dec) -> opus_val32 {
    let mut c = lent(dec);
    let energy = crate::libopus::decode_pulses(y, n, k, &mut c);
    back(dec, c);
    energy
}

// Does the crate's table of U have what V(n, k) is the sum of? libopus' table has the same rows.
pub fn has_count(n: u32, k: u32) -> bool {
    [k, k + 1].iter().all(|&j| PVQ_U_DATA2.get(n.min(j) as usize).map_or(false, |row| (n.max(j) as usize) < row.len()))
}
