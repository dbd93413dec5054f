
// The 168 pairs of the coarse-energy model, as the Laplace coder takes them: the share of zero in 32768ths, and the decay.
pub fn model_pairs() -> &'static [(u32, u32)] {
    static PAIRS: std::sync::OnceLock<Vec<(u32, u32)>> = std::sync::OnceLock::new();
    PAIRS.get_or_init(|| {
        let model = unsafe { e_prob_model };
        let rows = model.iter().flatten().flat_map(|row| row.chunks(2));
        rows.map(|pair| ((pair[0] as u32) << 7, (pair[1] as u32) << 6)).collect()
    })
}
