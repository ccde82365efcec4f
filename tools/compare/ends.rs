//! How a pair of frames ends, by document 01's rules and by document 000.
//!
//! The oracle (tools/oracle/ecc.rs) is compiled twice: with document 01's mathematics and tests, which the library equals bit for bit, and with
//! the machine's sine, cosine and exponential and without the added tests. The second tells numbers and pass counts. It is held to document 000
//! itself, docs/source/ecc.rs as it stands, on every pair: the matrix bit for bit, or the error. Only nalgebra is a stand-in (nalgebra.rs).

use by_machine;
use by_rules::ecc;
use document_000;
use error::BoostTrackErr;
pub use by_rules::ecc::EccConfig;

/// two frames and settings
pub struct Pair {
    pub w: usize,
    pub h: usize,
    pub frames: (Vec<u8>, Vec<u8>),
    pub cfg: EccConfig,
}

/// how the rules and document 000 end
pub struct Ends {
    pub rules: ecc::Outcome,
    pub rust: by_machine::ecc::Outcome,
    /// the second is document 000's own answer
    pub held: bool,
}

impl Pair {
    pub fn by_the_rules(&self) -> ecc::Outcome {
        ecc::find_transform_ecc_euclidean(&self.frames.0, &self.frames.1, self.w, self.h, self.cfg, usize::MAX, usize::MAX)
    }

    pub fn ends(&self) -> Ends {
        let (a, b, w, h) = (&self.frames.0, &self.frames.1, self.w, self.h);
        let EccConfig { eps, max_iter, gauss_filt_size, resize_long_edge } = self.cfg;
        let cfg = by_machine::ecc::EccConfig { eps, max_iter, gauss_filt_size, resize_long_edge };
        let rust = by_machine::ecc::find_transform_ecc_euclidean(a, b, w, h, cfg, 0, 0);
        let cfg = document_000::EccConfig { eps, max_iter, gauss_filt_size, resize_long_edge };
        let held = match document_000::find_transform_ecc_euclidean(a, b, w, h, cfg) {
            Ok(m) => rust.number == 0 && same(&m, &by_machine::ecc::affine_from_theta_tx_ty(rust.theta, rust.tx, rust.ty)),
            Err(BoostTrackErr::InvalidInput) => rust.number == 1,
            Err(BoostTrackErr::NotConverged) => (5..10).contains(&rust.number),
        };
        Ends { rules: self.by_the_rules(), rust, held }
    }
}

/// the same bits; two NaNs are the same
fn same(a: &[[f32; 3]; 3], b: &[[f32; 3]; 3]) -> bool {
    a.iter().flatten().zip(b.iter().flatten()).all(|(x, y)| x.to_bits() == y.to_bits() || (x.is_nan() && y.is_nan()))
}
