//! The files of the crate unopus that the port follows, unchanged, beside functions of libopus 1.3.1's static archive.
//! Of `silk::macros` and `celt::bands` only one constant each is used, and stands here.
#![allow(warnings)]
pub mod externs;
pub mod libopus;
pub mod silk {
    pub mod macros {
        pub const EC_CLZ0: i32 = 32;
    }
}
pub mod src {
    pub mod opus_defines;
}
pub mod celt {
    pub mod bands {
        pub const SPREAD_NONE: i32 = 0;
    }
    pub mod celt_lpc;
    pub mod cwrs;
    pub mod entcode;
    pub mod entdec;
    pub mod entenc;
    pub mod kiss_fft;
    pub mod laplace;
    pub mod mathops;
    pub mod mdct;
    pub mod modes;
    pub mod pitch;
    pub mod quant_bands;
    pub mod rate;
    pub mod vq;
}
