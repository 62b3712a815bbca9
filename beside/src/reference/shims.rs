//! Stand-ins for what the two files depend on outside themselves.

/// Stands for `src/intrapred.rs`: its trait `Pel`, word for word.
pub(crate) mod intrapred {
    pub(crate) trait Pel: Copy + Into<i32> {
        #[inline(always)]
        fn widen(self) -> i32 {
            self.into()
        }
        fn narrow(v: i32) -> Self;
    }
    impl Pel for u16 {
        #[inline(always)]
        fn narrow(v: i32) -> Self {
            v as u16
        }
    }
    impl Pel for i32 {
        #[inline(always)]
        fn narrow(v: i32) -> Self {
            v
        }
    }
}

/// Stands for `src/par.rs`: a pool of one worker that takes the items in order.
pub(crate) struct Pool;

impl Pool {
    /// Stands for `Pool::width`: the number of workers.
    pub(crate) fn width(&self) -> usize {
        1
    }

    /// Stands for `Pool::for_each`: the work done on each item.
    pub(crate) fn for_each<T>(&self, _want: usize, items: Vec<T>, work: impl Fn(T)) {
        items.into_iter().for_each(work);
    }

    /// Stands for `Pool::map_indexed`: the work's results for 0 to count - 1.
    pub(crate) fn map_indexed<R>(
        &self,
        _want: usize,
        count: usize,
        work: impl Fn(usize) -> R,
    ) -> Vec<R> {
        (0..count).map(work).collect()
    }
}

/// Stands for `src/rd_sse.rs`: only `CdefMetric::Wsse`, which is left out, calls it.
pub(crate) mod rd_sse {
    pub(crate) struct RdDispatch;

    impl RdDispatch {
        pub(crate) fn wsse_err(&self, _err: &[i32; 64], _w: usize, _h: usize) -> i64 {
            panic!("the weighted metric is left out")
        }
    }
}

/// Stands for `src/obu.rs`: the header fields that the search returns.
pub(crate) mod obu {
    pub(crate) struct CdefParams {
        pub(crate) bits: u8,
        pub(crate) damping: u8,
        pub(crate) strengths: Vec<(u8, u8, u8, u8)>,
    }
}

/// Stands for `src/tuning.rs`: settings of the strength search, none of its own.
pub(crate) mod tuning {
    pub(crate) struct Tuning {
        pub(crate) cdef_gate: u32,
        pub(crate) cdef_wsse: bool,
        pub(crate) cdef_margin: u32,
        pub(crate) cdef_chroma_w: f32,
        pub(crate) cdef_lambda_d: bool,
    }

    pub(crate) fn get() -> Tuning {
        Tuning {
            cdef_gate: 0,
            cdef_wsse: false,
            cdef_margin: 0,
            cdef_chroma_w: 1.0,
            cdef_lambda_d: false,
        }
    }
}

/// Stands for `crate::Speed`: how wide the strength search is.
pub(crate) struct Speed;

impl Speed {
    /// Stands for `Speed::at_least_slow`: never, so the short list of strengths.
    pub(crate) fn at_least_slow(&self) -> bool {
        false
    }
}

/// Stands for `mode_lambda_q` of `src/cost.rs`: bits cost nothing in the search.
pub(crate) fn mode_lambda_q(_q: f32) -> f32 {
    0.0
}

/// Stands for `dc_q` of `src/quant.rs`: only `mode_lambda_q` uses it.
pub(crate) fn dc_q(_base_q_idx: u8, _bd: u8) -> i32 {
    0
}

/// Stands for `frame_lambda_d` of `src/coder.rs`: not used with these settings.
pub(crate) fn frame_lambda_d(_q: u8, _bd: u8, _sub_x: usize, _sub_y: usize) -> f32 {
    panic!("the strength search's lambda is left out")
}
