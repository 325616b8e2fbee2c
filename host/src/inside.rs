// The original's G.722, unchanged, in a module of ours, so that its numbers can be set and read.
#![allow(dead_code)]
use crate::original::codec::CodecProcessor;

pub mod g722 {
    include!(env!("ROZIMAHA_G722"));

    impl G722Band {
        // In the order of a mark line.
        fn numbers(&self) -> Vec<i32> {
            let scalars = [self.s, self.sp, self.sz, self.r[1], self.r[2], self.a[1], self.a[2], self.p[1], self.p[2]];
            [&scalars, &self.d[1..], &self.b[1..], &[self.nb, self.det]].concat()
        }
    }

    fn all_numbers(x: &[i32], band: &[G722Band; 2]) -> Vec<i32> {
        [x.to_vec(), band[0].numbers(), band[1].numbers()].concat()
    }

    impl G722Processor {
        pub fn from_start(rate: u32, start: u32) -> Self {
            let mut made = G722Processor::new(rate);
            if start == 1 {
                for band in [&mut made.enc.band, &mut made.dec.band] {
                    band[0].det = 32;
                    band[1].det = 8;
                }
            }
            made
        }

        // The same state over again: the original cannot copy itself.
        pub fn again(&self) -> Self {
            let mut made = G722Processor::new(self.pcm_rate);
            (made.enc.x, made.enc.band) = (self.enc.x, self.enc.band.clone());
            (made.dec.x, made.dec.band) = (self.dec.x, self.dec.band.clone());
            made
        }

        pub fn encoder_numbers(&self) -> Vec<i32> {
            all_numbers(&self.enc.x, &self.enc.band)
        }

        pub fn decoder_numbers(&self) -> Vec<i32> {
            all_numbers(&self.dec.x, &self.dec.band)
        }
    }
}
