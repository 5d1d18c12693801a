//! Arguments and results: when two are the same, how they are printed, and which smaller ones to try where a call differs.

pub trait Value {
    fn same(&self, other: &Self) -> bool;
    fn shown(&self) -> String;
    /// Other inputs of the same call, with sides or counts halved.
    fn smaller(&self) -> Vec<Self>
    where
        Self: Sized,
    {
        vec![]
    }
}

macro_rules! floats {
    ($($float:ty),*) => {$(
        /// The same bits, where all NaNs count as one.
        impl Value for $float {
            fn same(&self, other: &Self) -> bool {
                self.to_bits() == other.to_bits() || self.is_nan() && other.is_nan()
            }
            fn shown(&self) -> String {
                format!("{:0width$x}", self.to_bits(), width = 2 * size_of::<$float>())
            }
        }
    )*};
}
floats!(f32, f64);

macro_rules! plain {
    ($($plain:ty),*) => {$(
        impl Value for $plain {
            fn same(&self, other: &Self) -> bool {
                self == other
            }
            fn shown(&self) -> String {
                self.to_string()
            }
        }
    )*};
}
plain!(bool, u8, u32, i32, u64, i64, i128, usize, String);

macro_rules! tuples {
    ($(($($name:ident $at:tt),*))*) => {$(
        impl<$($name: Value + Clone),*> Value for ($($name,)*) {
            fn same(&self, other: &Self) -> bool {
                $(self.$at.same(&other.$at))&&*
            }
            fn shown(&self) -> String {
                [$(self.$at.shown()),*].join(", ")
            }
            /// One part smaller: the parts must be free of each other.
            fn smaller(&self) -> Vec<Self> {
                let mut all = vec![];
                $(all.extend(self.$at.smaller().into_iter().map(|part| {
                    let mut whole = self.clone();
                    whole.$at = part;
                    whole
                }));)*
                all
            }
        }
    )*};
}
tuples!((A 0, B 1) (A 0, B 1, C 2) (A 0, B 1, C 2, D 3) (A 0, B 1, C 2, D 3, E 4));

impl<T: Value> Value for [T] {
    fn same(&self, other: &Self) -> bool {
        self.len() == other.len() && self.iter().zip(other).all(|(a, b)| a.same(b))
    }
    fn shown(&self) -> String {
        let items: Vec<String> = self.iter().map(Value::shown).collect();
        format!("[{}]", items.join(", "))
    }
}

/// One element smaller.
impl<T: Value + Clone, const N: usize> Value for [T; N] {
    fn same(&self, other: &Self) -> bool {
        self[..].same(&other[..])
    }
    fn shown(&self) -> String {
        self[..].shown()
    }
    fn smaller(&self) -> Vec<Self> {
        let at = |k: usize, part: T| {
            let mut whole = self.clone();
            whole[k] = part;
            whole
        };
        (0..N).flat_map(|k| self[k].smaller().into_iter().map(move |part| at(k, part))).collect()
    }
}

/// A whole number that may be halved down to LEAST, whatever it stands beside.
#[derive(Clone, Copy, Debug, PartialEq)]
pub struct Count<const LEAST: usize>(pub usize);

impl<const LEAST: usize> Value for Count<LEAST> {
    fn same(&self, other: &Self) -> bool {
        self == other
    }
    fn shown(&self) -> String {
        self.0.to_string()
    }
    fn smaller(&self) -> Vec<Self> {
        let half = self.0 / 2;
        if half >= LEAST && half < self.0 { vec![Count(half)] } else { vec![] }
    }
}

impl<T: Value + Clone> Value for Vec<T> {
    fn same(&self, other: &Self) -> bool {
        self[..].same(&other[..])
    }
    fn shown(&self) -> String {
        self[..].shown()
    }
    fn smaller(&self) -> Vec<Self> {
        match self.len() {
            0 => vec![],
            n => vec![self[..n / 2].to_vec(), self[n - n / 2..].to_vec()],
        }
    }
}

impl<T: Value> Value for Option<T> {
    fn same(&self, other: &Self) -> bool {
        match (self, other) {
            (Some(a), Some(b)) => a.same(b),
            (None, None) => true,
            _ => false,
        }
    }
    fn shown(&self) -> String {
        self.as_ref().map_or("none".to_string(), Value::shown)
    }
}
