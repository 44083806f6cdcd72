//! Scalars as numbers under their names.

/// Each scalar of a summary in order, under its field's name; the values of an array share one.
/// Floats are their bits and i32 their 32-bit patterns. What is not there is [`NONE`].
pub type Flat = Vec<(&'static str, u64)>;

/// Stands for an absent value, as an initial record's index: no scalar is as large.
pub const NONE: u64 = u64::MAX;

pub trait Bits {
    fn put(&self, name: &'static str, flat: &mut Flat);
}

macro_rules! bits {
    ($($scalar:ty: $value:ident => $number:expr;)*) => {$(
        impl Bits for $scalar {
            fn put(&self, name: &'static str, flat: &mut Flat) {
                let $value = *self;
                flat.push((name, $number));
            }
        }
    )*};
}

bits! {
    bool: value => u64::from(value);
    u8: value => u64::from(value);
    u32: value => u64::from(value);
    u64: value => value;
    usize: value => value as u64;
    i32: value => u64::from(value.cast_unsigned());
    f32: value => u64::from(value.to_bits());
}

impl<T: Bits> Bits for Option<T> {
    fn put(&self, name: &'static str, flat: &mut Flat) {
        match self {
            Some(value) => value.put(name, flat),
            None => NONE.put(name, flat),
        }
    }
}

impl<T: Bits, const N: usize> Bits for [T; N] {
    fn put(&self, name: &'static str, flat: &mut Flat) {
        self.iter().for_each(|value| value.put(name, flat));
    }
}

/// The scalars of a summary. Every field stands either among them or among those taken elsewhere,
/// else this does not compile: so no field is forgotten.
#[macro_export]
macro_rules! flat {
    ($value:expr => $summary:path; $($scalar:ident),*; elsewhere $($rest:ident),*) => {
        match $value {
            $summary { $($scalar,)* $($rest: _,)* } => {
                let mut flat = $crate::flat::Flat::new();
                $($crate::flat::Bits::put($scalar, stringify!($scalar), &mut flat);)*
                flat
            }
            #[allow(unreachable_patterns)]
            _ => unreachable!("a record of another kind"),
        }
    };
}
