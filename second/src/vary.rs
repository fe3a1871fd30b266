//! Changes of one thing at a time.
//!
//! `variants` gives every single change of a value, each with a name that says where it is and what
//! it is. Structs declared by `parts!` and enums declared by `choices!` get theirs by themselves.

mod books;
mod language;
mod shape;
mod swap;
mod tool;

pub type Variants<T> = Vec<(String, T)>;

pub trait Vary: Sized {
    fn variants(&self) -> Variants<Self>;

    /// The name of this value among others; its number where it has no other.
    fn label(&self, number: usize) -> String {
        number.to_string()
    }
}

/// The changes of a part, as changes of the whole.
pub fn within<P: Vary, W>(name: &str, part: &P, whole: impl Fn(P) -> W) -> Variants<W> {
    let changed = part.variants().into_iter();
    changed.map(|(change, part)| (format!("{name}: {change}"), whole(part))).collect()
}

/// A struct of parts of rules: its changes are those of each part.
macro_rules! parts {
    ($(#[$about:meta])* pub struct $name:ident {
        $($(#[$about_part:meta])* pub $part:ident: $type:ty,)*
    }) => {
        $(#[$about])*
        #[derive(Clone, Debug, PartialEq)]
        pub struct $name {
            $($(#[$about_part])* pub $part: $type,)*
        }

        impl $crate::vary::Vary for $name {
            fn variants(&self) -> $crate::vary::Variants<Self> {
                let mut all = Vec::new();
                $(
                    let name = stringify!($part).replace('_', " ");
                    let whole = |$part| $name { $part, ..self.clone() };
                    all.extend($crate::vary::within(&name, &self.$part, whole));
                )*
                all
            }
        }
    };
}
pub(crate) use parts;

/// An enum of choices: its changes are the other choices.
macro_rules! choices {
    ($(#[$about:meta])* pub enum $name:ident { $($choice:ident),* }) => {
        $(#[$about])*
        #[derive(Clone, Copy, Debug, PartialEq, Eq)]
        pub enum $name {
            $($choice,)*
        }

        impl $crate::vary::Vary for $name {
            fn variants(&self) -> $crate::vary::Variants<Self> {
                let all = [$((stringify!($choice).to_string(), $name::$choice)),*];
                all.into_iter().filter(|(_, choice)| choice != self).collect()
            }
        }
    };
}
pub(crate) use choices;

/// A sequence: the changes of each element, each element left out, each two neighbours swapped.
impl<T: Vary + Clone> Vary for Vec<T> {
    fn variants(&self) -> Variants<Self> {
        let mut all = one_changed(self);
        all.extend(one_left_out(self));
        all.extend(two_swapped(self, |_, _| true));
        all
    }
}

pub fn one_changed<T: Vary + Clone>(elements: &[T]) -> Variants<Vec<T>> {
    let mut all = Vec::new();
    for (k, element) in elements.iter().enumerate() {
        all.extend(within(&element.label(k), element, |changed| {
            let mut elements = elements.to_vec();
            elements[k] = changed;
            elements
        }));
    }
    all
}

pub fn one_left_out<T: Vary + Clone>(elements: &[T]) -> Variants<Vec<T>> {
    let without = |k: usize| {
        let mut less = elements.to_vec();
        let left_out = less.remove(k);
        (format!("{}: left out", left_out.label(k)), less)
    };
    (0..elements.len()).map(without).collect()
}

/// Each two neighbours swapped, if they may be.
pub fn two_swapped<T: Vary + Clone>(
    elements: &[T],
    may_be: impl Fn(&T, &T) -> bool,
) -> Variants<Vec<T>> {
    let pairs = (1..elements.len()).filter(|&k| may_be(&elements[k - 1], &elements[k]));
    let swap = |k: usize| {
        let mut swapped = elements.to_vec();
        swapped.swap(k - 1, k);
        let (first, second) = (elements[k - 1].label(k - 1), elements[k].label(k));
        (format!("{first}: behind {second}"), swapped)
    };
    pairs.map(swap).collect()
}

impl Vary for bool {
    fn variants(&self) -> Variants<Self> {
        vec![((!self).to_string(), !self)]
    }
}

impl Vary for u32 {
    fn variants(&self) -> Variants<Self> {
        let near = [self.checked_sub(1), self.checked_add(1)];
        near.into_iter().flatten().map(|n| (format!("{n}, not {self}"), n)).collect()
    }
}

impl Vary for i32 {
    fn variants(&self) -> Variants<Self> {
        [self - 1, self + 1].into_iter().map(|n| (format!("{n}, not {self}"), n)).collect()
    }
}

impl Vary for usize {
    fn variants(&self) -> Variants<Self> {
        let near = (*self as u32).variants().into_iter();
        near.map(|(name, number)| (name, number as usize)).collect()
    }
}

/// A text: each character left out, each letter in upper case.
impl Vary for String {
    fn variants(&self) -> Variants<Self> {
        let mut all = Vec::new();
        for (k, c) in self.char_indices() {
            let (front, back) = (&self[..k], &self[k + 1..]);
            all.push((format!("{c:?} at {k} left out"), format!("{front}{back}")));
            if c.is_ascii_lowercase() {
                let upper = c.to_ascii_uppercase();
                all.push((format!("{upper:?} at {k}"), format!("{front}{upper}{back}")));
            }
        }
        all
    }
}
