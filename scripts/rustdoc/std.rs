//! What the signatures of the libraries name of Rattle's std, and of the kit's `json`. rustdoc reads
//! it, and no page shows it. It stands on no std of Rust, so no page gets a trait, an impl or a link
//! from there.
#![feature(no_core, lang_items, rustc_attrs, unboxed_closures)]
#![no_core]
macro_rules! modules { ($($name:ident)*) => { $(pub mod $name { pub use crate::*; })* } }
modules! { alloc boxed cmp default hash iter marker mem ops prelude rc }
pub fn size_of<T>() -> usize { loop {} }
pub mod error { pub trait Error {} }
pub mod io { pub struct Error; pub struct ErrorKind; }
pub mod fmt {
    pub struct Error;
    pub struct Formatter<'a, W: crate::Sized>(crate::PhantomData<&'a mut W>);
    pub type Result = crate::Result<(), Error>;
    pub trait Write {}
    pub trait Debug { fn fmt<W: Write>(&self, f: &mut Formatter<W>) -> Result { loop {} } }
    pub trait Display { fn fmt<W: Write>(&self, f: &mut Formatter<W>) -> Result; }
}

#[lang = "pointee_sized"] pub trait PointeeSized {}
#[lang = "meta_sized"] pub trait MetaSized: PointeeSized {}
#[lang = "sized"] pub trait Sized: MetaSized {}
#[lang = "copy"] pub trait Copy {}
#[lang = "tuple_trait"] pub trait Tuple {}
#[lang = "legacy_receiver"] pub trait LegacyReceiver {}
#[lang = "phantom_data"] pub struct PhantomData<T: MetaSized>;
#[lang = "fn_once"] #[rustc_paren_sugar] pub trait FnOnce<A: Tuple> { #[lang = "fn_once_output"] type Output; }
#[lang = "fn_mut"] #[rustc_paren_sugar] pub trait FnMut<A: Tuple>: FnOnce<A> {}
macro_rules! alike { ($($trait:ident)*) => { $(
    impl $trait for str {} impl<T> $trait for [T] {} impl<T: MetaSized> $trait for &T {}
    impl<T, A: Allocator> $trait for Vec<T, A> {} impl<T, A: Allocator> $trait for BoxedSlice<T, A> {}
    impl<A: Allocator> $trait for String<A> {} impl<A: Allocator> $trait for BoxedStr<A> {} impl<A: Allocator> $trait for RcStr<A> {}
)* } }
alike! { PartialEq Eq Hash }
impl<T: MetaSized> LegacyReceiver for &T {} impl<T: MetaSized> LegacyReceiver for &mut T {}
impl<T: MetaSized> Copy for &T {} impl<T: MetaSized> Copy for PhantomData<T> {} impl Copy for usize {}
impl Drop for () {} impl Allocator for Global {} impl Hasher for FoldHasher {}
impl<H: Hasher> BuildHasher for BuildHasherDefault<H> { type Hasher = H; } impl BuildHasher for RandomState { type Hasher = FoldHasher; }

pub enum Option<T> { None, Some(T) } pub enum Result<T, E> { Ok(T), Err(E) } pub enum Ordering { Less, Equal, Greater }
pub struct AllocError; pub struct Global; pub struct FoldHasher; pub struct RandomState;
pub struct Invalid; pub struct Pretty; pub struct Token<'a>(PhantomData<&'a ()>); pub struct Reader<'a>(PhantomData<&'a ()>);
pub struct AllocFailed<T>(PhantomData<T>); pub struct Box<T, A: Allocator = Global>(PhantomData<(T, A)>); pub struct Scratch; pub struct Writer;
pub struct Vec<T, A: Allocator = Global>(PhantomData<(T, A)>);
pub struct String<A: Allocator = Global>(PhantomData<A>);
pub struct BoxedSlice<T, A: Allocator = Global>(PhantomData<(T, A)>);
pub struct BoxedStr<A: Allocator = Global>(PhantomData<A>); pub struct RcStr<A: Allocator = Global>(PhantomData<A>);
pub struct BuildHasherDefault<H> { initial: PhantomData<H> }

pub trait Allocator {} pub trait Hasher {} pub trait Model {}
pub trait Drop: Sized { fn drop(self) {} }
pub trait Clone: Sized { fn clone(&self) -> Result<Self, AllocError> { loop {} } }
pub trait Default { fn default() -> Self; }
pub trait Emptied: Sized { fn emptied(like: &Self) -> Result<Self, AllocError>; }
pub trait MadeWith<A> { fn made_with(alloc: A) -> Self; }
pub trait From<T> { fn from(value: T) -> Self; }
pub trait PartialEq { fn eq(&self, other: &Self) -> bool { loop {} } }
pub trait Eq: PartialEq {}
pub trait PartialOrd: PartialEq { fn partial_cmp(&self, other: &Self) -> Option<Ordering>; }
pub trait Ord: Eq + PartialOrd { fn cmp(&self, other: &Self) -> Ordering; }
pub trait Hash: Eq { fn hash<H: Hasher>(&self, state: &mut H) {} }
pub trait BuildHasher { type Hasher: Hasher; }
pub trait Index<I> { type Output: MetaSized; fn index(&self, index: I) -> &Self::Output; }
pub trait IndexMut<I>: Index<I> { fn index_mut(&mut self, index: I) -> &mut Self::Output; }
pub trait Iterator { type Item; fn next(&mut self) -> Option<Self::Item>; fn size_hint(&self) -> (usize, Option<usize>) { loop {} } }
pub trait DoubleEndedIterator: Iterator { fn next_back(&mut self) -> Option<Self::Item>; }
pub trait ExactSizeIterator: Iterator { fn len(&self) -> usize; }
pub trait FusedIterator: Iterator {}
pub trait IntoIterator { type Item; type IntoIter: Iterator<Item = Self::Item>; fn into_iter(self) -> Self::IntoIter; }
pub trait Extend<A> { fn extend<U: IntoIterator<Item = A>>(&mut self, iter: U) -> Result<(), AllocError>; }
pub trait FromIterator<A>: Sized { type Alloc: Allocator; fn from_iter<U: IntoIterator<Item = A>>(a: Self::Alloc, i: U) -> Result<Self, AllocError>; }
