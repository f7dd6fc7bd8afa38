pub mod alloc {
    #[derive(Clone, Copy, Debug, PartialEq, Eq)]
    pub struct AllocError;
    pub trait Allocator {}
    #[derive(Clone, Copy, Debug)]
    pub struct Global;
    impl Allocator for Global {}
    impl std::fmt::Display for AllocError { fn fmt(&self, f: &mut std::fmt::Formatter) -> std::fmt::Result { f.write_str("memory") } }
    impl std::error::Error for AllocError {}
}
use alloc::*;
use std::ops::{Deref, DerefMut};
#[derive(Debug)]
pub struct Vec<T, A>(pub std::vec::Vec<T>, pub A);
pub type R<T> = Result<T, AllocError>;
impl<T, A> Vec<T, A> {
    pub fn new(a: A) -> Self { Vec(std::vec::Vec::new(), a) }
    pub fn with_capacity(a: A, _n: usize) -> R<Self> { Ok(Vec(std::vec::Vec::new(), a)) }
    pub fn push(&mut self, x: T) -> R<()> { self.0.push(x); Ok(()) }
    pub fn pop(&mut self) -> Option<T> { self.0.pop() }
    pub fn clear(&mut self) { self.0.clear() }
    pub fn truncate(&mut self, n: usize) { self.0.truncate(n) }
    pub fn remove(&mut self, i: usize) -> T { self.0.remove(i) }
    pub fn reserve(&mut self, n: usize) -> R<()> { self.0.reserve(n); Ok(()) }
    pub fn as_slice(&self) -> &[T] { &self.0 }
    pub fn as_mut_slice(&mut self) -> &mut [T] { &mut self.0 }
    pub fn extend_from_slice(&mut self, xs: &[T]) -> R<()> where T: Clone { self.0.extend_from_slice(xs); Ok(()) }
    pub fn clone(&self) -> R<Self> where T: Clone, A: Copy { Ok(Vec(self.0.clone(), self.1)) }
}
pub fn filled<T: Clone, A>(a: A, x: T, n: usize) -> R<Vec<T, A>> { Ok(Vec(vec![x; n], a)) }
impl<T, A> Deref for Vec<T, A> { type Target = [T]; fn deref(&self) -> &[T] { &self.0 } }
impl<T, A> DerefMut for Vec<T, A> { fn deref_mut(&mut self) -> &mut [T] { &mut self.0 } }
impl<'a, T, A> IntoIterator for &'a Vec<T, A> { type Item = &'a T; type IntoIter = std::slice::Iter<'a, T>; fn into_iter(self) -> Self::IntoIter { self.0.iter() } }
impl<'a, T, A> IntoIterator for &'a mut Vec<T, A> { type Item = &'a mut T; type IntoIter = std::slice::IterMut<'a, T>; fn into_iter(self) -> Self::IntoIter { self.0.iter_mut() } }
impl<T, A> IntoIterator for Vec<T, A> { type Item = T; type IntoIter = std::vec::IntoIter<T>; fn into_iter(self) -> Self::IntoIter { self.0.into_iter() } }
pub trait CollectIn: Iterator + Sized { fn collect_in<A>(self, a: A) -> R<Vec<Self::Item, A>> { Ok(Vec(self.collect(), a)) } }
impl<I: Iterator> CollectIn for I {}
pub struct ArcSlice<T, A>(std::sync::Arc<Vec<T, A>>);
impl<T, A> ArcSlice<T, A> {
    pub fn from_vec(xs: Vec<T, A>) -> R<Self> { Ok(ArcSlice(std::sync::Arc::new(xs))) }
    pub fn clone(&self) -> R<Self> { Ok(ArcSlice(self.0.clone())) }
    pub fn as_slice(&self) -> &[T] { &self.0 }
}
impl<T, A> Deref for ArcSlice<T, A> { type Target = [T]; fn deref(&self) -> &[T] { &self.0 } }
pub struct FoldHasher;
pub struct BuildHasherDefault<H>(std::marker::PhantomData<H>);
pub struct HashMap<K, V, S, A>(std::collections::HashMap<K, V>, std::marker::PhantomData<S>, A);
impl<K: std::hash::Hash + Eq, V, S, A> HashMap<K, V, S, A> {
    pub fn new(a: A) -> Self { HashMap(Default::default(), std::marker::PhantomData, a) }
    pub fn insert(&mut self, k: K, v: V) -> R<Option<V>> { Ok(self.0.insert(k, v)) }
    pub fn get(&self, k: &K) -> Option<&V> { self.0.get(k) }
    pub fn get_mut(&mut self, k: &K) -> Option<&mut V> { self.0.get_mut(k) }
    pub fn contains_key(&self, k: &K) -> bool { self.0.contains_key(k) }
    pub fn remove(&mut self, k: &K) -> Option<V> { self.0.remove(k) }
    pub fn len(&self) -> usize { self.0.len() }
    pub fn clear(&mut self) { self.0.clear() }
}
pub struct Buffer(String);
impl Buffer { pub fn new() -> Self { Buffer(String::new()) } pub fn format<T: std::fmt::Display>(&mut self, n: T) -> &str { self.0 = n.to_string(); &self.0 } }
pub mod prelude { pub use super::{Vec, CollectIn}; }
