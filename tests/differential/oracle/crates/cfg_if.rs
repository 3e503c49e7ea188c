//! Ours. Stands for the crate `cfg_if`, which is not given: the two forms that the given files use.

#[macro_export]
macro_rules! cfg_if {
    (if #[cfg($test:meta)] { $($yes:item)* } else { $($no:item)* }) => {
        $( #[cfg($test)] $yes )*
        $( #[cfg(not($test))] $no )*
    };
    (if #[cfg($test:meta)] { $($yes:item)* }) => {
        $( #[cfg($test)] $yes )*
    };
}
