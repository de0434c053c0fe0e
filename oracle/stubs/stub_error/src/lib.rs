//! Error types that are never made: the original names them in conversions.

/// Defines error types, each with one parameter where `<T>` follows its name.
#[macro_export]
macro_rules! stub_errors {
    ($($name:ident $(<$param:ident>)?),*) => {
        $(
            #[derive(Debug)]
            pub struct $name $(<$param>(pub $param))?;

            impl $(<$param>)? std::fmt::Display for $name $(<$param>)? {
                fn fmt(&self, f: &mut std::fmt::Formatter) -> std::fmt::Result {
                    f.write_str(stringify!($name))
                }
            }
        )*
    };
}
