//! Derive macros that derive nothing: nothing that the oracle runs is written to a wire or a disk.

use proc_macro::TokenStream;

macro_rules! noop {
    ($($function:ident $name:ident),*) => {
        $(
            #[proc_macro_derive($name)]
            pub fn $function(_: TokenStream) -> TokenStream {
                TokenStream::new()
            }
        )*
    };
}

noop!(
    serialize Serialize,
    deserialize Deserialize,
    schema_read SchemaRead,
    schema_write SchemaWrite,
    get_size GetSize
);
