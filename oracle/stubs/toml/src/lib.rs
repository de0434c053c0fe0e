pub mod ser {
    stub_error::stub_errors!(Error);
}

pub mod de {
    stub_error::stub_errors!(Error);
}
