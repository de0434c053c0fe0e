pub mod distr {
    pub mod uniform {
        stub_error::stub_errors!(Error);
    }
}
