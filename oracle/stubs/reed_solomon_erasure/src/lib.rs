stub_error::stub_errors!(Error);
