stub_error::stub_errors!(Error);

/// Never called by the oracle: the fit is not part of the port.
pub fn linear_regression_of(_: &[(f64, f64)]) -> Result<(f64, f64), Error> {
    Err(Error)
}
