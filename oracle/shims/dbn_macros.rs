//! The crate `dbn_macros`: the derive that only lets the `pyo3` attribute stand.

extern crate proc_macro;

#[proc_macro_derive(MockPyo3, attributes(pyo3))]
pub fn mock_pyo3(_input: proc_macro::TokenStream) -> proc_macro::TokenStream {
    proc_macro::TokenStream::new()
}
