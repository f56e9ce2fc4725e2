fn main() {
    #[cfg(feature = "mistakes")]
    lay::lay_own("exact", &["powers"]);
}
