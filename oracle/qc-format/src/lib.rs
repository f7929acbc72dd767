//! Stands in for qc-format, which was not published. Names are left out of what is compared, so every one is good.
pub mod blob {
    pub struct BadName;

    pub fn validate_blob_name(_name: &str) -> Result<(), BadName> {
        Ok(())
    }
}
