// Stand-in for the crate serde_json: the one name that encoding/read.rs has of it. No JSON is looked into: the stand-in for any-values keeps its text, and contents 2, 5 and 9 are left out.
#[derive(Debug)]
pub struct Error;
impl std::fmt::Display for Error {
    fn fmt(&self, _: &mut std::fmt::Formatter<'_>) -> std::fmt::Result {
        Ok(())
    }
}
