//! The file of a long-term key. It is best kept on a machine that no packet ever comes to.

use crate::fields::fields;
use crate::hex::{base64, hex, key};
use crate::secret::Secret;
use crate::secret_file::{self, Text};
use crate::stop::{failed, Stop};
use std::path::Path;

#[derive(Debug)]
pub struct LongTerm {
    pub seed: Secret,
    pub public: [u8; 32],
}

impl LongTerm {
    pub fn new() -> Result<LongTerm, Stop> {
        let seed = Secret::random()?;
        let public = seed.signing_key().public_key();
        Ok(LongTerm { seed, public })
    }

    fn text(&self) -> Text {
        Text(format!(
            "# The long-term key of a Roughtime server, made by trawld. Keep it offline, and show\n\
             # it to nobody; what clients need is the public key.\n\
             public {}\nseed {}\n",
            hex(&self.public),
            hex(self.seed.bytes())
        ))
    }

    /// Never over another file.
    pub fn write(&self, file: &Path) -> Result<(), Stop> {
        secret_file::write(file, &self.text(), false)
    }

    pub fn read(file: &Path) -> Result<LongTerm, Stop> {
        LongTerm::of(&secret_file::read(file)?.0).or_else(|why| {
            failed(format!(
                "{} is no long-term key: {why}; 'trawld --make-key FILE' makes one",
                file.display()
            ))
        })
    }

    fn of(text: &str) -> Result<LongTerm, String> {
        let [public, seed] = fields(text, ["public", "seed"])?;
        let public = key(public).ok_or("its public key is not 64 digits of hex")?;
        let seed = Secret::new(key(seed).ok_or("its seed is not 64 digits of hex")?);
        match seed.signing_key().public_key() == public {
            true => Ok(LongTerm { seed, public }),
            false => Err("its public key is not that of its seed".to_string()),
        }
    }

    /// What its owner tells to others.
    pub fn said(&self) -> String {
        said(&self.public)
    }
}

pub fn said(public: &[u8; 32]) -> String {
    format!("long-term public key {} ({})\n", hex(public), base64(public))
}
