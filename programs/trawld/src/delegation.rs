//! The file of a delegation: a delegated seed, and the certificate by which the long-term key lets
//! it sign from one second to another. It is one file, so that a server never finds half of it new.

use crate::date::date;
use crate::fields::fields;
use crate::hex::{bytes, hex, key};
use crate::long_term::LongTerm;
use crate::secret::Secret;
use crate::secret_file::{self, Text};
use crate::stop::{failed, Stop};
use std::path::Path;
use trawlbeacon::{Batch, Refusal, Window, CERT_LENGTH, DELE_LENGTH, REQUEST_LENGTH};

#[derive(Debug)]
pub struct Delegation {
    /// The public key of who delegates.
    pub long_term: [u8; 32],
    pub mint: u64,
    pub maxt: u64,
    pub cert: Vec<u8>,
    pub seed: Secret,
}

impl Delegation {
    /// To a new seed, from the first of these seconds to the last. The library writes and signs it.
    pub fn new(by: &LongTerm, mint: u64, maxt: u64) -> Result<Delegation, Stop> {
        let (seed, signer) = (Secret::random()?, by.seed.signing_key());
        let pubk = seed.signing_key().public_key();
        let (mut dele, mut cert) = ([0; DELE_LENGTH], vec![0; CERT_LENGTH]);
        let written = trawlbeacon::write_dele(&pubk, mint, maxt, &mut dele).and_then(|_| {
            trawlbeacon::write_cert(&pubk, mint, maxt, &signer.sign_dele(&dele), &mut cert)
        });
        match written {
            Ok(_) => Ok(Delegation { long_term: by.public, mint, maxt, cert, seed }),
            Err(why) => failed(format!("the delegation could not be written: {why}")),
        }
    }

    fn text(&self) -> Text {
        Text(format!(
            "# A delegation of a Roughtime server, made by trawld, from {}\n\
             # to {}. Whoever has its seed can sign any time between the two.\n\
             public {}\nmint {}\nmaxt {}\ncert {}\nseed {}\n",
            date(self.mint),
            date(self.maxt),
            hex(&self.long_term),
            self.mint,
            self.maxt,
            hex(&self.cert),
            hex(self.seed.bytes())
        ))
    }

    pub fn write(&self, file: &Path, replace: bool) -> Result<(), Stop> {
        secret_file::write(file, &self.text(), replace)
    }

    /// Reads it, and has the library show that all of it belongs together.
    pub fn read(file: &Path) -> Result<Delegation, Stop> {
        Delegation::of(&secret_file::read(file)?.0).or_else(|why| {
            let shown = file.display();
            failed(format!("{shown} is no delegation: {why}; 'trawld --delegate' makes one"))
        })
    }

    fn of(text: &str) -> Result<Delegation, String> {
        let [public, mint, maxt, cert, seed] =
            fields(text, ["public", "mint", "maxt", "cert", "seed"])?;
        let delegation = Delegation {
            long_term: key(public).ok_or("its public key is not 64 digits of hex")?,
            mint: mint.parse().map_err(|_| "its mint is no number of seconds")?,
            maxt: maxt.parse().map_err(|_| "its maxt is no number of seconds")?,
            cert: bytes(cert).ok_or("its cert is no digits of hex")?,
            seed: Secret::new(key(seed).ok_or("its seed is not 64 digits of hex")?),
        };
        // What the library would refuse in every batch is refused before there is one.
        match delegation.tried() {
            Ok(window) if (window.mint, window.maxt) == (delegation.mint, delegation.maxt) => {
                Ok(delegation)
            }
            Ok(_) => Err("its mint and maxt are not those of its cert".to_string()),
            Err(why) => Err(format!("refused with code {}: {why}", why.code())),
        }
    }

    /// What a client makes of an answer at its first second.
    fn tried(&self) -> Result<Window, Refusal> {
        let (mut request, mut batch) = ([0; REQUEST_LENGTH], self.batch());
        trawlbeacon::write_request(&self.long_term, &[0; 32], &mut request)?;
        batch.push(&request)?;
        batch.answer(self.mint, 1).map_err(|why| why.refusal)?;
        let answer = batch.answers().next().map_or(&[][..], |(_, answer)| answer);
        let checked = trawlbeacon::check_signed(&self.long_term, &request, answer);
        checked.map(|checked| checked.window).map_err(|why| why.refusal)
    }

    /// An empty batch that is answered by it.
    pub fn batch(&self) -> Batch {
        Batch::new(&self.long_term, self.seed.signing_key(), &self.cert)
    }

    /// The same once more, for another thread.
    pub fn again(&self) -> Delegation {
        let seed = Secret::new(*self.seed.bytes());
        let (long_term, cert) = (self.long_term, self.cert.clone());
        Delegation { long_term, mint: self.mint, maxt: self.maxt, cert, seed }
    }

    pub fn said(&self) -> String {
        let (from, to) = (date(self.mint), date(self.maxt));
        format!("delegation from {from} to {to} ({} to {})\n", self.mint, self.maxt)
    }
}
