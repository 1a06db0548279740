//! Writes every network that has data with its record, over the Rust crate `maxminddb`: the work of `mmdb export`.
//!
//!     rust_export FILE value|direct >lines
//!
//! `value`: each record is read as a `serde_json::Value`, as programs mostly do, and written (its map sorts the keys).
//! `direct`: each part of a record is written as it is read, in the file's order, with no tree in between.

use maxminddb::{LookupResult, Reader, WithinOptions};
use serde::de::{Deserialize, DeserializeSeed, Deserializer, Error, MapAccess, SeqAccess, Visitor};
use serde::Serialize;
use std::fmt;
use std::io::{self, BufWriter, Write};

type Done = Result<(), Box<dyn std::error::Error>>;

/// The JSON of a record.
struct Text(Vec<u8>);

impl<'de> Deserialize<'de> for Text {
    fn deserialize<D: Deserializer<'de>>(deserializer: D) -> Result<Text, D::Error> {
        let mut text = Vec::with_capacity(1024);
        deserializer.deserialize_any(Direct(&mut text))?;
        Ok(Text(text))
    }
}

/// A value that is written as it is read.
struct Direct<'t>(&'t mut Vec<u8>);

impl Direct<'_> {
    fn put<T: Serialize + ?Sized, E: Error>(self, value: &T) -> Result<(), E> {
        serde_json::to_writer(self.0, value).map_err(E::custom)
    }
}

impl<'de> DeserializeSeed<'de> for Direct<'_> {
    type Value = ();

    fn deserialize<D: Deserializer<'de>>(self, deserializer: D) -> Result<(), D::Error> {
        deserializer.deserialize_any(self)
    }
}

impl<'de> Visitor<'de> for Direct<'_> {
    type Value = ();

    fn expecting(&self, formatter: &mut fmt::Formatter) -> fmt::Result {
        formatter.write_str("any value")
    }

    fn visit_bool<E: Error>(self, value: bool) -> Result<(), E> {
        self.put(&value)
    }

    fn visit_i32<E: Error>(self, value: i32) -> Result<(), E> {
        self.put(&value)
    }

    fn visit_u16<E: Error>(self, value: u16) -> Result<(), E> {
        self.put(&value)
    }

    fn visit_u32<E: Error>(self, value: u32) -> Result<(), E> {
        self.put(&value)
    }

    fn visit_u64<E: Error>(self, value: u64) -> Result<(), E> {
        self.put(&value)
    }

    fn visit_u128<E: Error>(self, value: u128) -> Result<(), E> {
        self.put(&value)
    }

    fn visit_f32<E: Error>(self, value: f32) -> Result<(), E> {
        self.put(&value)
    }

    fn visit_f64<E: Error>(self, value: f64) -> Result<(), E> {
        self.put(&value)
    }

    fn visit_str<E: Error>(self, value: &str) -> Result<(), E> {
        self.put(value)
    }

    fn visit_map<A: MapAccess<'de>>(self, mut access: A) -> Result<(), A::Error> {
        self.0.push(b'{');
        let mut is_first = true;
        while let Some(key) = access.next_key::<&str>()? {
            if !is_first {
                self.0.push(b',');
            }
            is_first = false;
            Direct(self.0).put(key)?;
            self.0.push(b':');
            access.next_value_seed(Direct(self.0))?;
        }
        self.0.push(b'}');
        Ok(())
    }

    fn visit_seq<A: SeqAccess<'de>>(self, mut access: A) -> Result<(), A::Error> {
        self.0.push(b'[');
        let mut end = self.0.len();
        while access.next_element_seed(Direct(self.0))?.is_some() {
            end = self.0.len();
            self.0.push(b',');
        }
        self.0.truncate(end);
        self.0.push(b']');
        Ok(())
    }
}

/// A line.
#[derive(Serialize)]
struct Row {
    network: String,
    record: serde_json::Value,
}

fn put_value<W: Write>(found: &LookupResult<'_, Vec<u8>>, out: &mut W) -> Done {
    let record = found.decode()?.unwrap_or(serde_json::Value::Null);
    let network = found.network()?.to_string();
    serde_json::to_writer(out, &Row { network, record })?;
    Ok(())
}

fn put_direct<W: Write>(found: &LookupResult<'_, Vec<u8>>, out: &mut W) -> Done {
    let Text(record) = found.decode()?.unwrap_or(Text(b"null".to_vec()));
    write!(out, "{{\"network\":\"{}\",\"record\":", found.network()?)?;
    out.write_all(&record)?;
    out.write_all(b"}")?;
    Ok(())
}

fn export(file: &str, is_direct: bool) -> Done {
    let reader = Reader::open_readfile(file)?;
    let mut out = BufWriter::with_capacity(1 << 16, io::stdout().lock());
    for item in reader.networks(WithinOptions::default())? {
        let found = item?;
        if is_direct {
            put_direct(&found, &mut out)?;
        } else {
            put_value(&found, &mut out)?;
        }
        out.write_all(b"\n")?;
    }
    out.flush()?;
    Ok(())
}

fn main() {
    let words: Vec<String> = std::env::args().collect();
    let words: Vec<&str> = words.iter().map(String::as_str).collect();
    let done = match words[..] {
        [_, file, "value"] => export(file, false),
        [_, file, "direct"] => export(file, true),
        _ => {
            eprintln!("usage: rust_export FILE value|direct");
            std::process::exit(2);
        }
    };
    if let Err(error) = done {
        eprintln!("{error}");
        std::process::exit(1);
    }
}
