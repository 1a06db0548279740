//! Measures the Rust crate `maxminddb`: the work of `mmdb_bench`, with the same addresses, names and sums.
//!
//!     rust_bench FILE N REPEATS

use maxminddb::{geoip2, path, MaxMindDbError, Reader, WithinOptions};
use serde::de::{Deserialize, Deserializer, MapAccess, SeqAccess, Visitor};
use std::fmt;
use std::hint::black_box;
use std::net::{IpAddr, Ipv4Addr, Ipv6Addr};
use std::time::Instant;

type Answer = Result<u64, MaxMindDbError>;

/// Any value, owned, with the types that the file has.
#[allow(dead_code)]
enum Value {
    Bool(bool),
    I32(i32),
    U16(u16),
    U32(u32),
    U64(u64),
    U128(u128),
    Double(f64),
    Float(f32),
    Text(String),
    Bytes(Vec<u8>),
    Map(Vec<(String, Value)>),
    Array(Vec<Value>),
}

struct AnyValue;

impl<'de> Visitor<'de> for AnyValue {
    type Value = Value;

    fn expecting(&self, formatter: &mut fmt::Formatter) -> fmt::Result {
        formatter.write_str("any value")
    }

    fn visit_bool<E>(self, value: bool) -> Result<Value, E> {
        Ok(Value::Bool(value))
    }

    fn visit_i32<E>(self, value: i32) -> Result<Value, E> {
        Ok(Value::I32(value))
    }

    fn visit_u16<E>(self, value: u16) -> Result<Value, E> {
        Ok(Value::U16(value))
    }

    fn visit_u32<E>(self, value: u32) -> Result<Value, E> {
        Ok(Value::U32(value))
    }

    fn visit_u64<E>(self, value: u64) -> Result<Value, E> {
        Ok(Value::U64(value))
    }

    fn visit_u128<E>(self, value: u128) -> Result<Value, E> {
        Ok(Value::U128(value))
    }

    fn visit_f32<E>(self, value: f32) -> Result<Value, E> {
        Ok(Value::Float(value))
    }

    fn visit_f64<E>(self, value: f64) -> Result<Value, E> {
        Ok(Value::Double(value))
    }

    fn visit_str<E>(self, value: &str) -> Result<Value, E> {
        Ok(Value::Text(value.to_owned()))
    }

    fn visit_bytes<E>(self, value: &[u8]) -> Result<Value, E> {
        Ok(Value::Bytes(value.to_owned()))
    }

    fn visit_map<A: MapAccess<'de>>(self, mut access: A) -> Result<Value, A::Error> {
        let mut pairs = Vec::new();
        while let Some(pair) = access.next_entry()? {
            pairs.push(pair);
        }
        Ok(Value::Map(pairs))
    }

    fn visit_seq<A: SeqAccess<'de>>(self, mut access: A) -> Result<Value, A::Error> {
        let mut values = Vec::new();
        while let Some(value) = access.next_element()? {
            values.push(value);
        }
        Ok(Value::Array(values))
    }
}

impl<'de> Deserialize<'de> for Value {
    fn deserialize<D: Deserializer<'de>>(deserializer: D) -> Result<Value, D::Error> {
        deserializer.deserialize_any(AnyValue)
    }
}

/// The words of the generator xorshift64*.
struct Random {
    state: u64,
}

impl Random {
    fn next_word(&mut self) -> u64 {
        self.state ^= self.state >> 12;
        self.state ^= self.state << 25;
        self.state ^= self.state >> 27;
        self.state.wrapping_mul(0x2545_F491_4F6C_DD1D)
    }

    fn next_ipv4(&mut self) -> IpAddr {
        IpAddr::V4(Ipv4Addr::from((self.next_word() >> 32) as u32))
    }

    fn next_ipv6(&mut self) -> IpAddr {
        let high = (self.next_word() >> 3) | (1 << 61);
        let low = self.next_word();
        IpAddr::V6(Ipv6Addr::from(u128::from(high) << 64 | u128::from(low)))
    }
}

fn lookups(reader: &Reader<Vec<u8>>, addresses: &[IpAddr]) -> Answer {
    let mut sum = 0u64;
    for &address in addresses {
        let found = reader.lookup(black_box(address))?;
        sum = sum.wrapping_add(found.offset().map_or(1, |offset| offset as u64 + 2));
    }
    Ok(sum)
}

fn lookup_networks(reader: &Reader<Vec<u8>>, addresses: &[IpAddr]) -> Answer {
    let mut sum = 0u64;
    for &address in addresses {
        let found = reader.lookup(black_box(address))?;
        sum = sum.wrapping_add(u64::from(found.network()?.prefix()));
    }
    Ok(sum)
}

fn length(text: Option<&str>) -> u64 {
    text.map_or(0, |text| text.len() as u64)
}

fn decode_cities(reader: &Reader<Vec<u8>>, addresses: &[IpAddr]) -> Answer {
    let mut sum = 0u64;
    for &address in addresses {
        if let Some(city) = reader.lookup(address)?.decode::<geoip2::City>()? {
            let city = black_box(city);
            sum += 1 + length(city.city.names.english) + length(city.country.iso_code);
        }
    }
    Ok(sum)
}

fn decode_countries(reader: &Reader<Vec<u8>>, addresses: &[IpAddr]) -> Answer {
    let mut sum = 0u64;
    for &address in addresses {
        if let Some(country) = reader.lookup(address)?.decode::<geoip2::Country>()? {
            let country = black_box(country);
            sum += 1 + length(country.country.iso_code);
        }
    }
    Ok(sum)
}

fn paths(reader: &Reader<Vec<u8>>, addresses: &[IpAddr]) -> Answer {
    let path = path!["country", "iso_code"];
    let mut sum = 0u64;
    for &address in addresses {
        let found = reader.lookup(address)?;
        sum += length(black_box(found.decode_path::<&str>(&path)?));
    }
    Ok(sum)
}

fn decode_values(reader: &Reader<Vec<u8>>, addresses: &[IpAddr]) -> Answer {
    let mut sum = 0u64;
    for &address in addresses {
        if let Some(Value::Map(pairs)) = reader.lookup(address)?.decode()? {
            sum += black_box(pairs).len() as u64;
        }
    }
    Ok(sum)
}

fn walk(reader: &Reader<Vec<u8>>, options: WithinOptions) -> Answer {
    let networks = reader.networks(options)?;
    Ok(networks.fold(0, |sum, item| sum + u64::from(item.is_ok())))
}

fn walk_networks(reader: &Reader<Vec<u8>>) -> Answer {
    let mut sum = 0;
    for item in reader.networks(WithinOptions::default())? {
        sum += u64::from(item?.network()?.prefix());
    }
    Ok(sum)
}

/// How many networks are of the United States. The code is read once a record.
fn walk_country(reader: &Reader<Vec<u8>>, file_len: usize) -> Answer {
    let path = path!["country", "iso_code"];
    let mut known = vec![None; file_len];
    let mut sum = 0;
    for item in reader.networks(WithinOptions::default())? {
        let found = item?;
        let Some(offset) = found.offset() else { continue };
        let answer = match known[offset] {
            Some(answer) => answer,
            None => found.decode_path::<&str>(&path)? == Some("US"),
        };
        known[offset] = Some(answer);
        sum += u64::from(answer);
    }
    Ok(sum)
}

/// Runs the work so many times, and prints the best and the median: a rate where it looks `lookups`
/// addresses up, else milliseconds.
fn show(name: &str, lookups: Option<usize>, repeats: usize, mut work: impl FnMut() -> Answer) {
    let mut seconds = Vec::new();
    let mut sum = 0;
    for _ in 0..repeats {
        let start = Instant::now();
        sum = black_box(work()).unwrap_or_else(|error| panic!("{name}: {error}"));
        seconds.push(start.elapsed().as_secs_f64());
    }
    seconds.sort_by(f64::total_cmp);
    let (best, median) = (seconds[0], seconds[seconds.len() / 2]);
    match lookups {
        Some(count) => {
            let count = count as f64;
            println!("{name}\t{:.0}\t{:.0}\t/s\t{sum}", count / best, count / median);
        }
        None => println!("{name}\t{:.3}\t{:.3}\tms\t{sum}", best * 1e3, median * 1e3),
    }
}

fn node_count<S: AsRef<[u8]>>(reader: &Reader<S>) -> u64 {
    u64::from(reader.metadata().node_count)
}

fn bench(file: &str, count: usize, repeats: usize) -> Result<(), MaxMindDbError> {
    println!("# what\tbest\tmedian\tunit\tchecksum");
    show("load_file", None, repeats, || Ok(node_count(&Reader::open_readfile(file)?)));
    let bytes = std::fs::read(file)?;
    show("load_from_memory", None, repeats, || Ok(node_count(&Reader::from_source(&bytes[..])?)));
    let reader = Reader::open_readfile(file)?;
    let mut random = Random { state: 0x9E37_79B9_7F4A_7C15 };
    let ipv4: Vec<IpAddr> = (0..count).map(|_| random.next_ipv4()).collect();
    show("lookup_v4", Some(count), repeats, || lookups(&reader, &ipv4));
    show("lookup_v4_network", Some(count), repeats, || lookup_networks(&reader, &ipv4));
    if reader.metadata().ip_version == 6 {
        let ipv6: Vec<IpAddr> = (0..count).map(|_| random.next_ipv6()).collect();
        show("lookup_v6", Some(count), repeats, || lookups(&reader, &ipv6));
    }
    // Decoding takes longer than a lookup.
    let fewer = &ipv4[..(count / 5).max(1)];
    let decoded = Some(fewer.len());
    let kind = &reader.metadata().database_type;
    if kind.contains("City") || kind.contains("Country") {
        show("lookup_decode_city", decoded, repeats, || decode_cities(&reader, fewer));
        show("lookup_decode_country", decoded, repeats, || decode_countries(&reader, fewer));
        show("lookup_path_iso_code", decoded, repeats, || paths(&reader, fewer));
    }
    show("lookup_decode_value", decoded, repeats, || decode_values(&reader, fewer));
    let options = WithinOptions::default;
    show("networks_walk", None, repeats, || walk(&reader, options()));
    show("networks_walk_network", None, repeats, || walk_networks(&reader));
    let empty = || options().include_networks_without_data();
    show("networks_walk_empty", None, repeats, || walk(&reader, empty()));
    let filled = || options().skip_empty_values();
    show("networks_walk_skip_empty_values", None, repeats, || walk(&reader, filled()));
    if kind.contains("City") || kind.contains("Country") {
        show("networks_walk_country", None, repeats, || walk_country(&reader, bytes.len()));
    }
    show("verify", None, repeats, || reader.verify().map(|()| 1));
    Ok(())
}

fn main() {
    let words: Vec<String> = std::env::args().collect();
    let [_, file, count, repeats] = &words[..] else {
        eprintln!("usage: rust_bench FILE N REPEATS");
        std::process::exit(2);
    };
    match (count.parse(), repeats.parse()) {
        (Ok(count @ 1..), Ok(repeats @ 1..)) => {
            if let Err(error) = bench(file, count, repeats) {
                eprintln!("{error}");
                std::process::exit(1);
            }
        }
        _ => std::process::exit(2),
    }
}
