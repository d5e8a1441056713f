fn main() {
    if let Err(reason) = entab::fetch::run() {
        eprintln!("fetch: {}", reason);
        std::process::exit(2);
    }
}
