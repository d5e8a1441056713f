fn main() {
    if let Err(reason) = entab::fill::run() {
        eprintln!("fill: {}", reason);
        std::process::exit(2);
    }
}
