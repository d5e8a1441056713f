fn main() {
    std::process::exit(entab::driver::run());
}
