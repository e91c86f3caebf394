fn main() {
    std::process::exit(simp::standard());
}
