fn main() -> std::io::Result<()> {
    second::program::run()
}
