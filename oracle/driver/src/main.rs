fn main() {
    oracle::run_command();
}
