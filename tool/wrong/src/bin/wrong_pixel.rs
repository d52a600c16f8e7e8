//! The tool with a wrong library: what is wrong stands in the C file of the same name.

fn main() {
    std::process::exit(vbmodel::cli::run(std::env::args_os().collect(), false));
}
