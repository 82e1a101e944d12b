//! How the programs are called, and how they end with a pipe.

unsafe extern "C" {
    fn signal(number: i32, action: usize) -> usize;
}

const SIGPIPE: i32 = 13;
const DEFAULT: usize = 0;

/// The words of the call. From here on a reader that stops, such as `head`, ends the program without a message: Rust starts
/// with the signal ignored, and printing would panic.
pub fn words() -> Vec<String> {
    // SAFETY: the default action is no function of ours, and no other thread runs yet
    unsafe { signal(SIGPIPE, DEFAULT) };
    std::env::args_os().skip(1).map(|word| word.to_string_lossy().into_owned()).collect()
}

/// Of a program that takes no word.
#[allow(dead_code)]
pub fn no_words(program: &str) {
    if let Some(word) = words().first() {
        eprintln!("{program}: it takes no word, and `{word}` is given");
        std::process::exit(2);
    }
}
